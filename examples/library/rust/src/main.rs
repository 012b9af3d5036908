//! Walks on a tetrahedron, and on what is no surface.
use homotopy::{Certificate, Homology, Mesh};

fn main() -> Result<(), homotopy::Refused> {
    let corners = [0, 1, 2, 0, 3, 1, 0, 2, 3, 1, 3, 2];
    let tetrahedron = Mesh { vertices: 4, sizes: &[3; 4], corners: &corners };
    println!("{:?}", tetrahedron.surface()?);
    println!("{:?}", tetrahedron.decide(&[(&[0, 1, 2], &[0, 2]), (&[0, 1], &[0]), (&[], &[0])])?);
    let mut kept = tetrahedron.keep()?;
    for third in 2..4 {
        println!("{:?}", kept.decide(&[(&[0, 1, third], &[0, third])])?);
    }
    println!("{:?}", kept.loops(&[(&[0, 1, 2, 0], &[3]), (&[0, 1], &[0])])?);
    println!("{:?}", kept.classes(&[&[0, 1], &[1, 0], &[0, 2, 1], &[0], &[0, 3, 1]])?);
    println!("{}", kept.classes(&[&[0, 1], &[0, 0]]).unwrap_err());
    match tetrahedron.certify(&[0, 1, 2], &[0, 2])? {
        Certificate::Moves(text) => println!("{:?}", tetrahedron.verify(&[0, 1, 2], &[0, 2], &text)?),
        Certificate::Denial(_) => println!("different"),
    }
    println!("{:?}", tetrahedron.verify(&[0, 1, 2], &[0, 2], b"MOVES 0 2\n")?);
    println!("{}", tetrahedron.verify(&[0, 1, 2], &[0, 2], b"MOVES 1 2\n").unwrap_err());
    println!("{}", tetrahedron.certify(&[0, 1, 1], &[0, 1]).unwrap_err());
    match tetrahedron.homology(&[0, 1, 2], &[0, 2])? {
        Homology::Chain(numbers) => println!("a chain of {} numbers", numbers.len()),
        Homology::Cocycle(_) => println!("not homologous"),
    }
    let open = Mesh { vertices: 4, sizes: &[3; 3], corners: &corners[..9] };
    println!("{}", open.surface().unwrap_err());
    println!("{}", open.keep().err().unwrap());
    // A Moebius band of five triangles, once and twice round, and its boundary.
    let band = Mesh { vertices: 5, sizes: &[3; 5], corners: &[0, 1, 2, 1, 2, 3, 2, 3, 4, 3, 4, 0, 4, 0, 1] };
    let (core, twice) = ([0, 1, 2, 3, 4, 0], [0, 1, 2, 3, 4, 0, 1, 2, 3, 4, 0]);
    let boundary = [0, 2, 4, 1, 3, 0];
    println!("{:?}", band.decide_any(&[(&boundary, &twice), (&boundary, &core), (&core, &[0]), (&[0], &[5])])?);
    // A step by 1 counts 1, and a step by 2 counts 2: so to go round once is not homologous to staying.
    println!("{:?}", band.verify_homology(&core, &[0], &Homology::Cocycle([1, 1, -2].repeat(5)))?);
    println!("{:?}", tetrahedron.verify_homology(&[0, 1, 2], &[0, 2], &Homology::Chain(vec![1, 0, 0, 1]))?);
    let none = Mesh { vertices: 0, sizes: &[], corners: &[] };
    println!("{}", none.surface().unwrap_err());
    Ok(())
}
