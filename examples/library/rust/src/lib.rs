//! Whether walks along the edges of a polygon mesh are homotopic.
//!
//! A safe wrapper of the library homotopy_c, whose header `homotopy.h` says more. A slice is never null, its length is true, what it has
//! does not change while it is borrowed, and a `&mut` overlaps nothing, so no call can go wrong that this file lets through.

use std::ffi::CStr;
use std::fmt;

/// A mesh: a vertex count, the size of each face, and the corners of all faces, face after face.
#[derive(Clone, Copy, Debug)]
pub struct Mesh<'a> {
    pub vertices: u32,
    pub sizes: &'a [u32],
    pub corners: &'a [u32],
}

/// The numbers of a surface, and the genus of each of its pieces.
#[derive(Clone, Debug, PartialEq, Eq)]
pub struct Surface {
    pub vertices: u32,
    pub edges: u32,
    pub faces: u32,
    pub euler: i64,
    pub genera: Vec<u32>,
}

/// The numbers of one piece of a surface, and its genus.
#[repr(C)]
#[derive(Clone, Copy, Debug, Default, PartialEq, Eq)]
pub struct Component {
    pub vertices: u32,
    pub edges: u32,
    pub faces: u32,
    pub genus: u32,
}

/// The components of a surface, in the order of their least vertices.
#[derive(Clone, Debug, PartialEq, Eq)]
pub struct Components {
    pub components: Vec<Component>,
    /// For each vertex the place of its component; for one that no face names, how many components there are.
    pub places: Vec<u32>,
}

/// What is answered of a pair of walks.
#[derive(Clone, Copy, Debug, PartialEq, Eq)]
pub enum Answer {
    Homotopic,
    Different,
    /// They are no two walks of the surface with common ends: what is first wrong with them.
    NoPair(NoPair),
}

/// What is answered of a pair of closed walks.
#[derive(Clone, Copy, Debug, PartialEq, Eq)]
pub enum LoopAnswer {
    Freely,
    NotFreely,
    /// They are no two closed walks of the surface: what is first wrong with them.
    NoLoops(NoPair),
}

/// What is first wrong with two walks.
#[derive(Clone, Copy, Debug, PartialEq, Eq)]
pub enum NoPair {
    EmptyWalk,
    LongWalk,
    NoVertex,
    NoEdge,
    StartsDiffer,
    EndsDiffer,
    OpenWalk,
}

/// What two walks are, with the text that shows it.
#[derive(Clone, Debug, PartialEq, Eq)]
pub enum Certificate {
    /// Homotopic, by this list of moves.
    Moves(Vec<u8>),
    /// Different, by this denial.
    Denial(Vec<u8>),
}

/// What two walks are by homology, with the numbers that show it.
#[derive(Clone, Debug, PartialEq, Eq)]
pub enum Homology {
    /// Homologous, by the numbers of a chain: one for each face.
    Chain(Vec<i64>),
    /// Not homologous, by those of a cocycle: one for each side, from each corner to the next.
    Cocycle(Vec<i64>),
}

/// What comes of a certificate, or of numbers.
#[derive(Clone, Debug, PartialEq, Eq)]
pub enum Verdict {
    Accepted,
    /// The first reason against it, in words.
    Rejected(String),
}

/// Why a question has no answer: a code of `homotopy.h`, with its numbers. Shown, it is a sentence.
#[derive(Clone, Copy, Debug, PartialEq, Eq)]
pub struct Refused {
    pub code: u32,
    pub numbers: [u64; 3],
}

impl fmt::Display for Refused {
    fn fmt(&self, out: &mut fmt::Formatter<'_>) -> fmt::Result {
        out.write_str(&told(self.code, &self.numbers))
    }
}

impl std::error::Error for Refused {}

const DONE: u32 = 0;
const HOMOTOPIC: u32 = 1;
const DIFFERENT: u32 = 2;
const ACCEPTED: u32 = 3;
const SHORT_ROOM: u32 = 4;
const HOMOLOGOUS: u32 = 9;
const NOT_HOMOLOGOUS: u32 = 16;
const REJECTED: std::ops::Range<u32> = 50..70;

#[repr(C)]
#[derive(Default)]
struct Outcome {
    code: u32,
    numbers: [u64; 3],
}

/// What a mesh is kept by: null where there is none.
#[repr(C)]
struct Handle {
    kept: *mut std::ffi::c_void,
}

#[repr(C)]
#[derive(Default)]
struct Numbers {
    vertices: u32,
    edges: u32,
    faces: u32,
    euler: i64,
    components: u64,
}

extern "C" {
    fn homotopy_surface(
        vertices: u32, sizes: *const u32, face_count: usize, corners: *const u32, corner_count: usize,
        numbers: *mut Numbers, genera: *mut u32, genera_room: usize, outcome: *mut Outcome,
    );
    fn homotopy_components(
        vertices: u32, sizes: *const u32, face_count: usize, corners: *const u32, corner_count: usize,
        components: *mut Component, component_room: usize, places: *mut u32, place_room: usize, outcome: *mut Outcome,
    );
    fn homotopy_decide(
        vertices: u32, sizes: *const u32, face_count: usize, corners: *const u32, corner_count: usize,
        walk_sizes: *const u32, walk_count: usize, walk_vertices: *const u32, walk_vertex_count: usize,
        answers: *mut u8, answer_room: usize, outcome: *mut Outcome,
    );
    fn homotopy_decide_any(
        vertices: u32, sizes: *const u32, face_count: usize, corners: *const u32, corner_count: usize,
        walk_sizes: *const u32, walk_count: usize, walk_vertices: *const u32, walk_vertex_count: usize,
        answers: *mut u8, answer_room: usize, outcome: *mut Outcome,
    );
    fn homotopy_mesh_new(
        vertices: u32, sizes: *const u32, face_count: usize, corners: *const u32, corner_count: usize,
        mesh: *mut Handle, outcome: *mut Outcome,
    );
    fn homotopy_mesh_new_any(
        vertices: u32, sizes: *const u32, face_count: usize, corners: *const u32, corner_count: usize,
        mesh: *mut Handle, outcome: *mut Outcome,
    );
    fn homotopy_mesh_decide(
        mesh: *mut Handle,
        walk_sizes: *const u32, walk_count: usize, walk_vertices: *const u32, walk_vertex_count: usize,
        answers: *mut u8, answer_room: usize, outcome: *mut Outcome,
    );
    fn homotopy_mesh_loops(
        mesh: *mut Handle,
        walk_sizes: *const u32, walk_count: usize, walk_vertices: *const u32, walk_vertex_count: usize,
        answers: *mut u8, answer_room: usize, outcome: *mut Outcome,
    );
    fn homotopy_mesh_classes(
        mesh: *mut Handle,
        walk_sizes: *const u32, walk_count: usize, walk_vertices: *const u32, walk_vertex_count: usize,
        classes: *mut usize, class_room: usize, outcome: *mut Outcome,
    );
    fn homotopy_mesh_free(mesh: *mut Handle);
    fn homotopy_certify(
        vertices: u32, sizes: *const u32, face_count: usize, corners: *const u32, corner_count: usize,
        first: *const u32, first_count: usize, second: *const u32, second_count: usize,
        text: *mut u8, text_room: usize, outcome: *mut Outcome,
    );
    fn homotopy_homology(
        vertices: u32, sizes: *const u32, face_count: usize, corners: *const u32, corner_count: usize,
        first: *const u32, first_count: usize, second: *const u32, second_count: usize,
        numbers: *mut i64, number_room: usize, outcome: *mut Outcome,
    );
    fn homotopy_homology_any(
        vertices: u32, sizes: *const u32, face_count: usize, corners: *const u32, corner_count: usize,
        first: *const u32, first_count: usize, second: *const u32, second_count: usize,
        numbers: *mut i64, number_room: usize, outcome: *mut Outcome,
    );
    fn homotopy_verify(
        vertices: u32, sizes: *const u32, face_count: usize, corners: *const u32, corner_count: usize,
        first: *const u32, first_count: usize, second: *const u32, second_count: usize,
        certificate: *const u8, certificate_bytes: usize, outcome: *mut Outcome,
    );
    fn homotopy_verify_homology(
        vertices: u32, sizes: *const u32, face_count: usize, corners: *const u32, corner_count: usize,
        first: *const u32, first_count: usize, second: *const u32, second_count: usize,
        answer: u32, numbers: *const i64, number_count: usize, outcome: *mut Outcome,
    );
    fn homotopy_text_of(code: u32) -> *const std::ffi::c_char;
}

/// The sentence of a code, with its numbers.
fn told(code: u32, numbers: &[u64; 3]) -> String {
    // SAFETY: what is returned is a text that ends, and is never written or given back.
    let mut text = unsafe { CStr::from_ptr(homotopy_text_of(code)) }.to_string_lossy().into_owned();
    for (place, number) in numbers.iter().enumerate() {
        text = text.replace(&format!("{{{place}}}"), &number.to_string());
    }
    text
}

impl Outcome {
    fn refused(&self) -> Refused {
        Refused { code: self.code, numbers: self.numbers }
    }

    fn verdict(&self) -> Result<Verdict, Refused> {
        match self.code {
            ACCEPTED => Ok(Verdict::Accepted),
            code if REJECTED.contains(&code) => Ok(Verdict::Rejected(told(code, &self.numbers))),
            _ => Err(self.refused()),
        }
    }

    /// The numbers that were written, where they show whether walks are homologous.
    fn shown(&self, mut numbers: Vec<i64>) -> Result<Homology, Refused> {
        numbers.truncate(self.numbers[0] as usize);
        match self.code {
            HOMOLOGOUS => Ok(Homology::Chain(numbers)),
            NOT_HOMOLOGOUS => Ok(Homology::Cocycle(numbers)),
            _ => Err(self.refused()),
        }
    }
}

impl Mesh<'_> {
    /// The numbers of an orientable closed surface.
    pub fn surface(&self) -> Result<Surface, Refused> {
        let (mut numbers, mut outcome, mut genera) = (Numbers::default(), Outcome::default(), vec![0; 1]);
        loop {
            // SAFETY: the pointers and lengths are those of slices, and what is written is borrowed here alone.
            unsafe {
                homotopy_surface(
                    self.vertices, self.sizes.as_ptr(), self.sizes.len(), self.corners.as_ptr(), self.corners.len(),
                    &mut numbers, genera.as_mut_ptr(), genera.len(), &mut outcome,
                );
            }
            match outcome.code {
                DONE => break,
                SHORT_ROOM => genera.resize(outcome.numbers[0] as usize, 0),
                _ => return Err(outcome.refused()),
            }
        }
        genera.truncate(numbers.components as usize);
        let Numbers { vertices, edges, faces, euler, .. } = numbers;
        Ok(Surface { vertices, edges, faces, euler, genera })
    }

    /// The components of an orientable closed surface, and of which of them each vertex is.
    pub fn components(&self) -> Result<Components, Refused> {
        // Room for one component, and for all vertices where there are no more than corners.
        let (mut components, mut places) = (vec![Component::default()], vec![0; self.corners.len().min(self.vertices as usize)]);
        let mut outcome = Outcome::default();
        loop {
            // SAFETY: as above.
            unsafe {
                homotopy_components(
                    self.vertices, self.sizes.as_ptr(), self.sizes.len(), self.corners.as_ptr(), self.corners.len(),
                    components.as_mut_ptr(), components.len(), places.as_mut_ptr(), places.len(), &mut outcome,
                );
            }
            let count = outcome.numbers[0] as usize;
            match outcome.code {
                DONE => {
                    components.truncate(count);
                    places.truncate(self.vertices as usize);
                    return Ok(Components { components, places });
                }
                SHORT_ROOM => {
                    components.resize(count, Component::default());
                    places.resize(outcome.numbers[1] as usize, 0);
                }
                _ => return Err(outcome.refused()),
            }
        }
    }

    /// The answer on each pair of walks, on an orientable closed surface.
    pub fn decide(&self, pairs: &[(&[u32], &[u32])]) -> Result<Vec<Answer>, Refused> {
        let mut asked = Asked::of(pairs);
        // SAFETY: as above.
        unsafe {
            homotopy_decide(
                self.vertices, self.sizes.as_ptr(), self.sizes.len(), self.corners.as_ptr(), self.corners.len(),
                asked.sizes.as_ptr(), asked.sizes.len(), asked.vertices.as_ptr(), asked.vertices.len(),
                asked.answers.as_mut_ptr(), asked.answers.len(), &mut asked.outcome,
            );
        }
        asked.told(answer_of)
    }

    /// The answer on each pair of walks, on a surface of any kind, closed or with boundary, orientable or not.
    pub fn decide_any(&self, pairs: &[(&[u32], &[u32])]) -> Result<Vec<Answer>, Refused> {
        let mut asked = Asked::of(pairs);
        // SAFETY: as above.
        unsafe {
            homotopy_decide_any(
                self.vertices, self.sizes.as_ptr(), self.sizes.len(), self.corners.as_ptr(), self.corners.len(),
                asked.sizes.as_ptr(), asked.sizes.len(), asked.vertices.as_ptr(), asked.vertices.len(),
                asked.answers.as_mut_ptr(), asked.answers.len(), &mut asked.outcome,
            );
        }
        asked.told(answer_of)
    }

    /// Keeps an orientable closed surface, so that questions can be asked as they come.
    pub fn keep(&self) -> Result<KeptMesh, Refused> {
        let (mut kept, mut outcome) = (KeptMesh(Handle { kept: std::ptr::null_mut() }), Outcome::default());
        // SAFETY: as above; the handle is empty.
        unsafe {
            homotopy_mesh_new(
                self.vertices, self.sizes.as_ptr(), self.sizes.len(), self.corners.as_ptr(), self.corners.len(),
                &mut kept.0, &mut outcome,
            );
        }
        match outcome.code {
            DONE => Ok(kept),
            _ => Err(outcome.refused()),
        }
    }

    /// Keeps a surface of any kind, closed or with boundary, orientable or not.
    pub fn keep_any(&self) -> Result<KeptMesh, Refused> {
        let (mut kept, mut outcome) = (KeptMesh(Handle { kept: std::ptr::null_mut() }), Outcome::default());
        // SAFETY: as above.
        unsafe {
            homotopy_mesh_new_any(
                self.vertices, self.sizes.as_ptr(), self.sizes.len(), self.corners.as_ptr(), self.corners.len(),
                &mut kept.0, &mut outcome,
            );
        }
        match outcome.code {
            DONE => Ok(kept),
            _ => Err(outcome.refused()),
        }
    }

    /// What two walks on an orientable closed surface are, with the text that shows it.
    pub fn certify(&self, first: &[u32], second: &[u32]) -> Result<Certificate, Refused> {
        let (mut outcome, mut text) = (Outcome::default(), vec![0u8; 65536]);
        loop {
            // SAFETY: as above.
            unsafe {
                homotopy_certify(
                    self.vertices, self.sizes.as_ptr(), self.sizes.len(), self.corners.as_ptr(), self.corners.len(),
                    first.as_ptr(), first.len(), second.as_ptr(), second.len(), text.as_mut_ptr(), text.len(), &mut outcome,
                );
            }
            let bytes = outcome.numbers[0] as usize;
            match outcome.code {
                SHORT_ROOM => text.resize(bytes, 0),
                HOMOTOPIC => return Ok(Certificate::Moves(text[..bytes].to_vec())),
                DIFFERENT => return Ok(Certificate::Denial(text[..bytes].to_vec())),
                _ => return Err(outcome.refused()),
            }
        }
    }

    /// Whether two walks on an orientable closed surface are homologous, with the numbers that show it.
    pub fn homology(&self, first: &[u32], second: &[u32]) -> Result<Homology, Refused> {
        let (mut outcome, mut numbers) = (Outcome::default(), vec![0i64; self.corners.len()]);
        // SAFETY: as above.
        unsafe {
            homotopy_homology(
                self.vertices, self.sizes.as_ptr(), self.sizes.len(), self.corners.as_ptr(), self.corners.len(),
                first.as_ptr(), first.len(), second.as_ptr(), second.len(), numbers.as_mut_ptr(), numbers.len(), &mut outcome,
            );
        }
        outcome.shown(numbers)
    }

    /// The same on an orientable surface that may have boundary.
    pub fn homology_any(&self, first: &[u32], second: &[u32]) -> Result<Homology, Refused> {
        let (mut outcome, mut numbers) = (Outcome::default(), vec![0i64; self.corners.len()]);
        // SAFETY: as above.
        unsafe {
            homotopy_homology_any(
                self.vertices, self.sizes.as_ptr(), self.sizes.len(), self.corners.as_ptr(), self.corners.len(),
                first.as_ptr(), first.len(), second.as_ptr(), second.len(), numbers.as_mut_ptr(), numbers.len(), &mut outcome,
            );
        }
        outcome.shown(numbers)
    }

    /// What comes of a certificate between two walks of the mesh, which need be no surface.
    pub fn verify(&self, first: &[u32], second: &[u32], certificate: &[u8]) -> Result<Verdict, Refused> {
        let mut outcome = Outcome::default();
        // SAFETY: as above.
        unsafe {
            homotopy_verify(
                self.vertices, self.sizes.as_ptr(), self.sizes.len(), self.corners.as_ptr(), self.corners.len(),
                first.as_ptr(), first.len(), second.as_ptr(), second.len(), certificate.as_ptr(), certificate.len(), &mut outcome,
            );
        }
        outcome.verdict()
    }

    /// What comes of numbers that are to show whether two walks of the mesh, which need be no surface, are homologous.
    pub fn verify_homology(&self, first: &[u32], second: &[u32], shown: &Homology) -> Result<Verdict, Refused> {
        let (answer, numbers) = match shown {
            Homology::Chain(numbers) => (HOMOLOGOUS, numbers),
            Homology::Cocycle(numbers) => (NOT_HOMOLOGOUS, numbers),
        };
        let mut outcome = Outcome::default();
        // SAFETY: as above.
        unsafe {
            homotopy_verify_homology(
                self.vertices, self.sizes.as_ptr(), self.sizes.len(), self.corners.as_ptr(), self.corners.len(),
                first.as_ptr(), first.len(), second.as_ptr(), second.len(), answer, numbers.as_ptr(), numbers.len(), &mut outcome,
            );
        }
        outcome.verdict()
    }
}

/// A surface that is kept. Another thread may have it; it is asked by one at a time.
pub struct KeptMesh(Handle);

// SAFETY: the library has a proof that what it keeps may be asked by another thread, and given back there.
unsafe impl Send for KeptMesh {}

impl KeptMesh {
    /// The answer on each pair of walks, as `Mesh::decide_any` gives it.
    pub fn decide(&mut self, pairs: &[(&[u32], &[u32])]) -> Result<Vec<Answer>, Refused> {
        let mut asked = Asked::of(pairs);
        // SAFETY: as above; the handle was changed by the library alone, and is this value's.
        unsafe {
            homotopy_mesh_decide(
                &mut self.0, asked.sizes.as_ptr(), asked.sizes.len(), asked.vertices.as_ptr(), asked.vertices.len(),
                asked.answers.as_mut_ptr(), asked.answers.len(), &mut asked.outcome,
            );
        }
        asked.told(answer_of)
    }

    /// Whether the closed walks of each pair are freely homotopic. Refused where the surface is not orientable.
    pub fn loops(&mut self, pairs: &[(&[u32], &[u32])]) -> Result<Vec<LoopAnswer>, Refused> {
        let mut asked = Asked::of(pairs);
        // SAFETY: as above.
        unsafe {
            homotopy_mesh_loops(
                &mut self.0, asked.sizes.as_ptr(), asked.sizes.len(), asked.vertices.as_ptr(), asked.vertices.len(),
                asked.answers.as_mut_ptr(), asked.answers.len(), &mut asked.outcome,
            );
        }
        asked.told(loop_answer_of)
    }

    /// For each walk the place of the first one with the same ends that is homotopic to it.
    pub fn classes(&mut self, walks: &[&[u32]]) -> Result<Vec<usize>, Refused> {
        let (sizes, vertices) = listed(walks.iter().copied());
        let (mut classes, mut outcome) = (vec![0; walks.len()], Outcome::default());
        // SAFETY: as above.
        unsafe {
            homotopy_mesh_classes(
                &mut self.0, sizes.as_ptr(), sizes.len(), vertices.as_ptr(), vertices.len(),
                classes.as_mut_ptr(), classes.len(), &mut outcome,
            );
        }
        match outcome.code {
            DONE => Ok(classes),
            _ => Err(outcome.refused()),
        }
    }
}

impl Drop for KeptMesh {
    fn drop(&mut self) {
        // SAFETY: the handle is this value's, and is used for the last time.
        unsafe { homotopy_mesh_free(&mut self.0) }
    }
}

/// The sizes of walks, and their vertices, walk after walk.
fn listed<'a>(walks: impl Iterator<Item = &'a [u32]>) -> (Vec<u32>, Vec<u32>) {
    let (mut sizes, mut vertices) = (Vec::new(), Vec::new());
    for walk in walks {
        sizes.push(u32::try_from(walk.len()).unwrap_or(u32::MAX));
        vertices.extend_from_slice(walk);
    }
    (sizes, vertices)
}

/// Pairs of walks in two arrays, with room for their answers and for the outcome.
struct Asked {
    sizes: Vec<u32>,
    vertices: Vec<u32>,
    answers: Vec<u8>,
    outcome: Outcome,
}

impl Asked {
    fn of(pairs: &[(&[u32], &[u32])]) -> Asked {
        let (sizes, vertices) = listed(pairs.iter().flat_map(|pair| [pair.0, pair.1]));
        Asked { sizes, vertices, answers: vec![0; pairs.len()], outcome: Outcome::default() }
    }

    /// What is answered of each pair, where the question is.
    fn told<T>(self, answer_of: impl Fn(u8) -> T) -> Result<Vec<T>, Refused> {
        match self.outcome.code {
            DONE => Ok(self.answers.into_iter().map(answer_of).collect()),
            _ => Err(self.outcome.refused()),
        }
    }
}

/// The answer that a byte is.
fn answer_of(code: u8) -> Answer {
    match code {
        1 => Answer::Homotopic,
        2 => Answer::Different,
        _ => Answer::NoPair(fault_of(code)),
    }
}

/// The same of two closed walks.
fn loop_answer_of(code: u8) -> LoopAnswer {
    match code {
        7 => LoopAnswer::Freely,
        8 => LoopAnswer::NotFreely,
        _ => LoopAnswer::NoLoops(fault_of(code)),
    }
}

/// What is wrong, where a byte is no answer. There are the codes 31 to 37 alone.
fn fault_of(code: u8) -> NoPair {
    match code {
        31 => NoPair::EmptyWalk,
        32 => NoPair::LongWalk,
        33 => NoPair::NoVertex,
        34 => NoPair::NoEdge,
        35 => NoPair::StartsDiffer,
        36 => NoPair::EndsDiffer,
        _ => NoPair::OpenWalk,
    }
}
