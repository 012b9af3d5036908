"""Tries the Python module on what it is to take and on what it is to refuse by name, with arrays of numpy where numpy is installed.

What is wanted was worked out by hand. LIBHOMOTOPY may name a shared library; else it is that of the repository.
"""
import array
import os
import subprocess
import sys
import threading

HERE = os.path.dirname(os.path.realpath(__file__))
TOP = os.path.dirname(os.path.dirname(HERE))
PYTHON = os.path.join(TOP, "python")
sys.path.insert(0, PYTHON)
os.environ.setdefault("LIBHOMOTOPY", os.path.join(TOP, "crates/homotopy_c/out/libhomotopy.so"))

import homotopy  # noqa: E402
from homotopy import Answer, Faces, Mesh, Surface, certify, decide, homology, surface, verify, verify_homology  # noqa: E402

numpy = homotopy.numpy
TETRA = [[0, 1, 2], [0, 3, 1], [0, 2, 3], [1, 3, 2]]
ANNULUS = [[0, 1, 3], [1, 4, 3], [1, 2, 4], [2, 5, 4], [2, 0, 5], [0, 3, 5]]
TORUS = [[i, (i + 1) % 7, (i + 3) % 7] for i in range(7)] + [[i, (i + 3) % 7, (i + 2) % 7] for i in range(7)]
SPHERE = Surface(4, 6, 4, 2, [0])
LIST = b"MOVES 1 2\nf 0 0 0 + 2\n"
failures = []


def expect(told, wanted, what):
    if told != wanted or type(told) is not type(wanted):
        failures.append("%s gives %r, and not %r" % (what, told, wanted))


def refuse(kind, words, function, *arguments):
    """The call ends with this kind of error, and its message has these words."""
    try:
        told = function(*arguments)
    except Exception as error:
        if type(error) is not kind or words not in str(error):
            failures.append("%s%r raises %r, and %s with %r is wanted" % (function.__name__, arguments, error, kind.__name__, words))
    else:
        failures.append("%s%r gives %r, and %s is wanted" % (function.__name__, arguments, told, kind.__name__))


def homology_any(*asked):
    return homology(*asked, any_kind=True)


def take():
    for faces in (TETRA, tuple(map(tuple, TETRA)), iter(TETRA), Faces([3] * 4, sum(TETRA, [])), [array.array("I", face) for face in TETRA]):
        expect(surface(4, faces), SPHERE, "a tetrahedron")
    expect(homotopy.components(5, TETRA), ([homotopy.Component(4, 6, 4, 0)], [0, 0, 0, 0, 1]), "components of a tetrahedron")
    apart = [[2 * corner + 1 for corner in face] for face in TETRA] + [[2 * corner for corner in face] for face in TORUS]
    two = [homotopy.Component(7, 21, 14, 1), homotopy.Component(4, 6, 4, 0)]
    expect(homotopy.components(13, apart), (two, [0, 1] * 4 + [0, 2, 0, 2, 0]), "components of a torus and a tetrahedron")
    many = [[4 * piece + corner for corner in face] for piece in range(40) for face in TETRA]
    expect(homotopy.components(160, many), ([homotopy.Component(4, 6, 4, 0)] * 40, [v // 4 for v in range(160)]), "forty components")
    expect(homotopy.components(1000, TETRA)[1][3:], [0] + [1] * 996, "more vertices than corners")
    refuse(homotopy.Refused, "the edge 1 2 should be in two sides of faces, and is in 1", homotopy.components, 4, TETRA[:3])
    pairs = [([0, 1, 2], [0, 2]), ((0, 1), [0]), ([], [0]), ([0, 4], [0]), ([0, 0], [0]), ([0], [1])]
    wanted = [Answer.HOMOTOPIC, Answer.ENDS_DIFFER, Answer.EMPTY_WALK, Answer.NO_VERTEX, Answer.NO_EDGE, Answer.STARTS_DIFFER]
    expect(decide(5, TETRA, pairs), wanted, "pairs")
    expect(decide(4, TETRA, []), [], "no pairs")
    expect(homotopy.decide_any(5, TETRA, pairs), wanted, "pairs on a surface of any kind")
    expect(homotopy.decide_any(4, TETRA[:3], [([1, 2, 3, 1], [1]), ([0, 4], [0])]), [Answer.HOMOTOPIC, Answer.NO_VERTEX], "on a disc")
    refuse(homotopy.Refused, "the edge 0 1 should be in two sides of faces, and is in 3", homotopy.decide_any, 4, [TETRA[0]] * 3, [])
    expect(certify(4, TETRA, [0, 1, 2], [0, 2])[0], Answer.HOMOTOPIC, "certify")
    answer, numbers = homology(4, TETRA, [0, 1, 2], [0, 2])
    expect((answer, len(numbers), [number - numbers[3] for number in numbers]), (Answer.HOMOLOGOUS, 4, [1, 0, 0, 0]), "a chain")
    answer, numbers = homology(7, TORUS, [0, 1, 2, 0], [0])
    sides = {(face[at], face[(at + 1) % 3]): numbers[3 * number + at] for number, face in enumerate(TORUS) for at in range(3)}
    expect((answer, len(numbers)), (Answer.NOT_HOMOLOGOUS, 42), "a cocycle")
    expect([sum(numbers[3 * face:3 * face + 3]) for face in range(14)], [0] * 14, "the sums round the faces")
    expect([u for u, v in sides if sides[u, v] != -sides[v, u]], [], "the two sides of an edge")
    expect(sides[0, 1] + sides[1, 2] + sides[2, 0] != 0, True, "the sum along the walk")
    # A disc has one chain for two walks, by hand: across its face 0 2 3, listed so, the walk 2 0 3 bounds with 2 3 the face turned.
    expect(homology_any(4, TETRA[:3], [2, 0, 3], [2, 3]), (Answer.HOMOLOGOUS, [0, 0, -1]), "a chain of a disc")
    answer, numbers = homology_any(6, ANNULUS, [0, 1, 2, 0], [0])
    expect((answer, len(numbers)), (Answer.NOT_HOMOLOGOUS, 18), "a cocycle of an annulus")
    expect(homology_any(6, ANNULUS, [0, 1, 2, 0, 3], [0, 3, 4, 5, 3]), (Answer.HOMOLOGOUS, [1] * 6), "the chain of an annulus")
    # The sum of all faces of a torus is 0, so without face 0 it is minus the walk round that one.
    expect(homology_any(7, TORUS[1:], [0, 1, 3, 0], [0]), (Answer.HOMOLOGOUS, [-1] * 13), "round the hole of a torus")
    expect(homology_any(7, TORUS[1:], [0, 1, 2, 0], [0])[0], Answer.NOT_HOMOLOGOUS, "round a torus with a hole")
    band = [[i, (i + 1) % 5, (i + 2) % 5] for i in range(5)]
    refuse(homotopy.Refused, "the mesh is not orientable", homology_any, 5, band, [0], [0])
    crowded = "the edge 0 1 should be in two sides of faces, and is in 3"
    refuse(homotopy.Refused, crowded, homology_any, 4, [TETRA[0]] * 3, [0], [0])
    refuse(homotopy.Refused, "the walks end at different vertices", homology, 4, TETRA, [0, 1], [0])
    refuse(homotopy.Refused, "walk 2 has no vertex", homology, 4, TETRA, [0, 1], [])
    refuse(homotopy.Refused, "the edge 1 2 should be in two sides of faces, and is in 1", homology, 4, TETRA[:3], [0], [0])
    judge()
    for text in (LIST, bytearray(LIST), memoryview(LIST)):
        expect(bool(verify(4, TETRA, [0, 1, 2], [0, 2], text)), True, "a list that leads")
    verdict = verify(4, TETRA, [0, 1, 2], [0, 2], LIST.replace(b"+", b"-"))
    expect((bool(verdict), verdict.reason), (False, "at move 1 the walk does not go round the face so"), "a list that does not")
    refuse(homotopy.Refused, "the edge 1 2 should be in two sides of faces, and is in 1", surface, 4, TETRA[:3])
    refuse(homotopy.Refused, "the mesh has no face", surface, 4, [])
    refuse(homotopy.Refused, "the certificate has no line with words", verify, 4, TETRA, [0, 1], [0, 1], b"")
    refuse(homotopy.Refused, "the sizes of the faces together", surface, 4, Faces([3, 3], [0, 1, 2]))


def judge():
    """Numbers for homologous walks and for others: on a tetrahedron, on three of its faces, and on the torus, where a step by 1 has 1."""
    yes, no, over, under = Answer.HOMOLOGOUS, Answer.NOT_HOMOLOGOUS, [0, 1, 2], [0, 2]
    for numbers in ([1, 0, 0, 0], (3, 2, 2, 2), array.array("b", [0, -1, -1, -1]), iter([1, 0, 0, 0])):
        expect(verify_homology(4, TETRA, over, under, yes, numbers), homotopy.Verdict(True, None), "a chain")
    expect(bool(verify_homology(4, TETRA[:3], over, under, 9, [1, 0, 0])), True, "a chain on a mesh with boundary")
    expect(bool(verify_homology(4, TETRA, over, under, *homology(4, TETRA, over, under))), True, "a chain that was written")
    expect(bool(verify_homology(7, TORUS, [0, 1, 2, 0], [0], *homology(7, TORUS, [0, 1, 2, 0], [0]))), True, "a cocycle that was written")
    steps = [1, 0, -1] * 7 + [1, -1, 0] * 7
    expect(bool(verify_homology(7, TORUS, [0, 1, 2, 0], [0], no, steps)), True, "a cocycle")
    for words, first, second, numbers in (
            ("the cocycle adds up to the same along both walks", [0, 1, 3], [0, 2, 3], steps),
            ("two sides of one edge have numbers that do not agree", [0, 1, 2, 0], [0], [2] + steps[1:]),
            ("the number at place 41 is larger in size than 2,147,483,647", [0, 1, 2, 0], [0], steps[:41] + [-2**63]),
            ("there is not a number for each face, or of a cocycle for each side", [0, 1, 2, 0], [0], steps[1:])):
        expect(verify_homology(7, TORUS, first, second, no, numbers), homotopy.Verdict(False, words), "a cocycle that is none")
    verdict = verify_homology(4, TETRA, over, under, yes, [1, 0, 0, 1])
    expect(verdict.reason, "at the edge 1 2 the chain does not add up to the difference of the walks", "a chain that is none")
    verdict = verify_homology(7, TORUS, [0, 1, 2, 0], [0], no, [1, 1, -1] * 7 + [1, -1, -1] * 7)
    expect(verdict.reason, "round face 0 the cocycle does not add up to 0", "a cocycle that is none")
    refuse(homotopy.Refused, "the answer that numbers are to show is 1, and neither", verify_homology, 4, TETRA, [0], [0], 1, [])
    refuse(ValueError, "99 is not a valid Answer", verify_homology, 4, TETRA, [0], [0], 99, [])
    refuse(homotopy.Refused, "walk 2 has no vertex", verify_homology, 4, TETRA, [0, 1], [], yes, [0] * 4)
    refuse(TypeError, "the array of numbers: place 1 has 0.5, which is no whole number", verify_homology, 4, TETRA, [0], [0], yes, [0, 0.5])
    refuse(OverflowError, "place 0 has 9223372036854775808, which is more than 9,223,372,036,854,775,807", verify_homology, 4, TETRA, [0],
           [0], yes, [2**63])


def keep():
    pairs = [([0, 1, 2], [0, 2]), ((0, 1), [0]), ([], [0]), ([0, 4], [0]), ([0, 0], [0]), ([0], [1])]
    with Mesh(5, TETRA) as kept:
        for some in (pairs, pairs[::-1], pairs[2:], []):
            expect(kept.decide(some), decide(5, TETRA, some), "a mesh that is kept")
        refuse(TypeError, "walk 1 of pair 0: place 0 has 0.9", kept.decide, [([0.9], [0])])
        expect(kept.classes([[0, 1], (1, 0), [0, 2, 1], [0], array.array("I", [0, 3, 1]), [1, 0]]), [0, 1, 0, 3, 0, 1], "classes")
        expect(kept.classes([]), [], "classes of no walks")
        expect(kept.classes(iter([[0]])), [0], "the class of one walk")
        refuse(homotopy.Refused, "walk 2 has no vertex", kept.classes, [[0, 1], [], [0, 9]])
        refuse(homotopy.Refused, "walk 3 has at place 1 no vertex of a face", kept.classes, [[0, 1], [0], [0, 4], []])
        refuse(homotopy.Refused, "walk 1 has no edge from place 0 to the next", kept.classes, [[0, 0], [9]])
        refuse(TypeError, "walk 2: place 1 has 0.9", kept.classes, [[0], [0, 0.9]])
        refuse(TypeError, "walk 1 is of the type int", kept.classes, [0, 1])
        refuse(TypeError, "walk 1 is of the type str", kept.classes, "01")
        loops = [([0, 1, 2, 0], [3]), ([0, 1], [0]), ([], [0]), ([0, 4], [0]), ([0, 0], [0])]
        wanted = [Answer.FREELY_HOMOTOPIC, Answer.OPEN_WALK, Answer.EMPTY_WALK, Answer.NO_VERTEX, Answer.NO_EDGE]
        expect(kept.loops(loops), wanted, "closed walks")
        expect(kept.loops([]), [], "no closed walks")
        expect(kept.decide(pairs), decide(5, TETRA, pairs), "a mesh that is kept, behind an error")
    refuse(homotopy.Refused, "the handle holds no mesh", kept.decide, pairs)
    refuse(homotopy.Refused, "the handle holds no mesh", kept.classes, [[0]])
    refuse(homotopy.Refused, "the handle holds no mesh", kept.loops, loops)
    kept.close()
    refuse(homotopy.Refused, "the edge 1 2 should be in two sides of faces, and is in 1", Mesh, 4, TETRA[:3])
    refuse(TypeError, "face 0 is of the type int", Mesh, 4, [0, 1, 2])
    band = [(0, 1, 2), (1, 2, 3), (2, 3, 4), (3, 4, 0), (4, 0, 1)]
    with Mesh(5, band, any_kind=True) as kept:
        walks = [[0, 1, 2, 3, 4, 0], [0, 2, 4, 1, 3, 0], [0, 1, 2, 3, 4, 0, 1, 2, 3, 4, 0]]
        expect(kept.classes(walks), [0, 1, 1], "classes on a twisted band")
        refuse(homotopy.Refused, "the mesh is not orientable", kept.loops, [([0], [0])])
    refuse(homotopy.Refused, "the edge 0 2 should be in two sides of faces, and is in 1", Mesh, 5, band)
    several = [Mesh(4, TETRA) for _ in range(100)]
    expect([mesh.decide(pairs[:1]) for mesh in several], [[Answer.HOMOTOPIC]] * 100, "a hundred of them")


def keep_for_threads():
    """Threads that ask one mesh are told each its own."""
    told = []
    pairs = [([0, 1, 2], [0, 2]), ((0, 1), [0]), ([], [0]), ([0], [1])] * 50
    kept = Mesh(4, TETRA)

    def ask(number):
        for start in range(50):
            told.append((number, start, kept.decide(pairs[start + number:])))

    threads = [threading.Thread(target=ask, args=(number,)) for number in range(4)]
    for thread in threads:
        thread.start()
    for thread in threads:
        thread.join()
    wanted = [(number, start, decide(4, TETRA, pairs[start + number:])) for number in range(4) for start in range(50)]
    expect(sorted(told), wanted, "what threads are told")


def refuse_sequences():
    refuse(TypeError, "walk 1 of pair 0: place 0 has 0.9, which is no whole number", decide, 4, TETRA, [([0.9, 1.9, 2.9], [0, 2])])
    refuse(TypeError, "walk 2 of pair 1: place 1 has 2.0", decide, 4, TETRA, [([0], [0]), ([0, 2], [0, 2.0])])
    refuse(TypeError, "the first walk: place 1 has True", certify, 4, TETRA, [0, True], [0, 1])
    refuse(TypeError, "place 1 has (1+0j)", certify, 4, TETRA, [0, 1 + 0j], [0, 1])
    refuse(TypeError, "the second walk: place 0 has '0'", verify, 4, TETRA, [0, 1], ["0", 1], LIST)
    refuse(TypeError, "the first walk is of the type str", certify, 4, TETRA, "01", [0, 1])
    refuse(TypeError, "the first walk is of the type int", certify, 4, TETRA, 1, [0, 1])
    refuse(OverflowError, "face 2: place 1 has -2, which is below 0", surface, 4, [TETRA[0], TETRA[1], [0, -2, 3], TETRA[3]])
    refuse(OverflowError, "face 0: place 2 has 4294967296, which is more than 4,294,967,295", surface, 4, [[0, 1, 2**32]])
    refuse(TypeError, "face 1: place 2 has None", surface, 4, [TETRA[0], [0, 1, None]])
    refuse(TypeError, "face 0 is of the type int", surface, 4, [0, 1, 2])
    refuse(TypeError, "the faces are of the type str", surface, 4, "faces")
    refuse(ValueError, "pair 0 has 3 walks, and not 2", decide, 4, TETRA, [([0], [0], [0]), ([0], [0], [0])])
    refuse(ValueError, "pair 1 has 1 walks", decide, 4, TETRA, [([0], [0]), ([0],)])
    refuse(TypeError, "pair 0 is of the type str", decide, 4, TETRA, ["01"])
    refuse(TypeError, "walk 1 of pair 0 is of the type int", decide, 4, TETRA, ([0, 1], [0, 2]))
    refuse(TypeError, "the vertex count is 4.0", surface, 4.0, TETRA)
    refuse(OverflowError, "the vertex count is -4, which is below 0", surface, -4, TETRA)
    refuse(TypeError, "the certificate is of the type str", verify, 4, TETRA, [0, 1], [0, 1], "MOVES 0 1\n")


def take_arrays():
    for kind in ("uint32", "int64", "int8", "uint64", ">u4", "<i2"):
        faces = numpy.array(TETRA, dtype=kind)
        expect(surface(4, faces), SPHERE, "faces of " + kind)
        expect(surface(4, numpy.asfortranarray(faces)), SPHERE, "columns of " + kind)
        expect(surface(4, list(faces)), SPHERE, "a list of arrays of " + kind)
        expect(decide(4, faces, [(faces[0], faces[0, ::2])]), [Answer.HOMOTOPIC], "walks of " + kind)
        expect(Mesh(4, faces).classes(faces), [0, 1, 2, 3], "rows of " + kind)
        expect(bool(verify(4, faces[:, ::-1], faces[0], faces[0, ::2], b"MOVES 1 2\nf 0 0 2 - 2\n")), True, "turned faces of " + kind)
    block = bytearray(49)
    unaligned = numpy.frombuffer(block, dtype=numpy.uint32, offset=1).reshape(4, 3)
    unaligned[:] = TETRA
    expect(unaligned.flags.aligned, False, "an array at an odd address is aligned")
    expect(surface(numpy.int64(4), unaligned), SPHERE, "an array that is not aligned")
    lent = numpy.array(TETRA, dtype=numpy.uint32)
    expect(homotopy._Lent.of(lent, "lent", 2).words[0], lent.ctypes.data, "an array of 32 bits: its address")
    expect(surface(4, Faces(numpy.full(4, 3), lent.reshape(-1))), SPHERE, "sizes and corners")
    refuse(homotopy.Refused, "the mesh has no face", surface, 4, numpy.zeros((0, 3), dtype=int))


def refuse_arrays():
    faces = numpy.array(TETRA)
    refuse(TypeError, "the array of faces is an array of float64, and not of whole numbers", surface, 4, faces.astype(float))
    refuse(TypeError, "the array of faces is an array of complex128", surface, 4, faces.astype(complex))
    refuse(TypeError, "the array of faces is an array of bool", surface, 4, faces.astype(bool))
    refuse(TypeError, "the array of faces is an array of object", surface, 4, faces.astype(object))
    refuse(TypeError, "the array of faces is a masked array", surface, 4, numpy.ma.masked_equal(faces, 3))
    refuse(ValueError, "the array of faces is an array of 1 dimensions, and not of 2", surface, 4, faces.reshape(-1))
    refuse(ValueError, "the first walk is an array of 2 dimensions, and not of 1", certify, 4, faces, faces, faces[0])
    refuse(TypeError, "walk 1 of pair 0 is an array of float32", decide, 4, faces, [(faces[0].astype("f4"), [0, 2])])
    refuse(TypeError, "face 0 is an array of float64", surface, 4, list(faces.astype(float)))
    refuse(OverflowError, "the array of faces: place 3 has -1, which is below 0", surface, 4, numpy.array([[0, 1, 2], [-1, 1, 2]]))
    refuse(OverflowError, "place 2 has 4294967296, which is more than", surface, 4, numpy.array([[0, 1, 2**32]], dtype="u8"))
    refuse(TypeError, "the first walk: place 0 has", certify, 4, faces, [numpy.float64(0)], [0])
    refuse(TypeError, "the first walk: place 0 has", certify, 4, faces, [numpy.bool_(False)], [0])


def import_without_a_library():
    for place in ("/absent/libhomotopy.so", os.path.join(HERE, "calls.c"), "libm.so.6"):
        done = subprocess.run([sys.executable, "-B", "-c", "import homotopy"], stderr=subprocess.PIPE, text=True,
                              env=dict(os.environ, PYTHONPATH=PYTHON, LIBHOMOTOPY=place))
        if not done.returncode or not done.stderr.strip().split("\n")[-1].startswith("ImportError: homotopy: "):
            failures.append("the import with %s ends with %s" % (place, done.stderr))


def compare_with_header():
    header = open(os.path.join(TOP, "crates/homotopy_c/homotopy.h")).read()
    for answer in Answer:
        if "HOMOTOPY_%s = %d," % (answer.name, answer) not in header:
            failures.append("homotopy.h has no code %s = %d" % (answer.name, answer))


compare_with_header()
take()
keep()
keep_for_threads()
refuse_sequences()
import_without_a_library()
if numpy is None:
    print("tests/library: arrays of numpy were left out, since there is no numpy for %s" % sys.executable)
else:
    take_arrays()
    refuse_arrays()
for failure in failures:
    print("tests/library: modules.py: " + failure)
sys.exit(1 if failures else 0)
