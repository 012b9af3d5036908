"""Walks on a torus of squares."""
import homotopy

GRID = 30


def at(x, y):
    return GRID * (y % GRID) + x % GRID


faces = [(at(x, y), at(x + 1, y), at(x + 1, y + 1), at(x, y + 1)) for y in range(GRID) for x in range(GRID)]
print(homotopy.surface(GRID * GRID, faces))

row = [at(x, 0) for x in range(GRID + 1)]
column = [at(0, y) for y in range(GRID + 1)]
pairs = [(row + column[1:], column + row[1:]), (row, column), (row, [0]), ([0, 1, 31], [0, 30, 31]), ([0, 2], [0, 1, 2])]
for answer in homotopy.decide(GRID * GRID, faces, pairs):
    print(answer)

# The torus is kept: a walk is dragged away from the row, and asked about where it is.
with homotopy.Mesh(GRID * GRID, faces) as torus:
    for y in range(3):
        dragged = [at(0, k) for k in range(y)] + [at(x, y) for x in range(GRID + 1)] + [at(0, k) for k in reversed(range(y))]
        print("dragged by", y, torus.decide([(row, dragged)])[0])
    higher = [at(x + 4, 7) for x in range(GRID + 1)]
    print("loops", *torus.loops([(row, higher), (row, column), (row, [0, 1])]), sep=", ")
    print("classes", torus.classes([row + column[1:], row, column, column + row[1:], row + row[-2::-1], [0], row + row[1:]]))

# One face crossed, and the same face the other way.
for certificate in (b"MOVES 1 2\nf 0 0 0 + 2\n", b"MOVES 1 2\nf 0 0 0 - 2\n"):
    verdict = homotopy.verify(GRID * GRID, faces, [0, 1, GRID + 1], [0, GRID, GRID + 1], certificate)
    print("accepted" if verdict else "rejected: " + verdict.reason)

answer, text = homotopy.certify(GRID * GRID, faces, row, column)
if answer is homotopy.Answer.DIFFERENT and homotopy.verify(GRID * GRID, faces, row, column, text):
    print("a denial of", text.count(b"\n"), "lines, which is accepted")

print("homology", *[homotopy.homology(GRID * GRID, faces, *pair)[0] for pair in pairs[:3]], sep=", ")

# A Moebius band of five triangles: its boundary goes round twice.
band = [(k, (k + 1) % 5, (k + 2) % 5) for k in range(5)]
core, boundary = [0, 1, 2, 3, 4, 0], [0, 2, 4, 1, 3, 0]
print("band", *homotopy.decide_any(5, band, [(boundary, core + core[1:]), (boundary, core), (core, [0]), ([0], [5])]), sep=", ")

# A step by 1 counts 1, and a step by 2 counts 2: so to go round once is not homologous to staying.
verdict = homotopy.verify_homology(5, band, core, [0], homotopy.Answer.NOT_HOMOLOGOUS, [1, 1, -2] * 5)
print("a cocycle on the band,", "accepted" if verdict else "rejected: " + verdict.reason)

for wrong in ([(0, 1, 2), (0, 3, 1), (0, 2, 3)], [(0, 1, 2), (0, 3.5, 1)]):
    try:
        homotopy.surface(4, wrong)
    except (homotopy.Refused, TypeError) as error:
        print("refused:", error)
