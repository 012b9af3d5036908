"""What the lines of the program say, in words for people, and what to try next.

The sentences are those of homotopy.h where it has the line, and those of SENTENCES for the others. Where the mesh is at hand, a fault is
told with the faces and vertices that it is about.
"""
import re
from collections import namedtuple

from . import meshes
from ._library import line_of, text_of
from .walks import lines_of, vertices_of

Told = namedtuple("Told", "says next")
Told.__doc__ = "A sentence, and what to try next (or None)."

# Lines of the program that homotopy.h has no code for, as it writes them.
SENTENCES = {
    "refused: words": "the program does not know these words",
    "refused: off no counts": "the mesh has no line with the counts: it is empty, or no OFF file",
    "refused: off line {0} form": "line {0} of the mesh: this form of OFF is not read (binary, or points of another dimension)",
    "refused: off line {0} counts": "line {0} of the mesh should have two counts, of vertices and of faces: it may be no OFF file",
    "refused: off line {0} vertex": "line {0} of the mesh should have the coordinates of a vertex",
    "refused: off line {0} face": "line {0} of the mesh should have a face: how many corners, three at least, and their vertices",
    "refused: off line {0} many": "line {0} of the mesh passes a limit: 1,000,000 vertices, 1,333,333 faces, 4,000,000 sides of all faces",
    "refused: off line {0} index": "line {0} of the mesh has a corner that is no vertex",
    "refused: off line {0} neighbours": "line {0} of the mesh has a face with the same vertex twice in a row",
    "refused: off line {0} ended": "the mesh ends before line {0}, and lines are missing",
    "refused: off too large": "the mesh has more than 268,435,456 bytes",
    "refused: walks too large": "the walks have more than 268,435,456 bytes",
    "refused: walks line {0} many": "line {0} is the first past 1,000,000 walks",
    "refused: walks line {0} long": "the walk on line {0} is too long: 1,000,000 darts are the most",
    "refused: walks line {0} number": "line {0} of the walks has a word that is no number of a vertex",
    "refused: walks line {0} group": "line {0} of the walks has a group that is none, or does not lead back to where it begins",
    "refused: walks count {0}": "the file has {0} walks, and two are wanted (a pair a question)",
    "refused: pair {0} start": "the walks of pair {0} start at different vertices",
    "refused: pair {0} end": "the walks of pair {0} end at different vertices",
    "refused: walk {0} open": "walk {0} does not end where it starts, and closed walks are wanted",
    "refused: no boundary": "the mesh has no boundary",
    "refused: vertices {0} {1} apart": "no walk joins the vertices {0} and {1}: the mesh is in several pieces",
    "refused: surface components {0}": "the surface has {0} pieces, and their numbers are told of at most 1,024",
    "refused: open sides {0}": "the mesh has {0} sides, and on a mesh with boundary 16,384 are the most",
    "refused: open darts {0}": "the walks have {0} darts together, and on a mesh with boundary 512 are the most",
    "refused: double vertices": "the double of the mesh has more than 1,000,000 vertices",
    "refused: double sides": "the double of the mesh has more than 4,000,000 sides",
    "refused: cover vertices": "the orientation cover of the mesh has more than 1,000,000 vertices",
    "refused: cover sides": "the orientation cover of the mesh has more than 4,000,000 sides",
    "rejected: face {0}": "at face {0}: a chain lists a face that is not there, or a cocycle does not add up to 0 round it",
    "rejected: zero": "the cocycle separates nothing",
}

# What to try next, by the beginning of a line.
NEXT = {
    "refused: off no counts": "other formats than OFF are read by their ending (.ply, .obj, .stl, ..), by meshio",
    "refused: off line {0} counts": "other formats than OFF are read by their ending (.ply, .obj, .stl, ..), by meshio",
    "refused: off line {0} index": "vertices are counted from 0: one less each, where the file counts from 1",
    "refused: walks line {0} number": "a walk is a line of vertex numbers with blanks between them, counted from 0",
    "refused: walks count {0}": "many pairs stand behind a line WALKS 2, for decide alone; `homotopy classes` takes any number of walks",
    "refused: walk {0} place {1} vertex": "vertices are counted from 0, in the order of the mesh file",
    "refused: walks start": "walks with a common start and a common end are compared; one may be written backwards",
    "refused: walks end": "walks with a common start and a common end are compared",
    "refused: walk {0} open": "`homotopy decide` compares walks that are not closed",
    "refused: no boundary": "leave --open away",
    "refused: certify sides {0}": "`homotopy decide` answers without a certificate, up to 4,000,000 sides",
    "refused: certify darts {0}": "`homotopy decide` answers without a certificate, up to 1,000,000 darts each",
    "refused: vertex {0} pinched": "give each piece of surface at the vertex a vertex of its own",
}

# Lines that say something else of a certificate of homology.
OF_HOMOLOGY = {
    "rejected: edge {0} {1}": "at the edge {0} {1} the boundary of the chain is not the difference of the walks, or it is no edge",
}

ONE_SIDE = "the mesh has a boundary there: `homotopy decide --open` takes such a mesh, and `homotopy decide --any` a surface of any kind"
MANY_SIDES = "at each edge two faces may meet, and not more"


def patterns():
    """Each line of the program as a pattern, with its sentence."""
    told = {line_of(code): text_of(code) for code in range(256) if line_of(code)}
    told.update(SENTENCES)
    return [(line, pattern_of(line), says) for line, says in told.items()]


def pattern_of(line):
    """A line with a number for each {0}, {1}, {2}; more numbers may stand behind it."""
    return re.compile(re.sub(r"\\\{\d\\\}", "([0-9]+)", re.escape(line)) + "(?: ([0-9 ]*))?")


def tell(printed, mesh=None, walks=None, other=None):
    """What a line that refuses or rejects says; `other` has sentences in place of the usual ones."""
    printed = printed.strip()
    for line, pattern, says in patterns():
        found = pattern.fullmatch(printed)
        if found:
            numbers = [int(number) for number in found.groups()[:-1]]
            closer = CLOSER.get(line)
            told = closer(numbers, found[found.re.groups], mesh, walks) if closer and mesh is not None else None
            return told or Told((other or {}).get(line, says).format(*numbers), NEXT.get(line))
    return Told(printed, None)


def several(numbers, most=8):
    """Numbers with commas between them, the first of them where they are many."""
    return ", ".join(map(str, numbers[:most])) + (" and %d more" % (len(numbers) - most) if len(numbers) > most else "")


def edge_sides(numbers, _rest, mesh, _walks):
    low, high, _sides = numbers
    found = meshes.faces_at_edge(mesh, low, high)
    if len(found) == 1:
        return Told("edge %d-%d stands in one face: %d" % (low, high, found[0]), ONE_SIDE)
    return Told("edge %d-%d stands in %d faces: %s" % (low, high, len(found), several(found)), MANY_SIDES)


def pinched(numbers, _rest, mesh, _walks):
    found = meshes.faces_at_vertex(mesh, numbers[0])
    return Told("vertex %d is pinched: its %d faces do not make one ring: %s" % (numbers[0], len(found), several(found)),
                NEXT["refused: vertex {0} pinched"])


def not_orientable(_numbers, rest, _mesh, _walks):
    faces = [int(number) for number in rest.split()[::3]]
    return Told("the mesh is not orientable: the faces %s make a Moebius band" % several(faces), "`homotopy decide --any` takes such a mesh")


def no_vertex(numbers, _rest, mesh, walks):
    walk, place = numbers
    vertex = vertices_of(lines_of(walks)[walk - 1], place + 1)[place]
    named = meshes.used_range(mesh)
    if named is None:
        return Told("walk %d passes vertex %d (at place %d), and the mesh has no face" % (walk, vertex, place), None)
    return Told("walk %d passes vertex %d (at place %d), which no face names: the faces name %d to %d" % (walk, vertex, place, *named),
                NEXT["refused: walk {0} place {1} vertex"])


def no_edge(numbers, _rest, mesh, walks):
    walk, place = numbers
    here, there = vertices_of(lines_of(walks)[walk - 1], place + 2)[place:]
    around = meshes.neighbours(mesh, here)
    return Told("walk %d goes from %d to %d (at place %d), which is no edge" % (walk, here, there, place),
                "edges lead from %d to %s" % (here, several(around)))


CLOSER = {
    "refused: edge {0} {1} sides {2}": edge_sides,
    "refused: vertex {0} pinched": pinched,
    "refused: not orientable": not_orientable,
    "refused: walk {0} place {1} vertex": no_vertex,
    "refused: walk {0} place {1} edge": no_edge,
}
