"""Meshes of other formats than OFF, by meshio; and the faces of a mesh, for the words of a fault."""
import contextlib
import io
import itertools
import os
import re
from collections import namedtuple

from .program import Fault, check_file
from .walks import value

OTHERS = (".ply", ".obj", ".stl", ".vtk", ".vtu", ".msh", ".inp", ".xdmf", ".med", ".cgns", ".mesh", ".wkt", ".nas", ".bdf")
# Cells of meshio that are no faces, and are passed over.
NO_FACES = ("vertex", "line")

Mesh = namedtuple("Mesh", "name path")
Mesh.__doc__ = "A mesh: the name that it was given, and the OFF file that the program reads."


def mesh_of(name, files):
    """A mesh file as one in the format OFF."""
    if os.path.splitext(name)[1].lower() not in OTHERS:
        return Mesh(name, files.taken(name))
    check_file(name)
    return Mesh(name, files.write("mesh.off", off_text(name)))


def off_text(name):
    """The text of a mesh in the format OFF, from a file that meshio reads."""
    try:
        import meshio
    except ImportError:
        raise Fault("%s is no OFF file, and meshio, which reads others, is not installed: pip install meshio" % name, 3) from None
    told = io.StringIO()
    try:
        # It prints what it notices, and ends the process where it can read nothing.
        with contextlib.redirect_stdout(told), contextlib.redirect_stderr(told):
            mesh = meshio.read(name)
    except (Exception, SystemExit) as error:
        told.write("" if isinstance(error, SystemExit) else " %s" % error)
        raise Fault("%s is no mesh that meshio reads: %s" % (name, " ".join(told.getvalue().split()))) from None
    faces = []
    for block in mesh.cells:
        if block.type in NO_FACES:
            continue
        if block.type not in ("triangle", "quad") and not block.type.startswith("polygon"):
            raise Fault("%s has cells of the kind %s, and faces alone are taken: extract the surface first" % (name, block.type))
        faces += [" ".join(map(str, [len(face), *face])) for face in block.data]
    points = [" ".join(["%.17g" % coordinate for coordinate in [*point, 0, 0][:3]]) for point in mesh.points]
    return "\n".join(["OFF", "%d %d 0" % (len(points), len(faces)), *points, *faces, ""]).encode("ascii")


def rows_of(path):
    """The lines of a mesh file that have words, without comments."""
    with open(path, encoding="latin-1", newline="\n") as file:
        for number, row in enumerate(file):
            if number == 0:
                row = row.replace("\xef\xbb\xbf", "", 1)
            if "#" in row:
                row = row.split("#")[0]
            if row and not row.isspace():
                yield row


def counts_in(rows):
    """How many vertices and faces a mesh has, by its first rows, which are taken."""
    words = next(rows).split()
    keyword = re.fullmatch("(?:ST|C|N|4|n)*OFF(.*)", words[0])
    if keyword:
        words[:1] = [keyword[1]] if keyword[1] else []
    vertices, faces = map(value, (words or next(rows).split())[:2])
    return vertices, faces


def counts_of(mesh):
    """How many vertices and faces a mesh has that the program has read."""
    return counts_in(rows_of(mesh.path))


def face_rows(mesh):
    """The words of each face of a mesh that the program has read, and so found in order: how many corners, and then the corners."""
    rows = rows_of(mesh.path)
    vertices, faces = counts_in(rows)
    for row in itertools.islice(rows, vertices, vertices + faces):
        yield row.split()


def faces_with(mesh, *vertices):
    """The faces that have all these vertices as corners, each with its number. The mesh is read once more here, for words alone."""
    found = []
    for number, words in enumerate(face_rows(mesh)):
        # A number may have zeros before it; most faces are passed over without a look at each of their numbers.
        if all(str(vertex) in words or any(word[0] == "0" for word in words) for vertex in vertices):
            face = [value(word) for word in words[1:value(words[0]) + 1]]
            if set(vertices) <= set(face):
                found.append((number, face))
    return found


def faces_at_edge(mesh, low, high):
    """The numbers of the faces that have an edge, once for each side."""
    return [number for number, face in faces_with(mesh, low, high)
            for here, there in zip(face, face[1:] + face[:1]) if {here, there} == {low, high}]


def faces_at_vertex(mesh, vertex):
    return [number for number, _ in faces_with(mesh, vertex)]


def neighbours(mesh, vertex):
    """The vertices that an edge joins to this one, in order."""
    found = set()
    for _, face in faces_with(mesh, vertex):
        for here, there in zip(face, face[1:] + face[:1]):
            if vertex in (here, there):
                found.add(there if here == vertex else here)
    return sorted(found)


def used_range(mesh):
    """The least and the greatest vertex that a face names, or nothing where there is no face."""
    ends = [(min(face), max(face)) for face in ([value(word) for word in words[1:value(words[0]) + 1]] for words in face_rows(mesh))]
    return (min(least for least, _ in ends), max(greatest for _, greatest in ends)) if ends else None
