#!/usr/bin/env python3
"""Makes the texts of the benchmark in the folder that is named, where `torus.off` stands already.

The last face of each mesh names a vertex that there is not, so that the program reads the whole text and then refuses it.
Nothing here is trusted: what the program says of a text is printed beside its time.
"""
import os
import random
import sys


def with_faulty_face(lines):
    """The lines of a mesh with one face more, which is at fault."""
    vertices, faces, edges = lines[1].split()
    return [lines[0], "%s %d %s" % (vertices, int(faces) + 1, edges)] + lines[2:] + ["3 0 1 9999999"]


def as_found(lines, rng):
    """The same mesh with coordinates of 12 digits and colours behind each face."""
    vertices = int(lines[1].split()[0])
    points = ["%.12f %.12f %.12f" % tuple(rng.uniform(-5, 5) for _ in range(3)) for _ in range(vertices)]
    return lines[:2] + points + [face + " 255 128 0" for face in lines[2 + vertices:]]


def write(name, lines, ending="\n"):
    with open(name, "w", newline="") as out:
        out.writelines(line + ending for line in lines)


def main():
    folder = sys.argv[1]
    path = lambda name: os.path.join(folder, name)
    rng = random.Random(2)
    with open(path("torus.off")) as mesh:
        lines = mesh.read().splitlines()
    write(path("read-plain.off"), with_faulty_face(lines))
    write(path("read-found.off"), with_faulty_face(as_found(lines, rng)), "\r\n")

    write(path("read.point.off"), ["OFF", "1 0 0", "0 0 0"])
    walk = lambda: " ".join(str(rng.randrange(1, 1000000)) for _ in range(500001))
    write(path("read.walks"), [walk(), walk()])
    write(path("read.words"), (" ".join(str(rng.randrange(8)) for _ in range(1000000)) for _ in range(20)))
    # Each of the last 500,000 entries of a line turns one long run round.
    wavering = "0 1 " + "2 " * 499997 + "1" + " 0" * 500000
    write(path("read.wavering.words"), [wavering] * 20)


main()
