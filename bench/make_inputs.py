#!/usr/bin/env python3
"""Makes the inputs of the benchmark in the folder that is named: plain meshes, walks and move lists.

Nothing here is trusted: a list that does not lead is rejected by the program, and the run says so.
"""
import os
import random
import sys

SIZE = 816


def vertex(row, column):
    return (row % SIZE) * SIZE + column % SIZE


def triangles():
    """The torus of SIZE times SIZE points: each cell of four points is cut into two triangles."""
    for row in range(SIZE):
        for column in range(SIZE):
            here, right = vertex(row, column), vertex(row, column + 1)
            below, across = vertex(row + 1, column), vertex(row + 1, column + 1)
            yield here, right, across
            yield here, across, below


class Names:
    """How the points and the triangles are numbered: row by row, or at random."""

    def __init__(self, rng=None):
        self.vertices = list(range(SIZE * SIZE))
        self.faces = list(range(2 * SIZE * SIZE))
        if rng:
            rng.shuffle(self.vertices)
            rng.shuffle(self.faces)


def write_mesh(name, names):
    lines = [""] * len(names.faces)
    for face, corners in zip(names.faces, triangles()):
        lines[face] = "3 %d %d %d\n" % tuple(names.vertices[corner] for corner in corners)
    with open(name, "w") as out:
        count = SIZE * SIZE
        out.write("OFF\n%d %d %d\n" % (count, 2 * count, 3 * count))
        for row in range(SIZE):
            out.writelines("%d %d 0\n" % (row, column) for column in range(SIZE))
        out.writelines(lines)


def chain_of_tori(genus, grid):
    """Square tori of grid times grid points in a row: the square at (3, 3) of each is joined to the one at (0, 0) of the
    next, and both are left out. The number of points, and the squares."""
    corners = ((0, 0), (0, 1), (1, 1), (1, 0))
    count, squares, last = 0, [], None
    for torus in range(genus):
        names = {}
        if last:
            names = {corner: last[3 + corner[0], 3 + corner[1]] for corner in corners}
        for row in range(grid):
            for column in range(grid):
                if (row, column) not in names:
                    names[row, column] = count
                    count += 1
        for row in range(grid):
            for column in range(grid):
                joined = (row, column) == (0, 0) and torus > 0 or (row, column) == (3, 3) and torus + 1 < genus
                if not joined:
                    squares.append([names[(row + r) % grid, (column + c) % grid] for r, c in corners])
        last = names
    return count, squares


def write_chain(name, genus, grid):
    count, squares = chain_of_tori(genus, grid)
    with open(name, "w") as out:
        out.write("OFF\n%d %d 0\n" % (count, len(squares)))
        out.writelines("%d 0 0\n" % point for point in range(count))
        out.writelines("4 %d %d %d %d\n" % tuple(square) for square in squares)


def row_walk(darts, names):
    """A walk along a row of points, as often round as it takes."""
    return [names.vertices[vertex(7, column)] for column in range(darts + 1)]


def long_way(darts, names):
    """A walk over all rows: along each row once round, and then down to the next one."""
    rows = [step // (SIZE + 1) for step in range(darts + 1)]
    return [names.vertices[vertex(row, step - row)] for step, row in enumerate(rows)]


def write_walks(name, first, second):
    with open(name, "w") as out:
        for walk in (first, second):
            out.write(" ".join(map(str, walk)) + "\n")


def write_moves(name, moves, peak):
    with open(name, "w") as out:
        out.write("MOVES %d %d\n" % (len(moves), peak))
        out.writelines(line + "\n" for line in moves)


def detours(places, names):
    """At each place, one side of a triangle is replaced by its two others, and back."""
    for place in places:
        column = place % SIZE
        face = names.faces[2 * vertex(7, column)]
        yield "f %d %d 0 + 1" % (place, face)
        yield "f %d %d 0 - 2" % (place, face)


def main():
    folder = sys.argv[1]
    os.makedirs(folder, exist_ok=True)
    path = lambda name: os.path.join(folder, name)
    rng = random.Random(1)

    def write_short(mesh, case, names):
        write_mesh(path(mesh + ".off"), names)
        walk = row_walk(1000, names)
        write_walks(path(case + ".walks"), walk, walk)
        write_moves(path(case + ".moves"), list(detours((rng.randrange(1000) for _ in range(500)), names)), 1001)

    plain = Names()
    write_short("torus", "short", plain)

    long = row_walk(1000000, plain)
    write_walks(path("long.walks"), long, long)
    write_moves(path("scattered.moves"), list(detours((rng.randrange(1000000) for _ in range(5000)), plain)), 1000001)
    near_end = 1000000 - 100
    write_moves(path("close.moves"), list(detours((near_end + rng.randrange(100) for _ in range(500000)), plain)), 1000001)

    # Walks of a million darts and no moves: each dart is a look-up of an edge. On the way over a mesh that is numbered at
    # random the look-ups jump about in memory.
    write_moves(path("along.moves"), [], 1000000)
    write_moves(path("jumping.moves"), [], 1000000)
    mixed = Names(rng)
    write_short("shuffled", "shuffled", mixed)
    jumps = long_way(1000000, mixed)
    write_walks(path("jumping.walks"), jumps, jumps)

    # Genus 20,000, on 3,760,008 sides.
    write_chain(path("chain.off"), 20000, 7)


main()
