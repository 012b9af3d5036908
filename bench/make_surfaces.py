#!/usr/bin/env python3
"""Makes the inputs of `bench/decide`, `bench/homology` and `bench/loops` in the folder that is named: tori joined in a chain, and walks
on them.

Nothing here is trusted: a mesh that is no surface is refused by the program, and the run says so.
"""
import os
import random
import sys

# handles, and points along a side of each square torus: about 4,000,000 sides
LARGE, SMALL = (1, 1000), (20000, 7)


class Chain:
    """So many square tori of size times size points in a row. Neighbours share the corners of one cell, which both lose."""

    def __init__(self, handles, size, rng=None):
        self.handles, self.size = handles, size
        self.number = {}
        glued = {(0, 0): (2, 2), (0, 1): (3, 2), (1, 1): (3, 3), (1, 0): (2, 3)}
        count = 0
        for torus in range(handles):
            for row in range(size):
                for column in range(size):
                    if torus and (row, column) in glued:
                        there = glued[row, column]
                        self.number[torus, row, column] = self.number[(torus - 1,) + there]
                    else:
                        self.number[torus, row, column] = count
                        count += 1
        self.count = count
        names = list(range(count))
        if rng:
            rng.shuffle(names)
        self.names = names
        self.rng = rng

    def at(self, torus, row, column):
        return self.names[self.number[torus, row % self.size, column % self.size]]

    def faces(self):
        for torus in range(self.handles):
            for row in range(self.size):
                for column in range(self.size):
                    if torus and (row, column) == (0, 0) or torus + 1 < self.handles and (row, column) == (2, 2):
                        continue
                    corners = [(row, column), (row, column + 1), (row + 1, column + 1), (row + 1, column)]
                    yield [self.at(torus, *corner) for corner in corners]

    def write(self, name):
        faces = list(self.faces())
        if self.rng:
            self.rng.shuffle(faces)
        with open(name, "w") as out:
            out.write("OFF\n%d %d 0\n" % (self.count, len(faces)))
            out.writelines("%d 0 0\n" % point for point in range(self.count))
            out.writelines("4 %d %d %d %d\n" % tuple(face) for face in faces)

    def loops(self, darts):
        """The row loop and then the column loop of the last torus, as often as it takes; and the column loop first."""
        torus, last, size = self.handles - 1, self.size - 1, self.size
        row = [self.at(torus, last, last + step) for step in range(1, size + 1)]
        column = [self.at(torus, last + step, last) for step in range(1, size + 1)]
        start = self.at(torus, last, last)
        rounds = max(1, darts // (2 * size))
        return [start] + (row + column) * rounds, [start] + (column + row) * rounds

    def row_and_half(self, darts):
        """A row loop of the last torus, as often as it takes; and the way to the row half round it, that row as often, and the way back."""
        torus, last, half = self.handles - 1, self.size - 1, self.size // 2
        rounds = max(1, darts // (2 * self.size))
        way = [self.at(torus, last + step, last) for step in range(half + 1)]
        row, other = ([self.at(torus, last + down, last + step) for step in range(1, self.size + 1)] for down in (0, half))
        return way[:1] + row * rounds, way + other * rounds + way[-2::-1]

    def wander(self, darts, rng):
        """A walk that wanders in the last torus, and comes back by the way that it went."""
        torus, row, column = self.handles - 1, self.size - 1, self.size - 1
        there = [(row, column)]
        for _ in range(darts // 2):
            down, right = rng.choice([(0, 1), (1, 0), (0, -1), (-1, 0)])
            row, column = row + down, column + right
            there.append((row, column))
        return [self.at(torus, *point) for point in there + there[-2::-1]]


def write_walks(name, first, second):
    with open(name, "w") as out:
        for walk in (first, second):
            out.write(" ".join(map(str, walk)) + "\n")


def main():
    folder = sys.argv[1]
    os.makedirs(folder, exist_ok=True)
    for name, shape, mixed in [("one", LARGE, False), ("many", SMALL, False), ("mixed", LARGE, True)]:
        rng = random.Random(1)
        chain = Chain(*shape, rng if mixed else None)
        path = os.path.join(folder, "decide-" + name)
        chain.write(path + ".off")
        start = chain.at(chain.handles - 1, chain.size - 1, chain.size - 1)
        write_walks(path + "-point.walks", [start], [start])
        write_walks(path + "-loops.walks", *chain.loops(1000))
        wander = chain.wander(1000000, rng)
        write_walks(path + "-wander.walks", wander, [wander[0]])
        write_walks(path + "-long.walks", *chain.loops(1000000))
        row, half = chain.row_and_half(1000000)
        write_walks(path + "-half.walks", row, half)
        write_walks(path + "-row.walks", row, [start])


main()
