"""The surface cut open along the tree and the leftover edges of a labelling: the outline of the polygon, all on a circle.

Edges whose four labels are one meet two rules. Which of them the cut goes along is free, as long as tree edges make a tree.
"""
import math

from watching.meshes import component_of, edge

SIDE, TREE = 1.7, 1.0


class Outline:
    """The darts round the polygon as sides of faces, from the one behind the polygon's last side on, of the component in which a vertex
    lies. It is whole where these are all darts of the cut and the polygon's sides come by their numbers, as with the labels that
    `certify` prints. Angles are in turns from the right on, counterclockwise."""

    def __init__(self, labels, vertex):
        self.labels, self.sides = labels, component_of(labels.sides, vertex)
        self.faces = sorted({side[0] for both in self.sides.values() for side in both})
        self.cut = {e for e in self.sides if labels.rules[e] == "leftover"} | tree_edges(labels, self.sides)
        self.starts = {}
        for both in self.sides.values():
            for side in both:
                self.starts[side[0], self.corner_at_tail(side)] = side
        self.ring = self.walk_round()
        numbers = [self.label(side) for side in self.ring if self.is_side(side)]
        self.is_whole = len(self.ring) == 2 * len(self.cut) and numbers == list(range(labels.degree))
        self.angles = self.spread() if self.is_whole else {}

    def corner_at_tail(self, side):
        """The corner of the side's face at which the side starts, under the sign of the face."""
        face, corner = side[:2]
        kept, size = self.labels.rows[face][0] == "+", len(self.labels.mesh.faces[face])
        return corner if kept else (corner + 1) % size

    def following(self, side):
        """The side that follows round the face, under its sign."""
        face, corner = side[0], self.corner_at_tail(side)
        step = 1 if self.labels.rows[face][0] == "+" else -1
        return self.starts[face, (corner + step) % len(self.labels.mesh.faces[face])]

    def twin(self, side):
        one, two = self.labels.sides[edge(side[2], side[3])]
        return two if side == one else one

    def walk_round(self):
        """All sides on the outline, from the one behind the last side of the polygon on."""
        degree = self.labels.degree
        first = [side for both in self.sides.values() for side in both if edge(*side[2:]) in self.cut]
        last = [side for side in first if self.is_side(side) and self.label(side) == degree - 1]
        start = side = self.onward(last[0]) if last else first[0]
        ring = []
        while True:
            ring.append(side)
            side = self.onward(side)
            if side == start:
                return ring

    def onward(self, side):
        """The next side of the outline: round the face, and over each edge that is not cut."""
        side = self.following(side)
        while edge(*side[2:]) not in self.cut:
            side = self.following(self.twin(side))
        return side

    def is_side(self, side):
        return self.labels.rules[edge(*side[2:])] == "leftover"

    def label(self, side):
        return self.labels.ends(side)[0][1]

    def spread(self):
        """Where each side of the outline starts and ends. A side of the polygon takes more room than a tree dart, and all sides
        together a third of the circle at least."""
        sides = self.labels.degree
        wide = max(SIDE, 0.5 * (len(self.ring) - sides) / sides)
        widths = [wide if self.is_side(side) else TREE for side in self.ring]
        turns, at, total = {}, 0.0, sum(widths)
        for side, width in zip(self.ring, widths):
            turns[side] = (at / total, (at + width) / total)
            at += width
        middle = self.middle_of_label(turns, 0)
        return {side: (start - middle + 0.5, end - middle + 0.5) for side, (start, end) in turns.items()}

    def middle_of_label(self, turns, label):
        """The middle of the part of the outline with a label, which begins behind one side and ends before the next."""
        tails = [turns[side] for side in self.ring if self.label(side) == label]
        return (tails[0][0] + tails[-1][0]) / 2

    def spoke_angles(self):
        """For each spoke the turns at which it leaves the outline."""
        return [self.middle_of_label(self.angles, label) for label in range(self.labels.degree)]

    def corners(self, face):
        """The turns of the corners of a face, in its own order."""
        return [self.angle_at(self.starts[face, corner]) for corner in range(len(self.labels.mesh.faces[face]))]

    def angle_at(self, side):
        """The turns at which a side starts: where the outline comes to its tail."""
        while edge(*side[2:]) not in self.cut:
            side = self.following(self.twin(side))
        return self.angles[side][0]


def tree_edges(labels, sides):
    """Edges of the tree rule among some, which join all their vertices: first those that meet no other rule."""
    def meets_cotree(e):
        (a, b), (c, d) = (tuple(label for _, label in labels.ends(side)) for side in labels.sides[e])
        return a == d and b == c

    root, tree = {}, set()

    def top(u):
        while root.get(u, u) != u:
            u = root[u]
        return u

    for e in sorted((e for e in sides if labels.rules[e] == "tree"), key=lambda e: (meets_cotree(e), e)):
        u, v = map(top, e)
        if u != v:
            root[u] = v
            tree.add(e)
    return tree


def on_circle(turns, radius=1.0):
    """A place on a circle, x to the right and y down, as pictures have it."""
    return radius * math.cos(2 * math.pi * turns), -radius * math.sin(2 * math.pi * turns)
