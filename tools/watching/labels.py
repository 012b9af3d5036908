"""The labelling of a denial, on its mesh: the rule that each edge keeps, and the spokes of a walk."""
from watching.meshes import edge
from watching.texts import Fault


class Labels:
    """A labelling that keeps its rules; a Fault where it does not, since then it is of another mesh or of none."""

    def __init__(self, mesh, sides, denial):
        self.mesh, self.sides, self.name = mesh, sides, denial.name
        self.degree, self.rows, self.places = denial.degree, denial.rows, denial.places
        self.check_shape()
        self.check_places()
        self.rules = {e: self.rule_of(e, both) for e, both in sides.items()}

    def fault(self, what):
        return Fault("%s is no denial for the mesh %s: %s" % (self.name, self.mesh.name, what))

    def check_shape(self):
        if len(self.rows) != len(self.mesh.faces):
            raise self.fault("it has labels of %d faces, and the mesh has %d" % (len(self.rows), len(self.mesh.faces)))
        for number, (face, (_, labels)) in enumerate(zip(self.mesh.faces, self.rows)):
            if len(labels) != len(face):
                raise self.fault("it has %d labels of face %d, which has %d corners" % (len(labels), number, len(face)))
            if max(labels) >= self.degree:
                raise self.fault("face %d has the label %d, and there are %d spokes" % (number, max(labels), self.degree))

    def check_places(self):
        if sorted(self.places) != list(range(self.degree)):
            raise self.fault("the places are not those of %d spokes, each once" % self.degree)
        turned = self.degree == 4 and any((self.places[i] - self.places[i - 1]) % 4 != 1 for i in range(4))
        if self.degree < 4 or turned:
            raise self.fault("it has %d spokes, with places that no surface gives" % self.degree)

    def ends(self, side):
        """The vertices at tail and head of a side under the sign of its face, each with its label."""
        face, corner, tail, head = side
        sign, labels = self.rows[face]
        ends = (tail, labels[corner]), (head, labels[corner + 1 - len(labels)])
        return ends if sign == "+" else ends[::-1]

    def rule_of(self, e, both):
        """`tree`, `cotree` or `leftover`."""
        if len(both) == 2:
            ((u, a), (v, b)), ((w, c), (x, d)) = map(self.ends, both)
            if (u, v) == (x, w):
                if a == b and c == d:
                    return "tree"
                if a == d and b == c:
                    return "cotree"
                if self.are_across(a, c) and b == (a + 1) % self.degree and d == (c + 1) % self.degree:
                    return "leftover"
        raise self.fault("edge %d %d keeps none of the three rules" % e)

    def are_across(self, a, c):
        """Whether sides with these numbers may be glued, by the places of their spokes."""
        degree, p = self.degree, self.places
        return p[(c + 1) % degree] == (p[a] - 1) % degree and p[(a + 1) % degree] == (p[c] - 1) % degree

    def along(self, u, v):
        """The side that runs from one vertex to another under the signs."""
        return next(side for side in self.sides[edge(u, v)] if self.ends(side)[0][0] == u)

    def spokes(self, u, v):
        """The spokes of a dart: none, or the one that leads in and the one that leads out."""
        if self.rules[edge(u, v)] == "tree":
            return []
        (_, a), (_, b) = self.ends(self.along(u, v))
        return [a, b]

    def paths(self, walks):
        """For each walk the spokes of its darts."""
        return [[self.spokes(*dart) for dart in zip(walk, walk[1:])] for walk in walks]

    def path_of_word(self, word):
        """The spokes that a turn word passes: turns at the vertex go by places, those in the middle by numbers."""
        path = []
        for k, turn in enumerate(word):
            if k % 2:
                path.append((path[-1] + turn) % self.degree)
            else:
                path.append(self.places.index(((self.places[path[-1]] if path else 0) + turn) % self.degree))
        return path

    def partners(self):
        """For each side of the polygon, told by the label at its tail, the side that it is glued to, as far as edges tell it."""
        pairs = {}
        for e, both in self.sides.items():
            if self.rules[e] == "leftover":
                a, c = (self.ends(side)[0][1] for side in both)
                pairs.update({a: c, c: a})
        return pairs
