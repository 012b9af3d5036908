"""The picture of the plane that eight spokes or more make: the hyperbolic one, tiled by polygons with as many at each corner as each
has sides. It is drawn in the disc of Poincare, from the start of the walks, where all polygons are in truth equally large.

Frames are 3 by 3 matrices of the hyperboloid: turns about a point, and a way forward.
"""
import math

from watching.drawing import FIRST, SECOND, colour, dot, end, pairs_of, path, step, text

RADIUS, MOST_SPOKES, MOST_TILED, PIECES = 100.0, 16, 16, 14
BOX = (-120.0, -114.0, 240.0, 228.0)


def times(one, two):
    return [[sum(one[i][k] * two[k][j] for k in range(3)) for j in range(3)] for i in range(3)]


def turn(angle):
    c, s = math.cos(angle), math.sin(angle)
    return [[c, -s, 0], [s, c, 0], [0, 0, 1]]


def forward(distance):
    c, s = math.cosh(distance), math.sinh(distance)
    return [[c, 0, s], [0, 1, 0], [s, 0, c]]


def product(*frames):
    result = turn(0)
    for frame in frames:
        result = times(result, frame)
    return result


class Disc:
    """The tiling, by the degree and the places of the spokes round the vertex."""

    def __init__(self, labels):
        self.labels, self.degree = labels, labels.degree
        self.spoke = math.acosh(1 / math.tan(math.pi / self.degree) ** 2)

    def at_vertex(self, spoke):
        return 2 * math.pi * self.labels.places[spoke] / self.degree

    def in_middle(self, spoke):
        return 2 * math.pi * spoke / self.degree

    def inward(self, frame, spoke):
        """From a vertex along a spoke to the middle."""
        return product(frame, turn(self.at_vertex(spoke)), forward(self.spoke), turn(math.pi - self.in_middle(spoke)))

    def outward(self, frame, spoke):
        """From a middle along a spoke to a vertex."""
        return product(frame, turn(self.in_middle(spoke)), forward(self.spoke), turn(math.pi - self.at_vertex(spoke)))

    def place(self, vector):
        """Where a point of the hyperboloid is drawn."""
        return RADIUS * vector[0] / (1 + vector[2]), -RADIUS * vector[1] / (1 + vector[2])

    def centre(self, frame):
        return [row[2] for row in frame]

    def line(self, one, two):
        """The straight way between two points, as it is drawn."""
        points = []
        for k in range(PIECES + 1):
            mixed = [a + (b - a) * k / PIECES for a, b in zip(one, two)]
            size = math.sqrt(max(1e-12, mixed[2] ** 2 - mixed[0] ** 2 - mixed[1] ** 2))
            points.append(self.place([x / size for x in mixed]))
        return points

    def corners(self, middle):
        return [self.centre(self.outward(middle, spoke)) for spoke in range(self.degree)]


def ways(disc, paths):
    """For each walk the frames that it passes, a list for each dart; and the frames of all middles."""
    found, middles = [], []
    for path_of_darts in paths:
        here, darts = turn(0), []
        for spokes in path_of_darts:
            way = [here]
            for k, spoke in enumerate(spokes):
                way.append(disc.outward(way[-1], spoke) if k % 2 else disc.inward(way[-1], spoke))
            middles += way[1::2]
            here = way[-1]
            darts.append(way)
        found.append(darts)
    return found, middles


def tiles(disc, middles):
    """The polygons with these middles, their sides in the colours of their pairs."""
    pairs, lines = pairs_of(disc.labels), {}
    for middle in middles:
        corners = disc.corners(middle)
        for side in range(disc.degree):
            ends = corners[side], corners[(side + 1) % disc.degree]
            key = tuple(sorted(tuple(round(x, 3) for x in end) for end in ends))
            lines[key] = (ends, colour(pairs[side]) if side in pairs else "#aab6c2")
    return [path(disc.line(*ends), class_="side", stroke=shade, stroke_width=0.8, opacity=0.6) for ends, shade in lines.values()]


def paths_of(labels, walks, words):
    """The paths that are drawn, the spokes of each walk's darts, and what is said of them. Where these are too many, it is the paths of
    the words in their place, from where they part and so far as there is room."""
    own = labels.paths(walks)
    if all(sum(map(len, path)) <= MOST_SPOKES for path in own):
        return own, "Unrolled: a hyperbolic plane of polygons with %d sides." % labels.degree
    paths = [labels.path_of_word(word) for word in words]
    while all(paths) and paths[0][:2] == paths[1][:2]:
        paths = [path[2:] for path in paths]
    return [[[]] * (len(walk) - 2) + [path[:MOST_SPOKES]] for walk, path in zip(walks, paths)], "The words as paths, from where they part."


def disc_picture(labels, paths, words):
    """The picture without its frame."""
    disc = Disc(labels)
    found, middles = ways(disc, paths)
    if labels.degree <= MOST_TILED:
        middles += [disc.inward(turn(0), spoke) for spoke in range(labels.degree)]
    parts = [dot(0, 0, RADIUS, fill="#f4f7fa", stroke="#cbd4dc", stroke_width=0.6)] + tiles(disc, middles)
    for walk, darts in enumerate(found):
        for k, way in enumerate(darts):
            points = [place for one, two in zip(way, way[1:]) for place in disc.line(disc.centre(one), disc.centre(two))]
            inner = path(points, class_="way", stroke_width=(2.8, 1.3)[walk], pathLength=1) if points else ""
            parts.append(step(walk, k, inner))
    parts.append(dot(0, 0, 3.2, fill="none", stroke="#1d2733", stroke_width=1))
    for walk, darts in enumerate(found):
        x, y = disc.place(disc.centre(darts[-1][-1])) if darts else (0.0, 0.0)
        far = math.hypot(x, y)
        told = (x * (RADIUS + 7) / far, y * (RADIUS + 7) / far) if far > 1 else (0.0, (9.0, -9.0)[walk])
        name = " ".join(map(str, words[walk])) or "empty"
        parts.append(end(walk, dot(x, y, 2.6, fill=(FIRST, SECOND)[walk], stroke="#fff", stroke_width=0.8)
                         + text(*told, name, 7, class_="halo", font_weight="700", style="fill: %s" % (FIRST, SECOND)[walk])))
    return "".join(parts)
