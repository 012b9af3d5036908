"""The meshes of the exercises, each made so that it looks like what it is.

A mesh is its points and its faces; the faces of one that is orientable all run alike.
"""
import math
from collections import namedtuple

Shape = namedtuple("Shape", "points faces")

RING_PARTS, TUBE_PARTS, TUBE = 20, 10, 0.42
BAND_PARTS, BAND_ROWS, BAND_WIDTH = 24, 3, 0.9
CUP_PARTS, CUP_LEVELS, HANDLE_RINGS = 24, 10, 9


def off(shape):
    """The mesh as the text of an OFF file."""
    lines = ["OFF", "%d %d 0" % (len(shape.points), len(shape.faces))]
    lines += [" ".join("%.4f" % (x + 0.0) for x in point) for point in shape.points]
    lines += [" ".join(map(str, [len(face)] + list(face))) for face in shape.faces]
    return "\n".join(lines).replace("-0.0000", "0.0000") + "\n"


def tetrahedron():
    return Shape([(1, 1, 1), (-1, -1, 1), (-1, 1, -1), (1, -1, -1)], [(0, 2, 1), (0, 1, 3), (1, 2, 3), (0, 3, 2)])


def torus():
    points, faces = [], []

    def at(i, j):
        return i % RING_PARTS * TUBE_PARTS + j % TUBE_PARTS

    for i in range(RING_PARTS):
        for j in range(TUBE_PARTS):
            along, about = 2 * math.pi * i / RING_PARTS, 2 * math.pi * j / TUBE_PARTS
            out = 1 + TUBE * math.cos(about)
            points.append((out * math.cos(along), out * math.sin(along), TUBE * math.sin(about)))
            faces.append((at(i, j), at(i + 1, j), at(i + 1, j + 1), at(i, j + 1)))
    return Shape(points, faces)


def moebius_band():
    """A band that is glued to itself with half a turn."""
    points, faces = [], []

    def at(i, j):
        return i * (BAND_ROWS + 1) + j if i < BAND_PARTS else BAND_ROWS - j

    for i in range(BAND_PARTS):
        along = 2 * math.pi * i / BAND_PARTS
        for j in range(BAND_ROWS + 1):
            across = BAND_WIDTH * (j / BAND_ROWS - 0.5)
            out, up = 1 + across * math.cos(along / 2), across * math.sin(along / 2)
            points.append((out * math.cos(along), out * math.sin(along), up))
        faces += [(at(i, j), at(i + 1, j), at(i + 1, j + 1), at(i, j + 1)) for j in range(BAND_ROWS)]
    return Shape(points, faces)


def smoothed(shape, rounds):
    """Each point is drawn to the middle of its neighbours, again and again."""
    around = [set() for _ in shape.points]
    for face in shape.faces:
        for u, v in zip(face, face[1:] + face[:1]):
            around[u].add(v)
            around[v].add(u)
    points = shape.points
    for _ in range(rounds):
        points = [tuple(0.4 * points[u][axis] + 0.6 * sum(points[v][axis] for v in around[u]) / len(around[u]) for axis in range(3))
                  for u in range(len(points))]
    return Shape(points, shape.faces)


# The six squares of a cube, each by the way to the cube beyond it and its corners, which run alike seen from outside.
SQUARES = (
    ((1, 0, 0), ((1, 0, 0), (1, 1, 0), (1, 1, 1), (1, 0, 1))), ((-1, 0, 0), ((0, 0, 0), (0, 0, 1), (0, 1, 1), (0, 1, 0))),
    ((0, 1, 0), ((0, 1, 0), (0, 1, 1), (1, 1, 1), (1, 1, 0))), ((0, -1, 0), ((0, 0, 0), (1, 0, 0), (1, 0, 1), (0, 0, 1))),
    ((0, 0, 1), ((0, 0, 1), (1, 0, 1), (1, 1, 1), (0, 1, 1))), ((0, 0, -1), ((0, 0, 0), (0, 1, 0), (1, 1, 0), (1, 0, 0))),
)


def boundary_of(cubes):
    """The surface of a heap of unit cubes."""
    names, faces = {}, []
    for cube in sorted(cubes):
        for way, square in SQUARES:
            if tuple(c + w for c, w in zip(cube, way)) not in cubes:
                corners = [tuple(c + k for c, k in zip(cube, corner)) for corner in square]
                faces.append(tuple(names.setdefault(corner, len(names)) for corner in corners))
    return Shape(list(names), faces)


def double_torus_cubes():
    """A plate with two holes."""
    plan = ("XXXXX", "X.X.X", "XXXXX")
    return {(2 * column + i, 2 * row + j, k) for row, line in enumerate(plan) for column, sign in enumerate(line) if sign == "X"
            for i in (0, 1) for j in (0, 1) for k in (0, 1)}


def double_torus():
    """The surface of the plate, with its corners rounded off."""
    return smoothed(boundary_of(double_torus_cubes()), 5)


def cup_rings():
    """How far out and how high the rings of a cup lie, from the middle of its foot over the rim to the middle of its floor."""
    outer = [(1.0, 0.22 * k) for k in range(CUP_LEVELS + 1)]
    return [(0.5, 0.0)] + outer + [(0.88, 2.24)] + [(0.86, 2.0 - 0.37 * k) for k in range(5)] + [(0.78, 0.16), (0.4, 0.12)]


def cup():
    """A cup without a handle, and the faces of its outer wall by their row and column."""
    rings, points, wall = cup_rings(), [(0.0, 0.0, 0.0)], {}
    for out, up in rings:
        turns = [2 * math.pi * k / CUP_PARTS for k in range(CUP_PARTS)]
        points += [(out * math.cos(turn), out * math.sin(turn), up) for turn in turns]
    points.append((0.0, 0.0, 0.12))

    def at(ring, part):
        return 1 + ring * CUP_PARTS + part % CUP_PARTS

    faces = []
    for part in range(CUP_PARTS):
        faces.append((0, at(0, part + 1), at(0, part)))
        for ring in range(len(rings) - 1):
            wall[ring, part] = (at(ring, part), at(ring, part + 1), at(ring + 1, part + 1), at(ring + 1, part))
        faces.append((at(len(rings) - 1, part), at(len(rings) - 1, part + 1), len(points) - 1))
    return points, faces, wall, at


# The eight vertices round a block of two times two faces: steps across and away from the middle of the handle.
BLOCK = ((1, 0), (1, 1), (0, 1), (-1, 1), (-1, 0), (-1, -1), (0, -1), (1, -1))


def mug():
    """A cup with a handle: two blocks are taken out of the wall, and a tube joins the holes."""
    points, faces, wall, at = cup()
    low, high = 4, 9
    for ring in (low - 1, low, high - 1, high):
        del wall[ring, 0], wall[ring, CUP_PARTS - 1]
    faces += wall.values()
    tube = [[at(low - away, across) for across, away in BLOCK]]
    middle, half = (points[at(low, 0)][2] + points[at(high, 0)][2]) / 2, (points[at(high, 0)][2] - points[at(low, 0)][2]) / 2
    for k in range(1, HANDLE_RINGS):
        turn = math.pi * (k / HANDLE_RINGS - 0.5)
        ring = []
        for across, away in BLOCK:
            size = 0.15 / math.hypot(across, away)
            out = 0.62 * math.cos(turn) + away * size * math.cos(turn)
            ring.append(len(points))
            points.append((1.02 + out, across * size * 1.2, middle + half * math.sin(turn) + away * size * math.sin(turn)))
        tube.append(ring)
    tube.append([at(high + away, across) for across, away in BLOCK])
    for one, two in zip(tube, tube[1:]):
        faces += [(one[k], one[k - 1], two[k - 1], two[k]) for k in range(len(BLOCK))]
    return without_unused(Shape(points, faces))


def without_unused(shape):
    """The vertices that some face names, numbered anew in their order."""
    used = sorted({vertex for face in shape.faces for vertex in face})
    names = {vertex: name for name, vertex in enumerate(used)}
    return Shape([shape.points[vertex] for vertex in used], [tuple(names[vertex] for vertex in face) for face in shape.faces])


# A shirt laid flat, in squares: half the width of the body and of both sleeves, the height, where the sleeves begin, half the neck.
BODY, SLEEVE, HEIGHT, ARMPIT, NECK = 4, 7, 10, 7, 2
MOTH_HOLE = {(1, 3), (1, 4)}


def shirt_squares():
    rows = {y: SLEEVE if y >= ARMPIT else BODY for y in range(HEIGHT)}
    return {(x, y) for y, half in rows.items() for x in range(-half, half)}


def seams_of(squares):
    """The points at which front and back are sewn together: the outline without hem, sleeve ends and neck."""
    sewn = set()
    for x, y in squares:
        for beyond, ends in (((x + 1, y), ((x + 1, y), (x + 1, y + 1))), ((x - 1, y), ((x, y), (x, y + 1))),
                             ((x, y + 1), ((x, y + 1), (x + 1, y + 1))), ((x, y - 1), ((x, y), (x + 1, y)))):
            is_opening = beyond[1] < 0 or abs(beyond[0] + 0.5) > SLEEVE or (beyond[1] >= HEIGHT and -NECK <= x < NECK)
            if beyond not in squares and not is_opening:
                sewn.update(ends)
    return sewn


def bulge(squares, sewn):
    """How far each point of the cloth stands off the middle, as a membrane under pressure that is held at its seams."""
    spots = sorted({(x + i, y + j) for x, y in squares for i in (0, 1) for j in (0, 1)})
    height = dict.fromkeys(spots, 0.0)
    around = {(x, y): [spot for spot in ((x + 1, y), (x - 1, y), (x, y + 1), (x, y - 1)) if spot in height] for x, y in spots}
    for _ in range(300):
        height.update({spot: 0.09 + sum(map(height.get, around[spot])) / len(around[spot]) for spot in spots if spot not in sewn})
    return {spot: math.sqrt(max(0.0, value)) for spot, value in height.items()}


def shirt():
    """A shirt, open at neck, hem and sleeves, with a moth hole in its front."""
    squares = shirt_squares()
    sewn = seams_of(squares)
    height, names, points, faces = bulge(squares, sewn), {}, [], []

    def at(spot, side):
        key = spot if spot in sewn else (spot, side)
        if key not in names:
            names[key] = len(points)
            (x, y), hang = spot, 0.3 * max(0, abs(spot[0]) - BODY)
            dip = 0.35 * side if y == HEIGHT and abs(x) < NECK else 0.0
            points.append((0.1 * x, -0.1 * side * height[spot], 0.1 * (y - hang - dip)))
        return names[key]

    for side in (1, -1):
        for x, y in sorted(squares - (MOTH_HOLE if side == 1 else set())):
            ring = [at(spot, side) for spot in ((x, y), (x + 1, y), (x + 1, y + 1), (x, y + 1))]
            faces.append(tuple(ring[::side]))
    return Shape(points, faces)
