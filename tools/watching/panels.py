"""A list of moves as a picture: the mesh in space a few times side by side, with the walk after some of the moves."""
import math

from watching.drawing import FIRST, SECOND, dot, path, path_through, tag, text
from watching.meshes import edge
from watching.texts import Fault

SIZE, EYE, CELL, LANE = 300, 4.2, 3.0, 4.4
MOST_NUMBERED, PARTS, START, END = 20, 24, (11, 26, 48), (15, 191, 143)


def after_moves(mesh, sides, walk, lines, count):
    """The walk after so many moves of a list."""
    for k, line in enumerate(lines[:count]):
        part, other, at = change(mesh, sides, walk, line.split())
        if walk[at:at + len(part)] != part:
            raise Fault("move %d is not allowed, so no picture can be made: %s" % (k + 1, line))
        walk = walk[:at] + other + walk[at + len(part):]
    return walk


def change(mesh, sides, walk, words):
    """What a move takes out of a walk, what it puts there, and where."""
    at = int(words[1])
    here = walk[at:at + 1]
    if words[0] == "f":
        face, corner, taken, step = mesh.faces[int(words[2])], int(words[3]), int(words[5]), 1 if words[4] == "+" else -1
        part, other = ([face[(corner + way * k) % len(face)] for k in range(count + 1)]
                       for way, count in ((step, taken), (-step, len(face) - taken)))
        return part, other, at
    spur = here + [int(words[2])] + here
    if words[0] == "-":
        return spur, here, at
    return here if here and edge(*spur[:2]) in sides else [None], spur, at


class View:
    """Where the points of a scene lie in a panel, and how far from the eye; with a coarse map of the depth."""

    def __init__(self, scene, turn):
        azimuth, tilt = (math.radians(angle) for angle in turn)
        (ca, sa), (ce, se) = ((math.cos(angle), math.sin(angle)) for angle in (azimuth, tilt))
        self.rows = ((ca, sa, 0.0), (-sa * se, ca * se, ce), (sa * ce, -ca * ce, se))
        self.scene, self.spots = scene, [self.spot(point) for point in scene.points]
        self.depth = {}
        for patch in scene.surface:
            for b, c in zip(patch[1:], patch[2:]):
                self.map_triangle(*(self.spots[point] for point in (patch[0], b, c)))

    def spot(self, point):
        x, y, z = (sum(a * b for a, b in zip(row, point)) for row in self.rows)
        scale = 0.46 * SIZE * math.sqrt(EYE * EYE - 1) / (EYE - z)
        return SIZE / 2 + scale * x, SIZE / 2 - scale * y, EYE - z

    def map_triangle(self, one, two, three):
        (ax, ay, a), (bx, by, b), (cx, cy, c) = ((x / CELL, y / CELL, z) for x, y, z in (one, two, three))
        area = (bx - ax) * (cy - ay) - (by - ay) * (cx - ax)
        if area == 0:
            return
        for y in range(math.floor(min(ay, by, cy)), math.ceil(max(ay, by, cy)) + 1):
            for x in range(math.floor(min(ax, bx, cx)), math.ceil(max(ax, bx, cx)) + 1):
                to_b = ((x - ax) * (cy - ay) - (y - ay) * (cx - ax)) / area
                to_c = ((bx - ax) * (y - ay) - (by - ay) * (x - ax)) / area
                if to_b >= 0 and to_c >= 0 and to_b + to_c <= 1:
                    depth = a + to_b * (b - a) + to_c * (c - a)
                    self.depth[x, y] = min(depth, self.depth.get((x, y), math.inf))

    def is_seen(self, spot):
        x, y = round(spot[0] / CELL), round(spot[1] / CELL)
        return any(self.depth.get((c, r), math.inf) > spot[2] - 0.03 for c in (x - 1, x, x + 1) for r in (y - 1, y, y + 1))

    def shade(self, patch):
        """The colour of a patch, by the direction in which it looks."""
        normal = [0.0, 0.0, 0.0]
        for p, q in zip(patch, patch[1:] + patch[:1]):
            p, q = self.scene.points[p], self.scene.points[q]
            for i in range(3):
                normal[i] += p[(i + 1) % 3] * q[(i + 2) % 3] - p[(i + 2) % 3] * q[(i + 1) % 3]
        right, up, near = (sum(a * b for a, b in zip(row, normal)) for row in self.rows)
        bright = abs(-0.35 * right + 0.55 * up + 0.76 * near) / (math.hypot(*normal) or 1.0)
        return "#%02x%02x%02x" % (round(172 + 70 * bright), round(186 + 60 * bright), round(201 + 50 * bright))


def surface(view):
    """The patches from the back to the front, and the edges over them."""
    spots, parts = view.spots, []
    for patch in sorted(view.scene.surface, key=lambda ring: -sum(spots[point][2] for point in ring) / len(ring)):
        shade = view.shade(patch)
        parts.append(path([spots[point][:2] for point in patch], closed=True, fill=shade, stroke=shade, stroke_width=0.5))
    lines = {True: "", False: ""}
    for u, v, *inner in view.scene.curves:
        ring = [u, *inner, v]
        for p, q in zip(ring, ring[1:]):
            middle = [(a + b) / 2 for a, b in zip(spots[p], spots[q])]
            lines[view.is_seen(middle)] += path_through([spots[p][:2], spots[q][:2]])
    for seen, opacity in ((False, 0.12), (True, 0.6)):
        if lines[seen]:
            parts.append(tag("path", d=lines[seen], fill="none", stroke="#3c4b5c", stroke_width=0.8, opacity=opacity))
    return "".join(parts)


def lanes_of(walks):
    """For each dart of some walks how far it runs to the right of its edge, so that darts of one edge lie side by side."""
    passes, lanes = {}, [[0.0] * len(walk) for walk in walks]
    for w, walk in enumerate(walks):
        for k, (u, v) in enumerate(zip(walk, walk[1:])):
            passes.setdefault(edge(u, v), ([], []))[u > v].append((w, k))
    for both in passes.values():
        middle = (len(both[0]) + len(both[1]) - 1) / 2
        for here, there in (both, both[::-1]):
            for k, (w, dart) in enumerate(here):
                lanes[w][dart] = len(there) + k - middle
    return lanes


def ribbon(view, walk, lanes):
    """The places that a walk passes, each dart cut into short pieces and moved to the right by its lane."""
    curves = {(curve[0], curve[1]): curve[2:] for curve in view.scene.curves}
    places = [view.spots[walk[0]]]
    for k, (u, v) in enumerate(zip(walk, walk[1:])):
        inner = curves[edge(u, v)]
        ring = [u, *(inner if u < v else inner[::-1]), v]
        dart = []
        for p, q in zip(ring, ring[1:]):
            (x0, y0, _), (x1, y1, _) = view.spots[p], view.spots[q]
            length = math.hypot(x1 - x0, y1 - y0) or 1.0
            aside, count = lanes[k] * LANE / length, max(1, round(length / 4))
            for j in range(count + 1):
                x, y, z = (a + (b - a) * j / count for a, b in zip(view.spots[p], view.spots[q]))
                dart.append((x - (y1 - y0) * aside, y + (x1 - x0) * aside, z))
        cut = min(2, (len(dart) - 1) // 3)
        places += dart[cut:len(dart) - cut]
    return places + [view.spots[walk[-1]]]


def blend(share):
    """The colour of the walk, dark at its start."""
    return "#%02x%02x%02x" % tuple(round(a + (b - a) * share) for a, b in zip(START, END))


def stroke(view, places, width, colours, opacity):
    """A ribbon that goes through some colours, thinner where the surface hides it."""
    marked, drawn = [(place[:2], view.is_seen(place)) for place in places], ""
    for part, colour in enumerate(colours):
        first, last = (k * (len(marked) - 1) // len(colours) for k in (part, part + 1))
        lines, before = {True: "", False: ""}, None
        for (p, here), (q, there) in zip(marked[first:last], marked[first + 1:last + 1]):
            seen = here and there
            lines[seen] += "L" + path_through([q])[1:] if seen is before else path_through([p, q])
            before = seen
        for seen, d in lines.items():
            style = {} if seen else {"stroke_dasharray": "3 3"}
            drawn += tag("path", d=d, stroke=colour, stroke_width=float(width if seen else min(width, 1.6)),
                         opacity=opacity if seen else opacity * 0.6, **style) if d else ""
    return tag("g", drawn, fill="none", stroke_linecap="round", stroke_linejoin="round")


def numbers(view):
    """The numbers of the vertices, where they are few."""
    used = sorted({point for curve in view.scene.curves for point in curve[:2]})
    parts = []
    for vertex in used if len(used) <= MOST_NUMBERED else []:
        x, y, _ = spot = view.spots[vertex]
        away = math.hypot(x - SIZE / 2, y - SIZE / 2) or 1.0
        parts.append(text(x + 11 * (x - SIZE / 2) / away, y + 11 * (y - SIZE / 2) / away, vertex, 10.5, class_="halo", font_weight="600",
                          opacity=1 if view.is_seen(spot) else 0.4))
    return "".join(parts)


def panel(view, walks, walk):
    """Both walks as bands, and one more walk as a line."""
    lanes, parts = lanes_of(walks), []
    for band, row, colour in zip(walks, lanes, (FIRST, SECOND)):
        parts.append(stroke(view, ribbon(view, band, row), 5.5, [colour], 0.5))
    colours = [blend(k / (PARTS - 1)) for k in range(PARTS)]
    parts.append(stroke(view, ribbon(view, walk, lanes_of([walk])[0]), 2.6, colours, 1))
    for vertex, colour in ((walk[-1], colours[-1]), (walk[0], colours[0])):
        parts.append(dot(*view.spots[vertex][:2], 4, fill=colour, stroke="#fff", stroke_width=1.3))
    return "".join(parts) + numbers(view)


def panels_picture(job, scene, walks, moves, chosen):
    """The panels in a row, the walk in each after a number of moves; and the box that they fill."""
    view = View(scene, job.view)
    parts = [tag("defs", tag("g", surface(view), id="mesh"))]
    for k, count in enumerate(chosen):
        walk = after_moves(job.mesh, job.sides, walks[0], moves.lines, count)
        told = "the first walk" if count == 0 else "after %d move%s" % (count, "" if count == 1 else "s")
        parts.append(tag("g", tag("use", href="#mesh") + panel(view, walks, walk) + text(SIZE / 2, SIZE + 8, told, 13, class_="quiet"),
                         transform="translate(%d 0)" % (k * SIZE)))
    return "".join(parts), (0, 0, SIZE * len(chosen), SIZE + 22)
