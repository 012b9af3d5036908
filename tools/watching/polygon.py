"""The picture of the surface cut open: the polygon with its glued sides, the labels at the corners of the faces, and the two walks
as paths of spokes."""
import math

from watching.drawing import FIRST, SECOND, arrow, colour, dot, letter, pairs_of, path, path_through, step, tag, text
from watching.unfold import on_circle

RADIUS, BOX = 100.0, (-124.0, -124.0, 248.0, 248.0)
MOST_NUMBERED, MOST_LABELLED = 64, 150
INNER, LANE, LABEL_ROOM = 16.0, 2.6, 2.5


def corner_labels(outline, face, places):
    """The label of each corner of a face, inside the corner; none where the corner is too narrow for it."""
    for k, (label, here) in enumerate(zip(outline.labels.rows[face][1], places)):
        ways = [(there[0] - here[0], there[1] - here[1]) for there in (places[k - 1], places[k + 1 - len(places)])]
        lengths = [math.hypot(*way) for way in ways]
        x, y = (sum(way[axis] / length for way, length in zip(ways, lengths)) for axis in (0, 1))
        inward = math.hypot(x, y) / 2
        away = max(7.0, LABEL_ROOM / math.sqrt(max(1e-9, 1 - inward * inward)))
        if inward > 0.05 and away < 0.62 * min(lengths):
            yield text(here[0] + away * x / inward / 2, here[1] + away * y / inward / 2, label, 5.2, class_="quiet")


def has_labels(outline):
    """Whether the labels are few enough to be drawn."""
    return len(outline.starts) <= MOST_LABELLED


def faces(outline):
    rings = {face: [on_circle(turns, RADIUS) for turns in outline.corners(face)] for face in outline.faces}
    parts = [tag("path", d="".join(path_through(ring, closed=True) for ring in rings.values()), class_="face")]
    if has_labels(outline):
        parts += [mark for face, ring in rings.items() for mark in corner_labels(outline, face, ring)]
    return parts


def side_mark(outline, side, pair):
    """A side of the polygon in the colour of its pair, with the way from its lower to its higher vertex, and its letter."""
    start, end = (on_circle(turns, RADIUS) for turns in outline.angles[side])
    tail, head = (start, end) if outline.labels.ends(side)[0][0] < outline.labels.ends(side)[1][0] else (end, start)
    middle = on_circle(sum(outline.angles[side]) / 2, RADIUS + 7)
    return [path([start, end], class_="side", stroke=colour(pair), stroke_width=2.8), arrow(tail, head, 4.0, colour(pair)),
            text(*middle, letter(pair), 8, font_weight="700", style="fill: %s" % colour(pair))]


def rim(outline):
    """The outline: tree darts, the sides of the polygon, and the numbers of the vertices where they are few."""
    pairs, parts = pairs_of(outline.labels), []
    trees = [outline.angles[side] for side in outline.ring if not outline.is_side(side)]
    parts.append(tag("path", d="".join(path_through([on_circle(turns, RADIUS) for turns in both]) for both in trees) or "M0 0",
                     class_="tree"))
    for side in outline.ring:
        if outline.is_side(side):
            parts += side_mark(outline, side, pairs[outline.label(side)])
    if len(outline.ring) <= MOST_NUMBERED:
        for side in outline.ring:
            tail = on_circle(outline.angles[side][0], RADIUS + 6.5)
            parts.append(text(*tail, outline.labels.ends(side)[0][0], 6, font_weight="600"))
    return parts


def spokes(outline):
    """The spokes with their numbers, outside the outline."""
    parts = []
    for spoke, turns in enumerate(outline.spoke_angles()):
        x, y = on_circle(turns, RADIUS + 17)
        parts.append(tag("line", x1=0, y1=0, x2=float(x * 0.86), y2=float(y * 0.86), class_="spoke"))
        parts.append(dot(x, y, 5.4, fill="#fff", stroke="#8795a3", stroke_width=0.8))
        parts.append(text(x, y, spoke, 6.4, font_weight="700"))
    return parts + [dot(0, 0, 2.4, fill="#fff", stroke="#52606d", stroke_width=1.1)]


class Lanes:
    """Room for each time that a spoke is passed, side by side."""

    def __init__(self, labels, walks):
        passed = [spoke for walk in walks for dart in zip(walk, walk[1:]) for spoke in labels.spokes(*dart)]
        self.most = {spoke: passed.count(spoke) for spoke in set(passed)}
        self.taken = dict.fromkeys(self.most, 0)

    def next(self, spoke):
        lane = self.taken[spoke] - (self.most[spoke] - 1) / 2
        self.taken[spoke] += 1
        return lane * min(LANE, 24 / self.most[spoke])


def moved(turns, aside, radius):
    """A place on a spoke, moved aside."""
    x, y = on_circle(turns, radius)
    nx, ny = on_circle(turns + 0.25, aside)
    return x + nx, y + ny


def spoke_path(angles, pair, lanes):
    """In along the one spoke and out along the other, as the path of a picture."""
    into, out = [(angles[spoke], lanes.next(spoke)) for spoke in pair]
    places = [moved(*into, RADIUS - 1), moved(*into, INNER), moved(*out, INNER), moved(*out, RADIUS - 1)]
    return "M%.1f %.1fL%.1f %.1fQ0 0 %.1f %.1fL%.1f %.1f" % tuple(x for place in places for x in place)


def steps(outline, walks):
    """What each dart of the walks adds: the dart itself where it lies in the polygon, and its spokes."""
    labels, angles, parts = outline.labels, outline.spoke_angles(), []
    lanes = Lanes(labels, walks)
    for walk, vertices in enumerate(walks):
        for at, (u, v) in enumerate(zip(vertices, vertices[1:])):
            side = labels.along(u, v)
            ends = [on_circle(outline.angle_at(there), RADIUS) for there in (side, outline.following(side))]
            inner = path(ends, class_="dart", stroke_width=(4.2, 2.0)[walk])
            pair = labels.spokes(u, v)
            if pair:
                d = spoke_path(angles, pair, lanes)
                inner += tag("path", d=d, class_="way", stroke_width=2.2, pathLength=1)
                x, y = moved_end(d)
                inner += dot(x, y, 2.6, fill=(FIRST, SECOND)[walk], class_="tip")
            parts.append(step(walk, at, inner))
    return parts


def moved_end(d):
    """The place at which a path ends."""
    return tuple(map(float, d.rsplit("L", 1)[1].split()))


def polygon_picture(outline, walks):
    """All of it, without the frame."""
    return "".join(faces(outline) + spokes(outline) + rim(outline) + steps(outline, walks))
