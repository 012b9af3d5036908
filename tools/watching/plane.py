"""The picture of the plane that four spokes make: each spoke a unit step, and the two walks lead to two points."""
from watching.drawing import FIRST, SECOND, colour, dot, end, pairs_of, path, step, text

UNIT, MOST_TILED = 40.0, 40
STEPS = ((1, 0), (0, 1), (-1, 0), (0, -1))


def at(point):
    return point[0] * UNIT, -point[1] * UNIT


def moved(point, spoke, way=1):
    return point[0] + way * STEPS[spoke][0], point[1] + way * STEPS[spoke][1]


def ways(labels, walks):
    """For each walk the points it passes: for each dart one, or three where it has spokes."""
    found = []
    for walk in walks:
        here, darts = (0, 0), []
        for dart in zip(walk, walk[1:]):
            way = [here]
            for k, spoke in enumerate(labels.spokes(*dart)):
                way.append(moved(way[-1], spoke, -1 if k else 1))
            here = way[-1]
            darts.append(way)
        found.append(darts)
    return found


def window(points):
    """The least and the greatest of both coordinates, with room about the points, as a square."""
    lows, highs = ([pick(point[axis] for point in points) for axis in (0, 1)] for pick in (min, max))
    half = max(high - low for low, high in zip(lows, highs)) / 2 + 2
    middle = [(low + high) / 2 for low, high in zip(lows, highs)]
    return [int(m - half) - 1 for m in middle], [int(m + half) + 1 for m in middle], middle, half


def tiles(labels, low, high):
    """The squares that tile the plane, their sides in the colours of the pairs, and the points."""
    pairs, lines, marks = pairs_of(labels), {}, []
    if high[0] - low[0] > MOST_TILED:
        return []
    for x in range(low[0], high[0] + 1):
        for y in range(low[1], high[1] + 1):
            if (x + y) % 2 == 0:
                marks.append(dot(*at((x, y)), 3, fill="#7b8794"))
                continue
            marks.append(dot(*at((x, y)), 2.4, fill="#fff", stroke="#aab6c2"))
            corners = [moved((x, y), spoke, -1) for spoke in range(4)]
            for side in range(4):
                ends = tuple(sorted((corners[side], corners[(side + 1) % 4])))
                lines[ends] = colour(pairs[side]) if side in pairs else "#aab6c2"
    return [path(map(at, ends), stroke=shade, stroke_width=1.6, opacity=0.45) for ends, shade in sorted(lines.items())] + marks


def plane_picture(labels, walks, words):
    """The picture without its frame, and the box that it fills."""
    found = ways(labels, walks)
    passed = [(0, 0)] + [tuple(word) for word in words] + [point for darts in found for way in darts for point in way]
    low, high, middle, half = window(passed)
    parts = tiles(labels, low, high)
    for walk, darts in enumerate(found):
        for k, way in enumerate(darts):
            inner = path(map(at, way), class_="way", stroke_width=(6.5, 3.0)[walk], pathLength=1) if len(way) > 1 else ""
            parts.append(step(walk, k, inner))
    parts.append(dot(*at((0, 0)), 7, fill="none", stroke="#1d2733", stroke_width=2))
    # Each point is told on the side away from the other one.
    first_is_below = words[0][1] < words[1][1]
    for walk, word in enumerate(words):
        x, y = at(word)
        aside = 19 if first_is_below == (walk == 0) else -19
        parts.append(end(walk, dot(x, y, (6, 4.4)[walk], fill=(FIRST, SECOND)[walk], stroke="#fff")
                         + text(x, y + aside, "(%d, %d)" % tuple(word), 12, class_="halo", font_weight="700",
                                style="fill: %s" % (FIRST, SECOND)[walk])))
    left, top = (middle[0] - half) * UNIT, -(middle[1] + half) * UNIT
    return "".join(parts), (left, top, 2 * half * UNIT, 2 * half * UNIT)
