"""SVG, put together from strings."""
import math

FIRST, SECOND = "#1c6dd0", "#e07b00"
PAIRS = ("#2f9e44", "#9c36b5", "#0b7285", "#c2255c", "#7a8500", "#8d5524", "#5f3dc4", "#495057")
STYLE = """
text { font-family: system-ui, "DejaVu Sans", sans-serif; text-anchor: middle; dominant-baseline: central; fill: #1d2733; }
.quiet { fill: #5b6876; }
.halo { paint-order: stroke; stroke: #fff; stroke-width: .25em; stroke-linejoin: round; }
.face { fill: #eef2f6; stroke: #b4c0cc; stroke-width: .7; stroke-linejoin: round; }
.tree { fill: none; stroke: #52606d; stroke-width: 1.1; }
.spoke { stroke: #aab6c2; stroke-width: .8; stroke-dasharray: 2 2; }
.side, .step path { fill: none; stroke-linecap: round; stroke-linejoin: round; }
.step.first path { stroke: #1c6dd0; } .step.second path { stroke: #e07b00; }
.step .dart { opacity: .4; }
"""


def number(x):
    text = "%.2f" % x
    return text.rstrip("0").rstrip(".") if "." in text else text


def attributes(given):
    return "".join(' %s="%s"' % (name.rstrip("_").replace("_", "-"), number(value) if isinstance(value, float) else value)
                   for name, value in given.items())


def tag(name, inner=None, **given):
    return "<%s%s/>" % (name, attributes(given)) if inner is None else "<%s%s>%s</%s>" % (name, attributes(given), inner, name)


def text(x, y, words, size=6.0, **given):
    return tag("text", words, x=float(x), y=float(y), font_size=float(size), **given)


def dot(x, y, radius, **given):
    return tag("circle", cx=float(x), cy=float(y), r=float(radius), **given)


def path_through(points, closed=False):
    return "M" + "L".join("%s %s" % (number(x), number(y)) for x, y in points) + ("Z" if closed else "")


def path(points, closed=False, **given):
    return tag("path", d=path_through(points, closed), **given)


def arrow(tail, head, size, colour):
    """A small head in the middle of a way."""
    (x0, y0), (x1, y1) = tail, head
    length = math.hypot(x1 - x0, y1 - y0) or 1.0
    ux, uy = (x1 - x0) / length * size, (y1 - y0) / length * size
    x, y = (x0 + x1) / 2, (y0 + y1) / 2
    ring = [(x + ux, y + uy), (x - 0.8 * ux - 0.8 * uy, y - 0.8 * uy + 0.8 * ux), (x - 0.8 * ux + 0.8 * uy, y - 0.8 * uy - 0.8 * ux)]
    return path(ring, closed=True, fill=colour)


def letter(pair):
    """The name of a pair of glued sides."""
    return chr(ord("a") + pair % 26) + (str(pair // 26) if pair > 25 else "")


def colour(pair):
    return PAIRS[pair % len(PAIRS)]


def pairs_of(labels):
    """For each side of the polygon the number of its pair."""
    numbers = {}
    for side, partner in sorted(labels.partners().items()):
        numbers.setdefault(side, numbers.get(partner, len(set(numbers.values()))))
    return numbers


def svg(box, inner, title, **given):
    """A picture in a page that has the style; the box is its left, top, width and height."""
    return tag("svg", "<title>%s</title>%s" % (title, inner), xmlns="http://www.w3.org/2000/svg",
               viewBox=" ".join(map(number, box)), **given)


def alone(box, inner, title):
    """A picture by itself."""
    return svg(box, "<style>%s</style>%s" % (STYLE, inner), title)


def step(walk, at, inner):
    """What a dart adds to a picture; the page shows it when it plays."""
    return tag("g", inner, class_="step %s" % ("first", "second")[walk], data_walk=walk, data_at=at)


def end(walk, inner):
    """Where a walk ends in a picture; the page shows it when the walk is led to its end."""
    return tag("g", inner, class_="end", data_walk=walk)
