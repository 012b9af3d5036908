"""A mesh of genus 1 without coordinates, laid flat with even tension and then round a torus.

A tree of edges and a cotree of faces leave two edges over. Each closes a ring of faces, and how often a dart crosses the two
rings tells how far it leads round the torus. So the mesh lies in a plane that repeats itself, each vertex drawn to the middle of
its neighbours, and the plane is rolled up along its two shortest ways round.
"""
import math

from watching.meshes import darts_of, edge, neighbours_of, signs_of

MOST_VERTICES = 3000
CURVE_PIECES_ROUND, PATCH_PIECES_ROUND = 40, 12
SURFACE = (60, 26)


def tree_of(around, start):
    """The edges of a tree from a vertex, nearest vertices first."""
    tree, seen, queue = set(), {start}, [start]
    for u in queue:
        for v in around[u]:
            if v not in seen:
                seen.add(v)
                tree.add(edge(u, v))
                queue.append(v)
    return tree


def way_up(face, above):
    """The darts that lead from a face up the cotree, each as it is crossed."""
    way = []
    while above[face] is not None:
        dart, face = above[face]
        way.append(dart)
    return way


def cotree_of(sides, darts, tree):
    """For each face the dart across which the cotree leads up, with the face there; and the edges left over."""
    across = {}
    for u, v in sides:
        if (u, v) not in tree:
            one, two = darts[u, v][0], darts[v, u][0]
            across.setdefault(one, []).append(((u, v), two))
            across.setdefault(two, []).append(((v, u), one))
    above, queue, used = {0: None}, [0], set()
    for face in queue:
        for (u, v), other in across.get(face, []):
            if other not in above:
                above[other] = ((v, u), face)
                used.add(edge(u, v))
                queue.append(other)
    return above, [e for e in sides if e not in tree and e not in used]


def crossings_of(mesh, sides, signs):
    """For each dart how often it crosses the two rings of faces; nothing where the mesh is not of genus 1."""
    darts = darts_of(sides, signs)
    above, over = cotree_of(sides, darts, tree_of(neighbours_of(sides, 1 + max(map(max, mesh.faces))), mesh.faces[0][0]))
    if len(over) != 2:
        return None
    crossed = {dart: [0, 0] for dart in darts}
    for axis, (u, v) in enumerate(over):
        ring = [(u, v)] + way_up(darts[v, u][0], above) + [(q, p) for p, q in way_up(darts[u, v][0], above)]
        for p, q in ring:
            crossed[p, q][axis] += 1
            crossed[q, p][axis] -= 1
    return crossed


def flat_points(crossed):
    """The place of each vertex in the plane: in the middle of its neighbours."""
    ends = {}
    for (u, v), (x, y) in crossed.items():
        ends.setdefault(u, []).append((v, x, y))
    points, haste = {u: (0.0, 0.0) for u in ends}, 2 / (1 + math.pi / (2 * math.sqrt(len(ends))))
    for _ in range(20 + 8 * math.isqrt(len(ends))):
        for u, row in ends.items():
            here, share = points[u], haste / len(row)
            x = sum(points[v][0] + dx for v, dx, _ in row) * share + (1 - haste) * here[0]
            y = sum(points[v][1] + dy for v, _, dy in row) * share + (1 - haste) * here[1]
            points[u] = (x, y)
    return points


def short_ways(steps):
    """The two shortest ways round, the longer one first, measured so that the darts lead evenly in all directions."""
    xx, xy, yy = (sum(step[i] * step[j] for step in steps) for i, j in ((0, 0), (0, 1), (1, 1)))

    def product(p, q):
        return (yy * p[0] * q[0] - xy * (p[0] * q[1] + p[1] * q[0]) + xx * p[1] * q[1]) / (xx * yy - xy * xy)

    long, short = (1, 0), (0, 1)
    while True:
        if product(long, long) < product(short, short):
            long, short = short, long
        times = round(product(long, short) / product(short, short))
        if times == 0:
            return long, short, math.sqrt(product(short, short) / product(long, long))
        long = (long[0] - times * short[0], long[1] - times * short[1])


class Torus:
    """Where the vertices of a mesh lie round a torus, and how far each dart leads round it, both in turns."""

    def __init__(self, crossed):
        flat = flat_points(crossed)
        steps = {(u, v): (flat[v][0] - flat[u][0] + x, flat[v][1] - flat[u][1] + y) for (u, v), (x, y) in crossed.items()}
        long, short, ratio = short_ways(steps.values())
        turn = long[0] * short[1] - long[1] * short[0]

        def turns(x, y):
            return (x * short[1] - y * short[0]) / turn, (long[0] * y - long[1] * x) / turn

        self.thickness = min(0.5, max(0.3, 0.7 * ratio))
        self.places = {u: turns(*point) for u, point in flat.items()}
        self.steps = {dart: turns(*step) for dart, step in steps.items()}

    def point(self, place):
        long, short = (2 * math.pi * turns for turns in place)
        out = 1 + self.thickness * math.cos(short)
        return [out * math.cos(long), out * math.sin(long), self.thickness * math.sin(short)]


def pieces(step, pieces_round):
    """Into how many pieces a way is cut that is bent."""
    return max(1, math.ceil(pieces_round * math.hypot(*step)))


def between(one, two, share):
    return tuple(a + (b - a) * share for a, b in zip(one, two))


def curves_of(torus, sides, points):
    """Each edge as a curve: the numbers of its points from its lower to its higher vertex. New points are put behind the others."""
    curves = []
    for u, v in sides:
        start, step = torus.places[u], torus.steps[u, v]
        end, count = (start[0] + step[0], start[1] + step[1]), pieces(step, CURVE_PIECES_ROUND)
        inner = range(len(points), len(points) + count - 1)
        points += [torus.point(between(start, end, k / count)) for k in range(1, count)]
        curves.append([u, v, *inner])
    return curves


def surface_of(torus, points):
    """The whole torus in small patches, each as four points. New points are put behind the others."""
    round_it, about = SURFACE
    first = len(points)
    points += [torus.point((i / round_it, j / about)) for i in range(round_it) for j in range(about)]

    def at(i, j):
        return first + i % round_it * about + j % about

    return [[at(i, j), at(i + 1, j), at(i + 1, j + 1), at(i, j + 1)] for i in range(round_it) for j in range(about)]


def patches_of(torus, faces, points):
    """For each face small triangles that cover it. New points are put behind the others."""
    patches = []
    for face in faces:
        ring = [torus.places[face[0]]]
        for u, v in zip(face, face[1:]):
            ring.append((ring[-1][0] + torus.steps[u, v][0], ring[-1][1] + torus.steps[u, v][1]))
        middle = tuple(sum(place[axis] for place in ring) / len(ring) for axis in (0, 1))
        corners = zip(ring, ring[1:] + ring[:1])
        patches.append([piece for one, two in corners for piece in split(torus, (middle, one, two), points)])
    return patches


def split(torus, corners, points):
    """A flat triangle cut into as many rows as its sides ask for."""
    middle, one, two = corners
    ways = [(b[0] - a[0], b[1] - a[1]) for a, b in ((middle, one), (one, two), (two, middle))]
    count, rows = max(pieces(way, PATCH_PIECES_ROUND) for way in ways), []
    for k in range(count + 1):
        left, right = between(middle, one, k / count), between(middle, two, k / count)
        rows.append(list(range(len(points), len(points) + k + 1)))
        points += [torus.point(between(left, right, j / k if k else 0)) for j in range(k + 1)]
    small = []
    for above, below in zip(rows, rows[1:]):
        small += [(above[j], below[j], below[j + 1]) for j in range(len(above))]
        small += [(above[j], below[j + 1], above[j + 1]) for j in range(len(above) - 1)]
    return small


def torus_of(mesh, sides):
    """The torus along which a mesh of genus 1 lies; nothing for any other mesh, or a very large one."""
    used = {vertex for face in mesh.faces for vertex in face}
    if len(used) - len(sides) + len(mesh.faces) or len(used) > MOST_VERTICES:
        return None
    signs = signs_of(mesh.faces, sides)
    crossed = signs and crossings_of(mesh, sides, signs)
    return Torus(crossed) if crossed else None
