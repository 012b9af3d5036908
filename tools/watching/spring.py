"""Places in space for a mesh without coordinates: springs between vertices, as long as the fewest darts between them.

The springs lead from each vertex to its neighbours and to a few pivots that stand far apart (on a small mesh every vertex is a
pivot). Nothing here is random, so a mesh has one picture.
"""
import math

MOST_SPRINGS = 600_000
GOLDEN_TURN = math.pi * (3 - math.sqrt(5))


def distances_from(start, around):
    """The fewest darts from a vertex to each other one, with nothing where none lead."""
    darts, queue = {start: 0}, [start]
    for u in queue:
        for v in around[u]:
            if v not in darts:
                darts[v] = darts[u] + 1
                queue.append(v)
    return darts


def pivots_of(used, around):
    """Vertices far from one another, each with the distances from it."""
    most = max(4, min(len(used), MOST_SPRINGS // (20 * len(used))))
    nearest, pivots = {u: math.inf for u in used}, {}
    while len(pivots) < most:
        pivot = max(used, key=lambda u: (nearest[u], -u))
        pivots[pivot] = distances_from(pivot, around)
        for u in used:
            nearest[u] = min(nearest[u], pivots[pivot].get(u, len(used)))
    return pivots


def first_points(used, pivots):
    """A start for the springs: distances from the first three pivots, and a little off, so that no three are in line."""
    chosen, points = list(pivots.values())[:3], {}
    for k, u in enumerate(used):
        turn = GOLDEN_TURN * k
        off = (math.cos(turn), math.sin(turn), math.cos(1.7 * turn))
        points[u] = [darts.get(u, len(used)) + 0.3 * o for darts, o in zip(chosen, off)]
    return points


def pulled(point, springs, points):
    """Where a vertex comes to rest if all the others stand still, each spring as strong as it is short."""
    x = y = z = total = 0.0
    for v, length in springs:
        there = points[v]
        dx, dy, dz = point[0] - there[0], point[1] - there[1], point[2] - there[2]
        scale = length / (math.sqrt(dx * dx + dy * dy + dz * dz) or 1.0)
        weight = 1.0 / (length * length)
        x += weight * (there[0] + dx * scale)
        y += weight * (there[1] + dy * scale)
        z += weight * (there[2] + dz * scale)
        total += weight
    return [x / total, y / total, z / total]


def spring_points(around):
    """A place for each vertex; one that no face names is put in the middle."""
    used = [u for u, ends in enumerate(around) if ends]
    pivots = pivots_of(used, around)
    far = 1 + max(max(darts.values()) for darts in pivots.values())
    springs = {u: {v: 1 for v in around[u]} for u in used}
    for u in used:
        springs[u].update((pivot, darts.get(u, far)) for pivot, darts in pivots.items() if pivot != u)
    links = {u: list(row.items()) for u, row in springs.items()}
    points = first_points(used, pivots)
    for _ in range(max(20, min(200, 20 * MOST_SPRINGS // sum(map(len, links.values())) // 4))):
        for u in used:
            points[u] = pulled(points[u], links[u], points)
    return [points.get(u, [0.0, 0.0, 0.0]) for u in range(len(around))]
