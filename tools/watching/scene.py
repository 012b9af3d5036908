"""A mesh in space as the page draws it: its points, its edges as curves, and what is painted of its faces."""
import math
from collections import namedtuple

from watching.meshes import neighbours_of, vertices_of
from watching.spring import spring_points
from watching.torus import curves_of, patches_of, surface_of, torus_of

# The surface is painted as patches, each a ring of points. `pieces` is nothing where patch k is face k, and else has for each
# face the patches that cover it.
Scene = namedtuple("Scene", "points curves surface pieces told")

FROM_FILE = "The vertices stand where the mesh file puts them."
ROUND_TORUS = "The mesh file has no coordinates. The mesh is of genus 1, and was laid round a torus with even tension."
BY_SPRINGS = "The mesh file has no coordinates. Springs along the edges put the vertices where they stand."


def centred(points, used):
    """The points moved and scaled so that the used ones fill a ball of radius 1 about 0: its middle is drawn to the farthest point
    again and again, each time less far."""
    largest = max(abs(x) for u in used for x in points[u]) or 1.0
    points = [[x / largest for x in point] for point in points]
    kept = [points[u] for u in used]
    middle = [sum(point[axis] for point in kept) / len(kept) for axis in range(3)]
    for k in range(2, 80):
        far = max(kept, key=lambda point: math.dist(point, middle))
        middle = [m + (x - m) / k for m, x in zip(middle, far)]
    reach = max(math.dist(point, middle) for point in kept) or 1.0
    return [[round((x - m) / reach, 3) for x, m in zip(point, middle)] for point in points]


def scene_of(mesh, sides):
    """The mesh by its coordinates, round a torus, or by springs, whichever of these comes first."""
    used = sorted({vertex for face in mesh.faces for vertex in face})
    edges = [[u, v] for u, v in sides]
    if mesh.points:
        zero = [0.0, 0.0, 0.0]
        return Scene(centred([point or zero for point in mesh.points], used), edges, mesh.faces, None, FROM_FILE)
    torus = torus_of(mesh, sides)
    if not torus:
        points = centred(spring_points(neighbours_of(sides, vertices_of(mesh))), used)
        return Scene(points, edges, mesh.faces, None, BY_SPRINGS)
    points = [torus.point(torus.places.get(u, (0, 0))) for u in range(vertices_of(mesh))]
    curves = curves_of(torus, sides, points)
    pieces, surface = patches_of(torus, mesh.faces, points), surface_of(torus, points)
    return Scene(centred(points, range(len(points))), curves, surface, pieces, ROUND_TORUS)
