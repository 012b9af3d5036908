"""What a picture needs to know of a mesh: its edges, and whether the walks and the certificate are of it."""
from watching.texts import Fault


def edge(u, v):
    return (u, v) if u < v else (v, u)


def sides_of(faces):
    """For each edge the sides that lie in it, each as its face, its corner, and the vertices at its tail and head."""
    sides = {}
    for number, face in enumerate(faces):
        for corner, tail in enumerate(face):
            head = face[corner + 1 - len(face)]
            sides.setdefault(edge(tail, head), []).append((number, corner, tail, head))
    return sides


def neighbours_of(sides, vertices):
    around = [[] for _ in range(vertices)]
    for u, v in sides:
        around[u].append(v)
        around[v].append(u)
    return around


def component_of(sides, vertex):
    """The sides of the edges to which walks from a vertex lead."""
    around, reached, queue = {}, {vertex}, [vertex]
    for u, v in sides:
        around.setdefault(u, []).append(v)
        around.setdefault(v, []).append(u)
    for u in queue:
        queue += [v for v in dict.fromkeys(around[u]) if v not in reached]
        reached.update(around[u])
    return {e: both for e, both in sides.items() if e[0] in reached}


def vertices_of(mesh):
    """One more than the greatest vertex that a face names."""
    return 1 + max(map(max, mesh.faces))


def check_walks(mesh, sides, walks, path):
    """Both are walks of the mesh, and they have common ends."""
    used = {vertex for face in mesh.faces for vertex in face}
    for number, walk in enumerate(walks, 1):
        for vertex in walk:
            if vertex not in used:
                raise Fault("%s is not of the mesh %s: walk %d passes vertex %d, which no face names"
                            % (path, mesh.name, number, vertex))
        for tail, head in zip(walk, walk[1:]):
            if edge(tail, head) not in sides:
                raise Fault("%s is not of the mesh %s: walk %d passes from %d to %d, which is not an edge"
                            % (path, mesh.name, number, tail, head))
    for what, place in (("start", 0), ("end", -1)):
        if walks[0][place] != walks[1][place]:
            raise Fault("%s: the walks %s at different vertices, %d and %d"
                        % (path, what, walks[0][place], walks[1][place]))


def check_moves(mesh, moves):
    """No move names what the mesh has not: such a list is of another mesh. All else the page judges as it plays."""
    vertices = vertices_of(mesh)
    for number, line in enumerate(moves.lines, 1):
        words = line.split()
        if words[0] in "+-" and int(words[2]) >= vertices:
            missing = "vertex %s" % words[2]
        elif words[0] == "f" and int(words[2]) >= len(mesh.faces):
            missing = "face %s" % words[2]
        elif words[0] == "f" and int(words[3]) >= len(mesh.faces[int(words[2])]):
            missing = "corner %s of face %s" % (words[3], words[2])
        else:
            continue
        raise Fault("%s is a certificate of another mesh: move %d names %s, which %s has not"
                    % (moves.name, number, missing, mesh.name))


def signs_of(faces, sides):
    """A sign for each face, 1 or -1, so that the two sides of each edge run oppositely; nothing where there are none, where an
    edge has not two sides, or where the faces do not hang together."""
    if any(len(both) != 2 for both in sides.values()):
        return None
    signs, queue = {0: 1}, [0]
    for face in queue:
        for corner, tail in enumerate(faces[face]):
            one, two = sides[edge(tail, faces[face][corner + 1 - len(faces[face])])]
            other = two if one[:2] == (face, corner) else one
            sign = signs[face] if other[2] != tail else -signs[face]
            if other[0] not in signs:
                signs[other[0]] = sign
                queue.append(other[0])
            if signs[other[0]] != sign:
                return None
    return [signs[face] for face in range(len(faces))] if len(signs) == len(faces) else None


def darts_of(sides, signs):
    """For each dart, as its tail and head, the face along which it runs under the signs."""
    darts = {}
    for both in sides.values():
        for face, corner, tail, head in both:
            darts[(tail, head) if signs[face] == 1 else (head, tail)] = (face, corner)
    return darts
