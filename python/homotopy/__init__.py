"""Whether walks on polygon meshes are homotopic: the library homotopy_c, by ctypes alone.

A mesh is a vertex count and its faces: a sequence of faces, each the numbers of its corners; or an array of numpy of shape (n, k), n faces
of k corners; or `Faces`, which has the sizes and the corners in two arrays. A walk is a sequence or an array of vertex numbers.

Numbers are whole, from 0 to 4,294,967,295; anything else is refused by name (TypeError, ValueError, OverflowError). An array of numpy of
32 bits without a sign, contiguous and aligned, is lent to the library as it is, and must not be changed by another thread during the call;
all else is copied, once. Calls let other threads run. Where memory is wanting a call raises MemoryError.

The shared library is the one that the variable LIBHOMOTOPY names, or else the one of this package, of the system, or of the repository.
"""
import array
import collections
import ctypes
import enum
import itertools
import operator
import threading

from ._library import Component as _Component, Handle, Numbers, Outcome, call, line_of, text_of

try:
    import numpy
except ImportError:
    numpy = None

__version__ = "1.1.0"
__all__ = ["Answer", "Component", "Faces", "Mesh", "Refused", "Surface", "Verdict", "certify", "components", "decide", "decide_any",
           "homology", "surface", "verify", "verify_homology"]

_SHORT_ROOM, _NO_MEMORY, _ACCEPTED = 4, 5, 3
_REJECTED = range(50, 70)
# The least and the most of the numbers of an array, by its code.
_BOUNDS = {"I": (0, 2**32 - 1), "q": (-2**63, 2**63 - 1)}
# What Python takes for a number, and is none.
_BOOLEANS = {bool} if numpy is None else {bool, numpy.bool_}

Faces = collections.namedtuple("Faces", "sizes corners")
Faces.__doc__ = "The faces of a mesh in two arrays: the number of corners of each face, and the corners of all faces, face after face."

Surface = collections.namedtuple("Surface", "vertices edges faces euler genera")
Surface.__doc__ = """The numbers of an orientable closed surface: of the vertices that some face names, of edges and faces, the Euler
characteristic, and the genus of each piece, in the order of their least vertices."""


Component = collections.namedtuple("Component", "vertices edges faces genus")
Component.__doc__ = "The numbers of one piece of an orientable closed surface, and its genus."


class Answer(enum.IntEnum):
    """What is answered of a pair of walks: one of the first two, of the next two of closed walks, or of the next two by homology; or what
    is first wrong with them."""

    HOMOTOPIC = 1
    DIFFERENT = 2
    FREELY_HOMOTOPIC = 7
    NOT_FREELY_HOMOTOPIC = 8
    HOMOLOGOUS = 9
    NOT_HOMOLOGOUS = 16
    EMPTY_WALK = 31
    LONG_WALK = 32
    NO_VERTEX = 33
    NO_EDGE = 34
    STARTS_DIFFER = 35
    ENDS_DIFFER = 36
    OPEN_WALK = 37

    def __str__(self):
        return self.name.lower().replace("_", " ")


class Verdict(collections.namedtuple("Verdict", "accepted reason")):
    """What comes of a certificate: true where it is accepted. Else `reason` says what is first against it."""

    __slots__ = ()

    def __bool__(self):
        return self.accepted


class Refused(ValueError):
    """The mesh, the walks or the certificate are none of which the question can be asked, for the reason that the message tells.

    `code` and `numbers` are those of homotopy.h, and `line` is what the program prints, empty where it has no words for it.
    """

    def __init__(self, outcome):
        self.code, self.numbers = outcome.code, tuple(outcome.numbers)
        self.line = line_of(self.code).format(*self.numbers)
        super().__init__(text_of(self.code).format(*self.numbers) or "code %d" % self.code)


def _check(outcome):
    if outcome.code == _NO_MEMORY:
        raise MemoryError("homotopy: " + text_of(_NO_MEMORY))
    if outcome.code:
        raise Refused(outcome)


def _is_whole(item):
    return hasattr(item, "__index__") and type(item) not in _BOOLEANS


def _refuse(item, place, what, code="I"):
    """Raises what is wrong with a number of an array."""
    where = "%s: place %d" % (what, place)
    if not _is_whole(item):
        raise TypeError("%s has %r, which is no whole number" % (where, item))
    number, (least, most) = operator.index(item), _BOUNDS[code]
    beyond = "below {:,}".format(least) if number < least else "more than {:,}".format(most)
    raise OverflowError("%s has %d, which is %s" % (where, number, beyond))


def _copied(items, what, code="I"):
    """The numbers of a sequence, as an array with this code: of 32 bits each, or of 64 with a sign."""
    if isinstance(items, (str, bytes, bytearray, dict, set, frozenset)):
        raise TypeError("%s is of the type %s, and not a sequence of numbers" % (what, type(items).__name__))
    try:
        items = list(items)
    except TypeError:
        raise TypeError("%s is of the type %s, and not a sequence of numbers" % (what, type(items).__name__)) from None
    try:
        if not _BOOLEANS.isdisjoint(map(type, items)):
            raise TypeError
        return array.array(code, items)
    except (TypeError, OverflowError):
        least, most = _BOUNDS[code]
        for place, item in enumerate(items):
            if not _is_whole(item) or not least <= operator.index(item) <= most:
                _refuse(item, place, what, code)
        raise


def _is_array(items):
    return numpy is not None and isinstance(items, numpy.ndarray)


def _of_numpy(items, dimensions, what):
    """An array of numpy as one of 32 bits without a sign, contiguous and aligned; itself where it is that."""
    if isinstance(items, numpy.ma.MaskedArray):
        raise TypeError("%s is a masked array: fill or compress it first" % what)
    if items.dtype.kind not in "iu":
        raise TypeError("%s is an array of %s, and not of whole numbers" % (what, items.dtype))
    if items.ndim != dimensions:
        raise ValueError("%s is an array of %d dimensions, and not of %d" % (what, items.ndim, dimensions))
    if items.size and items.dtype != numpy.uint32:
        for number in (items.min(), items.max()):
            if not 0 <= int(number) < 2**32:
                _refuse(int(number), int((items == number).argmax()), what)
    return numpy.require(items, dtype=numpy.uint32, requirements="CA")


class _Lent:
    """An array as the library takes it: `address` and `length`, valid as long as this object is there. It is never empty."""

    def __init__(self, held, address, length):
        self.held, self.words = held, (address, length)

    @classmethod
    def of(cls, items, what, dimensions=1):
        if _is_array(items):
            numbers = _of_numpy(items, dimensions, what)
            if numbers.size:
                return cls(numbers, numbers.ctypes.data, numbers.size)
            items = ()
        return cls._of_array(items if isinstance(items, array.array) and items.typecode == "I" else _copied(items, what))

    @classmethod
    def of_signed(cls, items, what):
        """The same of numbers of 64 bits with a sign, which are copied."""
        return cls._of_array(_copied(items, what, "q"))

    @classmethod
    def _of_array(cls, numbers):
        held = numbers or array.array(numbers.typecode, [0])
        return cls(held, held.buffer_info()[0], len(numbers))


def _mesh(vertices, faces):
    """The words of a call for a mesh, and what is to be kept meanwhile."""
    if not _is_whole(vertices):
        raise TypeError("the vertex count is %r, which is no whole number" % (vertices,))
    count = operator.index(vertices)
    if not 0 <= count < 2**32:
        raise OverflowError("the vertex count is %d, which is %s" % (count, "below 0" if count < 0 else "more than 4,294,967,295"))
    sizes, corners = _faces(faces)
    return (count, *sizes.words, *corners.words), (sizes, corners)


def _faces(faces):
    if isinstance(faces, Faces):
        return _Lent.of(faces.sizes, "the array of sizes"), _Lent.of(faces.corners, "the array of corners")
    if _is_array(faces):
        corners = _Lent.of(faces, "the array of faces", 2)
        return _Lent.of(numpy.full(faces.shape[0], faces.shape[1], dtype=numpy.uint32), "the array of sizes"), corners
    if isinstance(faces, (str, bytes)) or not hasattr(faces, "__iter__"):
        raise TypeError("the faces are of the type %s, and not a sequence of faces" % type(faces).__name__)
    faces = list(faces)
    try:
        corners = _Lent.of(_copied(itertools.chain.from_iterable(faces), "the faces"), "the faces")
    except (TypeError, OverflowError):
        for number, face in enumerate(faces):
            _Lent.of(face, "face %d" % number)
        raise
    return _Lent.of(array.array("I", map(len, faces)), "the sizes"), corners


def _listed(walks):
    """The sizes and the vertices of walks that come with their names."""
    sizes, vertices = array.array("I"), array.array("I")
    for what, walk in walks:
        lent = _of_numpy(walk, 1, what).tobytes() if _is_array(walk) else _copied(walk, what).tobytes()
        sizes.append(len(lent) // 4)
        vertices.frombytes(lent)
    return _Lent.of(sizes, "the sizes"), _Lent.of(vertices, "the walks")


def _in_pairs(pairs):
    """The walks of all pairs, with their names."""
    for number, pair in enumerate(pairs):
        if isinstance(pair, (str, bytes)) or not hasattr(pair, "__len__"):
            raise TypeError("pair %d is of the type %s, and not a sequence of two walks" % (number, type(pair).__name__))
        if len(pair) != 2:
            raise ValueError("pair %d has %d walks, and not 2" % (number, len(pair)))
        for place, walk in enumerate(pair, 1):
            yield "walk %d of pair %d" % (place, number), walk


def surface(vertices, faces):
    """The numbers of an orientable closed surface, and the genus of each of its pieces. Refused where the mesh is none."""
    mesh, _kept = _mesh(vertices, faces)
    numbers, outcome, room = Numbers(), Outcome(), 16
    while True:
        genera = (ctypes.c_uint32 * room)()
        call("homotopy_surface", *mesh, numbers, ctypes.addressof(genera), room, outcome)
        if outcome.code != _SHORT_ROOM:
            break
        room = outcome.numbers[0]
    _check(outcome)
    return Surface(numbers.vertices, numbers.edges, numbers.faces, numbers.euler, genera[:numbers.components])


def components(vertices, faces):
    """The components of an orientable closed surface, in the order of their least vertices, and for each vertex which one it is of.

    The second list has a place in the first for each vertex of the mesh, and for one that no face names the length of the first. Refused
    where the mesh is no orientable closed surface.
    """
    mesh, _kept = _mesh(vertices, faces)
    # Room for all vertices where there are no more than corners.
    outcome, room, vertex_room = Outcome(), 16, min(mesh[0], mesh[-1]) + 1
    while True:
        numbers, places = (_Component * room)(), (ctypes.c_uint32 * vertex_room)()
        call("homotopy_components", *mesh, ctypes.addressof(numbers), room, ctypes.addressof(places), vertex_room, outcome)
        if outcome.code != _SHORT_ROOM:
            break
        room, vertex_room = max(room, outcome.numbers[0]), outcome.numbers[1]
    _check(outcome)
    found = [Component(one.vertices, one.edges, one.faces, one.genus) for one in numbers[:outcome.numbers[0]]]
    return found, places[:mesh[0]]


def _decided(pairs, ask):
    """The `Answer` on each pair: `ask` makes the call, of the words for the pairs and an outcome."""
    sizes, entries = _listed(_in_pairs(pairs))
    count, outcome = sizes.words[1] // 2, Outcome()
    answers = ctypes.create_string_buffer(max(count, 1))
    ask(*sizes.words, *entries.words, ctypes.addressof(answers), count, outcome)
    _check(outcome)
    return [Answer(code) for code in answers.raw[:count]]


def decide(vertices, faces, pairs):
    """The `Answer` on each pair of walks, in order, on an orientable closed surface. Refused where the mesh is none."""
    mesh, _kept = _mesh(vertices, faces)
    return _decided(pairs, lambda *words: call("homotopy_decide", *mesh, *words))


def decide_any(vertices, faces, pairs):
    """The `Answer` on each pair of walks, in order, on a surface of any kind, closed or with boundary, orientable or not.

    Refused where an edge is in three sides or more, or a vertex is pinched; and where the double of a mesh with boundary, or the cover of
    one that is not orientable, would have more than 1,000,000 vertices or 4,000,000 corners.
    """
    mesh, _kept = _mesh(vertices, faces)
    return _decided(pairs, lambda *words: call("homotopy_decide_any", *mesh, *words))


class Mesh:
    """An orientable closed surface that is kept, so that walks can be asked about as they come. Refused where the mesh is none.

    With `any_kind` it is a surface of any kind, closed or with boundary, orientable or not. It is given back by `close`, at the end of a
    `with`, or when nothing names it any more. Threads that ask it wait for one another.
    """

    def __init__(self, vertices, faces, *, any_kind=False):
        self._handle, self._asking = Handle(), threading.Lock()
        mesh, _kept = _mesh(vertices, faces)
        outcome = Outcome()
        call("homotopy_mesh_new_any" if any_kind else "homotopy_mesh_new", *mesh, self._handle, outcome)
        _check(outcome)

    def decide(self, pairs):
        """The `Answer` on each pair of walks, in order, as the function `decide` gives it. Refused where the mesh was given back."""
        with self._asking:
            return _decided(pairs, lambda *words: call("homotopy_mesh_decide", self._handle, *words))

    def loops(self, pairs):
        """The `Answer` on each pair of closed walks, in order: whether one can be moved to the other with no vertex held fast.

        Refused where the surface is not orientable.
        """
        with self._asking:
            return _decided(pairs, lambda *words: call("homotopy_mesh_loops", self._handle, *words))

    def classes(self, walks):
        """For each walk the place of the first one with the same ends that is homotopic to it, counted from 0.

        Two numbers are equal exactly where the walks have common ends and are homotopic. Refused, with the number of the walk, counted
        from 1, where one is no walk of the surface; and where the mesh was given back.
        """
        sizes, entries = _listed(("walk %d" % number, walk) for number, walk in enumerate(walks, 1))
        count, outcome = sizes.words[1], Outcome()
        numbers = (ctypes.c_size_t * max(count, 1))()
        with self._asking:
            call("homotopy_mesh_classes", self._handle, *sizes.words, *entries.words, ctypes.addressof(numbers), count, outcome)
        _check(outcome)
        return numbers[:count]

    def close(self):
        """Gives the mesh back. It may be given back again."""
        with self._asking:
            call("homotopy_mesh_free", self._handle)

    def __enter__(self):
        return self

    def __exit__(self, *_error):
        self.close()

    def __del__(self):
        if "_handle" in self.__dict__:
            call("homotopy_mesh_free", self._handle)


def certify(vertices, faces, first, second):
    """HOMOTOPIC or DIFFERENT, with the text (bytes) that shows it: a list of moves, or a denial.

    Refused where the mesh is no orientable closed surface, the walks are none of it with common ends, or there are more than 16,384
    corners or 512 darts of both walks.
    """
    mesh, _kept = _mesh(vertices, faces)
    one, other, outcome, room = _Lent.of(first, "the first walk"), _Lent.of(second, "the second walk"), Outcome(), 65536
    while True:
        text = ctypes.create_string_buffer(room)
        call("homotopy_certify", *mesh, *one.words, *other.words, ctypes.addressof(text), room, outcome)
        if outcome.code != _SHORT_ROOM:
            break
        room = outcome.numbers[0]
    if outcome.code in (Answer.HOMOTOPIC, Answer.DIFFERENT):
        return Answer(outcome.code), ctypes.string_at(text, outcome.numbers[0])
    return _check(outcome)


def homology(vertices, faces, first, second, *, any_kind=False):
    """HOMOLOGOUS or NOT_HOMOLOGOUS, with the numbers that show it: of a chain for each face, or of a cocycle for each side.

    Of a chain, the two sides of each edge, with the numbers of their faces, add up to what the first walk runs along it more than the
    second. A cocycle has a number for each corner, that of the side from it to the next one of its face: round each face they add up to 0,
    and along the two walks to different sums. Refused where the mesh is no orientable closed surface, or the walks are none of it with
    common ends. With `any_kind` the surface may have boundary too.
    """
    mesh, _kept = _mesh(vertices, faces)
    one, other, outcome = _Lent.of(first, "the first walk"), _Lent.of(second, "the second walk"), Outcome()
    room, name = mesh[-1], "homotopy_homology_any" if any_kind else "homotopy_homology"
    numbers = (ctypes.c_int64 * max(room, 1))()
    call(name, *mesh, *one.words, *other.words, ctypes.addressof(numbers), room, outcome)
    if outcome.code in (Answer.HOMOLOGOUS, Answer.NOT_HOMOLOGOUS):
        return Answer(outcome.code), numbers[:outcome.numbers[0]]
    return _check(outcome)


def verify(vertices, faces, first, second, certificate):
    """The `Verdict` on a certificate (bytes) between two walks of a mesh, which need be no surface."""
    if not isinstance(certificate, (bytes, bytearray, memoryview)):
        raise TypeError("the certificate is of the type %s, and not bytes" % type(certificate).__name__)
    mesh, _kept = _mesh(vertices, faces)
    one, other, outcome, text = _Lent.of(first, "the first walk"), _Lent.of(second, "the second walk"), Outcome(), bytes(certificate)
    call("homotopy_verify", *mesh, *one.words, *other.words, text, len(text), outcome)
    return _verdict(outcome)


def verify_homology(vertices, faces, first, second, answer, numbers):
    """The `Verdict` on numbers that are to show of two walks of a mesh, which need be no surface, what `answer` says.

    That is HOMOLOGOUS, and the numbers are a chain, one for each face; or NOT_HOMOLOGOUS, and they are a cocycle that separates the walks,
    one for each side. Both are as `homology` gives them.
    """
    mesh, _kept = _mesh(vertices, faces)
    one, other, outcome = _Lent.of(first, "the first walk"), _Lent.of(second, "the second walk"), Outcome()
    shown = _Lent.of_signed(numbers, "the array of numbers")
    call("homotopy_verify_homology", *mesh, *one.words, *other.words, int(Answer(answer)), *shown.words, outcome)
    return _verdict(outcome)


def _verdict(outcome):
    if outcome.code == _ACCEPTED:
        return Verdict(True, None)
    if outcome.code in _REJECTED:
        return Verdict(False, text_of(outcome.code).format(*outcome.numbers))
    return _check(outcome)
