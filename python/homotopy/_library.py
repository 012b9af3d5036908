"""The shared library of homotopy.h, found and loaded."""
import ctypes
import os

HERE = os.path.dirname(os.path.realpath(__file__))
NAME = "libhomotopy.so.1"


class Outcome(ctypes.Structure):
    _fields_ = [("code", ctypes.c_uint32), ("numbers", ctypes.c_uint64 * 3)]


class Numbers(ctypes.Structure):
    _fields_ = [("vertices", ctypes.c_uint32), ("edges", ctypes.c_uint32), ("faces", ctypes.c_uint32), ("euler", ctypes.c_int64),
                ("components", ctypes.c_uint64)]


class Component(ctypes.Structure):
    _fields_ = [("vertices", ctypes.c_uint32), ("edges", ctypes.c_uint32), ("faces", ctypes.c_uint32), ("genus", ctypes.c_uint32)]


class Handle(ctypes.Structure):
    """What a mesh is kept by: null where there is none."""

    _fields_ = [("kept", ctypes.c_void_p)]


_ARRAY = [ctypes.c_void_p, ctypes.c_size_t]
_ENDING = [ctypes.POINTER(Outcome)]
_ARGUMENTS = {
    "homotopy_surface": [ctypes.c_uint32] + 2 * _ARRAY + [ctypes.POINTER(Numbers)] + _ARRAY + _ENDING,
    "homotopy_components": [ctypes.c_uint32] + 4 * _ARRAY + _ENDING,
    "homotopy_decide": [ctypes.c_uint32] + 5 * _ARRAY + _ENDING,
    "homotopy_decide_any": [ctypes.c_uint32] + 5 * _ARRAY + _ENDING,
    "homotopy_mesh_new": [ctypes.c_uint32] + 2 * _ARRAY + [ctypes.POINTER(Handle)] + _ENDING,
    "homotopy_mesh_new_any": [ctypes.c_uint32] + 2 * _ARRAY + [ctypes.POINTER(Handle)] + _ENDING,
    "homotopy_mesh_decide": [ctypes.POINTER(Handle)] + 3 * _ARRAY + _ENDING,
    "homotopy_mesh_loops": [ctypes.POINTER(Handle)] + 3 * _ARRAY + _ENDING,
    "homotopy_mesh_classes": [ctypes.POINTER(Handle)] + 3 * _ARRAY + _ENDING,
    "homotopy_mesh_free": [ctypes.POINTER(Handle)],
    "homotopy_certify": [ctypes.c_uint32] + 5 * _ARRAY + _ENDING,
    "homotopy_homology": [ctypes.c_uint32] + 5 * _ARRAY + _ENDING,
    "homotopy_homology_any": [ctypes.c_uint32] + 5 * _ARRAY + _ENDING,
    "homotopy_verify": [ctypes.c_uint32] + 5 * _ARRAY + _ENDING,
    "homotopy_verify_homology": [ctypes.c_uint32] + 4 * _ARRAY + [ctypes.c_uint32] + _ARRAY + _ENDING,
}


def _places():
    """Where the library may be: where the variable says, or else in the package, in the system, or in the repository."""
    named = os.environ.get("LIBHOMOTOPY")
    if named is not None:
        return [named]
    repository = os.path.join(os.path.dirname(os.path.dirname(HERE)), "crates", "homotopy_c", "out", "libhomotopy.so")
    return [os.path.join(HERE, NAME), NAME] + ([repository] if os.path.exists(repository) else [])


def _load():
    for place in _places():
        try:
            library = ctypes.CDLL(place)
            break
        except OSError as error:
            failure = error
    else:
        raise ImportError("homotopy: the shared library was not found (%s): install libhomotopy-dev, or let LIBHOMOTOPY name it" % failure)
    try:
        for name, arguments in _ARGUMENTS.items():
            function = getattr(library, name)
            function.argtypes, function.restype = arguments, None
        for name in ("homotopy_line_of", "homotopy_text_of"):
            function = getattr(library, name)
            function.argtypes, function.restype = [ctypes.c_uint32], ctypes.c_char_p
    except AttributeError as error:
        raise ImportError("homotopy: %s is no such library: %s" % (place, error)) from None
    return library


_library = _load()


def call(name, *words):
    """Calls a function of homotopy.h. An outcome, numbers and a handle are passed by their address."""
    getattr(_library, name)(*words)


def line_of(code):
    """The line that the program prints for a code, with {0}, {1}, {2} for the numbers; empty where it has none."""
    return _library.homotopy_line_of(code).decode("ascii")


def text_of(code):
    """The sentence for a code, with {0}, {1}, {2} for the numbers."""
    return _library.homotopy_text_of(code).decode("ascii")
