"""A wheel: the Python module with the shared library, the proved program and the command, which pip installs from the file alone."""
import contents
from trees import File, file_of, record_of, zip_of

METADATA = """Metadata-Version: 2.1
Name: homotopy
Version: %s
Summary: Whether walks along the edges of polygon meshes are homotopic
Requires-Python: >=3.9
Provides-Extra: arrays
Requires-Dist: numpy; extra == "arrays"
Provides-Extra: meshes
Requires-Dist: meshio; extra == "meshes"
Description-Content-Type: text/plain

The command homotopy and the Python module of the same name. What decides is proved, in Rattle (Rust with contracts).
"""


def wheel(glibc):
    """The name of the file and what it has. The tag names the oldest C library of GNU with which the files in it run."""
    tag = "py3-none-manylinux_%s_x86_64" % glibc.replace(".", "_")
    name = "homotopy-%s" % contents.version()
    about = name + ".dist-info/"
    programs = {"homotopy/" + program: file_of(contents.path_of(contents.built(program)), True) for program in ("homotopy_cli", *contents.MAKERS)}
    tree = {**contents.module_tree(), **contents.shared_library(), **programs,
            about + "METADATA": File((METADATA % contents.version()).encode("utf-8")),
            about + "WHEEL": File(("Wheel-Version: 1.0\nGenerator: tools/package\nRoot-Is-Purelib: false\nTag: %s\n" % tag).encode("ascii")),
            about + "entry_points.txt": File(b"[console_scripts]\nhomotopy = homotopy.command:main\n")}
    tree[about + "RECORD"] = File(record_of(tree, about + "RECORD"))
    return "%s-%s.whl" % (name, tag), zip_of(tree)
