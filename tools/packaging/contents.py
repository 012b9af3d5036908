"""What is installed, as trees of files: of the command, of the library, and of the Python module."""
import calendar
import glob
import os
import re
import sys
import time

import manual
from trees import File, below, file_of, gz_of

TOP = os.path.dirname(os.path.dirname(os.path.dirname(os.path.realpath(__file__))))
FILES = os.path.join(TOP, "tools/packaging/files")
PROGRAM = "crates/homotopy_cli/out/homotopy_cli"
# Programs that write meshes: what each does, its words, and the page that draws it.
MAKERS = {
    "mesh_double": ("write the double of a mesh with boundary", "FILE", "docs/OPEN-SURFACES.md"),
    "mesh_cover": ("write the orientation cover of a closed mesh, and lifts of walks", "FILE [WALKS]", "docs/COVERS.md"),
}
LIBRARIES = "crates/homotopy_c/out"
DOC = "share/doc/homotopy-tester"


def path_of(name):
    return os.path.join(TOP, name)


def built(name):
    """A program of the repository, by its name."""
    return "crates/%s/out/%s" % (name, name)


def text_of(name):
    with open(path_of(name), encoding="utf-8") as file:
        return file.read()


def filled(template, runs=False, **values):
    """A file of tools/packaging/files, with its words between @ filled in."""
    text = text_of(os.path.join(FILES, template))
    for word, value in values.items():
        text = text.replace("@%s@" % word.upper(), value)
    return File(text.encode("utf-8"), runs)


def version():
    return text_of("VERSION").strip()


def releases():
    """The releases of CHANGELOG.md, the last one first: version, day, and what is new."""
    found = []
    for head, text in re.findall(r"^## ([^\n]*)\n(.*?)(?=^## |\Z)", text_of("CHANGELOG.md"), re.M | re.S):
        number, day = re.fullmatch(r"([0-9.]+) \(([0-9-]+)\)", head).groups()
        found.append((number, day, [" ".join(item.split()) for item in re.split(r"^- ", text, flags=re.M)[1:]]))
    return found


def release_time(found):
    """The first second of the last release's day, since 1970, which all files in a package bear."""
    return calendar.timegm(time.strptime(found[0][1], "%Y-%m-%d"))


def pages():
    """The pages, pictures, films and examples, and the judge in Python, under their own names."""
    tree = {}
    for pattern in ("README.md", "CHANGELOG.md", "docs/*.md", "docs/*/*", "examples/*", "examples/many/*", "examples/library/**/*",
                    "tools/judge"):
        for path in sorted(glob.glob(os.path.join(TOP, pattern), recursive=True)):
            if os.path.isfile(path):
                tree[os.path.relpath(path, TOP)] = file_of(path)
    return tree


def manual_page(data):
    return File(gz_of(data))


def command_tree():
    """The proved programs, with their manual, completion, pages and examples."""
    known = {name: text_of(name) for name in ("docs/COMMANDS.md", "docs/FORMATS.md", "examples/README.md")}
    makers = {"bin/" + name: file_of(path_of(built(name)), True) for name in MAKERS}
    for name, (says, words, page) in MAKERS.items():
        told = manual.maker_page(version(), name, says, words, known["docs/COMMANDS.md"], text_of(page))
        makers["share/man/man1/%s.1.gz" % name] = manual_page(told)
    return {
        "bin/homotopy_cli": file_of(path_of(PROGRAM), True),
        "share/man/man1/homotopy_cli.1.gz": manual_page(manual.program_page(version(), known)),
        "share/man/man5/homotopy_files.5.gz": manual_page(manual.files_page(version(), known)),
        "share/bash-completion/completions/homotopy_cli": filled("completion.bash", name="homotopy_cli"),
        "share/zsh/vendor-completions/_homotopy_cli": filled("completion.zsh", name="homotopy_cli"),
        **makers,
        **below(pages(), DOC),
    }


def library_tree(folder):
    """The header, and both libraries in a folder, with what pkg-config and CMake look for. `up` leads from the folder to the prefix."""
    major, up = version().split(".")[0], os.path.relpath(".", folder)
    shared = "libhomotopy.so." + version()
    return {
        "include/homotopy.h": file_of(path_of("crates/homotopy_c/homotopy.h"), False),
        "include/homotopy.hpp": file_of(os.path.join(FILES, "homotopy.hpp"), False),
        folder + "/libhomotopy.a": file_of(path_of(LIBRARIES + "/libhomotopy.a"), False),
        folder + "/" + shared: file_of(path_of(LIBRARIES + "/libhomotopy.so"), False),
        folder + "/libhomotopy.so." + major: File(b"", False, shared),
        folder + "/libhomotopy.so": File(b"", False, "libhomotopy.so." + major),
        folder + "/pkgconfig/homotopy.pc": filled("homotopy.pc", version=version(), up=up),
        folder + "/cmake/homotopy/homotopyConfig.cmake": filled("homotopyConfig.cmake", version=version(), major=major, up=up),
        folder + "/cmake/homotopy/homotopyConfigVersion.cmake": filled("homotopyConfigVersion.cmake", version=version(), major=major),
    }


def module_tree():
    """The Python module, with what makes films, and without a library or a program."""
    tree = {}
    for path in sorted(glob.glob(path_of("python/homotopy/*.py"))):
        tree["homotopy/" + os.path.basename(path)] = file_of(path, False)
    # What makes films stands on the judge in Python.
    for name in ("watch", "judge"):
        tree["homotopy/films/" + name] = file_of(path_of("tools/" + name), True)
    for path in sorted(glob.glob(path_of("tools/watching/*"))):
        if os.path.isfile(path):
            tree["homotopy/films/watching/" + os.path.basename(path)] = file_of(path, False)
    return tree


def shared_library():
    """The shared library under the name that the Python module looks for beside itself."""
    return {"homotopy/libhomotopy.so." + version().split(".")[0]: file_of(path_of(LIBRARIES + "/libhomotopy.so"), False)}


def people_tree():
    """The manual and the completion of the command `homotopy`."""
    os.environ.setdefault("LIBHOMOTOPY", path_of(LIBRARIES + "/libhomotopy.so"))
    # So that the manual does not hang on the terminal on which it is made.
    os.environ["COLUMNS"] = "200"
    sys.path.insert(0, path_of("python"))
    from homotopy.command import parser
    return {
        "share/man/man1/homotopy.1.gz": manual_page(manual.command_page(version(), parser())),
        "share/bash-completion/completions/homotopy": filled("completion.bash", name="homotopy"),
        "share/zsh/vendor-completions/_homotopy": filled("completion.zsh", name="homotopy"),
    }


def whole_tree():
    """All of it below one folder, from where it may be moved as a whole: the command `homotopy` looks for the rest beside itself."""
    return {**command_tree(), **library_tree("lib"), **people_tree(), "bin/homotopy": filled("homotopy", True),
            **below({**module_tree(), **shared_library()}, "lib/homotopy-python")}
