"""Packages of Debian, without its tools: archives of two tars, of what controls a package and of what it installs."""
import hashlib
import os
import textwrap
import time

import contents
from trees import File, ar_of, below, folders_of, gz_of, tar_of, xz_of

MAINTAINER = "Hovittai maintainers <maintainers@users.noreply.hovittai.example>"
ARCHITECTURE, MULTIARCH = "amd64", "x86_64-linux-gnu"
KIT_CRATES = ("arrayvec", "slab", "thiserror")

# What Debian does for modules of Python: their compiled form is made when they come, and goes with them.
COMPILE = 'if [ "$1" = configure ] && command -v py3compile >/dev/null; then py3compile -p python3-homotopy; fi\n'
CLEAN = "if command -v py3clean >/dev/null; then py3clean -p python3-homotopy; fi\n"

SHARED = """ Of two walks along the edges of a polygon mesh with common ends it is decided
 whether the one can be moved over the surface to the other, on orientable
 closed surfaces of any genus, with a certificate that shows the answer. What
 decides is proved, in Rattle (Rust with contracts).
 .
"""


def control(package, section, depends, says, more, extra=""):
    rows = ["Package: " + package, "Version: " + contents.version(), "Section: " + section, "Priority: optional",
            "Architecture: " + ARCHITECTURE, "Maintainer: " + MAINTAINER, "Depends: " + depends]
    return "\n".join(rows) + "\n" + extra + "Description: " + says + "\n" + SHARED + more


def changelog(package, releases):
    """The releases as Debian writes them."""
    told = []
    for release, date, changes in releases:
        day = time.strftime("%a, %d %b %Y 00:00:00 +0000", time.strptime(date, "%Y-%m-%d"))
        rows = "".join(textwrap.fill(change, 78, initial_indent="  * ", subsequent_indent="    ") + "\n" for change in changes)
        told.append("%s (%s) unstable; urgency=medium\n\n%s\n -- %s  %s\n" % (package, release, rows, MAINTAINER, day))
    return "\n".join(told).encode("utf-8")


def copyright_of(kit):
    """What is known of rights: of the program none are given; of the crates of the kit that stand in it, their licences."""
    told = ["Homotopy tester for edge walks on polygon meshes\n\nCopyright: the Hovittai maintainers\n\nNo licence is given. Ask the "
            "maintainers before you pass it on.\n\nIn the program and in the libraries stands code of these crates, under their own "
            "licences:\n"]
    for crate in KIT_CRATES:
        folder = os.path.join(kit, "rattle", crate)
        name = next(name for name in ("LICENSE-MIT", "LICENSE") if os.path.exists(os.path.join(folder, name)))
        with open(os.path.join(folder, name), encoding="utf-8") as file:
            told.append("\n%s\n%s\n\n%s" % (crate, "-" * len(crate), file.read()))
    return "".join(told).encode("utf-8")


# Why lintian is to pass over what it would refuse.
OVERRIDES = {"homotopy-tester": """# The programs are byte for byte those that the gate built, so that their checksums can be compared.
homotopy-tester: unstripped-binary-or-object [usr/bin/homotopy_cli]
homotopy-tester: unstripped-binary-or-object [usr/bin/mesh_cover]
homotopy-tester: unstripped-binary-or-object [usr/bin/mesh_double]
"""}


def package(name, tree, fields, kit, releases, scripts=None):
    """A package, with what each has: its changelog, what is known of rights, and checksums."""
    doc = "share/doc/%s/" % name
    tree = {**tree, doc + "changelog.gz": File(gz_of(changelog(name, releases))), doc + "copyright": File(copyright_of(kit))}
    if name in OVERRIDES:
        tree["share/lintian/overrides/" + name] = File(OVERRIDES[name].encode("ascii"))
    tree = below(tree, "usr")
    size = sum(-(-len(file.data) // 1024) for file in tree.values()) + len(folders_of(tree))
    sums = "".join("%s  %s\n" % (hashlib.md5(tree[path].data).hexdigest(), path) for path in sorted(tree) if not tree[path].link)
    controlled = {"control": File(fields.replace("\nDescription:", "\nInstalled-Size: %d\nDescription:" % size, 1).encode("utf-8")),
                  "md5sums": File(sums.encode("utf-8")), **(scripts or {})}
    time = contents.release_time(releases)
    return ar_of([("debian-binary", b"2.0\n"), ("control.tar.xz", xz_of(tar_of(controlled, "./", time))),
                  ("data.tar.xz", xz_of(tar_of(tree, "./", time)))])


def script(text):
    return File(("#!/bin/sh\nset -e\n" + text).encode("utf-8"), True)


def packages(glibc, kit, releases):
    """The three packages by the names of their files."""
    version, major = contents.version(), contents.version().split(".")[0]
    c_library = "libc6 (>= %s)" % glibc
    library = contents.library_tree("lib/" + MULTIARCH)
    dist = below({**contents.module_tree(), **contents.shared_library()}, "lib/python3/dist-packages")
    python = {**dist, **contents.people_tree(), "bin/homotopy": contents.filled("homotopy.system", True)}
    made = {
        "homotopy-tester": package("homotopy-tester", contents.command_tree(), control(
            "homotopy-tester", "math", c_library, "decide whether walks on polygon meshes are homotopic",
            " This package has the programs homotopy_cli, mesh_double and mesh_cover, their\n manual, the pages, examples and films.\n",
            "Suggests: python3-homotopy\n"), kit, releases),
        "libhomotopy-dev": package("libhomotopy-dev", library, control(
            "libhomotopy-dev", "libdevel", c_library, "library for walks on polygon meshes (development)",
            " This package has the headers for C and C++, the static and the shared\n library.\n"), kit, releases, {
                "shlibs": File(("libhomotopy %s libhomotopy-dev (>= %s)\n" % (major, version)).encode("ascii")),
                "triggers": File(b"activate-noawait ldconfig\n")}),
        "python3-homotopy": package("python3-homotopy", python, control(
            "python3-homotopy", "python", "%s, python3 (>= 3.9), homotopy-tester (= %s)" % (c_library, version),
            "Python module and command for walks on polygon meshes",
            " This package has the Python module homotopy and the command homotopy, which\n asks the program homotopy_cli.\n",
            "Recommends: python3-numpy\n"), kit, releases, {
                "postinst": script(COMPILE), "prerm": script(CLEAN)}),
    }
    return {"%s_%s_%s.deb" % (name, version, ARCHITECTURE): data for name, data in made.items()}
