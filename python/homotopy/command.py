"""The command `homotopy`: the questions of the proved program, with words for people. It decides nothing itself."""
import argparse
import contextlib
import json
import os
import subprocess
import sys
import traceback

from . import __version__, covers, doubles, program, words
from .classes import Refused as ClassesRefused
from .classes import classes_of
from .doubles import Double
from .meshes import mesh_of
from .program import HERE, REPOSITORY, Fault, Files, check_file

SAYS = {
    "homotopic": "moves lead from the first walk to the second",
    "different": "no moves lead from the first walk to the second",
    "freely homotopic": "moves and changes of the starting vertex lead from the one closed walk to the other",
    "not freely homotopic": "no moves and changes of the starting vertex lead from the one closed walk to the other",
    "homologous": "the walks are together the outline of faces, counted as the chain says",
    "not homologous": "the walks are together the outline of no faces, as the cocycle shows",
    "accepted": "the certificate shows what it says",
}


class Result:
    """What is told of a question: the program's lines, a sentence, what to try next, and the status."""

    def __init__(self, asked, ended, mesh=None, walks=None, other=None):
        self.asked, self.status = asked, ended.status
        self.lines = ended.text.splitlines()
        # Where there is one answer, its line.
        self.answer = self.lines[0] if self.lines else None
        self.more, self.certificate, self.says, self.next = {}, None, None, None
        if self.lines and self.lines[0].startswith(("refused:", "rejected:")):
            self.says, self.next = words.tell(self.lines[0], mesh, walks, other)

    @property
    def refused(self):
        return self.status == 2

    def object(self):
        told = {"command": self.asked.command, "status": self.status, "answer": self.answer, "says": self.says}
        if self.next:
            told["next"] = self.next
        if self.certificate is not None:
            told["certificate"] = self.certificate
        return {**told, **self.more}


def coloured(text, code, stream):
    """A text in a colour, on a terminal alone, and not where NO_COLOR is set."""
    if stream.isatty() and not os.environ.get("NO_COLOR") and os.environ.get("TERM") != "dumb":
        return "\033[%sm%s\033[0m" % (code, text)
    return text


def print_answer(line, says=None, before=""):
    green, red = "32", "31"
    yes = not line.startswith(("different", "not ", "rejected"))
    print(before + coloured(line, green if yes else red, sys.stdout) + (": " + says if says else ""))


def complain(says, advice=None):
    # The status tells of a fault too, where nobody reads what is said of it.
    with contextlib.suppress(OSError):
        print("homotopy: " + coloured(says, "31", sys.stderr), file=sys.stderr)
        if advice:
            print("          " + advice, file=sys.stderr)


# ---- the questions

def surface(asked, files):
    mesh = mesh_of(asked.mesh, files)
    result = Result(asked, program.ask("surface", mesh.path), mesh)
    if not result.refused:
        counts = [line.split() for line in result.lines]
        names = {"V": "vertices", "E": "edges", "F": "faces", "chi": "euler"}
        result.more = {names[name]: int(number) for name, number in counts if name in names}
        result.more["genera"] = [int(number) for name, number in counts if name == "genus"]
        result.answer = None
        result.says = "an orientable closed surface in %d piece%s" % (len(counts) - 4, "" if len(counts) == 5 else "s")
    return result


def decide(asked, files):
    mesh, walks = mesh_of(asked.mesh, files), files.taken(asked.walks)
    if asked.any:
        ended = covers.decided(mesh, walks, files)
    else:
        ended = doubles.decided(mesh, walks, files) if asked.open else program.ask("decide", mesh.path, walks)
    result = Result(asked, ended, mesh, walks)
    if not result.refused:
        result.more = {"answers": result.lines}
        if len(result.lines) == 1:
            result.says = SAYS[result.answer]
        else:
            result.answer = None
    return result


def loops(asked, files):
    mesh, walks = mesh_of(asked.mesh, files), files.taken(asked.walks)
    ended = Double(mesh, files).ask("loops", walks) if asked.open else program.ask("loops", mesh.path, walks)
    result = Result(asked, ended, mesh, walks)
    result.says = result.says or SAYS[result.lines[0]]
    return result


def with_certificate(answer_of):
    def ask(asked, files):
        mesh, walks = mesh_of(asked.mesh, files), files.taken(asked.walks)
        result = Result(asked, answer_of(asked, mesh, walks, files), mesh, walks)
        if not result.refused:
            result.says = SAYS[result.lines[0]]
            result.certificate = "".join(line + "\n" for line in result.lines)
        return result
    return ask


certify = with_certificate(lambda asked, mesh, walks, files: program.ask("certify-open" if asked.open else "certify", mesh.path, walks))
homology = with_certificate(lambda asked, mesh, walks, files: Double(mesh, files).homology(walks) if asked.open else
                            program.ask("homology", mesh.path, walks))


def is_of_homology(path):
    """Whether a certificate is a chain or a cocycle, by the first line that is no answer."""
    if not os.path.isfile(path):
        return False
    with open(path, "rb") as file:
        for line in file:
            first = line.removeprefix(b"\xef\xbb\xbf").split(b"#")[0].split()
            if first and first[0] not in (b"homologous", b"not"):
                return first[0] in (b"CHAIN", b"COCYCLE")
    return False


def verify(asked, files):
    mesh, walks, certificate = mesh_of(asked.mesh, files), files.taken(asked.walks), files.taken(asked.certificate)
    of_homology = is_of_homology(certificate)
    ended = program.ask("verify-homology" if of_homology else "verify", mesh.path, walks, certificate)
    result = Result(asked, ended, mesh, walks, words.OF_HOMOLOGY if of_homology else None)
    result.says = result.says or SAYS[result.lines[0]]
    return result


def classes(asked, files):
    mesh, walks = mesh_of(asked.mesh, files), files.taken(asked.walks)
    check_file(walks)
    try:
        found = classes_of(mesh.path, walks, files)
    except ClassesRefused as refused:
        result = Result(asked, refused.ended, mesh, refused.path)
        result.says = refused.renumbered(result.says)
        return result
    lines = ["class %d: %s" % (number, " ".join(map(str, members))) for number, members in enumerate(found, 1)]
    result = Result(asked, program.Ended(0, "\n".join(lines)))
    result.answer, result.more = None, {"classes": found}
    return result


def films_folder():
    """Where tools/watch is, which makes films."""
    for folder in (os.path.join(HERE, "films"), os.path.join(REPOSITORY, "tools")):
        if os.path.exists(os.path.join(folder, "watch")):
            return folder
    raise Fault("tools/watch, which makes films, is not installed", 3)


def film(asked, files):
    mesh, walks = mesh_of(asked.mesh, files), files.taken(asked.walks)
    if asked.certificate:
        certificate = files.taken(asked.certificate)
        for path in (mesh.path, walks, certificate):
            check_file(path)
    else:
        ended = program.ask("certify", mesh.path, walks)
        if ended.status == 2:
            return Result(asked, ended, mesh, walks)
        certificate = files.write("certificate", ended.text.encode("ascii"))
    watch = [sys.executable, os.path.join(films_folder(), "watch"), mesh.path, walks, certificate]
    made = subprocess.run(watch + (["--title", asked.title] if asked.title else []), stdout=subprocess.PIPE, stderr=subprocess.PIPE)
    if made.returncode:
        raise Fault(made.stderr.decode("utf-8", "replace").strip().split("\n")[-1])
    with open(asked.output, "wb") as file:
        file.write(made.stdout)
    result = Result(asked, program.Ended(0, asked.output))
    result.says = "open it in a browser"
    return result


# ---- the words of the command line

MESH = "the mesh: an OFF file, or PLY, OBJ, STL, VTK, GMSH and others by meshio; - for standard input (OFF)"
WALKS = "two walks, each a line of vertex numbers, counted from 0"

COMMANDS = (
    (surface, "count vertices, edges and faces, and the genus of each piece; or say why it is no such surface",
     "homotopy surface torus7.off"),
    (decide, "can the first walk be moved over the surface to the second, its ends held fast?", "homotopy decide torus7.off torus7.walks"),
    (certify, "the same, with a list of moves or a denial that shows it", "homotopy certify torus7.off torus7.walks -o torus7.cert"),
    (verify, "does a certificate show what it says?", "homotopy verify torus7.off torus7.walks torus7.moves"),
    (loops, "the same as decide of two closed walks, with no vertex held fast", "homotopy loops double11.off double11-different.walks"),
    (homology, "are the walks together the outline of faces? With a chain or a cocycle that shows it",
     "homotopy homology torus7.off torus7-round.walks"),
    (classes, "group walks: those with the same ends that can be moved to one another", "homotopy classes torus7.off torus7-many.walks"),
    (film, "a page that plays a certificate in a browser", "homotopy film cube.off cube.walks -o cube.html"),
)

EPILOG = """status:
  0 yes; 1 no; 2 a refusal, with one line that says why; 3 a file cannot be
  read, or a program is missing; 4 the answer cannot be written; 5 want of
  memory; 70 a fault of this command itself.

A command decides nothing itself: it asks the proved program homotopy_cli.
`homotopy COMMAND --help` has an example of each, `man homotopy_files` (the
page docs/FORMATS.md) what the files look like.
"""


class Parser(argparse.ArgumentParser):
    """Bad words end with one line."""

    def error(self, message):
        print("homotopy: %s (try `%s --help`)" % (message, self.prog), file=sys.stderr)
        sys.exit(2)


def parser():
    top = Parser(prog="homotopy", description="Whether walks along the edges of a polygon mesh can be moved to one another.", epilog=EPILOG,
                 formatter_class=argparse.RawDescriptionHelpFormatter)
    top.add_argument("--version", action="version", version="homotopy " + __version__)
    below = top.add_subparsers(dest="command", metavar="COMMAND", parser_class=Parser)
    below.required = True
    for function, helped, example in COMMANDS:
        name = function.__name__ if function.__name__ != "ask" else example.split()[1]
        command = below.add_parser(name, help=helped, description=helped[0].upper() + helped[1:] + ("" if helped.endswith("?") else "."),
                                   epilog="example:\n  " + example, formatter_class=argparse.RawDescriptionHelpFormatter)
        command.set_defaults(ask=function)
        add_words(command, name)
    return top


def add_words(command, name):
    command.add_argument("mesh", metavar="MESH", help=MESH)
    if name != "surface":
        command.add_argument("walks", metavar="WALKS", help="walks, each a line" if name == "classes" else WALKS)
    if name == "verify":
        command.add_argument("certificate", metavar="CERT", help="a list of moves, a denial, a chain or a cocycle")
    if name == "film":
        command.add_argument("certificate", metavar="CERT", nargs="?", help="a list of moves or a denial; left out, it is made")
        command.add_argument("-o", "--output", metavar="FILE", default="film.html", help="the page (film.html)")
        command.add_argument("--title", help="the line at the head of the page")
    if name in ("certify", "homology"):
        command.add_argument("-o", "--output", metavar="FILE", help="the certificate goes to this file, and not to standard output")
    if name in ("decide", "certify", "loops", "homology"):
        kinds = command.add_mutually_exclusive_group()
        kinds.add_argument("--open", action="store_true", help="the mesh has a boundary")
        if name == "decide":
            kinds.add_argument("--any", action="store_true", help="the mesh may have a boundary, or none, and need not be orientable")
    command.add_argument("--json", action="store_true", help="print one JSON object")


def show(result):
    """Prints an answer as people read it: a certificate as it is, so that verify takes it."""
    asked = result.asked
    if asked.json:
        print(json.dumps(result.object()))
    elif result.refused:
        complain(result.says or result.lines[0], result.next)
    elif result.certificate is not None and not asked.output:
        print(result.certificate, end="")
    elif asked.command == "surface":
        for line in result.lines:
            print(line)
    elif asked.command == "decide" and len(result.lines) > 1:
        for number, line in enumerate(result.lines, 1):
            print_answer(line, before="pair %d: " % number)
    elif asked.command == "classes":
        print("\n".join(result.lines))
    else:
        print_answer(result.lines[0], result.says)


def answer(asked):
    """Asks, shows, and tells the status."""
    files = Files()
    result = asked.ask(asked, files)
    if result.certificate is not None and asked.output:
        with open(asked.output, "w", encoding="ascii") as file:
            file.write(result.certificate)
    show(result)
    sys.stdout.flush()
    return result.status


def ended(arguments):
    try:
        asked = parser().parse_args(arguments)
    except SystemExit:
        # What --help and --version print is written here, so that it is known whether it could be.
        sys.stdout.flush()
        raise
    try:
        return answer(asked)
    except Fault as fault:
        if asked.json:
            print(json.dumps({"command": asked.command, "status": fault.status, "answer": None, "says": str(fault)}))
        else:
            complain(str(fault))
        return fault.status
    except KeyboardInterrupt:
        return 130


def give_up(stream):
    """What a stream did not take is not tried again when Python ends, which would end with a status of its own."""
    try:
        stream.flush()
    except OSError:
        os.dup2(os.open(os.devnull, os.O_WRONLY), stream.fileno())


def main(arguments=None):
    """The status. Nothing but the answer `no` ends with 1."""
    # Streams that the caller closed: what is said goes nowhere, and an answer cannot be written.
    sys.stderr = sys.stderr or open(os.devnull, "w")
    sys.stdout = sys.stdout or open(os.devnull)
    try:
        return ended(arguments)
    except OSError as error:
        if not isinstance(error, BrokenPipeError):
            complain("%s: %s" % (error.filename or "the answer", error.strerror or error))
        return 4
    except MemoryError:
        complain("there is too little memory for this question")
        return 5
    except Exception:
        traceback.print_exc()
        return 70
    finally:
        for stream in (sys.stdout, sys.stderr):
            give_up(stream)
