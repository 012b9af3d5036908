"""The proved program, and the files that it is given."""
import os
import shutil
import subprocess
import sys
import tempfile
from collections import namedtuple

HERE = os.path.dirname(os.path.realpath(__file__))
REPOSITORY = os.path.dirname(os.path.dirname(HERE))

Ended = namedtuple("Ended", "status text")
Ended.__doc__ = "How the program ended, and what it printed."


class Fault(Exception):
    """What keeps a question from being asked. Its message is the line that is printed, and `status` that with which the command ends."""

    def __init__(self, message, status=2):
        self.status = status
        super().__init__(message)


def program_path(name="homotopy_cli"):
    """A program: which the variable HOMOTOPY_CLI (or MESH_DOUBLE) names, or else of this package, on the PATH, or of the repository."""
    variable = name.upper()
    named = os.environ.get(variable)
    places = [named] if named else [os.path.join(HERE, name), name, os.path.join(REPOSITORY, "crates", name, "out", name)]
    for place in places:
        found = shutil.which(place)
        if found:
            return found
    raise Fault("the program %s is not there: install homotopy-tester, or let %s name it" % (named or name, variable), 3)


def is_text(name):
    """Whether the bytes of a name are UTF-8."""
    return not any("\udc80" <= letter <= "\udcff" for letter in name)


def unread(names):
    """Why the program did not read one of these files."""
    for name in names:
        if not os.path.exists(name):
            return "there is no file %s" % name
        if os.path.isdir(name):
            return "%s is a folder" % name
    return "a file could not be read: %s" % ", ".join(names)


def check_file(name):
    """For a file that is read here, and not by the program."""
    if not os.path.isfile(name):
        raise Fault(unread([name]), 3)


class Files:
    """Files that are made for the program, in a folder that goes with the question."""

    def __init__(self):
        self.folder = tempfile.TemporaryDirectory(prefix="homotopy-")
        self.input_is_read = False

    def write(self, name, text):
        path = os.path.join(self.folder.name, name)
        with open(path, "wb") as file:
            file.write(text)
        return path

    def taken(self, name):
        """A file that the program can read, more than once: itself, or for `-` what stands on standard input. Of one that is not there, or
        is a folder, the program tells in its turn."""
        if name != "-":
            # A pipe is read once, and not by the program, which has no such file open; and it takes no name that is no text.
            is_pipe = os.path.exists(name) and not os.path.isfile(name) and not os.path.isdir(name)
            if is_text(name) and not is_pipe:
                return name
            try:
                return self.copied(open(name, "rb"))
            except OSError:
                raise Fault(unread([name]), 3) from None
        if self.input_is_read:
            raise Fault("- stands for standard input, and can be one file alone")
        if sys.stdin is None:
            raise Fault("standard input is closed", 3)
        self.input_is_read = True
        return self.copied(sys.stdin.buffer)

    def copied(self, stream):
        with stream:
            return self.write("copy-%d" % len(os.listdir(self.folder.name)), stream.read())


def ask(command, *words):
    """Asks homotopy_cli."""
    return run([program_path(), command], command, words)


def ask_of(name, *words):
    """Asks a program that has no commands."""
    return run([program_path(name)], name, words)


def run(asked, what, words):
    """Runs a program, and tells on a terminal that it is at work, where that takes longer than a second."""
    with tempfile.TemporaryFile() as printed:
        process = subprocess.Popen([*asked, *words], stdin=subprocess.DEVNULL, stdout=printed)
        watch(process, what)
        printed.seek(0)
        text = printed.read().decode("ascii", "replace")
    if process.returncode == 3:
        raise Fault(unread(words), 3)
    if process.returncode == 4:
        raise Fault("the answer could not be written", 4)
    if process.returncode == 5:
        raise Fault("there is too little memory for this question", 5)
    if process.returncode not in (0, 1, 2):
        raise Fault("the program was stopped (%d)" % process.returncode, 5)
    return Ended(process.returncode, text)


def watch(process, what):
    """Waits for a process; the line on a terminal goes when it ends."""
    try:
        seconds, told = 1, False
        while True:
            try:
                process.wait(timeout=1)
                break
            except subprocess.TimeoutExpired:
                if sys.stderr.isatty():
                    print("\r%s: %d s" % (what, seconds), end="", file=sys.stderr, flush=True)
                    told = True
                seconds += 1
        if told:
            print("\r\033[K", end="", file=sys.stderr, flush=True)
    except BaseException:
        process.kill()
        process.wait()
        raise
