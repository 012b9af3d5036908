"""What one start of tools/ask knows: the mesh, the proved program, and what was asked of it.

The program alone decides. It is run on files, a process for each question; what it prints is kept in a folder that goes with the session.
"""
import os
import re
import shlex
import subprocess
import tempfile
import threading
from collections import namedtuple

from asking.sentences import shown_of, told_of
from watching.meshes import check_moves, check_walks, sides_of
from watching.page import denial_page, moves_page
from watching.scene import scene_of
from watching.texts import Fault, Moves, read_certificate, read_mesh

QUESTIONS = ("decide", "certify", "loops", "homology", "decide-open", "certify-open")
GLANCE = 0.5
MOST_SHOWN, MOST_KEPT, FIRST_LINES, MOST_LAID_OUT, MOST_LINES = 20_000, 20, 1100, 6_000, 40_000
HERE = os.path.dirname(os.path.realpath(__file__))
BUILT = os.path.join(os.path.dirname(os.path.dirname(HERE)), "crates", "homotopy_cli", "out", "homotopy_cli")
LEFT_OUT = ("The mesh file has no coordinates, and a mesh of more than {:,} vertices, or {:,} lines, is not laid out: there is no picture. "
            "Walks can be given by their numbers, and all questions asked.").format(MOST_LAID_OUT, MOST_LINES)

Answer = namedtuple("Answer", "number question walks printed status told view")
Asked = namedtuple("Asked", "question walks ticket view")
Job = namedtuple("Job", "mesh sides view title at")


def walks_text(walks):
    return "".join(" ".join(map(str, walk)) + "\n" for walk in walks)


def first_lines(path):
    """The first lines of a file, as far as an answer can have any use of them."""
    with open(path, encoding="latin-1") as file:
        return [line.rstrip("\n") for line, _ in zip(file, range(MOST_SHOWN + FIRST_LINES))]


def judge_of(answer):
    """The command that judges what an answer printed; nothing where no certificate was printed."""
    has_text = answer.status in (0, 1) and len(first_lines(answer.printed)) > 1
    return {"homology": "verify-homology", "certify": "verify", "certify-open": "verify"}.get(answer.question) if has_text else None


def ended(process, is_left):
    """The status of a process, once it has ended; one whose asker has left is killed."""
    while True:
        try:
            return process.wait(timeout=GLANCE)
        except subprocess.TimeoutExpired:
            if is_left():
                process.kill()


class Session:
    """Questions are asked from many threads; what is kept of them is changed under a lock."""

    def __init__(self, mesh, program=BUILT, folder=".", view=(30, 35)):
        self.mesh, self.program, self.folder, self.view = mesh, os.path.abspath(program), folder, list(view)
        self.scratch = tempfile.TemporaryDirectory(prefix="ask-")
        self.lock, self.count, self.answers, self.running = threading.Lock(), 0, {}, {}
        self.stamp = self.mesh_stamp()

    def mesh_stamp(self):
        """What changes when the mesh file does; nothing where it is gone."""
        try:
            found = os.stat(self.mesh)
        except OSError:
            return None
        return found.st_mtime_ns, found.st_size

    def path(self, number, kind):
        return os.path.join(self.scratch.name, "%d.%s" % (number, kind))

    def surface(self):
        """What the mesh is: what `surface` says, and of a mesh with boundary what `decide-open` says of a walk that stays."""
        told = self.run(["surface", self.mesh]).told
        edge = told.marks.get("edges")
        if not edge:
            return told, None
        stays = self.run(["decide-open", self.mesh], [edge[0][:1]] * 2)
        return told, stays.told

    def run(self, words, walks=None, ticket=None, view=None, is_left=lambda: False):
        """Runs the program, and keeps what it printed; `ticket` is the name by which it can be stopped, and `view` from where the mesh
        was seen. Where who asked has left, it is ended."""
        with self.lock:
            self.count += 1
            number = self.count
        words, printed = list(words), self.path(number, "printed")
        if walks is not None:
            words.append(self.path(number, "walks"))
            with open(words[-1], "w", encoding="ascii") as file:
                file.write(walks_text(walks))
        with open(printed, "wb") as output:
            process = self.started([self.program, *words], output)
            with self.lock:
                self.running[number] = process, ticket
            status = ended(process, is_left)
        answer = Answer(number, words[0], words[-1], printed, status, told_of(status, first_lines(printed)), view or self.view)
        with self.lock:
            del self.running[number]
            if walks is not None:
                self.answers[number] = answer
            self.forget()
        return answer

    def started(self, command, output):
        """The process of the program. What is no program of this machine, or was one when the page was opened, is said."""
        try:
            return subprocess.Popen(command, stdin=subprocess.DEVNULL, stdout=output, stderr=subprocess.DEVNULL)
        except OSError as fault:
            raise Fault("the program %s does not start: %s" % (self.program, fault.strerror or fault)) from None

    def forget(self):
        """Only the last answers are kept."""
        while len(self.answers) > MOST_KEPT:
            number = min(self.answers)
            del self.answers[number]
            for kind in ("walks", "printed"):
                if os.path.exists(self.path(number, kind)):
                    os.remove(self.path(number, kind))

    def stop(self, ticket=None):
        """Ends what runs under a ticket, or all that runs."""
        with self.lock:
            for process, name in self.running.values():
                if ticket is None or name == ticket:
                    process.kill()

    def check_mesh(self):
        if self.mesh_stamp() != self.stamp:
            raise Fault("the mesh file has changed since the page was opened, so start tools/ask anew")

    def ask(self, asked, is_left=lambda: False):
        """What the page shows of a question about two walks."""
        self.check_mesh()
        answer = self.run([asked.question, self.mesh], asked.walks, asked.ticket, asked.view, is_left)
        has_film = judge_of(answer) == "verify"
        return {"number": answer.number, "question": asked.question, "status": answer.status, **answer.told._asdict(), "film": has_film,
                "shown": shown_of(first_lines(answer.printed), MOST_SHOWN), "command": self.command(asked.question)}

    def command(self, question, walks="WALKS"):
        return " ".join(map(shlex.quote, ("homotopy_cli", question, self.mesh, walks)))

    def scene(self):
        """Where the vertices of a mesh without coordinates are put; or why there is no picture."""
        with open(self.mesh, "rb") as file:
            size = sum(1 for line in file)
        if size > MOST_LINES:
            return {"left_out": LEFT_OUT}
        mesh = read_mesh(self.mesh)
        if len({vertex for face in mesh.faces for vertex in face}) > MOST_LAID_OUT:
            return {"left_out": LEFT_OUT}
        scene = scene_of(mesh, sides_of(mesh.faces))
        return {"points": scene.points, "curves": scene.curves, "surface": scene.surface if scene.pieces else None,
                "pieces": scene.pieces, "faces": mesh.faces, "told": scene.told}

    def film(self, number):
        """The page of a certificate, made by what makes the films."""
        self.check_mesh()
        answer = self.answers[number]
        if judge_of(answer) != "verify":
            raise Fault("the program printed no certificate that has one")
        mesh, certificate = read_mesh(self.mesh), read_certificate(answer.printed)
        with open(answer.walks, encoding="ascii") as file:
            walks = [list(map(int, line.split())) for line in file]
        job = Job(mesh, sides_of(mesh.faces), answer.view, None, None)
        check_walks(mesh, job.sides, walks, answer.walks)
        if not isinstance(certificate, Moves):
            return denial_page(job, walks, certificate)
        check_moves(mesh, certificate)
        return moves_page(job, walks, certificate)

    def stem(self):
        """A name for files that no file has yet."""
        name = re.sub(r"\.off$", "", os.path.basename(self.mesh), flags=re.IGNORECASE) or "mesh"
        taken, k = set(os.listdir(self.folder)), 1
        while any("%s-%d.%s" % (name, k, kind) in taken for kind in ("walks", "cert", "html")):
            k += 1
        return os.path.join(self.folder, "%s-%d" % (name, k))

    def save(self, number):
        """Writes walks, certificate and film beside one another. Gives the files, and the lines that ask the same again."""
        self.check_mesh()
        answer, stem = self.answers[number], self.stem()
        judge = judge_of(answer)
        with open(answer.walks, "rb") as file:
            texts = {stem + ".walks": file.read()}
        lines = [self.command(answer.question, stem + ".walks")]
        if judge:
            with open(answer.printed, "rb") as file:
                texts[stem + ".cert"] = file.read()
            lines.append(self.command(judge, stem + ".walks") + " " + shlex.quote(stem + ".cert"))
        if judge == "verify":
            texts[stem + ".html"] = self.film(number).encode("utf-8", "replace")
        self.write(texts)
        return {"files": list(texts), "commands": lines}

    @staticmethod
    def write(texts):
        """Writes files that are not there yet: all of them, or none."""
        made = []
        try:
            for path, text in texts.items():
                with open(path, "xb") as file:
                    made.append(path)
                    file.write(text)
        except OSError:
            for path in made:
                os.remove(path)
            raise

    def close(self):
        self.stop()
        self.scratch.cleanup()
