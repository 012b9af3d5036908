"""Meshes with boundary, by their double: a closed mesh in which walks keep their numbers. The program mesh_double writes it, and what is
asked of the double is proved to be exact for the mesh (docs/OPEN-SURFACES.md)."""
import re

from . import program
from .meshes import counts_of
from .walks import MOST_VERTICES, lines_of, value, vertices_of

# Refusals of `decide-open` for what it does not take, and `decide` does.
PAST_A_LIMIT = re.compile("refused: (open (sides|darts)|walks count) ")


class Double:
    """The double of a mesh, and what is asked of it. `refused` is how its making ended, where it was refused."""

    def __init__(self, mesh, files):
        self.mesh, self.files = mesh, files
        made = program.ask_of("mesh_double", mesh.path)
        self.refused = made if made.status == 2 else None
        if not self.refused:
            self.path = files.write("double.off", made.text.encode("ascii"))

    def ask(self, command, walks):
        """What the program answers of walks of the mesh."""
        if self.refused:
            return self.refused
        ended = program.ask(command, self.path, walks)
        if ended.status == 2:
            # A chain of faces that shows why the mesh is not orientable is told in its own faces.
            own = program.ask("decide-open", self.mesh.path, walks) if ended.text.startswith("refused: not orientable") else ended
            return own if own.status == 2 else ended
        return self.walk_of_the_mirror(walks) or ended

    def walk_of_the_mirror(self, walks):
        """A refusal, where a walk passes a vertex of the double that is none of the mesh."""
        count, _ = counts_of(self.mesh)
        for number, line in enumerate(lines_of(walks), 1):
            if any(value(word) >= count for word in re.sub(r"\)\s+[0-9]+", ")", line.text).split() if word.isdigit()):
                place = next(place for place, vertex in enumerate(vertices_of(line, MOST_VERTICES)) if vertex >= count)
                return program.Ended(2, "refused: walk %d place %d vertex" % (number, place))
        return None

    def homology(self, walks):
        """What the program answers, with the certificate folded to one of the mesh, which is judged there."""
        ended = self.ask("homology", walks)
        if ended.status == 2:
            return ended
        answer, _, *lines = ended.text.splitlines()
        rows = [[int(word) for word in line.split()] for line in lines]
        folded = self.folded_chain(rows) if ended.status == 0 else self.kept_cocycle(rows)
        head = "%s\n%s %d\n" % (answer, "CHAIN" if ended.status == 0 else "COCYCLE", len(folded))
        text = head + "".join(" ".join(map(str, row)) + "\n" for row in folded)
        judged = program.ask("verify-homology", self.mesh.path, walks, self.files.write("folded", text.encode("ascii")))
        if judged.status:
            raise AssertionError("what was folded is no certificate: " + judged.text)
        return program.Ended(ended.status, text)

    def folded_chain(self, rows):
        """A mirror is listed backwards, so that it counts against its face; a quad has nothing below it."""
        _, faces = counts_of(self.mesh)
        sums = {}
        for face, times in rows:
            if face < 2 * faces:
                sums[face % faces] = sums.get(face % faces, 0) + (times if face < faces else -times)
        return [(face, times) for face, times in sorted(sums.items()) if times]

    def kept_cocycle(self, rows):
        """On the edges of the mesh alone."""
        count, _ = counts_of(self.mesh)
        return [row for row in rows if row[1] < count]


def decided(mesh, walks, files):
    """What `decide-open` answers; and past its limits, or of many pairs, what `decide` answers of the double."""
    ended = program.ask("decide-open", mesh.path, walks)
    return Double(mesh, files).ask("decide", walks) if PAST_A_LIMIT.match(ended.text) else ended
