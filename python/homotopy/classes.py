"""Walks in classes: which of them are homotopic, by asking the program of pairs.

The program has no command for classes (the library has a call, of a mesh that is kept). So each class is found by one question: the first
walk that is left, beside each other one with the same ends. The program answers each pair, and that homotopy is an equivalence is used
here, and not proved.
"""
import re

from . import program
from .walks import ends_of, lines_of


class Refused(Exception):
    """The program refused a question: how it ended, the file of pairs, and its walks, each with its number and its line."""

    def __init__(self, ended, path, walks):
        super().__init__(ended.text)
        self.ended, self.path, self.walks = ended, path, walks

    def renumbered(self, says):
        """A sentence about the file of pairs as one about the file of walks. That has a header, and no blank lines. One about the mesh
        stays."""
        if not self.ended.text.startswith("refused: walk"):
            return says
        says = re.sub(r"\bwalk ([0-9]+)", lambda found: "walk %d" % self.walks[int(found[1]) - 1][0], says)
        return re.sub(r"\bline ([0-9]+)", lambda found: "line %d" % self.walks[int(found[1]) - 2][1].number, says)


def classes_of(mesh_path, walks_path, files):
    """The classes, each a list of the numbers of its walks (counted from 1) in order."""
    lines = lines_of(walks_path)
    if not lines:
        raise program.Fault("%s has no walk" % walks_path)
    left, classes = dict(enumerate(lines, 1)), []
    while left:
        members = class_of(mesh_path, left, files)
        classes.append(members)
        for member in members:
            del left[member]
    return sorted(classes)


def class_of(mesh_path, left, files):
    """The numbers of the walks that are homotopic to the first."""
    first = next(iter(left))
    ends = ends_of(left[first])
    # The first is a partner of itself too, so that each walk is looked at by the program.
    others = [number for number, line in left.items() if ends_of(line) == ends]
    walks = [(number, left[number]) for other in others for number in (first, other)]
    path = files.write("pairs.walks", "".join(["WALKS 2\n"] + [line.text + "\n" for _, line in walks]).encode("latin-1"))
    ended = program.ask("decide", mesh_path, path)
    if ended.status == 2:
        raise Refused(ended, path, walks)
    return [other for other, answer in zip(others, ended.text.split()) if answer == "homotopic"]
