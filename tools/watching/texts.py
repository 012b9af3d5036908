"""Meshes, walks and certificates as their texts: what docs/FORMATS.md says, read for a picture.

Whatever is wrong with a text is a Fault, whose message is the one line that is printed.
"""
import math
import os
import re
import runpy
from collections import namedtuple

JUDGE = runpy.run_path(os.path.join(os.path.dirname(os.path.realpath(__file__)), "..", "judge"), run_name="judge")
NUMBER = re.compile(r"[+-]?([0-9]+\.?[0-9]*|\.[0-9]+)([eE][+-]?[0-9]+)?|[+-]?(nan|inf)")
KEYWORD = re.compile(r"((?:ST|C|N|4|n)*)OFF(.*)")
MOST_NUMBER = 2**32 - 1

# What is wrong with a line of a file of walks, by the word that the judge has for it.
WALK_FAULTS = {
    "number": "has a word that is no number of a vertex",
    "group": "has a group that does not lead back to where it begins, or is no group",
    "long": "has more darts than a walk may have",
    "many": "is one walk too many",
}

Mesh = namedtuple("Mesh", "name points faces")
Moves = namedtuple("Moves", "name peak lines")
Denial = namedtuple("Denial", "name degree rows places words")


class Fault(Exception):
    """A text, or a pair of them, of which no page can be made."""


def bytes_of(path):
    try:
        with open(path, "rb") as file:
            return file.read()
    except OSError as fault:
        raise Fault("%s: %s" % (path, fault.strerror or fault)) from None


class Lines:
    """The lines of a file that have words, with their numbers, taken one by one."""

    def __init__(self, path, kind):
        self.name, self.kind, text = path, kind, bytes_of(path)
        text = text[3:] if text.startswith(b"\xef\xbb\xbf") else text
        rows = text.decode("latin-1").split("\n")
        self.end = len(rows) if rows[-1] == "" else len(rows) + 1
        words = (re.findall(r"[^ \t\v\f\r]+", row.split("#")[0]) for row in rows)
        self.full = [(number, row) for number, row in enumerate(words, 1) if row]
        self.next = 0

    def fault(self, number, what):
        return Fault("%s is not %s: line %d %s" % (self.name, self.kind, number, what))

    def peek(self):
        return self.full[self.next][1] if self.next < len(self.full) else None

    def take(self, wanted):
        """The next line, and its number; `wanted` is told where there is none."""
        if self.next == len(self.full):
            raise Fault("%s is cut short: it ends before line %d, and %s is wanted" % (self.name, self.end, wanted))
        self.next += 1
        return self.full[self.next - 1]

    def finish(self, last):
        if self.next < len(self.full):
            raise self.fault(self.full[self.next][0], "stands behind %s" % last)


def natural(word):
    """The value of a number, or nothing."""
    digits = word.lstrip("0")
    if re.fullmatch("[0-9]+", word) and len(digits) < 11 and int(digits or "0") <= MOST_NUMBER:
        return int(digits or "0")
    return None


def naturals(words):
    """The values of all words, or nothing where one is no number."""
    values = [natural(word) for word in words]
    return None if None in values else values


def counts_of(lines):
    """How many vertices and faces there are, and the coordinates of a vertex."""
    number, words = lines.take("the keyword OFF")
    coordinates, keyword = 3, KEYWORD.fullmatch(words[0])
    if keyword:
        if "n" in keyword[1] or words[1:2] == ["BINARY"] and not keyword[2]:
            raise lines.fault(number, "is of a form of OFF that is not read")
        coordinates = 4 if "4" in keyword[1] else 3
        words = ([keyword[2]] if keyword[2] else []) + words[1:]
        if not words:
            number, words = lines.take("the line of the counts")
    counts = naturals(words[:2])
    if counts is None or len(counts) < 2:
        raise lines.fault(number, "has not two counts")
    return counts[0], counts[1], coordinates


def point_of(words):
    """The first three coordinates, or nothing where one is no finite number."""
    values = [float(word) for word in words[:3]]
    return values if all(map(math.isfinite, values)) else None


def face_of(lines, vertices):
    number, words = lines.take("a line for each face")
    sides = natural(words[0])
    corners = naturals(words[1:1 + sides]) if sides is not None and 3 <= sides < len(words) else None
    if corners is None:
        raise lines.fault(number, "is no face: how many corners, three at least, and their vertices")
    if max(corners) >= vertices:
        raise lines.fault(number, "names vertex %d, and there are %d" % (max(corners), vertices))
    if any(here == there for here, there in zip(corners, corners[1:] + corners[:1])):
        raise lines.fault(number, "has one vertex twice in a row")
    return corners


def read_mesh(path):
    """A mesh; its points are nothing where the file has no coordinates that tell vertices apart."""
    lines = Lines(path, "a mesh (OFF)")
    vertices, faces, coordinates = counts_of(lines)
    points = []
    for _ in range(vertices):
        number, words = lines.take("a line for each vertex")
        if len(words) < coordinates or not all(map(NUMBER.fullmatch, words[:coordinates])):
            raise lines.fault(number, "has not the %d coordinates of a vertex" % coordinates)
        points.append(point_of(words))
    rings = [face_of(lines, vertices) for _ in range(faces)]
    if not rings:
        raise Fault("%s has no face" % path)
    apart = None not in points and len(set(map(tuple, points))) > 1
    return Mesh(path, points if apart else None, rings)


def read_walks(path):
    """The two walks of a file, of either version."""
    try:
        walks = JUDGE["read_walks"](bytes_of(path))
    except JUDGE["Fault"] as fault:
        line, what = str(fault).split()[-2:]
        told = "line %s %s" % (line, WALK_FAULTS[what]) if what in WALK_FAULTS else "it is too large"
        raise Fault("%s is not a file of walks: %s" % (path, told)) from None
    if len(walks) != 2:
        raise Fault("%s has %d walks, and a certificate is of two" % (path, len(walks)))
    return walks


def is_move(words):
    if words[0] in ("+", "-"):
        return len(words) == 3 and naturals(words[1:]) is not None
    return (words[0] == "f" and len(words) == 6 and words[4] in ("+", "-")
            and naturals(words[1:4] + words[5:]) is not None)


def read_moves(lines, words):
    if len(words) != 3 or naturals(words[2:]) is None or not re.fullmatch("[0-9]{1,30}", words[1]):
        raise lines.fault(lines.full[lines.next - 1][0], "is not MOVES, their number and the peak")
    count, moves = int(words[1]), []
    while len(moves) < count:
        number, move = lines.take("move %d of %d" % (len(moves) + 1, count))
        if not is_move(move):
            raise lines.fault(number, "is no move")
        moves.append(" ".join(move))
    lines.finish("the last move")
    return Moves(lines.name, int(words[2]), moves)


def word_of(lines, degree):
    """The word of a walk: a point of the plane, or the entries of a turn word."""
    number, words = lines.take("the word of each walk")
    if degree == 4:
        if len(words) == 2 and all(re.fullmatch("-?[0-9]{1,30}", word) for word in words):
            return [int(word) for word in words]
        raise lines.fault(number, "is no word of degree 4: two whole numbers")
    entries = [] if words == ["empty"] else naturals(words)
    if entries is None:
        raise lines.fault(number, "is no turn word")
    return entries


def read_denial(lines, words):
    degree = natural(words[1]) if len(words) == 2 else None
    if degree is None:
        raise lines.fault(lines.full[lines.next - 1][0], "is not LABELS and the number of spokes")
    rows = []
    while True:
        number, row = lines.take("a line of labels for each face, and the places")
        values = naturals(row[1:])
        if row[0] not in ("+", "-", "places") or values is None:
            raise lines.fault(number, "is neither a face's labels nor the places")
        if row[0] == "places":
            break
        rows.append((row[0], values))
    denial = Denial(lines.name, degree, rows, values, [word_of(lines, degree), word_of(lines, degree)])
    lines.finish("the second word")
    return denial


def read_certificate(path):
    """A list of moves, or a denial."""
    lines = Lines(path, "a certificate")
    if lines.peek() is None:
        raise Fault("%s is not a certificate: it has no words" % path)
    wanted = {"homotopic": "MOVES", "different": "LABELS"}.get(" ".join(lines.peek()))
    if wanted:
        lines.take("the answer")
    number, words = lines.take("the line MOVES or LABELS")
    if words[0] not in ("MOVES", "LABELS") or wanted not in (None, words[0]):
        raise lines.fault(number, "is not %s" % (wanted or "MOVES or LABELS"))
    return read_moves(lines, words) if words[0] == "MOVES" else read_denial(lines, words)
