"""Walk files, read for words and for pairs alone: the program is the judge of each."""
import re
from collections import namedtuple

from .program import Fault

Line = namedtuple("Line", "number text")

# The most vertices of a walk that the program reads.
MOST_VERTICES = 1_000_001


def value(word):
    """The value of digits, however many zeros stand before them. Of a longer number 21 digits are enough: they are past every limit."""
    return int(word.lstrip("0")[:21] or "0")


def rows_of(path):
    """The lines of a walk file that have words, without comments."""
    with open(path, "rb") as file:
        text = file.read().decode("latin-1")
    rows = [Line(number, row.split("#")[0].strip()) for number, row in enumerate(text.replace("\xef\xbb\xbf", "", 1).split("\n"), 1)]
    return [row for row in rows if row.text]


def has_header(rows):
    return bool(rows) and rows[0].text.split() == ["WALKS", "2"]


def is_of_version_2(path):
    """Whether a walk file has the header of many pairs."""
    return has_header(rows_of(path))


def lines_of(path):
    """The lines of walks, without comments, blank lines and the header."""
    rows = rows_of(path)
    return rows[1:] if has_header(rows) else rows


def ends_of(line):
    """The first and the last vertex of a walk. A group leads back to where it begins."""
    words = re.sub(r"\)\s+[0-9]+", ")", line.text).replace("(", " ").replace(")", " ").split()
    if not words or not all(re.fullmatch("[0-9]+", word) for word in words):
        raise Fault("line %d is no walk: %s" % (line.number, line.text[:60]))
    return value(words[0]), value(words[-1])


def vertices_of(line, most):
    """The first `most` vertices of a walk that the program has read."""
    walk, words = [], line.text.split()
    while words and len(walk) < most:
        word = words.pop(0)
        if word == "(":
            end = words.index(")")
            group = [value(vertex) for vertex in words[:end]]
            walk += group * min(value(words[end + 1]), most // len(group) + 1)
            del words[:end + 2]
        else:
            walk.append(value(word))
    return walk[:most]
