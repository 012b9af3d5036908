"""Surfaces of any kind: closed or with boundary, orientable or not. A mesh with boundary has a double, and a closed mesh that is not
orientable a cover; what `decide` says there is proved to be exact for the mesh (docs/OPEN-SURFACES.md, docs/COVERS.md)."""
import re

from . import program
from .doubles import Double
from .walks import is_of_version_2, lines_of

# Refusals of `decide` for what a double or a cover goes round.
HAS_BOUNDARY = re.compile("refused: edge [0-9]+ [0-9]+ sides 1$", re.MULTILINE)
IS_NOT_ORIENTABLE = re.compile("refused: not orientable ")

# In which order `decide` looks at what may be wrong with walks: at all of them for the one, before any is looked at for the next.
ORDER = ("refused: walks ", " vertex", " edge", "refused: pair ")


def decided(mesh, walks, files):
    """What `decide` answers of a surface of any kind."""
    ended = program.ask("decide", mesh.path, walks)
    if not HAS_BOUNDARY.match(ended.text):
        return decided_if_closed(mesh.path, walks, files, ended)
    double = Double(mesh, files)
    if double.refused:
        return double.refused
    ended = decided_if_closed(double.path, walks, files, program.ask("decide", double.path, walks))
    return ended if ended.status == 2 else double.walk_of_the_mirror(walks) or ended


def decided_if_closed(path, walks, files, ended):
    """How `decide` ended, or, where that is since the mesh is not orientable, how it ends on the cover."""
    if not IS_NOT_ORIENTABLE.match(ended.text):
        return ended
    lifted = lifted_pairs(path, walks, files)
    refused = [lifts for lifts in lifted if lifts.status == 2]
    if refused:
        return min(refused, key=lambda ended: next((place for place, words in enumerate(ORDER) if words in ended.text), 0))
    return decided_on_cover(path, lifted, files)


def decided_on_cover(path, lifted, files):
    """Pairs whose lifts part are different, and of the others `decide` tells on the cover."""
    met = [lifts.text for lifts in lifted if lifts.status == 0]
    told = program.Ended(0, "")
    if met:
        cover = program.ask_of("mesh_cover", path)
        if cover.status == 2:
            return cover
        pairs = files.write("lifts.walks", "".join(["WALKS 2\n", *met]).encode("ascii"))
        told = program.ask("decide", files.write("cover.off", cover.text.encode("ascii")), pairs)
        if told.status == 2:
            raise AssertionError("lifts were refused: " + told.text)
    answers = iter(told.text.splitlines())
    lines = [next(answers) if lifts.status == 0 else "different" for lifts in lifted]
    return program.Ended(int("different" in lines), "".join(line + "\n" for line in lines))


def lifted_pairs(path, walks, files):
    """How `mesh_cover` ends for each pair, what it refuses told of the whole file. It reads the mesh for each."""
    if not is_of_version_2(walks):
        return [program.ask_of("mesh_cover", path, walks)]
    lines = lines_of(walks)
    pairs = [lines[first:first + 2] for first in range(0, len(lines), 2)] or [[]]
    lifted = []
    for number, pair in enumerate(pairs):
        text = "".join(["WALKS 2\n"] + [line.text + "\n" for line in pair])
        ended = program.ask_of("mesh_cover", path, files.write("pair.walks", text.encode("latin-1")))
        lifted.append(told_of_file(ended, number, pair, len(lines)) if ended.status == 2 else ended)
    return lifted


def told_of_file(refused, number, pair, count):
    """What is refused of the file of one pair, told of the file that the pair stands in, `count` walks long."""
    text = re.sub("walks (start|end)", r"pair %d \1" % (number + 1), refused.text)
    text = re.sub("walks count [0-9]+", "walks count %d" % count, text)
    text = re.sub("walk ([0-9]+) place", lambda found: "walk %d place" % (2 * number + int(found[1])), text)
    return program.Ended(2, re.sub("walks line ([0-9]+)", lambda found: "walks line %d" % pair[int(found[1]) - 2].number, text))
