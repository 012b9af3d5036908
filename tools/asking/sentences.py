"""What the program printed, in a sentence, and what of the mesh is to be marked.

Each line that the program may print here has its rule in docs/FORMATS.md. Nothing is decided: a line that no rule knows is shown as it is.
"""
import re
from collections import namedtuple

# How it ended (`yes`, `no` or `refused`), the program's own first line, the sentence, and the vertices, edges and odd chain to mark.
Told = namedtuple("Told", "tone line sentence marks")

ANSWERS = {
    "homotopic": "Homotopic: some list of moves leads from the first walk to the second.",
    "different": "Different: no list of moves leads from the first walk to the second.",
    "freely homotopic": "Freely homotopic: moves and changes of the starting vertex lead from the first closed walk to the second.",
    "not freely homotopic": "Not freely homotopic: no moves and changes of the starting vertex lead from the first closed walk "
                            "to the second.",
    "homologous": "Homologous: the two walks are together the outline of some faces, each counted as often as its number says.",
    "not homologous": "Not homologous: the numbers of the edges add up to 0 round every face, and to different sums along the two walks.",
}
OTHER_ENDS = {3: "A file could not be read.", 4: "The answer could not be written.", 5: "The program had too little memory for this."}
STOPPED = "The program was stopped before it answered."
HAS_BOUNDARY = "The edge of {} and {} has one side, so the mesh has a boundary."
ODD_CHAIN = ("The mesh is not orientable: along the chain of {} faces that is marked, each joined to the next across an edge, a sign "
             "comes back turned over.")

# A pattern of what stands behind `refused: `, the sentence, and what the numbers name.
REFUSALS = (
    (r"edge (\d+) (\d+) sides 1", HAS_BOUNDARY, "edge"),
    (r"edge (\d+) (\d+) sides (\d+)", "The edge of {} and {} has {} sides; on a surface it has two, or one at the boundary.", "edge"),
    (r"vertex (\d+) pinched", "The mesh is pinched at vertex {}: the faces there make more than one ring or fan.", "vertex"),
    (r"vertices (\d+) (\d+) apart", "No walk joins the vertices {} and {}, and a mesh with boundary has to hang together.", "vertices"),
    (r"no boundary", "The mesh has no boundary. Ask whether the walks have the same ends and may be moved.", None),
    (r"no face", "The mesh has no face.", None),
    (r"surface components (\d+)", "The mesh is a closed surface in {} components; their genera are told of 1,024 at most.", None),
    (r"walk (\d) place (\d+) vertex", "Walk {}, place {}: no face names the vertex there.", None),
    (r"walk (\d) place (\d+) edge", "Walk {}: the vertices at place {} and the next one are joined by no edge.", None),
    (r"walks start", "The walks start at different vertices, and moves keep the start.", None),
    (r"walks end", "The walks end at different vertices, and moves keep the end.", None),
    (r"walk (\d) open", "Walk {} does not end where it starts, and this is asked of closed walks.", None),
    (r"walks line (\d) long", "Walk {} has more than 1,000,000 darts.", None),
    (r"open sides (\d+)", "The mesh has a boundary and {} sides, and 16,384 are the most of such a mesh.", None),
    (r"open darts (\d+)", "The walks have {} darts together, and 512 are the most on a mesh with boundary.", None),
    (r"certify sides (\d+)", "There is no film: the mesh has {} sides, and 16,384 are the most for a certificate. The answer "
                                      "stands all the same.", None),
    (r"certify darts (\d+)", "There is no film: the walks have {} darts together, and 512 are the most for a certificate. The "
                                      "answer stands all the same.", None),
)


def grouped(digits):
    return "{:,}".format(int(digits)) if len(digits) > 4 and digits.isdigit() else digits


def marks_of(kind, numbers):
    """The vertices and edges that numbers name."""
    if kind == "edge":
        return {"edges": [numbers[:2]]}
    return {"vertices": numbers} if kind in ("vertex", "vertices") else {}


def refusal_told(line):
    """What a line that begins with `refused: ` says."""
    cause = line[len("refused: "):]
    if cause.startswith("not orientable "):
        numbers = [int(word) for word in cause.split()[2:]]
        links = [numbers[k:k + 3] for k in range(0, len(numbers), 3)]
        return Told("refused", "refused: not orientable ..", ODD_CHAIN.format(len(links)), {"chain": links})
    for pattern, sentence, kind in REFUSALS:
        found = re.fullmatch(pattern, cause)
        if found:
            return Told("refused", line, sentence.format(*map(grouped, found.groups())), marks_of(kind, list(map(int, found.groups()))))
    return Told("refused", line, "The program refuses: %s." % cause, {})


def surface_told(lines):
    """What `surface` counted."""
    genera = [int(line.split()[1]) for line in lines if line.startswith("genus ")]
    counts = dict(line.split() for line in lines if line[:2] in ("V ", "E ", "F "))
    what = "of genus %d" % genera[0] if len(genera) == 1 else "in %d components, of genera %s" % (
        len(genera), ", ".join(map(str, genera[:12])) + (", .." if len(genera) > 12 else ""))
    counted = "%s vertices, %s edges, %s faces" % tuple(grouped(counts[name]) for name in "VEF")
    return Told("yes", lines[0], "An orientable closed surface %s: %s." % (what, counted), {})


def told_of(status, lines):
    """What the program says by a status and its first lines; of a process that was killed the status is below 0."""
    if status is None or status < 0:
        return Told("refused", "", STOPPED, {})
    if status in OTHER_ENDS or not lines:
        return Told("refused", "", OTHER_ENDS.get(status, "The program ended with status %d and printed nothing." % status), {})
    if lines[0].startswith("refused: "):
        return refusal_told(lines[0])
    if lines[0].startswith("V ") and lines[-1].startswith("genus "):
        return surface_told(lines)
    return Told(("yes", "no")[min(status, 1)], lines[0], ANSWERS.get(lines[0], lines[0]), {})


def shown_of(lines, most):
    """The chain or the cocycle of an answer of `homology`, with `most` entries at most, and how many there are; else nothing."""
    head = lines[1].split() if len(lines) > 1 else []
    if not head or head[0] not in ("CHAIN", "COCYCLE"):
        return None
    entries = [[int(word) for word in line.split()] for line in lines[2:2 + most]]
    return {"kind": head[0].lower(), "entries": entries, "count": int(head[1])}
