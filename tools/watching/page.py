"""Pages: a template, its style, its scripts and its data in one text that needs nothing else."""
import html
import json
import os
import re

from watching import disc, panels, plane, polygon
from watching.drawing import STYLE, alone, svg
from watching.labels import Labels
from watching.scene import scene_of
from watching.texts import Fault
from watching.unfold import Outline

HERE = os.path.dirname(os.path.realpath(__file__))
MOST_FRAMES = 2000
NOT_PROVED = ("This page was made beside the proved program and is no part of what is proved. Its judge stands at the head of its "
              "script, and does what <code>tools/judge</code> does; <code>homotopy_cli verify</code> judges the same files, proved.")
CUT_OPEN = ("The surface is cut along a tree and along the sides in colours, and so it is one polygon. The ringed numbers are its %d "
            "spokes. %s A dart goes in along the spoke at its tail, and out along the spoke at its head.")
FEW_LABELS = "The number in the corner of a face is its label: the spoke to which it belongs."
MANY_LABELS = "The corners between two coloured sides have the label of the spoke there."


def read(name):
    with open(os.path.join(HERE, name), encoding="utf-8") as file:
        return file.read()


def filled(template, **parts):
    return re.sub(r"\{\{(\w+)\}\}", lambda hole: parts[hole[1]], read(template))


def packed(data):
    """Data as a script of the page: no sign in it can end the script."""
    return json.dumps(data, separators=(",", ":")).replace("<", "\\u003c")


def in_short(walk):
    """A walk in a few words."""
    names = [str(vertex) for vertex in walk]
    return " ".join(names if len(names) <= 12 else names[:6] + [".."] + names[-5:])


def paragraphs(*texts):
    return "\n".join("<p>%s</p>" % text for text in texts if text)


def data_of(job, scene, walks):
    """What a page has to know of the mesh and the walks."""
    return {"points": scene.points, "curves": scene.curves, "surface": scene.surface if scene.pieces else None,
            "pieces": scene.pieces, "faces": job.mesh.faces, "walks": walks, "view": job.view}


def moves_page(job, walks, moves):
    """The film of a list of moves."""
    scene = scene_of(job.mesh, job.sides)
    data = {**data_of(job, scene, walks), "moves": moves.lines, "peak": moves.peak}
    count = "%d move%s" % (len(moves.lines), "" if len(moves.lines) == 1 else "s")
    thinned = "" if len(moves.lines) <= MOST_FRAMES else (
        "The list has {:,} moves and is thinned to {:,} frames. Every move is checked all the same.".format(
            len(moves.lines), MOST_FRAMES))
    summary = "From <code>%s</code> to <code>%s</code> in %s, each checked as it is shown." % (*map(in_short, walks), count)
    return filled("moves.html", title=html.escape(job.title or "One walk becomes the other"), style=read("film.css"),
                  summary=summary, notes=paragraphs(thinned, scene.told, NOT_PROVED), data=packed(data),
                  script="\n".join(map(read, ("judge.js", "words.js", "space.js", "ribbon.js", "player.js", "moves.js"))))


def plane_of(labels, walks, words):
    """The plane in which the walks end apart, and what is said of it."""
    if labels.degree == 4:
        inner, box = plane.plane_picture(labels, walks, words)
        return svg(box, inner, "The plane"), "Unrolled: a plane, in which each spoke is a step."
    paths, caption = disc.paths_of(labels, walks, words)
    return svg(disc.BOX, disc.disc_picture(labels, paths, words), "The hyperbolic plane"), caption


def denial_page(job, walks, denial):
    """The film of a denial."""
    labels, scene = Labels(job.mesh, job.sides, denial), scene_of(job.mesh, job.sides)
    outline = Outline(labels, walks[0][0])
    cut = svg(polygon.BOX, polygon.polygon_picture(outline, walks), "The surface cut open") if outline.is_whole else ""
    picture, caption = plane_of(labels, walks, denial.words)
    data = {**data_of(job, scene, walks), "degree": denial.degree, "rows": denial.rows, "places": denial.places,
            "words": denial.words}
    told = "The labels are not those of one polygon, so the surface is not shown cut open."
    if outline.is_whole:
        told = CUT_OPEN % (denial.degree, FEW_LABELS if polygon.has_labels(outline) else MANY_LABELS)
    summary = "The claim: no list of moves leads from <code>%s</code> to <code>%s</code>." % tuple(map(in_short, walks))
    return filled("denial.html", title=html.escape(job.title or "Two walks that are different"), style=STYLE + read("film.css"),
                  summary=summary, polygon=cut, plane=picture, caption=caption, data=packed(data),
                  notes=paragraphs(told, scene.told, NOT_PROVED),
                  script="\n".join(map(read, ("judge.js", "words.js", "space.js", "ribbon.js", "player.js", "denial.js"))))


def moves_picture(job, walks, moves):
    """A picture of a list of moves: the walk after the moves that were asked for, or four times, from the first to the last."""
    scene, most = scene_of(job.mesh, job.sides), len(moves.lines)
    chosen = job.at or sorted({round(most * k / 3) for k in range(4)})
    if max(chosen) > most:
        raise Fault("%s has %d moves, and no walk after move %d" % (moves.name, most, max(chosen)))
    inner, box = panels.panels_picture(job, scene, walks, moves, chosen)
    return alone(box, inner, html.escape(job.title or "One walk becomes the other"))


def denial_picture(job, walks, denial):
    """A picture of a denial: the surface cut open, and beside it the plane."""
    labels = Labels(job.mesh, job.sides, denial)
    outline, (plane_svg, _) = Outline(labels, walks[0][0]), plane_of(labels, walks, denial.words)
    cut = svg(polygon.BOX, polygon.polygon_picture(outline, walks), "", width=300, height=300) if outline.is_whole else ""
    beside = plane_svg.replace("<svg ", '<svg x="320" y="0" width="300" height="300" ', 1)
    return alone((0, 0, 620, 300), cut + beside, html.escape(job.title or "Two walks that are different"))
