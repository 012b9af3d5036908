"""The six exercises of docs/TEACHING.md: each a mesh, from where it is seen, and what is to be done on the page."""
from collections import namedtuple

from asking import shapes

Exercise = namedtuple("Exercise", "number name title view shape text")

EXERCISES = (
    Exercise(1, "tetrahedron", "two ways over a tetrahedron", (20, 25), shapes.tetrahedron, (
        "First walk: click the vertices 0, 1 and 2. Second walk: 0, 3 and 2.",
        "How many triangles have to be crossed at least? Ask \"Same ends\", play the film, and count. Then find two other walks with the "
        "same ends for which none has to be crossed.")),
    Exercise(2, "torus", "two loops on a torus", (20, 48), shapes.torus, (
        "Start somewhere and go once round the hole, with some clicks, back to the start; from there once round the tube, back to the "
        "start. The second walk starts at the same vertex and takes the two loops in the other order.",
        "Do the loops commute? Ask \"Same ends\". Then leave one of the loops out of the second walk, and ask again.")),
    Exercise(3, "double-torus", "two loops on a double torus", (15, 55), shapes.double_torus, (
        "As on the torus, with two loops that go through the left hole and through the right hole: the one loop and then the other, and in "
        "the other order.",
        "Ask \"Same ends\", and look at the picture of the denial. Then ask \"Homology\" and \"Freely\" of the same two walks. Which of "
        "the three answers tells the walks apart?")),
    Exercise(4, "mug", "two rubber bands on a mug", (-35, 22), shapes.mug, (
        "First walk: a rubber band round the mug, between the two ends of its handle. Second walk: a rubber band round the handle.",
        "Can the one be slid over the mug to where the other is? Ask \"Freely\", with the second band laid the one way round and the "
        "other. Then lay a band along the rim, and for the second walk click one vertex of it alone, and ask \"Same ends\": can the "
        "band be drawn together to a point?")),
    Exercise(5, "shirt", "across a shirt with holes", (-15, 12), shapes.shirt, (
        "Go across the front of the shirt from the one armpit to the other, once above the moth hole and once below it. Ask \"With "
        "boundary\".",
        "Then do the same across the back. What is different there? How many holes has the shirt, as a mesh?")),
    Exercise(6, "moebius", "a band with a twist", (30, 40), shapes.moebius_band, (
        "Draw any two walks with the same ends and ask. The program refuses the mesh, and the page shows why.",
        "Follow the chain of coloured faces once round, with an arrow that you keep to your left. Where does it point when you are back?")),
)


def file_of(exercise):
    """The name of an exercise's mesh file."""
    return exercise.name + ".off"
