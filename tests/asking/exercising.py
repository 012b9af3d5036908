"""The exercises, done with the mouse: which vertices are clicked, and what the answers have to be by the shape of each mesh."""
import math

from asking import shapes


def near(shape, *place):
    """The vertex that stands nearest to a place."""
    return min(range(len(shape.points)), key=lambda vertex: math.dist(shape.points[vertex], place))


def tetrahedron(tests, page):
    page.draw(0, 0, 1, 2)
    page.draw(1, 0, 3, 2)
    tests.expect(page.walks() == [[0, 1, 2], [0, 3, 2]], "the clicks made %r" % page.walks())
    homotopic(tests, page, "decide")


def torus(tests, page):
    def at(i, j):
        return i % shapes.RING_PARTS * shapes.TUBE_PARTS + j % shapes.TUBE_PARTS

    along, about = [at(7, 0), at(14, 0), at(0, 0)], [at(0, 3), at(0, 7), at(0, 0)]
    page.draw(0, at(0, 0), *along, *about)
    page.draw(1, at(0, 0), *about, *along)
    darts = shapes.RING_PARTS + shapes.TUBE_PARTS
    tests.expect([len(walk) - 1 for walk in page.walks()] == [darts, darts], "the loops have not %d darts" % darts)
    page.look(20, 48)
    homotopic(tests, page, "decide")
    page.draw(1, at(0, 0), *about)
    different(tests, page, "decide")
    tests.expect(page.film_to_its_end() == "right", "the film of the torus's denial does not end well")
    page.leave_film()


def double_torus(tests, page):
    before = shapes.boundary_of(shapes.double_torus_cubes())
    at = {point: vertex for vertex, point in enumerate(before.points)}
    left = [at[1, 1, 2], at[1, 5, 2], at[5, 5, 2], at[5, 1, 2]]
    right = [at[9, 1, 2], at[9, 5, 2], at[5, 5, 2], at[5, 1, 2]]
    page.draw(0, at[5, 1, 2], *left, *right)
    page.draw(1, at[5, 1, 2], *right, *left)
    different(tests, page, "decide")
    tests.expect(page.film_to_its_end() == "right", "the film of the double torus's denial does not end well")
    tests.picture(page, "ask-denial")
    page.leave_film()
    tone, sentence = page.ask("homology")
    tests.expect(tone == "yes" and "outline" in sentence, "the loops of the double torus are not homologous, but %r" % sentence)
    tone, sentence = page.ask("loops")
    tests.expect(tone == "yes" and sentence.startswith("Freely"), "the two products are not freely homotopic, but %r" % sentence)
    page.draw(1, at[5, 1, 2], *right, *right)
    tone, sentence = page.ask("homology")
    tests.expect(tone == "no" and "add up to" in page.text("more"), "one hole and the other are homologous: %r" % sentence)
    sums = page.text("more").split("They add up to ")[-1].split()
    tests.expect(sums[0] != sums[-4], "the cocycle adds up alike: %r" % page.text("more"))


def mug(tests, page):
    shape = shapes.mug()
    band = [near(shape, math.cos(turn), math.sin(turn), 0.22 * 6) for turn in (math.pi / 3, math.pi, 5 * math.pi / 3, math.pi / 3)]
    turn, reach = math.pi * (4 / shapes.HANDLE_RINGS - 0.5), 0.15
    middle, half = 0.22 * 5.5, 0.22 * 2.5

    def on_handle(across, away):
        out = 1.02 + 0.62 * math.cos(turn) + away * reach * math.cos(turn)
        return near(shape, out, across * reach * 1.2, middle + half * math.sin(turn) + away * reach * math.sin(turn))

    ring = [on_handle(1, 0), on_handle(0, 1), on_handle(-1, 0), on_handle(0, -1), on_handle(1, 0)]
    said = []
    page.draw(0, *band)
    for way in (ring, ring[::-1]):
        page.draw(1, *way)
        said.append(page.ask("loops")[0])
    tests.expect(sorted(said) == ["no", "yes"], "the bands, one way and the other, were told %r" % said)
    rim = [near(shape, 0.88 * math.cos(turn), 0.88 * math.sin(turn), 2.24) for turn in (4.2, 6.3, 2.1, 4.2)]
    page.draw(0, *rim)
    page.draw(1, rim[0])
    homotopic(tests, page, "decide")


def shirt(tests, page):
    shape = shapes.shirt()

    def at(x, y, side=0):
        hits = [vertex for vertex, point in enumerate(shape.points) if abs(point[0] - 0.1 * x) < 0.001 and abs(point[2] - 0.1 * y) < 0.001]
        return min(hits, key=lambda vertex: side * shape.points[vertex][1])

    left, right = at(-4, 7), at(4, 7)
    for side, answered in ((1, different), (-1, homotopic)):
        page.draw(0, left, at(0, 6, side), right)
        page.draw(1, left, at(0, 1, side), at(4, 1), right)
        answered(tests, page, "decide-open")
    holes = page.value("page.own.edges.length")
    tests.expect(holes == 4 * shapes.NECK + 4 * shapes.BODY + 2 * 6 + 6, "%r edges of the shirt's boundary are marked" % holes)


def moebius(tests, page):
    chain = page.value("page.picture.marks.chain.length")
    tests.expect(chain >= shapes.BAND_PARTS, "the odd chain that is shown has %r faces" % chain)
    tests.expect("not orientable" in page.text("what"), "of the band it says %r" % page.text("what"))
    tests.picture(page)
    page.draw(0, 0, 5)
    page.draw(1, 0, 5)
    tone, sentence = page.ask("decide-open")
    tests.expect(tone == "refused" and "not orientable" in sentence, "of the band it answers %r" % sentence)


def homotopic(tests, page, question):
    tone, sentence = page.ask(question)
    tests.expect(tone == "yes" and sentence.startswith("Homotopic"), "homotopic walks were told %r" % sentence)
    tests.picture(page)
    tests.expect(page.film_to_its_end() == "right", "the film of homotopic walks does not end well")
    page.leave_film()


def different(tests, page, question):
    tone, sentence = page.ask(question)
    tests.expect(tone == "no" and sentence.startswith("Different"), "different walks were told %r" % sentence)


DONE = (tetrahedron, torus, double_torus, mug, shirt, moebius)
