/* Calls each function of the library with good and with bad input, and compares what it answers and what it leaves alone. What is wanted
 * here was worked out by hand. */
#include "homotopy.h"

#include <stdio.h>
#include <stdlib.h>
#include <string.h>

#define COUNT(array) (sizeof(array) / sizeof(*(array)))
#define EXPECT(condition)                                                   \
    do {                                                                    \
        if (!(condition)) {                                                 \
            printf("calls.c, line %d: not so: %s\n", __LINE__, #condition); \
            failures++;                                                     \
        }                                                                   \
    } while (0)

static int failures;

typedef struct mesh {
    uint32_t vertices;
    size_t faces, corners;
    uint32_t *size, *corner;
} mesh;

/* A mesh of triangles in blocks of their own, so that a sanitizer sees a read behind them. */
static mesh triangles(uint32_t vertices, size_t faces, const uint32_t *corner) {
    mesh it = {vertices, faces, 3 * faces, malloc(4 * faces + 4), malloc(12 * faces + 4)};
    for (size_t face = 0; face < faces; face++) it.size[face] = 3;
    memcpy(it.corner, corner, 12 * faces);
    return it;
}

static void drop(mesh it) {
    free(it.size);
    free(it.corner);
}

static const uint32_t TETRA[] = {0, 1, 2, 0, 3, 1, 0, 2, 3, 1, 3, 2};
/* The torus of seven vertices: triangles i, i + 1, i + 3 and i, i + 3, i + 2, modulo 7. */
static uint32_t torus[42];

static homotopy_outcome surface(mesh it, homotopy_numbers *numbers, uint32_t *genera, size_t room) {
    homotopy_outcome outcome = {99, {9, 9, 9}};
    homotopy_surface(it.vertices, it.size, it.faces, it.corner, it.corners, numbers, genera, room, &outcome);
    return outcome;
}

static int is(homotopy_outcome outcome, uint32_t code, uint64_t first, uint64_t second, uint64_t third) {
    return outcome.code == code && outcome.numbers[0] == first && outcome.numbers[1] == second && outcome.numbers[2] == third;
}

/* What is wrong with a mesh, which both questions tell. */
static void expect_fault(mesh it, uint32_t code, uint64_t first, uint64_t second, uint64_t third) {
    homotopy_numbers numbers = {7, 7, 7, 7, 7};
    uint32_t genera[2] = {7, 7};
    uint32_t walk[] = {0, 1, 0, 1};
    uint32_t sizes[] = {2, 2};
    uint8_t answers[1] = {7};
    homotopy_outcome outcome = surface(it, &numbers, genera, 2);
    EXPECT(is(outcome, code, first, second, third));
    EXPECT(numbers.vertices == 7 && numbers.euler == 7 && numbers.components == 7 && genera[0] == 7 && genera[1] == 7);
    homotopy_decide(it.vertices, it.size, it.faces, it.corner, it.corners, sizes, 2, walk, 4, answers, 1, &outcome);
    EXPECT(is(outcome, code, first, second, third));
    EXPECT(answers[0] == 7);
}

static void surfaces(void) {
    homotopy_numbers numbers;
    uint32_t genera[3] = {7, 7, 7};
    mesh tetra = triangles(4, 4, TETRA);
    EXPECT(is(surface(tetra, &numbers, genera, 1), HOMOTOPY_DONE, 0, 0, 0));
    EXPECT(numbers.vertices == 4 && numbers.edges == 6 && numbers.faces == 4 && numbers.euler == 2 && numbers.components == 1);
    EXPECT(genera[0] == 0 && genera[1] == 7);
    EXPECT(is(surface(tetra, &numbers, genera, 0), HOMOTOPY_SHORT_ROOM, 1, 0, 0));
    drop(tetra);

    /* A torus and a tetrahedron, and a vertex that no face names. */
    uint32_t both[54];
    memcpy(both, torus, sizeof torus);
    for (size_t k = 0; k < 12; k++) both[42 + k] = 8 + TETRA[k];
    mesh pair = triangles(12, 18, both);
    EXPECT(is(surface(pair, &numbers, genera, 3), HOMOTOPY_DONE, 0, 0, 0));
    EXPECT(numbers.vertices == 11 && numbers.edges == 27 && numbers.faces == 18 && numbers.euler == 2 && numbers.components == 2);
    EXPECT(genera[0] == 1 && genera[1] == 0 && genera[2] == 7);
    genera[0] = 7;
    memset(&numbers, 0, sizeof numbers);
    EXPECT(is(surface(pair, &numbers, genera, 1), HOMOTOPY_SHORT_ROOM, 2, 0, 0));
    EXPECT(numbers.components == 2 && genera[0] == 7);
    drop(pair);
}

static void faults(void) {
    mesh tetra = triangles(4, 4, TETRA);
    tetra.vertices = 1000001;
    expect_fault(tetra, HOMOTOPY_MANY_VERTICES, 0, 0, 0);
    tetra.vertices = 4;
    tetra.corners = 11;
    expect_fault(tetra, HOMOTOPY_CORNER_COUNT, 0, 0, 0);
    tetra.corners = 12;
    tetra.size[3] = 4;
    expect_fault(tetra, HOMOTOPY_CORNER_COUNT, 0, 0, 0);
    tetra.size[2] = 2;
    expect_fault(tetra, HOMOTOPY_FEW_CORNERS, 2, 0, 0);
    tetra.size[2] = 3, tetra.size[3] = 3;
    tetra.corner[7] = 4;
    expect_fault(tetra, HOMOTOPY_CORNER_RANGE, 2, 0, 0);
    tetra.corner[7] = 0xffffffffu;
    expect_fault(tetra, HOMOTOPY_CORNER_RANGE, 2, 0, 0);
    tetra.corner[7] = 3;
    expect_fault(tetra, HOMOTOPY_EQUAL_NEIGHBOURS, 2, 0, 0);
    tetra.corner[7] = 2;
    tetra.faces = 3, tetra.corners = 9;
    expect_fault(tetra, HOMOTOPY_EDGE_SIDES, 1, 2, 1);
    tetra.faces = 0, tetra.corners = 0;
    expect_fault(tetra, HOMOTOPY_NO_FACE, 0, 0, 0);
    drop(tetra);

    uint32_t *sizes = malloc(4 * 1333334), *corners = malloc(4 * 4000002);
    for (size_t k = 0; k < 1333334; k++) sizes[k] = 3;
    for (size_t k = 0; k < 4000002; k++) corners[k] = k % 3;
    mesh large = {3, 1333334, 4000002, sizes, corners};
    expect_fault(large, HOMOTOPY_MANY_SIDES, 0, 0, 0);
    drop(large);

    const uint32_t twins[] = {0, 1, 2, 0, 3, 1, 0, 2, 3, 1, 3, 2, 0, 4, 5, 0, 6, 4, 0, 5, 6, 4, 6, 5};
    mesh pinched = triangles(7, 8, twins);
    expect_fault(pinched, HOMOTOPY_PINCHED, 0, 0, 0);
    drop(pinched);

    const uint32_t projective[] = {0, 1, 2, 0, 2, 3, 0, 3, 4, 0, 4, 5, 0, 5, 1, 1, 2, 4, 2, 3, 5, 3, 4, 1, 4, 5, 2, 5, 1, 3};
    mesh plane = triangles(6, 10, projective);
    expect_fault(plane, HOMOTOPY_NOT_ORIENTABLE, 0, 0, 0);
    drop(plane);
}

static void decisions(void) {
    /* On the torus: round two loops in either order; one loop and staying; a face's two sides and the third; and what is no pair. */
    static const uint32_t sizes[] = {15, 15, 8, 1, 3, 2, 0, 1, 1, 0, 2, 1, 3, 1, 1, 1, 2, 2};
    static const uint32_t vertices[] = {
        0, 1, 2, 3, 4, 5, 6, 0, 3, 6, 2, 5, 1, 4, 0, 0, 3, 6, 2, 5, 1, 4, 0, 1, 2, 3, 4, 5, 6, 0,
        0, 1, 2, 3, 4, 5, 6, 0, 0,
        0, 1, 3, 0, 3,
        0,
        0,
        0, 7, 0,
        0, 1, 1, 0,
        0, 1,
        0, 1, 0, 2,
    };
    static const uint8_t wanted[] = {
        HOMOTOPY_HOMOTOPIC, HOMOTOPY_DIFFERENT, HOMOTOPY_HOMOTOPIC, HOMOTOPY_EMPTY_WALK, HOMOTOPY_EMPTY_WALK,
        HOMOTOPY_NO_VERTEX, HOMOTOPY_NO_EDGE, HOMOTOPY_STARTS_DIFFER, HOMOTOPY_ENDS_DIFFER,
    };
    mesh it = triangles(8, 14, torus);
    uint8_t answers[10];
    homotopy_outcome outcome;
    memset(answers, 7, sizeof answers);
    homotopy_decide(it.vertices, it.size, it.faces, it.corner, it.corners, sizes, COUNT(sizes), vertices, COUNT(vertices), answers, 10,
                    &outcome);
    EXPECT(is(outcome, HOMOTOPY_DONE, 0, 0, 0));
    EXPECT(memcmp(answers, wanted, sizeof wanted) == 0 && answers[9] == 7);

    memset(answers, 7, sizeof answers);
    homotopy_decide(it.vertices, it.size, it.faces, it.corner, it.corners, sizes, COUNT(sizes), vertices, COUNT(vertices), answers, 8,
                    &outcome);
    EXPECT(is(outcome, HOMOTOPY_SHORT_ROOM, 9, 0, 0) && answers[0] == 7);
    homotopy_decide(it.vertices, it.size, it.faces, it.corner, it.corners, sizes, 17, vertices, COUNT(vertices) - 2, answers, 9, &outcome);
    EXPECT(is(outcome, HOMOTOPY_WALK_COUNT, 0, 0, 0) && answers[0] == 7);
    homotopy_decide(it.vertices, it.size, it.faces, it.corner, it.corners, sizes, 18, vertices, COUNT(vertices) - 1, answers, 9, &outcome);
    EXPECT(is(outcome, HOMOTOPY_WALK_COUNT, 0, 0, 0) && answers[0] == 7);
    homotopy_decide(it.vertices, it.size, it.faces, it.corner, it.corners, sizes, 0, vertices, 0, answers, 0, &outcome);
    EXPECT(is(outcome, HOMOTOPY_DONE, 0, 0, 0) && answers[0] == 7);
    drop(it);
}

/* Pairs that lie by turns on a torus and on a sphere. */
static void components(void) {
    uint32_t both[54], sizes[40], vertices[400];
    size_t filled = 0;
    memcpy(both, torus, sizeof torus);
    for (size_t k = 0; k < 12; k++) both[42 + k] = 7 + TETRA[k];
    mesh it = triangles(11, 18, both);
    for (size_t k = 0; k < 10; k++) {
        sizes[4 * k] = 8, sizes[4 * k + 1] = 1, sizes[4 * k + 2] = 4, sizes[4 * k + 3] = 1;
        for (uint32_t v = 0; v < 8; v++) vertices[filled++] = v % 7;
        vertices[filled++] = 0;
        vertices[filled++] = 7, vertices[filled++] = 8, vertices[filled++] = 9, vertices[filled++] = 7, vertices[filled++] = 7;
    }
    uint8_t answers[20];
    homotopy_outcome outcome;
    homotopy_decide(it.vertices, it.size, it.faces, it.corner, it.corners, sizes, 40, vertices, filled, answers, 20, &outcome);
    EXPECT(is(outcome, HOMOTOPY_DONE, 0, 0, 0));
    for (size_t k = 0; k < 20; k++) EXPECT(answers[k] == (k % 2 ? HOMOTOPY_HOMOTOPIC : HOMOTOPY_DIFFERENT));
    drop(it);
}

/* What `homotopy_decide_any` tells of one pair of walks: the byte, or the outcome with 100 added to its code. */
static int any_of(mesh it, const uint32_t *first, uint32_t firsts, const uint32_t *second, uint32_t seconds, homotopy_outcome *outcome) {
    uint32_t sizes[] = {firsts, seconds}, *vertices = malloc(4 * (firsts + seconds) + 4);
    uint8_t answers[2] = {7, 7};
    memcpy(vertices, first, 4 * firsts);
    memcpy(vertices + firsts, second, 4 * seconds);
    homotopy_decide_any(it.vertices, it.size, it.faces, it.corner, it.corners, sizes, 2, vertices, firsts + seconds, answers, 1, outcome);
    free(vertices);
    EXPECT(answers[1] == 7 && (outcome->code == HOMOTOPY_DONE || answers[0] == 7));
    return outcome->code == HOMOTOPY_DONE ? answers[0] : 100 + (int)outcome->code;
}

#define ANY(it, first, second) any_of(it, first, COUNT(first), second, COUNT(second), &outcome)

static const uint32_t HERE[] = {0};
/* An annulus of six triangles round a hole; a band of five; and the projective plane of six vertices. */
static const uint32_t ANNULUS[] = {0, 1, 3, 1, 4, 3, 1, 2, 4, 2, 5, 4, 2, 0, 5, 0, 3, 5};
static const uint32_t BAND[] = {0, 1, 2, 1, 2, 3, 2, 3, 4, 3, 4, 0, 4, 0, 1};
static const uint32_t PLANE[] = {0, 1, 2, 0, 2, 3, 0, 3, 4, 0, 4, 5, 0, 5, 1, 1, 2, 4, 2, 3, 5, 3, 4, 1, 4, 5, 2, 5, 1, 3};

/* Walks on surfaces with boundary, and on such as are not orientable. */
static void any_surfaces(void) {
    homotopy_outcome outcome;
    mesh annulus = triangles(6, 6, ANNULUS), band = triangles(5, 5, BAND), plane = triangles(6, 10, PLANE);
    const uint32_t inner[] = {0, 1, 2, 0}, outer[] = {0, 3, 4, 5, 3, 0}, back[] = {0, 2, 1, 0};
    EXPECT(ANY(annulus, inner, outer) == HOMOTOPY_HOMOTOPIC);
    EXPECT(ANY(annulus, inner, HERE) == HOMOTOPY_DIFFERENT);
    EXPECT(ANY(annulus, inner, back) == HOMOTOPY_DIFFERENT);
    const uint32_t core[] = {0, 1, 2, 3, 4, 0}, twice[] = {0, 1, 2, 3, 4, 0, 1, 2, 3, 4, 0}, rim[] = {0, 2, 4, 1, 3, 0};
    EXPECT(ANY(band, rim, twice) == HOMOTOPY_HOMOTOPIC);
    EXPECT(ANY(band, rim, core) == HOMOTOPY_DIFFERENT);
    EXPECT(ANY(band, core, HERE) == HOMOTOPY_DIFFERENT);
    const uint32_t line[] = {0, 1, 3, 0}, line_twice[] = {0, 1, 3, 0, 1, 3, 0}, face[] = {0, 1, 2, 0};
    EXPECT(ANY(plane, line, HERE) == HOMOTOPY_DIFFERENT);
    EXPECT(ANY(plane, line_twice, HERE) == HOMOTOPY_HOMOTOPIC);
    EXPECT(ANY(plane, face, HERE) == HOMOTOPY_HOMOTOPIC);

    /* What is wrong with walks is told of the mesh, and not of its double or cover, which have the vertices behind. */
    const uint32_t mirrored[] = {0, 6, 0}, apart[] = {0, 4, 0}, away[] = {1}, gone[] = {0, 1};
    EXPECT(ANY(annulus, HERE, mirrored) == HOMOTOPY_NO_VERTEX && ANY(plane, HERE, mirrored) == HOMOTOPY_NO_VERTEX);
    EXPECT(ANY(annulus, HERE, apart) == HOMOTOPY_NO_EDGE);
    EXPECT(ANY(annulus, away, HERE) == HOMOTOPY_STARTS_DIFFER && ANY(annulus, gone, HERE) == HOMOTOPY_ENDS_DIFFER);
    EXPECT(any_of(band, HERE, 0, HERE, 1, &outcome) == HOMOTOPY_EMPTY_WALK);

    /* The room is looked at first, then the mesh, and then how many walks there are. */
    const uint32_t sizes[] = {1, 1, 1};
    uint8_t answers[1] = {7};
    homotopy_decide_any(5, band.size, 5, band.corner, 15, sizes, 2, HERE, 1, answers, 0, &outcome);
    EXPECT(is(outcome, HOMOTOPY_SHORT_ROOM, 1, 0, 0));
    homotopy_decide_any(5, band.size, 5, band.corner, 15, sizes, 3, core, 3, answers, 1, &outcome);
    EXPECT(is(outcome, HOMOTOPY_WALK_COUNT, 0, 0, 0) && answers[0] == 7);
    homotopy_decide_any(5, band.size, 4, band.corner, 15, sizes, 3, core, 3, answers, 1, &outcome);
    EXPECT(is(outcome, HOMOTOPY_CORNER_COUNT, 0, 0, 0) && answers[0] == 7);
    drop(annulus), drop(band), drop(plane);
}

/* A grid of triangles, n times n squares, open; or closed to a Klein bottle. */
static mesh grid(uint32_t n, int closed) {
    uint32_t side = closed ? n : n + 1, *corner = malloc(24 * n * n), filled = 0;
    for (uint32_t i = 0; i < n; i++)
        for (uint32_t j = 0; j < n; j++) {
            uint32_t turned = closed && i + 1 == n, next = closed ? (j + 1) % n : j + 1, right = (i + 1) % side;
            uint32_t a = side * i + j, b = side * right + (turned ? (n - j) % n : j), d = side * i + next;
            uint32_t c = side * right + (turned ? (n - next) % n : next), faces[] = {a, b, c, a, c, d};
            memcpy(corner + filled, faces, sizeof faces);
            filled += 6;
        }
    mesh it = triangles(side * side, 2 * n * n, corner);
    free(corner);
    return it;
}

static void any_faults(void) {
    homotopy_outcome outcome;
    const uint32_t three[] = {0, 1, 2, 0, 1, 3, 0, 1, 4}, fans[] = {0, 1, 2, 0, 3, 4};
    mesh crowded = triangles(5, 3, three), pinched = triangles(5, 2, fans), band = triangles(5, 5, BAND), plane = triangles(6, 10, PLANE);
    EXPECT(ANY(crowded, HERE, HERE) == 100 + HOMOTOPY_EDGE_SIDES && is(outcome, HOMOTOPY_EDGE_SIDES, 0, 1, 3));
    EXPECT(ANY(pinched, HERE, HERE) == 100 + HOMOTOPY_PINCHED && is(outcome, HOMOTOPY_PINCHED, 0, 0, 0));
    pinched.faces = 0, pinched.corners = 0;
    EXPECT(ANY(pinched, HERE, HERE) == 100 + HOMOTOPY_NO_FACE);
    band.vertices = 500001;
    EXPECT(ANY(band, HERE, HERE) == 100 + HOMOTOPY_DOUBLE_VERTICES && is(outcome, HOMOTOPY_DOUBLE_VERTICES, 0, 0, 0));
    band.vertices = 250001;
    EXPECT(ANY(band, HERE, HERE) == 100 + HOMOTOPY_COVER_VERTICES && is(outcome, HOMOTOPY_COVER_VERTICES, 0, 0, 0));
    band.vertices = 250000;
    EXPECT(ANY(band, HERE, HERE) == HOMOTOPY_HOMOTOPIC);
    plane.vertices = 500001;
    EXPECT(ANY(plane, HERE, HERE) == 100 + HOMOTOPY_COVER_VERTICES);
    drop(crowded), drop(pinched), drop(band), drop(plane);
    for (int closed = 0; closed < 2; closed++) {
        mesh large = grid(592, closed);
        EXPECT(ANY(large, HERE, HERE) == 100 + (closed ? HOMOTOPY_COVER_SIDES : HOMOTOPY_DOUBLE_SIDES));
        drop(large);
    }
}

int main(void) {
    for (uint32_t i = 0; i < 7; i++) {
        const uint32_t faces[] = {i, (i + 1) % 7, (i + 3) % 7, i, (i + 3) % 7, (i + 2) % 7};
        memcpy(torus + 6 * i, faces, sizeof faces);
    }
    surfaces();
    faults();
    decisions();
    components();
    any_surfaces();
    any_faults();
    if (!failures) printf("calls.c: all as wanted\n");
    return failures != 0;
}
