/* Components of surfaces: by hand, and of random pieces whose vertices are numbered and whose faces are listed by chance, where what is wanted
 * is known from how they were put together. And what is left alone where there is no answer, or too little room in either array. */
#include "homotopy.h"

#include <stdio.h>
#include <stdlib.h>
#include <string.h>

#define COUNT(array) (sizeof(array) / sizeof(*(array)))
#define EXPECT(condition)                                                        \
    do {                                                                         \
        if (!(condition)) {                                                      \
            printf("components.c, line %d: not so: %s\n", __LINE__, #condition); \
            failures++;                                                          \
        }                                                                        \
    } while (0)

enum { PIECES = 12, VERTICES = 160, FACES = 200, UNTOUCHED = 77 };

static int failures;

typedef struct mesh {
    uint32_t vertices, sizes[FACES], corners[3 * FACES];
    size_t faces;
} mesh;

typedef struct told {
    homotopy_outcome outcome;
    homotopy_component components[PIECES + 1];
    uint32_t places[VERTICES + 1];
} told;

/* A tetrahedron; a torus of seven vertices, triangles i, i + 1, i + 3 and i, i + 3, i + 2, modulo 7; an octahedron. */
static const uint32_t TETRA[] = {0, 1, 2, 0, 3, 1, 0, 2, 3, 1, 3, 2};
static const uint32_t TORUS[] = {0, 1, 3, 0, 3, 2, 1, 2, 4, 1, 4, 3, 2, 3, 5, 2, 5, 4, 3, 4, 6, 3, 6, 5, 4, 5, 0, 4, 0, 6, 5, 6, 1, 5, 1, 0,
                                 6, 0, 2, 6, 2, 1};
static const uint32_t OCTA[] = {0, 1, 2, 0, 2, 3, 0, 3, 4, 0, 4, 1, 5, 2, 1, 5, 3, 2, 5, 4, 3, 5, 1, 4};
static const struct {
    const uint32_t *corners;
    homotopy_component numbers;
} KINDS[] = {{TETRA, {4, 6, 4, 0}}, {TORUS, {7, 21, 14, 1}}, {OCTA, {6, 12, 8, 0}}};

/* One more piece, whose vertex v has the number name[v]. */
static void add(mesh *it, int kind, const uint32_t *name) {
    for (size_t k = 0; k < 3 * KINDS[kind].numbers.faces; k++) it->corners[3 * it->faces + k] = name[KINDS[kind].corners[k]];
    for (size_t k = 0; k < KINDS[kind].numbers.faces; k++) it->sizes[it->faces++] = 3;
}

/* What is told where there is so much room. Nothing is told where the room ends. */
static told ask(const mesh *it, size_t room, size_t place_room) {
    told all;
    memset(&all, UNTOUCHED, sizeof all);
    homotopy_components(it->vertices, it->sizes, it->faces, it->corners, 3 * it->faces, all.components, room, all.places, place_room,
                        &all.outcome);
    return all;
}

static int is(homotopy_outcome outcome, uint32_t code, uint64_t first, uint64_t second, uint64_t third) {
    return outcome.code == code && outcome.numbers[0] == first && outcome.numbers[1] == second && outcome.numbers[2] == third;
}

static int left_alone(const told *all) {
    told none;
    memset(&none, UNTOUCHED, sizeof none);
    return memcmp(all->components, none.components, sizeof none.components) == 0
           && memcmp(all->places, none.places, sizeof none.places) == 0;
}

static int untouched_behind(const told *all, size_t components, size_t vertices) {
    told none;
    memset(&none, UNTOUCHED, sizeof none);
    return memcmp(all->components + components, none.components, sizeof *none.components) == 0
           && memcmp(all->places + vertices, none.places, sizeof *none.places) == 0;
}

/* A tetrahedron of the odd vertices, listed first, and a torus of even ones, with the vertex 0; no face names 9 or 11. */
static void by_hand(void) {
    static const uint32_t odd[] = {1, 3, 5, 7}, even[] = {12, 2, 4, 6, 8, 10, 0};
    static const uint32_t wanted[] = {0, 1, 0, 1, 0, 1, 0, 1, 0, 2, 0, 2, 0};
    mesh it = {.vertices = 13};
    add(&it, 0, odd);
    add(&it, 1, even);
    told all = ask(&it, 2, 13);
    EXPECT(is(all.outcome, HOMOTOPY_DONE, 2, 0, 0));
    EXPECT(memcmp(all.places, wanted, sizeof wanted) == 0);
    EXPECT(memcmp(&all.components[0], &KINDS[1].numbers, sizeof *all.components) == 0);
    EXPECT(memcmp(&all.components[1], &KINDS[0].numbers, sizeof *all.components) == 0);
    EXPECT(untouched_behind(&all, 2, 13));

    /* One too short at either array, at both, or no room at all. */
    static const size_t rooms[][2] = {{1, 13}, {2, 12}, {1, 12}, {0, 13}, {2, 0}, {0, 0}};
    for (size_t k = 0; k < COUNT(rooms); k++) {
        all = ask(&it, rooms[k][0], rooms[k][1]);
        EXPECT(is(all.outcome, HOMOTOPY_SHORT_ROOM, 2, 13, 0) && left_alone(&all));
    }
}

static void faults(void) {
    static const uint32_t name[] = {0, 1, 2, 3};
    mesh it = {.vertices = 4};
    told all = ask(&it, PIECES, VERTICES);
    EXPECT(is(all.outcome, HOMOTOPY_NO_FACE, 0, 0, 0) && left_alone(&all));
    add(&it, 0, name);
    it.faces = 3;
    all = ask(&it, PIECES, VERTICES);
    EXPECT(is(all.outcome, HOMOTOPY_EDGE_SIDES, 1, 2, 1) && left_alone(&all));
    it.faces = 4, it.vertices = 3;
    all = ask(&it, PIECES, VERTICES);
    EXPECT(is(all.outcome, HOMOTOPY_CORNER_RANGE, 1, 0, 0) && left_alone(&all));
    it.vertices = 1000001;
    all = ask(&it, PIECES, VERTICES);
    EXPECT(is(all.outcome, HOMOTOPY_MANY_VERTICES, 0, 0, 0) && left_alone(&all));
    it.vertices = 4, it.sizes[3] = 4;
    all = ask(&it, PIECES, VERTICES);
    EXPECT(is(all.outcome, HOMOTOPY_CORNER_COUNT, 0, 0, 0) && left_alone(&all));
    /* Two tetrahedra with a vertex in common. */
    static const uint32_t second[] = {0, 4, 5, 6};
    mesh twins = {.vertices = 7};
    add(&twins, 0, name);
    add(&twins, 0, second);
    all = ask(&twins, PIECES, VERTICES);
    EXPECT(is(all.outcome, HOMOTOPY_PINCHED, 0, 0, 0) && left_alone(&all));
    /* The projective plane of six vertices. */
    static const uint32_t plane[] = {0, 1, 2, 0, 2, 3, 0, 3, 4, 0, 4, 5, 0, 5, 1, 1, 2, 4, 2, 3, 5, 3, 4, 1, 4, 5, 2, 5, 1, 3};
    mesh projective = {.vertices = 6, .faces = 10};
    memcpy(projective.corners, plane, sizeof plane);
    for (size_t face = 0; face < 10; face++) projective.sizes[face] = 3;
    all = ask(&projective, PIECES, VERTICES);
    EXPECT(is(all.outcome, HOMOTOPY_NOT_ORIENTABLE, 0, 0, 0) && left_alone(&all));
}

static uint32_t chance(uint32_t below) {
    static uint64_t state = 20261202;
    state = state * 6364136223846793005u + 1442695040888963407u;
    return (uint32_t)(state >> 33) % below;
}

static void swap_faces(mesh *it, size_t one, size_t other) {
    uint32_t kept[3];
    memcpy(kept, it->corners + 3 * one, sizeof kept);
    memcpy(it->corners + 3 * one, it->corners + 3 * other, sizeof kept);
    memcpy(it->corners + 3 * other, kept, sizeof kept);
}

/* Pieces of any kind, vertices numbered by chance, some of which no face names. */
static void by_chance(void) {
    uint32_t order[VERTICES], piece_of[VERTICES], taken = 0, pieces = 1 + chance(PIECES), place_of[PIECES], places = 0;
    int kind[PIECES];
    mesh it = {.vertices = VERTICES};
    for (uint32_t v = 0; v < VERTICES; v++) order[v] = v, piece_of[v] = pieces;
    for (uint32_t v = VERTICES; v-- > 1;) {
        const uint32_t other = chance(v + 1), kept = order[v];
        order[v] = order[other], order[other] = kept;
    }
    for (uint32_t piece = 0; piece < pieces; piece++) {
        kind[piece] = (int)chance(3), place_of[piece] = PIECES;
        add(&it, kind[piece], order + taken);
        for (uint32_t k = 0; k < KINDS[kind[piece]].numbers.vertices; k++) piece_of[order[taken++]] = piece;
    }
    for (size_t face = it.faces; face-- > 1;) swap_faces(&it, face, chance((uint32_t)face + 1));
    told all = ask(&it, PIECES, VERTICES);
    EXPECT(is(all.outcome, HOMOTOPY_DONE, pieces, 0, 0) && untouched_behind(&all, pieces, VERTICES));
    for (uint32_t v = 0; v < VERTICES; v++) {
        const uint32_t piece = piece_of[v];
        if (piece < pieces && place_of[piece] == PIECES) {
            place_of[piece] = places;
            EXPECT(memcmp(&all.components[places++], &KINDS[kind[piece]].numbers, sizeof *all.components) == 0);
        }
        EXPECT(all.places[v] == (piece < pieces ? place_of[piece] : pieces));
    }
    EXPECT(places == pieces);
    all = ask(&it, pieces - 1, VERTICES);
    EXPECT(is(all.outcome, HOMOTOPY_SHORT_ROOM, pieces, VERTICES, 0) && left_alone(&all));
}

int main(void) {
    by_hand();
    faults();
    for (int round = 0; round < 200; round++) by_chance();
    if (!failures) printf("components.c: all as wanted\n");
    return failures != 0;
}
