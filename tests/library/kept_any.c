/* Meshes of any kind that are kept: a Möbius band, an annulus beside a torus, and a Klein bottle, with answers that were worked out by
 * hand; and grids with faces taken out, with random walks, of which the same is told as `homotopy_decide_any` tells of their arrays. */
#include "homotopy.h"

#include <stdio.h>
#include <string.h>

#define EXPECT(condition)                                                      \
    do {                                                                       \
        if (!(condition)) {                                                    \
            printf("kept_any.c, line %d: not so: %s\n", __LINE__, #condition); \
            failures++;                                                        \
        }                                                                      \
    } while (0)

enum { MOST_FACES = 80, WALKS = 24, MOST_VERTICES = 12 };

static int failures;

typedef struct mesh {
    uint32_t vertices;
    size_t faces, corners;
    uint32_t size[MOST_FACES], corner[4 * MOST_FACES];
} mesh;

typedef struct walks {
    size_t count, filled;
    uint32_t size[WALKS * WALKS], vertex[WALKS * WALKS * MOST_VERTICES];
} walks;

static uint32_t random_below(uint32_t bound) {
    static uint64_t state = 20261201;
    state = 6364136223846793005u * state + 1442695040888963407u;
    return (uint32_t)((state >> 33) % bound);
}

static void add_face(mesh *it, const uint32_t *ring, uint32_t size) {
    it->size[it->faces++] = size;
    for (uint32_t corner = 0; corner < size; corner++) it->corner[it->corners++] = ring[corner];
}

/* A grid of squares more, beside what is there: round in its columns, by which the vertex (x, y) is number high * x + y; and round in its
 * rows too where it is closed, otherwise the row of squares on top is missing. Where it is twisted, the last column meets the first one
 * upside down: of a closed grid a Klein bottle comes, of an open one a Möbius band. */
static void add_grid(mesh *it, uint32_t wide, uint32_t high, int is_closed, int is_twisted) {
    const uint32_t first = it->vertices, top = is_closed ? high : high - 1;
    for (uint32_t x = 0; x < wide; x++)
        for (uint32_t y = 0; y < top; y++) {
            uint32_t ring[4];
            for (uint32_t corner = 0; corner < 4; corner++) {
                const uint32_t column = x + (corner == 1 || corner == 2), row = (y + corner / 2) % high;
                const int is_behind = column == wide;
                const uint32_t turned = is_closed ? (high - row) % high : high - 1 - row;
                ring[corner] = first + high * (is_behind ? 0 : column) + (is_behind && is_twisted ? turned : row);
            }
            add_face(it, ring, 4);
        }
    it->vertices += wide * high;
}

static void put(walks *to, const uint32_t *walk, uint32_t size) {
    memcpy(to->vertex + to->filled, walk, 4 * size);
    to->filled += size;
    to->size[to->count++] = size;
}

static int is(homotopy_outcome outcome, uint32_t code, uint64_t first) {
    return outcome.code == code && outcome.numbers[0] == first && outcome.numbers[1] == 0 && outcome.numbers[2] == 0;
}

static homotopy_outcome keep(const mesh *it, homotopy_mesh *handle) {
    homotopy_outcome outcome = {99, {9, 9, 9}};
    homotopy_mesh_new_any(it->vertices, it->size, it->faces, it->corner, it->corners, handle, &outcome);
    return outcome;
}

static homotopy_outcome decide(homotopy_mesh *handle, const walks *asked, uint8_t *answers) {
    homotopy_outcome outcome = {99, {9, 9, 9}};
    homotopy_mesh_decide(handle, asked->size, asked->count, asked->vertex, asked->filled, answers, asked->count / 2, &outcome);
    return outcome;
}

static homotopy_outcome decide_once(const mesh *it, const walks *asked, uint8_t *answers) {
    homotopy_outcome outcome = {99, {9, 9, 9}};
    homotopy_decide_any(it->vertices, it->size, it->faces, it->corner, it->corners, asked->size, asked->count, asked->vertex, asked->filled,
                        answers, asked->count / 2, &outcome);
    return outcome;
}

static homotopy_outcome loops(homotopy_mesh *handle, const walks *asked, uint8_t *answers, size_t room) {
    homotopy_outcome outcome = {99, {9, 9, 9}};
    homotopy_mesh_loops(handle, asked->size, asked->count, asked->vertex, asked->filled, answers, room, &outcome);
    return outcome;
}

static homotopy_outcome classes(homotopy_mesh *handle, const walks *asked, size_t *numbers) {
    homotopy_outcome outcome = {99, {9, 9, 9}};
    homotopy_mesh_classes(handle, asked->size, asked->count, asked->vertex, asked->filled, numbers, asked->count, &outcome);
    return outcome;
}

/* ---- answers by hand: the classes of walks, and from them the answers on all pairs that have common ends */

static void expect_classes(const mesh *it, homotopy_mesh *handle, const walks *asked, const size_t *wanted) {
    size_t numbers[WALKS], start = 0;
    EXPECT(is(classes(handle, asked, numbers), HOMOTOPY_DONE, 0) && !memcmp(numbers, wanted, asked->count * sizeof *numbers));
    for (size_t walk = 0; walk < asked->count; start += asked->size[walk++]) {
        static walks pair;
        uint8_t kept = 7, once = 7;
        size_t at = 0;
        for (size_t other = 0; other < walk; at += asked->size[other++]) {
            pair.count = pair.filled = 0;
            put(&pair, asked->vertex + at, asked->size[other]), put(&pair, asked->vertex + start, asked->size[walk]);
            EXPECT(is(decide(handle, &pair, &kept), HOMOTOPY_DONE, 0) && is(decide_once(it, &pair, &once), HOMOTOPY_DONE, 0));
            EXPECT(kept == once && (kept == HOMOTOPY_HOMOTOPIC) == (wanted[other] == wanted[walk]));
        }
    }
}

/* A band of five triangles, whose rim goes twice round its core. */
static void moebius_band(void) {
    static const uint32_t triangles[5][3] = {{0, 1, 2}, {1, 2, 3}, {2, 3, 4}, {3, 4, 0}, {4, 0, 1}};
    static const uint32_t core[] = {0, 1, 2, 3, 4, 0}, rim[] = {0, 2, 4, 1, 3, 0}, twice[] = {0, 1, 2, 3, 4, 0, 1, 2, 3, 4, 0};
    static const uint32_t mirror[] = {0, 5, 0};
    static const size_t wanted[] = {0, 1, 1, 3};
    static mesh band;
    static walks asked;
    homotopy_mesh handle = HOMOTOPY_EMPTY_MESH;
    homotopy_outcome outcome;
    uint8_t answers[2] = {7, 7};
    size_t numbers[5];
    for (int face = 0; face < 5; face++) add_face(&band, triangles[face], 3);
    band.vertices = 5;
    homotopy_mesh_new(band.vertices, band.size, band.faces, band.corner, band.corners, &handle, &outcome);
    EXPECT(outcome.code == HOMOTOPY_EDGE_SIDES && handle.kept == NULL);
    EXPECT(is(keep(&band, &handle), HOMOTOPY_DONE, 0));
    put(&asked, core, 6), put(&asked, rim, 6), put(&asked, twice, 11), put(&asked, core, 1);
    expect_classes(&band, &handle, &asked, wanted);
    /* Free homotopy is asked of orientable surfaces alone; the room is looked at first, and the sizes behind. */
    EXPECT(is(loops(&handle, &asked, answers, 1), HOMOTOPY_SHORT_ROOM, 2) && answers[0] == 7);
    EXPECT(is(loops(&handle, &asked, answers, 2), HOMOTOPY_NOT_ORIENTABLE, 0) && answers[0] == 7 && answers[1] == 7);
    asked.filled--;
    EXPECT(is(loops(&handle, &asked, answers, 2), HOMOTOPY_NOT_ORIENTABLE, 0));
    asked.filled++;
    /* What the double has beside the band is none of it. */
    put(&asked, mirror, 3);
    outcome = classes(&handle, &asked, numbers);
    EXPECT(outcome.code == HOMOTOPY_NO_VERTEX && outcome.numbers[0] == 5 && outcome.numbers[1] == 1);
    homotopy_mesh_free(&handle);
}

/* Three squares round a hole: 0 2 4 below and 1 3 5 above. Beside them a torus. */
static void annulus_and_torus(void) {
    static const uint32_t below[] = {0, 2, 4, 0}, above[] = {1, 3, 5, 1}, back[] = {0, 4, 2, 0}, corner[] = {0, 1, 3}, other[] = {0, 2, 3};
    static const uint32_t round[] = {6, 9, 12, 6}, through[] = {6, 7, 8, 6};
    static const uint32_t both[] = {6, 9, 12, 6, 7, 8, 6}, swapped[] = {6, 7, 8, 6, 9, 12, 6};
    static const size_t wanted[] = {0, 1, 2, 3, 3, 5, 6, 7, 7};
    static const uint8_t freely[] = {HOMOTOPY_FREELY_HOMOTOPIC, HOMOTOPY_NOT_FREELY_HOMOTOPIC, HOMOTOPY_NOT_FREELY_HOMOTOPIC,
                                     HOMOTOPY_OPEN_WALK, HOMOTOPY_NOT_FREELY_HOMOTOPIC, HOMOTOPY_FREELY_HOMOTOPIC};
    static mesh it;
    static walks asked, pairs;
    homotopy_mesh handle = HOMOTOPY_EMPTY_MESH;
    uint8_t answers[6];
    add_grid(&it, 3, 2, 0, 0), add_grid(&it, 3, 3, 1, 0);
    EXPECT(is(keep(&it, &handle), HOMOTOPY_DONE, 0));
    put(&asked, below, 4), put(&asked, above, 4), put(&asked, back, 4), put(&asked, corner, 3), put(&asked, other, 3);
    put(&asked, round, 4), put(&asked, through, 4), put(&asked, both, 7), put(&asked, swapped, 7);
    expect_classes(&it, &handle, &asked, wanted);
    put(&pairs, below, 4), put(&pairs, above, 4), put(&pairs, below, 4), put(&pairs, back, 4), put(&pairs, below, 4), put(&pairs, below, 1);
    put(&pairs, corner, 3), put(&pairs, below, 4), put(&pairs, below, 4), put(&pairs, round, 4), put(&pairs, both, 7);
    put(&pairs, swapped, 7);
    EXPECT(is(loops(&handle, &pairs, answers, 6), HOMOTOPY_DONE, 0) && !memcmp(answers, freely, 6));
    homotopy_mesh_free(&handle);
}

/* In a Klein bottle a loop b up a column is turned by one along a row: a b is b backwards and then a, and not b a; a a b is b a a. */
static void klein_bottle(void) {
    static const uint32_t once[] = {0, 3, 6, 0, 1, 2, 0}, turned[] = {0, 2, 1, 0, 3, 6, 0}, other[] = {0, 1, 2, 0, 3, 6, 0};
    static const uint32_t twice[] = {0, 3, 6, 0, 3, 6, 0, 1, 2, 0}, same[] = {0, 1, 2, 0, 3, 6, 0, 3, 6, 0};
    static const size_t wanted[] = {0, 0, 2, 3, 3};
    static mesh it;
    static walks asked;
    homotopy_mesh handle = HOMOTOPY_EMPTY_MESH;
    uint8_t answers[2] = {7, 7};
    add_grid(&it, 3, 3, 1, 1);
    EXPECT(is(keep(&it, &handle), HOMOTOPY_DONE, 0));
    put(&asked, once, 7), put(&asked, turned, 7), put(&asked, other, 7), put(&asked, twice, 10), put(&asked, same, 10);
    expect_classes(&it, &handle, &asked, wanted);
    EXPECT(is(loops(&handle, &asked, answers, 2), HOMOTOPY_NOT_ORIENTABLE, 0) && answers[0] == 7);
    homotopy_mesh_free(&handle);
}

/* ---- grids with faces taken out */

static void take_faces(mesh *it, uint32_t one_of) {
    static mesh left;
    size_t at = 0;
    memset(&left, 0, sizeof left);
    left.vertices = it->vertices;
    for (size_t face = 0; face < it->faces; at += it->size[face++])
        if (random_below(one_of)) add_face(&left, it->corner + at, it->size[face]);
    *it = left;
}

/* Walks from the corners of a face, each along sides of faces. */
static void make_walks(const mesh *it, walks *made) {
    made->count = made->filled = 0;
    const uint32_t start = it->corner[4 * random_below((uint32_t)it->faces)];
    for (int walk = 0; walk < WALKS; walk++) {
        uint32_t vertex[MOST_VERTICES], size = 1;
        vertex[0] = start;
        for (int tries = 0; tries < 400 && size < MOST_VERTICES && (size < 3 || vertex[size - 1] != start); tries++) {
            const uint32_t *ring = it->corner + 4 * random_below((uint32_t)it->faces), corner = random_below(4);
            if (ring[corner] == vertex[size - 1]) vertex[size++] = ring[(corner + (random_below(2) ? 1 : 3)) % 4];
        }
        put(made, vertex, size);
    }
}

/* The same is told of the mesh that is kept as of its arrays. Counts the meshes that are refused, those on which closed walks are not asked
 * about, and the pairs that are homotopic, and those that are not. */
static void compare(const mesh *it, size_t told[4]) {
    static walks asked, none, pairs;
    homotopy_mesh handle = HOMOTOPY_EMPTY_MESH;
    uint8_t kept[WALKS * WALKS / 2], once[WALKS * WALKS / 2];
    size_t numbers[WALKS], start[WALKS], filled = 0;
    const homotopy_outcome outcome = keep(it, &handle), wanted = decide_once(it, &none, once);
    EXPECT(!memcmp(&outcome.code, &wanted.code, sizeof outcome.code) && !memcmp(outcome.numbers, wanted.numbers, sizeof outcome.numbers));
    told[0] += outcome.code != HOMOTOPY_DONE;
    if (outcome.code != HOMOTOPY_DONE) return;
    told[1] += loops(&handle, &none, kept, 0).code == HOMOTOPY_NOT_ORIENTABLE;
    make_walks(it, &asked);
    EXPECT(is(classes(&handle, &asked, numbers), HOMOTOPY_DONE, 0));
    for (size_t walk = 0; walk < WALKS; filled += asked.size[walk++]) start[walk] = filled;
    for (size_t walk = 1; walk < WALKS; walk++) {
        pairs.count = pairs.filled = 0;
        for (size_t other = 0; other < walk; other++)
            put(&pairs, asked.vertex + start[other], asked.size[other]), put(&pairs, asked.vertex + start[walk], asked.size[walk]);
        EXPECT(is(decide(&handle, &pairs, kept), HOMOTOPY_DONE, 0) && is(decide_once(it, &pairs, once), HOMOTOPY_DONE, 0));
        EXPECT(!memcmp(kept, once, walk));
        for (size_t other = 0; other < walk; other++) {
            EXPECT((kept[other] == HOMOTOPY_HOMOTOPIC) == (numbers[other] == numbers[walk]));
            told[2] += kept[other] == HOMOTOPY_HOMOTOPIC, told[3] += kept[other] == HOMOTOPY_DIFFERENT;
        }
    }
    homotopy_mesh_free(&handle);
}

static void random_grids(void) {
    static mesh it;
    size_t told[4] = {0, 0, 0, 0};
    for (int round = 0; round < 300; round++) {
        memset(&it, 0, sizeof it);
        for (uint32_t piece = random_below(2) + 1; piece > 0; piece--)
            add_grid(&it, 3 + random_below(3), 3 + random_below(3), (int)random_below(2), (int)random_below(2));
        if (random_below(3)) take_faces(&it, 4 + random_below(12));
        if (it.faces > 0) compare(&it, told);
    }
    EXPECT(told[0] > 10 && told[1] > 30 && told[2] > 500 && told[3] > 100);
}

int main(void) {
    moebius_band();
    annulus_and_torus();
    klein_bottle();
    random_grids();
    if (!failures) printf("kept_any.c: all as wanted\n");
    return failures != 0;
}
