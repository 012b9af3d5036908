/* Meshes that are kept: what is told of them is what `homotopy_decide` tells of their arrays, on tori, on spheres and on several pieces,
 * with random walks. Classes of walks, on surfaces of genus 0 to 4 and on several pieces, beside the answers on all pairs of them. Pairs of
 * closed walks, on two pieces. And what
 * becomes of handles that hold nothing, of meshes and walks that are refused, and of two handles at once.
 *
 * Its malloc, realloc and free (the linker's --wrap) count the blocks that are not given back, and refuse one request. */
#include "homotopy.h"

#include <stdio.h>
#include <stdlib.h>
#include <string.h>

#define EXPECT(condition)                                                  \
    do {                                                                   \
        if (!(condition)) {                                                \
            printf("kept.c, line %d: not so: %s\n", __LINE__, #condition); \
            failures++;                                                    \
        }                                                                  \
    } while (0)

enum { MOST_FACES = 600, PAIRS = 40, MOST_DARTS = 24, WALKS = 2 * PAIRS };

static int failures;
static size_t blocks, requests, refused_request;

void *__real_malloc(size_t size);
void *__real_realloc(void *block, size_t size);
void __real_free(void *block);

void *__wrap_malloc(size_t size) {
    if (++requests == refused_request) return NULL;
    void *block = __real_malloc(size);
    blocks += block != NULL;
    return block;
}

void *__wrap_realloc(void *block, size_t size) {
    if (++requests == refused_request) return NULL;
    void *there = __real_realloc(block, size);
    blocks += block == NULL && there != NULL;
    return there;
}

void __wrap_free(void *block) {
    blocks -= block != NULL;
    __real_free(block);
}

typedef struct mesh {
    uint32_t vertices;
    size_t faces, corners;
    uint32_t size[MOST_FACES], corner[4 * MOST_FACES], start[MOST_FACES];
} mesh;

typedef struct walks {
    uint32_t size[2 * PAIRS], vertex[2 * PAIRS * (MOST_DARTS + 1)];
    size_t filled;
} walks;

static uint32_t random_below(uint32_t bound) {
    static uint64_t state = 20261201;
    state = 6364136223846793005u * state + 1442695040888963407u;
    return (uint32_t)((state >> 33) % bound);
}

static void add_face(mesh *it, const uint32_t *ring, uint32_t size) {
    it->start[it->faces] = (uint32_t)it->corners;
    it->size[it->faces++] = size;
    for (uint32_t corner = 0; corner < size; corner++) it->corner[it->corners++] = ring[corner];
}

/* A torus of squares more, beside what is there. */
static void add_torus(mesh *it, uint32_t wide, uint32_t high) {
    const uint32_t first = it->vertices;
    for (uint32_t y = 0; y < high; y++)
        for (uint32_t x = 0; x < wide; x++) {
            const uint32_t right = (x + 1) % wide, up = (y + 1) % high;
            const uint32_t ring[] = {first + wide * y + x, first + wide * y + right, first + wide * up + right, first + wide * up + x};
            add_face(it, ring, 4);
        }
    it->vertices += wide * high;
}

static void add_tetrahedron(mesh *it) {
    static const uint32_t rings[4][3] = {{0, 1, 2}, {0, 3, 1}, {0, 2, 3}, {1, 3, 2}};
    for (int face = 0; face < 4; face++) {
        uint32_t ring[3];
        for (int corner = 0; corner < 3; corner++) ring[corner] = it->vertices + rings[face][corner];
        add_face(it, ring, 3);
    }
    it->vertices += 4;
}

/* A closed surface of this genus more: a tetrahedron, or a chain of tori of squares. Each torus but the last lacks the square at (2, 2),
 * and each but the first the one at (0, 0): there two are joined, corner to corner the other way round. */
static void add_surface(mesh *it, uint32_t genus) {
    uint32_t seam[4];
    if (genus == 0) add_tetrahedron(it);
    for (uint32_t torus = 0; torus < genus; torus++) {
        const uint32_t wide = 4 + random_below(2), high = 4 + random_below(2);
        uint32_t name[5][5];
        for (uint32_t y = 0; y < high; y++)
            for (uint32_t x = 0; x < wide; x++) {
                const int is_joined = torus > 0 && x < 2 && y < 2;
                name[y][x] = is_joined ? seam[y == 0 ? 3 * x : 1 + x] : it->vertices++;
            }
        for (uint32_t y = 0; y < high; y++)
            for (uint32_t x = 0; x < wide; x++) {
                const uint32_t right = (x + 1) % wide, up = (y + 1) % high;
                const uint32_t ring[] = {name[y][x], name[y][right], name[up][right], name[up][x]};
                const int is_seam = x == 2 && y == 2 && torus + 1 < genus;
                if (is_seam) memcpy(seam, ring, sizeof seam);
                if (!is_seam && (x > 0 || y > 0 || torus == 0)) add_face(it, ring, 4);
            }
    }
}

/* A dart from a vertex: the next corner of some face, or the one before. */
static uint32_t step_from(const mesh *it, uint32_t vertex) {
    for (;;) {
        const uint32_t face = random_below((uint32_t)it->faces), *ring = it->corner + it->start[face], size = it->size[face];
        for (uint32_t corner = 0; corner < size; corner++)
            if (ring[corner] == vertex) return ring[(corner + (random_below(2) ? 1 : size - 1)) % size];
    }
}

/* Pairs of walks from one vertex, most of which end together. Some have no vertex. */
static void make_walks(const mesh *it, walks *made) {
    made->filled = 0;
    for (int pair = 0; pair < PAIRS; pair++) {
        uint32_t one[MOST_DARTS + 1], darts = random_below(MOST_DARTS / 2), at = random_below(it->vertices);
        one[0] = at;
        for (uint32_t dart = 0; dart < darts; dart++) one[dart + 1] = step_from(it, one[dart]);
        memcpy(made->vertex + made->filled, one, 4 * (darts + 1));
        made->size[2 * pair] = darts + 1, made->filled += darts + 1;
        /* The other walk goes round a little first, and then as the first one does; or it is any walk. */
        uint32_t *other = made->vertex + made->filled, length = 0;
        other[length++] = at;
        if (random_below(2)) {
            for (uint32_t dart = random_below(4); dart > 0; dart--) other[length] = step_from(it, other[length - 1]), length++;
            for (uint32_t back = length - 1; back > 0 && random_below(4); back--) other[length] = other[back - 1], length++;
            for (uint32_t dart = 1; dart <= darts; dart++) other[length++] = one[dart];
        } else {
            while (length < MOST_DARTS && (length < 4 || other[length - 1] != one[darts]))
                other[length] = step_from(it, other[length - 1]), length++;
        }
        if (random_below(20) == 0) length = 0;
        made->size[2 * pair + 1] = length, made->filled += length;
    }
}

static int is(homotopy_outcome outcome, uint32_t code, uint64_t first, uint64_t second, uint64_t third) {
    return outcome.code == code && outcome.numbers[0] == first && outcome.numbers[1] == second && outcome.numbers[2] == third;
}

static homotopy_outcome keep(const mesh *it, homotopy_mesh *handle) {
    homotopy_outcome outcome = {99, {9, 9, 9}};
    homotopy_mesh_new(it->vertices, it->size, it->faces, it->corner, it->corners, handle, &outcome);
    return outcome;
}

static homotopy_outcome ask(homotopy_mesh *handle, const walks *asked, uint8_t *answers, size_t room) {
    homotopy_outcome outcome = {99, {9, 9, 9}};
    homotopy_mesh_decide(handle, asked->size, 2 * PAIRS, asked->vertex, asked->filled, answers, room, &outcome);
    return outcome;
}

static homotopy_outcome ask_once(const mesh *it, const walks *asked, uint8_t *answers, size_t room) {
    homotopy_outcome outcome = {99, {9, 9, 9}};
    homotopy_decide(it->vertices, it->size, it->faces, it->corner, it->corners, asked->size, 2 * PAIRS, asked->vertex, asked->filled,
                    answers, room, &outcome);
    return outcome;
}

/* What is told of a mesh that is kept is what is told of its arrays. Counts the pairs that are homotopic, and those that are not. */
static void compare(const mesh *it, homotopy_mesh *handle, size_t told[2]) {
    static walks asked;
    uint8_t kept[PAIRS], once[PAIRS];
    make_walks(it, &asked);
    memset(kept, 7, PAIRS), memset(once, 7, PAIRS);
    EXPECT(is(ask_once(it, &asked, once, PAIRS), HOMOTOPY_DONE, 0, 0, 0));
    EXPECT(is(ask(handle, &asked, kept, PAIRS), HOMOTOPY_DONE, 0, 0, 0));
    EXPECT(memcmp(kept, once, PAIRS) == 0);
    for (int pair = 0; pair < PAIRS; pair++)
        if (kept[pair] == HOMOTOPY_HOMOTOPIC || kept[pair] == HOMOTOPY_DIFFERENT) told[kept[pair] - HOMOTOPY_HOMOTOPIC]++;
    EXPECT(is(ask(handle, &asked, kept, PAIRS - 1), HOMOTOPY_SHORT_ROOM, PAIRS, 0, 0));
    asked.filled--;
    memset(kept, 7, PAIRS);
    EXPECT(is(ask(handle, &asked, kept, PAIRS), HOMOTOPY_WALK_COUNT, 0, 0, 0) && kept[0] == 7 && kept[PAIRS - 1] == 7);
}

static void random_meshes(void) {
    static mesh one, other;
    size_t told[2] = {0, 0};
    for (int round = 0; round < 60; round++) {
        homotopy_mesh handle = HOMOTOPY_EMPTY_MESH, second = HOMOTOPY_EMPTY_MESH;
        memset(&one, 0, sizeof one), memset(&other, 0, sizeof other);
        add_torus(&one, 3 + random_below(5), 3 + random_below(5));
        add_torus(&other, 3 + random_below(5), 3 + random_below(5));
        for (uint32_t piece = random_below(4); piece > 0; piece--)
            if (random_below(2)) add_torus(&other, 3 + random_below(3), 3 + random_below(3));
            else add_tetrahedron(&other);
        if (random_below(8) == 0) memset(&one, 0, sizeof one), add_tetrahedron(&one);
        EXPECT(is(keep(&one, &handle), HOMOTOPY_DONE, 0, 0, 0));
        EXPECT(is(keep(&other, &second), HOMOTOPY_DONE, 0, 0, 0));
        for (int question = 0; question < 4; question++) compare(&one, &handle, told), compare(&other, &second, told);
        /* A handle that holds a mesh takes another. */
        EXPECT(is(keep(&other, &handle), HOMOTOPY_DONE, 0, 0, 0));
        homotopy_mesh_free(&second);
        compare(&other, &handle, told);
        homotopy_mesh_free(&handle);
    }
    EXPECT(told[0] > 5000 && told[1] > 1000);
}

static void empty_handles(void) {
    static walks asked;
    static mesh torus;
    uint8_t answers[PAIRS];
    homotopy_mesh handle = HOMOTOPY_EMPTY_MESH;
    memset(&torus, 0, sizeof torus);
    add_torus(&torus, 4, 3);
    make_walks(&torus, &asked);
    memset(answers, 7, PAIRS);
    EXPECT(is(ask(&handle, &asked, answers, PAIRS), HOMOTOPY_NO_MESH, 0, 0, 0) && answers[0] == 7 && answers[PAIRS - 1] == 7);
    EXPECT(is(ask(&handle, &asked, answers, 0), HOMOTOPY_NO_MESH, 0, 0, 0));
    homotopy_mesh_free(&handle);
    EXPECT(handle.kept == NULL);
    EXPECT(is(keep(&torus, &handle), HOMOTOPY_DONE, 0, 0, 0) && handle.kept != NULL);
    homotopy_mesh_free(&handle);
    EXPECT(handle.kept == NULL);
    homotopy_mesh_free(&handle);
    EXPECT(is(ask(&handle, &asked, answers, PAIRS), HOMOTOPY_NO_MESH, 0, 0, 0));
}

/* A mesh that is refused changes no handle, whatever it holds. */
static void refused_meshes(void) {
    static mesh torus, open;
    size_t told[2] = {0, 0};
    homotopy_mesh handle = HOMOTOPY_EMPTY_MESH;
    memset(&torus, 0, sizeof torus);
    add_torus(&torus, 5, 4);
    open = torus;
    open.faces--, open.corners -= 4;
    EXPECT(is(keep(&open, &handle), HOMOTOPY_EDGE_SIDES, 0, 4, 1) && handle.kept == NULL);
    EXPECT(is(keep(&torus, &handle), HOMOTOPY_DONE, 0, 0, 0));
    void *kept = handle.kept;
    EXPECT(is(keep(&open, &handle), HOMOTOPY_EDGE_SIDES, 0, 4, 1) && handle.kept == kept);
    open.corners--;
    EXPECT(is(keep(&open, &handle), HOMOTOPY_CORNER_COUNT, 0, 0, 0) && handle.kept == kept);
    open = torus;
    open.corner[9] = 20;
    EXPECT(is(keep(&open, &handle), HOMOTOPY_CORNER_RANGE, 2, 0, 0) && handle.kept == kept);
    compare(&torus, &handle, told);
    homotopy_mesh_free(&handle);
}

/* Each request for memory fails in turn: the code tells it, the handle holds what it held, and nothing is lost. */
static void little_memory(int pieces) {
    static mesh torus, it;
    static walks asked;
    uint8_t answers[PAIRS], wanted[PAIRS], untouched[PAIRS];
    memset(&it, 0, sizeof it), memset(&torus, 0, sizeof torus), memset(untouched, 7, PAIRS);
    add_torus(&torus, 3, 3);
    for (int piece = 0; piece < pieces; piece++) add_torus(&it, 5 + (uint32_t)piece, 4);
    make_walks(&it, &asked);
    homotopy_mesh handle = HOMOTOPY_EMPTY_MESH;
    EXPECT(is(keep(&torus, &handle), HOMOTOPY_DONE, 0, 0, 0));
    const size_t held = blocks;
    void *kept = handle.kept;
    homotopy_outcome outcome;
    size_t request = 0;
    do {
        requests = 0, refused_request = ++request;
        outcome = keep(&it, &handle);
        if (outcome.code != HOMOTOPY_NO_MEMORY) break;
        EXPECT(handle.kept == kept && blocks == held);
    } while (request < 10000);
    EXPECT(is(outcome, HOMOTOPY_DONE, 0, 0, 0) && request > 20 && requests == request - 1);
    refused_request = 0;
    EXPECT(is(ask_once(&it, &asked, wanted, PAIRS), HOMOTOPY_DONE, 0, 0, 0));
    request = 0;
    do {
        homotopy_mesh fresh = HOMOTOPY_EMPTY_MESH;
        refused_request = 0;
        EXPECT(is(keep(&it, &fresh), HOMOTOPY_DONE, 0, 0, 0));
        requests = 0, refused_request = ++request;
        memset(answers, 7, PAIRS);
        outcome = ask(&fresh, &asked, answers, PAIRS);
        refused_request = 0;
        if (outcome.code == HOMOTOPY_NO_MEMORY) {
            EXPECT(memcmp(answers, untouched, PAIRS) == 0);
            EXPECT(is(ask(&fresh, &asked, answers, PAIRS), HOMOTOPY_DONE, 0, 0, 0));
        }
        EXPECT(memcmp(answers, wanted, PAIRS) == 0);
        homotopy_mesh_free(&fresh);
    } while (outcome.code == HOMOTOPY_NO_MEMORY && request < 100000);
    EXPECT(is(outcome, HOMOTOPY_DONE, 0, 0, 0) && request > 20);
    homotopy_mesh_free(&handle);
}

static homotopy_outcome sort_walks(homotopy_mesh *handle, const walks *asked, size_t count, size_t *classes, size_t room) {
    homotopy_outcome outcome = {99, {9, 9, 9}};
    homotopy_mesh_classes(handle, asked->size, count, asked->vertex, asked->filled, classes, room, &outcome);
    return outcome;
}

/* Walks that are asked about two by two. */
typedef struct pairs {
    uint32_t size[2 * WALKS], vertex[2 * WALKS * (MOST_DARTS + 1)];
    size_t count, filled;
} pairs;

static void put(pairs *to, const uint32_t *walk, uint32_t size) {
    memcpy(to->vertex + to->filled, walk, 4 * size);
    to->filled += size;
    to->size[to->count++] = size;
}

static void decide_pairs(homotopy_mesh *handle, const pairs *asked, uint8_t *answers) {
    homotopy_outcome outcome = {99, {9, 9, 9}};
    homotopy_mesh_decide(handle, asked->size, asked->count, asked->vertex, asked->filled, answers, asked->count / 2, &outcome);
    EXPECT(is(outcome, HOMOTOPY_DONE, 0, 0, 0));
}

/* Takes out what is no walk of the mesh, by the answers on pairs of each list with itself, and tells how many are left. Before that, the
 * first that is none is told, with its code. */
static size_t take_good(homotopy_mesh *handle, walks *made) {
    static pairs twice;
    uint8_t answers[WALKS];
    size_t classes[WALKS], left = 0, filled = 0, start = 0, first = 0;
    twice.count = twice.filled = 0;
    for (size_t walk = 0; walk < WALKS; start += made->size[walk++])
        for (int which = 0; which < 2; which++) put(&twice, made->vertex + start, made->size[walk]);
    decide_pairs(handle, &twice, answers);
    while (first < WALKS && answers[first] == HOMOTOPY_HOMOTOPIC) first++;
    const homotopy_outcome outcome = sort_walks(handle, made, WALKS, classes, WALKS);
    if (first < WALKS) EXPECT(outcome.code == answers[first] && outcome.numbers[0] == first + 1);
    else EXPECT(is(outcome, HOMOTOPY_DONE, 0, 0, 0));
    start = 0;
    for (size_t walk = 0; walk < WALKS; walk++) {
        const uint32_t size = made->size[walk];
        if (answers[walk] == HOMOTOPY_HOMOTOPIC) {
            memmove(made->vertex + filled, made->vertex + start, 4 * size);
            filled += size;
            made->size[left++] = size;
        }
        start += size;
    }
    made->filled = filled;
    return left;
}

/* Two walks are told one number exactly where `homotopy_mesh_decide` tells that they are homotopic, and it is the least place of its class.
 * Counts the pairs of one class, those of common ends that are not, and the walks. */
static void compare_classes(const mesh *it, homotopy_mesh *handle, size_t told[3]) {
    static walks asked;
    static pairs both;
    size_t classes[WALKS + 1], start[WALKS + 1] = {0};
    uint8_t answers[WALKS];
    make_walks(it, &asked);
    const size_t count = take_good(handle, &asked);
    for (size_t walk = 0; walk < count; walk++) start[walk + 1] = start[walk] + asked.size[walk];
    classes[count] = 77;
    EXPECT(is(sort_walks(handle, &asked, count, classes, WALKS + 1), HOMOTOPY_DONE, 0, 0, 0) && classes[count] == 77);
    for (size_t walk = 0; walk < count; walk++) {
        both.count = both.filled = 0;
        for (size_t other = 0; other < walk; other++) {
            put(&both, asked.vertex + start[other], asked.size[other]);
            put(&both, asked.vertex + start[walk], asked.size[walk]);
        }
        decide_pairs(handle, &both, answers);
        size_t least = walk;
        for (size_t other = walk; other-- > 0;) {
            EXPECT((answers[other] == HOMOTOPY_HOMOTOPIC) == (classes[other] == classes[walk]));
            if (answers[other] == HOMOTOPY_HOMOTOPIC) least = other, told[0]++;
            else told[1] += answers[other] == HOMOTOPY_DIFFERENT;
        }
        EXPECT(classes[walk] == least);
        told[2]++;
    }
}

static void random_classes(void) {
    static mesh it;
    size_t told[3] = {0, 0, 0};
    for (uint32_t round = 0; round < 250; round++) {
        homotopy_mesh handle = HOMOTOPY_EMPTY_MESH;
        homotopy_numbers numbers;
        homotopy_outcome outcome;
        uint32_t genera[4], wanted[4], pieces = round % 2 ? 1 : 2 + random_below(3);
        memset(&it, 0, sizeof it);
        for (uint32_t piece = 0; piece < pieces; piece++) {
            wanted[piece] = (round / 2 + piece) % 5;
            add_surface(&it, wanted[piece]);
        }
        homotopy_surface(it.vertices, it.size, it.faces, it.corner, it.corners, &numbers, genera, 4, &outcome);
        EXPECT(is(outcome, HOMOTOPY_DONE, 0, 0, 0) && numbers.components == pieces && memcmp(genera, wanted, 4 * pieces) == 0);
        EXPECT(is(keep(&it, &handle), HOMOTOPY_DONE, 0, 0, 0));
        for (int question = 0; question < 6; question++) compare_classes(&it, &handle, told);
        homotopy_mesh_free(&handle);
    }
    EXPECT(told[0] > 10000 && told[1] > 1000 && told[2] > 100000);
}

/* What is first wrong is told, the handle first, then the room, the sizes, and the walks one after another; and nothing is written. */
static void refused_walks(void) {
    static mesh torus;
    /* Ten walks of two vertices each, the last one with a third. */
    walks good = {{2, 2, 2, 2, 2, 2, 2, 2, 2, 3}, {0, 1, 1, 0, 0, 1, 1, 2, 2, 1, 0, 4, 4, 0, 0, 1, 0, 4, 0, 1, 0}, 21}, asked;
    const size_t wanted[11] = {0, 1, 0, 3, 4, 5, 6, 0, 5, 9, 7};
    size_t classes[11], untouched[11];
    homotopy_mesh handle = HOMOTOPY_EMPTY_MESH;
    memset(&torus, 0, sizeof torus);
    add_torus(&torus, 4, 4);
    torus.vertices++;
    for (int k = 0; k < 11; k++) classes[k] = untouched[k] = 7;
#define REFUSED(count, room, code, first, second) \
    EXPECT(is(sort_walks(&handle, &asked, count, classes, room), code, first, second, 0) && !memcmp(classes, untouched, sizeof classes))
    asked = good, asked.filled--;
    REFUSED(10, 9, HOMOTOPY_NO_MESH, 0, 0);
    EXPECT(is(keep(&torus, &handle), HOMOTOPY_DONE, 0, 0, 0));
    REFUSED(10, 9, HOMOTOPY_SHORT_ROOM, 10, 0);
    REFUSED(10, 0, HOMOTOPY_SHORT_ROOM, 10, 0);
    REFUSED(10, 10, HOMOTOPY_WALK_COUNT, 0, 0);
    asked = good;
    REFUSED(9, 11, HOMOTOPY_WALK_COUNT, 0, 0);
    /* Of several walks that are none the first is told, whatever is wrong with it. */
    asked.vertex[20] = 16;
    REFUSED(10, 11, HOMOTOPY_NO_VERTEX, 10, 2);
    asked.vertex[13] = 10;
    REFUSED(10, 11, HOMOTOPY_NO_EDGE, 7, 0);
    asked.vertex[5] = 4000000000u, asked.vertex[4] = 15;
    REFUSED(10, 11, HOMOTOPY_NO_VERTEX, 3, 1);
    asked.size[1] = 0, asked.size[0] = 4, asked.vertex[2] = 0, asked.vertex[3] = 1;
    REFUSED(10, 11, HOMOTOPY_EMPTY_WALK, 2, 0);
    asked.vertex[0] = 3, asked.vertex[1] = 1;
    REFUSED(10, 11, HOMOTOPY_NO_EDGE, 1, 0);
    asked = good;
    EXPECT(is(sort_walks(&handle, &asked, 10, classes, 11), HOMOTOPY_DONE, 0, 0, 0) && !memcmp(classes, wanted, sizeof classes));
    asked.filled = 0;
    classes[0] = 7;
    EXPECT(is(sort_walks(&handle, &asked, 0, classes, 0), HOMOTOPY_DONE, 0, 0, 0) && classes[0] == 7);
    homotopy_mesh_free(&handle);
}

/* Pairs of closed walks on a torus of 4 by 4 squares and on a tetrahedron beside it; the bytes were worked out by hand. What is first wrong
 * is told, the handle first, then the room, and the sizes; and each request for memory fails in turn. */
static void closed_walks(void) {
    static mesh it;
    static const uint32_t size[20] = {5, 5, 5, 5, 5, 1, 4, 3, 1, 1, 2, 1, 1, 2, 0, 1, 3, 1, 1, 3};
    static const uint32_t vertex[50] = {
        0, 1, 2, 3, 0, 6, 7, 4, 5, 6, /* round the torus, and the same one row up */
        0, 1, 2, 3, 0, 0, 4, 8, 12, 0, /* round it, and through the hole */
        0, 1, 5, 4, 0, 9, /* round a square, and nowhere */
        16, 17, 18, 16, 19, 17, 19, /* on the tetrahedron */
        0, 16, /* in two pieces */
        0, 1, 0, 0, 0, 0, 0, /* the first walk is open; the second has no edge; the first has no vertex */
        0, 20, 2, 0, 0, 0, 1, 2, /* no vertex, which is told before an edge; the second is open */
    };
    static const uint8_t wanted[11] = {HOMOTOPY_FREELY_HOMOTOPIC, HOMOTOPY_NOT_FREELY_HOMOTOPIC, HOMOTOPY_FREELY_HOMOTOPIC,
                                       HOMOTOPY_FREELY_HOMOTOPIC, HOMOTOPY_NOT_FREELY_HOMOTOPIC, HOMOTOPY_OPEN_WALK, HOMOTOPY_NO_EDGE,
                                       HOMOTOPY_EMPTY_WALK, HOMOTOPY_NO_VERTEX, HOMOTOPY_OPEN_WALK, 7};
    uint8_t answers[11], untouched[11];
    size_t filled = 0, request = 0;
    homotopy_mesh handle = HOMOTOPY_EMPTY_MESH;
    homotopy_outcome outcome;
    memset(&it, 0, sizeof it), memset(untouched, 7, sizeof untouched);
    add_torus(&it, 4, 4), add_tetrahedron(&it);
    for (int walk = 0; walk < 20; walk++) filled += size[walk];
#define LOOPS(count, vertices, room) \
    (memset(answers, 7, sizeof answers), homotopy_mesh_loops(&handle, size, count, vertex, vertices, answers, room, &outcome), outcome)
    EXPECT(is(LOOPS(20, filled, 10), HOMOTOPY_NO_MESH, 0, 0, 0) && !memcmp(answers, untouched, 11));
    do {
        EXPECT(is(keep(&it, &handle), HOMOTOPY_DONE, 0, 0, 0));
        EXPECT(is(LOOPS(20, filled, 9), HOMOTOPY_SHORT_ROOM, 10, 0, 0) && !memcmp(answers, untouched, 11));
        EXPECT(is(LOOPS(20, filled - 1, 10), HOMOTOPY_WALK_COUNT, 0, 0, 0) && !memcmp(answers, untouched, 11));
        EXPECT(is(LOOPS(19, filled - 3, 10), HOMOTOPY_WALK_COUNT, 0, 0, 0) && !memcmp(answers, untouched, 11));
        requests = 0, refused_request = ++request;
        outcome = LOOPS(20, filled, 10);
        refused_request = 0;
        if (outcome.code == HOMOTOPY_NO_MEMORY) EXPECT(!memcmp(answers, untouched, 11));
        EXPECT(is(LOOPS(20, filled, 10), HOMOTOPY_DONE, 0, 0, 0) && !memcmp(answers, wanted, 11));
        EXPECT(is(LOOPS(0, 0, 0), HOMOTOPY_DONE, 0, 0, 0));
        homotopy_mesh_free(&handle);
        EXPECT(blocks == 0);
    } while (request < 200);
}

/* Each request for memory fails in turn while walks are sorted. */
static void little_memory_for_classes(int pieces) {
    static mesh it;
    static walks asked;
    size_t classes[WALKS], wanted[WALKS], untouched[WALKS], request = 0;
    homotopy_mesh handle = HOMOTOPY_EMPTY_MESH;
    homotopy_outcome outcome;
    memset(&it, 0, sizeof it), memset(untouched, 7, sizeof untouched);
    for (int piece = 0; piece < pieces; piece++) add_surface(&it, 2 - (uint32_t)piece % 2);
    make_walks(&it, &asked);
    EXPECT(is(keep(&it, &handle), HOMOTOPY_DONE, 0, 0, 0));
    const size_t count = take_good(&handle, &asked);
    EXPECT(is(sort_walks(&handle, &asked, count, wanted, WALKS), HOMOTOPY_DONE, 0, 0, 0));
    homotopy_mesh_free(&handle);
    do {
        EXPECT(is(keep(&it, &handle), HOMOTOPY_DONE, 0, 0, 0));
        memset(classes, 7, sizeof classes);
        requests = 0, refused_request = ++request;
        outcome = sort_walks(&handle, &asked, count, classes, WALKS);
        refused_request = 0;
        if (outcome.code == HOMOTOPY_NO_MEMORY) {
            EXPECT(memcmp(classes, untouched, sizeof classes) == 0);
            EXPECT(is(sort_walks(&handle, &asked, count, classes, WALKS), HOMOTOPY_DONE, 0, 0, 0));
        }
        EXPECT(memcmp(classes, wanted, count * sizeof *classes) == 0);
        homotopy_mesh_free(&handle);
        EXPECT(blocks == 0);
    } while (outcome.code == HOMOTOPY_NO_MEMORY && request < 100000);
    EXPECT(is(outcome, HOMOTOPY_DONE, 0, 0, 0) && request > 100);
}

int main(void) {
    random_meshes();
    EXPECT(blocks == 0);
    random_classes();
    EXPECT(blocks == 0);
    refused_walks();
    EXPECT(blocks == 0);
    closed_walks();
    little_memory_for_classes(1);
    little_memory_for_classes(3);
    empty_handles();
    EXPECT(blocks == 0);
    refused_meshes();
    EXPECT(blocks == 0);
    little_memory(1);
    little_memory(3);
    EXPECT(blocks == 0);
    if (!failures) printf("kept.c: all as wanted\n");
    return failures != 0;
}
