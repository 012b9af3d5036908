/* Asks whether walks are homologous, and judges the numbers that the library writes: edge by edge where they are a chain, and face by face
 * and along the walks where they are a cocycle. Which walks are homologous was worked out by hand. The library has to accept these numbers
 * too, and to reject them with any one of them changed. */
#include "homotopy.h"

#include <stdio.h>
#include <stdlib.h>
#include <string.h>

#define COUNT(array) (sizeof(array) / sizeof(*(array)))
#define EXPECT(condition)                                                      \
    do {                                                                       \
        if (!(condition)) {                                                    \
            printf("homology.c, line %d: not so: %s\n", __LINE__, #condition); \
            failures++;                                                        \
        }                                                                      \
    } while (0)

enum { MOST = 12 };

static int failures;

typedef struct mesh {
    uint32_t vertices;
    size_t faces;
    const uint32_t *corners;
} mesh;

typedef struct walk {
    size_t count;
    const uint32_t *vertices;
} walk;

#define WALK(...) ((walk){COUNT(((uint32_t[]){__VA_ARGS__})), (uint32_t[]){__VA_ARGS__}})

static const uint32_t SIZES[18] = {3, 3, 3, 3, 3, 3, 3, 3, 3, 3, 3, 3, 3, 3, 3, 3, 3, 3};
static const uint32_t TETRA[] = {0, 1, 2, 0, 3, 1, 0, 2, 3, 1, 3, 2};
/* The torus of seven vertices: triangles i, i + 1, i + 3 and i, i + 3, i + 2, modulo 7; and the tetrahedron with it, as vertices 4 to 10. */
static uint32_t torus[42], both[54];

static int is(homotopy_outcome outcome, uint32_t code, uint64_t first, uint64_t second) {
    return outcome.code == code && outcome.numbers[0] == first && outcome.numbers[1] == second && outcome.numbers[2] == 0;
}

/* The call that is asked. */
static void (*ask)(uint32_t, const uint32_t *, size_t, const uint32_t *, size_t, const uint32_t *, size_t, const uint32_t *, size_t,
                   int64_t *, size_t, homotopy_outcome *) = homotopy_homology;

/* Asks with so much room, in a block of its own, so that a sanitizer sees what is written behind it. */
static homotopy_outcome asked(mesh it, walk first, walk second, int64_t *numbers, size_t room) {
    homotopy_outcome outcome = {99, {9, 9, 9}};
    ask(it.vertices, SIZES, it.faces, it.corners, 3 * it.faces, first.vertices, first.count, second.vertices, second.count, numbers, room,
        &outcome);
    return outcome;
}

static uint32_t next(mesh it, size_t corner) { return it.corners[corner % 3 == 2 ? corner - 2 : corner + 1]; }

/* Whether at each edge the sides of the faces add up to what the first walk runs along it more than the second. */
static int is_chain(mesh it, walk first, walk second, const int64_t *numbers) {
    int64_t sum[MOST][MOST] = {{0}};
    for (size_t corner = 0; corner < 3 * it.faces; corner++) sum[it.corners[corner]][next(it, corner)] -= numbers[corner / 3];
    for (size_t at = 0; at + 1 < first.count; at++) sum[first.vertices[at]][first.vertices[at + 1]]++;
    for (size_t at = 0; at + 1 < second.count; at++) sum[second.vertices[at]][second.vertices[at + 1]]--;
    for (size_t low = 0; low < MOST; low++)
        for (size_t high = low; high < MOST; high++)
            if (sum[low][high] != sum[high][low]) return 0;
    return 1;
}

/* Whether the two sides of each edge have opposite numbers, which add up to 0 round each face and to different sums along the walks. All
 * faces of the meshes here are turned alike, and a side on the boundary is alone. */
static int is_cocycle(mesh it, walk first, walk second, const int64_t *numbers) {
    int64_t dart[MOST][MOST] = {{0}}, along = 0;
    for (size_t corner = 0; corner < 3 * it.faces; corner++) dart[next(it, corner)][it.corners[corner]] = -numbers[corner];
    for (size_t corner = 0; corner < 3 * it.faces; corner++) dart[it.corners[corner]][next(it, corner)] = numbers[corner];
    for (size_t low = 0; low < MOST; low++)
        for (size_t high = low; high < MOST; high++)
            if (dart[low][high] != -dart[high][low]) return 0;
    for (size_t face = 0; face < it.faces; face++)
        if (numbers[3 * face] + numbers[3 * face + 1] + numbers[3 * face + 2] != 0) return 0;
    for (size_t at = 0; at + 1 < first.count; at++) along += dart[first.vertices[at]][first.vertices[at + 1]];
    for (size_t at = 0; at + 1 < second.count; at++) along -= dart[second.vertices[at]][second.vertices[at + 1]];
    return along != 0;
}

/* Hands numbers to the judge, in a block of their own, so that a sanitizer sees what is read behind them. */
static homotopy_outcome judged(mesh it, walk first, walk second, uint32_t answer, const int64_t *numbers, size_t count) {
    homotopy_outcome outcome = {99, {9, 9, 9}};
    int64_t *held = malloc(8 * (count + !count));
    memcpy(held, numbers, 8 * count);
    homotopy_verify_homology(it.vertices, SIZES, it.faces, it.corners, 3 * it.faces, first.vertices, first.count, second.vertices,
                             second.count, answer, held, count, &outcome);
    free(held);
    return outcome;
}

/* Whether no other side runs along the edge of the one from this corner. */
static int is_alone(mesh it, size_t corner) {
    const uint32_t from = it.corners[corner], to = next(it, corner);
    for (size_t k = 0; k < 3 * it.faces; k++)
        if (k != corner && ((it.corners[k] == from && next(it, k) == to) || (it.corners[k] == to && next(it, k) == from))) return 0;
    return 1;
}

/* What is written is accepted. A number more at one face leaves no chain, and one more at one side no even numbers, or at a side on the
 * boundary a sum round its face that is not 0. */
static void judge_written(mesh it, walk first, walk second, uint32_t answer, int64_t *numbers, size_t count) {
    const uint32_t other = answer == HOMOTOPY_HOMOLOGOUS ? HOMOTOPY_NOT_HOMOLOGOUS : HOMOTOPY_HOMOLOGOUS;
    EXPECT(is(judged(it, first, second, answer, numbers, count), HOMOTOPY_ACCEPTED, 0, 0));
    EXPECT(is(judged(it, first, second, other, numbers, count), HOMOTOPY_REJECTED_COUNT, 0, 0));
    for (size_t k = 0; k < count; k++) {
        numbers[k]++;
        const uint32_t code = judged(it, first, second, answer, numbers, count).code;
        EXPECT(code == (answer == HOMOTOPY_HOMOLOGOUS ? HOMOTOPY_REJECTED_BOUNDARY
                        : is_alone(it, k)             ? HOMOTOPY_REJECTED_SUM
                                                      : HOMOTOPY_REJECTED_UNEVEN));
        numbers[k]--;
    }
}

/* Asks with no room, with one number too little, with all that are wanted and with more. */
static void expect(mesh it, walk first, walk second, uint32_t code) {
    const size_t wanted = code == HOMOTOPY_HOMOLOGOUS ? it.faces : 3 * it.faces;
    for (size_t room = 0; room < wanted + 3; room += room == 0 ? wanted - 1 : 1) {
        int64_t *numbers = malloc(8 * (room + !room));
        for (size_t k = 0; k < room; k++) numbers[k] = 7777;
        homotopy_outcome outcome = asked(it, first, second, numbers, room);
        const size_t put = room < wanted ? 0 : wanted;
        EXPECT(room < wanted ? is(outcome, HOMOTOPY_SHORT_ROOM, wanted, code) : is(outcome, code, wanted, 0));
        for (size_t k = put; k < room; k++) EXPECT(numbers[k] == 7777);
        if (put) EXPECT(code == HOMOTOPY_HOMOLOGOUS ? is_chain(it, first, second, numbers) : is_cocycle(it, first, second, numbers));
        if (put) judge_written(it, first, second, code, numbers, put);
        free(numbers);
    }
}

static void refused(mesh it, walk first, walk second, uint32_t code, uint64_t number, uint64_t other, uint64_t third) {
    int64_t numbers[60];
    for (size_t k = 0; k < COUNT(numbers); k++) numbers[k] = 7777;
    homotopy_outcome outcome = asked(it, first, second, numbers, COUNT(numbers));
    EXPECT(outcome.code == code && outcome.numbers[0] == number && outcome.numbers[1] == other && outcome.numbers[2] == third);
    for (size_t k = 0; k < COUNT(numbers); k++) EXPECT(numbers[k] == 7777);
}

static void answers(void) {
    const mesh sphere = {4, 4, TETRA}, seven = {7, 14, torus}, pieces = {11, 18, both};
    /* On a sphere all walks with common ends are homologous. */
    expect(sphere, WALK(0, 1, 2), WALK(0, 2), HOMOTOPY_HOMOLOGOUS);
    expect(sphere, WALK(0, 2), WALK(0, 1, 2), HOMOTOPY_HOMOLOGOUS);
    expect(sphere, WALK(0), WALK(0), HOMOTOPY_HOMOLOGOUS);
    expect(sphere, WALK(1, 2, 3, 1, 2, 3, 1), WALK(1), HOMOTOPY_HOMOLOGOUS);
    /* Across faces 0 and 7; and once and twice round, where no face has the three corners. */
    expect(seven, WALK(0, 1, 3), WALK(0, 2, 3), HOMOTOPY_HOMOLOGOUS);
    expect(seven, WALK(0, 1, 2, 0), WALK(0), HOMOTOPY_NOT_HOMOLOGOUS);
    expect(seven, WALK(0), WALK(0, 1, 2, 0), HOMOTOPY_NOT_HOMOLOGOUS);
    expect(seven, WALK(0, 1, 2, 0, 1, 2, 0), WALK(0, 1, 2, 0), HOMOTOPY_NOT_HOMOLOGOUS);
    expect(seven, WALK(0, 1, 2, 0, 2, 1, 0), WALK(0), HOMOTOPY_HOMOLOGOUS);
    /* In two pieces the walks lie in one of them. */
    expect(pieces, WALK(0, 1, 2), WALK(0, 2), HOMOTOPY_HOMOLOGOUS);
    expect(pieces, WALK(4, 5, 7), WALK(4, 6, 7), HOMOTOPY_HOMOLOGOUS);
    expect(pieces, WALK(4, 5, 6, 4), WALK(4), HOMOTOPY_NOT_HOMOLOGOUS);
}

/* Round the hole of an annulus once and twice, with the walk round its other end, and round the hole of a torus without face 0: what bounds
 * the surface bounds all its faces. A disc has one chain for two walks. */
static void bounded(void) {
    static const uint32_t ring[18] = {0, 1, 3, 1, 4, 3, 1, 2, 4, 2, 5, 4, 2, 0, 5, 0, 3, 5};
    const mesh annulus = {6, 6, ring}, disc = {4, 3, TETRA}, holed = {7, 13, torus + 3};
    int64_t numbers[3] = {7, 7, 7};
    expect(annulus, WALK(0, 1, 2, 0), WALK(0), HOMOTOPY_NOT_HOMOLOGOUS);
    expect(annulus, WALK(0, 1, 2, 0, 1, 2, 0), WALK(0, 1, 2, 0), HOMOTOPY_NOT_HOMOLOGOUS);
    expect(annulus, WALK(0, 1, 2, 0, 3), WALK(0, 3, 4, 5, 3), HOMOTOPY_HOMOLOGOUS);
    expect(holed, WALK(0, 1, 3, 0), WALK(0), HOMOTOPY_HOMOLOGOUS);
    expect(holed, WALK(0, 1, 2, 0), WALK(0), HOMOTOPY_NOT_HOMOLOGOUS);
    expect(disc, WALK(2, 0, 3), WALK(2, 3), HOMOTOPY_HOMOLOGOUS);
    EXPECT(is(asked(disc, WALK(2, 0, 3), WALK(2, 3), numbers, 3), HOMOTOPY_HOMOLOGOUS, 3, 0));
    EXPECT(numbers[0] == 0 && numbers[1] == 0 && numbers[2] == -1);
}

static void faults_of_any(void) {
    static const uint32_t band[15] = {0, 1, 2, 1, 2, 3, 2, 3, 4, 3, 4, 0, 4, 0, 1}, fan[9] = {0, 1, 2, 0, 1, 2, 0, 1, 2};
    const mesh twisted = {5, 5, band}, crowded = {3, 3, fan}, none = {4, 0, TETRA}, disc = {4, 3, TETRA};
    /* What is wrong with the mesh is told before what is with the walks. */
    refused(twisted, (walk){0, TETRA}, WALK(0), HOMOTOPY_NOT_ORIENTABLE, 0, 0, 0);
    refused(crowded, (walk){0, TETRA}, WALK(0), HOMOTOPY_EDGE_SIDES, 0, 1, 3);
    refused(none, WALK(0), WALK(0), HOMOTOPY_NO_FACE, 0, 0, 0);
    refused(disc, WALK(0), (walk){0, TETRA}, HOMOTOPY_EMPTY_WALK, 2, 0, 0);
    /* The walks are those of the mesh: the mirror of vertex 0, which the double has as vertex 4, is none of it. */
    refused(disc, WALK(0, 1), WALK(0, 4), HOMOTOPY_NO_VERTEX, 2, 1, 0);
    refused(disc, WALK(0, 1), WALK(0, 2), HOMOTOPY_ENDS_DIFFER, 0, 0, 0);
}

static void faults(void) {
    const mesh sphere = {4, 4, TETRA}, open = {4, 3, TETRA}, none = {4, 0, TETRA}, few = {3, 4, TETRA};
    refused(open, WALK(0, 1, 2), WALK(0, 2), HOMOTOPY_EDGE_SIDES, 1, 2, 1);
    refused(none, WALK(0), WALK(0), HOMOTOPY_NO_FACE, 0, 0, 0);
    /* What is wrong with the mesh is told before what is with the walks. */
    refused(few, (walk){0, TETRA}, WALK(0), HOMOTOPY_CORNER_RANGE, 1, 0, 0);
    refused(sphere, (walk){0, TETRA}, WALK(0), HOMOTOPY_EMPTY_WALK, 1, 0, 0);
    refused(sphere, WALK(0), (walk){0, TETRA}, HOMOTOPY_EMPTY_WALK, 2, 0, 0);
    refused(sphere, WALK(0, 1), WALK(0, 4), HOMOTOPY_NO_VERTEX, 2, 1, 0);
    refused(sphere, WALK(0, 1, 1), WALK(0, 1), HOMOTOPY_NO_EDGE, 1, 1, 0);
    refused(sphere, WALK(1), WALK(0, 1), HOMOTOPY_STARTS_DIFFER, 0, 0, 0);
    refused(sphere, WALK(0, 1), WALK(0, 2), HOMOTOPY_ENDS_DIFFER, 0, 0, 0);
    homotopy_outcome outcome = {99, {9, 9, 9}};
    int64_t numbers[4] = {7, 7, 7, 7};
    homotopy_homology(4, SIZES, 3, TETRA, 12, TETRA, 1, TETRA, 1, numbers, 4, &outcome);
    EXPECT(is(outcome, HOMOTOPY_CORNER_COUNT, 0, 0) && numbers[0] == 7);
}

#define JUDGED(it, first, second, answer, ...) \
    judged(it, first, second, answer, (int64_t[]){__VA_ARGS__}, COUNT(((int64_t[]){__VA_ARGS__})))

/* On the tetrahedron, on three of its faces, and on three triangles at one edge. */
static void judges_chains(void) {
    static const uint32_t book[] = {0, 1, 2, 0, 1, 3, 0, 1, 4};
    const mesh sphere = {4, 4, TETRA}, open = {4, 3, TETRA}, three = {5, 3, book};
    const walk over = WALK(0, 1, 2), under = WALK(0, 2);
    const uint32_t yes = HOMOTOPY_HOMOLOGOUS;
    EXPECT(is(JUDGED(sphere, over, under, yes, 1, 0, 0, 0), HOMOTOPY_ACCEPTED, 0, 0));
    EXPECT(is(JUDGED(sphere, under, over, yes, -1, 0, 0, 0), HOMOTOPY_ACCEPTED, 0, 0));
    EXPECT(is(JUDGED(sphere, over, under, yes, -4, -5, -5, -5), HOMOTOPY_ACCEPTED, 0, 0));
    EXPECT(is(JUDGED(sphere, over, under, yes, 2147483647, 2147483646, 2147483646, 2147483646), HOMOTOPY_ACCEPTED, 0, 0));
    EXPECT(is(JUDGED(open, over, under, yes, 1, 0, 0), HOMOTOPY_ACCEPTED, 0, 0));
    EXPECT(is(JUDGED(three, WALK(0, 1), WALK(0, 2, 1), yes, 1, 0, 0), HOMOTOPY_ACCEPTED, 0, 0));
    EXPECT(is(JUDGED(three, WALK(0, 2, 1), WALK(0, 3, 1), yes, -1, 1, 0), HOMOTOPY_ACCEPTED, 0, 0));
    /* The least edge at which it fails. */
    EXPECT(is(JUDGED(sphere, over, under, yes, 0, 0, 0, 0), HOMOTOPY_REJECTED_BOUNDARY, 0, 1));
    EXPECT(is(JUDGED(sphere, over, under, yes, 1, 0, 0, 1), HOMOTOPY_REJECTED_BOUNDARY, 1, 2));
    EXPECT(is(JUDGED(sphere, under, over, yes, 1, 0, 0, 0), HOMOTOPY_REJECTED_BOUNDARY, 0, 1));
    EXPECT(is(JUDGED(open, over, under, yes, 2, 1, 1), HOMOTOPY_REJECTED_BOUNDARY, 1, 2));
    EXPECT(is(JUDGED(three, WALK(0, 2, 1), WALK(0, 3, 1), yes, -1, 1, 1), HOMOTOPY_REJECTED_BOUNDARY, 0, 1));
    /* The first number that is too large, and before it the count. */
    EXPECT(is(JUDGED(sphere, over, under, yes, 0, -2147483648, 2147483648, 0), HOMOTOPY_REJECTED_LARGE, 1, 0));
    EXPECT(is(JUDGED(sphere, over, under, yes, 1, 0, 0, INT64_MIN), HOMOTOPY_REJECTED_LARGE, 3, 0));
    EXPECT(is(JUDGED(sphere, over, under, yes, 2147483647, 0, 0, -2147483647), HOMOTOPY_REJECTED_BOUNDARY, 0, 1));
    EXPECT(is(JUDGED(sphere, over, under, yes, 1, 0, INT64_MAX), HOMOTOPY_REJECTED_COUNT, 0, 0));
    EXPECT(is(JUDGED(sphere, over, under, yes, 1, 0, 0, 0, 0), HOMOTOPY_REJECTED_COUNT, 0, 0));
    EXPECT(is(judged(sphere, over, under, yes, (int64_t[]){0}, 0), HOMOTOPY_REJECTED_COUNT, 0, 0));
}

/* On the torus a step by 1 has 1, a step by 2 has 0, and a step by 3 has both together; on a band of five triangles i, i + 1, i + 2, modulo
 * 5, which is not orientable, a step by 1 has 1, and a step by 2 has 2. */
static void judges_cocycles(void) {
    const mesh seven = {7, 14, torus};
    const walk twice = WALK(0, 1, 2, 0), stays = WALK(0);
    const uint32_t no = HOMOTOPY_NOT_HOMOLOGOUS;
    int64_t steps[43];
    for (size_t i = 0; i < 7; i++) {
        const int64_t two[6] = {1, 0, -1, 1, -1, 0};
        memcpy(steps + 3 * i, two, 24);
        memcpy(steps + 21 + 3 * i, two + 3, 24);
    }
    EXPECT(is(judged(seven, twice, stays, no, steps, 42), HOMOTOPY_ACCEPTED, 0, 0));
    EXPECT(is(judged(seven, WALK(0, 1, 3), WALK(0, 2, 3), no, steps, 42), HOMOTOPY_REJECTED_ZERO, 0, 0));
    EXPECT(is(judged(seven, twice, stays, no, steps, 41), HOMOTOPY_REJECTED_COUNT, 0, 0));
    EXPECT(is(judged(seven, twice, stays, no, steps, 14), HOMOTOPY_REJECTED_COUNT, 0, 0));
    steps[42] = INT64_MIN;
    EXPECT(is(judged(seven, twice, stays, no, steps, 43), HOMOTOPY_REJECTED_COUNT, 0, 0));
    /* The step from 5 to 6 is side 0 of face 5, and backwards side 1 of face 10. */
    steps[15] = 2;
    EXPECT(is(judged(seven, twice, stays, no, steps, 42), HOMOTOPY_REJECTED_UNEVEN, 0, 0));
    steps[31] = -2;
    EXPECT(is(judged(seven, twice, stays, no, steps, 42), HOMOTOPY_REJECTED_SUM, 5, 0));
    EXPECT(is(judged(seven, WALK(0, 1, 3), WALK(0, 2, 3), no, steps, 42), HOMOTOPY_REJECTED_SUM, 5, 0));
    steps[31] = 2147483648;
    EXPECT(is(judged(seven, twice, stays, no, steps, 42), HOMOTOPY_REJECTED_LARGE, 31, 0));

    uint32_t strip[15];
    int64_t round[15];
    for (uint32_t i = 0; i < 5; i++)
        for (uint32_t k = 0; k < 3; k++) strip[3 * i + k] = (i + k) % 5, round[3 * i + k] = k == 2 ? -2 : 1;
    const mesh band = {5, 5, strip};
    const walk once = WALK(0, 1, 2, 3, 4, 0);
    EXPECT(is(judged(band, once, stays, no, round, 15), HOMOTOPY_ACCEPTED, 0, 0));
    EXPECT(is(judged(band, once, WALK(0, 2, 4, 1, 3, 0), no, round, 15), HOMOTOPY_ACCEPTED, 0, 0));
    EXPECT(is(judged(band, WALK(0, 1, 2), WALK(0, 2), no, round, 15), HOMOTOPY_REJECTED_ZERO, 0, 0));
    round[3] = -1;
    EXPECT(is(judged(band, once, stays, no, round, 15), HOMOTOPY_REJECTED_UNEVEN, 0, 0));
}

/* The answer is looked at before the mesh, that before the walks, and those before the numbers. */
static void judges_nothing(void) {
    static const uint32_t none_known[] = {HOMOTOPY_DONE, HOMOTOPY_HOMOTOPIC, 8, 10, 15, 17, HOMOTOPY_HOMOLOGOUS + 256, UINT32_MAX};
    const mesh sphere = {4, 4, TETRA}, few = {3, 4, TETRA}, none = {4, 0, TETRA};
    const uint32_t yes = HOMOTOPY_HOMOLOGOUS, no = HOMOTOPY_NOT_HOMOLOGOUS;
    const walk empty = {0, TETRA};
    for (size_t k = 0; k < COUNT(none_known); k++)
        EXPECT(is(JUDGED(few, WALK(9), WALK(0), none_known[k], 1), HOMOTOPY_UNKNOWN_ANSWER, none_known[k], 0));
    EXPECT(is(JUDGED(few, empty, WALK(0), yes, 1), HOMOTOPY_CORNER_RANGE, 1, 0));
    EXPECT(is(JUDGED(none, WALK(0), WALK(0), no, 1), HOMOTOPY_NO_VERTEX, 1, 0));
    EXPECT(is(JUDGED(sphere, empty, WALK(0), yes, 1), HOMOTOPY_EMPTY_WALK, 1, 0));
    EXPECT(is(JUDGED(sphere, WALK(0), empty, no, 1), HOMOTOPY_EMPTY_WALK, 2, 0));
    EXPECT(is(JUDGED(sphere, WALK(0, 1), WALK(0, 4), yes, 1), HOMOTOPY_NO_VERTEX, 2, 1));
    EXPECT(is(JUDGED(sphere, WALK(0, 1, 1), WALK(0, 1), no, 1), HOMOTOPY_NO_EDGE, 1, 1));
    EXPECT(is(JUDGED(sphere, WALK(1), WALK(0, 1), yes, 1), HOMOTOPY_STARTS_DIFFER, 0, 0));
    EXPECT(is(JUDGED(sphere, WALK(0, 1), WALK(0, 2), no, 1), HOMOTOPY_ENDS_DIFFER, 0, 0));
}

int main(void) {
    for (uint32_t i = 0; i < 7; i++) {
        const uint32_t two[6] = {i, (i + 1) % 7, (i + 3) % 7, i, (i + 3) % 7, (i + 2) % 7};
        memcpy(torus + 3 * i, two, 12);
        memcpy(torus + 21 + 3 * i, two + 3, 12);
    }
    memcpy(both, TETRA, sizeof TETRA);
    for (size_t k = 0; k < COUNT(torus); k++) both[12 + k] = 4 + torus[k];
    answers();
    faults();
    judges_chains();
    judges_cocycles();
    judges_nothing();
    ask = homotopy_homology_any;
    answers();
    bounded();
    faults_of_any();
    if (!failures) printf("homology.c: all as wanted\n");
    return failures != 0;
}
