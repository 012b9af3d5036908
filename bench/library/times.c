/* Times of calls: on a tetrahedron; on a torus of 1000 times 1000 squares, of 4,000,000 sides, with one pair and with 100,000 pairs of
 * walks of 20 darts each pair; on 50,000 tetrahedra apart, with one pair and with a pair in each, in order and mixed; and on two tori of
 * 100 times 100 squares, with one pair and with 10,000 that alternate between them: beside one pair there and as many pairs on one such
 * component alone. The torus and the two are kept, too, and asked about one pair after another, and about the classes of all walks. Prints
 * seconds of the processor, the least of some runs. */
#include <homotopy.h>
#include <stdio.h>
#include <stdlib.h>
#include <time.h>

enum { GRID = 1000, FACES = GRID * GRID, PAIRS = 100000, DARTS = 10, PIECES = 50000, SMALL = 100, ALTERNATING = 10000 };

static uint32_t sizes[FACES], corners[4 * FACES], walk_sizes[2 * PAIRS], walk_vertices[2 * PAIRS * (DARTS + 1)];
static uint8_t answers[PAIRS];
static size_t classes[2 * PAIRS];

static uint32_t at(int x, int y) { return (uint32_t)(GRID * (y % GRID) + x % GRID); }

static double seconds(void) {
    struct timespec now;
    clock_gettime(CLOCK_PROCESS_CPUTIME_ID, &now);
    return now.tv_sec + 1e-9 * now.tv_nsec;
}

/* A walk from (x, y) by `right` steps right and as many up: right first, or up first. */
static void put(size_t walk, int x, int y, int right_first) {
    uint32_t *to = walk_vertices + walk * (DARTS + 1);
    const int half = DARTS / 2;
    for (int k = 0; k <= DARTS; k++) {
        const int first = k < half ? k : half, second = k - first;
        to[k] = right_first ? at(x + first, y + second) : at(x + second, y + first);
    }
    walk_sizes[walk] = DARTS + 1;
}

static double torus(size_t pairs) {
    homotopy_outcome outcome;
    const double began = seconds();
    homotopy_decide(FACES, sizes, FACES, corners, 4 * FACES, walk_sizes, 2 * pairs, walk_vertices, 2 * pairs * (DARTS + 1), answers, pairs,
                    &outcome);
    const double took = seconds() - began;
    if (outcome.code != HOMOTOPY_DONE) exit(1);
    for (size_t k = 0; k < pairs; k++)
        if (answers[k] != HOMOTOPY_HOMOTOPIC) exit(1);
    return took;
}

/* Seconds for pairs on a mesh in the arrays, each of which is homotopic; the least of some runs. */
static double asked(uint32_t vertices, size_t faces, size_t sides, size_t pairs, int runs) {
    size_t entries = 0;
    for (size_t walk = 0; walk < 2 * pairs; walk++) entries += walk_sizes[walk];
    double least = 1e9;
    for (int run = 0; run < runs; run++) {
        homotopy_outcome outcome;
        const double began = seconds();
        homotopy_decide(vertices, sizes, faces, corners, sides, walk_sizes, 2 * pairs, walk_vertices, entries, answers, pairs, &outcome);
        const double took = seconds() - began;
        if (outcome.code != HOMOTOPY_DONE) exit(1);
        for (size_t k = 0; k < pairs; k++)
            if (answers[k] != HOMOTOPY_HOMOTOPIC) exit(1);
        if (took < least) least = took;
    }
    return least;
}

/* Prints the seconds for keeping a mesh in the arrays, for its pairs one after another, and for the classes of all their walks. */
static void kept(const char *what, uint32_t vertices, size_t faces, size_t sides, size_t pairs) {
    homotopy_mesh mesh = HOMOTOPY_EMPTY_MESH;
    homotopy_outcome outcome;
    double began = seconds();
    homotopy_mesh_new(vertices, sizes, faces, corners, sides, &mesh, &outcome);
    if (outcome.code != HOMOTOPY_DONE) exit(1);
    const double made = seconds() - began;
    const uint32_t *walks = walk_vertices;
    began = seconds();
    for (size_t k = 0; k < pairs; k++) {
        const size_t entries = walk_sizes[2 * k] + walk_sizes[2 * k + 1];
        homotopy_mesh_decide(&mesh, walk_sizes + 2 * k, 2, walks, entries, answers, 1, &outcome);
        if (outcome.code != HOMOTOPY_DONE || answers[0] != HOMOTOPY_HOMOTOPIC) exit(1);
        walks += entries;
    }
    printf("%s, kept: %.3f seconds; %zu pairs, one after another: %.3f", what, made, pairs, seconds() - began);
    began = seconds();
    homotopy_mesh_classes(&mesh, walk_sizes, 2 * pairs, walk_vertices, (size_t)(walks - walk_vertices), classes, 2 * pairs, &outcome);
    if (outcome.code != HOMOTOPY_DONE) exit(1);
    for (size_t k = 0; k < pairs; k++)
        if (classes[2 * k] != classes[2 * k + 1]) exit(1);
    printf("; the classes of their walks: %.3f\n", seconds() - began);
    homotopy_mesh_free(&mesh);
}

/* For each piece by its turn a walk along two sides of its first face, and one along the third. */
static void put_pieces(const uint32_t *turns) {
    for (size_t k = 0; k < PIECES; k++) {
        const uint32_t start = 4 * turns[k], vertices[5] = {start, start + 1, start + 2, start, start + 2};
        walk_sizes[2 * k] = 3, walk_sizes[2 * k + 1] = 2;
        for (int j = 0; j < 5; j++) walk_vertices[5 * k + j] = vertices[j];
    }
}

static void tetrahedra(int runs) {
    static const uint32_t faces[12] = {0, 1, 2, 0, 3, 1, 0, 2, 3, 1, 3, 2};
    static uint32_t turns[PIECES];
    for (uint32_t piece = 0; piece < PIECES; piece++) {
        for (int k = 0; k < 12; k++) corners[12 * piece + k] = 4 * piece + faces[k];
        for (int k = 0; k < 4; k++) sizes[4 * piece + k] = 3;
        turns[piece] = piece;
    }
    put_pieces(turns);
    const double one = asked(4 * PIECES, 4 * PIECES, 12 * PIECES, 1, runs);
    const double ordered = asked(4 * PIECES, 4 * PIECES, 12 * PIECES, PIECES, runs);
    for (uint32_t k = PIECES - 1; k > 0; k--) {
        const uint32_t other = (uint32_t)rand() % (k + 1), turn = turns[k];
        turns[k] = turns[other], turns[other] = turn;
    }
    put_pieces(turns);
    const double mixed = asked(4 * PIECES, 4 * PIECES, 12 * PIECES, PIECES, runs);
    for (uint32_t k = 0; k < PIECES; k++) turns[k] = 0;
    put_pieces(turns);
    const double alone = asked(4, 4, 12, PIECES, runs);
    printf("50,000 tetrahedra and a pair: %.3f seconds; a pair in each, in order: %.3f; mixed: %.3f; as many on one alone: %.3f\n", one,
           ordered, mixed, alone);
    printf("beside one pair there and as many alone: in order %.2f times as long, mixed %.2f\n", ordered / (one + alone),
           mixed / (one + alone));
}

/* For each pair half the way round a square of the tori, by either side; by turns on the first and on the second torus, or on the first. */
static void put_squares(int tori) {
    for (uint32_t pair = 0; pair < ALTERNATING; pair++) {
        const uint32_t at_face = 4 * ((uint32_t)rand() % (SMALL * SMALL) + pair % (uint32_t)tori * SMALL * SMALL);
        const uint32_t around[6] = {corners[at_face], corners[at_face + 1], corners[at_face + 2],
                                    corners[at_face], corners[at_face + 3], corners[at_face + 2]};
        walk_sizes[2 * pair] = walk_sizes[2 * pair + 1] = 3;
        for (int j = 0; j < 6; j++) walk_vertices[6 * pair + j] = around[j];
    }
}

static void two_tori(int runs) {
    for (uint32_t k = 0; k < 2 * SMALL * SMALL; k++) {
        const uint32_t torus_start = k / (SMALL * SMALL) * SMALL * SMALL, x = k % SMALL, y = k / SMALL % SMALL;
        const uint32_t right = (x + 1) % SMALL, up = (y + 1) % SMALL;
        const uint32_t ring[4] = {y * SMALL + x, y * SMALL + right, up * SMALL + right, up * SMALL + x};
        for (int j = 0; j < 4; j++) corners[4 * k + j] = torus_start + ring[j];
        sizes[k] = 4;
    }
    const uint32_t faces = 2 * SMALL * SMALL;
    put_squares(1);
    const double alone = asked(faces / 2, faces / 2, 2 * faces, ALTERNATING, runs);
    put_squares(2);
    const double one = asked(faces, faces, 4 * faces, 1, runs), many = asked(faces, faces, 4 * faces, ALTERNATING, runs);
    printf("two tori and a pair: %.3f seconds; 10,000 pairs that alternate: %.3f; as many on one alone: %.3f\n", one, many, alone);
    printf("beside one pair there and as many alone: %.2f times as long\n", many / (one + alone));
    kept("two tori", faces, faces, 4 * faces, ALTERNATING);
}

int main(int count, char **words) {
    const int runs = count > 1 ? atoi(words[1]) : 3;
    static const uint32_t tetra_sizes[4] = {3, 3, 3, 3}, tetra[12] = {0, 1, 2, 0, 3, 1, 0, 2, 3, 1, 3, 2}, walks[5] = {0, 1, 2, 0, 2};
    static const uint32_t two[2] = {3, 2};
    homotopy_outcome outcome;
    double least = 1e9;
    for (int run = 0; run < 10 * runs; run++) {
        const double began = seconds();
        for (int k = 0; k < 1000; k++) homotopy_decide(4, tetra_sizes, 4, tetra, 12, two, 2, walks, 5, answers, 1, &outcome);
        const double took = (seconds() - began) / 1000;
        if (took < least) least = took;
    }
    printf("a tetrahedron and a pair: %.2f microseconds\n", 1e6 * least);

    for (int y = 0; y < GRID; y++)
        for (int x = 0; x < GRID; x++) {
            const uint32_t ring[4] = {at(x, y), at(x + 1, y), at(x + 1, y + 1), at(x, y + 1)};
            for (int k = 0; k < 4; k++) corners[4 * at(x, y) + k] = ring[k];
            sizes[at(x, y)] = 4;
        }
    srand(1);
    for (size_t pair = 0; pair < PAIRS; pair++) {
        const int x = rand() % GRID, y = rand() % GRID;
        put(2 * pair, x, y, 1);
        put(2 * pair + 1, x, y, 0);
    }
    double one = 1e9, many = 1e9;
    for (int run = 0; run < runs; run++) {
        const double first = torus(1), second = torus(PAIRS);
        if (first < one) one = first;
        if (second < many) many = second;
    }
    printf("4,000,000 sides and a pair: %.3f seconds\n", one);
    printf("4,000,000 sides and 100,000 pairs: %.3f seconds more\n", many - one);
    kept("4,000,000 sides", FACES, FACES, 4 * FACES, PAIRS);
    tetrahedra(runs);
    two_tori(runs);
    return 0;
}
