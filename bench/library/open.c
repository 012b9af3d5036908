/* What a boundary costs: `homotopy_decide` on a torus of 680 times 680 squares (1,849,600 sides), and `homotopy_decide_any` on the same
 * torus without 64 of its squares, whose double is about the largest that fits; with a pair of one vertex, and with a pair of walks of
 * 1,000,000 darts together. Prints seconds of the processor, the least of some runs, the second beside the first, and the most memory. */
#include <homotopy.h>
#include <stdio.h>
#include <stdlib.h>
#include <sys/resource.h>
#include <time.h>

enum { GRID = 680, SQUARES = GRID * GRID, HOLES_A_ROW = 8, HOLES = HOLES_A_ROW * HOLES_A_ROW, DARTS = 500000 };

typedef void question(uint32_t vertices, const uint32_t *sizes, size_t face_count, const uint32_t *corners, size_t corner_count,
                      const uint32_t *walk_sizes, size_t walk_count, const uint32_t *walk_vertices, size_t walk_vertex_count,
                      uint8_t *answers, size_t answer_room, homotopy_outcome *outcome);

static uint32_t sizes[SQUARES], corners[4 * SQUARES], walk_vertices[2 * (DARTS + 1)];

static uint32_t at(int x, int y) { return (uint32_t)(GRID * (y % GRID) + x % GRID); }

static int is_hole(int x, int y) { return x % (GRID / HOLES_A_ROW) == 40 && y % (GRID / HOLES_A_ROW) == 40; }

/* Fills the arrays, and gives the number of squares. */
static size_t put_squares(int with_holes) {
    size_t faces = 0;
    for (int y = 0; y < GRID; y++)
        for (int x = 0; x < GRID; x++) {
            if (with_holes && is_hole(x, y)) continue;
            const uint32_t ring[4] = {at(x, y), at(x + 1, y), at(x + 1, y + 1), at(x, y + 1)};
            for (int k = 0; k < 4; k++) corners[4 * faces + k] = ring[k];
            sizes[faces++] = 4;
        }
    return faces;
}

/* A walk that wanders as the seed says, and goes back by the way that it came. */
static void put_walk(uint32_t *to, unsigned seed) {
    int x = GRID, y = GRID;
    srand(seed);
    for (int k = 0; k <= DARTS / 2; k++) {
        to[k] = to[DARTS - k] = at(x, y);
        const int turn = rand() % 4;
        x += (turn == 0) - (turn == 1) + GRID, y += (turn == 2) - (turn == 3) + GRID;
        x = x % GRID + GRID, y = y % GRID + GRID;
    }
}

static double seconds(void) {
    struct timespec now;
    clock_gettime(CLOCK_PROCESS_CPUTIME_ID, &now);
    return now.tv_sec + 1e-9 * now.tv_nsec;
}

static double asked(question *ask, size_t faces, uint32_t entries, int runs) {
    const uint32_t walk_sizes[2] = {entries, entries};
    double least = 1e9;
    for (int run = 0; run < runs; run++) {
        homotopy_outcome outcome;
        uint8_t answer;
        const double began = seconds();
        ask(SQUARES, sizes, faces, corners, 4 * faces, walk_sizes, 2, walk_vertices, 2 * (size_t)entries, &answer, 1, &outcome);
        const double took = seconds() - began;
        if (outcome.code != HOMOTOPY_DONE || answer != HOMOTOPY_HOMOTOPIC) exit(1);
        if (took < least) least = took;
    }
    return least;
}

/* Asks about a pair of one vertex, then about the long pair, and prints what they take; gives both. */
static void both(const char *what, question *ask, size_t faces, int runs, double *one, double *more) {
    walk_vertices[0] = walk_vertices[1] = 0;
    *one = asked(ask, faces, 1, runs);
    put_walk(walk_vertices, 1);
    put_walk(walk_vertices + DARTS + 1, 2);
    *more = asked(ask, faces, DARTS + 1, runs) - *one;
    struct rusage usage;
    getrusage(RUSAGE_SELF, &usage);
    printf("%s: %.3f seconds; 1,000,000 darts: %.3f more; most memory so far %ld MiB\n", what, *one, *more, usage.ru_maxrss / 1024);
}

int main(int count, char **words) {
    const int runs = count > 1 ? atoi(words[1]) : 5;
    double closed, closed_more, open, open_more;
    both("closed", homotopy_decide, put_squares(0), runs, &closed, &closed_more);
    both("with 64 holes", homotopy_decide_any, put_squares(1), runs, &open, &open_more);
    printf("with holes beside closed: %.2f times as long; with the darts %.2f\n", open / closed,
           (open + open_more) / (closed + closed_more));
    return 0;
}
