/* Asks of a torus of 200 times 200 squares, whose arrays take no memory of the heap, and of 1,000 pairs. Prints `done` where all is
 * answered as wanted, and `no memory` where a call tells that memory was wanting and left its arrays alone. */
#include "homotopy.h"

#include <stdio.h>
#include <string.h>

enum { GRID = 200, FACES = GRID * GRID, PAIRS = 1000 };

static uint32_t sizes[FACES], corners[4 * FACES], walk_sizes[2 * PAIRS], walk_vertices[PAIRS * (GRID + 2)];
static uint8_t answers[PAIRS], untouched[PAIRS];

static uint32_t at(int x, int y) { return (uint32_t)(GRID * (y % GRID) + x % GRID); }

int main(void) {
    size_t filled = 0;
    for (int y = 0; y < GRID; y++)
        for (int x = 0; x < GRID; x++) {
            const uint32_t ring[4] = {at(x, y), at(x + 1, y), at(x + 1, y + 1), at(x, y + 1)};
            memcpy(corners + 4 * at(x, y), ring, sizeof ring);
            sizes[at(x, y)] = 4;
        }
    for (int pair = 0; pair < PAIRS; pair++) {
        walk_sizes[2 * pair] = GRID + 1, walk_sizes[2 * pair + 1] = 1;
        for (int x = 0; x <= GRID; x++) walk_vertices[filled++] = at(x, pair);
        walk_vertices[filled++] = at(0, pair);
    }
    memset(answers, 7, sizeof answers);
    memset(untouched, 7, sizeof untouched);

    homotopy_outcome outcome;
    homotopy_decide(FACES, sizes, FACES, corners, 4 * FACES, walk_sizes, 2 * PAIRS, walk_vertices, filled, answers, PAIRS, &outcome);
    if (outcome.code == HOMOTOPY_NO_MEMORY) {
        puts("no memory");
        return memcmp(answers, untouched, sizeof answers) != 0;
    }
    for (int pair = 0; pair < PAIRS; pair++)
        if (answers[pair] != HOMOTOPY_DIFFERENT) return 1;
    puts("done");
    return outcome.code != HOMOTOPY_DONE;
}
