/* Eight threads ask of one mesh and of the same walks at once, each into room of its own, and all are answered alike. */
#include "homotopy.h"

#include <pthread.h>
#include <stdio.h>
#include <string.h>

enum { GRID = 12, FACES = GRID * GRID, THREADS = 8, ROUNDS = 200 };

/* A torus of squares, and three pairs: round both ways, one way and staying, and round a square. */
static uint32_t sizes[FACES], corners[4 * FACES];
static uint32_t walk_sizes[6], walk_vertices[6 * GRID + 12];
static size_t filled;

static uint32_t at(int x, int y) { return (uint32_t)(GRID * ((y + GRID) % GRID) + (x + GRID) % GRID); }

static void put(int walk, int x, int y) {
    walk_vertices[filled++] = at(x, y);
    walk_sizes[walk]++;
}

static void *ask(void *wrong) {
    for (int round = 0; round < ROUNDS; round++) {
        uint8_t answers[3] = {7, 7, 7};
        uint32_t genera[1] = {7};
        homotopy_numbers numbers;
        homotopy_outcome outcome;
        homotopy_decide(FACES, sizes, FACES, corners, 4 * FACES, walk_sizes, 6, walk_vertices, filled, answers, 3, &outcome);
        if (outcome.code != HOMOTOPY_DONE || memcmp(answers, "\1\2\1", 3) != 0) ++*(int *)wrong;
        homotopy_surface(FACES, sizes, FACES, corners, 4 * FACES, &numbers, genera, 1, &outcome);
        if (outcome.code != HOMOTOPY_DONE || genera[0] != 1 || numbers.euler != 0) ++*(int *)wrong;
    }
    return NULL;
}

int main(void) {
    for (int y = 0; y < GRID; y++)
        for (int x = 0; x < GRID; x++) {
            const uint32_t ring[4] = {at(x, y), at(x + 1, y), at(x + 1, y + 1), at(x, y + 1)};
            memcpy(corners + 4 * at(x, y), ring, sizeof ring);
            sizes[at(x, y)] = 4;
        }
    for (int x = 0; x < GRID; x++) put(0, x, 0);
    for (int y = 0; y <= GRID; y++) put(0, 0, y);
    for (int y = 0; y < GRID; y++) put(1, 0, y);
    for (int x = 0; x <= GRID; x++) put(1, x, 0);
    for (int x = 0; x <= GRID; x++) put(2, x, 0);
    put(3, 0, 0);
    put(4, 0, 0), put(4, 1, 0), put(4, 1, 1);
    put(5, 0, 0), put(5, 0, 1), put(5, 1, 1);

    pthread_t threads[THREADS];
    int wrong[THREADS] = {0}, all = 0;
    for (int k = 0; k < THREADS; k++) pthread_create(&threads[k], NULL, ask, &wrong[k]);
    for (int k = 0; k < THREADS; k++) pthread_join(threads[k], NULL), all += wrong[k];
    printf(all ? "threads.c: %d answers are wrong\n" : "threads.c: all as wanted\n", all);
    return all != 0;
}
