/* Makes each call on a thread whose stack is painted, and looks how deep it was written: at most the 24 KiB that homotopy.h tells. */
#define _GNU_SOURCE
#include "homotopy.h"

#include <pthread.h>
#include <stdio.h>
#include <stdlib.h>
#include <string.h>

enum { GRID = 60, FACES = GRID * GRID, ALL = 2 * FACES, STACK = 1 << 20, PAINT = 0xa5, MOST = 24 * 1024 };

/* Two tori of squares. On the first two ways round it in either order, and one of them and staying. */
static uint32_t sizes[ALL], corners[4 * ALL], ways[2][2 * GRID + 1], across[GRID + 1], there[1] = {0};
static uint8_t text[1 << 22];
static size_t faces = FACES;

static uint32_t at(int piece, int x, int y) { return (uint32_t)(piece * FACES + GRID * (y % GRID) + x % GRID); }

static void make(void) {
    for (int piece = 0; piece < 2; piece++)
        for (int y = 0; y < GRID; y++)
            for (int x = 0; x < GRID; x++) {
                const uint32_t ring[4] = {at(piece, x, y), at(piece, x + 1, y), at(piece, x + 1, y + 1), at(piece, x, y + 1)};
                memcpy(corners + 4 * at(piece, x, y), ring, sizeof ring);
                sizes[at(piece, x, y)] = 4;
            }
    for (int k = 0; k <= GRID; k++) {
        across[k] = ways[0][k] = at(0, k, 0), ways[0][GRID + k] = at(0, 0, k);
        ways[1][k] = at(0, 0, k), ways[1][GRID + k] = at(0, k, 0);
    }
}

static void *nothing(void *unused) { return unused; }

static void *surface(void *unused) {
    homotopy_numbers numbers;
    homotopy_outcome outcome;
    uint32_t genera[2];
    homotopy_surface(ALL, sizes, faces, corners, 4 * faces, &numbers, genera, 2, &outcome);
    return outcome.code == HOMOTOPY_DONE ? unused : NULL;
}

static void *components(void *unused) {
    static homotopy_component numbers[2];
    static uint32_t places[ALL];
    homotopy_outcome outcome;
    homotopy_components(ALL, sizes, faces, corners, 4 * faces, numbers, 2, places, ALL, &outcome);
    return outcome.code == HOMOTOPY_DONE && outcome.numbers[0] == faces / FACES && numbers[0].genus == 1 ? unused : NULL;
}

static uint32_t walk_sizes[4] = {2 * GRID + 1, 2 * GRID + 1, GRID + 1, 1}, vertices[5 * GRID + 4];

static void fill_walks(void) {
    memcpy(vertices, ways, sizeof ways);
    memcpy(vertices + 4 * GRID + 2, across, sizeof across);
    vertices[5 * GRID + 3] = there[0];
}

static void *decide(void *unused) {
    homotopy_outcome outcome;
    uint8_t answers[2];
    fill_walks();
    homotopy_decide(ALL, sizes, faces, corners, 4 * faces, walk_sizes, 4, vertices, 5 * GRID + 4, answers, 2, &outcome);
    return outcome.code == HOMOTOPY_DONE && answers[0] == HOMOTOPY_HOMOTOPIC && answers[1] == HOMOTOPY_DIFFERENT ? unused : NULL;
}

/* A surface with boundary: a face is missing. */
static void *decide_any(void *unused) {
    homotopy_outcome outcome;
    uint8_t answers[2];
    fill_walks();
    homotopy_decide_any(ALL, sizes + 1, faces - 1, corners + 4, 4 * faces - 4, walk_sizes, 4, vertices, 5 * GRID + 4, answers, 2, &outcome);
    return outcome.code == HOMOTOPY_DONE && answers[0] == HOMOTOPY_DIFFERENT && answers[1] == HOMOTOPY_DIFFERENT ? unused : NULL;
}

/* The same surface, kept. */
static void *keep_any(void *unused) {
    homotopy_mesh mesh = HOMOTOPY_EMPTY_MESH;
    homotopy_outcome outcome;
    uint8_t answers[2];
    size_t classes[4];
    fill_walks();
    homotopy_mesh_new_any(ALL, sizes + 1, faces - 1, corners + 4, 4 * faces - 4, &mesh, &outcome);
    homotopy_mesh_decide(&mesh, walk_sizes, 4, vertices, 5 * GRID + 4, answers, 2, &outcome);
    if (outcome.code != HOMOTOPY_DONE || answers[0] != HOMOTOPY_DIFFERENT || answers[1] != HOMOTOPY_DIFFERENT) return NULL;
    homotopy_mesh_loops(&mesh, walk_sizes, 4, vertices, 5 * GRID + 4, answers, 2, &outcome);
    if (outcome.code != HOMOTOPY_DONE) return NULL;
    homotopy_mesh_classes(&mesh, walk_sizes, 4, vertices, 5 * GRID + 4, classes, 4, &outcome);
    homotopy_mesh_free(&mesh);
    return outcome.code == HOMOTOPY_DONE && classes[0] != classes[1] && classes[2] != classes[3] ? unused : NULL;
}

static void *keep(void *unused) {
    homotopy_mesh mesh = HOMOTOPY_EMPTY_MESH;
    homotopy_outcome outcome;
    uint8_t answers[2];
    size_t classes[4];
    fill_walks();
    homotopy_mesh_new(ALL, sizes, faces, corners, 4 * faces, &mesh, &outcome);
    homotopy_mesh_decide(&mesh, walk_sizes, 4, vertices, 5 * GRID + 4, answers, 2, &outcome);
    if (outcome.code != HOMOTOPY_DONE || answers[0] != HOMOTOPY_HOMOTOPIC || answers[1] != HOMOTOPY_DIFFERENT) return NULL;
    homotopy_mesh_loops(&mesh, walk_sizes, 4, vertices, 5 * GRID + 4, answers, 2, &outcome);
    if (outcome.code != HOMOTOPY_DONE) return NULL;
    homotopy_mesh_classes(&mesh, walk_sizes, 4, vertices, 5 * GRID + 4, classes, 4, &outcome);
    homotopy_mesh_free(&mesh);
    return outcome.code == HOMOTOPY_DONE && classes[0] == classes[1] && classes[2] != classes[3] ? unused : NULL;
}

/* What is certified is verified. The certificate is made on one torus, since both have too many sides. */
static void *certify(void *unused) {
    homotopy_outcome outcome;
    homotopy_certify(FACES, sizes, FACES, corners, 4 * FACES, ways[0], 2 * GRID + 1, ways[1], 2 * GRID + 1, text, sizeof text, &outcome);
    if (outcome.code != HOMOTOPY_HOMOTOPIC) return NULL;
    const size_t bytes = outcome.numbers[0];
    homotopy_verify(FACES, sizes, FACES, corners, 4 * FACES, ways[0], 2 * GRID + 1, ways[1], 2 * GRID + 1, text, bytes, &outcome);
    return outcome.code == HOMOTOPY_ACCEPTED ? unused : NULL;
}

static void *deny(void *unused) {
    homotopy_outcome outcome;
    homotopy_certify(FACES, sizes, FACES, corners, 4 * FACES, across, GRID + 1, there, 1, text, sizeof text, &outcome);
    if (outcome.code != HOMOTOPY_DIFFERENT) return NULL;
    homotopy_verify(FACES, sizes, FACES, corners, 4 * FACES, across, GRID + 1, there, 1, text, outcome.numbers[0], &outcome);
    return outcome.code == HOMOTOPY_ACCEPTED ? unused : NULL;
}

/* What shows that walks are homologous, and what shows that they are not, is judged. */
static void *homology(void *unused) {
    static int64_t numbers[4 * ALL];
    homotopy_outcome shown[2], judged[2];
    for (int k = 0; k < 2; k++) {
        const uint32_t *first = k ? across : ways[0], *second = k ? there : ways[1];
        const size_t firsts = k ? GRID + 1 : 2 * GRID + 1, seconds = k ? 1 : 2 * GRID + 1;
        homotopy_homology(ALL, sizes, faces, corners, 4 * faces, first, firsts, second, seconds, numbers, 4 * ALL, &shown[k]);
        homotopy_verify_homology(ALL, sizes, faces, corners, 4 * faces, first, firsts, second, seconds, shown[k].code, numbers,
                                 shown[k].numbers[0], &judged[k]);
        if (judged[k].code != HOMOTOPY_ACCEPTED) return NULL;
    }
    return shown[0].code == HOMOTOPY_HOMOLOGOUS && shown[1].code == HOMOTOPY_NOT_HOMOLOGOUS ? unused : NULL;
}

/* How deep the stack was written by a thread that does this; 0 where it did not end as wanted. */
static size_t depth_of(void *(*body)(void *)) {
    unsigned char *stack = aligned_alloc(4096, STACK);
    pthread_attr_t attributes;
    pthread_t thread;
    void *end = NULL;
    size_t clean = 0;
    memset(stack, PAINT, STACK);
    pthread_attr_init(&attributes);
    pthread_attr_setstack(&attributes, stack, STACK);
    if (pthread_create(&thread, &attributes, body, stack) == 0) pthread_join(thread, &end);
    while (clean < STACK && stack[clean] == PAINT) clean++;
    free(stack);
    return end == NULL ? 0 : STACK - clean;
}

int main(int argc, char **argv) {
    static void *(*const bodies[])(void *) = {surface, components, decide, decide_any, keep_any, keep, certify, deny, homology};
    static const char *const names[] = {"surface", "components", "decide", "decide any", "keep any", "keep and decide",
                                        "certify and verify", "deny and verify", "homology and its judge"};
    const size_t empty = depth_of(nothing);
    int wrong = 0;
    (void)argv;
    make();
    for (int pieces = 1; pieces <= 2; pieces++, faces = ALL)
        for (int k = 0; k < 9; k++) {
            const size_t depth = depth_of(bodies[k]);
            if (argc > 1) printf("%d pieces, %s: %zu bytes\n", pieces, names[k], depth - empty);
            if (depth == 0 || depth - empty > MOST) printf("stack.c: %s takes %zu bytes\n", names[k], depth - empty), wrong = 1;
        }
    if (!wrong) printf("stack.c: all as wanted\n");
    return wrong;
}
