/* The torus of seven vertices: its numbers, and whether walks on it are homotopic. */
#include <homotopy.h>
#include <stdio.h>

static const uint32_t sizes[14] = {3, 3, 3, 3, 3, 3, 3, 3, 3, 3, 3, 3, 3, 3};
static const uint32_t corners[42] = {
    0, 1, 3, 0, 3, 2, 1, 2, 4, 1, 4, 3, 2, 3, 5, 2, 5, 4, 3, 4, 6, 3, 6, 5, 4, 5, 0, 4, 0, 6, 5, 6, 1, 5, 1, 0, 6, 0, 2, 6, 2, 1,
};

/* Three pairs of walks, a row each: the sizes, and the vertices. */
static const uint32_t walk_sizes[6] = {3, 3, 4, 2, 15, 15};
static const uint32_t walk_vertices[42] = {
    0, 1, 3, 0, 2, 3,
    0, 1, 2, 3, 0, 3,
    0, 1, 2, 3, 4, 5, 6, 0, 3, 6, 2, 5, 1, 4, 0, 0, 3, 6, 2, 5, 1, 4, 0, 1, 2, 3, 4, 5, 6, 0,
};

int main(void) {
    homotopy_numbers numbers;
    homotopy_outcome outcome;
    uint32_t genus;
    homotopy_surface(7, sizes, 14, corners, 42, &numbers, &genus, 1, &outcome);
    if (outcome.code != HOMOTOPY_DONE) return 1;
    printf("%u vertices, %u edges, %u faces: genus %u\n", numbers.vertices, numbers.edges, numbers.faces, genus);

    uint8_t answers[3];
    homotopy_decide(7, sizes, 14, corners, 42, walk_sizes, 6, walk_vertices, 42, answers, 3, &outcome);
    if (outcome.code != HOMOTOPY_DONE) return 1;
    for (int pair = 0; pair < 3; pair++) puts(answers[pair] == HOMOTOPY_HOMOTOPIC ? "homotopic" : "different");

    /* The mesh is kept, and asked of one pair after another. */
    homotopy_mesh kept = HOMOTOPY_EMPTY_MESH;
    homotopy_mesh_new(7, sizes, 14, corners, 42, &kept, &outcome);
    if (outcome.code != HOMOTOPY_DONE) return 1;
    const uint32_t *walks = walk_vertices;
    for (int pair = 0; pair < 3; pair++) {
        const size_t entries = walk_sizes[2 * pair] + walk_sizes[2 * pair + 1];
        homotopy_mesh_decide(&kept, walk_sizes + 2 * pair, 2, walks, entries, answers, 1, &outcome);
        if (outcome.code != HOMOTOPY_DONE) return 1;
        printf("kept: %s\n", answers[0] == HOMOTOPY_HOMOTOPIC ? "homotopic" : "different");
        walks += entries;
    }

    /* All six walks at once, sorted by their classes: each is told the first walk that it can be moved to. */
    size_t classes[6];
    homotopy_mesh_classes(&kept, walk_sizes, 6, walk_vertices, 42, classes, 6, &outcome);
    if (outcome.code != HOMOTOPY_DONE) return 1;
    for (int walk = 0; walk < 6; walk++) printf("walk %d: class %zu\n", walk, classes[walk]);

    /* A closed walk, beside the same from another vertex on, and beside one that goes round otherwise. */
    static const uint32_t loop_sizes[4] = {8, 8, 8, 8};
    static const uint32_t loop_vertices[32] = {
        0, 1, 2, 3, 4, 5, 6, 0, 3, 4, 5, 6, 0, 1, 2, 3,
        0, 1, 2, 3, 4, 5, 6, 0, 0, 3, 6, 2, 5, 1, 4, 0,
    };
    homotopy_mesh_loops(&kept, loop_sizes, 4, loop_vertices, 32, answers, 3, &outcome);
    if (outcome.code != HOMOTOPY_DONE) return 1;
    for (int pair = 0; pair < 2; pair++) puts(homotopy_line(answers[pair]));
    homotopy_mesh_free(&kept);

    /* A list of two moves leads from 0 1 3 to 0 2 3, each across a face; and no list does that ends early. */
    static const char moves[] = "MOVES 2 2\nf 0 0 0 + 2\nf 0 1 0 + 1\n", fewer[] = "MOVES 1 2\nf 0 0 0 + 2\n";
    homotopy_verify(7, sizes, 14, corners, 42, walk_vertices, 3, walk_vertices + 3, 3, (const uint8_t *)moves, sizeof moves - 1, &outcome);
    puts(outcome.code == HOMOTOPY_ACCEPTED ? "accepted" : "rejected");
    homotopy_verify(7, sizes, 14, corners, 42, walk_vertices, 3, walk_vertices + 3, 3, (const uint8_t *)fewer, sizeof fewer - 1, &outcome);
    puts(outcome.code == HOMOTOPY_REJECTED_END ? "rejected: end" : "accepted");

    /* One corner is no vertex: it is told, and nothing is read there. */
    const uint32_t wrong[3] = {0, 1, 7};
    homotopy_surface(7, sizes, 1, wrong, 3, &numbers, &genus, 1, &outcome);
    if (outcome.code == HOMOTOPY_CORNER_RANGE) printf("face %u has a corner that is no vertex\n", (unsigned)outcome.numbers[0]);
    return 0;
}
