/* The texts of codes, and a sentence with its numbers written into room of every size. What is wanted here was written by hand. */
#include "homotopy.h"

#include <stdio.h>
#include <stdlib.h>
#include <string.h>

#define EXPECT(condition)                                                   \
    do {                                                                    \
        if (!(condition)) {                                                 \
            printf("texts.c, line %d: not so: %s\n", __LINE__, #condition); \
            failures++;                                                     \
        }                                                                   \
    } while (0)

extern const char *homotopy_line_of(uint32_t code), *homotopy_text_of(uint32_t code);

static int failures;

/* The room is a block of its own, so that a sanitizer sees a byte behind it. */
static void told(homotopy_outcome outcome, const char *wanted) {
    const size_t all = strlen(wanted);
    EXPECT(homotopy_tell(&outcome, NULL, 0) == all);
    for (size_t length = 1; length <= all + 2; length++) {
        char *room = malloc(length);
        const size_t put = length <= all ? length - 1 : all;
        EXPECT(homotopy_tell(&outcome, room, length) == all);
        EXPECT(memcmp(room, wanted, put) == 0 && room[put] == 0);
        free(room);
    }
}

int main(void) {
    told((homotopy_outcome){HOMOTOPY_EDGE_SIDES, {1, 22, 303}}, "the edge 1 22 should be in two sides of faces, and is in 303");
    told((homotopy_outcome){HOMOTOPY_NO_EDGE, {2, 0, 9}}, "walk 2 has no edge from place 0 to the next");
    told((homotopy_outcome){HOMOTOPY_SHORT_ROOM, {18446744073709551615u, 0, 0}},
         "the array for the answer is too short: 18446744073709551615 are wanted");
    told((homotopy_outcome){HOMOTOPY_NO_FACE, {7, 7, 7}}, "the mesh has no face");
    told((homotopy_outcome){99, {7, 7, 7}}, "");
    EXPECT(strcmp(homotopy_line(HOMOTOPY_EDGE_SIDES), "refused: edge {0} {1} sides {2}") == 0);
    EXPECT(strcmp(homotopy_line(HOMOTOPY_REJECTED_MOVE_FACE), "rejected: move {0} face") == 0);
    EXPECT(strcmp(homotopy_line(HOMOTOPY_CORNER_COUNT), "") == 0 && strcmp(homotopy_line(99), "") == 0);
    for (uint32_t code = 0; code < 100; code++) {
        EXPECT(strcmp(homotopy_line(code), homotopy_line_of(code)) == 0);
        EXPECT(strcmp(homotopy_text(code), homotopy_text_of(code)) == 0);
    }
    if (!failures) printf("texts.c: all as wanted\n");
    return failures != 0;
}
