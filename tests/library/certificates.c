/* Hands certificates to the library, and compares what comes of them. What is wanted here was worked out by hand. */
#include "homotopy.h"

#include <stdio.h>
#include <stdlib.h>
#include <string.h>

#define COUNT(array) (sizeof(array) / sizeof(*(array)))
#define EXPECT(condition)                                                          \
    do {                                                                           \
        if (!(condition)) {                                                        \
            printf("certificates.c, line %d: not so: %s\n", __LINE__, #condition); \
            failures++;                                                            \
        }                                                                          \
    } while (0)

static int failures;

/* The tetrahedron, and as `open` its first three faces. */
static const uint32_t SIZES[] = {3, 3, 3, 3}, TETRA[] = {0, 1, 2, 0, 3, 1, 0, 2, 3, 1, 3, 2};
static const uint32_t ROUND[] = {0, 1, 2}, SHORT[] = {0, 2}, SPUR[] = {0, 1, 0, 2};

static int is(homotopy_outcome outcome, uint32_t code, uint64_t first, uint64_t second, uint64_t third) {
    return outcome.code == code && outcome.numbers[0] == first && outcome.numbers[1] == second && outcome.numbers[2] == third;
}

/* The text in a block of its own and without an end, so that a sanitizer sees a read behind it. */
static homotopy_outcome judged(size_t faces, const uint32_t *first, size_t firsts, const uint32_t *second, size_t seconds, const char *text) {
    homotopy_outcome outcome = {99, {9, 9, 9}};
    size_t bytes = strlen(text);
    uint8_t *certificate = malloc(bytes + !bytes);
    memcpy(certificate, text, bytes);
    homotopy_verify(4, SIZES, faces, TETRA, 3 * faces, first, firsts, second, seconds, certificate, bytes, &outcome);
    free(certificate);
    return outcome;
}

static homotopy_outcome on_tetra(const char *text) { return judged(4, ROUND, 3, SHORT, 2, text); }

static void lists(void) {
    EXPECT(is(on_tetra("MOVES 1 2\nf 0 0 0 + 2\n"), HOMOTOPY_ACCEPTED, 0, 0, 0));
    EXPECT(is(on_tetra("homotopic\r\nMOVES 1 2 # one\n\nf 0 0 0 + 2"), HOMOTOPY_ACCEPTED, 0, 0, 0));
    EXPECT(is(judged(3, ROUND, 3, SHORT, 2, "MOVES 1 2\nf 0 0 0 + 2\n"), HOMOTOPY_ACCEPTED, 0, 0, 0));
    EXPECT(is(on_tetra("MOVES 0 2\n"), HOMOTOPY_REJECTED_END, 0, 0, 0));
    EXPECT(is(on_tetra("MOVES 1 1\nf 0 0 0 + 2\n"), HOMOTOPY_REJECTED_PEAK, 0, 0, 0));
    EXPECT(is(on_tetra("MOVES 1 2\nf 0 0 0 - 2\n"), HOMOTOPY_REJECTED_MOVE_FACE, 1, 0, 0));
    EXPECT(is(on_tetra("MOVES 1 2\nf 1 0 0 + 2\n"), HOMOTOPY_REJECTED_MOVE_PLACE, 1, 0, 0));
    EXPECT(is(on_tetra("MOVES 2 2\nf 0 0 0 + 2\n- 0 1\n"), HOMOTOPY_REJECTED_MOVE_PLACE, 2, 0, 0));
    EXPECT(is(on_tetra("MOVES 1 4\n+ 0 0\n"), HOMOTOPY_REJECTED_MOVE_EDGE, 1, 0, 0));
    EXPECT(is(on_tetra("MOVES 1 4\n- 0 1\n"), HOMOTOPY_REJECTED_MOVE_SPUR, 1, 0, 0));
    EXPECT(is(on_tetra("MOVES 1 2\n+ 0 1\n"), HOMOTOPY_REJECTED_MOVE_PEAK, 1, 0, 0));
    EXPECT(is(judged(4, SHORT, 2, SPUR, 4, "MOVES 1 3\n+ 0 1\n"), HOMOTOPY_ACCEPTED, 0, 0, 0));
    EXPECT(is(judged(4, SPUR, 4, SHORT, 2, "MOVES 1 3\n- 0 1\n"), HOMOTOPY_ACCEPTED, 0, 0, 0));
}

static void denials(void) {
    EXPECT(is(on_tetra("LABELS 4\nplaces 0 1 2 3\n0 0\n0 1\n"), HOMOTOPY_REJECTED_SHAPE, 0, 0, 0));
    /* No spoke, so no label is below the degree. */
    EXPECT(is(on_tetra("LABELS 0\n+ 0 0 0\n+ 0 0 0\n+ 0 0 0\n+ 0 0 0\nplaces\nempty\nempty\n"), HOMOTOPY_REJECTED_SHAPE, 0, 0, 0));
}

static void texts(void) {
    EXPECT(is(on_tetra(""), HOMOTOPY_NO_HEAD, 0, 0, 0));
    EXPECT(is(on_tetra("# nothing\n\n"), HOMOTOPY_NO_HEAD, 0, 0, 0));
    EXPECT(is(on_tetra("MOVE 1 2\n"), HOMOTOPY_BAD_LINE, 1, 0, 0));
    EXPECT(is(on_tetra("different\nMOVES 1 2\nf 0 0 0 + 2\n"), HOMOTOPY_BAD_LINE, 2, 0, 0));
    EXPECT(is(on_tetra("MOVES 1 2\n\nf 0 0 0 +\n"), HOMOTOPY_BAD_LINE, 3, 0, 0));
    EXPECT(is(on_tetra("MOVES 2 2\nf 0 0 0 + 2\n"), HOMOTOPY_ENDED_EARLY, 3, 0, 0));
    EXPECT(is(on_tetra("MOVES 0 2\nf 0 0 0 + 2\n"), HOMOTOPY_EXTRA_LINE, 2, 0, 0));
    EXPECT(is(on_tetra("MOVES 1 16000001\nf 0 0 0 + 2\n"), HOMOTOPY_LARGE_PEAK, 1, 0, 0));
    EXPECT(is(on_tetra("LABELS 4\n+ 0 x 0\n"), HOMOTOPY_BAD_LINE, 2, 0, 0));
    /* The move that is refused is behind none that is, and the text is told first. */
    EXPECT(is(on_tetra("MOVES 2 2\nf 0 0 0 - 2\nf\n"), HOMOTOPY_BAD_LINE, 3, 0, 0));

    size_t many = 268435457;
    uint8_t *long_one = calloc(many, 1);
    homotopy_outcome outcome;
    homotopy_verify(4, SIZES, 4, TETRA, 12, ROUND, 3, SHORT, 2, long_one, many, &outcome);
    EXPECT(is(outcome, HOMOTOPY_LONG_CERTIFICATE, 0, 0, 0));
    free(long_one);
}

static void walks(void) {
    static const uint32_t other[] = {0, 9, 2}, stays[] = {0, 1, 1, 2}, turned[] = {2, 0}, elsewhere[] = {0, 1};
    const char *text = "no certificate";
    EXPECT(is(judged(4, ROUND, 0, SHORT, 2, text), HOMOTOPY_EMPTY_WALK, 1, 0, 0));
    EXPECT(is(judged(4, ROUND, 3, SHORT, 0, text), HOMOTOPY_EMPTY_WALK, 2, 0, 0));
    EXPECT(is(judged(4, ROUND, 3, other, 3, text), HOMOTOPY_NO_VERTEX, 2, 1, 0));
    EXPECT(is(judged(4, stays, 4, SHORT, 2, text), HOMOTOPY_NO_EDGE, 1, 1, 0));
    EXPECT(is(judged(4, ROUND, 3, turned, 2, text), HOMOTOPY_STARTS_DIFFER, 0, 0, 0));
    EXPECT(is(judged(4, ROUND, 3, elsewhere, 2, text), HOMOTOPY_ENDS_DIFFER, 0, 0, 0));

    homotopy_outcome outcome;
    homotopy_verify(4, SIZES, 4, TETRA, 11, ROUND, 0, SHORT, 2, (const uint8_t *)text, 3, &outcome);
    EXPECT(is(outcome, HOMOTOPY_CORNER_COUNT, 0, 0, 0));
    homotopy_verify(3, SIZES, 4, TETRA, 12, ROUND, 0, SHORT, 2, (const uint8_t *)text, 3, &outcome);
    EXPECT(is(outcome, HOMOTOPY_CORNER_RANGE, 1, 0, 0));
}

/* The torus of seven vertices: triangles i, i + 1, i + 3 and i, i + 3, i + 2, modulo 7. What is certified is judged. */
static void certified(const uint32_t *first, size_t firsts, const uint32_t *second, size_t seconds, uint32_t code, const char *begin) {
    uint32_t sizes[14], corners[42];
    for (uint32_t i = 0; i < 7; i++) {
        const uint32_t faces[] = {i, (i + 1) % 7, (i + 3) % 7, i, (i + 3) % 7, (i + 2) % 7};
        memcpy(corners + 6 * i, faces, sizeof faces);
        sizes[2 * i] = sizes[2 * i + 1] = 3;
    }
    homotopy_outcome outcome;
    uint8_t none[1] = {7};
    homotopy_certify(7, sizes, 14, corners, 42, first, firsts, second, seconds, none, 0, &outcome);
    EXPECT(outcome.code == HOMOTOPY_SHORT_ROOM && outcome.numbers[1] == code && none[0] == 7);
    size_t length = outcome.numbers[0];

    uint8_t *text = malloc(length);
    memset(text, 7, length);
    homotopy_certify(7, sizes, 14, corners, 42, first, firsts, second, seconds, text, length - 1, &outcome);
    EXPECT(is(outcome, HOMOTOPY_SHORT_ROOM, length, code, 0) && text[0] == 7 && text[length - 1] == 7);
    homotopy_certify(7, sizes, 14, corners, 42, first, firsts, second, seconds, text, length, &outcome);
    EXPECT(is(outcome, code, length, 0, 0) && memcmp(text, begin, strlen(begin)) == 0 && text[length - 1] == '\n');
    homotopy_verify(7, sizes, 14, corners, 42, first, firsts, second, seconds, text, length, &outcome);
    EXPECT(is(outcome, HOMOTOPY_ACCEPTED, 0, 0, 0));
    free(text);
}

static void certificates(void) {
    static const uint32_t over[] = {0, 1, 3}, under[] = {0, 2, 3}, round[] = {0, 1, 2, 3}, straight[] = {0, 3};
    certified(over, 3, under, 3, HOMOTOPY_HOMOTOPIC, "homotopic\nMOVES ");
    certified(round, 4, straight, 2, HOMOTOPY_DIFFERENT, "different\nLABELS 4\n");

    uint8_t text[1000];
    homotopy_outcome outcome;
    homotopy_certify(4, SIZES, 3, TETRA, 9, ROUND, 3, SHORT, 2, text, sizeof text, &outcome);
    EXPECT(is(outcome, HOMOTOPY_EDGE_SIDES, 1, 2, 1));
    homotopy_certify(4, SIZES, 4, TETRA, 12, ROUND, 0, SHORT, 2, text, sizeof text, &outcome);
    EXPECT(is(outcome, HOMOTOPY_EMPTY_WALK, 1, 0, 0));

    /* 256 steps each way are 512 darts, and one more is too many. */
    uint32_t way[514];
    for (uint32_t k = 0; k < COUNT(way); k++) way[k] = k % 2;
    text[0] = 7;
    homotopy_certify(4, SIZES, 4, TETRA, 12, way, 514, way, 2, text, sizeof text, &outcome);
    EXPECT(is(outcome, HOMOTOPY_CERTIFY_DARTS, 514, 0, 0) && text[0] == 7);
    homotopy_certify(4, SIZES, 4, TETRA, 12, way, 512, way, 2, text, 0, &outcome);
    EXPECT(outcome.code == HOMOTOPY_SHORT_ROOM && outcome.numbers[1] == HOMOTOPY_HOMOTOPIC);

    /* A torus of 64 times 65 squares has 16,640 sides. */
    enum { WIDE = 64, HIGH = 65, FACES = WIDE * HIGH };
    static uint32_t squares[4 * FACES], fours[FACES];
    for (uint32_t y = 0; y < HIGH; y++)
        for (uint32_t x = 0; x < WIDE; x++) {
            const uint32_t right = (x + 1) % WIDE, up = (y + 1) % HIGH;
            const uint32_t ring[4] = {WIDE * y + x, WIDE * y + right, WIDE * up + right, WIDE * up + x};
            memcpy(squares + 4 * (WIDE * y + x), ring, sizeof ring);
            fours[WIDE * y + x] = 4;
        }
    homotopy_certify(FACES, fours, FACES, squares, 4 * FACES, way, 2, way, 2, text, sizeof text, &outcome);
    EXPECT(is(outcome, HOMOTOPY_CERTIFY_SIDES, 16640, 0, 0));
}

int main(void) {
    lists();
    certificates();
    denials();
    texts();
    walks();
    if (!failures) printf("certificates.c: all as wanted\n");
    return failures != 0;
}
