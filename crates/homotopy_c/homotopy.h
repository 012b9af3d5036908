/* Whether walks along the edges of a polygon mesh are homotopic: the questions of the program homotopy_cli, asked from C and C++.
 *
 * A MESH is three arrays. `vertices` is how many vertices there are, numbered from 0. `sizes` has the number of corners of each face, and
 * `corners` the corners of all faces, face after face, each the number of a vertex, in order round its face. A triangle mesh has sizes
 * 3, 3, .. A mesh has at most 1,000,000 vertices and 4,000,000 corners. No coordinates are asked for.
 *
 * A SURFACE is a mesh that is a surface, in one piece or in several: no edge is in more than two sides of faces, and the corners at each
 * vertex make one ring, or one fan where the vertex is on the boundary. `homotopy_decide_any` takes any surface, closed or with boundary,
 * orientable or not, and `homotopy_mesh_new_any` keeps one; `homotopy_homology_any` takes orientable ones, closed or with boundary. The other
 * questions take orientable closed ones: each edge is in two sides, and the faces can be turned so that each edge is run both ways.
 * `homotopy_verify` and `homotopy_verify_homology` take any mesh.
 *
 * A WALK is an array of the numbers of the vertices that it passes, one after another joined by edges. A walk of one vertex stays there.
 * Two walks with the same first and the same last vertex are homotopic where one can be moved over the surface to the other. A closed walk
 * ends where it starts; two of them are freely homotopic where one can be moved to the other with no vertex held fast. Two walks with
 * common ends are homologous where the first, and then the second backwards, bound some faces, each counted so often, or so often turned.
 *
 * A DART is an edge with a direction, one step of a walk: a walk of n vertices has n - 1 darts. A SPUR is a dart and the same edge
 * straight back. A MOVE puts a spur into a walk, takes one out, or goes round a face the other way. The PEAK of a list of moves is the
 * most darts that a walk has while they are done; a list declares one, and a move that leads to a longer walk is refused.
 *
 * What a caller must ensure. Each pointer is aligned and leads to as many numbers as the length behind it says. No pointer is null, also
 * where the length is 0: to the code that was proved each array is a slice, a slice lies somewhere, and the compiler may make use of that;
 * an array of none has any aligned pointer. No array that is written overlaps another. No array that is read changes during the
 * call, by another thread or by a signal handler: a size that was looked at is taken for what it was, and one that grows meanwhile leads
 * behind the array's end. malloc, realloc and free are of one allocator. No call comes from a signal handler, or from the forked child of a
 * process with threads. Everything else is looked at, and what is wrong is answered.
 *
 * Calls keep and share nothing but the mesh that a handle holds, which is one call's at a time, as told below. So any number of threads may
 * make them at once, of the same arrays too; no array that is read is written. A call takes at most 24 KiB of its thread's stack, whatever
 * the mesh (measured, not proved). The library is made for Linux on x86-64 processors of level 2 (since 2009), by the usual convention of
 * calls there, and takes malloc, realloc, free, memcpy, memmove and memset from the C library, and nothing else.
 */
#ifndef HOMOTOPY_H
#define HOMOTOPY_H

#include <stddef.h>
#include <stdint.h>

/* The version of this header and of its library. The first number changes where a program made with an earlier one would no longer do. */
#define HOMOTOPY_VERSION "1.1.0"

#ifdef __cplusplus
extern "C" {
#endif

/* How a call ended, or what is answered of a pair. In brackets the numbers that belong to a code, in the order of `numbers`. Faces,
 * vertices and places of a walk are counted from 0, and walks from 1. What is first wrong is told. */
enum homotopy_code {
    HOMOTOPY_DONE = 0,              /* the question is answered */
    HOMOTOPY_HOMOTOPIC = 1,         /* the walks are homotopic */
    HOMOTOPY_DIFFERENT = 2,         /* they are two walks of the surface with common ends, and are not homotopic */
    HOMOTOPY_ACCEPTED = 3,          /* the certificate is accepted */
    HOMOTOPY_SHORT_ROOM = 4,        /* the caller's array is too short [the length that is wanted; the answer, or the length of a second
                                     * array that is wanted] */
    HOMOTOPY_NO_MEMORY = 5,         /* memory was wanting; this says nothing of the mesh or of the walks */
    HOMOTOPY_NO_MESH = 6,           /* the handle holds no mesh */
    HOMOTOPY_FREELY_HOMOTOPIC = 7,     /* the walks are freely homotopic */
    HOMOTOPY_NOT_FREELY_HOMOTOPIC = 8, /* they are two closed walks of the surface, and are not freely homotopic */
    HOMOTOPY_HOMOLOGOUS = 9,        /* the walks are homologous */

    HOMOTOPY_MANY_VERTICES = 10,    /* more than 1,000,000 vertices */
    HOMOTOPY_CORNER_COUNT = 11,     /* the sizes of the faces together are not the number of the corners */
    HOMOTOPY_MANY_SIDES = 12,       /* more than 4,000,000 corners */
    HOMOTOPY_FEW_CORNERS = 13,      /* a face has fewer than three corners [face] */
    HOMOTOPY_CORNER_RANGE = 14,     /* a corner is no vertex [face] */
    HOMOTOPY_EQUAL_NEIGHBOURS = 15, /* two neighbours round a face are one vertex [face] */

    HOMOTOPY_NOT_HOMOLOGOUS = 16,   /* the walks are two walks of the surface with common ends, and are not homologous */

    HOMOTOPY_NO_FACE = 20,          /* the mesh has no face */
    HOMOTOPY_EDGE_SIDES = 21,       /* an edge is not in exactly two sides of faces, or, where boundary is taken, in three or more
                                     * [lower vertex, higher vertex, sides] */
    HOMOTOPY_PINCHED = 22,          /* the corners at a vertex do not make one ring, nor, where boundary is taken, one fan [vertex] */
    HOMOTOPY_NOT_ORIENTABLE = 23,   /* the faces cannot be turned so that each edge is run both ways */
    HOMOTOPY_DOUBLE_VERTICES = 24,  /* there is boundary, and the double that answers has more than 1,000,000 vertices */
    HOMOTOPY_DOUBLE_SIDES = 25,     /* there is boundary, and the double that answers has more than 4,000,000 corners */
    HOMOTOPY_COVER_VERTICES = 26,   /* not orientable, and the cover that answers has more than 1,000,000 vertices */
    HOMOTOPY_COVER_SIDES = 27,      /* not orientable, and the cover that answers has more than 4,000,000 corners */

    HOMOTOPY_WALK_COUNT = 30,       /* the sizes of the walks are not the number of their vertices, or of an odd number of walks */
    HOMOTOPY_EMPTY_WALK = 31,       /* a walk has no vertex [walk] */
    HOMOTOPY_LONG_WALK = 32,        /* a walk has more than 2,147,483,648 vertices [walk] */
    HOMOTOPY_NO_VERTEX = 33,        /* an entry is no vertex that a face names [walk, place] */
    HOMOTOPY_NO_EDGE = 34,          /* an entry and the next one form no edge [walk, place] */
    HOMOTOPY_STARTS_DIFFER = 35,    /* the walks start at different vertices */
    HOMOTOPY_ENDS_DIFFER = 36,      /* the walks end at different vertices */
    HOMOTOPY_OPEN_WALK = 37,        /* a walk does not end where it starts [walk] */

    /* the text is no certificate; lines are counted from 1, blank ones too */
    HOMOTOPY_LONG_CERTIFICATE = 40, /* it has more than 268,435,456 bytes */
    HOMOTOPY_NO_HEAD = 41,          /* it has no line with words */
    HOMOTOPY_BAD_LINE = 42,         /* a line is not of the form that its place asks for [line] */
    HOMOTOPY_ENDED_EARLY = 43,      /* it ends, and lines are missing [the line behind its last] */
    HOMOTOPY_EXTRA_LINE = 44,       /* a line stands behind the last one [line] */
    HOMOTOPY_LARGE_PEAK = 45,       /* the peak in its head is more than 16,000,000 [line] */

    HOMOTOPY_UNKNOWN_ANSWER = 46,   /* the answer that numbers are to show is neither HOMOLOGOUS nor NOT_HOMOLOGOUS [answer] */

    /* the certificate is rejected: of a list of moves, which are counted from 1 */
    HOMOTOPY_REJECTED_PEAK = 50,       /* the first walk has more darts than the peak */
    HOMOTOPY_REJECTED_MOVE_PLACE = 51, /* the walk does not reach so far [move] */
    HOMOTOPY_REJECTED_MOVE_EDGE = 52,  /* the two vertices of an insertion form no edge [move] */
    HOMOTOPY_REJECTED_MOVE_SPUR = 53,  /* the entries of a removal are no spur [move] */
    HOMOTOPY_REJECTED_MOVE_FACE = 54,  /* the entries do not read the face [move] */
    HOMOTOPY_REJECTED_MOVE_PEAK = 55,  /* the walk that the move gives has more darts than the peak [move] */
    HOMOTOPY_REJECTED_END = 56,        /* the moves lead to another walk than the second */
    /* and of a denial */
    HOMOTOPY_REJECTED_SHAPE = 57,      /* faces, labels or places are too few or too many, or too large */
    HOMOTOPY_REJECTED_DEGREE = 58,     /* a labelling of this degree is not good [degree] */
    HOMOTOPY_REJECTED_PLACE = 59,      /* two spokes have this place [place] */
    HOMOTOPY_REJECTED_EDGE = 60,       /* the labels at an edge meet no rule [lower vertex, higher vertex] */
    HOMOTOPY_REJECTED_WORD = 61,       /* the word of a walk is another one [walk] */
    HOMOTOPY_REJECTED_EQUAL = 62,      /* both words are right, and are equal */
    /* and of numbers, of which places are counted from 0 */
    HOMOTOPY_REJECTED_COUNT = 63,      /* they are not one for each face, or of a cocycle one for each corner */
    HOMOTOPY_REJECTED_LARGE = 64,      /* a number is larger in size than 2,147,483,647 [place] */
    HOMOTOPY_REJECTED_UNEVEN = 65,     /* two sides of one edge have numbers that do not agree */
    HOMOTOPY_REJECTED_BOUNDARY = 66,   /* of a chain: its sides at an edge do not add up to what the first walk runs more there
                                        * [lower vertex, higher vertex] */
    HOMOTOPY_REJECTED_SUM = 67,        /* of a cocycle: round a face it does not add up to 0 [face] */
    HOMOTOPY_REJECTED_ZERO = 68,       /* of a cocycle: it adds up to the same along both walks */

    HOMOTOPY_CERTIFY_SIDES = 70, /* the surface has more sides than a certificate is made on, 16,384 [sides] */
    HOMOTOPY_CERTIFY_DARTS = 71, /* the walks together have more darts than one is made for, 512 [darts] */
    HOMOTOPY_HOMOLOGY_DARTS = 72 /* the walks together have more darts than are counted for homology, 2,147,483,647 [darts] */
};

/* A code of the list above, and the numbers that belong to it; 0 where there are fewer. */
typedef struct homotopy_outcome {
    uint32_t code;
    uint64_t numbers[3];
} homotopy_outcome;

/* The numbers of a surface. */
typedef struct homotopy_numbers {
    uint32_t vertices;   /* how many vertices some face names */
    uint32_t edges;
    uint32_t faces;
    int64_t euler;       /* vertices - edges + faces */
    uint64_t components; /* how many pieces there are */
} homotopy_numbers;

/* The numbers of an orientable closed surface, in one piece or in several, and the genus of each piece, in the order of their least
 * vertices. The mesh is looked at first, and then the room. Code DONE; or what is first wrong with the mesh, with nothing else written; or
 * SHORT_ROOM where `genera` has too little room: it is left as it was then, and the numbers are written all the same. */
void homotopy_surface(
    uint32_t vertices, const uint32_t *sizes, size_t face_count, const uint32_t *corners, size_t corner_count,
    homotopy_numbers *numbers, uint32_t *genera, size_t genera_room, homotopy_outcome *outcome);

/* The numbers of one piece of a surface, which is called a component. */
typedef struct homotopy_component {
    uint32_t vertices, edges, faces, genus;
} homotopy_component;

/* The components of an orientable closed surface, counted from 0 in the order of their least vertices: the numbers of each in front of
 * `components`; and in front of `places`, for each vertex of the mesh, which component it is of. A vertex that no face names is of none, and
 * has the number of components there. Two other vertices have one number exactly where edges lead from the one to the other.
 *
 * The mesh is looked at first, and then the room. Code DONE, and how many components there are; or what is first wrong with the mesh; or
 * SHORT_ROOM, where `components` or `places` has too little room, with the lengths that are wanted of both: how many components there are,
 * and how many vertices. Both are left as they were then. */
void homotopy_components(
    uint32_t vertices, const uint32_t *sizes, size_t face_count, const uint32_t *corners, size_t corner_count,
    homotopy_component *components, size_t component_room, uint32_t *places, size_t place_room, homotopy_outcome *outcome);

/* Whether the walks of each pair are homotopic on an orientable closed surface. `walk_sizes` has the number of vertices of each walk, two
 * walks for each pair, and `walk_vertices` the vertices of all walks, walk after walk. A byte of `answers` for each pair is HOMOTOPIC,
 * DIFFERENT, or the code 31 to 36 of what is first wrong with its walks. The outcome's code is DONE where each pair has its byte; else
 * `answers` is left as it was.
 *
 * The room is looked at first: where it is too small for half as many answers as there are walks, the code is SHORT_ROOM, and nothing else
 * is looked at; then the mesh, then the sizes of the walks. The mesh is read once, and where it is in one piece the time for a pair is that
 * of its walks. Where it is in several, pairs may lie in them in any order: each piece in which some pair lies is made a surface of its own
 * once, over its own vertices, so what it costs hangs on its own size. (What is said of time is not proved.) */
void homotopy_decide(
    uint32_t vertices, const uint32_t *sizes, size_t face_count, const uint32_t *corners, size_t corner_count,
    const uint32_t *walk_sizes, size_t walk_count, const uint32_t *walk_vertices, size_t walk_vertex_count,
    uint8_t *answers, size_t answer_room, homotopy_outcome *outcome);

/* What `homotopy_decide` tells, on a surface of any kind, closed or with boundary, orientable or not. It is handed the same, and answers the
 * same, for the mesh that it is handed. Of the mesh it tells NO_FACE, EDGE_SIDES for an edge that is in three sides or more, PINCHED, or
 * that it is too large: a mesh with boundary is asked by way of its double, which has twice the vertices, twice the faces, and a face of
 * four corners for each edge on the boundary; and one that is not orientable, or whose double is not, by way of a cover, which has twice
 * the vertices and the faces. Each is made once, and is to be no larger than a mesh may be: DOUBLE_VERTICES, DOUBLE_SIDES, COVER_VERTICES or
 * COVER_SIDES. (What is said of time is not proved.) */
void homotopy_decide_any(
    uint32_t vertices, const uint32_t *sizes, size_t face_count, const uint32_t *corners, size_t corner_count,
    const uint32_t *walk_sizes, size_t walk_count, const uint32_t *walk_vertices, size_t walk_vertex_count,
    uint8_t *answers, size_t answer_room, homotopy_outcome *outcome);

/* A handle, which holds a mesh from call to call, so that questions about its walks can be asked as they come. It begins as
 * HOMOTOPY_EMPTY_MESH, which holds none, and is changed by the calls below alone: what is in it is the library's own. It is one call's at a
 * time. Any thread may make that call; a lock, or the start or the end of a thread, has to lie between the calls of two. A handle may be
 * moved in memory; where it was copied, one of the two is used from there on, and the other one never. What it holds is to be given back in
 * the end, by `homotopy_mesh_free`. */
typedef struct homotopy_mesh {
    void *kept; /* null where no mesh is held */
} homotopy_mesh;

#define HOMOTOPY_EMPTY_MESH {0}

/* Keeps an orientable closed surface. Code DONE: the handle holds it, what it held before is given back, and the arrays are no longer
 * looked at. Or what is first wrong with the mesh, as `homotopy_decide` tells it: the handle holds what it held. */
void homotopy_mesh_new(
    uint32_t vertices, const uint32_t *sizes, size_t face_count, const uint32_t *corners, size_t corner_count,
    homotopy_mesh *mesh, homotopy_outcome *outcome);

/* Keeps a surface of any kind, in one piece or in several, closed or with boundary, orientable or not, with its double or its cover where
 * it needs one. All else is as in `homotopy_mesh_new`; what is first wrong with the mesh, or too large, is told as `homotopy_decide_any`
 * tells it. */
void homotopy_mesh_new_any(
    uint32_t vertices, const uint32_t *sizes, size_t face_count, const uint32_t *corners, size_t corner_count,
    homotopy_mesh *mesh, homotopy_outcome *outcome);

/* What `homotopy_decide_any` tells of the mesh that the handle holds, which is what `homotopy_decide` tells of an orientable closed one. The
 * code is NO_MESH where it holds none, with nothing else looked at. The mesh is not read again, and where it is in one piece the time is
 * that of the walks. Where it is in several, each piece is made a surface of its own when a walk first lies in it, and stays one. (What is
 * said of time is not proved.) */
void homotopy_mesh_decide(
    homotopy_mesh *mesh,
    const uint32_t *walk_sizes, size_t walk_count, const uint32_t *walk_vertices, size_t walk_vertex_count,
    uint8_t *answers, size_t answer_room, homotopy_outcome *outcome);

/* Whether the closed walks of each pair are freely homotopic on the mesh that the handle holds, which may be in several pieces, walks of two
 * of which are not, and have boundary. Where it is not orientable the code is NOT_ORIENTABLE, told behind SHORT_ROOM and before WALK_COUNT.
 * What is handed over and what comes back is else as in `homotopy_mesh_decide`. The byte of a pair is FREELY_HOMOTOPIC,
 * NOT_FREELY_HOMOTOPIC, or the code of what is first wrong with its walks, which need have no vertex in common: EMPTY_WALK, LONG_WALK,
 * NO_VERTEX, NO_EDGE or OPEN_WALK; all entries are looked at before any edge, and all edges before any end. */
void homotopy_mesh_loops(
    homotopy_mesh *mesh,
    const uint32_t *walk_sizes, size_t walk_count, const uint32_t *walk_vertices, size_t walk_vertex_count,
    uint8_t *answers, size_t answer_room, homotopy_outcome *outcome);

/* The classes of walks on the mesh that the handle holds: any number of walks, `walk_sizes` with the number of vertices of each, and
 * `walk_vertices` with the vertices of all, walk after walk. A number of `classes` for each walk: the place, counted from 0, of the first
 * walk that starts where it starts, ends where it ends, and is homotopic to it. So two numbers are equal exactly where the walks have
 * common ends and are homotopic. The outcome's code is DONE where each walk has its number; else `classes` is left as it was.
 *
 * The code is NO_MESH where the handle holds none, with nothing else looked at; then, where there is room for fewer numbers than there are
 * walks, SHORT_ROOM; then WALK_COUNT, where the sizes together are not the number of the vertices; then what is first wrong with the first
 * walk that is none of the surface: EMPTY_WALK, LONG_WALK, NO_VERTEX or NO_EDGE. Each walk is gone along once, and then looked up among
 * those before it. (What is said of time is not proved.) */
void homotopy_mesh_classes(
    homotopy_mesh *mesh,
    const uint32_t *walk_sizes, size_t walk_count, const uint32_t *walk_vertices, size_t walk_vertex_count,
    size_t *classes, size_t class_room, homotopy_outcome *outcome);

/* Gives back the mesh that the handle holds, if any. It holds none then, as at its beginning. */
void homotopy_mesh_free(homotopy_mesh *mesh);

/* Whether two walks on an orientable closed surface are homotopic, with the text that shows it, as the program's `certify` prints it: a
 * list of moves, or a denial. Code HOMOTOPIC or DIFFERENT, and the length of the text, which stands in front of `text`; or SHORT_ROOM,
 * where it has too little room, with the length that is wanted and the code of the answer; or what is first wrong with the mesh or the
 * walks, or what is too large. `text` is left as it was then. The room is looked at last, when the text is made in memory: a call with no
 * room costs what one with room does. */
void homotopy_certify(
    uint32_t vertices, const uint32_t *sizes, size_t face_count, const uint32_t *corners, size_t corner_count,
    const uint32_t *first, size_t first_count, const uint32_t *second, size_t second_count,
    uint8_t *text, size_t text_room, homotopy_outcome *outcome);

/* Whether two walks with common ends on an orientable closed surface, in one piece or in several, are homologous, with numbers that show it,
 * 0 wherever the program's `homology` lists none. The number of either code is how many were written in front of `numbers`.
 *
 * HOMOLOGOUS: a number for each face, which together are a chain. Let each side of a face have the number of its face, and count it as plus
 * that where it runs along its edge one way, and as minus that where it runs the other way: then the two sides of each edge add up to how
 * much more often the first walk runs along it that way than the second; a run the other way is counted as -1.
 *
 * NOT_HOMOLOGOUS: a number for each corner, which together are a cocycle. It is that of the side from the corner to the next one of its
 * face. The two sides of an edge have opposite numbers where they run opposite ways, and the same one where they run the same way; so a dart
 * has a number too. Round each face the numbers add up to 0, but along the two walks to different sums, which no chain could tell apart.
 *
 * Or SHORT_ROOM, where `numbers` has too little room, with how many are wanted and the code of the answer; or what is first wrong with the
 * mesh or the walks, or HOMOLOGY_DARTS. `numbers` is left as it was then. The room is looked at last. */
void homotopy_homology(
    uint32_t vertices, const uint32_t *sizes, size_t face_count, const uint32_t *corners, size_t corner_count,
    const uint32_t *first, size_t first_count, const uint32_t *second, size_t second_count,
    int64_t *numbers, size_t number_room, homotopy_outcome *outcome);

/* What `homotopy_homology` tells, of any orientable surface, in one piece or in several, closed or with boundary. What is handed over and what
 * comes back is the same, for the mesh itself. What is first wrong with the mesh is told as `homotopy_decide_any` tells it, but that no cover
 * is made: where the faces cannot be turned so that each edge is run both ways, the code is NOT_ORIENTABLE, told behind the limits of the
 * double and before the walks. The size of a number of a chain is at most 4,294,967,294 here, where it is proved to be at most 2,147,483,647
 * in `homotopy_homology`. */
void homotopy_homology_any(
    uint32_t vertices, const uint32_t *sizes, size_t face_count, const uint32_t *corners, size_t corner_count,
    const uint32_t *first, size_t first_count, const uint32_t *second, size_t second_count,
    int64_t *numbers, size_t number_room, homotopy_outcome *outcome);

/* What comes of a certificate between two walks on a mesh, which need be no surface. `certificate` is a text as `certify` prints it: a list
 * of moves that leads from the first walk to the second, or a denial, by which none does. Code ACCEPTED where it does; REJECTED_.. for the
 * first reason against it; or what is first wrong with the mesh, the walks, or the text, in this order. */
void homotopy_verify(
    uint32_t vertices, const uint32_t *sizes, size_t face_count, const uint32_t *corners, size_t corner_count,
    const uint32_t *first, size_t first_count, const uint32_t *second, size_t second_count,
    const uint8_t *certificate, size_t certificate_bytes, homotopy_outcome *outcome);

/* What comes of numbers that are to show of two walks on a mesh, which need be no surface, that they are homologous, or that they are not:
 * `answer` is HOMOLOGOUS or NOT_HOMOLOGOUS, and `numbers` a chain, one for each face, or a cocycle, one for each corner, as
 * `homotopy_homology` writes them. An edge may have any number of sides: all sides of a chain at an edge are added up, and all those of a
 * cocycle are to agree. Code ACCEPTED where they show it: then the walks are what `answer` says. REJECTED_COUNT to REJECTED_ZERO for the
 * first reason against them, in the order of the codes: of a chain the least edge, by its lower and then by its higher vertex, and of a
 * cocycle the least face. Or UNKNOWN_ANSWER, with nothing else looked at; or what is first wrong with the mesh or the walks, in this
 * order. */
void homotopy_verify_homology(
    uint32_t vertices, const uint32_t *sizes, size_t face_count, const uint32_t *corners, size_t corner_count,
    const uint32_t *first, size_t first_count, const uint32_t *second, size_t second_count,
    uint32_t answer, const int64_t *numbers, size_t number_count, homotopy_outcome *outcome);

/* What the codes say: the line that the program prints for it, which docs/FORMATS.md explains ("" where the program has none), and a
 * sentence. {0}, {1} and {2} stand for the numbers of the outcome. This is the one table of these texts. */
#define HOMOTOPY_TEXTS(ROW) \
    ROW(DONE, "", "the question is answered") \
    ROW(HOMOTOPIC, "homotopic", "the walks are homotopic") \
    ROW(DIFFERENT, "different", "the walks are not homotopic") \
    ROW(ACCEPTED, "accepted", "the certificate is accepted") \
    ROW(SHORT_ROOM, "", "the array for the answer is too short: {0} are wanted") \
    ROW(NO_MEMORY, "", "memory was wanting") \
    ROW(NO_MESH, "", "the handle holds no mesh") \
    ROW(FREELY_HOMOTOPIC, "freely homotopic", "the walks are freely homotopic") \
    ROW(NOT_FREELY_HOMOTOPIC, "not freely homotopic", "the walks are not freely homotopic") \
    ROW(HOMOLOGOUS, "homologous", "the walks are homologous") \
    ROW(MANY_VERTICES, "", "the mesh has more than 1,000,000 vertices") \
    ROW(CORNER_COUNT, "", "the sizes of the faces together are not the number of corners") \
    ROW(MANY_SIDES, "", "the mesh has more than 4,000,000 corners") \
    ROW(FEW_CORNERS, "", "face {0} has fewer than three corners") \
    ROW(CORNER_RANGE, "", "face {0} has a corner that is no vertex of the mesh") \
    ROW(EQUAL_NEIGHBOURS, "", "face {0} has the same vertex twice in a row") \
    ROW(NOT_HOMOLOGOUS, "not homologous", "the walks are not homologous") \
    ROW(NO_FACE, "refused: no face", "the mesh has no face") \
    ROW(EDGE_SIDES, "refused: edge {0} {1} sides {2}", "the edge {0} {1} should be in two sides of faces, and is in {2}") \
    ROW(PINCHED, "refused: vertex {0} pinched", "vertex {0} is pinched: its corners do not make one ring") \
    ROW(NOT_ORIENTABLE, "refused: not orientable", "the mesh is not orientable") \
    ROW(DOUBLE_VERTICES, "refused: double vertices", "the mesh has boundary, and its double has more than 1,000,000 vertices") \
    ROW(DOUBLE_SIDES, "refused: double sides", "the mesh has boundary, and its double has more than 4,000,000 corners") \
    ROW(COVER_VERTICES, "refused: cover vertices", "the mesh is not orientable, and its cover has more than 1,000,000 vertices") \
    ROW(COVER_SIDES, "refused: cover sides", "the mesh is not orientable, and its cover has more than 4,000,000 corners") \
    ROW(WALK_COUNT, "", "the sizes of the walks do not fit their vertices, or a walk has no partner") \
    ROW(EMPTY_WALK, "", "walk {0} has no vertex") \
    ROW(LONG_WALK, "", "walk {0} has more than 2,147,483,648 vertices") \
    ROW(NO_VERTEX, "refused: walk {0} place {1} vertex", "walk {0} has at place {1} no vertex of a face") \
    ROW(NO_EDGE, "refused: walk {0} place {1} edge", "walk {0} has no edge from place {1} to the next") \
    ROW(STARTS_DIFFER, "refused: walks start", "the walks start at different vertices") \
    ROW(ENDS_DIFFER, "refused: walks end", "the walks end at different vertices") \
    ROW(OPEN_WALK, "refused: walk {0} open", "walk {0} does not end where it starts") \
    ROW(LONG_CERTIFICATE, "refused: certificate too large", "the certificate has more than 268,435,456 bytes") \
    ROW(NO_HEAD, "refused: certificate no head", "the certificate has no line with words") \
    ROW(BAD_LINE, "refused: certificate line {0} bad", "line {0} of the certificate is not of the form that its place asks for") \
    ROW(ENDED_EARLY, "refused: certificate line {0} ended", "the certificate ends before line {0}, and lines are missing") \
    ROW(EXTRA_LINE, "refused: certificate line {0} extra", "line {0} of the certificate stands behind its last one") \
    ROW(LARGE_PEAK, "refused: certificate line {0} peak", "the peak on line {0} of the certificate is more than 16,000,000") \
    ROW(UNKNOWN_ANSWER, "", "the answer that numbers are to show is {0}, and neither HOMOLOGOUS nor NOT_HOMOLOGOUS") \
    ROW(REJECTED_PEAK, "rejected: peak", "the first walk has more darts than the peak") \
    ROW(REJECTED_MOVE_PLACE, "rejected: move {0} place", "at move {0} the walk does not reach so far") \
    ROW(REJECTED_MOVE_EDGE, "rejected: move {0} edge", "move {0} goes along no edge") \
    ROW(REJECTED_MOVE_SPUR, "rejected: move {0} spur", "at move {0} there is no such spur in the walk") \
    ROW(REJECTED_MOVE_FACE, "rejected: move {0} face", "at move {0} the walk does not go round the face so") \
    ROW(REJECTED_MOVE_PEAK, "rejected: move {0} peak", "move {0} makes the walk longer than the peak") \
    ROW(REJECTED_END, "rejected: end", "the moves lead to another walk than the second") \
    ROW(REJECTED_SHAPE, "rejected: shape", "the labels or the places do not fit the mesh") \
    ROW(REJECTED_DEGREE, "rejected: degree {0}", "a labelling of degree {0} is not good") \
    ROW(REJECTED_PLACE, "rejected: place {0}", "two spokes have the place {0}") \
    ROW(REJECTED_EDGE, "rejected: edge {0} {1}", "the labels at the edge {0} {1} meet no rule") \
    ROW(REJECTED_WORD, "rejected: word {0}", "the word of walk {0} is another one") \
    ROW(REJECTED_EQUAL, "rejected: equal", "both words are right, and are equal") \
    ROW(REJECTED_COUNT, "", "there is not a number for each face, or of a cocycle for each side") \
    ROW(REJECTED_LARGE, "", "the number at place {0} is larger in size than 2,147,483,647") \
    ROW(REJECTED_UNEVEN, "", "two sides of one edge have numbers that do not agree") \
    ROW(REJECTED_BOUNDARY, "rejected: edge {0} {1}", "at the edge {0} {1} the chain does not add up to the difference of the walks") \
    ROW(REJECTED_SUM, "rejected: face {0}", "round face {0} the cocycle does not add up to 0") \
    ROW(REJECTED_ZERO, "rejected: zero", "the cocycle adds up to the same along both walks") \
    ROW(CERTIFY_SIDES, "refused: certify sides {0}", "the surface has {0} sides, and a certificate is made on at most 16,384") \
    ROW(CERTIFY_DARTS, "refused: certify darts {0}", "the walks have {0} darts together, and a certificate is made for at most 512") \
    ROW(HOMOLOGY_DARTS, "", "the walks have {0} darts together, and at most 2,147,483,647 are counted for homology")

/* The program's line for a code, and the sentence; "" for what is no code. Neither is written to. The merged archive and the shared library
 * have both functions as symbols too, homotopy_line_of and homotopy_text_of, for languages that read no header. */
static inline const char *homotopy_line(uint32_t code) {
#define HOMOTOPY_ROW(name, line, text) case HOMOTOPY_##name: return line;
    switch (code) {
        HOMOTOPY_TEXTS(HOMOTOPY_ROW)
        default: return "";
    }
#undef HOMOTOPY_ROW
}

static inline const char *homotopy_text(uint32_t code) {
#define HOMOTOPY_ROW(name, line, text) case HOMOTOPY_##name: return text;
    switch (code) {
        HOMOTOPY_TEXTS(HOMOTOPY_ROW)
        default: return "";
    }
#undef HOMOTOPY_ROW
}

/* Writes the sentence of an outcome with its numbers into `room`, as snprintf does: at most `length` bytes with the 0 at the end. Returns
 * how many bytes the whole sentence has without it. */
static inline size_t homotopy_tell(const homotopy_outcome *outcome, char *room, size_t length) {
    size_t bytes = 0;
    for (const char *at = homotopy_text(outcome->code); *at != 0; at++) {
        char digits[20];
        size_t first = sizeof digits;
        if (*at == '{') {
            uint64_t number = outcome->numbers[at[1] - '0'];
            do digits[--first] = (char)('0' + number % 10); while ((number /= 10) != 0);
            at += 2;
        } else {
            digits[--first] = *at;
        }
        for (; first < sizeof digits; first++, bytes++)
            if (bytes + 1 < length) room[bytes] = digits[first];
    }
    if (length > 0) room[bytes < length ? bytes : length - 1] = 0;
    return bytes;
}

#ifdef __cplusplus
}
#endif

#endif
