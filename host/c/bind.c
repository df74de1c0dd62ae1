/* How a driver maps and unmaps, and the test of it: tables of cases with all that they leave. */
#define _DEFAULT_SOURCE /* for MAP_ANONYMOUS */

#include <inttypes.h>
#include <stdint.h>
#include <stdio.h>
#include <string.h>

#include "binding.h"

/* The most mappings and operations that a case writes out. */
#define MOST_WRITTEN 6

/* A request on a table in a space, the answer, and what a grant leaves. */
struct test_case {
    const char *name;
    waylluqen_space space;
    waylluqen_request request;
    waylluqen_answer expected;
    uint64_t count;
    size_t table_words;
    struct mapping old[MOST_WRITTEN];
    struct mapping new[MOST_WRITTEN];
    struct operation list[MOST_WRITTEN];
    int more_words; /* operation words lent beyond the least that will do */
};

/* Requests: in pages, and in bytes as the structure has them. */
#define MAP(first, end, object, offset) \
    {WAYLLUQEN_OP_MAP, (first) * PAGE, ((end) - (first)) * PAGE, object, (offset) * PAGE}
#define UNMAP(first, end) {WAYLLUQEN_OP_UNMAP, (first) * PAGE, ((end) - (first)) * PAGE, 0, 0}
#define REQUEST(...) {__VA_ARGS__}
/* A map and an unmap of the first page in the common space, with which nothing is wrong. */
#define GOOD_MAP {WAYLLUQEN_OP_MAP, 0x100000, PAGE, 5, 0}
#define GOOD_UNMAP {WAYLLUQEN_OP_UNMAP, 0x100000, PAGE, 0, 0}

/* In pages: one old mapping, or none, in room for eight. */
#define OVER_ONE(name, request, expected, old, new, list) \
    {name, DRAWN, request, expected, ROOM(1, 8), {old}, new, list, 0}
#define OVER_NONE(name, request, expected, new, list) \
    {name, DRAWN, request, expected, ROOM(0, 8), {NONE}, new, list, 0}
/* A map into an empty table, with as many operation words as are needed. */
#define INTO_EMPTY(name, capacity) \
    {name, COMMON, GOOD_MAP, GRANTED(1, 1), ROOM(0, capacity), {NONE}, \
     {{0x100000, PAGE, 5, 0}}, {MAPS(LIST(0x100000, PAGE, 5, 0))}, 0}

static const struct test_case grants[] = {
    /* The drawings. */
    OVER_ONE("P1", MAP(0, 1, 7, 1), GRANTED(2, 1), P(0, 1, 7, 1), LIST(P(0, 1, 7, 1)),
             LIST(UNMAPS(1, P(0, 1, 7, 1)), MAPS(P(0, 1, 7, 1)))),
    OVER_ONE("P2", MAP(1, 2, 9, 4), GRANTED(2, 2), P(0, 2, 7, 1),
             LIST(P(0, 1, 7, 1), P(1, 2, 9, 4)),
             LIST(REMAPS(0, P(0, 2, 7, 1), P(0, 1, 7, 1), NONE), MAPS(P(1, 2, 9, 4)))),
    OVER_ONE("P3", MAP(0, 1, 9, 4), GRANTED(2, 2), P(0, 2, 7, 1),
             LIST(P(0, 1, 9, 4), P(1, 2, 7, 2)),
             LIST(REMAPS(0, P(0, 2, 7, 1), NONE, P(1, 2, 7, 2)), MAPS(P(0, 1, 9, 4)))),
    OVER_ONE("P4", MAP(1, 2, 9, 4), GRANTED(2, 3), P(0, 3, 7, 1),
             LIST(P(0, 1, 7, 1), P(1, 2, 9, 4), P(2, 3, 7, 3)),
             LIST(REMAPS(0, P(0, 3, 7, 1), P(0, 1, 7, 1), P(2, 3, 7, 3)), MAPS(P(1, 2, 9, 4)))),
    OVER_ONE("P5", MAP(1, 3, 9, 4), GRANTED(2, 2), P(0, 2, 7, 1),
             LIST(P(0, 1, 7, 1), P(1, 3, 9, 4)),
             LIST(REMAPS(0, P(0, 2, 7, 1), P(0, 1, 7, 1), NONE), MAPS(P(1, 3, 9, 4)))),
    OVER_ONE("P6", MAP(0, 2, 9, 4), GRANTED(2, 2), P(1, 3, 7, 1),
             LIST(P(0, 2, 9, 4), P(2, 3, 7, 2)),
             LIST(REMAPS(0, P(1, 3, 7, 1), NONE, P(2, 3, 7, 2)), MAPS(P(0, 2, 9, 4)))),
    OVER_ONE("P7", MAP(0, 3, 9, 4), GRANTED(2, 1), P(1, 2, 7, 1), LIST(P(0, 3, 9, 4)),
             LIST(UNMAPS(0, P(1, 2, 7, 1)), MAPS(P(0, 3, 9, 4)))),
    OVER_ONE("P8", UNMAP(1, 2), GRANTED(1, 2), P(0, 3, 7, 1), LIST(P(0, 1, 7, 1), P(2, 3, 7, 3)),
             LIST(REMAPS(0, P(0, 3, 7, 1), P(0, 1, 7, 1), P(2, 3, 7, 3)))),
    OVER_ONE("P9", MAP(1, 2, 7, 2), GRANTED(1, 2), P(0, 1, 7, 1),
             LIST(P(0, 1, 7, 1), P(1, 2, 7, 2)), LIST(MAPS(P(1, 2, 7, 2)))),
    OVER_NONE("P10", UNMAP(3, 4), GRANTED(0, 0), {NONE}, {MAPS(NONE)}),
    {"P4 in room for three", DRAWN, MAP(1, 2, 9, 4), GRANTED(2, 3), ROOM(1, 3), {P(0, 3, 7, 1)},
     {P(0, 1, 7, 1), P(1, 2, 9, 4), P(2, 3, 7, 3)},
     {REMAPS(0, P(0, 3, 7, 1), P(0, 1, 7, 1), P(2, 3, 7, 3)), MAPS(P(1, 2, 9, 4))}, 0},
    OVER_NONE("the last page", MAP(15, 16, 9, 0), GRANTED(1, 1), LIST(P(15, 16, 9, 0)),
              LIST(MAPS(P(15, 16, 9, 0)))),

    /* The drawings of the first patch, without joining, that are not among those above. */
    OVER_ONE("drawing 2", MAP(0, 1, 7, 4), GRANTED(2, 1), P(0, 1, 7, 1), LIST(P(0, 1, 7, 4)),
             LIST(UNMAPS(0, P(0, 1, 7, 1)), MAPS(P(0, 1, 7, 4)))),
    OVER_ONE("drawing 3", MAP(0, 1, 9, 1), GRANTED(2, 1), P(0, 1, 7, 1), LIST(P(0, 1, 9, 1)),
             LIST(UNMAPS(0, P(0, 1, 7, 1)), MAPS(P(0, 1, 9, 1)))),
    OVER_ONE("drawing 4", MAP(0, 2, 7, 1), GRANTED(2, 1), P(0, 1, 7, 1), LIST(P(0, 2, 7, 1)),
             LIST(UNMAPS(1, P(0, 1, 7, 1)), MAPS(P(0, 2, 7, 1)))),
    OVER_ONE("drawing 5", MAP(0, 1, 9, 1), GRANTED(2, 2), P(0, 2, 7, 1),
             LIST(P(0, 1, 9, 1), P(1, 2, 7, 2)),
             LIST(REMAPS(0, P(0, 2, 7, 1), NONE, P(1, 2, 7, 2)), MAPS(P(0, 1, 9, 1)))),
    OVER_ONE("drawing 6", MAP(0, 1, 7, 1), GRANTED(2, 2), P(0, 2, 7, 1),
             LIST(P(0, 1, 7, 1), P(1, 2, 7, 2)),
             LIST(REMAPS(1, P(0, 2, 7, 1), NONE, P(1, 2, 7, 2)), MAPS(P(0, 1, 7, 1)))),
    OVER_ONE("drawing 8", MAP(1, 2, 7, 2), GRANTED(2, 2), P(0, 2, 7, 1),
             LIST(P(0, 1, 7, 1), P(1, 2, 7, 2)),
             LIST(REMAPS(1, P(0, 2, 7, 1), P(0, 1, 7, 1), NONE), MAPS(P(1, 2, 7, 2)))),
    OVER_ONE("drawing 10", MAP(1, 3, 7, 2), GRANTED(2, 2), P(0, 2, 7, 1),
             LIST(P(0, 1, 7, 1), P(1, 3, 7, 2)),
             LIST(REMAPS(1, P(0, 2, 7, 1), P(0, 1, 7, 1), NONE), MAPS(P(1, 3, 7, 2)))),
    OVER_ONE("drawing 12", MAP(1, 2, 7, 2), GRANTED(2, 3), P(0, 3, 7, 1),
             LIST(P(0, 1, 7, 1), P(1, 2, 7, 2), P(2, 3, 7, 3)),
             LIST(REMAPS(1, P(0, 3, 7, 1), P(0, 1, 7, 1), P(2, 3, 7, 3)), MAPS(P(1, 2, 7, 2)))),
    OVER_ONE("drawing 13", MAP(0, 2, 7, 1), GRANTED(2, 1), P(1, 2, 7, 1), LIST(P(0, 2, 7, 1)),
             LIST(UNMAPS(0, P(1, 2, 7, 1)), MAPS(P(0, 2, 7, 1)))),
    OVER_ONE("drawing 14", MAP(0, 3, 7, 1), GRANTED(2, 1), P(1, 2, 7, 1), LIST(P(0, 3, 7, 1)),
             LIST(UNMAPS(0, P(1, 2, 7, 1)), MAPS(P(0, 3, 7, 1)))),
    OVER_ONE("drawing 13, contiguous", MAP(0, 2, 7, 0), GRANTED(2, 1), P(1, 2, 7, 1),
             LIST(P(0, 2, 7, 0)), LIST(UNMAPS(1, P(1, 2, 7, 1)), MAPS(P(0, 2, 7, 0)))),
    OVER_ONE("drawing 14, contiguous", MAP(0, 3, 7, 0), GRANTED(2, 1), P(1, 2, 7, 1),
             LIST(P(0, 3, 7, 0)), LIST(UNMAPS(1, P(1, 2, 7, 1)), MAPS(P(0, 3, 7, 0)))),
    {"drawing 16", DRAWN, MAP(1, 2, 7, 2), GRANTED(1, 3), ROOM(2, 8),
     {P(0, 1, 7, 1), P(2, 3, 7, 3)}, {P(0, 1, 7, 1), P(1, 2, 7, 2), P(2, 3, 7, 3)},
     {MAPS(P(1, 2, 7, 2))}, 0},

    /* Misfilings: a neighbour that touches is not hit, on either side or on both. */
    OVER_ONE("touches from above", MAP(2, 3, 9, 0), GRANTED(1, 2), P(0, 2, 7, 1),
             LIST(P(0, 2, 7, 1), P(2, 3, 9, 0)), LIST(MAPS(P(2, 3, 9, 0)))),
    OVER_ONE("touches from below", MAP(0, 2, 9, 0), GRANTED(1, 2), P(2, 4, 7, 1),
             LIST(P(0, 2, 9, 0), P(2, 4, 7, 1)), LIST(MAPS(P(0, 2, 9, 0)))),
    OVER_ONE("unmap touches from above", UNMAP(2, 3), GRANTED(0, 1), P(0, 2, 7, 1),
             LIST(P(0, 2, 7, 1)), {MAPS(NONE)}),
    OVER_ONE("unmap touches from below", UNMAP(0, 2), GRANTED(0, 1), P(2, 4, 7, 1),
             LIST(P(2, 4, 7, 1)), {MAPS(NONE)}),
    OVER_ONE("shares its last page", UNMAP(1, 3), GRANTED(1, 1), P(0, 2, 7, 1), LIST(P(0, 1, 7, 1)),
             LIST(REMAPS(0, P(0, 2, 7, 1), P(0, 1, 7, 1), NONE))),
    OVER_ONE("shares its first page", UNMAP(0, 3), GRANTED(1, 1), P(2, 4, 7, 1),
             LIST(P(3, 4, 7, 2)), LIST(REMAPS(0, P(2, 4, 7, 1), NONE, P(3, 4, 7, 2)))),
    /* Misfilings: an upper rest's offset moves with its address, not by the request's size. */
    OVER_ONE("upper rest behind three pages", UNMAP(1, 4), GRANTED(1, 1), P(2, 8, 7, 5),
             LIST(P(4, 8, 7, 7)), LIST(REMAPS(0, P(2, 8, 7, 5), NONE, P(4, 8, 7, 7)))),
    OVER_ONE("upper rest in the middle", UNMAP(4, 6), GRANTED(1, 2), P(1, 8, 7, 5),
             LIST(P(1, 4, 7, 5), P(6, 8, 7, 10)),
             LIST(REMAPS(0, P(1, 8, 7, 5), P(1, 4, 7, 5), P(6, 8, 7, 10)))),
    /* Misfilings: what a map frees is room for it. */
    {"over all of a full table", DRAWN, MAP(0, 4, 9, 0), GRANTED(3, 1), ROOM(2, 2),
     {P(0, 1, 7, 1), P(2, 4, 8, 1)}, {P(0, 4, 9, 0)},
     {UNMAPS(0, P(0, 1, 7, 1)), UNMAPS(0, P(2, 4, 8, 1)), MAPS(P(0, 4, 9, 0))}, 0},
    {"over one of a full table", DRAWN, MAP(2, 4, 9, 0), GRANTED(2, 2), ROOM(2, 2),
     {P(0, 1, 7, 1), P(2, 4, 8, 1)}, {P(0, 1, 7, 1), P(2, 4, 9, 0)},
     {UNMAPS(0, P(2, 4, 8, 1)), MAPS(P(2, 4, 9, 0))}, 0},
    {"one goes and one is cut in a full table", DRAWN, MAP(0, 3, 9, 0), GRANTED(3, 2), ROOM(2, 2),
     {P(0, 1, 7, 1), P(2, 4, 8, 1)}, {P(0, 3, 9, 0), P(3, 4, 8, 2)},
     {UNMAPS(0, P(0, 1, 7, 1)), REMAPS(0, P(2, 4, 8, 1), NONE, P(3, 4, 8, 2)),
      MAPS(P(0, 3, 9, 0))}, 0},
    {"the only one of room for one", DRAWN, MAP(0, 3, 9, 0), GRANTED(2, 1), ROOM(1, 1),
     {P(0, 1, 7, 1)}, {P(0, 3, 9, 0)}, {UNMAPS(0, P(0, 1, 7, 1)), MAPS(P(0, 3, 9, 0))}, 0},

    /* Several hit: the first and the last keep a rest, those between go; others stay. */
    {"map over several", DRAWN, MAP(3, 9, 9, 4), GRANTED(4, 5), ROOM(5, 8),
     {P(0, 1, 5, 0), P(2, 4, 7, 1), P(4, 5, 8, 0), P(8, 10, 7, 6), P(11, 12, 5, 0)},
     {P(0, 1, 5, 0), P(2, 3, 7, 1), P(3, 9, 9, 4), P(9, 10, 7, 7), P(11, 12, 5, 0)},
     {REMAPS(0, P(2, 4, 7, 1), P(2, 3, 7, 1), NONE), UNMAPS(0, P(4, 5, 8, 0)),
      REMAPS(0, P(8, 10, 7, 6), NONE, P(9, 10, 7, 7)), MAPS(P(3, 9, 9, 4))}, 0},
    {"unmap over several", DRAWN, UNMAP(3, 9), GRANTED(3, 4), ROOM(5, 5),
     {P(0, 1, 5, 0), P(2, 4, 7, 1), P(4, 5, 8, 0), P(8, 10, 7, 6), P(11, 12, 5, 0)},
     {P(0, 1, 5, 0), P(2, 3, 7, 1), P(9, 10, 7, 7), P(11, 12, 5, 0)},
     {REMAPS(0, P(2, 4, 7, 1), P(2, 3, 7, 1), NONE), UNMAPS(0, P(4, 5, 8, 0)),
      REMAPS(0, P(8, 10, 7, 6), NONE, P(9, 10, 7, 7))}, 0},
    {"unmap of all", DRAWN, UNMAP(0, 16), GRANTED(2, 0), ROOM(2, 4), {P(0, 1, 7, 1), P(2, 4, 8, 1)},
     {NONE}, {UNMAPS(0, P(0, 1, 7, 1)), UNMAPS(0, P(2, 4, 8, 1))}, 0},
    {"into a gap", DRAWN, MAP(2, 3, 9, 0), GRANTED(1, 3), ROOM(2, 3),
     {P(0, 1, 7, 1), P(4, 5, 8, 1)}, {P(0, 1, 7, 1), P(2, 3, 9, 0), P(4, 5, 8, 1)},
     {MAPS(P(2, 3, 9, 0))}, 0},
    {"in front of all", DRAWN, MAP(0, 1, 9, 0), GRANTED(1, 3), ROOM(2, 3),
     {P(2, 3, 7, 1), P(4, 5, 8, 1)}, {P(0, 1, 9, 0), P(2, 3, 7, 1), P(4, 5, 8, 1)},
     {MAPS(P(0, 1, 9, 0))}, 0},

    /* Keep: the object, and the offset less the address; that is zero, below it and above it. */
    OVER_ONE("keep, a wider map", MAP(1, 4, 7, 1), GRANTED(2, 1), P(1, 3, 7, 1),
             LIST(P(1, 4, 7, 1)), LIST(UNMAPS(1, P(1, 3, 7, 1)), MAPS(P(1, 4, 7, 1)))),
    OVER_ONE("keep, starts below", MAP(2, 4, 7, 2), GRANTED(2, 2), P(1, 3, 7, 1),
             LIST(P(1, 2, 7, 1), P(2, 4, 7, 2)),
             LIST(REMAPS(1, P(1, 3, 7, 1), P(1, 2, 7, 1), NONE), MAPS(P(2, 4, 7, 2)))),
    OVER_ONE("keep, starts below, below zero", MAP(4, 6, 7, 2), GRANTED(2, 2), P(3, 5, 7, 1),
             LIST(P(3, 4, 7, 1), P(4, 6, 7, 2)),
             LIST(REMAPS(1, P(3, 5, 7, 1), P(3, 4, 7, 1), NONE), MAPS(P(4, 6, 7, 2)))),
    OVER_ONE("keep, ends behind, below zero", MAP(2, 4, 7, 0), GRANTED(2, 2), P(3, 5, 7, 1),
             LIST(P(2, 4, 7, 0), P(4, 5, 7, 2)),
             LIST(REMAPS(1, P(3, 5, 7, 1), NONE, P(4, 5, 7, 2)), MAPS(P(2, 4, 7, 0)))),
    OVER_ONE("keep, both, below zero", MAP(4, 5, 7, 2), GRANTED(2, 3), P(3, 6, 7, 1),
             LIST(P(3, 4, 7, 1), P(4, 5, 7, 2), P(5, 6, 7, 3)),
             LIST(REMAPS(1, P(3, 6, 7, 1), P(3, 4, 7, 1), P(5, 6, 7, 3)), MAPS(P(4, 5, 7, 2)))),
    OVER_ONE("keep, ends behind, above zero", MAP(2, 4, 7, 5), GRANTED(2, 2), P(3, 5, 7, 6),
             LIST(P(2, 4, 7, 5), P(4, 5, 7, 7)),
             LIST(REMAPS(1, P(3, 5, 7, 6), NONE, P(4, 5, 7, 7)), MAPS(P(2, 4, 7, 5)))),

    /* No keep: all but one of these agree; never for an unmap. */
    OVER_ONE("no keep, another address", MAP(1, 4, 7, 1), GRANTED(2, 1), P(2, 3, 7, 1),
             LIST(P(1, 4, 7, 1)), LIST(UNMAPS(0, P(2, 3, 7, 1)), MAPS(P(1, 4, 7, 1)))),
    OVER_ONE("no keep, another address, cut", MAP(2, 4, 7, 1), GRANTED(2, 2), P(1, 3, 7, 1),
             LIST(P(1, 2, 7, 1), P(2, 4, 7, 1)),
             LIST(REMAPS(0, P(1, 3, 7, 1), P(1, 2, 7, 1), NONE), MAPS(P(2, 4, 7, 1)))),
    OVER_ONE("no keep, the other sign", MAP(1, 3, 7, 2), GRANTED(2, 1), P(1, 3, 7, 0),
             LIST(P(1, 3, 7, 2)), LIST(UNMAPS(0, P(1, 3, 7, 0)), MAPS(P(1, 3, 7, 2)))),
    OVER_ONE("no keep, the same sum", MAP(2, 3, 7, 1), GRANTED(2, 2), P(1, 3, 7, 2),
             LIST(P(1, 2, 7, 2), P(2, 3, 7, 1)),
             LIST(REMAPS(0, P(1, 3, 7, 2), P(1, 2, 7, 2), NONE), MAPS(P(2, 3, 7, 1)))),
    OVER_ONE("no keep, another object goes on", MAP(2, 3, 8, 2), GRANTED(2, 2), P(1, 3, 7, 1),
             LIST(P(1, 2, 7, 1), P(2, 3, 8, 2)),
             LIST(REMAPS(0, P(1, 3, 7, 1), P(1, 2, 7, 1), NONE), MAPS(P(2, 3, 8, 2)))),
    OVER_ONE("no keep, another object", MAP(1, 3, 8, 1), GRANTED(2, 1), P(1, 3, 7, 1),
             LIST(P(1, 3, 8, 1)), LIST(UNMAPS(0, P(1, 3, 7, 1)), MAPS(P(1, 3, 8, 1)))),
    OVER_ONE("no keep, another offset", MAP(1, 3, 7, 2), GRANTED(2, 1), P(1, 3, 7, 1),
             LIST(P(1, 3, 7, 2)), LIST(UNMAPS(0, P(1, 3, 7, 1)), MAPS(P(1, 3, 7, 2)))),
    OVER_ONE("no keep, objects alike in 16 bits", MAP(1, 3, 0x10007, 1), GRANTED(2, 1),
             P(1, 3, 7, 1), LIST(P(1, 3, 0x10007, 1)),
             LIST(UNMAPS(0, P(1, 3, 7, 1)), MAPS(P(1, 3, 0x10007, 1)))),
    OVER_ONE("no keep, offsets alike in 32 bits", MAP(1, 3, 7, 0x100001), GRANTED(2, 1),
             P(1, 3, 7, 1), LIST(P(1, 3, 7, 0x100001)),
             LIST(UNMAPS(0, P(1, 3, 7, 1)), MAPS(P(1, 3, 7, 0x100001)))),
    OVER_ONE("no keep, unmap", UNMAP(1, 3), GRANTED(1, 0), P(1, 3, 7, 0), {NONE},
             LIST(UNMAPS(0, P(1, 3, 7, 0)))),
    OVER_ONE("no keep, unmap, cut", UNMAP(0, 1), GRANTED(1, 1), P(0, 2, 7, 0), LIST(P(1, 2, 7, 1)),
             LIST(REMAPS(0, P(0, 2, 7, 0), NONE, P(1, 2, 7, 1)))),

    /* Keep, of several: all, and all but two between. */
    {"keep of two", DRAWN, MAP(1, 4, 7, 1), GRANTED(3, 1), ROOM(2, 2),
     {P(1, 2, 7, 1), P(2, 4, 7, 2)}, {P(1, 4, 7, 1)},
     {UNMAPS(1, P(1, 2, 7, 1)), UNMAPS(1, P(2, 4, 7, 2)), MAPS(P(1, 4, 7, 1))}, 0},
    {"keep of three of five", DRAWN, MAP(2, 9, 7, 1), GRANTED(6, 3), ROOM(5, 5),
     {P(1, 3, 7, 0), P(3, 4, 8, 2), P(4, 6, 7, 3), P(7, 8, 7, 8), P(8, 10, 7, 7)},
     {P(1, 2, 7, 0), P(2, 9, 7, 1), P(9, 10, 7, 8)},
     {REMAPS(1, P(1, 3, 7, 0), P(1, 2, 7, 0), NONE), UNMAPS(0, P(3, 4, 8, 2)),
      UNMAPS(1, P(4, 6, 7, 3)), UNMAPS(0, P(7, 8, 7, 8)),
      REMAPS(1, P(8, 10, 7, 7), NONE, P(9, 10, 7, 8)), MAPS(P(2, 9, 7, 1))}, 0},

    /* Keep, of all that there is: displacements near 2^48 and its opposite, and beyond 32 bits. */
    {"keep of all there is", WIDEST, REQUEST(0, 0, LIMIT, 7, 0), GRANTED(2, 1), ROOM(1, 1),
     {{0, LIMIT, 7, 0}}, {{0, LIMIT, 7, 0}},
     {UNMAPS(1, LIST(0, LIMIT, 7, 0)), MAPS(LIST(0, LIMIT, 7, 0))}, 0},
    {"keep, the lowest displacement", WIDEST, REQUEST(0, LIMIT - PAGE, PAGE, 7, 0), GRANTED(2, 1),
     ROOM(1, 1), {{LIMIT - PAGE, PAGE, 7, 0}}, {{LIMIT - PAGE, PAGE, 7, 0}},
     {UNMAPS(1, LIST(LIMIT - PAGE, PAGE, 7, 0)), MAPS(LIST(LIMIT - PAGE, PAGE, 7, 0))}, 0},
    {"keep, the highest displacement", WIDEST, REQUEST(0, 0, PAGE, 7, LIMIT - PAGE), GRANTED(2, 1),
     ROOM(1, 1), {{0, PAGE, 7, LIMIT - PAGE}}, {{0, PAGE, 7, LIMIT - PAGE}},
     {UNMAPS(1, LIST(0, PAGE, 7, LIMIT - PAGE)), MAPS(LIST(0, PAGE, 7, LIMIT - PAGE))}, 0},
    {"keep, starts below, at the top", WIDEST, REQUEST(0, LIMIT - PAGE, PAGE, 7, PAGE),
     GRANTED(2, 2), ROOM(1, 2), {{LIMIT - 2 * PAGE, 2 * PAGE, 7, 0}},
     {{LIMIT - 2 * PAGE, PAGE, 7, 0}, {LIMIT - PAGE, PAGE, 7, PAGE}},
     {REMAPS(1, LIST(LIMIT - 2 * PAGE, 2 * PAGE, 7, 0), LIST(LIMIT - 2 * PAGE, PAGE, 7, 0), NONE),
      MAPS(LIST(LIMIT - PAGE, PAGE, 7, PAGE))}, 0},
    {"no keep, a page beside, at the top", WIDEST, REQUEST(0, LIMIT - PAGE, PAGE, 7, 0),
     GRANTED(2, 2), ROOM(1, 2), {{LIMIT - 2 * PAGE, 2 * PAGE, 7, 0}},
     {{LIMIT - 2 * PAGE, PAGE, 7, 0}, {LIMIT - PAGE, PAGE, 7, 0}},
     {REMAPS(0, LIST(LIMIT - 2 * PAGE, 2 * PAGE, 7, 0), LIST(LIMIT - 2 * PAGE, PAGE, 7, 0), NONE),
      MAPS(LIST(LIMIT - PAGE, PAGE, 7, 0))}, 0},
    {"keep, starts below, of the object's end", WIDEST, REQUEST(0, PAGE, PAGE, 7, LIMIT - PAGE),
     GRANTED(2, 2), ROOM(1, 2), {{0, 2 * PAGE, 7, LIMIT - 2 * PAGE}},
     {{0, PAGE, 7, LIMIT - 2 * PAGE}, {PAGE, PAGE, 7, LIMIT - PAGE}},
     {REMAPS(1, LIST(0, 2 * PAGE, 7, LIMIT - 2 * PAGE), LIST(0, PAGE, 7, LIMIT - 2 * PAGE), NONE),
      MAPS(LIST(PAGE, PAGE, 7, LIMIT - PAGE))}, 0},
    {"keep of the last page of all", WIDEST, REQUEST(0, LIMIT - PAGE, PAGE, 7, LIMIT - PAGE),
     GRANTED(2, 2), ROOM(1, 2), {{0, LIMIT, 7, 0}},
     {{0, LIMIT - PAGE, 7, 0}, {LIMIT - PAGE, PAGE, 7, LIMIT - PAGE}},
     {REMAPS(1, LIST(0, LIMIT, 7, 0), LIST(0, LIMIT - PAGE, 7, 0), NONE),
      MAPS(LIST(LIMIT - PAGE, PAGE, 7, LIMIT - PAGE))}, 0},
    {"no keep, the last page of all", WIDEST, REQUEST(0, LIMIT - PAGE, PAGE, 7, 0), GRANTED(2, 2),
     ROOM(1, 2), {{0, LIMIT, 7, 0}}, {{0, LIMIT - PAGE, 7, 0}, {LIMIT - PAGE, PAGE, 7, 0}},
     {REMAPS(0, LIST(0, LIMIT, 7, 0), LIST(0, LIMIT - PAGE, 7, 0), NONE),
      MAPS(LIST(LIMIT - PAGE, PAGE, 7, 0))}, 0},
    {"keep, at 2^32", WIDEST, REQUEST(0, BIT_32, BIT_32, 7, BIT_32), GRANTED(2, 2), ROOM(1, 2),
     {{0, 2 * BIT_32, 7, 0}}, {{0, BIT_32, 7, 0}, {BIT_32, BIT_32, 7, BIT_32}},
     {REMAPS(1, LIST(0, 2 * BIT_32, 7, 0), LIST(0, BIT_32, 7, 0), NONE),
      MAPS(LIST(BIT_32, BIT_32, 7, BIT_32))}, 0},
    {"no keep, addresses alike in 32 bits", WIDEST, REQUEST(0, BIT_32, BIT_32, 7, 0), GRANTED(2, 2),
     ROOM(1, 2), {{0, 2 * BIT_32, 7, 0}}, {{0, BIT_32, 7, 0}, {BIT_32, BIT_32, 7, 0}},
     {REMAPS(0, LIST(0, 2 * BIT_32, 7, 0), LIST(0, BIT_32, 7, 0), NONE),
      MAPS(LIST(BIT_32, BIT_32, 7, 0))}, 0},

    /* Just not refused: 1 and 7, at both ends of all that there is. */
    {"all there is", WIDEST, REQUEST(0, 0, LIMIT, 7, 0), GRANTED(1, 1), ROOM(0, 1), {NONE},
     {{0, LIMIT, 7, 0}}, {MAPS(LIST(0, LIMIT, 7, 0))}, 0},
    {"the last page of all", WIDEST, REQUEST(0, LIMIT - PAGE, PAGE, HIGHEST_OBJECT, LIMIT - PAGE),
     GRANTED(2, 2), ROOM(1, 2), {{0, LIMIT, 7, 0}},
     {{0, LIMIT - PAGE, 7, 0}, {LIMIT - PAGE, PAGE, HIGHEST_OBJECT, LIMIT - PAGE}},
     {REMAPS(0, LIST(0, LIMIT, 7, 0), LIST(0, LIMIT - PAGE, 7, 0), NONE),
      MAPS(LIST(LIMIT - PAGE, PAGE, HIGHEST_OBJECT, LIMIT - PAGE))}, 0},
    {"all but the first page of all", WIDEST, REQUEST(1, 0, PAGE, 0, 0), GRANTED(1, 1), ROOM(1, 1),
     {{0, LIMIT, 7, 0}}, {{PAGE, LIMIT - PAGE, 7, PAGE}},
     {REMAPS(0, LIST(0, LIMIT, 7, 0), NONE, LIST(PAGE, LIMIT - PAGE, 7, PAGE))}, 0},
    {"first and last page of a space", FREE, REQUEST(1, 0x100000, 0x100000, 0, 0), GRANTED(0, 0),
     ROOM(0, 1), {NONE}, {NONE}, {MAPS(NONE)}, 0},
    /* 2 and 3: up to the longest table, and more operation words than are needed. */
    INTO_EMPTY("room for 512", 512),
    INTO_EMPTY("room for 513", 513),
    INTO_EMPTY("room for 4095", 4095),
    INTO_EMPTY("room for 4096", 4096),
    {"a word more", COMMON, GOOD_MAP, GRANTED(1, 1), ROOM(0, 3), {NONE}, {{0x100000, PAGE, 5, 0}},
     {MAPS(LIST(0x100000, PAGE, 5, 0))}, 1},
    {"an operation more", COMMON, GOOD_UNMAP, GRANTED(0, 0), ROOM(0, 3), {NONE}, {NONE},
     {MAPS(NONE)}, OPERATION_WORDS},
    /* 4, 5 and 17: a full table, which has no words behind the count; and zeros there. */
    {"a full table, nothing hit", COMMON, REQUEST(1, 0x104000, PAGE, 0, 0), GRANTED(0, 5),
     ROOM(5, 5), FIVE, FIVE, {MAPS(NONE)}, 0},
    {"count below the room, nothing hit", COMMON, REQUEST(1, 0x104000, PAGE, 0, 0), GRANTED(0, 5),
     ROOM(5, 7), FIVE, FIVE, {MAPS(NONE)}, 0},
    {"count 1 of two", COMMON, REQUEST(1, 0x104000, PAGE, 0, 0), GRANTED(0, 1), ROOM(1, 2),
     {FIRST}, {FIRST}, {MAPS(NONE)}, 0},
    {"count 0 of two", COMMON, GOOD_MAP, GRANTED(1, 1), ROOM(0, 2), {NONE},
     {{0x100000, PAGE, 5, 0}}, {MAPS(LIST(0x100000, PAGE, 5, 0))}, 0},
    /* 8: up to the reservation and from its end on. */
    {"touches the reservation from below", COMMON, REQUEST(0, 0x13f000, PAGE, 5, 0), GRANTED(1, 1),
     ROOM(0, 1), {NONE}, {{0x13f000, PAGE, 5, 0}}, {MAPS(LIST(0x13f000, PAGE, 5, 0))}, 0},
    {"touches the reservation from above", COMMON, REQUEST(0, 0x180000, PAGE, 5, 0), GRANTED(1, 1),
     ROOM(0, 1), {NONE}, {{0x180000, PAGE, 5, 0}}, {MAPS(LIST(0x180000, PAGE, 5, 0))}, 0},
    {"nothing is reserved", FREE, REQUEST(0, 0x140000, PAGE, 5, 0), GRANTED(1, 1), ROOM(0, 1),
     {NONE}, {{0x140000, PAGE, 5, 0}}, {MAPS(LIST(0x140000, PAGE, 5, 0))}, 0},
    /* 9 and 10: the highest object and offset. */
    {"lowest object", COMMON, REQUEST(0, 0x100000, PAGE, 1, 0), GRANTED(1, 1), ROOM(0, 1), {NONE},
     {{0x100000, PAGE, 1, 0}}, {MAPS(LIST(0x100000, PAGE, 1, 0))}, 0},
    {"highest object", COMMON, REQUEST(0, 0x100000, PAGE, HIGHEST_OBJECT, 0), GRANTED(1, 1),
     ROOM(0, 1), {NONE}, {{0x100000, PAGE, HIGHEST_OBJECT, 0}},
     {MAPS(LIST(0x100000, PAGE, HIGHEST_OBJECT, 0))}, 0},
    {"highest offset", COMMON, REQUEST(0, 0x100000, 2 * PAGE, 5, LIMIT - 2 * PAGE), GRANTED(1, 1),
     ROOM(0, 1), {NONE}, {{0x100000, 2 * PAGE, 5, LIMIT - 2 * PAGE}},
     {MAPS(LIST(0x100000, 2 * PAGE, 5, LIMIT - 2 * PAGE))}, 0},
    {"upper rest at the highest offset", COMMON, REQUEST(1, 0x100000, PAGE, 0, 0), GRANTED(1, 1),
     ROOM(1, 1), {{0x100000, 2 * PAGE, 7, LIMIT - 2 * PAGE}}, {{0x101000, PAGE, 7, LIMIT - PAGE}},
     {REMAPS(0, LIST(0x100000, 2 * PAGE, 7, LIMIT - 2 * PAGE), NONE,
             LIST(0x101000, PAGE, 7, LIMIT - PAGE))}, 0},
    /* 11: the last that there is room for. */
    {"a hole in room for two", DRAWN, UNMAP(1, 2), GRANTED(1, 2), ROOM(1, 2), {P(0, 3, 7, 1)},
     {P(0, 1, 7, 1), P(2, 3, 7, 3)},
     {REMAPS(0, P(0, 3, 7, 1), P(0, 1, 7, 1), P(2, 3, 7, 3))}, 0},
    {"a lower rest in a full table", DRAWN, UNMAP(1, 2), GRANTED(1, 1), ROOM(1, 1), {P(0, 2, 7, 1)},
     {P(0, 1, 7, 1)}, {REMAPS(0, P(0, 2, 7, 1), P(0, 1, 7, 1), NONE)}, 0},
};

/* Refusals leave nothing behind: a request in a space, on written mappings. */
struct refusal_case {
    const char *name;
    waylluqen_answer expected;
    waylluqen_space space;
    waylluqen_request request;
    uint64_t count;
    size_t table_words;
    struct mapping old[MOST_WRITTEN];
    int more_words;
};

/* In the common space with the five mappings: another request, another space. */
#define ASKED(name, number, ...) \
    {name, REFUSED(number, 5), COMMON, REQUEST(__VA_ARGS__), ROOM(5, 6), FIVE, 0}
#define IN_SPACE(name, ...) {name, REFUSED(1, 5), SPACE(__VA_ARGS__), GOOD_MAP, ROOM(5, 6), FIVE, 0}
/* One mapping that is at fault; five of which some are replaced. */
#define ALONE(name, ...) {name, BAD_PLACE(0, 1), COMMON, GOOD_MAP, ROOM(1, 2), {{__VA_ARGS__}}, 0}
#define OF_FIVE(name, place, ...) \
    {name, BAD_PLACE(place, 5), COMMON, GOOD_MAP, ROOM(5, 6), {__VA_ARGS__}, 0}
#define LENGTH(name, count, words) \
    {name, REFUSED(2, count), COMMON, GOOD_MAP, count, words, FIVE, 0}
#define SHORT(name, count, capacity, more) \
    {name, REFUSED(3, count), COMMON, GOOD_MAP, ROOM(count, capacity), FIVE, more}
#define COUNT(name, count) {name, REFUSED(4, count), COMMON, GOOD_MAP, ROOM(count, 5), FIVE, 0}
/* The five, and a stale one behind them. */
#define STALE(name, request, ...) \
    {name, REFUSED(17, 5), COMMON, request, ROOM(5, 6), \
     {FIRST, SECOND, THIRD, FOURTH, LAST, __VA_ARGS__}, 0}
#define FULL_UP(name, request, count, capacity, ...) \
    {name, REFUSED(11, count), DRAWN, request, ROOM(count, capacity), {__VA_ARGS__}, 0}

static const struct refusal_case refusals[] = {
    /* 13: the op, all 64 bits of it. */
    ASKED("op 2", 13, 2, 0x100000, PAGE, 0, 0),
    ASKED("op 3", 13, 3, 0x100000, PAGE, 7, 0),
    ASKED("op 256", 13, 256, 0x100000, PAGE, 7, 0),
    ASKED("op 2^32", 13, UINT64_C(1) << 32, 0x100000, PAGE, 7, 0),
    ASKED("op 2^32 + 1", 13, (UINT64_C(1) << 32) + 1, 0x100000, PAGE, 0, 0),
    ASKED("highest op", 13, UINT64_MAX, 0x100000, PAGE, 0, 0),

    /* 1: the space. */
    IN_SPACE("start one above", 0x100001, 0x100000, 0x140000, 0x40000),
    IN_SPACE("size one above", 0x100000, 0x100001, 0x140000, 0x40000),
    IN_SPACE("reserved start one above", 0x100000, 0x100000, 0x140001, 0x40000),
    IN_SPACE("reserved size one above", 0x100000, 0x100000, 0x140000, 0x40001),
    IN_SPACE("space of size 0", 0x100000, 0, 0, 0),
    IN_SPACE("ends a page above 2^48", 0x100000, LIMIT - 0x100000 + PAGE, 0, 0),
    IN_SPACE("space ends above 2^64", LAST_PAGE, 0x102000, 0, 0),
    IN_SPACE("reserved start alone", 0x100000, 0x100000, 0x140000, 0),
    IN_SPACE("reserved below the space", 0x100000, 0x100000, 0xff000, PAGE),
    IN_SPACE("reserved above the space", 0x100000, 0x100000, 0x200000, PAGE),

    /* 2: the length. */
    LENGTH("length 0", 0, 0),
    LENGTH("length 1", 0, 1),
    LENGTH("length 3", 0, 3),
    LENGTH("length 5", 1, 5),
    LENGTH("length 6", 1, 6),
    LENGTH("length 2047", 5, 2047),
    LENGTH("length 2049", 5, 2049),
    LENGTH("length 16383", 5, 16383),
    LENGTH("length 16385", 5, 16385),
    LENGTH("length 16388", 5, 16388),
    LENGTH("length 20000", 5, LONGEST_TABLE),

    /* 3: the operation words, by what there is room for and not by the count. */
    SHORT("a word less", 5, 6, -1),
    SHORT("a word less, room for one", 1, 1, -1),
    SHORT("a word less, no mapping", 0, 6, -1),
    SHORT("an operation less", 5, 6, -OPERATION_WORDS),
    SHORT("as many as mappings and a map", 5, 12, -6 * OPERATION_WORDS),
    SHORT("a word less, room for 512", 5, 512, -1),
    SHORT("a word less, room for 4096", 5, 4096, -1),
    SHORT("as many as for room for 512", 5, 4096, -(4096 - 512) * OPERATION_WORDS),
    SHORT("none", 0, 1, -2 * OPERATION_WORDS),

    /* 4: the count. */
    COUNT("count a mapping above", 6),
    COUNT("count of the words", 20),
    COUNT("count 2^62 above", (UINT64_C(1) << 62) + 5),
    COUNT("highest count", UINT64_MAX),
    {"count above the most", REFUSED(4, 4097), COMMON, GOOD_MAP, ROOM(4097, 4096), FIVE, 0},

    /* 5: the mappings. */
    ALONE("mapping's address one above", 0x100001, PAGE, 7, 0),
    ALONE("mapping's size 0", 0x100000, 0, 7, 0),
    ALONE("mapping's size one above", 0x100000, PAGE + 1, 7, 0),
    ALONE("mapping's offset one above", 0x100000, PAGE, 7, 1),
    ALONE("mapping's object 0", 0x100000, PAGE, 0, 0),
    ALONE("mapping's object 2^32", 0x100000, PAGE, HIGHEST_OBJECT + 1, 0),
    ALONE("mapping's offset too high", 0x100000, 2 * PAGE, 7, LIMIT - PAGE),
    ALONE("mapping's offset and size above 2^64", 0x100000, 2 * PAGE, 7, LAST_PAGE),
    ALONE("mapping below the space", 0xff000, 2 * PAGE, 7, 0),
    ALONE("mapping above the space", 0x1ff000, 2 * PAGE, 7, 0),
    ALONE("mapping ends above 2^64", LAST_PAGE, 0x102000, 7, 0),
    ALONE("mapping shares the first reserved page", 0x13f000, 2 * PAGE, 7, 0),
    ALONE("mapping shares the last reserved page", 0x17f000, 2 * PAGE, 7, 0),
    OF_FIVE("bad at 0", 0, ONES, SECOND, THIRD, FOURTH, LAST),
    OF_FIVE("bad at 1", 1, FIRST, ONES, THIRD, FOURTH, LAST),
    OF_FIVE("bad at 4", 4, FIRST, SECOND, THIRD, FOURTH, ONES),
    OF_FIVE("bad at 1 and 3", 1, FIRST, ONES, THIRD, ONES, LAST),
    OF_FIVE("two turned", 2, FIRST, THIRD, SECOND, FOURTH, LAST),
    OF_FIVE("one twice", 4, FIRST, SECOND, THIRD, FOURTH, FOURTH),
    {"sharing a page", BAD_PLACE(1, 2), COMMON, GOOD_MAP, ROOM(2, 4),
     {{0x100000, 0x2000, 7, 0}, {0x101000, 0x2000, 7, 0}}, 0},

    /* 17: mappings behind the count, bad ones, and a single word of one. */
    {"count one too low", REFUSED(17, 4), COMMON, GOOD_MAP, ROOM(4, 5), FIVE, 0},
    {"count 1 of five", REFUSED(17, 1), COMMON, GOOD_MAP, ROOM(1, 6), FIVE, 0},
    {"count 0 of five", REFUSED(17, 0), COMMON, GOOD_MAP, ROOM(0, 6), FIVE, 0},
    {"bad words behind the count", REFUSED(17, 1), COMMON, REQUEST(1, 0x104000, PAGE, 0, 0),
     ROOM(1, 2), {FIRST, ONES}, 0},
    {"only bad words behind the count", REFUSED(17, 0), COMMON, GOOD_MAP, ROOM(0, 2), {ONES, ONES},
     0},
    STALE("a stale address", GOOD_MAP, {PAGE, 0, 0, 0}),
    STALE("a stale size", GOOD_UNMAP, {0, 1, 0, 0}),
    STALE("a stale object", GOOD_MAP, {0, 0, BIT_32, 0}),
    STALE("a stale offset", GOOD_UNMAP, {0, 0, 0, HALF}),
    STALE("two that add up to 0", GOOD_MAP, {1, UINT64_MAX, 0, 0}),
    STALE("two alike", GOOD_UNMAP, {0, 0, HALF, HALF}),
    STALE("stale, nothing hit", REQUEST(1, 0x104000, PAGE, 0, 0), {0, 0, 0, 1}),
    STALE("stale, two would go", REQUEST(1, 0x180000, 0x80000, 0, 0), ONES),

    /* 6: multiples of a page, and size 0. */
    ASKED("address one above", 6, 0, 0x100001, PAGE, 5, 0),
    ASKED("size one above", 6, 0, 0x100000, PAGE + 1, 5, 0),
    ASKED("size one below", 6, 0, 0x100000, PAGE - 1, 5, 0),
    ASKED("offset one above", 6, 0, 0x100000, PAGE, 5, 1),
    ASKED("size 0", 6, 0, 0x100000, 0, 5, 0),
    ASKED("size 0 and outside", 6, 0, 0x200000, 0, 5, 0),
    ASKED("size 0 far outside", 6, 1, LAST_PAGE, 0, 0, 0),
    ASKED("unmap with offset 1", 6, 1, 0x100000, PAGE, 0, 1),

    /* 7: the range. */
    {"P11", REFUSED(7, 0), DRAWN, MAP(15, 17, 9, 0), ROOM(0, 8), {NONE}, 0},
    ASKED("a page below the start", 7, 0, 0xff000, PAGE, 5, 0),
    ASKED("from a page below the start", 7, 0, 0xff000, 2 * PAGE, 5, 0),
    ASKED("to a page above the end", 7, 0, 0x1ff000, 2 * PAGE, 5, 0),
    ASKED("a page above the last", 7, 1, 0x200000, PAGE, 0, 0),
    ASKED("ends at 2^64", 7, 0, LAST_PAGE, PAGE, 5, 0),
    ASKED("ends above 2^64, in the space", 7, 0, LAST_PAGE, 0x102000, 5, 0),
    ASKED("ends above 2^64, at the start", 7, 1, 0x100000, LAST_PAGE, 0, 0),
    ASKED("first page and 2^48", 7, 0, LIMIT + 0x100000, PAGE, 5, 0),
    ASKED("first page and 2^63", 7, 0, HALF + 0x100000, PAGE, 5, 0),

    /* 8: the reservation. */
    ASKED("shares the first reserved page", 8, 0, 0x13f000, 2 * PAGE, 5, 0),
    ASKED("is the first reserved page", 8, 0, 0x140000, PAGE, 5, 0),
    ASKED("inside the reservation", 8, 1, 0x150000, PAGE, 0, 0),
    ASKED("shares the last reserved page", 8, 0, 0x17f000, 2 * PAGE, 5, 0),
    ASKED("around the reservation", 8, 1, 0x100000, 0x100000, 0, 0),
    {"all is reserved", REFUSED(8, 0), ALL_RESERVED, GOOD_MAP, ROOM(0, 2), {NONE}, 0},

    /* 9: the object, all 64 bits of it. */
    ASKED("map of object 0", 9, 0, 0x100000, PAGE, 0, 0),
    ASKED("map of object 2^32", 9, 0, 0x100000, PAGE, HIGHEST_OBJECT + 1, 0),
    ASKED("map of object 2^32 + 7", 9, 0, 0x100000, PAGE, HIGHEST_OBJECT + 8, 0),
    ASKED("map of the highest number", 9, 0, 0x100000, PAGE, UINT64_MAX, 0),
    ASKED("unmap with object 1", 9, 1, 0x100000, PAGE, 1, 0),
    ASKED("unmap with object 2^32", 9, 1, 0x100000, PAGE, HIGHEST_OBJECT + 1, 0),
    ASKED("unmap with a page's offset", 9, 1, 0x100000, PAGE, 0, PAGE),

    /* 10: the offset. */
    ASKED("offset and size a page above", 10, 0, 0x100000, 2 * PAGE, 5, LIMIT - PAGE),
    ASKED("offset 2^48", 10, 0, 0x100000, PAGE, 5, LIMIT),
    ASKED("offset and size are 2^64", 10, 0, 0x100000, PAGE, 5, LAST_PAGE),
    ASKED("offset and size above 2^64", 10, 0, 0x100000, 2 * PAGE, 5, LAST_PAGE),

    /* 11: the room. */
    FULL_UP("P12", MAP(1, 2, 9, 4), 1, 2, P(0, 3, 7, 1)),
    FULL_UP("a hole in room for one", UNMAP(1, 2), 1, 1, P(0, 3, 7, 1)),
    FULL_UP("into the gap of a full table", MAP(2, 3, 9, 4), 2, 2, P(0, 1, 7, 1), P(4, 5, 7, 1)),
    FULL_UP("behind a full table", MAP(5, 6, 9, 4), 2, 2, P(0, 1, 7, 1), P(4, 5, 7, 1)),
    FULL_UP("two cut in a full table", MAP(1, 4, 9, 4), 2, 2, P(0, 2, 7, 1), P(3, 5, 7, 1)),
    FULL_UP("one cut in a full table", MAP(1, 2, 9, 4), 2, 2, P(0, 2, 7, 1), P(3, 5, 7, 1)),

    /* The order: each comes before the next, whatever else is wrong. */
    {"13 before 1", REFUSED(13, 5), SPACE(1, 0, 0, 0), REQUEST(2, 1, 0, 0, 1), 5, 7, FIVE, 0},
    {"1 before 2", REFUSED(1, 9), SPACE(1, PAGE, 0, 0), GOOD_MAP, 9, 7, {ONES}, 0},
    {"2 before 3", REFUSED(2, 9), COMMON, GOOD_MAP, 9, 7, {ONES}, -OPERATION_WORDS},
    {"3 before 4", REFUSED(3, 9), COMMON, GOOD_MAP, ROOM(9, 1), {ONES}, -1},
    {"4 before 5", REFUSED(4, 3), COMMON, GOOD_MAP, ROOM(3, 2), {ONES, ONES}, 0},
    {"5 before 6", BAD_PLACE(1, 2), COMMON, REQUEST(0, 1, 0, 0, 1), ROOM(2, 2), {FIRST, ONES}, 0},
    {"5 before 11", BAD_PLACE(1, 2), COMMON, REQUEST(0, 0x104000, PAGE, 5, 0), ROOM(2, 2),
     {FIRST, ONES}, 0},
    {"13 before 17", REFUSED(13, 1), COMMON, REQUEST(2, 0x100000, PAGE, 0, 0), ROOM(1, 2),
     {FIRST, ONES}, 0},
    {"1 before 17", REFUSED(1, 1), SPACE(1, PAGE, 0, 0), GOOD_MAP, ROOM(1, 2), {FIRST, ONES}, 0},
    {"2 before 17", REFUSED(2, 1), COMMON, GOOD_MAP, 1, 7, {FIRST, ONES}, 0},
    {"3 before 17", REFUSED(3, 1), COMMON, GOOD_MAP, ROOM(1, 2), {FIRST, ONES}, -1},
    {"4 before 17", REFUSED(4, 3), COMMON, GOOD_MAP, ROOM(3, 2), {FIRST, SECOND, THIRD, ONES}, 0},
    {"5 before 17", BAD_PLACE(0, 1), COMMON, GOOD_MAP, ROOM(1, 2), {ONES, ONES}, 0},
    {"5 before 17, at the count", BAD_PLACE(2, 3), COMMON, GOOD_MAP, ROOM(3, 4),
     {FIRST, SECOND, ONES, ONES}, 0},
    STALE("17 before 6", REQUEST(0, 0x100001, PAGE, 5, 0), ONES),
    STALE("17 before 7", REQUEST(0, 0x200000, PAGE, 5, 0), ONES),
    STALE("17 before 8", REQUEST(0, 0x140000, PAGE, 5, 0), ONES),
    STALE("17 before 9", REQUEST(0, 0x100000, PAGE, 0, 0), ONES),
    STALE("17 before 10", REQUEST(0, 0x100000, PAGE, 5, LIMIT), ONES),
    {"17 before 11", REFUSED(17, 1), DRAWN, MAP(1, 2, 9, 4), ROOM(1, 2), {P(0, 3, 7, 1), ONES}, 0},
    ASKED("6 before 7", 6, 0, 0xff001, PAGE, 5, 0),
    ASKED("6 before 9", 6, 0, 0x100000, PAGE, 0, 1),
    ASKED("7 before 8", 7, 0, 0x17f000, 0x100000, 5, 0),
    ASKED("7 before 9", 7, 0, 0x200000, PAGE, 0, 0),
    ASKED("8 before 9", 8, 0, 0x140000, PAGE, 0, 0),
    ASKED("8 before 10", 8, 0, 0x140000, PAGE, 5, LIMIT),
    ASKED("9 before 10", 9, 0, 0x100000, PAGE, 0, LIMIT),
    {"9 before 11", REFUSED(9, 5), COMMON, REQUEST(0, 0x104000, PAGE, 0, 0), ROOM(5, 5), FIVE, 0},
    {"10 before 11", REFUSED(10, 5), COMMON, REQUEST(0, 0x104000, PAGE, 5, LIMIT), ROOM(5, 5), FIVE,
     0},
};

/* Records that are refused themselves, or whose fields are told apart: in the common space. */
struct record_case {
    const char *name;
    uint64_t refusal;
    struct record record;
    size_t record_bytes;
    int bad_space;
};

#define RECORD(...) {__VA_ARGS__}, RECORD_BYTES, 0
#define GOOD_RECORD {0, 0, 5, 0, 0x100000, 0, PAGE}

static const struct record_case records[] = {
    {"length 0", 12, GOOD_RECORD, 0, 0},
    {"length 39", 12, GOOD_RECORD, 39, 0},
    {"length 41", 12, GOOD_RECORD, 41, 0},
    {"length 80", 12, GOOD_RECORD, LONGEST_RECORD, 0},
    {"12 before 13", 12, {2, 1, 0, 1, 1, 1, 0}, 39, 1},
    {"record's op 2", 13, RECORD(2, 0, 5, 0, 0x100000, 0, PAGE)},
    {"record's op 256", 13, RECORD(256, 0, 5, 0, 0x100000, 0, PAGE)},
    {"record's highest op", 13, RECORD(UINT32_MAX, 0, 0, 0, 0x100000, 0, PAGE)},
    {"13 before 14", 13, RECORD(2, 1, 5, 1, 0x100000, 0, PAGE)},
    {"13 before 1, record", 13, {2, 0, 5, 0, 1, 1, 0}, RECORD_BYTES, 1},
    {"flags 1", 14, RECORD(0, 1, 5, 0, 0x100000, 0, PAGE)},
    {"highest flag", 14, RECORD(0, 0x80000000, 5, 0, 0x100000, 0, PAGE)},
    {"pad 1", 14, RECORD(0, 0, 5, 1, 0x100000, 0, PAGE)},
    {"highest bit of pad", 14, RECORD(1, 0, 0, 0x80000000, 0x100000, 0, PAGE)},
    {"14 before 1", 14, {0, 1, 5, 0, 0x100000, 0, PAGE}, RECORD_BYTES, 1},
    {"14 before 6", 14, RECORD(0, 0, 5, 1, 1, 1, 0)},
    {"1 after the record", 1, {0, 0, 0, 0, 1, 1, 0}, RECORD_BYTES, 1},
};

/* A full table of 4,096, as fill_places() has it; a bad place has object 0. */
struct full_case {
    const char *name;
    waylluqen_request request;
    waylluqen_answer expected;
    size_t first_hit; /* all that are hit go: places [first_hit, hit_end) */
    size_t hit_end;
};

static const struct full_case full_cases[] = {
    {"the first of 4096 replaced", MAP(0, 3, 5000, 0), GRANTED(2, 4096), 0, 1},
    {"one of 4096 replaced", MAP(8192, 8195, 5000, 0), GRANTED(2, 4096), 2048, 2049},
    {"the last of 4096 replaced", MAP(16380, 16383, 5000, 0), GRANTED(2, 4096), 4095, 4096},
    {"two of 4096 replaced", MAP(8191, 8200, 5000, 0), GRANTED(3, 4095), 2048, 2050},
    {"all of 4096 replaced", MAP(0, 16384, 5000, 0), GRANTED(4097, 1), 0, 4096},
    {"the first of 4096 unmapped", UNMAP(0, 4), GRANTED(1, 4095), 0, 1},
    {"from 512 of 4096 on unmapped", UNMAP(2047, 16384), GRANTED(3584, 512), 512, 4096},
    {"the last of 4096 unmapped", UNMAP(16379, 16384), GRANTED(1, 4095), 4095, 4096},
    {"all of 4096 unmapped", UNMAP(0, 16384), GRANTED(4096, 0), 0, 4096},
    {"nothing of 4096 unmapped", UNMAP(8191, 8192), GRANTED(0, 4096), 2048, 2048},
    {"into a gap of 4096", MAP(8191, 8192, 5000, 0), REFUSED(11, 4096), 0, 0},
    {"a hole in one of 4096", UNMAP(8193, 8194), REFUSED(11, 4096), 0, 0},
    {"half of one of 4096 replaced", MAP(8192, 8194, 5000, 0), REFUSED(11, 4096), 0, 0},
    {"bad at 0 of 4096", MAP(0, 3, 5000, 0), BAD_PLACE(0, 4096), 0, 0},
    {"bad at 2048 of 4096", MAP(0, 3, 5000, 0), BAD_PLACE(2048, 4096), 0, 0},
    {"bad at 4095 of 4096", UNMAP(0, 16384), BAD_PLACE(4095, 4096), 0, 0},
};

/* Whether a record has room for the numbers of a request. */
static int fits_record(const waylluqen_request *request)
{
    return request->op <= UINT32_MAX && request->object <= UINT32_MAX;
}

/* Some ways to lend, and every way to ask, with a list; answers 1 where one is not as expected. */
static int run_with(struct call *call, const waylluqen_request *request, const uint64_t *ranges,
                    const uint64_t *old)
{
    static const int ways[] = {0, TABLE_AT_BACK | RANGES_AT_BACK, LIST_AT_BACK | RANGES_AT_BACK,
                               TABLE_AT_BACK | LIST_AT_BACK};
    struct record fields = {(uint32_t)request->op, 0, (uint32_t)request->object, 0,
                            request->address, request->offset, request->size};
    /* One byte in front, so that the record is at an odd address. */
    _Alignas(8) uint8_t bytes[1 + RECORD_BYTES];
    encode(bytes + 1, &fields);
    for (size_t i = 0; i < NUMBER(ways); i++) {
        lend_all(call, ranges, old, ways[i]);
        if (differs(call, request, NULL, 0)) {
            return 1;
        }
        lend_all(call, ranges, old, ways[i]);
        if (fits_record(request) && differs(call, NULL, bytes + 1, RECORD_BYTES)) {
            return 1;
        }
    }
    return 0;
}

/* Whether it is refused before the list is looked at. */
static int comes_before_18(uint64_t refusal)
{
    return (refusal >= 1 && refusal <= 5) || (refusal >= 12 && refusal <= 14) || refusal == 17;
}

/* With no list; with one that has all of the space, which has no say and does not change; and with
 * a word behind that one's last range that is not 0. */
static int run(const struct call *test, const waylluqen_request *request, const uint64_t *old)
{
    struct range whole[WHOLE_RANGES];
    uint64_t words[WHOLE_RANGES * RANGE_WORDS];
    struct call call = *test;
    size_t count = put_whole(whole, &call.space);
    memcpy(words, whole, sizeof words);
    if (run_with(&call, request, words, old)) {
        return 1;
    }
    call.range_words = NUMBER(words);
    call.range_count = call.expected.ranges = count;
    if (run_with(&call, request, words, old)) {
        return 1;
    }
    words[NUMBER(words) - 1] = 1;
    if (!comes_before_18(call.expected.refusal)) {
        call.expected = (waylluqen_answer){18, 0, 0, call.count, count};
    }
    return run_with(&call, request, words, old);
}

/* The written mappings, and zeros behind them. */
static uint64_t *old_words(const struct mapping *old)
{
    static const struct mapping none = NONE;
    static uint64_t words[LONGEST_TABLE];
    memset(words, 0, sizeof words);
    for (size_t i = 0; i < MOST_WRITTEN && memcmp(&old[i], &none, sizeof none) != 0; i++) {
        memcpy(words + i * MAPPING_WORDS, &old[i], sizeof old[i]);
    }
    return words;
}

/* Whether it is refused before the words behind the count are looked at. */
static int comes_before_17(uint64_t refusal)
{
    return (refusal >= 1 && refusal <= 5) || (refusal >= 12 && refusal <= 14);
}

/* As it is; and with stale words behind the count: everywhere, the first alone, the last alone. */
static int run_stale_too(struct call *call, const waylluqen_request *request, uint64_t *old)
{
    size_t end = call->table_words;
    if (run(call, request, old)) {
        return 1;
    }
    if (call->count >= end / MAPPING_WORDS) {
        return 0;
    }
    size_t first = call->count * MAPPING_WORDS;
    const size_t stale[][2] = {{first, end}, {first, first + 1}, {end - 1, end}};
    if (!comes_before_17(call->expected.refusal)) {
        call->expected = (waylluqen_answer)REFUSED(17, call->count);
    }
    for (size_t i = 0; i < NUMBER(stale); i++) {
        memset(old + first, 0, (end - first) * sizeof *old);
        memset(old + stale[i][0], UNWRITTEN_BYTE, (stale[i][1] - stale[i][0]) * sizeof *old);
        if (run(call, request, old)) {
            return 1;
        }
    }
    return 0;
}

static int run_case(const struct test_case *test)
{
    uint64_t new_words[MOST_WRITTEN * MAPPING_WORDS];
    uint64_t new_list[MOST_WRITTEN * OPERATION_WORDS];
    memcpy(new_words, test->new, sizeof new_words);
    memcpy(new_list, test->list, sizeof new_list);
    struct call call = {.name = test->name,
                        .space = test->space,
                        .expected = test->expected,
                        .count = test->count,
                        .table_words = test->table_words,
                        .list_words = list_words(test->table_words, test->more_words),
                        .new_words = new_words,
                        .new_list = new_list};
    return run_stale_too(&call, &test->request, old_words(test->old));
}

static int run_refusal(const struct refusal_case *test)
{
    struct call call = {.name = test->name,
                        .space = test->space,
                        .expected = test->expected,
                        .count = test->count,
                        .table_words = test->table_words,
                        .list_words = list_words(test->table_words, test->more_words)};
    return run_stale_too(&call, &test->request, old_words(test->old));
}

static int run_record(const struct record_case *test)
{
    static const struct mapping five[MOST_WRITTEN] = FIVE;
    const waylluqen_space common = COMMON, bad = {1, 0, 0, 0};
    struct call call = {.name = test->name,
                        .space = test->bad_space ? bad : common,
                        .expected = REFUSED(test->refusal, 5),
                        .count = 5,
                        .table_words = 6 * MAPPING_WORDS,
                        .list_words = list_words(6 * MAPPING_WORDS, 0)};
    uint8_t bytes[LONGEST_RECORD];
    memset(bytes, UNWRITTEN_BYTE, sizeof bytes);
    encode(bytes, &test->record);
    uint64_t *words = old_words(five);
    const uint64_t no_range[RANGE_WORDS] = {0}, bad_range[RANGE_WORDS] = {1};
    call.range_words = RANGE_WORDS;
    lend_all(&call, no_range, words, 0);
    if (differs(&call, NULL, bytes, test->record_bytes)) {
        return 1;
    }
    /* A stale word comes behind all these, and so does a bad list. */
    words[6 * MAPPING_WORDS - 1] = 1;
    lend_all(&call, bad_range, words, 0);
    return differs(&call, NULL, bytes, test->record_bytes);
}

/* Writes the old mappings, with what is at places [from, to) replaced by a new one or by none. */
static void replace(struct mapping *to_all, const struct mapping *old, size_t from, size_t to,
                    const struct mapping *new)
{
    memcpy(to_all, old, from * sizeof *old);
    to_all += from;
    if (new != NULL) {
        *to_all++ = *new;
    }
    memcpy(to_all, old + to, (MOST_MAPPINGS - to) * sizeof *old);
}

static int run_full(const struct full_case *test)
{
    static struct mapping old[MOST_MAPPINGS], new[MOST_MAPPINGS + 1];
    static struct operation list[MOST_MAPPINGS + 1];
    const waylluqen_request *request = &test->request;
    const struct mapping mapped = {request->address, request->size, request->object,
                                   request->offset};
    size_t operations = 0;
    fill_places(old, MOST_MAPPINGS);
    if (test->expected.refusal == WAYLLUQEN_REFUSED_BAD_MAPPING) {
        old[test->expected.place].object = 0;
    }
    for (size_t place = test->first_hit; place < test->hit_end; place++) {
        list[operations++] = (struct operation){WAYLLUQEN_KIND_UNMAP, 0, old[place], NONE, NONE};
    }
    int maps = request->op == WAYLLUQEN_OP_MAP;
    list[operations] = (struct operation){WAYLLUQEN_KIND_MAP, 0, mapped, NONE, NONE};
    replace(new, old, test->first_hit, test->hit_end, maps ? &mapped : NULL);
    struct call call = {.name = test->name,
                        .space = PLACES_SPACE,
                        .expected = test->expected,
                        .count = MOST_MAPPINGS,
                        .table_words = MOST_MAPPINGS * MAPPING_WORDS,
                        .list_words = list_words(MOST_MAPPINGS * MAPPING_WORDS, 0),
                        .new_words = (const uint64_t *)(const void *)new,
                        .new_list = (const uint64_t *)(const void *)list};
    return run(&call, request, (const uint64_t *)(const void *)old);
}

/* Asks by numbers and by record, with each word behind the count stale in its turn. No lent word
 * may change: each of these is looked at in its turn, and all when all is asked. */
static int stale_differs(const struct call *call, const waylluqen_request *request,
                         const uint8_t *record)
{
    foresee(call);
    for (size_t at = call->count * MAPPING_WORDS; at < call->table_words; at++) {
        int changed = call->table[at] != 0;
        call->table[at] = stale_word(at);
        int wrong = is_wrong(call, request, NULL, 0) || is_wrong(call, NULL, record, RECORD_BYTES);
        if (wrong || changed || call->table[at] != stale_word(at)) {
            printf("host/c: stale word %zu, %" PRIu64 " mappings in %zu words: %s\n", at,
                   call->count, call->table_words, wrong ? "taken" : "changed");
            return 1;
        }
        call->table[at] = 0;
    }
    return is_left_otherwise(call);
}

/* Each stale word at the front and at the back of the memory. */
static int run_stale(const struct stale_table *test)
{
    static struct mapping old[MOST_MAPPINGS];
    const uint64_t no_ranges[1] = {0};
    const waylluqen_request request = {WAYLLUQEN_OP_MAP, 0, PAGE, 5, 0};
    const struct record fields = {.object = 5, .size = PAGE};
    struct call call = {.name = "a stale word",
                        .space = PLACES_SPACE,
                        .expected = REFUSED(17, test->count),
                        .count = test->count,
                        .table_words = test->capacity * MAPPING_WORDS,
                        .list_words = list_words(test->capacity * MAPPING_WORDS, 0)};
    uint8_t record[RECORD_BYTES];
    encode(record, &fields);
    memset(old, 0, sizeof old);
    fill_places(old, test->count);
    for (int at_back = 0; at_back <= 1; at_back++) {
        lend_all(&call, no_ranges, (const uint64_t *)(const void *)old, at_back ? WAYS - 1 : 0);
        if (stale_differs(&call, &request, record)) {
            return 1;
        }
    }
    return 0;
}

int main(void)
{
    const size_t all = NUMBER(grants) + NUMBER(refusals) + NUMBER(records) + NUMBER(full_cases);
    size_t failed = 0, stale = 0;

    if (!prepare_all(LONGEST_TABLE, LONGEST_LIST)) {
        printf("host/c: mmap failed\n");
        return 1;
    }
    for (size_t i = 0; i < NUMBER(grants); i++) {
        failed += (size_t)run_case(&grants[i]);
    }
    for (size_t i = 0; i < NUMBER(refusals); i++) {
        failed += (size_t)run_refusal(&refusals[i]);
    }
    for (size_t i = 0; i < NUMBER(records); i++) {
        failed += (size_t)run_record(&records[i]);
    }
    for (size_t i = 0; i < NUMBER(full_cases); i++) {
        failed += (size_t)run_full(&full_cases[i]);
    }
    failed += run_stale_tables(run_stale, &stale);
    if (failed != 0) {
        printf("host/c: %zu of %zu requests and stale tables failed\n", failed, all + stale);
        return 1;
    }
    printf("host/c: %zu requests, and each stale word of %zu tables, passed\n", all, stale);
    return 0;
}
