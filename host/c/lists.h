/* Lists of sparse ranges that are taken, and lists that are refused, by every call that has one. */
#ifndef LISTS_H
#define LISTS_H

#include "support.h"

/* The most ranges that a list writes out. */
#define MOST_LISTED 5

/* A list in a space, and whether it is refused. */
struct list_case {
    const char *name;
    int bad;
    waylluqen_space space;
    uint64_t count;
    size_t words;
    struct range list[MOST_LISTED];
};

enum { GOOD, BAD };
#define NO_RANGE {0, 0}
/* Two that touch each other, and the last page. */
#define THREE {{0x100000, 0x1000}, {0x101000, 0x2000}, {0x1ff000, 0x1000}}
#define IN_ROOM(n) (n) * RANGE_WORDS
/* In the common space: a list without a range; one that is full of one range, or of two. */
#define NO_RANGES(name, bad, words) {name, bad, COMMON, 0, words, {NO_RANGE}}
#define ONE_RANGE(name, bad, ...) {name, bad, COMMON, 1, IN_ROOM(1), {{__VA_ARGS__}}}
#define TWO_RANGES(name, bad, start, size, start2, size2) \
    {name, bad, COMMON, 2, IN_ROOM(2), {{start, size}, {start2, size2}}}
/* Three ranges, one of which is at fault; one range, and words behind it. */
#define OF_RANGES(name, ...) {name, BAD, COMMON, 3, IN_ROOM(3), {__VA_ARGS__}}
#define STALE_RANGE(name, ...) \
    {name, BAD, COMMON, 1, IN_ROOM(2), {{0x100000, 0x1000}, {__VA_ARGS__}}}

static const struct list_case lists[] = {
    /* The length: even, and no more than 128 words. */
    NO_RANGES("length 0", GOOD, 0),
    NO_RANGES("length 1", BAD, 1),
    NO_RANGES("length 2", GOOD, 2),
    NO_RANGES("length 3", BAD, 3),
    NO_RANGES("length 126", GOOD, 126),
    NO_RANGES("length 127", BAD, 127),
    NO_RANGES("length 128", GOOD, 128),
    NO_RANGES("length 129", BAD, 129),
    NO_RANGES("length 130", BAD, 130),
    NO_RANGES("length 256", BAD, 256),
    NO_RANGES("length 512", BAD, LONGEST_RANGES),
    {"three in length 6", GOOD, COMMON, 3, 6, THREE},
    {"three in length 7", BAD, COMMON, 3, 7, THREE},
    {"three in length 8", GOOD, COMMON, 3, 8, THREE},
    {"three in length 127", BAD, COMMON, 3, 127, THREE},
    {"three in length 128", GOOD, COMMON, 3, 128, THREE},
    {"three in length 129", BAD, COMMON, 3, 129, THREE},
    {"three in length 130", BAD, COMMON, 3, 130, THREE},

    /* The count: no more than there is room for, all 64 bits of it; and no fewer than there are. */
    {"count 1 of none", BAD, COMMON, 1, 0, {NO_RANGE}},
    {"count 2^63 of none", BAD, COMMON, HALF, 0, {NO_RANGE}},
    {"highest count of none", BAD, COMMON, UINT64_MAX, 0, {NO_RANGE}},
    {"count 2^32 of zeros", BAD, COMMON, BIT_32, 6, {NO_RANGE}},
    {"count 2^63 of zeros", BAD, COMMON, HALF, 6, {NO_RANGE}},
    {"count a range above", BAD, COMMON, 4, 6, THREE},
    {"count of the words", BAD, COMMON, 6, 6, THREE},
    {"count 2^32 above", BAD, COMMON, BIT_32 + 3, 6, THREE},
    {"count 2^63 above", BAD, COMMON, HALF + 3, 6, THREE},
    {"highest count", BAD, COMMON, UINT64_MAX, 6, THREE},
    {"count 65 of 64", BAD, COMMON, 65, 128, THREE},
    {"count one too high", BAD, COMMON, 4, 8, THREE},
    {"count one too low", BAD, COMMON, 2, 6, THREE},
    {"count 0 of three", BAD, COMMON, 0, 6, THREE},

    /* Multiples of a page, and size 0. */
    ONE_RANGE("one page", GOOD, 0x101000, PAGE),
    ONE_RANGE("start one above", BAD, 0x101001, PAGE),
    ONE_RANGE("start one below", BAD, 0x101fff, PAGE),
    ONE_RANGE("start half a page above", BAD, 0x100800, PAGE),
    ONE_RANGE("size 1", BAD, 0x101000, 1),
    ONE_RANGE("size one below a page", BAD, 0x101000, PAGE - 1),
    ONE_RANGE("size one above a page", BAD, 0x101000, PAGE + 1),
    ONE_RANGE("size half a page more", BAD, 0x101000, PAGE + 0x800),
    ONE_RANGE("size 0", BAD, 0x101000, 0),
    ONE_RANGE("zeros", BAD, 0, 0),
    TWO_RANGES("the second's start one above", BAD, 0x100000, PAGE, 0x102001, PAGE),
    TWO_RANGES("the second's size one above", BAD, 0x100000, PAGE, 0x102000, PAGE + 1),
    TWO_RANGES("the second's size 0", BAD, 0x100000, PAGE, 0x102000, 0),
    TWO_RANGES("the second's size 0, touching", BAD, 0x100000, PAGE, 0x101000, 0),
    TWO_RANGES("the first's size 0", BAD, 0x100000, 0, 0x101000, PAGE),

    /* The order, and no byte twice. Touching ones are two. */
    TWO_RANGES("apart", GOOD, 0x100000, 0x2000, 0x103000, 0x1000),
    TWO_RANGES("touching", GOOD, 0x100000, 0x2000, 0x102000, 0x1000),
    TWO_RANGES("sharing a page", BAD, 0x100000, 0x2000, 0x101000, 0x2000),
    TWO_RANGES("equal", BAD, 0x100000, 0x2000, 0x100000, 0x2000),
    TWO_RANGES("the same start, longer", BAD, 0x100000, 0x1000, 0x100000, 0x2000),
    TWO_RANGES("the second inside the first", BAD, 0x100000, 0x3000, 0x101000, 0x1000),
    TWO_RANGES("the first inside the second", BAD, 0x101000, 0x1000, 0x100000, 0x3000),
    TWO_RANGES("turned, touching", BAD, 0x101000, 0x1000, 0x100000, 0x1000),
    TWO_RANGES("turned, apart", BAD, 0x102000, 0x1000, 0x100000, 0x1000),
    TWO_RANGES("the second at 0", BAD, 0x100000, 0x1000, 0, 0x1000),
    OF_RANGES("the last two turned", {0x100000, 0x1000}, {0x103000, 0x1000}, {0x101000, 0x1000}),
    OF_RANGES("the last shares a page", {0x100000, 0x1000}, {0x101000, 0x2000}, {0x102000, 0x1000}),
    OF_RANGES("bad at 0", {1, 1}, {0x101000, 0x1000}, {0x102000, 0x1000}),
    OF_RANGES("bad at 1", {0x100000, 0x1000}, {1, 1}, {0x102000, 0x1000}),
    OF_RANGES("bad at 2", {0x100000, 0x1000}, {0x101000, 0x1000}, {1, 1}),

    /* Inside the space. */
    ONE_RANGE("first page", GOOD, 0x100000, PAGE),
    ONE_RANGE("a page below the first", BAD, 0xff000, PAGE),
    ONE_RANGE("from a page below the start", BAD, 0xff000, 2 * PAGE),
    ONE_RANGE("last page", GOOD, 0x1ff000, PAGE),
    ONE_RANGE("to a page above the end", BAD, 0x1ff000, 2 * PAGE),
    ONE_RANGE("a page above the last", BAD, 0x200000, PAGE),
    ONE_RANGE("address 0", BAD, 0, PAGE),
    ONE_RANGE("first page and 2^32", BAD, BIT_32 + 0x100000, PAGE),
    ONE_RANGE("first page and 2^63", BAD, HALF + 0x100000, PAGE),
    ONE_RANGE("a page and 2^32 long", BAD, 0x100000, BIT_32 + PAGE),
    ONE_RANGE("ends at 2^64", BAD, LAST_PAGE, PAGE),
    ONE_RANGE("ends above 2^64, in the space", BAD, LAST_PAGE, 0x102000),
    ONE_RANGE("ends above 2^64, at the start", BAD, 0x101000, LAST_PAGE),
    TWO_RANGES("the second ends above 2^64", BAD, 0x100000, PAGE, 0x102000, LAST_PAGE),
    {"the whole space", GOOD, FREE, 1, IN_ROOM(1), {{0x100000, 0x100000}}},
    {"more than the whole space", BAD, FREE, 1, IN_ROOM(1), {{0xff000, 0x102000}}},
    {"all there is", GOOD, WIDEST, 1, IN_ROOM(1), {{0, LIMIT}}},
    {"a page more than all there is", BAD, WIDEST, 1, IN_ROOM(1), {{0, LIMIT + PAGE}}},
    {"the first and the last page of all", GOOD, WIDEST, 2, IN_ROOM(2),
     {{0, PAGE}, {LIMIT - PAGE, PAGE}}},
    {"a page behind all", BAD, WIDEST, 1, IN_ROOM(1), {{LIMIT, PAGE}}},
    {"two halves of all", GOOD, WIDEST, 2, IN_ROOM(2), {{0, LIMIT / 2}, {LIMIT / 2, LIMIT / 2}}},

    /* Off the reservation. */
    ONE_RANGE("touches from below", GOOD, 0x13f000, PAGE),
    ONE_RANGE("shares the first reserved page", BAD, 0x13f000, 2 * PAGE),
    ONE_RANGE("is the first reserved page", BAD, 0x140000, PAGE),
    ONE_RANGE("inside the reservation", BAD, 0x150000, PAGE),
    ONE_RANGE("is the reservation", BAD, 0x140000, 0x40000),
    ONE_RANGE("is the last reserved page", BAD, 0x17f000, PAGE),
    ONE_RANGE("shares the last reserved page", BAD, 0x17f000, 2 * PAGE),
    ONE_RANGE("touches from above", GOOD, 0x180000, PAGE),
    ONE_RANGE("around the reservation", BAD, 0x100000, 0x100000),
    TWO_RANGES("all but the reservation", GOOD, 0x100000, 0x40000, 0x180000, 0x80000),
    TWO_RANGES("the second is reserved", BAD, 0x100000, 0x40000, 0x140000, PAGE),
    {"nothing is reserved", GOOD, FREE, 1, IN_ROOM(1), {{0x140000, 0x40000}}},
    {"all is reserved", BAD, ALL_RESERVED, 1, IN_ROOM(1), {{0x150000, PAGE}}},
    {"all is reserved, no range", GOOD, ALL_RESERVED, 0, IN_ROOM(1), {NO_RANGE}},

    /* Words behind the last range. */
    STALE_RANGE("a stale range", 0x102000, 0x1000),
    STALE_RANGE("a stale start", 0x102000, 0),
    STALE_RANGE("a stale size", GOOD, 0x1000),
    STALE_RANGE("the lowest bit", 1, 0),
    STALE_RANGE("the highest bit", GOOD, HALF),
    STALE_RANGE("two that add up to 0", 1, UINT64_MAX),
    STALE_RANGE("two alike", HALF, HALF),
    {"stale, no range", BAD, COMMON, 0, IN_ROOM(1), {{0x100000, 0x1000}}},
};

#endif
