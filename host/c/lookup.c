/* How a driver looks an address up, and the test of it: tables of cases with their answers. */
#define _DEFAULT_SOURCE /* for MAP_ANONYMOUS */

#include <inttypes.h>
#include <stdint.h>
#include <stdio.h>
#include <string.h>

#include "lists.h"

/* The most mappings and ranges that a case writes out. */
#define MOST_WRITTEN 5
#define NUMBER(cases) (sizeof(cases) / sizeof(cases)[0])

_Static_assert(sizeof(waylluqen_translation) == 48, "six words, without a gap");

/* Table, count and address of a look-up in a space without sparse ranges, and the answer. */
struct test_case {
    const char *name;
    waylluqen_translation expected;
    waylluqen_space space;
    uint64_t address;
    uint64_t count;
    size_t table_words;
    struct mapping table[MOST_WRITTEN];
};

/* What an address shows, and for how many bytes. */
#define SHOWS(object, offset, bytes) {0, 0, WAYLLUQEN_SHOWN_OBJECT, object, offset, bytes}
#define NOTHING(bytes) {0, 0, WAYLLUQEN_SHOWN_NOTHING, 0, 0, bytes}
#define SPARSE(bytes) {0, 0, WAYLLUQEN_SHOWN_SPARSE, 0, 0, bytes}
#define OUTSIDE NOTHING(0)
#define REFUSED(number) {number, 0, 0, 0, 0, 0}
#define BAD_PLACE(place) {WAYLLUQEN_REFUSED_BAD_MAPPING, place, 0, 0, 0, 0}

/* A table that is full of n mappings. */
#define FULL(n) n, (n) * MAPPING_WORDS
/* In the common space: an address in the five; one mapping at its address; two at the start. */
#define IN_FIVE(name, expected, address) {name, expected, COMMON, address, FULL(5), FIVE}
#define ALONE(name, expected, address, size, object, offset) \
    {name, expected, COMMON, address, FULL(1), {{address, size, object, offset}}}
#define PAIR(name, expected, address, size, address2, size2) \
    {name, expected, COMMON, 0x100000, FULL(2), {{address, size, 7, 0}, {address2, size2, 7, 0}}}
/* One mapping that is all of the common space, where nothing is reserved. */
#define WHOLE {0x100000, 0x100000, 7, 0}
/* In the common space: two that touch and agree in object and displacement; two with the
 * reservation between them and room on each side of it. */
#define AGREEING(name, expected, address) \
    {name, expected, COMMON, address, FULL(2), {FIRST, {0x102000, 0x1000, 7, 0x5000}}}
#define APART(name, expected, address) \
    {name, expected, COMMON, address, FULL(2), \
     {{0x110000, 0x1000, 7, 0}, {0x1c0000, 0x1000, 8, 0}}}
/* No mapping, in room for five. */
#define NONE {0, 0, 0, 0}
#define EMPTY(name, expected, space, address) {name, expected, space, address, 0, 20, {NONE}}
/* The five, of which the count has fewer. */
#define FEWER(name, expected, count, address) {name, expected, COMMON, address, count, 20, FIVE}
/* The first, and a stale one behind it. */
#define STALE(name, address, ...) \
    {name, REFUSED(17), COMMON, address, 1, 8, {FIRST, {__VA_ARGS__}}}
/* Five of which some are replaced. */
#define OF_FIVE(name, expected, ...) {name, expected, COMMON, 0x100000, FULL(5), {__VA_ARGS__}}
/* A space, with the five mappings, all of which are in the common one. */
#define IN_SPACE(name, expected, ...) {name, expected, __VA_ARGS__, 0x100000, FULL(5), FIVE}

static const struct test_case cases[] = {
    /* Each edge of the five: the last byte before it, the first behind it, and the second. */
    IN_FIVE("one before the space", OUTSIDE, 0xfffff),
    IN_FIVE("first byte", SHOWS(7, 0x3000, 0x2000), 0x100000),
    IN_FIVE("second byte", SHOWS(7, 0x3001, 0x1fff), 0x100001),
    IN_FIVE("last byte, a neighbour touches", SHOWS(7, 0x4fff, 1), 0x101fff),
    IN_FIVE("first byte of the neighbour", SHOWS(8, 0, 0x1000), 0x102000),
    IN_FIVE("second byte of the neighbour", SHOWS(8, 1, 0xfff), 0x102001),
    IN_FIVE("last byte before a gap", SHOWS(8, 0xfff, 1), 0x102fff),
    IN_FIVE("first byte of a gap", NOTHING(0x3c000), 0x103000),
    IN_FIVE("second byte of a gap", NOTHING(0x3bfff), 0x103001),
    IN_FIVE("last byte of a gap", NOTHING(1), 0x13efff),
    IN_FIVE("behind a gap", SHOWS(HIGHEST_OBJECT, 0x1000, 0x1000), 0x13f000),
    IN_FIVE("second byte behind a gap", SHOWS(HIGHEST_OBJECT, 0x1001, 0xfff), 0x13f001),
    IN_FIVE("last byte before the reservation", SHOWS(HIGHEST_OBJECT, 0x1fff, 1), 0x13ffff),
    IN_FIVE("first reserved byte", NOTHING(0x40000), 0x140000),
    IN_FIVE("second reserved byte", NOTHING(0x3ffff), 0x140001),
    IN_FIVE("last reserved byte", NOTHING(1), 0x17ffff),
    IN_FIVE("behind the reservation", SHOWS(1, 0x5000, 0x1000), 0x180000),
    IN_FIVE("second byte behind the reservation", SHOWS(1, 0x5001, 0xfff), 0x180001),
    IN_FIVE("last byte before the last gap", SHOWS(1, 0x5fff, 1), 0x180fff),
    IN_FIVE("first byte of the last gap", NOTHING(0x7e000), 0x181000),
    IN_FIVE("second byte of the last gap", NOTHING(0x7dfff), 0x181001),
    IN_FIVE("last byte of the last gap", NOTHING(1), 0x1fefff),
    IN_FIVE("last page", SHOWS(9, LIMIT - PAGE, 0x1000), 0x1ff000),
    IN_FIVE("second byte of the last page", SHOWS(9, LIMIT - PAGE + 1, 0xfff), 0x1ff001),
    IN_FIVE("last byte of the space", SHOWS(9, LIMIT - 1, 1), 0x1fffff),
    IN_FIVE("end of the space", OUTSIDE, 0x200000),
    IN_FIVE("one behind the space's end", OUTSIDE, 0x200001),

    /* Inside: a page of a mapping, the middle of a gap. */
    IN_FIVE("second page", SHOWS(7, 0x4000, 0x1000), 0x101000),
    IN_FIVE("middle of a gap", NOTHING(0x1f000), 0x120000),
    IN_FIVE("middle of the reservation", NOTHING(0x20000), 0x160000),

    /* Outside the space: answered, not refused, for no byte. */
    IN_FIVE("address 0", OUTSIDE, 0),
    IN_FIVE("address 2^48", OUTSIDE, LIMIT),
    IN_FIVE("first byte and 2^32", OUTSIDE, (UINT64_C(1) << 32) + 0x100000),
    IN_FIVE("first byte and 2^48", OUTSIDE, LIMIT + 0x100000),
    IN_FIVE("first byte and 2^63", OUTSIDE, HALF + 0x100000),
    IN_FIVE("highest address", OUTSIDE, UINT64_MAX),

    /* One mapping is the whole space. */
    {"whole, one before", OUTSIDE, FREE, 0xfffff, FULL(1), {WHOLE}},
    {"whole, first byte", SHOWS(7, 0, 0x100000), FREE, 0x100000, FULL(1), {WHOLE}},
    {"whole, second byte", SHOWS(7, 1, 0xfffff), FREE, 0x100001, FULL(1), {WHOLE}},
    {"whole, last byte", SHOWS(7, 0xfffff, 1), FREE, 0x1fffff, FULL(1), {WHOLE}},
    {"whole, behind it", OUTSIDE, FREE, 0x200000, FULL(1), {WHOLE}},
    {"all there is, first byte", SHOWS(7, 0, LIMIT), WIDEST, 0, FULL(1), {{0, LIMIT, 7, 0}}},
    {"all there is, second byte", SHOWS(7, 1, LIMIT - 1), WIDEST, 1, FULL(1), {{0, LIMIT, 7, 0}}},
    {"all there is, last byte", SHOWS(7, LIMIT - 1, 1), WIDEST, LIMIT - 1, FULL(1),
     {{0, LIMIT, 7, 0}}},
    {"all there is, behind it", OUTSIDE, WIDEST, LIMIT, FULL(1), {{0, LIMIT, 7, 0}}},
    {"all there is, highest address", OUTSIDE, WIDEST, UINT64_MAX, FULL(1), {{0, LIMIT, 7, 0}}},

    /* A neighbour is not counted in, though it goes on with the object. */
    AGREEING("agreeing, first byte", SHOWS(7, 0x3000, 0x2000), 0x100000),
    AGREEING("agreeing, last byte of the first", SHOWS(7, 0x4fff, 1), 0x101fff),
    AGREEING("agreeing, first byte of the second", SHOWS(7, 0x5000, 0x1000), 0x102000),
    AGREEING("agreeing, last byte of the second", SHOWS(7, 0x5fff, 1), 0x102fff),
    AGREEING("agreeing, behind both", NOTHING(0xfd000), 0x103000),

    /* A gap is not cut at the reservation: in its middle, at the space's start, at its end. */
    APART("apart, first byte of the space", NOTHING(0x10000), 0x100000),
    APART("apart, last byte of the first gap", NOTHING(1), 0x10ffff),
    APART("apart, first byte of the gap", NOTHING(0xaf000), 0x111000),
    APART("apart, one before the reservation", NOTHING(0x80001), 0x13ffff),
    APART("apart, first reserved byte", NOTHING(0x80000), 0x140000),
    APART("apart, second reserved byte", NOTHING(0x7ffff), 0x140001),
    APART("apart, last reserved byte", NOTHING(0x40001), 0x17ffff),
    APART("apart, behind the reservation", NOTHING(0x40000), 0x180000),
    APART("apart, last byte of the gap", NOTHING(1), 0x1bffff),
    APART("apart, behind the last", NOTHING(0x3f000), 0x1c1000),
    APART("apart, last byte of the space", NOTHING(1), 0x1fffff),
    APART("apart, end of the space", OUTSIDE, 0x200000),
    {"reserved at the start", NOTHING(0x20000), SPACE(0x100000, 0x100000, 0x100000, 0x10000),
     0x100000, FULL(1), {{0x120000, PAGE, 7, 0}}},
    {"behind what is reserved at the start", NOTHING(0x10000),
     SPACE(0x100000, 0x100000, 0x100000, 0x10000), 0x110000, FULL(1), {{0x120000, PAGE, 7, 0}}},
    {"before what is reserved at the end", NOTHING(0x10001),
     SPACE(0x100000, 0x100000, 0x1f0000, 0x10000), 0x1effff, FULL(1), {{0x120000, PAGE, 7, 0}}},
    {"reserved at the end", NOTHING(0x10000), SPACE(0x100000, 0x100000, 0x1f0000, 0x10000),
     0x1f0000, FULL(1), {{0x120000, PAGE, 7, 0}}},

    /* No mapping: to the space's end. */
    EMPTY("empty, one before the space", OUTSIDE, COMMON, 0xfffff),
    EMPTY("empty, first byte", NOTHING(0x100000), COMMON, 0x100000),
    EMPTY("empty, second byte", NOTHING(0xfffff), COMMON, 0x100001),
    EMPTY("empty, first reserved byte", NOTHING(0xc0000), COMMON, 0x140000),
    EMPTY("empty, last byte", NOTHING(1), COMMON, 0x1fffff),
    EMPTY("empty, end of the space", OUTSIDE, COMMON, 0x200000),
    EMPTY("empty, address 0", OUTSIDE, COMMON, 0),
    EMPTY("empty, highest address", OUTSIDE, COMMON, UINT64_MAX),
    EMPTY("widest and empty, first byte", NOTHING(LIMIT), WIDEST, 0),
    EMPTY("widest and empty, second byte", NOTHING(LIMIT - 1), WIDEST, 1),
    EMPTY("widest and empty, last byte", NOTHING(1), WIDEST, LIMIT - 1),
    EMPTY("widest and empty, behind it", OUTSIDE, WIDEST, LIMIT),
    EMPTY("widest and empty, highest address", OUTSIDE, WIDEST, UINT64_MAX),
    EMPTY("last page of all, one before", OUTSIDE, SPACE(LIMIT - PAGE, PAGE, 0, 0),
          LIMIT - PAGE - 1),
    EMPTY("last page of all, first byte", NOTHING(PAGE), SPACE(LIMIT - PAGE, PAGE, 0, 0),
          LIMIT - PAGE),
    EMPTY("last page of all, last byte", NOTHING(1), SPACE(LIMIT - PAGE, PAGE, 0, 0), LIMIT - 1),
    EMPTY("last page of all, behind it", OUTSIDE, SPACE(LIMIT - PAGE, PAGE, 0, 0), LIMIT),

    /* 1: the space, whatever the rest. */
    IN_SPACE("start one above", REFUSED(1), SPACE(0x100001, 0x100000, 0x140000, 0x40000)),
    IN_SPACE("size one above", REFUSED(1), SPACE(0x100000, 0x100001, 0x140000, 0x40000)),
    IN_SPACE("reserved start one above", REFUSED(1),
             SPACE(0x100000, 0x100000, 0x140001, 0x40000)),
    IN_SPACE("reserved size one above", REFUSED(1),
             SPACE(0x100000, 0x100000, 0x140000, 0x40001)),
    IN_SPACE("size 0", REFUSED(1), SPACE(0x100000, 0, 0, 0)),
    IN_SPACE("all 0", REFUSED(1), SPACE(0, 0, 0, 0)),
    IN_SPACE("all highest", REFUSED(1), SPACE(UINT64_MAX, UINT64_MAX, UINT64_MAX, UINT64_MAX)),
    IN_SPACE("ends at 2^48", SHOWS(7, 0x3000, 0x2000), SPACE(0x100000, LIMIT - 0x100000, 0, 0)),
    IN_SPACE("ends a page above 2^48", REFUSED(1),
             SPACE(0x100000, LIMIT - 0x100000 + PAGE, 0, 0)),
    IN_SPACE("ends above 2^64", REFUSED(1), SPACE(LAST_PAGE, 2 * PAGE, 0, 0)),
    IN_SPACE("reserved start alone", REFUSED(1), SPACE(0x100000, 0x100000, 0x140000, 0)),
    IN_SPACE("reserved below the space", REFUSED(1), SPACE(0x100000, 0x100000, 0xff000, PAGE)),
    IN_SPACE("reserved above the space", REFUSED(1), SPACE(0x100000, 0x100000, 0x200000, PAGE)),
    {"space before length", REFUSED(1), SPACE(1, PAGE, 0, 0), 0, 0, 0, {ONES}},
    {"space before count", REFUSED(1), SPACE(1, PAGE, 0, 0), 0, 2, 4, {ONES}},
    {"space before mappings", REFUSED(1), SPACE(1, PAGE, 0, 0), 0, 1, 4, {ONES}},

    /* 2: the length. */
    {"length 0", REFUSED(2), COMMON, 0x100000, 0, 0, FIVE},
    {"length 1", REFUSED(2), COMMON, 0x100000, 0, 1, FIVE},
    {"length 2", REFUSED(2), COMMON, 0x100000, 0, 2, FIVE},
    {"length 3", REFUSED(2), COMMON, 0x100000, 0, 3, FIVE},
    {"length 4", SHOWS(7, 0x3000, 0x2000), COMMON, 0x100000, 1, 4, FIVE},
    {"length 5", REFUSED(2), COMMON, 0x100000, 1, 5, FIVE},
    {"length 6", REFUSED(2), COMMON, 0x100000, 1, 6, FIVE},
    {"length 7", REFUSED(2), COMMON, 0x100000, 1, 7, FIVE},
    {"length 2044", SHOWS(7, 0x3000, 0x2000), COMMON, 0x100000, 5, 2044, FIVE},
    {"length 2047", REFUSED(2), COMMON, 0x100000, 5, 2047, FIVE},
    {"length 2048", SHOWS(7, 0x3000, 0x2000), COMMON, 0x100000, 5, 2048, FIVE},
    {"length 2049", REFUSED(2), COMMON, 0x100000, 5, 2049, FIVE},
    {"length 2052", SHOWS(7, 0x3000, 0x2000), COMMON, 0x100000, 5, 2052, FIVE},
    {"length 16380", SHOWS(7, 0x3000, 0x2000), COMMON, 0x100000, 5, 16380, FIVE},
    {"length 16383", REFUSED(2), COMMON, 0x100000, 5, 16383, FIVE},
    {"length 16384", SHOWS(7, 0x3000, 0x2000), COMMON, 0x100000, 5, 16384, FIVE},
    {"length 16385", REFUSED(2), COMMON, 0x100000, 5, 16385, FIVE},
    {"length 16388", REFUSED(2), COMMON, 0x100000, 5, 16388, FIVE},
    {"length 20000", REFUSED(2), COMMON, 0x100000, 5, LONGEST_TABLE, FIVE},
    {"length before count", REFUSED(2), COMMON, 0x100000, UINT64_MAX, 7, FIVE},
    {"length 0 before count", REFUSED(2), COMMON, 0x100000, 1, 0, FIVE},
    {"length before mappings", REFUSED(2), COMMON, 0x100000, 1, 7, {ONES}},

    /* 4: the count. */
    {"count 0", NOTHING(0x100000), COMMON, 0x100000, 0, 20, {NONE}},
    {"count 0 of one", NOTHING(0x100000), COMMON, 0x100000, 0, 4, {NONE}},
    {"count below the room", SHOWS(1, 0x5000, 0x1000), COMMON, 0x180000, 4, 20,
     {FIRST, SECOND, THIRD, FOURTH}},
    {"the last page, count below the room", NOTHING(0x1000), COMMON, 0x1ff000, 4, 20,
     {FIRST, SECOND, THIRD, FOURTH}},
    {"to the end, count below the room", NOTHING(0x7f000), COMMON, 0x181000, 4, 20,
     {FIRST, SECOND, THIRD, FOURTH}},
    {"count a mapping above", REFUSED(4), COMMON, 0x100000, 6, 20, FIVE},
    {"count of the words", REFUSED(4), COMMON, 0x100000, 20, 20, FIVE},
    {"count 2^32 above", REFUSED(4), COMMON, 0x100000, (UINT64_C(1) << 32) + 5, 20, FIVE},
    {"count 2^62 above", REFUSED(4), COMMON, 0x100000, (UINT64_C(1) << 62) + 5, 20, FIVE},
    {"highest count", REFUSED(4), COMMON, 0x100000, UINT64_MAX, 20, FIVE},
    {"count 513 of 512", REFUSED(4), COMMON, 0x100000, 513, 2048, FIVE},
    {"count above the most", REFUSED(4), COMMON, 0x100000, 4097, 16384, FIVE},
    {"count before mappings", REFUSED(4), COMMON, 0x100000, 2, 4, {ONES}},

    /* 17: the words behind the count, whatever is looked up. */
    FEWER("count 0 of five", REFUSED(17), 0, 0x100000),
    FEWER("count 1 of five", REFUSED(17), 1, 0x100000),
    FEWER("count one too low", REFUSED(17), 4, 0x180000),
    FEWER("count one too low, at what is behind", REFUSED(17), 4, 0x1ff000),
    FEWER("count one too low, in a gap", REFUSED(17), 4, 0x181000),
    FEWER("count one too low, outside", REFUSED(17), 4, 0x200000),
    FEWER("count one too low, highest address", REFUSED(17), 4, UINT64_MAX),
    {"count 0 of bad words", REFUSED(17), COMMON, 0x100000, 0, 4, {ONES}},
    {"all is reserved, stale", REFUSED(17), ALL_RESERVED, 0x150000, 0, 4, {ONES}},
    STALE("bad mapping behind the count", 0x100000, 1, 1, 1, 1),
    STALE("a stale address", 0x100000, PAGE, 0, 0, 0),
    STALE("a stale size", 0x102000, 0, 1, 0, 0),
    STALE("a stale object", 0, 0, 0, UINT64_C(1) << 32, 0),
    STALE("a stale offset", 0x100000, 0, 0, 0, HALF),
    STALE("two that add up to 0", 0x100000, 1, UINT64_MAX, 0, 0),
    STALE("two alike", 0x100000, 0, 0, HALF, HALF),
    {"bad mapping at the count", BAD_PLACE(1), COMMON, 0x100000, 2, 8, {FIRST, ONES}},
    {"space before stale words", REFUSED(1), SPACE(1, PAGE, 0, 0), 0x100000, 1, 8, {FIRST, ONES}},
    {"length before stale words", REFUSED(2), COMMON, 0x100000, 1, 7, {FIRST, ONES}},
    {"count before stale words", REFUSED(4), COMMON, 0x100000, 2, 4, {FIRST, ONES}},
    {"mapping before stale words", BAD_PLACE(0), COMMON, 0x100000, 1, 8, {ONES, ONES}},
    {"last mapping before stale words", BAD_PLACE(2), COMMON, 0x100000, 3, 16,
     {FIRST, SECOND, ONES, ONES}},

    /* 5: multiples of a page, and size 0. */
    ALONE("one page", SHOWS(7, PAGE, PAGE), 0x100000, PAGE, 7, PAGE),
    ALONE("address one above", BAD_PLACE(0), 0x100001, PAGE, 7, 0),
    ALONE("address half a page above", BAD_PLACE(0), 0x100800, PAGE, 7, 0),
    ALONE("size 0", BAD_PLACE(0), 0x100000, 0, 7, 0),
    ALONE("size 1", BAD_PLACE(0), 0x100000, 1, 7, 0),
    ALONE("size one below a page", BAD_PLACE(0), 0x100000, PAGE - 1, 7, 0),
    ALONE("size one above a page", BAD_PLACE(0), 0x100000, PAGE + 1, 7, 0),
    ALONE("offset 1", BAD_PLACE(0), 0x100000, PAGE, 7, 1),
    ALONE("offset one below a page", BAD_PLACE(0), 0x100000, PAGE, 7, PAGE - 1),

    /* 5: the object. */
    ALONE("object 0", BAD_PLACE(0), 0x100000, PAGE, 0, 0),
    ALONE("object 1", SHOWS(1, 0, PAGE), 0x100000, PAGE, 1, 0),
    ALONE("highest object", SHOWS(HIGHEST_OBJECT, 0, PAGE), 0x100000, PAGE, HIGHEST_OBJECT, 0),
    ALONE("object 2^32", BAD_PLACE(0), 0x100000, PAGE, HIGHEST_OBJECT + 1, 0),
    ALONE("object 2^32 + 7", BAD_PLACE(0), 0x100000, PAGE, HIGHEST_OBJECT + 8, 0),
    ALONE("object 2^63", BAD_PLACE(0), 0x100000, PAGE, HALF, 0),

    /* 5: offset and size. */
    ALONE("offset and size are 2^48", SHOWS(7, LIMIT - PAGE, PAGE), 0x100000, PAGE, 7,
          LIMIT - PAGE),
    ALONE("offset and size a page above", BAD_PLACE(0), 0x100000, 2 * PAGE, 7, LIMIT - PAGE),
    ALONE("offset 2^48", BAD_PLACE(0), 0x100000, PAGE, 7, LIMIT),
    ALONE("offset 2^63", BAD_PLACE(0), 0x100000, PAGE, 7, HALF),
    ALONE("offset and size are 2^64", BAD_PLACE(0), 0x100000, PAGE, 7, LAST_PAGE),
    ALONE("offset and size above 2^64", BAD_PLACE(0), 0x100000, 2 * PAGE, 7, LAST_PAGE),

    /* 5: inside the space. */
    ALONE("a page below the first", BAD_PLACE(0), 0xff000, PAGE, 7, 0),
    ALONE("from a page below the start", BAD_PLACE(0), 0xff000, 2 * PAGE, 7, 0),
    ALONE("last page alone", SHOWS(7, 0, PAGE), 0x1ff000, PAGE, 7, 0),
    ALONE("to a page above the end", BAD_PLACE(0), 0x1ff000, 2 * PAGE, 7, 0),
    ALONE("a page above the last", BAD_PLACE(0), 0x200000, PAGE, 7, 0),
    ALONE("ends at 2^64", BAD_PLACE(0), LAST_PAGE, PAGE, 7, 0),
    ALONE("ends above 2^64, at a page", BAD_PLACE(0), LAST_PAGE, 2 * PAGE, 7, 0),
    ALONE("ends above 2^64, in the space", BAD_PLACE(0), LAST_PAGE, 0x102000, 7, 0),
    {"widest space, ends above 2^64", BAD_PLACE(0), WIDEST, 0, FULL(1),
     {{LAST_PAGE, 2 * PAGE, 7, 0}}},
    {"widest space, both sums above 2^64", BAD_PLACE(0), WIDEST, 0, FULL(1),
     {{2 * PAGE, LAST_PAGE, 7, PAGE}}},
    {"widest space, a page more", BAD_PLACE(0), WIDEST, 0, FULL(1), {{0, LIMIT + PAGE, 7, 0}}},

    /* 5: the reservation. */
    ALONE("touches from below", SHOWS(7, 0, PAGE), 0x13f000, PAGE, 7, 0),
    ALONE("shares the first reserved page", BAD_PLACE(0), 0x13f000, 2 * PAGE, 7, 0),
    ALONE("is the first reserved page", BAD_PLACE(0), 0x140000, PAGE, 7, 0),
    ALONE("inside the reservation", BAD_PLACE(0), 0x150000, PAGE, 7, 0),
    ALONE("is the last reserved page", BAD_PLACE(0), 0x17f000, PAGE, 7, 0),
    ALONE("shares the last reserved page", BAD_PLACE(0), 0x17f000, 2 * PAGE, 7, 0),
    ALONE("touches from above", SHOWS(7, 0, PAGE), 0x180000, PAGE, 7, 0),
    ALONE("around the reservation", BAD_PLACE(0), 0x100000, 0x100000, 7, 0),
    {"nothing is reserved", SHOWS(7, 0, PAGE), FREE, 0x150000, FULL(1), {{0x150000, PAGE, 7, 0}}},
    {"nothing is reserved, address 0", SHOWS(7, 0, PAGE), WIDEST, 0, FULL(1), {{0, PAGE, 7, 0}}},
    {"all is reserved", BAD_PLACE(0), ALL_RESERVED, 0x150000, FULL(1), {{0x150000, PAGE, 7, 0}}},
    {"all is reserved, no mapping", NOTHING(0xb0000), ALL_RESERVED, 0x150000, 0, 4, {NONE}},

    /* 5: the order. */
    PAIR("apart", SHOWS(7, 0, 0x2000), 0x100000, 0x2000, 0x103000, 0x1000),
    PAIR("touching", SHOWS(7, 0, 0x2000), 0x100000, 0x2000, 0x102000, 0x1000),
    PAIR("sharing a page", BAD_PLACE(1), 0x100000, 0x2000, 0x101000, 0x2000),
    PAIR("equal", BAD_PLACE(1), 0x100000, 0x2000, 0x100000, 0x2000),
    PAIR("the second inside the first", BAD_PLACE(1), 0x100000, 0x3000, 0x101000, 0x1000),
    PAIR("the first inside the second", BAD_PLACE(1), 0x101000, 0x1000, 0x100000, 0x3000),
    PAIR("turned, touching", BAD_PLACE(1), 0x101000, 0x1000, 0x100000, 0x1000),
    PAIR("turned, apart", BAD_PLACE(1), 0x102000, 0x1000, 0x100000, 0x1000),
    PAIR("the second at 0", BAD_PLACE(1), 0x100000, 0x1000, 0, 0x1000),

    /* 5: the lowest place. */
    OF_FIVE("bad at 0", BAD_PLACE(0), ONES, SECOND, THIRD, FOURTH, LAST),
    OF_FIVE("bad at 1", BAD_PLACE(1), FIRST, ONES, THIRD, FOURTH, LAST),
    OF_FIVE("bad at 2", BAD_PLACE(2), FIRST, SECOND, ONES, FOURTH, LAST),
    OF_FIVE("bad at 3", BAD_PLACE(3), FIRST, SECOND, THIRD, ONES, LAST),
    OF_FIVE("bad at 4", BAD_PLACE(4), FIRST, SECOND, THIRD, FOURTH, ONES),
    OF_FIVE("bad at 1 and 3", BAD_PLACE(1), FIRST, ONES, THIRD, ONES, LAST),
    OF_FIVE("bad at all", BAD_PLACE(0), ONES, ONES, ONES, ONES, ONES),
    OF_FIVE("zeros at 3", BAD_PLACE(3), FIRST, SECOND, THIRD),
    OF_FIVE("two turned", BAD_PLACE(2), FIRST, THIRD, SECOND, FOURTH, LAST),
    OF_FIVE("all turned", BAD_PLACE(1), LAST, FOURTH, THIRD, SECOND, FIRST),
    OF_FIVE("one twice", BAD_PLACE(4), FIRST, SECOND, THIRD, FOURTH, FOURTH),
};

/* An address in a full table: object p + 1 at place p, a page each, without a gap. */
struct full_case {
    const char *name;
    waylluqen_translation expected;
    uint64_t address;
    size_t bad_place; /* the place whose object is 0; MOST_MAPPINGS for none */
};

static const struct full_case full_cases[] = {
    {"first of 4096", SHOWS(1, 0, PAGE), 0, MOST_MAPPINGS},
    {"last byte of the first of 4096", SHOWS(1, 0xfff, 1), 0xfff, MOST_MAPPINGS},
    {"at 511 of 4096", SHOWS(512, 0x3fefff, 1), 0x1fffff, MOST_MAPPINGS},
    {"at 512 of 4096", SHOWS(513, 0x400000, PAGE), 0x200000, MOST_MAPPINGS},
    {"in the middle of 4096", SHOWS(2049, 0x1000005, PAGE - 5), 0x800005, MOST_MAPPINGS},
    {"last of 4096", SHOWS(4096, 0x1ffe000, PAGE), 0xfff000, MOST_MAPPINGS},
    {"last byte of 4096", SHOWS(4096, 0x1ffefff, 1), 0xffffff, MOST_MAPPINGS},
    {"behind 4096", NOTHING(LIMIT - 0x1000000), 0x1000000, MOST_MAPPINGS},
    {"bad at 0 of 4096", BAD_PLACE(0), 0xfff000, 0},
    {"bad at 512 of 4096", BAD_PLACE(512), 0, 512},
    {"bad at 2048 of 4096", BAD_PLACE(2048), 0, 2048},
    {"bad at 4095 of 4096", BAD_PLACE(4095), 0, 4095},
};

/* Mappings in a row, alike and in equal steps. All agree in object and displacement. */
struct row {
    const char *name;
    waylluqen_space space;
    size_t count;
    uint64_t first; /* address */
    uint64_t size;
    uint64_t step; /* to the next one's address */
};

/* A space of so many pages from a page on. */
#define PAGES(first, pages) {(first) * PAGE, (pages) * PAGE, 0, 0}
#define LAST_PAGES(pages) {LIMIT - (pages) * PAGE, (pages) * PAGE, 0, 0}

static const struct row rows[] = {
    {"touching in all of a space", PAGES(0, 4096), 4096, 0, PAGE, PAGE},
    {"touching inside a space", PAGES(1, 8192), 4096, 2048 * PAGE, PAGE, PAGE},
    {"a page apart, up to 2^48", LAST_PAGES(1536), 512, LIMIT - 1535 * PAGE, 2 * PAGE, 3 * PAGE},
    {"two pages apart, from 0 on", WIDEST, 4096, 0, PAGE, 3 * PAGE},
    {"on both sides of the reservation", COMMON, 2, 0x110000, PAGE, 0xb0000},
    {"all there is", WIDEST, 1, 0, LIMIT, LIMIT},
    {"no mapping", COMMON, 0, 0, 0, 0},
    {"no mapping, and all is reserved", ALL_RESERVED, 0, 0, 0, 0},
};

/* An address in a space that has mappings and sparse ranges, and the answer. */
struct sparse_case {
    const char *name;
    waylluqen_translation expected;
    waylluqen_space space;
    uint64_t address;
    uint64_t count;
    struct mapping table[MOST_WRITTEN];
    uint64_t range_count;
    struct range ranges[MOST_WRITTEN];
};

/* Over the first and the second and two pages more, with one that touches; up to the third; from
 * behind the fourth to the space's end, over the last. */
#define AROUND_FIVE \
    4, {{0x101000, 0x4000}, {0x105000, 0x1000}, {0x108000, 0x37000}, {0x190000, 0x70000}}
#define UNDER_FIVE(name, expected, address) {name, expected, COMMON, address, 5, FIVE, AROUND_FIVE}
/* No mapping: one in the middle, one on each side of the reservation, the last page. */
#define FOUR_APART \
    4, {{0x110000, 0x1000}, {0x13f000, 0x1000}, {0x180000, 0x1000}, {0x1ff000, 0x1000}}
#define UNMAPPED(name, expected, address) \
    {name, expected, COMMON, address, 0, {NONE}, FOUR_APART}
/* A mapping inside a range, or a range inside a mapping. */
#define WIDE 0x110000, 0x10000
#define NARROW 0x114000, 0x1000
#define IN_RANGE(name, expected, address) \
    {name, expected, COMMON, address, 1, {{NARROW, 7, 0}}, 1, {{WIDE}}}
#define OVER_RANGE(name, expected, address) \
    {name, expected, COMMON, address, 1, {{WIDE, 7, 0}}, 1, {{NARROW}}}
/* One range is the whole space. */
#define ALL_SPARSE(name, expected, space, address, ...) \
    {name, expected, space, address, 0, {NONE}, 1, {{__VA_ARGS__}}}

static const struct sparse_case sparse_cases[] = {
    /* Each edge: the last byte before it, the first behind it, and the second. */
    UNDER_FIVE("one before the space, sparse", OUTSIDE, 0xfffff),
    UNDER_FIVE("a range starts inside a mapping", SHOWS(7, 0x3000, 0x2000), 0x100000),
    UNDER_FIVE("one before it starts", SHOWS(7, 0x3fff, 0x1001), 0x100fff),
    UNDER_FIVE("where it starts", SHOWS(7, 0x4000, 0x1000), 0x101000),
    UNDER_FIVE("over a mapping", SHOWS(8, 0, 0x1000), 0x102000),
    UNDER_FIVE("last byte of the mapping", SHOWS(8, 0xfff, 1), 0x102fff),
    UNDER_FIVE("behind the mapping, sparse", SPARSE(0x2000), 0x103000),
    UNDER_FIVE("second byte, sparse", SPARSE(0x1fff), 0x103001),
    UNDER_FIVE("a page further, sparse", SPARSE(0x1000), 0x104000),
    UNDER_FIVE("last byte before one that touches", SPARSE(1), 0x104fff),
    UNDER_FIVE("first byte of one that touches", SPARSE(0x1000), 0x105000),
    UNDER_FIVE("second byte of one that touches", SPARSE(0xfff), 0x105001),
    UNDER_FIVE("last byte before a gap", SPARSE(1), 0x105fff),
    UNDER_FIVE("first byte of a gap, up to a range", NOTHING(0x2000), 0x106000),
    UNDER_FIVE("last byte of a gap", NOTHING(1), 0x107fff),
    UNDER_FIVE("up to a mapping that touches", SPARSE(0x37000), 0x108000),
    UNDER_FIVE("last byte before the mapping", SPARSE(1), 0x13efff),
    UNDER_FIVE("the mapping that touches", SHOWS(HIGHEST_OBJECT, 0x1000, 0x1000), 0x13f000),
    UNDER_FIVE("reserved, no range", NOTHING(0x40000), 0x140000),
    UNDER_FIVE("behind a mapping, no range", NOTHING(0xf000), 0x181000),
    UNDER_FIVE("last byte before the last range", NOTHING(1), 0x18ffff),
    UNDER_FIVE("the last range, up to a mapping in it", SPARSE(0x6f000), 0x190000),
    UNDER_FIVE("last byte before the mapping in it", SPARSE(1), 0x1fefff),
    UNDER_FIVE("the mapping in it", SHOWS(9, LIMIT - PAGE, 0x1000), 0x1ff000),
    UNDER_FIVE("last byte of the space", SHOWS(9, LIMIT - 1, 1), 0x1fffff),
    UNDER_FIVE("end of the space, sparse", OUTSIDE, 0x200000),
    UNDER_FIVE("a sparse byte and 2^32", OUTSIDE, BIT_32 + 0x103000),
    UNDER_FIVE("a sparse byte and 2^63", OUTSIDE, HALF + 0x103000),
    UNDER_FIVE("highest address, sparse", OUTSIDE, UINT64_MAX),

    UNMAPPED("up to the first range", NOTHING(0x10000), 0x100000),
    UNMAPPED("one before the first range", NOTHING(1), 0x10ffff),
    UNMAPPED("the first range", SPARSE(0x1000), 0x110000),
    UNMAPPED("last byte of the first range", SPARSE(1), 0x110fff),
    UNMAPPED("behind the first range", NOTHING(0x2e000), 0x111000),
    UNMAPPED("up to the reservation", SPARSE(0x1000), 0x13f000),
    UNMAPPED("first reserved byte", NOTHING(0x40000), 0x140000),
    UNMAPPED("last reserved byte", NOTHING(1), 0x17ffff),
    UNMAPPED("from the reservation on", SPARSE(0x1000), 0x180000),
    UNMAPPED("up to the last range", NOTHING(0x7e000), 0x181000),
    UNMAPPED("the last page, sparse", SPARSE(0x1000), 0x1ff000),
    UNMAPPED("the last byte, sparse", SPARSE(1), 0x1fffff),
    UNMAPPED("behind all ranges", OUTSIDE, 0x200000),

    IN_RANGE("before the range", NOTHING(0x10000), 0x100000),
    IN_RANGE("up to the mapping in a range", SPARSE(0x4000), 0x110000),
    IN_RANGE("the mapping in a range", SHOWS(7, 0, 0x1000), 0x114000),
    IN_RANGE("behind the mapping in a range", SPARSE(0xb000), 0x115000),
    IN_RANGE("behind the range", NOTHING(0xe0000), 0x120000),
    OVER_RANGE("up to the mapping over a range", NOTHING(0x10000), 0x100000),
    OVER_RANGE("the mapping over a range", SHOWS(7, 0, 0x10000), 0x110000),
    OVER_RANGE("at the range's start", SHOWS(7, 0x4000, 0xc000), 0x114000),
    OVER_RANGE("at the range's end", SHOWS(7, 0x5000, 0xb000), 0x115000),
    OVER_RANGE("behind the mapping over a range", NOTHING(0xe0000), 0x120000),
    {"a mapping is the range", SHOWS(7, 0, 0x1000), COMMON, 0x114000, 1, {{NARROW, 7, 0}}, 1,
     {{NARROW}}},
    {"behind what is both", NOTHING(0xeb000), COMMON, 0x115000, 1, {{NARROW, 7, 0}}, 1, {{NARROW}}},
    {"a range touches a mapping from above", SPARSE(0x1000), COMMON, 0x115000, 1, {{NARROW, 7, 0}},
     1, {{0x115000, 0x1000}}},
    {"a mapping touches a range from above", SPARSE(0x1000), COMMON, 0x113000, 1, {{NARROW, 7, 0}},
     1, {{0x113000, 0x1000}}},
    {"a mapping starts behind a range's end", NOTHING(0x2000), COMMON, 0x112000, 1,
     {{NARROW, 7, 0}}, 1, {{0x111000, 0x1000}}},
    {"a range starts behind a mapping's end", NOTHING(0x2000), COMMON, 0x115000, 1,
     {{NARROW, 7, 0}}, 1, {{0x117000, 0x1000}}},
    {"a mapping starts in the next range", SPARSE(0x1000), COMMON, 0x113000, 1, {{NARROW, 7, 0}}, 2,
     {{0x112000, 0x2000}, {0x114000, 0x2000}}},

    ALL_SPARSE("all sparse, first byte", SPARSE(0x100000), FREE, 0x100000, 0x100000, 0x100000),
    ALL_SPARSE("all sparse, last byte", SPARSE(1), FREE, 0x1fffff, 0x100000, 0x100000),
    ALL_SPARSE("all sparse, behind it", OUTSIDE, FREE, 0x200000, 0x100000, 0x100000),
    ALL_SPARSE("all there is, sparse", SPARSE(LIMIT), WIDEST, 0, 0, LIMIT),
    ALL_SPARSE("all there is, last byte sparse", SPARSE(1), WIDEST, LIMIT - 1, 0, LIMIT),
    ALL_SPARSE("all there is, behind it", OUTSIDE, WIDEST, LIMIT, 0, LIMIT),
    ALL_SPARSE("up to the last page of all", NOTHING(LIMIT - PAGE), WIDEST, 0, LIMIT - PAGE, PAGE),
};

static struct lent lent_ranges;
static struct lent lent_table;

/* One look-up: what is lent, and the answer. */
struct call {
    const char *name;
    waylluqen_translation expected;
    waylluqen_space space;
    uint64_t address;
    uint64_t range_count;
    size_t range_words;
    uint64_t count;
    size_t table_words;
};

/* Lets all memory be read, or written too. Answers 0 where that can't be done. */
static int allow_all(int what)
{
    return allow(&lent_ranges, what) && allow(&lent_table, what);
}

/* Where the words of a call are. */
struct words {
    const uint64_t *ranges;
    const uint64_t *table;
};

enum { TABLE_AT_BACK = 1, RANGES_AT_BACK = 2, WAYS = 4 };

/*
 * Lends the words at the front or at the back of the memory, which is read-only: a write ends the
 * test too. Answers no words where it can't be done.
 */
static struct words lend_to_read(const struct call *call, struct words words, int way)
{
    const struct words none = {NULL, NULL};
    if (!allow_all(READ_AND_WRITE)) {
        return none;
    }
    words.ranges =
        lend(&lent_ranges, words.ranges, call->range_words, (way & RANGES_AT_BACK) != 0);
    words.table = lend(&lent_table, words.table, call->table_words, (way & TABLE_AT_BACK) != 0);
    return allow_all(PROT_READ) ? words : none;
}

static void print_answer(const char *what, waylluqen_translation answer)
{
    printf("  %s: refusal %" PRIu64 ", place %" PRIu64 ", shown %" PRIu64, what, answer.refusal,
           answer.place, answer.shown);
    printf(", object %#" PRIx64 ", offset %#" PRIx64 ", bytes %#" PRIx64 "\n", answer.object,
           answer.offset, answer.bytes);
}

static int is_same(waylluqen_translation one, waylluqen_translation other)
{
    return one.refusal == other.refusal && one.place == other.place && one.shown == other.shown &&
           one.object == other.object && one.offset == other.offset && one.bytes == other.bytes;
}

static waylluqen_translation look_up(const struct call *call, struct words words)
{
    return waylluqen_lookup(call->space, words.ranges, call->range_words, call->range_count,
                            words.table, call->table_words, call->count, call->address);
}

/* Answers 1 where the library's answer is not the expected one. */
static int is_wrong(const struct call *call, struct words words)
{
    waylluqen_translation answer = look_up(call, words);
    if (is_same(answer, call->expected)) {
        return 0;
    }
    printf("host/c: %s, at %#" PRIx64 "\n", call->name, call->address);
    print_answer("expected", call->expected);
    print_answer("answered", answer);
    return 1;
}

/* Answers 1 where the library's answer is not the expected one. The words may lie anywhere. */
static int differs(const struct call *call, struct words words)
{
    for (int way = 0; way < WAYS; way++) {
        struct words given = lend_to_read(call, words, way);
        if (given.table == NULL) {
            printf("host/c: %s: mprotect failed\n", call->name);
            return 1;
        }
        if (is_wrong(call, given)) {
            return 1;
        }
    }
    return 0;
}

/* Without a list; and with one that has a word behind its last range that is not 0, which comes
 * behind all other refusals. */
static int differs_with_lists(struct call call, const uint64_t *table)
{
    static const uint64_t stale[2 * RANGE_WORDS] = {0, 0, 0, 1};
    struct words words = {stale, table};
    if (differs(&call, words)) {
        return 1;
    }
    call.range_words = NUMBER(stale);
    if (call.expected.refusal == WAYLLUQEN_OK) {
        call.expected = (waylluqen_translation)REFUSED(18);
    }
    return differs(&call, words);
}

/* As it is; and with stale words behind the count, as far as there are words: everywhere, the first
 * alone, the last alone. They come behind all other refusals but for the list's. */
static int run_case(const struct test_case *test)
{
    static uint64_t words[LONGEST_TABLE];
    struct call call = {.name = test->name,
                        .expected = test->expected,
                        .space = test->space,
                        .address = test->address,
                        .count = test->count,
                        .table_words = test->table_words};
    size_t first = test->count * MAPPING_WORDS, end = test->table_words;
    const size_t places[][2] = {{first, end}, {first, first + 1}, {end - 1, end}};
    memset(words, 0, sizeof words);
    memcpy(words, test->table, sizeof test->table);
    int wrong = differs_with_lists(call, words);
    if (test->count >= end / MAPPING_WORDS) {
        return wrong;
    }
    if (test->expected.refusal == WAYLLUQEN_OK) {
        call.expected = (waylluqen_translation)REFUSED(17);
    }
    for (size_t i = 0; i < NUMBER(places) && !wrong; i++) {
        memset(words + first, 0, (end - first) * sizeof *words);
        memset(words + places[i][0], UNWRITTEN_BYTE,
               (places[i][1] - places[i][0]) * sizeof *words);
        wrong = differs_with_lists(call, words);
    }
    return wrong;
}

static int run_full_case(const struct full_case *full)
{
    struct call call = {.name = full->name,
                        .expected = full->expected,
                        .space = WIDEST,
                        .address = full->address,
                        .count = MOST_MAPPINGS,
                        .table_words = MOST_MAPPINGS * MAPPING_WORDS};
    static struct mapping table[MOST_MAPPINGS];
    for (size_t place = 0; place < MOST_MAPPINGS; place++) {
        table[place].address = place * PAGE;
        table[place].size = PAGE;
        table[place].object = place == full->bad_place ? 0 : place + 1;
        table[place].offset = place * 2 * PAGE;
    }
    return differs_with_lists(call, (const uint64_t *)(const void *)table);
}

/* With as much room as there are mappings and ranges, and with room for more: zeros are behind. */
static int run_sparse(const struct sparse_case *test)
{
    uint64_t table[(MOST_WRITTEN + 1) * MAPPING_WORDS] = {0};
    uint64_t ranges[MOST_RANGES * RANGE_WORDS] = {0};
    const struct words words = {ranges, table};
    const size_t capacity = test->count > 0 ? test->count : 1;
    struct call call = {.name = test->name,
                        .expected = test->expected,
                        .space = test->space,
                        .address = test->address,
                        .range_count = test->range_count,
                        .range_words = test->range_count * RANGE_WORDS,
                        .count = test->count,
                        .table_words = capacity * MAPPING_WORDS};
    memcpy(table, test->table, sizeof test->table);
    memcpy(ranges, test->ranges, sizeof test->ranges);
    if (differs(&call, words)) {
        return 1;
    }
    call.table_words = NUMBER(table);
    call.range_words = NUMBER(ranges);
    return differs(&call, words);
}

static void fill_row(const struct row *row, struct mapping *mappings)
{
    for (size_t place = 0; place < row->count; place++) {
        uint64_t address = row->first + place * row->step;
        mappings[place] = (struct mapping){address, row->size, 7, address};
    }
}

/* Mappings and ranges of a space, as a look-up in them is foreseen. */
struct layout {
    struct mapping mappings[MOST_MAPPINGS];
    struct range ranges[MOST_RANGES];
};

/* Brings the distance down to an edge that is behind the address. */
static void stop_at(waylluqen_translation *seen, uint64_t address, uint64_t edge)
{
    if (address < edge && edge - address < seen->bytes) {
        seen->bytes = edge - address;
    }
}

/* What a look-up should answer where table and list keep their rules: all of them are looked at. */
static waylluqen_translation foresee(const struct call *call, const struct layout *layout)
{
    const uint64_t address = call->address, end = call->space.start + call->space.size;
    waylluqen_translation expected = OUTSIDE;
    if (address < call->space.start || address >= end) {
        return expected;
    }
    expected.bytes = end - address;
    for (size_t place = 0; place < call->range_count; place++) {
        const struct range *range = &layout->ranges[place];
        int is_inside = range->start <= address && address - range->start < range->size;
        expected.shown = is_inside ? WAYLLUQEN_SHOWN_SPARSE : expected.shown;
        stop_at(&expected, address, range->start);
        stop_at(&expected, address, range->start + range->size);
    }
    for (size_t place = 0; place < call->count; place++) {
        const struct mapping *mapping = &layout->mappings[place];
        uint64_t in = address - mapping->address;
        stop_at(&expected, address, mapping->address);
        if (mapping->address <= address && in < mapping->size) {
            return (waylluqen_translation)SHOWS(mapping->object, mapping->offset + in,
                                                mapping->size - in);
        }
    }
    return expected;
}

/* Looks up at an edge, at the byte before it and at the one behind; before 0 is the highest. */
static int edge_differs(struct call *call, struct words words, const struct layout *layout,
                        uint64_t edge)
{
    for (uint64_t i = 0; i < 3; i++) {
        call->address = edge - 1 + i;
        call->expected = foresee(call, layout);
        if (is_wrong(call, words)) {
            return 1;
        }
    }
    return 0;
}

/* The walk that the header shows: each mapping comes back whole, once and in order, what is between
 * them as it is foreseen, and the space's end ends it. */
static int walk_differs(struct call *call, struct words words, const struct layout *layout)
{
    waylluqen_translation run;
    size_t place = 0;
    for (call->address = call->space.start;; call->address += run.bytes) {
        run = look_up(call, words);
        if (run.bytes == 0 || !is_same(run, foresee(call, layout))) {
            break;
        }
        struct mapping seen = {call->address, run.bytes, run.object, run.offset};
        if (run.shown == WAYLLUQEN_SHOWN_OBJECT &&
            (place == call->count ||
             memcmp(&seen, &layout->mappings[place++], sizeof seen) != 0)) {
            break;
        }
    }
    if (call->address == call->space.start + call->space.size && place == call->count) {
        return 0;
    }
    printf("host/c: %s: a walk ended at %#" PRIx64 ", place %zu\n", call->name, call->address,
           place);
    return 1;
}

/* Every edge of a space, of its mappings and of its ranges, and a walk over it. */
static int run_layout(struct call *call, const struct layout *layout)
{
    const waylluqen_space space = call->space;
    const uint64_t edges[] = {0, LIMIT, HALF, space.start, space.start + space.size,
                              space.reserved_start, space.reserved_start + space.reserved_size};
    const struct words words =
        lend_to_read(call,
                     (struct words){(const uint64_t *)(const void *)layout->ranges,
                                    (const uint64_t *)(const void *)layout->mappings},
                     WAYS - 1);
    int wrong = words.table == NULL;
    for (size_t i = 0; i < NUMBER(edges) && !wrong; i++) {
        wrong = edge_differs(call, words, layout, edges[i]);
    }
    for (size_t i = 0; i < call->count && !wrong; i++) {
        const struct mapping *mapping = &layout->mappings[i];
        wrong = edge_differs(call, words, layout, mapping->address) ||
                edge_differs(call, words, layout, mapping->address + mapping->size);
    }
    for (size_t i = 0; i < call->range_count && !wrong; i++) {
        const struct range *range = &layout->ranges[i];
        wrong = edge_differs(call, words, layout, range->start) ||
                edge_differs(call, words, layout, range->start + range->size);
    }
    return wrong || walk_differs(call, words, layout);
}

/* Ranges of one to three pages from an address on, the next one touching or some pages further on,
 * but none that shares a byte with the reservation; answers how many. */
static size_t put_scattered(struct range *to, const waylluqen_space *space, uint64_t start)
{
    static const uint64_t gaps[] = {0, 1, 0, 2};
    uint64_t reserved_end = space->reserved_start + space->reserved_size;
    size_t count = 0;
    for (uint64_t i = 0; count < MOST_RANGES; i++) {
        uint64_t size = (1 + i % 3) * PAGE;
        if (start + size > space->start + space->size) {
            break;
        }
        if (start + size <= space->reserved_start || reserved_end <= start) {
            to[count++] = (struct range){start, size};
        }
        start += size + gaps[i % NUMBER(gaps)] * PAGE;
    }
    return count;
}

/* A row without ranges, with all of its space sparse, and with scattered ranges. */
static int run_row(const struct row *row, size_t capacity)
{
    static struct layout layout;
    struct call call = {.name = row->name,
                        .space = row->space,
                        .count = row->count,
                        .table_words = capacity * MAPPING_WORDS};
    memset(&layout, 0, sizeof layout);
    fill_row(row, layout.mappings);
    if (run_layout(&call, &layout)) {
        return 1;
    }
    call.range_count = put_whole(layout.ranges, &call.space);
    call.range_words = WHOLE_RANGES * RANGE_WORDS;
    if (run_layout(&call, &layout)) {
        return 1;
    }
    /* From some pages before the first mapping on, if there are any. */
    int has_pages = row->first >= row->space.start + 5 * PAGE;
    uint64_t start = has_pages ? row->first - 5 * PAGE : row->space.start;
    memset(layout.ranges, 0, sizeof layout.ranges);
    call.range_count = put_scattered(layout.ranges, &call.space, start);
    call.range_words = MOST_RANGES * RANGE_WORDS;
    return run_layout(&call, &layout);
}

/* A row without room for more, and with room for some more, as far as there can be room. */
static int run_row_with_room(const struct row *row)
{
    size_t capacity = row->count > 0 ? row->count : 1;
    return run_row(row, capacity) || (capacity < MOST_MAPPINGS && run_row(row, capacity + 19));
}

/* A list that is taken: its edges, without a mapping. */
static int run_good_list(struct call *call, const struct list_case *test)
{
    static struct layout layout;
    memset(&layout, 0, sizeof layout);
    memcpy(layout.ranges, test->list, sizeof test->list);
    return run_layout(call, &layout);
}

/* A list that is refused, whatever is looked up; what is wrong with space and table comes first. */
static int run_bad_list(struct call *call, struct words words)
{
    static const uint64_t ones[MAPPING_WORDS] = ONES;
    const uint64_t addresses[] = {call->space.start, call->space.start + 0x104000, 0, LIMIT,
                                  UINT64_MAX};
    static const uint64_t firsts[] = {1, 2, 4, 5, 17};
    call->expected = (waylluqen_translation)REFUSED(18);
    for (size_t i = 0; i < NUMBER(addresses); i++) {
        call->address = addresses[i];
        if (differs(call, words)) {
            return 1;
        }
    }
    words.table = ones;
    for (size_t i = 0; i < NUMBER(firsts); i++) {
        struct call first = *call;
        first.space.size += firsts[i] == 1;
        first.table_words -= firsts[i] == 2;
        first.count = firsts[i] == 4 ? 2 : firsts[i] == 5 ? 1 : 0;
        first.expected.refusal = firsts[i];
        if (differs(&first, words)) {
            return 1;
        }
    }
    return 0;
}

static int run_list(const struct list_case *test)
{
    static const uint64_t no_mapping[MAPPING_WORDS];
    uint64_t ranges[LONGEST_RANGES] = {0};
    struct call call = {.name = test->name,
                        .space = test->space,
                        .range_count = test->count,
                        .range_words = test->words,
                        .table_words = MAPPING_WORDS};
    memcpy(ranges, test->list, sizeof test->list);
    return test->bad ? run_bad_list(&call, (struct words){ranges, no_mapping})
                     : run_good_list(&call, test);
}

/* Looks up with each word of a slice from a place on stale in its turn, which is read-only then. */
static int stale_differs(const struct call *call, struct words words, uint64_t *slice, size_t from,
                         size_t end)
{
    for (size_t at = from; at < end; at++) {
        slice[at] = stale_word(at);
        if (!allow_all(PROT_READ) || is_wrong(call, words) || !allow_all(READ_AND_WRITE)) {
            printf("host/c: stale word %zu, %" PRIu64 " mappings in %zu words", at, call->count,
                   call->table_words);
            printf(", %" PRIu64 " ranges in %zu\n", call->range_count, call->range_words);
            return 1;
        }
        slice[at] = 0;
    }
    return 0;
}

/* Each stale word of a table, at the front and at the back of the memory. */
static int run_stale(const struct stale_table *stale)
{
    static struct mapping mappings[MOST_MAPPINGS];
    struct call call = {.name = "a stale word",
                        .expected = REFUSED(17),
                        .space = PLACES_SPACE,
                        .count = stale->count,
                        .table_words = stale->capacity * MAPPING_WORDS};
    const uint64_t *old = (const uint64_t *)(const void *)mappings;
    memset(mappings, 0, sizeof mappings);
    fill_places(mappings, stale->count);
    for (int at_back = 0; at_back <= 1; at_back++) {
        if (!allow_all(READ_AND_WRITE)) {
            return 1;
        }
        uint64_t *table = lend(&lent_table, old, call.table_words, at_back);
        if (stale_differs(&call, (struct words){table, table}, table, call.count * MAPPING_WORDS,
                          call.table_words)) {
            return 1;
        }
    }
    return 0;
}

/* Each stale word of a list, at the front and at the back of the memory. */
static int run_stale_list(size_t count, size_t capacity)
{
    struct range ranges[MOST_RANGES] = {{0, 0}};
    struct call call = {.name = "a stale word of a list",
                        .expected = REFUSED(18),
                        .space = PLACES_SPACE,
                        .range_count = count,
                        .range_words = capacity * RANGE_WORDS,
                        .table_words = MAPPING_WORDS};
    static const uint64_t no_mapping[MAPPING_WORDS];
    for (size_t place = 0; place < count; place++) {
        ranges[place] = (struct range){4 * place * PAGE, 4 * PAGE};
    }
    for (int at_back = 0; at_back <= 1; at_back++) {
        if (!allow_all(READ_AND_WRITE)) {
            return 1;
        }
        uint64_t *list = lend(&lent_ranges, (const uint64_t *)(const void *)ranges,
                              call.range_words, at_back);
        if (stale_differs(&call, (struct words){list, no_mapping}, list, count * RANGE_WORDS,
                          call.range_words)) {
            return 1;
        }
    }
    return 0;
}

static int run_stale_lists(void)
{
    for (size_t capacity = 1; capacity <= MOST_RANGES; capacity++) {
        for (size_t count = 0; count < capacity; count++) {
            if (run_stale_list(count, capacity)) {
                return 1;
            }
        }
    }
    return 0;
}

int main(void)
{
    const size_t count = NUMBER(cases) + NUMBER(full_cases) + NUMBER(sparse_cases);
    size_t failed = 0, stale = 0;

    if (!prepare(&lent_ranges, LONGEST_RANGES) || !prepare(&lent_table, LONGEST_TABLE)) {
        printf("host/c: mmap failed\n");
        return 1;
    }
    for (size_t i = 0; i < NUMBER(cases); i++) {
        failed += (size_t)run_case(&cases[i]);
    }
    for (size_t i = 0; i < NUMBER(full_cases); i++) {
        failed += (size_t)run_full_case(&full_cases[i]);
    }
    for (size_t i = 0; i < NUMBER(sparse_cases); i++) {
        failed += (size_t)run_sparse(&sparse_cases[i]);
    }
    for (size_t i = 0; i < NUMBER(rows); i++) {
        failed += (size_t)run_row_with_room(&rows[i]);
    }
    for (size_t i = 0; i < NUMBER(lists); i++) {
        failed += (size_t)run_list(&lists[i]);
    }
    failed += run_stale_tables(run_stale, &stale) + (size_t)run_stale_lists();
    if (failed != 0) {
        printf("host/c: %zu look-ups, rows, lists and stale tables failed\n", failed);
        return 1;
    }
    printf("host/c: %zu look-ups, the edges of %zu rows, %zu lists, ", count, NUMBER(rows),
           NUMBER(lists));
    printf("and each stale word of %zu tables and of lists, passed\n", stale);
    return 0;
}
