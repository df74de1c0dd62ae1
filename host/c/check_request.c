/* How a driver checks a request, and the test of it: a table of cases with their answers. */
#define _DEFAULT_SOURCE /* for MAP_ANONYMOUS */

#include <inttypes.h>
#include <stdint.h>
#include <stdio.h>
#include <string.h>

#include "support.h"

#define LONGEST_RECORD 80

struct test_case {
    const char *name;
    uint32_t expected;
    struct record request;
    waylluqen_space space;
    size_t record_bytes;
};

struct raw_case {
    const char *name;
    uint32_t expected;
    uint8_t record[RECORD_BYTES];
};

/* Object, address, offset and size of a map; address and size of an unmap. */
#define MAP(object, address, offset, size) {0, 0, object, 0, address, offset, size}
#define UNMAP(address, size) {1, 0, 0, 0, address, 0, size}
/* Op, object, address, offset and size of a request with the sparse flag. */
#define SPARSE(op, object, address, offset, size) {op, 256, object, 0, address, offset, size}
/* A map and an unmap with which nothing is wrong in the common space. */
#define GOOD_MAP MAP(7, 0x100000, 0x3000, 0x2000)
#define GOOD_UNMAP UNMAP(0x100000, 0x2000)

#define REQUEST(...) {__VA_ARGS__}
#define CASE(name, expected, request, ...) {name, expected, request, __VA_ARGS__, RECORD_BYTES}

static const struct test_case cases[] = {
    CASE("map", 0, GOOD_MAP, COMMON),
    CASE("unmap", 0, GOOD_UNMAP, COMMON),

    /* 12: the length, whatever the rest. */
    {"length 0", 12, GOOD_MAP, COMMON, 0},
    {"length 1", 12, GOOD_MAP, COMMON, 1},
    {"length 39", 12, GOOD_MAP, COMMON, 39},
    {"length 41", 12, GOOD_MAP, COMMON, 41},
    {"length 80", 12, GOOD_MAP, COMMON, 80},
    {"length 0, bad space", 12, GOOD_MAP, SPACE(1, 0, 0, 0), 0},
    {"length 39, bad op", 12, REQUEST(2, 1, 0, 1, 1, 1, 0), COMMON, 39},
    {"length 41, bad flags", 12, REQUEST(0, 1, 7, 0, 0x100000, 0, 0x1000), COMMON, 41},
    {"length 80, all bad", 12, REQUEST(2, 1, 0, 1, 1, 1, 0), SPACE(1, 0, 0, 0), 80},

    /* 13: the op. */
    CASE("op 2", 13, REQUEST(2, 0, 0, 0, 0x100000, 0, 0x1000), COMMON),
    CASE("op 256", 13, REQUEST(0x100, 0, 0, 0, 0x100000, 0, 0x1000), COMMON),
    CASE("op 2^24", 13, REQUEST(0x1000000, 0, 0, 0, 0x100000, 0, 0x1000), COMMON),
    CASE("highest op", 13, REQUEST(UINT32_MAX, 0, 0, 0, 0x100000, 0, 0x1000), COMMON),
    CASE("op 2 and flags 1", 13, REQUEST(2, 1, 0, 0, 0x100000, 0, 0x1000), COMMON),
    CASE("op 2 and flags 256", 13, REQUEST(2, 256, 0, 0, 0x100000, 0, 0x1000), COMMON),
    CASE("op 2 and pad 1", 13, REQUEST(2, 0, 0, 1, 0x100000, 0, 0x1000), COMMON),
    CASE("op 2, bad space", 13, REQUEST(2, 0, 0, 0, 0x100000, 0, 0x1000), SPACE(1, 0, 0, 0)),

    /* 14: flags and pad. */
    CASE("map with flags 1", 14, REQUEST(0, 1, 7, 0, 0x100000, 0, 0x1000), COMMON),
    CASE("map with highest flag", 14, REQUEST(0, 0x80000000, 7, 0, 0x100000, 0, 0x1000), COMMON),
    CASE("map with pad 1", 14, REQUEST(0, 0, 7, 1, 0x100000, 0, 0x1000), COMMON),
    CASE("map with highest bit of pad", 14, REQUEST(0, 0, 7, 0x80000000, 0x100000, 0, 0x1000),
         COMMON),
    CASE("unmap with flags 1", 14, REQUEST(1, 1, 0, 0, 0x100000, 0, 0x1000), COMMON),
    CASE("unmap with pad 1", 14, REQUEST(1, 0, 0, 1, 0x100000, 0, 0x1000), COMMON),
    CASE("flags and pad", 14, REQUEST(0, 1, 7, 1, 0x100000, 0, 0x1000), COMMON),
    CASE("flags equal to pad", 14, REQUEST(0, UINT32_MAX, 7, UINT32_MAX, 0x100000, 0, 0x1000),
         COMMON),
    CASE("flags 1, bad space", 14, REQUEST(0, 1, 7, 0, 0x100000, 0, 0x1000), SPACE(1, 0, 0, 0)),

    /* 14: the sparse flag, and no other beside it or in its place. */
    CASE("sparse map", 0, SPARSE(0, 0, 0x100000, 0, 0x1000), COMMON),
    CASE("sparse unmap", 0, SPARSE(1, 0, 0x100000, 0, 0x1000), COMMON),
    CASE("flags 128", 14, REQUEST(0, 128, 0, 0, 0x100000, 0, 0x1000), COMMON),
    CASE("flags 255", 14, REQUEST(0, 255, 0, 0, 0x100000, 0, 0x1000), COMMON),
    CASE("flags 257", 14, REQUEST(0, 257, 0, 0, 0x100000, 0, 0x1000), COMMON),
    CASE("flags 512", 14, REQUEST(1, 512, 0, 0, 0x100000, 0, 0x1000), COMMON),
    CASE("flags 768", 14, REQUEST(1, 768, 0, 0, 0x100000, 0, 0x1000), COMMON),
    CASE("flags 2^16", 14, REQUEST(0, 0x10000, 0, 0, 0x100000, 0, 0x1000), COMMON),
    CASE("flags 256 and highest flag", 14, REQUEST(0, 0x80000100, 0, 0, 0x100000, 0, 0x1000),
         COMMON),
    CASE("flags 256 and pad 1", 14, REQUEST(0, 256, 0, 1, 0x100000, 0, 0x1000), COMMON),
    CASE("flags 256 and pad 256", 14, REQUEST(1, 256, 0, 256, 0x100000, 0, 0x1000), COMMON),
    CASE("pad 256", 14, REQUEST(1, 0, 0, 256, 0x100000, 0, 0x1000), COMMON),
    CASE("flags 256, bad space", 1, SPARSE(0, 0, 0x100000, 0, 0x1000), SPACE(1, 0, 0, 0)),

    /* 1: multiples of a page. */
    CASE("start one above", 1, GOOD_MAP, SPACE(0x100001, 0x100000, 0x140000, 0x40000)),
    CASE("start one below", 1, GOOD_MAP, SPACE(0xfffff, 0x102000, 0x140000, 0x40000)),
    CASE("start half a page above", 1, GOOD_MAP, SPACE(0x100800, 0x100000, 0x140000, 0x40000)),
    CASE("size one above", 1, GOOD_MAP, SPACE(0x100000, 0x100001, 0x140000, 0x40000)),
    CASE("size one below", 1, GOOD_MAP, SPACE(0x100000, 0xfffff, 0x140000, 0x40000)),
    CASE("size half a page above", 1, GOOD_MAP, SPACE(0x100000, 0x100800, 0x140000, 0x40000)),
    CASE("reserved start one above", 1, GOOD_MAP, SPACE(0x100000, 0x100000, 0x140001, 0x40000)),
    CASE("reserved start one below", 1, GOOD_MAP, SPACE(0x100000, 0x100000, 0x13ffff, 0x40000)),
    CASE("reserved size one above", 1, GOOD_MAP, SPACE(0x100000, 0x100000, 0x140000, 0x40001)),
    CASE("reserved size one below", 1, GOOD_MAP, SPACE(0x100000, 0x100000, 0x140000, 0x3ffff)),
    CASE("reserved size 1", 1, GOOD_MAP, SPACE(0x100000, 0x100000, 0x140000, 1)),
    CASE("bad space before unaligned request", 1, MAP(7, 1, 0, 0), SPACE(1, 0x100000, 0, 0)),
    CASE("bad space, unmap", 1, GOOD_UNMAP, SPACE(0x100001, 0x100000, 0x140000, 0x40000)),

    /* 1: size and end of the space. */
    CASE("size 0", 1, GOOD_MAP, SPACE(0x100000, 0, 0, 0)),
    CASE("all 0", 1, GOOD_MAP, SPACE(0, 0, 0, 0)),
    CASE("size of one page", 0, MAP(7, 0x100000, 0, PAGE), SPACE(0x100000, PAGE, 0, 0)),
    CASE("ends at 2^48", 0, GOOD_MAP, SPACE(0x100000, LIMIT - 0x100000, 0, 0)),
    CASE("ends a page above 2^48", 1, GOOD_MAP, SPACE(0x100000, LIMIT - 0x100000 + PAGE, 0, 0)),
    CASE("ends a page below 2^48", 0, GOOD_MAP, SPACE(0x100000, LIMIT - 0x100000 - PAGE, 0, 0)),
    CASE("last page of all", 0, MAP(7, LIMIT - PAGE, 0, PAGE), SPACE(LIMIT - PAGE, PAGE, 0, 0)),
    CASE("first page above all", 1, MAP(7, LIMIT, 0, PAGE), SPACE(LIMIT, PAGE, 0, 0)),
    CASE("from 0 to 2^48", 0, MAP(7, 0, 0, LIMIT), SPACE(0, LIMIT, 0, 0)),
    CASE("from 0, a page above 2^48", 1, MAP(7, 0, 0, PAGE), SPACE(0, LIMIT + PAGE, 0, 0)),
    CASE("end above 2^64", 1, MAP(7, LAST_PAGE, 0, PAGE), SPACE(LAST_PAGE, 2 * PAGE, 0, 0)),
    CASE("end at 2^64", 1, MAP(7, PAGE, 0, PAGE), SPACE(PAGE, LAST_PAGE, 0, 0)),
    CASE("two halves of 2^64", 1, MAP(7, HALF, 0, PAGE), SPACE(HALF, HALF, 0, 0)),

    /* 1: the reservation. */
    CASE("no reservation", 0, GOOD_MAP, FREE),
    CASE("reserved start alone", 1, GOOD_MAP, SPACE(0x100000, 0x100000, 0x140000, 0)),
    CASE("reserved start alone, outside", 1, GOOD_MAP, SPACE(0x100000, 0x100000, PAGE, 0)),
    CASE("reserved size alone", 1, GOOD_MAP, SPACE(0x100000, 0x100000, 0, PAGE)),
    CASE("reserved from 0", 0, MAP(7, PAGE, 0, PAGE), SPACE(0, 0x100000, 0, PAGE)),
    CASE("reserved from the start", 0, MAP(7, 0x101000, 0, PAGE),
         SPACE(0x100000, 0x100000, 0x100000, PAGE)),
    CASE("reserved a page below the start", 1, MAP(7, 0x101000, 0, PAGE),
         SPACE(0x100000, 0x100000, 0xff000, 2 * PAGE)),
    CASE("reserved up to the start", 1, GOOD_MAP, SPACE(0x100000, 0x100000, 0xff000, PAGE)),
    CASE("reserved up to the end", 0, GOOD_MAP, SPACE(0x100000, 0x100000, 0x1ff000, PAGE)),
    CASE("reserved a page above the end", 1, GOOD_MAP,
         SPACE(0x100000, 0x100000, 0x1ff000, 2 * PAGE)),
    CASE("reserved from the end", 1, GOOD_MAP, SPACE(0x100000, 0x100000, 0x200000, PAGE)),
    CASE("reserved wider than the space", 1, GOOD_MAP,
         SPACE(0x100000, 0x100000, 0xff000, 0x102000)),
    CASE("reserved up to 2^48", 0, GOOD_MAP,
         SPACE(0x100000, LIMIT - 0x100000, LIMIT - PAGE, PAGE)),
    CASE("reserved above 2^64", 1, GOOD_MAP, SPACE(0x100000, 0x100000, LAST_PAGE, 2 * PAGE)),
    CASE("reserved size near 2^64", 1, GOOD_MAP,
         SPACE(0x100000, 0x100000, 0x141000, LAST_PAGE)),

    /* 6: multiples of a page, and size 0. */
    CASE("address one above", 6, MAP(7, 0x100001, 0, PAGE), COMMON),
    CASE("address one below", 6, MAP(7, 0x101fff, 0, PAGE), COMMON),
    CASE("address half a page above", 6, MAP(7, 0x100800, 0, PAGE), COMMON),
    CASE("size 1", 6, MAP(7, 0x100000, 0, 1), COMMON),
    CASE("size one above a page", 6, MAP(7, 0x100000, 0, PAGE + 1), COMMON),
    CASE("size one below a page", 6, MAP(7, 0x100000, 0, PAGE - 1), COMMON),
    CASE("size 0 of a map", 6, MAP(7, 0x100000, 0, 0), COMMON),
    CASE("size 0 of an unmap", 6, UNMAP(0x100000, 0), COMMON),
    CASE("size 0 and outside", 6, MAP(7, 0x300000, 0, 0), COMMON),
    CASE("offset 1 of a map", 6, MAP(7, 0x100000, 1, PAGE), COMMON),
    CASE("offset one below a page", 6, MAP(7, 0x100000, PAGE - 1, PAGE), COMMON),
    CASE("highest offset", 6, MAP(7, 0x100000, UINT64_MAX, PAGE), COMMON),
    CASE("offset 1 of an unmap", 6, REQUEST(1, 0, 0, 0, 0x100000, 1, PAGE), COMMON),
    CASE("unmap, address one above", 6, UNMAP(0x100001, PAGE), COMMON),
    CASE("unmap, size one above", 6, UNMAP(0x100000, PAGE + 1), COMMON),
    CASE("unaligned and outside", 6, MAP(7, 0x200001, 0, PAGE), COMMON),
    CASE("unaligned and reserved", 6, MAP(7, 0x140001, 0, PAGE), COMMON),
    CASE("unaligned and object 0", 6, MAP(0, 0x100001, 0, PAGE), COMMON),

    /* 7: inside the space. */
    CASE("first page", 0, MAP(7, 0x100000, 0, PAGE), COMMON),
    CASE("a page below the first", 7, MAP(7, 0xff000, 0, PAGE), COMMON),
    CASE("from a page below the start", 7, MAP(7, 0xff000, 0, 2 * PAGE), COMMON),
    CASE("last page", 0, MAP(7, 0x1ff000, 0, PAGE), COMMON),
    CASE("a page above the last", 7, MAP(7, 0x200000, 0, PAGE), COMMON),
    CASE("to a page above the end", 7, MAP(7, 0x1ff000, 0, 2 * PAGE), COMMON),
    CASE("the whole space", 0, MAP(7, 0x100000, 0, 0x100000), FREE),
    CASE("more than the whole space", 7, MAP(7, 0xff000, 0, 0x102000), FREE),
    CASE("unmap of the whole space", 0, UNMAP(0x100000, 0x100000), FREE),
    CASE("unmap to a page above the end", 7, UNMAP(0x1ff000, 2 * PAGE), COMMON),
    CASE("address 0", 7, MAP(7, 0, 0, PAGE), COMMON),
    CASE("range above 2^64", 7, MAP(7, LAST_PAGE, 0, 2 * PAGE), COMMON),
    CASE("range above 2^64, space from 0", 7, MAP(7, LAST_PAGE, 0, 2 * PAGE),
         SPACE(0, LIMIT, 0, 0)),
    CASE("range up to 2^64", 7, MAP(7, LAST_PAGE, 0, PAGE), SPACE(0, LIMIT, 0, 0)),
    CASE("size near 2^64", 7, MAP(7, 0x102000, 0, LAST_PAGE), FREE),
    CASE("range a page above 2^48", 7, MAP(7, LIMIT - PAGE, 0, 2 * PAGE), SPACE(0, LIMIT, 0, 0)),
    CASE("outside and reserved", 7, MAP(7, 0x140000, 0, 0x100000), COMMON),
    CASE("outside and object 0", 7, MAP(0, 0x200000, 0, PAGE), COMMON),

    /* 8: the reservation. */
    CASE("touches from below", 0, MAP(7, 0x13f000, 0, PAGE), COMMON),
    CASE("shares the first reserved page", 8, MAP(7, 0x13f000, 0, 2 * PAGE), COMMON),
    CASE("is the first reserved page", 8, MAP(7, 0x140000, 0, PAGE), COMMON),
    CASE("touches from above", 0, MAP(7, 0x180000, 0, PAGE), COMMON),
    CASE("shares the last reserved page", 8, MAP(7, 0x17f000, 0, 2 * PAGE), COMMON),
    CASE("is the last reserved page", 8, MAP(7, 0x17f000, 0, PAGE), COMMON),
    CASE("is the reservation", 8, MAP(7, 0x140000, 0, 0x40000), COMMON),
    CASE("inside the reservation", 8, MAP(7, 0x150000, 0, PAGE), COMMON),
    CASE("around the reservation", 8, MAP(7, 0x100000, 0, 0x100000), COMMON),
    CASE("all below the reservation", 0, MAP(7, 0x100000, 0, 0x40000), COMMON),
    CASE("all above the reservation", 0, MAP(7, 0x180000, 0, 0x80000), COMMON),
    CASE("all is reserved", 8, GOOD_MAP, SPACE(0x100000, 0x100000, 0x100000, 0x100000)),
    CASE("first page is reserved", 8, GOOD_MAP, SPACE(0x100000, 0x100000, 0x100000, PAGE)),
    CASE("address 0 is reserved", 8, MAP(7, 0, 0, PAGE), SPACE(0, 0x100000, 0, PAGE)),
    CASE("address 0 is not reserved", 0, MAP(7, 0, 0, PAGE), SPACE(0, 0x100000, 0, 0)),
    CASE("unmap touches from below", 0, UNMAP(0x13f000, PAGE), COMMON),
    CASE("unmap shares the first reserved page", 8, UNMAP(0x13f000, 2 * PAGE), COMMON),
    CASE("reserved and object 0", 8, MAP(0, 0x140000, 0, PAGE), COMMON),
    CASE("reserved and offset too high", 8, MAP(7, 0x140000, LIMIT, PAGE), COMMON),

    /* 9: the object. */
    CASE("map of object 0", 9, MAP(0, 0x100000, 0, PAGE), COMMON),
    CASE("map of object 1", 0, MAP(1, 0x100000, 0, PAGE), COMMON),
    CASE("map of the highest object", 0, MAP(UINT32_MAX, 0x100000, 0, PAGE), COMMON),
    CASE("map of object 0, offset too high", 9, MAP(0, 0x100000, LIMIT, PAGE), COMMON),
    CASE("unmap with object 1", 9, REQUEST(1, 0, 1, 0, 0x100000, 0, PAGE), COMMON),
    CASE("unmap with the highest object", 9, REQUEST(1, 0, UINT32_MAX, 0, 0x100000, 0, PAGE),
         COMMON),
    CASE("unmap with offset 4096", 9, REQUEST(1, 0, 0, 0, 0x100000, PAGE, PAGE), COMMON),
    CASE("unmap with object and offset", 9, REQUEST(1, 0, 1, 0, 0x100000, PAGE, PAGE), COMMON),
    CASE("unmap with offset 2^48", 9, REQUEST(1, 0, 0, 0, 0x100000, LIMIT, PAGE), COMMON),

    /* 6 to 9 with the sparse flag; 10 can't come. */
    CASE("sparse, address one above", 6, SPARSE(0, 0, 0x100001, 0, PAGE), COMMON),
    CASE("sparse, size 0", 6, SPARSE(1, 0, 0x100000, 0, 0), COMMON),
    CASE("sparse map with offset 1", 6, SPARSE(0, 0, 0x100000, 1, PAGE), COMMON),
    CASE("sparse unmap with offset 1", 6, SPARSE(1, 0, 0x100000, 1, PAGE), COMMON),
    CASE("sparse, unaligned and object", 6, SPARSE(0, 7, 0x100001, 0, PAGE), COMMON),
    CASE("sparse, to a page above the end", 7, SPARSE(0, 0, 0x1ff000, 0, 2 * PAGE), COMMON),
    CASE("sparse, outside and object", 7, SPARSE(1, 7, 0x200000, 0, PAGE), COMMON),
    CASE("sparse, shares the first reserved page", 8, SPARSE(0, 0, 0x13f000, 0, 2 * PAGE), COMMON),
    CASE("sparse, reserved and offset", 8, SPARSE(1, 0, 0x140000, PAGE, PAGE), COMMON),
    CASE("sparse map with object 1", 9, SPARSE(0, 1, 0x100000, 0, PAGE), COMMON),
    CASE("sparse map with the highest object", 9, SPARSE(0, UINT32_MAX, 0x100000, 0, PAGE), COMMON),
    CASE("sparse map with offset 4096", 9, SPARSE(0, 0, 0x100000, PAGE, PAGE), COMMON),
    CASE("sparse map with object and offset", 9, SPARSE(0, 7, 0x100000, PAGE, PAGE), COMMON),
    CASE("sparse unmap with object 1", 9, SPARSE(1, 1, 0x100000, 0, PAGE), COMMON),
    CASE("sparse unmap with offset 4096", 9, SPARSE(1, 0, 0x100000, PAGE, PAGE), COMMON),
    CASE("sparse map with offset 2^48", 9, SPARSE(0, 0, 0x100000, LIMIT, PAGE), COMMON),
    CASE("sparse map, offset and size above 2^64", 9, SPARSE(0, 0, 0x100000, LAST_PAGE, 2 * PAGE),
         COMMON),
    CASE("sparse map of the whole space", 0, SPARSE(0, 0, 0, 0, LIMIT), SPACE(0, LIMIT, 0, 0)),
    CASE("sparse map up to the reservation", 0, SPARSE(0, 0, 0x100000, 0, 0x40000), COMMON),
    CASE("sparse unmap behind the reservation", 0, SPARSE(1, 0, 0x180000, 0, 0x80000), COMMON),

    /* 10: the offset. */
    CASE("offset and size are 2^48", 0, MAP(7, 0x100000, LIMIT - PAGE, PAGE), COMMON),
    CASE("offset and two pages are 2^48", 0, MAP(7, 0x100000, LIMIT - 2 * PAGE, 2 * PAGE), COMMON),
    CASE("offset and size a page above", 10, MAP(7, 0x100000, LIMIT - PAGE, 2 * PAGE), COMMON),
    CASE("offset 2^48", 10, MAP(7, 0x100000, LIMIT, PAGE), COMMON),
    CASE("offset 2^63", 10, MAP(7, 0x100000, HALF, PAGE), COMMON),
    CASE("offset and size are 2^64", 10, MAP(7, 0x100000, LAST_PAGE, PAGE), COMMON),
    CASE("offset and size above 2^64", 10, MAP(7, 0x100000, LAST_PAGE, 2 * PAGE), COMMON),
    CASE("whole space, offset 4096", 10, MAP(7, 0, PAGE, LIMIT), SPACE(0, LIMIT, 0, 0)),
};

/* Records as bytes, checked in the common space: the place and the byte order of each field. */
static const struct raw_case raw_cases[] = {
    {"unmap of [0x100000, 0x102000)", 0,
     {1, 0, 0, 0, 0, 0, 0, 0, 0, 0, 0, 0, 0, 0, 0, 0, 0, 0, 0x10, 0,
      0, 0, 0, 0, 0, 0, 0, 0, 0, 0, 0, 0, 0, 0x20, 0, 0, 0, 0, 0, 0}},
    {"highest byte of op", 13,
     {0, 0, 0, 1, 0, 0, 0, 0, 0, 0, 0, 0, 0, 0, 0, 0, 0, 0, 0x10, 0,
      0, 0, 0, 0, 0, 0, 0, 0, 0, 0, 0, 0, 0, 0x20, 0, 0, 0, 0, 0, 0}},
    {"highest byte of flags", 14,
     {1, 0, 0, 0, 0, 0, 0, 1, 0, 0, 0, 0, 0, 0, 0, 0, 0, 0, 0x10, 0,
      0, 0, 0, 0, 0, 0, 0, 0, 0, 0, 0, 0, 0, 0x20, 0, 0, 0, 0, 0, 0}},
    {"the sparse flag", 0,
     {1, 0, 0, 0, 0, 1, 0, 0, 0, 0, 0, 0, 0, 0, 0, 0, 0, 0, 0x10, 0,
      0, 0, 0, 0, 0, 0, 0, 0, 0, 0, 0, 0, 0, 0x20, 0, 0, 0, 0, 0, 0}},
    {"the third byte of flags", 14,
     {1, 0, 0, 0, 0, 0, 1, 0, 0, 0, 0, 0, 0, 0, 0, 0, 0, 0, 0x10, 0,
      0, 0, 0, 0, 0, 0, 0, 0, 0, 0, 0, 0, 0, 0x20, 0, 0, 0, 0, 0, 0}},
    {"the second byte of pad", 14,
     {1, 0, 0, 0, 0, 0, 0, 0, 0, 0, 0, 0, 0, 1, 0, 0, 0, 0, 0x10, 0,
      0, 0, 0, 0, 0, 0, 0, 0, 0, 0, 0, 0, 0, 0x20, 0, 0, 0, 0, 0, 0}},
    {"lowest byte of object", 9,
     {1, 0, 0, 0, 0, 0, 0, 0, 1, 0, 0, 0, 0, 0, 0, 0, 0, 0, 0x10, 0,
      0, 0, 0, 0, 0, 0, 0, 0, 0, 0, 0, 0, 0, 0x20, 0, 0, 0, 0, 0, 0}},
    {"highest byte of object", 0,
     {0, 0, 0, 0, 0, 0, 0, 0, 0, 0, 0, 1, 0, 0, 0, 0, 0, 0, 0x10, 0,
      0, 0, 0, 0, 0, 0, 0, 0, 0, 0, 0, 0, 0, 0x20, 0, 0, 0, 0, 0, 0}},
    {"highest byte of pad", 14,
     {1, 0, 0, 0, 0, 0, 0, 0, 0, 0, 0, 0, 0, 0, 0, 1, 0, 0, 0x10, 0,
      0, 0, 0, 0, 0, 0, 0, 0, 0, 0, 0, 0, 0, 0x20, 0, 0, 0, 0, 0, 0}},
    {"lowest byte of address", 6,
     {1, 0, 0, 0, 0, 0, 0, 0, 0, 0, 0, 0, 0, 0, 0, 0, 1, 0, 0x10, 0,
      0, 0, 0, 0, 0, 0, 0, 0, 0, 0, 0, 0, 0, 0x20, 0, 0, 0, 0, 0, 0}},
    {"highest byte of address", 7,
     {1, 0, 0, 0, 0, 0, 0, 0, 0, 0, 0, 0, 0, 0, 0, 0, 0, 0, 0x10, 0,
      0, 0, 0, 1, 0, 0, 0, 0, 0, 0, 0, 0, 0, 0x20, 0, 0, 0, 0, 0, 0}},
    {"lowest byte of offset", 6,
     {0, 0, 0, 0, 0, 0, 0, 0, 7, 0, 0, 0, 0, 0, 0, 0, 0, 0, 0x10, 0,
      0, 0, 0, 0, 1, 0, 0, 0, 0, 0, 0, 0, 0, 0x20, 0, 0, 0, 0, 0, 0}},
    {"highest byte of offset", 10,
     {0, 0, 0, 0, 0, 0, 0, 0, 7, 0, 0, 0, 0, 0, 0, 0, 0, 0, 0x10, 0,
      0, 0, 0, 0, 0, 0, 0, 0, 0, 0, 0, 1, 0, 0x20, 0, 0, 0, 0, 0, 0}},
    {"lowest byte of size", 6,
     {1, 0, 0, 0, 0, 0, 0, 0, 0, 0, 0, 0, 0, 0, 0, 0, 0, 0, 0x10, 0,
      0, 0, 0, 0, 0, 0, 0, 0, 0, 0, 0, 0, 1, 0x20, 0, 0, 0, 0, 0, 0}},
    {"highest byte of size", 7,
     {1, 0, 0, 0, 0, 0, 0, 0, 0, 0, 0, 0, 0, 0, 0, 0, 0, 0, 0x10, 0,
      0, 0, 0, 0, 0, 0, 0, 0, 0, 0, 0, 0, 0, 0x20, 0, 0, 0, 0, 0, 1}},
};

static void print_input(const uint8_t *record, size_t record_bytes, const waylluqen_space *space)
{
    printf("  record, %zu bytes:", record_bytes);
    for (size_t i = 0; i < record_bytes; i++) {
        printf(" %02x", record[i]);
    }
    printf("\n  space: start %#" PRIx64 ", size %#" PRIx64, space->start, space->size);
    printf(", reserved start %#" PRIx64 ", reserved size %#" PRIx64 "\n", space->reserved_start,
           space->reserved_size);
}

/* Answers 1 where the library's answer is not the expected one or the record has changed. */
static int differs(const char *name, uint32_t expected, const uint8_t *record,
                   size_t record_bytes, const waylluqen_space *space)
{
    /* One byte in front, so that the record is at an odd address. */
    _Alignas(8) uint8_t given[1 + LONGEST_RECORD];
    memcpy(given + 1, record, record_bytes);
    uint32_t answer = waylluqen_check_request(given + 1, record_bytes, space->start, space->size,
                                              space->reserved_start, space->reserved_size);
    if (answer != expected) {
        printf("host/c: %s: expected %" PRIu32 ", answered %" PRIu32 "\n", name, expected, answer);
        print_input(record, record_bytes, space);
        return 1;
    }
    if (memcmp(given + 1, record, record_bytes) != 0) {
        printf("host/c: %s: the record was changed\n", name);
        print_input(record, record_bytes, space);
        return 1;
    }
    return 0;
}

static int run_case(const struct test_case *test)
{
    /* What follows a record of 40 bytes is not 0, so that reading it would be noticed. */
    uint8_t record[LONGEST_RECORD];
    memset(record, 0xa5, sizeof record);
    encode(record, &test->request);
    return differs(test->name, test->expected, record, test->record_bytes, &test->space);
}

int main(void)
{
    const waylluqen_space common = COMMON;
    const size_t count = sizeof cases / sizeof cases[0];
    const size_t raw_count = sizeof raw_cases / sizeof raw_cases[0];
    size_t failed = 0;

    for (size_t i = 0; i < count; i++) {
        failed += (size_t)run_case(&cases[i]);
    }
    for (size_t i = 0; i < raw_count; i++) {
        const struct raw_case *raw = &raw_cases[i];
        failed += (size_t)differs(raw->name, raw->expected, raw->record, RECORD_BYTES, &common);
    }
    if (failed != 0) {
        printf("host/c: %zu of %zu cases failed\n", failed, count + raw_count);
        return 1;
    }
    printf("host/c: %zu cases passed\n", count + raw_count);
    return 0;
}
