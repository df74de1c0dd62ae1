/* How a driver adds and removes sparse ranges, and the test of it: lists that are taken and lists
 * that are refused, requests with the sparse flag, and all that they leave. */
#define _DEFAULT_SOURCE /* for MAP_ANONYMOUS */

#include <inttypes.h>
#include <stdint.h>
#include <stdio.h>
#include <string.h>

#include "binding.h"
#include "lists.h"

/* The most ranges and mappings that a case writes out. */
#define MOST_WRITTEN 5
#define SPARSE WAYLLUQEN_FLAG_SPARSE

/* Requests that come behind the list: with a list at fault each is refused with 18. The table has
 * the five mappings and no room. */
static const struct record behind_list[] = {
    {0, 0, 5, 0, 0x100000, 0, PAGE}, /* with these two nothing is wrong but the room */
    {1, 0, 0, 0, 0x100000, 0, PAGE},
    {1, 0, 0, 0, 0x104000, 0, PAGE}, /* these would be granted */
    {1, 0, 0, 0, 0x100000, 0, 0x3000},
    {0, SPARSE, 0, 0, 0x1f0000, 0, PAGE},
    {1, SPARSE, 0, 0, 0x103000, 0, PAGE},
    {0, 0, 5, 0, 0x100001, 0, PAGE}, /* 6 */
    {0, SPARSE, 0, 0, 0x100000, 1, PAGE},
    {0, 0, 5, 0, 0x200000, 0, PAGE}, /* 7 */
    {1, SPARSE, 0, 0, 0x200000, 0, PAGE},
    {0, 0, 5, 0, 0x140000, 0, PAGE}, /* 8 */
    {0, SPARSE, 0, 0, 0x140000, 0, PAGE},
    {0, 0, 0, 0, 0x100000, 0, PAGE}, /* 9 */
    {0, SPARSE, 5, 0, 0x100000, 0, PAGE},
    {0, 0, 5, 0, 0x100000, LIMIT, PAGE},     /* 10 */
    {0, SPARSE, 0, 0, 0x100000, 0, 0x40000}, /* 19, where a range is there */
    {1, SPARSE, 0, 0, 0x100000, 0, 0x40000}, /* 20 */
};

/* What comes before the list. */
enum fault {
    RECORD_LENGTH,
    OP,
    FLAGS,
    SPACE_START,
    TABLE_LENGTH,
    OPERATIONS,
    COUNT,
    MAPPING,
    STALE_WORD,
    FAULTS
};

static const uint64_t fault_refusal[FAULTS] = {12, 13, 14, 1, 2, 3, 4, 5, 17};

/* A request with the sparse flag, or beside it: the answer, and the list that a grant leaves. No
 * word of table and operations changes. */
struct flag_case {
    const char *name;
    uint64_t refusal;
    waylluqen_space space;
    struct record request;
    uint64_t range_count;
    size_t range_words;
    struct range old[MOST_WRITTEN];
    uint64_t new_count;
    struct range new[MOST_WRITTEN];
    uint64_t count;
    size_t table_words;
    struct mapping table[MOST_WRITTEN];
    int more_words; /* operation words lent beyond the least that will do */
};

#define ADD(start, size) {0, SPARSE, 0, 0, start, 0, size}
#define REMOVE(start, size) {1, SPARSE, 0, 0, start, 0, size}
#define REQUEST(...) {__VA_ARGS__}
#define NO_MAPPING 0, MAPPING_WORDS, {{0, 0, 0, 0}}
#define FIVE_MAPPINGS 5, 5 * MAPPING_WORDS, FIVE
#define ONE_MAPPING(...) 1, 2 * MAPPING_WORDS, {{__VA_ARGS__}}

/* Two ranges, three pages apart, in room for three: in the common space, without a mapping. */
#define LOW {0x104000, 0x2000}
#define HIGH {0x109000, 0x1000}
#define GRANTS(name, request, ...) \
    {name, 0, COMMON, request, 2, IN_ROOM(3), {LOW, HIGH}, __VA_ARGS__, NO_MAPPING, 0}
#define REFUSES(name, number, ...) \
    {name, number, COMMON, REQUEST(__VA_ARGS__), 2, IN_ROOM(3), {LOW, HIGH}, 0, {NO_RANGE}, \
     NO_MAPPING, 0}
/* The same in room for two. */
#define FULL_REFUSES(name, number, ...) \
    {name, number, COMMON, REQUEST(__VA_ARGS__), 2, IN_ROOM(2), {LOW, HIGH}, 0, {NO_RANGE}, \
     NO_MAPPING, 0}
/* A range is added to none, or removed alone, with the five mappings in a full table. */
#define ADDED(name, start, size) \
    {name, 0, COMMON, ADD(start, size), 0, IN_ROOM(1), {NO_RANGE}, 1, {{start, size}}, \
     FIVE_MAPPINGS, 0}
#define REMOVED(name, number, start, size) \
    {name, number, COMMON, REMOVE(start, size), 1, IN_ROOM(2), {{start, size}}, 0, {NO_RANGE}, \
     FIVE_MAPPINGS, 0}

static const struct flag_case flag_cases[] = {
    /* Added in its place, and not joined. */
    {"into an empty list", 0, COMMON, ADD(0x104000, 0x2000), 0, IN_ROOM(1), {NO_RANGE},
     1, {LOW}, NO_MAPPING, 0},
    {"into an empty list for 64", 0, COMMON, ADD(0x104000, 0x2000), 0, IN_ROOM(64), {NO_RANGE},
     1, {LOW}, NO_MAPPING, 0},
    GRANTS("in front", ADD(0x100000, 0x1000), 3, LIST({0x100000, 0x1000}, LOW, HIGH)),
    GRANTS("in front, touching", ADD(0x102000, 0x2000), 3, LIST({0x102000, 0x2000}, LOW, HIGH)),
    GRANTS("between", ADD(0x107000, 0x1000), 3, LIST(LOW, {0x107000, 0x1000}, HIGH)),
    GRANTS("between, touching below", ADD(0x106000, 0x2000), 3,
           LIST(LOW, {0x106000, 0x2000}, HIGH)),
    GRANTS("between, touching above", ADD(0x108000, 0x1000), 3,
           LIST(LOW, {0x108000, 0x1000}, HIGH)),
    GRANTS("all between", ADD(0x106000, 0x3000), 3, LIST(LOW, {0x106000, 0x3000}, HIGH)),
    GRANTS("behind", ADD(0x10c000, 0x1000), 3, LIST(LOW, HIGH, {0x10c000, 0x1000})),
    GRANTS("behind, touching", ADD(0x10a000, 0x1000), 3, LIST(LOW, HIGH, {0x10a000, 0x1000})),
    GRANTS("up to the reservation", ADD(0x10a000, 0x36000), 3,
           LIST(LOW, HIGH, {0x10a000, 0x36000})),
    GRANTS("from the reservation on", ADD(0x180000, 0x80000), 3,
           LIST(LOW, HIGH, {0x180000, 0x80000})),
    GRANTS("the last page", ADD(0x1ff000, 0x1000), 3, LIST(LOW, HIGH, {0x1ff000, 0x1000})),
    {"the whole space", 0, FREE, ADD(0x100000, 0x100000), 0, IN_ROOM(2), {NO_RANGE},
     1, {{0x100000, 0x100000}}, NO_MAPPING, 0},
    {"all there is", 0, WIDEST, ADD(0, LIMIT), 0, IN_ROOM(1), {NO_RANGE},
     1, {{0, LIMIT}}, NO_MAPPING, 0},
    {"the last page of all", 0, WIDEST, ADD(LIMIT - PAGE, PAGE), 1, IN_ROOM(2),
     {{0, LIMIT - PAGE}}, 2, {{0, LIMIT - PAGE}, {LIMIT - PAGE, PAGE}}, NO_MAPPING, 0},
    {"a word more", 0, COMMON, ADD(0x104000, 0x2000), 0, IN_ROOM(1), {NO_RANGE},
     1, {LOW}, NO_MAPPING, 1},

    /* Added over mappings, and beside them; that the table is full does not matter. */
    ADDED("over the first", 0x100000, 0x2000),
    ADDED("inside the first", 0x101000, 0x1000),
    ADDED("over two that touch", 0x100000, 0x3000),
    ADDED("from the first to the second", 0x101000, 0x2000),
    ADDED("across the second's end", 0x102000, 0x2000),
    ADDED("over all below the reservation", 0x100000, 0x40000),
    ADDED("between two", 0x103000, 0x3c000),
    ADDED("around the last", 0x1f0000, 0x10000),

    /* 14 and 13: no other flag, and none beside it. */
    REFUSES("flags 1", 14, 0, 1, 0, 0, 0x107000, 0, PAGE),
    REFUSES("flags 257", 14, 0, 257, 0, 0, 0x107000, 0, PAGE),
    REFUSES("flags 512", 14, 0, 512, 0, 0, 0x107000, 0, PAGE),
    REFUSES("flags 768", 14, 1, 768, 0, 0, 0x104000, 0, 2 * PAGE),
    REFUSES("flags 2^16", 14, 0, 0x10000, 0, 0, 0x107000, 0, PAGE),
    REFUSES("the highest flag too", 14, 0, 0x80000100, 0, 0, 0x107000, 0, PAGE),
    REFUSES("pad 256", 14, 0, 0, 0, 256, 0x107000, 0, PAGE),
    REFUSES("the flag and pad 1", 14, 0, SPARSE, 0, 1, 0x107000, 0, PAGE),
    REFUSES("the flag and op 2", 13, 2, SPARSE, 0, 0, 0x107000, 0, PAGE),

    /* 6 to 9: as of other requests; an unaligned offset is 6, any other is 9, and 10 can't come. */
    REFUSES("added, start one above", 6, 0, SPARSE, 0, 0, 0x107001, 0, PAGE),
    REFUSES("added, size one above", 6, 0, SPARSE, 0, 0, 0x107000, 0, PAGE + 1),
    REFUSES("added, size 0", 6, 0, SPARSE, 0, 0, 0x107000, 0, 0),
    REFUSES("added, offset 1", 6, 0, SPARSE, 0, 0, 0x107000, 1, PAGE),
    REFUSES("added, offset 1 and object", 6, 0, SPARSE, 7, 0, 0x107000, 1, PAGE),
    REFUSES("added, a page below", 7, 0, SPARSE, 0, 0, 0xff000, 0, 2 * PAGE),
    REFUSES("added, a page above", 7, 0, SPARSE, 0, 0, 0x1ff000, 0, 2 * PAGE),
    REFUSES("added, ends above 2^64", 7, 0, SPARSE, 0, 0, LAST_PAGE, 0, 0x102000),
    REFUSES("added, shares a reserved page", 8, 0, SPARSE, 0, 0, 0x13f000, 0, 2 * PAGE),
    REFUSES("added, shares the last one", 8, 0, SPARSE, 0, 0, 0x17f000, 0, 2 * PAGE),
    REFUSES("added, reserved and offset 4096", 8, 0, SPARSE, 0, 0, 0x140000, PAGE, PAGE),
    REFUSES("added, object 1", 9, 0, SPARSE, 1, 0, 0x107000, 0, PAGE),
    REFUSES("added, highest object", 9, 0, SPARSE, UINT32_MAX, 0, 0x107000, 0, PAGE),
    REFUSES("added, offset 4096", 9, 0, SPARSE, 0, 0, 0x107000, PAGE, PAGE),
    REFUSES("added, object and offset", 9, 0, SPARSE, 7, 0, 0x107000, PAGE, PAGE),
    REFUSES("added, offset 2^48", 9, 0, SPARSE, 0, 0, 0x107000, LIMIT, PAGE),
    REFUSES("added, offset and size above 2^64", 9, 0, SPARSE, 0, 0, 0x107000, LAST_PAGE, 2 * PAGE),
    REFUSES("removed, offset 1", 6, 1, SPARSE, 0, 0, 0x104000, 1, 2 * PAGE),
    REFUSES("removed, size 0", 6, 1, SPARSE, 0, 0, 0x104000, 0, 0),
    REFUSES("removed, outside", 7, 1, SPARSE, 0, 0, 0x200000, 0, 2 * PAGE),
    REFUSES("removed, reserved", 8, 1, SPARSE, 0, 0, 0x140000, 0, 2 * PAGE),
    REFUSES("removed, object 1", 9, 1, SPARSE, 1, 0, 0x104000, 0, 2 * PAGE),
    REFUSES("removed, offset 4096", 9, 1, SPARSE, 0, 0, 0x104000, PAGE, 2 * PAGE),
    REFUSES("a map of object 0 without the flag", 9, 0, 0, 0, 0, 0x107000, 0, PAGE),

    /* 19: a byte of a range. */
    REFUSES("is the first", 19, 0, SPARSE, 0, 0, 0x104000, 0, 0x2000),
    REFUSES("is the last", 19, 0, SPARSE, 0, 0, 0x109000, 0, 0x1000),
    REFUSES("starts with the first", 19, 0, SPARSE, 0, 0, 0x104000, 0, 0x1000),
    REFUSES("starts with the first, longer", 19, 0, SPARSE, 0, 0, 0x104000, 0, 0x3000),
    REFUSES("ends with the first", 19, 0, SPARSE, 0, 0, 0x105000, 0, 0x1000),
    REFUSES("shares its first page", 19, 0, SPARSE, 0, 0, 0x103000, 0, 0x2000),
    REFUSES("shares its last page", 19, 0, SPARSE, 0, 0, 0x105000, 0, 0x2000),
    REFUSES("around the first", 19, 0, SPARSE, 0, 0, 0x103000, 0, 0x4000),
    REFUSES("around the last", 19, 0, SPARSE, 0, 0, 0x108000, 0, 0x3000),
    REFUSES("around both", 19, 0, SPARSE, 0, 0, 0x100000, 0, 0x40000),
    REFUSES("from the first to the last", 19, 0, SPARSE, 0, 0, 0x105000, 0, 0x5000),
    REFUSES("between, a page too long", 19, 0, SPARSE, 0, 0, 0x106000, 0, 0x4000),

    /* 11: a full list, also one with room for none. */
    FULL_REFUSES("in front, no room", 11, 0, SPARSE, 0, 0, 0x100000, 0, PAGE),
    FULL_REFUSES("between, no room", 11, 0, SPARSE, 0, 0, 0x107000, 0, PAGE),
    FULL_REFUSES("behind, no room", 11, 0, SPARSE, 0, 0, 0x10a000, 0, PAGE),
    {"room for none", 11, COMMON, ADD(0x104000, 0x2000), 0, 0, {NO_RANGE}, 0, {NO_RANGE},
     NO_MAPPING, 0},
    {"room for one", 11, COMMON, ADD(0x109000, 0x1000), 1, IN_ROOM(1), {LOW}, 0, {NO_RANGE},
     NO_MAPPING, 0},

    /* Removed: the only one, the first, the one between, the last; those beside it stay. */
    {"the only one", 0, COMMON, REMOVE(0x104000, 0x2000), 1, IN_ROOM(1), {LOW}, 0, {NO_RANGE},
     NO_MAPPING, 0},
    {"the only one of room for 64", 0, COMMON, REMOVE(0x104000, 0x2000), 1, IN_ROOM(64), {LOW},
     0, {NO_RANGE}, NO_MAPPING, 0},
    GRANTS("the first goes", REMOVE(0x104000, 0x2000), 1, LIST(HIGH)),
    GRANTS("the last goes", REMOVE(0x109000, 0x1000), 1, LIST(LOW)),
    {"the one between goes", 0, COMMON, REMOVE(0x106000, 0x3000), 3, IN_ROOM(3),
     {LOW, {0x106000, 0x3000}, HIGH}, 2, {LOW, HIGH}, NO_MAPPING, 0},
    {"the first of three goes", 0, COMMON, REMOVE(0x104000, 0x2000), 3, IN_ROOM(5),
     {LOW, {0x106000, 0x3000}, HIGH}, 2, {{0x106000, 0x3000}, HIGH}, NO_MAPPING, 0},
    {"the last of three goes", 0, COMMON, REMOVE(0x109000, 0x1000), 3, IN_ROOM(3),
     {LOW, {0x106000, 0x3000}, HIGH}, 2, {LOW, {0x106000, 0x3000}}, NO_MAPPING, 0},
    {"all there is goes", 0, WIDEST, REMOVE(0, LIMIT), 1, IN_ROOM(1), {{0, LIMIT}}, 0, {NO_RANGE},
     NO_MAPPING, 0},

    /* 20: none with that start and size. */
    {"removed from no room", 20, COMMON, REMOVE(0x104000, 0x2000), 0, 0, {NO_RANGE}, 0, {NO_RANGE},
     NO_MAPPING, 0},
    {"removed from no range", 20, COMMON, REMOVE(0x104000, 0x2000), 0, IN_ROOM(2), {NO_RANGE},
     0, {NO_RANGE}, NO_MAPPING, 0},
    REFUSES("its start, shorter", 20, 1, SPARSE, 0, 0, 0x104000, 0, 0x1000),
    REFUSES("its start, longer", 20, 1, SPARSE, 0, 0, 0x104000, 0, 0x3000),
    REFUSES("its end, shorter", 20, 1, SPARSE, 0, 0, 0x105000, 0, 0x1000),
    REFUSES("its end, longer", 20, 1, SPARSE, 0, 0, 0x103000, 0, 0x3000),
    REFUSES("its size, elsewhere", 20, 1, SPARSE, 0, 0, 0x105000, 0, 0x2000),
    REFUSES("one's start, the other's size", 20, 1, SPARSE, 0, 0, 0x109000, 0, 0x2000),
    REFUSES("around both, removed", 20, 1, SPARSE, 0, 0, 0x104000, 0, 0x6000),
    REFUSES("in front of all", 20, 1, SPARSE, 0, 0, 0x100000, 0, 0x2000),
    REFUSES("in the gap", 20, 1, SPARSE, 0, 0, 0x106000, 0, 0x3000),
    REFUSES("behind all", 20, 1, SPARSE, 0, 0, 0x10a000, 0, 0x1000),
    {"two that touch, as one", 20, COMMON, REMOVE(0x104000, 0x5000), 2, IN_ROOM(2),
     {LOW, {0x106000, 0x3000}}, 0, {NO_RANGE}, NO_MAPPING, 0},

    /* 20: a mapping shares a byte. One that touches does not, nor does one elsewhere. */
    REMOVED("is a mapping's", 20, 0x102000, 0x1000),
    REMOVED("around a mapping", 20, 0x101000, 0x3000),
    REMOVED("inside a mapping", 20, 0x101000, 0x1000),
    REMOVED("shares a mapping's last page", 20, 0x102000, 0x3000),
    REMOVED("shares a mapping's first page", 20, 0x13e000, 0x2000),
    REMOVED("mappings in its middle", 20, 0x100000, 0x40000),
    REMOVED("touches a mapping below", 0, 0x103000, 0x1000),
    REMOVED("touches a mapping above", 0, 0x13e000, 0x1000),
    REMOVED("touches one on each side", 0, 0x103000, 0x3c000),
    REMOVED("behind the reservation, touching", 0, 0x181000, 0x7e000),
    REMOVED("away from mappings", 0, 0x110000, 0x1000),
    {"a mapping in another one", 0, COMMON, REMOVE(0x109000, 0x1000), 2, IN_ROOM(2), {LOW, HIGH},
     1, {LOW}, ONE_MAPPING(0x104000, 0x2000, 7, 0), 0},
    {"all of a space, mapped", 20, FREE, REMOVE(0x100000, 0x100000), 1, IN_ROOM(1),
     {{0x100000, 0x100000}}, 0, {NO_RANGE}, ONE_MAPPING(0x100000, 0x100000, 7, 0), 0},
    {"all of a space, its last page mapped", 20, FREE, REMOVE(0x100000, 0x100000), 1, IN_ROOM(1),
     {{0x100000, 0x100000}}, 0, {NO_RANGE}, ONE_MAPPING(0x1ff000, 0x1000, 7, 0), 0},

    /* 3: operation words too few, though none is needed. */
    {"added, a word less", 3, COMMON, ADD(0x104000, 0x2000), 0, IN_ROOM(1), {NO_RANGE},
     0, {NO_RANGE}, NO_MAPPING, -1},
    {"removed, a word less", 3, COMMON, REMOVE(0x104000, 0x2000), 1, IN_ROOM(1), {LOW},
     0, {NO_RANGE}, NO_MAPPING, -1},
    {"added, no operation word", 3, COMMON, ADD(0x104000, 0x2000), 0, IN_ROOM(1), {NO_RANGE},
     0, {NO_RANGE}, NO_MAPPING, -2 * OPERATION_WORDS},

    /* The order: each comes before the next, whatever else is wrong. */
    FULL_REFUSES("6 before 19", 6, 0, SPARSE, 7, 0, 0x104001, 0, 0x2000),
    FULL_REFUSES("7 before 19", 7, 0, SPARSE, 7, 0, 0xff000, 0, 0x7000),
    FULL_REFUSES("8 before 19", 8, 0, SPARSE, 7, 0, 0x104000, 0, 0x40000),
    FULL_REFUSES("9 before 19", 9, 0, SPARSE, 7, 0, 0x104000, 0, 0x2000),
    FULL_REFUSES("9 before 11", 9, 0, SPARSE, 0, 0, 0x107000, PAGE, 0x1000),
    FULL_REFUSES("19 before 11", 19, 0, SPARSE, 0, 0, 0x105000, 0, 0x2000),
    FULL_REFUSES("6 before 20", 6, 1, SPARSE, 0, 0, 0x107000, 1, 0x1000),
    FULL_REFUSES("9 before 20", 9, 1, SPARSE, 0, 0, 0x107000, PAGE, 0x1000),
    FULL_REFUSES("20, and not 11", 20, 1, SPARSE, 0, 0, 0x107000, 0, 0x1000),
};

/* The written ranges or mappings, and zeros behind them. */
static const uint64_t *padded(uint64_t *words, size_t most, const void *written, size_t bytes)
{
    memset(words, 0, most * sizeof *words);
    memcpy(words, written, bytes);
    return words;
}

/* Asks by a record, and where it has no flag by numbers too, with everything at the front and with
 * everything at the back; answers 1 where one is not as expected. */
static int run(struct call *call, const struct record *record, size_t record_bytes,
               const uint64_t *ranges, const uint64_t *old)
{
    const waylluqen_request request = {record->op, record->address, record->size, record->object,
                                       record->offset};
    uint8_t bytes[LONGEST_RECORD];
    memset(bytes, UNWRITTEN_BYTE, sizeof bytes);
    encode(bytes, record);
    for (int way = 0; way < WAYS; way += WAYS - 1) {
        lend_all(call, ranges, old, way);
        if (differs(call, NULL, bytes, record_bytes)) {
            return 1;
        }
        lend_all(call, ranges, old, way);
        if (record->flags == 0 && record->pad == 0 && record_bytes == RECORD_BYTES &&
            differs(call, &request, NULL, 0)) {
            return 1;
        }
    }
    return 0;
}

/* The five mappings in a table that is full of them, or none where they are not in the space. */
static const uint64_t *five_or_none(struct call *call)
{
    static const struct mapping five[] = FIVE;
    static uint64_t words[NUMBER(five) * MAPPING_WORDS];
    const waylluqen_space common = COMMON;
    int is_common = memcmp(&call->space, &common, sizeof common) == 0;
    call->count = is_common ? NUMBER(five) : 0;
    call->table_words = NUMBER(words);
    call->list_words = list_words(NUMBER(words), 0);
    return padded(words, NUMBER(words), five, is_common ? sizeof five : 0);
}

/* Each fault that comes before the list, in a call to which a bad list is lent. */
static int run_fault(struct call call, enum fault fault, const uint64_t *ranges)
{
    struct record record = {0, SPARSE, 0, 0, 0x104000, 0, PAGE};
    uint64_t words[2 * MAPPING_WORDS] = {0};
    size_t record_bytes = RECORD_BYTES - (fault == RECORD_LENGTH);
    record.op += fault == OP ? 2 : 0;
    record.flags += fault == FLAGS;
    call.space.start += fault == SPACE_START;
    call.table_words = NUMBER(words) - (fault == TABLE_LENGTH);
    call.list_words = list_words(call.table_words, 0) - (fault == OPERATIONS);
    call.count = fault == COUNT ? 3 : fault == MAPPING ? 1 : 0;
    words[NUMBER(words) - 1] = fault == STALE_WORD;
    call.expected = (waylluqen_answer){fault_refusal[fault], 0, 0, call.count, call.range_count};
    if (run(&call, &record, record_bytes, ranges, words)) {
        return 1;
    }
    /* Without the flag too. */
    record.flags = fault == FLAGS;
    record.object = 7;
    return run(&call, &record, record_bytes, ranges, words);
}

/* A bad list: every request behind it is refused with 18, and every fault before it comes first. */
static int run_bad(struct call *call, const uint64_t *ranges)
{
    const uint64_t *old = five_or_none(call);
    call->expected = (waylluqen_answer){18, 0, 0, call->count, call->range_count};
    for (size_t i = 0; i < NUMBER(behind_list); i++) {
        if (run(call, &behind_list[i], RECORD_BYTES, ranges, old)) {
            return 1;
        }
    }
    for (enum fault fault = 0; fault < FAULTS; fault++) {
        if (run_fault(*call, fault, ranges)) {
            return 1;
        }
    }
    return 0;
}

static int run_list(const struct list_case *test)
{
    uint64_t words[LONGEST_RANGES];
    const uint64_t *ranges = padded(words, NUMBER(words), test->list, sizeof test->list);
    struct call call = {.name = test->name,
                        .space = test->space,
                        .range_count = test->count,
                        .range_words = test->words};
    if (test->bad) {
        return run_bad(&call, ranges);
    }
    /* Good, so that it is the request that is answered: nothing is mapped in the last page but one,
     * and nothing is to be mapped there. */
    const uint64_t last = test->space.start + test->space.size - 2 * PAGE;
    const struct record unmap = {.op = WAYLLUQEN_OP_UNMAP, .address = last, .size = PAGE};
    const struct record map = {.address = last, .size = PAGE};
    const uint64_t *old = five_or_none(&call);
    int is_reserved = test->space.size == test->space.reserved_size;
    call.expected = (waylluqen_answer){is_reserved ? 8 : 0, 0, 0, call.count, test->count};
    if (run(&call, &unmap, RECORD_BYTES, ranges, old)) {
        return 1;
    }
    call.expected.refusal = is_reserved ? 8 : 9;
    return run(&call, &map, RECORD_BYTES, ranges, old);
}

static int run_flag(const struct flag_case *test)
{
    uint64_t ranges[MOST_RANGES * RANGE_WORDS], new[MOST_RANGES * RANGE_WORDS];
    uint64_t old[MOST_WRITTEN * MAPPING_WORDS];
    int granted = test->refusal == 0;
    struct call call = {.name = test->name,
                        .space = test->space,
                        .expected = {test->refusal, 0, 0, test->count,
                                     granted ? test->new_count : test->range_count},
                        .range_count = test->range_count,
                        .range_words = test->range_words,
                        .count = test->count,
                        .table_words = test->table_words,
                        .list_words = list_words(test->table_words, test->more_words),
                        .new_ranges = padded(new, NUMBER(new), test->new, sizeof test->new)};
    return run(&call, &test->request, RECORD_BYTES,
               padded(ranges, NUMBER(ranges), test->old, sizeof test->old),
               padded(old, NUMBER(old), test->table, sizeof test->table));
}

/* Place p has pages [4p + 1, 4p + 3), in a space that has four pages for each of 64 places. */
#define RANGES_SPACE {0, 4 * MOST_RANGES * PAGE, 0, 0}
static void fill_ranges(struct range *to, size_t count)
{
    for (size_t place = 0; place < count; place++) {
        to[place] = (struct range){(4 * place + 1) * PAGE, 2 * PAGE};
    }
}

/* Lists in that space, with an empty table. */
static struct call place_call(const char *name, uint64_t count, size_t capacity)
{
    return (struct call){.name = name,
                         .space = RANGES_SPACE,
                         .range_count = count,
                         .range_words = capacity * RANGE_WORDS,
                         .table_words = MAPPING_WORDS,
                         .list_words = list_words(MAPPING_WORDS, 0)};
}

/* Asks for a range of pages [first, end), with the flag. */
static int ask_pages(struct call *call, uint32_t op, uint64_t first, uint64_t end,
                     const struct range *ranges, const uint64_t *old)
{
    const struct record record = {op, SPARSE, 0, 0, first * PAGE, 0, (end - first) * PAGE};
    uint64_t words[MOST_RANGES * RANGE_WORDS];
    memcpy(words, ranges, sizeof words);
    return run(call, &record, RECORD_BYTES, words, old);
}

/* A list of so many ranges: one more at each place, and one less. */
static int run_places(size_t count, size_t capacity)
{
    static const uint64_t no_mapping[MAPPING_WORDS];
    struct range old[MOST_RANGES] = {{0, 0}}, new[MOST_RANGES + 1];
    struct call call = place_call("at each place", count, capacity);
    call.new_ranges = (const uint64_t *)(const void *)new;
    fill_ranges(old, count);
    for (size_t place = 0; place < count; place++) {
        memcpy(new, old, sizeof old);
        memmove(new + place, new + place + 1, (count - place - 1) * sizeof *new);
        call.expected = (waylluqen_answer){0, 0, 0, 0, count - 1};
        if (ask_pages(&call, 1, 4 * place + 1, 4 * place + 3, old, no_mapping)) {
            return 1;
        }
    }
    /* The page that touches the place's range below. */
    for (size_t place = 0; place <= count && place < MOST_RANGES; place++) {
        memcpy(new, old, sizeof old);
        memmove(new + place + 1, new + place, (count - place) * sizeof *new);
        new[place] = (struct range){4 * place * PAGE, PAGE};
        call.expected = count < capacity ? (waylluqen_answer){0, 0, 0, 0, count + 1}
                                         : (waylluqen_answer){11, 0, 0, 0, count};
        if (ask_pages(&call, 0, 4 * place, 4 * place + 1, old, no_mapping)) {
            return 1;
        }
    }
    return 0;
}

/* All lists without room for more, and with some. */
static int run_all_places(void)
{
    for (size_t count = 0; count <= MOST_RANGES; count++) {
        size_t more = count + 3 < MOST_RANGES ? count + 3 : MOST_RANGES;
        if (run_places(count, count) || run_places(count, more) ||
            run_places(count, MOST_RANGES)) {
            return 1;
        }
    }
    return 0;
}

static int is_apart(uint64_t first, uint64_t end, uint64_t first2, uint64_t end2)
{
    return end <= first2 || end2 <= first;
}

/* Three ranges in room for four, and every range of pages to be added: 19 exactly if a page is
 * shared. Its place is the one behind those that end before it. */
static int run_all_added(void)
{
    static const uint64_t no_mapping[MAPPING_WORDS];
    struct range old[MOST_RANGES] = {{0, 0}}, new[MOST_RANGES];
    struct call call = place_call("added anywhere", 3, 4);
    call.new_ranges = (const uint64_t *)(const void *)new;
    fill_ranges(old, 3);
    for (uint64_t first = 0; first < 13; first++) {
        for (uint64_t end = first + 1; end <= 13; end++) {
            size_t place = 0, shared = 0;
            for (size_t i = 0; i < 3; i++) {
                place += 4 * i + 3 <= first;
                shared += !is_apart(first, end, 4 * i + 1, 4 * i + 3);
            }
            memcpy(new, old, sizeof old);
            memmove(new + place + 1, new + place, (3 - place) * sizeof *new);
            new[place] = (struct range){first * PAGE, (end - first) * PAGE};
            call.expected = shared ? (waylluqen_answer){19, 0, 0, 0, 3}
                                   : (waylluqen_answer){0, 0, 0, 0, 4};
            if (ask_pages(&call, 0, first, end, old, no_mapping)) {
                return 1;
            }
        }
    }
    return 0;
}

/* Three ranges, of which the one between is removed, and a mapping of every range of pages: 20
 * exactly if it shares a page. */
static int run_all_mapped(void)
{
    struct range old[MOST_RANGES] = {{0, 0}}, new[MOST_RANGES] = {{0, 0}};
    struct call call = place_call("mapped anywhere", 3, 3);
    call.count = 1;
    call.new_ranges = (const uint64_t *)(const void *)new;
    fill_ranges(old, 3);
    new[0] = old[0];
    new[1] = old[2];
    for (uint64_t first = 0; first < 13; first++) {
        for (uint64_t end = first + 1; end <= 13; end++) {
            uint64_t mapping[MAPPING_WORDS] = {first * PAGE, (end - first) * PAGE, 7, 0};
            call.expected = is_apart(first, end, 5, 7) ? (waylluqen_answer){0, 0, 0, 1, 2}
                                                       : (waylluqen_answer){20, 0, 0, 1, 3};
            if (ask_pages(&call, 1, 5, 7, old, mapping)) {
                return 1;
            }
        }
    }
    return 0;
}

/* A list with one word changed, each in its turn: so that it is no multiple of a page, a size so
 * that it is 0 or shares a page, a start so that it is out of order or outside. */
static int run_damaged(size_t count)
{
    static const uint64_t no_mapping[MAPPING_WORDS];
    struct range old[MOST_RANGES] = {{0, 0}};
    uint64_t words[MOST_RANGES * RANGE_WORDS];
    const struct record unmap = {.op = WAYLLUQEN_OP_UNMAP, .size = PAGE};
    struct call call = place_call("one word of a list", count, count);
    call.expected = (waylluqen_answer){18, 0, 0, 0, count};
    fill_ranges(old, count);
    memcpy(words, old, sizeof words);
    for (size_t at = 0; at < call.range_words; at++) {
        int is_last = at + 1 == call.range_words;
        const uint64_t good = words[at];
        const uint64_t bad[] = {good + 1, good + 0x800, at % 2 ? 0 : good + HALF,
                                at % 2 ? (is_last ? LIMIT : 5 * PAGE) : at ? PAGE : LIMIT};
        for (size_t i = 0; i < NUMBER(bad); i++) {
            words[at] = bad[i];
            if (run(&call, &unmap, RECORD_BYTES, words, no_mapping)) {
                printf("host/c: word %zu of %zu ranges is %#" PRIx64 "\n", at, count, bad[i]);
                return 1;
            }
        }
        words[at] = good;
    }
    return 0;
}

/* By numbers and by record, without the flag and with it, while one word of the list is stale. */
static int is_taken(const struct call *call)
{
    const waylluqen_request request = {WAYLLUQEN_OP_MAP, 0, PAGE, 5, 0};
    const struct record records[] = {
        {0, 0, 5, 0, 0, 0, PAGE}, ADD(0, PAGE), REMOVE(PAGE, 2 * PAGE)};
    uint8_t bytes[RECORD_BYTES];
    int wrong = is_wrong(call, &request, NULL, 0);
    for (size_t i = 0; i < NUMBER(records) && !wrong; i++) {
        encode(bytes, &records[i]);
        wrong = is_wrong(call, NULL, bytes, sizeof bytes);
    }
    return wrong;
}

/* Each word behind the count stale in its turn. No lent word may change: each of these is looked at
 * in its turn, and all when all is asked. */
static int run_stale(size_t count, size_t capacity, int way)
{
    static const uint64_t no_mapping[MAPPING_WORDS];
    struct range old[MOST_RANGES] = {{0, 0}};
    uint64_t words[MOST_RANGES * RANGE_WORDS];
    struct call call = place_call("a stale word", count, capacity);
    call.expected = (waylluqen_answer){18, 0, 0, 0, count};
    fill_ranges(old, count);
    memcpy(words, old, sizeof words);
    lend_all(&call, words, no_mapping, way);
    foresee(&call);
    for (size_t at = count * RANGE_WORDS; at < call.range_words; at++) {
        int changed = call.ranges[at] != 0;
        call.ranges[at] = stale_word(at);
        int taken = is_taken(&call);
        if (taken || changed || call.ranges[at] != stale_word(at)) {
            printf("host/c: stale word %zu, %zu ranges in %zu words: %s\n", at, count,
                   call.range_words, taken ? "taken" : "changed");
            return 1;
        }
        call.ranges[at] = 0;
    }
    return is_left_otherwise(&call);
}

/* All lists that have a word behind their ranges, at the front and at the back of the memory. */
static int run_all_stale(void)
{
    for (size_t capacity = 1; capacity <= MOST_RANGES; capacity++) {
        for (size_t count = 0; count < capacity; count++) {
            if (run_stale(count, capacity, 0) || run_stale(count, capacity, WAYS - 1)) {
                return 1;
            }
        }
    }
    return 0;
}

int main(void)
{
    const size_t all = NUMBER(lists) + NUMBER(flag_cases);
    size_t failed = 0;

    /* Room for five mappings. */
    if (!prepare_all(32, list_words(5 * MAPPING_WORDS, 1))) {
        printf("host/c: mmap failed\n");
        return 1;
    }
    for (size_t i = 0; i < NUMBER(lists); i++) {
        failed += (size_t)run_list(&lists[i]);
    }
    for (size_t i = 0; i < NUMBER(flag_cases); i++) {
        failed += (size_t)run_flag(&flag_cases[i]);
    }
    failed += (size_t)(run_all_places() + run_all_added() + run_all_mapped());
    failed += (size_t)(run_damaged(1) + run_damaged(2) + run_damaged(MOST_RANGES));
    failed += (size_t)run_all_stale();
    if (failed != 0) {
        printf("host/c: %zu lists and sparse requests failed\n", failed);
        return 1;
    }
    printf("host/c: %zu lists and sparse requests, each place, each mapping, ", all);
    printf("and each bad and stale word of lists, passed\n");
    return 0;
}
