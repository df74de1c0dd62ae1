/* One request with all that is lent to it, made between pages that may not be touched: what the
 * tests of requests share. Every lent word is compared with what the request should leave. */
#ifndef BINDING_H
#define BINDING_H

#include <inttypes.h>
#include <stdio.h>

#include "support.h"

#define OPERATION_WORDS WAYLLUQEN_OPERATION_WORDS
#define LONGEST_LIST ((LONGEST_TABLE / MAPPING_WORDS + 2) * OPERATION_WORDS)
#define LONGEST_RECORD 80
#define NUMBER(cases) (sizeof(cases) / sizeof(cases)[0])

struct operation {
    uint64_t kind;
    uint64_t keep;
    struct mapping named;
    struct mapping lower;
    struct mapping upper;
};

_Static_assert(sizeof(waylluqen_request) == 40, "five words, without a gap");
_Static_assert(sizeof(waylluqen_answer) == 40, "five words, without a gap");
_Static_assert(sizeof(struct operation) == OPERATION_WORDS * sizeof(uint64_t), "its words");

/* The drawings' space, and a mapping there: pages [first, end), object, page of the object. */
#define DRAWN {0, 16 * PAGE, 0, 0}
#define P(first, end, object, offset) \
    {(first) * PAGE, ((end) - (first)) * PAGE, object, (offset) * PAGE}

#define NONE {0, 0, 0, 0}
#define MAPS(new) {WAYLLUQEN_KIND_MAP, 0, new, NONE, NONE}
#define UNMAPS(keep, old) {WAYLLUQEN_KIND_UNMAP, keep, old, NONE, NONE}
#define REMAPS(keep, old, lower, upper) {WAYLLUQEN_KIND_REMAP, keep, old, lower, upper}
#define LIST(...) {__VA_ARGS__}

/* The number of mappings before, and how many there is room for. */
#define ROOM(count, capacity) count, (capacity) * MAPPING_WORDS

/* What a request answers, but for the list's count. */
#define GRANTED(operations, count) {0, 0, operations, count, 0}
#define REFUSED(number, count) {number, 0, 0, count, 0}
#define BAD_PLACE(place, count) {WAYLLUQEN_REFUSED_BAD_MAPPING, place, 0, count, 0}

static struct lent lent_ranges;
static struct lent lent_table;
static struct lent lent_list;

/* One call: what is lent, and what it should leave. */
struct call {
    const char *name;
    waylluqen_space space;
    waylluqen_answer expected;
    uint64_t range_count;
    size_t range_words;
    uint64_t count;
    size_t table_words;
    size_t list_words;
    uint64_t *ranges;
    uint64_t *table;
    uint64_t *list;
    /* On a grant: the words at the front of list, table and operations. Where there are none, list
     * or table stays as it is. */
    const uint64_t *new_ranges;
    const uint64_t *new_words;
    const uint64_t *new_list;
};

static inline int prepare_all(size_t table_words, size_t list_words)
{
    return prepare(&lent_ranges, LONGEST_RANGES) && prepare(&lent_table, table_words) &&
           prepare(&lent_list, list_words);
}

static inline void print_answer(const char *what, waylluqen_answer answer)
{
    printf("  %s: refusal %" PRIu64 ", place %" PRIu64, what, answer.refusal, answer.place);
    printf(", operations %" PRIu64 ", count %" PRIu64, answer.operations, answer.count);
    printf(", ranges %" PRIu64 "\n", answer.ranges);
}

static inline int is_same(waylluqen_answer one, waylluqen_answer other)
{
    return one.refusal == other.refusal && one.place == other.place &&
           one.operations == other.operations && one.count == other.count &&
           one.ranges == other.ranges;
}

/* Prints the first word of lent memory that is not as expected; answers 1 if there is one. */
static inline int is_changed(const char *name, const char *what, const struct lent *lent,
                             const uint8_t *expected, const uint64_t *words)
{
    /* At once, since the memory is long. */
    if (memcmp(lent->memory, expected, lent->bytes) == 0) {
        return 0;
    }
    for (size_t at = 0; at < lent->bytes; at += sizeof(uint64_t)) {
        if (memcmp(lent->memory + at, expected + at, sizeof(uint64_t)) != 0) {
            uint64_t should, is;
            memcpy(&should, expected + at, sizeof should);
            memcpy(&is, lent->memory + at, sizeof is);
            printf("host/c: %s: word %td of the %s is %#" PRIx64 ", not %#" PRIx64 "\n", name,
                   (const uint64_t *)(const void *)(lent->memory + at) - words, what, is, should);
            return 1;
        }
    }
    return 0;
}

/* What the memory should hold when all is asked. */
static uint8_t left_ranges[(LONGEST_RANGES + 512) * sizeof(uint64_t)];
static uint8_t left_table[(LONGEST_TABLE + 512) * sizeof(uint64_t)];
static uint8_t left_list[(LONGEST_LIST + 512) * sizeof(uint64_t)];

/* Puts new words to the front of what is lent, and zeros behind them. */
static inline void renew(uint8_t *left, const struct lent *lent, const uint64_t *at, size_t words,
                         const uint64_t *new_words, size_t new_count)
{
    uint8_t *front = left + ((const uint8_t *)at - lent->memory);
    if (new_words != NULL) {
        memcpy(front, new_words, new_count * sizeof *new_words);
        memset(front + new_count * sizeof *new_words, 0, (words - new_count) * sizeof *new_words);
    }
}

/* What the memory should hold after the call: as it is, and on a grant with the new words. */
static inline void foresee(const struct call *call)
{
    memcpy(left_ranges, lent_ranges.memory, lent_ranges.bytes);
    memcpy(left_table, lent_table.memory, lent_table.bytes);
    memcpy(left_list, lent_list.memory, lent_list.bytes);
    if (call->expected.refusal != 0) {
        return;
    }
    renew(left_ranges, &lent_ranges, call->ranges, call->range_words, call->new_ranges,
          call->expected.ranges * RANGE_WORDS);
    renew(left_table, &lent_table, call->table, call->table_words, call->new_words,
          call->expected.count * MAPPING_WORDS);
    /* Behind the operations all is as it was. */
    size_t written = call->expected.operations * OPERATION_WORDS;
    renew(left_list, &lent_list, call->list, written, call->new_list, written);
}

/* By numbers the list can only be read: a write ends the test. */
static inline waylluqen_answer ask_by_numbers(const struct call *call, waylluqen_request request)
{
    if (!allow(&lent_ranges, PROT_READ)) {
        return (waylluqen_answer)REFUSED(UINT64_MAX, 0);
    }
    waylluqen_answer answer = waylluqen_bind(
        call->space, call->ranges, call->range_words, call->range_count, call->table,
        call->table_words, call->count, call->list, call->list_words, request);
    return allow(&lent_ranges, READ_AND_WRITE) ? answer
                                               : (waylluqen_answer)REFUSED(UINT64_MAX, 0);
}

static inline waylluqen_answer ask_by_record(const struct call *call, const uint8_t *record,
                                             size_t record_bytes)
{
    return waylluqen_bind_record(call->space, call->ranges, call->range_words, call->range_count,
                                 call->table, call->table_words, call->count, call->list,
                                 call->list_words, record, record_bytes);
}

/* Asks by numbers, or by record where there is one; answers 1 where that is answered otherwise. */
static inline int is_wrong(const struct call *call, const waylluqen_request *request,
                           const uint8_t *record, size_t record_bytes)
{
    waylluqen_answer answer = record == NULL ? ask_by_numbers(call, *request)
                                             : ask_by_record(call, record, record_bytes);
    if (is_same(answer, call->expected)) {
        return 0;
    }
    printf("host/c: %s, by %s\n", call->name, record == NULL ? "numbers" : "record");
    print_answer("expected", call->expected);
    print_answer("answered", answer);
    return 1;
}

static inline int is_left_otherwise(const struct call *call)
{
    return is_changed(call->name, "list of ranges", &lent_ranges, left_ranges, call->ranges) ||
           is_changed(call->name, "table", &lent_table, left_table, call->table) ||
           is_changed(call->name, "operations", &lent_list, left_list, call->list);
}

/* Asks once; answers 1 where the answer or what it leaves is not as expected. */
static inline int differs(const struct call *call, const waylluqen_request *request,
                          const uint8_t *record, size_t record_bytes)
{
    foresee(call);
    return is_wrong(call, request, record, record_bytes) || is_left_otherwise(call);
}

/* What is lent at the back of its memory; the rest at the front. */
enum { TABLE_AT_BACK = 1, LIST_AT_BACK = 2, RANGES_AT_BACK = 4, WAYS = 8 };

/* Lends the words of a list and of a table, and operation words, each at the front or the back. */
static inline void lend_all(struct call *call, const uint64_t *ranges, const uint64_t *old, int way)
{
    static uint64_t unwritten[LONGEST_LIST];
    memset(unwritten, UNWRITTEN_BYTE, call->list_words * sizeof *unwritten);
    call->ranges = lend(&lent_ranges, ranges, call->range_words, (way & RANGES_AT_BACK) != 0);
    call->table = lend(&lent_table, old, call->table_words, (way & TABLE_AT_BACK) != 0);
    call->list = lend(&lent_list, unwritten, call->list_words, (way & LIST_AT_BACK) != 0);
}

/* The least operation words for a table, and some more or fewer. */
static inline size_t list_words(size_t table_words, int more)
{
    size_t least = (table_words / MAPPING_WORDS + 1) * OPERATION_WORDS;
    return more < 0 ? least - (size_t)-more : least + (size_t)more;
}

#endif
