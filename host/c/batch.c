/* How a driver maps and unmaps by an array of records, all or none, and the test of it: batches
 * that are granted, with all that they leave; batches that are refused, by themselves or for the
 * request at each place; and the same requests one by one. */
#define _DEFAULT_SOURCE /* for MAP_ANONYMOUS */

#include <inttypes.h>
#include <stdint.h>
#include <stdio.h>
#include <string.h>

#include "binding.h"
#include "lists.h"

#define MOST_REQUESTS 64
#define MOST_BYTES (MOST_REQUESTS * RECORD_BYTES)
/* Longer than a batch may be. */
#define LONGEST_BATCH 4096
/* The most that a case writes out: mappings, requests, operations. */
#define MOST_WRITTEN 5
#define MOST_ASKED 5
#define MOST_OPERATIONS 6

/* A batch with all that is lent to it; the call has what it should answer and leave. */
struct batch {
    struct call call;
    size_t work_words;
    size_t record_bytes;
    uint64_t *work;
    const uint8_t *records;
};

/* The words and bytes of which it is lent a copy. */
struct given {
    const uint64_t *ranges;
    const uint64_t *old;
    const uint8_t *records;
};

static struct lent lent_work;
static struct lent lent_records;

/* What the memory should hold when all is asked. */
static uint8_t left_work[sizeof left_table];
static uint8_t left_records[2 * LONGEST_BATCH];

static const uint64_t no_ranges[1];

static int prepare_batches(size_t table_words, size_t list_words)
{
    return prepare_all(table_words, list_words) && prepare(&lent_work, table_words) &&
           prepare(&lent_records, LONGEST_BATCH / sizeof(uint64_t));
}

/* Whether a refusal is the batch's own, and not that of one of its requests. */
static int is_own(uint64_t refusal)
{
    return (refusal >= 1 && refusal <= 5) || refusal == 12 || refusal == 15 || refusal == 17 ||
           refusal == 18;
}

/* A grant leaves zeros to work in, and so does a request that is refused, and zeros for operations
 * too. The batch's own refusal changes nothing. */
static void foresee_batch(const struct batch *batch)
{
    static const uint64_t no_words[1];
    const struct call *call = &batch->call;
    foresee(call);
    memcpy(left_work, lent_work.memory, lent_work.bytes);
    memcpy(left_records, lent_records.memory, lent_records.bytes);
    if (is_own(call->expected.refusal)) {
        return;
    }
    renew(left_work, &lent_work, batch->work, batch->work_words, no_words, 0);
    if (call->expected.refusal != 0) {
        renew(left_list, &lent_list, call->list, call->list_words, no_words, 0);
    }
}

static int allow_reading(int what)
{
    return allow(&lent_ranges, what) && allow(&lent_records, what);
}

/* The list of sparse ranges and the records can only be read: a write ends the test. */
static waylluqen_answer ask_batch(const struct batch *batch)
{
    const struct call *call = &batch->call;
    waylluqen_answer answer = REFUSED(UINT64_MAX, 0);
    if (allow_reading(PROT_READ)) {
        answer = waylluqen_bind_batch(call->space, call->ranges, call->range_words,
                                      call->range_count, call->table, call->table_words,
                                      call->count, batch->work, batch->work_words, call->list,
                                      call->list_words, batch->records, batch->record_bytes);
    }
    return allow_reading(READ_AND_WRITE) ? answer : (waylluqen_answer)REFUSED(UINT64_MAX, 0);
}

static int is_batch_wrong(const struct batch *batch)
{
    waylluqen_answer answer = ask_batch(batch);
    if (is_same(answer, batch->call.expected)) {
        return 0;
    }
    printf("host/c: %s, by a batch of %zu bytes, with %zu operation words\n", batch->call.name,
           batch->record_bytes, batch->call.list_words);
    print_answer("expected", batch->call.expected);
    print_answer("answered", answer);
    return 1;
}

static int is_batch_left_otherwise(const struct batch *batch)
{
    const char *name = batch->call.name;
    return is_left_otherwise(&batch->call) ||
           is_changed(name, "work table", &lent_work, left_work, batch->work) ||
           is_changed(name, "records", &lent_records, left_records,
                      (const uint64_t *)(const void *)lent_records.memory);
}

/* What else is lent at the back of its memory; records may also stand at an odd address. */
enum { WORK_AT_BACK = WAYS, RECORDS_AT_BACK = 2 * WAYS, RECORDS_AT_ODD = 4 * WAYS };

static const struct {
    int at_back;
    int has_table; /* the work table has the table's words before, else this byte everywhere */
    uint8_t byte;
} lendings[] = {
    {0, 0, UNWRITTEN_BYTE},
    {TABLE_AT_BACK | LIST_AT_BACK | RANGES_AT_BACK | WORK_AT_BACK | RECORDS_AT_BACK, 1, 0},
    {TABLE_AT_BACK | WORK_AT_BACK | RECORDS_AT_ODD, 0, 0},
    {LIST_AT_BACK | RANGES_AT_BACK | RECORDS_AT_BACK, 0, 0xff},
};

static const uint8_t *lend_records(const uint8_t *records, size_t bytes, int way)
{
    size_t room = lent_records.bytes - bytes;
    size_t front = (way & RECORDS_AT_ODD) && room > 0 ? 1 : 0;
    uint8_t *to = lent_records.memory + ((way & RECORDS_AT_BACK) ? room : front);
    memset(lent_records.memory, UNWRITTEN_BYTE, lent_records.bytes);
    memcpy(to, records, bytes);
    return to;
}

static void lend_batch(struct batch *batch, const struct given *given, size_t i)
{
    static uint64_t work[LONGEST_TABLE];
    const struct call *call = &batch->call;
    size_t both = call->table_words < batch->work_words ? call->table_words : batch->work_words;
    int way = lendings[i].at_back;
    memset(work, lendings[i].byte, batch->work_words * sizeof *work);
    if (lendings[i].has_table) {
        memcpy(work, given->old, both * sizeof *work);
    }
    lend_all(&batch->call, given->ranges, given->old, way);
    batch->work = lend(&lent_work, work, batch->work_words, (way & WORK_AT_BACK) != 0);
    batch->records = lend_records(given->records, batch->record_bytes, way);
}

/* Asks in each lending; answers 1 where one is not as expected. */
static int run_lent(struct batch *batch, const struct given *given)
{
    for (size_t i = 0; i < NUMBER(lendings); i++) {
        lend_batch(batch, given, i);
        foresee_batch(batch);
        if (is_batch_wrong(batch) || is_batch_left_otherwise(batch)) {
            return 1;
        }
    }
    return 0;
}

/* Without a list, and with one that has all of the space, which has no say. */
static int run(const struct batch *test, const struct given *given)
{
    struct range whole[WHOLE_RANGES];
    uint64_t words[WHOLE_RANGES * RANGE_WORDS];
    struct batch batch = *test;
    struct given with_whole = *given;
    size_t count = put_whole(whole, &batch.call.space);
    memcpy(words, whole, sizeof words);
    if (run_lent(&batch, given)) {
        return 1;
    }
    with_whole.ranges = words;
    batch.call.range_words = NUMBER(words);
    batch.call.range_count = batch.call.expected.ranges = count;
    return run_lent(&batch, &with_whole);
}

static void encode_all(uint8_t *bytes, const struct record *records, size_t count)
{
    for (size_t i = 0; i < count; i++) {
        encode(bytes + i * RECORD_BYTES, &records[i]);
    }
}

/* The words of some mappings, and zeros behind them. */
static const uint64_t *words_of(const struct mapping *mappings, size_t count)
{
    static uint64_t words[LONGEST_TABLE];
    memset(words, 0, sizeof words);
    memcpy(words, mappings, count * sizeof *mappings);
    return words;
}

/* A batch in the drawings' space, on written mappings, and what it answers and leaves. */
struct batch_case {
    const char *name;
    waylluqen_answer expected;
    uint64_t count;
    size_t table_words;
    struct mapping old[MOST_WRITTEN];
    int more_words; /* for a refusal: operation words lent beyond the least for a single request */
    size_t requests;
    struct record asked[MOST_ASKED];
    struct mapping new[MOST_WRITTEN];
    struct operation list[MOST_OPERATIONS];
};

#define MAP(first, end, object, offset) \
    {WAYLLUQEN_OP_MAP, 0, object, 0, (first) * PAGE, (offset) * PAGE, ((end) - (first)) * PAGE}
#define UNMAP(first, end) {WAYLLUQEN_OP_UNMAP, 0, 0, 0, (first) * PAGE, 0, ((end) - (first)) * PAGE}
#define NO_REQUEST {0, 0, 0, 0, 0, 0, 0}
#define ALL_WRONG {2, 1, 0, 1, 1, 1, 0}
#define OF_REQUEST(number, place, count) {number, place, 0, count, 0}
#define NOTHING {NONE}, {MAPS(NONE)}

static const struct batch_case batch_cases[] = {
    /* No request. */
    {"none on none", GRANTED(0, 0), ROOM(0, 1), {NONE}, 0, 0, {NO_REQUEST}, NOTHING},
    {"none on one", GRANTED(0, 1), ROOM(1, 3), {P(0, 3, 7, 1)}, 0, 0, {NO_REQUEST},
     {P(0, 3, 7, 1)}, {MAPS(NONE)}},
    {"none on a full table", GRANTED(0, 2), ROOM(2, 2), {P(0, 3, 7, 1), P(3, 4, 8, 0)}, 0, 0,
     {NO_REQUEST}, {P(0, 3, 7, 1), P(3, 4, 8, 0)}, {MAPS(NONE)}},

    /* One, as by itself. */
    {"one map", GRANTED(1, 1), ROOM(0, 1), {NONE}, 0, 1, {MAP(15, 16, 9, 0)}, {P(15, 16, 9, 0)},
     {MAPS(P(15, 16, 9, 0))}},
    {"one map into one", GRANTED(2, 3), ROOM(1, 3), {P(0, 3, 7, 1)}, 0, 1, {MAP(1, 2, 9, 4)},
     {P(0, 1, 7, 1), P(1, 2, 9, 4), P(2, 3, 7, 3)},
     {REMAPS(0, P(0, 3, 7, 1), P(0, 1, 7, 1), P(2, 3, 7, 3)), MAPS(P(1, 2, 9, 4))}},
    {"one unmap", GRANTED(1, 0), ROOM(1, 1), {P(0, 3, 7, 1)}, 0, 1, {UNMAP(0, 4)}, {NONE},
     {UNMAPS(0, P(0, 3, 7, 1))}},
    {"one unmap of nothing", GRANTED(0, 1), ROOM(1, 2), {P(0, 3, 7, 1)}, 0, 1, {UNMAP(3, 4)},
     {P(0, 3, 7, 1)}, {MAPS(NONE)}},

    /* Several, each on what the ones before it leave. */
    {"a map into a map", GRANTED(3, 3), ROOM(0, 3), {NONE}, 0, 2,
     {MAP(0, 3, 7, 1), MAP(1, 2, 9, 4)}, {P(0, 1, 7, 1), P(1, 2, 9, 4), P(2, 3, 7, 3)},
     {MAPS(P(0, 3, 7, 1)), REMAPS(0, P(0, 3, 7, 1), P(0, 1, 7, 1), P(2, 3, 7, 3)),
      MAPS(P(1, 2, 9, 4))}},
    {"the other way round", GRANTED(3, 1), ROOM(0, 3), {NONE}, 0, 2,
     {MAP(1, 2, 9, 4), MAP(0, 3, 7, 1)}, {P(0, 3, 7, 1)},
     {MAPS(P(1, 2, 9, 4)), UNMAPS(0, P(1, 2, 9, 4)), MAPS(P(0, 3, 7, 1))}},
    {"mapped and unmapped", GRANTED(2, 0), ROOM(0, 1), {NONE}, 0, 2,
     {MAP(0, 2, 7, 0), UNMAP(0, 2)}, {NONE}, {MAPS(P(0, 2, 7, 0)), UNMAPS(0, P(0, 2, 7, 0))}},
    {"unmapped and mapped again", GRANTED(2, 1), ROOM(1, 1), {P(0, 2, 7, 1)}, 0, 2,
     {UNMAP(0, 2), MAP(0, 2, 7, 1)}, {P(0, 2, 7, 1)},
     {UNMAPS(0, P(0, 2, 7, 1)), MAPS(P(0, 2, 7, 1))}},
    {"mapped three times", GRANTED(5, 1), ROOM(0, 1), {NONE}, 0, 3,
     {MAP(0, 2, 7, 1), MAP(0, 2, 7, 1), MAP(0, 2, 9, 1)}, {P(0, 2, 9, 1)},
     {MAPS(P(0, 2, 7, 1)), UNMAPS(1, P(0, 2, 7, 1)), MAPS(P(0, 2, 7, 1)),
      UNMAPS(0, P(0, 2, 7, 1)), MAPS(P(0, 2, 9, 1))}},
    {"three holes", GRANTED(3, 4), ROOM(1, 4), {P(0, 7, 7, 0)}, 0, 3,
     {UNMAP(5, 6), UNMAP(1, 2), UNMAP(3, 4)},
     {P(0, 1, 7, 0), P(2, 3, 7, 2), P(4, 5, 7, 4), P(6, 7, 7, 6)},
     {REMAPS(0, P(0, 7, 7, 0), P(0, 5, 7, 0), P(6, 7, 7, 6)),
      REMAPS(0, P(0, 5, 7, 0), P(0, 1, 7, 0), P(2, 5, 7, 2)),
      REMAPS(0, P(2, 5, 7, 2), P(2, 3, 7, 2), P(4, 5, 7, 4))}},
    {"unmaps of nothing between", GRANTED(2, 2), ROOM(0, 2), {NONE}, 0, 5,
     {UNMAP(3, 4), MAP(0, 1, 7, 0), UNMAP(3, 4), MAP(5, 6, 8, 0), UNMAP(6, 16)},
     {P(0, 1, 7, 0), P(5, 6, 8, 0)}, {MAPS(P(0, 1, 7, 0)), MAPS(P(5, 6, 8, 0))}},

    /* Room: what one frees is there for the next, and not before. */
    {"room from an unmap", GRANTED(2, 1), ROOM(1, 1), {P(0, 1, 7, 0)}, 0, 2,
     {UNMAP(0, 1), MAP(4, 5, 9, 0)}, {P(4, 5, 9, 0)},
     {UNMAPS(0, P(0, 1, 7, 0)), MAPS(P(4, 5, 9, 0))}},
    {"no room before the unmap", OF_REQUEST(11, 0, 1), ROOM(1, 1), {P(0, 1, 7, 0)}, 0, 2,
     {MAP(4, 5, 9, 0), UNMAP(0, 1)}, NOTHING},
    {"room for one at a time", GRANTED(4, 2), ROOM(0, 2), {NONE}, 0, 4,
     {MAP(0, 1, 7, 0), MAP(2, 3, 8, 0), UNMAP(0, 1), MAP(4, 5, 9, 0)},
     {P(2, 3, 8, 0), P(4, 5, 9, 0)},
     {MAPS(P(0, 1, 7, 0)), MAPS(P(2, 3, 8, 0)), UNMAPS(0, P(0, 1, 7, 0)), MAPS(P(4, 5, 9, 0))}},
    {"no room for a moment", OF_REQUEST(11, 2, 0), ROOM(0, 2), {NONE}, 0, 4,
     {MAP(0, 1, 7, 0), MAP(2, 3, 8, 0), MAP(4, 5, 9, 0), UNMAP(0, 6)}, NOTHING},
    {"a hole with the room of another", GRANTED(2, 2), ROOM(2, 2), {P(0, 3, 7, 1), P(5, 6, 8, 0)},
     0, 2, {UNMAP(5, 6), UNMAP(1, 2)}, {P(0, 1, 7, 1), P(2, 3, 7, 3)},
     {UNMAPS(0, P(5, 6, 8, 0)), REMAPS(0, P(0, 3, 7, 1), P(0, 1, 7, 1), P(2, 3, 7, 3))}},
    {"a hole before that", OF_REQUEST(11, 0, 2), ROOM(2, 2), {P(0, 3, 7, 1), P(5, 6, 8, 0)}, 0, 2,
     {UNMAP(1, 2), UNMAP(5, 6)}, NOTHING},

    /* Operation words: for what there is to be written, one request's behind the other's. */
    {"as many as for a single one", GRANTED(4, 1), ROOM(3, 3),
     {P(0, 1, 7, 0), P(2, 3, 8, 0), P(4, 5, 9, 0)}, 0, 4,
     {UNMAP(0, 1), UNMAP(2, 3), UNMAP(4, 5), MAP(0, 1, 7, 0)}, {P(0, 1, 7, 0)},
     {UNMAPS(0, P(0, 1, 7, 0)), UNMAPS(0, P(2, 3, 8, 0)), UNMAPS(0, P(4, 5, 9, 0)),
      MAPS(P(0, 1, 7, 0))}},
    {"none left for an unmap of nothing", GRANTED(3, 1), ROOM(0, 1), {NONE}, 0, 4,
     {MAP(0, 1, 7, 0), MAP(0, 1, 8, 0), UNMAP(1, 16), UNMAP(4, 5)}, {P(0, 1, 8, 0)},
     {MAPS(P(0, 1, 7, 0)), UNMAPS(0, P(0, 1, 7, 0)), MAPS(P(0, 1, 8, 0))}},
    {"an operation too few", OF_REQUEST(16, 1, 0), ROOM(0, 1), {NONE}, 0, 2,
     {MAP(0, 1, 7, 0), MAP(0, 1, 8, 0)}, NOTHING},
    {"a word too few", OF_REQUEST(16, 1, 0), ROOM(0, 1), {NONE}, OPERATION_WORDS - 1, 2,
     {MAP(0, 1, 7, 0), MAP(0, 1, 8, 0)}, NOTHING},
    {"none left for an unmap", OF_REQUEST(16, 3, 0), ROOM(0, 1), {NONE}, OPERATION_WORDS, 4,
     {MAP(0, 1, 7, 0), MAP(0, 1, 8, 0), UNMAP(1, 16), UNMAP(0, 1)}, NOTHING},
    {"a word too few for an unmap", OF_REQUEST(16, 2, 0), ROOM(0, 1), {NONE},
     2 * OPERATION_WORDS - 1, 3, {MAP(0, 1, 7, 0), MAP(0, 1, 8, 0), UNMAP(0, 1)}, NOTHING},
    {"11 before 16", OF_REQUEST(11, 2, 0), ROOM(0, 1), {NONE}, OPERATION_WORDS, 3,
     {MAP(0, 1, 7, 0), MAP(0, 1, 8, 0), MAP(4, 5, 9, 0)}, NOTHING},
    {"11 before 16, of an unmap", OF_REQUEST(11, 2, 0), ROOM(0, 1), {NONE}, OPERATION_WORDS, 3,
     {MAP(0, 3, 7, 0), MAP(0, 3, 8, 0), UNMAP(1, 2)}, NOTHING},
    {"one's 16 before the next one's 13", OF_REQUEST(16, 1, 0), ROOM(0, 1), {NONE}, 0, 3,
     {MAP(0, 1, 7, 0), MAP(0, 1, 8, 0), ALL_WRONG}, NOTHING},
    {"one's 11 before the next one's 13", OF_REQUEST(11, 1, 0), ROOM(0, 1), {NONE}, 0, 3,
     {MAP(0, 1, 7, 0), MAP(2, 3, 8, 0), ALL_WRONG}, NOTHING},
};

/* A request of a batch that is refused: in the common space, where the five mappings and the
 * requests before it have taken all room. */
struct turn_case {
    const char *name;
    uint64_t refusal;
    struct record record;
};

#define SPARSE WAYLLUQEN_FLAG_SPARSE

static const struct turn_case turn_cases[] = {
    {"op 2", 13, {2, 0, 5, 0, 0x100000, 0, PAGE}},
    {"op 256", 13, {256, 0, 5, 0, 0x100000, 0, PAGE}},
    {"highest op", 13, {UINT32_MAX, 0, 0, 0, 0x100000, 0, PAGE}},
    {"13 before 14", 13, {2, SPARSE, 0, 1, 0x106000, 0, PAGE}},
    {"13 before 6", 13, ALL_WRONG},
    {"flags 1", 14, {0, 1, 5, 0, 0x100000, 0, PAGE}},
    {"highest flag", 14, {1, 0x80000000, 0, 0, 0x100000, 0, PAGE}},
    {"a sparse range", 14, {0, SPARSE, 0, 0, 0x106000, 0, PAGE}},
    {"a sparse range less", 14, {1, SPARSE, 0, 0, 0x106000, 0, PAGE}},
    {"a mapping with the sparse flag", 14, {0, SPARSE, 5, 0, 0x100000, 0, PAGE}},
    {"pad 1", 14, {0, 0, 5, 1, 0x100000, 0, PAGE}},
    {"highest bit of pad", 14, {1, 0, 0, 0x80000000, 0x100000, 0, PAGE}},
    {"pad 256", 14, {0, 0, 5, SPARSE, 0x100000, 0, PAGE}},
    {"14 before 6", 14, {0, SPARSE, 0, 0, 1, 1, 0}},
    {"address one above", 6, {0, 0, 5, 0, 0x100001, 0, PAGE}},
    {"size one above", 6, {0, 0, 5, 0, 0x100000, 0, PAGE + 1}},
    {"size 0", 6, {1, 0, 0, 0, 0x100000, 0, 0}},
    {"offset one above", 6, {0, 0, 5, 0, 0x100000, 1, PAGE}},
    {"unmap with offset 1", 6, {1, 0, 0, 0, 0x100000, 1, PAGE}},
    {"6 before 7", 6, {0, 0, 0, 0, 1, LIMIT, PAGE}},
    {"a page below", 7, {0, 0, 5, 0, 0xff000, 0, PAGE}},
    {"to a page above", 7, {1, 0, 0, 0, 0x1ff000, 0, 2 * PAGE}},
    {"ends above 2^64", 7, {0, 0, 5, 0, LAST_PAGE, 0, 0x102000}},
    {"7 before 8", 7, {0, 0, 0, 0, 0x17f000, LIMIT, 0x100000}},
    {"a reserved page", 8, {0, 0, 5, 0, 0x13f000, 0, 2 * PAGE}},
    {"8 before 9", 8, {1, 0, 5, 0, 0x140000, 0, PAGE}},
    {"object 0", 9, {0, 0, 0, 0, 0x100000, 0, PAGE}},
    {"unmap with an object", 9, {1, 0, 5, 0, 0x100000, 0, PAGE}},
    {"unmap with offset 4096", 9, {1, 0, 0, 0, 0x100000, PAGE, PAGE}},
    {"9 before 10", 9, {0, 0, 0, 0, 0x106000, LIMIT, PAGE}},
    {"offset 2^48", 10, {0, 0, 5, 0, 0x100000, LIMIT, PAGE}},
    {"offset and size above 2^64", 10, {0, 0, 5, 0, 0x106000, LAST_PAGE, 2 * PAGE}},
    {"into a gap", 11, {0, 0, 5, 0, 0x106000, 0, PAGE}},
    {"into the first", 11, {0, 0, 5, 0, 0x101000, 0, PAGE}},
};

static int run_case(const struct batch_case *test)
{
    uint8_t bytes[MOST_ASKED * RECORD_BYTES];
    uint64_t new_words[MOST_WRITTEN * MAPPING_WORDS], new_list[MOST_OPERATIONS * OPERATION_WORDS];
    const struct given given = {no_ranges, words_of(test->old, MOST_WRITTEN), bytes};
    const size_t least = list_words(test->table_words, test->more_words);
    const size_t needed = test->expected.operations * OPERATION_WORDS;
    const size_t enough =
        WAYLLUQEN_BATCH_LIST_WORDS(test->table_words / MAPPING_WORDS, test->requests);
    struct batch batch = {.call = {.name = test->name,
                                   .space = DRAWN,
                                   .expected = test->expected,
                                   .count = test->count,
                                   .table_words = test->table_words,
                                   .list_words = needed > least ? needed : least,
                                   .new_words = new_words,
                                   .new_list = new_list},
                          .work_words = test->table_words,
                          .record_bytes = test->requests * RECORD_BYTES};
    encode_all(bytes, test->asked, test->requests);
    memcpy(new_words, test->new, sizeof new_words);
    memcpy(new_list, test->list, sizeof new_list);
    if (run(&batch, &given)) {
        return 1;
    }
    if (test->expected.refusal == 0) {
        batch.call.list_words++;
        if (run(&batch, &given)) {
            return 1;
        }
    }
    /* With enough of them there is no 16. */
    batch.call.list_words = enough;
    return test->expected.refusal != 16 && run(&batch, &given);
}

/* Requests that are granted, the one at fault at its place, and behind it such as would be refused
 * too. The first of them adds a mapping, and each other one has two operations. */
static void encode_turn(uint8_t *bytes, const struct record *bad, size_t place, size_t requests)
{
    static const struct record all_wrong = ALL_WRONG;
    for (size_t i = 0; i < requests; i++) {
        const struct record good = {0, 0, (uint32_t)i + 10, 0, 0x104000, 0, PAGE};
        encode(bytes + i * RECORD_BYTES, i < place ? &good : i == place ? bad : &all_wrong);
    }
}

/* With words enough, and where it can be with no word left. */
static int run_turn(const struct turn_case *test, size_t place, size_t requests)
{
    static const struct mapping five[] = FIVE;
    uint8_t bytes[MOST_BYTES];
    const struct given given = {no_ranges, words_of(five, NUMBER(five)), bytes};
    size_t capacity = NUMBER(five) + (place > 0);
    struct batch batch = {.call = {.name = test->name,
                                   .space = COMMON,
                                   .expected = OF_REQUEST(test->refusal, place, NUMBER(five)),
                                   .count = NUMBER(five),
                                   .table_words = capacity * MAPPING_WORDS,
                                   .list_words = WAYLLUQEN_BATCH_LIST_WORDS(capacity, requests)},
                          .work_words = capacity * MAPPING_WORDS,
                          .record_bytes = requests * RECORD_BYTES};
    encode_turn(bytes, &test->record, place, requests);
    if (run(&batch, &given)) {
        printf("host/c: at place %zu of %zu\n", place, requests);
        return 1;
    }
    size_t used = place > 0 ? (2 * place - 1) * OPERATION_WORDS : 0;
    batch.call.list_words = used;
    return used >= list_words(batch.call.table_words, 0) && run(&batch, &given);
}

/* At the first place, at the last one and between them, in a batch that ends there or goes on. */
static int run_turns(const struct turn_case *test)
{
    static const size_t places[] = {0, 1, 4, 31, 62, MOST_REQUESTS - 1};
    for (size_t i = 0; i < NUMBER(places); i++) {
        if (run_turn(test, places[i], places[i] + 1) || run_turn(test, places[i], MOST_REQUESTS)) {
            return 1;
        }
    }
    return 0;
}

/* What is wrong with the batch itself, in the order of its refusals. */
enum {
    LENGTH = 1,
    SPACE_START = 2,
    TABLE_LENGTH = 4,
    OPERATIONS = 8,
    WORK_LENGTH = 16,
    COUNT = 32,
    MAPPING = 64,
    STALE_WORD = 128,
    RANGES = 256,
    ALL_FAULTS = 511
};

/* The first of some faults. Behind them comes the first request's, 13, where there is one. */
static waylluqen_answer first_fault(unsigned faults, size_t requests, uint64_t count)
{
    static const uint64_t numbers[] = {12, 1, 2, 3, 15, 4, 5, 17, 18};
    for (size_t i = 0; i < NUMBER(numbers); i++) {
        if (faults >> i & 1) {
            return (waylluqen_answer){numbers[i], numbers[i] == 5 ? 1 : 0, 0, count, 0};
        }
    }
    return (waylluqen_answer){requests > 0 ? 13 : 0, 0, 0, count, 0};
}

/* Any faults at once, with no request or with some that are wrong in every way. */
static int run_faults(unsigned faults, size_t requests)
{
    static const struct mapping five[] = FIVE;
    uint64_t words[6 * MAPPING_WORDS + 1] = {0};
    const uint64_t ranges[RANGE_WORDS] = {(faults & RANGES) != 0};
    const struct record bad = ALL_WRONG;
    uint8_t bytes[MOST_BYTES + 1] = {0};
    const struct given given = {ranges, words, bytes};
    struct batch batch = {.call = {.name = "own refusals",
                                   .space = COMMON,
                                   .range_words = RANGE_WORDS,
                                   .count = faults & COUNT ? 7 : NUMBER(five),
                                   .table_words = NUMBER(words) - !(faults & TABLE_LENGTH)},
                          .record_bytes = requests * RECORD_BYTES + !!(faults & LENGTH)};
    batch.call.space.start += (faults & SPACE_START) != 0;
    batch.call.list_words = list_words(batch.call.table_words, faults & OPERATIONS ? -1 : 0);
    batch.work_words = batch.call.table_words + !!(faults & WORK_LENGTH);
    memcpy(words, five, sizeof five);
    words[MAPPING_WORDS + WAYLLUQEN_MAPPING_OBJECT] *= !(faults & MAPPING);
    words[batch.call.table_words - 1] = (faults & STALE_WORD) != 0;
    batch.call.expected = first_fault(faults, requests, batch.call.count);
    batch.call.new_words = words;
    encode_turn(bytes, &bad, 0, requests);
    if (run_lent(&batch, &given)) {
        printf("host/c: faults %#x, %zu requests\n", faults, requests);
        return 1;
    }
    return 0;
}

static int run_all_faults(void)
{
    for (unsigned faults = 0; faults <= ALL_FAULTS; faults++) {
        if (run_faults(faults, 0) || run_faults(faults, 1) || run_faults(faults, MOST_REQUESTS)) {
            return 1;
        }
    }
    return 0;
}

/* A mapping at fault at each place: the answer's place is its, whatever the requests are. */
static int run_bad_mappings(void)
{
    static const struct mapping five[] = FIVE;
    uint64_t words[NUMBER(five) * MAPPING_WORDS];
    uint8_t bytes[2 * RECORD_BYTES];
    const struct record bad = ALL_WRONG;
    const struct given given = {no_ranges, words, bytes};
    encode_turn(bytes, &bad, 1, 2);
    for (size_t i = 0; i < 3 * NUMBER(five); i++) {
        size_t place = i / 3;
        struct batch batch = {.call = {.name = "a bad mapping",
                                       .space = COMMON,
                                       .expected = BAD_PLACE(place, NUMBER(five)),
                                       .count = NUMBER(five),
                                       .table_words = NUMBER(words),
                                       .list_words = list_words(NUMBER(words), 0)},
                              .work_words = NUMBER(words),
                              .record_bytes = i % 3 * RECORD_BYTES};
        memcpy(words, five, sizeof words);
        words[place * MAPPING_WORDS + WAYLLUQEN_MAPPING_OBJECT] = 0;
        if (run(&batch, &given)) {
            return 1;
        }
    }
    return 0;
}

/* Work tables of each length but the right one. */
static int run_work_lengths(size_t capacity)
{
    uint64_t words[6 * MAPPING_WORDS] = {0};
    uint8_t bytes[2 * RECORD_BYTES];
    const struct record bad = ALL_WRONG;
    const struct given given = {no_ranges, words, bytes};
    encode_turn(bytes, &bad, 1, 2);
    struct batch batch = {.call = {.name = "work table",
                                   .space = COMMON,
                                   .expected = REFUSED(15, 0),
                                   .table_words = capacity * MAPPING_WORDS,
                                   .list_words = list_words(capacity * MAPPING_WORDS, 0)}};
    for (size_t i = 0; i < 3 * 80; i++) {
        batch.work_words = i / 3;
        batch.record_bytes = i % 3 * RECORD_BYTES;
        if (batch.work_words != batch.call.table_words && run(&batch, &given)) {
            printf("host/c: %zu words to work in\n", batch.work_words);
            return 1;
        }
    }
    return 0;
}

/* A list of sparse ranges that is refused is so once, before the requests. */
static int run_list(const struct list_case *test)
{
    uint64_t ranges[LONGEST_RANGES] = {0}, words[MAPPING_WORDS] = {0};
    uint8_t bytes[RECORD_BYTES];
    const struct record bad = ALL_WRONG;
    const struct given given = {ranges, words, bytes};
    memcpy(ranges, test->list, sizeof test->list);
    encode(bytes, &bad);
    for (size_t requests = 0; requests <= 1; requests++) {
        uint64_t refusal = test->bad ? 18 : requests > 0 ? 13 : 0;
        struct batch batch = {.call = {.name = test->name,
                                       .space = test->space,
                                       .expected = {refusal, 0, 0, 0, test->count},
                                       .range_count = test->count,
                                       .range_words = test->words,
                                       .table_words = MAPPING_WORDS,
                                       .list_words = list_words(MAPPING_WORDS, 0),
                                       .new_words = words},
                              .work_words = MAPPING_WORDS,
                              .record_bytes = requests * RECORD_BYTES};
        if (run_lent(&batch, &given)) {
            return 1;
        }
    }
    return 0;
}

/* What single calls leave: the table's words, and their operations one behind the other. */
static uint64_t followed_words[LONGEST_TABLE];
static uint64_t followed_list[LONGEST_LIST];

/* Asks for one request by itself, behind those that made so many operations. A batch has no flags,
 * and no more operation words than are lent. */
static waylluqen_answer follow_one(const struct call *call, const uint64_t *ranges,
                                   const struct record *record, waylluqen_answer before)
{
    static uint64_t own[LONGEST_LIST];
    const waylluqen_request request = {record->op, record->address, record->size, record->object,
                                       record->offset};
    if (record->op <= WAYLLUQEN_OP_UNMAP && (record->flags != 0 || record->pad != 0)) {
        return (waylluqen_answer)REFUSED(14, 0);
    }
    waylluqen_answer answer = waylluqen_bind(
        call->space, ranges, call->range_words, call->range_count, followed_words,
        call->table_words, before.count, own, list_words(call->table_words, 0), request);
    uint64_t *next = followed_list + before.operations * OPERATION_WORDS;
    size_t words = answer.operations * OPERATION_WORDS;
    if ((size_t)(next - followed_list) + words > call->list_words) {
        return (waylluqen_answer)REFUSED(16, 0);
    }
    memcpy(next, own, words * sizeof *own);
    answer.operations += before.operations;
    return answer;
}

/* What a batch with which nothing is wrong itself should answer and leave: what its requests do one
 * by one. */
static void follow(struct batch *batch, const struct given *given, const struct record *records)
{
    struct call *call = &batch->call;
    waylluqen_answer answer = {0, 0, 0, call->count, call->range_count};
    memcpy(followed_words, given->old, call->table_words * sizeof *followed_words);
    for (size_t i = 0; i < batch->record_bytes / RECORD_BYTES && answer.refusal == 0; i++) {
        answer = follow_one(call, given->ranges, &records[i], answer);
        if (answer.refusal != 0) {
            answer = (waylluqen_answer){answer.refusal, i, 0, call->count, call->range_count};
        }
    }
    call->expected = answer;
    call->new_words = followed_words;
    call->new_list = followed_list;
}

/* An empty table with room for so many, in a space that has room for more. */
static struct batch on_empty(const char *name, size_t capacity)
{
    return (struct batch){.call = {.name = name,
                                   .space = PLACES_SPACE,
                                   .table_words = capacity * MAPPING_WORDS,
                                   .list_words = list_words(capacity * MAPPING_WORDS, 0)},
                          .work_words = capacity * MAPPING_WORDS};
}

/* Bytes of each length, of records that map a page each. */
static int run_lengths(void)
{
    static const uint64_t none[(MOST_REQUESTS + 1) * MAPPING_WORDS];
    static struct record records[LONGEST_BATCH / RECORD_BYTES];
    static uint8_t bytes[LONGEST_BATCH];
    const struct given given = {no_ranges, none, bytes};
    struct batch batch = on_empty("a length", MOST_REQUESTS + 1);
    for (size_t i = 0; i < NUMBER(records); i++) {
        records[i] = (struct record)MAP(2 * i, 2 * i + 1, (uint32_t)i + 1, i);
    }
    encode_all(bytes, records, NUMBER(records));
    for (size_t length = 0; length <= LONGEST_BATCH; length++) {
        batch.record_bytes = length;
        batch.call.expected = (waylluqen_answer)REFUSED(12, 0);
        if (length % RECORD_BYTES == 0 && length <= MOST_BYTES) {
            follow(&batch, &given, records);
            if (batch.call.expected.operations != length / RECORD_BYTES) {
                printf("host/c: so many maps are not granted one by one: %zu\n", length);
                return 1;
            }
        }
        if (run(&batch, &given)) {
            return 1;
        }
    }
    return 0;
}

/* Requests in room for one mapping, with operation words of each number, from the least up to more
 * than are needed: in a turn of requests, so many operations. */
static int run_list_lengths(const struct record *turn, size_t turns, size_t operations)
{
    static const uint64_t none[MAPPING_WORDS];
    struct record records[MOST_REQUESTS];
    uint8_t bytes[MOST_BYTES];
    const struct given given = {no_ranges, none, bytes};
    struct batch batch = on_empty("a number of operation words", 1);
    size_t needed = operations * OPERATION_WORDS, short_ones = 0;
    for (size_t i = 0; i < NUMBER(records); i++) {
        records[i] = turn[i % turns];
    }
    encode_all(bytes, records, NUMBER(records));
    batch.record_bytes = sizeof bytes;
    for (; batch.call.list_words < needed + 2 * OPERATION_WORDS; batch.call.list_words++) {
        follow(&batch, &given, records);
        if (run(&batch, &given)) {
            return 1;
        }
        short_ones += batch.call.expected.refusal == 16;
    }
    if (short_ones != needed - list_words(MAPPING_WORDS, 0)) {
        printf("host/c: 16 comes %zu times\n", short_ones);
        return 1;
    }
    return 0;
}

static int run_all_list_lengths(void)
{
    /* 1, then 2 for each other; 1, 0, 2, 1 and 0 in turn. */
    static const struct record replaced[] = {MAP(0, 1, 7, 0), MAP(0, 1, 8, 0)};
    static const struct record mixed[] = {MAP(0, 1, 7, 0), UNMAP(4, 5), MAP(0, 1, 8, 0),
                                          UNMAP(0, 2), UNMAP(0, 2)};
    return run_list_lengths(replaced, NUMBER(replaced), 2 * MOST_REQUESTS - 1) +
           run_list_lengths(mixed, NUMBER(mixed), MOST_REQUESTS / 5 * 4 + 4);
}

/* Each stale word, with no request and with one that is wrong in every way. No lent word may
 * change: each of these is looked at in its turn, and all when all is asked. */
static int run_stale(const struct stale_table *test)
{
    static struct mapping old[MOST_MAPPINGS];
    const struct record bad = ALL_WRONG;
    uint8_t bytes[RECORD_BYTES];
    const struct given given = {no_ranges, (const uint64_t *)(const void *)old, bytes};
    struct batch batch = on_empty("a stale word", test->capacity);
    batch.call.count = test->count;
    batch.call.expected = (waylluqen_answer)REFUSED(17, test->count);
    encode(bytes, &bad);
    memset(old, 0, sizeof old);
    fill_places(old, test->count);
    for (size_t i = 0; i <= 1; i++) {
        batch.record_bytes = i * RECORD_BYTES;
        lend_batch(&batch, &given, i);
        foresee_batch(&batch);
        for (size_t at = test->count * MAPPING_WORDS; at < batch.call.table_words; at++) {
            int changed = batch.call.table[at] != 0;
            batch.call.table[at] = stale_word(at);
            if (is_batch_wrong(&batch) || changed || batch.call.table[at] != stale_word(at)) {
                printf("host/c: stale word %zu, %" PRIu64 " mappings in %zu words\n", at,
                       test->count, batch.call.table_words);
                return 1;
            }
            batch.call.table[at] = 0;
        }
        if (is_batch_left_otherwise(&batch)) {
            return 1;
        }
    }
    return 0;
}

/* Any number below another one, the same ones in each run. */
static uint64_t any_below(uint64_t end)
{
    static uint64_t state = 0x9e3779b97f4a7c15;
    state ^= state << 13;
    state ^= state >> 7;
    state ^= state << 17;
    return (state >> 16) % end;
}

/* A request for some of 16 pages; one of many is at fault. */
static struct record any_request(void)
{
    uint64_t first = any_below(15), end = first + 1 + any_below(16 - first);
    struct record map = MAP(first, end, (uint32_t)any_below(3) + 1, any_below(4));
    struct record unmap = UNMAP(first, end);
    struct record record = any_below(3) == 0 ? unmap : map;
    switch (any_below(400)) {
    case 0: record.op = 2; break;
    case 1: record.flags = SPARSE; break;
    case 2: record.pad = 1; break;
    case 3: record.address++; break;
    case 4: record.size = 16 * PAGE; break;
    case 5: record.object ^= record.op == 0 ? record.object : 1; break;
    case 6: record.offset += LIMIT; break;
    default: break;
    }
    return record;
}

/* The same requests in two batches: each is granted, and they leave the same. */
static int differs_cut(const struct batch *batch, const struct given *given, size_t cut)
{
    static uint64_t words[LONGEST_TABLE], work[LONGEST_TABLE], list[LONGEST_LIST];
    const struct call *call = &batch->call;
    const size_t parts[] = {0, cut * RECORD_BYTES, batch->record_bytes};
    size_t count = call->count, operations = 0;
    memcpy(words, given->old, call->table_words * sizeof *words);
    for (size_t i = 0; i < 2; i++) {
        waylluqen_answer answer = waylluqen_bind_batch(
            call->space, given->ranges, call->range_words, call->range_count, words,
            call->table_words, count, work, call->table_words,
            list + operations * OPERATION_WORDS, call->list_words, given->records + parts[i],
            parts[i + 1] - parts[i]);
        if (answer.refusal != 0) {
            print_answer("a part of a batch is refused", answer);
            return 1;
        }
        count = answer.count;
        operations += answer.operations;
    }
    if (count != call->expected.count || operations != call->expected.operations ||
        memcmp(words, followed_words, call->table_words * sizeof *words) != 0 ||
        memcmp(list, followed_list, operations * OPERATION_WORDS * sizeof *list) != 0) {
        printf("host/c: a batch cut at %zu leaves something else\n", cut);
        return 1;
    }
    return 0;
}

/* What came of any batches: how often each number. */
static size_t answered[21];

/* Any requests on what the last ones left, one by one and in a batch, whole and cut. With operation
 * words for the mappings and four for each request 16 never comes. */
static int run_any(uint64_t *words, uint64_t *count, size_t capacity)
{
    struct record records[MOST_REQUESTS];
    uint8_t bytes[MOST_BYTES];
    const struct given given = {no_ranges, words, bytes};
    struct batch batch = on_empty("any requests", capacity);
    size_t requests = any_below(any_below(4) == 0 ? 65 : 9);
    size_t enough = (*count + 4 * requests) * OPERATION_WORDS;
    int is_enough = any_below(2) == 0;
    batch.call.space = (waylluqen_space)DRAWN;
    batch.call.count = *count;
    batch.call.list_words += is_enough ? 0 : any_below(requests + 1) * OPERATION_WORDS;
    if (is_enough && enough > batch.call.list_words) {
        batch.call.list_words = enough;
    }
    batch.record_bytes = requests * RECORD_BYTES;
    for (size_t i = 0; i < requests; i++) {
        records[i] = any_request();
    }
    encode_all(bytes, records, requests);
    follow(&batch, &given, records);
    answered[batch.call.expected.refusal]++;
    if (run(&batch, &given) || (is_enough && batch.call.expected.refusal == 16)) {
        return 1;
    }
    if (batch.call.expected.refusal != 0) {
        return 0;
    }
    int differs = differs_cut(&batch, &given, any_below(requests + 1));
    memcpy(words, followed_words, batch.call.table_words * sizeof *words);
    *count = batch.call.expected.count;
    return differs;
}

/* Many of them, on tables with room for one to sixteen. Each refusal of a request comes. */
static int run_many(void)
{
    static const uint8_t expected[] = {0, 6, 7, 9, 10, 11, 13, 14, 16};
    for (size_t i = 0; i < 400; i++) {
        size_t capacity = 1 + any_below(16);
        uint64_t words[16 * MAPPING_WORDS] = {0}, count = 0;
        for (size_t j = 0; j < 10; j++) {
            if (run_any(words, &count, capacity)) {
                return 1;
            }
        }
    }
    for (size_t i = 0; i < NUMBER(expected); i++) {
        if (answered[expected[i]] == 0) {
            printf("host/c: of any batches none is answered with %d\n", expected[i]);
            return 1;
        }
    }
    return 0;
}

/* A batch of 64 on a table for 4,096, of which so many places are taken. */
static int run_long(const char *name, size_t count, const struct record *records,
                    size_t operation_words, waylluqen_answer expected)
{
    static struct mapping old[MOST_MAPPINGS];
    uint8_t bytes[MOST_BYTES];
    const struct given given = {no_ranges, (const uint64_t *)(const void *)old, bytes};
    struct batch batch = on_empty(name, MOST_MAPPINGS);
    memset(old, 0, sizeof old);
    fill_places(old, count);
    batch.call.count = count;
    batch.call.list_words = operation_words;
    batch.record_bytes = sizeof bytes;
    encode_all(bytes, records, MOST_REQUESTS);
    follow(&batch, &given, records);
    if (!is_same(batch.call.expected, expected)) {
        printf("host/c: %s, one by one\n", name);
        print_answer("expected", expected);
        print_answer("answered", batch.call.expected);
        return 1;
    }
    return run(&batch, &given);
}

/* Into gaps of a long table, until it is full; and one that is refused at the end. */
static int run_long_maps(void)
{
    const size_t least = list_words(MOST_MAPPINGS * MAPPING_WORDS, 0);
    struct record records[MOST_REQUESTS];
    for (size_t i = 0; i < NUMBER(records); i++) {
        records[i] = (struct record)MAP(252 * i + 3, 252 * i + 4, 5000, i);
    }
    int failed =
        run_long("64 maps in 4096", 4032, records, least, (waylluqen_answer)GRANTED(64, 4096)) +
        run_long("63 maps in 4096", 4033, records, least,
                 (waylluqen_answer)OF_REQUEST(11, 63, 4033));
    records[MOST_REQUESTS - 1] = (struct record)ALL_WRONG;
    return failed + run_long("63 maps of 64", 4033, records, least,
                             (waylluqen_answer)OF_REQUEST(13, 63, 4033));
}

/* Close to the most operations that a batch can have: 4,096 mappings go for one, that is cut in the
 * middle again and again, and all of it goes. */
static int run_most_operations(void)
{
    const size_t most = MOST_MAPPINGS + 1 + 2 * (MOST_REQUESTS - 2) + 2 * (MOST_REQUESTS - 1);
    const size_t enough = WAYLLUQEN_BATCH_LIST_WORDS(MOST_MAPPINGS, MOST_REQUESTS);
    const size_t needed = most * OPERATION_WORDS;
    struct record records[MOST_REQUESTS] = {MAP(0, 4 * MOST_MAPPINGS, 5000, 0)};
    for (size_t i = 1; i < NUMBER(records); i++) {
        records[i] = (struct record)MAP(2 * i, 2 * i + 1, 6000, 0);
    }
    records[MOST_REQUESTS - 1] = records[0];
    return run_long("many operations", MOST_MAPPINGS, records, enough,
                    (waylluqen_answer)GRANTED(most, 1)) +
           run_long("many operations, just enough", MOST_MAPPINGS, records, needed,
                    (waylluqen_answer)GRANTED(most, 1)) +
           run_long("many operations, a word less", MOST_MAPPINGS, records, needed - 1,
                    (waylluqen_answer)OF_REQUEST(16, MOST_REQUESTS - 1, MOST_MAPPINGS));
}

int main(void)
{
    const size_t all = NUMBER(batch_cases) + NUMBER(turn_cases) + NUMBER(lists);
    size_t failed = 0, stale = 0;

    /* The long ones come last, since all memory is compared each time. */
    if (!prepare_batches(512, 4096)) {
        printf("host/c: mmap failed\n");
        return 1;
    }
    for (size_t i = 0; i < NUMBER(batch_cases); i++) {
        failed += (size_t)run_case(&batch_cases[i]);
    }
    for (size_t i = 0; i < NUMBER(turn_cases); i++) {
        failed += (size_t)run_turns(&turn_cases[i]);
    }
    for (size_t i = 0; i < NUMBER(lists); i++) {
        failed += (size_t)run_list(&lists[i]);
    }
    failed += (size_t)(run_all_faults() + run_bad_mappings());
    failed += (size_t)(run_work_lengths(1) + run_work_lengths(6));
    failed += (size_t)(run_lengths() + run_all_list_lengths() + run_many());
    if (!prepare_batches(LONGEST_TABLE, LONGEST_LIST)) {
        printf("host/c: mmap failed\n");
        return 1;
    }
    failed += (size_t)(run_long_maps() + run_most_operations());
    failed += run_stale_tables(run_stale, &stale);
    if (failed != 0) {
        printf("host/c: %zu batches failed\n", failed);
        return 1;
    }
    printf("host/c: %zu batches, each length of bytes, work table and operation words, many ", all);
    printf("requests one by one, and each stale word of %zu tables, passed\n", stale);
    return 0;
}
