/*
 * Makes the calls that come on standard input, with lent memory between pages that may not be
 * touched, and writes what they answer and leave to standard output. host/soak compares that.
 *
 * A call comes as a struct call, then the words of its list of sparse ranges and its table's words
 * unless it goes on with the last ones, its words to work in, its operation words, and the bytes of
 * its record or records. It leaves six words of answer, then the list's words, the table's words,
 * those to work in and the operation words. Words are as the machine has them. A mapping whose page
 * entries are listed comes as the numbers of a request, and the words for them as operation words.
 */
#define _DEFAULT_SOURCE /* for MAP_ANONYMOUS */

#include <stdint.h>
#include <stdio.h>
#include <stdlib.h>
#include <string.h>

#include "support.h"

enum { BIND, BIND_RECORD, LOOKUP, CHECK_REQUEST, BIND_BATCH, PAGE_ENTRIES };

/* What is lent at the back of its memory; the rest at the front. */
enum {
    TABLE_AT_BACK = 1,
    OPERATIONS_AT_BACK = 2,
    RECORD_AT_BACK = 4,
    RANGES_AT_BACK = 8,
    WORK_AT_BACK = 16
};

#define ANSWER_WORDS 6

struct call {
    uint64_t what;
    uint64_t goes_on; /* 1 where list and table are what the last call with a table left */
    uint64_t at_back;
    waylluqen_space space;
    uint64_t range_words;
    uint64_t range_count;
    uint64_t table_words;
    uint64_t count;
    uint64_t work_words;
    uint64_t operation_words;
    uint64_t record_bytes; /* of all records of a batch */
    waylluqen_request request;
    uint64_t address;
};

_Static_assert(sizeof(struct call) == 20 * sizeof(uint64_t), "20 words, without a gap");
_Static_assert(sizeof(waylluqen_translation) == ANSWER_WORDS * sizeof(uint64_t), "the longest");

/* Memories to lend from: a small one takes less time to fill and to look through. The last but one
 * has room for a table that is somewhat too long, the last for the operation words of such a one. */
#define MEMORIES 4
#define MOST_WORDS 73728
static const size_t memory_words[MEMORIES] = {512, 4096, 20992, MOST_WORDS};

/* What is lent for a call, and the memory in which it is. */
struct area {
    const char *name;
    struct lent memories[MEMORIES];
    const struct lent *memory;
    uint8_t *lent;
    size_t bytes;
};

static struct area ranges = {.name = "list of sparse ranges"};
static struct area table = {.name = "table"};
static struct area work = {.name = "work table"};
static struct area operations = {.name = "operations"};
static struct area record = {.name = "record"};

static uint8_t unwritten[MOST_WORDS * sizeof(uint64_t)];

static void fail(const char *what, const char *why)
{
    fprintf(stderr, "host/c: %s %s\n", what, why);
    exit(1);
}

static void prepare_area(struct area *area)
{
    for (size_t i = 0; i < MEMORIES; i++) {
        if (!prepare(&area->memories[i], memory_words[i])) {
            fail(area->name, "has no memory");
        }
    }
}

static void read_all(void *to, size_t bytes)
{
    if (fread(to, 1, bytes, stdin) != bytes) {
        fail("a call", "is cut");
    }
}

/* Reads what is to be lent into the smallest memory that has room, to its front or its back. */
static void lend_input(struct area *area, size_t bytes, int at_back)
{
    size_t i = 0;
    while (i < MEMORIES && area->memories[i].bytes < bytes) {
        i++;
    }
    if (i == MEMORIES) {
        fail(area->name, "is too long");
    }
    area->memory = &area->memories[i];
    area->lent = area->memory->memory + (at_back ? area->memory->bytes - bytes : 0);
    area->bytes = bytes;
    memset(area->memory->memory, UNWRITTEN_BYTE, area->memory->bytes);
    read_all(area->lent, bytes);
}

/* All around what is lent must be as it was. */
static void check_beside(const struct area *area)
{
    size_t before = (size_t)(area->lent - area->memory->memory);
    size_t behind = area->memory->bytes - before - area->bytes;
    if (memcmp(area->memory->memory, unwritten, before) != 0 ||
        memcmp(area->lent + area->bytes, unwritten, behind) != 0) {
        fail(area->name, "has something changed beside it");
    }
}

static uint64_t *words_of(const struct area *area)
{
    return (uint64_t *)(void *)area->lent;
}

/* Reads the next call and what is lent to it. Answers 0 where there is none. */
static int read_call(struct call *call)
{
    size_t bytes = fread(call, 1, sizeof *call, stdin);
    if (bytes == 0 && feof(stdin)) {
        return 0;
    }
    if (bytes != sizeof *call) {
        fail("a call", "is cut");
    }
    size_t range_bytes = call->range_words * sizeof(uint64_t);
    size_t table_bytes = call->table_words * sizeof(uint64_t);
    if (!call->goes_on) {
        lend_input(&ranges, range_bytes, (call->at_back & RANGES_AT_BACK) != 0);
        lend_input(&table, table_bytes, (call->at_back & TABLE_AT_BACK) != 0);
    } else if (ranges.bytes != range_bytes || table.bytes != table_bytes) {
        fail("a call", "goes on with another list or table");
    }
    lend_input(&work, call->work_words * sizeof(uint64_t), (call->at_back & WORK_AT_BACK) != 0);
    lend_input(&operations, call->operation_words * sizeof(uint64_t),
               (call->at_back & OPERATIONS_AT_BACK) != 0);
    lend_input(&record, call->record_bytes, (call->at_back & RECORD_AT_BACK) != 0);
    return 1;
}

static waylluqen_answer bind(const struct call *call)
{
    return waylluqen_bind(call->space, words_of(&ranges), call->range_words, call->range_count,
                          words_of(&table), call->table_words, call->count, words_of(&operations),
                          call->operation_words, call->request);
}

static waylluqen_answer bind_record(const struct call *call)
{
    return waylluqen_bind_record(call->space, words_of(&ranges), call->range_words,
                                 call->range_count, words_of(&table), call->table_words,
                                 call->count, words_of(&operations), call->operation_words,
                                 record.lent, call->record_bytes);
}

static waylluqen_answer bind_batch(const struct call *call)
{
    return waylluqen_bind_batch(call->space, words_of(&ranges), call->range_words,
                                call->range_count, words_of(&table), call->table_words,
                                call->count, words_of(&work), call->work_words,
                                words_of(&operations), call->operation_words, record.lent,
                                call->record_bytes);
}

static void ask(const struct call *call, uint64_t *answer)
{
    waylluqen_answer got = call->what == BIND          ? bind(call)
                           : call->what == BIND_RECORD ? bind_record(call)
                                                       : bind_batch(call);
    memcpy(answer, &got, sizeof got);
}

static void look_up(const struct call *call, uint64_t *answer)
{
    waylluqen_translation got =
        waylluqen_lookup(call->space, words_of(&ranges), call->range_words, call->range_count,
                         words_of(&table), call->table_words, call->count, call->address);
    memcpy(answer, &got, sizeof got);
}

static void list_entries(const struct call *call, uint64_t *answer)
{
    waylluqen_mapping mapping = {.address = call->request.address,
                                 .size = call->request.size,
                                 .object = call->request.object,
                                 .offset = call->request.offset};
    waylluqen_pages got =
        waylluqen_page_entries(mapping, words_of(&operations), call->operation_words);
    memcpy(answer, &got, sizeof got);
}

static void make(const struct call *call, uint64_t *answer)
{
    switch (call->what) {
    case BIND:
    case BIND_RECORD:
    case BIND_BATCH:
        ask(call, answer);
        break;
    case LOOKUP:
        look_up(call, answer);
        break;
    case CHECK_REQUEST:
        *answer = waylluqen_check_request(record.lent, call->record_bytes, call->space.start,
                                          call->space.size, call->space.reserved_start,
                                          call->space.reserved_size);
        break;
    case PAGE_ENTRIES:
        list_entries(call, answer);
        break;
    default:
        fail("a call", "is of no kind");
    }
}

/* Makes a call, which may not write the record nor anything beside what is lent. */
static void make_checked(const struct call *call, uint64_t *answer)
{
    static uint8_t before[MOST_WORDS * sizeof(uint64_t)];
    memcpy(before, record.lent, record.bytes);
    make(call, answer);
    if (memcmp(before, record.lent, record.bytes) != 0) {
        fail(record.name, "is changed");
    }
    check_beside(&ranges);
    check_beside(&table);
    check_beside(&work);
    check_beside(&operations);
    check_beside(&record);
}

static void write_all(const void *from, size_t bytes)
{
    if (fwrite(from, 1, bytes, stdout) != bytes) {
        fail("an answer", "can't be written");
    }
}

int main(void)
{
    static char buffer[1 << 18];
    struct call call;

    setvbuf(stdout, buffer, _IOFBF, sizeof buffer);
    memset(unwritten, UNWRITTEN_BYTE, sizeof unwritten);
    prepare_area(&ranges);
    prepare_area(&table);
    prepare_area(&work);
    prepare_area(&operations);
    prepare_area(&record);
    while (read_call(&call)) {
        uint64_t answer[ANSWER_WORDS] = {0};
        make_checked(&call, answer);
        write_all(answer, sizeof answer);
        write_all(ranges.lent, ranges.bytes);
        write_all(table.lent, table.bytes);
        write_all(work.lent, work.bytes);
        write_all(operations.lent, operations.bytes);
        /* Now, so that a call that ends the program is known for the first without an answer. */
        if (fflush(stdout) != 0) {
            fail("an answer", "can't be written");
        }
    }
    return 0;
}
