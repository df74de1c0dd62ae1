/* SPDX-License-Identifier: MIT */
/*
 * How much stack a call takes, and that it is no more where a table has more room, with sparse ranges and without
 * them, or where there is room for more page entries. Each call is made on a stack of its own, painted before: from the
 * stack pointer before the arguments are pushed down to the lowest byte that has changed is what it took, with all that
 * it calls itself. The caller's own place for the answer is not counted.
 *
 * Link it with -z now, so that no first call of memset or memmove runs the dynamic linker on that stack.
 */
#define _DEFAULT_SOURCE /* for MAP_ANONYMOUS in support.h */

#include <inttypes.h>
#include <stdio.h>
#include <stdlib.h>

#include "support.h"

/* What the header promises: a call takes less. */
#define TOO_MUCH 1024

/* A batch has as many as it may: all are the request of the case. */
#define REQUESTS 64

#define TABLE_WORDS WAYLLUQEN_TABLE_WORDS(MOST_MAPPINGS)
#define LIST_WORDS WAYLLUQEN_BATCH_LIST_WORDS(MOST_MAPPINGS, REQUESTS)
#define LONGEST_RANGE_LIST WAYLLUQEN_RANGE_LIST_WORDS(MOST_RANGES)

typedef waylluqen_answer bind_function(waylluqen_space, const uint64_t *, size_t, uint64_t, uint64_t *, size_t,
                                       uint64_t, uint64_t *, size_t, waylluqen_request);

/* The call that is made: what it is given, and the refusal that it answers. */
static struct {
    bind_function *bind;
    waylluqen_space space;
    size_t range_words;
    uint64_t range_count;
    size_t table_words;
    uint64_t count;
    size_t list_words;
    waylluqen_request request;
    uint8_t record[RECORD_BYTES];
    uint8_t records[REQUESTS * RECORD_BYTES];
    uint64_t address;
    waylluqen_mapping mapping;
    size_t entry_words;
    uint64_t refusal;
} call;

/* Operations or page entries are written to the list. */
static uint64_t ranges[LONGEST_RANGE_LIST], table[TABLE_WORDS], work[TABLE_WORDS], list[LIST_WORDS];
_Static_assert(LIST_WORDS >= (MOST_MAPPINGS + 4) * WAYLLUQEN_ENTRY_WORDS, "room for the most entries");

static _Alignas(64) uint8_t stack[1 << 16];
static uint8_t *before; /* the stack pointer before the arguments are pushed */

/* Nothing is pushed across it, since it may touch memory. */
#define NOTE_STACK_POINTER() __asm__ volatile("movq %%rsp, %0" : "=r"(before) : : "memory")

static void make_bind(void)
{
    NOTE_STACK_POINTER();
    call.refusal = call.bind(call.space, ranges, call.range_words, call.range_count, table, call.table_words,
                             call.count, list, call.list_words, call.request)
                       .refusal;
}

static void make_bind_record(void)
{
    NOTE_STACK_POINTER();
    call.refusal = waylluqen_bind_record(call.space, ranges, call.range_words, call.range_count, table,
                                         call.table_words, call.count, list, call.list_words, call.record,
                                         sizeof call.record)
                       .refusal;
}

static void make_bind_batch(void)
{
    NOTE_STACK_POINTER();
    call.refusal = waylluqen_bind_batch(call.space, ranges, call.range_words, call.range_count, table,
                                        call.table_words, call.count, work, call.table_words, list, call.list_words,
                                        call.records, sizeof call.records)
                       .refusal;
}

static void make_lookup(void)
{
    NOTE_STACK_POINTER();
    call.refusal = waylluqen_lookup(call.space, ranges, call.range_words, call.range_count, table, call.table_words,
                                    call.count, call.address)
                       .refusal;
}

static void make_check_request(void)
{
    NOTE_STACK_POINTER();
    call.refusal = waylluqen_check_request(call.record, sizeof call.record, call.space.start, call.space.size,
                                           call.space.reserved_start, call.space.reserved_size);
}

static void make_page_entries(void)
{
    NOTE_STACK_POINTER();
    call.refusal = waylluqen_page_entries(call.mapping, list, call.entry_words).refusal;
}

enum { BIND, BIND_RECORD, BIND_BATCH, LOOKUP, CHECK_REQUEST, PAGE_ENTRIES, CALLS };
static const struct {
    const char *name;
    void (*make)(void);
} calls[CALLS] = {{"bind", make_bind},
                  {"bind_record", make_bind_record},
                  {"bind_batch", make_bind_batch},
                  {"lookup", make_lookup},
                  {"check_request", make_check_request},
                  {"page_entries", make_page_entries}};

static void run_on_stack(void (*make)(void))
{
    __asm__ volatile("movq %%rsp, %%rbx\n\t"
                     "movq %0, %%rsp\n\t"
                     "call *%1\n\t"
                     "movq %%rbx, %%rsp"
                     :
                     : "r"(stack + sizeof stack), "r"(make)
                     : "rax", "rbx", "rcx", "rdx", "rsi", "rdi", "r8", "r9", "r10", "r11", "xmm0", "xmm1",
                       "xmm2", "xmm3", "xmm4", "xmm5", "xmm6", "xmm7", "xmm8", "xmm9", "xmm10", "xmm11", "xmm12",
                       "xmm13", "xmm14", "xmm15", "memory", "cc");
}

/* How many bytes the call takes that is made on a stack of this paint. */
static size_t painted(void (*make)(void), uint8_t paint)
{
    size_t lowest = 0;
    memset(stack, paint, sizeof stack);
    run_on_stack(make);
    while (stack[lowest] == paint) {
        lowest++;
    }
    return (size_t)(before - (stack + lowest));
}

/* Mappings as fill_places() has them, and zeros behind. Behind the pages of the last place are eight more. */
static void fill_table(size_t room, size_t count)
{
    static struct mapping mappings[MOST_MAPPINGS];
    memset(mappings, 0, sizeof mappings);
    fill_places(mappings, count);
    memset(table, UNWRITTEN_BYTE, sizeof table);
    memcpy(table, mappings, room * sizeof *mappings);
    call.space = (waylluqen_space){0, 4 * (room + 2) * PAGE, 0, 0};
    call.table_words = room * MAPPING_WORDS;
    call.list_words = WAYLLUQEN_BATCH_LIST_WORDS(room, REQUESTS);
    call.count = count;
    call.range_words = call.range_count = 0;
}

/* Which place a request is about; ALL is about all of them. */
enum where { FIRST_PLACE, MIDDLE_PLACE, LAST_PLACE, ALL };

/* What is wrong with the table: the mapping at the place; a word behind the last mapping, the first or the last. */
enum fault { NO_FAULT, BAD_PLACE, STALE_FIRST, STALE_LAST };

/* On a table that has room for `spare` mappings more: what is asked for, in pages from the place's first on. */
struct test_case {
    uint64_t refusal;
    size_t spare;
    enum where where;
    uint64_t op;
    uint64_t from;
    uint64_t to;
    enum fault fault;
};

/* As much as there is room for: no mapping is in the table. */
#define EMPTY SIZE_MAX

#define MAPS(where, from, to) where, WAYLLUQEN_OP_MAP, from, to, NO_FAULT
#define UNMAPS(where, from, to) where, WAYLLUQEN_OP_UNMAP, from, to, NO_FAULT

static const struct test_case cases[] = {
    /* Those behind move up: by one, into a gap or for a hole; by two. */
    {0, 1, MAPS(FIRST_PLACE, 3, 4)},
    {0, 1, MAPS(MIDDLE_PLACE, 3, 4)},
    {0, 1, MAPS(LAST_PLACE, 3, 4)},
    {0, 1, UNMAPS(FIRST_PLACE, 1, 2)},
    {0, 1, UNMAPS(LAST_PLACE, 1, 2)},
    {0, 2, MAPS(FIRST_PLACE, 1, 2)},
    {0, 2, MAPS(MIDDLE_PLACE, 1, 2)},
    /* They move down, by one, by two or by three, and what is left is cleared. */
    {0, 0, UNMAPS(FIRST_PLACE, 0, 4)},
    {0, 0, UNMAPS(MIDDLE_PLACE, 0, 4)},
    {0, 0, UNMAPS(LAST_PLACE, 0, 4)},
    {0, 0, MAPS(FIRST_PLACE, 0, 8)},
    {0, 0, UNMAPS(FIRST_PLACE, 0, 8)},
    {0, 0, UNMAPS(FIRST_PLACE, 0, 12)},
    {0, 0, UNMAPS(ALL, 0, 4)},
    {0, 0, MAPS(ALL, 0, 4)},
    {0, 1, UNMAPS(ALL, 0, 4)},
    /* They stay: one is replaced, one is cut, nothing is hit. */
    {0, 0, MAPS(FIRST_PLACE, 0, 3)},
    {0, 0, UNMAPS(MIDDLE_PLACE, 1, 4)},
    {0, 0, UNMAPS(LAST_PLACE, 3, 4)},
    /* Into an empty table: all that is behind is looked at. */
    {0, EMPTY, MAPS(FIRST_PLACE, 0, 3)},
    {0, EMPTY, UNMAPS(LAST_PLACE, 0, 3)},
    /* Refusals: of the mappings, of the words behind them, of the request, and for want of room. */
    {5, 0, FIRST_PLACE, WAYLLUQEN_OP_MAP, 0, 3, BAD_PLACE},
    {5, 0, MIDDLE_PLACE, WAYLLUQEN_OP_MAP, 0, 3, BAD_PLACE},
    {5, 0, LAST_PLACE, WAYLLUQEN_OP_UNMAP, 0, 3, BAD_PLACE},
    {17, 1, FIRST_PLACE, WAYLLUQEN_OP_MAP, 3, 4, STALE_FIRST},
    {17, 1, LAST_PLACE, WAYLLUQEN_OP_UNMAP, 0, 3, STALE_LAST},
    {17, EMPTY, FIRST_PLACE, WAYLLUQEN_OP_MAP, 0, 3, STALE_FIRST},
    {17, EMPTY, FIRST_PLACE, WAYLLUQEN_OP_UNMAP, 0, 3, STALE_LAST},
    {6, 0, MAPS(FIRST_PLACE, 3, 3)},
    {7, 0, MAPS(LAST_PLACE, 0, 13)},
    {11, 0, MAPS(FIRST_PLACE, 3, 4)},
    {11, 0, MAPS(LAST_PLACE, 3, 4)},
    {11, 0, UNMAPS(MIDDLE_PLACE, 1, 2)},
};

/* A request with the sparse flag, on a list with room for 64. Place p of the list has two pages of four from the
 * second on, over the mappings' places or behind all of them; what is asked for is in pages from the first on. */
struct sparse_case {
    uint64_t refusal;
    size_t count;
    size_t place;
    uint64_t op;
    uint64_t from;
    uint64_t to;
    enum { BEHIND_MAPPINGS, OVER_MAPPINGS } where;
    enum { NO_BAD_RANGE, BAD_FIRST, BAD_LAST, STALE_END } fault;
};

#define ADDS WAYLLUQEN_OP_MAP, 0, 1
#define OVERLAPS WAYLLUQEN_OP_MAP, 1, 3
#define REMOVES WAYLLUQEN_OP_UNMAP, 1, 3
#define GOOD BEHIND_MAPPINGS, NO_BAD_RANGE

static const struct sparse_case sparse_cases[] = {
    /* Those behind move up, or down; or there are none. */
    {0, 63, 0, ADDS, GOOD},
    {0, 63, 31, ADDS, GOOD},
    {0, 63, 63, ADDS, GOOD},
    {0, 0, 0, ADDS, GOOD},
    {0, 63, 0, ADDS, OVER_MAPPINGS, NO_BAD_RANGE},
    {0, 64, 0, REMOVES, GOOD},
    {0, 64, 32, REMOVES, GOOD},
    {0, 64, 63, REMOVES, GOOD},
    {0, 1, 0, REMOVES, GOOD},
    /* Refusals: of the list, of what overlaps, of what is not there or has a mapping, and for want of room. */
    {18, 64, 0, ADDS, BEHIND_MAPPINGS, BAD_FIRST},
    {18, 64, 0, REMOVES, BEHIND_MAPPINGS, BAD_LAST},
    {18, 63, 0, ADDS, BEHIND_MAPPINGS, STALE_END},
    {18, 0, 0, ADDS, BEHIND_MAPPINGS, STALE_END},
    {19, 64, 0, OVERLAPS, GOOD},
    {19, 64, 63, OVERLAPS, GOOD},
    {20, 63, 63, REMOVES, GOOD},
    {20, 64, 0, REMOVES, OVER_MAPPINGS, NO_BAD_RANGE},
    {11, 64, 0, ADDS, GOOD},
    {11, 64, 63, ADDS, GOOD},
};

/* A mapping of so many pages of a size from 1 GiB on, with some bytes around it on each side; how far its offset is
 * above its address; its object. There is room for four entries more than a table would have mappings. */
struct mapping_case {
    uint64_t refusal;
    uint64_t size;
    enum { ONE, AS_MANY, ONE_MORE, HALF_OF_ALL } pages;
    uint64_t around;
    uint64_t above;
    uint64_t object;
};

#define SIZE_2M WAYLLUQEN_PAGE_SIZE_2M
#define SIZE_1G WAYLLUQEN_PAGE_SIZE_1G

static const struct mapping_case mapping_cases[] = {
    /* As many entries as there is room for, of each size; few of them, of one size, of two and of all. */
    {0, PAGE, AS_MANY, 0, PAGE, 7},
    {0, SIZE_2M, AS_MANY, 0, SIZE_2M, 7},
    {0, SIZE_1G, AS_MANY, 0, SIZE_1G, 7},
    {0, PAGE, ONE, 0, 0, 7},
    {0, SIZE_2M, ONE, PAGE, 0, 7},
    {0, SIZE_1G, ONE, PAGE, 0, 7},
    {0, SIZE_1G, ONE, SIZE_2M + PAGE, 0, 7},
    /* Refusals: of the mapping, and for want of words, by a few or by nearly all. */
    {5, PAGE, ONE, 0, 0, 0},
    {5, PAGE + 1, ONE, 0, 0, 7},
    {5, SIZE_1G, HALF_OF_ALL, 0, LIMIT, 7},
    {16, PAGE, ONE_MORE, 0, PAGE, 7},
    {16, SIZE_2M, ONE_MORE, 0, SIZE_2M, 7},
    {16, SIZE_1G, ONE_MORE, 0, 0, 7},
    {16, SIZE_1G, AS_MANY, SIZE_2M + PAGE, 0, 7},
    {16, SIZE_1G, HALF_OF_ALL, 0, PAGE, 7},
    {16, SIZE_1G, HALF_OF_ALL, SIZE_2M + PAGE, SIZE_2M, 7},
};

static void fail(const char *what, const char *why, uint64_t number)
{
    printf("host/c: stack: %s: %s %" PRIu64 "\n", what, why, number);
    exit(1);
}

static void break_table(enum fault fault, size_t place)
{
    switch (fault) {
    case BAD_PLACE:
        table[place * MAPPING_WORDS + WAYLLUQEN_MAPPING_OBJECT] = 0;
        break;
    case STALE_FIRST:
        table[call.count * MAPPING_WORDS] = 1;
        break;
    case STALE_LAST:
        table[call.table_words - 1] = 1;
        break;
    case NO_FAULT:
        break;
    }
}

/* Asks for it by a record and by a batch, whose last record may be one that is refused. */
static void put_records(const struct record *fields, int is_last_bad)
{
    const struct record bad = {.op = 2};
    encode(call.record, fields);
    for (size_t i = 0; i < REQUESTS; i++) {
        encode(call.records + i * RECORD_BYTES, is_last_bad && i + 1 == REQUESTS ? &bad : fields);
    }
}

/* Lends what a case needs, with room for so many mappings, and asks for it in every form. */
static void lend_case(const struct test_case *test, size_t room, int is_last_bad)
{
    size_t places[] = {0, room / 2, room - 1, 0};
    size_t place = places[test->where];
    size_t end = test->where == ALL ? room - 1 : place;
    size_t count = test->spare < room ? room - test->spare : 0;
    int maps = test->op == WAYLLUQEN_OP_MAP;
    struct record fields = {.op = (uint32_t)test->op,
                            .object = maps ? 9999 : 0,
                            .address = (4 * place + test->from) * PAGE,
                            .size = (4 * (end - place) + test->to - test->from) * PAGE};

    fill_table(room, count);
    break_table(test->fault, place);
    call.request = (waylluqen_request){fields.op, fields.address, fields.size, fields.object, 0};
    call.address = fields.address;
    put_records(&fields, is_last_bad);
}

/* Lends a list of so many ranges behind a page, and room for 64. */
static void fill_list(const struct sparse_case *test, uint64_t page)
{
    memset(ranges, 0, sizeof ranges);
    for (size_t place = 0; place < test->count; place++) {
        ranges[place * RANGE_WORDS] = (page + 4 * place + 1) * PAGE;
        ranges[place * RANGE_WORDS + WAYLLUQEN_RANGE_SIZE] = 2 * PAGE;
    }
    ranges[0] += test->fault == BAD_FIRST;
    ranges[LONGEST_RANGE_LIST - 1] += test->fault == BAD_LAST || test->fault == STALE_END;
    call.range_words = LONGEST_RANGE_LIST;
    call.range_count = test->count;
}

/* The same for a case with the sparse flag, on a full table. By numbers it is an unmap, since there is no flag. */
static void lend_sparse(const struct sparse_case *test, size_t room, int is_last_bad)
{
    uint64_t page = test->where == OVER_MAPPINGS ? 0 : 4 * (room + 1);
    struct record fields = {.op = (uint32_t)test->op,
                            .flags = WAYLLUQEN_FLAG_SPARSE,
                            .address = (page + 4 * test->place + test->from) * PAGE,
                            .size = (test->to - test->from) * PAGE};

    fill_table(room, room);
    fill_list(test, page);
    call.space.size += 4 * MOST_RANGES * PAGE;
    call.request = (waylluqen_request){WAYLLUQEN_OP_UNMAP, 4 * (room + 1) * PAGE, PAGE, 0, 0};
    call.address = fields.address;
    put_records(&fields, is_last_bad);
}

/* What the case's refusal is to each of the calls. Once granted, a batch's request is granted again and again. */
static uint64_t refusal_of(const struct test_case *test, int which, int is_last_bad)
{
    int is_request = test->refusal == 6 || test->refusal == 7;
    int is_table = test->fault != NO_FAULT;
    int is_told = which == LOOKUP ? is_table : which != CHECK_REQUEST || is_request;
    uint64_t granted = which == BIND_BATCH && is_last_bad ? 13 : 0;
    return is_told && test->refusal != 0 ? test->refusal : granted;
}

/* Only the record has the flag, and only where there is a list is there 18. A batch takes no flag. */
static uint64_t sparse_refusal_of(const struct sparse_case *test, int which)
{
    int is_told = which == BIND_RECORD || (which != CHECK_REQUEST && test->refusal == 18);
    return is_told ? test->refusal : which == BIND_BATCH ? 14 : 0;
}

/* A mapping and words for its entries; answers the refusal. */
static uint64_t lend_mapping(const struct mapping_case *test, size_t room)
{
    const uint64_t entries = room + 4;
    const uint64_t pages[] = {1, entries, entries + 1, LIMIT / 2 / SIZE_1G};
    const uint64_t address = SIZE_1G - test->around;
    call.mapping = (waylluqen_mapping){address, pages[test->pages] * test->size + 2 * test->around, test->object,
                                       address + test->above};
    call.entry_words = entries * WAYLLUQEN_ENTRY_WORDS;
    return test->refusal;
}

#define CASES (sizeof cases / sizeof cases[0])
#define SPARSE_CASES (sizeof sparse_cases / sizeof sparse_cases[0])
#define MAPPING_CASES (sizeof mapping_cases / sizeof mapping_cases[0])

/* Lends what a case needs, one without the sparse flag or one with it; answers the refusal that a call gives. Page
 * entries have cases of their own. */
static uint64_t lend_any(size_t i, int which, size_t room, int is_last_bad)
{
    if (which == PAGE_ENTRIES) {
        return lend_mapping(&mapping_cases[i], room);
    }
    if (i < CASES) {
        lend_case(&cases[i], room, is_last_bad);
        return refusal_of(&cases[i], which, is_last_bad);
    }
    lend_sparse(&sparse_cases[i - CASES], room, is_last_bad);
    return sparse_refusal_of(&sparse_cases[i - CASES], which);
}

/* The most that a call takes with room for so many mappings. Painted twice: what is written may look like paint. A
 * batch is granted and refused in its turn. */
static size_t most_of(int which, size_t room)
{
    static const uint8_t paints[] = {0xa5, 0x5a};
    size_t most = 0;
    for (size_t i = 0; i < (which == PAGE_ENTRIES ? MAPPING_CASES : CASES + SPARSE_CASES); i++) {
        for (size_t j = 0; j < 2 * sizeof paints; j++) {
            uint64_t refusal = lend_any(i, which, room, j / 2 != 0);
            size_t bytes = painted(calls[which].make, paints[j % 2]);
            if (call.refusal != refusal) {
                fail(calls[which].name, "another answer than expected, to case", i);
            }
            most = bytes > most ? bytes : most;
        }
    }
    return most;
}

/* In place of the library: takes what is known. */
#define KNOWN 1000
static __attribute__((noinline)) waylluqen_answer
stand_in(waylluqen_space space, const uint64_t *list_words, size_t range_words, uint64_t range_count,
         uint64_t *words, size_t table_words, uint64_t count, uint64_t *operations, size_t operation_words,
         waylluqen_request request)
{
    volatile uint8_t taken[KNOWN];
    taken[0] = (uint8_t)(space.start + range_words + table_words + operation_words + (words == operations) +
                         (list_words == words));
    return (waylluqen_answer){0, 0, request.op, count + taken[0], range_count};
}

/* Space, request and what else the registers have no room for are pushed: three words. There is a return address
 * too, and the compiler may align what it pushes and takes. */
static void check_measure(void)
{
    const size_t least = KNOWN + sizeof(waylluqen_space) + sizeof(waylluqen_request) + 3 * sizeof(uint64_t) +
                         sizeof(void *);
    call.bind = stand_in;
    size_t bytes = painted(make_bind, UNWRITTEN_BYTE);
    if (bytes < least || bytes > least + 64) {
        fail("a function that takes some 1,000 bytes", "is measured as", bytes);
    }
    call.bind = waylluqen_bind;
}

/* Where there is room for one mapping alone, none has to be moved by memmove or cleared by memset. */
#define ROOMS 4
static const size_t rooms[ROOMS] = {1, 2, 512, MOST_MAPPINGS};

static void print_most(size_t room, const size_t most[CALLS])
{
    printf("host/c: bytes of stack, room for %zu:", room);
    for (int which = 0; which < CALLS; which++) {
        printf(" %s %zu", calls[which].name, most[which]);
    }
    printf("\n");
}

static void check_most(size_t most[ROOMS][CALLS])
{
    for (int which = 0; which < CALLS; which++) {
        for (size_t i = 0; i < ROOMS; i++) {
            if (most[i][which] >= TOO_MUCH) {
                fail(calls[which].name, "is to take less than a kilobyte of stack, and takes", most[i][which]);
            }
            if (rooms[i] > 2 && most[i][which] > most[i - 1][which]) {
                fail(calls[which].name, "takes more stack where there is more room:", most[i][which]);
            }
        }
    }
}

int main(void)
{
    size_t most[ROOMS][CALLS];

    check_measure();
    for (size_t i = 0; i < ROOMS; i++) {
        for (int which = 0; which < CALLS; which++) {
            most[i][which] = most_of(which, rooms[i]);
        }
        print_most(rooms[i], most[i]);
    }
    check_most(most);
    return 0;
}
