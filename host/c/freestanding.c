/* SPDX-License-Identifier: MIT */
/*
 * A program without a C library: all that it gives the linker is a start, memset() and memmove(),
 * as a kernel would. It exits with 0 if the library answers as it should, else with the line that
 * says otherwise.
 */
#include "waylluqen.h"

enum { CAPACITY = 8, RANGES = 2, REQUESTS = 2, ENTRIES = 5 };

/* What a program starts with, x86-64 Linux: a stack that is aligned as a call expects. */
__asm__(".globl _start\n"
        "_start:\n"
        "    and $-16, %rsp\n"
        "    call run\n"
        "    mov %eax, %edi\n"
        "    mov $60, %eax\n"
        "    syscall\n");

void *memset(void *to, int byte, size_t bytes);
void *memmove(void *to, const void *from, size_t bytes);
int run(void);

void *memset(void *to, int byte, size_t bytes)
{
    volatile unsigned char *next = (unsigned char *)to;
    while (bytes-- > 0) {
        *next++ = (unsigned char)byte;
    }
    return to;
}

/* The two runs may overlap: down it goes from the first byte, up from the last one. */
void *memmove(void *to, const void *from, size_t bytes)
{
    volatile unsigned char *next = (unsigned char *)to;
    const unsigned char *old = (const unsigned char *)from;
    size_t i;

    if ((uintptr_t)to <= (uintptr_t)from) {
        for (i = 0; i < bytes; i++) {
            next[i] = old[i];
        }
    } else {
        for (i = bytes; i-- > 0;) {
            next[i] = old[i];
        }
    }
    return to;
}

static uint64_t table[WAYLLUQEN_TABLE_WORDS(CAPACITY)];
static uint64_t ranges[WAYLLUQEN_RANGE_LIST_WORDS(RANGES)];
static uint64_t work[WAYLLUQEN_TABLE_WORDS(CAPACITY)];
static uint64_t operations[WAYLLUQEN_BATCH_LIST_WORDS(CAPACITY, REQUESTS)];
static const size_t table_words = WAYLLUQEN_TABLE_WORDS(CAPACITY);
static const size_t range_words = WAYLLUQEN_RANGE_LIST_WORDS(RANGES);
static const size_t operation_words = WAYLLUQEN_BATCH_LIST_WORDS(CAPACITY, REQUESTS);
static const waylluqen_space space = {0x100000, 0x100000, 0, 0};

static waylluqen_answer bind_record(uint64_t range_count, uint64_t count, const uint8_t *record)
{
    return waylluqen_bind_record(space, ranges, range_words, range_count, table, table_words, count,
                                 operations, operation_words, record, WAYLLUQEN_RECORD_BYTES);
}

/* In the hole, up to what is left behind it; in that, up to its end; with a count too low. */
static int look_up(uint64_t count)
{
    waylluqen_translation seen =
        waylluqen_lookup(space, ranges, range_words, 0, table, table_words, count, 0x101ff8);
    if (seen.refusal != WAYLLUQEN_OK || seen.shown != WAYLLUQEN_SHOWN_NOTHING || seen.bytes != 8) {
        return __LINE__;
    }
    seen = waylluqen_lookup(space, ranges, range_words, 0, table, table_words, count, 0x102008);
    if (seen.refusal != WAYLLUQEN_OK || seen.shown != WAYLLUQEN_SHOWN_OBJECT || seen.object != 7 ||
        seen.offset != 0x2008 || seen.bytes != 0xff8) {
        return __LINE__;
    }
    seen = waylluqen_lookup(space, ranges, range_words, 0, table, table_words, count - 1, 0x102008);
    if (seen.refusal != WAYLLUQEN_REFUSED_STALE_WORDS || seen.bytes != 0) {
        return __LINE__;
    }
    return 0;
}

/* Pages before the last mapping come and go, and it moves with what is between: up and down, onto
 * words of its own run too. In the end all is as it was. */
static int move_behind(uint64_t count)
{
    static const waylluqen_request requests[] = {{WAYLLUQEN_OP_MAP, 0x101000, 0x1000, 9, 0},
                                                 {WAYLLUQEN_OP_UNMAP, 0x100000, 0x1000, 0, 0},
                                                 {WAYLLUQEN_OP_MAP, 0x100000, 0x1000, 7, 0},
                                                 {WAYLLUQEN_OP_UNMAP, 0x101000, 0x1000, 0, 0}};
    static const uint64_t counts[] = {3, 2, 3, 2};
    waylluqen_answer answer;
    const uint64_t *last;
    int i;

    for (i = 0; i < 4; i++) {
        answer = waylluqen_bind(space, ranges, range_words, 0, table, table_words, count,
                                operations, operation_words, requests[i]);
        if (answer.refusal != WAYLLUQEN_OK || answer.count != counts[i]) {
            return __LINE__;
        }
        count = answer.count;
        last = table + (count - 1) * WAYLLUQEN_MAPPING_WORDS;
        if (last[WAYLLUQEN_MAPPING_ADDRESS] != 0x102000 || last[WAYLLUQEN_MAPPING_OBJECT] != 7 ||
            last[WAYLLUQEN_MAPPING_OFFSET] != 0x2000) {
            return __LINE__;
        }
    }
    return 0;
}

/* A sparse range over the hole and what is left on both sides of it, and a page more. It can't be
 * removed, since mappings are in it. */
static int make_sparse(uint64_t count)
{
    uint8_t sparse[WAYLLUQEN_RECORD_BYTES] = {WAYLLUQEN_OP_MAP};
    waylluqen_answer answer;
    waylluqen_translation seen;

    sparse[WAYLLUQEN_RECORD_FLAGS + 1] = WAYLLUQEN_FLAG_SPARSE >> 8;
    sparse[WAYLLUQEN_RECORD_ADDR + 2] = 0x10;
    sparse[WAYLLUQEN_RECORD_RANGE + 1] = 0x40;
    answer = bind_record(0, count, sparse);
    if (answer.refusal != WAYLLUQEN_OK || answer.operations != 0 || answer.count != count ||
        answer.ranges != 1 || ranges[WAYLLUQEN_RANGE_START] != 0x100000 ||
        ranges[WAYLLUQEN_RANGE_SIZE] != 0x4000) {
        return __LINE__;
    }
    seen = waylluqen_lookup(space, ranges, range_words, 1, table, table_words, count, 0x101ff8);
    if (seen.refusal != WAYLLUQEN_OK || seen.shown != WAYLLUQEN_SHOWN_SPARSE || seen.bytes != 8) {
        return __LINE__;
    }
    seen = waylluqen_lookup(space, ranges, range_words, 1, table, table_words, count, 0x103000);
    if (seen.shown != WAYLLUQEN_SHOWN_SPARSE || seen.bytes != 0x1000) {
        return __LINE__;
    }
    sparse[WAYLLUQEN_RECORD_OP] = WAYLLUQEN_OP_UNMAP;
    answer = bind_record(1, count, sparse);
    if (answer.refusal != WAYLLUQEN_REFUSED_NO_SUCH_RANGE || answer.ranges != 1) {
        return __LINE__;
    }
    return 0;
}

static waylluqen_answer bind_batch(uint64_t count, const uint8_t *records)
{
    return waylluqen_bind_batch(space, ranges, range_words, 1, table, table_words, count, work,
                                table_words, operations, operation_words, records,
                                WAYLLUQEN_BATCH_BYTES(REQUESTS));
}

/* What is left on both sides of the hole goes, and the page behind it is mapped, in one batch. One
 * with a request that is refused leaves the table as it is, and says which request it is. */
static int bind_all(uint64_t count)
{
    uint8_t records[WAYLLUQEN_BATCH_BYTES(REQUESTS)] = {WAYLLUQEN_OP_UNMAP};
    uint8_t *second = records + WAYLLUQEN_RECORD_BYTES;
    waylluqen_answer answer;

    records[WAYLLUQEN_RECORD_ADDR + 2] = 0x10;
    records[WAYLLUQEN_RECORD_RANGE + 1] = 0x40;
    second[WAYLLUQEN_RECORD_HANDLE] = 9;
    second[WAYLLUQEN_RECORD_ADDR + 1] = 0x30;
    second[WAYLLUQEN_RECORD_ADDR + 2] = 0x10;
    second[WAYLLUQEN_RECORD_RANGE + 1] = 0x10;
    work[0] = 1;
    answer = bind_batch(count, records);
    if (answer.refusal != WAYLLUQEN_OK || answer.operations != 3 || answer.count != 1 ||
        answer.ranges != 1 || table[WAYLLUQEN_MAPPING_ADDRESS] != 0x103000 || work[0] != 0 ||
        operations[2 * WAYLLUQEN_OPERATION_WORDS] != WAYLLUQEN_KIND_MAP) {
        return __LINE__;
    }
    second[WAYLLUQEN_RECORD_HANDLE] = 0;
    answer = bind_batch(1, records);
    if (answer.refusal != WAYLLUQEN_REFUSED_BAD_OBJECT || answer.place != 1 || answer.count != 1 ||
        table[WAYLLUQEN_MAPPING_ADDRESS] != 0x103000 ||
        operations[WAYLLUQEN_OPERATION_KIND] != 0) {
        return __LINE__;
    }
    return 0;
}

/* A page of 1 GiB, and a smaller one of each size on both sides; with a word too few nothing. */
static int list_pages(void)
{
    static const uint64_t sizes[ENTRIES] = {0x1000, 0x200000, 0x40000000, 0x200000, 0x1000};
    static uint64_t entries[ENTRIES * WAYLLUQEN_ENTRY_WORDS + 1];
    const size_t words = ENTRIES * WAYLLUQEN_ENTRY_WORDS;
    waylluqen_mapping mapping = {0x3fdff000, 0x40402000, 7, 0x7fdff000};
    waylluqen_pages answer = waylluqen_page_entries(mapping, entries, words - 1);
    const uint64_t *entry = entries;
    int i;

    if (answer.refusal != WAYLLUQEN_REFUSED_SHORT_OUTPUT || answer.entries + entries[0] != 0) {
        return __LINE__;
    }
    entries[words] = 9;
    answer = waylluqen_page_entries(mapping, entries, words + 1);
    if (answer.refusal != WAYLLUQEN_OK || answer.entries != ENTRIES || entries[words] != 9) {
        return __LINE__;
    }
    for (i = 0; i < ENTRIES; i++, entry += WAYLLUQEN_ENTRY_WORDS) {
        if (entry[WAYLLUQEN_ENTRY_ADDRESS] != mapping.address ||
            entry[WAYLLUQEN_ENTRY_OFFSET] != mapping.offset ||
            entry[WAYLLUQEN_ENTRY_SIZE] != sizes[i]) {
            return __LINE__;
        }
        mapping.address += sizes[i];
        mapping.offset += sizes[i];
    }
    mapping.object = 0;
    answer = waylluqen_page_entries(mapping, entries, words);
    return answer.refusal != WAYLLUQEN_REFUSED_BAD_MAPPING || answer.place != 0 ? __LINE__ : 0;
}

int run(void)
{
    const waylluqen_request map = {WAYLLUQEN_OP_MAP, 0x100000, 0x3000, 7, 0};
    uint8_t hole[WAYLLUQEN_RECORD_BYTES] = {WAYLLUQEN_OP_UNMAP};
    waylluqen_answer answer;
    int line;

    answer = waylluqen_bind(space, ranges, range_words, 0, table, table_words, 0, operations,
                            operation_words, map);
    if (answer.refusal != WAYLLUQEN_OK || answer.operations != 1 || answer.count != 1) {
        return __LINE__;
    }

    /* A page in its middle, 0x101000. */
    hole[WAYLLUQEN_RECORD_ADDR + 1] = 0x10;
    hole[WAYLLUQEN_RECORD_ADDR + 2] = 0x10;
    hole[WAYLLUQEN_RECORD_RANGE + 1] = 0x10;
    if (waylluqen_check_request(hole, sizeof hole, space.start, space.size, 0, 0) != WAYLLUQEN_OK) {
        return __LINE__;
    }
    answer = bind_record(0, 1, hole);
    if (answer.refusal != WAYLLUQEN_OK || answer.operations != 1 || answer.count != 2 ||
        operations[WAYLLUQEN_OPERATION_KIND] != WAYLLUQEN_KIND_REMAP) {
        return __LINE__;
    }
    line = look_up(answer.count);
    line = line != 0 ? line : move_behind(answer.count);
    line = line != 0 ? line : make_sparse(answer.count);
    line = line != 0 ? line : bind_all(answer.count);
    return line != 0 ? line : list_pages();
}

/* An exit status has 8 bits: a line behind this one would pass for another, or for none. */
typedef char last_line[__LINE__ < 256 ? 1 : -1];
