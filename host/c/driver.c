/* SPDX-License-Identifier: MIT */
/*
 * An example driver: it keeps one address space and carries each operation out on a page table,
 * here an array. Where that fails half-way, it goes back. It takes requests one by one and in
 * batches. It also keeps sparse ranges, and sees to the entries of their pages.
 * host/rust/examples/driver.rs is the same in Rust. Both print what host/driver.out has, and end
 * with 1 if a page entry is not what look-ups say. From the repository's root:
 *
 *     make
 *     gcc -std=c99 -O2 -Ihost/include host/c/driver.c target/staticlib/libwaylluqen.a -o driver
 *     ./driver
 */
#include <inttypes.h>
#include <stdbool.h>
#include <stdio.h>
#include <stdlib.h>
#include <string.h>

#include "waylluqen.h"

#define PAGE ((uint64_t)WAYLLUQEN_PAGE_SIZE)
#define START ((uint64_t)0x100000)
#define PLENTY UINT64_MAX
#define HEX "0x%" PRIx64
#define LENGTH(array) (sizeof(array) / sizeof *(array))

enum { PAGES = 32, CAPACITY = 8, RANGES = 4 };
enum { FRAMEBUFFER = 1, TEXTURE = 2, RING = 3, TILES = 4 }; /* objects; 0 is none */

/* What a page's first byte shows, as a look-up has it. That it is sparse is a bit in hardware. */
struct entry {
    uint64_t shown, object, offset;
};

/* Stands for the page table that the GPU reads. */
struct page_table {
    struct entry entries[PAGES];
    uint64_t memory; /* how many entries can be changed until one can't be; a simulation */
};

/* The words of a table and of a list of sparse ranges, and their counts: they belong together, so
 * they are copied together. */
struct table {
    uint64_t words[WAYLLUQEN_TABLE_WORDS(CAPACITY)], count;
    uint64_t ranges[WAYLLUQEN_RANGE_LIST_WORDS(RANGES)], range_count;
};

/* How many page entries were written from look-ups, and from how many. */
struct from_look_ups {
    uint64_t entries, look_ups;
};

/* All that a driver keeps for one address space, and scratch for the calls: 64-bit words, with no
 * gap between them. */
struct address_space {
    waylluqen_space bounds;
    struct table table;
    uint64_t operations[WAYLLUQEN_BATCH_LIST_WORDS(CAPACITY, WAYLLUQEN_MAX_BATCH)];
    uint64_t work[WAYLLUQEN_TABLE_WORDS(CAPACITY)]; /* a batch's */
    struct page_table pages;
    struct from_look_ups went_back; /* by the last going back */
    uint64_t compared;              /* how often the pages were compared with look-ups */
};

/* Addresses of whole pages, [start, end). */
struct range {
    uint64_t start, end;
};

/* How many page entries a request clears, keeps, writes and makes sparse. */
struct counts {
    uint64_t cleared, kept, written, sparse;
};

/* What became of a request. REFUSED and WENT_BACK leave all as it was. */
enum outcome { CARRIED_OUT, REFUSED, WENT_BACK };

static void fail(const char *why, uint64_t number)
{
    fprintf(stderr, "driver: %s " HEX "\n", why, number);
    exit(1);
}

static const char *name_of(uint64_t object)
{
    static const char *const names[] = {"nothing", "framebuffer", "texture", "ring", "tiles"};
    return object < LENGTH(names) ? names[object] : "unknown";
}

/* Whether a batch is refused for one of its requests. The answer's place is the request's then. */
static bool is_of_request(uint64_t refusal)
{
    switch (refusal) {
    case WAYLLUQEN_REFUSED_BAD_OP:
    case WAYLLUQEN_REFUSED_BAD_FLAGS:
    case WAYLLUQEN_REFUSED_UNALIGNED:
    case WAYLLUQEN_REFUSED_OUTSIDE_SPACE:
    case WAYLLUQEN_REFUSED_RESERVED:
    case WAYLLUQEN_REFUSED_BAD_OBJECT:
    case WAYLLUQEN_REFUSED_BAD_OFFSET:
    case WAYLLUQEN_REFUSED_NO_ROOM:
    case WAYLLUQEN_REFUSED_SHORT_OUTPUT:
        return true;
    default:
        return false;
    }
}

static void print_refusal(waylluqen_answer answer, bool batch)
{
    static const char *const texts[] = {
#define TEXT(refusal, text) [refusal] = text,
        WAYLLUQEN_REFUSALS(TEXT)
#undef TEXT
    };
    printf("  refused: ");
    if (batch && is_of_request(answer.refusal)) {
        printf("request %" PRIu64 ": ", answer.place);
    }
    printf("%s", texts[answer.refusal]);
    if (answer.refusal == WAYLLUQEN_REFUSED_BAD_MAPPING) {
        printf(" (place %" PRIu64 ")", answer.place);
    }
    printf("\n");
}

static uint64_t end_of(const uint64_t *mapping)
{
    return mapping[WAYLLUQEN_MAPPING_ADDRESS] + mapping[WAYLLUQEN_MAPPING_SIZE];
}

static void print_mapping(const char *what, const uint64_t *mapping)
{
    printf("%-14s [" HEX ", " HEX ") %s+" HEX "\n", what, mapping[WAYLLUQEN_MAPPING_ADDRESS],
           end_of(mapping), name_of(mapping[WAYLLUQEN_MAPPING_OBJECT]),
           mapping[WAYLLUQEN_MAPPING_OFFSET]);
}

static void print_operation(const uint64_t *operation)
{
    static const char *const names[][2] = {
        [WAYLLUQEN_KIND_MAP] = {"  map"},
        [WAYLLUQEN_KIND_REMAP] = {"  remap", "  remap, keep"},
        [WAYLLUQEN_KIND_UNMAP] = {"  unmap", "  unmap, keep"},
    };
    const uint64_t *lower = operation + WAYLLUQEN_OPERATION_LOWER;
    const uint64_t *upper = operation + WAYLLUQEN_OPERATION_UPPER;
    uint64_t kind = operation[WAYLLUQEN_OPERATION_KIND];
    uint64_t keep = operation[WAYLLUQEN_OPERATION_KEEP];
    print_mapping(names[kind][keep], operation + WAYLLUQEN_OPERATION_MAPPING);
    if (lower[WAYLLUQEN_MAPPING_SIZE] != 0) {
        print_mapping("    lower rest", lower);
    }
    if (upper[WAYLLUQEN_MAPPING_SIZE] != 0) {
        print_mapping("    upper rest", upper);
    }
}

static struct entry *entry_of(struct page_table *pages, uint64_t address)
{
    return &pages->entries[(address - START) / PAGE];
}

/* False if there is no memory for it, as where a large page would have to be split first. For the
 * next one there is memory again, so that passing over a failure shows. */
static bool change(struct page_table *pages, uint64_t address, struct entry entry)
{
    if (pages->memory-- == 0) {
        return false;
    }
    *entry_of(pages, address) = entry;
    return true;
}

/* What an old mapping loses: all between its rests. */
static struct range lost(const uint64_t *operation)
{
    const uint64_t *old = operation + WAYLLUQEN_OPERATION_MAPPING;
    const uint64_t *lower = operation + WAYLLUQEN_OPERATION_LOWER;
    const uint64_t *upper = operation + WAYLLUQEN_OPERATION_UPPER;
    struct range range = {old[WAYLLUQEN_MAPPING_ADDRESS], end_of(old)};
    if (lower[WAYLLUQEN_MAPPING_SIZE] != 0) {
        range.start = end_of(lower);
    }
    if (upper[WAYLLUQEN_MAPPING_SIZE] != 0) {
        range.end = upper[WAYLLUQEN_MAPPING_ADDRESS];
    }
    return range;
}

/* Clears an entry, or makes it sparse. */
static bool clear(struct page_table *pages, struct counts *counts, uint64_t address, bool sparse)
{
    uint64_t shown = sparse ? WAYLLUQEN_SHOWN_SPARSE : WAYLLUQEN_SHOWN_NOTHING;
    if (!change(pages, address, (struct entry){shown, 0, 0})) {
        return false;
    }
    *(sparse ? &counts->sparse : &counts->cleared) += 1;
    return true;
}

/* Whether a page is in a sparse range, by the list's words. For a map request a look-up would show
 * the new mapping here already, before its entries are written. */
static bool is_in_range(const struct table *table, uint64_t address)
{
    for (uint64_t i = 0; i < table->range_count; i++) {
        const uint64_t *range = table->ranges + i * WAYLLUQEN_RANGE_WORDS;
        uint64_t start = range[WAYLLUQEN_RANGE_START];
        if (start <= address && address - start < range[WAYLLUQEN_RANGE_SIZE]) {
            return true;
        }
    }
    return false;
}

/* With keep the entries are left alone: the new mapping shows the same there. Any others are sparse
 * where the old mapping lies over a sparse range. */
static bool unmap(struct address_space *space, struct counts *counts, const uint64_t *operation)
{
    struct range old = lost(operation);
    if (operation[WAYLLUQEN_OPERATION_KEEP]) {
        counts->kept += (old.end - old.start) / PAGE;
        return true;
    }
    for (uint64_t at = old.start; at < old.end; at += PAGE) {
        if (!clear(&space->pages, counts, at, is_in_range(&space->table, at))) {
            return false;
        }
    }
    return true;
}

/* Writes the new mapping's entries from start to end. */
static bool write_entries(struct page_table *pages, struct counts *counts, const uint64_t *new,
                          uint64_t start, uint64_t end)
{
    for (uint64_t at = start; at < end; at += PAGE) {
        struct entry entry = {WAYLLUQEN_SHOWN_OBJECT, new[WAYLLUQEN_MAPPING_OBJECT],
                              new[WAYLLUQEN_MAPPING_OFFSET] + at - new[WAYLLUQEN_MAPPING_ADDRESS]};
        if (!change(pages, at, entry)) {
            return false;
        }
        counts->written++;
    }
    return true;
}

/* Writes what was not kept: the entries in front of, between and behind those that were. A map is
 * the last operation of its request, and the others are in ascending order of their addresses. */
static bool map(struct page_table *pages, struct counts *counts, const uint64_t *first,
                const uint64_t *operation)
{
    const uint64_t *new = operation + WAYLLUQEN_OPERATION_MAPPING;
    uint64_t start = new[WAYLLUQEN_MAPPING_ADDRESS];
    for (const uint64_t *old = first; old < operation; old += WAYLLUQEN_OPERATION_WORDS) {
        if (old[WAYLLUQEN_OPERATION_KEEP]) {
            struct range kept = lost(old);
            if (!write_entries(pages, counts, new, start, kept.start)) {
                return false;
            }
            start = kept.end;
        }
    }
    return write_entries(pages, counts, new, start, end_of(new));
}

/* Carries out the operations in order; false if one failed, perhaps half-way. In a batch what was
 * kept since the last map operation is the next one's, since an unmap request keeps nothing. */
static bool carry_out(struct address_space *space, struct counts *counts, uint64_t operations)
{
    const uint64_t *operation = space->operations, *first = operation;
    const uint64_t *end = operation + operations * WAYLLUQEN_OPERATION_WORDS;
    for (; operation < end; operation += WAYLLUQEN_OPERATION_WORDS) {
        bool maps = operation[WAYLLUQEN_OPERATION_KIND] == WAYLLUQEN_KIND_MAP;
        /* A remap is an unmap too: its rests show what they showed. */
        if (!(maps ? map(&space->pages, counts, first, operation)
                   : unmap(space, counts, operation))) {
            return false;
        }
        if (maps) {
            first = operation + WAYLLUQEN_OPERATION_WORDS;
        }
    }
    return true;
}

static waylluqen_translation look_up(const struct address_space *space, uint64_t address)
{
    const struct table *table = &space->table;
    return waylluqen_lookup(space->bounds, table->ranges, LENGTH(table->ranges), table->range_count,
                            table->words, LENGTH(table->words), table->count, address);
}

/* The run from an address on, cut at an end: one look-up answers for all pages that go on in the
 * same way, so that a large mapping takes no more of them than a small one. */
static waylluqen_translation run_from(const struct address_space *space, uint64_t start,
                                      uint64_t end)
{
    waylluqen_translation run = look_up(space, start);
    if (run.bytes == 0) {
        fail("a look-up is refused, or outside the space, at", start);
    }
    run.bytes = run.bytes < end - start ? run.bytes : end - start;
    return run;
}

/* What is shown so many bytes further on in a run. */
static struct entry entry_in(waylluqen_translation run, uint64_t bytes)
{
    struct entry entry = {run.shown, run.object, run.offset};
    if (run.shown == WAYLLUQEN_SHOWN_OBJECT) {
        entry.offset += bytes;
    }
    return entry;
}

/* Writes the entries of a range from look-ups. */
static struct from_look_ups write_shown(struct address_space *space, struct range range)
{
    waylluqen_translation run;
    struct from_look_ups written = {0};
    for (uint64_t start = range.start; start < range.end; start += run.bytes) {
        run = run_from(space, start, range.end);
        written.look_ups++;
        for (uint64_t at = start; at < start + run.bytes; at += PAGE) {
            *entry_of(&space->pages, at) = entry_in(run, at - start);
            written.entries++;
        }
    }
    return written;
}

/* What a sparse range that was added or removed leaves to the driver: its pages that no mapping has
 * are sparse now, or show nothing. False if that failed, perhaps half-way. */
static bool write_sparse(struct address_space *space, struct counts *counts, struct range range)
{
    waylluqen_translation run;
    for (uint64_t start = range.start; start < range.end; start += run.bytes) {
        run = run_from(space, start, range.end);
        if (run.shown == WAYLLUQEN_SHOWN_OBJECT) {
            continue;
        }
        for (uint64_t at = start; at < start + run.bytes; at += PAGE) {
            if (!clear(&space->pages, counts, at, run.shown == WAYLLUQEN_SHOWN_SPARSE)) {
                return false;
            }
        }
    }
    return true;
}

/* The ranges that were asked for, more than one by a batch, and whether with the sparse flag. */
struct asked {
    struct range ranges[WAYLLUQEN_MAX_BATCH];
    uint64_t number;
    bool sparse;
};

/* Takes back what failed half-way: the table by its copy, and the entries by look-ups in it. Only
 * pages of the asked ranges can have changed; one that was kept gets the entry that it has. No
 * memory is needed for what was there before, if the page table gives none back until all is
 * carried out. */
static void go_back(struct address_space *space, const struct table *before,
                    const struct asked *asked)
{
    space->table = *before;
    space->went_back = (struct from_look_ups){0};
    for (uint64_t i = 0; i < asked->number; i++) {
        /* not refused, since the bind took this table */
        struct from_look_ups written = write_shown(space, asked->ranges[i]);
        space->went_back.entries += written.entries;
        space->went_back.look_ups += written.look_ups;
    }
}

static void print_grant(const struct address_space *space, waylluqen_answer granted, bool sparse,
                        struct counts counts)
{
    for (uint64_t i = 0; i < granted.operations; i++) {
        print_operation(space->operations + i * WAYLLUQEN_OPERATION_WORDS);
    }
    if (sparse) {
        printf("  sparse ranges: %" PRIu64 "\n", granted.ranges);
    }
    printf("  page entries: %" PRIu64 " cleared, %" PRIu64 " kept, %" PRIu64 " written",
           counts.cleared, counts.kept, counts.written);
    printf(", %" PRIu64 " sparse\n", counts.sparse);
}

/* Carries a grant out, or goes back. Either way a driver then flushes the GPU's TLB, but not for
 * what was kept. */
static enum outcome finish(struct address_space *space, const struct table *before,
                           waylluqen_answer granted, const struct asked *asked)
{
    struct counts counts = {0};
    space->table.count = granted.count;
    space->table.range_count = granted.ranges;
    if (!(asked->sparse ? write_sparse(space, &counts, asked->ranges[0])
                        : carry_out(space, &counts, granted.operations))) {
        go_back(space, before, asked);
        return WENT_BACK;
    }
    print_grant(space, granted, asked->sparse, counts);
    return CARRIED_OUT;
}

/* The copy is 32 bytes for each mapping that there is room for: up to 128 KiB, which is too much for
 * a kernel stack. With much room a driver has it beside the table. */
static enum outcome bind(struct address_space *space, waylluqen_request request)
{
    struct table before = space->table, *table = &space->table;
    struct asked asked = {{{request.address, request.address + request.size}}, 1, false};
    waylluqen_answer answer = waylluqen_bind(
        space->bounds, table->ranges, LENGTH(table->ranges), table->range_count, table->words,
        LENGTH(table->words), table->count, space->operations, LENGTH(space->operations), request);
    if (answer.refusal != WAYLLUQEN_OK) {
        print_refusal(answer, false);
        return REFUSED;
    }
    return finish(space, &before, answer, &asked);
}

/* Some bytes of a record. */
static uint64_t get(const uint8_t *field, int bytes)
{
    uint64_t value = 0;
    for (int i = 0; i < bytes; i++) {
        value |= (uint64_t)field[i] << (8 * i); /* little-endian */
    }
    return value;
}

/* What a record asks for. */
static struct range range_of(const uint8_t *record)
{
    uint64_t start = get(record + WAYLLUQEN_RECORD_ADDR, 8);
    return (struct range){start, start + get(record + WAYLLUQEN_RECORD_RANGE, 8)};
}

static enum outcome bind_record(struct address_space *space, const uint8_t *record, size_t bytes)
{
    struct table before = space->table, *table = &space->table;
    waylluqen_answer answer = waylluqen_bind_record(
        space->bounds, table->ranges, LENGTH(table->ranges), table->range_count, table->words,
        LENGTH(table->words), table->count, space->operations, LENGTH(space->operations), record,
        bytes);
    if (answer.refusal != WAYLLUQEN_OK) {
        print_refusal(answer, false);
        return REFUSED;
    }
    /* It is granted, so it has all its bytes. */
    bool sparse = get(record + WAYLLUQEN_RECORD_FLAGS, 4) == WAYLLUQEN_FLAG_SPARSE;
    struct asked asked = {{range_of(record)}, 1, sparse};
    return finish(space, &before, answer, &asked);
}

/* Records in a row, all or none. */
static enum outcome bind_batch(struct address_space *space, const uint8_t *records, size_t bytes)
{
    struct table before = space->table, *table = &space->table;
    struct asked asked = {.number = bytes / WAYLLUQEN_RECORD_BYTES};
    waylluqen_answer answer = waylluqen_bind_batch(
        space->bounds, table->ranges, LENGTH(table->ranges), table->range_count, table->words,
        LENGTH(table->words), table->count, space->work, LENGTH(space->work), space->operations,
        LENGTH(space->operations), records, bytes);
    if (answer.refusal != WAYLLUQEN_OK) {
        print_refusal(answer, true);
        return REFUSED;
    }
    /* It is granted, so there are no more of them than a batch may have. */
    for (uint64_t i = 0; i < asked.number; i++) {
        asked.ranges[i] = range_of(records + i * WAYLLUQEN_RECORD_BYTES);
    }
    return finish(space, &before, answer, &asked);
}

/* Compares each page entry with look-ups of the page's first and last byte. */
static void compare(struct address_space *space)
{
    for (uint64_t i = 0; i < 2 * PAGES; i++) {
        uint64_t byte = i % 2 * (PAGE - 1), address = START + i / 2 * PAGE + byte;
        struct entry entry = *entry_of(&space->pages, address);
        waylluqen_translation seen = look_up(space, address);
        uint64_t further = entry.shown == WAYLLUQEN_SHOWN_OBJECT ? byte : 0;
        if (seen.refusal != WAYLLUQEN_OK || seen.shown != entry.shown ||
            seen.object != entry.object || seen.offset != entry.offset + further) {
            fail("the page entry is not what a look-up says at", address);
        }
    }
    space->compared++;
}

/* Requests by numbers, as a driver makes them itself. */
static void ask(struct address_space *space)
{
    static const struct {
        const char *what;
        waylluqen_request request;
    } asked[] = {
        {"map the framebuffer", {WAYLLUQEN_OP_MAP, 0x100000, 8 * PAGE, FRAMEBUFFER, 0}},
        {"map the texture into it", {WAYLLUQEN_OP_MAP, 0x102000, 2 * PAGE, TEXTURE, 0x500000}},
        {"map more of the texture", {WAYLLUQEN_OP_MAP, 0x102000, 5 * PAGE, TEXTURE, 0x500000}},
        {"map its third page again", {WAYLLUQEN_OP_MAP, 0x104000, 1 * PAGE, TEXTURE, 0x502000}},
        {"map its neighbours too", {WAYLLUQEN_OP_MAP, 0x103000, 3 * PAGE, TEXTURE, 0x501000}},
        {"map the framebuffer again", {WAYLLUQEN_OP_MAP, 0x100000, 8 * PAGE, FRAMEBUFFER, 0}},
        {"unmap two pages", {WAYLLUQEN_OP_UNMAP, 0x101000, 2 * PAGE, 0, 0}},
    };
    for (size_t i = 0; i < LENGTH(asked); i++) {
        printf("%s\n", asked[i].what);
        if (bind(space, asked[i].request) != CARRIED_OUT) {
            fail("a good request was not carried out at", asked[i].request.address);
        }
        compare(space);
    }
}

static void put(uint8_t *field, int bytes, uint64_t value)
{
    for (int i = 0; i < bytes; i++) {
        field[i] = (uint8_t)(value >> (8 * i)); /* little-endian */
    }
}

/* The 40 bytes of a record. */
static void make_record(uint8_t *record, waylluqen_request request, uint64_t flags)
{
    put(record + WAYLLUQEN_RECORD_OP, 4, request.op);
    put(record + WAYLLUQEN_RECORD_FLAGS, 4, flags);
    put(record + WAYLLUQEN_RECORD_HANDLE, 4, request.object);
    put(record + WAYLLUQEN_RECORD_PAD, 4, 0);
    put(record + WAYLLUQEN_RECORD_ADDR, 8, request.address);
    put(record + WAYLLUQEN_RECORD_BO_OFFSET, 8, request.offset);
    put(record + WAYLLUQEN_RECORD_RANGE, 8, request.size);
}

/* Requests by records, as programs hand them over in an ioctl: a good one, then hostile ones. */
static void ask_by_record(struct address_space *space)
{
    static const struct {
        const char *what;
        uint64_t flags;
        size_t missing; /* bytes */
        waylluqen_request request;
    } asked[] = {
        {"map a part of the ring", 0, 0, {WAYLLUQEN_OP_MAP, 0x102000, 3 * PAGE, RING, 0x1000}},
        {"map past 2^64", 0, 0, {WAYLLUQEN_OP_MAP, UINT64_MAX - PAGE + 1, 2 * PAGE, RING, 0}},
        {"map the reservation", 0, 0, {WAYLLUQEN_OP_MAP, 0x10d000, 2 * PAGE, RING, 0}},
        {"unmap an object", 0, 0, {WAYLLUQEN_OP_UNMAP, 0x101000, 3 * PAGE, RING, 0}},
        {"unmap with flags", 1, 0, {WAYLLUQEN_OP_UNMAP, 0x101000, 3 * PAGE, 0, 0}},
        {"unmap by 39 bytes", 0, 1, {WAYLLUQEN_OP_UNMAP, 0x101000, 3 * PAGE, 0, 0}},
    };
    for (size_t i = 0; i < LENGTH(asked); i++) {
        uint8_t record[WAYLLUQEN_RECORD_BYTES];
        struct address_space before = *space;
        bool hostile = i > 0;
        printf("%s\n", asked[i].what);
        make_record(record, asked[i].request, asked[i].flags);
        if (bind_record(space, record, sizeof record - asked[i].missing) !=
            (hostile ? REFUSED : CARRIED_OUT)) {
            fail("a record was not answered as it should be:", i);
        }
        if (hostile && memcmp(space, &before, sizeof before) != 0) {
            fail("a refused request changed something:", i);
        }
        compare(space);
    }
}

static void ask_in_vain(struct address_space *broken, const char *what)
{
    struct address_space before = *broken;
    waylluqen_request request = {WAYLLUQEN_OP_UNMAP, 0x100000, 1 * PAGE, 0, 0};
    printf("%s\n", what);
    if (bind(broken, request) != REFUSED) {
        fail("a broken table was taken at", request.address);
    }
    if (memcmp(broken, &before, sizeof before) != 0) {
        fail("a refused request changed a broken table at", request.address);
    }
}

/* A stray write into the table: the next call tells which mapping it hit. A count that was not kept
 * up: the next call does not take what it tells of for the whole table, or for the whole list. */
static void ask_with_broken_table(const struct address_space *space)
{
    struct address_space broken = *space, forgetful = *space, sparse = *space;
    broken.table.words[2 * WAYLLUQEN_MAPPING_WORDS + WAYLLUQEN_MAPPING_SIZE]++;
    forgetful.table.count--;
    sparse.table.range_count--;
    ask_in_vain(&broken, "unmap in a broken table");
    ask_in_vain(&forgetful, "unmap with a count that is too low");
    ask_in_vain(&sparse, "unmap with a count of ranges that is too low");
}

/* Asks by a batch if there are several records, by a record if there is one, else by numbers. */
static enum outcome ask_in_any_form(struct address_space *space, const uint8_t *records,
                                    size_t number, waylluqen_request request)
{
    if (number == 0) {
        return bind(space, request);
    }
    return number == 1 ? bind_record(space, records, WAYLLUQEN_RECORD_BYTES)
                       : bind_batch(space, records, WAYLLUQEN_BATCH_BYTES(number));
}

/* Lets a request fail after no page entry, after one and so on, until it goes through. */
static void fail_half_way(struct address_space *space, const uint8_t *records, size_t number,
                          waylluqen_request request)
{
    struct table before = space->table;
    enum outcome outcome;
    uint64_t failed = 0;
    for (;; failed++) {
        space->pages.memory = failed;
        outcome = ask_in_any_form(space, records, number, request);
        compare(space);
        if (outcome != WENT_BACK) {
            break;
        }
        if (memcmp(&space->table, &before, sizeof before) != 0) {
            fail("going back left another table at", request.address);
        }
    }
    if (outcome != CARRIED_OUT || failed == 0) {
        fail("a request did not fail half-way at", request.address);
    }
    printf("  failed half-way first, after 0 to %" PRIu64 " page entries: went back each time\n",
           failed - 1);
    printf("  going back: %" PRIu64 " page entries written from %" PRIu64 " look-ups\n",
           space->went_back.entries, space->went_back.look_ups);
    space->pages.memory = PLENTY;
}

/* Requests that hit mappings in all ways: in the middle, at an end, wholly, and with keep. */
static void ask_without_memory(struct address_space *space)
{
    static const struct {
        const char *what;
        bool by_record;
        waylluqen_request request;
    } asked[] = {
        {"map into the ring", false, {WAYLLUQEN_OP_MAP, 0x103000, 1 * PAGE, TEXTURE, 0}},
        {"map all of the ring", false, {WAYLLUQEN_OP_MAP, 0x101000, 6 * PAGE, RING, 0}},
        {"map where nothing is", true, {WAYLLUQEN_OP_MAP, 0x10a000, 2 * PAGE, FRAMEBUFFER, 0}},
        {"map across three mappings", true, {WAYLLUQEN_OP_MAP, 0x105000, 6 * PAGE, TEXTURE, 0}},
        {"unmap across two", true, {WAYLLUQEN_OP_UNMAP, 0x104000, 3 * PAGE, 0, 0}},
    };
    for (size_t i = 0; i < LENGTH(asked); i++) {
        uint8_t record[WAYLLUQEN_RECORD_BYTES];
        printf("%s, at first without memory\n", asked[i].what);
        make_record(record, asked[i].request, 0);
        fail_half_way(space, record, asked[i].by_record ? 1 : 0, asked[i].request);
    }
}

enum { PLAIN = 0, SPARSE = WAYLLUQEN_FLAG_SPARSE };

/* Batches: the last request of one maps over entries that an earlier one kept. The others have a
 * request at their end, or before it, that is refused; nothing is left of them then. */
enum { MOST_AT_ONCE = 6 };
static const struct batch {
    const char *what;
    bool refused;
    uint64_t flags; /* of the second */
    size_t requests;
    waylluqen_request request[MOST_AT_ONCE];
} batches[] = {
    {"start up in one batch", false, PLAIN, 6,
     {{WAYLLUQEN_OP_MAP, 0x100000, 8 * PAGE, FRAMEBUFFER, 0},
      {WAYLLUQEN_OP_MAP, 0x102000, 2 * PAGE, TEXTURE, 0x500000},
      {WAYLLUQEN_OP_MAP, 0x102000, 5 * PAGE, TEXTURE, 0x500000},
      {WAYLLUQEN_OP_UNMAP, 0x107000, 1 * PAGE, 0, 0},
      {WAYLLUQEN_OP_MAP, 0x110000, 2 * PAGE, RING, 0},
      {WAYLLUQEN_OP_MAP, 0x103000, 2 * PAGE, RING, 0}}},
    {"change all of it, and map the reservation", true, PLAIN, 3,
     {{WAYLLUQEN_OP_UNMAP, 0x100000, 8 * PAGE, 0, 0},
      {WAYLLUQEN_OP_MAP, 0x100000, 4 * PAGE, TEXTURE, 0},
      {WAYLLUQEN_OP_MAP, 0x10d000, 2 * PAGE, RING, 0}}},
    {"reserve a sparse texture in a batch", true, SPARSE, 3,
     {{WAYLLUQEN_OP_UNMAP, 0x100000, 8 * PAGE, 0, 0},
      {WAYLLUQEN_OP_MAP, 0x112000, 8 * PAGE, 0, 0},
      {WAYLLUQEN_OP_MAP, 0x112000, 4 * PAGE, TILES, 0}}},
    {"shut down in one batch", false, PLAIN, 2,
     {{WAYLLUQEN_OP_UNMAP, 0x100000, 8 * PAGE, 0, 0},
      {WAYLLUQEN_OP_UNMAP, 0x110000, 2 * PAGE, 0, 0}}},
};

/* Of a refused batch nothing is carried out, and nothing has to be taken back. */
static void ask_batch_in_vain(struct address_space *space, const uint8_t *records, size_t bytes)
{
    struct address_space before = *space;
    memset(before.operations, 0, sizeof before.operations);
    memset(before.work, 0, sizeof before.work);
    if (bind_batch(space, records, bytes) != REFUSED ||
        memcmp(space, &before, sizeof before) != 0) {
        fail("a refused batch left something, of bytes", bytes);
    }
    compare(space);
}

/* An array of requests, as a program hands it over in one ioctl. */
static void ask_by_batch(struct address_space *space)
{
    for (size_t i = 0; i < LENGTH(batches); i++) {
        const struct batch *batch = &batches[i];
        uint8_t records[WAYLLUQEN_BATCH_BYTES(MOST_AT_ONCE)];
        for (size_t j = 0; j < batch->requests; j++) {
            make_record(records + j * WAYLLUQEN_RECORD_BYTES, batch->request[j],
                        j == 1 ? batch->flags : PLAIN);
        }
        if (batch->refused) {
            printf("%s\n", batch->what);
            ask_batch_in_vain(space, records, WAYLLUQEN_BATCH_BYTES(batch->requests));
        } else {
            printf("%s, at first without memory\n", batch->what);
            fail_half_way(space, records, batch->requests, batch->request[0]);
        }
    }
}

/* A sparse texture: all its addresses are reserved at once, tiles are mapped and unmapped in it,
 * and in the end it is released. Then a range that lies over mappings, which stays. */
static const struct {
    const char *what;
    bool refused;
    uint64_t flags;
    waylluqen_request request;
} for_sparse[] = {
    {"reserve a sparse texture", false, SPARSE, {WAYLLUQEN_OP_MAP, 0x112000, 8 * PAGE, 0, 0}},
    {"reserve its end again", true, SPARSE, {WAYLLUQEN_OP_MAP, 0x119000, 2 * PAGE, 0, 0}},
    {"map four tiles of it", false, PLAIN, {WAYLLUQEN_OP_MAP, 0x112000, 4 * PAGE, TILES, 0}},
    {"map across its end", false, PLAIN, {WAYLLUQEN_OP_MAP, 0x119000, 2 * PAGE, RING, 0}},
    {"map another tile", false, PLAIN, {WAYLLUQEN_OP_MAP, 0x113000, 1 * PAGE, TILES, 0x8000}},
    {"unmap a tile", false, PLAIN, {WAYLLUQEN_OP_UNMAP, 0x114000, 1 * PAGE, 0, 0}},
    {"unmap across its end", false, PLAIN, {WAYLLUQEN_OP_UNMAP, 0x119000, 2 * PAGE, 0, 0}},
    {"release it too early", true, SPARSE, {WAYLLUQEN_OP_UNMAP, 0x112000, 8 * PAGE, 0, 0}},
    {"unmap all of it", false, PLAIN, {WAYLLUQEN_OP_UNMAP, 0x112000, 8 * PAGE, 0, 0}},
    {"release half of it", true, SPARSE, {WAYLLUQEN_OP_UNMAP, 0x112000, 4 * PAGE, 0, 0}},
    {"release it", false, SPARSE, {WAYLLUQEN_OP_UNMAP, 0x112000, 8 * PAGE, 0, 0}},
    {"reserve over mappings", false, SPARSE, {WAYLLUQEN_OP_MAP, 0x103000, 7 * PAGE, 0, 0}},
};

/* By records, since only these have flags. What is carried out fails half-way first. */
static void ask_for_sparse(struct address_space *space)
{
    for (size_t i = 0; i < LENGTH(for_sparse); i++) {
        waylluqen_request request = for_sparse[i].request;
        struct address_space before = *space;
        uint8_t record[WAYLLUQEN_RECORD_BYTES];
        make_record(record, request, for_sparse[i].flags);
        if (!for_sparse[i].refused) {
            printf("%s, at first without memory\n", for_sparse[i].what);
            fail_half_way(space, record, 1, request);
            continue;
        }
        printf("%s\n", for_sparse[i].what);
        if (bind_record(space, record, sizeof record) != REFUSED ||
            memcmp(space, &before, sizeof before) != 0) {
            fail("a sparse range was not left as it is at", request.address);
        }
        compare(space);
    }
}

/* What a debugfs file would show. */
static void print_space(const struct address_space *space)
{
    waylluqen_space bounds = space->bounds;
    printf("start     end       pages  object       offset\n");
    for (uint64_t i = 0; i < space->table.count; i++) {
        const uint64_t *mapping = space->table.words + i * WAYLLUQEN_MAPPING_WORDS;
        printf(HEX "  " HEX "  %5" PRIu64 "  %-11s  " HEX "\n", mapping[WAYLLUQEN_MAPPING_ADDRESS],
               end_of(mapping), mapping[WAYLLUQEN_MAPPING_SIZE] / PAGE,
               name_of(mapping[WAYLLUQEN_MAPPING_OBJECT]), mapping[WAYLLUQEN_MAPPING_OFFSET]);
    }
    for (uint64_t i = 0; i < space->table.range_count; i++) {
        const uint64_t *range = space->table.ranges + i * WAYLLUQEN_RANGE_WORDS;
        uint64_t start = range[WAYLLUQEN_RANGE_START], size = range[WAYLLUQEN_RANGE_SIZE];
        printf(HEX "  " HEX "  %5" PRIu64 "  (sparse)\n", start, start + size, size / PAGE);
    }
    printf(HEX "  " HEX "  %5" PRIu64 "  (reserved)\n", bounds.reserved_start,
           bounds.reserved_start + bounds.reserved_size, bounds.reserved_size / PAGE);
}

int main(void)
{
    static const uint64_t addresses[] = {0x100fff, 0x102010, 0x105000, 0x108000, 0x10c000};
    struct address_space space = {.bounds = {START, PAGES * PAGE, START + 14 * PAGE, 2 * PAGE},
                                  .pages.memory = PLENTY};
    ask_by_batch(&space);
    ask(&space);
    ask_by_record(&space);
    ask_without_memory(&space);
    ask_for_sparse(&space);
    ask_with_broken_table(&space);
    print_space(&space);
    for (size_t i = 0; i < LENGTH(addresses); i++) {
        waylluqen_translation seen = look_up(&space, addresses[i]);
        printf(HEX, addresses[i]);
        if (seen.shown == WAYLLUQEN_SHOWN_OBJECT) {
            printf(" shows %s+" HEX, name_of(seen.object), seen.offset);
        } else {
            printf(seen.shown == WAYLLUQEN_SHOWN_SPARSE ? " is sparse" : " shows nothing");
        }
        printf(" up to " HEX "\n", addresses[i] + seen.bytes);
    }
    printf("all %d pages agreed with look-ups after each of %" PRIu64 " requests\n", PAGES,
           space.compared);
    return 0;
}
