/* What the tests from C share: numbers, spaces, mappings and sparse ranges at the edges, records,
 * lent memory. */
#ifndef SUPPORT_H
#define SUPPORT_H

#include <stdint.h>
#include <string.h>
#include <sys/mman.h>
#include <unistd.h>

#include "waylluqen.h"

#define PAGE UINT64_C(4096)
#define BIT_32 (UINT64_C(1) << 32)
#define LIMIT (UINT64_C(1) << 48)
#define HALF (UINT64_C(1) << 63)
#define LAST_PAGE (UINT64_MAX - PAGE + 1)
#define HIGHEST_OBJECT UINT64_C(0xffffffff)

#define RECORD_BYTES 40
#define MAPPING_WORDS WAYLLUQEN_MAPPING_WORDS
#define RANGE_WORDS WAYLLUQEN_RANGE_WORDS
#define MOST_MAPPINGS 4096
#define MOST_RANGES 64
/* Longer than they may be. */
#define LONGEST_TABLE 20000
#define LONGEST_RANGES 512

_Static_assert(sizeof(waylluqen_space) == 32, "four words, without a gap");

struct mapping {
    uint64_t address;
    uint64_t size;
    uint64_t object;
    uint64_t offset;
};

struct range {
    uint64_t start;
    uint64_t size;
};

_Static_assert(sizeof(struct mapping) == MAPPING_WORDS * sizeof(uint64_t), "its words");
_Static_assert(sizeof(struct range) == RANGE_WORDS * sizeof(uint64_t), "its words");

/* The fields of a record. */
struct record {
    uint32_t op;
    uint32_t flags;
    uint32_t object;
    uint32_t pad;
    uint64_t address;
    uint64_t offset;
    uint64_t size;
};

/* The common space: [0x100000, 0x200000) with [0x140000, 0x180000) reserved. */
#define COMMON {0x100000, 0x100000, 0x140000, 0x40000}
/* The same with nothing reserved, and with all of it. */
#define FREE {0x100000, 0x100000, 0, 0}
#define ALL_RESERVED {0x100000, 0x100000, 0x100000, 0x100000}
/* All that a space may have. */
#define WIDEST {0, LIMIT, 0, 0}
#define SPACE(...) {__VA_ARGS__}

/* Two that touch each other, one on each side of the reservation, and the space's last page. */
#define FIRST {0x100000, 0x2000, 7, 0x3000}
#define SECOND {0x102000, 0x1000, 8, 0}
#define THIRD {0x13f000, 0x1000, HIGHEST_OBJECT, 0x1000}
#define FOURTH {0x180000, 0x1000, 1, 0x5000}
#define LAST {0x1ff000, 0x1000, 9, LIMIT - PAGE}
#define FIVE {FIRST, SECOND, THIRD, FOURTH, LAST}
#define ONES {1, 1, 1, 1}

/* Writes the lowest bytes of value, lowest first, and answers the place after them. */
static inline uint8_t *put(uint8_t *to, uint64_t value, int bytes)
{
    for (int i = 0; i < bytes; i++) {
        *to++ = (uint8_t)(value >> (8 * i));
    }
    return to;
}

static inline void encode(uint8_t bytes[RECORD_BYTES], const struct record *record)
{
    uint8_t *to = bytes;
    to = put(to, record->op, 4);
    to = put(to, record->flags, 4);
    to = put(to, record->object, 4);
    to = put(to, record->pad, 4);
    to = put(to, record->address, 8);
    to = put(to, record->offset, 8);
    put(to, record->size, 8);
}

/* What lies around lent words, in operation words that nobody has written, and in stale words. */
#define UNWRITTEN_BYTE 0xa5

/* Place p has pages [4p, 4p + 3) and object p + 1. */
#define PLACES_SPACE {0, 4 * MOST_MAPPINGS * PAGE, 0, 0}
static inline void fill_places(struct mapping *to, size_t count)
{
    for (size_t place = 0; place < count; place++) {
        to[place] = (struct mapping){4 * place * PAGE, 3 * PAGE, place + 1, place * PAGE};
    }
}

/* Makes all of [start, end) sparse, in two ranges that touch; answers the place behind them. */
static inline struct range *put_sparse(struct range *to, uint64_t start, uint64_t end)
{
    if (start < end) {
        *to++ = (struct range){start, PAGE};
    }
    if (start + PAGE < end) {
        *to++ = (struct range){start + PAGE, end - start - PAGE};
    }
    return to;
}

/* Makes all of a space sparse but for its reservation; answers how many ranges that takes. There
 * are zeros behind them. */
#define WHOLE_RANGES 6
static inline size_t put_whole(struct range to[WHOLE_RANGES], const waylluqen_space *space)
{
    uint64_t end = space->start + space->size;
    uint64_t reserved_end = space->reserved_start + space->reserved_size;
    int reserves = space->reserved_size != 0;
    memset(to, 0, WHOLE_RANGES * sizeof *to);
    struct range *next = put_sparse(to, space->start, reserves ? space->reserved_start : end);
    next = reserves ? put_sparse(next, reserved_end, end) : next;
    return (size_t)(next - to);
}

/* A table in which each word behind the count is stale in its turn. */
struct stale_table {
    uint64_t count;
    size_t capacity;
};

/* One bit: another one than in the words beside it, and than in the word 64 further on. */
static inline uint64_t stale_word(size_t at)
{
    return UINT64_C(1) << (at + at / 64) % 64;
}

/* Runs all tables with room for up to 20 mappings, and some with more; answers how many failed. */
static inline size_t run_stale_tables(int (*fails)(const struct stale_table *), size_t *all)
{
    static const struct stale_table longer[] = {
        {100, 513}, {0, 4096}, {5, 4096}, {2049, 4096}, {4095, 4096},
    };
    size_t failed = 0;
    for (struct stale_table table = {0, 1}; table.capacity <= 20; table.capacity++) {
        for (table.count = 0; table.count < table.capacity; table.count++, ++*all) {
            failed += (size_t)fails(&table);
        }
    }
    for (size_t i = 0; i < sizeof longer / sizeof longer[0]; i++, ++*all) {
        failed += (size_t)fails(&longer[i]);
    }
    return failed;
}

/* Memory between two pages that may not be touched, and how much of it there is. */
struct lent {
    uint8_t *memory;
    size_t bytes;
};

/* Memory for so many words, that can be written. Answers 0 where there is none. */
static inline int prepare(struct lent *lent, size_t words)
{
    size_t page = (size_t)sysconf(_SC_PAGESIZE);
    lent->bytes = (words * sizeof(uint64_t) + page - 1) / page * page;
    uint8_t *all =
        mmap(NULL, lent->bytes + 2 * page, PROT_NONE, MAP_PRIVATE | MAP_ANONYMOUS, -1, 0);
    if (all == MAP_FAILED) {
        return 0;
    }
    lent->memory = all + page;
    return mprotect(lent->memory, lent->bytes, PROT_READ | PROT_WRITE) == 0;
}

#define READ_AND_WRITE (PROT_READ | PROT_WRITE)

/* Lets the memory be read, or written too. Answers 0 where that can't be done. */
static inline int allow(const struct lent *lent, int what)
{
    return mprotect(lent->memory, lent->bytes, what) == 0;
}

/*
 * Copies words to the front or to the back of the memory: touching what is before the front or
 * behind the back ends the test.
 */
static inline uint64_t *lend(const struct lent *lent, const uint64_t *words, size_t count,
                             int at_back)
{
    size_t bytes = count * sizeof *words;
    uint8_t *to = at_back ? lent->memory + lent->bytes - bytes : lent->memory;
    memset(lent->memory, UNWRITTEN_BYTE, lent->bytes);
    memcpy(to, words, bytes);
    return (uint64_t *)(void *)to;
}

#endif
