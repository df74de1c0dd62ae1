/* SPDX-License-Identifier: MIT */
/*
 * Look-ups among as many mappings as the first argument says, or among as many sparse ranges where there is a second
 * one, for a trace of memory accesses: a store marks where each begins and where it ends. The line printed tells where
 * the table or list and the marks are, how many pages apart the addresses are, and for how many there is room.
 */
#include <inttypes.h>
#include <stdio.h>
#include <stdlib.h>

#include "waylluqen.h"

/* Aligned so that all but the last five hexadecimal digits of an address tell which of the two it is in. */
#define APART (1 << 20)
static uint64_t looked_at[WAYLLUQEN_TABLE_WORDS(WAYLLUQEN_MAX_MAPPINGS)] __attribute__((aligned(APART)));
static volatile uint64_t marks[2] __attribute__((aligned(APART)));
_Static_assert(sizeof looked_at <= APART, "its addresses differ in the last five digits alone");

static const waylluqen_space space = {.size = UINT64_C(1) << 48};
static const uint64_t page = WAYLLUQEN_PAGE_SIZE;

/* Among mappings there is no range, and among ranges no mapping. */
static waylluqen_translation look_up(int among_ranges, size_t room, uint64_t count, uint64_t address)
{
    static const uint64_t none[WAYLLUQEN_MAPPING_WORDS];
    if (among_ranges) {
        return waylluqen_lookup(space, looked_at, WAYLLUQEN_RANGE_LIST_WORDS(room), count, none,
                                WAYLLUQEN_MAPPING_WORDS, 0, address);
    }
    return waylluqen_lookup(space, none, 0, 0, looked_at, WAYLLUQEN_TABLE_WORDS(room), count, address);
}

/* Every other page is mapped, or sparse. */
static void fill(int among_ranges, size_t count)
{
    size_t words = among_ranges ? WAYLLUQEN_RANGE_WORDS : WAYLLUQEN_MAPPING_WORDS;
    for (size_t i = 0; i < count; i++) {
        looked_at[words * i] = 2 * i * page;
        looked_at[words * i + 1] = page;
        if (!among_ranges) {
            looked_at[words * i + WAYLLUQEN_MAPPING_OBJECT] = 7;
        }
    }
}

int main(int argc, char **argv)
{
    const int among_ranges = argc > 2;
    const size_t most = among_ranges ? WAYLLUQEN_MAX_RANGES : WAYLLUQEN_MAX_MAPPINGS;
    const size_t count = argc > 1 ? strtoul(argv[1], NULL, 10) : 0;
    /* Some words behind, and not all that there can be, since each is read. */
    const size_t room = count + 20 < most ? count + 20 : most;
    /* In a long table not every page is asked for, since a trace is long. Of 4,095 and of 4,096 mappings the last
     * page asked for is 8,190: behind the last mapping, and in it. */
    const size_t step = count > 512 ? 585 : count > 64 ? 29 : 1;

    fill(among_ranges, count);
    printf("at %08" PRIxPTR " %08" PRIxPTR " %zu %zu\n", (uintptr_t)looked_at, (uintptr_t)marks, step, room);
    fflush(stdout);

    for (size_t i = 0; i <= 2 * count; i += step) {
        marks[0] = i;
        waylluqen_translation seen = look_up(among_ranges, room, count, i * page);
        marks[1] = i;
        if (seen.refusal != WAYLLUQEN_OK)
            return 1;
    }
    return 0;
}
