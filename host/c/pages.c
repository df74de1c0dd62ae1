/* How a driver lists the page entries of a mapping, and the test of it: mappings with their entries
 * written out, mappings that are refused, and many at the boundaries of pages, whose entries are
 * made here one by one. Each list is looked through too: whether it is one for its mapping, and
 * whether a larger page would have done anywhere. */
#define _DEFAULT_SOURCE /* for MAP_ANONYMOUS */

#include <inttypes.h>
#include <signal.h>
#include <stdint.h>
#include <stdio.h>
#include <string.h>

#include "support.h"

#define NUMBER(cases) (sizeof(cases) / sizeof(cases)[0])

#define S PAGE
#define M (UINT64_C(1) << 21)
#define G (UINT64_C(1) << 30)

#define ENTRY_WORDS WAYLLUQEN_ENTRY_WORDS
/* Rows of entries that a case writes out. */
#define MOST_ROWS 5
/* Words for most cases, and for the long ones: 2^18 entries, and some words behind them. */
#define WORDS 8192
#define LONG_ENTRIES (UINT64_C(1) << 18)
#define LONG_WORDS (LONG_ENTRIES * ENTRY_WORDS + 512)

_Static_assert(sizeof(waylluqen_pages) == 24, "three words, without a gap");

/* So many entries of one size, one behind the other. */
struct row {
    uint64_t entries;
    uint64_t size;
};

/* A mapping, and its entries from its address on. */
struct listed_case {
    const char *name;
    waylluqen_mapping mapping;
    struct row rows[MOST_ROWS];
};

#define LISTED(name, address, size, offset, ...) {name, {address, size, 7, offset}, {__VA_ARGS__}}

static const struct listed_case listed_cases[] = {
    /* Pages of 4 KiB alone. */
    LISTED("the first page", 0, S, 0, {1, S}),
    LISTED("a page before 2 MiB", M - S, S, M - S, {1, S}),
    LISTED("a page behind 2 MiB", M, S, M, {1, S}),
    LISTED("a page on each side of 2 MiB", M - S, 2 * S, M - S, {2, S}),
    LISTED("a page before 1 GiB", G - S, S, G - S, {1, S}),
    LISTED("a page behind 1 GiB", G, S, G, {1, S}),
    LISTED("a page on each side of 1 GiB", G - S, 2 * S, G - S, {2, S}),
    LISTED("2 MiB without the last page", 0, M - S, 0, {511, S}),
    LISTED("2 MiB without the first page", S, M - S, S, {511, S}),
    LISTED("2 MiB from the second page on", S, M, S, {512, S}),
    LISTED("2 MiB up to the last page but one", M - S, M, M - S, {512, S}),
    LISTED("4 MiB without the first and the last page", S, 2 * M - 2 * S, S, {1022, S}),

    /* 2 MiB, with pages of 4 KiB on one side and on both. */
    LISTED("2 MiB", 0, M, 0, {1, M}),
    LISTED("2 MiB further on", 5 * M, M, 5 * M, {1, M}),
    LISTED("2 MiB and a page", 0, M + S, 0, {1, M}, {1, S}),
    LISTED("a page and 2 MiB", M - S, M + S, M - S, {1, S}, {1, M}),
    LISTED("2 MiB between two pages", M - S, M + 2 * S, M - S, {1, S}, {1, M}, {1, S}),
    LISTED("4 MiB", 0, 2 * M, 0, {2, M}),
    LISTED("4 MiB from half of 2 MiB on", M / 2, 2 * M, M / 2, {256, S}, {1, M}, {256, S}),
    LISTED("8 MiB without the first and the last page", S, 4 * M - 2 * S, S, {511, S}, {2, M},
           {511, S}),

    /* Address and offset differ. */
    LISTED("a page, the offset a page above", 0, S, S, {1, S}),
    LISTED("a page, the offset a page below", S, S, 0, {1, S}),
    LISTED("2 MiB, the offset a page above", 0, M, S, {512, S}),
    LISTED("2 MiB, the offset a page below", M, M, M - S, {512, S}),
    LISTED("2 MiB, the offset half of it above", 0, M, M / 2, {512, S}),
    LISTED("2 MiB, the offset 2 MiB above", 0, M, M, {1, M}),
    LISTED("2 MiB, the offset 2 MiB below", M, M, 0, {1, M}),
    LISTED("2 MiB, the offset 2 MiB and a page above", 0, M, M + S, {512, S}),
    LISTED("2 MiB, the offset 1 GiB above", 0, M, G, {1, M}),
    LISTED("2 MiB, the offset 1 GiB below", G, M, 0, {1, M}),
    LISTED("2 MiB, the offset a page below 1 GiB", 0, M, G - S, {512, S}),
    LISTED("the offset is aligned, the address is not", S, M, 0, {512, S}),
    LISTED("neither is aligned, and they differ", S, M, 2 * S, {512, S}),
    LISTED("neither is aligned, 2 MiB apart", M - S, M + 2 * S, 8 * M - S, {1, S}, {1, M}, {1, S}),
    LISTED("neither is aligned, 2 MiB less", 3 * M - S, M + 2 * S, M - S, {1, S}, {1, M}, {1, S}),

    /* 1 GiB. */
    LISTED("1 GiB", 0, G, 0, {1, G}),
    LISTED("1 GiB further on", 5 * G, G, 5 * G, {1, G}),
    LISTED("1 GiB without the last page", 0, G - S, 0, {511, M}, {511, S}),
    LISTED("1 GiB without the first page", S, G - S, S, {511, S}, {511, M}),
    LISTED("1 GiB without its last 2 MiB", 0, G - M, 0, {511, M}),
    LISTED("1 GiB without its first 2 MiB", M, G - M, M, {511, M}),
    LISTED("1 GiB from 2 MiB on", M, G, M, {512, M}),
    LISTED("1 GiB and a page", 0, G + S, 0, {1, G}, {1, S}),
    LISTED("1 GiB and 2 MiB", 0, G + M, 0, {1, G}, {1, M}),
    LISTED("a page and 1 GiB", G - S, G + S, G - S, {1, S}, {1, G}),
    LISTED("2 MiB and 1 GiB", G - M, G + M, G - M, {1, M}, {1, G}),
    LISTED("1 GiB between two pages", G - S, G + 2 * S, G - S, {1, S}, {1, G}, {1, S}),
    LISTED("one of each on both sides", G - M - S, G + 2 * M + 2 * S, G - M - S, {1, S}, {1, M},
           {1, G}, {1, M}, {1, S}),
    LISTED("as many as can be on both sides", S, 3 * G - 2 * S, S, {511, S}, {511, M}, {1, G},
           {511, M}, {511, S}),
    LISTED("2 GiB without the first and the last page", S, 2 * G - 2 * S, S, {511, S}, {1022, M},
           {511, S}),
    LISTED("3 GiB", 0, 3 * G, 0, {3, G}),

    /* The same, where address and offset differ. */
    LISTED("1 GiB, the offset 2 MiB above", 0, G, M, {512, M}),
    LISTED("1 GiB, the offset 2 MiB below", G, G, G - M, {512, M}),
    LISTED("1 GiB, the offset half of it above", 0, G, G / 2, {512, M}),
    LISTED("1 GiB, the offset 1 GiB above", 0, G, G, {1, G}),
    LISTED("1 GiB, the offset 1 GiB below", G, G, 0, {1, G}),
    LISTED("1 GiB, the offset 1 GiB and 2 MiB above", 0, G, G + M, {512, M}),
    LISTED("1 GiB from 2 MiB on, the offset from 0 on", M, G, 0, {512, M}),
    LISTED("2 GiB, the offset 2 MiB below 1 GiB", 0, 2 * G, G - M, {1024, M}),
    LISTED("3 GiB, the offset 5 GiB above", 0, 3 * G, 5 * G, {3, G}),
    LISTED("one of each on both sides, 2 GiB above", G - M - S, G + 2 * M + 2 * S, 3 * G - M - S,
           {1, S}, {1, M}, {1, G}, {1, M}, {1, S}),
    LISTED("1 GiB between two pages, 2 MiB above", G - S, G + 2 * S, G + M - S, {1, S}, {512, M},
           {1, S}),

    /* Up to 2^48: the address, the offset, both. */
    LISTED("the last page", LIMIT - S, S, 0, {1, S}),
    LISTED("the last 2 MiB", LIMIT - M, M, 0, {1, M}),
    LISTED("the last 2 MiB and a page", LIMIT - M - S, M + S, M - S, {1, S}, {1, M}),
    LISTED("the last 2 MiB, the offset a page above", LIMIT - M, M, S, {512, S}),
    LISTED("the last 1 GiB", LIMIT - G, G, 0, {1, G}),
    LISTED("the last 1 GiB and a page", LIMIT - G - S, G + S, G - S, {1, S}, {1, G}),
    LISTED("the last 1 GiB, the offset 2 MiB above", LIMIT - G, G, M, {512, M}),
    LISTED("the object's last page", 0, S, LIMIT - S, {1, S}),
    LISTED("the object's last 2 MiB", 0, M, LIMIT - M, {1, M}),
    LISTED("the object's last 2 MiB from a page on", S, M, LIMIT - M, {512, S}),
    LISTED("the object's last 1 GiB", 0, G, LIMIT - G, {1, G}),
    LISTED("the last page of both", LIMIT - S, S, LIMIT - S, {1, S}),
    LISTED("the last 2 MiB of both", LIMIT - M, M, LIMIT - M, {1, M}),
    LISTED("the last 1 GiB of both", LIMIT - G, G, LIMIT - G, {1, G}),
    LISTED("the last 1 GiB but a page of both", LIMIT - G, G - S, LIMIT - G, {511, M}, {511, S}),

    /* Across 2^32, where 32 bits of a number end. */
    LISTED("across 2^32", BIT_32 - M - S, 2 * M + 2 * S, BIT_32 - M - S, {1, S}, {2, M}, {1, S}),
    LISTED("4 GiB and more", BIT_32 - G, 3 * G, BIT_32, {3, G}),
    LISTED("the offset 2^32 above", M, M, BIT_32 + M, {1, M}),
};

static const struct listed_case long_cases[] = {
    LISTED("all there is", 0, LIMIT, 0, {LONG_ENTRIES, G}),
    LISTED("1 GiB, the offset a page above", 0, G, S, {LONG_ENTRIES, S}),
    LISTED("512 GiB, the offset 2 MiB above", 0, 512 * G, M, {LONG_ENTRIES, M}),
    LISTED("half of all, and a page on each side", LIMIT / 4 - S, LIMIT / 2 + 2 * S,
           LIMIT / 4 + 5 * G - S, {1, S}, {LONG_ENTRIES / 2, G}, {1, S}),
};

struct refused_case {
    const char *name;
    waylluqen_mapping mapping;
};

/* Two pages of object 7 that break no rule, but for one number: address, size, object, offset. */
#define WITH_ADDRESS(name, address) {name, {address, 2 * S, 7, 4 * S}}
#define WITH_SIZE(name, size) {name, {2 * S, size, 7, 4 * S}}
#define WITH_OBJECT(name, object) {name, {2 * S, 2 * S, object, 4 * S}}
#define WITH_OFFSET(name, offset) {name, {2 * S, 2 * S, 7, offset}}

static const struct refused_case refused_cases[] = {
    {"zeros", {0, 0, 0, 0}},
    {"highest numbers", {UINT64_MAX, UINT64_MAX, UINT64_MAX, UINT64_MAX}},

    /* Multiples of a page, and size 0. A loop has each bit. */
    WITH_ADDRESS("address one below", 2 * S - 1),
    WITH_OFFSET("offset one below", 4 * S - 1),
    WITH_SIZE("size one below", 2 * S - 1),
    WITH_SIZE("size 1", 1),
    WITH_SIZE("size 0", 0),
    {"size 0 at 2^48", {LIMIT, 0, 7, 0}},
    {"size 0 at 0", {0, 0, 7, 0}},
    {"all off by one", {S + 1, S + 1, 7, S + 1}},
    {"sums are multiples", {S / 2, S + S / 2, 7, S / 2}},

    /* The object. */
    WITH_OBJECT("object 0", 0),
    WITH_OBJECT("object 2^32", BIT_32),
    WITH_OBJECT("object 2^32 + 7", BIT_32 + 7),
    WITH_OBJECT("object 2^63", HALF),
    WITH_OBJECT("highest object", UINT64_MAX),

    /* Inside 0 to 2^48. */
    WITH_ADDRESS("ends a page above 2^48", LIMIT - S),
    WITH_ADDRESS("starts at 2^48", LIMIT),
    WITH_ADDRESS("starts behind 2^48", LIMIT + 2 * S),
    WITH_ADDRESS("starts at 2^63", HALF),
    WITH_ADDRESS("ends at 2^64", LAST_PAGE - S),
    WITH_ADDRESS("ends above 2^64", LAST_PAGE),
    WITH_SIZE("as long as all, from a page on", LIMIT),
    WITH_SIZE("size 2^63", HALF),
    WITH_SIZE("both ends are above 2^64", LAST_PAGE),
    {"both ends are 2^64", {HALF, HALF, 7, HALF}},
    {"longer than all", {0, LIMIT + S, 7, 0}},
    {"all, the offset a page above", {0, LIMIT, 7, S}},
    {"all but a page, two pages above", {2 * S, LIMIT - S, 7, 0}},
    {"two halves of 2^64", {HALF, HALF, 7, 0}},
    {"address plus size is 2^64", {S, LAST_PAGE, 7, 0}},
    {"address plus size is a page above 2^64", {2 * S, LAST_PAGE, 7, 0}},
    {"the last 2 MiB and a page more", {LIMIT - M, M + S, 7, 0}},
    {"the last 1 GiB and a page more", {LIMIT - G, G + S, 7, 0}},

    /* The part of the object. */
    WITH_OFFSET("the part ends a page above 2^48", LIMIT - S),
    WITH_OFFSET("the part starts at 2^48", LIMIT),
    WITH_OFFSET("the part starts behind 2^48", LIMIT + 4 * S),
    WITH_OFFSET("the part starts at 2^63", HALF),
    WITH_OFFSET("the part ends at 2^64", LAST_PAGE - S),
    WITH_OFFSET("the part ends above 2^64", LAST_PAGE),
    {"offset plus size is 2^64", {0, S, 7, LAST_PAGE}},
    {"offset and size of 2^63", {0, HALF, 7, HALF}},
    {"offset plus size is above 2^64, size too", {0, LAST_PAGE, 7, 2 * S}},
    {"1 GiB at the object's end, and a page more", {0, G + S, 7, LIMIT - G}},
};

/* Entries that are far more than there is memory for: so many words are one too few. */
struct huge_case {
    const char *name;
    waylluqen_mapping mapping;
    uint64_t entries;
};

static const struct huge_case huge_cases[] = {
    {"all but a page, the offset a page above", {0, LIMIT - S, 7, S}, (UINT64_C(1) << 36) - 1},
    {"all but a page, the offset a page below", {S, LIMIT - S, 7, 0}, (UINT64_C(1) << 36) - 1},
    {"all but 2 MiB, the offset 2 MiB above", {0, LIMIT - M, 7, M}, (UINT64_C(1) << 27) - 1},
    {"all but 2 MiB and two pages", {S, LIMIT - M - 2 * S, 7, M + S},
     (UINT64_C(1) << 27) - 3 + 2 * 511},
    {"all", {0, LIMIT, 7, 0}, LONG_ENTRIES},
    {"all but two pages", {S, LIMIT - 2 * S, 7, S}, LONG_ENTRIES - 2 + 2 * (511 + 511)},
};

/* How words are lent: at the back of the memory or at its front, with this byte everywhere before;
 * and the object, which has no say in the list. */
static const struct {
    int at_back;
    uint8_t byte;
    uint64_t object;
} lendings[] = {
    {0, UNWRITTEN_BYTE, 7},
    {1, 0, 1},
    {0, 0xff, HIGHEST_OBJECT},
    {1, UNWRITTEN_BYTE, 7},
};

static struct lent lent_entries;

/* The words that should be written, and what the memory should hold then. */
static uint64_t expected_words[LONG_WORDS];
static uint8_t left[(LONG_WORDS + 1024) * sizeof(uint64_t)];

static int is_answer(waylluqen_pages answer, uint64_t refusal, uint64_t entries)
{
    return answer.refusal == refusal && answer.place == 0 && answer.entries == entries;
}

static void print_wrong(const char *name, waylluqen_mapping mapping, size_t words)
{
    printf("host/c: %s: address 0x%" PRIx64 ", size 0x%" PRIx64 ", object 0x%" PRIx64
           ", offset 0x%" PRIx64 ", with %zu words\n",
           name, mapping.address, mapping.size, mapping.object, mapping.offset, words);
}

static int is_wrong(const char *name, waylluqen_mapping mapping, size_t words, uint64_t refusal,
                    uint64_t entries, waylluqen_pages answer)
{
    if (is_answer(answer, refusal, entries)) {
        return 0;
    }
    print_wrong(name, mapping, words);
    printf("  expected refusal %" PRIu64 " and %" PRIu64 " entries, answered %" PRIu64 ", %" PRIu64
           " and %" PRIu64 "\n",
           refusal, entries, answer.refusal, answer.place, answer.entries);
    return 1;
}

/* Whether a page of a size would have done where this entry is: the one that has the entry in it is
 * inside the mapping, and address and offset are multiples of it. */
static int would_do(uint64_t size, const uint64_t *entry, const waylluqen_mapping *mapping)
{
    uint64_t below = entry[WAYLLUQEN_ENTRY_ADDRESS] % size;
    return entry[WAYLLUQEN_ENTRY_SIZE] < size && entry[WAYLLUQEN_ENTRY_OFFSET] % size == below &&
           entry[WAYLLUQEN_ENTRY_ADDRESS] - mapping->address >= below &&
           mapping->address + mapping->size - entry[WAYLLUQEN_ENTRY_ADDRESS] >= size - below;
}

/* What is wrong with one entry, which should start so far into the mapping; NULL for nothing. */
static const char *fault_of(const uint64_t *entry, const waylluqen_mapping *mapping, uint64_t done)
{
    uint64_t size = entry[WAYLLUQEN_ENTRY_SIZE];
    if (size != S && size != M && size != G) {
        return "is of no size";
    }
    if (entry[WAYLLUQEN_ENTRY_ADDRESS] != mapping->address + done) {
        return "does not start where the one before it ends";
    }
    if (entry[WAYLLUQEN_ENTRY_OFFSET] != mapping->offset + done) {
        return "shows something else";
    }
    if (entry[WAYLLUQEN_ENTRY_ADDRESS] % size != 0 || entry[WAYLLUQEN_ENTRY_OFFSET] % size != 0) {
        return "is not aligned";
    }
    if (mapping->size - done < size) {
        return "goes on behind the mapping";
    }
    return would_do(M, entry, mapping) || would_do(G, entry, mapping) ? "could be larger" : NULL;
}

/* Looks through a list, entry by entry. */
static int is_no_list(const char *name, const waylluqen_mapping *mapping, const uint64_t *words,
                      uint64_t entries)
{
    uint64_t done = 0;
    const char *fault = NULL;
    for (uint64_t i = 0; i < entries && fault == NULL; i++) {
        fault = fault_of(words + i * ENTRY_WORDS, mapping, done);
        done += words[i * ENTRY_WORDS + WAYLLUQEN_ENTRY_SIZE];
        if (fault != NULL) {
            print_wrong(name, *mapping, entries * ENTRY_WORDS);
            printf("  entry %" PRIu64 " %s\n", i, fault);
        }
    }
    if (fault == NULL && done != mapping->size) {
        print_wrong(name, *mapping, entries * ENTRY_WORDS);
        printf("  the entries have 0x%" PRIx64 " bytes\n", done);
        return 1;
    }
    return fault != NULL;
}

/* Lends so many words; the memory holds one byte everywhere, also beside them. */
static uint64_t *lend_words(size_t words, size_t way)
{
    size_t room = lent_entries.bytes - words * sizeof(uint64_t);
    memset(lent_entries.memory, lendings[way].byte, lent_entries.bytes);
    return (uint64_t *)(void *)(lent_entries.memory + (lendings[way].at_back ? room : 0));
}

/* All memory should hold what it held, but for the expected words at the front of what is lent. */
static int is_left_otherwise(const char *name, waylluqen_mapping mapping, size_t words, size_t way,
                             uint64_t entries, const uint64_t *lent)
{
    size_t front = (size_t)((const uint8_t *)lent - lent_entries.memory);
    memset(left, lendings[way].byte, lent_entries.bytes);
    memcpy(left + front, expected_words, entries * ENTRY_WORDS * sizeof(uint64_t));
    if (memcmp(left, lent_entries.memory, lent_entries.bytes) == 0) {
        return 0;
    }
    size_t at = 0;
    while (left[at] == lent_entries.memory[at]) {
        at++;
    }
    print_wrong(name, mapping, words);
    printf("  the byte %td from what is lent is other than expected\n",
           (ptrdiff_t)at - (ptrdiff_t)front);
    return 1;
}

/* Asks with so many words, in one way. Where entries are expected, their words are. */
static int differs(const char *name, waylluqen_mapping mapping, size_t words, size_t way,
                   uint64_t refusal, uint64_t entries)
{
    uint64_t *lent = lend_words(words, way);
    mapping.object = refusal == 5 ? mapping.object : lendings[way].object;
    waylluqen_pages answer = waylluqen_page_entries(mapping, lent, words);
    return is_wrong(name, mapping, words, refusal, entries, answer) ||
           is_left_otherwise(name, mapping, words, way, entries, lent) ||
           (refusal == 0 && is_no_list(name, &mapping, lent, entries));
}

/* Asks with so many words, where so many entries are expected, in all ways. */
static int differs_with(const char *name, waylluqen_mapping mapping, size_t words,
                        uint64_t entries)
{
    int fits = words >= entries * ENTRY_WORDS;
    for (size_t way = 0; way < NUMBER(lendings); way++) {
        if (differs(name, mapping, words, way, fits ? 0 : 16, fits ? entries : 0)) {
            return 1;
        }
    }
    return 0;
}

/* Asks with exactly enough words, with fewer, down to none, and with more. */
static int differs_with_any(const char *name, waylluqen_mapping mapping, uint64_t entries)
{
    const size_t all = lent_entries.bytes / sizeof(uint64_t);
    const size_t enough = entries * ENTRY_WORDS;
    const size_t always = WAYLLUQEN_ENTRY_LIST_WORDS(mapping.size);
    const size_t words[] = {enough,     enough - 1, enough - 2, enough - 3, enough / 2,
                            enough + 1, enough + 2, enough + 3, enough + 7, enough + 511,
                            always,     always + 1, entries,    0,          all};
    if (always < enough) {
        print_wrong(name, mapping, always);
        printf("  these should be enough\n");
        return 1;
    }
    for (size_t i = 0; i < NUMBER(words); i++) {
        if (words[i] <= all && differs_with(name, mapping, words[i], entries)) {
            return 1;
        }
    }
    return 0;
}

static uint64_t *put_entry(uint64_t *to, uint64_t address, uint64_t offset, uint64_t size)
{
    to[WAYLLUQEN_ENTRY_ADDRESS] = address;
    to[WAYLLUQEN_ENTRY_OFFSET] = offset;
    to[WAYLLUQEN_ENTRY_SIZE] = size;
    return to + ENTRY_WORDS;
}

/* Writes out the rows of a case. */
static uint64_t put_rows(const struct listed_case *test)
{
    uint64_t *to = expected_words;
    uint64_t entries = 0, done = 0;
    for (size_t row = 0; row < MOST_ROWS; row++) {
        for (uint64_t i = 0; i < test->rows[row].entries; i++) {
            to = put_entry(to, test->mapping.address + done, test->mapping.offset + done,
                           test->rows[row].size);
            done += test->rows[row].size;
        }
        entries += test->rows[row].entries;
    }
    return entries;
}

static int run_listed(const struct listed_case *test)
{
    uint64_t entries = put_rows(test);
    return is_no_list(test->name, &test->mapping, expected_words, entries) ||
           differs_with_any(test->name, test->mapping, entries);
}

/* Whether there are words or not, a mapping that breaks its rules is refused for that. */
static int run_refused(const char *name, waylluqen_mapping mapping)
{
    const size_t words[] = {0, 1, 2, 3, 5, 6, 7, WORDS - 1, WORDS};
    for (size_t i = 0; i < NUMBER(words); i++) {
        for (size_t way = 0; way < NUMBER(lendings); way++) {
            if (differs(name, mapping, words[i], way, 5, 0)) {
                return 1;
            }
        }
    }
    return 0;
}

/* Each bit below a page, in each number that should be a multiple of it. */
static int run_unaligned(void)
{
    int failed = 0;
    for (uint64_t bit = 1; bit < S; bit *= 2) {
        failed += run_refused("a bit of the address", (waylluqen_mapping){S + bit, S, 7, S});
        failed += run_refused("a bit of the size", (waylluqen_mapping){S, S + bit, 7, S});
        failed += run_refused("a bit of the size alone", (waylluqen_mapping){S, bit, 7, S});
        failed += run_refused("a bit of the offset", (waylluqen_mapping){S, S, 7, S + bit});
    }
    return failed;
}

/* Each bit from 2^48 on. */
static int run_too_high(void)
{
    int failed = 0;
    for (uint64_t bit = LIMIT; bit != 0; bit *= 2) {
        failed += run_refused("a high bit of the address", (waylluqen_mapping){bit + S, S, 7, S});
        failed += run_refused("a high bit of the size", (waylluqen_mapping){S, bit + S, 7, S});
        failed += run_refused("a high bit of the offset", (waylluqen_mapping){S, S, 7, bit + S});
    }
    for (uint64_t bit = BIT_32; bit != 0; bit *= 2) {
        failed += run_refused("a high bit of the object", (waylluqen_mapping){S, S, bit + 7, S});
    }
    return failed;
}

/* Makes the entries one by one: at each address the largest page that can start there. Answers how
 * many there are; where they don't fit the expected words, only that there are too many. */
static uint64_t put_largest(const waylluqen_mapping *mapping, uint64_t most)
{
    uint64_t *to = expected_words;
    uint64_t entries = 0;
    for (uint64_t done = 0, size; done < mapping->size && entries <= most; done += size) {
        uint64_t address = mapping->address + done, offset = mapping->offset + done;
        uint64_t left_over = mapping->size - done;
        size = (address | offset) % G == 0 && left_over >= G   ? G
               : (address | offset) % M == 0 && left_over >= M ? M
                                                               : S;
        to = put_entry(to, address, offset, size);
        entries++;
    }
    return entries;
}

/* Numbers around the boundaries of pages. */
static const uint64_t starts[] = {0,         S,     2 * S,     M - S,         M,
                                  M + S,     3 * M, G - M - S, G - M,         G - S,
                                  G,         G + S, G + M,     3 * G - M + S, LIMIT / 2 - M,
                                  LIMIT / 2, 7 * M + M / 2};
static const uint64_t sizes[] = {S,         2 * S,     M - S, M,         M + S,     2 * M - S,
                                 2 * M + S, 3 * M,     G - M, G - S,     G,         G + S,
                                 G + M,     G + M + S, 2 * G, 2 * G + M, 3 * G - S, 5 * G + 7 * M};

/* Of each start as an address and as an offset, and of each size. Those whose entries don't fit the
 * memory are refused. */
static int run_starts(size_t *all)
{
    const size_t room = lent_entries.bytes / sizeof(uint64_t) / ENTRY_WORDS;
    int failed = 0;
    for (size_t i = 0; i < NUMBER(starts) * NUMBER(starts) * NUMBER(sizes); i++, ++*all) {
        waylluqen_mapping mapping = {starts[i % NUMBER(starts)],
                                     sizes[i / NUMBER(starts) / NUMBER(starts)], 7,
                                     starts[i / NUMBER(starts) % NUMBER(starts)]};
        uint64_t entries = put_largest(&mapping, room);
        const size_t enough = entries * ENTRY_WORDS;
        failed += entries > room
                      ? differs_with("many", mapping, room * ENTRY_WORDS, entries)
                      : differs_with("just enough", mapping, enough, entries) ||
                            differs_with("one too few", mapping, enough - 1, entries);
    }
    return failed;
}

/* Mappings from many pages on, of many sizes, so that boundaries of 2 MiB are at many places of
 * them; where address and offset differ by a multiple of 2 MiB, and by none. */
static int run_steps(size_t *all)
{
    static const uint64_t differences[] = {0, M, G + M, S};
    int failed = 0;
    for (uint64_t at = 0; at < 2 * M; at += 37 * S) {
        for (uint64_t size = S; size < 3 * M; size += 61 * S) {
            for (size_t i = 0; i < NUMBER(differences); i++, ++*all) {
                waylluqen_mapping mapping = {at, size, 7, at + differences[i]};
                uint64_t entries = put_largest(&mapping, WORDS / ENTRY_WORDS);
                failed += differs("in steps", mapping, entries * ENTRY_WORDS + i, i, 0, entries);
            }
        }
    }
    return failed;
}

static void too_slow(int number)
{
    static const char told[] = "host/c: a list that is too long is not refused at once\n";
    (void)number;
    _exit(write(STDOUT_FILENO, told, sizeof told - 1) < 0 ? 2 : 1);
}

/* A million refusals take a fraction of a second if no entry is made. Counted one by one, the
 * entries of any of these would take minutes. */
static int run_huge(const struct huge_case *test)
{
    const size_t words = test->entries * ENTRY_WORDS - 1;
    /* No call may touch it. */
    void *memory = mmap(NULL, (words + 1) * sizeof(uint64_t), PROT_NONE,
                        MAP_PRIVATE | MAP_ANONYMOUS | MAP_NORESERVE, -1, 0);
    if (memory == MAP_FAILED) {
        printf("host/c: mmap failed\n");
        return 1;
    }
    int failed = 0;
    alarm(60);
    for (size_t i = 0; i < 1 << 20 && !failed; i++) {
        size_t fewer = i % 2 == 0 ? words : i % words;
        waylluqen_pages answer = waylluqen_page_entries(test->mapping, memory, fewer);
        failed = is_wrong(test->name, test->mapping, fewer, 16, 0, answer);
    }
    alarm(0);
    munmap(memory, (words + 1) * sizeof(uint64_t));
    return failed;
}

int main(void)
{
    size_t failed = 0, all = NUMBER(listed_cases) + NUMBER(long_cases), around = 0;

    if (!prepare(&lent_entries, WORDS)) {
        printf("host/c: mmap failed\n");
        return 1;
    }
    /* So that nothing told is lost where a call ends the test. */
    setvbuf(stdout, NULL, _IOLBF, BUFSIZ);
    signal(SIGALRM, too_slow);
    for (size_t i = 0; i < NUMBER(listed_cases); i++) {
        failed += (size_t)run_listed(&listed_cases[i]);
    }
    for (size_t i = 0; i < NUMBER(refused_cases); i++) {
        failed += (size_t)run_refused(refused_cases[i].name, refused_cases[i].mapping);
    }
    failed += (size_t)(run_unaligned() + run_too_high());
    for (size_t i = 0; i < NUMBER(huge_cases); i++) {
        failed += (size_t)run_huge(&huge_cases[i]);
    }
    failed += (size_t)(run_starts(&around) + run_steps(&around));
    /* These come last, since all memory is compared each time. */
    if (!prepare(&lent_entries, LONG_WORDS)) {
        printf("host/c: mmap failed\n");
        return 1;
    }
    for (size_t i = 0; i < NUMBER(long_cases); i++) {
        failed += (size_t)run_listed(&long_cases[i]);
    }
    if (failed != 0) {
        printf("host/c: %zu lists of page entries failed\n", failed);
        return 1;
    }
    printf("host/c: %zu lists of page entries, %zu around the boundaries of pages, ", all, around);
    printf("and %zu that are refused, passed\n", NUMBER(refused_cases) + NUMBER(huge_cases));
    return 0;
}
