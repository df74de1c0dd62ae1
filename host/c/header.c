/*
 * The header's constants and layouts are those of documents 01 and 02. A wrong one does not
 * compile: in C99, freestanding, in C++, and as a kernel compiles it.
 */
#include "waylluqen.h"

#define SAME(name, number) typedef char same_##name[(name) == (number) ? 1 : -1]
#define AT(type, field, word) \
    typedef char at_##type##_##field[offsetof(type, field) == 8 * (word) ? 1 : -1]
#define LONG(type, words) typedef char long_##type[sizeof(type) == 8 * (words) ? 1 : -1]

SAME(WAYLLUQEN_OK, 0);
SAME(WAYLLUQEN_REFUSED_BAD_SPACE, 1);
SAME(WAYLLUQEN_REFUSED_BAD_TABLE_LENGTH, 2);
SAME(WAYLLUQEN_REFUSED_SHORT_OPERATIONS, 3);
SAME(WAYLLUQEN_REFUSED_BAD_COUNT, 4);
SAME(WAYLLUQEN_REFUSED_BAD_MAPPING, 5);
SAME(WAYLLUQEN_REFUSED_UNALIGNED, 6);
SAME(WAYLLUQEN_REFUSED_OUTSIDE_SPACE, 7);
SAME(WAYLLUQEN_REFUSED_RESERVED, 8);
SAME(WAYLLUQEN_REFUSED_BAD_OBJECT, 9);
SAME(WAYLLUQEN_REFUSED_BAD_OFFSET, 10);
SAME(WAYLLUQEN_REFUSED_NO_ROOM, 11);
SAME(WAYLLUQEN_REFUSED_BAD_RECORD_LENGTH, 12);
SAME(WAYLLUQEN_REFUSED_BAD_OP, 13);
SAME(WAYLLUQEN_REFUSED_BAD_FLAGS, 14);
SAME(WAYLLUQEN_REFUSED_BAD_WORK_LENGTH, 15);
SAME(WAYLLUQEN_REFUSED_SHORT_OUTPUT, 16);
SAME(WAYLLUQEN_REFUSED_STALE_WORDS, 17);
SAME(WAYLLUQEN_REFUSED_BAD_RANGES, 18);
SAME(WAYLLUQEN_REFUSED_RANGE_OVERLAPS, 19);
SAME(WAYLLUQEN_REFUSED_NO_SUCH_RANGE, 20);

/* The list has a text for each refusal: 1 to 20. */
#define TEXT(refusal, text) +(sizeof(text) > 1 ? (1u << (refusal)) : 0)
typedef char texts[(WAYLLUQEN_REFUSALS(TEXT)) == (1u << 21) - 2 ? 1 : -1];

SAME(WAYLLUQEN_OP_MAP, 0);
SAME(WAYLLUQEN_OP_UNMAP, 1);

SAME(WAYLLUQEN_FLAG_SPARSE, 1 << 8);

SAME(WAYLLUQEN_KIND_MAP, 0);
SAME(WAYLLUQEN_KIND_REMAP, 1);
SAME(WAYLLUQEN_KIND_UNMAP, 2);

SAME(WAYLLUQEN_SHOWN_NOTHING, 0);
SAME(WAYLLUQEN_SHOWN_OBJECT, 1);
SAME(WAYLLUQEN_SHOWN_SPARSE, 2);

/* The words of a mapping, of a sparse range, of an operation and of a page entry, one behind the
 * other. */
SAME(WAYLLUQEN_MAPPING_ADDRESS, 0);
SAME(WAYLLUQEN_MAPPING_SIZE, 1);
SAME(WAYLLUQEN_MAPPING_OBJECT, 2);
SAME(WAYLLUQEN_MAPPING_OFFSET, 3);
SAME(WAYLLUQEN_MAPPING_WORDS, 4);
SAME(WAYLLUQEN_RANGE_START, 0);
SAME(WAYLLUQEN_RANGE_SIZE, 1);
SAME(WAYLLUQEN_RANGE_WORDS, 2);
SAME(WAYLLUQEN_OPERATION_KIND, 0);
SAME(WAYLLUQEN_OPERATION_KEEP, 1);
SAME(WAYLLUQEN_OPERATION_MAPPING, 2);
SAME(WAYLLUQEN_OPERATION_LOWER, 2 + 4);
SAME(WAYLLUQEN_OPERATION_UPPER, 2 + 2 * 4);
SAME(WAYLLUQEN_OPERATION_WORDS, 2 + 3 * 4);
SAME(WAYLLUQEN_ENTRY_ADDRESS, 0);
SAME(WAYLLUQEN_ENTRY_OFFSET, 1);
SAME(WAYLLUQEN_ENTRY_SIZE, 2);
SAME(WAYLLUQEN_ENTRY_WORDS, 3);

/* The record: four fields of 32 bits, three of 64. */
SAME(WAYLLUQEN_RECORD_OP, 0);
SAME(WAYLLUQEN_RECORD_FLAGS, 4);
SAME(WAYLLUQEN_RECORD_HANDLE, 2 * 4);
SAME(WAYLLUQEN_RECORD_PAD, 3 * 4);
SAME(WAYLLUQEN_RECORD_ADDR, 4 * 4);
SAME(WAYLLUQEN_RECORD_BO_OFFSET, 4 * 4 + 8);
SAME(WAYLLUQEN_RECORD_RANGE, 4 * 4 + 2 * 8);
SAME(WAYLLUQEN_RECORD_BYTES, 4 * 4 + 3 * 8);

SAME(WAYLLUQEN_PAGE_SIZE, 4096);
SAME(WAYLLUQEN_PAGE_SIZE_2M, 2097152ull);
SAME(WAYLLUQEN_PAGE_SIZE_1G, 1073741824ull);
SAME(WAYLLUQEN_MAX_MAPPINGS, 4096);
SAME(WAYLLUQEN_MAX_RANGES, 64);
SAME(WAYLLUQEN_MAX_BATCH, 64);
SAME(WAYLLUQEN_LIMIT, 281474976710656ull);
SAME(WAYLLUQEN_MAX_OBJECT, 4294967295ull);

/* The longest table has 16,384 words, the longest list of sparse ranges 128. */
typedef char longest_table[WAYLLUQEN_TABLE_WORDS(WAYLLUQEN_MAX_MAPPINGS) == 16384 ? 1 : -1];
typedef char longest_list[WAYLLUQEN_OPERATION_LIST_WORDS(4095 + 1) == 4097 * 14 ? 1 : -1];
typedef char longest_ranges[WAYLLUQEN_RANGE_LIST_WORDS(63 + 1) == 128 ? 1 : -1];

/* The longest batch has 2,560 bytes. Its operations: four a request, and capacity + 1. */
typedef char longest_batch[WAYLLUQEN_BATCH_BYTES(63 + 1) == 2560 ? 1 : -1];
typedef char batch_list[WAYLLUQEN_BATCH_LIST_WORDS(2 + 3, 1 + 1) == (5 + 1 + 8) * 14 ? 1 : -1];

/* Large pages are 64-bit numbers: a product of them does not wrap. */
typedef char wide_2m[sizeof(WAYLLUQEN_PAGE_SIZE_2M) == 8 ? 1 : -1];
typedef char wide_1g[sizeof(WAYLLUQEN_PAGE_SIZE_1G) == 8 ? 1 : -1];

/* A page entry for each 4 KiB, of an int and of all that a mapping may have. */
typedef char entry_list[WAYLLUQEN_ENTRY_LIST_WORDS(4096 + 3 * 4096) == 4 * 3 ? 1 : -1];
typedef char no_entries[WAYLLUQEN_ENTRY_LIST_WORDS(0) == 0 ? 1 : -1];
typedef char most_entries[WAYLLUQEN_ENTRY_LIST_WORDS(WAYLLUQEN_LIMIT) == 206158430208ull ? 1 : -1];

LONG(waylluqen_space, 4);
AT(waylluqen_space, start, 0);
AT(waylluqen_space, size, 1);
AT(waylluqen_space, reserved_start, 2);
AT(waylluqen_space, reserved_size, 3);

LONG(waylluqen_request, 5);
AT(waylluqen_request, op, 0);
AT(waylluqen_request, address, 1);
AT(waylluqen_request, size, 2);
AT(waylluqen_request, object, 3);
AT(waylluqen_request, offset, 4);

LONG(waylluqen_mapping, 4);
AT(waylluqen_mapping, address, WAYLLUQEN_MAPPING_ADDRESS);
AT(waylluqen_mapping, size, WAYLLUQEN_MAPPING_SIZE);
AT(waylluqen_mapping, object, WAYLLUQEN_MAPPING_OBJECT);
AT(waylluqen_mapping, offset, WAYLLUQEN_MAPPING_OFFSET);

LONG(waylluqen_answer, 5);
AT(waylluqen_answer, refusal, 0);
AT(waylluqen_answer, place, 1);
AT(waylluqen_answer, operations, 2);
AT(waylluqen_answer, count, 3);
AT(waylluqen_answer, ranges, 4);

LONG(waylluqen_translation, 6);
AT(waylluqen_translation, refusal, 0);
AT(waylluqen_translation, place, 1);
AT(waylluqen_translation, shown, 2);
AT(waylluqen_translation, object, 3);
AT(waylluqen_translation, offset, 4);
AT(waylluqen_translation, bytes, 5);

LONG(waylluqen_pages, 3);
AT(waylluqen_pages, refusal, 0);
AT(waylluqen_pages, place, 1);
AT(waylluqen_pages, entries, 2);
