/* SPDX-License-Identifier: MIT */
#ifndef WAYLLUQEN_H
#define WAYLLUQEN_H

#ifdef __KERNEL__ /* Linux: a -nostdinc build has these and no others */
#include <linux/stddef.h>
#include <linux/types.h>
#else
#include <stddef.h>
#include <stdint.h>
#endif

#ifdef __cplusplus
extern "C" {
#endif

/**
 * DOC: Overview
 *
 * Waylluqen keeps one GPU address space as a sorted table of mappings and a sorted list of sparse
 * ranges, in memory that the caller lends. waylluqen_bind() and waylluqen_bind_record() map or
 * unmap a range: they cut what is mapped there out of the table, and write the operations that a
 * driver carries out on its page tables. waylluqen_bind_record() also adds a sparse range or
 * removes one. waylluqen_bind_batch() does an array of requests, all or none. waylluqen_lookup()
 * tells what an address shows, and how far that goes on. waylluqen_check_request() tells beforehand
 * what is wrong with a request. waylluqen_page_entries() lists the page entries of one mapping,
 * large pages among them. All that is kept between two calls is the caller's: a space, the words of
 * list and table, and their counts.
 *
 * Any list, any table, any request and any numbers get an answer, and it is proved to be the one
 * that is written here: &waylluqen_answer.refusal is %WAYLLUQEN_OK, or the first rule that is
 * broken, and then no lent word has changed. There is one exception: a batch of which a request is
 * refused leaves list and table alone too, but zeros in the words that are lent to work in and for
 * operations.
 *
 * Sums are exact, none wraps. Ranges are half-open: two that only touch share no byte.
 */

/**
 * DOC: Version and interface
 *
 * %WAYLLUQEN_VERSION is the release, as CHANGELOG.md names it.
 *
 * %WAYLLUQEN_INTERFACE is a symbol that the archive exports, and its name carries the interface's
 * number. Every file that includes this header needs that very symbol: where the archive is of
 * another interface, older or newer, the program does not link, and the linker names the symbol.
 * The number goes up whenever a layout, a parameter list, a number, or what a word means or may
 * hold changes from what is written here.
 *
 * A file that only wants layouts and numbers, in a program that links no archive, defines
 * WAYLLUQEN_LAYOUTS_ONLY before it includes this header. There are no calls then.
 */
#define WAYLLUQEN_VERSION "0.1.0"
#define WAYLLUQEN_VERSION_MAJOR 0
#define WAYLLUQEN_VERSION_MINOR 1
#define WAYLLUQEN_VERSION_PATCH 0
#define WAYLLUQEN_INTERFACE waylluqen_interface_6

/**
 * DOC: What the caller ensures
 *
 * This is all that no call can check for itself. Everything else may be as it likes.
 *
 * - A pointer is valid for as many words or bytes as its length says, for reading, and where it
 *   is not const for writing. It is not NULL, also where the length is 0.
 * - A pointer to words is aligned as a uint64_t is. A record may stand at any byte, and so may an
 *   array of them.
 * - What is lent for writing overlaps nothing else that is lent in the same call: the list of
 *   sparse ranges, the table, the work table, the operation words and the record or the array of
 *   them are five places. No words and no bytes are no place.
 * - Nobody else writes to lent memory during a call, or reads what the call writes: no other
 *   thread, no interrupt, no device. Look-ups in one table and one list may run beside each other,
 *   but not beside a bind on them. There are no locks in here.
 * - The processor is an x86-64 with the System V calling convention, and SSE2 may be used. A call
 *   takes less than a kilobyte of stack. At link time there are memset() and memmove().
 * - The stack pointer is a multiple of 16 at a call, as that convention has it. The Linux kernel
 *   keeps it a multiple of 8 only: there the first bind faults, unless the caller aligns it.
 * - The 128 bytes below the stack pointer are left alone during a call: by interrupts, and also by
 *   faults, which come with interrupts off too. Both need a stack of their own, or must not happen.
 *
 * No call keeps a pointer, allocates, blocks, or touches memory that is not lent to it.
 */

/**
 * DOC: Limits
 *
 * A page is %WAYLLUQEN_PAGE_SIZE bytes; page entries are for larger ones too,
 * %WAYLLUQEN_PAGE_SIZE_2M and %WAYLLUQEN_PAGE_SIZE_1G. Neither a space nor a mapping's part of its
 * object goes above %WAYLLUQEN_LIMIT. An object is a number from 1 to %WAYLLUQEN_MAX_OBJECT. A
 * table has room for 1 to %WAYLLUQEN_MAX_MAPPINGS mappings, a list of sparse ranges for 0 to
 * %WAYLLUQEN_MAX_RANGES of them. A batch has 0 to %WAYLLUQEN_MAX_BATCH requests.
 *
 * With room for the most, a table has 131,072 bytes, a work table as many, the list of operations
 * 458,864 and that of the longest batch 487,536: none is for a kernel's stack. A list of sparse
 * ranges has 1,024, and the longest batch 2,560.
 */
enum {
    WAYLLUQEN_PAGE_SIZE = 4096,
    WAYLLUQEN_MAX_MAPPINGS = 4096,
    WAYLLUQEN_MAX_RANGES = 64,
    WAYLLUQEN_MAX_BATCH = 64
};
#define WAYLLUQEN_PAGE_SIZE_2M ((uint64_t)1 << 21)
#define WAYLLUQEN_PAGE_SIZE_1G ((uint64_t)1 << 30)
#define WAYLLUQEN_LIMIT ((uint64_t)1 << 48)
#define WAYLLUQEN_MAX_OBJECT ((uint64_t)0xffffffff)

/**
 * DOC: Sparse ranges
 *
 * Vulkan's sparse residency gives a texture all its addresses at once, and memory to some of its
 * tiles later. A sparse range is such addresses: a page there that no mapping has is sparse. Where
 * the GPU comes to a sparse page it does not fault: a read gives zeros, or what else the device
 * defines, and a write is dropped. A page in no mapping and in no sparse range shows nothing, and
 * the GPU faults there.
 *
 * A record with %WAYLLUQEN_FLAG_SPARSE adds a range to the list or removes one, and changes nothing
 * else. It goes to waylluqen_bind_record(), since a batch takes no flag. Every other request maps
 * and unmaps as if there were no list. A range may lie over mappings, which show what they showed,
 * and mappings may come into it and go again.
 *
 * Hardware has a sparse bit in a page entry. No operation tells a driver to set it, so that a
 * driver sees to it by itself:
 *
 * - Where a range is added, all its pages that no mapping has get a sparse entry.
 *   waylluqen_lookup() tells which these are, %WAYLLUQEN_SHOWN_SPARSE.
 * - Where a range is removed, all its entries are cleared. No mapping shares a byte with it then.
 * - Where an unmap or a remap operation frees pages in a range, these get a sparse entry again and
 *   no clear one; the list tells which they are. waylluqen_lookup() tells it too, but for a map it
 *   shows already what the map operation at the end is to show.
 *
 * A map operation's entries replace sparse ones like any others. Flush the TLB in each case.
 */

/**
 * DOC: Large pages
 *
 * Page tables can have large pages beside those of 4 KiB, of 2 MiB and of 1 GiB: one entry for all
 * the bytes of such a page, whose address and offset are both multiples of its size.
 * waylluqen_page_entries() lists the entries of one mapping in these three sizes, as few as can be,
 * and a driver writes one page-table entry for each. It needs no table and no space. A driver whose
 * hardware has other sizes can't use it.
 *
 * - For a map operation, the list of the new mapping is what to write.
 * - A remap operation can cut a large page that was written for the old mapping. Then what a rest
 *   has of that page gets smaller pages: they are in the list of the rest. An entry of the old
 *   mapping's list that is wholly inside the rest is in the rest's list too, and can stay.
 * - Where keep is 1 and entries are left alone, a large page can go on from a rest into the new
 *   mapping. A driver that does not look for this at a later cut writes all entries of both anew.
 *
 * Where address and offset differ by no multiple of 2 MiB, only pages of 4 KiB come out, and where
 * they differ by no multiple of 1 GiB, none of 1 GiB. So who chooses addresses for large pages
 * gives an address the remainder that the offset has.
 *
 * The list goes by numbers and knows nothing of memory: where an object's memory is not in one
 * piece behind an entry, or not aligned to its size, a driver writes smaller pages there.
 */

/**
 * enum waylluqen_refusal - why a call is refused
 * @WAYLLUQEN_OK: it is not: a request is granted, a look-up is answered
 * @WAYLLUQEN_REFUSED_BAD_SPACE: the space breaks one of its rules, see &waylluqen_space
 * @WAYLLUQEN_REFUSED_BAD_TABLE_LENGTH: the table's length is 0, not a multiple of
 *     %WAYLLUQEN_MAPPING_WORDS, or has room for more than %WAYLLUQEN_MAX_MAPPINGS mappings
 * @WAYLLUQEN_REFUSED_SHORT_OPERATIONS: the operation words are fewer than
 *     WAYLLUQEN_OPERATION_LIST_WORDS() of the table's capacity
 * @WAYLLUQEN_REFUSED_BAD_COUNT: the count is above the table's capacity, its length divided by
 *     %WAYLLUQEN_MAPPING_WORDS
 * @WAYLLUQEN_REFUSED_BAD_MAPPING: a mapping in the table breaks one of its rules, see &enum
 *     waylluqen_mapping_word, or overlaps or precedes the one before it; the lowest such place,
 *     from 0, comes with it. For waylluqen_page_entries(): the mapping breaks one of its rules in a
 *     space from 0 to %WAYLLUQEN_LIMIT with nothing reserved, and the place is 0
 * @WAYLLUQEN_REFUSED_UNALIGNED: the request's address, size or offset is not a multiple of a
 *     page, or its size is 0
 * @WAYLLUQEN_REFUSED_OUTSIDE_SPACE: the request's range is not inside the space
 * @WAYLLUQEN_REFUSED_RESERVED: the request's range shares a byte with the reservation
 * @WAYLLUQEN_REFUSED_BAD_OBJECT: a map of object 0 or above %WAYLLUQEN_MAX_OBJECT; an unmap, or any
 *     request with %WAYLLUQEN_FLAG_SPARSE, with an object or an offset other than 0
 * @WAYLLUQEN_REFUSED_BAD_OFFSET: a map whose offset plus size is above %WAYLLUQEN_LIMIT
 * @WAYLLUQEN_REFUSED_NO_ROOM: there would be more mappings afterwards than the table has room
 *     for; what the request frees counts as free. For a map with %WAYLLUQEN_FLAG_SPARSE: the list
 *     of sparse ranges is full
 * @WAYLLUQEN_REFUSED_BAD_RECORD_LENGTH: the record is not %WAYLLUQEN_RECORD_BYTES bytes long; a
 *     batch's length is not a multiple of that, or above %WAYLLUQEN_MAX_BATCH times that
 * @WAYLLUQEN_REFUSED_BAD_OP: op is neither %WAYLLUQEN_OP_MAP nor %WAYLLUQEN_OP_UNMAP
 * @WAYLLUQEN_REFUSED_BAD_FLAGS: the record's flags are neither 0 nor %WAYLLUQEN_FLAG_SPARSE, or its
 *     pad is not 0; in a batch the flags have to be 0
 * @WAYLLUQEN_REFUSED_BAD_WORK_LENGTH: the work table is not exactly as long as the table
 * @WAYLLUQEN_REFUSED_SHORT_OUTPUT: for a request of a batch: its operations don't fit the words
 *     that are left behind those of the requests before it; see WAYLLUQEN_BATCH_LIST_WORDS(). For
 *     waylluqen_page_entries(): the entries don't fit; see WAYLLUQEN_ENTRY_LIST_WORDS()
 * @WAYLLUQEN_REFUSED_STALE_WORDS: a word behind the table's last mapping is not 0, as where the
 *     count is too low; see WAYLLUQEN_TABLE_WORDS()
 * @WAYLLUQEN_REFUSED_BAD_RANGES: the list of sparse ranges breaks one of its rules, see
 *     WAYLLUQEN_RANGE_LIST_WORDS()
 * @WAYLLUQEN_REFUSED_RANGE_OVERLAPS: for a map with %WAYLLUQEN_FLAG_SPARSE: it shares a byte with a
 *     sparse range
 * @WAYLLUQEN_REFUSED_NO_SUCH_RANGE: for an unmap with %WAYLLUQEN_FLAG_SPARSE: no sparse range has
 *     exactly its start and size, or a mapping shares a byte with it
 *
 * Where several apply, a call answers with the first in this order: 12, 13, 14, 1 to 3, 15, 4, 5,
 * 17, 18, then 6 to 10, 19, 20, 11, 16. It leaves out those that it has no use for. In a batch 13
 * and 14 come in their request's turn, behind 18 and before its 6.
 */
enum waylluqen_refusal {
    WAYLLUQEN_OK = 0,
    WAYLLUQEN_REFUSED_BAD_SPACE = 1,
    WAYLLUQEN_REFUSED_BAD_TABLE_LENGTH = 2,
    WAYLLUQEN_REFUSED_SHORT_OPERATIONS = 3,
    WAYLLUQEN_REFUSED_BAD_COUNT = 4,
    WAYLLUQEN_REFUSED_BAD_MAPPING = 5,
    WAYLLUQEN_REFUSED_UNALIGNED = 6,
    WAYLLUQEN_REFUSED_OUTSIDE_SPACE = 7,
    WAYLLUQEN_REFUSED_RESERVED = 8,
    WAYLLUQEN_REFUSED_BAD_OBJECT = 9,
    WAYLLUQEN_REFUSED_BAD_OFFSET = 10,
    WAYLLUQEN_REFUSED_NO_ROOM = 11,
    WAYLLUQEN_REFUSED_BAD_RECORD_LENGTH = 12,
    WAYLLUQEN_REFUSED_BAD_OP = 13,
    WAYLLUQEN_REFUSED_BAD_FLAGS = 14,
    WAYLLUQEN_REFUSED_BAD_WORK_LENGTH = 15,
    WAYLLUQEN_REFUSED_SHORT_OUTPUT = 16,
    WAYLLUQEN_REFUSED_STALE_WORDS = 17,
    WAYLLUQEN_REFUSED_BAD_RANGES = 18,
    WAYLLUQEN_REFUSED_RANGE_OVERLAPS = 19,
    WAYLLUQEN_REFUSED_NO_SUCH_RANGE = 20
};

/**
 * WAYLLUQEN_REFUSALS() - the refusals with a text for each, as a list
 * @X: the name of a macro of two arguments, a &enum waylluqen_refusal and a string
 *
 * To make a switch or an array of, where a driver wants texts::
 *
 *      switch (answer.refusal) {
 *      #define TEXT(refusal, text) case refusal: return text;
 *          WAYLLUQEN_REFUSALS(TEXT)
 *      #undef TEXT
 *      }
 */
#define WAYLLUQEN_REFUSALS(X) \
    X(WAYLLUQEN_REFUSED_BAD_SPACE, "the space breaks its rules") \
    X(WAYLLUQEN_REFUSED_BAD_TABLE_LENGTH, "the table's length is not one that a table has") \
    X(WAYLLUQEN_REFUSED_SHORT_OPERATIONS, "there are too few operation words") \
    X(WAYLLUQEN_REFUSED_BAD_COUNT, "the count is above the table's capacity") \
    X(WAYLLUQEN_REFUSED_BAD_MAPPING, "a mapping in the table breaks its rules") \
    X(WAYLLUQEN_REFUSED_UNALIGNED, "an address, size or offset is not a multiple of a page") \
    X(WAYLLUQEN_REFUSED_OUTSIDE_SPACE, "the range is not inside the space") \
    X(WAYLLUQEN_REFUSED_RESERVED, "the range shares a byte with the reservation") \
    X(WAYLLUQEN_REFUSED_BAD_OBJECT, "the object is not one that can be asked for") \
    X(WAYLLUQEN_REFUSED_BAD_OFFSET, "the offset plus the size is too high") \
    X(WAYLLUQEN_REFUSED_NO_ROOM, "there is no room for the mappings or ranges afterwards") \
    X(WAYLLUQEN_REFUSED_BAD_RECORD_LENGTH, "the record is not 40 bytes long") \
    X(WAYLLUQEN_REFUSED_BAD_OP, "the op is neither map nor unmap") \
    X(WAYLLUQEN_REFUSED_BAD_FLAGS, "the flags are not known, or pad is not 0") \
    X(WAYLLUQEN_REFUSED_BAD_WORK_LENGTH, "the work table is not as long as the table") \
    X(WAYLLUQEN_REFUSED_SHORT_OUTPUT, "the output is too short for what is to be written") \
    X(WAYLLUQEN_REFUSED_STALE_WORDS, "a word behind the table's last mapping is not 0") \
    X(WAYLLUQEN_REFUSED_BAD_RANGES, "the list of sparse ranges breaks its rules") \
    X(WAYLLUQEN_REFUSED_RANGE_OVERLAPS, "the range shares a byte with a sparse range") \
    X(WAYLLUQEN_REFUSED_NO_SUCH_RANGE, "there is no such sparse range, or a mapping is in it")

/**
 * enum waylluqen_op - what a request asks for
 * @WAYLLUQEN_OP_MAP: the range is to show an object
 * @WAYLLUQEN_OP_UNMAP: the range is to show no object
 */
enum waylluqen_op {
    WAYLLUQEN_OP_MAP = 0,
    WAYLLUQEN_OP_UNMAP = 1
};

/**
 * enum waylluqen_flag - what the flags of a record can be, but for 0
 * @WAYLLUQEN_FLAG_SPARSE: a map adds a sparse range, an unmap removes one; object and offset are 0.
 *     Not in a batch
 */
enum waylluqen_flag {
    WAYLLUQEN_FLAG_SPARSE = 256
};

/**
 * enum waylluqen_mapping_word - the words of a mapping, in a table and in an operation
 * @WAYLLUQEN_MAPPING_ADDRESS: its first address
 * @WAYLLUQEN_MAPPING_SIZE: its size in bytes
 * @WAYLLUQEN_MAPPING_OBJECT: what it shows
 * @WAYLLUQEN_MAPPING_OFFSET: the byte of the object that its first address shows
 * @WAYLLUQEN_MAPPING_WORDS: how many words it has
 *
 * Its rules: address, size and offset are multiples of a page; the size is not 0; the object is
 * 1 to %WAYLLUQEN_MAX_OBJECT; offset + size is at most %WAYLLUQEN_LIMIT; [address, address +
 * size) is inside the space and shares no byte with the reservation.
 */
enum waylluqen_mapping_word {
    WAYLLUQEN_MAPPING_ADDRESS = 0,
    WAYLLUQEN_MAPPING_SIZE = 1,
    WAYLLUQEN_MAPPING_OBJECT = 2,
    WAYLLUQEN_MAPPING_OFFSET = 3,
    WAYLLUQEN_MAPPING_WORDS = 4
};

/**
 * WAYLLUQEN_TABLE_WORDS() - how many words a table has
 * @capacity: how many mappings it is to have room for, 1 to %WAYLLUQEN_MAX_MAPPINGS
 *
 * The table's mappings stand at its front in ascending order, each ending at or before the next
 * one's address. Their count is kept beside the table. Every word behind the last mapping is 0: a
 * table with another word there is refused, %WAYLLUQEN_REFUSED_STALE_WORDS, so that a count that is
 * too low does not pass for a shorter table. An empty table is zeros with count 0.
 *
 * A grant leaves zeros there, so a table that only these calls write, with the count that they
 * answer, is never refused so. A caller that makes a table itself, copies one to a longer place or
 * takes a mapping away by hand has to leave zeros behind the last mapping too.
 */
#define WAYLLUQEN_TABLE_WORDS(capacity) ((size_t)(capacity) * WAYLLUQEN_MAPPING_WORDS)

/**
 * enum waylluqen_range_word - the words of a sparse range
 * @WAYLLUQEN_RANGE_START: its first address
 * @WAYLLUQEN_RANGE_SIZE: its size in bytes
 * @WAYLLUQEN_RANGE_WORDS: how many words it has
 *
 * Its rules: start and size are multiples of a page; the size is not 0; [start, start + size) is
 * inside the space and shares no byte with the reservation.
 */
enum waylluqen_range_word {
    WAYLLUQEN_RANGE_START = 0,
    WAYLLUQEN_RANGE_SIZE = 1,
    WAYLLUQEN_RANGE_WORDS = 2
};

/**
 * WAYLLUQEN_RANGE_LIST_WORDS() - how many words a list of sparse ranges has
 * @capacity: how many ranges it is to have room for, 0 to %WAYLLUQEN_MAX_RANGES
 *
 * The list's rules: its length is even, and no more than 128 words; its count is at most half of
 * that. The ranges stand at its front in ascending order and keep their rules, each starting where
 * the one before it ends or later. Two that touch stay two. Every word behind the last range is 0.
 * A list that breaks one is refused, %WAYLLUQEN_REFUSED_BAD_RANGES. An empty list is zeros with
 * count 0.
 *
 * A grant keeps them so: a list that only these calls write, with the count that they answer, is
 * never refused.
 *
 * A driver without sparse ranges lends no words, with count 0. Any pointer will do for that if it
 * is aligned and not NULL, the table's too.
 */
#define WAYLLUQEN_RANGE_LIST_WORDS(capacity) ((size_t)(capacity) * WAYLLUQEN_RANGE_WORDS)

/**
 * enum waylluqen_kind - what an operation tells a driver to do
 * @WAYLLUQEN_KIND_MAP: map the new mapping
 * @WAYLLUQEN_KIND_REMAP: unmap the old mapping but for its rests, which show what they showed
 * @WAYLLUQEN_KIND_UNMAP: unmap the old mapping
 */
enum waylluqen_kind {
    WAYLLUQEN_KIND_MAP = 0,
    WAYLLUQEN_KIND_REMAP = 1,
    WAYLLUQEN_KIND_UNMAP = 2
};

/**
 * enum waylluqen_operation_word - the words of an operation
 * @WAYLLUQEN_OPERATION_KIND: one of &enum waylluqen_kind
 * @WAYLLUQEN_OPERATION_KEEP: 1 if the request is a map and the old mapping has its object and its
 *     displacement (the offset less the address, which may be below zero), so that the old
 *     mapping's pages inside the range show already what the new mapping shows there, and a driver
 *     can leave their entries alone; else, and for a map operation, 0
 * @WAYLLUQEN_OPERATION_MAPPING: where the old mapping starts; for a map operation the new one
 * @WAYLLUQEN_OPERATION_LOWER: where the lower rest starts: what a remap leaves below the range
 * @WAYLLUQEN_OPERATION_UPPER: where the upper rest starts: what a remap leaves above the range
 * @WAYLLUQEN_OPERATION_WORDS: how many words it has
 *
 * A rest is a mapping. The lower one has the old address and offset; the upper one starts at the
 * range's end, and its offset is as much higher as its address is. An absent rest is four zeros,
 * so that its size is 0; a map and an unmap have none.
 *
 * The pages of an old mapping inside the range are those between its rests. Any number of a list's
 * operations can have keep 1, also with others between them.
 */
enum waylluqen_operation_word {
    WAYLLUQEN_OPERATION_KIND = 0,
    WAYLLUQEN_OPERATION_KEEP = 1,
    WAYLLUQEN_OPERATION_MAPPING = 2,
    WAYLLUQEN_OPERATION_LOWER = 6,
    WAYLLUQEN_OPERATION_UPPER = 10,
    WAYLLUQEN_OPERATION_WORDS = 14
};

/**
 * WAYLLUQEN_OPERATION_LIST_WORDS() - how many operation words a call is lent at least
 * @capacity: how many mappings the table has room for
 *
 * No request on such a table writes more. A batch is lent as many at least, and can need more:
 * WAYLLUQEN_BATCH_LIST_WORDS().
 */
#define WAYLLUQEN_OPERATION_LIST_WORDS(capacity) \
    (((size_t)(capacity) + 1) * WAYLLUQEN_OPERATION_WORDS)

/**
 * WAYLLUQEN_BATCH_LIST_WORDS() - how many operation words are enough for a batch
 * @capacity: how many mappings the table has room for
 * @requests: how many requests the batch has, 0 to %WAYLLUQEN_MAX_BATCH
 *
 * With so many words no batch of so many requests on such a table is refused for want of operation
 * words, neither with %WAYLLUQEN_REFUSED_SHORT_OPERATIONS nor with %WAYLLUQEN_REFUSED_SHORT_OUTPUT:
 * there are no more operations than mappings before the batch and four for each request. With fewer
 * a batch can be granted too, if its operations fit.
 */
#define WAYLLUQEN_BATCH_LIST_WORDS(capacity, requests) \
    (((size_t)(capacity) + 1 + 4 * (size_t)(requests)) * WAYLLUQEN_OPERATION_WORDS)

/**
 * enum waylluqen_entry_word - the words of a page entry
 * @WAYLLUQEN_ENTRY_ADDRESS: its first address, a multiple of its size
 * @WAYLLUQEN_ENTRY_OFFSET: the byte of the object that its first address shows; a multiple of its
 *     size too
 * @WAYLLUQEN_ENTRY_SIZE: its size in bytes: %WAYLLUQEN_PAGE_SIZE, %WAYLLUQEN_PAGE_SIZE_2M or
 *     %WAYLLUQEN_PAGE_SIZE_1G
 * @WAYLLUQEN_ENTRY_WORDS: how many words it has
 */
enum waylluqen_entry_word {
    WAYLLUQEN_ENTRY_ADDRESS = 0,
    WAYLLUQEN_ENTRY_OFFSET = 1,
    WAYLLUQEN_ENTRY_SIZE = 2,
    WAYLLUQEN_ENTRY_WORDS = 3
};

/**
 * WAYLLUQEN_ENTRY_LIST_WORDS() - how many words are enough for the page entries of a mapping
 * @bytes: the mapping's size
 *
 * With so many words no mapping of that size is refused with %WAYLLUQEN_REFUSED_SHORT_OUTPUT: there
 * is room for pages of 4 KiB alone. With fewer it can be granted too, if its entries fit.
 *
 * That is 1,536 words for 2 MiB and 786,432 for 1 GiB. A driver that has fewer cuts a mapping into
 * parts where the address is a multiple of 1 GiB: the lists of the parts, one behind the other, are
 * the list of the mapping. Where address and offset differ by no multiple of 1 GiB it may cut at
 * any multiple of 2 MiB, and where they differ by none of 2 MiB at any page.
 */
#define WAYLLUQEN_ENTRY_LIST_WORDS(bytes) \
    ((size_t)((uint64_t)(bytes) / WAYLLUQEN_PAGE_SIZE * WAYLLUQEN_ENTRY_WORDS))

/**
 * enum waylluqen_record_byte - the bytes of a request record, each field little-endian
 * @WAYLLUQEN_RECORD_OP: 4 bytes, one of &enum waylluqen_op
 * @WAYLLUQEN_RECORD_FLAGS: 4 bytes, 0 or one of &enum waylluqen_flag; 0 in a batch
 * @WAYLLUQEN_RECORD_HANDLE: 4 bytes, the object; 0 for an unmap, and with a flag
 * @WAYLLUQEN_RECORD_PAD: 4 bytes, 0
 * @WAYLLUQEN_RECORD_ADDR: 8 bytes, the first address of the range
 * @WAYLLUQEN_RECORD_BO_OFFSET: 8 bytes, the offset in the object; 0 for an unmap, and with a flag
 * @WAYLLUQEN_RECORD_RANGE: 8 bytes, the size of the range in bytes
 * @WAYLLUQEN_RECORD_BYTES: how many bytes it has
 *
 * It is laid out as struct drm_nouveau_vm_bind_op is.
 */
enum waylluqen_record_byte {
    WAYLLUQEN_RECORD_OP = 0,
    WAYLLUQEN_RECORD_FLAGS = 4,
    WAYLLUQEN_RECORD_HANDLE = 8,
    WAYLLUQEN_RECORD_PAD = 12,
    WAYLLUQEN_RECORD_ADDR = 16,
    WAYLLUQEN_RECORD_BO_OFFSET = 24,
    WAYLLUQEN_RECORD_RANGE = 32,
    WAYLLUQEN_RECORD_BYTES = 40
};

/**
 * WAYLLUQEN_BATCH_BYTES() - how many bytes a batch has
 * @requests: how many requests it has, 0 to %WAYLLUQEN_MAX_BATCH
 *
 * One record stands right behind the other, as in an array of struct drm_nouveau_vm_bind_op.
 */
#define WAYLLUQEN_BATCH_BYTES(requests) ((size_t)(requests) * WAYLLUQEN_RECORD_BYTES)

/**
 * enum waylluqen_shown - what an address shows
 * @WAYLLUQEN_SHOWN_NOTHING: nothing: it is in no mapping and in no sparse range
 * @WAYLLUQEN_SHOWN_OBJECT: a byte of an object: it is in a mapping
 * @WAYLLUQEN_SHOWN_SPARSE: no object, and no fault: it is in no mapping, but in a sparse range
 */
enum waylluqen_shown {
    WAYLLUQEN_SHOWN_NOTHING = 0,
    WAYLLUQEN_SHOWN_OBJECT = 1,
    WAYLLUQEN_SHOWN_SPARSE = 2
};

/**
 * struct waylluqen_space - an address space, and the part of it that nobody may map
 * @start: its first address
 * @size: its size in bytes
 * @reserved_start: the first reserved address; 0 where nothing is reserved
 * @reserved_size: how many bytes are reserved; 0 where nothing is
 *
 * Its rules: all four are multiples of a page; the size is not 0; start + size is at most
 * %WAYLLUQEN_LIMIT; the reservation is inside the space, and may be all of it; reserved_start is
 * 0 where reserved_size is.
 */
typedef struct waylluqen_space {
    uint64_t start;
    uint64_t size;
    uint64_t reserved_start;
    uint64_t reserved_size;
} waylluqen_space;

/**
 * struct waylluqen_request - a request by numbers, which has no flags
 * @op: one of &enum waylluqen_op
 * @address: the first address of the range
 * @size: the size of the range in bytes
 * @object: what is to be mapped; 0 for an unmap
 * @offset: the byte of the object that the first address is to show; 0 for an unmap
 */
typedef struct waylluqen_request {
    uint64_t op;
    uint64_t address;
    uint64_t size;
    uint64_t object;
    uint64_t offset;
} waylluqen_request;

/**
 * struct waylluqen_mapping - a mapping by numbers, which are the words that it has elsewhere
 * @address: its first address
 * @size: its size in bytes
 * @object: what it shows
 * @offset: the byte of the object that its first address shows
 */
typedef struct waylluqen_mapping {
    uint64_t address;
    uint64_t size;
    uint64_t object;
    uint64_t offset;
} waylluqen_mapping;

/**
 * struct waylluqen_answer - the answer to a request, or to a batch of them
 * @refusal: %WAYLLUQEN_OK where it is granted, or why it is not
 * @place: for %WAYLLUQEN_REFUSED_BAD_MAPPING the lowest place, from 0, of a mapping at fault; for a
 *     refused request of a batch its place in the array, from 0; else 0. The refusal tells which of
 *     them it is, see waylluqen_bind_batch()
 * @operations: how many operations were written; 0 on a refusal
 * @count: how many mappings the table has now; on a refusal the count that came in
 * @ranges: how many sparse ranges the list has now; on a refusal the count that came in
 */
typedef struct waylluqen_answer {
    uint64_t refusal;
    uint64_t place;
    uint64_t operations;
    uint64_t count;
    uint64_t ranges;
} waylluqen_answer;

/**
 * struct waylluqen_translation - the answer to a look-up; what does not apply is 0
 * @refusal: %WAYLLUQEN_OK where it is answered, or why it is not
 * @place: for %WAYLLUQEN_REFUSED_BAD_MAPPING the lowest place, from 0, of a mapping at fault
 * @shown: one of &enum waylluqen_shown
 * @object: which object the address shows
 * @offset: which byte of the object it shows
 * @bytes: for how many bytes, from the address on, the answer goes on in the same way; at least 1
 *     inside the space, 0 outside
 */
typedef struct waylluqen_translation {
    uint64_t refusal;
    uint64_t place;
    uint64_t shown;
    uint64_t object;
    uint64_t offset;
    uint64_t bytes;
} waylluqen_translation;

/**
 * struct waylluqen_pages - the answer that comes with page entries
 * @refusal: %WAYLLUQEN_OK where they are listed, or why they are not
 * @place: 0: there is one mapping
 * @entries: how many entries were written; 0 on a refusal
 */
typedef struct waylluqen_pages {
    uint64_t refusal;
    uint64_t place;
    uint64_t entries;
} waylluqen_pages;

#ifndef WAYLLUQEN_LAYOUTS_ONLY

/**
 * WAYLLUQEN_INTERFACE() - the number of the interface that the archive has
 *
 * No driver needs to call it: that it is there is what counts.
 *
 * Returns: the number that is in its name.
 */
uint32_t WAYLLUQEN_INTERFACE(void);

/* Needs the symbol in each file. A linker that drops unused sections keeps this one by `retain`,
 * which gcc has from 11 on and clang from 13 on. */
#ifdef __GNUC__
#ifdef __has_attribute
#if __has_attribute(retain)
__attribute__((retain))
#endif
#endif
__attribute__((used)) static uint32_t (*const waylluqen_interface_needed)(void) =
    WAYLLUQEN_INTERFACE;
#endif

/**
 * waylluqen_bind() - map or unmap a range, by numbers
 * @space: the space
 * @ranges: its list of sparse ranges
 * @range_words: how many words the list has, WAYLLUQEN_RANGE_LIST_WORDS() of its capacity
 * @range_count: how many ranges the list has
 * @table: its table
 * @table_words: how many words the table has, WAYLLUQEN_TABLE_WORDS() of its capacity
 * @count: how many mappings the table has
 * @operations: where the operations are written to
 * @operation_words: how many words that are, WAYLLUQEN_OPERATION_LIST_WORDS() of the table's
 *     capacity or more
 * @request: what is asked for
 *
 * A mapping in the table is hit if it shares a byte with the range. One that is wholly inside
 * the range goes: it gets an unmap operation. Any other that is hit keeps what is outside the
 * range: it gets one remap operation, with a lower rest, an upper rest or both. They stand in
 * ascending order of the mappings' addresses. A map request has one map operation at the very
 * end, also where nothing changes. Mappings are never joined.
 *
 * ::
 *
 *      page   0     1     2     3
 *      old    |-----------------|    object 7 from n on
 *      asked        |-----|          object 9 from m on
 *      new    |-----|-----|-----|    object 7 from n on, object 9 from m on, object 7 from n + 2 on
 *
 *      a remap of the old one with both rests, and a map
 *
 * On a grant the operations stand at the front of @operations, and the words behind them are as
 * they were. The table has the mappings that the operations lead to, and zeros behind them. Each
 * page of a mapped range then shows what was asked, each page of an unmapped one is sparse or shows
 * nothing, as the list says, and every other page shows what it showed before.
 *
 * The list is not written to, and has no say in what happens but for
 * %WAYLLUQEN_REFUSED_BAD_RANGES. On a refusal no word of @table and @operations has changed.
 *
 * Returns: the first of %WAYLLUQEN_REFUSED_BAD_OP, %WAYLLUQEN_REFUSED_BAD_SPACE,
 * %WAYLLUQEN_REFUSED_BAD_TABLE_LENGTH, %WAYLLUQEN_REFUSED_SHORT_OPERATIONS,
 * %WAYLLUQEN_REFUSED_BAD_COUNT, %WAYLLUQEN_REFUSED_BAD_MAPPING, %WAYLLUQEN_REFUSED_STALE_WORDS,
 * %WAYLLUQEN_REFUSED_BAD_RANGES, %WAYLLUQEN_REFUSED_UNALIGNED, %WAYLLUQEN_REFUSED_OUTSIDE_SPACE,
 * %WAYLLUQEN_REFUSED_RESERVED, %WAYLLUQEN_REFUSED_BAD_OBJECT, %WAYLLUQEN_REFUSED_BAD_OFFSET and
 * %WAYLLUQEN_REFUSED_NO_ROOM that applies; or %WAYLLUQEN_OK with the number of operations and the
 * count to go on with.
 */
waylluqen_answer waylluqen_bind(waylluqen_space space, const uint64_t *ranges, size_t range_words,
                                uint64_t range_count, uint64_t *table, size_t table_words,
                                uint64_t count, uint64_t *operations, size_t operation_words,
                                waylluqen_request request);

/**
 * waylluqen_bind_record() - map or unmap a range, or add or remove a sparse one, by a record
 * @space: the space
 * @ranges: its list of sparse ranges
 * @range_words: how many words the list has
 * @range_count: how many ranges the list has
 * @table: its table
 * @table_words: how many words the table has
 * @count: how many mappings the table has
 * @operations: where the operations are written to
 * @operation_words: how many words that are
 * @record: what is asked for, as a program handed it over; see &enum waylluqen_record_byte
 * @record_bytes: how many bytes that are
 *
 * With flags 0, does what waylluqen_bind() does for the request that the record holds.
 *
 * With %WAYLLUQEN_FLAG_SPARSE, a map puts the range into the list, in its place by its start. It
 * may touch ranges, which are not joined, but not overlap them; it may lie over mappings. An unmap
 * takes the range with exactly this start and size out of the list. As long as a mapping shares a
 * byte with it, it stays; a mapping that only touches it is not in the way. Words behind the list's
 * last range are zeros afterwards. There are no operations, no word of @table and @operations
 * changes, and the table's count stays; but all that is lent is checked as for any other request,
 * also that there are operation words enough. What a driver does on such a grant stands under
 * 'Sparse ranges'.
 *
 * The record is not written to. On a refusal no word of @ranges, @table and @operations has
 * changed.
 *
 * Returns: the first of %WAYLLUQEN_REFUSED_BAD_RECORD_LENGTH, %WAYLLUQEN_REFUSED_BAD_OP and
 * %WAYLLUQEN_REFUSED_BAD_FLAGS that applies; else, with flags 0, what waylluqen_bind() returns.
 * With %WAYLLUQEN_FLAG_SPARSE that too up to %WAYLLUQEN_REFUSED_BAD_OBJECT, and behind it
 * %WAYLLUQEN_REFUSED_RANGE_OVERLAPS, %WAYLLUQEN_REFUSED_NO_SUCH_RANGE and
 * %WAYLLUQEN_REFUSED_NO_ROOM; or %WAYLLUQEN_OK with the list's count to go on with.
 */
waylluqen_answer waylluqen_bind_record(waylluqen_space space, uint64_t *ranges, size_t range_words,
                                       uint64_t range_count, uint64_t *table, size_t table_words,
                                       uint64_t count, uint64_t *operations,
                                       size_t operation_words, const uint8_t *record,
                                       size_t record_bytes);

/**
 * waylluqen_bind_batch() - map and unmap by an array of records, all or none
 * @space: the space
 * @ranges: its list of sparse ranges
 * @range_words: how many words the list has
 * @range_count: how many ranges the list has
 * @table: its table
 * @table_words: how many words the table has
 * @count: how many mappings the table has
 * @work: a second table to work in, scratch: it may hold anything before the call
 * @work_words: how many words that are, exactly @table_words
 * @operations: where the operations are written to
 * @operation_words: how many words that are, WAYLLUQEN_OPERATION_LIST_WORDS() of the table's
 *     capacity or more; WAYLLUQEN_BATCH_LIST_WORDS() are always enough
 * @records: what is asked for, as a program handed it over: records, one right behind the other;
 *     see &enum waylluqen_record_byte
 * @record_bytes: how many bytes that are, WAYLLUQEN_BATCH_BYTES() of 0 to %WAYLLUQEN_MAX_BATCH
 *     requests
 *
 * The requests are asked for in the order of the array, each on the table that the ones before it
 * leave, and each does what waylluqen_bind_record() does for it with flags 0. Flags are not taken
 * here: a record with any, also %WAYLLUQEN_FLAG_SPARSE, is refused. The list of sparse ranges is
 * checked but not written to, and neither are the records.
 *
 * If all are granted, the batch is. Each request's operations stand behind those of the one before
 * it, the first one's at the front of @operations; the words behind the last operation are as they
 * were. They are carried out in this order. A map operation is the last one of its request, and an
 * unmap request has keep 0 everywhere, so that each keep 1 belongs to the next map operation behind
 * it. The table is what the last request leaves, and @work is zeros. With no records, on what is in
 * order, the batch is granted with no operations.
 *
 * There are two kinds of refusals, and the number tells them apart:
 *
 * - Of the batch itself: 12, 1 to 3, 15, 4, 5, 17 and 18, tested once, before any request. No lent
 *   word has changed. &waylluqen_answer.place is 0, but that of 5 is its mapping's.
 * - Of one of its requests, in its turn: 13, 14, 6 to 11 and 16. &waylluqen_answer.place is the
 *   request's place in the array, from 0; those before it would have been granted. The batch leaves
 *   nothing of them: no word of @table has changed, all words of @operations and all of @work are
 *   zeros, and there is nothing to carry out.
 *
 * 16 goes by the operations that a request has, so that an unmap of nothing never gets it.
 *
 * A granted batch leaves the same table as its records one by one by waylluqen_bind_record(), and as
 * shorter batches of them in the same order where all of these are granted.
 *
 * Returns: the first of %WAYLLUQEN_REFUSED_BAD_RECORD_LENGTH, %WAYLLUQEN_REFUSED_BAD_SPACE,
 * %WAYLLUQEN_REFUSED_BAD_TABLE_LENGTH, %WAYLLUQEN_REFUSED_SHORT_OPERATIONS,
 * %WAYLLUQEN_REFUSED_BAD_WORK_LENGTH, %WAYLLUQEN_REFUSED_BAD_COUNT, %WAYLLUQEN_REFUSED_BAD_MAPPING,
 * %WAYLLUQEN_REFUSED_STALE_WORDS and %WAYLLUQEN_REFUSED_BAD_RANGES that applies; else, of the first
 * request that is refused, the first of %WAYLLUQEN_REFUSED_BAD_OP, %WAYLLUQEN_REFUSED_BAD_FLAGS,
 * %WAYLLUQEN_REFUSED_UNALIGNED, %WAYLLUQEN_REFUSED_OUTSIDE_SPACE, %WAYLLUQEN_REFUSED_RESERVED,
 * %WAYLLUQEN_REFUSED_BAD_OBJECT, %WAYLLUQEN_REFUSED_BAD_OFFSET, %WAYLLUQEN_REFUSED_NO_ROOM and
 * %WAYLLUQEN_REFUSED_SHORT_OUTPUT that applies; or %WAYLLUQEN_OK with the number of all operations
 * and the count to go on with.
 */
waylluqen_answer waylluqen_bind_batch(waylluqen_space space, const uint64_t *ranges,
                                      size_t range_words, uint64_t range_count, uint64_t *table,
                                      size_t table_words, uint64_t count, uint64_t *work,
                                      size_t work_words, uint64_t *operations,
                                      size_t operation_words, const uint8_t *records,
                                      size_t record_bytes);

/**
 * waylluqen_lookup() - what the byte at an address shows, and how far that goes on
 * @space: the space
 * @ranges: its list of sparse ranges
 * @range_words: how many words the list has
 * @range_count: how many ranges the list has
 * @table: its table
 * @table_words: how many words the table has
 * @count: how many mappings the table has
 * @address: the address; any, also one outside the space
 *
 * An address inside a mapping shows the mapping's object at offset + (address - the mapping's
 * address). Any other is sparse if it is in a range of the list. Else it shows nothing, and that is
 * no refusal. Nothing is written.
 *
 * The answer goes on in the same way to the mapping's end, each byte with the next one of the
 * object, whatever the list says there. Off mappings it goes on to what comes first: the next
 * mapping's address, the start or the end of a sparse range, the space's end. A neighbour is not
 * counted in, also where it touches: a mapping that goes on with the same object, a sparse range
 * behind another one. A gap is not cut at the reservation. Outside the space the number of bytes is
 * 0.
 *
 * A range is walked with one look-up for each run of bytes::
 *
 *      waylluqen_translation run;
 *      for (uint64_t at = start; at < end; at += run.bytes) {
 *          run = waylluqen_lookup(space, ranges, range_words, range_count,
 *                                 table, table_words, count, at);
 *          if (run.bytes == 0) {
 *              break; // refused, or outside the space
 *          }
 *          switch (run.shown) { // in [at, at + run.bytes); the last run may go on behind the end
 *          case WAYLLUQEN_SHOWN_OBJECT:
 *              break; // run.object from run.offset on
 *          case WAYLLUQEN_SHOWN_SPARSE:
 *              break; // no object and no fault
 *          case WAYLLUQEN_SHOWN_NOTHING:
 *              break;
 *          }
 *      }
 *
 * Each of these look-ups checks the table and the list, with the words behind the last mapping and
 * the last range.
 *
 * Returns: the first of %WAYLLUQEN_REFUSED_BAD_SPACE, %WAYLLUQEN_REFUSED_BAD_TABLE_LENGTH,
 * %WAYLLUQEN_REFUSED_BAD_COUNT, %WAYLLUQEN_REFUSED_BAD_MAPPING, %WAYLLUQEN_REFUSED_STALE_WORDS and
 * %WAYLLUQEN_REFUSED_BAD_RANGES that applies; or %WAYLLUQEN_OK with what the address shows and for
 * how many bytes.
 */
waylluqen_translation waylluqen_lookup(waylluqen_space space, const uint64_t *ranges,
                                       size_t range_words, uint64_t range_count,
                                       const uint64_t *table, size_t table_words, uint64_t count,
                                       uint64_t address);

/**
 * waylluqen_check_request() - what is wrong with a request, whatever the table and the list
 * @record: the request, as a program handed it over; see &enum waylluqen_record_byte
 * @record_bytes: how many bytes that are
 * @start: as in &waylluqen_space
 * @size: as in &waylluqen_space
 * @reserved_start: as in &waylluqen_space
 * @reserved_size: as in &waylluqen_space
 *
 * For a driver that turns a bad request down before it takes any lock. Nothing is written.
 *
 * Returns: the first of %WAYLLUQEN_REFUSED_BAD_RECORD_LENGTH, %WAYLLUQEN_REFUSED_BAD_OP,
 * %WAYLLUQEN_REFUSED_BAD_FLAGS, %WAYLLUQEN_REFUSED_BAD_SPACE, %WAYLLUQEN_REFUSED_UNALIGNED,
 * %WAYLLUQEN_REFUSED_OUTSIDE_SPACE, %WAYLLUQEN_REFUSED_RESERVED, %WAYLLUQEN_REFUSED_BAD_OBJECT
 * and %WAYLLUQEN_REFUSED_BAD_OFFSET that applies, or %WAYLLUQEN_OK.
 */
uint32_t waylluqen_check_request(const uint8_t *record, size_t record_bytes, uint64_t start,
                                 uint64_t size, uint64_t reserved_start, uint64_t reserved_size);

/**
 * waylluqen_page_entries() - the page entries that cover a mapping, as few as can be
 * @mapping: the mapping
 * @entries: where the entries are written to
 * @entry_words: how many words that are; WAYLLUQEN_ENTRY_LIST_WORDS() of the mapping's size are
 *     always enough
 *
 * An entry is for one page of 4 KiB, 2 MiB or 1 GiB, and its address and its offset are multiples
 * of that size. The entries ascend, and cover each byte of the mapping once and none outside. Each
 * byte shows what the mapping shows there: an entry's offset less its address is the mapping's. No
 * such list is shorter. It goes by address, size and offset alone; the object only has to keep its
 * rule.
 *
 * ::
 *
 *      mapping   address 0x1fe000, size 0x403000, offset 0x7fe000
 *
 *      entries   address   offset    size
 *                0x1fe000  0x7fe000  0x1000
 *                0x1ff000  0x7ff000  0x1000
 *                0x200000  0x800000  0x200000
 *                0x400000  0xa00000  0x200000
 *                0x600000  0xc00000  0x1000
 *
 * The mapping's rules are those of &enum waylluqen_mapping_word in a space from 0 to
 * %WAYLLUQEN_LIMIT with nothing reserved; that it is in a table is not asked.
 *
 * On a grant the entries stand at the front of @entries, and the words behind them are as they
 * were. On a refusal no word has changed. How many entries there are is found without making them,
 * so that a refusal is quick, also for a mapping that has nearly 2^36 of them.
 *
 * Returns: the first of %WAYLLUQEN_REFUSED_BAD_MAPPING and %WAYLLUQEN_REFUSED_SHORT_OUTPUT that
 * applies; or %WAYLLUQEN_OK with the number of entries.
 */
waylluqen_pages waylluqen_page_entries(waylluqen_mapping mapping, uint64_t *entries,
                                       size_t entry_words);

#endif /* WAYLLUQEN_LAYOUTS_ONLY */

#ifdef __cplusplus
}
#endif

#endif
