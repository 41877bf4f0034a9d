/*
 * reloc: packed relocation tables, read, written and applied.
 *
 * Calls over four kinds of table:
 *
 *   RELR    offsets of words, as addresses and bitmaps  class 4 or 8; byte order
 *   APR1    32-bit offsets, as runs of equal gaps       no class; lax or strict
 *   APA1    64-bit offsets with addends                 no class; lax or strict
 *   RELLEB  offset, type, symbol index and addend       class 4 or 8; lax or strict
 *
 * The class (argument class_, for C++'s sake) is the size of a word in bytes; W,
 * the word's width, is 32 or 64 bits. The byte order (argument big) is that of
 * RELR's words, in the table and in the image alike: false is low byte first
 * (little-endian), true is high byte first (big-endian). Both are accepted, so no
 * refusal speaks of it. The other kinds hold no words, only LEB128 numbers, and
 * take no byte order.
 *
 * The setting (argument strict) is that of a call that reads LEB128 numbers: false
 * is lax, where a number may be padded; true is strict, where a number longer than
 * its shortest form is refused, and a RELLEB addend difference of zero too. Both
 * are accepted, so no refusal speaks of the setting itself. A table that is
 * accepted strictly is read as the same list lax; every table of these kinds that
 * the library writes is accepted strictly. A table of APA1, or of RELLEB in a class,
 * that is accepted strictly and has at most RELOC_LIST_LIMIT records is the one that
 * the library writes of its list: two such tables of equal lists have equal bytes.
 * Not so of APR1, where a run can be split, nor of RELR, to which an empty bitmap
 * can be added.
 *
 * A buffer is passed as a pointer and a count of elements: bytes for a table or
 * an image, entries for a column. A buffer reached through a pointer to const is
 * only read. The entries of a record stand at one index of each column; columns
 * of one call have one length.
 *
 * What every call promises, whatever the class, the byte order, the setting, the
 * base, the start and the contents and lengths of its buffers
 *
 *   It returns, with an answer (see struct reloc_answer). On success it changes
 *   what its comment says and leaves the rest of every buffer as it was. On a
 *   refusal it changes nothing: every byte of every buffer is as it was.
 *
 *   A call gives one refusal. Its comment lists those it can give (their names
 *   without RELOC_REFUSED_), in the order in which they are looked for; those in
 *   braces are found along the table or list, and the first fault met there is
 *   given.
 *
 * What the library is
 *
 *   libreloc.a is for x86-64 Linux. It is code alone: no data and no bss, so no
 *   state; no undefined symbol, so no heap and no C library. Every call is
 *   re-entrant, and calls may run at once on buffers of their own. A call takes
 *   at most RELOC_STACK_LIMIT bytes of stack, with its return address and the red
 *   zone of the x86-64 ABI: an interrupt handler that runs on the same stack must
 *   leave the 128 bytes below the stack pointer alone.
 *
 * What the caller owes; no call checks it, and a call that is not given it
 * promises nothing
 *
 *   - Each pointer is aligned for its type and valid for its count of elements:
 *     for reading, and where the call may write, also for writing.
 *   - No buffer that the call may write overlaps another buffer of the call.
 *   - While the call runs, no other thread writes to any of its buffers or reads
 *     one that the call may write.
 *
 *   The library does not dereference the pointer of a buffer whose count is 0;
 *   such a pointer may be any non-null pointer aligned for its type, and it may
 *   be NULL.
 *
 * How to size a buffer
 *
 *   A read or a write that is lent no room changes nothing and tells what it
 *   needs, in records or bytes. It answers RELOC_REFUSED_ROOM with the need or,
 *   where it needs none (an empty list that is read, or written as RELR), RELOC_OK
 *   with 0. So count is the need in both:
 *
 *     struct reloc_answer need = reloc_relr_write(8, false, offsets, n, NULL, 0);
 *     if (need.number != RELOC_OK && need.number != RELOC_REFUSED_ROOM)
 *         return need.number;          refused, whatever the room
 *     size_t room = (size_t)need.count;
 *
 *   The room may be 0: then NULL will do for the buffer, and what malloc(0) gives.
 *   The need of reloc_apr1_read may be far above any memory, and a column for
 *   reloc_relr_read 63 times as long as the table; compare it with what there is.
 */
#ifndef RELOC_H
#define RELOC_H

#include <stdbool.h>
#include <stddef.h>
#include <stdint.h>

#ifdef __cplusplus
extern "C" {
#endif

/* A call whose answer is not looked at gets a warning, where the compiler can. */
#if (defined(__cplusplus) && __cplusplus >= 201703L) || \
    (defined(__STDC_VERSION__) && __STDC_VERSION__ >= 202311L)
#define RELOC_NODISCARD [[nodiscard]]
#elif defined(__GNUC__)
#define RELOC_NODISCARD __attribute__((warn_unused_result))
#else
#define RELOC_NODISCARD
#endif

/*
 * The version of this header: major * 1000000 + minor * 1000 + patch, and as text.
 * Minor is raised when a call's arguments or answers or a name here change, as
 * CHANGELOG.md tells. A program built with another header than the library's sees
 * it:
 *
 *     if (reloc_version() != RELOC_VERSION) the header is not the library's
 */
#define RELOC_VERSION 7001u
#define RELOC_VERSION_TEXT "0.7.1"

/* The version of the library, as RELOC_VERSION. */
RELOC_NODISCARD
uint32_t reloc_version(void);

/* The most bytes of stack that a call takes. */
#define RELOC_STACK_LIMIT 512

/* The longest table that is read or applied, in bytes. */
#define RELOC_INPUT_LIMIT 134217728

/* The longest list that is written, in records. */
#define RELOC_LIST_LIMIT 4194304

/*
 * What a call answers.
 *
 *   success: number and place are 0; count is the records read, the bytes
 *            written or the additions made.
 *   refusal: number says why (enum reloc_number), place says where; count is 0,
 *            except that RELOC_REFUSED_ROOM gives the records or bytes needed.
 */
struct reloc_answer {
    uint32_t number;
    uint64_t place;
    uint64_t count;
};

/*
 * The numbers of an answer: success, and the refusals. A place other than 0 is a
 * byte of the table where a table is read or applied (but see
 * RELOC_REFUSED_OUTSIDE), and an index in the list where a list is written. No call
 * answers 16 or 17.
 */
enum reloc_number {
    RELOC_OK = 0,                 /* success; place 0 */
    RELOC_REFUSED_CLASS = 1,      /* the class is not 4 or 8; place 0 */
    RELOC_REFUSED_LIMIT = 2,      /* table or list over its limit; place 0 */
    RELOC_REFUSED_IDENTIFIER = 3, /* the table does not start with its identifier;
                                     place 0 */
    RELOC_REFUSED_MISSING = 4,    /* the table ends early, or a RELR table is not
                                     whole words; place is the table's length */
    RELOC_REFUSED_WIDTH = 5,      /* a number outside its width; place is its last
                                     allowed byte, the first byte plus 4 at the
                                     widths 32 and 33, plus 9 at 64. Or a negative
                                     count; place is its first byte */
    RELOC_REFUSED_ORDER = 6,      /* read, apply: a RELR bitmap before any address;
                                     place is the word's first byte. Write: an
                                     offset equal to or below the one before; place
                                     is its index */
    RELOC_REFUSED_SPACE = 7,      /* an offset outside the address space; place is
                                     the first byte of the RELR word, of APR1's A or
                                     C, or the index in the list */
    RELOC_REFUSED_TRAILING = 8,   /* bytes after the last record; place is the first */
    RELOC_REFUSED_ROOM = 9,       /* too little room; place 0, count is what is
                                     needed */
    RELOC_REFUSED_ODD = 10,       /* RELR write: an odd offset; place is its index */
    RELOC_REFUSED_COLUMNS = 11,   /* columns of different lengths; place 0 */
    RELOC_REFUSED_OUTSIDE = 12,   /* apply: a word does not lie inside the image: its
                                     offset is below the start, or it ends beyond the
                                     image; place is the index in the list that the
                                     table decodes to */
    RELOC_REFUSED_EMPTY = 13,     /* APR1 write: an empty list; place 0 */
    RELOC_REFUSED_ADDEND = 14,    /* RELLEB class 4 write: an addend outside signed
                                     32 bits; place is its index */
    RELOC_REFUSED_BASE = 15,      /* apply, class 4: a base above 2^32 - 1; place 0 */
    RELOC_REFUSED_PADDED = 18,    /* strict read: a number longer than its shortest
                                     form; place is its first byte */
    RELOC_REFUSED_ZERO = 19       /* strict RELLEB read: an addend difference of
                                     zero; place is its first byte */
};

/* The name of an answer's number, for a log. */
static inline const char *reloc_name(uint32_t number)
{
    switch (number) {
    case RELOC_OK: return "RELOC_OK";
    case RELOC_REFUSED_CLASS: return "RELOC_REFUSED_CLASS";
    case RELOC_REFUSED_LIMIT: return "RELOC_REFUSED_LIMIT";
    case RELOC_REFUSED_IDENTIFIER: return "RELOC_REFUSED_IDENTIFIER";
    case RELOC_REFUSED_MISSING: return "RELOC_REFUSED_MISSING";
    case RELOC_REFUSED_WIDTH: return "RELOC_REFUSED_WIDTH";
    case RELOC_REFUSED_ORDER: return "RELOC_REFUSED_ORDER";
    case RELOC_REFUSED_SPACE: return "RELOC_REFUSED_SPACE";
    case RELOC_REFUSED_TRAILING: return "RELOC_REFUSED_TRAILING";
    case RELOC_REFUSED_ROOM: return "RELOC_REFUSED_ROOM";
    case RELOC_REFUSED_ODD: return "RELOC_REFUSED_ODD";
    case RELOC_REFUSED_COLUMNS: return "RELOC_REFUSED_COLUMNS";
    case RELOC_REFUSED_OUTSIDE: return "RELOC_REFUSED_OUTSIDE";
    case RELOC_REFUSED_EMPTY: return "RELOC_REFUSED_EMPTY";
    case RELOC_REFUSED_ADDEND: return "RELOC_REFUSED_ADDEND";
    case RELOC_REFUSED_BASE: return "RELOC_REFUSED_BASE";
    case RELOC_REFUSED_PADDED: return "RELOC_REFUSED_PADDED";
    case RELOC_REFUSED_ZERO: return "RELOC_REFUSED_ZERO";
    default: return "unknown";
    }
}

/*
 * Reads a RELR table, whose words have the byte order big, into offsets.
 *
 * Changes the first count entries of offsets. count: offsets read. Offsets may
 * repeat or go back. An empty table is the empty list.
 *
 * Refuses: CLASS, LIMIT, MISSING (not whole words), { ORDER, SPACE }, ROOM.
 * SPACE: offset + class is above 2^W.
 */
RELOC_NODISCARD
struct reloc_answer reloc_relr_read(uint32_t class_, bool big, const uint8_t *table,
                                    size_t table_len, uint64_t *offsets, size_t offsets_len);

/*
 * Writes a strictly increasing list of even offsets as a RELR table, whose words
 * have the byte order big.
 *
 * Changes the first count bytes of table. count: bytes written, the fewest of
 * any table that reloc_relr_read accepts for the class and the byte order and
 * reads as this list; they are as many in both byte orders.
 *
 * Refuses: CLASS, LIMIT, { ODD, SPACE, ORDER, in this order at one index }, ROOM.
 * SPACE: offset + class is above 2^W. ROOM: table_len is below that fewest number
 * of bytes; count is then that number.
 */
RELOC_NODISCARD
struct reloc_answer reloc_relr_write(uint32_t class_, bool big, const uint64_t *offsets,
                                     size_t offsets_len, uint8_t *table, size_t table_len);

/*
 * Applies a RELR table: adds base to the image's word at each offset of the
 * table, in order, wrapping at W bits. The byte order big is that of the table's
 * words and of the image's.
 *
 * start is the address of the image's first byte, as the table counts addresses:
 * the one that the module's first segment is linked at, such as 0x1000. An offset
 * minus start is an index into the image; where start is 0 the offset is the
 * index. The word at an offset lies inside the image exactly when
 *
 *     start <= offset  and  offset - start + class_ <= image_len
 *
 * as whole numbers. start is any number, also one past the class's address space,
 * and start + image_len may pass 2^64: nothing wraps, and a table of no offsets is
 * accepted with every start.
 *
 * Changes the words at those offsets; other words of the image may be written with
 * the value that they have. count: additions made.
 *
 * A module that moves: where no two words of the table overlap in part, to apply
 * base a and then base b leaves what their sum modulo 2^W leaves at once. So an
 * image that was applied at a is applied at b by the base b - a modulo 2^W, in
 * class 4 (uint32_t)(b - a).
 *
 * Refuses: CLASS, BASE, LIMIT, MISSING (not whole words), { ORDER, SPACE },
 * OUTSIDE. OUTSIDE: a word does not lie inside the image; place is the index of the
 * first such offset, whichever end it passes. Every offset is tried against the
 * image before any word is changed.
 */
RELOC_NODISCARD
struct reloc_answer reloc_relr_apply(uint32_t class_, bool big, const uint8_t *table,
                                     size_t table_len, uint64_t base, uint64_t start,
                                     uint8_t *image, size_t image_len);

/*
 * Reads an APR1 table: the identifier, N, the first offset A, then N pairs C, D,
 * where each pair adds D and gives an offset, C times.
 *
 * Changes the first count entries of offsets. count: offsets read.
 *
 * Strict reading is about each number's own bytes: two tables that it accepts can
 * still give one list, since a run of equal gaps may be split in two pairs, and a
 * pair with C = 0 gives no offset.
 *
 * Refuses: LIMIT, IDENTIFIER, { MISSING, WIDTH, PADDED, in this order for one
 * number; SPACE, once A, or a pair's C and D, are read }, TRAILING, ROOM. PADDED:
 * strict only. SPACE: an offset is above 2^32 - 4; place is the first byte of A or,
 * for an offset of a pair, of that pair's C. ROOM's count may be far above any limit.
 */
RELOC_NODISCARD
struct reloc_answer reloc_apr1_read(bool strict, const uint8_t *table, size_t table_len,
                                    uint64_t *offsets, size_t offsets_len);

/*
 * Writes a strictly increasing list of at least one offset as an APR1 table, one
 * pair for each longest run of equal gaps.
 *
 * Changes the first count bytes of table. count: bytes written.
 *
 * Refuses: LIMIT, EMPTY, { SPACE, ORDER, in this order at one index }, ROOM.
 * SPACE: an offset is above 2^32 - 4.
 */
RELOC_NODISCARD
struct reloc_answer reloc_apr1_write(const uint64_t *offsets, size_t offsets_len, uint8_t *table,
                                     size_t table_len);

/*
 * Reads an APA1 table: the identifier, a count, and that many pairs of offset
 * difference and addend difference. Both sums wrap at 64 bits.
 *
 * Changes the first count entries of offsets and addends. count: records read.
 *
 * Refuses: COLUMNS, LIMIT, IDENTIFIER, { MISSING, WIDTH, PADDED, in this order for
 * one number }, TRAILING, ROOM. WIDTH: also a negative count, padded or not.
 * PADDED: strict only.
 */
RELOC_NODISCARD
struct reloc_answer reloc_apa1_read(bool strict, const uint8_t *table, size_t table_len,
                                    uint64_t *offsets, size_t offsets_len, int64_t *addends,
                                    size_t addends_len);

/*
 * Writes offsets with addends, in any order, as an APA1 table.
 *
 * Changes the first count bytes of table. count: bytes written.
 *
 * Refuses: COLUMNS, LIMIT, ROOM.
 */
RELOC_NODISCARD
struct reloc_answer reloc_apa1_write(const uint64_t *offsets, size_t offsets_len,
                                     const int64_t *addends, size_t addends_len, uint8_t *table,
                                     size_t table_len);

/*
 * Reads a RELLEB table: a count and that many records of differences. Offset and
 * addend sums wrap at W bits, type sums at 32; addends are signed.
 *
 * Changes the first count entries of the four columns. count: records read.
 *
 * Refuses: CLASS, COLUMNS, LIMIT, { MISSING, WIDTH, PADDED, ZERO, in this order for
 * one number }, TRAILING, ROOM. PADDED, ZERO: strict only. ZERO: an addend
 * difference of zero in its shortest form; a padded one is PADDED.
 */
RELOC_NODISCARD
struct reloc_answer reloc_relleb_read(uint32_t class_, bool strict, const uint8_t *table,
                                      size_t table_len, uint64_t *offsets, size_t offsets_len,
                                      uint32_t *types, size_t types_len, uint32_t *symbols,
                                      size_t symbols_len, int64_t *addends, size_t addends_len);

/*
 * Writes records, in any order, as a RELLEB table.
 *
 * Changes the first count bytes of table. count: bytes written.
 *
 * Refuses: CLASS, COLUMNS, LIMIT, { SPACE, ADDEND, in this order at one index;
 * class 4 only }, ROOM. SPACE: an offset is above 2^32 - 1.
 */
RELOC_NODISCARD
struct reloc_answer reloc_relleb_write(uint32_t class_, const uint64_t *offsets,
                                       size_t offsets_len, const uint32_t *types, size_t types_len,
                                       const uint32_t *symbols, size_t symbols_len,
                                       const int64_t *addends, size_t addends_len, uint8_t *table,
                                       size_t table_len);

#ifdef __cplusplus
}
#endif

#endif
