/* A packing station: reads a table of each kind as a linker made it, writes it
 * again and holds the two against each other byte for byte. A linker may pad a
 * number, so its table is read lax; what the station wrote is read strictly, as a
 * customer does who signs tables. Each buffer has the room that the call asked for. */
#include "reloc.h"

#include <inttypes.h>
#include <stdio.h>
#include <stdlib.h>
#include <string.h>

/* Says what a call answered. */
static void say(const char *kind, struct reloc_answer answer)
{
    printf("%s: %" PRIu32 " %s at %" PRIu64 "\n", kind, answer.number, reloc_name(answer.number),
           answer.place);
}

/* Says why a call refused, and ends the program. */
static void refused(const char *kind, struct reloc_answer answer)
{
    say(kind, answer);
    exit(1);
}

/* The room that a call needs, by its answer to none: it needs none, or says how much. */
static size_t need(const char *kind, struct reloc_answer answer)
{
    if (answer.number != RELOC_OK && answer.number != RELOC_REFUSED_ROOM) {
        refused(kind, answer);
    }
    return (size_t)answer.count;
}

/* A buffer of that room, which may be 0. */
static void *buffer(size_t count, size_t size)
{
    void *made = calloc(count > 0 ? count : 1, size);
    if (made == NULL) {
        printf("no memory\n");
        exit(1);
    }
    return made;
}

/* A call with the room that it asked for succeeds, and fills it. */
static void done(const char *kind, struct reloc_answer answer, size_t room)
{
    if (answer.number != RELOC_OK) {
        refused(kind, answer);
    }
    if (answer.count != room) {
        printf("%s: not the room needed\n", kind);
        exit(1);
    }
}

/* Holds what was written against the table that was read: it is the same or, where
 * the linker's was not the shortest, shorter. */
static void compare(const char *kind, size_t records, uint8_t *written, size_t bytes,
                    const uint8_t *table, size_t table_len)
{
    printf("%s: %zu records, %zu bytes, ", kind, records, table_len);
    if (bytes < table_len) {
        printf("%zu when written again\n", bytes);
    } else if (bytes == table_len && (bytes == 0 || memcmp(written, table, bytes) == 0)) {
        printf("the same when written again\n");
    } else {
        printf("other bytes when written again\n");
        exit(1);
    }
    free(written);
}

static void relr(const char *kind, uint32_t class_, bool big, const uint8_t *table,
                 size_t table_len)
{
    size_t n = need(kind, reloc_relr_read(class_, big, table, table_len, NULL, 0));
    uint64_t *offsets = (uint64_t *)buffer(n, sizeof *offsets);
    done(kind, reloc_relr_read(class_, big, table, table_len, offsets, n), n);
    size_t bytes = need(kind, reloc_relr_write(class_, big, offsets, n, NULL, 0));
    uint8_t *written = (uint8_t *)buffer(bytes, 1);
    done(kind, reloc_relr_write(class_, big, offsets, n, written, bytes), bytes);
    compare(kind, n, written, bytes, table, table_len);
    free(offsets);
}

static void apr1(const char *kind, const uint8_t *table, size_t table_len)
{
    size_t n = need(kind, reloc_apr1_read(false, table, table_len, NULL, 0));
    uint64_t *offsets = (uint64_t *)buffer(n, sizeof *offsets);
    done(kind, reloc_apr1_read(false, table, table_len, offsets, n), n);
    size_t bytes = need(kind, reloc_apr1_write(offsets, n, NULL, 0));
    uint8_t *written = (uint8_t *)buffer(bytes, 1);
    done(kind, reloc_apr1_write(offsets, n, written, bytes), bytes);
    done(kind, reloc_apr1_read(true, written, bytes, offsets, n), n);
    compare(kind, n, written, bytes, table, table_len);
    free(offsets);
}

static void apa1(const char *kind, const uint8_t *table, size_t table_len)
{
    size_t n = need(kind, reloc_apa1_read(false, table, table_len, NULL, 0, NULL, 0));
    uint64_t *offsets = (uint64_t *)buffer(n, sizeof *offsets);
    int64_t *addends = (int64_t *)buffer(n, sizeof *addends);
    done(kind, reloc_apa1_read(false, table, table_len, offsets, n, addends, n), n);
    size_t bytes = need(kind, reloc_apa1_write(offsets, n, addends, n, NULL, 0));
    uint8_t *written = (uint8_t *)buffer(bytes, 1);
    done(kind, reloc_apa1_write(offsets, n, addends, n, written, bytes), bytes);
    done(kind, reloc_apa1_read(true, written, bytes, offsets, n, addends, n), n);
    compare(kind, n, written, bytes, table, table_len);
    free(offsets);
    free(addends);
}

static void relleb(const char *kind, uint32_t class_, const uint8_t *table, size_t table_len)
{
    size_t n = need(kind, reloc_relleb_read(class_, false, table, table_len, NULL, 0, NULL, 0,
                                            NULL, 0, NULL, 0));
    uint64_t *offsets = (uint64_t *)buffer(n, sizeof *offsets);
    uint32_t *types = (uint32_t *)buffer(n, sizeof *types);
    uint32_t *symbols = (uint32_t *)buffer(n, sizeof *symbols);
    int64_t *addends = (int64_t *)buffer(n, sizeof *addends);
    done(kind, reloc_relleb_read(class_, false, table, table_len, offsets, n, types, n, symbols, n,
                                 addends, n), n);
    size_t bytes = need(kind, reloc_relleb_write(class_, offsets, n, types, n, symbols, n,
                                                 addends, n, NULL, 0));
    uint8_t *written = (uint8_t *)buffer(bytes, 1);
    done(kind, reloc_relleb_write(class_, offsets, n, types, n, symbols, n, addends, n, written,
                                  bytes), bytes);
    done(kind, reloc_relleb_read(class_, true, written, bytes, offsets, n, types, n, symbols, n,
                                 addends, n), n);
    compare(kind, n, written, bytes, table, table_len);
    free(offsets);
    free(types);
    free(symbols);
    free(addends);
}

int main(void)
{
    /* 0x100, 0x17C: an address and a bitmap. */
    static const uint8_t relr32[] = {0x00, 0x01, 0x00, 0x00, 0x01, 0x00, 0x00, 0x80};
    /* The same, high byte first. */
    static const uint8_t relr32_big[] = {0x00, 0x00, 0x01, 0x00, 0x80, 0x00, 0x00, 0x01};
    /* 0x2000, 0x2008, 0x2010, 0x2018: an address and a bitmap. */
    static const uint8_t relr64[] = {0x00, 0x20, 0, 0, 0, 0, 0, 0, 0x0F, 0, 0, 0, 0, 0, 0, 0};
    /* 0x1000, 0x1004, 0x1008, 0x1010: gaps 4, 4, 8. */
    static const uint8_t runs[] = {'A', 'P', 'R', '1', 2, 0x80, 0x20, 2, 4, 1, 8};
    /* (0x1000, 16), (0x1008, 24). */
    static const uint8_t pairs[] = {'A', 'P', 'A', '1', 2, 0x80, 0x20, 0x10, 8, 8};
    /* The same, with 0x1000 in three bytes, where two will do. */
    static const uint8_t padded[] = {'A', 'P', 'A', '1', 2, 0x80, 0xA0, 0x00, 0x10, 8, 8};
    /* (16, 257, 3, -4), (24, 257, 3, -4): offset, type, symbol, addend. */
    static const uint8_t records[] = {2, 0x10, 0x81, 0x02, 0x7C, 0x7C, 8, 0, 3};
    /* No pair, no record. */
    static const uint8_t no_pairs[] = {'A', 'P', 'A', '1', 0};
    static const uint8_t no_records[] = {0};

    if (reloc_version() != RELOC_VERSION) {
        printf("header %" PRIu32 ", library %" PRIu32 "\n", RELOC_VERSION, reloc_version());
        return 1;
    }
    printf("reloc " RELOC_VERSION_TEXT "\n");
    relr("relr32", 4, false, relr32, sizeof relr32);
    relr("relr32, big-endian", 4, true, relr32_big, sizeof relr32_big);
    relr("relr64", 8, false, relr64, sizeof relr64);
    relr("relr64, empty", 8, false, NULL, 0);
    apr1("apr1", runs, sizeof runs);
    apa1("apa1", pairs, sizeof pairs);
    apa1("apa1, padded", padded, sizeof padded);
    say("apa1, padded, read strictly",
        reloc_apa1_read(true, padded, sizeof padded, NULL, 0, NULL, 0));
    apa1("apa1, empty", no_pairs, sizeof no_pairs);
    relleb("relleb32", 4, records, sizeof records);
    relleb("relleb64", 8, records, sizeof records);
    relleb("relleb64, empty", 8, no_records, sizeof no_records);
    return 0;
}
