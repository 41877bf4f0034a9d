/* Holds include/reloc.h to the library: its version, each number with its name,
 * the byte order, the strict setting, and the limits. A number is held by a call
 * that must be refused with it, a limit by calls at it and one over it. */
#include "reloc.h"

#include <inttypes.h>
#include <stdio.h>
#include <stdlib.h>
#include <string.h>

static int wrong;

static void check(const char *what, int holds)
{
    if (!holds) {
        printf("header: %s\n", what);
        wrong = 1;
    }
}

/* The answer has the number, and the number its name. */
static void expect(uint32_t number, const char *name, struct reloc_answer answer)
{
    check(name, answer.number == number && strcmp(reloc_name(number), name) == 0);
}
#define EXPECT(number, call) expect(number, #number, call)

static void version(void)
{
    char text[32];
    uint32_t number = reloc_version();
    snprintf(text, sizeof text, "%" PRIu32 ".%" PRIu32 ".%" PRIu32, number / 1000000,
             number / 1000 % 1000, number % 1000);
    check("RELOC_VERSION", number == RELOC_VERSION);
    check("RELOC_VERSION_TEXT", strcmp(text, RELOC_VERSION_TEXT) == 0);
}

/* Each number by a call that gives it; LIMIT is in limits. */
static void numbers(void)
{
    static const uint8_t bitmap[] = {1, 0, 0, 0};
    static const uint8_t high[] = {0xFE, 0xFF, 0xFF, 0xFF};
    static const uint8_t long_count[] = {0x80, 0x80, 0x80, 0x80, 0x80, 0x80, 0x80, 0x80, 0x80, 2};
    static const uint8_t word[8] = {0}, padded[] = {0x80, 0}, no_change[] = {1, 0, 0, 0x7F, 0};
    static const uint64_t falling[] = {8, 4}, odd[] = {1};
    static const int64_t wide[] = {INT64_C(1) << 31};
    static const uint32_t zero[] = {0};
    uint64_t offset[1];
    uint8_t image[4] = {0};

    EXPECT(RELOC_OK, reloc_relr_read(8, false, NULL, 0, NULL, 0));
    EXPECT(RELOC_REFUSED_CLASS, reloc_relr_read(5, false, NULL, 0, NULL, 0));
    EXPECT(RELOC_REFUSED_IDENTIFIER, reloc_apr1_read(false, bitmap, 4, NULL, 0));
    EXPECT(RELOC_REFUSED_MISSING, reloc_relr_read(8, false, bitmap, 4, NULL, 0));
    EXPECT(RELOC_REFUSED_WIDTH,
           reloc_relleb_read(8, false, long_count, 10, NULL, 0, NULL, 0, NULL, 0, NULL, 0));
    EXPECT(RELOC_REFUSED_ORDER, reloc_relr_read(4, false, bitmap, 4, NULL, 0));
    EXPECT(RELOC_REFUSED_ORDER, reloc_apr1_write(falling, 2, NULL, 0));
    EXPECT(RELOC_REFUSED_SPACE, reloc_relr_read(4, false, high, 4, NULL, 0));
    EXPECT(RELOC_REFUSED_TRAILING,
           reloc_relleb_read(8, false, word, 8, NULL, 0, NULL, 0, NULL, 0, NULL, 0));
    EXPECT(RELOC_REFUSED_ROOM, reloc_relr_read(8, false, word, 8, NULL, 0));
    EXPECT(RELOC_REFUSED_ODD, reloc_relr_write(8, false, odd, 1, NULL, 0));
    EXPECT(RELOC_REFUSED_COLUMNS, reloc_apa1_read(false, NULL, 0, offset, 1, NULL, 0));
    EXPECT(RELOC_REFUSED_OUTSIDE, reloc_relr_apply(8, false, word, 8, 0, 0, image, 4));
    EXPECT(RELOC_REFUSED_OUTSIDE, reloc_relr_apply(4, false, word, 4, 0, 1, image, 4));
    EXPECT(RELOC_OK, reloc_relr_apply(4, false, word, 4, 0, 0, image, 4));
    EXPECT(RELOC_OK, reloc_relr_apply(4, false, NULL, 0, 0, UINT64_MAX, NULL, 0));
    EXPECT(RELOC_REFUSED_EMPTY, reloc_apr1_write(NULL, 0, NULL, 0));
    EXPECT(RELOC_REFUSED_ADDEND, reloc_relleb_write(4, odd, 1, zero, 1, zero, 1, wide, 1, NULL, 0));
    EXPECT(RELOC_REFUSED_BASE, reloc_relr_apply(4, false, NULL, 0, UINT64_C(1) << 32, 0, NULL, 0));
    EXPECT(RELOC_REFUSED_PADDED,
           reloc_relleb_read(8, true, padded, 2, NULL, 0, NULL, 0, NULL, 0, NULL, 0));
    EXPECT(RELOC_REFUSED_ZERO,
           reloc_relleb_read(8, true, no_change, 5, NULL, 0, NULL, 0, NULL, 0, NULL, 0));
    check("numbers without a name", strcmp(reloc_name(16), "unknown") == 0 &&
                                        strcmp(reloc_name(17), "unknown") == 0 &&
                                        strcmp(reloc_name(20), "unknown") == 0);
}

/* 0x100, 0x17C is this table in the byte order; 1 added to 00 00 00 FF gives these
 * bytes. */
static void order(bool big, const uint8_t *table, const uint8_t *carried)
{
    static const uint64_t list[] = {0x100, 0x17C};
    uint8_t written[8], image[4] = {0, 0, 0, 0xFF};
    uint64_t offsets[2];

    check("written", reloc_relr_write(4, big, list, 2, written, 8).count == 8 &&
                         memcmp(written, table, 8) == 0);
    check("read", reloc_relr_read(4, big, table, 8, offsets, 2).count == 2 &&
                      memcmp(offsets, list, sizeof list) == 0);
    check("applied", reloc_relr_apply(4, big, table, 4, 1, 0x100, image, 4).count == 1 &&
                         memcmp(image, carried, 4) == 0);
    check("the other order", reloc_relr_read(4, !big, table, 8, offsets, 2).count == 2 &&
                                 offsets[0] == 0x10000 && offsets[1] == 0x1000080);
}

static void orders(void)
{
    static const uint8_t little[] = {0, 1, 0, 0, 1, 0, 0, 0x80}, low_first[] = {1, 0, 0, 0xFF};
    static const uint8_t big[] = {0, 0, 1, 0, 0x80, 0, 0, 1}, high_first[] = {0, 0, 1, 0};
    order(false, little, low_first);
    order(true, big, high_first);
}

/* Of the two settings: lax a record is read, strict the table is refused with this
 * number at this place. */
static void setting(const char *what, const struct reloc_answer answer[2], uint32_t number,
                    uint64_t place)
{
    check(what, answer[0].number == RELOC_OK && answer[0].count == 1 &&
                    answer[1].number == number && answer[1].place == place &&
                    answer[1].count == 0);
}

/* Tables with a padded number, or an addend difference of zero; and one without,
 * which both settings read. */
static void settings(void)
{
    /* 624485 in five bytes, and in three. */
    static const uint8_t offset[] = {'A', 'P', 'R', '1', 0, 0xE5, 0x8E, 0xA6, 0x80, 0x00};
    static const uint8_t shortest[] = {'A', 'P', 'R', '1', 0, 0xE5, 0x8E, 0x26};
    /* An addend difference of -1 in two bytes. */
    static const uint8_t addend[] = {'A', 'P', 'A', '1', 1, 0, 0xFF, 0x7F};
    /* A symbol field of -4 in two bytes; an addend difference of zero, in two and in one. */
    static const uint8_t field[] = {1, 0, 0, 0xFC, 0x7F, 1};
    static const uint8_t long_zero[] = {1, 0, 0, 0x7F, 0x80, 0};
    static const uint8_t zero[] = {1, 0, 0, 0x7F, 0};
    struct reloc_answer apr1[2], same[2], apa1[2], relleb[3][2];
    uint64_t o[1];
    uint32_t t[1], s[1];
    int64_t a[1];

    for (int strict = 0; strict < 2; strict++) {
        apr1[strict] = reloc_apr1_read(strict, offset, sizeof offset, o, 1);
        same[strict] = reloc_apr1_read(strict, shortest, sizeof shortest, o, 1);
        apa1[strict] = reloc_apa1_read(strict, addend, sizeof addend, o, 1, a, 1);
        relleb[0][strict] =
            reloc_relleb_read(4, strict, field, sizeof field, o, 1, t, 1, s, 1, a, 1);
        relleb[1][strict] =
            reloc_relleb_read(4, strict, long_zero, sizeof long_zero, o, 1, t, 1, s, 1, a, 1);
        relleb[2][strict] =
            reloc_relleb_read(8, strict, zero, sizeof zero, o, 1, t, 1, s, 1, a, 1);
    }
    setting("padded, apr1_read", apr1, RELOC_REFUSED_PADDED, 5);
    setting("padded, apa1_read", apa1, RELOC_REFUSED_PADDED, 6);
    setting("padded, relleb_read", relleb[0], RELOC_REFUSED_PADDED, 3);
    setting("a padded zero", relleb[1], RELOC_REFUSED_PADDED, 4);
    setting("zero", relleb[2], RELOC_REFUSED_ZERO, 4);
    /* The calls after the last that read it were refused, and left the entry. */
    check("shortest form", same[0].count == 1 && same[1].count == 1 && o[0] == 624485);
}

/* A call of some length is refused by the limit exactly where it should be. */
static void limit(const char *what, struct reloc_answer answer, int over)
{
    check(what, (answer.number == RELOC_REFUSED_LIMIT) == over);
}

static void limits(void)
{
    uint8_t *table = (uint8_t *)calloc(RELOC_INPUT_LIMIT + 1, 1);
    uint64_t *o = (uint64_t *)calloc(RELOC_LIST_LIMIT + 1, sizeof *o);
    uint32_t *t = (uint32_t *)calloc(RELOC_LIST_LIMIT + 1, sizeof *t);
    int64_t *a = (int64_t *)calloc(RELOC_LIST_LIMIT + 1, sizeof *a);
    if (table == NULL || o == NULL || t == NULL || a == NULL) {
        check("no memory", 0);
        return;
    }
    for (int over = 0; over < 2; over++) {
        size_t m = RELOC_INPUT_LIMIT + (size_t)over, n = RELOC_LIST_LIMIT + (size_t)over;
        for (int big = 0; big < 2; big++) {
            limit("relr_read", reloc_relr_read(8, big, table, m, NULL, 0), over);
            limit("relr_apply", reloc_relr_apply(8, big, table, m, 0, 0, NULL, 0), over);
            limit("relr_write", reloc_relr_write(8, big, o, n, NULL, 0), over);
        }
        for (int strict = 0; strict < 2; strict++) {
            limit("apr1_read", reloc_apr1_read(strict, table, m, NULL, 0), over);
            limit("apa1_read", reloc_apa1_read(strict, table, m, NULL, 0, NULL, 0), over);
            limit("relleb_read",
                  reloc_relleb_read(8, strict, table, m, NULL, 0, NULL, 0, NULL, 0, NULL, 0), over);
        }
        limit("apr1_write", reloc_apr1_write(o, n, NULL, 0), over);
        limit("apa1_write", reloc_apa1_write(o, n, a, n, NULL, 0), over);
        limit("relleb_write", reloc_relleb_write(8, o, n, t, n, t, n, a, n, NULL, 0), over);
    }
    EXPECT(RELOC_REFUSED_LIMIT, reloc_apr1_read(false, table, RELOC_INPUT_LIMIT + 1, NULL, 0));
    free(table);
    free(o);
    free(t);
    free(a);
}

int main(void)
{
    version();
    numbers();
    orders();
    settings();
    limits();
    return wrong;
}
