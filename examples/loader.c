/* A loader: adds the load base to the words of an image that a RELR table
 * names, moves the loaded module to another base, keeps the list of the words, and
 * shows that a refused table leaves the image as it was. The module is linked at
 * 0x1000, so the table's offsets count from there, and the image's first byte is
 * the one at 0x1000. It has no heap: what a call needs is compared with what there
 * is. At last it patches the image of a controller that stores words high byte
 * first. */
#include "reloc.h"

#include <inttypes.h>
#include <stdio.h>
#include <string.h>

enum { CLASS = 8, WORDS = 4, KEPT = 16 };

/* The image: four words, little-endian. */
static uint8_t image[WORDS * CLASS] = {
    0x34, 0x12, 0x00, 0x00, 0x00, 0x00, 0x00, 0x00, /* 0x1234 */
    0x55, 0x55, 0x55, 0x55, 0x55, 0x55, 0x55, 0x55, /* no pointer */
    0x00, 0x80, 0xFF, 0xFF, 0xFF, 0xFF, 0xFF, 0xFF, /* 2^64 - 0x8000 */
    0x78, 0x56, 0x00, 0x00, 0x00, 0x00, 0x00, 0x00, /* 0x5678 */
};

/* Offsets 0x1000, 0x1010, 0x1018: the address 0x1000, then a bitmap of the words
 * after it, 0xD. */
static const uint8_t table[] = {0, 0x10, 0, 0, 0, 0, 0, 0, 0x0D, 0, 0, 0, 0, 0, 0, 0};

static const uint64_t base = 0x10000;

/* The base that the module is moved to, below the first. */
static const uint64_t lower = 0x4000;

/* The address that the image's first byte is linked at. */
static const uint64_t start = 0x1000;

/* The offsets of the words that were patched. */
static uint64_t kept[KEPT];

/* The big-endian controller's image, 0x1234 and 0xFF8000 in words of four bytes,
 * and its table: the address 0x1000, then a bitmap of the word after it, 0x3. */
static uint8_t big_image[] = {0x00, 0x00, 0x12, 0x34, 0x00, 0xFF, 0x80, 0x00};
static const uint8_t big_table[] = {0, 0, 0x10, 0, 0, 0, 0, 3};

/* The word at an address of the image. */
static uint64_t word(uint64_t address)
{
    const uint8_t *at = image + (address - start);
    uint64_t value = 0;
    for (size_t k = CLASS; k > 0; k--) {
        value = value * 256 + at[k - 1];
    }
    return value;
}

static void print(const char *when)
{
    printf("%s:", when);
    for (size_t k = 0; k < WORDS; k++) {
        printf(" %016" PRIx64, word(start + k * CLASS));
    }
    printf("\n");
}

/* Says why a call refused; the program then ends with 1. */
static int refused(const char *what, struct reloc_answer answer)
{
    printf("%s: %" PRIu32 " %s, place %" PRIu64 "\n", what, answer.number,
           reloc_name(answer.number), answer.place);
    return 1;
}

/* Moves the loaded module to another base, by applying the difference of bases:
 * the image is then the one that applying the table at the new base gives of the
 * image from before. It holds because any two words of the list lie at least a word
 * apart. The difference wraps at 64 bits, so the new base may be the lower one. In
 * class 4 the caller reduces it to 32 bits, (uint32_t)(to - from): a larger base is
 * refused with 15. */
static int move_module(uint64_t from, uint64_t to)
{
    struct reloc_answer answer =
        reloc_relr_apply(CLASS, false, table, sizeof table, to - from, start, image, sizeof image);
    if (answer.number != RELOC_OK) {
        return refused("the table, to move", answer);
    }
    print("moved ");
    if (word(0x1000) != 0x1234 + to || word(0x1008) != 0x5555555555555555 ||
        word(0x1010) != to - 0x8000 || word(0x1018) != 0x5678 + to) {
        printf("moved otherwise than the table says\n");
        return 1;
    }
    return 0;
}

/* Keeps the table's list where there is room for it. */
static int keep(void)
{
    struct reloc_answer need = reloc_relr_read(CLASS, false, table, sizeof table, NULL, 0);
    if (need.number != RELOC_OK && need.number != RELOC_REFUSED_ROOM) {
        return refused("the table", need);
    }
    if (need.count > KEPT) {
        printf("%" PRIu64 " offsets, room for %d\n", need.count, KEPT);
        return 1;
    }
    struct reloc_answer answer =
        reloc_relr_read(CLASS, false, table, sizeof table, kept, (size_t)need.count);
    if (answer.number != RELOC_OK) {
        return refused("the list", answer);
    }
    printf("kept:");
    for (size_t k = 0; k < answer.count; k++) {
        printf(" %#" PRIx64, kept[k]);
    }
    printf("\n");
    return 0;
}

/* Applies the table to an image that does not hold all of its words: the answer
 * names the first of them, and nothing is patched. */
static int outside(const char *what, uint64_t first, size_t length, uint64_t place)
{
    uint8_t before[sizeof image];
    memcpy(before, image, sizeof image);
    struct reloc_answer answer =
        reloc_relr_apply(CLASS, false, table, sizeof table, base, first, image, length);
    if (answer.number != RELOC_REFUSED_OUTSIDE || answer.place != place || answer.count != 0 ||
        memcmp(image, before, sizeof image) != 0) {
        printf("%s: not refused as outside, or the image changed\n", what);
        return 1;
    }
    refused(what, answer);
    return 0;
}

static void print_big(const char *when)
{
    printf("big-endian, %s:", when);
    for (size_t k = 0; k < sizeof big_image; k++) {
        printf(" %02x", big_image[k]);
    }
    printf("\n");
}

/* Patches the big-endian image: 0x11234, 0x1008000. */
static int patch_big(void)
{
    static const uint8_t patched[] = {0x00, 0x01, 0x12, 0x34, 0x01, 0x00, 0x80, 0x00};
    print_big("before");
    struct reloc_answer answer = reloc_relr_apply(4, true, big_table, sizeof big_table, base, start,
                                                  big_image, sizeof big_image);
    if (answer.number != RELOC_OK) {
        return refused("the big-endian table", answer);
    }
    print_big("after ");
    if (memcmp(big_image, patched, sizeof patched) != 0) {
        printf("patched otherwise than the big-endian table says\n");
        return 1;
    }
    return 0;
}

int main(void)
{
    if (reloc_version() != RELOC_VERSION) {
        printf("header %" PRIu32 ", library %" PRIu32 "\n", RELOC_VERSION, reloc_version());
        return 1;
    }
    printf("reloc " RELOC_VERSION_TEXT "\n");

    /* Of an image one byte short, the last word ends beyond it; of one that starts
     * a word too high, the first word is below it. */
    if (outside("a byte short, image unchanged", start, sizeof image - 1, 2) != 0 ||
        outside("a word too high, image unchanged", start + CLASS, sizeof image, 0) != 0) {
        return 1;
    }

    print("before");
    struct reloc_answer answer =
        reloc_relr_apply(CLASS, false, table, sizeof table, base, start, image, sizeof image);
    if (answer.number != RELOC_OK) {
        return refused("the table", answer);
    }
    print("after ");
    if (word(0x1000) != 0x11234 || word(0x1008) != 0x5555555555555555 ||
        word(0x1010) != 0x8000 || word(0x1018) != 0x15678) {
        printf("patched otherwise than the table says\n");
        return 1;
    }
    printf("%" PRIu64 " words patched\n", answer.count);
    if (move_module(base, lower) != 0 || keep() != 0) {
        return 1;
    }
    return patch_big();
}
