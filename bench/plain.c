/*
 * The calls as plain loops: one pass that trusts its input, without any check
 * of lengths, widths, padding, order, space or room. A read answers records, a
 * write bytes, an apply additions. The words of memory must be little-endian; those
 * of RELR tables and images have the high byte first if `big`.
 */
#include <stdbool.h>
#include <stddef.h>
#include <stdint.h>
#include <string.h>

/* A body that is compiled for each class, and byte order, on its own. */
#define BODY static inline __attribute__((always_inline))

/* A call of a body with its class as a constant. */
#define BY_CLASS(body, ...) (class_ == 4 ? body(4, __VA_ARGS__) : body(8, __VA_ARGS__))

/* The locations of a bitmap. */
BODY uint64_t window_of(uint32_t class_) {
    return 8 * class_ - 1;
}

/* A word from its byte order to that of memory, or back. */
BODY uint64_t ordered(uint32_t class_, bool big, uint64_t word) {
    if (!big)
        return word;
    return class_ == 4 ? __builtin_bswap32((uint32_t)word) : __builtin_bswap64(word);
}

/* The word at a place. */
BODY uint64_t load(uint32_t class_, bool big, const uint8_t *at) {
    uint64_t word = 0;
    memcpy(&word, at, class_);
    return ordered(class_, big, word);
}

/* Puts a word at a place. */
BODY void store(uint32_t class_, bool big, uint8_t *at, uint64_t word) {
    word = ordered(class_, big, word);
    memcpy(at, &word, class_);
}

/* Adds the base to the word at a place. */
BODY void add(uint32_t class_, bool big, uint8_t *at, uint64_t base) {
    store(class_, big, at, load(class_, big, at) + base);
}

/* Reads RELR: the loaders' loop, bit by bit or by trailing zeros. */
BODY size_t relr_read(uint32_t class_, bool big, bool zeros, const uint8_t *table, size_t length,
                      uint64_t *offsets) {
    uint64_t *next = offsets;
    uint64_t start = 0;
    for (const uint8_t *at = table; at != table + length; at += class_) {
        uint64_t word = load(class_, big, at);
        if ((word & 1) == 0) {
            *next++ = word;
            start = word + class_;
            continue;
        }
        for (uint64_t k = 0; !zeros && (word >>= 1) != 0; k++)
            if (word & 1)
                *next++ = start + k * class_;
        for (word >>= 1; zeros && word != 0; word &= word - 1)
            *next++ = start + (uint64_t)__builtin_ctzll(word) * class_;
        start += window_of(class_) * class_;
    }
    return (size_t)(next - offsets);
}

/* Applies RELR: the same loop, with an addition at each offset less the start. */
BODY size_t relr_apply(uint32_t class_, bool big, bool zeros, const uint8_t *table, size_t length,
                       uint64_t base, uint64_t start, uint8_t *image) {
    size_t count = 0;
    uint8_t *where = image;
    for (const uint8_t *at = table; at != table + length; at += class_) {
        uint64_t word = load(class_, big, at);
        if ((word & 1) == 0) {
            where = image + (word - start);
            add(class_, big, where, base);
            where += class_;
            count++;
            continue;
        }
        for (uint8_t *place = where; !zeros && (word >>= 1) != 0; place += class_)
            if (word & 1) {
                add(class_, big, place, base);
                count++;
            }
        for (word >>= 1; zeros && word != 0; word &= word - 1) {
            add(class_, big, where + (uint64_t)__builtin_ctzll(word) * class_, base);
            count++;
        }
        where += window_of(class_) * class_;
    }
    return count;
}

/* Writes RELR: the linkers' loop. */
BODY size_t relr_write(uint32_t class_, bool big, const uint64_t *offsets, size_t count,
                       uint8_t *table) {
    uint8_t *at = table;
    for (size_t i = 0; i < count;) {
        uint64_t start = offsets[i] + class_;
        store(class_, big, at, offsets[i++]);
        at += class_;
        for (;;) {
            uint64_t bitmap = 0;
            for (; i < count; i++) {
                uint64_t distance = offsets[i] - start;
                if (distance >= window_of(class_) * class_ || distance % class_ != 0)
                    break;
                bitmap |= (uint64_t)1 << (distance / class_);
            }
            if (bitmap == 0)
                break;
            store(class_, big, at, bitmap << 1 | 1);
            at += class_;
            start += window_of(class_) * class_;
        }
    }
    return (size_t)(at - table);
}

/* Reads the digits of a number, steps over them and tells how many bits they have. */
static inline uint64_t read_digits(const uint8_t **at, unsigned *bits) {
    uint64_t value = 0;
    uint8_t byte;
    *bits = 0;
    do {
        byte = *(*at)++;
        value |= (uint64_t)(byte & 0x7F) << *bits;
        *bits += 7;
    } while (byte & 0x80);
    return value;
}

/* Reads an unsigned number and steps over it. */
static inline uint64_t read_unsigned(const uint8_t **at) {
    unsigned bits;
    return read_digits(at, &bits);
}

/* Reads a signed number and steps over it. */
static inline int64_t read_signed(const uint8_t **at) {
    unsigned bits;
    uint64_t value = read_digits(at, &bits);
    if (bits < 64 && (value >> (bits - 1) & 1))
        value |= ~(uint64_t)0 << bits;
    return (int64_t)value;
}

/* Writes an unsigned number; the place after it. */
static inline uint8_t *write_unsigned(uint8_t *at, uint64_t value) {
    for (; value >= 0x80; value >>= 7)
        *at++ = (uint8_t)(value | 0x80);
    *at++ = (uint8_t)value;
    return at;
}

/* Writes a signed number; the place after it. */
static inline uint8_t *write_signed(uint8_t *at, int64_t value) {
    for (; value < -0x40 || value >= 0x40; value >>= 7)
        *at++ = (uint8_t)(value | 0x80);
    *at++ = (uint8_t)(value & 0x7F);
    return at;
}

/* A sum at the width of a class, as a signed number. */
BODY int64_t as_signed(uint32_t class_, uint64_t sum) {
    return class_ == 4 ? (int32_t)sum : (int64_t)sum;
}

/* A sum at the width of a class. */
BODY uint64_t as_unsigned(uint32_t class_, uint64_t sum) {
    return class_ == 4 ? (uint32_t)sum : sum;
}

/* Reads RELLEB. */
BODY size_t relleb_read(uint32_t class_, const uint8_t *table, uint64_t *offsets, uint32_t *types,
                        uint32_t *symbols, int64_t *addends) {
    size_t count = (size_t)read_unsigned(&table);
    uint64_t offset = 0, addend = 0;
    uint32_t type = 0;
    for (size_t i = 0; i < count; i++) {
        offset += read_unsigned(&table);
        type += (uint32_t)read_signed(&table);
        int64_t field = read_signed(&table);
        if (field < 0) {
            field = ~field;
            addend += (uint64_t)read_signed(&table);
        }
        offsets[i] = as_unsigned(class_, offset);
        types[i] = type;
        symbols[i] = (uint32_t)field;
        addends[i] = as_signed(class_, addend);
    }
    return count;
}

/* Writes RELLEB. */
BODY size_t relleb_write(uint32_t class_, const uint64_t *offsets, const uint32_t *types,
                         const uint32_t *symbols, const int64_t *addends, size_t count,
                         uint8_t *table) {
    uint8_t *at = write_unsigned(table, count);
    uint64_t offset = 0, addend = 0;
    uint32_t type = 0;
    for (size_t i = 0; i < count; i++) {
        at = write_unsigned(at, as_unsigned(class_, offsets[i] - offset));
        at = write_signed(at, (int32_t)(types[i] - type));
        if ((uint64_t)addends[i] == addend) {
            at = write_signed(at, symbols[i]);
        } else {
            at = write_signed(at, ~(int64_t)symbols[i]);
            at = write_signed(at, as_signed(class_, (uint64_t)addends[i] - addend));
        }
        offset = offsets[i];
        type = types[i];
        addend = (uint64_t)addends[i];
    }
    return (size_t)(at - table);
}

/* The calls of RELR, for either class. */
struct relr {
    size_t (*read)(uint32_t class_, const uint8_t *table, size_t length, uint64_t *offsets);
    size_t (*write)(uint32_t class_, const uint64_t *offsets, size_t count, uint8_t *table);
    size_t (*apply)(uint32_t class_, const uint8_t *table, size_t length, uint64_t base,
                    uint64_t start, uint8_t *image);
};

/*
 * Makes these calls for one byte order and one way through bitmaps. Each has a
 * function of its own, which saves no registers that only another needs.
 */
#define RELR(name, big, zeros)                                                                    \
    static size_t name##_read(uint32_t class_, const uint8_t *table, size_t length,               \
                              uint64_t *offsets) {                                                \
        return BY_CLASS(relr_read, big, zeros, table, length, offsets);                           \
    }                                                                                             \
    static size_t name##_write(uint32_t class_, const uint64_t *offsets, size_t count,            \
                               uint8_t *table) {                                                  \
        return BY_CLASS(relr_write, big, offsets, count, table);                                  \
    }                                                                                             \
    static size_t name##_apply(uint32_t class_, const uint8_t *table, size_t length,              \
                               uint64_t base, uint64_t start, uint8_t *image) {                   \
        return BY_CLASS(relr_apply, big, zeros, table, length, base, start, image);               \
    }

RELR(little_by_bits, false, false)
RELR(little_by_zeros, false, true)
RELR(big_by_bits, true, false)
RELR(big_by_zeros, true, true)

/* What RELR has made. */
#define CALLS(name) {name##_read, name##_write, name##_apply}

/* The calls by whether words are big-endian, and by whether the way is by trailing zeros. */
const struct relr plain_relr[2][2] = {
    {CALLS(little_by_bits), CALLS(little_by_zeros)},
    {CALLS(big_by_bits), CALLS(big_by_zeros)},
};

/* Reads APR1. */
size_t plain_apr1_read(const uint8_t *table, uint64_t *offsets) {
    const uint8_t *at = table + 4;
    uint64_t *next = offsets;
    uint64_t pairs = read_unsigned(&at);
    uint64_t offset = read_unsigned(&at);
    *next++ = offset;
    while (pairs-- > 0) {
        uint64_t times = read_unsigned(&at);
        uint64_t gap = read_unsigned(&at);
        while (times-- > 0)
            *next++ = offset += gap;
    }
    return (size_t)(next - offsets);
}

/* How many runs of equal gaps there are: the table says so before them. */
static uint64_t runs_of(const uint64_t *offsets, size_t count) {
    uint64_t runs = 0, gap = 0;
    for (size_t i = 1; i < count; i++) {
        runs += offsets[i] - offsets[i - 1] != gap;
        gap = offsets[i] - offsets[i - 1];
    }
    return runs;
}

/* Writes APR1. */
size_t plain_apr1_write(const uint64_t *offsets, size_t count, uint8_t *table) {
    memcpy(table, "APR1", 4);
    uint8_t *at = write_unsigned(table + 4, runs_of(offsets, count));
    at = write_unsigned(at, offsets[0]);
    for (size_t i = 1; i < count;) {
        uint64_t gap = offsets[i] - offsets[i - 1];
        size_t first = i++;
        while (i < count && offsets[i] - offsets[i - 1] == gap)
            i++;
        at = write_unsigned(at, i - first);
        at = write_unsigned(at, gap);
    }
    return (size_t)(at - table);
}

/* Reads APA1. */
size_t plain_apa1_read(const uint8_t *table, uint64_t *offsets, int64_t *addends) {
    const uint8_t *at = table + 4;
    size_t count = (size_t)read_signed(&at);
    uint64_t offset = 0, addend = 0;
    for (size_t i = 0; i < count; i++) {
        offsets[i] = offset += (uint64_t)read_signed(&at);
        addends[i] = (int64_t)(addend += (uint64_t)read_signed(&at));
    }
    return count;
}

/* Writes APA1. */
size_t plain_apa1_write(const uint64_t *offsets, const int64_t *addends, size_t count,
                        uint8_t *table) {
    memcpy(table, "APA1", 4);
    uint8_t *at = write_signed(table + 4, (int64_t)count);
    uint64_t offset = 0, addend = 0;
    for (size_t i = 0; i < count; i++) {
        at = write_signed(at, (int64_t)(offsets[i] - offset));
        at = write_signed(at, (int64_t)((uint64_t)addends[i] - addend));
        offset = offsets[i];
        addend = (uint64_t)addends[i];
    }
    return (size_t)(at - table);
}

/* Reads RELLEB, for either class. */
size_t plain_relleb_read(uint32_t class_, const uint8_t *table, uint64_t *offsets, uint32_t *types,
                         uint32_t *symbols, int64_t *addends) {
    return BY_CLASS(relleb_read, table, offsets, types, symbols, addends);
}

/* Writes RELLEB, for either class. */
size_t plain_relleb_write(uint32_t class_, const uint64_t *offsets, const uint32_t *types,
                          const uint32_t *symbols, const int64_t *addends, size_t count,
                          uint8_t *table) {
    return BY_CLASS(relleb_write, offsets, types, symbols, addends, count, table);
}
