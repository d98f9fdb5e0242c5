/*
 * The text of headers and entries in words of 8, 4 and 2 bytes, and empty pages. Words are read with the
 * first byte lowest, so this needs a little-endian machine.
 */
#ifndef FLOOR_TEXT_H
#define FLOOR_TEXT_H

#include <stdbool.h>
#include <stddef.h>
#include <stdint.h>
#include <string.h>

#if __BYTE_ORDER__ != __ORDER_LITTLE_ENDIAN__
#error "the first byte of a word has to be the lowest"
#endif

enum {
    PAGE = 256, HEADER = 30, PAYLOAD = 224, CLOSING_AT = 254,
    PAGES_IN_BLOCK = 16, BLOCK = 4096, FILES = 14, PLACES = 224, POSITIONS = 448,
    KEY = 16, KEYS_IN_PAGE = 14, KEYS_IN_BLOCK = 224, PARTS = 10, ENTRIES_IN_PART = 28,
    NOISE = 7168, NONE = 65535, LAST_NUMBER = 99999999
};

/* The ends of a page, an unused field of 8 and of 4 columns, 4 spaces, and the entry of no page, as words. */
#define CLOSING 0x0A0Du
#define COLON_SPACE 0x203Au
#define ZERO_8 0x3020202020202020u
#define ZERO_4 0x30202020u
#define SPACES_4 0x20202020u
#define VACANT 0x2D2020202D202020u

#define EACH_BYTE(b) (0x0101010101010101u * (b))

static inline uint64_t load8(const void *p)
{
    uint64_t v;
    memcpy(&v, p, 8);
    return v;
}

static inline uint32_t load4(const void *p)
{
    uint32_t v;
    memcpy(&v, p, 4);
    return v;
}

static inline uint32_t load2(const void *p)
{
    uint16_t v;
    memcpy(&v, p, 2);
    return v;
}

static inline void store8(void *p, uint64_t v) { memcpy(p, &v, 8); }

static inline void store4(void *p, uint32_t v) { memcpy(p, &v, 4); }

static inline void store2(void *p, uint16_t v) { memcpy(p, &v, 2); }

/* The four digits of a number below 10,000, the first in the lowest byte. */
static inline uint32_t digits4(uint32_t n)
{
    uint32_t high = n / 100, low = n % 100;
    return high / 10 | high % 10 << 8 | low / 10 << 16 | low % 10 << 24;
}

/* Four columns of a number below 10,000. */
static inline uint32_t spell4(uint32_t n)
{
    uint32_t digits = digits4(n);
    unsigned spaces = (unsigned)__builtin_ctz(digits | 1u << 24) & ~7u;
    return digits + (0x30303030u ^ (0x10101010u & ((1u << spaces) - 1)));
}

/* Eight columns of a number below 100,000,000. */
static inline uint64_t spell8(uint32_t n)
{
    uint64_t digits = digits4(n / 10000) | (uint64_t)digits4(n % 10000) << 32;
    unsigned spaces = (unsigned)__builtin_ctzll(digits | 1ull << 56) & ~7u;
    return digits + (EACH_BYTE(0x30) ^ (EACH_BYTE(0x10) & ((1ull << spaces) - 1)));
}

/* Eight columns taken apart: the digits, spaces as 0, and the lowest bit of the first digit's byte. */
struct columns {
    uint64_t digits, first;
    bool right;
};

/* Whether v is spaces and then at least one digit; leading zeros are left to the caller. */
static inline struct columns take_apart(uint64_t v)
{
    uint64_t t = v ^ EACH_BYTE(0x30), space = t & EACH_BYTE(0x10);
    uint64_t mask = (space >> 4) * 0xFF, digits = t & ~mask;
    uint64_t wrong = ((t & mask) ^ space) | (((digits + EACH_BYTE(6)) | digits) & EACH_BYTE(0xF0));
    wrong |= mask & (mask + 1);
    return (struct columns){ digits, mask + 1, (wrong | mask >> 56) == 0 };
}

/* The number of eight digits. */
static inline uint32_t value8(uint64_t digits)
{
    uint64_t t = (digits * 10 + (digits >> 8)) & 0x00FF00FF00FF00FFu;
    t = (t * 100 + (t >> 16)) & 0x0000FFFF0000FFFFu;
    return (uint32_t)(t * 10000 + (t >> 32));
}

/* Whether v is a number of eight columns from 1 on. */
static inline bool is_number(uint64_t v)
{
    struct columns c = take_apart(v);
    return c.right & ((c.digits & c.first * 0xFF) != 0);
}

/* Whether v is a number of eight columns. */
static inline bool is_number_or_zero(uint64_t v)
{
    return is_number(v) | (v == ZERO_8);
}

/* The spelling of a number below 32 in four columns, and of one below 14 in three. */
static inline uint32_t small4(uint32_t n)
{
    return n < 10 ? ZERO_4 + (n << 24) : 0x30302020u + (n / 10 << 16) + (n % 10 << 24);
}

static inline uint32_t small3(uint32_t n)
{
    return small4(n) >> 8;
}

/* File and offset as they stand in bytes 9 to 15 of a header. */
static inline uint64_t place_text(uint32_t file, uint32_t offset)
{
    return small3(file) | (uint64_t)small4(offset) << 24;
}

static inline bool page_is_empty(const uint8_t *page)
{
    uint64_t all = ~0ull;
    for (int i = 0; i < PAGE; i += 8)
        all &= load8(page + i);
    return all == ~0ull;
}

static inline bool block_is_empty(const uint8_t *block)
{
    for (int i = 0; i < PAGES_IN_BLOCK; i++)
        if (load8(block + PAGE * i) != ~0ull || !page_is_empty(block + PAGE * i))
            return false;
    return true;
}

#endif
