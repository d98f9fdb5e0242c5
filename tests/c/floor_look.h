/*
 * What stands on an image: block kinds, the headers of nodes and cut-offs, and whether a record fits.
 */
#ifndef FLOOR_LOOK_H
#define FLOOR_LOOK_H

#include "floor_text.h"

/* The files' counts, and the place of each file's first node. */
static const uint8_t file_count[FILES] = { 32, 32, 24, 24, 16, 16, 16, 16, 8, 8, 8, 8, 8, 8 };
static const uint8_t file_start[FILES + 1] = { 0,   32,  64,  88,  112, 128, 144, 160,
                                               176, 184, 192, 200, 208, 216, 224 };

/* The working record's numbers. */
enum { SEQUENCE, EPOCH, KEYS_0, KEYS_1, COMMIT };

/* A block as a whole: 'K' with the number of the key block, 'C' with the covered sequence, or 0. */
struct kind {
    uint8_t letter, keys;
    uint32_t epoch, covered;
};

struct kind floor_kind(const uint8_t *block);

/* The numbers of a valid entry, the page in the lower half and the key in the upper. */
static inline uint64_t entry_values(uint64_t v)
{
    uint64_t digits = v & EACH_BYTE(0x0F);
    uint64_t t = (digits * 10 + (digits >> 8)) & 0x00FF00FF00FF00FFu;
    return (t * 100 + (t >> 16)) & 0x0000FFFF0000FFFFu;
}

/* Four columns of each number up to 224, as words; 0 for the numbers above. */
#define COLUMN(n, unit) ((n) < (unit) ? 0x20u : 0x30u + (n) / (unit) % 10)
#define TEXT(n) (0x30000020u | COLUMN(n, 100) << 8 | COLUMN(n, 10) << 16 | (n) % 10u << 24)
#define FIVE(n) TEXT(n), TEXT(n + 1), TEXT(n + 2), TEXT(n + 3), TEXT(n + 4)
#define TWENTY_FIVE(n) FIVE(n), FIVE(n + 5), FIVE(n + 10), FIVE(n + 15), FIVE(n + 20)
static const uint32_t second_text[256] = {
    TWENTY_FIVE(0),   TWENTY_FIVE(25),  TWENTY_FIVE(50),  TWENTY_FIVE(75), TWENTY_FIVE(100),
    TWENTY_FIVE(125), TWENTY_FIVE(150), TWENTY_FIVE(175), TWENTY_FIVE(200)
};

/* The eight columns of a second number of 0 to 224. */
static inline uint64_t spell_second(uint32_t second)
{
    return SPACES_4 | (uint64_t)second_text[second] << 32;
}

/* The second number of a node or cut-off by its last three digits, less 256 where it is too large. */
static inline uint32_t second_of(const uint8_t *p)
{
    uint32_t digits = load4(p + 24) & 0x0F0F0F00u;
    return digits * (100u << 16 | 10u << 8 | 1u) >> 24;
}

/* 0 where a second number is spelt right and at most this one. */
static inline uint64_t second_differs(const uint8_t *p, uint32_t most)
{
    uint32_t second = second_of(p);
    return (load8(p + 20) ^ spell_second(second)) | (second > most);
}

/* The length of a node's payload: an older recorder has written 0 for 224. */
static inline size_t length_of(const uint8_t *node)
{
    uint32_t second = second_of(node);
    return second ? second : PAYLOAD;
}

/* The header of a whole or torn page of a node or cut-off. */
struct event {
    uint32_t sequence;
    uint16_t file, offset, key;
};

/* Whether a page whose first byte is N or D has such a header. */
static inline bool read_event(const uint8_t *p, struct event *e)
{
    unsigned file = 10u * (p[10] & 15) + (p[11] & 15);
    unsigned offset = 10u * (p[14] & 15) + (p[15] & 15);
    unsigned key = 100u * (p[17] & 15) + 10u * (p[18] & 15) + (p[19] & 15);
    if (file >= FILES || offset >= file_count[file] || key >= (p[0] == 'N' ? POSITIONS : 1))
        return false;
    struct columns number = take_apart(load8(p + 1));
    uint64_t wrong = load8(p + 8) >> 8 ^ place_text(file, offset);
    wrong |= load4(p + 16) ^ spell4(key);
    wrong |= second_differs(p, p[0] == 'N' ? PAYLOAD : 0);
    wrong |= load2(p + 28) ^ COLON_SPACE;
    *e = (struct event){ value8(number.digits), (uint16_t)file, (uint16_t)offset, (uint16_t)key };
    return (wrong == 0) & number.right & ((number.digits & number.first * 0xFF) != 0);
}

static inline bool is_event_letter(uint8_t b) { return b == 'N' || b == 'D'; }

static inline bool is_closed(const uint8_t *page) { return load2(page + CLOSING_AT) == CLOSING; }

/* Whether a block has a page with such a header. */
static inline bool has_event(const uint8_t *block)
{
    struct event e;
    for (int i = 0; i < PAGES_IN_BLOCK; i++)
        if (is_event_letter(block[PAGE * i]) && read_event(block + PAGE * i, &e))
            return true;
    return false;
}

/* 0 where a page is whole and a node of that place and key, as its header spells them. */
static inline uint64_t node_differs(const uint8_t *p, uint64_t place, uint32_t key)
{
    uint64_t wrong = load8(p + 8) >> 8 ^ place;
    wrong |= load4(p + 16) ^ spell4(key);
    wrong |= second_differs(p, PAYLOAD);
    wrong |= load2(p + 28) ^ COLON_SPACE;
    wrong |= load2(p + CLOSING_AT) ^ CLOSING;
    return wrong | (uint64_t)(p[0] ^ 'N') | !is_number(load8(p + 1));
}

/* Whether eight places from x on have no page and no key. */
static inline bool eight_vacant(const uint16_t *map, unsigned x)
{
    uint64_t pages = load8(map + x) & load8(map + x + 4);
    return (pages & load8(map + PLACES + x) & load8(map + PLACES + x + 4)) == ~0ull;
}

bool floor_fits(const uint8_t *image, size_t length, const uint16_t *map, const uint8_t *letters,
                const uint32_t *numbers);

static inline bool is_chosen(const uint32_t *numbers, size_t block)
{
    return (block == numbers[KEYS_0]) | (block == numbers[KEYS_1]) | (block == numbers[COMMIT]);
}

static inline bool size_is_right(size_t length)
{
    return length % BLOCK == 0 && length >= 8 * BLOCK && length <= 256 * BLOCK;
}

/* The tests of image and record lengths, in order: their refusal or 0. */
static inline uint32_t refuse_lent(size_t image_length, size_t map_length, size_t letters_length)
{
    if (!size_is_right(image_length))
        return 1;
    return map_length != 2 * PLACES || letters_length != POSITIONS ? 2 : 0;
}

/* The tests of file and offset, in order. */
static inline uint32_t refuse_plan(uint32_t file, uint32_t offset)
{
    if (file >= FILES)
        return 4;
    return offset >= file_count[file] ? 5 : 0;
}

#endif
