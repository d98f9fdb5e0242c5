/* Block kinds, and whether a record fits. */
#include "floor_look.h"

/* Whether every byte is one of the letters f, u and d. */
static bool all_letters(const uint8_t *letters, int count)
{
    uint8_t wrong = 0;
    for (int i = 0; i < count; i++) {
        uint8_t l = letters[i];
        wrong |= (l != 'f') & (l != 'u') & (l != 'd');
    }
    return wrong == 0;
}

/* Whether eight bytes are an entry of a page and a key: two numbers of four columns, in their ranges. */
static bool is_entry(uint64_t v)
{
    uint64_t t = v ^ EACH_BYTE(0x30), space = t & EACH_BYTE(0x10);
    uint64_t mask = (space >> 4) * 0xFF, digits = t & ~mask;
    uint64_t wrong = ((t & mask) ^ space) | (((digits + EACH_BYTE(6)) | digits) & EACH_BYTE(0xF0));
    uint32_t low = (uint32_t)mask, high = (uint32_t)(mask >> 32);
    wrong |= (low & (low + 1)) | (high & (high + 1)) | low >> 24 | high >> 24;
    uint32_t first = low + 1, second = high + 1;
    bool page = ((uint32_t)digits & first * 0xFF) != 0 || first == 1u << 24;
    bool key = ((uint32_t)(digits >> 32) & second * 0xFF) != 0 || second == 1u << 24;
    uint64_t values = entry_values(v);
    return wrong == 0 && page && key && (uint32_t)values < 4096 && values >> 32 < POSITIONS;
}

static bool all_entries(const uint8_t *payload)
{
    for (int i = 0; i < ENTRIES_IN_PART; i++) {
        uint64_t v = load8(payload + 8 * i);
        if (v != VACANT && !is_entry(v))
            return false;
    }
    return true;
}

/*
 * Whether pages 0 to count - 1 are whole and have page 0's header, but for the part: the page's number
 * in the block.
 */
static bool pages_alike(const uint8_t *block, int count)
{
    uint64_t w0 = load8(block), w2 = load8(block + 16), w3 = load8(block + 22), wrong = 0;
    uint64_t w1 = load8(block + 8) & 0xFFFFFFFFu;
    for (int i = 0; i < count; i++) {
        const uint8_t *p = block + PAGE * i;
        wrong |= (load8(p) ^ w0) | (load8(p + 8) ^ (w1 | (uint64_t)small4((uint32_t)i) << 32));
        wrong |= (load8(p + 16) ^ w2) | (load8(p + 22) ^ w3) | (load2(p + CLOSING_AT) ^ CLOSING);
    }
    return wrong == 0;
}

static bool is_commit(const uint8_t *block)
{
    if (!is_number_or_zero(load8(block + 20)) || !pages_alike(block, PARTS))
        return false;
    for (int i = 0; i < 2; i++)
        if (!all_letters(block + PAGE * i + HEADER, PAYLOAD))
            return false;
    for (int i = 2; i < PARTS; i++)
        if (!all_entries(block + PAGE * i + HEADER))
            return false;
    for (int i = PARTS; i < PAGES_IN_BLOCK; i++)
        if (!page_is_empty(block + PAGE * i))
            return false;
    return true;
}

struct kind floor_kind(const uint8_t *block)
{
    struct kind none = { 0, 0, 0, 0 };
    uint8_t letter = block[0];
    if (letter != 'K' && letter != 'C')
        return none;
    uint64_t number = load8(block + 1), second = load8(block + 20);
    uint32_t unit = load4(block + 8) >> 8;
    if (!is_number(number) || load4(block + 16) != ZERO_4 || load2(block + 28) != COLON_SPACE)
        return none;
    struct kind kind = { letter, (unit >> 16) & 1, value8(number & EACH_BYTE(15)), 0 };
    if (letter == 'K') {
        bool right = second == ZERO_8 && (unit & ~0x10000u) == small3(0);
        return right && pages_alike(block, PAGES_IN_BLOCK) ? kind : none;
    }
    kind.covered = value8(second & EACH_BYTE(15));
    return unit == small3(0) && is_commit(block) ? kind : none;
}

/* Whether the record's three blocks are whole and of their kind. */
static bool blocks_fit(const uint8_t *image, size_t blocks, const uint32_t *numbers)
{
    for (int i = KEYS_0; i <= COMMIT; i++)
        if (numbers[i] >= blocks)
            return false;
    for (unsigned q = 0; q < 2; q++) {
        struct kind kind = floor_kind(image + (size_t)BLOCK * numbers[KEYS_0 + q]);
        if (kind.letter != 'K' || kind.keys != q)
            return false;
    }
    return floor_kind(image + (size_t)BLOCK * numbers[COMMIT]).letter == 'C';
}

/*
 * Whether eight places of a file fit. Marks the keys that they name; none may be marked before.
 */
static bool eight_fit(const uint8_t *image, size_t pages, const uint16_t *map, uint32_t file,
                      uint32_t offset, uint8_t *named)
{
    uint64_t wrong = 0;
    for (uint32_t end = offset + 8; offset < end; offset++) {
        unsigned x = file_start[file] + offset, page = map[x], key = map[PLACES + x];
        if ((page & key) == NONE)
            continue;
        if (page >= pages || key >= POSITIONS)
            return false;
        wrong |= named[key];
        named[key] = 1;
        wrong |= node_differs(image + (size_t)PAGE * page, place_text(file, offset), key);
    }
    return wrong == 0;
}

static bool places_fit(const uint8_t *image, size_t pages, const uint16_t *map, uint8_t *named)
{
    for (uint32_t file = 0; file < FILES; file++)
        for (uint32_t offset = 0; offset < file_count[file]; offset += 8)
            if (!eight_vacant(map, file_start[file] + offset)
                && !eight_fit(image, pages, map, file, offset, named))
                return false;
    return true;
}

/* Whether every letter is one, and u stands where named has 1. */
static bool letters_fit(const uint8_t *letters, const uint8_t *named)
{
    uint8_t wrong = 0;
    for (int p = 0; p < POSITIONS; p++) {
        uint8_t l = letters[p], used = l == 'u';
        wrong |= (used ^ named[p]) | (uint8_t)((l != 'f') & (l != 'd') & (used ^ 1));
    }
    return wrong == 0;
}

static bool is_next(uint32_t n) { return n - 1 <= LAST_NUMBER; }

bool floor_fits(const uint8_t *image, size_t length, const uint16_t *map, const uint8_t *letters,
                const uint32_t *numbers)
{
    uint8_t named[POSITIONS] = { 0 };
    if (!is_next(numbers[SEQUENCE]) || !is_next(numbers[EPOCH]))
        return false;
    if (!blocks_fit(image, length / BLOCK, numbers))
        return false;
    return places_fit(image, length / PAGE, map, named) && letters_fit(letters, named);
}
