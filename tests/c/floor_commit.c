/* Commit and wipe. */
#include "floor.h"
#include "floor_calls.h"

/* Where the empty blocks are: the last one freed, or the lowest, and all others from there on. */
struct spare {
    size_t from, freed;
};

/* The lowest empty block. Wherever this is called there is one. */
static size_t take_spare(const uint8_t *image, size_t blocks, struct spare *s)
{
    if (s->freed < s->from)
        return s->freed;
    size_t b = floor_empty_block(image, blocks, s->from);
    s->from = b + 1;
    return b;
}

static void erase(uint8_t *image, size_t block, struct spare *s)
{
    memset(image + BLOCK * block, 0xFF, BLOCK);
    s->freed = block;
}

/* The header of each page of a block, all but its part. */
static void block_header(uint8_t *header, char kind, uint32_t epoch, uint32_t unit, uint32_t second)
{
    header[0] = (uint8_t)kind;
    store8(header + 1, spell8(epoch));
    store8(header + 8, (uint64_t)header[8] | (uint64_t)small3(unit) << 8);
    store4(header + 16, ZERO_4);
    store8(header + 20, spell8(second));
    store2(header + 28, COLON_SPACE);
}

static uint8_t *start_page(uint8_t *page, const uint8_t *header, uint32_t part)
{
    memcpy(page, header, HEADER);
    store4(page + 12, small4(part));
    store2(page + CLOSING_AT, CLOSING);
    return page + HEADER;
}

/* A new copy of key block q: used keys as they were, all others from the noise. */
static void replace_keys(uint8_t *image, size_t blocks, const uint8_t *letters, uint32_t *numbers,
                         const uint8_t *noise, uint32_t q, struct spare *s)
{
    uint8_t header[HEADER];
    size_t b = take_spare(image, blocks, s), old = numbers[KEYS_0 + q];
    letters += (size_t)KEYS_IN_BLOCK * q;
    noise += (size_t)KEY * KEYS_IN_BLOCK * q;
    block_header(header, 'K', numbers[EPOCH], q, 0);
    for (uint32_t i = 0; i < PAGES_IN_BLOCK; i++) {
        uint8_t *out = start_page(image + BLOCK * b + PAGE * i, header, i);
        const uint8_t *last = image + BLOCK * old + PAGE * i + HEADER;
        for (int j = 0; j < KEYS_IN_PAGE; j++, letters++, noise += KEY)
            memcpy(out + KEY * j, *letters == 'u' ? last + KEY * j : noise, KEY);
    }
    erase(image, old, s);
    numbers[KEYS_0 + q] = (uint32_t)b;
}

static void replace_commit(uint8_t *image, size_t blocks, const uint16_t *map,
                           const uint8_t *letters, uint32_t *numbers, struct spare *s)
{
    uint8_t header[HEADER];
    size_t b = take_spare(image, blocks, s), old = numbers[COMMIT];
    uint8_t *block = image + BLOCK * b;
    block_header(header, 'C', numbers[EPOCH], 0, numbers[SEQUENCE] - 1);
    for (uint32_t i = 0; i < PARTS; i++) {
        uint8_t *out = start_page(block + PAGE * i, header, i);
        if (i < 2) {
            memcpy(out, letters + PAYLOAD * i, PAYLOAD);
            continue;
        }
        for (int j = 0; j < ENTRIES_IN_PART; j++, map++)
            if (map[0] == NONE)
                store8(out + 8 * j, VACANT);
            else
                store8(out + 8 * j, spell4(map[0]) | (uint64_t)spell4(map[PLACES]) << 32);
    }
    erase(image, old, s);
    numbers[COMMIT] = (uint32_t)b;
}

/* Erases the data blocks without a live page. */
static void erase_dead(uint8_t *image, size_t blocks, const uint16_t *map, const uint32_t *numbers)
{
    uint8_t live[NONE / PAGES_IN_BLOCK + 1];
    memset(live, 0, blocks);
    for (int x = 0; x < PLACES; x++)
        live[map[x] / PAGES_IN_BLOCK] = 1;
    for (size_t b = 0; b < blocks; b++)
        if (!live[b] && !is_chosen(numbers, b) && has_event(image + BLOCK * b))
            memset(image + BLOCK * b, 0xFF, BLOCK);
}

static void renew(uint8_t *image, size_t blocks, const uint16_t *map, uint8_t *letters,
                  uint32_t *numbers, const uint8_t *noise, struct spare *s)
{
    for (int p = 0; p < POSITIONS; p++)
        letters[p] = letters[p] == 'd' ? 'f' : letters[p];
    replace_keys(image, blocks, letters, numbers, noise, 0, s);
    replace_keys(image, blocks, letters, numbers, noise, 1, s);
    replace_commit(image, blocks, map, letters, numbers, s);
    erase_dead(image, blocks, map, numbers);
    numbers[EPOCH]++;
}

uint32_t floor_commit(uint8_t *image, size_t image_length, uint16_t *map, size_t map_length,
                      uint8_t *letters, size_t letters_length, uint32_t *numbers,
                      const uint8_t *noise, size_t noise_length)
{
    uint32_t refusal = refuse_lent(image_length, map_length, letters_length);
    if (refusal || noise_length != NOISE)
        return refusal ? refusal : 3;
    if (!floor_fits(image, image_length, map, letters, numbers))
        return 7;
    if (numbers[EPOCH] > LAST_NUMBER)
        return 11;
    size_t blocks = image_length / BLOCK, empty = floor_empty_block(image, blocks, 0);
    if (empty == blocks)
        return 10;
    struct spare s = { empty + 1, empty };
    renew(image, blocks, map, letters, numbers, noise, &s);
    return 0;
}

uint32_t floor_wipe(uint8_t *image, size_t image_length, uint16_t *map, size_t map_length,
                    uint8_t *letters, size_t letters_length, uint32_t *numbers,
                    const uint8_t *noise, size_t noise_length, uint32_t file, uint32_t offset)
{
    uint32_t refusal = refuse_lent(image_length, map_length, letters_length);
    if (refusal || noise_length != NOISE)
        return refusal ? refusal : 3;
    if ((refusal = refuse_plan(file, offset)))
        return refusal;
    if (!floor_fits(image, image_length, map, letters, numbers))
        return 7;
    if (numbers[EPOCH] >= LAST_NUMBER)
        return 11;
    size_t blocks = image_length / BLOCK, empty = floor_empty_block(image, blocks, 0);
    if (empty == blocks)
        return 10;
    struct spare s = { empty + 1, empty };
    floor_remove(map, letters, file, offset);
    replace_commit(image, blocks, map, letters, numbers, &s);
    numbers[EPOCH]++;
    renew(image, blocks, map, letters, numbers, noise, &s);
    return 0;
}
