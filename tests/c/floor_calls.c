/* Write, read and cut-off. */
#include "floor.h"
#include "floor_calls.h"

/* The page that a write or cut-off takes; the number of pages where there is none. */
static size_t new_page(const uint8_t *image, size_t blocks, const uint32_t *numbers)
{
    for (size_t b = 0; b < blocks; b++) {
        const uint8_t *block = image + BLOCK * b;
        if (block[BLOCK - PAGE] != 0xFF || is_chosen(numbers, b) || !has_event(block))
            continue;
        size_t i = floor_empty_from(block);
        if (i < PAGES_IN_BLOCK)
            return b * PAGES_IN_BLOCK + i;
    }
    return floor_fresh_page(image, blocks);
}

/* The header and closing of a node or cut-off. */
static void frame(uint8_t *page, char kind, uint32_t sequence, uint32_t file, uint32_t offset,
                  uint32_t key, uint32_t second)
{
    uint32_t key_text = spell4(key);
    page[0] = (uint8_t)kind;
    store8(page + 1, spell8(sequence));
    store8(page + 9, place_text(file, offset) | (uint64_t)key_text << 56);
    store4(page + 16, key_text);
    store8(page + 20, spell_second(second));
    store2(page + 28, COLON_SPACE);
    store2(page + CLOSING_AT, CLOSING);
}

/* The key of a position, in the chosen key blocks. */
static const uint8_t *key_at(const uint8_t *image, const uint32_t *numbers, size_t position)
{
    size_t q = position / KEYS_IN_BLOCK, page = position % KEYS_IN_BLOCK / KEYS_IN_PAGE;
    size_t block = numbers[KEYS_0 + q], slot = position % KEYS_IN_PAGE;
    return image + BLOCK * block + PAGE * page + HEADER + KEY * slot;
}

/* Enciphers a payload of 1 to 224 bytes, with spaces after it, into a page. */
static void put_payload(uint8_t *page, const uint8_t *key, const uint8_t *payload, size_t length)
{
    uint8_t padded[PAYLOAD];
    if (length < PAYLOAD) {
        memcpy(padded, payload, length);
        memset(padded + length, ' ', PAYLOAD - length);
        payload = padded;
    }
    floor_stream(key, page + HEADER, payload, PAYLOAD);
}

uint32_t floor_write(uint8_t *image, size_t image_length, uint16_t *map, size_t map_length,
                     uint8_t *letters, size_t letters_length, uint32_t *numbers, uint32_t file,
                     uint32_t offset, const uint8_t *payload, size_t payload_length)
{
    uint32_t refusal = refuse_lent(image_length, map_length, letters_length);
    if (refusal || (refusal = refuse_plan(file, offset)))
        return refusal;
    if (payload_length == 0 || payload_length > PAYLOAD)
        return 6;
    if (!floor_fits(image, image_length, map, letters, numbers))
        return 7;
    if (numbers[SEQUENCE] > LAST_NUMBER)
        return 11;
    uint8_t *free_letter = memchr(letters, 'f', POSITIONS);
    if (!free_letter)
        return 9;
    size_t page = new_page(image, image_length / BLOCK, numbers);
    if (page == image_length / PAGE)
        return 10;
    size_t key = (size_t)(free_letter - letters), x = file_start[file] + offset;
    uint8_t *bytes = image + PAGE * page;
    frame(bytes, 'N', numbers[SEQUENCE]++, file, offset, (uint32_t)key, (uint32_t)payload_length);
    put_payload(bytes, key_at(image, numbers, key), payload, payload_length);
    if (map[x] != NONE)
        letters[map[PLACES + x]] = 'd';
    *free_letter = 'u';
    map[x] = (uint16_t)page;
    map[PLACES + x] = (uint16_t)key;
    return 0;
}

uint32_t floor_read(const uint8_t *image, size_t image_length, const uint16_t *map,
                    size_t map_length, const uint8_t *letters, size_t letters_length,
                    const uint32_t *numbers, uint32_t file, uint32_t offset, uint8_t *output,
                    size_t output_length, size_t *length)
{
    *length = 0;
    uint32_t refusal = refuse_lent(image_length, map_length, letters_length);
    if (refusal || (refusal = refuse_plan(file, offset)))
        return refusal;
    if (output_length != PAYLOAD)
        return 6;
    if (!floor_fits(image, image_length, map, letters, numbers))
        return 7;
    size_t x = file_start[file] + offset;
    if (map[x] == NONE)
        return 8;
    const uint8_t *page = image + (size_t)PAGE * map[x];
    *length = length_of(page);
    floor_stream(key_at(image, numbers, map[PLACES + x]), output, page + HEADER, *length);
    return 0;
}

/* Whether a place of the file from the offset on has a node. */
static bool any_live(const uint16_t *map, uint32_t file, uint32_t offset)
{
    uint16_t all = NONE;
    for (size_t x = file_start[file] + offset; x < file_start[file + 1]; x++)
        all &= map[x];
    return all != NONE;
}

void floor_remove(uint16_t *map, uint8_t *letters, uint32_t file, uint32_t offset)
{
    for (size_t x = file_start[file] + offset; x < file_start[file + 1]; x++) {
        if (map[x] != NONE)
            letters[map[PLACES + x]] = 'd';
        map[x] = map[PLACES + x] = NONE;
    }
}

uint32_t floor_cut_off(uint8_t *image, size_t image_length, uint16_t *map, size_t map_length,
                       uint8_t *letters, size_t letters_length, uint32_t *numbers, uint32_t file,
                       uint32_t offset)
{
    uint32_t refusal = refuse_lent(image_length, map_length, letters_length);
    if (refusal || (refusal = refuse_plan(file, offset)))
        return refusal;
    if (!floor_fits(image, image_length, map, letters, numbers))
        return 7;
    if (!any_live(map, file, offset))
        return 8;
    if (numbers[SEQUENCE] > LAST_NUMBER)
        return 11;
    size_t page = new_page(image, image_length / BLOCK, numbers);
    if (page == image_length / PAGE)
        return 10;
    uint8_t *bytes = image + PAGE * page;
    memset(bytes + HEADER, ' ', PAYLOAD);
    frame(bytes, 'D', numbers[SEQUENCE]++, file, offset, 0, 0);
    floor_remove(map, letters, file, offset);
    return 0;
}
