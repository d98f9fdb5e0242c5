/* Gather. */
#include "floor.h"
#include "floor_calls.h"

/* A page with another sequence: all its other bytes stay. */
static inline void copy_page(uint8_t *to, const uint8_t *from, uint32_t sequence)
{
    memcpy(to, from, PAGE);
    store8(to + 1, spell8(sequence));
}

void floor_copy_pages(uint8_t *to, const uint8_t *from, size_t count, uint32_t sequence)
{
    for (size_t i = 0; i < count; i++)
        copy_page(to + PAGE * i, from + PAGE * i, sequence + (uint32_t)i);
}

/* The place of each page of a block, or PLACES where it is not live. Gives how many are. */
static uint32_t live_places(const uint16_t *map, uint32_t block, uint8_t *place)
{
    uint32_t count = 0;
    memset(place, PLACES, PAGES_IN_BLOCK);
    for (unsigned x = 0; x < PLACES; x++)
        if (map[x] / PAGES_IN_BLOCK == block) {
            place[map[x] % PAGES_IN_BLOCK] = (uint8_t)x;
            count++;
        }
    return count;
}

/* The open pages outside a block, lowest first, as far as they are asked for. Gives how many. */
static size_t open_pages(const uint8_t *image, size_t blocks, const uint32_t *numbers,
                         uint32_t but, uint16_t *pages, size_t most)
{
    size_t count = 0;
    for (size_t b = 0; b < blocks && count < most; b++) {
        const uint8_t *block = image + BLOCK * b;
        if (block[BLOCK - PAGE] != 0xFF || b == but || is_chosen(numbers, b) || !has_event(block))
            continue;
        for (size_t i = floor_empty_from(block); i < PAGES_IN_BLOCK && count < most; i++)
            pages[count++] = (uint16_t)(b * PAGES_IN_BLOCK + i);
    }
    return count;
}

/* The pages that so many copies go to, at most 16: those, and then a fresh block's. False where they run out. */
static bool find_pages(const uint8_t *image, size_t blocks, const uint32_t *numbers, uint32_t but,
                       uint16_t *pages, size_t most)
{
    size_t count = open_pages(image, blocks, numbers, but, pages, most);
    if (count == most)
        return true;
    size_t fresh = floor_fresh_page(image, blocks);
    if (fresh == blocks * PAGES_IN_BLOCK)
        return false;
    while (count < most)
        pages[count++] = (uint16_t)fresh++;
    return true;
}

uint32_t floor_gather(uint8_t *image, size_t image_length, uint16_t *map, size_t map_length,
                      uint8_t *letters, size_t letters_length, uint32_t *numbers, uint32_t block)
{
    uint8_t place[PAGES_IN_BLOCK];
    uint16_t pages[PAGES_IN_BLOCK], *to = pages;
    uint32_t refusal = refuse_lent(image_length, map_length, letters_length);
    if (refusal)
        return refusal;
    if (!floor_fits(image, image_length, map, letters, numbers))
        return 7;
    uint32_t count = block < image_length / BLOCK ? live_places(map, block, place) : 0;
    if (count == 0)
        return 15;
    if (numbers[SEQUENCE] + count > LAST_NUMBER + 1)
        return 11;
    if (!find_pages(image, image_length / BLOCK, numbers, block, pages, count))
        return 10;
    for (size_t i = 0; i < PAGES_IN_BLOCK; i++)
        if (place[i] != PLACES) {
            const uint8_t *from = image + (size_t)BLOCK * block + PAGE * i;
            copy_page(image + (size_t)PAGE * *to, from, numbers[SEQUENCE]++);
            map[place[i]] = *to++;
        }
    return 0;
}
