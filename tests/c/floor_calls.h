/* What the floor's calls share: the search for empty pages and blocks, nodes removed, and the cipher. */
#ifndef FLOOR_CALLS_H
#define FLOOR_CALLS_H

#include "floor_look.h"

/* The lowest empty block from one on, or the number of blocks. */
static inline size_t floor_empty_block(const uint8_t *image, size_t blocks, size_t from)
{
    while (from < blocks && !block_is_empty(image + BLOCK * from))
        from++;
    return from;
}

/* The page after the block's last that is not empty, as far as 16 of them. */
static inline size_t floor_empty_from(const uint8_t *block)
{
    size_t i = PAGES_IN_BLOCK;
    while (i > 0 && page_is_empty(block + PAGE * (i - 1)))
        i--;
    return i;
}

/* A fresh block's first page where a second block is empty, else pages. */
static inline size_t floor_fresh_page(const uint8_t *image, size_t blocks)
{
    size_t first = floor_empty_block(image, blocks, 0);
    if (first < blocks && floor_empty_block(image, blocks, first + 1) < blocks)
        return first * PAGES_IN_BLOCK;
    return blocks * PAGES_IN_BLOCK;
}

/* Makes the places of a file vacant from an offset on, and their keys deleted. */
void floor_remove(uint16_t *map, uint8_t *letters, uint32_t file, uint32_t offset);

/* Enciphers so many bytes of a payload: out is in with the key stream from counter 0 on added. */
void floor_stream(const uint8_t *key, uint8_t *out, const uint8_t *in, size_t length);

#endif
