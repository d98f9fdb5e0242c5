/*
 * A store in plain C with the layout, tests and replies of include/johvimaru.h, made for speed alone:
 * what the proved library's time is measured against. It keeps nothing between calls.
 *
 * The calls take what the library's take and leave the same bytes. They have no forms for a power cut.
 */
#ifndef FLOOR_H
#define FLOOR_H

#include <stddef.h>
#include <stdint.h>

uint32_t floor_write(uint8_t *image, size_t image_length, uint16_t *map, size_t map_length,
                     uint8_t *letters, size_t letters_length, uint32_t *numbers, uint32_t file,
                     uint32_t offset, const uint8_t *payload, size_t payload_length);

uint32_t floor_read(const uint8_t *image, size_t image_length, const uint16_t *map,
                    size_t map_length, const uint8_t *letters, size_t letters_length,
                    const uint32_t *numbers, uint32_t file, uint32_t offset, uint8_t *output,
                    size_t output_length, size_t *length);

uint32_t floor_mount(uint8_t *image, size_t image_length, uint16_t *map, size_t map_length,
                     uint8_t *letters, size_t letters_length, uint32_t *numbers, uint32_t *scratch,
                     size_t scratch_length);

uint32_t floor_cut_off(uint8_t *image, size_t image_length, uint16_t *map, size_t map_length,
                       uint8_t *letters, size_t letters_length, uint32_t *numbers, uint32_t file,
                       uint32_t offset);

uint32_t floor_commit(uint8_t *image, size_t image_length, uint16_t *map, size_t map_length,
                      uint8_t *letters, size_t letters_length, uint32_t *numbers,
                      const uint8_t *noise, size_t noise_length);

uint32_t floor_wipe(uint8_t *image, size_t image_length, uint16_t *map, size_t map_length,
                    uint8_t *letters, size_t letters_length, uint32_t *numbers,
                    const uint8_t *noise, size_t noise_length, uint32_t file, uint32_t offset);

uint32_t floor_gather(uint8_t *image, size_t image_length, uint16_t *map, size_t map_length,
                      uint8_t *letters, size_t letters_length, uint32_t *numbers, uint32_t block);

/* Copies so many pages, one after the other, with sequences from one on: what a gather does without a test. */
void floor_copy_pages(uint8_t *to, const uint8_t *from, size_t count, uint32_t sequence);

/*
 * Takes the cipher from nettle or from libtomcrypt, by the addresses of their functions. One of the two
 * is called before the first write or read.
 */
void floor_use_nettle(void *set_key, void *encrypt, void *crypt);
void floor_use_tomcrypt(int cipher, void *start, void *encrypt, void *done);

#endif
