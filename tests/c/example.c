/*
 * A recorder's day: a volume is formatted, records of some 40 bytes and fewer are written, read back and
 * overwritten, the power fails in the middle of a write, the volume is mounted again, a trip is cut off,
 * a block with one live page is gathered, and at the quay a file is wiped and its keys with it. It is C
 * and C++.
 */
#include <inttypes.h>
#include <stdio.h>
#include <string.h>

#include "johvimaru.h"

#define BLOCKS JOHVIMARU_MIN_BLOCKS

/* An image and its working record, as the calls take them, one after the other. */
static uint8_t image[BLOCKS * JOHVIMARU_BLOCK_SIZE];
static uint16_t map[JOHVIMARU_MAP_LENGTH];
static uint8_t letters[JOHVIMARU_LETTERS_LENGTH];
static uint32_t numbers[JOHVIMARU_NUMBERS_LENGTH];

#define STORE                                                                                     \
    image, sizeof image, map, JOHVIMARU_MAP_LENGTH, letters, JOHVIMARU_LETTERS_LENGTH, numbers

/* Noise for the example, other bytes at each call. A device takes it from a source of randomness. */
static uint8_t noise[JOHVIMARU_NOISE_SIZE];

static const uint8_t *new_noise(void)
{
    static uint32_t x = 1;
    for (size_t i = 0; i < sizeof noise; i++) {
        x = x * 1664525u + 1013904223u;
        noise[i] = (uint8_t)(x >> 24);
    }
    return noise;
}

static void say(const char *call, uint32_t reply)
{
    printf("%s: reply %" PRIu32 "\n", call, reply);
}

/* Writes a text as it is, without the zero byte at its end. */
static void write_text(uint32_t file, uint32_t offset, const char *text)
{
    say("write", johvimaru_write(STORE, file, offset, (const uint8_t *)text, strlen(text)));
}

/* Of the output only the payload is printed: there is no zero byte after it. */
static void print_node(uint32_t file, uint32_t offset)
{
    uint8_t output[JOHVIMARU_PAYLOAD_SIZE];
    size_t length;
    uint32_t reply = johvimaru_read(STORE, file, offset, output, sizeof output, &length);
    printf("read file %" PRIu32 " offset %" PRIu32 ": reply %" PRIu32, file, offset, reply);
    if (reply == JOHVIMARU_DONE) {
        printf(", %zu bytes, \"%.*s\"", length, (int)length, (const char *)output);
    }
    printf("\n");
}

static void print_numbers(void)
{
    printf("numbers:");
    for (size_t i = 0; i < JOHVIMARU_NUMBERS_LENGTH; i++) {
        printf(" %" PRIu32, numbers[i]);
    }
    printf("\n");
}

/* The header of a page, which is text. */
static void print_header(size_t page)
{
    printf("page %zu: \"%.30s\"\n", page, (const char *)(image + page * JOHVIMARU_PAGE_SIZE));
}

static unsigned count(char letter)
{
    unsigned n = 0;
    for (size_t p = 0; p < JOHVIMARU_LETTERS_LENGTH; p++) {
        n += letters[p] == (uint8_t)letter;
    }
    return n;
}

/* A line for each node: file, offset, page, key position. Then the used, free and deleted keys. */
static void print_listing(void)
{
    static const uint32_t counts[JOHVIMARU_FILES] = JOHVIMARU_FILE_COUNTS;
    size_t x = 0;
    for (unsigned file = 0; file < JOHVIMARU_FILES; file++) {
        for (unsigned offset = 0; offset < counts[file]; offset++, x++) {
            if (map[x] != JOHVIMARU_NONE) {
                printf("%4u%4u%6u%6u\n", file, offset, (unsigned)map[x],
                       (unsigned)map[JOHVIMARU_PLACES + x]);
            }
        }
    }
    printf("%6u%6u%6u\n", count('u'), count('f'), count('d'));
}

static uint32_t mount(void)
{
    uint32_t scratch[JOHVIMARU_SCRATCH_LENGTH];
    return johvimaru_mount(STORE, scratch, JOHVIMARU_SCRATCH_LENGTH);
}

int main(void)
{
    say("mount, nothing there", mount());
    say("format, noise too short", johvimaru_format(STORE, new_noise(), JOHVIMARU_NOISE_SIZE - 1));
    say("format", johvimaru_format(STORE, new_noise(), JOHVIMARU_NOISE_SIZE));
    print_numbers();

    write_text(0, 0, "draught 4.12 m");
    write_text(2, 5, "track 51.92 N 4.48 E");
    write_text(0, 0, "draught fore 6.80 m, aft 7.05 m at 06:20");
    write_text(0, 1, "");
    print_node(0, 0);
    print_node(0, 1);
    print_node(14, 0);
    print_node(13, 8);
    print_header(48);
    print_header(49);
    print_header(50);

    /* The power fails after the page's header: nobody sees a reply, and the record is lost. */
    say("write, cut at byte 30",
        johvimaru_write_cut(STORE, 2, 5, (const uint8_t *)"lost", 4, 0, 30));
    print_header(51);
    say("mount", mount());
    print_numbers();
    print_node(2, 5);
    printf("letters: %.5s\n", (const char *)letters);

    /* A trip is removed, and its key is marked; the commit replaces the keys of both. */
    say("cut-off file 2 from 5", johvimaru_cut_off(STORE, 2, 5));
    print_node(2, 5);
    print_listing();
    say("commit", johvimaru_commit(STORE, new_noise(), JOHVIMARU_NOISE_SIZE));
    print_numbers();
    print_listing();

    /* Of five pages in block 3 one is live. It is copied, and the next commit or wipe erases the block. */
    say("gather block 3", johvimaru_gather(STORE, 3));
    print_header(32);
    print_node(0, 0);
    say("gather block 3", johvimaru_gather(STORE, 3));

    /* At the quay: file 0 goes, and its keys in the same call. */
    write_text(1, 0, "hopper 3120 t");
    say("wipe file 0", johvimaru_wipe(STORE, new_noise(), JOHVIMARU_NOISE_SIZE, 0, 0));
    print_numbers();
    print_node(0, 0);
    print_node(1, 0);
    print_listing();

    numbers[JOHVIMARU_COMMIT] = 3;
    write_text(0, 0, "the record names a wrong block");
    return 0;
}
