/*
 * How a device drives its chip: it makes each call on copies of a mirror and repeats its steps on the chip in
 * the same order, the erases of empty blocks too. The steps of a format and of a mount are read off the image
 * that the call leaves, those of the others are learnt from the form with n and k. The power fails in an
 * erase, and a mount settles the block. It is C and C++.
 */
#include <inttypes.h>
#include <stdio.h>
#include <stdlib.h>
#include <string.h>

#include "johvimaru.h"

#define BLOCKS JOHVIMARU_MIN_BLOCKS
#define IMAGE_SIZE (BLOCKS * JOHVIMARU_BLOCK_SIZE)
#define FOREVER UINT64_MAX

/* ---- A chip: it knows two steps, and reads as memory */

static uint8_t flash[IMAGE_SIZE];

/* The blocks whose last erase was cut: each would lose what is programmed into it, whatever it reads. */
static int unsettled[BLOCKS];

/* The steps for which the power lasts. */
static uint64_t power = FOREVER;

static int all_erased(const uint8_t *bytes, size_t length)
{
    for (size_t i = 0; i < length; i++) {
        if (bytes[i] != 0xFF) {
            return 0;
        }
    }
    return 1;
}

/* Whether the power lasts for one more step. */
static int step_begins(void)
{
    if (power == 0) {
        return 0;
    }
    power -= power == FOREVER ? 0 : 1;
    return 1;
}

/* Programs a page. 0: the power failed before its first byte was written. */
static int program_page(size_t page, const uint8_t *bytes)
{
    uint8_t *at = flash + page * JOHVIMARU_PAGE_SIZE;
    if (!all_erased(at, JOHVIMARU_PAGE_SIZE) || unsettled[page / 16]) {
        printf("page %zu is not empty, or unsettled\n", page);
        exit(1);
    }
    if (!step_begins()) {
        return 0;
    }
    memcpy(at, bytes, JOHVIMARU_PAGE_SIZE);
    return 1;
}

/* Erases a block. 0: the power failed when all its bytes read FFh, before the erase had ended. */
static int erase_block(size_t block)
{
    memset(flash + block * JOHVIMARU_BLOCK_SIZE, 0xFF, JOHVIMARU_BLOCK_SIZE);
    unsettled[block] = !step_begins();
    return !unsettled[block];
}

/* ---- The mirror and its record */

struct store {
    uint8_t image[IMAGE_SIZE];
    uint16_t map[JOHVIMARU_MAP_LENGTH];
    uint8_t letters[JOHVIMARU_LETTERS_LENGTH];
    uint32_t numbers[JOHVIMARU_NUMBERS_LENGTH];
};

static struct store store, before, now, next;

static uint8_t noise[JOHVIMARU_NOISE_SIZE];
static uint8_t payload[40];

/* A call in its form with n and k. */
typedef uint32_t call(struct store *s, uint64_t n, size_t k);

static uint32_t format(struct store *s, uint64_t n, size_t k)
{
    return johvimaru_format_cut(s->image, sizeof s->image, s->map, JOHVIMARU_MAP_LENGTH, s->letters,
                                JOHVIMARU_LETTERS_LENGTH, s->numbers, noise, sizeof noise, n, k);
}

static uint32_t mount(struct store *s, uint64_t n, size_t k)
{
    uint32_t scratch[JOHVIMARU_SCRATCH_LENGTH];
    return johvimaru_mount_cut(s->image, sizeof s->image, s->map, JOHVIMARU_MAP_LENGTH, s->letters,
                               JOHVIMARU_LETTERS_LENGTH, s->numbers, scratch,
                               JOHVIMARU_SCRATCH_LENGTH, n, k);
}

static uint32_t write_node(struct store *s, uint64_t n, size_t k)
{
    return johvimaru_write_cut(s->image, sizeof s->image, s->map, JOHVIMARU_MAP_LENGTH, s->letters,
                               JOHVIMARU_LETTERS_LENGTH, s->numbers, 13, 7, payload, sizeof payload,
                               n, k);
}

static uint32_t cut_off(struct store *s, uint64_t n, size_t k)
{
    return johvimaru_cut_off_cut(s->image, sizeof s->image, s->map, JOHVIMARU_MAP_LENGTH, s->letters,
                                 JOHVIMARU_LETTERS_LENGTH, s->numbers, 13, 0, n, k);
}

/* Gathers the block of the node that is written here. */
static uint32_t gather(struct store *s, uint64_t n, size_t k)
{
    return johvimaru_gather_cut(s->image, sizeof s->image, s->map, JOHVIMARU_MAP_LENGTH, s->letters,
                                JOHVIMARU_LETTERS_LENGTH, s->numbers,
                                s->map[JOHVIMARU_PLACES - 1] / 16u, n, k);
}

static uint32_t commit(struct store *s, uint64_t n, size_t k)
{
    return johvimaru_commit_cut(s->image, sizeof s->image, s->map, JOHVIMARU_MAP_LENGTH, s->letters,
                                JOHVIMARU_LETTERS_LENGTH, s->numbers, noise, sizeof noise, n, k);
}

static uint32_t wipe(struct store *s, uint64_t n, size_t k)
{
    return johvimaru_wipe_cut(s->image, sizeof s->image, s->map, JOHVIMARU_MAP_LENGTH, s->letters,
                              JOHVIMARU_LETTERS_LENGTH, s->numbers, noise, sizeof noise, 13, 0, n,
                              k);
}

/* ---- Steps: on the chip, and when they have ended there, on the mirror */

static uint64_t steps;

/* 0: the power failed. */
static int program(size_t page, const uint8_t *bytes)
{
    steps++;
    if (!program_page(page, bytes)) {
        return 0;
    }
    memcpy(store.image + page * JOHVIMARU_PAGE_SIZE, bytes, JOHVIMARU_PAGE_SIZE);
    return 1;
}

/* 0: the power failed. */
static int erase(size_t block)
{
    steps++;
    if (!erase_block(block)) {
        return 0;
    }
    memset(store.image + block * JOHVIMARU_BLOCK_SIZE, 0xFF, JOHVIMARU_BLOCK_SIZE);
    return 1;
}

/* Repeats the step by which two images differ. 0: the power failed. */
static int repeat_step(const uint8_t *before, const uint8_t *after)
{
    for (size_t block = 0; block < BLOCKS; block++) {
        size_t at = block * JOHVIMARU_BLOCK_SIZE;
        if (memcmp(before + at, after + at, JOHVIMARU_BLOCK_SIZE) != 0
            && all_erased(after + at, JOHVIMARU_BLOCK_SIZE)) {
            return erase(block);
        }
    }
    for (size_t page = 0; page < IMAGE_SIZE / JOHVIMARU_PAGE_SIZE; page++) {
        size_t at = page * JOHVIMARU_PAGE_SIZE;
        if (memcmp(before + at, after + at, JOHVIMARU_PAGE_SIZE) != 0) {
            return program(page, after + at);
        }
    }
    return 1;
}

/* Repeats the steps of a mount that has left an image: it has erased the blocks that are empty there. */
static int repeat_mount(const uint8_t *image)
{
    for (size_t block = 0; block < BLOCKS; block++) {
        if (all_erased(image + block * JOHVIMARU_BLOCK_SIZE, JOHVIMARU_BLOCK_SIZE)
            && !erase(block)) {
            return 0;
        }
    }
    return 1;
}

/* Repeats the steps of a format that has left an image: it has erased all blocks, then programmed 42 pages. */
static int repeat_format(const uint8_t *image)
{
    for (size_t block = 0; block < BLOCKS; block++) {
        if (!erase(block)) {
            return 0;
        }
    }
    for (size_t page = 0; page < 42; page++) {
        if (!program(page, image + page * JOHVIMARU_PAGE_SIZE)) {
            return 0;
        }
    }
    return 1;
}

/* ---- Calls */

/* A call was done, and its steps have ended on the chip: there is then what the call has left. */
static void done(const char *name, uint32_t reply, const struct store *left)
{
    if (memcmp(left->image, flash, IMAGE_SIZE) != 0
        || memcmp(store.image, flash, IMAGE_SIZE) != 0) {
        printf("%s: the call leaves another image\n", name);
        exit(1);
    }
    store = *left;
    printf("%s: reply %" PRIu32 ", steps %" PRIu64 "\n", name, reply, steps);
}

static void say_power_failed(const char *name)
{
    printf("%s: the power failed in step %" PRIu64 "\n", name, steps);
}

/* Makes a call on copies and repeats its steps, after each of which chip and mirror are the same. */
static void on_chip(const char *name, call *call)
{
    uint32_t reply = JOHVIMARU_POWER_CUT;
    before = store;
    now = store;
    steps = 0;
    for (uint64_t n = 1; reply == JOHVIMARU_POWER_CUT; n++) {
        next = before;
        reply = call(&next, n, 0);
        if (!repeat_step(now.image, next.image)) {
            say_power_failed(name);
            return;
        }
        now = next;
        if (memcmp(store.image, flash, IMAGE_SIZE) != 0) {
            printf("%s: after %" PRIu64 " steps the chip is another\n", name, n);
            exit(1);
        }
    }
    done(name, reply, &now);
}

/* A format or a mount: the chip is read, the call is made whole on a copy, and then its steps are repeated. */
static void from_chip(const char *name, call *call, int (*repeat)(const uint8_t *image))
{
    uint32_t reply;
    memcpy(store.image, flash, IMAGE_SIZE);
    next = store;
    steps = 0;
    reply = call(&next, FOREVER, 0);
    if (reply != JOHVIMARU_DONE) {
        printf("%s: reply %" PRIu32 ", nothing is done to the chip\n", name, reply);
        return;
    }
    if (!repeat(next.image)) {
        say_power_failed(name);
        return;
    }
    done(name, reply, &next);
}

/* ---- Reads, on the chip itself */

/* Reads into an output of stars, of which only the payload's bytes may become others. */
static void read_chip(uint32_t file, uint32_t offset)
{
    uint8_t output[JOHVIMARU_PAYLOAD_SIZE];
    size_t length = sizeof output;
    size_t stars = 0;
    uint32_t reply;
    memset(output, '*', sizeof output);
    reply = johvimaru_read(flash, sizeof flash, store.map, JOHVIMARU_MAP_LENGTH, store.letters,
                           JOHVIMARU_LETTERS_LENGTH, store.numbers, file, offset, output,
                           sizeof output, &length);
    while (stars < sizeof output && output[sizeof output - 1 - stars] == '*') {
        stars++;
    }
    printf("read: reply %" PRIu32 ", %zu bytes, %s, then %zu stars\n", reply, length,
           length == sizeof payload && memcmp(output, payload, length) == 0 ? "the payload" : "none",
           stars);
}

static void print_unsettled(void)
{
    for (size_t block = 0; block < BLOCKS; block++) {
        if (unsettled[block]) {
            printf("block %zu is unsettled and reads %s\n", block,
                   all_erased(flash + block * JOHVIMARU_BLOCK_SIZE, JOHVIMARU_BLOCK_SIZE)
                       ? "FFh"
                       : "other bytes");
        }
    }
}

int main(void)
{
    const uint8_t counts[JOHVIMARU_FILES] = JOHVIMARU_FILE_COUNTS;
    memset(payload, 'p', sizeof payload);
    from_chip("mount", mount, repeat_mount);
    from_chip("format", format, repeat_format);
    on_chip("write", write_node);
    on_chip("write", write_node);

    /* The last offset of the last file has it, and the first one nothing. */
    read_chip(JOHVIMARU_FILES - 1, counts[JOHVIMARU_FILES - 1] - 1u);
    read_chip(JOHVIMARU_FILES - 1, 0);

    on_chip("gather", gather);
    on_chip("commit", commit);
    on_chip("cut-off", cut_off);
    on_chip("write", write_node);
    on_chip("wipe", wipe);

    /* Whenever the power comes on, a mount erases the spare blocks, also after a call that was done. */
    from_chip("mount", mount, repeat_mount);

    /* The power fails in the first erase of a commit. A mount settles the block before it is used again. */
    power = 16;
    on_chip("commit", commit);
    print_unsettled();
    power = FOREVER;
    from_chip("mount", mount, repeat_mount);
    print_unsettled();
    on_chip("commit", commit);
    return 0;
}
