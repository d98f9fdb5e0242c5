/*
 * How a device drives a chip over its bus: the library tells the bytes of each step one by one, the device
 * sends them and waits. Here the chip is the library's model of one. The power fails between two bytes of a
 * write, and a mount finds the store as it was before the write, or as it is after it. It is C and C++.
 */
#include <inttypes.h>
#include <stdio.h>
#include <string.h>

#include "johvimaru.h"

#define BLOCKS JOHVIMARU_MIN_BLOCKS
#define IMAGE_SIZE (BLOCKS * JOHVIMARU_BLOCK_SIZE)
#define PAGES (IMAGE_SIZE / JOHVIMARU_PAGE_SIZE)
#define FOREVER SIZE_MAX

/* ---- The bus of a chip. A device has its pins here. */

static uint8_t flash[IMAGE_SIZE];
static uint32_t registers[JOHVIMARU_MODEL_REGISTERS_LENGTH];
static uint8_t page_register[JOHVIMARU_PAGE_SIZE];

/* The bytes for which the power lasts, and those that were sent. */
static size_t power = FOREVER;
static size_t sent;

/*
 * Sends a byte with its mark: a device sets CLE for a command and ALE for an address. After the commands FFh,
 * 10h, D0h and 30h it waits for the ready line. 0: the power is off.
 */
static int send_byte(uint32_t mark, uint8_t byte)
{
    if (power == 0) {
        return 0;
    }
    power -= power == FOREVER ? 0 : 1;
    sent++;
    return johvimaru_model_send(flash, sizeof flash, registers, page_register, mark, byte)
           == JOHVIMARU_DONE;
}

static uint8_t receive_byte(void)
{
    uint8_t byte;
    johvimaru_model_receive(flash, sizeof flash, registers, page_register, &byte);
    return byte;
}

/* ---- The chip: two steps, and a page that is read. 0: the power is off, or the chip failed. */

static int program_page(uint32_t page, const uint8_t *bytes)
{
    uint8_t cycle[2];
    for (size_t i = 0; i < JOHVIMARU_BUS_PROGRAM_LENGTH; i++) {
        if (johvimaru_bus_program_byte(page, bytes, JOHVIMARU_PAGE_SIZE, i, cycle) != JOHVIMARU_DONE
            || !send_byte(cycle[0], cycle[1])) {
            return 0;
        }
    }
    return johvimaru_bus_reply(receive_byte()) == JOHVIMARU_DONE;
}

static int erase_block(uint32_t block)
{
    uint8_t cycle[2];
    for (size_t i = 0; i < JOHVIMARU_BUS_ERASE_LENGTH; i++) {
        if (johvimaru_bus_erase_byte(block, i, cycle) != JOHVIMARU_DONE
            || !send_byte(cycle[0], cycle[1])) {
            return 0;
        }
    }
    return johvimaru_bus_reply(receive_byte()) == JOHVIMARU_DONE;
}

static int read_page(uint32_t page, uint8_t *bytes)
{
    const uint8_t address[5] = {0, 0, (uint8_t)page, (uint8_t)(page >> 8), (uint8_t)(page >> 16)};
    int on = send_byte(JOHVIMARU_BUS_COMMAND, 0xFF) && send_byte(JOHVIMARU_BUS_COMMAND, 0x00);
    for (size_t i = 0; i < sizeof address; i++) {
        on = on && send_byte(JOHVIMARU_BUS_ADDRESS, address[i]);
    }
    on = on && send_byte(JOHVIMARU_BUS_COMMAND, 0x30);
    for (size_t i = 0; on && i < JOHVIMARU_PAGE_SIZE; i++) {
        bytes[i] = receive_byte();
    }
    return on;
}

/* ---- The mirror and its record */

struct store {
    uint8_t image[IMAGE_SIZE];
    uint16_t map[JOHVIMARU_MAP_LENGTH];
    uint8_t letters[JOHVIMARU_LETTERS_LENGTH];
    uint32_t numbers[JOHVIMARU_NUMBERS_LENGTH];
};

static struct store store, now, next;

#define STORE(s)                                                                                  \
    (s)->image, IMAGE_SIZE, (s)->map, JOHVIMARU_MAP_LENGTH, (s)->letters,                         \
        JOHVIMARU_LETTERS_LENGTH, (s)->numbers

/* Noise for the example. A device takes other bytes each time, from a source of randomness. */
static uint8_t noise[JOHVIMARU_NOISE_SIZE];

static int all_erased(const uint8_t *bytes, size_t length)
{
    for (size_t i = 0; i < length; i++) {
        if (bytes[i] != 0xFF) {
            return 0;
        }
    }
    return 1;
}

static void say(const char *call, uint32_t reply, unsigned steps)
{
    printf("%s: reply %" PRIu32 ", steps %u, bytes %zu\n", call, reply, steps, sent);
}

/* A call whose steps have not all ended: the record is void, and a mount comes next. */
static void say_off(const char *call)
{
    printf("%s: the power failed after %zu bytes\n", call, sent);
}

/* ---- Calls. Each is made on a copy, and its steps go to the chip in their order. */

/* All blocks are erased, then pages 0 to 41 are programmed. */
static void format(void)
{
    uint32_t reply = johvimaru_format(STORE(&store), noise, sizeof noise);
    unsigned steps = 0;
    int on = reply == JOHVIMARU_DONE;
    sent = 0;
    for (uint32_t block = 0; on && block < BLOCKS; block++, steps++) {
        on = erase_block(block);
    }
    for (uint32_t page = 0; on && page < 42; page++, steps++) {
        on = program_page(page, store.image + page * JOHVIMARU_PAGE_SIZE);
    }
    say("format", reply, steps);
}

/* The chip is read, and the blocks are erased that are empty once the mount is done. */
static void mount(void)
{
    uint32_t scratch[JOHVIMARU_SCRATCH_LENGTH];
    uint32_t reply;
    unsigned steps = 0;
    int on = 1;
    for (uint32_t page = 0; on && page < PAGES; page++) {
        on = read_page(page, store.image + page * JOHVIMARU_PAGE_SIZE);
    }
    reply = johvimaru_mount(STORE(&store), scratch, JOHVIMARU_SCRATCH_LENGTH);
    on = on && reply == JOHVIMARU_DONE;
    sent = 0;
    for (uint32_t block = 0; on && block < BLOCKS; block++) {
        if (all_erased(store.image + block * JOHVIMARU_BLOCK_SIZE, JOHVIMARU_BLOCK_SIZE)) {
            on = erase_block(block);
            steps++;
        }
    }
    say("mount", reply, steps);
}

/* A write has one step, the page that the map now has at the place: here that of file 0, offset 0. */
static void write_text(const char *text)
{
    uint32_t reply;
    next = store;
    reply = johvimaru_write(STORE(&next), 0, 0, (const uint8_t *)text, strlen(text));
    sent = 0;
    if (reply == JOHVIMARU_DONE
        && !program_page(next.map[0], next.image + next.map[0] * JOHVIMARU_PAGE_SIZE)) {
        say_off("write");
        return;
    }
    store = next;
    say("write", reply, reply == JOHVIMARU_DONE);
}

/* Sends the step by which two images differ. */
static int send_difference(const uint8_t *before, const uint8_t *after)
{
    for (uint32_t block = 0; block < BLOCKS; block++) {
        size_t at = block * JOHVIMARU_BLOCK_SIZE;
        if (memcmp(before + at, after + at, JOHVIMARU_BLOCK_SIZE) != 0
            && all_erased(after + at, JOHVIMARU_BLOCK_SIZE)) {
            return erase_block(block);
        }
    }
    for (uint32_t page = 0; page < PAGES; page++) {
        size_t at = page * JOHVIMARU_PAGE_SIZE;
        if (memcmp(before + at, after + at, JOHVIMARU_PAGE_SIZE) != 0) {
            return program_page(page, after + at);
        }
    }
    return 1;
}

/* The steps of a wipe are learnt from its form with n and k. */
static void wipe(void)
{
    uint32_t reply = JOHVIMARU_POWER_CUT;
    unsigned n = 0;
    now = store;
    sent = 0;
    while (reply == JOHVIMARU_POWER_CUT) {
        n++;
        next = store;
        reply = johvimaru_wipe_cut(STORE(&next), noise, sizeof noise, 0, 0, n, 0);
        if (!send_difference(now.image, next.image)) {
            say_off("wipe");
            return;
        }
        now = next;
    }
    store = next;
    say("wipe", reply, n);
}

/* ---- The day */

static void print_node(void)
{
    uint8_t output[JOHVIMARU_PAYLOAD_SIZE];
    size_t length;
    uint32_t reply = johvimaru_read(STORE(&store), 0, 0, output, sizeof output, &length);
    printf("read: reply %" PRIu32 ", \"%.*s\", the chip is%s the mirror\n", reply, (int)length,
           (const char *)output, memcmp(flash, store.image, IMAGE_SIZE) == 0 ? "" : " not");
}

/* A write in which the power fails after so many bytes, and the mount after it. */
static void write_and_fail(const char *text, size_t bytes)
{
    power = bytes;
    write_text(text);
    power = FOREVER;
    mount();
    print_node();
}

int main(void)
{
    /* Any registers will do: each step begins with a reset. */
    memset(registers, 0x55, sizeof registers);
    for (size_t i = 0; i < sizeof noise; i++) {
        noise[i] = (uint8_t)(i * 7 + i / 251);
    }
    format();
    write_text("draught 4.12 m");
    print_node();

    /* Before the command 10h nothing is written, after it all of the page. */
    write_and_fail("draught 6.80 m", 200);
    write_and_fail("draught 6.80 m", JOHVIMARU_BUS_PROGRAM_LENGTH - 2);
    write_and_fail("draught 6.80 m", JOHVIMARU_BUS_PROGRAM_LENGTH - 1);

    wipe();
    print_node();
    return 0;
}
