/*
 * What each call leaves behind of keys and payload, on its stack and in vector registers. Prints a line
 * for each call, and ends with status 1 where one is not done.
 *
 * It must be linked with -z now: a dynamic linker that looks for memcpy at its first call saves registers
 * on the stack.
 */
#define _XOPEN_SOURCE 700
#include <stdio.h>

#include "own_stack.h"

/* So many bytes of a secret, one after the other, are no chance. */
#define ENOUGH 8

/* The keys on the image before and after a call. */
static uint8_t keys[2][JOHVIMARU_NOISE_SIZE];

/* Other bytes at each call. */
static void fill(uint8_t *bytes, size_t length)
{
    static uint32_t x = 1;
    for (size_t i = 0; i < length; i++) {
        x = x * 1664525u + 1013904223u;
        bytes[i] = (uint8_t)(x >> 24);
    }
}

/* Keeps the keys of the call before, and takes those that are now on the image. */
static void take_keys(void)
{
    memcpy(keys[0], keys[1], sizeof keys[0]);
    for (size_t page = 0; page < 32; page++) {
        size_t block = numbers[page < 16 ? JOHVIMARU_KEYS_0 : JOHVIMARU_KEYS_1];
        size_t at = block * JOHVIMARU_BLOCK_SIZE + page % 16 * JOHVIMARU_PAGE_SIZE + 30;
        memcpy(keys[1] + page * JOHVIMARU_PAYLOAD_SIZE, image + at, JOHVIMARU_PAYLOAD_SIZE);
    }
}

/* Whether some bytes of a secret are in a place. */
static int has(const uint8_t *place, size_t length, const uint8_t *secret, size_t secret_length)
{
    for (size_t i = 0; i + ENOUGH <= length; i++) {
        for (size_t j = 0; j + ENOUGH <= secret_length; j++) {
            if (place[i] == secret[j] && memcmp(place + i, secret + j, ENOUGH) == 0) {
                return 1;
            }
        }
    }
    return 0;
}

static void print_found(const char *name, const uint8_t *place, size_t length)
{
    int before = has(place, length, keys[0], sizeof keys[0]);
    int after = has(place, length, keys[1], sizeof keys[1]);
    printf(", %s:%s", name, before || after ? " key" : "");
    printf("%s", has(place, length, payload, sizeof payload) ? " payload" : "");
}

/* Makes a call with new noise and prints what it has left. Gives 1 where it was not done. */
static int look(const char *name, void (*call)(void))
{
    size_t used = 2 * JOHVIMARU_STACK_SIZE;
    int done;
    fill(noise, sizeof noise);
    done = done_on_stack(call);
    take_keys();
    printf("%s", name);
    print_found("stack", stack + sizeof stack - used, used);
    print_found("vectors", vectors, sizeof vectors);
    printf("\n");
    return !done;
}

/* Writes at all offsets of file 0. Gives 1 where one write is not done. */
static int write_file(void)
{
    int failed = 0;
    for (uint32_t offset = 0; offset < 32; offset++) {
        failed |= johvimaru_write(STORE, 0, offset, payload, sizeof payload) != JOHVIMARU_DONE;
    }
    return failed;
}

/* ---- The functions for a bus: the first page of key block 0 goes over it, to the last page of the image. */

static uint8_t cycle[2];
static uint32_t registers[JOHVIMARU_MODEL_REGISTERS_LENGTH];
static uint8_t page_register[JOHVIMARU_PAGE_SIZE];
static size_t at;

#define KEY_PAGE image + numbers[JOHVIMARU_KEYS_0] * JOHVIMARU_BLOCK_SIZE, JOHVIMARU_PAGE_SIZE
#define MODEL image, sizeof image, registers, page_register
CALL(tell_byte, johvimaru_bus_program_byte(4095, KEY_PAGE, at, cycle))
CALL(send_byte, johvimaru_model_send(MODEL, cycle[0], cycle[1]))

/* Looks at the last byte of the page, and at the one that has the page programmed. */
static int look_at_bus(void)
{
    int failed = 0;
    for (at = 0; at < JOHVIMARU_BUS_PROGRAM_LENGTH - 3; at++) {
        tell_byte();
        send_byte();
        failed |= reply != JOHVIMARU_DONE;
    }
    failed |= look("byte of a program", tell_byte);
    failed |= look("the model, data", send_byte);
    at++;
    tell_byte();
    return failed | look("the model, 10h", send_byte);
}

int main(void)
{
    int status;
    fill(payload, sizeof payload);
    fill(keys[1], sizeof keys[1]);
    status = look("format", format);
    status |= write_file();
    status |= look("write", write_node);
    status |= look("read", read_node);
    status |= look("mount", mount);
    status |= look("gather", gather);
    status |= look("commit", commit);
    status |= look("mount", mount);
    status |= look("cut-off", cut_off);
    status |= look("write", write_node);
    status |= look("wipe", wipe);
    payload_length = 40;
    status |= look("write of 40 bytes", write_node);
    status |= look("read of 40 bytes", read_node);
    status |= look_at_bus();
    return status;
}
