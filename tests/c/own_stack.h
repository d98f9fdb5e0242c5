/*
 * The calls, each run on a stack of its own that was filled with one byte, and the vector registers as the
 * call left them. For x86-64.
 */
#ifndef OWN_STACK_H
#define OWN_STACK_H

#include <stdint.h>
#include <string.h>
#include <ucontext.h>

#include "johvimaru.h"

#define UNUSED_BYTE 0xA5

static uint8_t image[JOHVIMARU_MAX_BLOCKS * JOHVIMARU_BLOCK_SIZE];
static uint16_t map[JOHVIMARU_MAP_LENGTH];
static uint8_t letters[JOHVIMARU_LETTERS_LENGTH];
static uint32_t numbers[JOHVIMARU_NUMBERS_LENGTH];
static uint8_t noise[JOHVIMARU_NOISE_SIZE];
static uint8_t payload[JOHVIMARU_PAYLOAD_SIZE];
static size_t payload_length = JOHVIMARU_PAYLOAD_SIZE;
static uint8_t output[JOHVIMARU_PAYLOAD_SIZE];
static size_t length;
static uint32_t scratch[JOHVIMARU_SCRATCH_LENGTH];
static uint32_t reply;

/* The stack, and the sixteen vector registers. */
static uint8_t stack[1 << 18];
static uint8_t vectors[16 * 16];

#define EACH_VECTOR(do)                                                                           \
    do(0) do(1) do(2) do(3) do(4) do(5) do(6) do(7)                                               \
    do(8) do(9) do(10) do(11) do(12) do(13) do(14) do(15)
#define CLEAR_VECTOR(i) "pxor %%xmm" #i ", %%xmm" #i "\n\t"
#define SAVE_VECTOR(i) "movups %%xmm" #i ", 16*" #i "(%0)\n\t"

/* A function without arguments that makes a call and keeps its reply and what it left in registers. */
#define CALL(name, ...)                                                                           \
    static void name(void)                                                                        \
    {                                                                                             \
        __asm__ volatile(EACH_VECTOR(CLEAR_VECTOR) ::: "memory");                                 \
        reply = __VA_ARGS__;                                                                      \
        __asm__ volatile(EACH_VECTOR(SAVE_VECTOR)::"r"(vectors) : "memory");                      \
    }

#define STORE                                                                                     \
    image, sizeof image, map, JOHVIMARU_MAP_LENGTH, letters, JOHVIMARU_LETTERS_LENGTH, numbers

CALL(format, johvimaru_format(STORE, noise, sizeof noise))
CALL(write_node, johvimaru_write(STORE, 13, 7, payload, payload_length))
CALL(read_node, johvimaru_read(STORE, 13, 7, output, sizeof output, &length))
CALL(mount, johvimaru_mount(STORE, scratch, JOHVIMARU_SCRATCH_LENGTH))
CALL(cut_off, johvimaru_cut_off(STORE, 13, 0))
CALL(gather, johvimaru_gather(STORE, map[JOHVIMARU_PLACES - 1] / 16u))
CALL(commit, johvimaru_commit(STORE, noise, sizeof noise))
CALL(wipe, johvimaru_wipe(STORE, noise, sizeof noise, 13, 0))

/* Makes one of these calls on the stack. Tells whether it was done. */
static int done_on_stack(void (*call)(void))
{
    static ucontext_t here, there;
    memset(stack, UNUSED_BYTE, sizeof stack);
    getcontext(&there);
    there.uc_stack.ss_sp = stack;
    there.uc_stack.ss_size = sizeof stack;
    there.uc_link = &here;
    makecontext(&there, call, 0);
    reply = JOHVIMARU_POWER_CUT;
    swapcontext(&here, &there);
    return reply == JOHVIMARU_DONE;
}

#endif
