/*
 * How much stack each call takes: it runs on a stack of its own that was filled with one byte, and the
 * bytes that are still the same at its far end were not used. Prints the calls that take more than the
 * header says, and ends with status 1 where there is one.
 */
#define _XOPEN_SOURCE 700
#include <stdio.h>

#include "own_stack.h"

/* The bytes of stack that a call takes. It must be done. */
static size_t stack_of(void (*call)(void))
{
    size_t unused = 0;
    int done = done_on_stack(call);
    while (unused < sizeof stack && stack[unused] == UNUSED_BYTE) {
        unused++;
    }
    return done ? sizeof stack - unused : sizeof stack;
}

static int too_much(const char *name, void (*call)(void))
{
    size_t bytes = stack_of(call);
    if (bytes <= JOHVIMARU_STACK_SIZE) {
        return 0;
    }
    printf("%s takes %zu bytes of stack\n", name, bytes);
    return 1;
}

/* ---- The functions for a bus */

static uint8_t cycle[2];
static uint8_t received[1];
static uint32_t registers[JOHVIMARU_MODEL_REGISTERS_LENGTH];
static uint8_t page_register[JOHVIMARU_PAGE_SIZE];
static size_t at;

#define MODEL image, sizeof image, registers, page_register
CALL(program_byte, johvimaru_bus_program_byte(4095, noise, JOHVIMARU_PAGE_SIZE, at, cycle))
CALL(erase_byte, johvimaru_bus_erase_byte(255, at, cycle))
CALL(status_reply, johvimaru_bus_reply(received[0]))
CALL(model_send, johvimaru_model_send(MODEL, cycle[0], cycle[1]))
CALL(model_receive, johvimaru_model_receive(MODEL, received))

/* Each byte of a step, told by a function, sent to the model, and the status. */
static int too_much_in_step(void (*tell)(void), size_t length)
{
    int status = 0;
    for (at = 0; at < length; at++) {
        status |= too_much("a byte of a step", tell);
        status |= too_much("send", model_send);
    }
    status |= too_much("receive", model_receive);
    return status | too_much("the reply of a step", status_reply);
}

int main(void)
{
    int status = too_much("format", format);
    status |= too_much("write", write_node);
    status |= too_much("write over a node", write_node);
    status |= too_much("read", read_node);
    status |= too_much("mount", mount);
    status |= too_much("gather", gather);
    status |= too_much("commit", commit);
    status |= too_much("mount after a commit", mount);
    status |= too_much("wipe", wipe);
    status |= too_much("write after a wipe", write_node);
    status |= too_much("cut-off", cut_off);
    status |= too_much("commit after a cut-off", commit);
    payload_length = 5;
    status |= too_much("write of 5 bytes", write_node);
    status |= too_much("read of 5 bytes", read_node);
    status |= too_much_in_step(erase_byte, JOHVIMARU_BUS_ERASE_LENGTH);
    status |= too_much_in_step(program_byte, JOHVIMARU_BUS_PROGRAM_LENGTH);
    return status;
}
