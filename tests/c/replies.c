/* The version and the words of each reply, and of some numbers that are none. It is C and C++. */
#include <inttypes.h>
#include <stdio.h>

#include "johvimaru.h"

static void print_text(uint32_t reply)
{
    printf("%" PRIu32 " %s\n", reply, johvimaru_reply_text(reply));
}

int main(void)
{
    static const uint32_t others[] = {16, 254, 256, UINT32_MAX};
    printf("version %u\n", johvimaru_version());
    for (uint32_t reply = JOHVIMARU_DONE; reply <= JOHVIMARU_NOTHING_TO_GATHER; reply++) {
        print_text(reply);
    }
    print_text(JOHVIMARU_POWER_CUT);
    for (size_t i = 0; i < sizeof others / sizeof others[0]; i++) {
        print_text(others[i]);
    }
    return 0;
}
