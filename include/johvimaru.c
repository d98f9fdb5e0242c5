/*
 * The version that was built, and what a reply says in words. It is C and C++, and no part of what is
 * proved.
 */
#include "johvimaru.h"

unsigned johvimaru_version(void)
{
    return JOHVIMARU_VERSION;
}

/* The sentences are those of the header. */
const char *johvimaru_reply_text(uint32_t reply)
{
    switch (reply) {
    case JOHVIMARU_DONE:
        return "the call was done";
    case JOHVIMARU_REFUSED_IMAGE:
        return "the image is not 8 to 256 full blocks";
    case JOHVIMARU_REFUSED_LENGTHS:
        return "map, letters or scratch are of a wrong length";
    case JOHVIMARU_REFUSED_NOISE:
        return "the noise is not 7,168 bytes";
    case JOHVIMARU_REFUSED_FILE:
        return "the file is above 13";
    case JOHVIMARU_REFUSED_OFFSET:
        return "the offset is not below the file's count";
    case JOHVIMARU_REFUSED_PAYLOAD:
        return "the payload is not 1 to 224 bytes, or the output for it is not 224 bytes";
    case JOHVIMARU_REFUSED_RECORD:
        return "the record does not fit the image";
    case JOHVIMARU_NOTHING_THERE:
        return "there is no node there";
    case JOHVIMARU_NO_FREE_KEY:
        return "no key is free; a commit replaces the deleted ones";
    case JOHVIMARU_NO_ROOM:
        return "there is no page to take, or no empty block";
    case JOHVIMARU_NUMBERS_SPENT:
        return "the sequences or epochs, which end at 99,999,999, do not last for the call";
    case JOHVIMARU_NO_KEY_BLOCK:
        return "one of the key blocks is nowhere whole on the image";
    case JOHVIMARU_NO_COMMIT:
        return "no commit block on the image is whole";
    case JOHVIMARU_ENTRY_UNFIT:
        return "the image names a page for a place that is not a whole node of it, or one key for "
               "two places";
    case JOHVIMARU_NOTHING_TO_GATHER:
        return "the block is not a data block, or none of its pages is live";
    case JOHVIMARU_POWER_CUT:
        return "the power failed before the call's last step was whole";
    default:
        return "no reply has this number";
    }
}
