/* use.c - calls each function of plain.c once, or the same of the library, to
   see how much code gets linked. */
#include "which.h"

static uint8_t in[PRESENCE_MAX_PENDING_IMAGE_BYTES];
static uint8_t read[PRESENCE_MAX_PARTITIONABLE_READ_BYTES];
static uint8_t out[PRESENCE_MAX_PENDING_IMAGE_BYTES];

int main(int argc, char **argv)
{
    size_t len = (size_t)argc;

    (void)argv;
    return (int)(CHECK_SETUP(in, len).number +
                 OPEN(in, len, 1, out, len).number +
                 STEP(in, len, read, len, 0, out, len).number +
                 SAVE(in, len, out, len).number +
                 CHANGE(in, len, in, len, 1, out, len).number +
                 OUTGOING(in, len).number + OUTGOING_VIEW(in, len).number);
}
