/* random.c - random numbers, always the same sequence. */
#include "check/random.h"

static uint32_t random_state = 1;

uint32_t random32(void)
{
    random_state ^= random_state << 13;
    random_state ^= random_state >> 17;
    random_state ^= random_state << 5;
    return random_state;
}

uint32_t below(uint32_t n)
{
    return random32() % n;
}
