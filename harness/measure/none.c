/* none.c - functions that do nothing, to subtract the rest of use.c. */
#include "which.h"

static presence_answer a;
static presence_word w;

presence_answer CHECK_SETUP(const uint8_t *setup, size_t setup_len)
{
    (void)setup, (void)setup_len;
    return a;
}

presence_answer OPEN(const uint8_t *setup, size_t setup_len, uint32_t own,
                     uint8_t *out, size_t out_len)
{
    (void)setup, (void)setup_len, (void)own, (void)out, (void)out_len;
    return a;
}

presence_answer STEP(const uint8_t *state, size_t state_len,
                     const uint8_t *read, size_t read_len, uint32_t controller,
                     uint8_t *out, size_t out_len)
{
    (void)state, (void)state_len, (void)read, (void)read_len;
    (void)controller, (void)out, (void)out_len;
    return a;
}

presence_answer SAVE(const uint8_t *state, size_t state_len, uint8_t *out,
                     size_t out_len)
{
    (void)state, (void)state_len, (void)out, (void)out_len;
    return a;
}

presence_answer CHANGE(const uint8_t *state, size_t state_len,
                       const uint8_t *setup, size_t setup_len, uint32_t lead,
                       uint8_t *out, size_t out_len)
{
    (void)state, (void)state_len, (void)setup, (void)setup_len;
    (void)lead, (void)out, (void)out_len;
    return a;
}

presence_word OUTGOING(const uint8_t *state, size_t state_len)
{
    (void)state, (void)state_len;
    return w;
}

presence_word OUTGOING_VIEW(const uint8_t *state, size_t state_len)
{
    (void)state, (void)state_len;
    return w;
}
