/* image_bits.c - every single bit of an image turned, against plain.c. */
#include "check/groups/groups.h"

#include "check/expect.h"
#include "check/inputs.h"
#include "check/random.h"
#include "check/report.h"
#include "check/sizes.h"
#include "check/words.h"

/* Outgoing words, saving and step of the image in the call; the output of the
   step has this length. */
static void all_of_image(struct call *c, size_t stepped_len)
{
    struct result r;

    c->op = OUTGOING;
    c->out_len = 0;
    both(c, &r);
    c->op = OUTGOING_VIEW;
    both(c, &r);
    c->op = SAVE;
    c->out_len = c->in_len;
    both(c, &r);
    c->op = STEP;
    c->out_len = stepped_len;
    both(c, &r);
}

static void turn_bits(uint8_t *image, size_t len, uint32_t n,
                      const uint8_t *read, uint32_t controller)
{
    struct call c = {.in = image, .in_len = len, .read = read,
                     .read_len = presence_read_bytes(image, n),
                     .argument = controller};
    size_t stepped_len = presence_stepped_bytes(image, n);
    uint32_t at, b, word;

    for (at = 0; at < len / 4; at++) {
        word = get(image, at);
        for (b = 0; b < 32; b++) {
            put(image, at, word ^ 1u << b);
            all_of_image(&c, stepped_len);
        }
        put(image, at, word);
    }
}

static void turn_bits_of(enum form form, uint32_t n, uint32_t u)
{
    uint8_t s[SETUP_MAX], image[IMAGE_MAX], read[READ_MAX];
    uint32_t controller;

    low_setup(form, s, n, u);
    lived_image(form, image, s, n, 1 + below(n), 40);
    controller = random_read(form, read, n, 6);
    turn_bits(image, image_bytes(form, n), n, read, controller);
}

/* The same with a pending change, which the step applies or does not. */
static void turn_bits_of_change(enum form form, uint32_t n, uint32_t u,
                                uint32_t left)
{
    uint8_t s[SETUP_MAX], image[IMAGE_MAX], read[READ_MAX];
    uint8_t new_setup[SETUP_MAX];
    uint32_t controller;

    low_setup(form, s, n, u);
    lived_image(form, image, s, n, 1 + below(n), 40);
    new_limits(new_setup, s, n);
    put_pending(image, new_setup, n, left);
    controller = random_read(form, read, n, 6);
    turn_bits(image, pending_bytes(form, n), n, read, controller);
}

void group_image_bits(void)
{
    uint32_t n, u, form;

    begin_group("single bits of images");
    for (n = 2; n <= MAX_N; n++)
        for (u = 0; u < 2; u++) {
            for (form = 0; form < FORMS; form++)
                turn_bits_of((enum form)form, n, u);
            turn_bits_of_change(COUNTS, n, u, 1 + u);
            turn_bits_of_change(COUNTS_VIEWS, n, u, 1 + u);
        }
    end_group();
}
