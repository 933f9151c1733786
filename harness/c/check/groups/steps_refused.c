/*
 * steps_refused.c - steps with a wrong read, output or controller: answers 9
 * and 10.
 */
#include "check/groups/groups.h"

#include <string.h>

#include "check/expect.h"
#include "check/inputs.h"
#include "check/report.h"
#include "check/sizes.h"

/* 9: read and output, one byte and one word off, and others. */
static void steps_of_wrong_length(enum form form, const uint8_t *image,
                                  size_t image_len, const uint8_t *read,
                                  uint32_t n, uint32_t controller)
{
    size_t out_len = presence_stepped_bytes(image, n), len;
    size_t read_len = read_bytes(form, n);

    for (len = 0; len <= 8 * n + 12; len++)
        step(image, image_len, read, len, controller, out_len,
             len == read_len ? 0 : 9, 0, NULL);
    for (len = 0; len <= image_len + 12; len++)
        step(image, image_len, read, read_len, controller, len,
             len == out_len ? 0 : 9, 0, NULL);
    step(image, image_len, read, image_len < 128 ? image_len : 128, controller,
         read_len, 9, 0, NULL);
}

/* 10: controller bits at N and above; 9 goes before 10. */
static void steps_of_wrong_controller(enum form form, const uint8_t *image,
                                      size_t len, const uint8_t *read,
                                      uint32_t n, uint32_t controller)
{
    size_t out_len = presence_stepped_bytes(image, n);
    size_t read_len = read_bytes(form, n);
    uint32_t b;

    for (b = n; b < 32; b++) {
        step(image, len, read, read_len, controller | 1u << b, out_len, 10, 0,
             NULL);
        step(image, len, read, read_len, 1u << b, out_len, 10, 0, NULL);
        step(image, len, read, read_len - 1, 1u << b, out_len, 9, 0, NULL);
        step(image, len, read, read_len, 1u << b, out_len + 4, 9, 0, NULL);
    }
    step(image, len, read, read_len, 0xFFFFFFFF, out_len, 10, 0, NULL);
}

static void wrong_steps(enum form form, uint32_t n, uint32_t u)
{
    uint8_t s[SETUP_MAX], image[IMAGE_MAX];
    uint8_t read[2 * READ_MAX];
    size_t len = image_bytes(form, n);
    uint32_t controller;

    memset(read, 0x55, sizeof read);
    low_setup(form, s, n, u);
    lived_image(form, image, s, n, n, 10);
    controller = random_read(form, read, n, 4);
    steps_of_wrong_length(form, image, len, read, n, controller);
    steps_of_wrong_controller(form, image, len, read, n, controller);
}

/* The same with a pending change. */
static void wrong_steps_of_change(enum form form, uint32_t n, uint32_t left)
{
    uint8_t s[SETUP_MAX], new_setup[SETUP_MAX], image[IMAGE_MAX];
    uint8_t read[2 * READ_MAX];
    size_t len = pending_bytes(form, n);
    uint32_t controller;

    memset(read, 0x55, sizeof read);
    low_setup(form, s, n, 1);
    lived_image(form, image, s, n, n, 10);
    new_limits(new_setup, s, n);
    put_pending(image, new_setup, n, left);
    controller = random_read(form, read, n, 4);
    steps_of_wrong_length(form, image, len, read, n, controller);
    steps_of_wrong_controller(form, image, len, read, n, controller);
}

void group_steps_refused(void)
{
    uint32_t n, form;

    begin_group("steps refused");
    for (n = 2; n <= MAX_N; n++) {
        for (form = 0; form < FORMS; form++) {
            wrong_steps((enum form)form, n, 0);
            wrong_steps((enum form)form, n, 1);
        }
        wrong_steps_of_change(COUNTS, n, 1);
        wrong_steps_of_change(COUNTS, n, 2);
        wrong_steps_of_change(COUNTS_VIEWS, n, 1);
        wrong_steps_of_change(COUNTS_VIEWS, n, 2);
        wrong_steps_of_change(COUNTS, n, 1000);
    }
    end_group();
}
