/*
 * image_lengths.c - images of every length, and outputs of a saving: answers 1,
 * 3 and 9.
 */
#include "check/groups/groups.h"

#include <string.h>

#include "check/expect.h"
#include "check/inputs.h"
#include "check/report.h"
#include "check/sizes.h"

static void lengths_of(enum form form, uint32_t n)
{
    uint8_t s[SETUP_MAX], image[2 * IMAGE_MAX];
    uint8_t read[2 * READ_MAX];
    size_t image_len = image_bytes(form, n), len;
    uint32_t number, controller;

    memset(image, 0xEE, sizeof image);
    memset(read, 0x55, sizeof read);
    low_setup(form, s, n, 1);
    lived_image(form, image, s, n, 1, 10);
    controller = random_read(form, read, n, 4);
    for (len = 0; len <= image_len + 12; len++) {
        number = len == 0 || len % 4 != 0 ? 1 : len != image_len ? 3 : 0;
        outgoing(image, len, number, 0);
        save(image, len, image_len, number, 0);
        step(image, len, read, read_bytes(form, n), controller, image_len,
             number, 0, NULL);
    }
    /* The same words without head bit 5, or with it, are too long or short. */
    put(image, 0, get(image, 0) ^ 1u << 5);
    outgoing(image, image_len, 3, 0);
    put(image, 0, get(image, 0) ^ 1u << 5);
    /* A setup alone is no image, an image no setup. */
    outgoing(image, setup_bytes(form, n), 3, 0);
    check_setup(image, image_len, 3, 0);
    /* Output of a saving. */
    for (len = 0; len <= image_len + 12; len++)
        save(image, image_len, len, len == image_len ? 0 : 9, 0);
}

/* An image with a pending change: only the length that its rounds-left word
   calls for. */
static void pending_lengths(enum form form, uint32_t n)
{
    uint8_t s[SETUP_MAX], new_setup[SETUP_MAX], image[2 * IMAGE_MAX];
    size_t long_len = pending_bytes(form, n), len;
    uint32_t number;

    memset(image, 0xEE, sizeof image);
    low_setup(form, s, n, 0);
    lived_image(form, image, s, n, 1, 10);
    new_limits(new_setup, s, n);
    put_pending(image, new_setup, n, 2);
    for (len = 0; len <= long_len + 12; len++) {
        number = len == 0 || len % 4 != 0 ? 1 : len != long_len ? 3 : 0;
        outgoing(image, len, number, 0);
        save(image, len, long_len, number, 0);
        save(image, long_len, len, len == long_len ? 0 : 9, 0);
        change(image, len, new_setup, setup_bytes(form, n), 1, long_len,
               number == 0 ? 24 : number, 0, NULL);
    }
    drop_pending(image, n); /* none is pending */
    outgoing(image, long_len, 3, 0);
    outgoing(image, image_bytes(form, n), 0, 0);
}

void group_image_lengths(void)
{
    uint32_t n, form;

    begin_group("image lengths");
    for (n = 2; n <= MAX_N; n++) {
        for (form = 0; form < FORMS; form++)
            lengths_of((enum form)form, n);
        pending_lengths(COUNTS, n);
        pending_lengths(COUNTS_VIEWS, n);
    }
    end_group();
}
