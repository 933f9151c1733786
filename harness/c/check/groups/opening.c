/* opening.c - openings, accepted and refused: answers 7 and 9. */
#include "check/groups/groups.h"

#include <string.h>

#include "check/expect.h"
#include "check/inputs.h"
#include "check/report.h"
#include "check/sizes.h"
#include "check/words.h"

/* The lowest limits, the highest, then any. */
static void opening_setup(enum form form, uint8_t *setup, uint32_t n,
                          uint32_t i)
{
    if (i >= 2)
        any_setup(form, setup, n, i % 2);
    else if (fades(form))
        make_fading_setup(form, setup, n, i, i == 0 ? of_bits(1) : 1000000.0);
    else if (i == 0)
        make_setup(form, setup, n, 1, 1, 1);
    else
        make_setup(form, setup, n, 1000000, 8000000, 100000);
}

static void opening_accepted(enum form form, const uint8_t *setup, uint32_t n,
                             uint32_t own)
{
    uint8_t image[IMAGE_MAX], wanted[IMAGE_MAX];
    size_t len = image_bytes(form, n);

    memset(image, 0, sizeof image);
    open_module(setup, setup_bytes(form, n), own, len, 0, 0, image);
    fresh_image(form, wanted, setup, n, own);
    if (memcmp(image, wanted, len) != 0)
        differ("fresh image", 1, 0);
    save(image, len, len, 0, 0);
    same("word of a fresh image", outgoing(image, len, 0, 0),
         0x50000000 | ones(n));
    same("view word of a fresh image", outgoing_view(image, len, 0, 0),
         has_views(form) ? 0xA0000000 | ones(n) : 0);
    same("view by the header's macro", view_of(form, image, n), ones(n));
    same("form by the header's macro", PRESENCE_IS_FADING(image), fades(form));
    same("views by the header's macro", PRESENCE_IS_PARTITIONABLE(image),
         has_views(form));
    same("view shown by the header", presence_shown_view(image, n), ones(n));
    same("out by the header", presence_is_out(image, n), 0);
    same("rounds left by the header", presence_rounds_left(image, n), 0);
    same("length by the header", presence_image_bytes(image, n), len);
    same("length after a step by the header", presence_stepped_bytes(image, n),
         len);
    same("length by the setup", presence_opened_bytes(setup, n), len);
    same("length of a read by the setup", presence_read_bytes(setup, n),
         has_views(form) ? 8 * n : 4 * n);
}

/* 7 for wrong own numbers; 9 for every other output length, whole words or
   not. */
static void openings_refused(enum form form, const uint8_t *setup, uint32_t n)
{
    static const uint32_t wrong_own[] = {
        0, 17, 32, 33, 0x00010001, 0x80000001, 0xFFFFFFFF
    };
    size_t setup_len = setup_bytes(form, n);
    size_t image_len = image_bytes(form, n), len;
    uint32_t i;

    for (i = 0; i < COUNT(wrong_own); i++) {
        open_module(setup, setup_len, wrong_own[i], image_len, 7, 0, NULL);
        open_module(setup, setup_len, wrong_own[i], 1, 7, 0, NULL);
    }
    for (len = 0; len <= image_len + 12; len++)
        if (len != image_len)
            open_module(setup, setup_len, n, len, 9, 0, NULL);
}

static void openings(enum form form, uint32_t n)
{
    uint8_t s[SETUP_MAX];
    uint32_t own, i;

    for (i = 0; i < 6; i++) {
        opening_setup(form, s, n, i);
        for (own = 1; own <= n; own++)
            opening_accepted(form, s, n, own);
        open_module(s, setup_bytes(form, n), n + 1, image_bytes(form, n), 7, 0,
                    NULL);
        open_module(s, setup_bytes(form, n), n + 1, 0, 7, 0, NULL);
    }
    openings_refused(form, s, n);
}

void group_opening(void)
{
    uint32_t n, form;

    begin_group("opening");
    same("setup bytes", PRESENCE_SETUP_BYTES(16), PRESENCE_MAX_SETUP_BYTES);
    same("image bytes", PRESENCE_IMAGE_BYTES(16), PRESENCE_MAX_IMAGE_BYTES);
    same("fading setup bytes", PRESENCE_FADING_SETUP_BYTES(16),
         PRESENCE_MAX_FADING_SETUP_BYTES);
    same("fading image bytes", PRESENCE_FADING_IMAGE_BYTES(16),
         PRESENCE_MAX_FADING_IMAGE_BYTES);
    same("image bytes with a change", PRESENCE_PENDING_IMAGE_BYTES(16),
         PRESENCE_MAX_PENDING_IMAGE_BYTES);
    same("read bytes", PRESENCE_READ_BYTES(16), PRESENCE_MAX_READ_BYTES);
    same("read bytes with views", PRESENCE_PARTITIONABLE_READ_BYTES(16),
         PRESENCE_MAX_PARTITIONABLE_READ_BYTES);
    same("bytes of the views", PRESENCE_VIEWS_BYTES(16),
         PRESENCE_MAX_VIEWS_BYTES);
    for (n = 2; n <= MAX_N; n++)
        for (form = 0; form < FORMS; form++)
            openings((enum form)form, n);
    end_group();
}
