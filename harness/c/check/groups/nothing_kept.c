/*
 * nothing_kept.c - modules of all forms in turn, each step made twice:
 * nothing is kept between calls.
 */
#include "check/groups/groups.h"

#include <string.h>

#include "check/expect.h"
#include "check/inputs.h"
#include "check/report.h"
#include "check/sizes.h"

/* A step, a call between if not NULL, and the same step again; image is then
   the one after the step. */
static void step_twice(const struct call *c, const struct call *between,
                       uint8_t *image)
{
    struct result first, second, other;

    both(c, &first);
    if (between != NULL)
        both(between, &other);
    both(c, &second);
    same("number, second time", second.reply.number, first.reply.number);
    same("health, second time", second.reply.value, first.reply.value);
    if (memcmp(first.out, second.out, c->out_len) != 0)
        differ("image, second time", 1, 0);
    memcpy(image, first.out, c->out_len);
}

void group_nothing_kept(void)
{
    static const uint32_t n[] = {16, 3, 16, 5, 16, 7, 4, 16};
    static const enum form form[] = {COUNTS, COUNTS_VIEWS, FADING, FADING_VIEWS,
                                     COUNTS_VIEWS, COUNTS, FADING,
                                     FADING_VIEWS};
    uint8_t s[COUNT(n)][SETUP_MAX], image[COUNT(n)][IMAGE_MAX];
    uint8_t read[COUNT(n)][READ_MAX];
    struct call c[COUNT(n)];
    uint32_t i, k;
    size_t len;

    begin_group("nothing kept");
    for (i = 0; i < COUNT(n); i++) {
        len = image_bytes(form[i], n[i]);
        low_setup(form[i], s[i], n[i], i % 2);
        open_module(s[i], setup_bytes(form[i], n[i]), 2, len, 0, 0, image[i]);
        c[i] = (struct call){.op = STEP, .in = image[i], .in_len = len,
                             .read = read[i],
                             .read_len = read_bytes(form[i], n[i]),
                             .out_len = len};
    }
    for (k = 0; k < 300; k++)
        for (i = 0; i < COUNT(n); i++) {
            c[i].argument = random_read(form[i], read[i], n[i], 2);
            step_twice(&c[i], k > 0 ? &c[(i + 1) % COUNT(n)] : NULL, image[i]);
        }
    end_group();
}
