/* addresses.c - calls at all addresses modulo 8. */
#include "check/groups/groups.h"

#include <string.h>

#include "check/inputs.h"
#include "check/place.h"
#include "check/report.h"
#include "check/sizes.h"

/* An accepted call: the arguments that op takes of those given.  The setup is
   also the new one of a change, the controller bits its lead. */
static struct call accepted_call(enum op op, enum form form, uint32_t n,
                                 const uint8_t *setup, const uint8_t *image,
                                 const uint8_t *read, uint32_t controller)
{
    int of_setup = op == SETUP || op == OPEN;
    int writes = op != SETUP && op != OUTGOING && op != OUTGOING_VIEW;
    struct call c = {.op = op, .read = op == CHANGE ? setup : read};

    c.in = of_setup ? setup : image;
    c.in_len = of_setup ? setup_bytes(form, n) : presence_image_bytes(image, n);
    c.read_len = op == STEP     ? read_bytes(form, n)
                 : op == CHANGE ? setup_bytes(form, n)
                                : 0;
    c.argument = op == OPEN ? n : op == CHANGE ? 1 + controller % 1000
                                               : controller;
    if (writes)
        c.out_len = op == CHANGE ? pending_bytes(form, n)
                    : op == STEP ? presence_stepped_bytes(image, n)
                    : op == OPEN ? image_bytes(form, n)
                                 : c.in_len;
    return c;
}

static void call_at_all_addresses(const struct call *c)
{
    struct result wanted, r;
    size_t in_off, read_off, out_off;

    call_plain(c, &wanted);
    for (in_off = 0; in_off < 8; in_off++)
        for (read_off = 0; read_off < 8; read_off++)
            for (out_off = 0; out_off < 8; out_off++) {
                place_call(c, in_off, read_off, out_off, &r);
                same("number", r.reply.number, 0);
                same("health or word", r.reply.value, wanted.reply.value);
                if (memcmp(r.out, wanted.out, c->out_len) != 0)
                    differ("image", 1, 0);
            }
}

static void all_calls(enum form form, uint32_t n)
{
    uint8_t s[SETUP_MAX], image[IMAGE_MAX], read[READ_MAX];
    struct call c;
    uint32_t op, left, controller = 0;

    low_setup(form, s, n, 1);
    lived_image(form, image, s, n, 1, 30);
    for (op = SETUP; op <= OUTGOING_VIEW; op++) {
        if (op == CHANGE && fades(form))
            continue; /* never accepted */
        controller = random_read(form, read, n, 4);
        c = accepted_call((enum op)op, form, n, s, image, read, controller);
        call_at_all_addresses(&c);
    }
    if (fades(form))
        return;
    for (left = 1; left <= 2; left++) { /* steps with a pending change */
        put_pending(image, s, n, left);
        c = accepted_call(STEP, form, n, s, image, read, controller);
        call_at_all_addresses(&c);
    }
}

void group_addresses(void)
{
    uint32_t n, form;

    begin_group("odd addresses");
    for (n = 2; n <= MAX_N; n += 7)
        for (form = 0; form < FORMS; form++)
            all_calls((enum form)form, n);
    end_group();
}
