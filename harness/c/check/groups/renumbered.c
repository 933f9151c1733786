/*
 * renumbered.c - the same modules in other slots, u = 0: E8 of document 02;
 * with changes of the limits, E10, between the steps, and with views, E11.
 */
#include "check/groups/groups.h"

#include <string.h>

#include "check/expect.h"
#include "check/inputs.h"
#include "check/random.h"
#include "check/report.h"
#include "check/sizes.h"
#include "check/words.h"

/* Module j gets the number number[j - 1]. */
struct renumbering {
    enum form form;
    uint32_t n;
    uint32_t number[MAX_N];
};

/* Modules seen to leave the view and to come back, changes, and steps that
   adopted another view. */
static unsigned long left, returned, changes, adopted;

static void any_numbers(struct renumbering *r, enum form form, uint32_t n)
{
    uint32_t i, j, taken;

    r->form = form;
    r->n = n;
    for (i = 0; i < n; i++)
        r->number[i] = i + 1;
    for (i = n - 1; i > 0; i--) {
        j = below(i + 1);
        taken = r->number[i];
        r->number[i] = r->number[j];
        r->number[j] = taken;
    }
}

/* A vector, or a word with one in its N low bits; the other bits stay. */
static uint32_t moved(const struct renumbering *r, uint32_t word)
{
    uint32_t result = word & ~ones(r->n), j;

    for (j = 1; j <= r->n; j++)
        if (word >> (j - 1) & 1)
            result |= 1u << (r->number[j - 1] - 1);
    return result;
}

/* A word with the number of a module in bits 27..23. */
static uint32_t numbered(uint32_t word, uint32_t number)
{
    return (word & ~(31u << 23)) | number << 23;
}

static void move_read(uint8_t *to, const struct renumbering *r,
                      const uint8_t *from)
{
    uint32_t n = r->n, j, i;

    for (j = 1; j <= n; j++) {
        i = r->number[j - 1];
        put(to, i - 1, moved(r, get(from, j - 1)));
        if (has_views(r->form))
            put(to, n + i - 1, moved(r, get(from, n + j - 1)));
    }
}

/* What is counted of module j is counted of module i then. */
static void move_counters(uint8_t *to, const struct renumbering *r,
                          const uint8_t *from, uint32_t j, uint32_t i)
{
    uint32_t n = r->n;

    if (fades(r->form)) {
        memcpy(to + 4 * score_at(n, i), from + 4 * score_at(n, j), 8);
    } else {
        put(to, penalty_at(n, i), numbered(get(from, penalty_at(n, j)), i));
        put(to, reward_at(n, i), numbered(get(from, reward_at(n, j)), i));
    }
    put(to, returns_at(r->form, n, i),
        numbered(get(from, returns_at(r->form, n, j)), i));
}

/* A setup, or the front of an image. */
static void move_setup(uint8_t *to, const struct renumbering *r,
                       const uint8_t *from)
{
    enum form f = r->form;
    uint32_t j, i;

    memcpy(to, from, 4 * module_at(f, 1)); /* head and limits */
    for (j = 1; j <= r->n; j++) {
        i = r->number[j - 1];
        put(to, module_at(f, i), numbered(get(from, module_at(f, j)), i));
    }
}

/* The words of a pending change. */
static void move_pending(uint8_t *to, const struct renumbering *r,
                         const uint8_t *from)
{
    uint32_t n = r->n, j, i;

    memcpy(to + 4 * new_p_at(n), from + 4 * new_p_at(n), 8); /* P and R */
    for (j = 1; j <= n; j++) {
        i = r->number[j - 1];
        put(to, new_module_at(n, i), numbered(get(from, new_module_at(n, j)),
                                              i));
    }
}

/* View words and views, at the same words of both images; out stays. */
static void move_views(uint8_t *to, const struct renumbering *r,
                       const uint8_t *from)
{
    uint32_t n = r->n, j;

    for (j = 1; j <= n; j++)
        put(to, view_word_at(from, n, r->number[j - 1]),
            moved(r, get(from, view_word_at(from, n, j))));
    put(to, local_view_at(from, n), moved(r, get(from, local_view_at(from, n))));
    put(to, earlier_view_at(from, n),
        moved(r, get(from, earlier_view_at(from, n))));
    put(to, adopted_at(from, n), moved(r, get(from, adopted_at(from, n))));
    put(to, out_at(from, n), get(from, out_at(from, n)));
}

/* The setup stands in front of the image and goes with it. */
static void move_image(uint8_t *to, const struct renumbering *r,
                       const uint8_t *from)
{
    enum form f = r->form;
    uint32_t n = r->n, own = get(from, own_at(f, n)), j, i;

    move_setup(to, r, from);
    put(to, own_at(f, n), own_word(r->number[(own >> 16 & 31) - 1],
                                   moved(r, own & 0xFFFF)));
    put(to, latest_at(f, n), moved(r, get(from, latest_at(f, n))));
    put(to, before_at(f, n), moved(r, get(from, before_at(f, n))));
    put(to, left_at(f, n), get(from, left_at(f, n)));
    for (j = 1; j <= n; j++) {
        i = r->number[j - 1];
        put(to, previous_at(f, n, i),
            numbered(moved(r, get(from, previous_at(f, n, j))), i));
        move_counters(to, r, from, j, i);
    }
    if (presence_rounds_left(from, n) > 0)
        move_pending(to, r, from);
    if (has_views(f))
        move_views(to, r, from);
}

static void image_is(const struct renumbering *r, const uint8_t *image,
                     const uint8_t *rebuilt)
{
    uint8_t wanted[IMAGE_MAX];
    size_t len = presence_image_bytes(image, r->n);
    uint32_t at;

    move_image(wanted, r, image);
    for (at = 0; at < len / 4; at++)
        same("word of a renumbered image", get(rebuilt, at), get(wanted, at));
    same("word handed out, renumbered", outgoing(rebuilt, len, 0, 0),
         moved(r, outgoing(image, len, 0, 0)));
    same("view word handed out, renumbered", outgoing_view(rebuilt, len, 0, 0),
         moved(r, outgoing_view(image, len, 0, 0)));
}

/* The same change for a module and for the module that it became, at times. */
static void two_changes(const struct renumbering *r, uint8_t *image,
                        uint8_t *rebuilt)
{
    uint8_t new_setup[SETUP_MAX], new_then[SETUP_MAX];
    uint32_t n = r->n, lead = 1 + below(4);
    size_t len = image_bytes(r->form, n), setup_len = setup_bytes(r->form, n);
    size_t long_len = pending_bytes(r->form, n);

    if (fades(r->form) || below(8) != 0 ||
        presence_rounds_left(image, n) > 0)
        return;
    new_limits(new_setup, image, n);
    move_setup(new_then, r, new_setup);
    change(image, len, new_setup, setup_len, lead, long_len, 0, 0, image);
    change(rebuilt, len, new_then, setup_len, lead, long_len, 0, 0, rebuilt);
    image_is(r, image, rebuilt);
    changes++;
}

/* A step from an image to the one after it. */
static uint32_t step_on(uint8_t *image, uint32_t n, const uint8_t *read,
                        uint32_t controller)
{
    return step(image, presence_image_bytes(image, n), read,
                presence_read_bytes(image, n), controller,
                presence_stepped_bytes(image, n), 0, 0, image);
}

/* Makes the same steps of a module and of the module that it became. */
static void two_lives(enum form form, const uint8_t *setup, uint32_t n,
                      uint32_t steps)
{
    uint8_t read[READ_MAX], read_then[READ_MAX];
    uint8_t image[IMAGE_MAX], rebuilt[IMAGE_MAX];
    size_t setup_len = setup_bytes(form, n), len = image_bytes(form, n);
    uint32_t own = 1 + below(n), faults = 0, k, controller, health, view, shown;
    struct renumbering r;

    any_numbers(&r, form, n);
    fresh_image(form, image, setup, n, own); /* if the opening is refused */
    open_module(setup, setup_len, own, len, 0, 0, image);
    move_image(rebuilt, &r, image);
    open_module(rebuilt, setup_len, r.number[own - 1], len, 0, 0, rebuilt);
    image_is(&r, image, rebuilt);
    for (k = 0; k < steps; k++) {
        if (k % 16 == 0)
            faults = below(9);
        two_changes(&r, image, rebuilt);
        controller = random_read(form, read, n, faults);
        move_read(read_then, &r, read);
        view = view_of(form, image, n);
        shown = presence_shown_view(image, n);
        health = step_on(image, n, read, controller);
        same("health, renumbered",
             step_on(rebuilt, n, read_then, moved(&r, controller)),
             moved(&r, health));
        image_is(&r, image, rebuilt);
        left += (view & ~view_of(form, image, n)) != 0;
        returned += (~view & view_of(form, image, n)) != 0;
        adopted += has_views(form) && shown != presence_shown_view(image, n);
    }
}

void group_renumbered(void)
{
    static const uint32_t p_of[] = {1, 20, 3000, 100000};
    uint8_t setup[SETUP_MAX];
    uint32_t n, i;
    enum form form;

    begin_group("renumbered racks");
    for (n = 2; n <= MAX_N; n++)
        for (i = 0; i < 16; i++) {
            form = i % 2 == 0 ? COUNTS : COUNTS_VIEWS;
            random_setup(form, setup, n, 0, p_of[i / 2 % 4], 1 + below(5));
            two_lives(form, setup, n, 100);
            form = i % 2 == 0 ? FADING : FADING_VIEWS;
            low_setup(form, setup, n, 0);
            two_lives(form, setup, n, 100);
        }
    if (left < 100 || returned < 100)
        differ("modules that left and came back", left, returned);
    if (changes < 100)
        differ("changes", changes, 100);
    if (adopted < 100)
        differ("views adopted", adopted, 100);
    end_group();
}
