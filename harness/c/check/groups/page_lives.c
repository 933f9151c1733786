/* page_lives.c - modules with a page through many random rounds. */
#include "check/groups/groups.h"

#include <string.h>

#include "check/expect.h"
#include "check/groups/page_calls.h"
#include "check/inputs.h"
#include "check/random.h"
#include "check/report.h"
#include "check/sizes.h"
#include "check/words.h"

/* Steps that changed the view shown, steps after which the local view was
   another, and modules that a change put out. */
static unsigned long changes, apart, put_out;

/* The cause of module j + 1 in a read by what the header says of it. */
static uint32_t cause(uint32_t n, const uint8_t *read, uint32_t controller,
                      uint32_t j)
{
    uint32_t word = get(read, j);

    if ((controller >> j & 1) == 0)
        return PRESENCE_CAUSE_CONTROLLER_LOSS;
    if ((word & 0xF0000000) != 0x50000000)
        return PRESENCE_CAUSE_WRONG_KIND;
    return (word & 0x0FFFFFFF & ~ones(n)) != 0 ? PRESENCE_CAUSE_STRAY_BITS
                                               : PRESENCE_CAUSE_HEARD;
}

/* The view that the step counts by, a local one: without those that a change
   puts out, which it applies. */
static uint32_t found_view(enum form form, const uint8_t *image, uint32_t n)
{
    uint32_t view = view_of(form, image, n), new_p, new_r, j;

    if (presence_rounds_left(image, n) != 1)
        return view;
    new_p = get(image, new_p_at(n)) - 0x20000000;
    new_r = get(image, new_r_at(n)) - 0x30000000;
    for (j = 1; j <= n; j++)
        if ((view >> (j - 1) & 1) == 1 &&
            get(image, penalty_at(n, j)) > penalty_word(j, new_p) &&
            get(image, reward_at(n, j)) < reward_word(j, new_r)) {
            view &= ~(1u << (j - 1));
            put_out++;
        }
    return view;
}

/* The adopted view where there is one, else the local one. */
static uint32_t shown(enum form form, const uint8_t *image, uint32_t n)
{
    return has_views(form) ? get(image, adopted_at(image, n))
                           : view_of(form, image, n);
}

/* A step with a page by what the header says of it. */
static void page_follows(enum form form, uint32_t n, uint8_t *image,
                         const uint8_t *read, uint32_t controller,
                         uint8_t *page)
{
    uint8_t old[PRESENCE_PAGE_BYTES];
    uint32_t found = found_view(form, image, n), words[8] = {0}, j;
    uint32_t before = shown(form, image, n);

    memcpy(old, page, sizeof old);
    words[0] = step_paged(n, image, read, controller, page, sizeof old, 0);
    words[1] = shown(form, image, n);
    changes += words[1] != before;
    apart += words[1] != view_of(form, image, n);
    words[2] = get(old, 2) | (words[1] != get(old, 1));
    for (j = 0; j < n; j++)
        if ((found >> j & 1) == 1 && (words[0] >> j & 1) == 0)
            words[2] |= 2;
    words[3] = get(old, 3);
    for (j = 0; j < n; j++)
        words[4 + j / 4] |= cause(n, read, controller, j) << 8 * (3 - j % 4);
    page_is(page, words, old);
    for (j = 1; j <= n; j++)
        same("cause by the header's macros",
             PRESENCE_CAUSE_IN(get(page, PRESENCE_PAGE_CAUSES(j) / 4), j),
             cause(n, read, controller, j - 1));
}

/* Between two steps, at times: new limits, if none are pending. */
static void offer(enum form form, uint8_t *image, uint32_t n)
{
    uint8_t new_setup[SETUP_MAX];

    if (below(8) != 0 || presence_rounds_left(image, n) > 0)
        return;
    new_limits(new_setup, image, n); /* which begins with the setup */
    change(image, image_bytes(form, n), new_setup, setup_bytes(form, n),
           1 + below(4), pending_bytes(form, n), 0, 0, image);
}

static void page_life(enum form form, uint32_t n, uint32_t u, uint32_t steps)
{
    uint8_t s[SETUP_MAX], read[READ_MAX];
    uint8_t image[IMAGE_MAX], page[PRESENCE_PAGE_BYTES];
    uint32_t controller, k, flags;

    random_page(page, sizeof page);
    low_setup(form, s, n, u);
    open_paged(form, s, n, 1 + below(n), sizeof page, 0, image, page);
    host(PAGE_WRITE, page, sizeof page, PRESENCE_PAGE_ENABLE, below(4), 0);
    for (k = 0; k < steps; k++) {
        if (!fades(form))
            offer(form, image, n);
        if (has_views(form) && below(4) == 0) /* as if it were opened anew */
            put(image, out_at(image, n), 0);
        controller = random_read(form, read, n, below(9));
        page_follows(form, n, image, read, controller, page);
        flags = host(PAGE_READ, page, sizeof page, PRESENCE_PAGE_FLAGS, 0, 0);
        same("interrupt", host(INTERRUPT, page, sizeof page, 0, 0, 0),
             (flags & get(page, 3)) != 0);
        if (below(4) == 0)
            host(PAGE_WRITE, page, sizeof page, PRESENCE_PAGE_FLAGS, flags, 0);
        if (below(8) == 0)
            random_page(page, sizeof page);
        if (below(4) == 0) /* refused steps between */
            step_paged(n, image, read, 1u << n, page, sizeof page, 10);
        if (below(4) == 0)
            step_paged(n, image, read, 1u << n, page, below(64), 9);
    }
}

void group_page_lives(void)
{
    uint32_t n, u, form;

    begin_group("lives with a page");
    for (n = 2; n <= MAX_N; n++)
        for (u = 0; u < 2; u++)
            for (form = 0; form < FORMS; form++)
                page_life((enum form)form, n, u, 300);
    if (changes < 1000)
        differ("steps that changed the view", changes, 1000);
    if (apart < 1000)
        differ("steps with another local view", apart, 1000);
    if (put_out < 100)
        differ("modules that a change put out", put_out, 100);
    end_group();
}
