/*
 * views_refused.c - images with a wrong word among the view words and views
 * that they end with, E11 of document 02: answer 8.
 */
#include "check/groups/groups.h"

#include <string.h>

#include "check/expect.h"
#include "check/inputs.h"
#include "check/random.h"
#include "check/report.h"
#include "check/sizes.h"
#include "check/words.h"

/* An accepted image, with a pending change or without. */
struct given {
    enum form form;
    uint32_t n;
    size_t len;
    uint8_t image[IMAGE_MAX];
};

/* Refused alike by step, saving, change and both outgoing words. */
static void refused(const struct given *g, const uint8_t *image, uint32_t at)
{
    uint8_t read[READ_MAX];
    uint32_t n = g->n;

    memset(read, 0, sizeof read);
    outgoing(image, g->len, 8, at);
    save(image, g->len, g->len, 8, at);
    step(image, g->len, read, 8 * n, ones(n), g->len, 8, at, NULL);
    step(image, g->len, read, 4 * n, 0xFFFFFFFF, 4, 8, at, NULL);
    change(image, g->len, read, 0, 0, 0, 8, at, NULL);
}

/* The image with one word replaced; then with a second wrong word further on,
   where the first is named. */
static void refused_word(const struct given *g, uint32_t at, uint32_t word)
{
    uint8_t copy[IMAGE_MAX];
    uint32_t words = (uint32_t)g->len / 4, later;

    memcpy(copy, g->image, sizeof copy);
    put(copy, at, word);
    refused(g, copy, at);
    later = at + 1 + below(words - at);
    if (later < words) {
        put(copy, later, 0xFFFFFFFF);
        refused(g, copy, at);
    }
}

static void accepted_word(const struct given *g, uint32_t at, uint32_t word)
{
    uint8_t copy[IMAGE_MAX];

    memcpy(copy, g->image, sizeof copy);
    put(copy, at, word);
    save(copy, g->len, g->len, 0, 0);
}

/* 0 or a view word, whatever the row of the same module is. */
static void view_words_refused(const struct given *g, uint32_t j)
{
    uint32_t n = g->n, at = view_word_at(g->image, n, j), b, kind;

    accepted_word(g, at, 0);
    accepted_word(g, at, 0xA0000000);
    accepted_word(g, at, 0xA0000000 | ones(n));
    for (b = 0; b < n; b++)
        accepted_word(g, at, 0xA0000000 | 1u << b);
    for (b = n; b < 28; b++)
        refused_word(g, at, 0xA0000000 | 1u << b);
    for (b = 0; b < 28; b++) /* no kind, but not 0 */
        refused_word(g, at, 1u << b);
    for (kind = 1; kind < 16; kind++)
        if (kind != 10) {
            refused_word(g, at, kind << 28);
            refused_word(g, at, kind << 28 | ones(n));
        }
    refused_word(g, at, 0xFFFFFFFF);
}

/* The view of the kind 10 word and no other. */
static void local_view_refused(const struct given *g)
{
    uint32_t at = local_view_at(g->image, g->n), b;

    for (b = 0; b < 32; b++)
        refused_word(g, at, get(g->image, at) ^ 1u << b);
    refused_word(g, at, view_word(get(g->image, at)));
}

/* Any view of n modules. */
static void any_view_refused(const struct given *g, uint32_t at)
{
    uint32_t n = g->n, b;

    accepted_word(g, at, 0);
    accepted_word(g, at, ones(n));
    for (b = 0; b < n; b++)
        accepted_word(g, at, 1u << b);
    for (b = n; b < 32; b++) {
        refused_word(g, at, 1u << b);
        refused_word(g, at, 1u << b | ones(n));
    }
    refused_word(g, at, view_word(ones(n)));
}

static void out_refused(const struct given *g)
{
    uint32_t at = out_at(g->image, g->n), b;

    accepted_word(g, at, 0);
    accepted_word(g, at, 1);
    refused_word(g, at, 3);
    for (b = 1; b < 32; b++)
        refused_word(g, at, 1u << b);
    refused_word(g, at, 0xFFFFFFFF);
}

/* A word before the views is wrong, and one of them. */
static void refused_before(const struct given *g, uint32_t at)
{
    uint8_t copy[IMAGE_MAX];

    memcpy(copy, g->image, sizeof copy);
    put(copy, at, 0);
    put(copy, view_word_at(g->image, g->n, 1), 1);
    refused(g, copy, at);
}

static void all_refused(const struct given *g)
{
    uint32_t n = g->n, j;

    save(g->image, g->len, g->len, 0, 0);
    for (j = 1; j <= n; j++)
        view_words_refused(g, j);
    local_view_refused(g);
    any_view_refused(g, earlier_view_at(g->image, n));
    any_view_refused(g, adopted_at(g->image, n));
    out_refused(g);
    refused_before(g, own_at(g->form, n));
    refused_before(g, previous_at(g->form, n, n));
    refused_before(g, latest_at(g->form, n));
    refused_before(g, returns_at(g->form, n, 1));
    if (presence_rounds_left(g->image, n) > 0)
        refused_before(g, new_module_at(n, n));
}

void group_views_refused(void)
{
    uint8_t s[SETUP_MAX], new_setup[SETUP_MAX];
    struct given g;
    uint32_t n, i;

    begin_group("views refused");
    for (n = 2; n <= MAX_N; n++)
        for (i = 0; i < 6; i++) {
            g.form = i % 3 == 0 ? FADING_VIEWS : COUNTS_VIEWS;
            g.n = n;
            low_setup(g.form, s, n, i % 2);
            lived_image(g.form, g.image, s, n, 1 + below(n), 20);
            if (i % 3 == 2) {
                new_limits(new_setup, s, n);
                put_pending(g.image, new_setup, n, 1 + below(1000));
            }
            g.len = presence_image_bytes(g.image, n);
            all_refused(&g);
        }
    end_group();
}
