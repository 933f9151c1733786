/*
 * page_views.c - the page of a module whose adopted view is another than its
 * local one, E11 of document 02: word 1 and flag 0 by the adopted view, flag 1
 * by the local one, causes by the syndromes alone.
 */
#include "check/groups/groups.h"

#include <string.h>

#include "check/groups/page_calls.h"
#include "check/inputs.h"
#include "check/report.h"
#include "check/sizes.h"
#include "check/words.h"

/* What modules 1 and 2 say of the three and what module 3 says, the view that
   all carry, and the controller bits; then words 0 to 2 of the page, the local
   view, and word 4. */
static const struct round {
    uint32_t row, row_3, view, controller;
    uint32_t health, shown, flags, local, causes;
} rounds[] = {
    /* All is well but what is adopted. */
    {7, 7, 3, 7, 7, 3, PRESENCE_PAGE_VIEW_CHANGED, 7, 0},
    /* Module 3 is charged, in the local view alone. */
    {3, 7, 3, 7, 3, 3, PRESENCE_PAGE_CHARGED, 7, 0},
    /* It leaves that view, and is in the adopted one again. */
    {3, 7, 7, 7, 3, 7, PRESENCE_PAGE_VIEW_CHANGED | PRESENCE_PAGE_CHARGED, 3,
     0},
    /* Its health is 0, but it is in the adopted view alone. */
    {3, 7, 7, 7, 3, 7, 0, 3, 0},
    /* Nobody is heard: out. */
    {7, 7, 0, 0, 7, 7, 0, 3, 0x01010100},
    /* What all carry then is not adopted. */
    {7, 7, 0, 7, 7, 7, 0, 3, 0}
};

/* P = 1, or the limit 2.0: the second charge puts a module out. */
static void page_of(enum form form)
{
    static const uint8_t zeros[PRESENCE_PAGE_BYTES];
    uint8_t s[SETUP_MAX], image[IMAGE_MAX], page[PRESENCE_PAGE_BYTES];
    uint8_t read[READ_MAX];
    const struct round *r;
    uint32_t words[8], i, j;

    if (fades(form))
        make_fading_setup(form, s, 3, 0.5, 2.0);
    else
        make_setup(form, s, 3, 1, 3, 1);
    open_paged(form, s, 3, 2, sizeof page, 0, image, page);
    for (i = 0; i < COUNT(rounds); i++) {
        r = &rounds[i];
        for (j = 0; j < 3; j++) {
            put(read, j, 0x50000000 | (j == 2 ? r->row_3 : r->row));
            put(read, 3 + j, view_word(r->view));
        }
        step_paged(3, image, read, r->controller, page, sizeof page, 0);
        memset(words, 0, sizeof words);
        words[0] = r->health;
        words[1] = r->shown;
        words[2] = r->flags;
        words[4] = r->causes;
        page_is(page, words, zeros);
        same("local view beside the page", view_of(form, image, 3), r->local);
        same("out beside the page", presence_is_out(image, 3), i >= 4);
        host(PAGE_WRITE, page, sizeof page, PRESENCE_PAGE_FLAGS, 3, 0);
    }
}

/* View words that are missing by their form are no cause, and those that are
   there do not make a syndrome heard. */
static void causes_of(enum form form)
{
    uint8_t s[SETUP_MAX], image[IMAGE_MAX], page[PRESENCE_PAGE_BYTES];
    uint8_t read[READ_MAX];

    usual_setup(form, s, 3);
    open_paged(form, s, 3, 1, sizeof page, 0, image, page);
    put(read, 0, 0x50000007);
    put(read, 1, 0x60000007);
    put(read, 2, 0x5000000F);
    put(read, 3, 0x50000007);
    put(read, 4, 0xA0000007);
    put(read, 5, 0xA0000007);
    step_paged(3, image, read, 7, page, sizeof page, 0);
    same("causes beside view words", get(page, 4), 0x00020300);
    same("view word missing alone", get(image, view_word_at(image, 3, 1)), 0);
    same("view word there alone", get(image, view_word_at(image, 3, 2)),
         0xA0000007);
    same("out with two of three", presence_is_out(image, 3), 0);
}

void group_page_views(void)
{
    begin_group("pages with adopted views");
    page_of(COUNTS_VIEWS);
    page_of(FADING_VIEWS);
    causes_of(COUNTS_VIEWS);
    causes_of(FADING_VIEWS);
    end_group();
}
