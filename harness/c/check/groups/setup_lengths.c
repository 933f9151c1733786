/* setup_lengths.c - setups of every length: answers 1 and 3. */
#include "check/groups/groups.h"

#include <string.h>

#include "check/expect.h"
#include "check/inputs.h"
#include "check/random.h"
#include "check/report.h"
#include "check/sizes.h"
#include "check/words.h"

static void lengths_of(enum form form, uint32_t n)
{
    uint8_t s[2 * IMAGE_MAX];
    size_t setup_len = setup_bytes(form, n), len;
    uint32_t number;

    memset(s, 0xEE, sizeof s);
    usual_setup(form, s, n);
    for (len = 0; len <= setup_len + 12; len++) {
        number = len == 0 || len % 4 != 0 ? 1 : len != setup_len ? 3 : 0;
        check_setup(s, len, number, 0);
        open_module(s, len, 1, image_bytes(form, n), number, 0, NULL);
        open_module(s, len, n + 1, 1, number == 0 ? 7 : number, 0, NULL);
    }
    check_setup(s, sizeof s, 3, 0);
    /* A wrong head goes before a wrong length, not before 1. */
    put(s, 0, 0x10000011);
    check_setup(s, 4, 2, 0);
    check_setup(s, setup_len, 2, 0);
    check_setup(s, 5, 1, 0);
    check_setup(s, 0, 1, 0);
}

/* The kind of word 1 alone tells the length: 0 that of fading, all others that
   of counts.  What else is wrong in words 1 and on comes after 3. */
static void kinds_of_word_1(uint32_t n)
{
    uint8_t s[SETUP_MAX];
    uint32_t kind, views;
    enum form form, other;

    for (kind = 0; kind < 16; kind++) {
        form = kind == 0 ? FADING : COUNTS;
        other = kind == 0 ? COUNTS : FADING;
        views = below(2);
        memset(s, 0xEE, sizeof s);
        put(s, 0, head_word(views ? other_views(form) : form, n, 0));
        put(s, 1, kind << 28 | 0x0FFFFFFF);
        check_setup(s, setup_bytes(other, n), 3, 0);
        check_setup(s, setup_bytes(form, n), kind == 0 ? 22 : 4, 1);
        check_setup(s, 4, 3, 0);
        check_setup(s, 8, 3, 0);
    }
}

void group_setup_lengths(void)
{
    uint32_t n, form;

    begin_group("setup lengths");
    for (n = 2; n <= MAX_N; n++) {
        for (form = 0; form < FORMS; form++)
            lengths_of((enum form)form, n);
        kinds_of_word_1(n);
    }
    end_group();
}
