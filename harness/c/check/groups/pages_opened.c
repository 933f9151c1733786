/* pages_opened.c - openings with a page. */
#include "check/groups/groups.h"

#include <string.h>

#include "check/groups/page_calls.h"
#include "check/inputs.h"
#include "check/report.h"
#include "check/sizes.h"
#include "check/words.h"

static void pages_of(enum form form, uint32_t n)
{
    static const uint8_t zeros[PRESENCE_PAGE_BYTES];
    uint32_t words[8] = {ones(n), ones(n)}; /* the others 0 */
    uint8_t s[SETUP_MAX], image[IMAGE_MAX], wanted[IMAGE_MAX], page[OUT_MAX];
    uint32_t own;
    size_t len;

    any_setup(form, s, n, n % 2);
    for (own = 1; own <= n; own++) {
        random_page(page, sizeof page);
        open_paged(form, s, n, own, PRESENCE_PAGE_BYTES, 0, image, page);
        page_is(page, words, zeros);
        fresh_image(form, wanted, s, n, own);
        if (memcmp(image, wanted, image_bytes(form, n)) != 0)
            differ("fresh image with a page", 1, 0);
    }
    for (len = 0; len <= 2 * PRESENCE_PAGE_BYTES; len++)
        if (len != PRESENCE_PAGE_BYTES)
            open_paged(form, s, n, 1, len, 9, image, page);
    open_paged(form, s, n, n + 1, 63, 7, image, page);
}

void group_pages_opened(void)
{
    uint32_t n, form;

    begin_group("pages opened");
    for (n = 2; n <= MAX_N; n++)
        for (form = 0; form < FORMS; form++)
            pages_of((enum form)form, n);
    end_group();
}
