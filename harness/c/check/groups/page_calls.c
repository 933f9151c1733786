/* page_calls.c - calls on a page, and what a page must hold. */
#include "check/groups/page_calls.h"

#include <string.h>

#include "check/expect.h"
#include "check/random.h"
#include "check/report.h"
#include "check/words.h"

uint32_t host(enum op op, uint8_t *page, size_t page_len, uint32_t offset,
              uint32_t value, uint32_t number)
{
    struct call c = {.op = op, .argument = offset, .page = page,
                     .page_len = page_len, .value = value};
    struct result r;

    expect(&c, number, 0, &r);
    if (page_len > 0)
        memcpy(page, r.page, page_len);
    return r.reply.value;
}

void open_paged(enum form form, const uint8_t *setup, uint32_t n, uint32_t own,
                size_t page_len, uint32_t number, uint8_t *image,
                uint8_t *page)
{
    struct call c = {.op = PAGE_OPEN, .in = setup,
                     .in_len = setup_bytes(form, n), .argument = own,
                     .out_len = image_bytes(form, n), .page = page,
                     .page_len = page_len};
    struct result r;

    expect(&c, number, 0, &r);
    same("health of an opening", r.reply.value, 0);
    if (r.reply.number == 0) {
        memcpy(image, r.out, c.out_len);
        memcpy(page, r.page, page_len);
    }
}

uint32_t step_paged(uint32_t n, uint8_t *image, const uint8_t *read,
                    uint32_t controller, uint8_t *page, size_t page_len,
                    uint32_t number)
{
    struct call c = {.op = PAGE_STEP, .in = image,
                     .in_len = presence_image_bytes(image, n), .read = read,
                     .read_len = presence_read_bytes(image, n),
                     .argument = controller,
                     .out_len = presence_stepped_bytes(image, n), .page = page,
                     .page_len = page_len};
    struct result r;

    expect(&c, number, 0, &r);
    if (r.reply.number == 0) {
        memcpy(image, r.out, c.out_len);
        memcpy(page, r.page, page_len);
    }
    return r.reply.value;
}

void random_page(uint8_t *page, size_t len)
{
    size_t i;

    for (i = 0; i < len; i++)
        page[i] = (uint8_t)random32();
}

void page_is(const uint8_t *page, const uint32_t *words, const uint8_t *rest)
{
    uint32_t at;

    for (at = 0; at < 8; at++)
        same("word of the page", get(page, at), words[at]);
    if (memcmp(page + 32, rest + 32, PRESENCE_PAGE_BYTES - 32) != 0)
        differ("rest of the page", 1, 0);
}
