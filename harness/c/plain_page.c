/*
 * plain_page.c - the register page of presence.h, and why a word was not heard,
 * by hand in plain C99, after E1, E5 and E9 to E11 of document 02.  Apart from
 * plain.c, whose instructions are counted.
 */
#include <string.h>

#include "plain.h"

enum word { HEALTH, VIEW, FLAGS, ENABLE, CAUSES };

static uint32_t get_word(const uint8_t *bytes, uint32_t at)
{
    const uint8_t *b = bytes + 4 * at;

    return (uint32_t)b[0] << 24 | (uint32_t)b[1] << 16 | (uint32_t)b[2] << 8 |
           (uint32_t)b[3];
}

static void put_word(uint8_t *page, uint32_t at, uint32_t value)
{
    uint8_t *b = page + 4 * at;

    b[0] = (uint8_t)(value >> 24);
    b[1] = (uint8_t)(value >> 16);
    b[2] = (uint8_t)(value >> 8);
    b[3] = (uint8_t)value;
}

static presence_answer refused(uint32_t number, uint32_t index)
{
    presence_answer a;

    a.number = number;
    a.index = index;
    a.health = 0;
    return a;
}

static presence_word told(uint32_t number, uint32_t word)
{
    presence_word w;

    w.number = number;
    w.index = 0;
    w.word = word;
    return w;
}

/* The local view, whatever was adopted. */
static uint32_t local_view(const uint8_t *image, uint32_t n)
{
    return PRESENCE_IS_FADING(image) ? PRESENCE_FADING_VIEW(image, n)
                                     : PRESENCE_VIEW(image, n);
}

/* The view that rule 8 finds: without the modules that a change puts out, which
   takes effect before the counting of the step that this image goes into. */
static uint32_t view_found(const uint8_t *image, uint32_t n)
{
    const uint32_t penalties = 2 * n + 6, rewards = 3 * n + 6;
    uint32_t view = local_view(image, n), p, r, j;

    if (presence_rounds_left(image, n) != 1)
        return view;
    p = get_word(image, 5 * n + 7) & 0x0FFFFFFF;
    r = get_word(image, 5 * n + 8) & 0x0FFFFFFF;
    for (j = 0; j < n; j++)
        if ((get_word(image, rewards + j) & 0x007FFFFF) < r &&
            (get_word(image, penalties + j) & 0x001FFFFF) > p)
            view &= ~(1u << j);
    return view;
}

static uint32_t interrupt_of(const uint8_t *page)
{
    return (get_word(page, FLAGS) & get_word(page, ENABLE)) != 0;
}

/* The first cause that applies to a word of n modules, 0 if it is heard. */
static uint32_t cause_of(uint32_t n, uint32_t controller_bit, uint32_t word)
{
    if (controller_bit == 0)
        return PRESENCE_CAUSE_CONTROLLER_LOSS;
    if (word >> 28 != 5)
        return PRESENCE_CAUSE_WRONG_KIND;
    if ((word & 0x0FFFFFFF) >> n != 0)
        return PRESENCE_CAUSE_STRAY_BITS;
    return PRESENCE_CAUSE_HEARD;
}

presence_cause plain_read_cause(uint32_t n, uint32_t controller, uint32_t word)
{
    presence_cause c = {0, 0, 0, 0};

    if (n < 2 || n > PRESENCE_MAX_MODULES) {
        c.number = 2;
    } else if (controller > 1) {
        c.number = 10;
    } else {
        c.cause = cause_of(n, controller, word);
        if (c.cause == PRESENCE_CAUSE_HEARD)
            c.row = word & 0xFFFF;
    }
    return c;
}

/* One byte a module, 0 above N; module 1 comes first. */
static void put_causes(uint8_t *page, uint32_t n, const uint8_t *read,
                       uint32_t controller)
{
    uint8_t *causes = page + 4 * CAUSES;
    uint32_t j;

    memset(causes, 0, PRESENCE_MAX_MODULES);
    for (j = 0; j < n; j++)
        causes[j] = (uint8_t)cause_of(n, controller >> j & 1,
                                      get_word(read, j));
}

presence_answer plain_page_open(const uint8_t *setup, size_t setup_len,
                                uint32_t own, uint8_t *out, size_t out_len,
                                uint8_t *page, size_t page_len)
{
    presence_answer a = plain_check_setup(setup, setup_len);
    uint32_t n;

    if (a.number != 0)
        return a;
    n = setup[3] & 31u;
    if (own < 1 || own > n)
        return refused(7, 0);
    if (out_len != presence_opened_bytes(setup, n) ||
        page_len != PRESENCE_PAGE_BYTES)
        return refused(9, 0);
    a = plain_open(setup, setup_len, own, out, out_len);
    memset(page, 0, page_len);
    put_word(page, HEALTH, (1u << n) - 1);
    put_word(page, VIEW, presence_shown_view(out, n));
    return a;
}

presence_answer plain_page_step(const uint8_t *state, size_t state_len,
                                const uint8_t *read, size_t read_len,
                                uint32_t controller,
                                uint8_t *out, size_t out_len,
                                uint8_t *page, size_t page_len)
{
    presence_word checked = plain_outgoing(state, state_len);
    presence_answer a;
    uint32_t n, flags, found, shown;

    if (checked.number != 0)
        return refused(checked.number, checked.index);
    if (page_len != PRESENCE_PAGE_BYTES)
        return refused(9, 0);
    a = plain_step(state, state_len, read, read_len, controller, out, out_len);
    if (a.number != 0)
        return a;
    n = state[3] & 31u;
    found = view_found(state, n);
    shown = presence_shown_view(out, n);
    flags = get_word(page, FLAGS);
    if (shown != get_word(page, VIEW))
        flags |= PRESENCE_PAGE_VIEW_CHANGED;
    if ((found & ~a.health) != 0)
        flags |= PRESENCE_PAGE_CHARGED;
    put_word(page, HEALTH, a.health);
    put_word(page, VIEW, shown);
    put_word(page, FLAGS, flags);
    put_causes(page, n, read, controller);
    return a;
}

presence_word plain_page_read(const uint8_t *page, size_t page_len,
                              uint32_t offset)
{
    if (page_len != PRESENCE_PAGE_BYTES)
        return told(9, 0);
    if (offset % 4 != 0 || offset > 60)
        return told(17, 0);
    return told(0, get_word(page, offset / 4));
}

presence_word plain_page_write(uint8_t *page, size_t page_len, uint32_t offset,
                               uint32_t value)
{
    presence_word w = plain_page_read(page, page_len, offset);

    if (w.number != 0)
        return w;
    if (offset == PRESENCE_PAGE_FLAGS)
        put_word(page, FLAGS, w.word & ~value);
    else if (offset == PRESENCE_PAGE_ENABLE)
        put_word(page, ENABLE, value);
    else
        return told(18, 0);
    return told(0, interrupt_of(page));
}

presence_word plain_page_interrupt(const uint8_t *page, size_t page_len)
{
    if (page_len != PRESENCE_PAGE_BYTES)
        return told(9, 0);
    return told(0, interrupt_of(page));
}
