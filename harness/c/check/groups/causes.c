/* causes.c - why a word is not heard: answers 2 and 10, and every cause. */
#include "check/groups/groups.h"

#include "check/expect.h"
#include "check/random.h"
#include "check/report.h"
#include "check/sizes.h"
#include "check/words.h"

#define BUS 0x50000000u

/* The call must be refused by number. */
static void refused(uint32_t n, uint32_t controller, uint32_t word,
                    uint32_t number)
{
    struct call c = {.op = READ_CAUSE, .argument = controller, .value = word,
                     .n = n};
    struct result r;

    expect(&c, number, 0, &r);
}

/* The call must be accepted with this cause and row. */
static void answers(uint32_t n, uint32_t controller, uint32_t word,
                    uint32_t cause, uint32_t row)
{
    struct call c = {.op = READ_CAUSE, .argument = controller, .value = word,
                     .n = n};
    struct result r;

    expect(&c, 0, 0, &r);
    same("cause", r.reply.value, cause);
    same("row of the word", r.reply.row, row);
}

/* Rows of one bit, of none and of all; each bit from N on alone, and with a
   row. */
static void words_of_kind_5(uint32_t n)
{
    uint32_t bit;

    answers(n, 1, BUS, 0, 0);
    answers(n, 1, BUS | ones(n), 0, ones(n));
    for (bit = 0; bit < n; bit++)
        answers(n, 1, BUS | 1u << bit, 0, 1u << bit);
    for (bit = n; bit < 28; bit++) {
        answers(n, 1, BUS | 1u << bit, 3, 0);
        answers(n, 1, BUS | 1u << bit | ones(n), 3, 0);
    }
    answers(n, 1, 0x5FFFFFFF, 3, 0);
}

/* The kind goes before stray bits, the controller bit before both. */
static void order_of_causes(uint32_t n)
{
    uint32_t kind;

    for (kind = 0; kind < 16; kind++) {
        answers(n, 0, kind << 28 | ones(n), 1, 0);
        answers(n, 0, kind << 28 | 1u << n, 1, 0);
        if (kind != 5) {
            answers(n, 1, kind << 28, 2, 0);
            answers(n, 1, kind << 28 | ones(n), 2, 0);
            answers(n, 1, kind << 28 | 1u << n, 2, 0);
        }
    }
}

/* N out of range, and what is no bit; N goes first. */
static void causes_refused(void)
{
    static const uint32_t no_n[] = {0, 1, 17, 18, 32, 34, 258, 0x10004,
                                    0x80000004, 0xFFFFFFFF};
    static const uint32_t no_bit[] = {2, 3, 256, 257, 0x80000000, 0xFFFFFFFF};
    uint32_t i, k, n;

    for (i = 0; i < COUNT(no_n); i++) {
        refused(no_n[i], 1, BUS, 2);
        refused(no_n[i], 0, 0, 2);
        for (k = 0; k < COUNT(no_bit); k++)
            refused(no_n[i], no_bit[k], BUS, 2);
    }
    for (n = 2; n <= MAX_N; n++)
        for (k = 0; k < COUNT(no_bit); k++)
            refused(n, no_bit[k], BUS | ones(n), 10);
}

void group_causes(void)
{
    struct call c = {.op = READ_CAUSE};
    struct result r;
    uint32_t n, k;

    begin_group("causes");
    for (n = 2; n <= MAX_N; n++) {
        words_of_kind_5(n);
        order_of_causes(n);
    }
    causes_refused();
    for (k = 0; k < 2000; k++) {
        c.n = 1 + below(17);
        c.argument = below(3);
        c.value = below(2) ? random32() : BUS | random32() >> (4 + below(28));
        both(&c, &r);
    }
    end_group();
}
