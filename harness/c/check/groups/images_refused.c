/* images_refused.c - images with a wrong word after the setup: answers 7, 8. */
#include "check/groups/groups.h"

#include <string.h>

#include "check/expect.h"
#include "check/inputs.h"
#include "check/random.h"
#include "check/report.h"
#include "check/sizes.h"
#include "check/words.h"

/* A faulty image: refused alike by step, saving and outgoing word. */
static void refused_image(enum form form, const uint8_t *image, uint32_t n,
                          uint32_t number, uint32_t index)
{
    uint8_t read[READ_MAX];
    size_t len = image_bytes(form, n);

    memset(read, 0, sizeof read);
    outgoing(image, len, number, index);
    save(image, len, len, number, index);
    step(image, len, read, read_bytes(form, n), ones(n), len, number, index,
         NULL);
    /* Lengths and controller wrong too. */
    step(image, len, read, 0, 0xFFFFFFFF, 4, number, index, NULL);
}

/* The image with one word replaced. */
static void refused_word(enum form form, const uint8_t *image, uint32_t n,
                         uint32_t at, uint32_t word, uint32_t number)
{
    uint8_t copy[IMAGE_MAX];
    uint32_t words = (uint32_t)image_bytes(form, n) / 4, later;

    memcpy(copy, image, image_bytes(form, n));
    put(copy, at, word);
    refused_image(form, copy, n, number, at);
    /* A second wrong word further on: the first is named.  Another rounds-left
       word would call for another length. */
    later = at + 1 + below(words - at);
    if (later < words && later != left_at(form, n)) {
        put(copy, later, 0xFFFFFFFF);
        refused_image(form, copy, n, number, at);
    }
}

static void accepted_image(enum form form, const uint8_t *image, uint32_t n)
{
    save(image, image_bytes(form, n), image_bytes(form, n), 0, 0);
}

/* Limits and criticality of the images that are made wrong; Q where it is
   not 0. */
enum { P = 7, R = 4, CRITICALITY = 3, Q = 5 };
#define LIMIT 3.0

static void own_words_refused(enum form form, const uint8_t *image, uint32_t n)
{
    uint32_t at = own_at(form, n), b;

    /* 7: own number 0, N+1, 31; spare bits and view wrong too. */
    refused_word(form, image, n, at, own_word(0, ones(n)), 7);
    refused_word(form, image, n, at, own_word(n + 1, ones(n)), 7);
    refused_word(form, image, n, at, own_word(31, ones(n)), 7);
    refused_word(form, image, n, at, 0xAFE0FFFF, 7);
    /* 8 at the same word: another kind, own number right or wrong. */
    refused_word(form, image, n, at, 0xB0010000 | ones(n), 8);
    refused_word(form, image, n, at, 0x00000000, 8);
    refused_word(form, image, n, at, 0x20000000 | ones(n), 8);
    for (b = 21; b < 28; b++)
        refused_word(form, image, n, at, own_word(1, ones(n)) | 1u << b, 8);
    for (b = n; b < 16; b++)
        refused_word(form, image, n, at, own_word(1, ones(n)) | 1u << b, 8);
}

static void previous_words_refused(enum form form, const uint8_t *image,
                                   uint32_t n, uint32_t j)
{
    uint32_t at = previous_at(form, n, j), b;

    refused_word(form, image, n, at, previous_word(j, 0, 1), 8);
    refused_word(form, image, n, at, previous_word(j - 1, 1, 0), 8);
    refused_word(form, image, n, at, previous_word(j + 1, 1, 0), 8);
    refused_word(form, image, n, at, 0xC0400000 | j << 23, 8);
    for (b = 16; b < 22; b++)
        refused_word(form, image, n, at, previous_word(j, 1, 0) | 1u << b, 8);
    for (b = n; b < 16; b++)
        refused_word(form, image, n, at, previous_word(j, 1, 1u << b), 8);
}

static void syndromes_refused(enum form form, const uint8_t *image, uint32_t n,
                              uint32_t at)
{
    uint32_t b;

    refused_word(form, image, n, at, 0xB0000000, 8);
    refused_word(form, image, n, at, 0xD0000000, 8);
    for (b = n; b < 28; b++)
        refused_word(form, image, n, at, 0xC0000000 | 1u << b, 8);
}

/* Module 1 with this view, in both of its places. */
static void put_own(enum form form, uint8_t *image, uint32_t n, uint32_t view)
{
    put(image, own_at(form, n), own_word(1, view));
    if (has_views(form))
        put(image, local_view_at(image, n), view);
}

/* Penalty words of a module in the view. */
static void penalties_refused(enum form form, const uint8_t *image, uint32_t n,
                              uint32_t j)
{
    uint32_t at = penalty_at(n, j);

    refused_word(form, image, n, at, reward_word(j, 0), 8);
    refused_word(form, image, n, at, penalty_word(j - 1, 0), 8);
    refused_word(form, image, n, at, penalty_word(j + 1, 0), 8);
    refused_word(form, image, n, at, penalty_word(j, 0) | 1u << 21, 8);
    refused_word(form, image, n, at, penalty_word(j, 0) | 1u << 22, 8);
    /* In the view with a penalty over P. */
    refused_word(form, image, n, at, penalty_word(j, P + 1), 8);
    refused_word(form, image, n, at, penalty_word(j, P + CRITICALITY), 8);
    refused_word(form, image, n, at, penalty_word(j, 0x1FFFFF), 8);
}

/* Penalty and reward words of a module out of the view. */
static void counters_out_of_view(enum form form, const uint8_t *image,
                                 uint32_t n, uint32_t j)
{
    uint8_t out[IMAGE_MAX];
    uint32_t at = penalty_at(n, j);

    memcpy(out, image, sizeof out);
    put_own(form, out, n, ones(n) & ~(1u << (j - 1)));
    refused_image(form, out, n, 8, at); /* out of it with penalty 0 */
    refused_word(form, out, n, at, penalty_word(j, P), 8);
    put(out, at, penalty_word(j, P + 1));
    accepted_image(form, out, n);
    put(out, at, penalty_word(j, P + CRITICALITY));
    accepted_image(form, out, n);
    refused_word(form, out, n, at, penalty_word(j, P + CRITICALITY + 1), 8);
    /* A reward below R is accepted. */
    put(out, reward_at(n, j), reward_word(j, R - 1));
    accepted_image(form, out, n);
    refused_word(form, out, n, reward_at(n, j), reward_word(j, R), 8);
}

static void rewards_refused(enum form form, const uint8_t *image, uint32_t n,
                            uint32_t j)
{
    uint8_t charged[IMAGE_MAX];
    uint32_t at = reward_at(n, j);

    /* A reward over 0 with penalty 0. */
    refused_word(form, image, n, at, reward_word(j, 1), 8);
    memcpy(charged, image, sizeof charged);
    put(charged, penalty_at(n, j), penalty_word(j, 1));
    put(charged, at, reward_word(j, R - 1));
    accepted_image(form, charged, n);
    refused_word(form, charged, n, at, reward_word(j, R), 8);
    refused_word(form, charged, n, at, reward_word(j, 0x7FFFFF), 8);
    refused_word(form, charged, n, at, penalty_word(j, 0), 8);
    refused_word(form, charged, n, at, returns_word(j, 0), 8);
    refused_word(form, charged, n, at, reward_word(j - 1, 0), 8);
    refused_word(form, charged, n, at, reward_word(j + 1, 0), 8);
}

/* Module j is in the view, or out of it, by what is counted of it. */
static void put_view(enum form form, uint8_t *image, uint32_t n, uint32_t j,
                     int there)
{
    uint32_t bit = 1u << (j - 1);

    put_own(form, image, n, there ? ones(n) : ones(n) & ~bit);
    if (fades(form))
        put_double(image, score_at(n, j), there ? 0.0 : LIMIT);
    else
        put(image, penalty_at(n, j), penalty_word(j, there ? P : P + 1));
}

/* Return counts: 0 in the view and where Q is 0, else below Q. */
static void returns_refused(enum form form, const uint8_t *image, uint32_t n,
                            uint32_t j)
{
    uint8_t out[IMAGE_MAX];
    uint32_t at = returns_at(form, n, j), b;

    refused_word(form, image, n, at, returns_word(j, 1), 8);
    memcpy(out, image, sizeof out);
    put_view(form, out, n, j, 0);
    refused_word(form, out, n, at, returns_word(j, 1), 8); /* Q = 0 */
    put(out, 0, head_word(form, n, Q));
    accepted_image(form, out, n);
    refused_word(form, out, n, at, returns_word(j, Q), 8);
    refused_word(form, out, n, at, returns_word(j, 0xFFFFF), 8);
    put(out, at, returns_word(j, Q - 1));
    accepted_image(form, out, n);
    refused_word(form, out, n, at, reward_word(j, 0), 8);
    refused_word(form, out, n, at, 0x00000000 | j << 23, 8);
    refused_word(form, out, n, at, returns_word(j - 1, 0), 8);
    refused_word(form, out, n, at, returns_word(j + 1, 0), 8);
    for (b = 20; b < 23; b++)
        refused_word(form, out, n, at, returns_word(j, 1) | 1u << b, 8);
    /* In the view it is no count, though it is below Q. */
    put_view(form, out, n, j, 1);
    refused_image(form, out, n, 8, at);
}

/* Module 1 is out of the view, 2 in it. */
static void largest_counters(uint32_t n)
{
    uint8_t s[SETUP_MAX], image[IMAGE_MAX];

    make_setup(COUNTS, s, n, 1000000, 8000000, 100000);
    put(s, 0, head_word(COUNTS, n, 1000000));
    fresh_image(COUNTS, image, s, n, 1);
    put(image, own_at(COUNTS, n), own_word(1, ones(n) & ~1u));
    put(image, penalty_at(n, 1), penalty_word(1, 1100000));
    put(image, penalty_at(n, 2), penalty_word(2, 1000000));
    put(image, reward_at(n, 1), reward_word(1, 7999999));
    put(image, reward_at(n, 2), reward_word(2, 7999999));
    put(image, returns_at(COUNTS, n, 1), returns_word(1, 999999));
    accepted_image(COUNTS, image, n);
    refused_word(COUNTS, image, n, penalty_at(n, 1), penalty_word(1, 1100001),
                 8);
    refused_word(COUNTS, image, n, penalty_at(n, 2), penalty_word(2, 1000001),
                 8);
    refused_word(COUNTS, image, n, reward_at(n, 2), reward_word(2, 8000000), 8);
    refused_word(COUNTS, image, n, returns_at(COUNTS, n, 1),
                 returns_word(1, 1000000), 8);
    refused_word(COUNTS, image, n, returns_at(COUNTS, n, 2), returns_word(2, 1),
                 8);
}

/* The image with module j's score replaced, which is named at its high half;
   with a later score or return count wrong too. */
static void refused_score(enum form form, const uint8_t *image, uint32_t n,
                          uint32_t j, uint64_t bits)
{
    uint8_t copy[IMAGE_MAX];
    uint32_t at = score_at(n, j);

    memcpy(copy, image, sizeof copy);
    put_double(copy, at, of_bits(bits));
    refused_image(form, copy, n, 8, at);
    put(copy, score_at(n, j) + 2, 0xFFFFFFFF);
    refused_image(form, copy, n, 8, at);
}

static void accepted_score(enum form form, const uint8_t *image, uint32_t n,
                           uint32_t j, uint64_t bits)
{
    uint8_t copy[IMAGE_MAX];

    memcpy(copy, image, sizeof copy);
    put_double(copy, score_at(n, j), of_bits(bits));
    accepted_image(form, copy, n);
}

/* Scores of module j, in the view of the image, and out of it. */
static void scores_refused(enum form form, const uint8_t *image, uint32_t n,
                           uint32_t j, double limit)
{
    static const uint64_t never[] = {
        0x8000000000000000, 0x8000000000000001, /* minus zero, the next */
        0xBFF0000000000000, 0xFFEFFFFFFFFFFFFF, /* negative */
        0x7FF0000000000000, 0xFFF0000000000000, /* infinite */
        0x7FF0000000000001, 0x7FF8000000000000, 0xFFF8000000000000,
        0x7FFFFFFFFFFFFFFF, 0xFFFFFFFFFFFFFFFF  /* no number */
    };
    const uint64_t above[] = {
        bits_of(limit), bits_of(limit) + 1, bits_of(limit) + (1ull << 32),
        bits_of(1e300), 0x7FEFFFFFFFFFFFFF
    };
    const uint64_t under[] = {bits_of(0.0), bits_of(limit) - 1, 1};
    uint8_t out[IMAGE_MAX];
    uint32_t i;

    memcpy(out, image, sizeof out);
    put_view(form, out, n, j, 0);
    for (i = 0; i < COUNT(never); i++) {
        refused_score(form, image, n, j, never[i]);
        refused_score(form, out, n, j, never[i]);
    }
    for (i = 0; i < COUNT(above); i++) {
        refused_score(form, image, n, j, above[i]);
        accepted_score(form, out, n, j, above[i]);
    }
    for (i = 0; i < COUNT(under) && under[i] < bits_of(limit); i++) {
        accepted_score(form, image, n, j, under[i]);
        refused_score(form, out, n, j, under[i]);
    }
}

/* What both forms have; the image is a fresh one. */
static void words_refused(enum form form, const uint8_t *image, uint32_t n)
{
    uint32_t j;

    own_words_refused(form, image, n);
    for (j = 1; j <= n; j++)
        previous_words_refused(form, image, n, j);
    syndromes_refused(form, image, n, latest_at(form, n));
    syndromes_refused(form, image, n, before_at(form, n));
    for (j = 1; j <= n; j++)
        returns_refused(form, image, n, j);
}

static void counts_refused(enum form form, uint32_t n)
{
    uint8_t s[SETUP_MAX], image[IMAGE_MAX];
    uint32_t j;

    make_setup(form, s, n, P, R, CRITICALITY);
    fresh_image(form, image, s, n, n);
    words_refused(form, image, n);
    for (j = 1; j <= n; j++) {
        penalties_refused(form, image, n, j);
        counters_out_of_view(form, image, n, j);
        rewards_refused(form, image, n, j);
    }
}

/* The least limit, one that is no whole number, and the largest. */
static void fading_refused(enum form form, uint32_t n)
{
    const double limits[] = {of_bits(1), 0.1, 1000000.0};
    uint8_t s[SETUP_MAX], image[IMAGE_MAX];
    uint32_t i, j;

    make_fading_setup(form, s, n, 0.5, LIMIT);
    fresh_image(form, image, s, n, n);
    words_refused(form, image, n);
    for (i = 0; i < COUNT(limits); i++) {
        make_fading_setup(form, s, n, 0.5, limits[i]);
        fresh_image(form, image, s, n, n);
        for (j = 1; j <= n; j++)
            scores_refused(form, image, n, j, limits[i]);
    }
}

void group_images_refused(void)
{
    uint32_t n;

    begin_group("images refused");
    for (n = 2; n <= MAX_N; n++) {
        counts_refused(COUNTS, n);
        counts_refused(COUNTS_VIEWS, n);
        largest_counters(n);
        fading_refused(FADING, n);
        fading_refused(FADING_VIEWS, n);
    }
    end_group();
}
