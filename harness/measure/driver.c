/*
 * driver.c - makes steps for callgrind to count.
 *
 *   driver N U counts|fading|counts+views|fading+views
 *          quiet|loud|late|away|back ROUNDS [waits|applied]
 *
 * With waits a change is pending in each step and after it, with applied it is
 * applied in each.
 *
 * Prints a checksum over the final image and all health vectors, how many rows
 * of the table are present and different after alignment, how often modules
 * left the view and returned, and how many steps adopted no view.
 */
#include <stdio.h>

#include "rounds.h"
#include "which.h"

static uint32_t ones(uint32_t vector)
{
    uint32_t count = 0;

    for (; vector != 0; vector &= vector - 1)
        count++;
    return count;
}

enum change { NONE, WAITS, APPLIED };

/* By the arguments. */
static enum change change_of(int argc, char **argv)
{
    if (argc < 7)
        return NONE;
    return strcmp(argv[6], "waits") == 0 ? WAITS : APPLIED;
}

/* The view stands in the word after the setup. */
static uint32_t view_of(const struct rounds *r, const uint8_t *image)
{
    return (uint32_t)image[r->setup_len + 2] << 8 | image[r->setup_len + 3];
}

int main(int argc, char **argv)
{
    static struct rounds r;
    static uint8_t image[2][IMAGE_BYTES];
    enum change change = change_of(argc, argv);
    presence_answer a;
    uint32_t k, rounds, now = 0, sum = 2166136261u, healths = 0;
    uint32_t view, before, left = 0, returned = 0, out = 0;
    size_t len, out_len, i;

    if (argc < 6 || argc > 7 || !rounds_from(&r, argv + 1)) {
        fprintf(stderr, "driver N U counts|fading|counts+views|fading+views "
                        "quiet|loud|late|away|back ROUNDS [waits|applied]\n");
        return 2;
    }
    rounds = (uint32_t)atoi(argv[5]);
    a = OPEN(r.setup, r.setup_len, r.own, image[0], r.image_len);
    len = change == NONE ? r.image_len : presence_changed_bytes(r.setup, r.n);
    out_len = change == WAITS ? len : r.image_len;
    rounds_begin(&r, image[0]);
    before = view_of(&r, image[0]);
    for (k = 0; a.number == 0 && k < rounds; k++) {
        if (change != NONE)
            rounds_change(&r, image[now], k, change == WAITS ? 1000 : 1);
        a = STEP(image[now], len, r.read[k % PERIOD], r.read_len,
                 r.controller[k % PERIOD], image[1 - now], out_len);
        healths = healths * 31 + a.health;
        now = 1 - now;
        out += (uint32_t)rounds_in_again(&r, image[now]);
        view = view_of(&r, image[now]);
        left += ones(before & ~view);
        returned += ones(view & ~before);
        before = view;
    }
    if (a.number != 0) {
        fprintf(stderr, "refused %u at %u\n", (unsigned)a.number,
                (unsigned)a.index);
        return 1;
    }
    if ((returned > 0) != (r.kind == BACK)) {
        fprintf(stderr, "%u returns\n", (unsigned)returned);
        return 1;
    }
    for (i = 0; i < out_len; i++)
        sum = (sum ^ image[now][i]) * 16777619u;
    printf("image %08X health %08X rows %u present %u different %u left %u "
           "returned %u out %u\n", (unsigned)sum, (unsigned)healths,
           (unsigned)r.rows, (unsigned)r.present, (unsigned)r.different,
           (unsigned)left, (unsigned)returned, (unsigned)out);
    return 0;
}
