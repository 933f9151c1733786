/* backplane.h - modules on a backplane, round after round. */
#ifndef CHECK_BACKPLANE_H
#define CHECK_BACKPLANE_H

#include "check/sizes.h"
#include "check/words.h"

#define ROUNDS 24 /* most rounds that are played */

/* A backplane; form, n, setup and silent are given, and where a change is
   offered to all before the step of a round, that round, the new setup and the
   lead.  Module j stands at j-1, round k at k. */
struct backplane {
    enum form form;
    uint32_t n;
    const uint8_t *setup;
    uint32_t change_in; /* 0 for no change */
    const uint8_t *new_setup;
    uint32_t lead;
    uint32_t silent[ROUNDS + 1][MAX_N]; /* receivers without j */
    uint8_t image[MAX_N][IMAGE_MAX];
    uint32_t word[MAX_N], view_word[MAX_N]; /* what the module sends next */
    uint8_t read[MAX_N][READ_MAX];
    uint32_t controller[MAX_N];
    uint32_t health[ROUNDS + 1][MAX_N];
    uint32_t view[ROUNDS + 1][MAX_N];  /* the local one */
    uint32_t shown[ROUNDS + 1][MAX_N]; /* the adopted one where there are views */
    uint32_t out[ROUNDS + 1][MAX_N];   /* 0 without views */
};

/* Opens all modules and plays rounds 1, 2, ...; every call must be accepted. */
void play(struct backplane *b, uint32_t rounds);

#endif
