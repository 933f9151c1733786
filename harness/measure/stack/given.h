/* given.h - the inputs in each round of rounds.h, as they should be. */
#ifndef GIVEN_H
#define GIVEN_H

#include "calls.h"

extern struct inputs given;

/* Opens a module and a scan lock.  Arguments N, U, form of the setup, kind of
   rounds.  Returns 0 if they are wrong or the opening is refused. */
int give_opened(char **argument);

/* Whether the module is one with fading. */
int given_fading(void);

/* The number of rounds to make. */
extern const uint32_t given_rounds;

/* The read of round k. */
void give_round(uint32_t k);

/* The image gets a pending change; only with counts. */
void give_change(uint32_t left);

/* Makes the step of the round.  Returns 0 if it is refused. */
int give_step(void);

#endif
