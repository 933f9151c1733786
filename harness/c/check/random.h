/* random.h - random numbers, always the same sequence. */
#ifndef CHECK_RANDOM_H
#define CHECK_RANDOM_H

#include <stdint.h>

uint32_t random32(void);

/* 0..n-1 */
uint32_t below(uint32_t n);

#endif
