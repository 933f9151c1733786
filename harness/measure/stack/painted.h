/* painted.h - how deep the stack of a call goes. */
#ifndef PAINTED_H
#define PAINTED_H

#include <stddef.h>
#include <stdint.h>

#define PAINTED_STACK_BYTES 16384u

/*
 * Makes a call on a stack of its own, painted before with this byte; number
 * takes what it answers.  Returns the bytes from the top of the stack down to
 * the lowest 8 bytes that were written to.  What a frame keeps but does not
 * write at its lower end does not show.
 */
size_t painted_depth(uint32_t (*call)(void), int paint, uint32_t *number);

#endif
