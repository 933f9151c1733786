/* painted.c - makes a call on a painted stack. */
#define _XOPEN_SOURCE 700
#include <stdio.h>
#include <stdlib.h>
#include <string.h>
#include <ucontext.h>

#include "painted.h"

#define WORDS (PAINTED_STACK_BYTES / sizeof(uint64_t))

static uint64_t stack[WORDS] __attribute__((aligned(64)));
static ucontext_t back, painted;
static uint32_t (*volatile chosen)(void);
static volatile uint32_t answered;

static void on_stack(void)
{
    answered = chosen();
}

size_t painted_depth(uint32_t (*call)(void), int paint, uint32_t *number)
{
    uint64_t untouched;
    size_t i;

    memset(&untouched, paint, sizeof untouched);
    memset(stack, paint, sizeof stack);
    chosen = call;
    getcontext(&painted);
    painted.uc_stack.ss_sp = stack;
    painted.uc_stack.ss_size = sizeof stack;
    painted.uc_link = &back;
    makecontext(&painted, on_stack, 0);
    swapcontext(&back, &painted);
    *number = answered;
    for (i = 0; i < WORDS && stack[i] == untouched; i++)
        ;
    if (i < WORDS / 2) {
        fprintf(stderr, "the painted stack is too small\n");
        exit(1);
    }
    return sizeof stack - i * sizeof stack[0];
}
