/*
 * place.h - calls of the library with every block in memory of exactly its
 * length, at any address modulo 8.
 *
 * After each call the inputs and the bytes around output and page must be as
 * before, and after a refused call output and page too.
 */
#ifndef CHECK_PLACE_H
#define CHECK_PLACE_H

#include "check/call.h"

/* A call with setup or image, read and output at these addresses modulo 8. */
void place_call(const struct call *c, size_t in_off, size_t read_off,
                size_t out_off, struct result *r);

/* A call at the next three addresses modulo 8. */
void call_library(const struct call *c, struct result *r);

#endif
