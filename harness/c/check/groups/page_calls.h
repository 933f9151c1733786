/* page_calls.h - calls on a page, and what a page must hold. */
#ifndef CHECK_PAGE_CALLS_H
#define CHECK_PAGE_CALLS_H

#include "check/call.h"
#include "check/words.h"

/* The host's call, which must answer number; returns the word. */
uint32_t host(enum op op, uint8_t *page, size_t page_len, uint32_t offset,
              uint32_t value, uint32_t number);

/* Opening with a page, which may hold any bytes before it; it must answer
   number.  Image and page are written if it is accepted. */
void open_paged(enum form form, const uint8_t *setup, uint32_t n, uint32_t own,
                size_t page_len, uint32_t number, uint8_t *image,
                uint8_t *page);

/* A step with a page, which must answer number; returns the health vector.
   Image and page are those after it if it is accepted. */
uint32_t step_paged(uint32_t n, uint8_t *image, const uint8_t *read,
                    uint32_t controller, uint8_t *page, size_t page_len,
                    uint32_t number);

void random_page(uint8_t *page, size_t len);

/* Words 0 to 7 of the page must be those given, the others as in rest. */
void page_is(const uint8_t *page, const uint32_t *words, const uint8_t *rest);

#endif
