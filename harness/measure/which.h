/*
 * which.h - the functions to measure: of plain.c with -DPLAIN, of the library
 * with a page with -DPAGE (opening and step alone), else of the library.
 */
#ifndef WHICH_H
#define WHICH_H

#ifdef PLAIN
#include "plain.h"
#define CHECK_SETUP plain_check_setup
#define OPEN plain_open
#define STEP plain_step
#define SAVE plain_save
#define CHANGE plain_change
#define OUTGOING plain_outgoing
#define OUTGOING_VIEW plain_outgoing_view
#elif defined PAGE
#include "presence.h"
static uint8_t page[PRESENCE_PAGE_BYTES];
#define OPEN(...) presence_page_open(__VA_ARGS__, page, sizeof page)
#define STEP(...) presence_page_step(__VA_ARGS__, page, sizeof page)
#else
#include "presence.h"
#define CHECK_SETUP presence_check_setup
#define OPEN presence_open
#define STEP presence_step
#define SAVE presence_save
#define CHANGE presence_change
#define OUTGOING presence_outgoing
#define OUTGOING_VIEW presence_outgoing_view
#endif

#endif
