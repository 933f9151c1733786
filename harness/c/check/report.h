/*
 * report.h - counts calls and differences, of each group and in all, and prints
 * them.
 */
#ifndef CHECK_REPORT_H
#define CHECK_REPORT_H

#include <stdint.h>

void begin_group(const char *name);

/* Prints the group's calls and differences. */
void end_group(void);

/* The same, under another name than the one it began with. */
void end_group_as(const char *name);

/* A call of the library, which answered number. */
void count_call(uint32_t number);

/* A difference; of each group the first five are printed. */
void differ(const char *what, unsigned long got, unsigned long wanted);

/* A difference if got is not wanted. */
void same(const char *what, unsigned long got, unsigned long wanted);

/* Differences of the group until now. */
unsigned long differences_of_group(void);

/* Prints the totals of all groups and how often each number was answered.
   Returns the differences of all groups. */
unsigned long print_totals(void);

#endif
