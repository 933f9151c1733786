/* report.c - counts calls and differences and prints them. */
#include "check/report.h"

#include <stdio.h>

#include "check/sizes.h"

static const char *group_name;
static unsigned long calls, differences, all_calls, all_differences;
static unsigned long answered[27]; /* calls of the library by answer number */

void begin_group(const char *name)
{
    group_name = name;
    calls = 0;
    differences = 0;
}

static void print_counts(const char *name, unsigned long of_calls,
                         unsigned long of_differences)
{
    printf("%-28s %8lu calls %6lu differences\n", name, of_calls,
           of_differences);
}

void end_group_as(const char *name)
{
    print_counts(name, calls, differences);
    all_calls += calls;
    all_differences += differences;
}

void end_group(void)
{
    end_group_as(group_name);
}

void count_call(uint32_t number)
{
    calls++;
    if (number < COUNT(answered))
        answered[number]++;
}

void differ(const char *what, unsigned long got, unsigned long wanted)
{
    differences++;
    if (differences <= 5)
        printf("  %s: %s: got %lu (0x%lX), wanted %lu (0x%lX)\n", group_name,
               what, got, got, wanted, wanted);
}

void same(const char *what, unsigned long got, unsigned long wanted)
{
    if (got != wanted)
        differ(what, got, wanted);
}

unsigned long differences_of_group(void)
{
    return differences;
}

unsigned long print_totals(void)
{
    int number;

    print_counts("total", all_calls, all_differences);
    printf("answers");
    for (number = 0; number < (int)COUNT(answered); number++)
        if (answered[number] > 0)
            printf(" %d:%lu", number, answered[number]);
    printf("\n");
    return all_differences;
}
