/*
 * nothing.c - a call that does nothing.  Linked in place of every call, to
 * see how deep the program itself goes for it.
 */
#include "presence.h"

presence_answer nothing(void)
{
    presence_answer a = {0, 0, 0};

    return a;
}
