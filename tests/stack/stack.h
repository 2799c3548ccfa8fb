/* A small stack of one's own, for a call at a time. */
#ifndef STACK_H
#define STACK_H

#include <stddef.h>

/* What the handheld logger has. */
enum { STACK = 8192 };

/* Makes the stack, with a page on either side that nobody may touch. Ends the program where that fails. */
void make_stack(void);

/* Makes a call on the stack, twice, and once before that elsewhere; answers how many bytes of it were written, its caller's frame and
   arguments included. */
size_t stack_of(void (*call)(void));

#endif
