/* How large things are, and what the calculator can do. */
#ifndef CONFIG_H
#define CONFIG_H

#ifndef NAMES
#define NAMES 32 /* variables */
#endif

#ifndef NAME_LENGTH
#define NAME_LENGTH 12
#endif

#define LINE_LENGTH 200
#define DEPTH 50 /* of brackets and operators that wait */

/* Whether a division is a fault where the divisor is zero; else it gives zero. */
#define CHECKED 1

/* TRACE makes each operator tell what it does. */
#undef TRACE

#if NAMES < 1 || NAMES > 1000
#error The count of variables is out of range.
#elif NAME_LENGTH < 2
#error Names are too short.
#endif

#endif
