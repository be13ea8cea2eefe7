/* Contests: the library against plain C on the same calls, in turns. */
#ifndef BENCH_H
#define BENCH_H

#include "plain.h"

/* A row of the table. A lap makes the contest's calls once, over inputs that differ. */
struct contest {
    const char *what;
    const char *against;
    unsigned calls;                             /* in a lap */
    unsigned input;                             /* which of its inputs */
    void (*ready)(const struct contest *);      /* before each lap, not timed; may be absent */
    void (*proved)(const struct contest *);
    void (*plain)(const struct contest *, const struct plain *);
    const struct plain *levels[2];              /* -O2 and -O3, or one alone */
};

/* Into the table, in this order. */
void enter(struct contest c);

/* Each makes its inputs and enters its contests. */
void octet_contests(void);
void station_contests(void);
void model_contests(void);
void program_contests(void);

/* Each checks, on inputs of all sorts, that this C answers as the library does. After the contests. */
void octet_checks(const struct plain *plain);
void station_checks(const struct plain *plain);
void model_checks(const struct plain *plain);
void program_checks(const struct plain *plain);

/* What stands at p is taken as read: the compiler must have made it. */
static inline void keep(const void *p)
{
    __asm__ volatile("" : : "r"(p) : "memory");
}

#endif
