/* Times the contests and prints them as a table in Markdown; or, with the name of one, runs the library's side
 * of it for a profiler to look at. */
#define _POSIX_C_SOURCE 200809L
#include "bench.h"
#include "same.h"
#include <stdio.h>
#include <stdlib.h>
#include <string.h>
#include <time.h>

/* Whole passes over all contests, so that other work on the machine meets one pass of a contest and not
 * all; in a pass each contest has its turns for a while. */
enum { CONTESTS = 64, PASSES = 5, LAPS = 4, SIDES = 3 };
static const double TURNS_NS = 150e6, PROFILE_NS = 3e9;

/* The aim: no slower than this. What is slower is printed bold. */
static const double AIM = 1.10;

static struct contest contests[CONTESTS];
static unsigned entered;

/* The least nanoseconds a lap took: by contest, pass and side (the library, then the levels of C). */
static double least[CONTESTS][PASSES][SIDES];

void enter(struct contest c)
{
    if (entered == CONTESTS) {
        fputs("bench: FAILED: more contests than there is room for\n", stderr);
        exit(1);
    }
    contests[entered++] = c;
}

/* ---- timing */

static double now(void)
{
    struct timespec t;
    clock_gettime(CLOCK_MONOTONIC, &t);
    return (double)t.tv_sec * 1e9 + (double)t.tv_nsec;
}

/* What reading the clock adds to a lap. */
static double clock_cost(void)
{
    double cost = 1e9;
    int i;
    for (i = 0; i < 10000; i++) {
        double start = now(), took = now() - start;
        if (took < cost)
            cost = took;
    }
    return cost;
}

static double lap(const struct contest *c, int side)
{
    double start;
    if (c->ready)
        c->ready(c);
    start = now();
    if (side == 0)
        c->proved(c);
    else
        c->plain(c, c->levels[side - 1]);
    return now() - start;
}

/* A few laps in a row: the first finds the caches and the branch predictor as the other side left them. */
static void turn(const struct contest *c, int side, double *best)
{
    int i;
    for (i = 0; i < LAPS; i++) {
        double took = lap(c, side);
        if (took < *best)
            *best = took;
    }
}

static void turns(const struct contest *c, double best[SIDES])
{
    double start = now();
    int side;
    for (side = 0; side < SIDES; side++)
        best[side] = 1e18;
    while (now() - start < TURNS_NS)
        for (side = 0; side < SIDES; side++)
            if (side == 0 || c->levels[side - 1])
                turn(c, side, &best[side]);
}

static void time_all(void)
{
    double cost = clock_cost();
    unsigned pass, i, side;
    for (pass = 0; pass < PASSES; pass++)
        for (i = 0; i < entered; i++) {
            turns(&contests[i], least[i][pass]);
            for (side = 0; side < SIDES; side++)
                least[i][pass][side] -= cost;
        }
}

/* ---- the table */

static double call_ns(unsigned i, int side)
{
    double best = least[i][0][side];
    int pass;
    for (pass = 1; pass < PASSES; pass++)
        if (least[i][pass][side] < best)
            best = least[i][pass][side];
    return best / contests[i].calls;
}

/* The ratio of the minima, then the lowest and the highest ratio of one pass. */
static void print_ratio(unsigned i, int side)
{
    double lowest = 1e18, highest = 0, ratio;
    int pass;
    for (pass = 0; pass < PASSES; pass++) {
        ratio = least[i][pass][0] / least[i][pass][side];
        if (ratio < lowest)
            lowest = ratio;
        if (ratio > highest)
            highest = ratio;
    }
    ratio = call_ns(i, 0) / call_ns(i, side);
    printf(ratio > AIM ? " **%.2f** (%.2f–%.2f) |" : " %.2f (%.2f–%.2f) |", ratio, lowest, highest);
}

static void print_row(unsigned i)
{
    const struct contest *c = &contests[i];
    int side;
    printf("| %s | %s | %.2f | %.1f |", c->what, c->against, 1e3 / call_ns(i, 0), call_ns(i, 0));
    for (side = 1; side < SIDES; side++)
        if (c->levels[side - 1])
            printf(" %.1f |", call_ns(i, side));
        else
            printf(" |");
    for (side = 1; side < SIDES; side++)
        if (c->levels[side - 1])
            print_ratio(i, side);
        else
            printf(" |");
    putchar('\n');
}

static void print_table(void)
{
    unsigned i;
    puts("| what | against C | proved, million a second | proved, ns | C -O2, ns | C -O3, ns "
         "| proved / C -O2 | proved / C -O3 |");
    puts("|---|---|---:|---:|---:|---:|---:|---:|");
    for (i = 0; i < entered; i++)
        print_row(i);
}

/* ---- the program */

static void profile(const char *what)
{
    double start = now();
    unsigned i;
    for (i = 0; i < entered && strcmp(contests[i].what, what) != 0; i++)
        ;
    if (i == entered) {
        fprintf(stderr, "bench: FAILED: no contest '%s'\n", what);
        exit(1);
    }
    while (now() - start < PROFILE_NS)
        lap(&contests[i], 0);
}

static void check(const struct plain *plain)
{
    octet_checks(plain);
    station_checks(plain);
    model_checks(plain);
    program_checks(plain);
}

int main(int argc, char **argv)
{
    octet_contests();
    station_contests();
    model_contests();
    program_contests();
    if (argc == 2) {
        profile(argv[1]);
        return 0;
    }
    check(&plain_o2);
    check(&plain_o3);
    fprintf(stderr, "bench: the library and both levels of C gave the same in %llu comparisons\n", same_so_far());
    time_all();
    print_table();
    return 0;
}
