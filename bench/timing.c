// The clock, the five runs, and the row that they make.
#define _POSIX_C_SOURCE 200809L // clock_gettime
#include "timing.h"

#include <inttypes.h>
#include <stdio.h>
#include <stdlib.h>
#include <time.h>

enum { RUNS = 5 };

static double now(void)
{
    struct timespec t;
    clock_gettime(CLOCK_MONOTONIC, &t);
    return (double)t.tv_sec + (double)t.tv_nsec * 1e-9;
}

static double seconds(const struct side *side, uint64_t turns)
{
    double start = now();
    side->run(side->input, turns);
    return now() - start;
}

// As many turns as take about 0.1 s, by a trial that is long enough to go by.
static uint64_t turns_of(const struct side *side)
{
    uint64_t turns = 1;
    double took;
    while ((took = seconds(side, turns)) < 0.02)
        turns *= 2;
    return (uint64_t)((double)turns * 0.1 / took) + 1;
}

static int by_size(const void *a, const void *b)
{
    double x = *(const double *)a, y = *(const double *)b;
    return (x > y) - (x < y);
}

// Sorts the values.
static double median(double *values)
{
    qsort(values, RUNS, sizeof *values, by_size);
    return values[RUNS / 2];
}

static void put_thousands(uint64_t n)
{
    if (n < 1000) {
        printf("%" PRIu64, n);
        return;
    }
    put_thousands(n / 1000);
    printf(",%03" PRIu64, n % 1000);
}

static void put_ns(double ns)
{
    printf(" ");
    if (ns < 99.95)
        printf("%.1f", ns);
    else
        put_thousands((uint64_t)(ns + 0.5));
    printf(" |");
}

// Two digits after the point, and for a small ratio as many as show two of its own.
static void put_ratio(double ratio)
{
    int digits = 2;
    for (double x = ratio; x < 0.1 && digits < 9; x *= 10)
        digits++;
    printf(" %.*f |", digits, ratio);
}

void put_head(void)
{
    printf("| what is measured | text | ours, ns | the other, ns | the other is | ratio of medians | least | greatest |\n");
    printf("|---|---|---|---|---|---|---|---|\n");
}

// The sides take turns, so that what slows the machine for a while slows both.
void put_row(const struct row *row)
{
    uint64_t our_turns = turns_of(&row->ours), other_turns = turns_of(&row->other);
    double our_ns[RUNS], other_ns[RUNS], ratios[RUNS];
    for (int run = 0; run < RUNS; run++) {
        our_ns[run] = seconds(&row->ours, our_turns) * 1e9 / ((double)our_turns * row->calls);
        other_ns[run] = seconds(&row->other, other_turns) * 1e9 / ((double)other_turns * row->calls);
        ratios[run] = other_ns[run] / our_ns[run];
    }
    double ours = median(our_ns), other = median(other_ns);
    median(ratios); // sorts them
    printf("| %s | %s |", row->what, row->text);
    put_ns(ours);
    put_ns(other);
    printf(" %s |", row->other_is);
    put_ratio(other / ours);
    put_ratio(ratios[0]);
    put_ratio(ratios[RUNS - 1]);
    printf("\n");
}

_Noreturn void fail(const char *what, const char *text, const char *why)
{
    fprintf(stderr, "bench: %s, %s: %s\n", what, text, why);
    exit(1);
}
