// What the parts of the table share: a row of two sides, and the end where their answers differ.
#ifndef TIMING_H
#define TIMING_H

#include <stdint.h>

// One side of a row: does its work so many times over.
struct side {
    void (*run)(const void *input, uint64_t turns);
    const void *input;
};

struct row {
    const char *what, *text;
    struct side ours, other;
    const char *other_is;
    double calls; // in a turn
};

void put_head(void);

// Measures both sides and writes the row.
void put_row(const struct row *row);

// Ends the program with an error.
_Noreturn void fail(const char *what, const char *text, const char *why);

#endif
