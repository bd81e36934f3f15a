// A figure as the plain C and nauty take it, and the bytes that both lay out.
#ifndef FIGURE_H
#define FIGURE_H

#include <stddef.h>
#include <stdint.h>

#include "lexicon.h"

#define UNJOINED UINT64_C(0x200000001) // 2 and 1

// The nodes' kinds and value bits, and for two nodes num, then den, in lowest terms.
struct figure {
    int n;
    uint8_t kind[LEXICON_LIMIT];
    uint64_t bits[LEXICON_LIMIT];
    uint64_t pair[LEXICON_LIMIT][LEXICON_LIMIT];
};

// By `lexicon_read`, which has fractions in lowest terms: ends the program if that refuses the text.
void read_figure(const char *text, struct figure *f);

// How node a stands to node b by kind, then by value bits: below 0, 0 or above.
int compare_nodes(const struct figure *f, int a, int b);

// Lays out the record's 370 bytes with node numbering[i] in place i.
void lay_out(const struct figure *f, const int *numbering, uint8_t *out);

// Reads the figure that 370 bytes lay out in their own numbering; 0 if they are no figure's layout, 1 if they are.
int read_layout(const uint8_t *bytes, struct figure *f);

// How many numberings the plain C search carries to the end.
uint64_t count_plain(const char *text);

// Text to bytes and the nodes at their places: the record by that search, with the first numbering that gives it; a form of nauty's
// numbering (only where NAUTY is defined).
void file_plain(const char *text, uint8_t *out, size_t *numbering);
void file_nauty(const char *text, uint8_t *out, size_t *numbering);

// Whether 370 bytes are a record: a layout, and by that search the smallest.
int is_record_plain(const uint8_t *bytes);

#endif
