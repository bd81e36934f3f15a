// The names of a text's components by plain C.
#ifndef NAMES_PLAIN_H
#define NAMES_PLAIN_H

#include <stddef.h>
#include <stdint.h>

// As `lexicon_names` answers a text that ends with a zero and can be read; a refusal may leave anything in `out`.
size_t plain_names(const char *text, uint64_t *out, size_t *answer);

#endif
