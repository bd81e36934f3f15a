// Writes the table of docs/BENCHMARKS.md: the proved code beside the Rust, plain C and nauty, in one run.
// Usage: bench LONG HEADWORDS..., the long texts that `oracle/corpus.py long` writes, and lists that bench/headwords writes.
#include "bench.h"

#include <stdio.h>

#include "timing.h"

int main(int argc, char **argv)
{
    if (argc < 2) {
        fprintf(stderr, "usage: %s LONG HEADWORDS...\n", argv[0]);
        return 2;
    }
    put_head();
    reading_rows(argv[1]);
    filing_rows();
    shelf_rows();
    cox_rows();
    names_rows();
    float_rows();
    for (int i = 2; i < argc; i++)
        command_row(argv[i]);
#ifndef NAUTY
    printf("\nnauty's rows are missing: Debian's libnauty2-dev can't be installed.\n");
#endif
    return 0;
}
