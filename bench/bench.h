// The parts of the table, a file each. A part compares both sides' answers before it takes their times.
#ifndef BENCH_H
#define BENCH_H

// The file holds the long texts that `oracle/corpus.py long` writes.
void reading_rows(const char *path);
void filing_rows(void);
void shelf_rows(void);
void cox_rows(void);
void names_rows(void);
void float_rows(void);

// The file holds the headwords that bench/headwords writes.
void command_row(const char *path);

#endif
