// What the library for C files each line of standard input as, with the wish for infinite lengths: `ok`, the record and the numbering, or `no`, the refusal's
// number and its fields. oracle/command.py compares it with `lexicon record`.
#include "lexicon.h"

#include <stdio.h>
#include <stdlib.h>
#include <string.h>

// How many fields each refusal of a text has.
static int fields(size_t refusal) {
    return refusal == 7 ? 3 : refusal == 8 ? 2 : 1;
}

static void file(const uint8_t *text, size_t length) {
    uint8_t record[LEXICON_RECORD];
    size_t numbering[LEXICON_LIMIT], answer[LEXICON_ANSWER];
    if (lexicon_write_record(text, length, 1, record, sizeof record, numbering, answer)) {
        printf("no %zu", answer[0]);
        for (int i = 1; i <= fields(answer[0]); i++)
            printf(" %zu", answer[i]);
    } else {
        printf("ok ");
        for (int i = 0; i < LEXICON_RECORD; i++)
            printf("%02x", record[i]);
        printf(" ");
        for (size_t i = 0; i < answer[1]; i++)
            printf("%zu", numbering[i]);
    }
    printf("\n");
}

int main(void) {
    char *line = NULL;
    size_t room = 0;
    ssize_t length;
    while ((length = getline(&line, &room, stdin)) > 0)
        file((const uint8_t *)line, (size_t)length - (line[length - 1] == '\n'));
    free(line);
    return 0;
}
