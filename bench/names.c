// The names of groups beside plain C (names_plain.c). Both sides read the text.
#include <string.h>

#include "bench.h"
#include "lexicon.h"
#include "names_plain.h"
#include "timing.h"

static uint64_t ours[LEXICON_NAMES], others[LEXICON_NAMES];
static volatile uint64_t kept; // so that no call is dropped

static void run_ours(const void *input, uint64_t turns)
{
    size_t len = strlen(input), answer[LEXICON_ANSWER], sum = 0;
    for (uint64_t n = 0; n < turns; n++)
        sum += lexicon_names(input, len, 0, ours, LEXICON_NAMES, answer);
    kept = ours[0] + sum;
}

static void run_other(const void *input, uint64_t turns)
{
    size_t answer[LEXICON_ANSWER], sum = 0;
    for (uint64_t n = 0; n < turns; n++)
        sum += plain_names(input, others, answer);
    kept = others[0] + sum;
}

static void check(const char *text)
{
    size_t our_answer[LEXICON_ANSWER], answer[LEXICON_ANSWER];
    size_t number = lexicon_names((const uint8_t *)text, strlen(text), 0, ours, LEXICON_NAMES, our_answer);
    plain_names(text, others, answer);
    if (memcmp(answer, our_answer, sizeof answer) || (number == 0 && memcmp(ours, others, sizeof ours)))
        fail("names", text, "the other side has others");
}

void names_rows(void)
{
    static const char *const texts[][2] = {
        {"A9, `o3o3o3o3o3o3o3o3o`", "o3o3o3o3o3o3o3o3o"},
        {"D9, `o3o3o3o3o3o3o3o *g3o`", "o3o3o3o3o3o3o3o *g3o"},
        {"E8, `o3o3o3o3o3o3o *c3o`", "o3o3o3o3o3o3o *c3o"},
        {"B3, `x4o3o`", "x4o3o"},
        {"nine A1, `ooooooooo`", "ooooooooo"},
        {"21, E9, `o3o3o3o3o3o3o3o *c3o`", "o3o3o3o3o3o3o3o *c3o"},
        {"21, a cycle, `o3o3o3o3o3o3o3o3o3*a`", "o3o3o3o3o3o3o3o3o3*a"},
        {"21, a star of eight arms", "ooooooooo *a3*b *a3*c *a3*d *a3*e *a3*f *a3*g *a3*h *a3*i"},
    };
    for (size_t i = 0; i < sizeof texts / sizeof *texts; i++) {
        check(texts[i][1]);
        put_row(&(struct row){"names", texts[i][0], {run_ours, texts[i][1]}, {run_other, texts[i][1]}, "plain C, by shapes", 1});
    }
}
