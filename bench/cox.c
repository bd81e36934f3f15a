// Mirrors, generators and reflections beside the unchanged Rust's (oracle/rust); walls, which it lacks, and the generator over them beside plain C
// (walls_plain.c). Both sides read the text and copy every double out.
#include <string.h>

#include "bench.h"
#include "lexicon.h"
#include "timing.h"

enum { ROOM = LEXICON_REFLECTIONS };

typedef size_t our_call(const uint8_t *text, size_t len, size_t wish, double *out, size_t out_len, size_t *answer);
typedef size_t other_call(const uint8_t *text, size_t len, double *out, size_t room); // the count of nodes, or 0

other_call rust_mirrors, rust_generator, rust_reflections;
other_call plain_walls, plain_wall_generator; // walls_plain.c

static double ours[ROOM], others[ROOM];
static volatile double kept; // so that no call is dropped

// Column c of matrix i stands at 81 × i + 9 × c; of each, the first n rows, columns and matrices count.
static int same_columns(size_t n, size_t matrices)
{
    for (size_t i = 0; i < matrices; i++)
        for (size_t c = 0; c < n; c++)
            if (memcmp(ours + 81 * i + 9 * c, others + 81 * i + 9 * c, n * sizeof *ours))
                return 0;
    return 1;
}

static int same_mirrors(size_t n)
{
    return same_columns(n, 1);
}

static int same_generator(size_t n)
{
    return !memcmp(ours, others, n * sizeof *ours) && !memcmp(ours + 9, others + 9, sizeof *ours);
}

static int same_reflections(size_t n)
{
    return same_columns(n, n);
}

static const struct call {
    const char *name;
    our_call *our;
    other_call *other;
    const char *other_is;
    int (*same)(size_t n);
} calls[] = {
    {"mirrors", lexicon_mirrors, rust_mirrors, "the Rust", same_mirrors},
    {"generator", lexicon_generator, rust_generator, "the Rust", same_generator},
    {"reflections", lexicon_reflections, rust_reflections, "the Rust", same_reflections},
    {"walls", lexicon_walls, plain_walls, "plain C", same_mirrors},
    {"wall generator", lexicon_wall_generator, plain_wall_generator, "plain C", same_generator},
};

struct work {
    const struct call *call;
    const char *text;
};

static void run_ours(const void *input, uint64_t turns)
{
    const struct work *w = input;
    size_t len = strlen(w->text), answer[LEXICON_ANSWER], sum = 0;
    for (uint64_t n = 0; n < turns; n++)
        sum += w->call->our((const uint8_t *)w->text, len, 0, ours, ROOM, answer);
    kept = ours[0] + (double)sum;
}

static void run_other(const void *input, uint64_t turns)
{
    const struct work *w = input;
    size_t len = strlen(w->text), sum = 0;
    for (uint64_t n = 0; n < turns; n++)
        sum += w->call->other((const uint8_t *)w->text, len, others, ROOM);
    kept = others[0] + (double)sum;
}

static void check(const struct call *call, const char *text)
{
    size_t len = strlen(text), answer[LEXICON_ANSWER];
    memset(ours, 0xff, sizeof ours);
    memset(others, 0xfe, sizeof others);
    size_t number = call->our((const uint8_t *)text, len, 0, ours, ROOM, answer);
    size_t n = call->other((const uint8_t *)text, len, others, ROOM);
    if (number != 0 || n == 0 || n != answer[1] || !call->same(n))
        fail(call->name, text, "the other side has others");
}

void cox_rows(void)
{
    static const char *const texts[][2] = {
        {"A9, `x3o3o3o3o3o3o3o3o`", "x3o3o3o3o3o3o3o3o"},
        {"B9, `x4o3o3o3o3o3o3o3o`", "x4o3o3o3o3o3o3o3o"},
        {"D9, `x3o3o3o3o3o3o3o *g3o`", "x3o3o3o3o3o3o3o *g3o"},
        {"E8, `x3o3o3o3o3o3o *e3o`", "x3o3o3o3o3o3o *e3o"},
        {"B3, `x3o4o`", "x3o4o"},
    };
    for (size_t i = 0; i < sizeof texts / sizeof *texts; i++)
        for (size_t k = 0; k < sizeof calls / sizeof *calls; k++) {
            struct work w = {&calls[k], texts[i][1]};
            check(&calls[k], texts[i][1]);
            put_row(&(struct row){calls[k].name, texts[i][0], {run_ours, &w}, {run_other, &w}, calls[k].other_is, 1});
        }
}
