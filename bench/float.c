// The root and the cosine (crates/float through crates/float_c) beside plain C. A time is that of a call in a loop, so both
// sides hold the loop's and the call's own nanoseconds.
#include <string.h>

#include "bench.h"
#include "timing.h"

enum { INPUTS = 4096 };

typedef double function(double);

function float_fsqrt, float_fcos;
function plain_sqrt, plain_fcos; // float_plain.c

struct work {
    function *call;
    const double *inputs;
};

static uint64_t state = UINT64_C(88172645463325252);
static volatile double kept; // so that no call is dropped

// xorshift64
static uint64_t rnd(void)
{
    state ^= state << 13;
    state ^= state >> 7;
    state ^= state << 17;
    return state;
}

static void run(const void *input, uint64_t turns)
{
    const struct work *w = input;
    double sum = 0.0;
    for (uint64_t n = 0; n < turns; n++)
        for (int i = 0; i < INPUTS; i++)
            sum += w->call(w->inputs[i]);
    kept = sum;
}

static void put(const char *name, const char *text, function *proved, function *plain, const double *inputs)
{
    struct work ours = {proved, inputs}, other = {plain, inputs};
    for (int i = 0; i < INPUTS; i++) {
        double a = proved(inputs[i]), b = plain(inputs[i]);
        if (memcmp(&a, &b, sizeof a))
            fail(name, text, "the plain C has another");
    }
    put_row(&(struct row){name, text, {run, &ours}, {run, &other}, "plain C", INPUTS});
}

// Random fractions, at exponents from -16 to 15: the squared lengths that diagrams lead to, and beyond.
static void fill_squares(double *inputs)
{
    for (int i = 0; i < INPUTS; i++) {
        uint64_t b = (1007 + rnd() % 32) << 52 | rnd() >> 12;
        memcpy(&inputs[i], &b, sizeof b);
    }
}

// The angles of mirrors: π/m, m a fraction.
static void fill_angles(double *inputs)
{
    for (int i = 0; i < INPUTS; i++) {
        double m = (double)(1 + rnd() % 100) / (double)(1 + rnd() % 10);
        inputs[i] = 3.141592653589793 / m;
    }
}

void float_rows(void)
{
    static double inputs[INPUTS];
    fill_squares(inputs);
    put("`fsqrt`", "4,096 doubles by chance", float_fsqrt, plain_sqrt, inputs);
    fill_angles(inputs);
    put("`fcos`", "4,096 angles by chance", float_fcos, plain_fcos, inputs);
}
