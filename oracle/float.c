// The float layer (crates/float through crates/float_c) beside the machine and the C library, bit for bit.
// Usage: float [SEED]. Exit status: 0 nothing differs, 1 something does, 2 bad usage.
#include <float.h>
#include <inttypes.h>
#include <math.h>
#include <stdbool.h>
#include <stdint.h>
#include <stdio.h>
#include <stdlib.h>
#include <string.h>

double float_fsqrt(double v);
double float_fcos(double a);
double float_decimal(uint64_t w, int64_t p, bool minus);

#define LEN(array) (sizeof(array) / sizeof(array)[0])

#define PI 3.141592653589793
#define ONE UINT64_C(0x3ff0000000000000)    // the pattern of 1.0
#define MOST (UINT64_C(1) << 53)            // what float_decimal takes: up to it each whole number is a double

static uint64_t state = UINT64_C(88172645463325252);
static struct { uint64_t compared, differ; } count;

// xorshift64
static uint64_t rnd(void)
{
    state ^= state << 13;
    state ^= state >> 7;
    state ^= state << 17;
    return state;
}

static uint64_t to_bits(double v)
{
    uint64_t b;
    memcpy(&b, &v, sizeof b);
    return b;
}

static double from_bits(uint64_t b)
{
    double v;
    memcpy(&v, &b, sizeof v);
    return v;
}

// A random sign and fraction under the given field of the exponent.
static double with_exponent(uint64_t field)
{
    return from_bits((rnd() & UINT64_C(0x800fffffffffffff)) | field << 52);
}

// Counts a comparison. True if its difference is among the ten to print. No operation fixes a NaN's bits,
// so any NaN equals any other.
static bool to_print(double got, double want)
{
    count.compared++;
    if (to_bits(got) == to_bits(want) || (isnan(got) && isnan(want)))
        return false;
    count.differ++;
    return count.differ <= 10;
}

// ---- fsqrt, beside the machine's

static void compare_fsqrt(double v)
{
    double got = float_fsqrt(v), want = sqrt(v);
    if (to_print(got, want))
        printf("fsqrt(%a) is %a; the machine's is %a\n", v, got, want);
}

// The value and the ones next to it, at whose roots the rounding turns.
static void compare_fsqrt_about(double v)
{
    uint64_t b = to_bits(v);
    compare_fsqrt(v);
    compare_fsqrt(from_bits(b - 1));
    compare_fsqrt(from_bits(b + 1));
}

// Every exponent equally often: zeros and subnormals (0), infinities and NaNs (2047) too.
static void fsqrt_patterns(void)
{
    for (uint64_t i = 0; i < 2000 * 2048; i++)
        compare_fsqrt(with_exponent(i % 2048));
}

// Each length alike: random fractions would hardly have a short one.
static void fsqrt_subnormals(void)
{
    for (int length = 1; length <= 52; length++) {
        uint64_t top = UINT64_C(1) << (length - 1);
        for (int i = 0; i < 20000; i++)
            compare_fsqrt(from_bits(top | (rnd() & (top - 1))));
    }
}

// Squares of 53 binary digits, which are rounded; of 26, which are exact where normal; and of the points halfway
// between two doubles, where a root is hardest to round. The exponents are those whose squares are above zero and finite.
static void fsqrt_squares(void)
{
    for (int i = 0; i < 400000; i++) {
        double x = fabs(with_exponent(486 + rnd() % 1049));
        double exact = from_bits(to_bits(x) & ~UINT64_C(0x7ffffff));
        long double halfway = ((long double)x + (long double)from_bits(to_bits(x) + 1)) / 2;
        compare_fsqrt_about(x * x);
        compare_fsqrt_about(exact * exact);
        compare_fsqrt_about((double)(halfway * halfway));
    }
}

// [1, 4): an odd and an even exponent, which is all that the digits of a root depend on.
static void fsqrt_one_to_four(void)
{
    for (int i = 0; i < 1000000; i++)
        compare_fsqrt(from_bits(ONE + (rnd() >> 11)));
}

// Powers of four are among the powers of two. The double before DBL_MIN is the greatest subnormal.
static void fsqrt_specials(void)
{
    static const double specials[] = {0.0, -0.0, INFINITY, -INFINITY, NAN, -1.0, DBL_MAX, -DBL_MAX, -DBL_MIN, -DBL_TRUE_MIN};
    for (size_t i = 0; i < LEN(specials); i++)
        compare_fsqrt(specials[i]);
    for (int e = -1074; e <= 1023; e++)
        compare_fsqrt_about(ldexp(1.0, e));
}

static void part_fsqrt(void)
{
    fsqrt_patterns();
    fsqrt_subnormals();
    fsqrt_squares();
    fsqrt_one_to_four();
    fsqrt_specials();
}

// ---- fcos, beside document 01's words

// "t = a×a, h = 1; for k from 13 down to 1, h = 1 − (t ÷ (2k−1)(2k))×h, the product (2k−1)(2k) being formed
// first as one whole number; the answer is h"
static double plain_fcos(double a)
{
    double t = a * a, h = 1.0;
    for (int k = 13; k >= 1; k--) {
        int product = (2 * k - 1) * (2 * k);
        h = 1.0 - (t / product) * h;
    }
    return h;
}

static void compare_fcos(double a)
{
    double got = float_fcos(a), want = plain_fcos(a);
    if (to_print(got, want))
        printf("fcos(%a) is %a; the plain C's is %a\n", a, got, want);
}

static void part_fcos(void)
{
    static const double specials[] = {0.0, -0.0, INFINITY, -INFINITY, NAN, 1.0, -1.0, DBL_MAX, DBL_MIN, DBL_TRUE_MIN};
    for (size_t i = 0; i < LEN(specials); i++)
        compare_fcos(specials[i]);
    for (int m = 1; m <= 100000; m++)
        compare_fcos(PI / m);
    for (int i = 0; i < 300000; i++) {
        double m = (double)(1 + rnd() % 1000) / (double)(1 + rnd() % 1000);
        compare_fcos(PI / m);
    }
    for (int i = 0; i < 300000; i++) // from -8 to 8
        compare_fcos((double)(int64_t)rnd() * 0x1p-60);
    for (uint64_t i = 0; i < 300000; i++)
        compare_fcos(with_exponent(i % 2048));
}

// ---- decimal, beside strtod

static void compare_decimal(uint64_t w, int64_t p, bool minus, double want)
{
    double got = float_decimal(w, p, minus);
    if (to_print(got, want))
        printf("decimal(%" PRIu64 ", %" PRId64 ", %s) is %a, and not %a\n", w, p, minus ? "minus" : "plus", got, want);
}

// w and 10^22 are exact doubles, so the one operation rounds once, as strtod does.
static void compare_literal(uint64_t w, int64_t p, bool minus)
{
    char text[32];
    snprintf(text, sizeof text, "%s%" PRIu64 "e%" PRId64, minus ? "-" : "", w, p);
    compare_decimal(w, p, minus, strtod(text, NULL));
}

// 0, and of each length the least number, the greatest and random ones.
static void decimal_in_range(int64_t p, bool minus)
{
    compare_literal(0, p, minus);
    for (uint64_t least = 1; least <= MOST; least *= 10) {
        uint64_t greatest = least <= MOST / 10 ? 10 * least - 1 : MOST;
        compare_literal(least, p, minus);
        compare_literal(greatest, p, minus);
        for (int i = 0; i < 750; i++)
            compare_literal(least + rnd() % (greatest - least + 1), p, minus);
    }
}

// Powers just out of range, and far out.
static void decimal_out_of_range(bool minus)
{
    static const int64_t powers[] = {-23, 23, INT64_MIN, INT64_MAX};
    for (size_t i = 0; i < LEN(powers); i++) {
        compare_decimal(0, powers[i], minus, NAN);
        compare_decimal(rnd() % MOST, powers[i], minus, NAN);
        compare_decimal(MOST, powers[i], minus, NAN);
    }
}

static void part_decimal(void)
{
    for (int minus = 0; minus <= 1; minus++) {
        for (int64_t p = -22; p <= 22; p++)
            decimal_in_range(p, minus);
        decimal_out_of_range(minus);
    }
}

// ---- the run

static void run(const char *name, void (*part)(void))
{
    uint64_t compared = count.compared, differ = count.differ;
    part();
    printf("%s: %" PRIu64 " values compared, %" PRIu64 " differ\n", name, count.compared - compared, count.differ - differ);
}

// 0 is no seed: xorshift stays there.
static bool read_seed(const char *text)
{
    char *end;
    state = strtoull(text, &end, 0);
    return end != text && *end == '\0' && state != 0;
}

int main(int argc, char **argv)
{
    if (argc > 2 || (argc == 2 && !read_seed(argv[1]))) {
        fprintf(stderr, "usage: %s [SEED], a number other than 0\n", argv[0]);
        return 2;
    }
    printf("seed %" PRIu64 "\n", state);
    run("fsqrt", part_fsqrt);
    run("fcos", part_fcos);
    run("decimal", part_decimal);
    printf("float: %" PRIu64 " values compared, %" PRIu64 " differ\n", count.compared, count.differ);
    return count.differ != 0;
}
