// The plain C of bench/float.c: a translation unit of its own, so that both sides are calls.
#include <math.h>

double plain_sqrt(double v);
double plain_fcos(double a);

// The machine's instruction: -fno-math-errno, since sqrt would call the C library below zero to set errno.
__attribute__((noinline)) double plain_sqrt(double v)
{
    return sqrt(v);
}

// Document 01's cosine, as in oracle/float.c.
__attribute__((noinline)) double plain_fcos(double a)
{
    double t = a * a, h = 1.0;
    for (int k = 13; k >= 1; k--) {
        int product = (2 * k - 1) * (2 * k);
        h = 1.0 - (t / product) * h;
    }
    return h;
}
