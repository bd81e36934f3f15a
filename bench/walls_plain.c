// Ticket K7's steps in plain C, for bench/cox.c: the walls, and the generator over them. The text is read by the library.
#include <math.h>
#include <string.h>

#include "figure.h"

enum { N = LEXICON_LIMIT };

// The count of nodes, or 0 where there are no walls.
size_t plain_walls(const uint8_t *text, size_t len, double *out, size_t room);
size_t plain_wall_generator(const uint8_t *text, size_t len, double *out, size_t room);

static double cosine(double a)
{
    double t = a * a, h = 1.0;
    for (int k = 13; k >= 1; k--)
        h = 1.0 - (t / ((2 * k - 1) * (2 * k))) * h;
    return h;
}

static double dot(const double *a, const double *b, int n)
{
    double sum = 0.0;
    for (int i = 0; i < n; i++)
        sum += a[i] * b[i];
    return sum;
}

static double entry(const struct figure *f, int i, int j)
{
    return (double)(f->pair[i][j] >> 32) / (double)(f->pair[i][j] & UINT32_MAX);
}

static int fill_walls(const struct figure *f, double column[N][N])
{
    memset(column, 0, N * sizeof *column);
    for (int i = 0; i < f->n; i++) {
        for (int j = 0; j < i; j++)
            column[i][j] = (-cosine(3.141592653589793 / entry(f, i, j)) - dot(column[i], column[j], j + 1)) / column[j][j];
        double s = dot(column[i], column[i], f->n);
        if (s >= 1.0 - 1e-7)
            return 0;
        column[i][i] = sqrt(1.0 - s);
    }
    return 1;
}

// The texts end with a zero, as `read_figure` takes them.
size_t plain_walls(const uint8_t *text, size_t len, double *out, size_t room)
{
    struct figure f;
    double column[N][N];
    (void)len, (void)room;
    read_figure((const char *)text, &f);
    if (!fill_walls(&f, column))
        return 0;
    memcpy(out, column, sizeof column);
    return (size_t)f.n;
}

size_t plain_wall_generator(const uint8_t *text, size_t len, double *out, size_t room)
{
    struct figure f;
    double column[N][N], value;
    (void)len, (void)room;
    read_figure((const char *)text, &f);
    if (!fill_walls(&f, column))
        return 0;
    memset(out, 0, LEXICON_GENERATOR * sizeof *out);
    for (int i = 0; i < f.n; i++) {
        memcpy(&value, &f.bits[i], sizeof value);
        double rest = value / 2.0;
        for (int k = 0; k < i; k++)
            rest -= out[k] * column[i][k];
        out[i] = rest / column[i][i];
    }
    out[N] = sqrt(dot(out, out, f.n));
    return (size_t)f.n;
}
