// The figure of a text, its bytes under a numbering, and the figure of such bytes.
#include "figure.h"

#include <string.h>

#include "timing.h"

void read_figure(const char *text, struct figure *f)
{
    uint64_t at[LEXICON_DIAGRAM];
    size_t answer[LEXICON_ANSWER];
    if (lexicon_read((const uint8_t *)text, strlen(text), 0, at, LEXICON_DIAGRAM, answer))
        fail("reading", text, "refused");
    f->n = (int)answer[1];
    for (int j = 0; j < f->n; j++) {
        f->kind[j] = (uint8_t)at[2 * j];
        f->bits[j] = at[2 * j + 1];
        for (int i = 0; i < j; i++) {
            const uint64_t *edge = at + 18 + 3 * (j * (j + 1) / 2 + i);
            f->pair[i][j] = f->pair[j][i] = edge[0] ? edge[1] << 32 | edge[2] : UNJOINED;
        }
    }
}

int compare_nodes(const struct figure *f, int a, int b)
{
    if (f->kind[a] != f->kind[b])
        return f->kind[a] < f->kind[b] ? -1 : 1;
    if (f->bits[a] != f->bits[b])
        return f->bits[a] < f->bits[b] ? -1 : 1;
    return 0;
}

static void put(uint8_t *out, uint64_t x)
{
    for (int i = 0; i < 8; i++)
        out[i] = (uint8_t)(x >> (56 - 8 * i));
}

void lay_out(const struct figure *f, const int *numbering, uint8_t *out)
{
    memset(out, 0, LEXICON_RECORD);
    out[0] = (uint8_t)f->n;
    for (int i = 0; i < f->n; i++) {
        out[1 + 9 * i] = f->kind[numbering[i]];
        put(out + 2 + 9 * i, f->bits[numbering[i]]);
    }
    for (int j = 0; j < f->n; j++)
        for (int i = 0; i < j; i++)
            put(out + 82 + 8 * (j * (j - 1) / 2 + i), f->pair[numbering[i]][numbering[j]]);
}

static uint64_t get(const uint8_t *bytes)
{
    uint64_t x = 0;
    for (int i = 0; i < 8; i++)
        x = x << 8 | bytes[i];
    return x;
}

// Its length is zeros if it is unringed, else no nan.
static int is_node(uint8_t kind, uint64_t bits)
{
    if (kind == 1)
        return bits == 0;
    return (kind == 2 || kind == 3) && (bits & INT64_MAX) <= UINT64_C(0x7ff0000000000000);
}

static uint32_t common_divisor(uint32_t a, uint32_t b)
{
    return b ? common_divisor(b, a % b) : a;
}

static int is_fraction(uint64_t pair)
{
    uint32_t num = (uint32_t)(pair >> 32), den = (uint32_t)pair;
    return den != 0 && den < num && common_divisor(num, den) == 1;
}

static int are_zeros(const uint8_t *from, const uint8_t *end)
{
    while (from < end && *from == 0)
        from++;
    return from == end;
}

int read_layout(const uint8_t *bytes, struct figure *f)
{
    int n = f->n = bytes[0];
    if (n > LEXICON_LIMIT)
        return 0;
    const uint8_t *at = bytes + 1;
    for (int j = 0; j < n; j++, at += 9) {
        f->kind[j] = at[0];
        f->bits[j] = get(at + 1);
        if (!is_node(f->kind[j], f->bits[j]))
            return 0;
    }
    if (!are_zeros(at, bytes + 82))
        return 0;
    at = bytes + 82;
    for (int j = 0; j < n; j++)
        for (int i = 0; i < j; i++, at += 8) {
            f->pair[i][j] = f->pair[j][i] = get(at);
            if (!is_fraction(f->pair[i][j]))
                return 0;
        }
    return are_zeros(at, bytes + LEXICON_RECORD);
}
