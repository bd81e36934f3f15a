// The records of real figures: chains and branches of up to nine nodes, those of the families A, B, D, E, F and H among them, in all letterings over
// a few letters; sorted, made different, and thinned out evenly to the number wanted.
#include <stdlib.h>
#include <string.h>

#include "figure.h"
#include "shelf.h"
#include "timing.h"

enum { EDGES = 4 };

static const char *const edge_texts[EDGES] = {"3", "4", "5", "5/2"};
static const char node_letters[] = "oxqs";

// By the number of nodes: how many of the letters stand at them, and how many edges at most are other than 3 in a chain and in a figure with a branch.
// Up to four nodes any are. This makes 101,227 different figures.
static const struct mixture {
    int letters, in_chain, in_branch;
} mixtures[LEXICON_LIMIT + 1] = {
    {4, 0, 0}, {4, 0, 0}, {4, 1, 0}, {4, 2, 0}, {4, 3, 3}, {4, 1, 0}, {4, 1, 0}, {3, 1, 0}, {2, 1, 1}, {2, 1, 0},
};

// A chain of all nodes; or, if `branch` is not 0, of all but the last, which node `branch` of the chain is joined to. The edges stand in `edges` as
// the digits of a number of base 4.
struct shape {
    int nodes, branch;
    size_t edges;
};

static size_t power(size_t base, int exponent)
{
    return exponent ? base * power(base, exponent - 1) : 1;
}

static size_t digit(size_t number, size_t base, int place)
{
    return number / power(base, place) % base;
}

static char *put(char *at, const char *text)
{
    size_t length = strlen(text);
    memcpy(at, text, length + 1);
    return at + length;
}

// The letters stand in `lettering` as the digits of a number.
static void put_text(const struct shape *s, size_t letters, size_t lettering, char *at)
{
    for (int i = 0; i < s->nodes; i++) {
        if (i > 0 && s->branch && i == s->nodes - 1)
            at = put(at, (char[]){' ', '*', (char)('a' + s->branch), '\0'});
        if (i > 0)
            at = put(at, edge_texts[digit(s->edges, EDGES, i - 1)]);
        at = put(at, (char[]){node_letters[digit(lettering, letters, i)], '\0'});
    }
}

static void add_record(struct shelf *shelf, const char *text)
{
    if (shelf->places % 0x10000 == 0)
        shelf->file = realloc(shelf->file, (shelf->places + 0x10000) * LEXICON_RECORD);
    if (!shelf->file)
        fail("shelf", text, "no memory");
    size_t numbering[LEXICON_LIMIT], answer[LEXICON_ANSWER];
    uint8_t *record = shelf->file + shelf->places * LEXICON_RECORD;
    if (lexicon_write_record((const uint8_t *)text, strlen(text), 0, record, LEXICON_RECORD, numbering, answer))
        fail("shelf", text, "refused");
    shelf->places++;
}

static int others(const struct shape *s)
{
    int count = 0;
    for (size_t rest = s->edges; rest; rest /= EDGES)
        count += rest % EDGES != 0;
    return count;
}

// In all letterings, with all edges of which so many at most are other than 3.
static void add_figures(struct shelf *shelf, int nodes, int branch, int most)
{
    size_t letters = (size_t)mixtures[nodes].letters;
    char text[64];
    for (struct shape s = {nodes, branch, 0}; s.edges < power(EDGES, nodes - 1); s.edges++)
        for (size_t l = 0; others(&s) <= most && l < power(letters, nodes); l++) {
            put_text(&s, letters, l, text);
            add_record(shelf, text);
        }
}

static int compare_records(const void *a, const void *b)
{
    return memcmp(a, b, LEXICON_RECORD);
}

// One figure may have been spelled from both ends, or with its branches exchanged.
static void make_different(struct shelf *shelf)
{
    size_t count = 0;
    qsort(shelf->file, shelf->places, LEXICON_RECORD, compare_records);
    for (size_t i = 0; i < shelf->places; i++) {
        uint8_t *record = shelf->file + i * LEXICON_RECORD;
        if (count > 0 && !compare_records(record - LEXICON_RECORD * (i + 1 - count), record))
            continue;
        memmove(shelf->file + count++ * LEXICON_RECORD, record, LEXICON_RECORD);
    }
    shelf->places = count;
}

// As many as wanted, at even distances.
static void thin_out(struct shelf *shelf, size_t places)
{
    if (shelf->places < places)
        fail("shelf", "figures", "too few different ones");
    for (size_t i = 0; i < places; i++)
        memmove(shelf->file + i * LEXICON_RECORD, shelf->file + i * shelf->places / places * LEXICON_RECORD, LEXICON_RECORD);
    shelf->places = places;
}

void make_shelf(struct shelf *shelf, size_t places)
{
    *shelf = (struct shelf){NULL, 0};
    add_record(shelf, "*a"); // no nodes
    for (int n = 1; n <= LEXICON_LIMIT; n++) {
        const struct mixture *m = &mixtures[n];
        add_figures(shelf, n, 0, m->in_chain);
        if (n >= 4)
            add_figures(shelf, n, n - 3, m->in_branch); // D: the branches are 1, 1 and the rest
        if (n >= 6)
            add_figures(shelf, n, 2, m->in_branch); // E: 1, 2 and the rest
    }
    make_different(shelf);
    thin_out(shelf, places);
}
