// The record of a text beside a plain C search and beside nauty. All three start from the text: the others read it by `lexicon_read`.
#include <string.h>

#include "bench.h"
#include "figure.h"
#include "timing.h"

typedef void filer(const char *text, uint8_t *out, size_t *numbering);

struct work {
    filer *file;
    const char *text;
};

// A figure, the same figure numbered otherwise, and another figure; how many numberings of the first the search carries to the end, as
// oracle/counts.py finds and crates/replay_search shows of ours.
static const struct texts {
    const char *name, *text, *same, *other;
    uint64_t count;
} figures[] = {
    {"`x4o3o`", "x4o3o", "o3o4x", "o4o3x", 2},
    {"`x3x3x3x3x3x`", "x3x3x3x3x3x", "x3x3x x3x3x *a3*d", "x3x3x3x3x *c3x", 28},
    {"`x3x3x3x3x3x3x3x3x`", "x3x3x3x3x3x3x3x3x", "x3x3x3x3x x3x3x3x *a3*f", "x3x3x3x3x3x3x3x *c3x", 499},
    {"`ooooooooo`", "ooooooooo", "o2o2o2o2o2o2o2o2o", "oooooooo3o", 362880},
    {"E8, `x3o3o3o3o3o3o *e3o`", "x3o3o3o3o3o3o *e3o", "o3o3o3o3o3o3x *c3o", "o3o3o3o3o3o3x *e3o", 68},
    {"cycle, `x3x3x3x3x3x3x3x3x3*a`", "x3x3x3x3x3x3x3x3x3*a", "x3x3x3x3x x3x3x3x *a3*f *e3*i", "x3x3x3*a x3x3x3x3x3x3*d", 223},
    {"nine lengths, `x3q3f3h3k3u3w3F3e`", "x3q3f3h3k3u3w3F3e", "e3F3w3u3k3h3f3q3x", "q3x3f3h3k3u3w3F3e", 1},
};

static void file_proved(const char *text, uint8_t *out, size_t *numbering)
{
    size_t answer[LEXICON_ANSWER];
    if (lexicon_write_record((const uint8_t *)text, strlen(text), 0, out, LEXICON_RECORD, numbering, answer))
        fail("record", text, "refused");
}

static void run(const void *input, uint64_t turns)
{
    const struct work *w = input;
    uint8_t out[LEXICON_RECORD];
    size_t numbering[LEXICON_LIMIT];
    for (uint64_t n = 0; n < turns; n++)
        w->file(w->text, out, numbering);
}

// Two spellings have the same bytes, another figure has others.
static void check_identity(filer *file, const struct texts *t)
{
    uint8_t bytes[LEXICON_RECORD], same[LEXICON_RECORD], other[LEXICON_RECORD];
    size_t numbering[LEXICON_LIMIT];
    file(t->text, bytes, numbering);
    file(t->same, same, numbering);
    file(t->other, other, numbering);
    if (memcmp(bytes, same, sizeof bytes) || !memcmp(bytes, other, sizeof bytes))
        fail("record", t->text, "its spellings have different bytes, or another figure the same");
}

static void check_bytes(const char *text)
{
    uint8_t ours[LEXICON_RECORD], plain[LEXICON_RECORD];
    size_t numbering[LEXICON_LIMIT], plain_numbering[LEXICON_LIMIT];
    file_proved(text, ours, numbering);
    file_plain(text, plain, plain_numbering);
    if (memcmp(ours, plain, sizeof ours))
        fail("record", text, "the plain C search finds another");
    if (memcmp(numbering, plain_numbering, ours[0] * sizeof *numbering)) // byte 0 counts the nodes
        fail("record", text, "the plain C search finds another numbering");
}

static void check_count(const struct texts *t)
{
    if (count_plain(t->text) != t->count)
        fail("record", t->text, "the plain C search carries another number of numberings to the end");
}

static void put(const struct texts *t, filer *file, const char *name)
{
    struct work ours = {file_proved, t->text}, other = {file, t->text};
    put_row(&(struct row){"record", t->name, {run, &ours}, {run, &other}, name, 1});
}

void filing_rows(void)
{
    for (const struct texts *t = figures; t < figures + sizeof figures / sizeof *figures; t++) {
        check_bytes(t->text);
        check_count(t);
        check_identity(file_proved, t);
        put(t, file_plain, "plain C search");
#ifdef NAUTY
        check_identity(file_nauty, t);
        put(t, file_nauty, "nauty");
#endif
    }
}
