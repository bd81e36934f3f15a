// Reading a text beside the unchanged Rust (oracle/rust), twice: `rust_read` lays out the same numbers, its fractions as typed,
// and tells as much; `rust_parse` is `Cd::parse` alone.
#define _POSIX_C_SOURCE 200809L // getline
#include <stdio.h>
#include <stdlib.h>
#include <string.h>

#include "bench.h"
#include "lexicon.h"
#include "timing.h"

enum { LONG = 1000 };

typedef size_t reader(const uint8_t *text, size_t len, size_t wish, uint64_t *out, size_t room, size_t *answer);

reader rust_read;
uint32_t rust_parse(const uint8_t *text, size_t len); // the count of nodes, or 256 and the refusal's number

struct texts {
    const char *name;
    size_t count;
    const char *at[LONG];
    size_t len[LONG];
};

struct work {
    reader *read;
    const struct texts *texts;
};

static volatile size_t kept; // so that no call is dropped

static size_t parse_alone(const uint8_t *text, size_t len, size_t wish, uint64_t *out, size_t room, size_t *answer)
{
    (void)wish, (void)out, (void)room, (void)answer;
    return rust_parse(text, len);
}

static void run(const void *input, uint64_t turns)
{
    const struct work *w = input;
    const struct texts *t = w->texts;
    uint64_t out[LEXICON_DIAGRAM];
    size_t answer[LEXICON_ANSWER], sum = 0;
    for (uint64_t n = 0; n < turns; n++)
        for (size_t i = 0; i < t->count; i++)
            sum += w->read((const uint8_t *)t->at[i], t->len[i], 0, out, LEXICON_DIAGRAM, answer);
    kept = sum;
}

static uint64_t common_divisor(uint64_t a, uint64_t b)
{
    return b ? common_divisor(b, a % b) : a;
}

// Ticket K2: "stored edges are compared after reducing the Rust's." What is timed does without.
static void reduce_edges(uint64_t *diagram)
{
    for (uint64_t *edge = diagram + 18; edge < diagram + LEXICON_DIAGRAM; edge += 3) {
        if (!edge[0])
            continue;
        uint64_t divisor = common_divisor(edge[1], edge[2]);
        edge[1] /= divisor;
        edge[2] /= divisor;
    }
}

// Every number, and those that a refusal must leave as they were.
static void check(const char *at, size_t len)
{
    const uint8_t *text = (const uint8_t *)at;
    uint64_t ours[LEXICON_DIAGRAM], rusts[LEXICON_DIAGRAM];
    size_t answer[LEXICON_ANSWER], rust_answer[LEXICON_ANSWER];
    memset(ours, 0xff, sizeof ours);
    memset(rusts, 0xff, sizeof rusts);
    size_t number = lexicon_read(text, len, 0, ours, LEXICON_DIAGRAM, answer);
    size_t rust_number = rust_read(text, len, 0, rusts, LEXICON_DIAGRAM, rust_answer);
    if (rust_number == 0)
        reduce_edges(rusts);
    if (number != rust_number || memcmp(answer, rust_answer, sizeof answer) || memcmp(ours, rusts, sizeof ours) ||
        rust_parse(text, len) != (number ? 256 + number : answer[1]))
        fail("reading", at, "the Rust reads it otherwise");
}

static void rows(const struct texts *t)
{
    static const struct {
        reader *read;
        const char *name;
    } others[] = {{rust_read, "the Rust, laid out"}, {parse_alone, "the Rust, `Cd::parse` alone"}};
    for (size_t i = 0; i < t->count; i++)
        check(t->at[i], t->len[i]);
    for (size_t k = 0; k < sizeof others / sizeof *others; k++) {
        struct work ours = {lexicon_read, t}, other = {others[k].read, t};
        put_row(&(struct row){"reading", t->name, {run, &ours}, {run, &other}, others[k].name, (double)t->count});
    }
}

static void read_file(const char *path, struct texts *t)
{
    FILE *f = fopen(path, "r");
    if (!f) {
        perror(path);
        exit(2);
    }
    for (; t->count < LONG; t->count++) {
        char *line = NULL;
        size_t room = 0;
        if (getline(&line, &room, f) <= 0)
            break;
        t->at[t->count] = line;
        t->len[t->count] = strcspn(line, "\n");
        line[t->len[t->count]] = '\0';
    }
    fclose(f);
    if (t->count < LONG) {
        fprintf(stderr, "%s: fewer than %d texts\n", path, LONG);
        exit(2);
    }
}

void reading_rows(const char *path)
{
    static const char *const texts[][2] = {
        {"`x3o`", "x3o"},
        {"`x4o3o`", "x4o3o"},
        {"`x5/2o5o5/2o`", "x5/2o5o5/2o"},
        {"`(1.5)3o3(2e1)4x`", "(1.5)3o3(2e1)4x"},
        {"`x3o3o3o3o3o3o3o3o`", "x3o3o3o3o3o3o3o3o"},
        {"`z`", "z"},
    };
    static struct texts t;
    for (size_t i = 0; i < sizeof texts / sizeof *texts; i++) {
        t = (struct texts){texts[i][0], 1, {texts[i][1]}, {strlen(texts[i][1])}};
        rows(&t);
    }
    t = (struct texts){.name = "1,000 texts of 100 to 255 bytes"};
    read_file(path, &t);
    rows(&t);
}
