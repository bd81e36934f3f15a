// Prints what the library tells of each argument, or of a few texts without any, at which places of a shelf file they are filed, which of them are the same
// figure, and what it says of three records that somebody sent.
// Usage: example [TEXT..]
#include <inttypes.h>
#include <stdbool.h>
#include <stdio.h>
#include <stdlib.h>
#include <string.h>

#include "lexicon.h"

// As an editing page has it, no infinite lengths: `(inf)` is refused. An import of old articles would have 1.
static const size_t wish = 0;

// A text that was accepted, and its record. The place keeps texts of one figure in the order given.
struct article {
    size_t place;
    const char *text;
    uint8_t record[LEXICON_RECORD];
    size_t numbering[LEXICON_LIMIT], nodes;
};

// A shelf file in memory.
struct shelf {
    uint8_t *bytes;
    size_t len;
};

static const uint8_t *bytes(const char *text)
{
    return (const uint8_t *)text;
}

// The refusal's number, then its fields.
static void print_refusal(const char *what, const size_t *answer)
{
    static const size_t fields[] = {0, 1, 1, 1, 1, 1, 1, 3, 2, 1, 1, 1, 0, 0, 0, 1, 1, 0, 0, 1, 1, 1, [23] = 1}; // how many, by the number
    printf("  no %s:", what);
    for (size_t i = 0; i <= fields[answer[0]]; i++)
        printf(" %zu", answer[i]);
    printf("\n");
}

static void print_nodes(const uint64_t *diagram, size_t nodes)
{
    printf("  nodes:");
    for (size_t i = 0; i < nodes; i++) {
        double length;
        memcpy(&length, &diagram[2 * i + 1], sizeof length);
        if (diagram[2 * i] == 1)
            printf(" o");
        else
            printf(" %c(%g)", diagram[2 * i] == 2 ? 'x' : 's', length);
    }
    printf("\n");
}

// In the order stored: the places are by nodes, so the one of each rank is looked for.
static void print_edges(const uint64_t *diagram, size_t nodes, size_t edges)
{
    printf("  edges:");
    for (size_t rank = 1; rank <= edges; rank++)
        for (size_t j = 0; j < nodes; j++)
            for (size_t i = 0; i <= j; i++) {
                const uint64_t *pair = &diagram[18 + 3 * (j * (j + 1) / 2 + i)];
                if (pair[0] == rank)
                    printf(" %zu-%zu:%" PRIu64 "/%" PRIu64, i, j, pair[1], pair[2]);
            }
    printf("\n");
}

static bool print_diagram(const char *text)
{
    uint64_t diagram[LEXICON_DIAGRAM];
    size_t answer[LEXICON_ANSWER];
    if (lexicon_read(bytes(text), strlen(text), wish, diagram, LEXICON_DIAGRAM, answer) != 0) {
        print_refusal("diagram", answer);
        return false;
    }
    print_nodes(diagram, answer[1]);
    print_edges(diagram, answer[1], answer[2]);
    printf("  minimal: %s\n", answer[3] ? "yes" : "no");
    return true;
}

// Of a text that was accepted, which the call cannot refuse.
static void print_record(struct article *article)
{
    size_t answer[LEXICON_ANSWER];
    lexicon_write_record(bytes(article->text), strlen(article->text), wish, article->record, LEXICON_RECORD, article->numbering, answer);
    article->nodes = answer[1];
    printf("  record: ");
    for (size_t i = 0; i < LEXICON_RECORD; i++)
        printf("%02x", (unsigned)article->record[i]);
    printf("\n  numbering:");
    for (size_t i = 0; i < article->nodes; i++)
        printf(" %zu", article->numbering[i]);
    printf("\n");
}

// miratope-core's mirrors. Coxeter's, to which the radius that is printed belongs, are lexicon_walls.
static void print_mirrors(const char *text)
{
    double mirrors[LEXICON_SQUARE];
    size_t answer[LEXICON_ANSWER];
    if (lexicon_mirrors(bytes(text), strlen(text), wish, mirrors, LEXICON_SQUARE, answer) != 0) {
        print_refusal("mirrors", answer);
        return;
    }
    for (size_t column = 0; column < answer[1]; column++) {
        printf("  mirror %zu:", column);
        for (size_t row = 0; row < answer[1]; row++)
            printf(" %.6f", mirrors[9 * column + row]);
        printf("\n");
    }
}

typedef size_t to_generator(const uint8_t *text, size_t text_len, size_t wish, double *out, size_t out_len, size_t answer[LEXICON_ANSWER]);

static void print_radius(const char *name, to_generator *call, const char *text)
{
    double generator[LEXICON_GENERATOR];
    size_t answer[LEXICON_ANSWER];
    if (call(bytes(text), strlen(text), wish, generator, LEXICON_GENERATOR, answer) != 0)
        print_refusal(name, answer);
    else
        printf("  %s: %.6f\n", name, generator[9]);
}

// An article has the first: it is the figure's circumradius, and the same for all texts of the figure, up to rounding. The second, for comparisons with
// miratope-core, depends on the order of the nodes.
static void print_radii(const char *text)
{
    print_radius("radius", lexicon_wall_generator, text);
    print_radius("radius as miratope-core has it", lexicon_generator, text);
}

// The finite group of each component, as Coxeter names it. That of the whole figure is their product.
static void print_groups(const char *text)
{
    uint64_t groups[LEXICON_NAMES];
    size_t answer[LEXICON_ANSWER];
    if (lexicon_names(bytes(text), strlen(text), wish, groups, LEXICON_NAMES, answer) != 0) {
        print_refusal("names", answer);
        return;
    }
    for (size_t i = 0; i < answer[1]; i++) {
        const uint64_t *group = &groups[4 * i];
        printf("  group at node %" PRIu64 ": ", group[0]);
        if (group[1] == 'I')
            printf("I2(%" PRIu64 ")", group[2]);
        else
            printf("%c%" PRIu64, (int)group[1], group[2]);
        printf(", order %" PRIu64 "\n", group[3]);
    }
}

// Adds an article's record. The longer file is written to other memory, since no record is added in place. A refusal leaves the file as it was: with 20 the
// figure has an article already, at the place told.
static bool add_article(struct shelf *shelf, const struct article *article)
{
    size_t answer[LEXICON_ANSWER], len = shelf->len + LEXICON_RECORD;
    uint8_t *longer = malloc(len);
    if (!longer)
        return false;
    printf("adding `%s`\n", article->text);
    if (lexicon_shelf_add(shelf->bytes, shelf->len, article->record, LEXICON_RECORD, longer, len, answer) != 0) {
        print_refusal("place", answer);
        free(longer);
        return true;
    }
    printf("  place: %zu\n", answer[1]);
    free(shelf->bytes);
    *shelf = (struct shelf){longer, len};
    return true;
}

// Whether a headword is taken, asked of a file that was checked or that lexicon_shelf_add wrote, so that lexicon_shelf_find need not check it again.
static void print_taken(const struct shelf *shelf, const char *text)
{
    uint8_t record[LEXICON_RECORD];
    size_t numbering[LEXICON_LIMIT], answer[LEXICON_ANSWER];
    if (lexicon_write_record(bytes(text), strlen(text), wish, record, LEXICON_RECORD, numbering, answer) != 0
        || lexicon_shelf_bisect(shelf->bytes, shelf->len, record, LEXICON_RECORD, answer) != 0)
        print_refusal("headword", answer);
    else if (answer[1])
        printf("`%s` is taken, at place %zu\n", text, answer[2]);
    else
        printf("`%s` is free, and would stand at place %zu\n", text, answer[2]);
}

// The shelf of all articles. A server would load the file from a disk and check it once; here it is empty first, which is a shelf too.
static bool print_shelf(const struct article *articles, size_t count)
{
    struct shelf shelf = {NULL, 0};
    size_t answer[LEXICON_ANSWER];
    if (lexicon_shelf_check(shelf.bytes, shelf.len, answer) != 0) {
        print_refusal("shelf", answer);
        return false;
    }
    bool filed = true;
    for (size_t i = 0; i < count && filed; i++)
        filed = add_article(&shelf, &articles[i]);
    print_taken(&shelf, "o3o4x");
    print_taken(&shelf, "x5o3o");
    free(shelf.bytes);
    return filed;
}

static int by_record(const void *a, const void *b)
{
    const struct article *x = a, *y = b;
    int order = memcmp(x->record, y->record, LEXICON_RECORD);
    return order != 0 ? order : (x->place > y->place) - (x->place < y->place);
}

// Two texts with the same record: nodes at the same place of it correspond.
static void print_corresponding(const struct article *one, const struct article *other)
{
    size_t node[LEXICON_LIMIT];
    for (size_t i = 0; i < one->nodes; i++)
        node[one->numbering[i]] = other->numbering[i];
    for (size_t i = 0; i < one->nodes; i++)
        printf("%s %zu-%zu", i ? "," : ", nodes", i, node[i]);
}

// Sorted by their records, texts of one figure stand side by side.
static void print_same(struct article *articles, size_t count)
{
    qsort(articles, count, sizeof *articles, by_record);
    for (size_t i = 1; i < count; i++) {
        const struct article *one = &articles[i - 1], *other = &articles[i];
        if (memcmp(one->record, other->record, LEXICON_RECORD) != 0)
            continue;
        printf("`%s` and `%s` are the same figure", one->text, other->text);
        print_corresponding(one, other);
        printf("\n");
    }
}

// Bytes that somebody sent with a text, which was accepted. They serve as a key only if they are read; at 22 the text's own record takes their place.
static void print_sent(const char *text, const uint8_t *sent)
{
    uint64_t diagram[LEXICON_DIAGRAM];
    size_t answer[LEXICON_ANSWER];
    printf("sent with `%s`\n", text);
    size_t refusal = lexicon_read_record(sent, LEXICON_RECORD, diagram, LEXICON_DIAGRAM, answer);
    if (refusal == 0) {
        print_nodes(diagram, answer[1]);
        print_edges(diagram, answer[1], answer[2]);
        return;
    }
    print_refusal("record", answer);
    if (refusal == 22)
        print_record(&(struct article){.text = text});
}

// `x4o` as it is filed, numbered as it was typed, and with a filler that is not zero.
static void print_all_sent(void)
{
    static const uint8_t filed[LEXICON_RECORD] = {2, [1] = 1, [10] = 2, 0x3f, 0xf0, [85] = 4, [89] = 1};
    static const uint8_t typed[LEXICON_RECORD] = {2, [1] = 2, 0x3f, 0xf0, [10] = 1, [85] = 4, [89] = 1};
    static const uint8_t damaged[LEXICON_RECORD] = {2, [1] = 2, 0x3f, 0xf0, [10] = 1, [85] = 4, [89] = 1, [369] = 1};
    print_sent("x4o", filed);
    print_sent("x4o", typed);
    print_sent("x4o", damaged);
}

int main(int argc, char **argv)
{
    static const char *const samples[] = {"x3o4o", "x4o3o", "o4o3x", "x5/2o5s3*c", "x3o", "x6/2o", "x4o4o", "x3o3o x7o", "(inf)3o", "*a", "x1o", "x4/6o",
                                          "x3o3*a", "x3_", ""};
    const char *const *texts = argc > 1 ? (const char *const *)argv + 1 : samples;
    size_t count = argc > 1 ? (size_t)argc - 1 : sizeof samples / sizeof *samples, accepted = 0;
    struct article *articles = calloc(count, sizeof *articles);
    if (!articles)
        return 1;
    for (size_t i = 0; i < count; i++) {
        printf("`%s`\n", texts[i]);
        if (!print_diagram(texts[i]))
            continue;
        struct article *article = &articles[accepted++];
        article->place = i;
        article->text = texts[i];
        print_record(article);
        print_mirrors(texts[i]);
        print_radii(texts[i]);
        print_groups(texts[i]);
    }
    bool filed = print_shelf(articles, accepted);
    print_same(articles, accepted);
    free(articles);
    print_all_sent();
    return filed ? 0 : 1;
}
