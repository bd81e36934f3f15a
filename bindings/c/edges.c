// The calls of include/lexicon.h on bad input and at the limits of what they take.
// Usage: edges. Exit status: 0 all is as the header says, 1 something is not, after a line that says what.
#include <stdbool.h>
#include <stdint.h>
#include <stdio.h>
#include <stdlib.h>
#include <string.h>

#include "lexicon.h"

#define LEN(array) (sizeof(array) / sizeof(array)[0])
#define PLUS_INFINITY UINT64_C(0x7ff0000000000000)
#define MINUS_INFINITY UINT64_C(0xfff0000000000000)
#define MINUS_ZERO UINT64_C(0x8000000000000000)
#define ONE UINT64_C(0x3ff0000000000000)
#define ANSWER(...) ((const size_t[LEXICON_ANSWER]){__VA_ARGS__}) // with zeros behind the numbers given

enum {
    MOST_BYTES = 255, // of a text
    SPARE = 3,        // elements behind those that a call may write, which it must keep
    NODE_BYTES = 9,   // of a record
    PAIR_BYTES = 8,
    RENUMBERINGS = 24, // of four places
    PLACES = 4,        // of a shelf
    MANY_PLACES = 300,
    FIGURES = 2 * PLACES + 1,
    ROOM = (MANY_PLACES + 1) * LEXICON_RECORD + SPARE, // bytes, more than those of reflections
};

// A text and the wish, a record, a file or both, or a family: each call takes what it needs.
struct input {
    const void *bytes;
    size_t len;
    size_t wish;
    const uint8_t *file;
    size_t file_len;
    uint8_t letter;
    size_t size;
};

// A call has one of these forms, or is the only one of its form.
typedef size_t to_numbers(const uint8_t *text, size_t len, size_t wish, uint64_t *out, size_t out_len, size_t answer[LEXICON_ANSWER]);
typedef size_t to_doubles(const uint8_t *text, size_t len, size_t wish, double *out, size_t out_len, size_t answer[LEXICON_ANSWER]);
typedef size_t of_family(uint8_t letter, size_t size, double *out, size_t out_len, size_t answer[LEXICON_ANSWER]);
typedef size_t in_file(const uint8_t *file, size_t file_len, const uint8_t *bytes, size_t len, size_t answer[LEXICON_ANSWER]);

struct call {
    const char *name;
    size_t element; // the bytes of an element of its buffer
    size_t writes;  // the elements that it writes, besides those of a file
    to_numbers *to_numbers;
    to_doubles *to_doubles;
    of_family *of_family;
    in_file *in_file;
};

static const struct call read_text = {"lexicon_read", sizeof(uint64_t), LEXICON_DIAGRAM, .to_numbers = lexicon_read};
static const struct call names = {"lexicon_names", sizeof(uint64_t), LEXICON_NAMES, .to_numbers = lexicon_names};
static const struct call write_record = {"lexicon_write_record", sizeof(uint8_t), LEXICON_RECORD, NULL, NULL, NULL, NULL};
static const struct call read_record = {"lexicon_read_record", sizeof(uint64_t), LEXICON_DIAGRAM, NULL, NULL, NULL, NULL};
static const struct call matrix = {"lexicon_matrix", sizeof(double), LEXICON_SQUARE, .to_doubles = lexicon_matrix};
static const struct call mirrors = {"lexicon_mirrors", sizeof(double), LEXICON_SQUARE, .to_doubles = lexicon_mirrors};
static const struct call walls = {"lexicon_walls", sizeof(double), LEXICON_SQUARE, .to_doubles = lexicon_walls};
static const struct call generator = {"lexicon_generator", sizeof(double), LEXICON_GENERATOR, .to_doubles = lexicon_generator};
static const struct call wall_generator = {"lexicon_wall_generator", sizeof(double), LEXICON_GENERATOR, .to_doubles = lexicon_wall_generator};
static const struct call reflections = {"lexicon_reflections", sizeof(double), LEXICON_REFLECTIONS, .to_doubles = lexicon_reflections};
static const struct call family_matrix = {"lexicon_family_matrix", sizeof(double), LEXICON_SQUARE, .of_family = lexicon_family_matrix};
static const struct call family_mirrors = {"lexicon_family_mirrors", sizeof(double), LEXICON_SQUARE, .of_family = lexicon_family_mirrors};
static const struct call family_walls = {"lexicon_family_walls", sizeof(double), LEXICON_SQUARE, .of_family = lexicon_family_walls};
static const struct call shelf_check = {"lexicon_shelf_check", sizeof(uint8_t), 0, NULL, NULL, NULL, NULL};
static const struct call shelf_find = {"lexicon_shelf_find", sizeof(uint8_t), 0, .in_file = lexicon_shelf_find};
static const struct call shelf_bisect = {"lexicon_shelf_bisect", sizeof(uint8_t), 0, .in_file = lexicon_shelf_bisect};
static const struct call shelf_add = {"lexicon_shelf_add", sizeof(uint8_t), LEXICON_RECORD, NULL, NULL, NULL, NULL};
static const struct call shelf_rescue = {"lexicon_shelf_rescue", sizeof(uint8_t), 0, NULL, NULL, NULL, NULL}; // which has two buffers, and is run apart

static const struct call *const of_texts[] = {&read_text, &names, &write_record, &matrix, &mirrors, &walls, &generator, &wall_generator, &reflections};
static const struct call *const over_mirrors[] = {&mirrors, &generator, &reflections};
static const struct call *const over_walls[] = {&walls, &wall_generator};
static const struct call *const of_records_and_files[] = {&shelf_find, &shelf_bisect, &shelf_add};

// ---- one call, with all that it may and may not change

static void *out, *again; // ROOM bytes each, allocated, so that they serve for elements of every type
static size_t numbering[LEXICON_LIMIT + SPARE], answer[LEXICON_ANSWER + SPARE];
static unsigned long checks;

// What is being called, for `run` and for the message.
static const struct call *now;
static struct input given;
static size_t given_out, given_marks;

static void check(bool holds, const char *what)
{
    checks++;
    if (holds)
        return;
    printf("edges: %s of ", now->name);
    if (now->of_family)
        printf("family %u, size %zu", (unsigned)given.letter, given.size);
    else
        printf("%zu bytes, wish %zu, file of %zu bytes", given.len, given.wish, given.file_len);
    if (now == &shelf_rescue)
        printf(", marks of %zu", given_marks);
    printf(", buffer of %zu: %s; answer %zu %zu %zu %zu\n", given_out, what, answer[0], answer[1], answer[2], answer[3]);
    exit(1);
}

static size_t run(void *buffer)
{
    if (now->to_numbers)
        return now->to_numbers(given.bytes, given.len, given.wish, buffer, given_out, answer);
    if (now->to_doubles)
        return now->to_doubles(given.bytes, given.len, given.wish, buffer, given_out, answer);
    if (now->of_family)
        return now->of_family(given.letter, given.size, buffer, given_out, answer);
    if (now->in_file)
        return now->in_file(given.file, given.file_len, given.bytes, given.len, answer);
    if (now == &shelf_check)
        return lexicon_shelf_check(given.file, given.file_len, answer);
    if (now == &shelf_add)
        return lexicon_shelf_add(given.file, given.file_len, given.bytes, given.len, buffer, given_out, answer);
    if (now == &read_record)
        return lexicon_read_record(given.bytes, given.len, buffer, given_out, answer);
    return lexicon_write_record(given.bytes, given.len, given.wish, buffer, given_out, numbering, answer);
}

// The elements that an answer writes.
static size_t writes(const struct call *call, struct input in)
{
    return call->writes + (call == &shelf_add ? in.file_len : 0);
}

// Whether so many bytes all have this value.
static bool filled(const void *at, uint8_t value, size_t bytes)
{
    const uint8_t *byte = at;
    return bytes == 0 || (byte[0] == value && memcmp(byte, byte + 1, bytes - 1) == 0);
}

// Whether each of n nodes has one place, and past them place i holds i.
static bool numbers(const size_t *places, size_t n)
{
    bool seen[LEXICON_LIMIT] = {false};
    for (size_t i = 0; i < LEXICON_LIMIT; i++) {
        if (i < n ? places[i] >= n || seen[places[i]] : places[i] != i)
            return false;
        seen[places[i]] = true;
    }
    return true;
}

// Runs the call over memory that is filled with a byte, and checks the answer and all that is to keep that byte.
static void run_over(uint8_t fill, void *buffer, bool null, const size_t *wanted)
{
    size_t room = (writes(now, given) + SPARE) * now->element;
    memset(buffer, fill, room);
    memset(numbering, fill, sizeof numbering);
    memset(answer, fill, sizeof answer);
    size_t number = run(null ? NULL : buffer);
    check(number == wanted[0], "it returns another number");
    check(memcmp(answer, wanted, LEXICON_ANSWER * sizeof *answer) == 0, "its answer is another");
    check(filled(answer + LEXICON_ANSWER, fill, SPARE * sizeof *answer), "it writes past its answer");

    size_t written = number == 0 ? writes(now, given) * now->element : 0;
    check(filled((uint8_t *)buffer + written, fill, room - written), "it changes elements that it should keep");
    bool numbered = number == 0 && now == &write_record;
    size_t places = numbered ? LEXICON_LIMIT : 0;
    check(filled(numbering + places, fill, sizeof numbering - places * sizeof *numbering), "it changes a numbering that it should keep");
    check(!numbered || numbers(numbering, answer[1]), "its numbering is none");
}

// Twice, over two fills: if both leave the same, then each element was written.
static void expect(const struct call *call, struct input in, size_t out_len, const size_t *wanted)
{
    now = call;
    given = in;
    given_out = out_len;
    run_over(0xa5, again, false, wanted);
    run_over(0x5a, out, false, wanted);
    check(wanted[0] != 0 || memcmp(out, again, writes(now, given) * now->element) == 0, "it leaves an element of its answer unwritten");
    if (out_len == 0)
        run_over(0xa5, again, true, wanted);
}

// An answer, to a buffer that is full and to a longer one. To shorter ones 12.
static void expect_answer(const struct call *call, struct input in, const size_t *wanted)
{
    size_t full = writes(call, in);
    if (full > 0) {
        expect(call, in, 0, ANSWER(12));
        expect(call, in, 1, ANSWER(12));
        expect(call, in, full - 1, ANSWER(12));
    }
    expect(call, in, full, wanted);
    expect(call, in, full + SPARE, wanted);
}

// A refusal, with every buffer: 12 comes after all others.
static void expect_refusal(const struct call *call, struct input in, const size_t *wanted)
{
    size_t full = writes(call, in);
    expect(call, in, 0, wanted);
    if (full > 0)
        expect(call, in, full - 1, wanted);
    expect(call, in, full, wanted);
}

static struct input bytes(const void *at, size_t len)
{
    return (struct input){.bytes = at, .len = len};
}

static struct input text(const char *typed)
{
    return bytes(typed, strlen(typed));
}

static struct input wished(const char *typed, size_t wish)
{
    return (struct input){.bytes = typed, .len = strlen(typed), .wish = wish};
}

static struct input record(const uint8_t *at)
{
    return bytes(at, LEXICON_RECORD);
}

static struct input file_alone(const uint8_t *file, size_t file_len)
{
    return (struct input){.file = file, .file_len = file_len};
}

// A record to be looked up in a file or added to it.
static struct input with_file(const uint8_t *file, size_t file_len, struct input in)
{
    in.file = file;
    in.file_len = file_len;
    return in;
}

static struct input family(unsigned letter, size_t size)
{
    return (struct input){.letter = (uint8_t)letter, .size = size};
}

static void expect_refused_text(struct input in, const size_t *wanted)
{
    for (size_t i = 0; i < LEN(of_texts); i++)
        expect_refusal(of_texts[i], in, wanted);
}

// An accepted text whose mirrors and walls exist, whose lengths are finite and whose components have names.
static void expect_accepted_text(struct input in, size_t nodes, size_t edges, size_t components, bool minimal)
{
    expect_answer(&read_text, in, ANSWER(0, nodes, edges, minimal));
    expect_answer(&names, in, ANSWER(0, components));
    for (size_t i = 2; i < LEN(of_texts); i++)
        expect_answer(of_texts[i], in, ANSWER(0, nodes));
}

// ---- texts

static void accepted_texts(void)
{
    expect_accepted_text(text("x3o4o"), 3, 2, 1, true);
    expect_accepted_text(wished("x3o4o", 1), 3, 2, 1, true);
    expect_accepted_text(text("s3s *a4*a"), 2, 2, 1, false);
    expect_accepted_text(text("*a"), 0, 0, 0, true);
    expect_accepted_text(text("ooooooooo"), 9, 0, 9, false);
}

// The edge between the nodes 0 and 1 of the diagram that was read last.
static void check_edge(uint64_t num, uint64_t den)
{
    const uint64_t *edge = (const uint64_t *)out + 21;
    check(edge[0] == 1 && edge[1] == num && edge[2] == den, "its edge is another, or not in lowest terms");
}

static void lowest_terms(void)
{
    static const struct {
        const char *text;
        uint64_t num, den;
    } typed[] = {
        {"x3o", 3, 1}, {"x6/2o", 3, 1}, {"x006/002o", 3, 1}, {"x5/10/4o", 5, 2}, {"x12/10o", 6, 5},
        {"x4294967295/1431655765o", 3, 1}, {"x3221225472/2147483648o", 3, 2}, {"x3672623806/2269806340o", 1836311903, 1134903170},
        {"x4294967295/4294967294o", 4294967295, 4294967294},
    };
    for (size_t i = 0; i < LEN(typed); i++) {
        expect(&read_text, text(typed[i].text), LEXICON_DIAGRAM, ANSWER(0, 2, 1, 1));
        check_edge(typed[i].num, typed[i].den);
    }
}

static void refused_texts(void)
{
    static const struct {
        const char *text;
        size_t answer[LEXICON_ANSWER];
    } refused[] = {
        {"x(1", {3, 3}}, {"x3(1", {3, 4}}, {"(", {3, 1}}, {"x3", {4, 2}}, {"x ", {4, 2}}, {"*", {4, 1}}, {"*-", {4, 2}},
        {"()", {5, 1}}, {"(1x)", {5, 2}}, {"x3/o", {5, 2}}, {"x3//2o", {5, 2}}, {"x4294967296o", {5, 10}},
        {"(nan)", {6, 3}}, {"(-NaN)", {6, 4}}, {"x3_", {6, 2}}, {"x3\to", {6, 2}},
        {"x1o", {7, 1, 1, 1}}, {"x4/6o", {7, 4, 6, 3}}, {"x2147483648/3221225472o", {7, 2147483648, 3221225472, 21}},
        {"x4294967294/4294967295o", {7, 4294967294, 4294967295, 21}}, {"x3o3*a", {8, 1, 0}}, {"x3o6/2*a", {8, 1, 0}}, {"x3*a3*a", {8, 0, 0}},
        {"(1e23)", {9, 4}}, {"oooooooooo", {10, 9}}, {"ooooooooo(1)", {10, 9}}, {"x3*c", {11, 0}}, {"x2*c3o3*c", {11, 1}},
    };
    for (size_t i = 0; i < LEN(refused); i++) {
        expect_refused_text(text(refused[i].text), refused[i].answer);
        expect_refused_text(wished(refused[i].text, 1), refused[i].answer);
    }
}

// The same answer, or the same refusal, of several calls.
static void expect_of_all(const struct call *const *calls, size_t count, struct input in, const size_t *wanted)
{
    for (size_t i = 0; i < count; i++)
        if (wanted[0] == 0)
            expect_answer(calls[i], in, wanted);
        else
            expect_refusal(calls[i], in, wanted);
}

// What only the geometers' calls refuse. 15 comes before 16. A cycle may have mirrors and no walls, or walls and no mirrors.
static void refused_geometry(void)
{
    static const struct {
        const char *text;
        size_t mirrors[LEXICON_ANSWER], walls[LEXICON_ANSWER];
    } refused[] = {
        {"x4o4o", {15, 2}, {15, 2}}, {"(inf)4o4o", {15, 2}, {15, 2}}, {"o3o3o3*a", {0, 3}, {15, 2}}, {"o5/4o5/4o5/4*a", {15, 2}, {0, 3}},
    };
    for (size_t i = 0; i < LEN(refused); i++) {
        struct input in = wished(refused[i].text, 1);
        expect_of_all(over_mirrors, LEN(over_mirrors), in, refused[i].mirrors);
        expect_of_all(over_walls, LEN(over_walls), in, refused[i].walls);
        expect_answer(&matrix, in, ANSWER(0, 3));
    }
    expect_refusal(&generator, wished("(inf)3o3o3*a", 1), ANSWER(16, 0));
    expect_refusal(&wall_generator, wished("(inf)3o3o3*a", 1), ANSWER(15, 2));
    expect_refusal(&generator, wished("o3(-Infinity)3(inf)", 1), ANSWER(16, 1));
    expect_refusal(&wall_generator, wished("o3(-Infinity)3(inf)", 1), ANSWER(16, 1));
}

// Texts refused either way. 23 comes as reading meets the literal: before 10, which a faulty node does not get, and before 8 and 11.
static void refused_infinite_lengths(void)
{
    static const struct {
        const char *text;
        size_t without[LEXICON_ANSWER], with[LEXICON_ANSWER];
    } refused[] = {
        {"ooooooooo(inf)", {23, 12}, {10, 9}}, {"x3*c3(+INF)", {23, 9}, {11, 0}}, {"x3o3*a(inf)", {23, 9}, {8, 1, 0}},
        {"(inf)1o", {23, 3}, {7, 1, 1, 5}}, {"x1(inf)", {7, 1, 1, 1}, {7, 1, 1, 1}}, {"(nan)(inf)", {6, 3}, {6, 3}},
        {"(inf", {3, 4}, {3, 4}}, {"(infi)", {5, 4}, {5, 4}}, {"(inf)\xff", {2, 5}, {2, 5}},
    };
    for (size_t i = 0; i < LEN(refused); i++) {
        expect_refused_text(text(refused[i].text), refused[i].without);
        expect_refused_text(wished(refused[i].text, 1), refused[i].with);
    }
}

// Two inputs of which a call tells and writes the same.
static void expect_same(const struct call *call, struct input one, struct input other, const size_t *wanted)
{
    static uint8_t first[ROOM];
    size_t first_numbering[LEN(numbering)];
    expect_answer(call, one, wanted);
    memcpy(first, out, call->writes * call->element);
    memcpy(first_numbering, numbering, sizeof numbering);
    expect_answer(call, other, wanted);
    check(memcmp(first, out, call->writes * call->element) == 0, "it writes something else");
    check(memcmp(first_numbering, numbering, sizeof numbering) == 0, "its numbering is another");
}

// A chain whose last length alone is infinite, without the wish and with it. What does not depend on lengths is that of a finite chain.
static void expect_infinite(const char *typed, const char *finite, size_t nodes, size_t wish)
{
    struct input in = wished(typed, wish);
    expect_refused_text(text(typed), ANSWER(23, strlen(typed) - 2));
    expect_refusal(&generator, in, ANSWER(16, nodes - 1));
    expect_refusal(&wall_generator, in, ANSWER(16, nodes - 1));
    expect_same(&read_text, wished(typed, 1), in, ANSWER(0, nodes, nodes - 1, true));
    expect_same(&write_record, wished(typed, 1), in, ANSWER(0, nodes));
    expect_same(&names, text(finite), in, ANSWER(0, 1));
    expect_same(&matrix, text(finite), in, ANSWER(0, nodes));
    expect_same(&mirrors, text(finite), in, ANSWER(0, nodes));
    expect_same(&walls, text(finite), in, ANSWER(0, nodes));
    expect_same(&reflections, text(finite), in, ANSWER(0, nodes));
}

static void check_bits(size_t node, uint64_t bits)
{
    check(((const uint64_t *)out)[2 * node + 1] == bits, "its length is another");
}

// Every number but 0 is the wish.
static void wishes(void)
{
    static const size_t wish[] = {1, 2, 256, (size_t)1 << 32, SIZE_MAX};
    for (size_t i = 0; i < LEN(wish); i++) {
        expect_infinite("(inf)", "x", 1, wish[i]);
        expect_infinite("x3(-Infinity)", "x3x", 2, wish[i]);
        expect_same(&write_record, text("x3o4q"), wished("x3o4q", wish[i]), ANSWER(0, 3));
    }
    expect(&read_text, wished("x3(-Infinity)", 1), LEXICON_DIAGRAM, ANSWER(0, 2, 1, 1));
    check_bits(1, MINUS_INFINITY);
}

static void lengths(void)
{
    static char typed[100000];
    memset(typed, ' ', sizeof typed);
    expect_refused_text(bytes(NULL, 0), ANSWER(4, 0));
    expect_refused_text(bytes(typed, 0), ANSWER(4, 0));
    expect_refused_text(bytes(typed, MOST_BYTES), ANSWER(4, MOST_BYTES));
    typed[MOST_BYTES - 1] = 'x';
    expect_accepted_text(bytes(typed, MOST_BYTES), 1, 0, 1, true);
    expect_refused_text(bytes(typed, MOST_BYTES + 1), ANSWER(1, 255));
    expect_refused_text(bytes(typed, sizeof typed), ANSWER(1, 255));
    memset(typed, 0xff, sizeof typed); // the length is tested before the bytes
    expect_refused_text(bytes(typed, MOST_BYTES + 1), ANSWER(1, 255));
}

// Every text of one byte.
static void single_bytes(void)
{
    static const char letters[] = "osvxqfhkuwFeQdVUAXB", spaces[] = "\t\n\v\f\r ";
    for (unsigned value = 0; value < 256; value++) {
        uint8_t byte = (uint8_t)value;
        struct input in = bytes(&byte, 1);
        if (byte >= 128)
            expect_refused_text(in, ANSWER(2, 0));
        else if (byte == '(')
            expect_refused_text(in, ANSWER(3, 1));
        else if (byte == '*' || (byte != 0 && strchr(spaces, byte)))
            expect_refused_text(in, ANSWER(4, 1));
        else if (byte != 0 && strchr(letters, byte))
            expect_accepted_text(in, 1, 0, 1, byte != 'o' && byte != 's');
        else
            expect_refused_text(in, ANSWER(6, 0));
    }
}

// A NUL does not end a text, and fits nothing. A byte of 128 or more is found before all else, and of several the first.
static void bytes_at_every_position(void)
{
    uint8_t typed[MOST_BYTES];
    for (size_t at = 0; at < sizeof typed; at++) {
        memset(typed, ' ', sizeof typed);
        typed[sizeof typed - 1] = 'x';
        typed[at] = 0;
        expect_refused_text(bytes(typed, sizeof typed), ANSWER(6, at));
        memset(typed, 0, at);
        memset(typed + at, 0xff, sizeof typed - at);
        for (unsigned value = 128; value < 256; value++) {
            typed[at] = (uint8_t)value;
            for (size_t i = 0; i < LEN(of_texts); i++)
                expect(of_texts[i], bytes(typed, sizeof typed), of_texts[i]->writes, ANSWER(2, at));
        }
    }
}

// ---- records

// Writes the record of a text that is accepted with the wish.
static void record_of(const char *typed, uint8_t *filed)
{
    now = &write_record;
    given = wished(typed, 1);
    given_out = LEXICON_RECORD;
    check(run(filed) == 0, "it refuses the text");
}

static void record_lengths(void)
{
    uint8_t zeros[LEXICON_RECORD + 1] = {0}; // the first 370 are the record of no nodes
    expect_refusal(&read_record, bytes(NULL, 0), ANSWER(13));
    expect_refusal(&read_record, bytes(zeros, 0), ANSWER(13));
    expect_refusal(&read_record, bytes(zeros, LEXICON_RECORD - 1), ANSWER(13));
    expect_refusal(&read_record, bytes(zeros, LEXICON_RECORD + 1), ANSWER(13));
    expect_answer(&read_record, record(zeros), ANSWER(0, 0, 0));
}

static void accepted_records(void)
{
    uint8_t filed[LEXICON_RECORD];
    record_of("x3o4o *a5*a", filed); // the loop goes
    expect_answer(&read_record, record(filed), ANSWER(0, 3, 2));
    record_of("(-inf)6/2(-0)", filed);
    expect_answer(&read_record, record(filed), ANSWER(0, 2, 1));
    check_edge(3, 1);
    check_bits(1, MINUS_INFINITY);
}

// ---- records that somebody sent: laid out for no diagram, or not the smallest of their renumberings

static size_t node_at(size_t i)
{
    return 1 + NODE_BYTES * i;
}

static size_t pair_at(size_t i, size_t j)
{
    size_t low = i < j ? i : j, high = i < j ? j : i;
    return 82 + PAIR_BYTES * (high * (high - 1) / 2 + low);
}

static void swap(uint8_t *one, uint8_t *other, size_t len)
{
    for (size_t i = 0; i < len; i++) {
        uint8_t kept = one[i];
        one[i] = other[i];
        other[i] = kept;
    }
}

// Renumbers bytes of n nodes: the nodes of two places are exchanged.
static void exchange(uint8_t *laid, size_t n, size_t one, size_t other)
{
    if (one == other)
        return;
    swap(laid + node_at(one), laid + node_at(other), NODE_BYTES);
    for (size_t i = 0; i < n; i++)
        if (i != one && i != other)
            swap(laid + pair_at(i, one), laid + pair_at(i, other), PAIR_BYTES);
}

static uint8_t renumbered[RENUMBERINGS][LEXICON_RECORD];

// Adds every renumbering of bytes of n nodes that keeps the first few places, and returns how many there are then.
static size_t renumber(uint8_t *laid, size_t n, size_t kept, size_t count)
{
    if (kept == n) {
        memcpy(renumbered[count], laid, LEXICON_RECORD);
        return count + 1;
    }
    for (size_t i = kept; i < n; i++) {
        exchange(laid, n, kept, i);
        count = renumber(laid, n, kept + 1, count);
        exchange(laid, n, kept, i);
    }
    return count;
}

// As many renumberings as the figure has symmetries are its record. The others come after it and are refused.
static void expect_one_record(const char *typed, size_t nodes, size_t edges, size_t symmetries)
{
    uint8_t filed[LEXICON_RECORD];
    record_of(typed, filed);
    size_t same = 0, count = renumber(filed, nodes, 0, 0);
    for (size_t i = 0; i < count; i++) {
        int order = memcmp(renumbered[i], filed, sizeof filed);
        same += order == 0;
        if (order == 0)
            expect_answer(&read_record, record(renumbered[i]), ANSWER(0, nodes, edges));
        else
            expect_refusal(&read_record, record(renumbered[i]), ANSWER(22));
        check(order >= 0, "a renumbering comes before the record");
    }
    check(same == symmetries, "another number of renumberings is the record");
}

static void other_numberings(void)
{
    expect_one_record("*a", 0, 0, 1);
    expect_one_record("x", 1, 0, 1);
    expect_one_record("x4o", 2, 1, 1);
    expect_one_record("x3x", 2, 1, 2);
    expect_one_record("x3o4o", 3, 2, 1);
    expect_one_record("s5/2x3s", 3, 2, 1);
    expect_one_record("x3x3x", 3, 2, 2);
    expect_one_record("xxx", 3, 0, 6);
    expect_one_record("(inf)(-inf)(0)(-0)", 4, 0, 1);
    expect_one_record("x3x3x3x3*a", 4, 4, 8);
}

// Damages to the record of `x3o4o`, which has o, o and x, 4 between the first two, nothing between the first and the last, and 3. Each is 14 in every
// numbering: 22 comes after it.
static void damaged_records(void)
{
    enum { COUNT = 0, KIND = 1, BITS = 2, LENGTH = 20, FOUR = 82, NOTHING = 90 }; // the kind and bits of the first o, the bits of the x, pairs
    static const struct {
        size_t at, len;
        uint8_t bytes[PAIR_BYTES];
    } damages[] = {
        {COUNT, 1, {0}}, {COUNT, 1, {2}}, {COUNT, 1, {4}}, {COUNT, 1, {9}}, {COUNT, 1, {10}}, {COUNT, 1, {255}},
        {KIND, 1, {0}}, {KIND, 1, {4}}, {KIND, 1, {255}},
        {BITS, 2, {0x3f, 0xf0}}, {BITS, 1, {0x80}}, {BITS, 8, {[7] = 1}}, // of an unringed node all are 0
        {LENGTH, 2, {0x7f, 0xf8}}, {LENGTH, 2, {0xff, 0xff}}, {LENGTH, 8, {0x7f, 0xf0, [7] = 1}}, {LENGTH, 8, {0xff, 0xf0, [7] = 1}}, // nan
        {FOUR, 8, {[3] = 6, [7] = 2}}, {FOUR, 8, {[3] = 4, [7] = 2}}, {NOTHING, 8, {[3] = 4, [7] = 2}}, // not in lowest terms
        {FOUR, 8, {[3] = 4}}, {FOUR, 8, {[7] = 1}}, {FOUR, 8, {[3] = 1, [7] = 1}}, {FOUR, 8, {[3] = 3, [7] = 4}}, {NOTHING, 8, {0}}, // no edge
        {28, 1, {1}}, {81, 1, {1}}, {106, 8, {[3] = 2, [7] = 1}}, {LEXICON_RECORD - 1, 1, {255}}, // fillers
    };
    uint8_t laid[LEXICON_RECORD];
    for (size_t i = 0; i < LEN(damages); i++) {
        record_of("x3o4o", laid);
        memcpy(laid + damages[i].at, damages[i].bytes, damages[i].len);
        size_t count = renumber(laid, 3, 0, 0);
        for (size_t k = 0; k < count; k++)
            expect_refusal(&read_record, record(renumbered[k]), ANSWER(14));
    }
    memset(laid, 0xff, sizeof laid);
    expect_refusal(&read_record, record(laid), ANSWER(14));
}

// Whether the layout of two nodes, one of them unringed and at this place, has but one value for a byte: count, bits of that node, unused places.
static bool fixed(size_t unringed, size_t at)
{
    return at == 0 || (at > node_at(unringed) && at < node_at(unringed + 1)) || (at >= node_at(2) && at < pair_at(0, 1)) || at >= pair_at(0, 2);
}

// The record of two nodes and its other numbering, with each byte that is fixed given each other value.
static void damaged_bytes(void)
{
    uint8_t laid[LEXICON_RECORD];
    record_of("x4o", laid);
    for (size_t unringed = 0; unringed < 2; unringed++) {
        for (size_t at = 0; at < sizeof laid; at++) {
            uint8_t kept = laid[at];
            for (unsigned value = 0; fixed(unringed, at) && value < 256; value++) {
                laid[at] = (uint8_t)value;
                if (value != kept)
                    expect_refusal(&read_record, record(laid), ANSWER(14));
            }
            laid[at] = kept;
        }
        exchange(laid, 2, 0, 1);
    }
    laid[1] = 3; // a snub node of length 0 before the ringed one: laid out well, but not the smallest
    expect_refusal(&read_record, record(laid), ANSWER(22));
}

// Any length but nan, those that no text has among them, and the largest fraction.
static void any_values(void)
{
    static const uint64_t lengths[] = {0, MINUS_ZERO, 1, PLUS_INFINITY - 1, PLUS_INFINITY, MINUS_INFINITY};
    uint8_t laid[LEXICON_RECORD];
    for (size_t i = 0; i < LEN(lengths); i++) {
        record_of("x3o4o", laid);
        for (size_t k = 0; k < 8; k++)
            laid[node_at(2) + 1 + k] = (uint8_t)(lengths[i] >> (56 - 8 * k));
        expect_answer(&read_record, record(laid), ANSWER(0, 3, 2));
        check_bits(2, lengths[i]);
        exchange(laid, 3, 0, 2);
        expect_refusal(&read_record, record(laid), ANSWER(22));
    }
    record_of("x4294967295/4294967294o", laid);
    expect_answer(&read_record, record(laid), ANSWER(0, 2, 1));
    check_edge(UINT32_MAX, UINT32_MAX - 1);
}

// Bytes in the order typed are refused. Each text of the figure gets the record that is read back.
static void mended_records(void)
{
    static const char *const texts[] = {"x3o4o", "o4o3x", "o6/2x *a4o", "x3o4o *a5*a"};
    uint8_t sent[LEXICON_RECORD], filed[LEXICON_RECORD], mended[LEXICON_RECORD];
    record_of(texts[0], filed);
    memcpy(sent, filed, sizeof filed);
    exchange(sent, 3, 0, 2);
    expect_refusal(&read_record, record(sent), ANSWER(22));
    for (size_t i = 0; i < LEN(texts); i++) {
        record_of(texts[i], mended);
        check(memcmp(filed, mended, sizeof filed) == 0, "its record is another");
        expect_answer(&read_record, record(mended), ANSWER(0, 3, 2));
    }
}

// ---- shelf files

// Figures by rising record. The second, fourth and so on are on the shelf; the others would stand before all, between any two, and after all.
static const char *const rising[FIGURES] = {"*a", "o", "x", "s", "x3o", "x4o", "x4o3o", "x3o4o", "x3o3o3o"};
static uint8_t figures[FIGURES][LEXICON_RECORD], shelf[PLACES * LEXICON_RECORD];

static void fill_shelf(void)
{
    for (size_t i = 0; i < FIGURES; i++) {
        record_of(rising[i], figures[i]);
        if (i % 2 == 1)
            memcpy(shelf + LEXICON_RECORD * (i / 2), figures[i], LEXICON_RECORD);
    }
}

static const uint8_t *place(const uint8_t *file, size_t i)
{
    return file + LEXICON_RECORD * i;
}

// What bisection finds in any file, without 19.
static void expect_bisection(struct input in)
{
    size_t places = in.file_len / LEXICON_RECORD, low = 0, high = places;
    if (in.file_len % LEXICON_RECORD != 0) {
        expect_refusal(&shelf_bisect, in, ANSWER(18));
        return;
    }
    while (low < high) {
        size_t middle = low + (high - low) / 2;
        if (memcmp(in.bytes, place(in.file, middle), LEXICON_RECORD) <= 0)
            high = middle;
        else
            low = middle + 1;
    }
    bool present = low < places && memcmp(in.bytes, place(in.file, low), LEXICON_RECORD) == 0;
    expect_answer(&shelf_bisect, in, ANSWER(0, present, low));
}

// 18 or 19, whichever figure is looked up or added: 20 comes after them.
static void expect_wrong_file(const uint8_t *file, size_t len, const size_t *wanted)
{
    expect_refusal(&shelf_check, file_alone(file, len), wanted);
    for (size_t i = 0; i < FIGURES; i++) {
        struct input in = with_file(file, len, record(figures[i]));
        expect_refusal(&shelf_find, in, wanted);
        expect_refusal(&shelf_add, in, wanted);
        expect_bisection(in);
    }
}

// The new file has the record at the place told, and the old file around it.
static void expect_added(struct input in, size_t at)
{
    const uint8_t *added = out;
    size_t before = LEXICON_RECORD * at;
    expect_answer(&shelf_add, in, ANSWER(0, at));
    check(memcmp(added, in.file, before) == 0, "an old record before the new one is another");
    check(memcmp(added + before, in.bytes, LEXICON_RECORD) == 0, "the new record is not at its place");
    check(memcmp(added + before + LEXICON_RECORD, in.file + before, in.file_len - before) == 0, "an old record behind the new one is another");
}

// Each figure is found where it is, or added where it would stand, behind as many records as are less.
static void expect_shelf(const uint8_t *file, size_t places)
{
    size_t len = LEXICON_RECORD * places;
    expect_answer(&shelf_check, file_alone(file, len), ANSWER(0, places));
    for (size_t i = 0; i < FIGURES; i++) {
        struct input in = with_file(file, len, record(figures[i]));
        size_t at = 0;
        while (at < places && memcmp(place(file, at), figures[i], LEXICON_RECORD) < 0)
            at++;
        bool present = at < places && memcmp(place(file, at), figures[i], LEXICON_RECORD) == 0;
        expect_answer(&shelf_find, in, ANSWER(0, present, at));
        expect_answer(&shelf_bisect, in, ANSWER(0, present, at));
        if (present)
            expect_refusal(&shelf_add, in, ANSWER(20, at));
        else
            expect_added(in, at);
    }
}

static void shelves(void)
{
    uint8_t one[LEXICON_RECORD]; // apart from the record that is looked up, as the header asks
    for (size_t places = 0; places <= PLACES; places++)
        expect_shelf(shelf, places);
    for (size_t i = 0; i < FIGURES; i++) {
        memcpy(one, figures[i], sizeof one);
        expect_shelf(one, 1);
        struct input in = with_file(NULL, 0, record(figures[i]));
        expect_answer(&shelf_find, in, ANSWER(0, 0, 0));
        expect_answer(&shelf_bisect, in, ANSWER(0, 0, 0));
        expect_answer(&shelf_add, in, ANSWER(0, 0));
    }
    expect_answer(&shelf_check, file_alone(NULL, 0), ANSWER(0, 0));
}

// Also of files whose first place is wrong: 18 comes before 19.
static void file_lengths(void)
{
    static const size_t lengths[] = {1, LEXICON_RECORD - 1, LEXICON_RECORD + 1, 2 * LEXICON_RECORD - 1, 2 * LEXICON_RECORD + 1};
    uint8_t file[2 * LEXICON_RECORD + 1];
    memset(file, 0xff, sizeof file);
    for (size_t i = 0; i < LEN(lengths); i++) {
        expect_wrong_file(shelf, lengths[i], ANSWER(18));
        expect_wrong_file(file, lengths[i], ANSWER(18));
    }
    expect_wrong_file(file, LEXICON_RECORD, ANSWER(19, 0));
    memset(file, 0, sizeof file); // the record of no nodes, twice
    expect_shelf(file, 1);
    expect_wrong_file(file, 2 * LEXICON_RECORD, ANSWER(19, 1));
}

// The shelf with other bytes at a place. Nothing that is wrong behind it changes the answer.
static void expect_wrong_place(size_t at, const uint8_t *laid)
{
    uint8_t file[sizeof shelf];
    memcpy(file, shelf, sizeof file);
    memcpy(file + LEXICON_RECORD * at, laid, LEXICON_RECORD);
    expect_wrong_file(file, sizeof file, ANSWER(19, at));
    expect_wrong_file(file, LEXICON_RECORD * (at + 1), ANSWER(19, at));
    memset(file + LEXICON_RECORD * (at + 1), 0xff, sizeof file - LEXICON_RECORD * (at + 1));
    expect_wrong_file(file, sizeof file, ANSWER(19, at));
}

// Of each place the first byte and the last.
static void damaged_places(void)
{
    static const struct {
        size_t at;
        uint8_t value;
    } damages[] = {{0, 0}, {0, 9}, {0, 10}, {0, 255}, {LEXICON_RECORD - 1, 1}, {LEXICON_RECORD - 1, 255}};
    uint8_t laid[LEXICON_RECORD];
    for (size_t i = 0; i < PLACES; i++)
        for (size_t k = 0; k < LEN(damages); k++) {
            memcpy(laid, place(shelf, i), sizeof laid);
            laid[damages[k].at] = damages[k].value;
            expect_wrong_place(i, laid);
        }
    memcpy(laid, place(shelf, 2), sizeof laid);
    exchange(laid, 2, 0, 1); // laid out well, greater than the place before it, but not the smallest
    expect_wrong_place(2, laid);
}

// Equal neighbours, and each place given a figure that is less than the one before.
static void unsorted_places(void)
{
    uint8_t file[sizeof shelf];
    for (size_t i = 1; i < PLACES; i++) {
        for (size_t k = 0; k < 2 * i; k++)
            expect_wrong_place(i, figures[k]);
        memcpy(file, shelf, sizeof file);
        swap(file + LEXICON_RECORD * (i - 1), file + LEXICON_RECORD * i, LEXICON_RECORD);
        expect_wrong_file(file, sizeof file, ANSWER(19, i));
    }
}

// The record is read before the file, which may be good or bad.
static void expect_refused_record(struct input in, const size_t *wanted)
{
    static const uint8_t wrong[2 * LEXICON_RECORD] = {0}; // 19 at 1
    for (size_t i = 0; i < LEN(of_records_and_files); i++) {
        const struct call *call = of_records_and_files[i];
        expect_refusal(call, with_file(NULL, 0, in), wanted);
        expect_refusal(call, with_file(shelf, sizeof shelf, in), wanted);
        expect_refusal(call, with_file(shelf, 1, in), wanted);
        expect_refusal(call, with_file(shelf, sizeof shelf - 1, in), wanted);
        expect_refusal(call, with_file(wrong, sizeof wrong, in), wanted);
    }
}

static void refused_records(void)
{
    uint8_t laid[LEXICON_RECORD + 1] = {0};
    expect_refused_record(bytes(NULL, 0), ANSWER(13));
    for (size_t i = 0; i < FIGURES; i++) {
        memcpy(laid, figures[i], LEXICON_RECORD);
        expect_refused_record(bytes(laid, LEXICON_RECORD - 1), ANSWER(13));
        expect_refused_record(bytes(laid, LEXICON_RECORD + 1), ANSWER(13));
        laid[LEXICON_RECORD - 1] = 1;
        expect_refused_record(record(laid), ANSWER(14));
    }
    record_of("x4o", laid);
    exchange(laid, 2, 0, 1);
    expect_refused_record(record(laid), ANSWER(22));
    laid[0] = 255;
    expect_refused_record(record(laid), ANSWER(14));
}

// A buffer that would hold the record, or the file, but not both.
static void short_buffers(void)
{
    struct input in = with_file(shelf, sizeof shelf, record(figures[2]));
    expect(&shelf_add, in, LEXICON_RECORD - 1, ANSWER(12));
    expect(&shelf_add, in, LEXICON_RECORD, ANSWER(12));
    expect(&shelf_add, in, sizeof shelf, ANSWER(12));
    expect(&shelf_add, in, sizeof shelf + 1, ANSWER(12));
}

// Adds each figure once, in an order that the step gives, to a file that is empty first.
static void build(size_t step, uint8_t file[sizeof figures])
{
    bool on[FIGURES] = {false};
    for (size_t i = 0; i < FIGURES; i++) {
        size_t next = step * (i + 1) % FIGURES, at = 0;
        for (size_t k = 0; k < next; k++)
            at += on[k];
        expect_added(with_file(file, LEXICON_RECORD * i, record(figures[next])), at);
        memcpy(file, out, LEXICON_RECORD * (i + 1));
        expect_shelf(file, i + 1);
        on[next] = true;
    }
}

// Whichever came first, the file is the same.
static void orders(void)
{
    static const size_t steps[] = {1, 2, 4, FIGURES - 1}; // the last is falling
    uint8_t file[sizeof figures];
    for (size_t i = 0; i < LEN(steps); i++) {
        build(steps[i], file);
        check(memcmp(file, figures, sizeof file) == 0, "the file built is another");
    }
}

// More places than a byte counts: x3o, x4o and so on. Of the figures between them, x7/2o would stand behind x7o.
static void many_places(void)
{
    static uint8_t file[LEXICON_RECORD * MANY_PLACES];
    uint8_t between[LEXICON_RECORD];
    char typed[MOST_BYTES];
    for (size_t i = 0; i < MANY_PLACES; i++) {
        snprintf(typed, sizeof typed, "x%zuo", i + 3);
        record_of(typed, file + LEXICON_RECORD * i);
    }
    expect_answer(&shelf_check, file_alone(file, sizeof file), ANSWER(0, MANY_PLACES));
    for (size_t i = 0; i < MANY_PLACES; i += 2) {
        memcpy(between, place(file, i), sizeof between);
        expect_answer(&shelf_find, with_file(file, sizeof file, record(between)), ANSWER(0, 1, i));
        expect_answer(&shelf_bisect, with_file(file, sizeof file, record(between)), ANSWER(0, 1, i));
        snprintf(typed, sizeof typed, "x%zu/2o", i + 3);
        record_of(typed, between);
        expect_answer(&shelf_find, with_file(file, sizeof file, record(between)), ANSWER(0, 0, i + 1));
        expect_answer(&shelf_bisect, with_file(file, sizeof file, record(between)), ANSWER(0, 0, i + 1));
    }
    expect_added(with_file(file, sizeof file, record(between)), MANY_PLACES - 1);
    file[sizeof file - 1] = 1;
    expect_wrong_file(file, sizeof file, ANSWER(19, MANY_PLACES - 1));
}

// ---- rescue

static uint8_t marks[SPARE + MANY_PLACES + 2 * SPARE];

// What is to be kept of a file, place by place as the header says.
static struct {
    size_t places, kept, tail;
    uint8_t file[LEXICON_RECORD * MANY_PLACES], marks[MANY_PLACES];
} due;

static void fill_due(const uint8_t *file, size_t len)
{
    due.places = len / LEXICON_RECORD;
    due.tail = len % LEXICON_RECORD;
    due.kept = 0;
    for (size_t i = 0; i < due.places; i++) {
        uint64_t diagram[LEXICON_DIAGRAM];
        size_t told[LEXICON_ANSWER], number = lexicon_read_record(place(file, i), LEXICON_RECORD, diagram, LEXICON_DIAGRAM, told);
        bool greater = due.kept == 0 || memcmp(place(file, i), place(due.file, due.kept - 1), LEXICON_RECORD) > 0;
        due.marks[i] = (uint8_t)(number != 0 ? number : !greater);
        if (due.marks[i] == 0)
            memcpy(due.file + LEXICON_RECORD * due.kept++, place(file, i), LEXICON_RECORD);
    }
}

// Whether a buffer, which has spare elements around it, begins with these bytes, and all else has kept the fill.
static bool begins(const uint8_t *buffer, size_t len, const uint8_t *bytes, size_t written, uint8_t fill)
{
    return filled(buffer - SPARE, fill, SPARE) && memcmp(buffer, bytes, written) == 0 && filled(buffer + written, fill, len - written + SPARE);
}

// Runs the call over buffers that are filled with a byte, and checks the answer and both buffers.
static void rescue_over(uint8_t fill, bool null)
{
    bool fits = given_out >= given.file_len && given_marks >= due.places;
    const size_t *wanted = fits ? ANSWER(0, due.kept, due.tail) : ANSWER(12);
    uint8_t *copied = (uint8_t *)out + SPARE, *marked = marks + SPARE;
    memset(out, fill, SPARE + given_out + SPARE);
    memset(marks, fill, sizeof marks);
    memset(answer, fill, sizeof answer);
    size_t number = lexicon_shelf_rescue(given.file, given.file_len, null && given_out == 0 ? NULL : copied, given_out,
                                         null && given_marks == 0 ? NULL : marked, given_marks, answer);
    check(number == wanted[0], "it returns another number");
    check(memcmp(answer, wanted, LEXICON_ANSWER * sizeof *answer) == 0, "its answer is another");
    check(filled(answer + LEXICON_ANSWER, fill, SPARE * sizeof *answer), "it writes past its answer");
    check(begins(copied, given_out, due.file, fits ? LEXICON_RECORD * due.kept : 0, fill), "it keeps other records, or changes bytes that it should keep");
    check(begins(marked, given_marks, due.marks, fits ? due.places : 0, fill), "its marks are others, or it changes marks that it should keep");
}

static void rescue_to(size_t out_len, size_t marks_len)
{
    given_out = out_len;
    given_marks = marks_len;
    rescue_over(0xa5, false);
    rescue_over(0x5a, true);
}

// What is kept is a shelf.
static void expect_rescue_to_full_buffers(const uint8_t *file, size_t len)
{
    fill_due(file, len);
    expect_answer(&shelf_check, file_alone(due.file, LEXICON_RECORD * due.kept), ANSWER(0, due.kept));
    now = &shelf_rescue;
    given = file_alone(file, len);
    rescue_to(len, due.places);
}

// To buffers that are full, longer, and too short: by one, by the tail, or so that only what is kept would fit.
static void expect_rescue(const uint8_t *file, size_t len)
{
    expect_rescue_to_full_buffers(file, len);
    size_t lengths[] = {len, len + SPARE, 0, LEXICON_RECORD * due.kept, LEXICON_RECORD * due.places, len > 0 ? len - 1 : 0};
    size_t counts[] = {due.places, due.places + SPARE, 0, due.places > 0 ? due.places - 1 : 0};
    for (size_t i = 0; i < LEN(lengths); i++)
        for (size_t k = 0; k < LEN(counts); k++)
            rescue_to(lengths[i], counts[k]);
}

// A shelf comes out unchanged.
static void expect_whole(const uint8_t *file, size_t places)
{
    expect_rescue(file, LEXICON_RECORD * places);
    check(due.kept == places && memcmp(due.file, file, LEXICON_RECORD * places) == 0, "a place of a shelf is not kept");
}

static void rescued_shelves(void)
{
    expect_rescue(NULL, 0);
    for (size_t places = 0; places <= PLACES; places++)
        expect_whole(shelf, places);
    expect_whole(figures[0], FIGURES);
}

// Of a shelf, of bytes that can't be read, and of equal neighbours, the records of no nodes.
static void rescued_lengths(void)
{
    static const size_t lengths[] = {1, LEXICON_RECORD - 1, LEXICON_RECORD, LEXICON_RECORD + 1, 2 * LEXICON_RECORD - 1, 2 * LEXICON_RECORD,
                                     2 * LEXICON_RECORD + 1, sizeof shelf - 1};
    static const uint8_t fills[] = {0xff, 0};
    uint8_t file[sizeof shelf];
    for (size_t i = 0; i < LEN(lengths); i++) {
        expect_rescue(shelf, lengths[i]);
        for (size_t k = 0; k < LEN(fills); k++) {
            memset(file, fills[k], sizeof file);
            expect_rescue(file, lengths[i]);
        }
    }
}

// Each figure, bytes with 14 and bytes with 22, at each of three places.
static void rescued_places(void)
{
    static uint8_t laid[FIGURES + 2][LEXICON_RECORD];
    uint8_t file[3 * LEXICON_RECORD + 1];
    memcpy(laid, figures, sizeof figures);
    memset(laid[FIGURES], 0xff, LEXICON_RECORD);
    record_of("x4o", laid[FIGURES + 1]);
    exchange(laid[FIGURES + 1], 2, 0, 1);
    for (size_t i = 0; i < LEN(laid) * LEN(laid) * LEN(laid); i++) {
        size_t at[] = {i % LEN(laid), i / LEN(laid) % LEN(laid), i / LEN(laid) / LEN(laid)};
        for (size_t k = 0; k < LEN(at); k++)
            memcpy(file + LEXICON_RECORD * k, laid[at[k]], LEXICON_RECORD);
        expect_rescue(file, sizeof file - i % 2); // with a tail of a byte, or without one
    }
}

// Whichever byte of a place is damaged, the places before it are kept, and those behind it can be read.
static void rescued_damage(void)
{
    static const uint8_t flips[] = {1, 2, 128, 255};
    uint8_t file[sizeof shelf];
    for (size_t i = 0; i < sizeof shelf; i++)
        for (size_t k = 0; k < LEN(flips); k++) {
            memcpy(file, shelf, sizeof file);
            file[i] ^= flips[k];
            expect_rescue_to_full_buffers(file, sizeof file);
            for (size_t at = 0; at < PLACES; at++)
                check(at == i / LEXICON_RECORD || due.marks[at] <= (at > i / LEXICON_RECORD), "a place beside the damaged one is lost");
        }
}

// More places than a byte counts; then every third is damaged, and the last but one is too great.
static void rescued_many(void)
{
    static uint8_t file[LEXICON_RECORD * MANY_PLACES];
    char typed[MOST_BYTES];
    for (size_t i = 0; i < MANY_PLACES; i++) {
        snprintf(typed, sizeof typed, "x%zuo", i + 3);
        record_of(typed, file + LEXICON_RECORD * i);
    }
    expect_whole(file, MANY_PLACES);
    for (size_t i = 0; i < MANY_PLACES; i += 3)
        file[LEXICON_RECORD * i] = 0xff;
    memcpy(file + LEXICON_RECORD * (MANY_PLACES - 2), figures[FIGURES - 1], LEXICON_RECORD);
    expect_rescue(file, sizeof file - 1);
    expect_rescue(file, sizeof file);
    check(due.kept == 2 * MANY_PLACES / 3 - 1 && due.marks[MANY_PLACES - 1] == 1, "another number of places is kept");
}

// ---- families

static size_t least_size(unsigned letter)
{
    switch (letter) {
    case 'A':
        return 1;
    case 'B':
    case 'H':
        return 2;
    case 'D':
        return 3;
    case 'E':
        return 4;
    default:
        return SIZE_MAX;
    }
}

// The mirrors of a family that there is, or its walls.
static void expect_family_normals(const struct call *call, struct input in)
{
    if (in.letter == 'H' && in.size > 4) // infinite groups
        expect_refusal(call, in, ANSWER(15, 4));
    else if (in.letter == 'E' && in.size == 9)
        expect_refusal(call, in, ANSWER(15, 8));
    else
        expect_answer(call, in, ANSWER(0, in.size));
}

static void one_family(unsigned letter, size_t size)
{
    struct input in = family(letter, size);
    if (size < least_size(letter) || size > LEXICON_LIMIT) {
        expect_refusal(&family_matrix, in, ANSWER(17));
        expect_refusal(&family_mirrors, in, ANSWER(17));
        expect_refusal(&family_walls, in, ANSWER(17));
        return;
    }
    expect_answer(&family_matrix, in, ANSWER(0, size));
    expect_family_normals(&family_mirrors, in);
    expect_family_normals(&family_walls, in);
}

static void families(void)
{
    for (unsigned letter = 0; letter < 256; letter++) {
        for (size_t size = 0; size <= LEXICON_LIMIT + 1; size++)
            one_family(letter, size);
        one_family(letter, SIZE_MAX);
    }
}

// ---- what stands past the last node

static void run_once(const struct call *call, struct input in)
{
    expect(call, in, call->writes, ANSWER(0, 1, 0, call == &read_text));
}

static void past_one_node(void)
{
    const uint64_t *places = out;
    const double *doubles = out;
    run_once(&read_text, text("x"));
    check(places[0] == 2 && places[1] == ONE, "its node is another");
    for (size_t i = 1; i < LEXICON_LIMIT; i++)
        check(places[2 * i] == 1 && places[2 * i + 1] == 0, "past its node there is another place");
    check(filled(places + 18, 0, (LEXICON_DIAGRAM - 18) * sizeof *places), "it has an edge");
    run_once(&names, text("x"));
    check(filled(places + 4, 0, (LEXICON_NAMES - 4) * sizeof *places), "past its component it has another");

    run_once(&matrix, text("x"));
    for (size_t i = 0; i < LEXICON_SQUARE; i++)
        check(doubles[i] == (i % 10 == 0 ? 1 : 2), "past its node it has another entry");
    run_once(&mirrors, text("x"));
    check(doubles[0] == 1 && filled(doubles + 1, 0, (LEXICON_SQUARE - 1) * sizeof *doubles), "past its node it has another mirror");
    run_once(&walls, text("x"));
    check(doubles[0] == 1 && filled(doubles + 1, 0, (LEXICON_SQUARE - 1) * sizeof *doubles), "past its node it has another wall");
    run_once(&generator, text("x"));
    check(doubles[0] == 1 && filled(doubles + 1, 0, 8 * sizeof *doubles) && doubles[9] == 1, "its generator is another");
    run_once(&wall_generator, text("x"));
    check(doubles[0] == 0.5 && filled(doubles + 1, 0, 8 * sizeof *doubles) && doubles[9] == 0.5, "its generator is another");

    run_once(&family_matrix, family('A', 1));
    for (size_t i = 0; i < LEXICON_SQUARE; i++) {
        size_t column = i / 9, row = i % 9;
        bool joined = column + 1 == row || row + 1 == column;
        check(doubles[i] == (column == row ? 1 : joined ? 3 : 2), "it does not go on as a longer family");
    }
}

// ---- walls

// The negated cosine of a pair that nothing joins is the double -0.0.
static void walls_at_right_angles(void)
{
    static const char *const typed[] = {"x2x", "xx"};
    static const uint64_t wanted[LEXICON_SQUARE] = {ONE, [9] = MINUS_ZERO, [10] = ONE};
    for (size_t i = 0; i < LEN(typed); i++) {
        expect(&walls, text(typed[i]), LEXICON_SQUARE, ANSWER(0, 2));
        check(memcmp(out, wanted, sizeof wanted) == 0, "its walls are others");
    }
}

// Of no nodes, two edges, a square, a hexagon, and an octahedron typed from either end.
static void wall_radii(void)
{
    static const struct {
        const char *text;
        size_t nodes;
        double radius;
    } known[] = {
        {"*a", 0, 0}, {"u", 1, 1}, {"(-1)", 1, 0.5}, {"x4o", 2, 0.7071067811865476}, {"x3x", 2, 1},
        {"x3o4o", 3, 0.7071067811865477}, {"o4o3x", 3, 0.7071067811865478},
    };
    const double *doubles = out;
    for (size_t i = 0; i < LEN(known); i++) {
        expect(&wall_generator, text(known[i].text), LEXICON_GENERATOR, ANSWER(0, known[i].nodes));
        check(doubles[9] == known[i].radius, "its radius is another");
    }
    expect(&wall_generator, text("x3x"), LEXICON_GENERATOR, ANSWER(0, 2));
    check(doubles[0] == 0.5 && doubles[1] == 0.8660254037844387, "its generator is another");
}

static void walls_of_no_nodes(void)
{
    for (size_t i = 0; i < LEN(over_walls); i++) {
        const struct call *call = over_walls[i];
        expect(call, text("*a"), call->writes, ANSWER(0, 0));
        check(filled(out, 0, call->writes * call->element), "it has a wall or a point");
    }
}

// A family's walls are those of the text that spells its matrix.
static void family_walls_are_of_texts(void)
{
    static const struct {
        unsigned letter;
        size_t size;
        const char *text;
    } spelled[] = {{'A', 1, "o"}, {'A', 3, "o3o3o"}, {'B', 3, "x4o3o"}, {'D', 4, "o2o3o3o *a3*c"}, {'E', 6, "o2o3o3o3o3o *a3*d"}, {'H', 4, "o5o3o3o"}};
    uint64_t of_text[LEXICON_SQUARE];
    for (size_t i = 0; i < LEN(spelled); i++) {
        expect(&walls, text(spelled[i].text), LEXICON_SQUARE, ANSWER(0, spelled[i].size));
        memcpy(of_text, out, sizeof of_text);
        expect(&family_walls, family(spelled[i].letter, spelled[i].size), LEXICON_SQUARE, ANSWER(0, spelled[i].size));
        check(memcmp(of_text, out, sizeof of_text) == 0, "its walls are others than its text's");
    }
}

// ---- names of groups

// A text's components, and the numbers of each: lowest node, letter, number behind it, order.
struct named {
    const char *text;
    size_t components;
    uint64_t numbers[LEXICON_NAMES];
};

static void expect_named(const struct named *named, size_t count)
{
    for (size_t i = 0; i < count; i++) {
        expect_answer(&names, text(named[i].text), ANSWER(0, named[i].components));
        check(memcmp(out, named[i].numbers, sizeof named[i].numbers) == 0, "its names are others");
    }
}

// Each name that nine nodes can have, but for I2.
static void every_name(void)
{
    static const struct named named[] = {
        {"o", 1, {0, 'A', 1, 2}}, {"o3o", 1, {0, 'A', 2, 6}}, {"o3o3o", 1, {0, 'A', 3, 24}}, {"o3o3o3o", 1, {0, 'A', 4, 120}},
        {"o3o3o3o3o", 1, {0, 'A', 5, 720}}, {"o3o3o3o3o3o", 1, {0, 'A', 6, 5040}}, {"o3o3o3o3o3o3o", 1, {0, 'A', 7, 40320}},
        {"o3o3o3o3o3o3o3o", 1, {0, 'A', 8, 362880}}, {"o3o3o3o3o3o3o3o3o", 1, {0, 'A', 9, 3628800}},
        {"o4o", 1, {0, 'B', 2, 8}}, {"o4o3o", 1, {0, 'B', 3, 48}}, {"o4o3o3o", 1, {0, 'B', 4, 384}}, {"o4o3o3o3o", 1, {0, 'B', 5, 3840}},
        {"o4o3o3o3o3o", 1, {0, 'B', 6, 46080}}, {"o4o3o3o3o3o3o", 1, {0, 'B', 7, 645120}}, {"o4o3o3o3o3o3o3o", 1, {0, 'B', 8, 10321920}},
        {"o4o3o3o3o3o3o3o3o", 1, {0, 'B', 9, 185794560}},
        {"o3o3o *b3o", 1, {0, 'D', 4, 192}}, {"o3o3o3o *b3o", 1, {0, 'D', 5, 1920}}, {"o3o3o3o3o *b3o", 1, {0, 'D', 6, 23040}},
        {"o3o3o3o3o3o *b3o", 1, {0, 'D', 7, 322560}}, {"o3o3o3o3o3o3o *b3o", 1, {0, 'D', 8, 5160960}},
        {"o3o3o3o3o3o3o3o *b3o", 1, {0, 'D', 9, 92897280}},
        {"o3o3o3o3o *c3o", 1, {0, 'E', 6, 51840}}, {"o3o3o3o3o3o *c3o", 1, {0, 'E', 7, 2903040}}, {"o3o3o3o3o3o3o *c3o", 1, {0, 'E', 8, 696729600}},
        {"o3o4o3o", 1, {0, 'F', 4, 1152}}, {"o5o3o", 1, {0, 'H', 3, 120}}, {"o5o3o3o", 1, {0, 'H', 4, 14400}},
    };
    expect_named(named, LEN(named));
}

// Of two nodes, or of three: the family D from 3 on is A3.
static void names_of_few_nodes(void)
{
    static const struct named named[] = {
        {"x3x", 1, {0, 'A', 2, 6}}, {"x6/2x", 1, {0, 'A', 2, 6}}, {"x4x", 1, {0, 'B', 2, 8}}, {"x8/2x", 1, {0, 'B', 2, 8}},
        {"x5x", 1, {0, 'I', 5, 10}}, {"x10/2x", 1, {0, 'I', 5, 10}}, {"x6x", 1, {0, 'I', 6, 12}}, {"x4294967294/2x", 1, {0, 'I', 2147483647, 4294967294}},
        {"x2147483648x", 1, {0, 'I', 2147483648, 4294967296}}, {"x4294967295x", 1, {0, 'I', 4294967295, 8589934590}},
        {"oo3o *a3*c", 1, {0, 'A', 3, 24}}, {"o3o4o", 1, {0, 'B', 3, 48}}, {"o3o5o", 1, {0, 'H', 3, 120}},
    };
    expect_named(named, LEN(named));
}

// By rising lowest node, whichever way they were typed.
static void several_components(void)
{
    static const struct named named[] = {
        {"*a", 0, {0}}, {"x2x", 2, {0, 'A', 1, 2, 1, 'A', 1, 2}}, {"x3o3o x7o", 2, {0, 'A', 3, 24, 3, 'I', 7, 14}},
        {"oooo *a3*d *c4*b", 2, {0, 'A', 2, 6, 1, 'B', 2, 8}}, {"oooo *b5*d *d3*c", 2, {0, 'A', 1, 2, 1, 'H', 3, 120}},
        {"ooooooooo", 9, {0, 'A', 1, 2, 1, 'A', 1, 2, 2, 'A', 1, 2, 3, 'A', 1, 2, 4, 'A', 1, 2, 5, 'A', 1, 2, 6, 'A', 1, 2, 7, 'A', 1, 2, 8, 'A', 1, 2}},
        {"x4294967295x x4294967295x x4294967295x x4294967295x x", 5,
         {0, 'I', 4294967295, 8589934590, 2, 'I', 4294967295, 8589934590, 4, 'I', 4294967295, 8589934590, 6, 'I', 4294967295, 8589934590, 8, 'A', 1, 2}},
    };
    expect_named(named, LEN(named));
}

// Rings, lengths, loops and unreduced fractions change nothing, nor does the wish.
static void names_of_spellings(void)
{
    static const char *const same[][2] = {
        {"o3o4o", "x3x4x"}, {"o3o4o", "s3(-2.5)4(1e22)"}, {"o3o4o", "o3o4o *a5/2*a *c7*c"}, {"o3o4o", "o6/2o12/3o2*a"}, {"o3o4o", "o4o3o"},
        {"o3o4o", "ooo *b3*a *c4*b"}, {"o3o3o3o3o3o3o *c3o", "o3o3o *a3o *a3o3o3o3o"},
    };
    for (size_t i = 0; i < LEN(same); i++) {
        expect_same(&names, text(same[i][0]), text(same[i][1]), ANSWER(0, 1));
        expect_same(&names, text(same[i][0]), wished(same[i][1], SIZE_MAX), ANSWER(0, 1));
    }
    expect_same(&names, text("o3o4o"), wished("(inf)3(-inf)4o *a4*a", 1), ANSWER(0, 1));
}

// The first component that no name fits, by its lowest node.
static void refused_names(void)
{
    static const struct {
        const char *text;
        size_t node;
    } refused[] = {
        {"x5/2x", 0}, {"x3/2x", 0}, {"x4294967295/4294967294x", 0}, {"x5/2o5o", 0}, {"o3o3o3*a", 0}, {"o4o4o", 0}, {"o6o3o", 0}, {"o4o3o4o", 0},
        {"o3o5o3o", 0}, {"o5o3o3o3o", 0}, {"o3o4o3o3o", 0}, {"o4o3o *b3o", 0}, {"o3o3o *b3o *b3o", 0}, {"o3o3o3o3o *b3o *d3o", 0}, {"o3o3o3o3o *c3o3o", 0},
        {"o3o3o3o3o3o3o *d3o", 0}, {"o3o3o3o3o3o3o3o *c3o", 0}, {"x x5/2x", 1}, {"x3o3o x4o4o x5/2o", 3}, {"oooo *a3*d *c5/2*b", 1},
        {"oooo *b3*d *d5/2*c", 1}, {"oooooooo o5/2*h", 7},
    };
    for (size_t i = 0; i < LEN(refused); i++) {
        expect_refusal(&names, text(refused[i].text), ANSWER(21, refused[i].node));
        expect_refusal(&names, wished(refused[i].text, 1), ANSWER(21, refused[i].node));
    }
    expect_refusal(&names, text("x5/2o4"), ANSWER(4, 6)); // the text's own refusals come first
    expect_refusal(&names, text("(inf)5/2o"), ANSWER(23, 3));
    expect_refusal(&names, wished("(inf)5/2o", 1), ANSWER(21, 0));
}

// A tolerance of mirrors stops no name.
static void names_without_mirrors(void)
{
    struct input in = text("x4294967295o");
    expect_of_all(over_mirrors, LEN(over_mirrors), in, ANSWER(15, 1));
    expect_of_all(over_walls, LEN(over_walls), in, ANSWER(15, 1));
    expect_answer(&names, in, ANSWER(0, 1));
}

static void names_in_other_buffers(void)
{
    expect(&names, text("x3o4o"), LEXICON_NAMES - 1, ANSWER(12));
    expect(&names, text("x3o4o"), 4, ANSWER(12)); // room for its component alone
    expect(&names, text("*a"), 0, ANSWER(12));
    expect(&names, text("x3o4o"), LEXICON_NAMES + 1, ANSWER(0, 1));
}

// ---- articles

enum { TOLD = 3 }; // numbers of a name: letter, number behind it, order

// What an article tells of a text. Names are sorted; there are none if no name fits a component.
struct article {
    size_t minimal, edges, refused, components;
    uint64_t names[LEXICON_LIMIT][TOLD];
};

static int by_numbers(const void *one, const void *other)
{
    const uint64_t *a = one, *b = other;
    size_t i = 0;
    while (i + 1 < TOLD && a[i] == b[i])
        i++;
    return (a[i] > b[i]) - (a[i] < b[i]);
}

static size_t called(const struct call *call, struct input in)
{
    now = call;
    given = in;
    given_out = call->writes;
    return run(out);
}

static struct article article_of(struct input in)
{
    struct article article = {0};
    const uint64_t *places = out;
    check(called(&read_text, in) == 0, "it refuses the text");
    article.minimal = answer[3];
    for (size_t j = 0; j < answer[1]; j++)
        for (size_t i = 0; i < j; i++)
            article.edges += places[2 * LEXICON_LIMIT + 3 * (j * (j + 1) / 2 + i)] != 0;
    article.refused = called(&names, in);
    check(article.refused == 0 || article.refused == 21, "it refuses the text");
    if (article.refused == 0)
        article.components = answer[1];
    for (size_t i = 0; i < article.components; i++)
        memcpy(article.names[i], places + 4 * i + 1, sizeof article.names[i]);
    qsort(article.names, article.components, sizeof article.names[0], by_numbers);
    return article;
}

// Two texts of a figure, the second with loops or in another order: equal records, equal articles.
static void equal_articles(void)
{
    static const struct {
        const char *texts[2];
        struct article due;
    } equal[] = {
        {{"x3o4o", "o4o3x5*c"}, {1, 2, 0, 1, {{'B', 3, 48}}}},
        {{"x3o4o", "xoo *b4*c *a3*b *a7/2*a"}, {1, 2, 0, 1, {{'B', 3, 48}}}},
        {{"x3o3o x7o", "x7*a7o x3o3o4/3*e"}, {1, 3, 0, 2, {{'A', 3, 24}, {'I', 7, 14}}}},
        {{"s3s x5o x", "x x5o s3s"}, {0, 2, 0, 3, {{'A', 1, 2}, {'A', 2, 6}, {'I', 5, 10}}}},
        {{"x5/2o x3o", "x3o x5/2o"}, {1, 2, 21, 0, {{0}}}}, // 21 at 0 and at 2
        {{"x3x3x3*a", "x3x3x *c3*a *b9*b"}, {1, 3, 21, 0, {{0}}}},
        {{"oo", "o7*a o"}, {0, 0, 0, 2, {{'A', 1, 2}, {'A', 1, 2}}}},
        {{"*a", "*-c2*b"}, {1, 0, 0, 0, {{0}}}},
    };
    for (size_t i = 0; i < LEN(equal); i++) {
        uint8_t filed[2][LEXICON_RECORD];
        for (size_t k = 0; k < 2; k++) {
            record_of(equal[i].texts[k], filed[k]);
            struct article article = article_of(text(equal[i].texts[k]));
            check(memcmp(&article, &equal[i].due, sizeof article) == 0, "its article is another");
        }
        check(memcmp(filed[0], filed[1], LEXICON_RECORD) == 0, "the record of a spelling is another");
    }
}

// In this order: the shelf is filled before it is looked at.
static void (*const tests[])(void) = {
    accepted_texts, lowest_terms, refused_texts, refused_geometry, refused_infinite_lengths, wishes, lengths, single_bytes, bytes_at_every_position,
    record_lengths, accepted_records, other_numberings, damaged_records, damaged_bytes, any_values, mended_records,
    fill_shelf, shelves, file_lengths, damaged_places, unsorted_places, refused_records, short_buffers, orders, many_places,
    rescued_shelves, rescued_lengths, rescued_places, rescued_damage, rescued_many,
    families, past_one_node, walls_at_right_angles, wall_radii, walls_of_no_nodes, family_walls_are_of_texts,
    every_name, names_of_few_nodes, several_components, names_of_spellings, refused_names, names_without_mirrors, names_in_other_buffers,
    equal_articles,
};

int main(void)
{
    out = malloc(ROOM);
    again = malloc(ROOM);
    if (!out || !again)
        return 1;
    for (size_t i = 0; i < LEN(tests); i++)
        tests[i]();
    printf("edges: %lu checks\n", checks);
    free(out);
    free(again);
    return 0;
}
