// The calls on a shelf of 100,000 records of real figures, beside plain C: a check of the whole, and by numbers of nodes; a record found, bisected
// for and added; rescue.c has its rescue. Before anything is measured, what the calls answer on that shelf is compared with what qsort and the plain C make.
#include <stdio.h>
#include <stdlib.h>
#include <string.h>

#include "bench.h"
#include "figure.h"
#include "shelf.h"
#include "timing.h"

enum { RECORD = LEXICON_RECORD, PLACES = 100000, LEFT_OUT = PLACES / 2, SPARE = 16, FILL = 0x5a };

typedef size_t checker(const uint8_t *file, size_t length, size_t *answer);
typedef size_t seeker(const uint8_t *file, size_t length, const uint8_t *bytes, size_t bytes_length, size_t *answer);

static struct shelf all;  // of 100,001 places
static struct shelf most; // but for one
static uint8_t *out;      // room for all, and spare bytes

static const size_t room = RECORD * (PLACES + 1) + SPARE;
static volatile size_t kept; // so that no call is dropped

// ---- plain C

static size_t tell(size_t *answer, size_t number, size_t first, size_t second)
{
    memcpy(answer, (size_t[LEXICON_ANSWER]){number, first, second, 0}, LEXICON_ANSWER * sizeof *answer);
    return number;
}

static int compare_records(const void *a, const void *b)
{
    return memcmp(a, b, RECORD);
}

// The work of `lexicon_shelf_check`: each place after the one before, a layout, and by the plain C search the smallest.
static size_t check_plain(const uint8_t *file, size_t length, size_t *answer)
{
    if (length % RECORD)
        return tell(answer, 18, 0, 0);
    for (size_t place = 0; place < length / RECORD; place++) {
        const uint8_t *at = file + place * RECORD;
        if ((place > 0 && compare_records(at - RECORD, at) >= 0) || !is_record_plain(at))
            return tell(answer, 19, place, 0);
    }
    return tell(answer, 0, length / RECORD, 0);
}

// C's bsearch alone: the record is not read, and an absent one has no place.
static size_t bisect_plain(const uint8_t *file, size_t length, const uint8_t *bytes, size_t bytes_length, size_t *answer)
{
    (void)bytes_length;
    const uint8_t *at = bsearch(bytes, file, length / RECORD, RECORD, compare_records);
    return at ? tell(answer, 0, 1, (size_t)(at - file) / RECORD) : tell(answer, 0, 0, 0);
}

static size_t find_plain(const uint8_t *file, size_t length, const uint8_t *bytes, size_t bytes_length, size_t *answer)
{
    if (check_plain(file, length, answer))
        return answer[0];
    return bisect_plain(file, length, bytes, bytes_length, answer);
}

// The parts of the new file.
static void put_in(const uint8_t *file, size_t length, const uint8_t *record, size_t place, uint8_t *to)
{
    size_t at = place * RECORD;
    memcpy(to, file, at);
    memcpy(to + at, record, RECORD);
    memcpy(to + at + RECORD, file + at, length - at);
}

// ---- the answers

// What a call returned and told must be this number, then these two.
static void demand(const char *call, size_t returned, const size_t *answer, size_t number, size_t first, size_t second)
{
    size_t due[LEXICON_ANSWER];
    tell(due, number, first, second);
    if (returned == number && !memcmp(answer, due, sizeof due))
        return;
    fprintf(stderr, "bench: %zu %zu %zu, due is %zu %zu %zu\n", answer[0], answer[1], answer[2], number, first, second);
    fail("shelf", call, "another answer is due");
}

static uint8_t *record_at(const struct shelf *shelf, size_t place)
{
    return shelf->file + place * RECORD;
}

// The record at a place of the shelf without LEFT_OUT, apart from that file: the header lets nothing overlap.
static const uint8_t *record_apart(size_t place)
{
    return record_at(&all, place < LEFT_OUT ? place : place + 1);
}

static void demand_check(checker *check, const struct shelf *shelf, size_t number, size_t first)
{
    size_t answer[LEXICON_ANSWER];
    size_t returned = check(shelf->file, shelf->places * RECORD, answer);
    demand("check", returned, answer, number, first, 0);
}

static void demand_place(seeker *seek, const struct shelf *shelf, const uint8_t *record, size_t present, size_t place)
{
    size_t answer[LEXICON_ANSWER];
    size_t returned = seek(shelf->file, shelf->places * RECORD, record, RECORD, answer);
    demand("find or bisect", returned, answer, 0, present, place);
}

// Adds with so many bytes lent, all filled beforehand; past the first `written` they must be kept.
static void demand_add(const uint8_t *record, size_t lent, size_t number, size_t place, size_t written)
{
    size_t answer[LEXICON_ANSWER];
    memset(out, FILL, room);
    size_t returned = lexicon_shelf_add(most.file, most.places * RECORD, record, RECORD, out, lent, answer);
    demand("add", returned, answer, number, place, 0);
    for (size_t i = written; i < room; i++)
        if (out[i] != FILL)
            fail("shelf", "add", "a byte is changed that should be kept");
}

static void leave_out(size_t place)
{
    size_t at = place * RECORD;
    memcpy(most.file, all.file, at);
    memcpy(most.file + at, all.file + at + RECORD, (all.places - 1) * RECORD - at);
    most.places = all.places - 1;
}

// The record left out is absent and is added at its place: the new file is what qsort made.
static void check_left_out(size_t place)
{
    const uint8_t *record = record_at(&all, place);
    leave_out(place);
    demand_check(lexicon_shelf_check, &most, 0, PLACES);
    demand_check(check_plain, &most, 0, PLACES);
    demand_place(lexicon_shelf_find, &most, record, 0, place);
    demand_place(lexicon_shelf_bisect, &most, record, 0, place);
    demand_add(record, room - SPARE - 1, 12, 0, 0);
    demand_add(record, room, 0, place, room - SPARE);
    if (memcmp(out, all.file, room - SPARE))
        fail("shelf", "add", "qsort makes another file");
}

// Every hundredth record is where it is: by bisection, and by `find` in the thousand places that it is one of, a shelf too; every thousandth by
// `find` in all places, which takes about 0.1 s each time.
static void check_present(void)
{
    for (size_t place = 0; place < PLACES; place += 100) {
        const uint8_t *record = record_apart(place);
        struct shelf part = {record_at(&most, place - place % 1000), 1000};
        demand_place(lexicon_shelf_bisect, &most, record, 1, place);
        demand_place(bisect_plain, &most, record, 1, place);
        demand_place(lexicon_shelf_find, &part, record, 1, place % 1000);
    }
    for (size_t place = 0; place < PLACES; place += 1000)
        demand_place(lexicon_shelf_find, &most, record_apart(place), 1, place);
    demand_place(find_plain, &most, record_apart(0), 1, 0);
}

static void check_added_twice(size_t place)
{
    demand_add(record_apart(place), room, 20, place, 0);
}

// With other bytes at a place both checks must tell that place.
static void check_fault(size_t place, const uint8_t *bytes)
{
    uint8_t saved[RECORD], *at = record_at(&most, place);
    memcpy(saved, at, RECORD);
    memcpy(at, bytes, RECORD);
    demand_check(lexicon_shelf_check, &most, 19, place);
    demand_check(check_plain, &most, 19, place);
    memcpy(at, saved, RECORD);
}

// The place equal to the one before it, damaged in its last byte, and numbered badly.
static void check_faults(size_t place)
{
    int numbering[LEXICON_LIMIT] = {0, 1, 2, 3, 4, 5, 6, 7, 8};
    uint8_t bytes[RECORD];
    struct figure f;
    check_fault(place, record_at(&most, place - 1));
    memcpy(bytes, record_at(&most, place), RECORD);
    bytes[RECORD - 1] ^= 1;
    check_fault(place, bytes);
    read_layout(record_at(&most, place), &f);
    numbering[0] = f.n - 1;
    numbering[f.n - 1] = 0;
    lay_out(&f, numbering, bytes);
    check_fault(place, bytes);
}

// ---- the rows

struct checking {
    checker *check;
    const struct shelf *shelf;
};

static void run_check(const void *input, uint64_t turns)
{
    const struct checking *c = input;
    size_t answer[LEXICON_ANSWER], sum = 0;
    for (uint64_t n = 0; n < turns; n++)
        sum += c->check(c->shelf->file, c->shelf->places * RECORD, answer);
    kept = sum;
}

// Records of the shelf that are looked for: the first, and others so far apart.
struct seeking {
    seeker *seek;
    size_t apart;
};

static void run_seek(const void *input, uint64_t turns)
{
    const struct seeking *s = input;
    size_t answer[LEXICON_ANSWER], sum = 0;
    for (uint64_t n = 0; n < turns; n++)
        for (size_t place = 0; place < most.places; place += s->apart) {
            s->seek(most.file, most.places * RECORD, record_apart(place), RECORD, answer);
            sum += answer[2];
        }
    kept = sum;
}

static void run_add(const void *input, uint64_t turns)
{
    size_t answer[LEXICON_ANSWER];
    for (uint64_t n = 0; n < turns; n++)
        lexicon_shelf_add(most.file, most.places * RECORD, input, RECORD, out, room, answer);
    kept = answer[1] + out[0];
}

static void run_put_in(const void *input, uint64_t turns)
{
    for (uint64_t n = 0; n < turns; n++)
        put_in(most.file, most.places * RECORD, input, LEFT_OUT, out);
    kept = out[0];
}

// `figures` says which the places hold.
static void put_check(const char *figures, const struct shelf *shelf)
{
    size_t places = shelf->places;
    struct checking ours = {lexicon_shelf_check, shelf}, other = {check_plain, shelf};
    char text[64], thousands[32] = "";
    if (places >= 1000)
        snprintf(thousands, sizeof thousands, "%zu,", places / 1000);
    snprintf(text, sizeof text, "%s, %s%0*zu place%s", figures, thousands, *thousands ? 3 : 1, places % 1000, places == 1 ? "" : "s");
    demand_check(lexicon_shelf_check, shelf, 0, places);
    demand_check(check_plain, shelf, 0, places);
    put_row(&(struct row){"shelf check, a place", text, {run_check, &ours}, {run_check, &other}, "plain C", (double)places});
}

// The first place from `from` on with at least so many nodes. A record begins with that number.
static size_t first_place(size_t from, int nodes)
{
    while (from < most.places && *record_at(&most, from) < nodes)
        from++;
    return from;
}

static void put_checks(void)
{
    put_check("0 to 9 nodes", &most);
    put_check("up to 6 nodes", &(struct shelf){most.file, first_place(0, 7)});
    for (int n = 0; n <= LEXICON_LIMIT; n++) {
        size_t from = first_place(0, n), to = first_place(from, n + 1);
        char nodes[32];
        snprintf(nodes, sizeof nodes, n == 1 ? "%d node" : "%d nodes", n);
        put_check(nodes, &(struct shelf){record_at(&most, from), to - from});
    }
}

// A shelf of one figure, of nodes that are all alike and not joined: no numbering can be dropped.
static void put_check_alike(const char *name, const char *text)
{
    uint8_t record[RECORD];
    size_t numbering[LEXICON_LIMIT];
    file_plain(text, record, numbering);
    put_check(name, &(struct shelf){record, 1});
}

static void put_seek(const char *what, seeker *proved, seeker *plain, const char *plain_is, size_t apart)
{
    struct seeking ours = {proved, apart}, other = {plain, apart};
    put_row(&(struct row){what, "100,000 places", {run_seek, &ours}, {run_seek, &other}, plain_is, (double)(PLACES / apart)});
}

static void check_all(void)
{
    check_left_out(0);
    check_left_out(PLACES);
    check_left_out(LEFT_OUT); // the one that stays out
    check_present();
    check_added_twice(0);
    check_added_twice(LEFT_OUT);
    check_added_twice(PLACES - 1);
    check_faults(LEFT_OUT);
    check_faults(PLACES - 1);
}

void shelf_rows(void)
{
    make_shelf(&all, PLACES + 1);
    most.file = malloc((PLACES + 1) * RECORD);
    out = malloc(room);
    if (!most.file || !out)
        fail("shelf", "100,000 places", "no memory");
    check_all();
    put_checks();
    put_check_alike("`oooooo`", "oooooo");
    put_check_alike("`ooooooooo`", "ooooooooo");
    put_seek("shelf find", lexicon_shelf_find, find_plain, "plain C and `bsearch`", PLACES);
    put_seek("shelf bisect", lexicon_shelf_bisect, bisect_plain, "`bsearch` alone", 100);
    const uint8_t *record = record_at(&all, LEFT_OUT);
    put_row(&(struct row){"shelf add", "100,000 places", {run_add, record}, {run_put_in, record}, "`memcpy` alone", 1});
    free(all.file); // the command, measured later, counts what this process had at the most
    rescue_rows(&most, out);
    free(most.file);
    free(out);
}
