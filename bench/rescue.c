// The rescue of a shelf, whole and after a disk fault, beside plain C; of the whole one also beside the check, which reads the same places and copies
// none. Before anything is measured, what both sides answer and write is compared byte for byte.
#include <stdlib.h>
#include <string.h>

#include "figure.h"
#include "shelf.h"
#include "timing.h"

enum { RECORD = LEXICON_RECORD, TAIL = 123, FILL = 0x5a };

typedef size_t rescuer(const uint8_t *file, size_t length, uint8_t *out, size_t room, uint8_t *marks, size_t marks_room, size_t *answer);

struct rescuing {
    rescuer *rescue;
    const uint8_t *file;
    size_t length;
    uint8_t *out, *marks; // of as many bytes as the file, and as its places
};

static volatile size_t kept; // so that no call is dropped

// The work of `lexicon_shelf_rescue` on files that have no 22, which it would take for 14.
static size_t rescue_plain(const uint8_t *file, size_t length, uint8_t *out, size_t room, uint8_t *marks, size_t marks_room, size_t *answer)
{
    const uint8_t *last = NULL;
    size_t places = length / RECORD, copied = 0;
    int fits = room >= length && marks_room >= places;
    for (size_t place = 0; fits && place < places; place++) {
        const uint8_t *at = file + place * RECORD;
        if (!is_record_plain(at)) {
            marks[place] = 14;
        } else if (last && memcmp(at, last, RECORD) <= 0) {
            marks[place] = 1;
        } else {
            marks[place] = 0;
            memcpy(out + copied++ * RECORD, at, RECORD);
            last = at;
        }
    }
    memcpy(answer, (size_t[LEXICON_ANSWER]){fits ? 0 : 12, copied, fits ? length % RECORD : 0, 0}, LEXICON_ANSWER * sizeof *answer);
    return answer[0];
}

static size_t rescue(const struct rescuing *r, size_t *answer)
{
    return r->rescue(r->file, r->length, r->out, r->length, r->marks, r->length / RECORD, answer);
}

// Both sides, each in buffers that hold the same before.
static void demand_same(const struct rescuing *ours, const struct rescuing *other)
{
    size_t a[LEXICON_ANSWER], b[LEXICON_ANSWER], places = ours->length / RECORD;
    memset(ours->out, FILL, ours->length);
    memset(ours->marks, FILL, places);
    memset(other->out, FILL, ours->length);
    memset(other->marks, FILL, places);
    if (rescue(ours, a) != rescue(other, b) || memcmp(a, b, sizeof a) || memcmp(ours->out, other->out, ours->length) || memcmp(ours->marks, other->marks, places))
        fail("shelf rescue", "100,000 places", "plain C rescues another file");
}

static void run_rescue(const void *input, uint64_t turns)
{
    size_t answer[LEXICON_ANSWER], sum = 0;
    for (uint64_t n = 0; n < turns; n++) {
        rescue(input, answer);
        sum += answer[1];
    }
    kept = sum;
}

static void run_check(const void *input, uint64_t turns)
{
    const struct rescuing *r = input;
    size_t answer[LEXICON_ANSWER], sum = 0;
    for (uint64_t n = 0; n < turns; n++)
        sum += lexicon_shelf_check(r->file, r->length, answer);
    kept = sum;
}

// Of ten places one damaged in its last byte, which is 14, and one equal to the place before it; bytes of a place behind them.
static void damage(uint8_t *file, size_t places)
{
    for (size_t place = 0; place + 10 <= places; place += 10) {
        file[(place + 3) * RECORD - 1] ^= 1;
        memcpy(file + (place + 7) * RECORD, file + (place + 6) * RECORD, RECORD);
    }
    memcpy(file + places * RECORD, file, TAIL);
}

static uint8_t *bytes(size_t length)
{
    uint8_t *made = malloc(length);
    if (!made)
        fail("shelf rescue", "100,000 places", "no memory");
    return made;
}

void rescue_rows(const struct shelf *shelf, uint8_t *out)
{
    size_t places = shelf->places, length = places * RECORD;
    struct rescuing ours = {lexicon_shelf_rescue, shelf->file, length, out, bytes(places)};
    struct rescuing other = {rescue_plain, shelf->file, length, bytes(length + RECORD), bytes(places)};
    demand_same(&ours, &other);
    put_row(&(struct row){"shelf rescue, a place", "a shelf of 100,000 places", {run_rescue, &ours}, {run_rescue, &other}, "plain C", (double)places});
    put_row(&(struct row){"shelf rescue, a place", "a shelf of 100,000 places", {run_rescue, &ours}, {run_check, &ours}, "`lexicon_shelf_check`", (double)places});
    damage(shelf->file, places);
    ours.length = other.length = length + TAIL;
    demand_same(&ours, &other);
    put_row(&(struct row){"shelf rescue, a place", "two in ten bad, and a tail", {run_rescue, &ours}, {run_rescue, &other}, "plain C", (double)places});
    free(ours.marks);
    free(other.out);
    free(other.marks);
}
