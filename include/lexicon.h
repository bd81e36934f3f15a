/* Coxeter diagrams in line notation, their filing records, the names of their groups, and files of records: the calls of crates/lexicon, geometry,
 * lexicon_names, shelf and shelf_rescue for C, proved in crates/lexicon_c.
 *
 * Each call takes any text, record, file, family letter and size, and any length of buffer, and ends with an answer or with a refusal. It returns 0 for an
 * answer, or the refusal's number, keeps nothing but the processor's floating-point flags, allocates nothing, and may be called from any thread; 20 KB of
 * stack were enough for every call.
 *
 * What a caller must ensure, and nothing more:
 *   - A pointer is aligned for its element type and has as many readable, or for a buffer writable, elements behind it as the length beside it
 *     says; it may be null if that is 0. `answer` and `numbering` have as many as their prototypes say. None of what the pointers point at overlaps.
 *   - The calling convention is that of System V for x86-64.
 *   - The floating-point environment is C's default: round to nearest, no traps, no flush-to-zero. Rounding down, `(0.1)` files as other bytes.
 *
 * answer[0] is what the call returns. After an answer the rest is what the call tells of it, then zeros; after a refusal the rest is its fields, in the
 * order below, then zeros. A refusal changes no element of a buffer, nor of `numbering`. After an answer a buffer keeps its elements past those written.
 *
 *   number  meaning                                            fields
 *   1       a text of more than 255 bytes                      position: 255
 *   2       a byte of 128 or more                              position: the first such byte
 *   3       a parenthesis that is not closed                   position: the text's length
 *   4       the text ends too early                            position: the text's length
 *   5       a literal or a part of an edge that is no number   position: its last byte; for `()` the `)`, for an empty part the slash before it
 *   6       a byte that fits nothing, or nan                   position: the byte, or nan's last letter
 *   7       an edge that is none                               num and den as typed, position: the edge's last byte
 *   8       a pair that is joined twice                        both nodes, in the order of the second edge
 *   9       a literal outside the range                        position: the literal's last byte
 *   10      a tenth node                                       position: its first byte
 *   11      a reference to a missing node                      the edge's place among all edges of the text
 *   12      a buffer shorter than what the call writes, or
 *           than lexicon_shelf_rescue asks for
 *   13      a record that is not 370 bytes long
 *   14      bytes laid out for no diagram in any numbering
 *   15      mirrors, or walls, that do not exist               column: the first that does not fit
 *   16      an infinite length                                 node: the first such
 *   17      a letter or a size that no family has
 *   18      a file whose length is no multiple of 370
 *   19      a place of a file that can't be read or is not     place: the first such
 *           greater than the one before
 *   20      a record that is already on the shelf              place: the record's
 *   21      a component that no name fits                      node: the component's lowest
 *   22      a well laid out record that is not the smallest
 *   23      an infinite length that was not wished             position: the literal's last byte
 *
 * Positions, nodes, columns and places are counted from 0, positions in bytes: `x(1` is 3 at 3. 12 comes after all other refusals of a call.
 *
 * `wish` says whether infinite lengths are wished: 0 is no, any other number yes. An editing page passes 0, so that placeholders such as `(inf)` are turned
 * down; an import of old articles passes 1. 23 is reading's, of a literal, as it is met: `(-Infinity)` is 23 at 9. 16 is the generator's, of a diagram, which
 * has infinite lengths only if they were wished. A text without infinite literals has the same answer either way, and a record with an infinite length
 * is read back without a wish.
 */
#ifndef LEXICON_H
#define LEXICON_H

#include <stddef.h>
#include <stdint.h>

#ifdef __cplusplus
extern "C" {
#endif

enum {
    LEXICON_LIMIT = 9,         /* the most nodes of a diagram */
    LEXICON_ANSWER = 4,        /* numbers of an answer */
    LEXICON_RECORD = 370,      /* bytes of a record, and of a place of a file */
    LEXICON_DIAGRAM = 153,     /* numbers of a diagram */
    LEXICON_SQUARE = 81,       /* doubles of a matrix, of mirrors or of walls */
    LEXICON_GENERATOR = 10,    /* doubles of a generator */
    LEXICON_REFLECTIONS = 729, /* doubles of reflections */
    LEXICON_NAMES = 36         /* numbers of the names of groups */
};

/* The diagram of a text. Tells the nodes, the stored edges, and 1 if the diagram is minimal, else 0.
 * Refuses with 1 to 11, 23 and 12.
 *
 * Node i has out[2 * i], its kind (1 unringed, 2 ringed, 3 snub), and out[2 * i + 1], the 64 bits of its length, 0 if unringed; places past the last node
 * hold 1 and 0. The pair of the nodes i <= j (i = j is a loop) has, from out[18 + 3 * (j * (j + 1) / 2 + i)] on, its edge's rank in the order stored, from
 * 1, its num and its den in lowest terms; three zeros if nothing joins them. `x6/2o` has 3 and 1, as `x3o` has. */
size_t lexicon_read(const uint8_t *text, size_t text_len, size_t wish, uint64_t *out, size_t out_len, size_t answer[LEXICON_ANSWER]);

/* The record of a text's diagram, 370 bytes. Tells the nodes. numbering[i] is the node that the record has in place i; past the last node it holds i. Of all
 * numberings that give the record it is the first, compared as lists of numbers from the left. So a caller may rely on this:
 *   - A text has one record and one numbering, in every version of this library. A drawing that is made from them does not change.
 *   - Where two texts have the same record, numbering[i] of the one corresponds to numbering[i] of the other, for each place i: a renumbering that sends one
 *     to the other carries the first text's diagram onto the second's, kinds, lengths and fractions alike. Where a figure has symmetries, other
 *     renumberings do so too.
 *   - Where two texts have the same record, an article tells the same of both, whichever is stored. Given each text with its wish, lexicon_read tells the same
 *     for minimal and shows as many pairs of different nodes with a rank, and lexicon_names tells the same names and orders, each as often, though perhaps
 *     in another order, or refuses both with 21, whose nodes may differ. Loops may differ, and with them the number of stored edges that lexicon_read tells.
 * Refuses with 1 to 11, 23 and 12. The more nodes are alike, the longer it takes, here and in lexicon_read_record: nine different ones about 1 us, nine alike in
 * a chain about 25 us, nine alike that nothing joins about 7 ms. */
size_t lexicon_write_record(const uint8_t *text, size_t text_len, size_t wish, uint8_t *out, size_t out_len, size_t numbering[LEXICON_LIMIT],
                            size_t answer[LEXICON_ANSWER]);

/* The diagram that has these bytes for its record, in the record's own numbering, laid out as for lexicon_read, in lowest terms as there; the edges i < j rank
 * by rising j, then by rising i. Tells the nodes and the edges.
 * Refuses with 13, 14, 22 and 12, tested in this order. Of bytes that somebody sent a caller may rely on this:
 *   - 14 says that they are not what is laid out for any diagram in any numbering: the count, a kind, a value, a fraction or a filler is bad.
 *   - 22 says that none of these is bad: they tell a figure, but under another numbering than the filed one. They must not serve as a key, since the figure
 *     would have two. The figure has one right record, and each of its texts gets it: file its text again by lexicon_write_record, with the wish if a length
 *     is infinite. Only a figure that no text spells, such as one with the length 1e300, can't be mended so. */
size_t lexicon_read_record(const uint8_t *bytes, size_t bytes_len, uint64_t *out, size_t out_len, size_t answer[LEXICON_ANSWER]);

/* The Coxeter matrix of a text's diagram: row r of column c at out[9 * c + r]; past the last node it goes on as that of nodes that nothing joins. Tells the nodes.
 * Refuses with 1 to 11, 23 and 12. */
size_t lexicon_matrix(const uint8_t *text, size_t text_len, size_t wish, double *out, size_t out_len, size_t answer[LEXICON_ANSWER]);

/* The mirrors of a text's diagram: row r of column c at out[9 * c + r]; past the last node zeros. Tells the nodes.
 * Refuses with 1 to 11, 23, 15 and 12. */
size_t lexicon_mirrors(const uint8_t *text, size_t text_len, size_t wish, double *out, size_t out_len, size_t answer[LEXICON_ANSWER]);

/* The walls of a text's diagram, laid out as for lexicon_mirrors. They are mirrors as Coxeter has them: two of them meet with product -cos(pi / m), where
 * those of lexicon_mirrors, which are miratope-core's, meet with cos(pi / m). So o3o3o3*a, whose group is infinite, has no walls, but has mirrors. Tells the nodes.
 * Refuses with 1 to 11, 23, 15 and 12. */
size_t lexicon_walls(const uint8_t *text, size_t text_len, size_t wish, double *out, size_t out_len, size_t answer[LEXICON_ANSWER]);

/* The generator of a text's diagram as miratope-core computes it: nine coordinates, zeros past the last node, and in out[9] its circumradius. Tells the nodes. It
 * depends on the order of the nodes: the radii of x3o4o and o4o3x, which are one figure, are 1 and the root of 5. To print, take lexicon_wall_generator.
 * Refuses with 1 to 11, 23, 15, 16 and 12. */
size_t lexicon_generator(const uint8_t *text, size_t text_len, size_t wish, double *out, size_t out_len, size_t answer[LEXICON_ANSWER]);

/* The generator over the walls, laid out as for lexicon_generator: the point whose distance from the wall of node i is half the length of i, so that its images
 * in the walls are joined by edges of these lengths; x alone has radius 1/2. A negative length puts it on the other side, and a snub node counts as a ringed
 * one. It is the one to print, since its circumradius is the figure's, the same for every text of the figure up to rounding: that of x3o4o and of o4o3x is
 * the root of 1/2. The more crowded the walls are, the more digits are lost, and where they almost don't fit, some texts of a figure may be refused with 15
 * and others not; docs/DIFFERENCES.md has measurements. Tells the nodes.
 * Refuses with 1 to 11, 23, 15, 16 and 12. */
size_t lexicon_wall_generator(const uint8_t *text, size_t text_len, size_t wish, double *out, size_t out_len, size_t answer[LEXICON_ANSWER]);

/* The reflections in the mirrors of a text's diagram: row r of column c of the reflection in mirror m at out[81 * m + 9 * c + r]; past the last node a
 * reflection goes on as the unit matrix, and past the last mirror there are zeros. Tells the nodes.
 * Refuses with 1 to 11, 23, 15 and 12. */
size_t lexicon_reflections(const uint8_t *text, size_t text_len, size_t wish, double *out, size_t out_len, size_t answer[LEXICON_ANSWER]);

/* The matrix of a family, A, B, D, E or H in upper case, laid out as for lexicon_matrix; past the size it goes on as that of a longer family. Tells the nodes.
 * Refuses with 17 and 12. */
size_t lexicon_family_matrix(uint8_t letter, size_t size, double *out, size_t out_len, size_t answer[LEXICON_ANSWER]);

/* The mirrors of a family, laid out as for lexicon_mirrors. Tells the nodes.
 * Refuses with 17, 15 and 12. */
size_t lexicon_family_mirrors(uint8_t letter, size_t size, double *out, size_t out_len, size_t answer[LEXICON_ANSWER]);

/* The walls of a family, laid out as for lexicon_mirrors. Tells the nodes.
 * Refuses with 17, 15 and 12. */
size_t lexicon_family_walls(uint8_t letter, size_t size, double *out, size_t out_len, size_t answer[LEXICON_ANSWER]);

/* The finite group of each component of a text's diagram: its name in Coxeter's list and its order. The components, over stored edges, come by rising lowest
 * node. Component i has, from out[4 * i] on, its lowest node, its name's letter in ASCII, the number behind the letter, and the group's order; past the
 * last component zeros. Tells the components; a text without nodes has none.
 *
 *   name                    letter  number   order
 *   An, n from 1 on         'A'     n        (n + 1)!
 *   Bn, n from 2 on         'B'     n        2^n n!
 *   Dn, n from 4 on         'D'     n        2^(n - 1) n!
 *   E6, E7, E8              'E'     6, 7, 8  51840, 2903040, 696729600
 *   F4                      'F'     4        1152
 *   H3, H4                  'H'     3, 4     120, 14400
 *   I2(p), whole p >= 5     'I'     p        2 p
 *
 * A component has a name exactly when some renumbering carries its edges onto the name's, and it never has two. So an editor may rely on this:
 *   - Rings, lengths and loops play no part, and a fraction counts in its lowest terms: 10/2 is 5. Two nodes joined by 3 are A2, by 4 B2.
 *   - The group of several components is their product, and its order the product of their orders, which may exceed 64 bits.
 *   - 21 names the first component that no name fits, and no other is told then. Its group is infinite, or an edge of it is a fraction such as 5/2.
 *   - The tolerance of mirrors plays no part: x4294967295o is I2(4294967295), though its mirrors are refused with 15.
 * Refuses with 1 to 11, 23, 21 and 12. It takes less than 30 us. */
size_t lexicon_names(const uint8_t *text, size_t text_len, size_t wish, uint64_t *out, size_t out_len, size_t answer[LEXICON_ANSWER]);

/* ---- shelf files
 *
 * A shelf file holds the records of many articles, one at each place of 370 bytes, and nothing else: no header, and each record greater than the one
 * before in byte order, which is that of memcmp. So no record is on it twice. An empty file is a shelf of 0 places. The calls touch no disk: a caller
 * lends the bytes of the file.
 *
 * A record that is looked up or added is read first, as by lexicon_read_record; then the file is tested, its length before its places.
 * lexicon_shelf_rescue takes every file. */

/* Whether a file is a shelf. Tells how many places it has.
 * Refuses with 18 and 19, tested in this order. It reads every place, each in the time of lexicon_read_record. */
size_t lexicon_shelf_check(const uint8_t *file, size_t file_len, size_t answer[LEXICON_ANSWER]);

/* Whether a record is on a shelf. Tells 1 and its place, or 0 and the place where it would stand, which is the number of records less than it.
 * Refuses with 13, 14, 22, 18 and 19, tested in this order. It checks the whole file at each call, in the time of lexicon_shelf_check. */
size_t lexicon_shelf_find(const uint8_t *file, size_t file_len, const uint8_t *bytes, size_t bytes_len, size_t answer[LEXICON_ANSWER]);

/* As lexicon_shelf_find, for a file that was checked and has not changed since, such as one that a server loaded: of a shelf it tells the same, which is
 * proved. Of another file it tells where bisection ends: after a 1 the record is at the place told, but after a 0 it may be at some other place.
 * Refuses with 13, 14, 22 and 18, tested in this order. It reads the record, and compares it with about log2(places) places. */
size_t lexicon_shelf_bisect(const uint8_t *file, size_t file_len, const uint8_t *bytes, size_t bytes_len, size_t answer[LEXICON_ANSWER]);

/* The shelf with one record added, file_len + 370 bytes. Tells the place of the new record. Every old record is there, in the old order, and the new file
 * is a shelf, which need not be checked again. `file` stays as it is.
 * Refuses with 13, 14, 22, 18, 19, 20 and 12, tested in this order. It checks the whole file at each call, in the time of lexicon_shelf_check, and copies it.
 *
 * No record is added in place: `out` overlaps neither `file` nor `bytes`, nor do these overlap. To file many records at once, sort them by memcmp, write
 * each once, one after another, and check the file. */
size_t lexicon_shelf_add(const uint8_t *file, size_t file_len, const uint8_t *bytes, size_t bytes_len, uint8_t *out, size_t out_len,
                         size_t answer[LEXICON_ANSWER]);

/* A shelf of what can be kept of any file, such as one that a disk fault left with bad records and a cut tail. It goes through `file` by places of 370 bytes
 * and copies to `out`, one behind another, each record that can be read and is greater than the last one copied. Tells the places kept, and the length of the
 * tail, the fewer than 370 bytes behind the last whole place, which are only counted. marks[i] is that of place i: 0 for kept, 1 for readable but out of
 * order, which is not greater than the last one copied before it, else the number with which lexicon_read_record refuses it, 14 or 22. `file` stays as it is.
 * A librarian may rely on this:
 *   - The first 370 * answer[1] bytes of `out` are a shelf, which need not be checked again. As many marks are 0 as places were kept.
 *   - A file that is a shelf comes out unchanged: every mark is 0, and no tail is told.
 *   - Bytes damaged inside one place never make another place unreadable: its mark is what it was, or 0 or 1 both before and after the damage. A damaged
 *     place that can still be read may be too great, and then good places behind it are out of order.
 *   - Bytes of `out` past the kept records, and of `marks` past the last place's mark, stay.
 * Refuses with 12 alone: `out` is shorter than the whole file, its tail included, or `marks` has fewer bytes than the file has whole places. It reads every
 * place, in the time of lexicon_shelf_check. Nothing is rescued in place: none of `file`, `out` and `marks` overlap. */
size_t lexicon_shelf_rescue(const uint8_t *file, size_t file_len, uint8_t *out, size_t out_len, uint8_t *marks, size_t marks_len,
                            size_t answer[LEXICON_ANSWER]);

#ifdef __cplusplus
}
#endif

#endif
