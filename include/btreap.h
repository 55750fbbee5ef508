/* Wethpaol: a verified, uniquely represented index of 64-bit keys, kept in words that the caller lends.
 *
 * A set of keys (1 to 2^64 - 1), each with its measure, lives in a table: an array of uint64_t that belongs to the caller. Every word of a
 * table is a function of its order, its salt, its number of slots and the set alone, however the set was reached. A table's image is a string
 * of bytes; two sound tables have equal images exactly when their orders, salts and sets are equal, measures included.
 *
 * Programs compiled with a header before 0.6.0 must be compiled again: it declares other functions and types under the same names. Tables made
 * then have other lengths, and are refused with 1. Images made then are read as they are: their salt is zero.
 *
 * The table.    BTREAP_TABLE_WORDS(M), that is 4 + 8*M words, for M slots, 1 to 4,096; it holds up to M keys. Make one of any words
 *               with btreap_set_up, btreap_build, btreap_read or btreap_load; then do not write to it but by these calls.
 * The order.    3 to 255, chosen at set-up, build or load: a block of the tree has up to about twice that many keys.
 * The salt.     Any 64-bit number, chosen at set-up or build; 0 is none. How keys rank and in which slots they stand goes by their exclusive or
 *               with it, so that a maker with a salt of its own has priorities that no neighbour's library shares. What the calls answer of a
 *               table's keys goes by the table's own salt. It is no secret: table and image show it. A load's salt is 0.
 * The measure.  A length, 10,000 to 40,000, and a heel correction, -5,000 to 5,000, both in hundredths of a millimetre. A key that is not
 *               measured has length 0 and correction 0. The measure comes with its key; to change it, delete the key and insert it again.
 *               btreap_points gives the size that a measure comes to.
 * The image.    15 + 14*b + 30*n + 6*m bytes for n keys in b blocks, m of the keys measured, and 8 more under a salt other than 0; no
 *               image is longer than BTREAP_LONGEST_IMAGE = 204,823 bytes.
 * The pages.    A text to print and pin up, 50 keys a page: BTREAP_PAGES_BYTES(n) bytes for n keys, that is 49 for each key and 10 for
 *               each page, of which there is one at least; BTREAP_LONGEST_PAGES = 201,524 for 4,096 keys.
 *
 * The ceiling.  In a table of order a with n keys, the keys that a lookup compares on its way down lie in at most (n - 1)/(a - 1)
 *               different blocks, rounded up; in one when n is 1, in none when n is 0. It is proved for every table that is not refused,
 *               and no lower one holds: of each order and number of keys some table reaches it. That a lookup first reads the whole
 *               table, to judge it, is not counted. With n = 4,096 the ceilings are
 *
 *                   order      3    16    64   255
 *                   blocks  2048   273    65    17
 *
 * Any words, numbers and bytes may be handed in: each call replies, and a call that refuses changes none of the lent memory. `refusal` is
 * 0 when the call was accepted; all other numbers of a reply are 0 when it was refused, except the three of a step's place (next, high,
 * done), which then come back as they were passed. Of several refusals the one is given that the call names first; each call names its
 * refusals by rising number, but 12 before 7, 8 and 10:
 *
 *    1  the number of words is not 4 + 8*M for an M from 1 to 4,096
 *    2  the order is outside 3 to 255
 *    3  the key is zero
 *    4  low is above high
 *    5  the keys of a list or of a batch do not rise strictly, or one is zero
 *    6  the bytes are not an image of any order, any salt and any set of at most 4,096 keys
 *    7  the table is not sound: some word is not what its order, salt, keys and measures make it, or a measure is outside the rules
 *    8  the key to insert is held
 *    9  the key to delete is absent
 *   10  there would be more keys than slots
 *   11  the output is too short
 *   12  a measure is outside the rules; or the lengths or the corrections of a list are fewer than its keys, or more
 *
 * What the caller owes.  Each pointer points to as many elements as the length beside it says, aligned for their type; it may be null
 * only where that length is 0. What a call writes to overlaps nothing else that it is handed, and no other thread uses it during the call.
 *
 * The calls keep no state, allocate nothing, print nothing and may run at the same time in any number of threads, on different tables or, where
 * they only read it, on one. Stack, as measured: up to 440,000 bytes for btreap_read and btreap_list, up to 270,000 for btreap_pages, up to
 * 180,000 for the other calls, whatever the table's size; next to none for btreap_set_up and btreap_points.
 *
 * Link with -lbtreap (x86-64 Linux); the archive needs nothing but the C library's memory functions. `pkg-config --cflags --libs btreap`.
 */
#ifndef BTREAP_H
#define BTREAP_H

#include <stddef.h>
#include <stdint.h>

#ifdef __cplusplus
extern "C" {
#endif

#define BTREAP_MOST_SLOTS 4096
#define BTREAP_TABLE_WORDS(slots) (4 + 8 * (size_t)(slots))
#define BTREAP_LEAST_ORDER 3
#define BTREAP_GREATEST_ORDER 255
#define BTREAP_LONGEST_IMAGE 204823
#define BTREAP_PAGES_BYTES(keys) (49 * (size_t)(keys) + 10 * (((size_t)(keys) + 49) / 50 + ((keys) == 0)))
#define BTREAP_LONGEST_PAGES 201524

/* Measures, in hundredths of a millimetre; BTREAP_NOT_MEASURED is the length of a key that has none. */
#define BTREAP_LEAST_LENGTH 10000
#define BTREAP_GREATEST_LENGTH 40000
#define BTREAP_LEAST_CORRECTION (-5000)
#define BTREAP_GREATEST_CORRECTION 5000
#define BTREAP_NOT_MEASURED 0

/* Refusals. */
#define BTREAP_ACCEPTED 0
#define BTREAP_WRONG_LENGTH 1
#define BTREAP_WRONG_ORDER 2
#define BTREAP_ZERO_KEY 3
#define BTREAP_LOW_ABOVE_HIGH 4
#define BTREAP_NOT_RISING 5
#define BTREAP_NOT_AN_IMAGE 6
#define BTREAP_NOT_SOUND 7
#define BTREAP_KEY_HELD 8
#define BTREAP_KEY_ABSENT 9
#define BTREAP_TOO_MANY_KEYS 10
#define BTREAP_OUTPUT_TOO_SHORT 11
#define BTREAP_WRONG_MEASURE 12

struct btreap_ranked {
    uint64_t refusal, rank;
};

struct btreap_found {
    uint64_t refusal, held, rank, count, leader, blocks, length;
    int64_t correction;
};

struct btreap_sized {
    uint64_t refusal, size;
};

struct btreap_stepped {
    uint64_t refusal, found, key, next, high, done;
};

struct btreap_pointed {
    uint64_t refusal, measured, half_points;
    int64_t rest;
};

/* One line of a batch: the key to look up, and the places for what is said of it. */
struct btreap_question {
    uint64_t key, held, rank;
};

/* Make of any words the blank table of an order and a salt. Gives the refusal: 1, 2. */
uint64_t btreap_set_up(uint64_t *table, size_t words, uint64_t order, uint64_t salt);

/* Make of any words the table of an order, a salt and n strictly rising keys, each with the length and the correction at its place of the two
 * other lists; these have as many entries as there are keys. For keys that are not measured lend lists of n zeros; empty lists beside keys
 * are refused with 12. Gives the refusal: 1, 2, 5, 12, 10. */
uint64_t btreap_build(uint64_t *table, size_t words, uint64_t order, uint64_t salt, const uint64_t *keys, size_t n, const uint64_t *lengths,
                      size_t lengths_n, const int32_t *corrections, size_t corrections_n);

/* Make of any words the blank table of an order and the salt 0, and do on it count operations that the seed alone determines: a load that
 * anyone can run again. Each operation first sets seed to 6364136223846793005 * seed + 1442695040888963407, modulo 2^64. Its key is then
 * (seed >> 32) % 512 + 1, and seed >> 62 chooses: 0 or 1 insert, 2 delete, 3 lookup. No key is measured. An operation that is turned down
 * counts as done; what the operations reply is not given. The table is the one that btreap_set_up and as many calls would leave.
 * Gives the refusal: 1, 2. */
uint64_t btreap_load(uint64_t *table, size_t words, uint64_t order, uint64_t seed, uint16_t count);

/* Insert a key with its measure, 0 and 0 for one that is not measured; the rank that it then has. A held key is refused also with another
 * measure. Refusals: 1, 3, 12, 7, 8, 10. */
struct btreap_ranked btreap_insert(uint64_t *table, size_t words, uint64_t key, uint64_t length, int32_t correction);

/* Delete a key; the rank that it had. Refusals: 1, 3, 7, 9. */
struct btreap_ranked btreap_delete(uint64_t *table, size_t words, uint64_t key);

/* Look a key up: held is 1 or 0; rank, count and leader of a held key and its length and correction, zeros for an absent one; and how many
 * different blocks hold the keys that were compared on the way down, at most the ceiling above. A key that is not measured has length 0
 * and correction 0. The correction fits an int32_t. Refusals: 1, 3, 7. */
struct btreap_found btreap_lookup(const uint64_t *table, size_t words, uint64_t key);

/* Look n keys up together, such as those of one order sheet: the table is judged once for all of them. The keys rise strictly, and none is
 * zero; what held and rank of a question were does not matter. Each question then has held (1 or 0) and rank (0 when absent) as
 * btreap_lookup says them of its key, and its key as it was; size is how many different blocks hold the keys that were compared on all the
 * ways down, each block counted once. questions may be null when n is 0; no block is met then. A refusal leaves every question as it was.
 * Refusals: 1, 5, 7. */
struct btreap_sized btreap_lookup_batch(const uint64_t *table, size_t words, struct btreap_question *questions, size_t n);

/* Write at the start of out the held keys from low to high, both included, rising; size is their number, and later words of out are as they
 * were. Refusals: 1, 4, 7, 11. */
struct btreap_sized btreap_range(const uint64_t *table, size_t words, uint64_t low, uint64_t high, uint64_t *out, size_t out_words);

/* The range key by key: the least held key from next to high, unless done is set (not 0). found is 1 with a key, 0 at the end. Hand the
 * three numbers next, high and done of the reply to the following step; begin with low, high, 0. A refusal gives the three as they were
 * passed. Refusals: 1, 7. */
struct btreap_stepped btreap_step(const uint64_t *table, size_t words, uint64_t next, uint64_t high, uint64_t done);

/* Write the table's image at the start of out; size is its length in bytes, and later bytes of out are as they were.
 * Refusals: 1, 7, 11. */
struct btreap_sized btreap_write(const uint64_t *table, size_t words, uint8_t *out, size_t out_bytes);

/* Make of any words the table whose image the bytes are: of its order, salt and set, whatever the table's salt was. Gives the refusal:
 * 1, 6, 10. */
uint64_t btreap_read(uint64_t *table, size_t words, const uint8_t *image, size_t bytes);

/* Write the text of an image at the start of out: a line for the header, each block and each key; size is its length in bytes, at most ten
 * times the image's, and later bytes of out are as they were. Neither links nor measures nor the salt are shown. The fill in the first line is
 * how full the blocks are, in percent: of order a, n keys in b blocks, 100*n / ((2*a - 1) + (b - 1)*(2*a - 2)) rounded down, 0 without keys,
 * since the root block, which is the first, can hold 2*a - 1 keys and any other 2*a - 2. Refusals: 6, 11. */
struct btreap_sized btreap_list(const uint8_t *image, size_t bytes, uint8_t *out, size_t out_bytes);

/* Write the keys on pages, a text, at the start of out; size is its length in bytes, and later bytes of out are as they were. The keys
 * rise, 50 of them on each page; the last page has those that are left, one at least. Without keys there is one page with no key lines.
 * BTREAP_PAGES_BYTES(n) bytes are the text of n keys, and BTREAP_PAGES_BYTES(M) are enough for any table of M slots:
 *
 *     PAGE 0001
 *     0000000000000005    1    1 0000000000000000 39.5
 *     0000000000000007    0    1 0000000000000005  7.5
 *     0000000000000009    0    2 0000000000000005    -
 *
 * A key's line has the key, its rank, its count, its leader, which is zero for the root, and its size in Paris points, two half points
 * being one; a hyphen when it is not measured. Keys have 16 hexadecimal digits, letters capital; the other three have 4 characters,
 * spaces in front. Every line ends in a line feed. Refusals: 1, 7, 11. */
struct btreap_sized btreap_pages(const uint64_t *table, size_t words, uint8_t *out, size_t out_bytes);

/* The size of a last, the form that a shoe is made on, with this measure. It is in half points: two of them are a Paris point, two thirds
 * of a centimetre, so that size 40.0 is 80 half points. With t the length plus the correction, half_points is 3*t/1,000 rounded to the
 * nearest whole number, a half going up: 15 to 135. rest is 3*t less 1,000 times half_points, in thousandths of a half point: -500 to 499.
 * measured is 1; for a last that is not measured, with length 0 and correction 0, it is 0, and so are half_points and rest. The call is
 * lent no memory. Refusals: 12. */
struct btreap_pointed btreap_points(uint64_t length, int32_t correction);

#ifdef __cplusplus
}
#endif

#endif
