/* Two workshops keep the same fingerprints, reached in different ways, and compare images.
 *
 *     cc two_workshops.c $(pkg-config --cflags --libs btreap) -o two_workshops
 */
#include <btreap.h>
#include <inttypes.h>
#include <stdio.h>
#include <stdlib.h>
#include <string.h>

#define SLOTS 64
#define WORDS BTREAP_TABLE_WORDS(SLOTS)

/* The two workshops have no salt; a neighbour has one of its own. */
#define NO_SALT 0
#define SALT UINT64_C(0x5EED)

/* End the program where a call was turned down. */
static void accept(const char *call, uint64_t refusal)
{
    if (refusal != BTREAP_ACCEPTED) {
        printf("%s: refused, %" PRIu64 "\n", call, refusal);
        exit(1);
    }
}

/* The first workshop inserts keys one by one, one too many, and deletes that one. Lasts 512 and 41 are measured. */
static void first_workshop(uint64_t *table)
{
    static const uint64_t keys[] = { 7, 99, 3000, 8 };
    accept("set-up", btreap_set_up(table, WORDS, 3, NO_SALT));
    accept("insert", btreap_insert(table, WORDS, 512, 26500, -120).refusal);
    for (size_t i = 0; i < sizeof keys / sizeof keys[0]; i++)
        accept("insert", btreap_insert(table, WORDS, keys[i], BTREAP_NOT_MEASURED, 0).refusal);
    accept("insert", btreap_insert(table, WORDS, 41, 31000, 45).refusal);
    accept("delete", btreap_delete(table, WORDS, 99).refusal);
}

/* The second builds its table from a rising list of keys, and their lengths and corrections. So does the neighbour. */
static void second_workshop(uint64_t *table, uint64_t salt)
{
    static const uint64_t keys[] = { 7, 8, 41, 512, 3000 };
    static const uint64_t lengths[] = { 0, 0, 31000, 26500, 0 };
    static const int32_t corrections[] = { 0, 0, 45, -120, 0 };
    accept("build", btreap_build(table, WORDS, 3, salt, keys, 5, lengths, 5, corrections, 5));
}

/* What a lookup says of a key. */
static void look_up(const uint64_t *table, uint64_t key)
{
    struct btreap_found found = btreap_lookup(table, WORDS, key);
    accept("lookup", found.refusal);
    printf("%" PRIu64 ": held %" PRIu64 ", rank %" PRIu64 ", count %" PRIu64 ", leader %" PRIu64 ", blocks %" PRIu64, key, found.held,
           found.rank, found.count, found.leader, found.blocks);
    if (found.length == BTREAP_NOT_MEASURED)
        printf(", not measured\n");
    else
        printf(", length %" PRIu64 ", correction %" PRId64 "\n", found.length, found.correction);
}

/* Whether a key with this measure is taken, or refused for it. */
static void try_measure(uint64_t length, int32_t correction)
{
    static uint64_t table[BTREAP_TABLE_WORDS(1)];
    accept("set-up", btreap_set_up(table, BTREAP_TABLE_WORDS(1), 3, NO_SALT));
    uint64_t refusal = btreap_insert(table, BTREAP_TABLE_WORDS(1), 7, length, correction).refusal;
    if (refusal != BTREAP_WRONG_MEASURE)
        accept("insert", refusal);
    printf("length %" PRIu64 ", correction %" PRId32 ": %s\n", length, correction, refusal == BTREAP_WRONG_MEASURE ? "refused" : "taken");
}

/* At each end of the rules a measure is taken, and one beyond it is refused. */
static void ends_of_the_rules(void)
{
    try_measure(BTREAP_LEAST_LENGTH, BTREAP_LEAST_CORRECTION);
    try_measure(BTREAP_GREATEST_LENGTH, BTREAP_GREATEST_CORRECTION);
    try_measure(BTREAP_LEAST_LENGTH - 1, 0);
    try_measure(BTREAP_GREATEST_LENGTH + 1, 0);
    try_measure(BTREAP_LEAST_LENGTH, BTREAP_LEAST_CORRECTION - 1);
    try_measure(BTREAP_GREATEST_LENGTH, BTREAP_GREATEST_CORRECTION + 1);
}

/* A key that is held is refused also with another measure. */
static void another_measure(uint64_t *table)
{
    printf("another measure: refused, %" PRIu64 "\n", btreap_insert(table, WORDS, 512, 26501, -120).refusal);
}

/* Every key of a table, step by step. */
static void print_keys(const uint64_t *table)
{
    struct btreap_stepped at = { .next = 0, .high = UINT64_MAX, .done = 0 };
    printf("keys:");
    for (;;) {
        at = btreap_step(table, WORDS, at.next, at.high, at.done);
        accept("step", at.refusal);
        if (!at.found)
            break;
        printf(" %" PRIu64, at.key);
    }
    printf("\n");
}

/* An order sheet names some fingerprints, rising: which of them are held? They are looked up together. */
static void look_up_together(const uint64_t *table)
{
    struct btreap_question batch[] = { { .key = 8 }, { .key = 40 }, { .key = 41 }, { .key = 512 } };
    size_t n = sizeof batch / sizeof batch[0];
    struct btreap_sized met = btreap_lookup_batch(table, WORDS, batch, n);
    accept("batch", met.refusal);
    printf("batch:");
    for (size_t i = 0; i < n; i++)
        printf(" %" PRIu64 " held %" PRIu64 " rank %" PRIu64 ",", batch[i].key, batch[i].held, batch[i].rank);
    printf(" blocks %" PRIu64 "\n", met.size);
}

/* Both run one load, in tables of different sizes, and compare images. */
static void compare_loads(void)
{
    static uint64_t small[BTREAP_TABLE_WORDS(600)], large[BTREAP_TABLE_WORDS(4096)];
    static uint8_t one[BTREAP_LONGEST_IMAGE], other[BTREAP_LONGEST_IMAGE];
    accept("load", btreap_load(small, BTREAP_TABLE_WORDS(600), 16, 2026, 1000));
    accept("load", btreap_load(large, BTREAP_TABLE_WORDS(4096), 16, 2026, 1000));
    struct btreap_sized sent = btreap_write(small, BTREAP_TABLE_WORDS(600), one, sizeof one);
    struct btreap_sized kept = btreap_write(large, BTREAP_TABLE_WORDS(4096), other, sizeof other);
    accept("write", sent.refusal);
    accept("write", kept.refusal);
    printf("image of the load: %" PRIu64 " bytes\n", sent.size);
    printf("images agree: %s\n", sent.size == kept.size && memcmp(one, other, sent.size) == 0 ? "yes" : "no");
}

/* Under a salt the same lasts have other ranks and slots: another table, another image. Whoever reads the image gets the salt with them. */
static void under_a_salt(const uint64_t *table)
{
    static uint64_t salted[WORDS], read[WORDS];
    static uint8_t image[BTREAP_LONGEST_IMAGE];
    second_workshop(salted, SALT);
    printf("under a salt, tables agree: %s\n", memcmp(salted, table, sizeof salted) == 0 ? "yes" : "no");
    look_up(salted, 512);
    struct btreap_sized sent = btreap_write(salted, WORDS, image, sizeof image);
    accept("write", sent.refusal);
    printf("image: %" PRIu64 " bytes\n", sent.size);
    memcpy(read, table, sizeof read);
    accept("read", btreap_read(read, WORDS, image, sent.size));
    printf("read by another: %s\n", memcmp(read, salted, sizeof read) == 0 ? "yes" : "no");
}

/* The five keys on a page, to be pinned up. */
static void print_pages(const uint64_t *table)
{
    static uint8_t text[BTREAP_PAGES_BYTES(5)];
    struct btreap_sized printed = btreap_pages(table, WORDS, text, sizeof text);
    accept("pages", printed.refusal);
    fwrite(text, 1, printed.size, stdout);
}

int main(void)
{
    static uint64_t first[WORDS], second[WORDS], third[WORDS];
    static uint8_t one[BTREAP_LONGEST_IMAGE], other[BTREAP_LONGEST_IMAGE], text[10 * BTREAP_LONGEST_IMAGE];

    first_workshop(first);
    second_workshop(second, NO_SALT);
    print_keys(first);
    printf("tables agree: %s\n", memcmp(first, second, sizeof first) == 0 ? "yes" : "no");

    struct btreap_sized sent = btreap_write(first, WORDS, one, sizeof one);
    struct btreap_sized kept = btreap_write(second, WORDS, other, sizeof other);
    accept("write", sent.refusal);
    accept("write", kept.refusal);
    printf("image: %" PRIu64 " bytes\n", sent.size);
    printf("images agree: %s\n", sent.size == kept.size && memcmp(one, other, sent.size) == 0 ? "yes" : "no");

    look_up(first, 512);
    look_up(first, 3000);
    look_up_together(first);
    ends_of_the_rules();
    another_measure(first);

    accept("read", btreap_read(third, WORDS, one, sent.size));
    printf("read back: %s\n", memcmp(third, first, sizeof first) == 0 ? "yes" : "no");

    one[20] ^= 1;
    printf("damaged image: refused, %" PRIu64 "\n", btreap_read(third, WORDS, one, sent.size));

    struct btreap_sized listed = btreap_list(other, kept.size, text, sizeof text);
    accept("list", listed.refusal);
    fwrite(text, 1, listed.size, stdout);

    compare_loads();
    print_pages(first);
    under_a_salt(first);
    return 0;
}
