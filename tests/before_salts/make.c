/* Makes record.txt: the tables and images that version 0.5.0, the last without salts, makes of some sets, histories and loads. With that
 * version installed:
 *
 *     cc make.c $(pkg-config --cflags --libs btreap) -o make && ./make >record.txt
 *
 * A case is three lines: how its table is made; the bytes of the table's words, of each word the lowest first; and those of its image. The bytes
 * are in hexadecimal; where there are many slots, it is how many there are and their digest, FNV-1a of 64 bits.
 *
 *     keys ORDER SLOTS SHARE SEED KEY..      a build of these keys, rising
 *     build ORDER SLOTS SHARE SEED NUMBER    a build of so many keys, drawn from the seed
 *     history ORDER SLOTS SEED CALLS         a set-up and so many inserts and deletes, drawn from the seed; those that are refused count
 *     load ORDER SLOTS SEED COUNT            a load
 *
 * SHARE says which keys are measured: 0 none, 1 some, 2 all. Numbers drawn from a seed are those of splitmix64.
 */
#include <btreap.h>
#include <inttypes.h>
#include <stdio.h>
#include <stdlib.h>

#if BTREAP_LONGEST_IMAGE != 204815
#error "this is not version 0.5.0"
#endif

#define MOST BTREAP_MOST_SLOTS

/* Tables of up to so many slots are written out. */
#define WHOLE 5

static uint64_t table[BTREAP_TABLE_WORDS(MOST)], keys[MOST], lengths[MOST], state;
static int32_t corrections[MOST];
static uint8_t image[BTREAP_LONGEST_IMAGE];

/* The next number of splitmix64. */
static uint64_t next(void)
{
    uint64_t z = state += 0x9E3779B97F4A7C15;
    z = (z ^ (z >> 30)) * 0xBF58476D1CE4E5B9;
    z = (z ^ (z >> 27)) * 0x94D049BB133111EB;
    return z ^ (z >> 31);
}

/* A key of any magnitude, perhaps zero. */
static uint64_t draw_key(void)
{
    uint64_t key = next();
    return key >> (next() % 64);
}

static void draw_measure(int share, uint64_t *length, int32_t *correction)
{
    *length = BTREAP_NOT_MEASURED;
    *correction = 0;
    if (share == 2 || (share == 1 && next() % 2 == 1)) {
        *length = 10000 + next() % 30001;
        *correction = (int32_t)(next() % 10001) - 5000;
    }
}

static void accept(uint64_t refusal)
{
    if (refusal != BTREAP_ACCEPTED) {
        fprintf(stderr, "refused, %" PRIu64 "\n", refusal);
        exit(1);
    }
}

static uint64_t digest(const uint8_t *bytes, size_t number)
{
    uint64_t hash = 0xCBF29CE484222325;
    for (size_t i = 0; i < number; i++)
        hash = (hash ^ bytes[i]) * 0x100000001B3;
    return hash;
}

static void print_whole(const uint8_t *bytes, size_t number)
{
    for (size_t i = 0; i < number; i++)
        printf("%02X", bytes[i]);
    printf("\n");
}

static void print_digest(const uint8_t *bytes, size_t number)
{
    printf("%zu bytes, digest %016" PRIX64 "\n", number, digest(bytes, number));
}

/* The lines of the table and of its image. */
static void print_result(size_t slots)
{
    static uint8_t bytes[8 * BTREAP_TABLE_WORDS(MOST)];
    size_t words = BTREAP_TABLE_WORDS(slots);
    void (*print)(const uint8_t *, size_t) = slots <= WHOLE ? print_whole : print_digest;
    for (size_t i = 0; i < 8 * words; i++)
        bytes[i] = table[i / 8] >> (8 * (i % 8));
    print(bytes, 8 * words);
    struct btreap_sized written = btreap_write(table, words, image, sizeof image);
    accept(written.refusal);
    print(image, written.size);
}

/* The first so many keys, rising, with measures drawn for them. */
static void build(uint64_t order, size_t slots, int share, size_t number)
{
    for (size_t i = 0; i < number; i++)
        draw_measure(share, &lengths[i], &corrections[i]);
    accept(btreap_build(table, BTREAP_TABLE_WORDS(slots), order, keys, number, lengths, number, corrections, number));
    print_result(slots);
}

static void build_keys(uint64_t order, size_t slots, int share, uint64_t seed, size_t number, const uint64_t *given)
{
    printf("keys %" PRIu64 " %zu %d %" PRIu64, order, slots, share, seed);
    for (size_t i = 0; i < number; i++) {
        keys[i] = given[i];
        printf(" %" PRIu64, keys[i]);
    }
    printf("\n");
    state = seed;
    build(order, slots, share, number);
}

static int compare(const void *one, const void *other)
{
    uint64_t a = *(const uint64_t *)one, b = *(const uint64_t *)other;
    return (a > b) - (a < b);
}

/* Whether a key is none, or among the first so many. */
static int is_drawn(uint64_t key, size_t number)
{
    for (size_t i = 0; i < number; i++)
        if (keys[i] == key)
            return 1;
    return key == 0;
}

static void build_drawn(uint64_t order, size_t slots, int share, uint64_t seed, size_t number)
{
    printf("build %" PRIu64 " %zu %d %" PRIu64 " %zu\n", order, slots, share, seed, number);
    state = seed;
    for (size_t drawn = 0; drawn < number;) {
        keys[drawn] = draw_key();
        drawn += !is_drawn(keys[drawn], drawn);
    }
    qsort(keys, number, sizeof keys[0], compare);
    build(order, slots, share, number);
}

/* A refused insert or delete changes nothing. */
static void history(uint64_t order, size_t slots, uint64_t seed, size_t calls)
{
    size_t words = BTREAP_TABLE_WORDS(slots);
    printf("history %" PRIu64 " %zu %" PRIu64 " %zu\n", order, slots, seed, calls);
    state = seed;
    accept(btreap_set_up(table, words, order));
    for (size_t i = 0; i < calls; i++) {
        uint64_t choice = next() % 3, key = 1 + next() % (2 * slots), length;
        int32_t correction;
        draw_measure(1, &length, &correction);
        if (choice < 2)
            btreap_insert(table, words, key, length, correction);
        else
            btreap_delete(table, words, key);
    }
    print_result(slots);
}

static void load(uint64_t order, size_t slots, uint64_t seed, uint16_t count)
{
    printf("load %" PRIu64 " %zu %" PRIu64 " %" PRIu16 "\n", order, slots, seed, count);
    accept(btreap_load(table, BTREAP_TABLE_WORDS(slots), order, seed, count));
    print_result(slots);
}

/* No key, one, the ends, and pairs of equal priority. */
static void known_keys(void)
{
    static const uint64_t five[] = { 5 };
    static const uint64_t ends[] = { 1, UINT64_MAX };
    static const uint64_t ties[][2] = { { 0x055A050E17548921, 0x08DFDFD4FFCCD72F }, { 0x7F566D443AA84F08, 0xF899F55CEBC994D3 } };
    for (int share = 0; share <= 2; share++) {
        build_keys(3, 1, share, 1, 0, NULL);
        build_keys(255, 1, share, 2, 1, five);
        build_keys(3, 2, share, 3, 2, ends);
        build_keys(4, 3, share, 4, 2, ties[0]);
        build_keys(5, 5, share, 5, 2, ties[1]);
    }
}

/* Every number of keys in few slots. */
static void small_sets(void)
{
    uint64_t seed = 1000;
    for (size_t slots = 1; slots <= WHOLE; slots++)
        for (size_t number = 0; number <= slots; number++)
            build_drawn(3 + number % 2, slots, (int)((slots + number) % 3), seed++, number);
}

#define LENGTH(list) (sizeof list / sizeof list[0])
static const size_t large[] = { 7, 16, 64, 65, 300, 1000, MOST };
static const uint64_t orders[] = { 3, 4, 16, 255 };

/* Full tables, none of whose keys is measured, and fewer keys, some or all of them measured. */
static void large_sets(void)
{
    uint64_t seed = 2000;
    for (size_t i = 0; i < LENGTH(large); i++)
        for (size_t j = 0; j < LENGTH(orders); j++)
            for (int share = 0; share <= 2; share++)
                build_drawn(orders[j], large[i], share, seed++, large[i] - (size_t)share * large[i] / 5);
}

static void histories(void)
{
    uint64_t seed = 3000;
    for (size_t slots = 1; slots <= WHOLE; slots++)
        history(3, slots, seed++, 40);
    for (size_t i = 0; i < LENGTH(large); i++)
        for (size_t j = 0; j < LENGTH(orders); j++)
            history(orders[j], large[i], seed++, large[i] < 100 ? 4 * large[i] : 400);
}

static void loads(void)
{
    load(3, 1, 0, 3);
    load(3, 5, 0, 100);
    load(16, 600, 2026, 1000);
    load(255, MOST, UINT64_MAX, 65535);
}

int main(void)
{
    known_keys();
    small_sets();
    large_sets();
    histories();
    loads();
    return 0;
}
