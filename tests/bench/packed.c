// Times the functions over the pool: copying and comparing texts of 10 and of 1,000 symbols, beside memcpy and memcmp of the same bytes in
// the same run, and what copies of one and of two bytes cost. Medians of 11 runs. Linked with the static library of the crate packed_c (see
// packed.sh).
// A range is copied as it is; an image is the one symbol of a statement; names are those of a statement's constants.
#include <stdint.h>
#include <stdio.h>
#include <stdlib.h>
#include <string.h>
#include <time.h>

size_t packed_copy(uint8_t *pool, size_t pool_len, size_t used, size_t limit, size_t from, size_t to);
size_t packed_substitute(const uint8_t *file, size_t file_len, const uint32_t *symbols, size_t symbols_len, uint32_t at, const uint32_t *froms,
                         size_t froms_len, const uint32_t *tos, size_t tos_len, uint8_t *pool, size_t pool_len, size_t used, size_t limit);
size_t packed_spell(const uint8_t *file, size_t file_len, const uint32_t *symbols, size_t symbols_len, uint32_t at, uint8_t *pool, size_t pool_len,
                    size_t used, size_t limit);
size_t packed_is_substituted(const uint8_t *file, size_t file_len, const uint32_t *symbols, size_t symbols_len, uint32_t at, const uint32_t *froms,
                             size_t froms_len, const uint32_t *tos, size_t tos_len, const uint8_t *pool, size_t pool_len, size_t from, size_t to);
size_t packed_is_spelled(const uint8_t *file, size_t file_len, const uint32_t *symbols, size_t symbols_len, uint32_t at, const uint8_t *pool,
                         size_t pool_len, size_t from, size_t to);

enum { RUNS = 11, ROOM = 1 << 16, CONSTANTS = 20, VARIABLE = CONSTANTS, SYMBOLS = CONSTANTS + 1, SPAN = 1000000 };

static uint8_t file[ROOM], pool[ROOM];
static size_t file_len, image, whole; // the file; the bytes of the image, which stands first in the pool; the bytes of a statement's text
static uint32_t symbols[SYMBOLS], froms[SYMBOLS], tos[SYMBOLS], names, one; // the statements: names only, and variables only
static volatile size_t kept;                                                // so that no answer is left out

static void put(unsigned n, int bytes) {
    for (; bytes > 0; bytes--, n >>= 8) file[file_len++] = n & 255;
}

// A symbol: a constant whose name has `size` bytes, or the variable.
static void symbol(int s, int class, int size) {
    symbols[s] = file_len;
    put(3 + size, 4), put(1, 2), put(class, 1);
    for (int i = 0; i < size; i++) put('a' + (s + i) % 26, 1);
}

// A $a of `n` symbols after its typecode: constants in turn, or the variable each time.
static uint32_t statement(int n, int variable) {
    uint32_t at = file_len;
    put(2 + 6 + 2 * (n + 1) + 1, 4), put(4, 2), put(0, 2), put(0, 2), put(n + 1, 2), put(0, 2);
    for (int i = 0; i < n; i++) put(variable ? VARIABLE : i % CONSTANTS, 2);
    put('s', 1);
    return at;
}

// A file with a statement of `n` constants, whose names have `size` bytes, and one of `variables` variables; the names stand first in the pool,
// and are the variable's image.
static void prepare(int n, int size, int variables) {
    file_len = 0;
    for (int s = 0; s < CONSTANTS; s++) symbol(s, 0, size);
    symbol(VARIABLE, 1, 1);
    names = statement(n, 0);
    one = statement(variables, 1);
    image = packed_spell(file, file_len, symbols, SYMBOLS, names, pool, ROOM, 0, ROOM);
    froms[VARIABLE] = 0, tos[VARIABLE] = image;
    size_t end = packed_substitute(file, file_len, symbols, SYMBOLS, one, froms, SYMBOLS, tos, SYMBOLS, pool, ROOM, image, ROOM);
    whole = end - image;
    if (image != (size_t)n * size || whole != image * variables) exit((puts("the texts are not as long as they should be"), 1));
}

static void plain_copy(void) { memcpy(pool + image, pool, image); }
static void plain_compare(void) { kept = memcmp(pool + image, pool, image); }
static void copy(void) { kept = packed_copy(pool, ROOM, image, ROOM, 0, image); }
static void spell(void) { kept = packed_spell(file, file_len, symbols, SYMBOLS, names, pool, ROOM, image, ROOM); }
static void substitute(void) {
    kept = packed_substitute(file, file_len, symbols, SYMBOLS, one, froms, SYMBOLS, tos, SYMBOLS, pool, ROOM, image, ROOM);
}
// With no room: the test of the ranges, and the first symbol.
static void test(void) {
    kept = packed_substitute(file, file_len, symbols, SYMBOLS, one, froms, SYMBOLS, tos, SYMBOLS, pool, ROOM, image, image);
}
static void is_substituted(void) {
    kept = packed_is_substituted(file, file_len, symbols, SYMBOLS, one, froms, SYMBOLS, tos, SYMBOLS, pool, ROOM, image, image + whole);
    if (kept != 1) exit((puts("the texts are not the same"), 1));
}
static void is_spelled(void) {
    kept = packed_is_spelled(file, file_len, symbols, SYMBOLS, names, pool, ROOM, image, 2 * image);
    if (kept != 1) exit((puts("the texts are not the same"), 1));
}

// Nanoseconds for one call, over so many.
static double timed(void (*volatile work)(void), long calls) {
    struct timespec a, b;
    clock_gettime(CLOCK_MONOTONIC, &a);
    for (long i = 0; i < calls; i++) {
        work();
        __asm__ volatile("" ::: "memory");
    }
    clock_gettime(CLOCK_MONOTONIC, &b);
    return ((b.tv_sec - a.tv_sec) * 1e9 + (b.tv_nsec - a.tv_nsec)) / calls;
}

static int by_size(const void *a, const void *b) {
    double x = *(const double *)a, y = *(const double *)b;
    return (x > y) - (x < y);
}

typedef void (*Work)(void);
static const Work works[] = {plain_copy, copy, substitute, spell, plain_compare, is_substituted, is_spelled, test};
static const char *const titles[] = {"memcpy", "a range", "an image", "by names", "memcmp", "an image", "by names"};
enum { WORKS = sizeof works / sizeof works[0], SHOWN = WORKS - 1 };

// So many calls that they take a millisecond.
static long enough(Work work) {
    long calls = 1;
    while (timed(work, calls) * calls < SPAN) calls *= 2;
    return calls;
}

// The medians of all, the runs taken in turn.
static void medians(double *median) {
    static double times[WORKS][RUNS];
    static long calls[WORKS];
    for (int k = 0; k < WORKS; k++) calls[k] = enough(works[k]);
    for (int run = 0; run < RUNS; run++)
        for (int k = 0; k < WORKS; k++) times[k][run] = timed(works[k], calls[k]);
    for (int k = 0; k < WORKS; k++) {
        qsort(times[k], RUNS, sizeof times[k][0], by_size);
        median[k] = times[k][RUNS / 2];
    }
}

static void title(const char *unit) {
    printf("%-24s", unit);
    for (int k = 0; k < SHOWN; k++) printf(" %9s", titles[k]);
    puts("");
}

int main(void) {
    double m[WORKS];
    printf("%-24s %39s %29s\n", "", "-- written: ------------------------", "-- compared: -------------");
    title("million bytes a second");
    for (int n = 10; n <= 1000; n *= 100)
        for (int size = 1; size <= 3; size += 2) {
            prepare(n, size, 1);
            medians(m);
            printf("%5d symbols, %d byte%-3s", n, size, size > 1 ? "s" : "");
            for (int k = 0; k < SHOWN; k++) printf(" %9.0f", image * 1e3 / m[k]);
            puts("");
        }
    title("nanoseconds a call");
    for (int size = 1; size <= 2; size++) {
        prepare(1, size, 1);
        medians(m);
        printf("%5d symbol,  %d byte%-3s", 1, size, size > 1 ? "s" : "");
        for (int k = 0; k < SHOWN; k++) printf(" %9.1f", m[k]);
        puts("");
    }
    puts("a statement of 1,000 variables, nanoseconds for each, the test of its range among them; and that test alone");
    for (int size = 1; size <= 2; size++) {
        prepare(1, size, 1000);
        medians(m);
        printf("    image of %d byte%s: written %.1f, compared %.1f, test %.1f\n", size, size > 1 ? "s" : "", m[2] / 1000, m[5] / 1000, m[7] / 1000);
    }
    return 0;
}
