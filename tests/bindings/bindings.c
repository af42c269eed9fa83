// Tries bindings/bench.h: document 01's file of th1 and th2 (its path is the argument) with good and short room, a bad file, a statement
// that is no $p, zero lengths, and long forms with just enough and with less. Every buffer stands between guards. Says what differs; the
// exit status is 1 then.
#include "../../bindings/bench.h"
#include <stdio.h>
#include <string.h>

enum { GUARD = 16, FILE_SIZE = 4096 };

// What is held: a buffer of the greatest size between two guards.
static uint8_t file_held[GUARD + FILE_SIZE + GUARD], pool_held[GUARD + BENCH_POOL_BYTES + GUARD];
static uint8_t output_held[GUARD + BENCH_LONG_BYTES + GUARD], file_copy[sizeof file_held];
static uint64_t stack_held[GUARD + BENCH_STACK_WORDS + GUARD], places_held[GUARD + BENCH_PLACES_WORDS + GUARD];
static uint64_t tree_held[GUARD + BENCH_TREE_ENTRIES + GUARD], answers_held[GUARD + BENCH_ANSWERS + GUARD];
static uint8_t *const file = file_held + GUARD, *const pool = pool_held + GUARD, *const output = output_held + GUARD;
static uint64_t *const stack = stack_held + GUARD, *const places = places_held + GUARD, *const tree = tree_held + GUARD;
static uint64_t *const answers = answers_held + GUARD;
static size_t length;
static int tried, differ;

#define COUNT(held) (sizeof(held) / sizeof *(held))

// The three numbers of an answer are these.
static void same(const char *what, uint64_t answer, unsigned number, uint32_t place, uint32_t steps) {
    tried++;
    if (bench_number(answer) == number && bench_place(answer) == place && bench_steps(answer) == steps)
        return;
    differ++;
    printf("%s: %u %u %u (%s), not %u %u %u\n", what, bench_number(answer), bench_place(answer), bench_steps(answer),
           bench_name(bench_number(answer)), number, place, steps);
}

static void holds(const char *what, const char *fact, int good) {
    tried++;
    if (!good) {
        differ++;
        printf("%s: %s\n", what, fact);
    }
}

// What was lent, and the guards, hold something before the call.
static void fill(void) {
    memset(pool_held, 0x5a, sizeof pool_held);
    memset(stack_held, 0xa5, sizeof stack_held);
    memset(places_held, 0x3c, sizeof places_held);
    memset(tree_held, 0x96, sizeof tree_held);
    memset(output_held, 0x7e, sizeof output_held);
}

// So many bytes after the first guard are zero, the rest is as it was filled.
static int zero_bytes(const uint8_t *held, size_t count, size_t lent, uint8_t filled) {
    int good = 1;
    for (size_t i = 0; i < count; i++)
        good &= held[i] == (i >= GUARD && i < GUARD + lent ? 0 : filled);
    return good;
}

// The same for words.
static int zero_words(const uint64_t *held, size_t count, size_t lent, uint8_t filled) {
    int good = 1;
    for (size_t i = 0; i < count; i++)
        good &= held[i] == (i >= GUARD && i < GUARD + lent ? 0 : filled * 0x0101010101010101u);
    return good;
}

// The first bytes and words of what was lent are zero; the rest, the guards and the file are as they were.
static void cleared(const char *what, size_t bytes, size_t stack_words, size_t place_words, size_t entries) {
    int good = zero_bytes(pool_held, COUNT(pool_held), bytes, 0x5a);
    good &= zero_words(stack_held, COUNT(stack_held), stack_words, 0xa5);
    good &= zero_words(places_held, COUNT(places_held), place_words, 0x3c);
    good &= zero_words(tree_held, COUNT(tree_held), entries, 0x96);
    holds(what, "the lent memory is not as it should be", good);
    holds(what, "the file was changed", memcmp(file_held, file_copy, sizeof file_held) == 0);
}

// The text stands in the front of the output, and nothing else was changed there.
static void wrote(const char *what, const char *text) {
    size_t size = strlen(text);
    holds(what, "another text was written", memcmp(output, text, size) == 0);
    memset(output, 0x7e, size);
    int good = 1;
    for (size_t i = 0; i < COUNT(output_held); i++)
        good &= output_held[i] == 0x7e;
    holds(what, "the output was changed", good);
}

static void one(const char *what, size_t statement, size_t bytes, size_t entries, size_t place_count, unsigned number, uint32_t place,
                uint32_t steps) {
    fill();
    uint64_t answer = bench_verify(file, length, statement, pool, bytes, stack, entries * BENCH_ENTRY_WORDS, places,
                                   place_count * BENCH_PLACE_WORDS);
    same(what, answer, number, place, steps);
    cleared(what, bytes, entries * BENCH_ENTRY_WORDS, place_count * BENCH_PLACE_WORDS, 0);
}

// A long form, with so many pool bytes, tree entries and output bytes, and the most entries and places.
static void lengthened(const char *what, size_t statement, size_t bytes, size_t entries, size_t output_bytes, unsigned number,
                       uint32_t place, uint32_t steps, const char *text) {
    fill();
    uint64_t answer = bench_long(file, length, statement, pool, bytes, stack, BENCH_STACK_WORDS, places, BENCH_PLACES_WORDS, tree, entries,
                                 output, output_bytes);
    same(what, answer, number, place, steps);
    cleared(what, bytes, BENCH_STACK_WORDS, BENCH_PLACES_WORDS, entries);
    wrote(what, text);
}

// All proofs with so many answers lent; gives the call's own answer.
static uint64_t all(const uint8_t *bytes, size_t count, size_t lent) {
    fill();
    for (size_t i = 0; i < COUNT(answers_held); i++)
        answers_held[i] = 77;
    return bench_verify_all(bytes, count, answers, lent, pool, BENCH_POOL_BYTES, stack, BENCH_STACK_WORDS, places, BENCH_PLACES_WORDS);
}

static void single(void) {
    one("th1", 6, 65536, 1024, 4096, BENCH_Accepted, 13, 5);
    one("th2", 9, 65536, 1024, 4096, BENCH_Accepted, 14, 5);
    one("th1, just enough", 6, 24, 2, 4, BENCH_Accepted, 13, 5);
    one("th1, pool short", 6, 23, 2, 4, BENCH_PoolFull, 12, 4);
    one("th1, stack short", 6, 24, 1, 4, BENCH_StackFull, 8, 1);
    one("th1, places short", 6, 24, 2, 3, BENCH_PlacesFull, 10, 3);
    one("th1, nothing lent", 6, 0, 0, 0, BENCH_PoolFull, 0, 0);
    one("th2, pool alone", 9, 65536, 0, 0, BENCH_StackFull, 0, 0);
    one("a $a", 5, 65536, 1024, 4096, BENCH_NotProvable, 0, 0);
    one("no statement", 10, 0, 0, 0, BENCH_NotProvable, 0, 0);
    one("the greatest number", (size_t)-1, 9, 1, 1, BENCH_NotProvable, 0, 0);
}

static void whole(void) {
    uint64_t answer = all(file, length, BENCH_ANSWERS);
    same("all", answer, 0, 0, 2);
    same("all, th1", answers[0], BENCH_Accepted, 13, 5);
    same("all, th2", answers[1], BENCH_Accepted, 14, 5);
    same("all, past the last", answers[2], 77, 0, 0);
    cleared("all", BENCH_POOL_BYTES, BENCH_STACK_WORDS, BENCH_PLACES_WORDS, 0);
    same("one answer lent", all(file, length, 1), 0, 0, 2);
    same("one answer lent, th1", answers[0], BENCH_Accepted, 13, 5);
    same("one answer lent, the next", answers[1], 77, 0, 0);
    same("no answer lent", all(file, length, 0), 0, 0, 2);
    same("no answer lent, the first", answers[0], 77, 0, 0);
    same("the guard before the answers", answers[-1], 77, 0, 0);
    same("the guard after the answers", answers[BENCH_ANSWERS], 77, 0, 0);
}

static void long_forms(void) {
    static const char first[] = "wp wq wi wp wq wi wi";
    lengthened("th1's long form", 6, 65536, BENCH_TREE_ENTRIES, BENCH_LONG_BYTES, BENCH_Accepted, 20, 5, first);
    lengthened("th1's, just enough", 6, 24, 9, 20, BENCH_Accepted, 20, 5, first);
    lengthened("th1's, tree short", 6, 65536, 8, 20, BENCH_TreeFull, 13, 5, "");
    lengthened("th1's, output short", 6, 65536, 9, 19, BENCH_LongFull, 13, 5, "");
    lengthened("th1's, both short", 6, 65536, 8, 19, BENCH_TreeFull, 13, 5, "");
    lengthened("th1's, no tree", 6, 65536, 0, 20, BENCH_TreeFull, 13, 5, "");
    lengthened("th1's, no output", 6, 65536, 9, 0, BENCH_LongFull, 13, 5, "");
    lengthened("th1's, pool short", 6, 23, 9, 20, BENCH_PoolFull, 12, 4, "");
    lengthened("th1's, all short", 6, 23, 0, 0, BENCH_PoolFull, 12, 4, "");
    lengthened("th2's long form", 9, 65536, 9, 14, BENCH_Accepted, 14, 5, "wp wq h1 h2 mp");
    lengthened("a $a's long form", 5, 65536, 9, 20, BENCH_NotProvable, 0, 0, "");
    lengthened("no statement's long form", 10, 0, 0, 0, BENCH_NotProvable, 0, 0, "");
    length -= 1;
    lengthened("a cut file's long form", 6, 65536, 9, 20, BENCH_BadRecord, 355, 0, "");
    length += 1;
}

static void bad(void) {
    static const uint8_t cut[3] = {5, 0, 0}, lone[6] = {2, 0, 0, 0, 6, 0};
    same("cut short", all(cut, 3, BENCH_ANSWERS), BENCH_BadRecord, 0, 0);
    same("cut short, the first", answers[0], 77, 0, 0);
    cleared("cut short", BENCH_POOL_BYTES, BENCH_STACK_WORDS, BENCH_PLACES_WORDS, 0);
    same("a proof alone", all(lone, 6, BENCH_ANSWERS), BENCH_NoProof, 0, 0);
    same("an empty file", all(cut, 0, BENCH_ANSWERS), 0, 0, 0);
    length -= 1;
    one("a cut file", 6, 65536, 1024, 4096, BENCH_BadRecord, 355, 0);
    length += 1;
}

int main(int argc, char **argv) {
    FILE *in = argc == 2 ? fopen(argv[1], "rb") : NULL;
    if (!in) {
        fprintf(stderr, "usage: bindings FILE\n");
        return 2;
    }
    memset(file_held, 0xc3, sizeof file_held);
    length = fread(file, 1, FILE_SIZE, in);
    fclose(in);
    memcpy(file_copy, file_held, sizeof file_held);
    single();
    whole();
    long_forms();
    bad();
    printf("C: %d tried, %d differ\n", tried, differ);
    return differ > 0;
}
