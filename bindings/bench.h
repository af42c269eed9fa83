/* The calls of the bench for a caller in C or C++: a frame file's proofs are answered with number, place and steps, and a proof's long
 * form is written.
 *
 * Link with the static library of the crate bench_c (on x86-64: rt lib in crates/bench_c, which writes crates/bench_c/out/libbench_c.a).
 * The library calls nothing and keeps nothing between calls. Its own tables are on the stack, of which bench_verify and
 * bench_verify_all take about 325,000 bytes (319,752 for the tables) and bench_long about 931,000, as measured on x86-64 with an older
 * kit; all other memory is lent by the caller.
 *
 * A slice is a pointer and a length, in this order; the length counts the slice's elements (bytes, or words of 64 bits). A pointer is
 * never null, also where the length is 0; a pointer to words is aligned to 8 bytes; no two slices of one call overlap.
 */
#ifndef BENCH_H
#define BENCH_H

#include <stddef.h>
#include <stdint.h>

#ifdef __cplusplus
extern "C" {
#endif

/* The greatest sizes. What is lent above them is not used; of pool, stack, places and tree it is cleared, too. */
#define BENCH_FILE_BYTES 1048576   /* a longer file is refused: 2, place 0 */
#define BENCH_ANSWERS 4096         /* so many answers suffice for every file */
#define BENCH_POOL_BYTES 65536     /* bytes of the pool */
#define BENCH_STACK_ENTRIES 1024   /* entries of the stack */
#define BENCH_PLACES 4096          /* places */
#define BENCH_TREE_ENTRIES 131071  /* so many entries of the tree suffice for every proof; each is one word */
#define BENCH_LONG_BYTES 65536     /* bytes of the longest long form that is written */
#define BENCH_ENTRY_WORDS 10       /* words of an entry of the stack */
#define BENCH_PLACE_WORDS 10       /* words of a place */
#define BENCH_STACK_WORDS (BENCH_STACK_ENTRIES * BENCH_ENTRY_WORDS)
#define BENCH_PLACES_WORDS (BENCH_PLACES * BENCH_PLACE_WORDS)

/* The numbers of an answer, with their names. 1 to 7 are about the file, 8 about the statement that was asked for, 20 to 46 about its
 * proof, 60 and 61 about the room for its long form. */
#define BENCH_NUMBERS(ROW) \
    ROW(0, Accepted) \
    ROW(1, BadRecord) \
    ROW(2, TooMany) \
    ROW(3, BadSymbol) \
    ROW(4, BadLabel) \
    ROW(5, BadReference) \
    ROW(6, BadFrame) \
    ROW(7, NoProof) \
    ROW(8, NotProvable) \
    ROW(20, BadByte) \
    ROW(21, ProofUnterminatedRoster) \
    ROW(22, ProofMalformedVarint) \
    ROW(23, ProofInvalidSave) \
    ROW(24, ProofIncomplete) \
    ROW(25, StepMissing) \
    ROW(26, LocalLabelAmbiguous) \
    ROW(27, LocalLabelDuplicate) \
    ROW(28, ChainBackref) \
    ROW(29, StepUsedBeforeDefinition) \
    ROW(30, StepUsedAfterScope) \
    ROW(31, StepOutOfRange) \
    ROW(32, ProofUnderflow) \
    ROW(33, BadExplicitLabel) \
    ROW(34, DuplicateExplicitLabel) \
    ROW(35, StepFloatWrongType) \
    ROW(36, StepEssenWrongType) \
    ROW(37, StepEssenWrong) \
    ROW(38, ProofDvViolation) \
    ROW(39, ProofExcessEnd) \
    ROW(40, ProofNoSteps) \
    ROW(41, ProofWrongTypeEnd) \
    ROW(42, ProofWrongExprEnd) \
    ROW(43, PoolFull) \
    ROW(44, TooManyVariables) \
    ROW(45, StackFull) \
    ROW(46, PlacesFull) \
    ROW(60, TreeFull) \
    ROW(61, LongFull)

/* BENCH_Accepted is 0, BENCH_BadRecord is 1, and so on. */
enum bench_number {
#define BENCH_ROW(number, name) BENCH_##name = number,
    BENCH_NUMBERS(BENCH_ROW)
#undef BENCH_ROW
    BENCH_PAST_LAST
};

/* The number of an answer: 0 accepted, else why it is refused. */
static inline unsigned bench_number(uint64_t answer) { return (unsigned)(answer & 255); }

/* The place of an answer: for 1 to 7 an offset in the file, for 0, 20 to 46, 60 and 61 an offset in the proof's text (the text's length
 * for findings at its end), for 8 it is 0. For 0 from bench_long it is the length of the long form. */
static inline uint32_t bench_place(uint64_t answer) { return (uint32_t)(answer >> 8 & 16777215); }

/* The steps of the proof that were completed; 0 for 1 to 8. */
static inline uint32_t bench_steps(uint64_t answer) { return (uint32_t)(answer >> 32); }

/* How many $p a good file has, from the answer of bench_verify_all. */
static inline uint32_t bench_count(uint64_t answer) { return (uint32_t)(answer >> 32); }

/* The name of a number; "" for one that is not in the table. */
static inline const char *bench_name(unsigned number) {
    switch (number) {
#define BENCH_ROW(row, name) \
    case row: return #name;
        BENCH_NUMBERS(BENCH_ROW)
#undef BENCH_ROW
    default: return "";
    }
}

/* Answers for the proof of one statement: number + 256 * place + 2^32 * steps.
 *
 * file, file_length      the frame file; any bytes. It is read only.
 * statement              the statement's number, from 0 in file order ($f, $e, $a and $p are counted). If it is no $p: 8, place 0.
 * pool, pool_length      bytes for expressions; at most BENCH_POOL_BYTES are used. Too few: 43 PoolFull.
 * stack, stack_length    words for the stack; stack_length / BENCH_ENTRY_WORDS entries. Too few: 45 StackFull.
 * places, places_length  words for the places; places_length / BENCH_PLACE_WORDS places. Too few: 46 PlacesFull.
 *
 * Any length will do for pool, stack and places, 0 too. The answer does not depend on what they held. Afterwards all three are zero in
 * their whole length, whatever the answer. */
uint64_t bench_verify(const uint8_t *file, size_t file_length, size_t statement,
                      uint8_t *pool, size_t pool_length, uint64_t *stack, size_t stack_length,
                      uint64_t *places, size_t places_length);

/* Answers for every $p of the file; the file is checked once.
 *
 * A file that is refused: number + 256 * place, number 1 to 7; `answers` is left as it was.
 * A good file: 2^32 * N, where N is the number of its $p (bench_count). answers[i] is then the answer for the i-th $p in file order, just
 * as bench_verify gives it with the same memory, for each i below N and below answers_length; proofs past answers_length are not run,
 * and the rest of `answers` is left as it was.
 *
 * answers, answers_length  words for the answers; BENCH_ANSWERS always suffice.
 * The others are as in bench_verify; pool, stack and places are zero afterwards in their whole length. */
uint64_t bench_verify_all(const uint8_t *file, size_t file_length, uint64_t *answers, size_t answers_length,
                          uint8_t *pool, size_t pool_length, uint64_t *stack, size_t stack_length,
                          uint64_t *places, size_t places_length);

/* Writes the long form of one statement's proof: the labels of its derivation in post-order, one space between. Answers number + 256 *
 * place + 2^32 * steps:
 *
 * 1 to 8, 20 to 46       the refusal of the file, the statement or the proof, as bench_verify gives it with the same memory.
 * 60 TreeFull            the proof is accepted, and 2 * steps - 1 is above tree_length. Place and steps are those of bench_verify.
 * 61 LongFull            else, and the long form is longer than output_length or than BENCH_LONG_BYTES. Place and steps as for 60.
 * 0                      else: the long form is written. Place is its length, steps are those of the proof that it is made from.
 *
 * file to places_length  are as in bench_verify.
 * tree, tree_length      words for the derivation, one for each entry. BENCH_TREE_ENTRIES always suffice.
 * output, output_length  bytes for the long form; at most BENCH_LONG_BYTES are written.
 *
 * Any length will do for pool, stack, places, tree and output, 0 too. The answer does not depend on what they held. Afterwards pool,
 * stack, places and tree are zero in their whole length, whatever the answer. For 0 the long form stands in the front of `output`, with no
 * byte after it, and the rest of `output` is left as it was; for every other answer all of it is left as it was. */
uint64_t bench_long(const uint8_t *file, size_t file_length, size_t statement,
                    uint8_t *pool, size_t pool_length, uint64_t *stack, size_t stack_length,
                    uint64_t *places, size_t places_length, uint64_t *tree, size_t tree_length,
                    uint8_t *output, size_t output_length);

#ifdef __cplusplus
}
#endif

#endif
