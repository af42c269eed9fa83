// Runs all proofs of a frame file again and again, and has perf sample the runs alone: profile FILE TIMES CONTROL ACKNOWLEDGED
// CONTROL and ACKNOWLEDGED are the two named pipes of `perf record --control` (see profile.sh). As in verify.c the first answer is noticed by a trap: perf is
// told to begin there, and to stop when the call returns. So the file check is not sampled.
// Linked with the static library of the crate bench_c.
#include "../../bindings/bench.h"
#include <fcntl.h>
#include <signal.h>
#include <stdio.h>
#include <stdlib.h>
#include <string.h>
#include <sys/mman.h>
#include <unistd.h>

enum { PAGE = 65536 };

static uint8_t file[BENCH_FILE_BYTES + 1], pool[BENCH_POOL_BYTES];
static uint64_t stack[BENCH_STACK_WORDS], places[BENCH_PLACES_WORDS];
static _Alignas(PAGE) uint64_t answers[PAGE / sizeof(uint64_t)];
static int control, acknowledged;

static void tell(const char *word) {
    char said[8];
    if (write(control, word, strlen(word)) < 0 || read(acknowledged, said, sizeof said) <= 0)
        _exit(1);
}

static void on_first_answer(int signal) {
    (void)signal;
    if (mprotect(answers, sizeof answers, PROT_READ | PROT_WRITE))
        _exit(1);
    tell("enable\n");
}

int main(int argc, char **argv) {
    if (argc != 5)
        return 2;
    FILE *in = fopen(argv[1], "rb");
    control = open(argv[3], O_WRONLY);
    acknowledged = open(argv[4], O_RDONLY);
    if (!in || control < 0 || acknowledged < 0) {
        perror(argv[1]);
        return 1;
    }
    size_t length = fread(file, 1, sizeof file, in);
    fclose(in);
    signal(SIGSEGV, on_first_answer);
    for (int k = atoi(argv[2]); k > 0; k--) {
        mprotect(answers, sizeof answers, PROT_READ);
        bench_verify_all(file, length, answers, BENCH_ANSWERS, pool, BENCH_POOL_BYTES, stack, BENCH_STACK_WORDS, places,
                         BENCH_PLACES_WORDS);
        tell("disable\n");
    }
    return 0;
}
