// Times the runs of all proofs but the first on each frame file given, natively, in nanoseconds of processor time. A line for each file:
//   NAME proofs P accepted A steps S run T clear T before T
// The call is bench_verify_all with the greatest sizes. `run` is its time from the answer to the first proof on, so neither the file check nor
// anything else that comes before the proofs is in it; the clearing of the lent memory is. `clear` is that clearing alone, `before` what came
// before. Each is the median of 11 runs, after one that is not counted. P, A and S leave the first proof out.
// How the first answer is noticed: the page of `answers` where it is laid may not be written, so that the processor traps; the handler lets it be written
// and starts the clock. What the trap itself takes after that is measured alone and taken off.
// Linked with the static library of the crate bench_c (see verify.sh).
#include "../../bindings/bench.h"
#include <signal.h>
#include <stdio.h>
#include <stdlib.h>
#include <sys/mman.h>
#include <time.h>
#include <unistd.h>

enum { RUNS = 11, PAGE = 65536 };

static uint8_t file[BENCH_FILE_BYTES + 1], pool[BENCH_POOL_BYTES];
static uint64_t stack[BENCH_STACK_WORDS], places[BENCH_PLACES_WORDS];
static _Alignas(PAGE) uint64_t answers[PAGE / sizeof(uint64_t)];
static int64_t first_answered;

static int64_t now(void) {
    struct timespec t;
    clock_gettime(CLOCK_PROCESS_CPUTIME_ID, &t);
    return t.tv_sec * 1000000000LL + t.tv_nsec;
}

static int by_size(const void *a, const void *b) {
    int64_t x = *(const int64_t *)a, y = *(const int64_t *)b;
    return (x > y) - (x < y);
}

static int64_t median(int64_t *times) {
    qsort(times, RUNS, sizeof times[0], by_size);
    return times[RUNS / 2];
}

static void may_be_written(int protection) {
    if (mprotect(answers, sizeof answers, protection)) {
        perror("mprotect");
        exit(1);
    }
}

static void on_first_answer(int signal, siginfo_t *what, void *context) {
    (void)context;
    if ((uint8_t *)what->si_addr < (uint8_t *)answers || (uint8_t *)what->si_addr >= (uint8_t *)answers + sizeof answers)
        _exit(128 + signal);
    may_be_written(PROT_READ | PROT_WRITE);
    first_answered = now();
}

static uint64_t all(size_t length) {
    return bench_verify_all(file, length, answers, BENCH_ANSWERS, pool, BENCH_POOL_BYTES, stack, BENCH_STACK_WORDS, places,
                            BENCH_PLACES_WORDS);
}

// The time that is spent after the clock was started in the handler, though no proof runs.
static int64_t trap_time(void) {
    int64_t times[RUNS];
    for (int run = 0; run < RUNS; run++) {
        may_be_written(PROT_READ);
        *(volatile uint64_t *)answers = 0;
        times[run] = now() - first_answered;
    }
    return median(times);
}

// A file that is too long is refused at once, and what is lent is cleared: the whole of it, less the same call with nothing lent.
static int64_t clear_time(void) {
    int64_t times[RUNS];
    for (int run = 0; run < RUNS; run++) {
        int64_t start = now();
        all(sizeof file);
        int64_t middle = now();
        bench_verify_all(file, sizeof file, answers, 0, pool, 0, stack, 0, places, 0);
        times[run] = (middle - start) - (now() - middle);
    }
    return median(times);
}

static void walk_times(size_t length, int64_t trap, int64_t *run_time, int64_t *before_time) {
    int64_t runs[RUNS], befores[RUNS];
    all(length);
    for (int run = 0; run < RUNS; run++) {
        may_be_written(PROT_READ);
        int64_t start = now();
        all(length);
        runs[run] = now() - first_answered - trap;
        befores[run] = first_answered - start;
    }
    *run_time = median(runs);
    *before_time = median(befores);
}

static int timed(const char *name) {
    FILE *in = fopen(name, "rb");
    if (!in) {
        perror(name);
        return 1;
    }
    size_t length = fread(file, 1, sizeof file, in);
    fclose(in);
    uint64_t answer = all(length), steps = 0;
    uint32_t count = bench_count(answer), accepted = 0;
    if (bench_number(answer) != BENCH_Accepted || count == 0) {
        printf("%s: %u %u, %u proofs\n", name, bench_number(answer), bench_place(answer), count);
        return 1;
    }
    for (uint32_t i = 1; i < count; i++) {
        steps += bench_steps(answers[i]);
        accepted += bench_number(answers[i]) == BENCH_Accepted;
    }
    int64_t run_time, before_time;
    walk_times(length, trap_time(), &run_time, &before_time);
    printf("%s proofs %u accepted %u steps %llu run %lld clear %lld before %lld\n", name, count - 1, accepted, (unsigned long long)steps,
           (long long)run_time, (long long)clear_time(), (long long)before_time);
    return 0;
}

int main(int argc, char **argv) {
    struct sigaction action = {.sa_sigaction = on_first_answer, .sa_flags = SA_SIGINFO};
    sigaction(SIGSEGV, &action, NULL);
    for (int k = 1; k < argc; k++)
        if (timed(argv[k]))
            return 1;
    return 0;
}
