// Times the file check on each frame file given: the median of 11 runs, in microseconds, with the file's size and verdict.
// Linked with the static library of the crate frames_c (see run.sh).
#include <stdint.h>
#include <stdio.h>
#include <stdlib.h>
#include <time.h>

void frames_check(const uint8_t *file, size_t length, uint32_t *symbols, uint32_t *statements, uint64_t *answer);

enum { RUNS = 11, ROOM = 1 << 21 };

static uint8_t file[ROOM];
static uint32_t symbols[4096], statements[4096];

static int64_t now(void) {
    struct timespec t;
    clock_gettime(CLOCK_MONOTONIC, &t);
    return t.tv_sec * 1000000000LL + t.tv_nsec;
}

static int by_size(const void *a, const void *b) {
    int64_t x = *(const int64_t *)a, y = *(const int64_t *)b;
    return (x > y) - (x < y);
}

int main(int argc, char **argv) {
    for (int k = 1; k < argc; k++) {
        FILE *in = fopen(argv[k], "rb");
        if (!in) {
            perror(argv[k]);
            return 1;
        }
        size_t length = fread(file, 1, ROOM, in);
        fclose(in);
        uint64_t answer[3];
        int64_t times[RUNS];
        for (int run = 0; run < RUNS; run++) {
            int64_t start = now();
            frames_check(file, length, symbols, statements, answer);
            times[run] = now() - start;
        }
        qsort(times, RUNS, sizeof times[0], by_size);
        printf("%s: %zu bytes, ", argv[k], length);
        if (answer[0] == 0)
            printf("good %llu %llu", (unsigned long long)answer[1], (unsigned long long)answer[2]);
        else
            printf("refused %llu %llu", (unsigned long long)answer[0], (unsigned long long)answer[1]);
        printf(", %.1f us (%.1f to %.1f)\n", times[RUNS / 2] / 1e3, times[0] / 1e3, times[RUNS - 1] / 1e3);
    }
    return 0;
}
