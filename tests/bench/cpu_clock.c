// Gives a program its own processor time in the place of the time of day, so that other work on the machine is not counted: metamath-rs 0.3.9 is timed with it
// (LD_PRELOAD, see verify.sh), by the clock that verify.c uses.
#define _GNU_SOURCE
#include <sys/syscall.h>
#include <time.h>
#include <unistd.h>

int clock_gettime(clockid_t clock, struct timespec *time) {
    return (int)syscall(SYS_clock_gettime, clock == CLOCK_MONOTONIC ? CLOCK_PROCESS_CPUTIME_ID : clock, time);
}
