/* Two versions of the archive in one program. They take turns, so that both see the same machine. */
#define _POSIX_C_SOURCE 200809L
#include "timed.h"

#include <stdio.h>
#include <stdlib.h>
#include <string.h>
#include <time.h>

extern const struct timed_call before[], after[];

enum { ROUNDS = 41, CALLS = 400000 };

static double nanoseconds(const struct timed_call *call) {
    struct timespec start, end;
    clock_gettime(CLOCK_MONOTONIC, &start);
    call->make(CALLS);
    clock_gettime(CLOCK_MONOTONIC, &end);
    return ((double)(end.tv_sec - start.tv_sec) * 1e9 + (double)(end.tv_nsec - start.tv_nsec)) / CALLS;
}

static int by_size(const void *a, const void *b) {
    const double x = *(const double *)a, y = *(const double *)b;
    return (x > y) - (x < y);
}

static void show(const struct timed_call *one, const struct timed_call *other) {
    double ones[ROUNDS], others[ROUNDS];
    for (int i = 0; i < ROUNDS; i++) {
        if (i % 2 == 0)
            ones[i] = nanoseconds(one);
        others[i] = nanoseconds(other);
        if (i % 2 != 0)
            ones[i] = nanoseconds(one);
    }
    qsort(ones, ROUNDS, sizeof *ones, by_size);
    qsort(others, ROUNDS, sizeof *others, by_size);
    const int middle = ROUNDS / 2;
    printf("%-36s %8.1f %8.1f %6.2f     %8.1f %8.1f %6.2f\n", other->name, ones[0], others[0], others[0] / ones[0], ones[middle], others[middle],
           others[middle] / ones[middle]);
}

/* A call that the version before did not have. */
static void show_new(const struct timed_call *call) {
    double times[ROUNDS];
    for (int i = 0; i < ROUNDS; i++)
        times[i] = nanoseconds(call);
    qsort(times, ROUNDS, sizeof *times, by_size);
    printf("%-36s %8s %8.1f %6s     %8s %8.1f\n", call->name, "-", times[0], "", "-", times[ROUNDS / 2]);
}

int main(void) {
    printf("%-36s %8s %8s %6s     %8s %8s %6s\n", "ns of a call: the least, the median", "before", "after", "ratio", "before", "after", "ratio");
    for (const struct timed_call *call = after; call->name; call++) {
        const struct timed_call *same = before;
        while (same->name && strcmp(same->name, call->name) != 0)
            same++;
        if (same->name)
            show(same, call);
        else
            show_new(call);
    }
    return 0;
}
