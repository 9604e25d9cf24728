/* The median time of 1,000 runs of a script of 2,048 records: a time setting and time reads, over and over. */
#include "clock_script.h"
#include "record.h"
#include <stdio.h>
#include <stdlib.h>
#include <time.h>

enum { RUNS = 1000 };

static uint8_t script[RECORD * MOST];
static uint8_t answers[MOST];
static double times[RUNS];

static int below(const void *a, const void *b) {
    double x = *(const double *)a, y = *(const double *)b;
    return (x > y) - (x < y);
}

int main(void) {
    /* 16 records: set 12:34:56, STOP, point at 00, read seven bytes, STOP. */
    static const uint8_t kinds[16] = {0, 1, 1, 1, 1, 3, 0, 1, 0, 2, 2, 2, 2, 2, 2, 3};
    static const uint8_t values[16] = {0xD0, 0x00, 0x56, 0x34, 0x12, 0, 0xD0, 0x00, 0xD1, 1, 1, 1, 1, 1, 0, 0};
    for (size_t i = 0; i < MOST; i++)
        put(script, i, 1000000 * i, kinds[i % 16], values[i % 16]);
    for (int r = 0; r < RUNS; r++) {
        struct timespec from, to;
        clock_gettime(CLOCK_MONOTONIC, &from);
        uint32_t got = clock_script_run(script, sizeof script, answers, MOST);
        clock_gettime(CLOCK_MONOTONIC, &to);
        if (got != 0)
            return 1;
        times[r] = (double)(to.tv_sec - from.tv_sec) * 1e6 + (double)(to.tv_nsec - from.tv_nsec) / 1e3;
    }
    qsort(times, RUNS, sizeof times[0], below);
    printf("median of %d runs of %d records: %.1f microseconds\n", RUNS, MOST, times[RUNS / 2]);
    return 0;
}
