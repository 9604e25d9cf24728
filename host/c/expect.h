/* What a test expected and got, counted. */
#ifndef EXPECT_H
#define EXPECT_H

#include <stdint.h>
#include <stdio.h>

static unsigned long passed, failed;

static inline void expect(const char *what, uint64_t got, uint64_t wanted) {
    if (got == wanted) {
        passed++;
        return;
    }
    failed++;
    printf("%s: 0x%llx, wanted 0x%llx\n", what, (unsigned long long)got, (unsigned long long)wanted);
}

/* Prints the counts and gives the program's status: 1 where an expectation failed or there was none. */
static inline int counted(const char *test) {
    printf("%s: %lu passed, %lu failed\n", test, passed, failed);
    return failed != 0 || passed == 0;
}

#endif
