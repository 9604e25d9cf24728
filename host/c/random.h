/* Random numbers and random scripts. */
#ifndef RANDOM_H
#define RANDOM_H

#include "record.h"

/* xorshift64*; the state may not be 0. */
static inline uint64_t next(uint64_t *state) {
    *state ^= *state >> 12;
    *state ^= *state << 25;
    *state ^= *state >> 27;
    return *state * 2685821657736338717u;
}

/* A number of any magnitude. */
static inline uint64_t next_of_any_size(uint64_t *state) {
    uint64_t number = next(state);
    return number >> (next(state) % 64);
}

/* A legal script. Three of four STARTs address the clock. */
static inline void random_script(uint8_t *script, size_t records, uint64_t *state) {
    uint64_t at = next_of_any_size(state);
    for (size_t i = 0; i < records; i++) {
        uint8_t kind = (uint8_t)(next(state) % 4), value = (uint8_t)next(state);
        if (kind == 0 && next(state) % 4 != 0)
            value = (uint8_t)(0xD0 + value % 2);
        if (kind == 2)
            value %= 2;
        if (kind == 3)
            value = 0;
        put(script, i, at, kind, value);
        uint64_t step = next_of_any_size(state) >> 16;
        at = step < UINT64_MAX - at ? at + step : UINT64_MAX;
    }
}

#endif
