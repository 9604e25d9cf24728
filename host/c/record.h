/* The records of a script. */
#ifndef RECORD_H
#define RECORD_H

#include <stddef.h>
#include <stdint.h>
#include <string.h>

enum { RECORD = 16, MOST = 2048 };

/* Writes record i of a script. */
static inline void put(uint8_t *script, size_t i, uint64_t at, uint8_t kind, uint8_t value) {
    uint8_t *record = script + RECORD * i;
    memset(record, 0, RECORD);
    for (int k = 0; k < 8; k++)
        record[k] = (uint8_t)(at >> (8 * k));
    record[8] = kind;
    record[9] = value;
}

#endif
