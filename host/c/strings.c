/* Byte strings through both calls: random ones of every length up to 40,000, and damaged scripts. Each is lent with guard
 * bytes around it and around the answers, and once more in blocks of the heap that have no byte to spare, where valgrind
 * sees a byte read or written outside.
 * usage: strings [STEP [SEED]]   every STEP-th length (1); the seed (3231) */
#include "clock_script.h"
#include "random.h"
#include <stdio.h>
#include <stdlib.h>

enum { LONGEST = 40000, GUARD = 64, SCRIPTS = 10000, MARK = 0xA5 };

static uint64_t state;
static uint8_t script[GUARD + LONGEST + 8 + GUARD], copy[sizeof script];
static uint8_t answers[GUARD + LONGEST / RECORD + 8 + GUARD];
static unsigned long legal, refused, bad;

static void fault(const char *what, size_t length) {
    bad++;
    printf("length %zu: %s\n", length, what);
}

static int marked(const uint8_t *from, const uint8_t *to) {
    while (from < to)
        if (*from++ != MARK)
            return 0;
    return 1;
}

/* Both calls on blocks of the heap; a length of 0 takes a block of one byte. */
static void in_blocks(size_t length, size_t records, uint32_t wanted) {
    uint8_t *lent = malloc(length + (length == 0)), *lent_answers = malloc(records + (records == 0));
    if (lent == NULL || lent_answers == NULL)
        exit(2);
    memcpy(lent, script + GUARD, length);
    if (clock_script_check(lent, length) != wanted || clock_script_run(lent, length, lent_answers, records) != wanted)
        fault("the calls on blocks differ", length);
    if (wanted == 0 && memcmp(lent_answers, answers + GUARD, records) != 0)
        fault("the answers in a block differ", length);
    free(lent);
    free(lent_answers);
}

/* Makes both calls on the `length` bytes that stand after the guard. */
static void both(size_t length) {
    size_t records = length / RECORD;
    memset(script, MARK, GUARD);
    memset(script + GUARD + length, MARK, GUARD);
    memcpy(copy, script, GUARD + length + GUARD);
    memset(answers, MARK, sizeof answers);
    uint32_t checked = clock_script_check(script + GUARD, length);
    uint32_t ran = clock_script_run(script + GUARD, length, answers + GUARD, records);
    uint32_t number = checked >> 16;
    if (ran != checked)
        fault("the run and the check differ", length);
    if (checked != 0 && (number < 13 || number > 19 || number == 15))
        fault("a number of no refusal", length);
    if (memcmp(script, copy, GUARD + length + GUARD) != 0)
        fault("a byte of the script or its guard changed", length);
    if (!marked(answers, answers + GUARD) || !marked(answers + GUARD + records, answers + sizeof answers))
        fault("a guard byte of the answers changed", length);
    if (checked != 0 && !marked(answers + GUARD, answers + GUARD + records))
        fault("a refusal wrote an answer", length);
    in_blocks(length, records, checked);
    /* One answer byte more or less than records. */
    size_t lent = next(&state) % 2 != 0 || records == 0 ? records + 1 : records - 1;
    memset(answers, MARK, sizeof answers);
    uint32_t other = clock_script_run(script + GUARD, length, answers + GUARD, lent);
    uint32_t wanted = number == 13 || number == 14 ? checked : 15 * 65536u;
    if (other != wanted || !marked(answers, answers + sizeof answers))
        fault("answers of another length", length);
    if (checked == 0)
        legal++;
    else
        refused++;
}

static void random_string(size_t length) {
    for (size_t i = 0; i < length; i += 8) {
        uint64_t bytes = next(&state);
        memcpy(script + GUARD + i, &bytes, 8);
    }
    both(length);
}

/* A script of any length, the longest past the limit, with up to two bytes damaged. */
static void damaged_script(void) {
    size_t most = next(&state) % 8 == 0 ? LONGEST / RECORD : 64;
    size_t records = next(&state) % most;
    random_script(script + GUARD, records, &state);
    size_t length = RECORD * records;
    for (uint64_t damage = next(&state) % 3; length > 0 && damage > 0; damage--) {
        size_t place = next(&state) % length;
        script[GUARD + place] = (uint8_t)next(&state);
    }
    both(length);
}

int main(int count, char **words) {
    size_t step = count > 1 ? strtoul(words[1], NULL, 10) : 1;
    uint64_t seed = count > 2 ? strtoull(words[2], NULL, 10) : 3231;
    if (step == 0 || seed == 0) {
        puts("usage: strings [STEP [SEED]], neither 0");
        return 2;
    }
    state = seed;
    for (size_t length = 0; length <= LONGEST; length += step)
        random_string(length);
    for (size_t i = 0; i < SCRIPTS; i += step)
        damaged_script();
    printf("strings: seed %llu, %lu strings, %lu legal, %lu refused, %lu bad\n", (unsigned long long)seed, legal + refused,
           legal, refused, bad);
    return bad != 0 || legal == 0 || refused == 0;
}
