/* How deep the calls go on the stack: a thread makes one call on a stack that was painted, and looks how much of the paint
 * is left. The thread's own frame counts with the call. */
#include "clock_dates.h"
#include "clock_script.h"
#include "expect.h"
#include "random.h"
#include <pthread.h>
#include <stdlib.h>

enum { STACK = 1 << 16, PAINT = 0xA5, ROUNDS = 1000, KNOWN = 4096 };

typedef void call(void);

/* What the calls are made on. */
static uint8_t script[RECORD * MOST], answers[MOST];
static size_t records;
static uint64_t number;
static volatile uint64_t answer;

static void check(void) { answer = clock_script_check(script, RECORD * records); }

static void run(void) { answer = clock_script_run(script, RECORD * records, answers, records); }

static void date(void) { answer = clock_date_from_seconds(number); }

static void seconds(void) {
    answer = clock_seconds_from_date((uint16_t)(2000 + number % 201), (uint8_t)(number >> 8) % 14, (uint8_t)(number >> 16) % 33,
                                     (uint8_t)(number >> 24) % 25, (uint8_t)(number >> 32) % 61, (uint8_t)(number >> 40) % 61);
}

/* Takes a known part of the stack. */
static void known(void) {
    volatile uint8_t taken[KNOWN];
    for (size_t i = 0; i < KNOWN; i++)
        taken[i] = (uint8_t)i;
    answer = taken[number % KNOWN];
}

static uint8_t stack[STACK] __attribute__((aligned(64)));
static size_t depth;

static void *make(void *the_call) {
    const uint8_t *top = __builtin_frame_address(0), *low = stack;
    (*(call **)the_call)();
    while (*low == PAINT)
        low++;
    depth = (size_t)(top - low);
    return NULL;
}

/* How deep a call goes. */
static size_t depth_of(call *made) {
    pthread_t thread;
    pthread_attr_t attributes;
    memset(stack, PAINT, STACK);
    if (pthread_attr_init(&attributes) != 0 || pthread_attr_setstack(&attributes, stack, STACK) != 0 ||
        pthread_create(&thread, &attributes, make, &made) != 0 || pthread_join(thread, NULL) != 0) {
        puts("stack: no thread could be had");
        exit(2);
    }
    pthread_attr_destroy(&attributes);
    return depth;
}

static void deeper(size_t *deepest, call *made) {
    size_t found = depth_of(made);
    *deepest = found > *deepest ? found : *deepest;
}

int main(void) {
    size_t of_check = 0, of_run = 0, of_date = 0, of_seconds = 0, of_known = depth_of(known);
    uint64_t state = 3231;
    for (int i = 0; i < ROUNDS; i++) {
        records = i == 0 ? MOST : next(&state) % 64;
        random_script(script, records, &state);
        expect("a legal script", clock_script_check(script, RECORD * records), 0);
        number = next(&state) >> (i % 64);
        deeper(&of_check, check);
        deeper(&of_run, run);
        deeper(&of_date, date);
        deeper(&of_seconds, seconds);
    }
    printf("stack: check %zu, run %zu, date %zu, seconds %zu bytes\n", of_check, of_run, of_date, of_seconds);
    expect("the known depth", of_known >= KNOWN && of_known < KNOWN + 256, 1);
    expect("check in CLOCK_SCRIPT_STACK", of_check > 0 && of_check <= CLOCK_SCRIPT_STACK, 1);
    expect("run in CLOCK_SCRIPT_STACK", of_run > 0 && of_run <= CLOCK_SCRIPT_STACK, 1);
    expect("date in CLOCK_DATES_STACK", of_date > 0 && of_date <= CLOCK_DATES_STACK, 1);
    expect("seconds in CLOCK_DATES_STACK", of_seconds > 0 && of_seconds <= CLOCK_DATES_STACK, 1);
    return counted("stack");
}
