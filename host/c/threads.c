/* All four calls on several threads at once: each thread gets the answers that its own script and dates have alone. */
#include "clock_dates.h"
#include "clock_script.h"
#include "expect.h"
#include "random.h"
#include <pthread.h>

enum { THREADS = 4, ROUNDS = 2000 };

struct work {
    uint8_t script[RECORD * MOST], answers[MOST], wanted[MOST];
    uint64_t seconds;
    unsigned long differ;
};

static struct work works[THREADS];
static pthread_barrier_t begin;

static uint64_t there_and_back(uint64_t seconds) {
    uint64_t date = clock_date_from_seconds(seconds);
    return clock_seconds_from_date((uint16_t)(date >> 40), (uint8_t)(date >> 32), (uint8_t)(date >> 24), (uint8_t)(date >> 16),
                                   (uint8_t)(date >> 8), (uint8_t)date);
}

static void *done(void *the_work) {
    struct work *work = the_work;
    pthread_barrier_wait(&begin);
    for (int i = 0; i < ROUNDS; i++) {
        memset(work->answers, 0xA5, MOST);
        work->differ += clock_script_check(work->script, sizeof work->script) != 0;
        work->differ += clock_script_run(work->script, sizeof work->script, work->answers, MOST) != 0;
        work->differ += memcmp(work->answers, work->wanted, MOST) != 0;
        work->differ += there_and_back(work->seconds) != work->seconds;
    }
    return NULL;
}

int main(void) {
    pthread_t threads[THREADS];
    uint64_t state = 3231;
    for (int t = 0; t < THREADS; t++) {
        random_script(works[t].script, MOST, &state);
        works[t].seconds = next(&state) % 6311433600;
        expect("the run alone", clock_script_run(works[t].script, sizeof works[t].script, works[t].wanted, MOST), 0);
    }
    expect("two threads' answers differ", memcmp(works[0].wanted, works[1].wanted, MOST) != 0, 1);
    int made = pthread_barrier_init(&begin, NULL, THREADS);
    for (int t = 0; made == 0 && t < THREADS; t++)
        made = pthread_create(&threads[t], NULL, done, &works[t]);
    if (made != 0) {
        puts("threads: no thread could be had");
        return 2;
    }
    for (int t = 0; t < THREADS; t++) {
        pthread_join(threads[t], NULL);
        expect("answers that differ", works[t].differ, 0);
    }
    return counted("threads");
}
