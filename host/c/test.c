/* Tests of the two calls on scripts from C. */
#include "clock_script.h"
#include "expect.h"
#include "record.h"

enum { START, WRITE, READ, STOP };

static uint32_t refusal(uint32_t number, uint32_t record) { return number * 65536 + record; }

static uint8_t script[RECORD * (MOST + 1)];
static uint8_t answers[MOST + 3];

/* The check and the run refuse alike, and no answer byte is written. */
static void both(const char *what, size_t length, uint32_t wanted) {
    size_t records = length / RECORD;
    expect(what, clock_script_check(script, length), wanted);
    memset(answers, 0xA5, sizeof answers);
    expect(what, clock_script_run(script, length, answers + 1, records), wanted);
    uint32_t touched = 0;
    for (size_t i = 0; i < sizeof answers; i++)
        touched += answers[i] != 0xA5;
    expect(what, touched, 0);
}

static void fill(size_t records) {
    for (size_t i = 0; i < records; i++)
        put(script, i, 5, STOP, 0);
}

static void the_case(void) {
    static const uint8_t wanted[8] = {1, 1, 1, 1, 0, 1, 1, 0};
    put(script, 0, 1000000000, START, 0xD0);
    put(script, 1, 1000100000, WRITE, 0x02);
    put(script, 2, 1000200000, WRITE, 0x61);
    put(script, 3, 1000300000, WRITE, 0x08);
    put(script, 4, 1000400000, STOP, 0);
    put(script, 5, 1500000000, START, 0xD1);
    put(script, 6, 1500100000, READ, 0);
    put(script, 7, 1500200000, STOP, 0);
    memset(answers, 0xA5, sizeof answers);
    expect("case: check", clock_script_check(script, 8 * RECORD), 0);
    expect("case: run", clock_script_run(script, 8 * RECORD, answers + 1, 8), 0);
    expect("case: answers", (uint32_t)memcmp(answers + 1, wanted, 8), 0);
    expect("case: guards", answers[0] == 0xA5 && answers[9] == 0xA5, 1);
    for (size_t lent = 0; lent < 12; lent++) {
        memset(answers, 0xA5, sizeof answers);
        uint32_t got = clock_script_run(script, 8 * RECORD, answers + 1, lent);
        expect("case: answers lent", got, lent == 8 ? 0 : refusal(15, 0));
        expect("case: guards of lent", answers[0] == 0xA5 && answers[lent + 1] == 0xA5, 1);
    }
}

int main(void) {
    both("no record", 0, 0);
    the_case();
    fill(MOST + 1);
    expect("2,048 records: check", clock_script_check(script, RECORD * MOST), 0);
    expect("2,048 records: run", clock_script_run(script, RECORD * MOST, answers, MOST), 0);
    both("2,049 records", RECORD * (MOST + 1), refusal(14, 0));
    both("2,048 records and a byte", RECORD * MOST + 1, refusal(14, 0));
    both("15 bytes", 15, refusal(13, 0));
    both("17 bytes", 17, refusal(13, 0));
    static const size_t places[] = {0, 1, MOST - 1};
    for (size_t p = 0; p < 3; p++) {
        uint32_t i = (uint32_t)places[p];
        fill(MOST);
        put(script, i, 5, 4, 0);
        both("kind 4", RECORD * MOST, refusal(16, i));
        put(script, i, 5, READ, 2);
        both("READ 2", RECORD * MOST, refusal(17, i));
        put(script, i, 5, STOP, 1);
        both("STOP 1", RECORD * MOST, refusal(17, i));
        for (int k = 10; k < RECORD; k++) {
            put(script, i, 5, STOP, 0);
            script[RECORD * i + k] = 1;
            both("padding", RECORD * MOST, refusal(18, i));
        }
        put(script, i, 4, STOP, 0);
        if (i == 0)
            expect("first instant", clock_script_check(script, RECORD * MOST), 0);
        else
            both("falling instant", RECORD * MOST, refusal(19, i));
    }
    return counted("test");
}
