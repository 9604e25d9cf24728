/* Null pointers with length 0, for the script, for the answers and for both. The calls decide there by the two lengths
 * alone, so every length up to LONGEST is tried. */
#include "clock_script.h"
#include "expect.h"
#include "record.h"

enum { LONGEST = 40000, MARK = 0xA5 };

static uint8_t bytes[LONGEST];

static uint32_t refusal(uint32_t number) { return number * 65536; }

/* What a run of `length` bytes into no answer gives. */
static uint32_t without_answers(size_t length) {
    if (length > RECORD * MOST)
        return refusal(14);
    if (length % RECORD != 0)
        return refusal(13);
    return length == 0 ? 0 : refusal(15);
}

int main(void) {
    memset(bytes, MARK, sizeof bytes);
    expect("check of none", clock_script_check(NULL, 0), 0);
    expect("run of none into none", clock_script_run(NULL, 0, NULL, 0), 0);
    for (size_t length = 0; length <= LONGEST; length++) {
        expect("run of none", clock_script_run(NULL, 0, bytes, length), length == 0 ? 0 : refusal(15));
        expect("run into none", clock_script_run(bytes, length, NULL, 0), without_answers(length));
    }
    uint32_t touched = 0;
    for (size_t i = 0; i < sizeof bytes; i++)
        touched += bytes[i] != MARK;
    expect("bytes touched", touched, 0);
    return counted("empty");
}
