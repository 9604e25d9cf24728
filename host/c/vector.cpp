// Vectors from C++, empty ones too: their data() may be null.
#include "clock_script.h"
#include "expect.h"
#include <vector>

using bytes = std::vector<uint8_t>;

static uint32_t run(const bytes &script, bytes &answers) {
    return clock_script_run(script.data(), script.size(), answers.data(), answers.size());
}

int main() {
    const bytes none, stop{5, 0, 0, 0, 0, 0, 0, 0, 3, 0, 0, 0, 0, 0, 0, 0};
    bytes no_answer, one_answer{0xA5};
    expect("check of null", clock_script_check(nullptr, 0), 0);
    expect("run of null into null", clock_script_run(nullptr, 0, nullptr, 0), 0);
    expect("check of none", clock_script_check(none.data(), none.size()), 0);
    expect("run of none into none", run(none, no_answer), 0);
    expect("run of none into one", run(none, one_answer), 15 * 65536u);
    expect("run of one into none", run(stop, no_answer), 15 * 65536u);
    expect("an answer not written", one_answer[0], 0xA5);
    expect("run of one into one", run(stop, one_answer), 0);
    expect("the answer", one_answer[0], 0);
    return counted("vector");
}
