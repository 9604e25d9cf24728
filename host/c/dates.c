/* Tests of the two calls on dates from C: document 01's examples, and every day both ways. */
#include "clock_dates.h"
#include "expect.h"

static uint64_t refusal(uint64_t number) { return number << 56; }

static uint64_t packed(uint64_t year, uint64_t month, uint64_t day, uint64_t hour, uint64_t minute, uint64_t second) {
    return year << 40 | month << 32 | day << 24 | hour << 16 | minute << 8 | second;
}

static uint64_t seconds_of(uint64_t date) {
    return clock_seconds_from_date((uint16_t)(date >> 40), (uint8_t)(date >> 32), (uint8_t)(date >> 24), (uint8_t)(date >> 16),
                                   (uint8_t)(date >> 8), (uint8_t)date);
}

int main(void) {
    expect("0", clock_date_from_seconds(0), packed(2000, 1, 1, 0, 0, 0));
    expect("5,097,600", clock_date_from_seconds(5097600), packed(2000, 2, 29, 0, 0, 0));
    expect("820,540,800", clock_date_from_seconds(820540800), packed(2026, 1, 1, 0, 0, 0));
    expect("6,311,433,599", clock_date_from_seconds(6311433599), packed(2199, 12, 31, 23, 59, 59));
    expect("6,311,433,600", clock_date_from_seconds(6311433600), refusal(8));
    expect("2^64 - 1", clock_date_from_seconds(UINT64_MAX), refusal(8));
    expect("1999", clock_seconds_from_date(1999, 12, 31, 23, 59, 59), refusal(1));
    expect("2200", clock_seconds_from_date(2200, 1, 1, 0, 0, 0), refusal(1));
    expect("month 13", clock_seconds_from_date(2000, 13, 0, 24, 60, 60), refusal(2));
    expect("2100-02-29", clock_seconds_from_date(2100, 2, 29, 0, 0, 0), refusal(3));
    expect("hour 24", clock_seconds_from_date(2000, 2, 29, 24, 0, 0), refusal(4));
    expect("minute 60", clock_seconds_from_date(2000, 2, 29, 23, 60, 0), refusal(5));
    expect("second 60", clock_seconds_from_date(2000, 2, 29, 23, 59, 60), refusal(6));
    for (uint64_t day = 0; day < 73049; day++) {
        uint64_t seconds = day * 86400 + day % 86400;
        expect("there and back", seconds_of(clock_date_from_seconds(seconds)), seconds);
    }
    return counted("dates");
}
