/* Dates and seconds since 2000-01-01T00:00:00, of the years 2000 to 2199: the two calls for a host in C or C++.
 *
 * An answer below 2^56 is the date or the seconds. Any other is a refusal, its number times 2^56:
 *   1 to 6  year, month, day, hour, minute, second out of range, the first of them
 *   8       seconds of 6,311,433,600 or more
 *
 * Both take any numbers, and no pointer. Both are reentrant: they keep no global state, allocate nothing and call no
 * function outside the archive, so any number of threads may call them at once. They take less than CLOCK_DATES_STACK
 * bytes of stack.
 *
 * The archive is for x86-64 Linux, on processors of x86-64-v2; `tools/build dates_host` makes it. A host is compiled, in the
 * folder of the repository, by
 *   gcc -Ihost host/c/dates.c target/staticlib/libdates_host.a -o target/dates
 * where dates.c stands for the host. pkg-config and CMake find both paths, from any folder:
 *   PKG_CONFIG_PATH=$REPOSITORY/host pkg-config --cflags --libs clock_dates
 *   find_package(clock REQUIRED COMPONENTS dates PATHS ${REPOSITORY}/host NO_DEFAULT_PATH)
 *   target_link_libraries(app PRIVATE clock::dates)
 */
#ifndef CLOCK_DATES_H
#define CLOCK_DATES_H

#include <stdint.h>

#ifdef __cplusplus
extern "C" {
#endif

/* Measured on a painted stack (host/c/stack.c): 56 bytes, the caller's frame among them; 24 by the code's own frames. */
#define CLOCK_DATES_STACK 128

/* The date of a number of seconds, as one number: year * 2^40 + month * 2^32 + day * 2^24 + hour * 2^16 + minute * 2^8 +
 * second. */
uint64_t clock_date_from_seconds(uint64_t seconds);

/* The seconds of a date. */
uint64_t clock_seconds_from_date(uint16_t year, uint8_t month, uint8_t day, uint8_t hour, uint8_t minute, uint8_t second);

#ifdef __cplusplus
}
#endif

#endif
