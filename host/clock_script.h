/* Scripts for the model of the DS3231 clock chip: the two calls for a host in C or C++.
 *
 * A script is records of 16 bytes, with no header:
 *   bytes 0 to 7    the instant in nanoseconds since power-on, lowest byte first
 *   byte 8          the kind: 0 START, 1 WRITE, 2 READ, 3 STOP
 *   byte 9          the value: START address times 2 plus read bit, WRITE the byte, READ 1 or 0 for the master's
 *                   acknowledge, STOP 0
 *   bytes 10 to 15  zero
 * At most 2,048 records (32,768 bytes); none is legal. Instants never fall from a record to the next.
 *
 * Both calls return 0, or the number of the refusal times 65,536 plus the record, counted from 0:
 *   13  the length is not a multiple of 16        (record 0)
 *   14  over 32,768 bytes                         (record 0)
 *   15  not one answer byte a record              (record 0; the run alone)
 *   16  a kind above 3
 *   17  a READ above 1, or a STOP that is not 0
 *   18  bytes 10 to 15 not zero
 *   19  an instant below the previous record's
 * in the order 14, 13, 15, then record by record 16 to 19.
 *
 * Neither gives the diagnostics of the events: the program clockrun prints them.
 *
 * Both end for every input, read no byte outside `script`, and write no byte outside `answers`. The two slices may not
 * overlap. Where a length is 0 its pointer may be null, as the data() of an empty std::vector may be.
 *
 * Both are reentrant: they keep no global state, allocate nothing and call no function outside the archive, so any number
 * of threads may call them at once. They take less than CLOCK_SCRIPT_STACK bytes of stack.
 *
 * The archive is for x86-64 Linux, on processors of x86-64-v2; `tools/build script` makes it. A host is compiled, in the folder
 * of the repository, by
 *   gcc -Ihost host/c/run.c target/staticlib/libscript.a -o target/run
 * where run.c stands for the host. pkg-config and CMake find both paths, from any folder:
 *   PKG_CONFIG_PATH=$REPOSITORY/host pkg-config --cflags --libs clock_script
 *   find_package(clock REQUIRED COMPONENTS script PATHS ${REPOSITORY}/host NO_DEFAULT_PATH)
 *   target_link_libraries(app PRIVATE clock::script)
 */
#ifndef CLOCK_SCRIPT_H
#define CLOCK_SCRIPT_H

#include <stddef.h>
#include <stdint.h>

#ifdef __cplusplus
extern "C" {
#endif

/* Measured on a painted stack (host/c/stack.c): 360 bytes, the caller's frame among them; 328 by the code's own frames. */
#define CLOCK_SCRIPT_STACK 512

/* Checks the `length` bytes at `script`. */
uint32_t clock_script_check(const uint8_t *script, size_t length);

/* Checks the whole script, then runs it on a chip powered on at 2026-01-01T00:00:00, oscillator not stopped, 100 quarters
 * of a degree, conversions of 200 ms, and writes one answer byte an event: START and WRITE 1 or 0, READ the byte, STOP 0.
 * `answers_length` is the number of records. A refusal writes nothing. */
uint32_t clock_script_run(const uint8_t *script, size_t length, uint8_t *answers, size_t answers_length);

#ifdef __cplusplus
}
#endif

#endif
