/* Runs the script on standard input and prints its answers, two hexadecimal digits a line; or the refusal.
 * Exits 0, 1 where the script is refused, 2 where it has an argument, or cannot read the input or write the output. */
#include "clock_script.h"
#include <stdio.h>

/* One byte more than a script may have, so that a longer input is refused. */
static uint8_t script[32769], answers[2048];

static int failed(const char *where) {
    perror(where);
    return 2;
}

int main(int count, char **words) {
    if (count > 1) {
        fprintf(stderr, "usage: %s <SCRIPT (it takes no argument)\n", words[0]);
        return 2;
    }
    size_t length = fread(script, 1, sizeof script, stdin);
    if (ferror(stdin))
        return failed("standard input");
    size_t records = length / 16;
    uint32_t refusal = clock_script_run(script, length, answers, records);
    if (refusal != 0)
        printf("refused %u %u\n", refusal >> 16, refusal & 0xFFFF);
    else
        for (size_t i = 0; i < records; i++)
            printf("%02X\n", answers[i]);
    if (fflush(stdout) != 0 || ferror(stdout))
        return failed("standard output");
    return refusal != 0;
}
