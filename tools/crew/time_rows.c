/* The time that panel_print takes for rows: standard input has each row behind its length in 4 bytes; the argument is the format.
   Writes the milliseconds of the best of ten runs. */
#include <stdio.h>
#include <stdlib.h>
#include <string.h>
#include <time.h>

#include "panel.h"

enum { MOST_INPUT = 1 << 26, MOST_OUTPUT = 1 << 26, ENDS = 4 * 512, RUNS = 10 };

static uint8_t input[MOST_INPUT], output[MOST_OUTPUT], ends[ENDS];

static double run(const uint8_t *format, size_t format_len, size_t input_len)
{
    struct timespec begun, ended;
    clock_gettime(CLOCK_MONOTONIC, &begun);
    size_t used = 0;
    for (size_t at = 0; at < input_len;) {
        uint32_t row_len;
        memcpy(&row_len, input + at, sizeof row_len);
        at += sizeof row_len;
        struct panel_printed p = panel_print(format, format_len, input + at, row_len, output + used, MOST_OUTPUT - used - 1, ends, ENDS);
        if (p.number != 0) {
            fprintf(stderr, "refused: %u\n", (unsigned)p.number);
            exit(1);
        }
        used += p.length;
        output[used++] = '\n';
        at += row_len;
    }
    clock_gettime(CLOCK_MONOTONIC, &ended);
    return (double)(ended.tv_sec - begun.tv_sec) * 1e3 + (double)(ended.tv_nsec - begun.tv_nsec) / 1e6;
}

int main(int count, char **words)
{
    if (count != 2) {
        return 2;
    }
    size_t input_len = fread(input, 1, MOST_INPUT, stdin);
    double best = 0;
    for (int k = 0; k < RUNS; k++) {
        double took = run((const uint8_t *)words[1], strlen(words[1]), input_len);
        best = k == 0 || took < best ? took : best;
    }
    printf("%.2f\n", best);
    return 0;
}
