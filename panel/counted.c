/* Prints one value, for counting the instructions that it takes. Arguments: FORMAT KIND BITS, the value's 64 bits in hexadecimal. */
#include <stdio.h>
#include <stdlib.h>
#include <string.h>

#include "panel.h"

int main(int count, char **words)
{
    if (count != 4) {
        fputs("arguments: FORMAT KIND BITS\n", stderr);
        return 2;
    }
    const char *fmt = words[1];
    uint8_t row[15] = {1, 0, 0, 0, 0, 0, (uint8_t)atoi(words[2])};
    uint64_t bits = strtoull(words[3], NULL, 16);
    for (int i = 0; i < 8; i++) {
        row[7 + i] = (uint8_t)(bits >> 8 * i);
    }
    uint8_t out[64], ends[4];
    struct panel_printed p =
        panel_print((const uint8_t *)fmt, strlen(fmt), row, sizeof row, out, sizeof out, ends, sizeof ends);
    if (p.number != 0) {
        fprintf(stderr, "refused with %u\n", (unsigned)p.number);
        return 1;
    }
    fwrite(out, 1, (size_t)p.length, stdout);
    return 0;
}
