/* Rows of values, and their packing. One value and one byte of text more than allowed fit in, to be refused. */
#ifndef GUARD_ROWS_H
#define GUARD_ROWS_H

#include <stddef.h>
#include <stdint.h>

#include "sizes.h"

struct row {
    size_t count, area_length;
    uint8_t kind[MOST_KINDS + 1];
    uint64_t value[MOST_KINDS + 1];
    uint8_t area[MOST_AREA + 1];
};

/* Returns the length. */
size_t pack(const struct row *row, uint8_t *packed);

#endif
