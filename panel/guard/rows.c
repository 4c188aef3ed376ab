#include <string.h>

#include "rows.h"

static uint8_t *put_number(uint8_t *to, uint64_t number, int bytes)
{
    for (int i = 0; i < bytes; i++)
        *to++ = (uint8_t)(number >> 8 * i);
    return to;
}

size_t pack(const struct row *row, uint8_t *packed)
{
    uint8_t *to = put_number(put_number(packed, row->count, 2), row->area_length, 4);
    memcpy(to, row->kind, row->count);
    to += row->count;
    for (size_t i = 0; i < row->count; i++)
        to = put_number(to, row->value[i], 8);
    memcpy(to, row->area, row->area_length);
    return (size_t)(to - packed) + row->area_length;
}
