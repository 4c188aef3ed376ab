#include <stdio.h>

#include "count.h"

uint64_t passed, failed;

static const uint8_t *case_format, *case_row;
static size_t case_format_length, case_row_length;

void set_case(const uint8_t *format, size_t format_length, const uint8_t *row, size_t row_length)
{
    case_format = format;
    case_format_length = format_length;
    case_row = row;
    case_row_length = row_length;
}

static void show_bytes(const char *name, const uint8_t *from, size_t length)
{
    fprintf(stderr, "  %s, %zu bytes:", name, length);
    for (size_t i = 0; i < length && i < 200; i++)
        fprintf(stderr, " %02x", from[i]);
    fprintf(stderr, length > 200 ? " ...\n" : "\n");
}

void verdict(int good, const char *call)
{
    if (good) {
        passed++;
        return;
    }
    failed++;
    if (failed <= 20) {
        fprintf(stderr, "failed: %s\n", call);
        show_bytes("format", case_format, case_format_length);
        show_bytes("row or kinds", case_row, case_row_length);
    }
}
