/* Texts and pieces about as many as panel_print copies from memory of its own (256 bytes, 64 pieces); beyond, it writes them by a second pass.
   Formats that are text alone, which it copies at once, of lengths about its blocks and of the longest. */
#include <stdio.h>
#include <string.h>

#include "cases.h"
#include "count.h"
#include "rows.h"
#include "runs.h"

static uint8_t packed[MOST_ROW];
static size_t packed_length;

static void pack_seven(void)
{
    static struct row row;
    row.count = 1;
    row.kind[0] = 3;
    row.value[0] = 7;
    packed_length = pack(&row, packed);
}

/* Whether the text is a count of groups, each of spaces and the digit 7 to that width. */
static int is_sevens(size_t groups, size_t width)
{
    for (size_t i = 0; i < groups * width; i++)
        if (exact_text[i] != (i % width == width - 1 ? '7' : ' '))
            return 0;
    return 1;
}

static void try_plain_text(size_t n)
{
    static uint8_t format[MOST_FORMAT];
    memset(format, 'x', n);
    struct panel_printed m = try_case(format, n, packed, packed_length);
    verdict(is_print(m, 0, 0, n, 1) && memcmp(exact_text, format, n) == 0, "plain text");
}

static void try_width(size_t n)
{
    char format[16];
    int length = snprintf(format, sizeof format, "%%%zud", n);
    struct panel_printed m = try_case((const uint8_t *)format, (size_t)length, packed, packed_length);
    verdict(is_print(m, 0, 0, n, 1) && is_sevens(1, n), "a wide column");
}

/* Columns of a width, so many of them. */
static void try_columns(size_t count, size_t width)
{
    static char format[MOST_FORMAT];
    size_t length = 0;
    for (size_t i = 0; i < count; i++)
        length += (size_t)sprintf(format + length, "%%1$%zud", width);
    struct panel_printed m = try_case((const uint8_t *)format, length, packed, packed_length);
    verdict(is_print(m, 0, 0, count * width, count) && is_sevens(count, width), "columns");
}

void try_copied(void)
{
    pack_seven();
    for (size_t n = 1; n <= 70; n++)
        try_plain_text(n);
    for (size_t n = 4093; n <= 4096; n++)
        try_plain_text(n);
    for (size_t n = 252; n <= 260; n++) {
        try_plain_text(n);
        try_width(n);
    }
    for (size_t count = 62; count <= 66; count++)
        for (size_t width = 1; width <= 5; width++)
            try_columns(count, width);
}
