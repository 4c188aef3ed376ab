/* Prints the rows of a log one behind the other. panel_print makes every byte of a line; here a line end is put behind it, and of a column
   the rest is left out. */
#include <string.h>

#include "panel.h"

enum { END = 4, MOST_PIECES = 512, FULL = 17 };

/* Where printing stands: the row that is next, where it lies, and how many bytes of the output are used. */
struct place {
    uint64_t row, at, used;
};

static size_t number_of(const uint8_t *end)
{
    return end[0] | (size_t)end[1] << 8 | (size_t)end[2] << 16 | (size_t)end[3] << 24;
}

/* Prints a row with a line end, of `column`, counted from 1, only the bytes, or the whole line if that is 0. The length is that of what is kept.
   The room is for the whole line and its end, also where a column is kept; without room for the end this says 17 and does not ask the library. */
static struct panel_printed print_row(const uint8_t *fmt, size_t fmt_len, const uint8_t *row, size_t row_len, uint8_t *out, size_t out_len, size_t column)
{
    uint8_t ends[END + END * MOST_PIECES]; /* the end before the first piece, 0, and those that the library writes */
    if (out_len == 0) {
        return (struct panel_printed){.number = FULL};
    }
    struct panel_printed printed = panel_print(fmt, fmt_len, row, row_len, out, out_len - 1, ends + END, sizeof ends - END);
    if (printed.number != 0) {
        return printed;
    }
    if (column != 0) {
        memset(ends, 0, END);
        size_t start = number_of(ends + END * (column - 1)), end = number_of(ends + END * column);
        memmove(out, out + start, end - start);
        printed.length = end - start;
    }
    out[printed.length++] = '\n';
    return printed;
}

/* Prints rows, which lie end to end, from `place` on. Stops at the first that is refused or does not fit (17), with the answer to it, which is the
   library's but for 17 where no room is left; `place` is then there. The format must have the column. */
struct panel_printed rows_print(const uint8_t *fmt, size_t fmt_len, const uint8_t *rows, const uint32_t *lengths, size_t count,
                                uint8_t *out, size_t out_len, size_t column, struct place *place)
{
    struct panel_printed printed = {.number = 0};
    while (place->row < count) {
        size_t length = lengths[place->row];
        printed = print_row(fmt, fmt_len, rows + place->at, length, out + place->used, out_len - place->used, column);
        if (printed.number != 0) {
            break;
        }
        place->row++;
        place->at += length;
        place->used += printed.length;
    }
    return printed;
}
