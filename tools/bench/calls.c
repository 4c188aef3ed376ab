/* The calls that are timed in C: many of one kind in a loop. Each function returns a sum over the answers and the output, so that every call
   counts. */
#include <gnu/libc-version.h>
#include <stdio.h>
#include <time.h>

#include "panel.h"

/* Rows of row_len bytes each, one behind the other; next is where the one of the next call begins. */
struct rows {
    const uint8_t *bytes;
    size_t bytes_len;
    size_t row_len;
    size_t next;
};

/* The calls take the rows in turn, from where the calls before left off. */
uint64_t bench_print(const uint8_t *fmt, size_t fmt_len, struct rows *rows, uint8_t *out, size_t out_len, uint8_t *ends,
                     size_t ends_len, uint64_t calls)
{
    uint64_t sum = 0;
    size_t at = rows->next;
    for (uint64_t i = 0; i < calls; i++) {
        struct panel_printed p = panel_print(fmt, fmt_len, rows->bytes + at, rows->row_len, out, out_len, ends, ends_len);
        sum += p.number + p.length + p.pieces + out[0] + ends[0];
        at += rows->row_len;
        at = at == rows->bytes_len ? 0 : at;
    }
    rows->next = at;
    return sum;
}

uint64_t bench_measure(const uint8_t *fmt, size_t fmt_len, const uint8_t *row, size_t row_len, uint64_t calls)
{
    uint64_t sum = 0;
    for (uint64_t i = 0; i < calls; i++) {
        struct panel_printed p = panel_measure(fmt, fmt_len, row, row_len);
        sum += p.number + p.length + p.pieces;
    }
    return sum;
}

/* What a row hands to snprintf, a moment to strftime; the order is that of `Shape` in rows.rs. */
enum shape { NOTHING, INTEGER, FLOATING, TEXT, SHEET, FOUR, FIFTEEN, THIRTY, MOMENT };

static int print_moment(char *out, size_t out_len, const char *fmt, time_t t)
{
    struct tm parts;
    return (int)strftime(out, out_len, fmt, gmtime_r(&t, &parts));
}

/* n: the row's integers; f: its float; s: its text; t: the seconds of its moment. SHEET takes n[0] to n[2], "true" and s. */
uint64_t bench_snprintf(int shape, const char *fmt, const int *n, double f, const char *s, int64_t t, char *out, size_t out_len,
                        uint64_t calls)
{
    uint64_t sum = 0;
    for (uint64_t i = 0; i < calls; i++) {
        int length = -1;
        switch ((enum shape)shape) {
        case NOTHING:
            length = snprintf(out, out_len, fmt);
            break;
        case INTEGER:
            length = snprintf(out, out_len, fmt, n[0]);
            break;
        case FLOATING:
            length = snprintf(out, out_len, fmt, f);
            break;
        case TEXT:
            length = snprintf(out, out_len, fmt, s);
            break;
        case SHEET:
            length = snprintf(out, out_len, fmt, n[0], n[1], n[2], "true", s);
            break;
        case FOUR:
            length = snprintf(out, out_len, fmt, n[0], n[1], n[2], n[3]);
            break;
        case FIFTEEN:
            length = snprintf(out, out_len, fmt, n[0], n[1], n[2], n[3], n[4], n[5], n[6], n[7], n[8], n[9], n[10], n[11], n[12],
                              n[13], n[14]);
            break;
        case THIRTY:
            length = snprintf(out, out_len, fmt, n[0], n[1], n[2], n[3], n[4], n[5], n[6], n[7], n[8], n[9], n[10], n[11], n[12],
                              n[13], n[14], n[15], n[16], n[17], n[18], n[19], n[20], n[21], n[22], n[23], n[24], n[25], n[26],
                              n[27], n[28], n[29]);
            break;
        case MOMENT:
            length = print_moment(out, out_len, fmt, t);
            break;
        }
        sum += (uint64_t)length + (unsigned char)out[0];
    }
    return sum;
}

const char *bench_compiler(void)
{
    return __VERSION__;
}

const char *bench_c_library(void)
{
    return gnu_get_libc_version();
}
