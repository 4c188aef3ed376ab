#include <string.h>

#include "cases.h"
#include "count.h"
#include "rows.h"
#include "runs.h"

static const uint8_t empty_row[6];

/* ---- 1 and 13 at their limits ---- */

static void try_format_limit(void)
{
    static uint8_t format[MOST_FORMAT + 1];
    struct panel_printed m;
    memset(format, 'x', sizeof format);
    m = try_case(format, MOST_FORMAT, empty_row, 6);
    verdict(is_print(m, 0, 0, MOST_FORMAT, 1), "4,096 bytes of format");
    m = try_case(format, MOST_FORMAT + 1, empty_row, 6);
    verdict(is_print(m, 1, 0, 0, 0), "4,097 bytes of format");
    m = try_case(format, MOST_FORMAT + 1, empty_row, 5);
    verdict(is_print(m, 1, 0, 0, 0), "1 before 14");
}

static void try_piece_limit(void)
{
    static uint8_t format[1024 + 3];
    struct panel_printed m;
    memset(format, '%', sizeof format);
    m = try_case(format, 1024, empty_row, 6);
    verdict(is_print(m, 0, 0, 512, 512), "512 pieces");
    for (size_t extra = 1; extra <= 3; extra++) {
        m = try_case(format, 1024 + extra, empty_row, 6);
        verdict(is_print(m, 13, 1024, 0, 0), "513 pieces");
    }
    format[1024] = 'x';
    m = try_case(format, 1025, empty_row, 6);
    verdict(is_print(m, 13, 1024, 0, 0), "513 pieces, text last");
}

/* ---- 3: the count of kinds, and each kind ---- */

static void try_kind_counts(const uint8_t *format, const uint8_t *kinds, enum side side)
{
    struct panel_checked c;
    int good = try_check(format, 5, kinds, MOST_KINDS, side, &c);
    verdict(good && is_check(c, 0, 0, 1, 64), "64 kinds");
    good = try_check(format, 5, kinds, MOST_KINDS + 1, side, &c);
    verdict(good && is_check(c, 3, 0, 0, 0), "65 kinds");
    good = try_check(format, 5, kinds, MOST_KINDS - 1, side, &c);
    verdict(good && is_check(c, 7, 0, 0, 0), "63 kinds");
}

static void try_each_kind(const uint8_t *format, uint8_t *kinds, enum side side)
{
    struct panel_checked c;
    for (int kind = 0; kind < 256; kind++) {
        kinds[63] = (uint8_t)kind;
        int good = try_check(format, 5, kinds, MOST_KINDS, side, &c);
        if (kind >= 1 && kind <= 4)
            verdict(good && is_check(c, 0, 0, 1, 64), "a kind of integer");
        else if (kind >= 5 && kind <= 8)
            verdict(good && is_check(c, 12, 0, 0, 0), "%d of another kind");
        else
            verdict(good && is_check(c, 3, 0, 0, 0), "no kind");
    }
    kinds[63] = 3;
}

static void try_kind_limits(void)
{
    static uint8_t kinds[MOST_KINDS + 1];
    const uint8_t *format = (const uint8_t *)"%64$d";
    set_case(format, 5, kinds, MOST_KINDS);
    memset(kinds, 3, sizeof kinds);
    for (int side = AT_END; side <= AT_START; side++) {
        try_kind_counts(format, kinds, side);
        try_each_kind(format, kinds, side);
    }
}

/* ---- Rows of the wrong size ---- */

static struct row row;
static uint8_t packed[MOST_ROW + 9 + 1];

static void try_largest_row(void)
{
    const uint8_t *format = (const uint8_t *)"%64$s%s";
    struct panel_printed m;
    row.count = 64;
    row.area_length = MOST_AREA;
    memset(row.area, 'y', sizeof row.area);
    for (size_t i = 0; i < row.count; i++) {
        row.kind[i] = 7;
        row.value[i] = (uint64_t)(MOST_AREA - i) << 32 | i;
    }
    size_t length = pack(&row, packed);
    m = try_case(format, 7, packed, length);
    verdict(is_print(m, 0, 0, 2 * MOST_AREA - 63, 2), "the largest row");
    m = try_case(format, 7, packed, length - 1);
    verdict(is_print(m, 14, 0, 0, 0), "a row one byte short");
    m = try_case(format, 7, packed, length + 1);
    verdict(is_print(m, 14, 0, 0, 0), "a row one byte long");
}

static void expect_broken(const char *call)
{
    struct panel_printed m = try_case((const uint8_t *)"", 0, packed, pack(&row, packed));
    verdict(is_print(m, 14, 0, 0, 0), call);
}

/* Starts from the largest row. */
static void try_broken_rows(void)
{
    row.value[5]++;
    expect_broken("a part past the text area");
    row.value[5]--;
    row.count = 65;
    row.kind[64] = 3;
    row.area_length = 0;
    expect_broken("65 values");
    row.count = 0;
    row.area_length = MOST_AREA + 1;
    expect_broken("32,769 bytes of text");
    for (size_t i = 0; i < 6; i++) {
        struct panel_printed m = try_case((const uint8_t *)"x", 1, empty_row, i);
        verdict(is_print(m, 14, 0, 0, 0), "a row below 6 bytes");
    }
}

void try_limits(void)
{
    try_format_limit();
    try_piece_limit();
    try_kind_limits();
    try_largest_row();
    try_broken_rows();
}

/* ---- Null pointers ---- */

void try_null_pointers(void)
{
    uint8_t end[4] = { 1, 2, 3, 4 };
    static const uint8_t one[] = { 1, 0, 0, 0, 0, 0, 3, 7, 0, 0, 0, 0, 0, 0, 0 };
    static const uint8_t nothing[] = { 1, 0, 0, 0, 0, 0, 131, 0, 0, 0, 0, 0, 0, 0, 0 };
    set_case(NULL, 0, NULL, 0);
    if (sigsetjmp(before_call, 0) != 0) {
        verdict(0, "null pointers: fault");
        return;
    }
    verdict(is_check(panel_check(NULL, 0, NULL, 0), 0, 0, 0, 0), "check, all null");
    verdict(is_check(panel_check((const uint8_t *)"%d", 2, NULL, 0), 7, 0, 0, 0), "check, no kinds");
    verdict(is_check(panel_check(NULL, 0, (const uint8_t *)"\011", 1), 3, 0, 0, 0), "check, no format");
    verdict(is_print(panel_measure(NULL, 0, NULL, 0), 14, 0, 0, 0), "measure, all null");
    verdict(is_print(panel_measure(NULL, 0, empty_row, 6), 0, 0, 0, 0), "measure, no format");
    verdict(is_print(panel_measure((const uint8_t *)"%d", 2, NULL, 0), 14, 0, 0, 0), "measure, no row");
    verdict(is_print(panel_print(NULL, 0, NULL, 0, NULL, 0, NULL, 0), 14, 0, 0, 0), "print, all null");
    verdict(is_print(panel_print(NULL, 0, empty_row, 6, NULL, 0, NULL, 0), 0, 0, 0, 0), "print, no room, no format");
    verdict(is_print(panel_print((const uint8_t *)"%d", 2, one, sizeof one, NULL, 0, end, 4), 17, 0, 0, 0) && end[0] == 1, "print, no output");
    verdict(is_print(panel_print((const uint8_t *)"%.0d", 4, nothing, sizeof nothing, NULL, 0, NULL, 0), 17, 0, 0, 0), "print, no ends");
    verdict(is_print(panel_print((const uint8_t *)"%.0d", 4, nothing, sizeof nothing, NULL, 0, end, 4), 0, 0, 0, 1)
                && memcmp(end, "\0\0\0\0", 4) == 0,
            "print, empty text, no output");
}
