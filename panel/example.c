/* A host program: prints a log of rows with one format, cuts single columns out by the ends, prints floats and moments, and shows every refusal of
   checking, measuring and printing. */
#include <inttypes.h>
#include <stdio.h>
#include <stdlib.h>
#include <string.h>

#include "panel.h"

/* ---- Packing a row ---- */

enum { INT8 = 1, INT16 = 2, INT32 = 3, INT64 = 4, FLOAT64 = 5, BOOLEAN = 6, TEXT = 7, TIME = 8, NULL_MARK = 128 };

enum { MOST_VALUES = 64, MOST_TEXT = 32768, MOST_ROW = 6 + 9 * MOST_VALUES + MOST_TEXT };

struct row {
    size_t values, text;
    uint8_t kind[MOST_VALUES];
    uint64_t value[MOST_VALUES];
    uint8_t area[MOST_TEXT];
};

static void add(struct row *row, uint8_t kind, uint64_t value)
{
    if (row->values == MOST_VALUES) {
        fputs("too many values\n", stderr);
        exit(2);
    }
    row->kind[row->values] = kind;
    row->value[row->values] = value;
    row->values++;
}

static void add_integer(struct row *row, uint8_t kind, int64_t value)
{
    add(row, kind, (uint64_t)value);
}

static void add_null(struct row *row, uint8_t kind)
{
    add(row, kind | NULL_MARK, 0);
}

static void add_float(struct row *row, double value)
{
    uint64_t bits;
    memcpy(&bits, &value, sizeof bits);
    add(row, FLOAT64, bits);
}

static void add_boolean(struct row *row, int value)
{
    add(row, BOOLEAN, value != 0);
}

static void add_text(struct row *row, const char *text)
{
    size_t length = strlen(text);
    if (length > MOST_TEXT - row->text) {
        fputs("too much text\n", stderr);
        exit(2);
    }
    memcpy(row->area + row->text, text, length);
    add(row, TEXT, (uint64_t)row->text | (uint64_t)length << 32);
    row->text += length;
}

static uint8_t *put_number(uint8_t *to, uint64_t number, int bytes)
{
    for (int i = 0; i < bytes; i++)
        *to++ = (uint8_t)(number >> 8 * i);
    return to;
}

/* Returns the packed row's length. */
static size_t pack(const struct row *row, uint8_t *packed)
{
    uint8_t *to = packed;
    to = put_number(to, row->values, 2);
    to = put_number(to, row->text, 4);
    memcpy(to, row->kind, row->values);
    to += row->values;
    for (size_t i = 0; i < row->values; i++)
        to = put_number(to, row->value[i], 8);
    memcpy(to, row->area, row->text);
    return (size_t)(to - packed) + row->text;
}

/* ---- Columns ---- */

static const uint8_t *bytes(const char *text)
{
    return (const uint8_t *)text;
}

/* End k; the text before the first piece ends at 0. */
static uint32_t end_of(const uint8_t *ends, int k)
{
    if (k < 0)
        return 0;
    const uint8_t *end = ends + 4 * k;
    return end[0] | (uint32_t)end[1] << 8 | (uint32_t)end[2] << 16 | (uint32_t)end[3] << 24;
}

static void show_column(const uint8_t *out, const uint8_t *ends, int k)
{
    uint32_t from = end_of(ends, k - 1);
    printf("[%.*s]", (int)(end_of(ends, k) - from), (const char *)out + from);
}

/* ---- The log ---- */

static const char log_format[] = "gate %d pos %08x delay %,d open %b name %-12s%n";
static const uint8_t log_kinds[] = { INT16, INT32, INT64, BOOLEAN, TEXT };

/* Pieces of log_format, counted from 0. The even ones up to 8 are its plain text, 10 is the `%n`. */
enum { GATE = 1, POS = 3, DELAY = 5, OPEN = 7, NAME = 9 };

struct gate {
    int number;
    int position;
    int64_t delay;
    int open;
    const char *name;
};

static const struct gate gates[] = {
    { 1, 0x2a, 1500, 1, "north weir" },
    { 2, -1, -1234567, 0, "Vejle \303\245" },
    { 17, 2147483647, 999, 1, "lock" },
    { 318, 0, INT64_MIN, 0, "a name over twelve" },
    { -4, 4096, 0, 1, "" },
};

enum { GATES = sizeof gates / sizeof gates[0], ROWS = GATES + 1 };

static size_t pack_gate(const struct gate *gate, uint8_t *packed)
{
    struct row row = { 0 };
    add_integer(&row, INT16, gate->number);
    add_integer(&row, INT32, gate->position);
    add_integer(&row, INT64, gate->delay);
    add_boolean(&row, gate->open);
    add_text(&row, gate->name);
    return pack(&row, packed);
}

/* A gate of which only number and name are known. */
static size_t pack_silent(uint8_t *packed)
{
    struct row row = { 0 };
    add_integer(&row, INT16, 9);
    add_null(&row, INT32);
    add_null(&row, INT64);
    add_null(&row, BOOLEAN);
    add_text(&row, "silent");
    return pack(&row, packed);
}

/* Measures, lends exactly the room that the text needs, and prints. The caller frees both slices. */
static struct panel_printed print_row(const char *format, const uint8_t *row, size_t row_length, uint8_t **out, uint8_t **ends)
{
    size_t length = strlen(format);
    struct panel_printed need = panel_measure(bytes(format), length, row, row_length);
    *out = malloc(need.length + 1);
    *ends = malloc(4 * need.pieces + 1);
    if (*out == NULL || *ends == NULL) {
        fputs("out of memory\n", stderr);
        exit(2);
    }
    return panel_print(bytes(format), length, row, row_length, *out, need.length, *ends, 4 * need.pieces);
}

static void show_log(void)
{
    static uint8_t packed[MOST_ROW];
    uint8_t *out[ROWS], *ends[ROWS];

    struct panel_checked checked = panel_check(bytes(log_format), strlen(log_format), log_kinds, sizeof log_kinds);
    printf("format %s\nnumber %" PRIu64 ", %" PRIu64 " pieces, largest argument %" PRIu64 "\n\n", log_format,
           checked.number, checked.pieces, checked.largest);

    for (int i = 0; i < ROWS; i++) {
        size_t length = i < GATES ? pack_gate(&gates[i], packed) : pack_silent(packed);
        struct panel_printed printed = print_row(log_format, packed, length, &out[i], &ends[i]);
        if (printed.number != 0) {
            printf("refused: %" PRIu64 " at %" PRIu64 "\n", printed.number, printed.place);
            exit(1);
        }
        fwrite(out[i], 1, printed.length, stdout);
    }

    printf("\ncolumns pos, delay and name\n");
    for (int i = 0; i < ROWS; i++) {
        show_column(out[i], ends[i], POS);
        show_column(out[i], ends[i], DELAY);
        show_column(out[i], ends[i], NAME);
        printf("\n");
        free(out[i]);
        free(ends[i]);
    }
}

static void show_floats(void)
{
    static const double values[] = { 1.0, -0.15625, 1.96875, 0x1p-1074, 0.0 };
    static const char format[] = "%a %<.1a %<012a";
    static uint8_t packed[MOST_ROW];

    printf("\nformat %s\n", format);
    for (size_t i = 0; i < sizeof values / sizeof values[0]; i++) {
        struct row row = { 0 };
        uint8_t *out, *ends;
        add_float(&row, values[i]);
        struct panel_printed printed = print_row(format, packed, pack(&row, packed), &out, &ends);
        printf("%" PRIu64 " pieces ", printed.pieces);
        for (int k = 0; k < (int)printed.pieces; k += 2)
            show_column(out, ends, k);
        printf("\n");
        free(out);
        free(ends);
    }
}

/* ---- Moments ---- */

/* A moment is its nanoseconds since 1970. A negative number of seconds takes no nanoseconds beside: printing refuses those (18). */
static void add_time(struct row *row, int64_t seconds, int32_t nanoseconds)
{
    add_integer(row, TIME, seconds * 1000000000 + nanoseconds);
}

static void show_moments(void)
{
    static const struct {
        int64_t seconds;
        int32_t nanoseconds;
    } moments[] = { { 1794726309, 25000000 }, { 951868799, 999999999 }, { 0, 0 }, { -1, 0 }, { -9223372036, 0 }, { 9223372036, 854775807 } };
    static const char format[] = "%tF %<tT.%<tN %<ta %<Tb day %<tj, %<tr";
    uint8_t packed[6 + 9];

    printf("\nformat %s\n", format);
    for (size_t i = 0; i < sizeof moments / sizeof moments[0]; i++) {
        struct row row = { 0 };
        uint8_t *out, *ends;
        add_time(&row, moments[i].seconds, moments[i].nanoseconds);
        struct panel_printed printed = print_row(format, packed, pack(&row, packed), &out, &ends);
        printf("%.*s\n", (int)printed.length, (const char *)out);
        free(out);
        free(ends);
    }
}

/* ---- Refusals ---- */

/* Bytes outside ASCII's printable ones as \xHH; a long format by its length. */
static void show_format(const char *format)
{
    if (strlen(format) > 40) {
        printf("a format of %zu bytes", strlen(format));
        return;
    }
    for (const uint8_t *b = bytes(format); *b != 0; b++)
        if (*b >= 32 && *b < 127)
            putchar(*b);
        else
            printf("\\x%02X", *b);
}

/* What printing a row of one value answers, with room for 64 bytes and 16 ends. */
static void show_print_of(uint8_t kind, const char *format, int64_t value)
{
    uint8_t packed[6 + 9], out[64], ends[64];
    struct row row = { 0 };
    add_integer(&row, kind, value);
    struct panel_printed r = panel_print(bytes(format), strlen(format), packed, pack(&row, packed), out, sizeof out, ends, sizeof ends);
    printf("%2" PRIu64 " at %-4" PRIu64 " print ", r.number, r.place);
    show_format(format);
    printf(" with value %" PRId64 "\n", value);
}

static void show_print(const char *format, int64_t value)
{
    show_print_of(INT32, format, value);
}

static void show_check(const char *format, const uint8_t *kinds, size_t count)
{
    struct panel_checked r = panel_check(bytes(format), strlen(format), kinds, count);
    printf("%2" PRIu64 " at %-4" PRIu64 " check ", r.number, r.place);
    show_format(format);
    printf(" with kinds");
    for (size_t i = 0; i < count; i++)
        printf(" %d", kinds[i]);
    printf("\n");
}

static void show_refusals(void)
{
    static const uint8_t no_kind[] = { INT32, 9 }, one_text[] = { TEXT }, one_wide[] = { INT64 };
    static char over_long[4097 + 1], many_pieces[2 * 513 + 1];

    memset(over_long, 'x', 4097);
    for (int i = 0; i < 513; i++)
        memcpy(many_pieces + 2 * i, "%%", 2);

    printf("\nrefusals: number, place, call\n");
    show_print(over_long, 0);
    show_print("%d \377", 0);
    show_check("%d", no_kind, sizeof no_kind);
    show_print("no %<d", 0);
    show_print("no %$d", 0);
    show_print("no %2147483648d", 0);
    show_print("%d and %d", 0);
    show_print("no %-05d", 0);
    show_print("no %+ d", 0);
    show_print("no %5", 0);
    show_check("at %tq", one_wide, sizeof one_wide);
    show_check("at %d", one_text, sizeof one_text);
    show_print(many_pieces, 0);
    show_print("%d", INT64_C(2147483648)); /* outside Int32: the row breaks its layout */
    show_print("no %a", 0);
    show_print("no %c", 0xD800);
    show_print("%65d", 0);
    show_print_of(TIME, "at %tT", -1);
}

int main(void)
{
    show_log();
    show_floats();
    show_moments();
    show_refusals();
    return 0;
}
