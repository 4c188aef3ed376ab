/* A host program: gates join and leave a live list, and after each change those present are printed in columns of as many bytes as the longest entry. */
#include <inttypes.h>
#include <stdio.h>
#include <string.h>

#include "panel.h"

/* ---- The gates: the list keeps no rows, so the host does ---- */

struct gate {
    uint32_t number;
    int32_t position;
    const char *name; /* at most MOST_NAME bytes */
    int present;
};

static struct gate gates[] = {
    { 7, 250, "north weir", 0 },
    { 12, -1234567, "lock", 0 },
    { 318, 40, "a name that is long", 0 },
};

enum { GATES = sizeof gates / sizeof gates[0], INT32 = 3, INT64 = 4, TEXT = 7, MOST_NAME = 40, MOST_ROW = 6 + 3 * 9 + MOST_NAME };

static uint8_t *put_number(uint8_t *to, uint64_t number, int bytes)
{
    for (int i = 0; i < bytes; i++)
        *to++ = (uint8_t)(number >> 8 * i);
    return to;
}

/* Three values, number, position and name. Returns the row's length. */
static size_t pack(const struct gate *gate, uint8_t *row)
{
    static const uint8_t kinds[] = { INT64, INT32, TEXT };
    size_t name = strlen(gate->name);
    uint8_t *to = put_number(put_number(row, sizeof kinds, 2), name, 4);
    memcpy(to, kinds, sizeof kinds);
    to = put_number(to + sizeof kinds, gate->number, 8);
    to = put_number(to, (uint64_t)(int64_t)gate->position, 8);
    to = put_number(to, (uint64_t)name << 32, 8);
    memcpy(to, gate->name, name);
    return (size_t)(to - row) + name;
}

/* ---- The columns ---- */

static const char format_text[] = "gate %d at %,d mm: %s";
static const uint8_t *const format = (const uint8_t *)format_text;
static const size_t format_length = sizeof format_text - 1;

/* The pieces of the format; numbers stand to the right. */
static const int right[] = { 0, 1, 0, 1, 0, 0 };

enum { MOST_PIECES = sizeof right / sizeof right[0], MOST_LINE = 200 };

static uint32_t end_of(const uint8_t *ends, int k)
{
    if (k < 0)
        return 0;
    const uint8_t *end = ends + 4 * k;
    return end[0] | (uint32_t)end[1] << 8 | (uint32_t)end[2] << 16 | (uint32_t)end[3] << 24;
}

/* Prints a gate with each piece padded to its column. */
static void show_gate(const struct gate *gate, const uint64_t *columns)
{
    uint8_t row[MOST_ROW], out[MOST_LINE], ends[4 * MOST_PIECES];
    struct panel_printed p = panel_print(format, format_length, row, pack(gate, row), out, sizeof out, ends, sizeof ends);
    printf("  ");
    for (int k = 0; k < (int)p.pieces; k++) {
        uint32_t from = end_of(ends, k - 1), length = end_of(ends, k) - from;
        int spaces = (int)(columns[k] - length);
        printf("%*s%.*s%*s", right[k] ? spaces : 0, "", (int)length, (const char *)out + from, right[k] ? 0 : spaces, "");
    }
    printf("|\n");
}

static void show_list(const struct panel_list *list)
{
    uint64_t columns[PANEL_MOST_PIECES];
    panel_list_lengths(list, columns);
    printf("  columns of");
    for (int k = 0; k < MOST_PIECES; k++)
        printf(" %" PRIu64, columns[k]);
    printf(" bytes\n");
    for (int i = 0; i < GATES; i++)
        if (gates[i].present)
            show_gate(&gates[i], columns);
}

/* ---- Changes ---- */

static void join(struct panel_list *list, struct gate *gate)
{
    uint8_t row[MOST_ROW];
    struct panel_changed r = panel_list_join(list, gate->number, format, format_length, row, pack(gate, row));
    printf("gate %" PRIu32 " joins: %" PRIu64 "\n", gate->number, r.number);
    if (r.number == 0)
        gate->present = 1;
    show_list(list);
}

static void leave(struct panel_list *list, struct gate *gate)
{
    struct panel_changed r = panel_list_leave(list, gate->number);
    printf("gate %" PRIu32 " leaves: %" PRIu64 "\n", gate->number, r.number);
    if (r.number == 0)
        gate->present = 0;
    show_list(list);
}

/* Fills the list up with gates that are not shown. */
static void join_until_refused(struct panel_list *list)
{
    struct gate gate = { 1000, 0, "", 0 };
    uint8_t row[MOST_ROW];
    struct panel_changed r = { 0, 0 };
    while (r.number == 0) {
        gate.number++;
        r = panel_list_join(list, gate.number, format, format_length, row, pack(&gate, row));
    }
    printf("gates 1001 to %" PRIu32 " join; gate %" PRIu32 " joins: %" PRIu64 "\n", gate.number - 1, gate.number, r.number);
    show_list(list);
}

int main(void)
{
    static struct panel_list list; /* too large for some stacks */
    panel_list_empty(&list);
    join(&list, &gates[0]);
    join(&list, &gates[1]);
    join(&list, &gates[2]);
    join(&list, &gates[2]);
    leave(&list, &gates[2]);
    leave(&list, &gates[2]);
    leave(&list, &gates[1]);
    join(&list, &gates[2]);
    join_until_refused(&list);
    return 0;
}
