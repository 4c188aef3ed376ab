#include <string.h>

#include "cases.h"
#include "lists.h"

enum { GATES = PANEL_MOST_GATES };

/* ---- Gates and their rows ---- */

static struct {
    uint32_t gate;
    size_t length;
    uint8_t row[MOST_ROW];
} present[GATES];

static size_t count;

/* Where the gate stands, or the count. */
static size_t place_of(uint32_t gate)
{
    size_t i = 0;
    while (i < count && present[i].gate != gate)
        i++;
    return i;
}

int model_has(uint32_t gate)
{
    return place_of(gate) < count;
}

void model_empty(void)
{
    count = 0;
}

struct panel_changed model_join(uint32_t gate, struct bytes format, struct bytes row)
{
    if (model_has(gate))
        return (struct panel_changed){ 19, 0 };
    if (count == GATES)
        return (struct panel_changed){ 21, 0 };
    struct panel_printed m = panel_measure(format.at, format.length, row.at, row.length);
    if (m.number == 0) {
        present[count].gate = gate;
        present[count].length = row.length;
        memcpy(present[count].row, row.at, row.length);
        count++;
    }
    return (struct panel_changed){ m.number, m.place };
}

struct panel_changed model_leave(uint32_t gate)
{
    size_t place = place_of(gate);
    if (place == count)
        return (struct panel_changed){ 20, 0 };
    present[place] = present[--count];
    return (struct panel_changed){ 0, 0 };
}

/* ---- Lengths ---- */

/* The end of the piece of an accepted format that starts at `at`. */
static size_t piece_end(struct bytes format, size_t at)
{
    const uint8_t *f = format.at;
    if (f[at] != '%') {
        while (at < format.length && f[at] != '%')
            at++;
        return at;
    }
    do
        at++;
    while (memchr("$<#-+ ,(.0123456789", f[at], 19) != NULL);
    return at + (f[at] == 't' || f[at] == 'T') + 1;
}

/* The end of each piece: by printing, or where there is no room for the text, by measuring the format as far as the piece. Returns their number. */
static size_t ends_of(struct bytes format, const uint8_t *row, size_t row_length, uint64_t *ends)
{
    static uint8_t out[MOST_OUT], printed[MOST_ENDS];
    struct panel_printed p = panel_print(format.at, format.length, row, row_length, out, sizeof out, printed, sizeof printed);
    size_t k = 0;
    if (p.number == 0) {
        for (; k < p.pieces; k++)
            ends[k] = end_at(printed, k);
        return k;
    }
    for (size_t at = 0; at < format.length; k++) {
        at = piece_end(format, at);
        ends[k] = panel_measure(format.at, at, row, row_length).length;
    }
    return k;
}

void model_lengths(struct bytes format, uint64_t *lengths)
{
    uint64_t ends[PIECES];
    memset(lengths, 0, 8 * PIECES);
    for (size_t i = 0; i < count; i++) {
        size_t pieces = ends_of(format, present[i].row, present[i].length, ends);
        for (size_t k = 0; k < pieces; k++) {
            uint64_t length = ends[k] - (k == 0 ? 0 : ends[k - 1]);
            if (lengths[k] < length)
                lengths[k] = length;
        }
    }
}
