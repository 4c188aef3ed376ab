/* Calls whose answers and lengths are written out here: neither a model nor measuring says what is right. */
#include <string.h>

#include "lists.h"
#include "rows.h"

/* ---- Steps ---- */

/* A row of one value of this kind and one text. */
static struct bytes known_row(uint8_t kind, uint64_t value, const char *word)
{
    static struct row row;
    static uint8_t packed[MOST_ROW];
    size_t length = strlen(word);
    row.count = 2;
    row.kind[0] = kind;
    row.value[0] = value;
    row.kind[1] = 7;
    row.value[1] = (uint64_t)length << 32;
    memcpy(row.area, word, length);
    row.area_length = length;
    return (struct bytes){ packed, pack(&row, packed) };
}

/* A join or a leave, its answer, and the first lengths behind it; all others are 0. Refusals here are at place 0. */
struct step {
    int joins;
    uint32_t gate;
    uint64_t value;
    const char *word;
    uint64_t number, lengths[4];
};

/* All steps of a list have one format, and values of one kind. */
static void take(const char *format, uint8_t kind, const struct step *s)
{
    uint64_t want[PIECES] = { s->lengths[0], s->lengths[1], s->lengths[2], s->lengths[3] };
    struct panel_changed r = s->joins ? try_join(s->gate, text(format), known_row(kind, s->value, s->word)) : try_leave(s->gate);
    compare_answer(r, (struct panel_changed){ s->number, 0 });
    compare_lengths(want);
}

static void take_all(const char *format, uint8_t kind, const struct step *steps, size_t count)
{
    begin_list();
    for (size_t i = 0; i < count; i++)
        take(format, kind, &steps[i]);
}

/* ---- Plain steps: "%d %s%n" ---- */

static const struct step plain[] = {
    { 0, 0, 0, "", 20, { 0, 0, 0, 0 } },
    { 1, 7, 5, "north", 0, { 1, 1, 5, 1 } },
    { 1, 0, -1234, "\303\251", 0, { 5, 1, 5, 1 } },
    { 1, 4294967295, 42, "", 0, { 5, 1, 5, 1 } },
    { 1, 0, 123456789, "longer", 19, { 5, 1, 5, 1 } },
    /* Present, and measuring refuses the row too: 19 comes first. */
    { 1, 0, 1, "\377", 19, { 5, 1, 5, 1 } },
    { 0, 0, 0, "", 0, { 2, 1, 5, 1 } },
    { 0, 0, 0, "", 20, { 2, 1, 5, 1 } },
    { 0, 7, 0, "", 0, { 2, 1, 0, 1 } },
    { 1, 0, 999, "as before", 0, { 3, 1, 9, 1 } },
    { 1, 8, INT64_MIN, "\377", 14, { 3, 1, 9, 1 } },
    { 0, 4294967295, 0, "", 0, { 3, 1, 9, 1 } },
    { 0, 0, 0, "", 0, { 0, 0, 0, 0 } },
};

/* Numbers that differ in one bit are different gates: 7, and 7 with bit 8, 16 or 31. */
static const struct step alike[] = {
    { 1, 7, 1, "north", 0, { 1, 1, 5, 1 } },
    { 0, 7 + (1 << 8), 0, "", 20, { 1, 1, 5, 1 } },
    { 0, 7 + (1 << 16), 0, "", 20, { 1, 1, 5, 1 } },
    { 0, 7 + (UINT32_C(1) << 31), 0, "", 20, { 1, 1, 5, 1 } },
    { 1, 7 + (1 << 8), 22, "", 0, { 2, 1, 5, 1 } },
    { 1, 7 + (1 << 16), 333, "", 0, { 3, 1, 5, 1 } },
    { 1, 7 + (UINT32_C(1) << 31), 4444, "", 0, { 4, 1, 5, 1 } },
    { 0, 7 + (UINT32_C(1) << 31), 0, "", 0, { 3, 1, 5, 1 } },
    { 0, 7 + (UINT32_C(1) << 31), 0, "", 20, { 3, 1, 5, 1 } },
    { 0, 7, 0, "", 0, { 3, 1, 0, 1 } },
    { 0, 7 + (1 << 16), 0, "", 0, { 2, 1, 0, 1 } },
    { 0, 7 + (1 << 8), 0, "", 0, { 0, 0, 0, 0 } },
};

/* With 128 gates present: 19 before 21, and both before what measuring refuses. One leaves, and there is one place again. */
static const struct step at_full[] = {
    { 1, 1000, 1, "north", 21, { 3, 1, 4, 1 } },
    { 1, 1000, 1, "\377", 21, { 3, 1, 4, 1 } },
    { 1, 64, 1, "north", 19, { 3, 1, 4, 1 } },
    { 1, 64, 1, "\377", 19, { 3, 1, 4, 1 } },
    { 0, 1000, 0, "", 20, { 3, 1, 4, 1 } },
    { 0, 64, 0, "", 0, { 3, 1, 4, 1 } },
    { 1, 1000, 1, "\377", 14, { 3, 1, 4, 1 } },
    { 1, 1000, 1, "north", 0, { 3, 1, 5, 1 } },
    { 1, 64, 1, "north", 21, { 3, 1, 5, 1 } },
};

static void try_full(void)
{
    static const struct step next = { 1, 0, 100, "gate", 0, { 3, 1, 4, 1 } };
    begin_list();
    for (uint32_t gate = 0; gate < PANEL_MOST_GATES; gate++) {
        struct step s = next;
        s.gate = gate;
        take("%d %s%n", 4, &s);
    }
    for (size_t i = 0; i < sizeof at_full / sizeof at_full[0]; i++)
        take("%d %s%n", 4, &at_full[i]);
}

/* ---- Extremes ---- */

static char longest[MOST_AREA + 1];

/* Ends beyond 32 bits, and the longest text: "%1$2147483647d%1$2147483647x%1$-2147483647o%2$s". */
static const struct step far_ends[] = {
    { 1, 1, 1, longest, 0, { 2147483647, 2147483647, 2147483647, MOST_AREA } },
    { 1, 2, -1, "", 0, { 2147483647, 2147483647, 2147483647, MOST_AREA } },
    { 0, 1, 0, "", 0, { 2147483647, 2147483647, 2147483647, 0 } },
    { 0, 2, 0, "", 0, { 0, 0, 0, 0 } },
};

/* Bits of infinity, of 0x1.8p-1000 and of that below zero: with p digits behind the point 8, p + 10 and p + 11 bytes. */
#define INFINITE 0x7FF0000000000000
#define SMALL 0x0178000000000000
#define SMALL_BELOW 0x8178000000000000

/* Lengths on both sides of 2^31, where a length of 32 bits would turn negative if it had a sign: "%.2147483637a%<.2147483647a%2$s". The
   longest leaves first from behind the others, then from before them. */
static const struct step long_pieces[] = {
    { 1, 1, INFINITE, "x", 0, { 8, 8, 1, 0 } },
    { 1, 2, SMALL, "xx", 0, { 2147483647, 2147483657, 2, 0 } },
    { 1, 3, SMALL_BELOW, "", 0, { 2147483648, 2147483658, 2, 0 } },
    { 0, 3, 0, "", 0, { 2147483647, 2147483657, 2, 0 } },
    { 0, 2, 0, "", 0, { 8, 8, 1, 0 } },
    { 1, 3, SMALL_BELOW, "", 0, { 2147483648, 2147483658, 1, 0 } },
    { 0, 1, 0, "", 0, { 2147483648, 2147483658, 0, 0 } },
    { 1, 2, SMALL, "xx", 0, { 2147483648, 2147483658, 2, 0 } },
    { 1, 1, INFINITE, "x", 0, { 2147483648, 2147483658, 2, 0 } },
    { 0, 3, 0, "", 0, { 2147483647, 2147483657, 2, 0 } },
    { 0, 2, 0, "", 0, { 8, 8, 1, 0 } },
    { 0, 1, 0, "", 0, { 0, 0, 0, 0 } },
};

static void try_null_pointers(void)
{
    static const uint64_t none[PIECES];
    begin_list();
    compare_answer(try_join_of_null(3), (struct panel_changed){ 14, 0 });
    compare_lengths(none);
    compare_answer(try_join(3, (struct bytes){ NULL, 0 }, known_row(4, 0, "")), (struct panel_changed){ 0, 0 });
    compare_lengths(none);
}

/* ---- All of them ---- */

#define TAKE_ALL(format, kind, steps) take_all(format, kind, steps, sizeof steps / sizeof steps[0])

void try_known(void)
{
    TAKE_ALL("%d %s%n", 4, plain);
    TAKE_ALL("%d %s%n", 4, alike);
    try_full();
    memset(longest, 'y', MOST_AREA);
    TAKE_ALL("%1$2147483647d%1$2147483647x%1$-2147483647o%2$s", 4, far_ends);
    TAKE_ALL("%.2147483637a%<.2147483647a%2$s", 5, long_pieces);
    try_null_pointers();
}
