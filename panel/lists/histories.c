/*
 * The live list against a plain model, which keeps the rows and after each call prints them all again for the lengths. Answers and
 * all 512 lengths are compared after each call, and after a refusal every byte of the list.
 *
 * What is worked out afresh is which gates are present and the largest of their lengths. What measuring answers to a row, and the
 * texts, the model takes from this library's own measuring and printing: where those are wrong, the model is wrong with them. They
 * are compared elsewhere, with the original and with Java (tools/compare, tools/java). Known calls (known.c) go without the model.
 *
 * All that is lent lies beside an unmapped page, as in the guard test: every run is made with the page behind and with the page
 * before. Then any bytes stand in the list: calls must return, keep within what is lent, and change nothing where they refuse.
 *
 * The first argument, if any, is the seed. Prints one line with the number of calls and of each answer; the first difference is
 * named and ends the test with exit code 1.
 */
#include <inttypes.h>
#include <stdio.h>
#include <stdlib.h>
#include <string.h>

#include "draw.h"
#include "lists.h"
#include "rows.h"

/* ---- Calls beside the model ---- */

static void compare_join(uint32_t gate, struct bytes format, struct bytes row)
{
    compare_answer(try_join(gate, format, row), model_join(gate, format, row));
}

static void compare_leave(uint32_t gate)
{
    compare_answer(try_leave(gate), model_leave(gate));
}

static void compare_with_model(struct bytes format)
{
    uint64_t want[PIECES];
    model_lengths(format, want);
    compare_lengths(want);
}

/* ---- Random calls ---- */

/* The kind of a column: i an integer, s what %s prints, a what fits %a, b a Boolean, t a time, x a text, others any. */
static uint8_t column_kind(char column)
{
    switch (column) {
    case 'i':
        return (uint8_t)(1 + below(4));
    case 's':
        return (uint8_t)(one_in(2) ? 7 : 1 + below(4));
    case 'a':
        return (uint8_t)(one_in(8) ? 1 + below(4) : 5);
    case 'b':
        return 6;
    case 't':
        return 8;
    case 'x':
        return 7;
    }
    return (uint8_t)(1 + below(8));
}

/* Mostly the columns; sometimes another row, or a damaged one. */
static struct bytes draw_row(const char *columns)
{
    static struct row row;
    static uint8_t packed[MOST_ROW];
    if (one_in(40)) {
        random_row(&row);
    } else {
        row.count = row.area_length = 0;
        for (const char *c = columns; *c != 0; c++)
            add_random(&row, column_kind(*c));
    }
    size_t length = pack(&row, packed);
    return (struct bytes){ packed, one_in(20) ? damage(packed, length, sizeof packed) : length };
}

/* The n-th of 150 numbers, all different: each bit alone, all bits but one, none and all; the others agree with many in the low and
   with many in the high part. So a list that overlooks any bit takes two of them for one. */
static uint32_t gate_number(size_t n)
{
    if (n < 64)
        return n < 32 ? UINT32_C(1) << n : ~(UINT32_C(1) << (n - 32));
    if (n < 66)
        return n == 64 ? 0 : UINT32_MAX;
    return (uint32_t)(n % 13) << 28 | (uint32_t)(n / 13) << 8 | 7;
}

/* Mostly a number that is present, or one that is not, as wanted. */
static uint32_t draw_gate(int wants_present)
{
    uint32_t gate = 0;
    for (int tries = 0; tries < 3; tries++) {
        gate = gate_number(below(150));
        if (model_has(gate) == wants_present)
            break;
    }
    return gate;
}

/* Joins prevail for some time and leaves for some, so that the list is full and empty now and then. */
static void try_drawn(struct bytes format, const char *columns, size_t changes)
{
    static const size_t shares[] = { 15, 4, 12, 1, 8 };
    begin_list();
    model_empty();
    for (size_t i = 0; i < changes; i++) {
        int joins = below(16) < shares[i / 250 % 5];
        uint32_t gate = draw_gate(!joins);
        if (joins)
            compare_join(gate, format, draw_row(columns));
        else
            compare_leave(gate);
        compare_with_model(format);
    }
}

static const struct {
    const char *format, *columns;
    size_t changes;
} drawn[] = {
    { "%d %s%n", "is", 1500 },
    { "gate list%n100 %%", "??", 500 },
    { "", "?", 300 },
    { "%a|%<.3a|%c|%tc|%5$,d|%s", "aitsi", 1500 },
    { "%-12s%<.4S%b%<-7b%tA %<TB%(,12d%#x", "xbtii", 1000 },
    { "%1$2147483647d %1$-2147483647x|%2$2147483646s%2$s%1$d", "is", 400 },
    { "%.2147483637a|%<.2147483647a%2$s", "as", 400 },
    /* Refused, whatever the row. */
    { "%d \377", "i", 20 },
    { "x%<d", "i", 20 },
    { "xx%$d", "i", 20 },
    { "%.2147483648d", "i", 20 },
    { "%d%65$d", "i", 20 },
    { "%d %<-05d", "i", 20 },
    { "%d %<+ d", "i", 20 },
    { "%d %<q", "i", 20 },
    { "%d %<tq", "i", 20 },
    { "%tF %<d", "t", 20 },
};

/* As many elements as the largest index and 512 allow, over 64 values and in five letters; then one more, and a format one byte too long. */
static void try_long_formats(void)
{
    static char format[MOST_FORMAT + 2], columns[MOST_KINDS + 1];
    size_t length = 0;
    memset(columns, 'i', MOST_KINDS);
    for (unsigned i = 0; i < PIECES; i++)
        length += (size_t)sprintf(format + length, "%%%u$%c", 1 + i % MOST_KINDS, "dxoXsdxo"[i / MOST_KINDS]);
    try_drawn(text(format), columns, 500);
    strcpy(format + length, "%%");
    try_drawn(text(format), columns, 20);
    memset(format, 'x', MOST_FORMAT + 1);
    try_drawn(text(format), "i", 20);
}

/* A random format and rows of the kinds that it was made for. */
static void try_random_format(void)
{
    static const char column_of[] = "?iiiiabxt";
    static struct row row;
    static uint8_t format[MOST_FORMAT];
    char columns[MOST_KINDS + 1] = "";
    random_row(&row);
    for (size_t i = 0; i < row.count; i++)
        columns[i] = column_of[row.kind[i] & 127];
    size_t length = random_format(format, &row);
    if (one_in(8))
        length = damage(format, length, sizeof format);
    try_drawn((struct bytes){ format, length }, columns, 60);
}

static void try_all_drawn(void)
{
    for (size_t i = 0; i < sizeof drawn / sizeof drawn[0]; i++)
        try_drawn(text(drawn[i].format), drawn[i].columns, drawn[i].changes);
    try_long_formats();
    for (int i = 0; i < 50; i++)
        try_random_format();
}

/* ---- Any bytes in the list ---- */

static void alter(size_t words, size_t within)
{
    for (; words > 0; words--) {
        uint64_t word = draw();
        word >>= below(64);
        list.words[below(within)] = (uint32_t)word;
    }
}

enum { WAYS = 7, WAYS_OVER_ALL = 4 };

/* Ways that write over all words; then ways that alter the list that calls have left: a little of it, since what is nearly a list
   leads code further than what is none, or more. Most are near the front, where few words say most. */
static void put_any(size_t way)
{
    if (way == 0) {
        fill_with_random();
    } else if (way < 3) {
        memset(&list, way == 1 ? 0 : 0xFF, sizeof list);
    } else if (way == 3) {
        for (size_t i = 0; i < PANEL_LIST_WORDS; i++)
            list.words[i] = (uint32_t)below(200);
    } else if (way < 6) {
        alter(1 + below(3), way == 4 ? 2 : 700);
    } else {
        alter(1 + below(100), 700);
        alter(below(100), PANEL_LIST_WORDS);
    }
}

static uint64_t any_bytes;

/* What the calls answer is not compared. */
static void try_any_bytes(size_t rounds)
{
    uint64_t lengths[PIECES];
    for (size_t i = 0; i < rounds; i++) {
        if (i % WAYS >= WAYS_OVER_ALL)
            try_drawn(text("%d %s%n"), "is", 10 + below(190));
        put_any(i % WAYS);
        any_bytes -= calls;
        for (int n = 0; n < 8; n++) {
            uint32_t gate = one_in(4) ? draw_gate(0) : list.words[one_in(2) ? below(130) : below(PANEL_LIST_WORDS)];
            if (one_in(2))
                try_join(gate, text("%d %s%n"), draw_row("is"));
            else
                try_leave(gate);
            try_lengths(lengths);
        }
        any_bytes += calls;
    }
}

/* ---- The run ---- */

/* Every answer must have come. Returns the exit code. */
static int report(void)
{
    printf("lists: %" PRIu64 " calls as they must be, %" PRIu64 " with any bytes; answers", calls - any_bytes, any_bytes);
    for (size_t n = 0; n <= NUMBERS; n++)
        if (seen[n] > 0)
            printf(" %zu: %" PRIu64, n, seen[n]);
    printf("\n");
    for (size_t n = 0; n <= NUMBERS; n++)
        if (seen[n] == 0 && n != 3 && n != 17) {
            fprintf(stderr, "lists: no call was answered with %zu\n", n);
            return 1;
        }
    return 0;
}

int main(int argc, char **argv)
{
    uint64_t first = argc > 1 ? strtoull(argv[1], NULL, 10) : 1;
    make_calls_ready();
    for (int i = AT_END; i <= AT_START; i++) {
        side = i;
        seed(first + (uint64_t)i);
        try_known();
        try_all_drawn();
        try_any_bytes(150);
    }
    return report();
}
