/* The calls of a live list that are timed. */
#include <time.h>

#include "panel.h"

/* Weak, so that a library without lists can be timed too. The library is one object, which panel_print brings in. */
#pragma weak panel_list_empty
#pragma weak panel_list_join
#pragma weak panel_list_leave
#pragma weak panel_list_lengths

int bench_has_lists(void)
{
    return panel_list_empty != NULL && panel_list_join != NULL && panel_list_leave != NULL && panel_list_lengths != NULL;
}

static uint64_t now(void)
{
    struct timespec t;
    clock_gettime(CLOCK_MONOTONIC, &t);
    return (uint64_t)t.tv_sec * 1000000000 + (uint64_t)t.tv_nsec;
}

size_t bench_list_words(void)
{
    return PANEL_LIST_WORDS;
}

/* Makes a list of gates 1 and up, so many of them, with this row each. Returns a sum over the answers. */
uint64_t bench_list_fill(struct panel_list *list, uint32_t gates, const uint8_t *fmt, size_t fmt_len, const uint8_t *row, size_t row_len)
{
    uint64_t sum = 0;
    panel_list_empty(list);
    for (uint32_t gate = 1; gate <= gates; gate++)
        sum += panel_list_join(list, gate, fmt, fmt_len, row, row_len).number;
    return sum;
}

/* Gate 0 joins and leaves, so many times each. A list takes a gate only once, so no loop has joins alone or leaves alone that all find it
   with as many gates. Hence the clock is read around each call: ns[0] is the time of the joins, ns[1] that of the leaves, and ns[2] is
   that of as many readings with nothing between, to be taken off both. Returns a sum over the answers. */
uint64_t bench_list_changes(struct panel_list *list, const uint8_t *fmt, size_t fmt_len, const uint8_t *row, size_t row_len, uint64_t calls,
                            uint64_t *ns)
{
    uint64_t sum = 0, joins = 0, leaves = 0, clock = 0;
    for (uint64_t i = 0; i < calls; i++) {
        uint64_t before = now();
        struct panel_changed joined = panel_list_join(list, 0, fmt, fmt_len, row, row_len);
        uint64_t between = now();
        struct panel_changed left = panel_list_leave(list, 0);
        uint64_t behind = now();
        clock += now() - behind;
        joins += between - before;
        leaves += behind - between;
        sum += joined.number + joined.place + left.number + left.place;
    }
    ns[0] = joins;
    ns[1] = leaves;
    ns[2] = clock;
    return sum;
}

/* Returns a sum over the first and the last length, so that every call counts. */
uint64_t bench_list_lengths(const struct panel_list *list, uint64_t *lengths, uint64_t calls)
{
    uint64_t sum = 0;
    for (uint64_t i = 0; i < calls; i++) {
        panel_list_lengths(list, lengths);
        sum += lengths[0] + lengths[PANEL_MOST_PIECES - 1];
    }
    return sum;
}
