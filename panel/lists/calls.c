#include <inttypes.h>
#include <signal.h>
#include <stdarg.h>
#include <stdio.h>
#include <stdlib.h>
#include <string.h>
#include <unistd.h>

#include "count.h"
#include "draw.h"
#include "lists.h"
#include "sizes.h"

struct bytes text(const char *from)
{
    return (struct bytes){ (const uint8_t *)from, strlen(from) };
}

/* ---- The call at hand, for messages ---- */

enum side side;
uint64_t calls, seen[NUMBERS + 1];

static char call_name[60];

__attribute__((format(printf, 1, 2))) static void begin_call(const char *format, ...)
{
    va_list words;
    va_start(words, format);
    vsnprintf(call_name, sizeof call_name, format, words);
    va_end(words);
    calls++;
    alarm(60);
}

__attribute__((noreturn, format(printf, 1, 2))) static void differs(const char *format, ...)
{
    char what[200], all[400];
    va_list words;
    va_start(words, format);
    vsnprintf(what, sizeof what, format, words);
    va_end(words);
    snprintf(all, sizeof all, "lists, call %" PRIu64 ", page %s, %s: %s", calls, side == AT_END ? "behind" : "before", call_name, what);
    verdict(0, all);
    exit(1);
}

static void on_alarm(int number)
{
    (void)number;
    differs("does not return");
}

/* ---- Calls: a fault jumps back here ---- */

static void call_empty(const struct slice *l)
{
    if (sigsetjmp(before_call, 0) != 0)
        differs("touches what it is not lent");
    panel_list_empty((struct panel_list *)l->at);
}

static struct panel_changed call_join(const struct slice *l, uint32_t gate, const struct slice *f, const struct slice *w)
{
    if (sigsetjmp(before_call, 0) != 0)
        differs("touches what it is not lent");
    return panel_list_join((struct panel_list *)l->at, gate, f->at, f->length, w->at, w->length);
}

static struct panel_changed call_leave(const struct slice *l, uint32_t gate)
{
    if (sigsetjmp(before_call, 0) != 0)
        differs("touches what it is not lent");
    return panel_list_leave((struct panel_list *)l->at, gate);
}

static void call_lengths(const struct slice *l, const struct slice *to)
{
    if (sigsetjmp(before_call, 0) != 0)
        differs("touches what it is not lent");
    panel_list_lengths((const struct panel_list *)l->at, (uint64_t *)to->at);
}

/* ---- The list, lent for each call ---- */

static struct yard list_yard, format_yard, row_yard, lengths_yard;

struct panel_list list;

void make_calls_ready(void)
{
    list_yard = make_yard(sizeof list + 64);
    format_yard = make_yard(MOST_FORMAT + 64);
    row_yard = make_yard(MOST_ROW + 64);
    lengths_yard = make_yard(8 * PIECES + 64);
    catch_faults();
    signal(SIGALRM, on_alarm);
}

static struct slice lend_list(void)
{
    return lend_content(&list_yard, (const uint8_t *)&list, sizeof list, side);
}

static void take_back(const struct slice *l)
{
    if (!kept_past(l, l->length))
        differs("writes beside the list");
    memcpy(&list, l->at, sizeof list);
}

static struct panel_changed changed(const struct slice *l, struct panel_changed r)
{
    if (r.number != 0 && !kept(l))
        differs("refuses with %" PRIu64 " and changes the list", r.number);
    take_back(l);
    return r;
}

void try_empty(void)
{
    struct slice l = lend_list();
    begin_call("emptying");
    call_empty(&l);
    take_back(&l);
}

struct panel_changed try_join(uint32_t gate, struct bytes format, struct bytes row)
{
    struct slice l = lend_list();
    struct slice f = lend_content(&format_yard, format.at, format.length, side);
    struct slice w = lend_content(&row_yard, row.at, row.length, side);
    set_case(format.at, format.length, row.at, row.length); /* for a leave too, which has none of its own */
    begin_call("join of gate %" PRIu32, gate);
    struct panel_changed r = call_join(&l, gate, &f, &w);
    if (!kept(&f) || !kept(&w))
        differs("writes to format or row");
    return changed(&l, r);
}

struct panel_changed try_join_of_null(uint32_t gate)
{
    const struct slice nothing = { NULL, 0, NULL, 0, NULL };
    struct slice l = lend_list();
    begin_call("join with null pointers");
    return changed(&l, call_join(&l, gate, &nothing, &nothing));
}

/* Other bytes stand where format and row were: a leave must not need them. */
struct panel_changed try_leave(uint32_t gate)
{
    struct slice l = lend_list();
    lend_pattern(&format_yard, MOST_FORMAT, side);
    lend_pattern(&row_yard, MOST_ROW, side);
    begin_call("leave of gate %" PRIu32, gate);
    return changed(&l, call_leave(&l, gate));
}

void try_lengths(uint64_t *lengths)
{
    struct slice l = lend_list();
    struct slice to = lend_pattern(&lengths_yard, 8 * PIECES, side);
    calls++;
    call_lengths(&l, &to);
    if (!kept(&l))
        differs("asking for the lengths then changes the list");
    if (!kept_past(&to, to.length))
        differs("asking for the lengths then writes beside them");
    memcpy(lengths, to.at, 8 * PIECES);
}

/* ---- Comparing ---- */

void compare_lengths(const uint64_t *want)
{
    uint64_t lengths[PIECES];
    try_lengths(lengths);
    for (size_t k = 0; k < PIECES; k++)
        if (lengths[k] != want[k])
            differs("then length %zu is %" PRIu64 ", not %" PRIu64, k, lengths[k], want[k]);
}

void compare_answer(struct panel_changed r, struct panel_changed want)
{
    if (r.number != want.number || r.place != want.place)
        differs("answers %" PRIu64 " at %" PRIu64 ", not %" PRIu64 " at %" PRIu64, r.number, r.place, want.number, want.place);
    seen[r.number]++;
}

/* ---- Beginning ---- */

void fill_with_random(void)
{
    for (size_t i = 0; i < PANEL_LIST_WORDS; i++)
        list.words[i] = (uint32_t)draw();
}

void begin_list(void)
{
    static const uint64_t none[PIECES];
    set_case(NULL, 0, NULL, 0);
    fill_with_random();
    try_empty();
    compare_lengths(none);
}
