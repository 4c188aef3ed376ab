#include <string.h>

#include "cases.h"
#include "count.h"
#include "runs.h"

static struct yard format_yard, row_yard, out_yard, ends_yard;

void make_yards(void)
{
    format_yard = make_yard(MOST_FORMAT + 64);
    row_yard = make_yard(MOST_ROW + 64);
    out_yard = make_yard(MOST_OUT);
    ends_yard = make_yard(MOST_ENDS + 64);
}

void try_guards(void)
{
    const struct yard *yards[] = { &format_yard, &row_yard, &out_yard, &ends_yard };
    for (int i = 0; i < 4; i++) {
        verdict(faults_at(yards[i]->base - 1), "page before");
        verdict(faults_at(yards[i]->base + yards[i]->size), "page behind");
        verdict(!faults_at(yards[i]->base) && !faults_at(yards[i]->base + yards[i]->size - 1), "yard");
    }
}

/* ---- Calls: each returns 0 after a fault ---- */

static int call_check(const struct slice *f, const struct slice *k, struct panel_checked *r)
{
    if (sigsetjmp(before_call, 0) != 0)
        return 0;
    *r = panel_check(f->at, f->length, k->at, k->length);
    return 1;
}

static int call_measure(const struct slice *f, const struct slice *w, struct panel_printed *r)
{
    if (sigsetjmp(before_call, 0) != 0)
        return 0;
    *r = panel_measure(f->at, f->length, w->at, w->length);
    return 1;
}

static int call_print(const struct slice *f, const struct slice *w, const struct slice *o, const struct slice *e, struct panel_printed *r)
{
    if (sigsetjmp(before_call, 0) != 0)
        return 0;
    *r = panel_print(f->at, f->length, w->at, w->length, o->at, o->length, e->at, e->length);
    return 1;
}

/* ---- Answers ---- */

enum { NUMBERS = 18 };

static uint64_t seen_check[NUMBERS + 1], seen_measure[NUMBERS + 1], seen_print[NUMBERS + 1];

static int can_check(uint64_t number)
{
    return number <= 13;
}

static int can_print(uint64_t number)
{
    return number <= NUMBERS && number != 3;
}

static int can_measure(uint64_t number)
{
    return can_print(number) && number != 17;
}

void try_coverage(void)
{
    set_case(NULL, 0, NULL, 0);
    for (uint64_t n = 0; n <= NUMBERS; n++) {
        verdict((seen_check[n] > 0) == can_check(n), "numbers seen from checking");
        verdict((seen_measure[n] > 0) == can_measure(n), "numbers seen from measuring");
        verdict((seen_print[n] > 0) == can_print(n), "numbers seen from printing");
    }
}

int is_print(struct panel_printed r, uint64_t number, uint64_t place, uint64_t length, uint64_t pieces)
{
    return r.number == number && r.place == place && r.length == length && r.pieces == pieces;
}

int is_check(struct panel_checked r, uint64_t number, uint64_t place, uint64_t pieces, uint64_t largest)
{
    return r.number == number && r.place == place && r.pieces == pieces && r.largest == largest;
}

/* The place of a refusal is one that its number can have. */
static int place_fits(const uint8_t *format, size_t length, uint64_t number, uint64_t place)
{
    if (number <= 3 || number == 14 || number == 17)
        return place == 0;
    return place < length && (number == 13 || format[place] == '%');
}

uint32_t end_at(const uint8_t *ends, size_t k)
{
    const uint8_t *end = ends + 4 * k;
    return end[0] | (uint32_t)end[1] << 8 | (uint32_t)end[2] << 16 | (uint32_t)end[3] << 24;
}

static int ends_rise_to(const uint8_t *ends, size_t pieces, uint64_t length)
{
    uint32_t before = 0;
    for (size_t k = 0; k < pieces; k++) {
        if (end_at(ends, k) < before)
            return 0;
        before = end_at(ends, k);
    }
    return before == length;
}

/* ---- One call ---- */

/* A format and a row, and the side on which they are lent. */
struct input {
    const uint8_t *format;
    size_t length;
    const uint8_t *row;
    size_t row_length;
    enum side side;
};

int try_check(const uint8_t *format, size_t length, const uint8_t *kinds, size_t count, enum side side, struct panel_checked *r)
{
    struct slice f = lend_content(&format_yard, format, length, side);
    struct slice k = lend_content(&row_yard, kinds, count, side);
    if (!call_check(&f, &k, r) || !kept(&f) || !kept(&k))
        return 0;
    if (!can_check(r->number))
        return 0;
    seen_check[r->number]++;
    if (r->number == 0)
        return r->place == 0 && r->pieces <= 512 && r->largest <= count;
    return place_fits(format, length, r->number, r->place) && r->pieces == 0 && r->largest == 0;
}

static int try_measure(const struct input *in, struct panel_printed *r)
{
    struct slice f = lend_content(&format_yard, in->format, in->length, in->side);
    struct slice w = lend_content(&row_yard, in->row, in->row_length, in->side);
    if (!call_measure(&f, &w, r) || !kept(&f) || !kept(&w))
        return 0;
    if (!can_measure(r->number))
        return 0;
    seen_measure[r->number]++;
    if (r->number == 0)
        return r->place == 0 && r->pieces <= 512;
    return place_fits(in->format, in->length, r->number, r->place) && r->length == 0 && r->pieces == 0;
}

/* Prints with this room; the answer, where text and ends end, and all that is kept must be as `want` says. */
static int try_print(const struct input *in, size_t out_length, size_t ends_length, struct panel_printed want, uint8_t *text)
{
    struct panel_printed r;
    struct slice f = lend_content(&format_yard, in->format, in->length, in->side);
    struct slice w = lend_content(&row_yard, in->row, in->row_length, in->side);
    struct slice o = lend_pattern(&out_yard, out_length, in->side);
    struct slice e = lend_pattern(&ends_yard, ends_length, in->side);
    if (!call_print(&f, &w, &o, &e, &r) || !kept(&f) || !kept(&w))
        return 0;
    if (!is_print(r, want.number, want.place, want.length, want.pieces))
        return 0;
    seen_print[r.number]++;
    if (r.number != 0)
        return kept(&o) && kept(&e);
    if (text != NULL)
        memcpy(text, o.at, r.length);
    return kept_past(&o, r.length) && kept_past(&e, 4 * r.pieces) && ends_rise_to(e.at, r.pieces, r.length);
}

/* ---- One case: measuring, then printing and checking that agree with it ---- */

uint8_t exact_text[MOST_OUT];
static uint8_t roomy_text[MOST_OUT];

static void try_room(const struct input *in, struct panel_printed m)
{
    size_t need = m.length, ends = 4 * m.pieces;
    const struct panel_printed no_room = { 17, 0, 0, 0 };
    if (m.length > MOST_OUT - 100) {
        verdict(try_print(in, MOST_OUT, MOST_ENDS, no_room, NULL), "print, text over the output");
        return;
    }
    for (size_t left = 0; left < 4; left++) {
        int good = try_print(in, need, ends + left, m, left == 0 ? exact_text : roomy_text);
        verdict(good && (left == 0 || memcmp(exact_text, roomy_text, need) == 0), "print, exact room");
    }
    int good = try_print(in, need + 37, ends + 18, m, roomy_text);
    verdict(good && memcmp(exact_text, roomy_text, need) == 0, "print, room to spare");
    if (need > 0) {
        verdict(try_print(in, need - 1, ends, no_room, NULL), "print, one byte less");
        verdict(try_print(in, 0, ends, no_room, NULL), "print, no output");
    }
    if (ends > 0) {
        verdict(try_print(in, need, ends - 1, no_room, NULL), "print, one byte of ends less");
        verdict(try_print(in, need, 0, no_room, NULL), "print, no ends");
    }
}

/* The kinds of a row without null marks, for checking. */
static size_t kinds_of(const uint8_t *row, size_t row_length, uint8_t *kinds)
{
    size_t count = row_length < 6 ? 0 : row[0] | (size_t)row[1] << 8;
    if (count > MOST_KINDS || row_length < 6 + count)
        return 0;
    for (size_t i = 0; i < count; i++)
        kinds[i] = row[6 + i] & 127;
    return count;
}

static int try_kinds(const struct input *in, struct panel_printed m)
{
    uint8_t kinds[MOST_KINDS];
    struct panel_checked c = { 0, 0, 0, 0 };
    size_t count = kinds_of(in->row, in->row_length, kinds);
    if (!try_check(in->format, in->length, kinds, count, in->side, &c))
        return 0;
    if (m.number == 0)
        return c.number == 0 && c.pieces == m.pieces;
    if (m.number == 15 || m.number == 16 || m.number == 18)
        return c.number == 0;
    return c.number == m.number && c.place == m.place;
}

struct panel_printed try_case(const uint8_t *format, size_t length, const uint8_t *row, size_t row_length)
{
    struct panel_printed m = { 0, 0, 0, 0 }, first = { 0, 0, 0, 0 };
    set_case(format, length, row, row_length);
    for (int side = AT_END; side <= AT_START; side++) {
        const struct input in = { format, length, row, row_length, side };
        int good = try_measure(&in, &m);
        if (side == AT_START)
            good = good && is_print(m, first.number, first.place, first.length, first.pieces);
        verdict(good, "measure");
        first = m;
        if (!good)
            continue;

        if (m.number == 0) {
            try_room(&in, m);
        } else {
            verdict(try_print(&in, 300, 403, m, NULL), "print, refused");
            verdict(try_print(&in, 0, 0, m, NULL), "print, refused, no room");
        }
        if (m.number != 14)
            verdict(try_kinds(&in, m), "check against the row's kinds");
    }
    return m;
}
