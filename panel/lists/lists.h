/* What the histories are made of: calls beside guard pages, known calls, and the model. */
#ifndef LISTS_LISTS_H
#define LISTS_LISTS_H

#include <stddef.h>
#include <stdint.h>

#include "pages.h"
#include "panel.h"

enum { PIECES = PANEL_MOST_PIECES, NUMBERS = 21 };

struct bytes {
    const uint8_t *at;
    size_t length;
};

struct bytes text(const char *from);

/* ---- calls.c: a difference is named and ends the test ---- */

/* The side on which all is lent. */
extern enum side side;

/* What the list holds between calls. */
extern struct panel_list list;

/* The number of calls, and of each answer that was compared. */
extern uint64_t calls, seen[NUMBERS + 1];

/* Makes what the calls lend from, and catches faults and calls that do not return; to be called first. */
void make_calls_ready(void);

/* One call each. Where it refuses, every byte of the list is as it was. */
void try_empty(void);
struct panel_changed try_join(uint32_t gate, struct bytes format, struct bytes row);
struct panel_changed try_join_of_null(uint32_t gate);
struct panel_changed try_leave(uint32_t gate);

/* Leaves the lengths in `lengths`; the list is the one that the call before left. */
void try_lengths(uint64_t *lengths);

void compare_lengths(const uint64_t *want);
void compare_answer(struct panel_changed r, struct panel_changed want);

void fill_with_random(void);

/* Empties memory of random bytes; all lengths must then be 0. */
void begin_list(void);

/* ---- known.c ---- */

/* Calls with known answers and lengths. */
void try_known(void);

/* ---- model.c: keeps the rows, and works out afresh which gates are present and the largest lengths ---- */

/* What a row's texts are, and what measuring answers to it, it asks this library's own printing and measuring, which are compared
   elsewhere. */

void model_empty(void);
struct panel_changed model_join(uint32_t gate, struct bytes format, struct bytes row);
struct panel_changed model_leave(uint32_t gate);
void model_lengths(struct bytes format, uint64_t *lengths);
int model_has(uint32_t gate);

#endif
