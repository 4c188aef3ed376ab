/* What one format and row must show: checked, measured and printed on both sides, with room and without. */
#ifndef GUARD_CASES_H
#define GUARD_CASES_H

#include <stddef.h>
#include <stdint.h>

#include "pages.h"
#include "panel.h"
#include "sizes.h"

/* Makes what the cases lend from; to be called first. */
void make_yards(void);

int is_print(struct panel_printed r, uint64_t number, uint64_t place, uint64_t length, uint64_t pieces);
int is_check(struct panel_checked r, uint64_t number, uint64_t place, uint64_t pieces, uint64_t largest);

/* The end of piece k. */
uint32_t end_at(const uint8_t *ends, size_t k);

/* Whether checking is right as far as it can be told without knowing the answer, which is left in r. */
int try_check(const uint8_t *format, size_t length, const uint8_t *kinds, size_t count, enum side side, struct panel_checked *r);

/* Checks, measures and prints one format and row on both sides; leaves the text in exact_text. Returns measuring's answer. */
struct panel_printed try_case(const uint8_t *format, size_t length, const uint8_t *row, size_t row_length);

extern uint8_t exact_text[MOST_OUT];

#endif
