/* Random numbers, formats and rows, whole and damaged: the same after the same seed, whatever the compiler. */
#ifndef GUARD_DRAW_H
#define GUARD_DRAW_H

#include <stddef.h>
#include <stdint.h>

#include "rows.h"

void seed(uint64_t number);
uint64_t draw(void);
size_t below(size_t n);
int one_in(size_t n);

/* A format that mostly fits the row's kinds. Returns its length. */
size_t random_format(uint8_t *format, const struct row *row);

void random_row(struct row *row);

/* Adds a value of this kind, perhaps null. */
void add_random(struct row *row, uint8_t kind);

/* Changes, removes or inserts a few bytes. Returns the new length, at most `most`. */
size_t damage(uint8_t *at, size_t length, size_t most);

#endif
