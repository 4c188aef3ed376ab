/* Counting what passed and failed, with a message for each of the first failures. */
#ifndef GUARD_COUNT_H
#define GUARD_COUNT_H

#include <stddef.h>
#include <stdint.h>

extern uint64_t passed, failed;

/* Sets the case at hand, for messages. The bytes are not copied. */
void set_case(const uint8_t *format, size_t format_length, const uint8_t *row, size_t row_length);

void verdict(int good, const char *call);

#endif
