/* Slices lent beside unmapped pages, and the catching of faults there. */
#ifndef GUARD_PAGES_H
#define GUARD_PAGES_H

#include <setjmp.h>
#include <stddef.h>
#include <stdint.h>

/* Readable and writable bytes with an unmapped page on each side. */
struct yard {
    uint8_t *base;
    size_t size;
    uint8_t *copy; /* as many bytes, elsewhere */
};

/* A part of a yard, and the bytes near it that no call may change. */
struct slice {
    uint8_t *at;
    size_t length;
    uint8_t *near;
    size_t near_length;
    uint8_t *copy; /* what the slice and the bytes near it held before the call */
};

enum side { AT_END, AT_START };

/* Maps memory; exits with 2 if that fails. */
void *map(size_t size, int protection);

struct yard make_yard(size_t least);

/* Each yard can lend one slice at a time. */
struct slice lend_content(const struct yard *yard, const uint8_t *content, size_t length, enum side side);
struct slice lend_pattern(const struct yard *yard, size_t length, enum side side);

/* Everything but the first `changed` bytes is as it was. */
int kept_past(const struct slice *s, size_t changed);
int kept(const struct slice *s);

/* Where a fault jumps to, set by sigsetjmp without the mask. */
extern sigjmp_buf before_call;

void catch_faults(void);
int faults_at(const volatile uint8_t *at);

#endif
