#define _GNU_SOURCE
#include <stdio.h>
#include <stdlib.h>
#include <string.h>
#include <sys/mman.h>
#include <unistd.h>

#include "cases.h"
#include "count.h"
#include "pages.h"
#include "runs.h"

enum { PART = 1 << 21, ENDS = 13 };

static const size_t limit = 4294967295, size = 4294967296;
static const uint8_t row[] = { 1, 0, 0, 0, 0, 0, 3, 7, 0, 0, 0, 0, 0, 0, 0 };
static const char longest[] = "%2147483647d%<2147483647x%<d", over[] = "%2147483647d%<2147483647x%<2d";

static struct panel_printed measure_long(const char *format)
{
    return panel_measure((const uint8_t *)format, strlen(format), row, sizeof row);
}

static struct panel_printed print_long(const char *format, uint8_t *out, size_t out_length, uint8_t *ends)
{
    return panel_print((const uint8_t *)format, strlen(format), row, sizeof row, out, out_length, ends, ENDS);
}

static void set_long_case(const char *format)
{
    set_case((const uint8_t *)format, strlen(format), row, sizeof row);
}

/* The output is unmapped here, where the call must refuse. */
static void try_refused(uint8_t *out, uint8_t *ends)
{
    struct panel_printed r = measure_long(over);
    verdict(is_print(r, 0, 0, limit + 1, 3), "measure, one byte over the limit");
    r = print_long(over, out, size, ends);
    verdict(is_print(r, 17, 0, 0, 0) && ends[0] == 0xA5 && ends[11] == 0xA5, "print, one byte over the limit");

    set_long_case(longest);
    r = measure_long(longest);
    verdict(is_print(r, 0, 0, limit, 3), "measure, at the limit");
    r = print_long(longest, out, limit - 1, ends);
    verdict(is_print(r, 17, 0, 0, 0) && ends[0] == 0xA5 && ends[11] == 0xA5, "print, at the limit, one byte less");
}

/* Makes the output one part of memory mapped again and again. */
static void map_parts(uint8_t *out)
{
    int file = memfd_create("part", 0);
    if (file < 0 || ftruncate(file, PART) != 0) {
        perror("memfd");
        exit(2);
    }
    for (size_t at = 0; at < size; at += PART)
        if (mmap(out + at, PART, PROT_READ | PROT_WRITE, MAP_SHARED | MAP_FIXED, file, 0) == MAP_FAILED) {
            perror("mmap");
            exit(2);
        }
    close(file);
}

static void try_longest(uint8_t *out, uint8_t *ends)
{
    /* The last byte of the last part lies past the text. */
    out[limit] = 0x5A;
    struct panel_printed r = print_long(longest, out, limit, ends);
    verdict(is_print(r, 0, 0, limit, 3) && end_at(ends, 0) == 2147483647 && end_at(ends, 1) == 4294967294 && end_at(ends, 2) == 4294967295
                && ends[12] == 0xA5 && out[limit - 1] == '7',
            "print, at the limit");
}

void try_long_texts(void)
{
    uint8_t ends[ENDS];
    set_long_case(over);
    uint8_t *out = map(size + PART, PROT_NONE);
    if (sigsetjmp(before_call, 0) != 0) {
        verdict(0, "long texts: fault");
        return;
    }
    memset(ends, 0xA5, sizeof ends);
    try_refused(out, ends);
    map_parts(out);
    try_longest(out, ends);
    munmap(out, size + PART);
}
