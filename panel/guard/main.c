/*
 * Calls the library with every lent slice beside an unmapped page: once ending right before one, once starting right
 * behind one. A read or write outside a slice on that side faults, and a fault counts as a failure; on the other side the
 * bytes near the slice hold a pattern that is compared after the call.
 *
 * Formats and rows: a list with known answers, every refusal among them, and random ones, whole and damaged. The first
 * argument, if any, is the seed. Prints `N passed, M failed`, one for each call; the exit code is 1 if any failed.
 */
#include <inttypes.h>
#include <stdio.h>
#include <stdlib.h>

#include "cases.h"
#include "count.h"
#include "pages.h"
#include "runs.h"

int main(int argc, char **argv)
{
    uint64_t seed = argc > 1 ? strtoull(argv[1], NULL, 10) : 1;
    make_yards();
    catch_faults();

    try_guards();
    try_known();
    try_limits();
    try_null_pointers();
    try_copied();
    try_random(seed, 10000);
    try_coverage();
    try_long_texts();

    printf("%" PRIu64 " passed, %" PRIu64 " failed\n", passed, failed);
    return failed > 0;
}
