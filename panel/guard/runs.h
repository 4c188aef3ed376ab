/* The runs of the test, each of which counts its own verdicts. */
#ifndef GUARD_RUNS_H
#define GUARD_RUNS_H

#include <stddef.h>
#include <stdint.h>

/* cases.c: the pages beside each yard do fault, so that the test can fail. */
void try_guards(void);

/* cases.c, after the other runs: every number came from every function that can return it. */
void try_coverage(void);

/* known.c */
void try_known(void);

/* limits.c */
void try_limits(void);
void try_null_pointers(void);

/* copied.c: texts and pieces about as many as are copied. */
void try_copied(void);

/* long.c: texts about 4,294,967,295 bytes long. */
void try_long_texts(void);

/* random.c */
void try_random(uint64_t seed, size_t rounds);

#endif
