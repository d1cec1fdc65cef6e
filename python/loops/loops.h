/* What the loops share. Arrays stand row by row, places count from 0, and each operation is rounded by itself, so that
 * numpy and SEP give the same numbers to the last digit. No loop has a state of its own, so threads may call them. */
#ifndef LOOPS_H
#define LOOPS_H

#include <stdint.h>

/* A function that Python calls. */
#define LOOP __attribute__((visibility("default")))

/* A function that is compiled for wider vectors too, where the processor has them. */
#if defined(__x86_64__) && defined(__GNUC__) && !defined(__clang__)
#define VECTORS __attribute__((target_clones("avx512f", "avx2", "default")))
#else
#define VECTORS
#endif

#endif
