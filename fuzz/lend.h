/*
 * Room for slices beside memory that may not be touched.
 *
 * The library's code is not instrumented, so of what it touches
 * AddressSanitizer sees only what goes through memcpy and memset. A page without
 * permissions is seen whatever code touches it.
 */
#ifndef FUZZ_LEND_H
#define FUZZ_LEND_H

#include <stddef.h>
#include <stdint.h>

/* On which side of a slice the forbidden page lies. */
enum side { AFTER, BEFORE, SIDES };

/* The greatest length that a slice is lent with. */
#define LONGEST_SLICE (8 * 65600)

/* The number of slices that a call is lent at most. */
#define PLACES 8

/*
 * Room for len numbers, none of it shared with another place. A forbidden page
 * lies on one side, numbers to be left alone on the other.
 */
uint16_t *lend(unsigned place, enum side side, size_t len);

/* Whether the numbers to be left alone are as lend made them. */
int beside_unchanged(unsigned place, enum side side, size_t len);

#endif
