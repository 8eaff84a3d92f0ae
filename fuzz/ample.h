/* Calls with ample room, and loans made of others. */
#ifndef FUZZ_AMPLE_H
#define FUZZ_AMPLE_H

#include <stddef.h>
#include <stdint.h>

#include "call.h"
#include "input.h"

/* The most numbers of an index that is built and changed. */
#define LONGEST_INDEX \
    (MOPEKIHUA_INDEX_BOUND(MOPEKIHUA_LONGEST_TEXT) + MOST_CHANGES)

/* The loan with another part. */
loan with(loan lent, enum part part, const uint16_t *numbers, size_t len);

/* Whether this slice holds these numbers. */
int holds(slice lent, const uint16_t *numbers, size_t len);

/* The n that the work slice goes by. */
size_t stated_length(enum operation operation, const loan *lent);

/* A call with as much work space and output as it can ask for. */
answer ample(enum operation operation, loan lent, uint16_t *written);

#endif
