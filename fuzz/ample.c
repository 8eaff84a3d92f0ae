#include "ample.h"

#include <string.h>

loan with(loan lent, enum part part, const uint16_t *numbers, size_t len)
{
    lent.parts[part] = (slice){numbers, len};
    return lent;
}

int holds(slice lent, const uint16_t *numbers, size_t len)
{
    return lent.len == len &&
           (len == 0 || memcmp(lent.numbers, numbers, len * sizeof *numbers) == 0);
}

size_t stated_length(enum operation operation, const loan *lent)
{
    if (operation == BUILD)
        return lent->parts[TEXT].len;
    return lent->parts[INDEX].len > 0 ? lent->parts[INDEX].numbers[0] : 0;
}

/* The length of the longest result; 0 where the call is refused for its text. */
static size_t output_needed(enum operation operation, const loan *lent)
{
    size_t n = stated_length(operation, lent);

    switch (operation) {
    case BUILD:
        return n > MOPEKIHUA_LONGEST_TEXT ? 0 : MOPEKIHUA_INDEX_BOUND(n);
    case CUT:
    case TO_GAPS:
        return lent->parts[INDEX].len;
    case FROM_GAPS:
        return lent->parts[GAPS].len;
    default:
        return takes_output(operation) ? n : 0;
    }
}

answer ample(enum operation operation, loan lent, uint16_t *written)
{
    size_t n = stated_length(operation, &lent);

    lent.parts[WORK].len = takes_work(operation) ? MOPEKIHUA_WORK_NEEDED(n) : 0;
    lent.parts[OUTPUT].len = output_needed(operation, &lent);
    return call(operation, &lent, written);
}
