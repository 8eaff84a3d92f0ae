/* How an index lies as numbers. */
#ifndef FUZZ_LAYOUT_H
#define FUZZ_LAYOUT_H

#include "mopekihua.h"

/* Where a line of the directory starts; where line K would, the positions do. */
static inline size_t line_start(size_t number)
{
    return MOPEKIHUA_HEADER + 3 * number;
}

/* Where the count of a line lies. */
static inline size_t line_count(size_t number)
{
    return line_start(number) + 2;
}

#endif
