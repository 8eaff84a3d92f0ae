#include "change.h"

#include <string.h>

#include "layout.h"

/* A line of the directory, and where its positions begin. */
typedef struct {
    uint16_t *count;
    size_t start;
} line;

/* The line with this number; there is one, and each list lies in the index. */
static line line_at(uint16_t *index, size_t number)
{
    line found = {index + line_count(number), line_start(index[1])};

    for (size_t i = 0; i < number; i++)
        found.start += index[line_count(i)];
    return found;
}

/* Whether keys, counts and length fit together. */
static int is_whole(const uint16_t *index, size_t len)
{
    if (len < MOPEKIHUA_HEADER || index[1] == 0 || len < line_start(index[1]))
        return 0;
    size_t end = line_start(index[1]);
    for (size_t i = 0; i < index[1]; i++)
        end += index[line_count(i)];
    return end == len;
}

/* One more position under a key, where it belongs. */
static size_t insert(uint16_t *index, size_t len, line line, uint16_t position)
{
    size_t at = line.start, end = line.start + *line.count;

    while (at < end && index[at] < position)
        at++;
    if ((at < end && index[at] == position) || *line.count == UINT16_MAX)
        return len;
    memmove(index + at + 1, index + at, (len - at) * sizeof *index);
    index[at] = position;
    ++*line.count;
    return len + 1;
}

/* One position less under a key, unless it has only one. */
static size_t remove_one(uint16_t *index, size_t len, line line, uint16_t number)
{
    if (*line.count < 2)
        return len;
    size_t at = line.start + number % *line.count;
    memmove(index + at, index + at + 1, (len - at - 1) * sizeof *index);
    --*line.count;
    return len - 1;
}

size_t change_index(uint16_t *index, size_t len, change change)
{
    if (change.kind != ADD && is_whole(index, len)) {
        line line = line_at(index, change.place % index[1]);
        if (change.kind == REMOVE)
            return remove_one(index, len, line, change.number);
        uint16_t n = index[0] == 0 ? 1 : index[0];
        return insert(index, len, line, 1 + change.number % n);
    }
    index[change.place % len] += change.number;
    return len;
}

/* How many of a list's positions lie at this one or before it. */
static size_t count_up_to(const uint16_t *positions, size_t len, size_t last)
{
    size_t count = 0;

    while (count < len && positions[count] <= last)
        count++;
    return count;
}

size_t copy_up_to(uint16_t *copy, const uint16_t *index, size_t last)
{
    size_t first = line_start(index[1]), len = MOPEKIHUA_HEADER;
    const uint16_t *list = index + first;

    for (size_t line = line_start(0); line < first;
         list += index[line + 2], line += 3) {
        size_t count = count_up_to(list, index[line + 2], last);
        if (count == 0)
            continue;
        copy[len++] = index[line];
        copy[len++] = index[line + 1];
        copy[len++] = (uint16_t)count;
    }
    copy[0] = index[0];
    copy[1] = (uint16_t)((len - MOPEKIHUA_HEADER) / 3);
    list = index + first;
    for (size_t line = line_start(0); line < first;
         list += index[line + 2], line += 3) {
        size_t count = count_up_to(list, index[line + 2], last);
        memcpy(copy + len, list, count * sizeof *copy);
        len += count;
    }
    return len;
}
