#include "shown.h"

#include <string.h>

#include "ample.h"
#include "layout.h"

static uint16_t shown[MOPEKIHUA_LONGEST_TEXT], rebuilt[LONGEST_INDEX];

/* Puts the text that the entries of a readable index show into shown. */
static void show(const loan *lent)
{
    slice index = lent->parts[INDEX], lengths = lent->parts[LENGTHS];
    size_t keys = index.numbers[1];
    const uint16_t *position = index.numbers + line_start(keys);
    static size_t starts[MOPEKIHUA_MOST_WORDS + 1];

    for (size_t i = 0; i < lengths.len; i++)
        starts[i + 1] = starts[i] + lengths.numbers[i];
    memset(shown, 0, sizeof shown);
    for (size_t i = 0; i < keys; i++) {
        const uint16_t *line = index.numbers + line_start(i);
        const uint16_t *spelt = line + 1;
        size_t len = 1;
        if (line[0] == 0) {
            spelt = lent->parts[CHARS].numbers + starts[line[1]];
            len = lengths.numbers[line[1]];
        }
        for (size_t j = 0; j < line[2]; j++, position++)
            memcpy(shown + *position - 1, spelt, len * sizeof *spelt);
    }
}

int is_of_shown(const loan *lent)
{
    show(lent);
    loan again = with(*lent, TEXT, shown, lent->parts[INDEX].numbers[0]);
    answer built = ample(BUILD, again, rebuilt);
    return holds(lent->parts[INDEX], rebuilt, built.count);
}
