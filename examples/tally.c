/*
 * Counts the entries of indexes by their lengths, of numbers that are readable
 * and of numbers that are not. Exits with 1 if an answer is not the one
 * expected.
 */
#include <stdint.h>
#include <stdio.h>

#include "mopekihua.h"

#define COUNT(array) (sizeof(array) / sizeof((array)[0]))

#define NUMBERS(...) \
    (const uint16_t[]){__VA_ARGS__}, COUNT(((const uint16_t[]){__VA_ARGS__}))

/* The words ab, abc and bcd. */
static const uint16_t chars[] = u"ab" u"abc" u"bcd";
static const uint16_t lengths[] = {2, 3, 3};

typedef struct {
    const char *title;
    const uint16_t *index;
    size_t index_len;
    /* by_length[i] is counts[i] below 4, and 0 from there. */
    uint32_t refusal;
    uint64_t counts[4];
} trial;

static const trial trials[] = {
    {"abcdab", NUMBERS(6, 3, 0, 0, 1, 0, 1, 1, 0, 2, 1, 5, 1, 2),
     MOPEKIHUA_ACCEPTED, {0, 1, 2, 0}},
    {"axa", NUMBERS(3, 2, 1, 97, 2, 1, 120, 1, 1, 3, 2), MOPEKIHUA_ACCEPTED,
     {3, 0, 0, 0}},
    {"the empty text", NUMBERS(0, 0), MOPEKIHUA_ACCEPTED, {0, 0, 0, 0}},
    {"kind 2", NUMBERS(6, 1, 2, 0, 1, 5), MOPEKIHUA_INDEX_NOT_READABLE,
     {0, 0, 0, 0}},
    {"a position past the text", NUMBERS(6, 1, 0, 0, 1, 6),
     MOPEKIHUA_INDEX_NOT_READABLE, {0, 0, 0, 0}},
    {"one number", NUMBERS(6), MOPEKIHUA_INDEX_NOT_READABLE, {0, 0, 0, 0}},
};

/* Prints the answer to one index; says whether it is the expected one. */
static int as_expected(const trial *t)
{
    mopekihua_tally_answer answer =
        mopekihua_tally(chars, COUNT(chars) - 1, lengths, COUNT(lengths), t->index,
                        t->index_len);
    int same = answer.refusal == t->refusal;
    uint64_t sum = 0;

    if (answer.refusal == MOPEKIHUA_ACCEPTED)
        printf("%s -> accepted, entries: %zu\n", t->title, answer.count);
    else
        printf("%s -> refused %u\n", t->title, (unsigned)answer.refusal);
    for (size_t i = 0; i < COUNT(answer.by_length); i++) {
        if (answer.by_length[i] != 0)
            printf("  of length %zu: %llu\n", i + 1,
                   (unsigned long long)answer.by_length[i]);
        same &= answer.by_length[i] == (i < COUNT(t->counts) ? t->counts[i] : 0);
        sum += answer.by_length[i];
    }

    if (same && answer.count == sum)
        return 1;
    fprintf(stderr, "%s: not the tally expected\n", t->title);
    return 0;
}

int main(void)
{
    int all_expected = 1;

    for (size_t i = 0; i < COUNT(trials); i++)
        all_expected &= as_expected(&trials[i]);
    return all_expected ? 0 : 1;
}
