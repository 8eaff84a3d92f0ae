/*
 * Searches indexes for strings and cuts them down to what a search for one
 * string needs; then meets the refusals of both. Exits with 1 if an answer is
 * not the one expected, or if a slice does not hold what it should after a call.
 */
#include <stdint.h>
#include <stdio.h>

#include "mopekihua.h"

#define COUNT(array) (sizeof(array) / sizeof((array)[0]))

#define NUMBERS(...) \
    (const uint16_t[]){__VA_ARGS__}, COUNT(((const uint16_t[]){__VA_ARGS__}))

/* The characters of a literal, without the zero that ends it. */
#define CHARS(literal) (literal), COUNT(literal) - 1

typedef struct {
    const uint16_t *numbers;
    size_t len;
} slice;

typedef struct {
    const char *title;
    slice index;
    slice string;
    size_t output_len;
    /* What each call writes, or the number of its refusal. */
    slice found;
    slice cut;
    uint32_t search_refusal;
    uint32_t cut_refusal;
} trial;

/* The words ab, abc and bcd. */
static const uint16_t chars[] = u"ab" u"abc" u"bcd";
static const uint16_t lengths[] = {2, 3, 3};

/* The index of abcdab: ab at 5, abc at 1, bcd at 2. */
#define ABCDAB NUMBERS(6, 3, 0, 0, 1, 0, 1, 1, 0, 2, 1, 5, 1, 2)
#define NOTHING NULL, 0
#define BOTH(number) {NOTHING}, {NOTHING}, (number), (number)

static const uint16_t long_string[257];

static const trial trials[] = {
    {"ab", {ABCDAB}, {CHARS(u"ab")}, 20, {NUMBERS(1, 5)}, {ABCDAB}, 0, 0},
    {"cda", {ABCDAB}, {CHARS(u"cda")}, 20, {NUMBERS(3)}, {ABCDAB}, 0, 0},
    {"abcdab, whole", {ABCDAB}, {CHARS(u"abcdab")}, 20, {NUMBERS(1)}, {ABCDAB},
     0, 0},
    {"dd, on which of the keys only bcd bears", {ABCDAB}, {CHARS(u"dd")}, 20,
     {NOTHING}, {NUMBERS(6, 1, 0, 2, 1, 2)}, 0, 0},
    {"x", {ABCDAB}, {CHARS(u"x")}, 20, {NOTHING}, {NUMBERS(6, 0)}, 0, 0},
    {"a in the index of axa", {NUMBERS(3, 2, 1, 97, 2, 1, 120, 1, 1, 3, 2)},
     {CHARS(u"a")}, 7, {NUMBERS(1, 3)}, {NUMBERS(3, 1, 1, 97, 2, 1, 3)}, 0, 0},
    {"a position past the text", {NUMBERS(6, 1, 0, 0, 1, 6)}, {CHARS(u"ab")}, 20,
     BOTH(MOPEKIHUA_INDEX_NOT_READABLE)},
    {"the empty string", {ABCDAB}, {CHARS(u"")}, 20,
     BOTH(MOPEKIHUA_STRING_LENGTH_WRONG)},
    {"257 characters", {ABCDAB}, {long_string, 257}, 20,
     BOTH(MOPEKIHUA_STRING_LENGTH_WRONG)},
    {"an output for 2 numbers", {ABCDAB}, {CHARS(u"ab")}, 2, {NUMBERS(1, 5)},
     {NOTHING}, 0, MOPEKIHUA_OUTPUT_TOO_SHORT},
    {"an output for 1 number", {ABCDAB}, {CHARS(u"ab")}, 1,
     BOTH(MOPEKIHUA_OUTPUT_TOO_SHORT)},
};

/* What the output holds before each call. */
#define LEFTOVER 0x5555

static uint16_t output[20];

typedef mopekihua_answer operation(const uint16_t *, size_t, const uint16_t *,
                                   size_t, const uint16_t *, size_t,
                                   const uint16_t *, size_t, uint16_t *, size_t);

/* Prints the answer to one call; says whether all is as expected. */
static int as_expected(const trial *t, const char *name, operation *call,
                       slice expected, uint32_t refusal)
{
    int good;

    for (size_t i = 0; i < COUNT(output); i++)
        output[i] = LEFTOVER;

    mopekihua_answer answer = call(
        chars, COUNT(chars) - 1, lengths, COUNT(lengths), t->index.numbers,
        t->index.len, t->string.numbers, t->string.len, output, t->output_len);

    if (answer.refusal == MOPEKIHUA_ACCEPTED) {
        printf("  %s: accepted, numbers: %zu (", name, answer.count);
        for (size_t i = 0; i < answer.count; i++)
            printf(i == 0 ? "%u" : " %u", (unsigned)output[i]);
        printf(")\n");
    } else {
        printf("  %s: refused %u\n", name, (unsigned)answer.refusal);
    }

    good = answer.refusal == refusal && answer.count == expected.len;
    for (size_t i = 0; i < COUNT(output); i++)
        good &= output[i] == (i < expected.len ? expected.numbers[i] : LEFTOVER);
    if (!good)
        fprintf(stderr, "%s, %s: not as expected\n", t->title, name);
    return good;
}

int main(void)
{
    int all_expected = 1;

    for (size_t i = 0; i < COUNT(trials); i++) {
        const trial *t = &trials[i];
        printf("%s\n", t->title);
        all_expected &= as_expected(t, "search", mopekihua_search, t->found,
                                    t->search_refusal);
        all_expected &= as_expected(t, "cut down", mopekihua_cut, t->cut,
                                    t->cut_refusal);
    }
    return all_expected ? 0 : 1;
}
