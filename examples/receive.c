/*
 * Receives indexes and recovers their texts, from numbers that a text has and
 * from numbers that none has. Exits with 1 if an answer is not the one
 * expected, or if a slice does not hold what it should after a call.
 */
#include <stdint.h>
#include <stdio.h>

#include "mopekihua.h"

#define COUNT(array) (sizeof(array) / sizeof((array)[0]))

#define NUMBERS(...) \
    (const uint16_t[]){__VA_ARGS__}, COUNT(((const uint16_t[]){__VA_ARGS__}))

/* The words ab, abc and bcd. */
static const uint16_t chars[] = u"ab" u"abc" u"bcd";
static const uint16_t lengths[] = {2, 3, 3};

typedef struct {
    const char *title;
    const uint16_t *index;
    size_t index_len;
    size_t output_len;
    size_t work_len;
    mopekihua_answer received;
    mopekihua_answer recovered;
    /* What output holds after recovery, in front of what it held before. */
    const char *text;
} trial;

#define ACCEPTED(count) {MOPEKIHUA_ACCEPTED, (count)}
#define REFUSED(number) {(number), 0}

static const trial trials[] = {
    {"the index of abcdab", NUMBERS(6, 3, 0, 0, 1, 0, 1, 1, 0, 2, 1, 5, 1, 2),
     6, 48, ACCEPTED(6), ACCEPTED(6), "abcdab"},
    {"the index of axa", NUMBERS(3, 2, 1, 97, 2, 1, 120, 1, 1, 3, 2), 8, 60,
     ACCEPTED(3), ACCEPTED(3), "axa"},
    {"the index of the empty text", NUMBERS(0, 0), 0, 0, ACCEPTED(0),
     ACCEPTED(0), ""},
    {"lone a and b, though ab is a word",
     NUMBERS(2, 2, 1, 97, 1, 1, 98, 1, 1, 2), 2, 16, REFUSED(MOPEKIHUA_NO_TEXT),
     REFUSED(MOPEKIHUA_NO_TEXT), ""},
    {"position 2 uncovered", NUMBERS(2, 1, 1, 97, 1, 1), 2, 16,
     REFUSED(MOPEKIHUA_NO_TEXT), REFUSED(MOPEKIHUA_NO_TEXT), ""},
    {"ab and x both at 1", NUMBERS(2, 2, 0, 0, 1, 1, 120, 1, 1, 1), 2, 16,
     REFUSED(MOPEKIHUA_NO_TEXT), REFUSED(MOPEKIHUA_NO_TEXT), ""},
    {"abcdab without bcd", NUMBERS(6, 2, 0, 0, 1, 0, 1, 1, 5, 1), 6, 48,
     REFUSED(MOPEKIHUA_NO_TEXT), REFUSED(MOPEKIHUA_NO_TEXT), ""},
    {"lone Ａ, which a text has as A", NUMBERS(1, 1, 1, 0xFF21, 1, 1), 1, 8,
     REFUSED(MOPEKIHUA_NO_TEXT), REFUSED(MOPEKIHUA_NO_TEXT), ""},
    {"a position past the text", NUMBERS(6, 1, 0, 0, 1, 6), 6, 48,
     REFUSED(MOPEKIHUA_INDEX_NOT_READABLE),
     REFUSED(MOPEKIHUA_INDEX_NOT_READABLE), ""},
    {"work space of 8n - 1", NUMBERS(3, 2, 1, 97, 2, 1, 120, 1, 1, 3, 2), 3, 23,
     REFUSED(MOPEKIHUA_WORK_TOO_SHORT), REFUSED(MOPEKIHUA_WORK_TOO_SHORT), ""},
    {"output one short", NUMBERS(3, 2, 1, 97, 2, 1, 120, 1, 1, 3, 2), 2, 24,
     ACCEPTED(3), REFUSED(MOPEKIHUA_OUTPUT_TOO_SHORT), ""},
};

/* What the slices hold before each call. */
#define LEFTOVER 0x5555

static uint16_t output[16];
static uint16_t work[64];

static void fill(uint16_t *slice, size_t len)
{
    for (size_t i = 0; i < len; i++)
        slice[i] = LEFTOVER;
}

/* Whether work is all zeros as far as it was lent, and else as it was. */
static int work_as_expected(const trial *t)
{
    for (size_t i = 0; i < COUNT(work); i++)
        if (work[i] != (i < t->work_len ? 0 : LEFTOVER))
            return 0;
    return 1;
}

/* Whether output holds the text in front of what it held. */
static int output_as_expected(const trial *t)
{
    const char *text = t->text;

    for (size_t i = 0; i < COUNT(output); i++)
        if (output[i] != (*text ? (uint16_t)*text++ : LEFTOVER))
            return 0;
    return 1;
}

static void print_answer(const char *call, mopekihua_answer answer)
{
    if (answer.refusal == MOPEKIHUA_ACCEPTED)
        printf("  %s: accepted, characters: %zu\n", call, answer.count);
    else
        printf("  %s: refused %u\n", call, (unsigned)answer.refusal);
}

static int same(mopekihua_answer answer, mopekihua_answer expected)
{
    return answer.refusal == expected.refusal && answer.count == expected.count;
}

/* Prints both answers to one index; says whether all is as expected. */
static int as_expected(const trial *t)
{
    int good;

    printf("%s\n", t->title);

    fill(work, COUNT(work));
    mopekihua_answer received =
        mopekihua_receive(chars, COUNT(chars) - 1, lengths, COUNT(lengths),
                          t->index, t->index_len, work, t->work_len);
    print_answer("reception", received);
    good = same(received, t->received) && work_as_expected(t);

    fill(work, COUNT(work));
    fill(output, COUNT(output));
    mopekihua_answer recovered = mopekihua_recover(
        chars, COUNT(chars) - 1, lengths, COUNT(lengths), t->index, t->index_len,
        output, t->output_len, work, t->work_len);
    print_answer("recovery", recovered);
    if (recovered.refusal == MOPEKIHUA_ACCEPTED) {
        printf("  the text: \"");
        for (size_t i = 0; i < recovered.count; i++)
            putchar(output[i]);
        printf("\"\n");
    }
    good &= same(recovered, t->recovered) && work_as_expected(t) &&
            output_as_expected(t);

    if (!good)
        fprintf(stderr, "%s: not as expected\n", t->title);
    return good;
}

int main(void)
{
    int all_expected = 1;

    for (size_t i = 0; i < COUNT(trials); i++)
        all_expected &= as_expected(&trials[i]);
    return all_expected ? 0 : 1;
}
