/*
 * Builds indexes and prints each as its numbers and key by key; then meets the
 * refusals of building. Exits with 1 if an answer is not the one expected, or
 * if a slice does not hold what it should after a call.
 */
#include <stdint.h>
#include <stdio.h>

#include "mopekihua.h"

#define COUNT(array) (sizeof(array) / sizeof((array)[0]))

/* A text of 65,536 characters is too long. */
#define LONGEST 65535

typedef struct {
    const uint16_t *chars;
    size_t chars_len;
    const uint16_t *lengths;
    size_t lengths_len;
} dictionary;

typedef struct {
    const char *title;
    const dictionary *words;
    const uint16_t *text;
    size_t text_len;
    size_t output_len;
    size_t work_len;
    mopekihua_answer expected;
} trial;

/* The characters of a literal, without the zero that ends it. */
#define CHARS(literal) (literal), COUNT(literal) - 1

#define LENGTHS(...) \
    (const uint16_t[]){__VA_ARGS__}, COUNT(((const uint16_t[]){__VA_ARGS__}))

static const dictionary a = {CHARS(u"ab" u"abc" u"bcd"), LENGTHS(2, 3, 3)};
static const dictionary b = {CHARS(u"a" u"aa" u"aaa"), LENGTHS(1, 2, 3)};
static const dictionary drawing = {CHARS(u"図" u"図面" u"平面図" u"面図"),
                                   LENGTHS(1, 2, 3, 2)};
static const dictionary falling = {CHARS(u"b" u"a"), LENGTHS(1, 1)};

static uint16_t long_text[LONGEST + 1];
static uint16_t output[MOPEKIHUA_INDEX_BOUND(LONGEST)];
static uint16_t work[8 * (LONGEST + 1)];

static const trial trials[] = {
    {"A, abcdab", &a, CHARS(u"abcdab"), 14, 48, {MOPEKIHUA_ACCEPTED, 14}},
    {"A, axa", &a, CHARS(u"axa"), 20, 100, {MOPEKIHUA_ACCEPTED, 11}},
    {"A, the empty text", &a, CHARS(u""), 2, 0, {MOPEKIHUA_ACCEPTED, 2}},
    {"B, aaaa", &b, CHARS(u"aaaa"), 7, 32, {MOPEKIHUA_ACCEPTED, 7}},
    {"図, 図面, 平面図, 面図; 平面図面の図", &drawing, CHARS(u"平面図面の図"),
     26, 48, {MOPEKIHUA_ACCEPTED, 18}},
    {"words that fall", &falling, CHARS(u"ab"), 20, 16,
     {MOPEKIHUA_WORDS_NOT_ASCENDING, 0}},
    {"65,536 characters", &a, long_text, LONGEST + 1, COUNT(output), COUNT(work),
     {MOPEKIHUA_TEXT_TOO_LONG, 0}},
    {"work space of 8n - 1", &a, CHARS(u"abcdab"), 14, 47,
     {MOPEKIHUA_WORK_TOO_SHORT, 0}},
    {"output one short", &a, CHARS(u"abcdab"), 13, 48,
     {MOPEKIHUA_OUTPUT_TOO_SHORT, 0}},
};

/* What the slices hold before each call. */
#define LEFTOVER 0x5555

static void print_numbers(const uint16_t *numbers, size_t count)
{
    for (size_t i = 0; i < count; i++)
        printf(i == 0 ? "  %u" : " %u", (unsigned)numbers[i]);
    printf("\n");
}

static void print_keys(const uint16_t *index)
{
    const uint16_t *positions = index + MOPEKIHUA_HEADER + 3 * (size_t)index[1];

    for (size_t i = 0; i < index[1]; i++) {
        const uint16_t *line = index + MOPEKIHUA_HEADER + 3 * i;
        if (line[0] == 0)
            printf("  word %u at", (unsigned)line[1]);
        else
            printf("  lone %04X at", (unsigned)line[1]);
        for (size_t j = 0; j < line[2]; j++)
            printf(" %u", (unsigned)*positions++);
        printf("\n");
    }
}

/* Whether all elements of a slice from an index on hold one number. */
static int all(const uint16_t *slice, size_t from, size_t len, uint16_t number)
{
    for (size_t i = from; i < len; i++)
        if (slice[i] != number)
            return 0;
    return 1;
}

/* Prints the answer to one call; says whether all is as expected. */
static int as_expected(const trial *t)
{
    for (size_t i = 0; i < COUNT(output); i++)
        output[i] = LEFTOVER;
    for (size_t i = 0; i < COUNT(work); i++)
        work[i] = LEFTOVER;

    mopekihua_answer answer = mopekihua_build(
        t->words->chars, t->words->chars_len, t->words->lengths,
        t->words->lengths_len, t->text, t->text_len, output, t->output_len, work,
        t->work_len);

    if (answer.refusal == MOPEKIHUA_ACCEPTED) {
        printf("%s -> accepted, numbers: %zu\n", t->title, answer.count);
        print_numbers(output, answer.count);
        print_keys(output);
    } else {
        printf("%s -> refused %u\n", t->title, (unsigned)answer.refusal);
    }

    if (answer.refusal != t->expected.refusal || answer.count != t->expected.count) {
        fprintf(stderr, "%s: expected refusal %u and count %zu, not %u and %zu\n",
                t->title, (unsigned)t->expected.refusal, t->expected.count,
                (unsigned)answer.refusal, answer.count);
        return 0;
    }
    /* The answer's count is 0 beside a refusal: all of output is as before. */
    if (!all(output, answer.count, COUNT(output), LEFTOVER) ||
        !all(work, 0, t->work_len, 0) ||
        !all(work, t->work_len, COUNT(work), LEFTOVER)) {
        fprintf(stderr, "%s: a lent slice holds what it should not\n", t->title);
        return 0;
    }
    return 1;
}

int main(void)
{
    int all_expected = 1;

    for (size_t i = 0; i < COUNT(trials); i++)
        all_expected &= as_expected(&trials[i]);
    return all_expected ? 0 : 1;
}
