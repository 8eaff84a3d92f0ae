/*
 * Lends dictionaries that are right and dictionaries that are damaged, and
 * prints what admission answers to each. Exits with 1 if an answer is not the
 * one expected.
 */
#include <stdint.h>
#include <stdio.h>

#include "mopekihua.h"

typedef struct {
    const char *title;
    const uint16_t *chars;
    size_t chars_len;
    const uint16_t *lengths;
    size_t lengths_len;
    mopekihua_answer expected;
} trial;

#define COUNT(array) (sizeof(array) / sizeof((array)[0]))

/* The characters of a literal, without the zero that ends it. */
#define CHARS(literal) (literal), COUNT(literal) - 1

#define LENGTHS(...) \
    (const uint16_t[]){__VA_ARGS__}, COUNT(((const uint16_t[]){__VA_ARGS__}))

/* More words than a dictionary may have: the characters 0, 1, 2, .. alone. */
static uint16_t many_chars[4097];
static uint16_t many_lengths[4097];

static const trial trials[] = {
    {"A: ab, abc, bcd", CHARS(u"ab" u"abc" u"bcd"), LENGTHS(2, 3, 3),
     {MOPEKIHUA_ACCEPTED, 3}},
    {"B: a, aa, aaa", CHARS(u"a" u"aa" u"aaa"), LENGTHS(1, 2, 3),
     {MOPEKIHUA_ACCEPTED, 3}},
    {"Japanese: 図, 図面, 寸法, 平面図, 面",
     CHARS(u"図" u"図面" u"寸法" u"平面図" u"面"), LENGTHS(1, 2, 2, 3, 1),
     {MOPEKIHUA_ACCEPTED, 5}},
    {"empty", many_chars, 0, many_lengths, 0, {MOPEKIHUA_ACCEPTED, 0}},
    {"4,096 words", many_chars, 4096, many_lengths, 4096,
     {MOPEKIHUA_ACCEPTED, 4096}},
    {"4,097 words", many_chars, 4097, many_lengths, 4097,
     {MOPEKIHUA_DICTIONARY_TOO_LARGE, 0}},
    {"a length of 33", CHARS(u"abcdefghijklmnopqrstuvwxyz0123456"), LENGTHS(33),
     {MOPEKIHUA_LENGTHS_WRONG, 0}},
    {"a length of 0", CHARS(u"ab"), LENGTHS(0, 2), {MOPEKIHUA_LENGTHS_WRONG, 0}},
    {"lengths 2, 3, 2 for 8 characters", CHARS(u"ababcbcd"), LENGTHS(2, 3, 2),
     {MOPEKIHUA_LENGTHS_WRONG, 0}},
    {"falling: b, a", CHARS(u"b" u"a"), LENGTHS(1, 1),
     {MOPEKIHUA_WORDS_NOT_ASCENDING, 0}},
    {"equal: ab, ab", CHARS(u"ab" u"ab"), LENGTHS(2, 2),
     {MOPEKIHUA_WORDS_NOT_ASCENDING, 0}},
    {"prefix last: abc, ab", CHARS(u"abc" u"ab"), LENGTHS(3, 2),
     {MOPEKIHUA_WORDS_NOT_ASCENDING, 0}},
    {"full-width: ab, ａｂ", CHARS(u"ab" u"ａｂ"), LENGTHS(2, 2),
     {MOPEKIHUA_FULL_WIDTH_WORD, 0}},
    {"full-width and falling: ａｂ, ab", CHARS(u"ａｂ" u"ab"), LENGTHS(2, 2),
     {MOPEKIHUA_WORDS_NOT_ASCENDING, 0}},
};

static const char *explain(uint32_t refusal)
{
    switch (refusal) {
    case MOPEKIHUA_DICTIONARY_TOO_LARGE:
        return "more than 4,096 words or 65,535 dictionary characters";
    case MOPEKIHUA_LENGTHS_WRONG:
        return "a word length is 0 or above 32, or the lengths do not add up "
               "to the characters lent";
    case MOPEKIHUA_WORDS_NOT_ASCENDING:
        return "words do not ascend strictly";
    case MOPEKIHUA_FULL_WIDTH_WORD:
        return "a word holds a character from FF01 to FF5E";
    default:
        return "not an answer of admission";
    }
}

/* Prints the answer to one dictionary; says whether it is the expected one. */
static int as_expected(const trial *t)
{
    mopekihua_answer answer =
        mopekihua_admit(t->chars, t->chars_len, t->lengths, t->lengths_len);

    if (answer.refusal == MOPEKIHUA_ACCEPTED)
        printf("%s -> accepted, words: %zu\n", t->title, answer.count);
    else
        printf("%s -> refused %u: %s\n", t->title, (unsigned)answer.refusal,
               explain(answer.refusal));

    if (answer.refusal == t->expected.refusal && answer.count == t->expected.count)
        return 1;
    fprintf(stderr, "%s: expected refusal %u and count %zu, not %u and %zu\n",
            t->title, (unsigned)t->expected.refusal, t->expected.count,
            (unsigned)answer.refusal, answer.count);
    return 0;
}

int main(void)
{
    int all_expected = 1;

    for (size_t i = 0; i < COUNT(many_chars); i++) {
        many_chars[i] = (uint16_t)i;
        many_lengths[i] = 1;
    }
    for (size_t i = 0; i < COUNT(trials); i++)
        all_expected &= as_expected(&trials[i]);
    return all_expected ? 0 : 1;
}
