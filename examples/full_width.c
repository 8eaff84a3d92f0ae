/*
 * Pipe sizes lettered in full-width forms: admits words that are not replaced
 * and words that are, builds the index of a sheet in both widths, recovers its
 * lettering, and searches it for sizes typed in either width. Exits with 1 if
 * an answer is not the one expected.
 */
#include <stdint.h>
#include <stdio.h>
#include <string.h>

#include "mopekihua.h"

#define COUNT(array) (sizeof(array) / sizeof((array)[0]))

/* The characters of a literal, without the zero that ends it. */
#define CHARS(literal) (literal), COUNT(literal) - 1

#define NUMBERS(...) \
    (const uint16_t[]){__VA_ARGS__}, COUNT(((const uint16_t[]){__VA_ARGS__}))

/* The words DN and SGP as they are typed; they ascend replaced, too. */
static uint16_t chars[] = u"ＤＮ" u"ＳＧＰ";
static const uint16_t lengths[] = {2, 3};

#define DICTIONARY chars, COUNT(chars) - 1, lengths, COUNT(lengths)

/* Three pipes: one lettered in each width, and one in both. */
static const uint16_t lettering[] =
    u"冷水ＳＧＰ ＤＮ１５、冷温水SGP DN15、ＤN2０";

/* The same with every full-width form replaced. */
static const uint16_t plain[] = u"冷水SGP DN15、冷温水SGP DN15、DN20";

#define N (COUNT(lettering) - 1)

static uint16_t sheet[MOPEKIHUA_INDEX_BOUND(N)];
static uint16_t plain_sheet[MOPEKIHUA_INDEX_BOUND(N)];
static uint16_t recovered[N];
static uint16_t positions[N];
static uint16_t work[MOPEKIHUA_WORK_NEEDED(N)];

typedef struct {
    const char *title;
    const uint16_t *string;
    size_t string_len;
    const uint16_t *found;
    size_t found_len;
} trial;

static const trial trials[] = {
    {"DN15", CHARS(u"DN15"), NUMBERS(7, 19)},
    {"ＤＮ１５", CHARS(u"ＤＮ１５"), NUMBERS(7, 19)},
    {"ＳＧＰ DN15", CHARS(u"ＳＧＰ DN15"), NUMBERS(3, 15)},
    {"DN20", CHARS(u"DN20"), NUMBERS(24)},
    {"ＤＮ２０", CHARS(u"ＤＮ２０"), NUMBERS(24)},
    {"ＤＮ２５", CHARS(u"ＤＮ２５"), NULL, 0},
};

/* The character that a word must have in place of this one. */
static uint16_t replaced(uint16_t c)
{
    return c >= 0xFF01 && c <= 0xFF5E ? c - 0xFEE0 : c;
}

/* Whether a run of numbers is this one. */
static int same(const uint16_t *run, size_t len, const uint16_t *other,
                size_t other_len)
{
    return len == other_len &&
           (len == 0 || memcmp(run, other, len * sizeof *run) == 0);
}

/* Prints what admission answers; says whether it is as expected. */
static int admit(const char *title, uint32_t refusal)
{
    mopekihua_answer answer = mopekihua_admit(DICTIONARY);

    if (answer.refusal == MOPEKIHUA_ACCEPTED)
        printf("%s: accepted, words: %zu\n", title, answer.count);
    else
        printf("%s: refused %u\n", title, (unsigned)answer.refusal);
    return answer.refusal == refusal;
}

/* Builds the index of a text of N characters; answers its length. */
static size_t build(const uint16_t *text, uint16_t *index)
{
    mopekihua_answer built =
        mopekihua_build(DICTIONARY, text, N, index, MOPEKIHUA_INDEX_BOUND(N),
                        work, COUNT(work));

    return built.count;
}

/* A character in UTF-8; none of these is half of a UTF-16 pair. */
static void print_char(uint16_t c)
{
    if (c < 0x80) {
        putchar(c);
    } else {
        putchar(0xE0 | c >> 12);
        putchar(0x80 | (c >> 6 & 0x3F));
        putchar(0x80 | (c & 0x3F));
    }
}

/* Prints the text of the sheet; says whether it is as expected. */
static int recover(size_t sheet_len)
{
    mopekihua_answer text =
        mopekihua_recover(DICTIONARY, sheet, sheet_len, recovered,
                          COUNT(recovered), work, COUNT(work));

    printf("the text recovered: ");
    for (size_t i = 0; i < text.count; i++)
        print_char(recovered[i]);
    printf("\n");
    return same(recovered, text.count, plain, N);
}

/* Prints where a string stands; says whether it is as expected. */
static int search(const trial *t, size_t sheet_len)
{
    mopekihua_answer found =
        mopekihua_search(DICTIONARY, sheet, sheet_len, t->string, t->string_len,
                         positions, COUNT(positions));

    printf("%s stands at %zu position%s:", t->title, found.count,
           found.count == 1 ? "" : "s");
    for (size_t i = 0; i < found.count; i++)
        printf(" %u", (unsigned)positions[i]);
    printf("\n");
    return found.refusal == MOPEKIHUA_ACCEPTED &&
           same(positions, found.count, t->found, t->found_len);
}

int main(void)
{
    int expected = admit("words as typed", MOPEKIHUA_FULL_WIDTH_WORD);

    for (size_t i = 0; i < COUNT(chars); i++)
        chars[i] = replaced(chars[i]);
    expected &= admit("words replaced", MOPEKIHUA_ACCEPTED);

    size_t sheet_len = build(lettering, sheet);
    size_t plain_len = build(plain, plain_sheet);
    int equal = same(sheet, sheet_len, plain_sheet, plain_len);
    printf("the sheet and its replaced lettering have %s\n",
           equal ? "one index" : "two indexes");
    expected &= equal;

    expected &= recover(sheet_len);
    for (size_t i = 0; i < COUNT(trials); i++)
        expected &= search(&trials[i], sheet_len);
    if (!expected)
        fprintf(stderr, "an answer is not the one expected\n");
    return expected ? 0 : 1;
}
