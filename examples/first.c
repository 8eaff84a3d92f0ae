/*
 * Asks whether superseded door numbers are left on a sheet: builds the index of
 * its lettering, then asks the index alone for the first position of each
 * number; meets refusals last. Exits with 1 if an answer is not the one
 * expected.
 */
#include <stdint.h>
#include <stdio.h>

#include "mopekihua.h"

#define COUNT(array) (sizeof(array) / sizeof((array)[0]))

/* The characters of a literal, without the zero that ends it. */
#define CHARS(literal) (literal), COUNT(literal) - 1

/* Words ascend by the numbers of their characters, a proper prefix first. */
static const uint16_t chars[] = u"AD" u"SD" u"WD" u"事務室" u"廊下" u"建具"
                                u"建具表" u"機械室" u"玄関" u"階段室";
static const uint16_t lengths[] = {2, 2, 2, 3, 2, 2, 3, 3, 2, 3};

#define DICTIONARY chars, COUNT(chars) - 1, lengths, COUNT(lengths)

/* The doors of entrance, office, plant room, corridor and stairs. */
static const uint16_t lettering[] =
    u"1階建具表 玄関AD1 事務室WD2 機械室SD3 廊下WD2 階段室SD3";

#define N (COUNT(lettering) - 1)

static uint16_t sheet[MOPEKIHUA_INDEX_BOUND(N)];
static uint16_t work[MOPEKIHUA_WORK_NEEDED(N)];

typedef struct {
    const char *title;
    const uint16_t *string;
    size_t string_len;
    /* How many numbers the index is lent without. */
    size_t lacking;
    uint32_t refusal;
    uint32_t position;
} trial;

static const uint16_t long_string[257];

static const trial trials[] = {
    {"AD1", CHARS(u"AD1"), 0, MOPEKIHUA_ACCEPTED, 9},
    {"WD2", CHARS(u"WD2"), 0, MOPEKIHUA_ACCEPTED, 16},
    {"SD3 of the stairs", CHARS(u"階段室SD3"), 0, MOPEKIHUA_ACCEPTED, 33},
    {"WD5", CHARS(u"WD5"), 0, MOPEKIHUA_ACCEPTED, 0},
    {"SD3A", CHARS(u"SD3A"), 0, MOPEKIHUA_ACCEPTED, 0},
    {"an index that lost its last number", CHARS(u"WD2"), 1,
     MOPEKIHUA_INDEX_NOT_READABLE, 0},
    {"the empty string", CHARS(u""), 0, MOPEKIHUA_STRING_LENGTH_WRONG, 0},
    {"257 characters", long_string, 257, 0, MOPEKIHUA_STRING_LENGTH_WRONG, 0},
};

/* Prints the answer to one question; says whether it is the expected one. */
static int as_expected(const trial *t, size_t sheet_len)
{
    mopekihua_first_answer answer =
        mopekihua_first(DICTIONARY, sheet, sheet_len - t->lacking, t->string,
                        t->string_len);

    if (answer.refusal != MOPEKIHUA_ACCEPTED)
        printf("%s: refused %u\n", t->title, (unsigned)answer.refusal);
    else if (answer.position != 0)
        printf("%s: left, first at %u\n", t->title, (unsigned)answer.position);
    else
        printf("%s: left nowhere\n", t->title);

    if (answer.refusal == t->refusal && answer.position == t->position)
        return 1;
    fprintf(stderr, "%s: not the answer expected\n", t->title);
    return 0;
}

int main(void)
{
    int all_expected = 1;
    mopekihua_answer built = mopekihua_build(
        DICTIONARY, lettering, N, sheet, COUNT(sheet), work, COUNT(work));

    if (built.refusal != MOPEKIHUA_ACCEPTED) {
        fprintf(stderr, "build: refused %u\n", (unsigned)built.refusal);
        return 1;
    }
    /* From here on only the numbers are known, and not the lettering. */
    for (size_t i = 0; i < COUNT(trials); i++)
        all_expected &= as_expected(&trials[i], built.count);
    return all_expected ? 0 : 1;
}
