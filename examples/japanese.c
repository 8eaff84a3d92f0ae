/*
 * A Japanese sentence, from its words to the positions of a string: admits a
 * small dictionary, builds the sentence's index, hands the numbers on as if they
 * came from elsewhere, receives them, recovers the sentence, and searches.
 * Exits with 1 if a call is refused.
 */
#include <stdint.h>
#include <stdio.h>
#include <stdlib.h>

#include "mopekihua.h"

#define COUNT(array) (sizeof(array) / sizeof((array)[0]))

/* The characters of a literal, without the zero that ends it. */
#define CHARS(literal) (literal), COUNT(literal) - 1

/* Words ascend by the numbers of their characters, a proper prefix first. */
static const uint16_t chars[] =
    u"する" u"図" u"図面" u"平面" u"平面図" u"面図" u"面積";
static const uint16_t lengths[] = {2, 1, 2, 2, 3, 2, 2};

#define DICTIONARY chars, COUNT(chars) - 1, lengths, COUNT(lengths)

/* "Records the area of the drawing of the ground plan." */
static const uint16_t sentence[] = u"平面図の図面に面積を記入する。";

#define N (COUNT(sentence) - 1)

static uint16_t sent[MOPEKIHUA_INDEX_BOUND(N)];
static uint16_t recovered[N];
static uint16_t positions[N];
static uint16_t work[MOPEKIHUA_WORK_NEEDED(N)];

static size_t accepted(const char *call, mopekihua_answer answer)
{
    if (answer.refusal != MOPEKIHUA_ACCEPTED) {
        fprintf(stderr, "%s: refused %u\n", call, (unsigned)answer.refusal);
        exit(1);
    }
    return answer.count;
}

/* A character in UTF-8; none of these is half of a UTF-16 pair. */
static void print_char(uint16_t c)
{
    if (c < 0x80) {
        putchar(c);
    } else if (c < 0x800) {
        putchar(0xC0 | c >> 6);
        putchar(0x80 | (c & 0x3F));
    } else {
        putchar(0xE0 | c >> 12);
        putchar(0x80 | (c >> 6 & 0x3F));
        putchar(0x80 | (c & 0x3F));
    }
}

static void print_chars(const uint16_t *run, size_t len)
{
    for (size_t i = 0; i < len; i++)
        print_char(run[i]);
}

/* What a directory line spells: a word, or the lone character it names. */
static void print_key(const uint16_t *line)
{
    size_t start = 0;

    if (line[0] == 1) {
        print_char(line[1]);
        return;
    }
    for (size_t word = 0; word < line[1]; word++)
        start += lengths[word];
    print_chars(chars + start, lengths[line[1]]);
}

/* Each key with its positions. */
static void print_index(const uint16_t *index)
{
    const uint16_t *position = index + MOPEKIHUA_HEADER + 3 * (size_t)index[1];

    for (size_t i = 0; i < index[1]; i++) {
        const uint16_t *line = index + MOPEKIHUA_HEADER + 3 * i;
        printf("  ");
        print_key(line);
        for (size_t j = 0; j < line[2]; j++)
            printf(" %u", (unsigned)*position++);
        printf("\n");
    }
}

static void search(size_t sent_len, const uint16_t *string, size_t len)
{
    size_t found = accepted(
        "search", mopekihua_search(DICTIONARY, sent, sent_len, string, len,
                                   positions, COUNT(positions)));

    print_chars(string, len);
    printf(" stands at %zu position%s:", found, found == 1 ? "" : "s");
    for (size_t i = 0; i < found; i++)
        printf(" %u", (unsigned)positions[i]);
    printf("\n");
}

int main(void)
{
    printf("words: %zu\n", accepted("admit", mopekihua_admit(DICTIONARY)));

    size_t sent_len = accepted(
        "build", mopekihua_build(DICTIONARY, sentence, N, sent, COUNT(sent),
                                 work, COUNT(work)));
    printf("the index has %zu numbers:\n", sent_len);
    print_index(sent);

    /* From here on only the numbers are known, and not the sentence. */
    printf("received, characters: %zu\n",
           accepted("receive", mopekihua_receive(DICTIONARY, sent, sent_len, work,
                                                 COUNT(work))));
    size_t len = accepted(
        "recover", mopekihua_recover(DICTIONARY, sent, sent_len, recovered,
                                     COUNT(recovered), work, COUNT(work)));
    printf("the sentence: ");
    print_chars(recovered, len);
    printf("\n");

    search(sent_len, CHARS(u"面"));
    search(sent_len, CHARS(u"図"));
    search(sent_len, CHARS(u"図面に面積"));
    search(sent_len, CHARS(u"断面図"));
    return 0;
}
