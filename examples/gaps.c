/*
 * Packs the index of a sheet for storage: rearranges its positions into gaps,
 * packs these in bytes, and restores the index from the bytes; meets refusals
 * last. Exits with 1 if an answer is not the one expected.
 */
#include <stdint.h>
#include <stdio.h>
#include <string.h>

#include "mopekihua.h"

#define COUNT(array) (sizeof(array) / sizeof((array)[0]))

/* Words ascend by the numbers of their characters, a proper prefix first. */
static const uint16_t chars[] = u"SD" u"WD" u"事務室" u"会議室" u"便所" u"廊下"
                                u"階";
static const uint16_t lengths[] = {2, 2, 3, 3, 2, 2, 1};

#define DICTIONARY chars, COUNT(chars) - 1, lengths, COUNT(lengths)

/* The doors of nine floors: of office, meeting room, corridor and lavatory. */
#define FLOOR(number) number u"階事務室WD1会議室WD2廊下SD3便所WD4"

static const uint16_t lettering[] =
    FLOOR(u"1") FLOOR(u"2") FLOOR(u"3") FLOOR(u"4") FLOOR(u"5") FLOOR(u"6")
    FLOOR(u"7") FLOOR(u"8") FLOOR(u"9");

#define N (COUNT(lettering) - 1)

/* The most numbers that the index and its gap form have. */
#define MOST MOPEKIHUA_INDEX_BOUND(N)

static uint16_t sheet[MOST], gaps[MOST], unpacked[MOST], restored[MOST];
static uint8_t bytes[3 * MOST];
static uint16_t work[MOPEKIHUA_WORK_NEEDED(N)];

/*
 * Packs numbers in bytes of 7 bits each, the low bits first; the top bit of a
 * byte says that another one follows. So a number below 128 takes one byte, one
 * below 16,384 two, any other three. Answers the number of bytes.
 */
static size_t pack(uint8_t *packed, const uint16_t *numbers, size_t len)
{
    size_t count = 0;

    for (size_t i = 0; i < len; i++) {
        uint16_t left = numbers[i];
        for (; left >= 0x80; left >>= 7)
            packed[count++] = 0x80 | (left & 0x7F);
        packed[count++] = (uint8_t)left;
    }
    return count;
}

/* The numbers that pack was given; answers how many there are. */
static size_t unpack(uint16_t *numbers, const uint8_t *packed, size_t len)
{
    size_t count = 0;
    uint32_t number = 0;
    unsigned shift = 0;

    for (size_t i = 0; i < len; i++) {
        number |= (uint32_t)(packed[i] & 0x7F) << shift;
        shift += 7;
        if (packed[i] < 0x80) {
            numbers[count++] = (uint16_t)number;
            number = shift = 0;
        }
    }
    return count;
}

/* A character in UTF-8; none of these is half of a UTF-16 pair. */
static void print_char(uint16_t c)
{
    if (c < 0x80) {
        putchar(c);
    } else {
        putchar(0xE0 | c >> 12);
        putchar(0x80 | (c >> 6 & 0x3F));
        putchar(0x80 | (c & 0x3F));
    }
}

/* What a directory line spells: a word, or the lone character it names. */
static void print_key(const uint16_t *line)
{
    size_t start = 0;

    if (line[0] == 1) {
        print_char(line[1]);
        return;
    }
    for (size_t word = 0; word < line[1]; word++)
        start += lengths[word];
    for (size_t i = 0; i < lengths[line[1]]; i++)
        print_char(chars[start + i]);
}

static void print_list(const char *title, const uint16_t *list, size_t len)
{
    printf("    %s", title);
    for (size_t i = 0; i < len; i++)
        printf(" %u", (unsigned)list[i]);
    printf("\n");
}

/* Each key with its positions, as they are in the index and as gaps. */
static void print_lists(void)
{
    size_t start = MOPEKIHUA_HEADER + 3 * (size_t)sheet[1];

    for (size_t i = 0; i < sheet[1]; i++) {
        const uint16_t *line = sheet + MOPEKIHUA_HEADER + 3 * i;
        printf("  '");
        print_key(line);
        printf("'\n");
        print_list("at  ", sheet + start, line[2]);
        print_list("gaps", gaps + start, line[2]);
        start += line[2];
    }
}

/* Says whether a call was accepted with this count. */
static int accepted(const char *call, mopekihua_answer answer, size_t count)
{
    if (answer.refusal == MOPEKIHUA_ACCEPTED && answer.count == count)
        return 1;
    fprintf(stderr, "%s: refusal %u, count %zu\n", call, (unsigned)answer.refusal,
            answer.count);
    return 0;
}

/* Prints how a gap form is refused; says whether that is as expected. */
static int refused(const char *title, size_t len, size_t output_len,
                   uint32_t refusal)
{
    mopekihua_answer answer =
        mopekihua_from_gaps(DICTIONARY, gaps, len, restored, output_len);

    printf("%s: refused %u\n", title, (unsigned)answer.refusal);
    return answer.refusal == refusal && answer.count == 0;
}

int main(void)
{
    mopekihua_answer built = mopekihua_build(
        DICTIONARY, lettering, N, sheet, COUNT(sheet), work, COUNT(work));
    size_t len = built.count;

    if (!accepted("build", built, len) ||
        !accepted("to_gaps",
                  mopekihua_to_gaps(DICTIONARY, sheet, len, gaps, COUNT(gaps)),
                  len))
        return 1;
    printf("the index has %zu numbers:\n", len);
    print_lists();

    /* Packed once only to compare; the gaps are what is stored. */
    size_t plain_len = pack(bytes, sheet, len);
    size_t bytes_len = pack(bytes, gaps, len);
    printf("packed: %zu bytes, instead of %zu without gaps\n", bytes_len,
           plain_len);

    /* From here on only the bytes are known. */
    size_t unpacked_len = unpack(unpacked, bytes, bytes_len);
    if (!accepted("from_gaps",
                  mopekihua_from_gaps(DICTIONARY, unpacked, unpacked_len,
                                      restored, COUNT(restored)),
                  len))
        return 1;
    int equal = memcmp(restored, sheet, len * sizeof *sheet) == 0;
    printf("restored: %s index\n", equal ? "the same" : "another");

    int expected = equal;
    expected &= refused("an output one short", len, len - 1,
                        MOPEKIHUA_OUTPUT_TOO_SHORT);
    expected &= refused("the last number lost", len - 1, len,
                        MOPEKIHUA_INDEX_NOT_READABLE);
    /* The distance from the first position of SD to its second. */
    uint16_t *gap = gaps + MOPEKIHUA_HEADER + 3 * (size_t)gaps[1] + 1;
    *gap = 0;
    expected &= refused("a gap of 0", len, len, MOPEKIHUA_INDEX_NOT_READABLE);
    *gap = 65534;
    expected &= refused("a gap past the text", len, len,
                        MOPEKIHUA_INDEX_NOT_READABLE);
    if (!expected)
        fprintf(stderr, "an answer is not the one expected\n");
    return expected ? 0 : 1;
}
