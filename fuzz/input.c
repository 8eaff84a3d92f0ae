/*
 * The bytes are a header, the words, and the text or the delivered numbers,
 * which take what is left. Letters are mostly few, so that words stand in the
 * text, overlap and nest, and numbers are mostly near those that are needed.
 * Latin letters come in both widths.
 */
#include "input.h"

#include <string.h>

#include "width.h"

enum {
    MOST_WORDS = MOPEKIHUA_MOST_WORDS,
    MOST_CHARS = MOPEKIHUA_MOST_DICTIONARY_CHARACTERS,
    LONGEST_WORD = MOPEKIHUA_LONGEST_WORD,
    LONGEST_TEXT = MOPEKIHUA_LONGEST_TEXT,
    LONGEST_STRING = MOPEKIHUA_LONGEST_STRING,
    /* Room for more than is accepted. */
    OVER = 100
};

/* How letters are read, in the low bits of the style. */
enum { TWO_LETTERS, FOUR_LETTERS, KANA, ANY_NUMBER };

/* Further bits of the style. */
enum { SORTED = 4, DELIVERED = 8, LENGTH_CHANGED = 16, WORDS_UNREPLACED = 32 };

/* Sizes that stand for a limit. */
enum {
    LATE_TEXT = 0x9C,
    LONG_TEXT = 0x9D,
    MANY_WORDS = 0x9E,
    MANY_CHARS = 0x9F
};

/* Strings that are not cut from the text. */
enum { STRING_256 = 0xFD, STRING_257 = 0xFE, NO_STRING = 0xFF };

/* What is done to one that is cut from it. */
enum { LAST_CHANGED = 1, OTHER_WIDTH = 2 };

static struct {
    const uint8_t *next, *end;
} bytes;

static input in;
static uint16_t chars[MOST_CHARS + OVER], lengths[MOST_WORDS + OVER];
static uint16_t text[LONGEST_TEXT + OVER], string[LONGEST_STRING + 1];
static size_t chars_len, lengths_len, text_len, string_len;

/* The next byte; 0 where none is left. */
static uint8_t byte(void)
{
    return bytes.next < bytes.end ? *bytes.next++ : 0;
}

static uint16_t number(void)
{
    uint8_t high = byte();
    return (uint16_t)(high << 8 | byte());
}

/* The character in its other width, if it has one. */
static uint16_t other_width(uint16_t character)
{
    if (character >= 0x21 && character <= 0x7E)
        return character + 0xFEE0;
    return replaced(character);
}

/* One of so many letters, in its full-width form where the top bit is set. */
static uint16_t latin(unsigned letters)
{
    uint8_t next = byte();
    uint16_t letter = 'a' + ((next - 'a') & (letters - 1));
    return next & 0x80 ? other_width(letter) : letter;
}

static uint16_t letter(uint8_t style)
{
    switch (style & 3) {
    case TWO_LETTERS:
        return latin(2);
    case FOUR_LETTERS:
        return latin(4);
    case KANA:
        return 0x3041 + byte() % 86;
    default:
        return number();
    }
}

static void add_word(const uint16_t *word, size_t len)
{
    memcpy(chars + chars_len, word, len * sizeof *word);
    chars_len += len;
    lengths[lengths_len++] = (uint16_t)len;
}

/* The order of words: by their characters, a proper prefix first. */
static int compare(const uint16_t *a, size_t a_len, const uint16_t *b, size_t b_len)
{
    for (size_t i = 0; i < a_len && i < b_len; i++)
        if (a[i] != b[i])
            return a[i] < b[i] ? -1 : 1;
    return (a_len > b_len) - (a_len < b_len);
}

/* Adds a word where it belongs, unless it is there. */
static void add_sorted(const uint16_t *word, size_t len)
{
    size_t at = 0, start = 0;

    while (at < lengths_len) {
        int order = compare(chars + start, lengths[at], word, len);
        if (order == 0)
            return;
        if (order > 0)
            break;
        start += lengths[at++];
    }
    memmove(chars + start + len, chars + start,
            (chars_len - start) * sizeof *chars);
    memcpy(chars + start, word, len * sizeof *word);
    memmove(lengths + at + 1, lengths + at, (lengths_len - at) * sizeof *lengths);
    lengths[at] = (uint16_t)len;
    chars_len += len;
    lengths_len++;
}

/*
 * Words of 1 to 32 letters, mostly of a few; where not sorted also of 0 or 33.
 * They are replaced unless the style says otherwise.
 */
static void read_words(uint8_t style)
{
    uint16_t word[LONGEST_WORD + 1];

    for (size_t count = byte() % 40; count > 0; count--) {
        uint8_t size = byte();
        size_t len = size < 200 ? 1 + size % 4 : size % (LONGEST_WORD + 2);
        if (style & SORTED)
            len = len == 0 ? 1 : len > LONGEST_WORD ? LONGEST_WORD : len;
        for (size_t i = 0; i < len; i++) {
            uint16_t next = letter(style);
            word[i] = style & WORDS_UNREPLACED ? next : replaced(next);
        }
        if (style & SORTED)
            add_sorted(word, len);
        else
            add_word(word, len);
    }
}

/* Ascending words around a limit: as many as this, or of as many characters. */
static void make_words(size_t count, size_t total)
{
    uint16_t word[LONGEST_WORD];

    memset(word, 0xFF, sizeof word);
    for (size_t i = 0; i < count; i++) {
        word[0] = (uint16_t)i;
        add_word(word, 1);
    }
    for (size_t i = 0; chars_len < total; i++) {
        size_t left = total - chars_len;
        word[0] = (uint16_t)i;
        add_word(word, left < LONGEST_WORD ? left : LONGEST_WORD);
    }
}

static void read_dictionary(uint8_t style, uint8_t size)
{
    chars_len = lengths_len = 0;
    if (size == MANY_WORDS)
        make_words(MOST_WORDS - 6 + byte() % 12, 0);
    else if (size == MANY_CHARS)
        make_words(0, MOST_CHARS - 6 + byte() % 12);
    else
        read_words(style);
    if ((style & LENGTH_CHANGED) && lengths_len > 0)
        lengths[byte() % lengths_len] += (uint16_t)(1 + byte());
}

/*
 * Another letter in front of the text, as many as the starts that
 * mopekihua_first looks at before it goes on to further ones, or as its smaller
 * table has, or some fewer.
 */
static size_t put_in_front(uint8_t choice)
{
    size_t len = (choice & 0x80 ? 8192 : 1024) - (choice & 0x7F);

    for (size_t i = 0; i < len; i++)
        text[i] = 'z';
    return len;
}

/*
 * The rest of the bytes; where asked for, behind other letters, or repeated up
 * to about the longest.
 */
static void read_text(uint8_t style, uint8_t size)
{
    size_t long_text = size == LONG_TEXT ? LONGEST_TEXT - 6 + byte() % 12 : 0;
    int is_late = size == LATE_TEXT && !(style & DELIVERED);

    text_len = is_late ? put_in_front(byte()) : 0;
    while (bytes.next < bytes.end && text_len < LONGEST_TEXT)
        text[text_len++] = (style & DELIVERED) ? number() : letter(style);
    if (text_len == 0 && long_text > 0)
        text[text_len++] = 'a';
    for (size_t from = 0; text_len < long_text; from++)
        text[text_len++] = text[from];
}

/*
 * Cut from the text, one in two with its last letter changed, and one in two
 * with every letter in its other width; or of a limit.
 */
static void make_string(uint8_t choice, uint16_t start, uint8_t size)
{
    string_len = 0;
    if (choice >= STRING_256 || text_len == 0) {
        size_t len = choice == NO_STRING ? 0 : choice == STRING_257 ? 257 : 256;
        while (string_len < len) {
            string[string_len] = text_len ? text[string_len % text_len] : 'a';
            string_len++;
        }
        return;
    }
    size_t first = start % text_len;
    size_t len = size < 128 ? 1 + size % 12 : 2 * (size_t)(size - 127);
    while (string_len < len && first + string_len < text_len) {
        string[string_len] = text[first + string_len];
        string_len++;
    }
    if (choice & LAST_CHANGED)
        string[string_len - 1] = text[0];
    if (choice & OTHER_WIDTH)
        for (size_t i = 0; i < string_len; i++)
            string[i] = other_width(string[i]);
}

/* Mostly none, and mostly with small numbers. */
static void read_changes(void)
{
    size_t count = byte() % (4 * MOST_CHANGES);

    in.changes = count <= MOST_CHANGES ? count : 0;
    for (size_t i = 0; i < in.changes; i++) {
        uint8_t kind = byte();
        in.change[i].kind = kind % CHANGES;
        in.change[i].place = number();
        in.change[i].number = kind & 0x80 ? number() : (uint16_t)(byte() - 3);
    }
}

const input *read_input(const uint8_t *data, size_t len)
{
    bytes.next = data;
    bytes.end = data + len;
    memset(&in, 0, sizeof in);

    in.operation = byte() % OPERATIONS;
    uint8_t style = byte(), size = byte();
    in.output = byte();
    in.work = byte();
    uint8_t string_choice = byte();
    uint16_t string_start = number();
    uint8_t string_size = byte();
    read_changes();
    read_dictionary(style, size);
    read_text(style, size);
    make_string(string_choice, string_start, string_size);

    in.delivered = (style & DELIVERED) != 0;
    in.lent.parts[CHARS] = (slice){chars, chars_len};
    in.lent.parts[LENGTHS] = (slice){lengths, lengths_len};
    in.lent.parts[in.delivered ? INDEX : TEXT] = (slice){text, text_len};
    if (in.delivered)
        in.lent.parts[GAPS] = in.lent.parts[INDEX];
    in.lent.parts[STRING] = (slice){string, string_len};
    return &in;
}

uint32_t dictionary_refusal(const loan *lent)
{
    slice word_chars = lent->parts[CHARS], word_lengths = lent->parts[LENGTHS];
    size_t sum = 0, length_before = 0;

    if (word_lengths.len > MOST_WORDS || word_chars.len > MOST_CHARS)
        return 1;
    for (size_t i = 0; i < word_lengths.len; i++) {
        size_t length = word_lengths.numbers[i];
        if (length == 0 || length > LONGEST_WORD)
            return 2;
        sum += length;
    }
    if (sum != word_chars.len)
        return 2;
    const uint16_t *word = word_chars.numbers;
    for (size_t i = 0; i < word_lengths.len; i++) {
        size_t length = word_lengths.numbers[i];
        if (i > 0 && compare(word - length_before, length_before, word, length) >= 0)
            return 3;
        word += length;
        length_before = length;
    }
    for (size_t i = 0; i < word_chars.len; i++)
        if (is_full_width(word_chars.numbers[i]))
            return 12;
    return 0;
}

size_t room_for(uint8_t choice, size_t needed)
{
    switch (choice & 7) {
    case 0:
        return needed > 0 ? needed - 1 : 0;
    case 1:
        return needed / 2;
    case 2:
        return needed < choice ? needed : choice;
    case 3:
        return needed + choice;
    case 4:
        return 0;
    default:
        return needed;
    }
}
