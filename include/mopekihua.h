/*
 * Mopekihua: a full-text index over 16-bit characters, proved correct.
 *
 * Link with libmopekihua.a. Every function works on memory that the caller
 * lends for the time of the call; nothing is allocated and nothing is kept.
 *
 * A slice is lent as a pointer and a number of elements, in this order. The
 * pointer is aligned for its element and not null, and that many elements can
 * be read behind it. For a slice of 0 elements it need not point at anything,
 * but should still be aligned and not null.
 *
 * A slice whose elements are not const is lent to be written: its elements can
 * be written too, and none of them belongs to another slice of the same call.
 *
 * A full-width form is a character from FF01 to FF5E (hexadecimal). In texts
 * and search strings each is replaced, before anything else, by the character
 * FEE0 lower, from 0021 to 007E (width folding), so both spellings count as the
 * same lettering. FF00 and FF5F stay, and the slices lent are not changed. A
 * text without full-width forms is a replaced text. Words of a dictionary must
 * come replaced; the numbers of an index are never replaced.
 */
#ifndef MOPEKIHUA_H
#define MOPEKIHUA_H

#include <stddef.h>
#include <stdint.h>

#ifdef __cplusplus
extern "C" {
#endif

/* What is accepted at most; each bound is itself accepted. */
#define MOPEKIHUA_MOST_WORDS 4096
#define MOPEKIHUA_MOST_DICTIONARY_CHARACTERS 65535
#define MOPEKIHUA_LONGEST_WORD 32
#define MOPEKIHUA_LONGEST_TEXT 65535
#define MOPEKIHUA_LONGEST_STRING 256

/* The length of the work slice that a text of n characters asks for. */
#define MOPEKIHUA_WORK_NEEDED(n) (8 * (size_t)(n))

/* How many numbers of an index precede its directory: n and K. */
#define MOPEKIHUA_HEADER 2

/* The most numbers that the index of a text of n characters has. */
#define MOPEKIHUA_INDEX_BOUND(n) (MOPEKIHUA_HEADER + 4 * (size_t)(n))

/*
 * Why an operation declines. Where several numbers apply, the first in the
 * operation's own order is answered, in which its answers are listed below. It
 * is not always the lowest: 12 is tested right after 3, and 9 before 8. An
 * operation tests only what it is handed.
 */
enum mopekihua_refusal {
    /* Not a refusal: the call was accepted. */
    MOPEKIHUA_ACCEPTED = 0,

    /* more than 4,096 words or 65,535 dictionary characters */
    MOPEKIHUA_DICTIONARY_TOO_LARGE = 1,

    /* a word length is 0 or above 32, or the lengths do not add up to the
     * characters lent */
    MOPEKIHUA_LENGTHS_WRONG = 2,

    /* words do not ascend strictly */
    MOPEKIHUA_WORDS_NOT_ASCENDING = 3,

    /* text longer than 65,535 */
    MOPEKIHUA_TEXT_TOO_LONG = 4,

    /* index not readable */
    MOPEKIHUA_INDEX_NOT_READABLE = 5,

    /* search string empty or longer than 256 */
    MOPEKIHUA_STRING_LENGTH_WRONG = 6,

    /* work slice, of 16-bit numbers, shorter than 8n of them (build,
     * reception, recovery) */
    MOPEKIHUA_WORK_TOO_SHORT = 7,

    /* output shorter than the whole result; for recovery, shorter than n;
     * where no result exists, 8 is not given */
    MOPEKIHUA_OUTPUT_TOO_SHORT = 8,

    /* index readable, but no text has it (reception, recovery) */
    MOPEKIHUA_NO_TEXT = 9,

    /* job sheet longer than 32,768 bytes */
    MOPEKIHUA_JOB_SHEET_TOO_LONG = 10,

    /* job sheet breaks its form or counts */
    MOPEKIHUA_JOB_SHEET_MALFORMED = 11,

    /* a word holds a character from FF01 to FF5E */
    MOPEKIHUA_FULL_WIDTH_WORD = 12
};

/*
 * What an operation answers. A refusal and a count are separate, so a refusal
 * 5 and an accepted count 5 are distinct.
 */
typedef struct {
    /* 0 (MOPEKIHUA_ACCEPTED), or the number of the refusal. */
    uint32_t refusal;
    /* What the operation counts; 0 beside a refusal. */
    size_t count;
} mopekihua_answer;

/* What the tally answers. */
typedef struct {
    /* 0 (MOPEKIHUA_ACCEPTED), or the number of the refusal. */
    uint32_t refusal;
    /* The number of entries, the sum of by_length; 0 beside a refusal. */
    size_t count;
    /* The number of entries of each length: by_length[0] of those of one
     * character, by_length[31] of those of 32. All 0 beside a refusal. */
    uint64_t by_length[32];
} mopekihua_tally_answer;

/* What the search for the first position answers. */
typedef struct {
    /* 0 (MOPEKIHUA_ACCEPTED), or the number of the refusal. */
    uint32_t refusal;
    /* The first position found, from 1 to 65,535; 0 where there is none, and
     * beside a refusal. */
    uint32_t position;
} mopekihua_first_answer;

/*
 * Admits a dictionary: says whether it is one that the other operations take.
 *
 * A dictionary is lent as the characters of all its words run together
 * (chars) and the length of each word, in order (lengths). The words ab, abc
 * and bcd are lent as the 8 characters ababcbcd and the 3 lengths 2, 3, 3. A
 * character is any 16-bit number; none has a special meaning but the full-width
 * forms. Words are not replaced here: one that holds such a form would stand in
 * no replaced text, and is refused.
 *
 * Answers, the first that applies:
 *   MOPEKIHUA_DICTIONARY_TOO_LARGE  lengths_len is above 4,096, or chars_len
 *                                   is above 65,535
 *   MOPEKIHUA_LENGTHS_WRONG         a length is 0 or above 32, or the sum of
 *                                   the lengths is not chars_len
 *   MOPEKIHUA_WORDS_NOT_ASCENDING   a word is equal to the one before it or
 *                                   sorts below it, compared character by
 *                                   character, a proper prefix first
 *   MOPEKIHUA_FULL_WIDTH_WORD       a word holds a character from FF01 to FF5E
 *   MOPEKIHUA_ACCEPTED              count is the number of words, lengths_len
 *
 * The empty dictionary, both slices of 0 elements, is accepted with count 0.
 *
 * Nothing is written. For slices lent as said above the call always returns,
 * whatever they hold, in time linear in the characters lent.
 */
mopekihua_answer mopekihua_admit(const uint16_t *chars, size_t chars_len,
                                 const uint16_t *lengths, size_t lengths_len);

/*
 * Builds the index of a text: every word and every lone character of it that
 * lies within no longer one, under its key, with its position.
 *
 * The dictionary is lent as to mopekihua_admit. The text is text_len
 * characters, at positions 1 to text_len. What is indexed is the replaced text:
 * two texts have the same index exactly if their replaced texts are equal.
 *
 * The index is a run of 16-bit numbers: n, the length of the text; K, the
 * number of keys; K directory lines of kind, value, count; then all positions,
 * key after key in the order of the lines. Kind 0 is a word, its value the
 * number of the word, the first being 0. Kind 1 is a lone character, one that
 * is not itself a word, its value the character. Lines ascend by kind and then
 * by value, and the positions under a key ascend. With the words ab, abc and
 * bcd the index of the text abcdab, in either width, is
 *
 *   6  3    0 0 1   0 1 1   0 2 1    5   1   2
 *
 * Answers, the first that applies:
 *   MOPEKIHUA_DICTIONARY_TOO_LARGE, MOPEKIHUA_LENGTHS_WRONG,
 *   MOPEKIHUA_WORDS_NOT_ASCENDING,
 *   MOPEKIHUA_FULL_WIDTH_WORD       as mopekihua_admit answers
 *   MOPEKIHUA_TEXT_TOO_LONG         text_len is above 65,535
 *   MOPEKIHUA_WORK_TOO_SHORT        work_len is below 8 * text_len
 *   MOPEKIHUA_OUTPUT_TOO_SHORT      output_len is below the length of the
 *                                   index
 *   MOPEKIHUA_ACCEPTED              the index is written to the front of
 *                                   output; count is its length
 *
 * An index has at most MOPEKIHUA_INDEX_BOUND(text_len) numbers, so an output of
 * this length is never too short.
 *
 * output past count is left as it was; after a refusal all of output is. work
 * may hold anything, and all its work_len elements are 0 after every call,
 * refused or not. For slices lent as said above the call always returns,
 * whatever they hold.
 */
mopekihua_answer mopekihua_build(const uint16_t *chars, size_t chars_len,
                                 const uint16_t *lengths, size_t lengths_len,
                                 const uint16_t *text, size_t text_len,
                                 uint16_t *output, size_t output_len,
                                 uint16_t *work, size_t work_len);

/*
 * Counts the entries of an index by the length of what they spell: a word, or a
 * lone character, which has length 1.
 *
 * The dictionary is lent as to mopekihua_admit, and the index as
 * mopekihua_build writes it. It may come from elsewhere and hold anything. It
 * is readable, for n its first number and K its second, if
 *   - it has at least 2 numbers, and at least 2 + 3K;
 *   - every kind is 0 or 1, every word number is below lengths_len, and no lone
 *     character is itself a word;
 *   - the directory lines ascend strictly by kind and then by value;
 *   - every count is at least 1, and index_len is 2 + 3K + the sum of them;
 *   - under each key positions ascend strictly from 1 or more, and the last
 *     character of the key falls at or before n.
 *
 * A lone character that is a full-width form is readable and is counted, though
 * no text has it in its index.
 *
 * Answers, the first that applies:
 *   MOPEKIHUA_DICTIONARY_TOO_LARGE, MOPEKIHUA_LENGTHS_WRONG,
 *   MOPEKIHUA_WORDS_NOT_ASCENDING,
 *   MOPEKIHUA_FULL_WIDTH_WORD       as mopekihua_admit answers
 *   MOPEKIHUA_INDEX_NOT_READABLE    the index is not readable
 *   MOPEKIHUA_ACCEPTED              count is the number of entries, by_length
 *                                   the number of those of each length
 *
 * Nothing is written. For slices lent as said above the call always returns,
 * whatever they hold, in time linear in the dictionary and the index.
 */
mopekihua_tally_answer mopekihua_tally(const uint16_t *chars, size_t chars_len,
                                       const uint16_t *lengths,
                                       size_t lengths_len,
                                       const uint16_t *index, size_t index_len);

/*
 * Receives an index: says whether some replaced text has it.
 *
 * The dictionary is lent as to mopekihua_admit, the index as to
 * mopekihua_tally. A readable index need not be that of a text: no entry may
 * cover a position, two entries may show different characters at one, an entry
 * may stand where the text that the entries spell has a longer one, or a lone
 * character may be a full-width form. If a replaced text has it, no other
 * replaced text does.
 *
 * Answers, the first that applies:
 *   MOPEKIHUA_DICTIONARY_TOO_LARGE, MOPEKIHUA_LENGTHS_WRONG,
 *   MOPEKIHUA_WORDS_NOT_ASCENDING,
 *   MOPEKIHUA_FULL_WIDTH_WORD       as mopekihua_admit answers
 *   MOPEKIHUA_INDEX_NOT_READABLE    the index is not readable, as for
 *                                   mopekihua_tally
 *   MOPEKIHUA_WORK_TOO_SHORT        work_len is below 8 * n, for n the first
 *                                   number of the index
 *   MOPEKIHUA_NO_TEXT               no replaced text has this index
 *   MOPEKIHUA_ACCEPTED              one has it; count is n, its length
 *
 * work may hold anything, and all its work_len elements are 0 after every call,
 * refused or not. For slices lent as said above the call always returns,
 * whatever they hold.
 */
mopekihua_answer mopekihua_receive(const uint16_t *chars, size_t chars_len,
                                   const uint16_t *lengths, size_t lengths_len,
                                   const uint16_t *index, size_t index_len,
                                   uint16_t *work, size_t work_len);

/*
 * Recovers the text that an index is that of. It is the replaced text, also
 * where the index was built from one with full-width forms.
 *
 * The dictionary is lent as to mopekihua_admit, the index as to
 * mopekihua_tally.
 *
 * Answers, the first that applies:
 *   MOPEKIHUA_DICTIONARY_TOO_LARGE, MOPEKIHUA_LENGTHS_WRONG,
 *   MOPEKIHUA_WORDS_NOT_ASCENDING,
 *   MOPEKIHUA_FULL_WIDTH_WORD       as mopekihua_admit answers
 *   MOPEKIHUA_INDEX_NOT_READABLE, MOPEKIHUA_WORK_TOO_SHORT,
 *   MOPEKIHUA_NO_TEXT               as mopekihua_receive answers
 *   MOPEKIHUA_OUTPUT_TOO_SHORT      output_len is below n, the first number of
 *                                   the index, which a text has
 *   MOPEKIHUA_ACCEPTED              the text is written to the front of
 *                                   output; count is n, its length
 *
 * output past count is left as it was; after a refusal all of output is. work
 * may hold anything, and all its work_len elements are 0 after every call,
 * refused or not. For slices lent as said above the call always returns,
 * whatever they hold.
 */
mopekihua_answer mopekihua_recover(const uint16_t *chars, size_t chars_len,
                                   const uint16_t *lengths, size_t lengths_len,
                                   const uint16_t *index, size_t index_len,
                                   uint16_t *output, size_t output_len,
                                   uint16_t *work, size_t work_len);

/*
 * Finds a string in an index, without the text.
 *
 * The dictionary is lent as to mopekihua_admit, the index as to
 * mopekihua_tally. Lay the replaced string at position p so that it ends at or
 * before n. An entry agrees with it if the two overlap and carry equal
 * characters wherever both lie. Position p is found if each of its string_len
 * positions is covered by an entry that agrees. If a text has this index, these
 * are exactly the positions at which the replaced string stands in the replaced
 * text; the index need not be that of a text.
 *
 * A string in either width finds the same. A lone character of the index that
 * is a full-width form agrees with no string.
 *
 * Answers, the first that applies:
 *   MOPEKIHUA_DICTIONARY_TOO_LARGE, MOPEKIHUA_LENGTHS_WRONG,
 *   MOPEKIHUA_WORDS_NOT_ASCENDING,
 *   MOPEKIHUA_FULL_WIDTH_WORD       as mopekihua_admit answers
 *   MOPEKIHUA_INDEX_NOT_READABLE    the index is not readable
 *   MOPEKIHUA_STRING_LENGTH_WRONG   string_len is 0 or above 256
 *   MOPEKIHUA_OUTPUT_TOO_SHORT      output_len is below the number of
 *                                   positions found
 *   MOPEKIHUA_ACCEPTED              the positions found are written to the
 *                                   front of output, ascending, each once;
 *                                   count is their number
 *
 * At most n positions are found, so an output of this length is never too
 * short. output past count is left as it was; after a refusal all of output
 * is. For slices lent as said above the call always returns, whatever they
 * hold.
 */
mopekihua_answer mopekihua_search(const uint16_t *chars, size_t chars_len,
                                  const uint16_t *lengths, size_t lengths_len,
                                  const uint16_t *index, size_t index_len,
                                  const uint16_t *string, size_t string_len,
                                  uint16_t *output, size_t output_len);

/*
 * Finds the first position of a string in an index, without the text: for the
 * question whether a string is left anywhere.
 *
 * The dictionary is lent as to mopekihua_admit, the index as to
 * mopekihua_tally. A position is found as for mopekihua_search, with the string
 * replaced, and the answer is the first number that mopekihua_search writes for
 * an output that is long enough. If a text has this index, it is the first
 * position at which the replaced string stands in the replaced text; the index
 * need not be that of a text.
 *
 * Answers, the first that applies:
 *   MOPEKIHUA_DICTIONARY_TOO_LARGE, MOPEKIHUA_LENGTHS_WRONG,
 *   MOPEKIHUA_WORDS_NOT_ASCENDING,
 *   MOPEKIHUA_FULL_WIDTH_WORD       as mopekihua_admit answers
 *   MOPEKIHUA_INDEX_NOT_READABLE    the index is not readable, as for
 *                                   mopekihua_tally
 *   MOPEKIHUA_STRING_LENGTH_WRONG   string_len is 0 or above 256
 *   MOPEKIHUA_ACCEPTED              position is the first position found, or 0
 *                                   where none is found
 *
 * An answer p above 0 does not depend on later entries: the index without those
 * that start after p + string_len - 1, and without keys left empty, gives the
 * same p.
 *
 * The dictionary and the index are tested in full. The search that follows
 * stops early: it takes the starts in windows, from the front, and goes no
 * further than the first window that has a position found. Where none is found
 * it costs about as much as mopekihua_search.
 *
 * Nothing is written, and no output is lent, so MOPEKIHUA_OUTPUT_TOO_SHORT is
 * not answered. For slices lent as said above the call always returns, whatever
 * they hold.
 */
mopekihua_first_answer mopekihua_first(const uint16_t *chars, size_t chars_len,
                                       const uint16_t *lengths,
                                       size_t lengths_len,
                                       const uint16_t *index, size_t index_len,
                                       const uint16_t *string,
                                       size_t string_len);

/*
 * Cuts an index down to what a search for one string needs: the same n, and
 * exactly the keys that bear on the replaced string, with all their positions.
 *
 * A key bears on the string if what it spells contains the string, is contained
 * in it, ends in a nonempty start of it, or starts with a nonempty end of it. A
 * lone character that is a full-width form bears on no string. A search for the
 * string finds the same in the cut-down index as in the whole one.
 *
 * Answers, the first that applies:
 *   MOPEKIHUA_DICTIONARY_TOO_LARGE, MOPEKIHUA_LENGTHS_WRONG,
 *   MOPEKIHUA_WORDS_NOT_ASCENDING,
 *   MOPEKIHUA_FULL_WIDTH_WORD       as mopekihua_admit answers
 *   MOPEKIHUA_INDEX_NOT_READABLE    the index is not readable, as for
 *                                   mopekihua_tally
 *   MOPEKIHUA_STRING_LENGTH_WRONG   string_len is 0 or above 256
 *   MOPEKIHUA_OUTPUT_TOO_SHORT      output_len is below the length of the
 *                                   cut-down index
 *   MOPEKIHUA_ACCEPTED              the cut-down index is written to the front
 *                                   of output; count is its length
 *
 * It has at most index_len numbers, so an output of this length is never too
 * short. output past count is left as it was; after a refusal all of output
 * is. For slices lent as said above the call always returns, whatever they
 * hold.
 */
mopekihua_answer mopekihua_cut(const uint16_t *chars, size_t chars_len,
                               const uint16_t *lengths, size_t lengths_len,
                               const uint16_t *index, size_t index_len,
                               const uint16_t *string, size_t string_len,
                               uint16_t *output, size_t output_len);

/*
 * Rearranges an index into its gap form, whose numbers are smaller and pack
 * better: under each key the first position stays, and each later one becomes
 * its distance from the one before (delta encoding). Header and directory stay,
 * and the length is the same. mopekihua_from_gaps restores the index.
 *
 * The dictionary is lent as to mopekihua_admit, the index as to
 * mopekihua_tally. The index need not be that of a text. With the words ab and
 * bc the index of the text abcbcab, and its gap form, are
 *
 *   7  2    0 0 2   0 1 2    1 6   2 4
 *   7  2    0 0 2   0 1 2    1 5   2 2
 *
 * Nothing in the numbers tells a gap form from an index, and it may be readable
 * as another one: lend it to mopekihua_from_gaps only.
 *
 * Answers, the first that applies:
 *   MOPEKIHUA_DICTIONARY_TOO_LARGE, MOPEKIHUA_LENGTHS_WRONG,
 *   MOPEKIHUA_WORDS_NOT_ASCENDING,
 *   MOPEKIHUA_FULL_WIDTH_WORD       as mopekihua_admit answers
 *   MOPEKIHUA_INDEX_NOT_READABLE    the index is not readable, as for
 *                                   mopekihua_tally
 *   MOPEKIHUA_OUTPUT_TOO_SHORT      output_len is below index_len
 *   MOPEKIHUA_ACCEPTED              the gap form is written to the front of
 *                                   output; count is index_len
 *
 * output past count is left as it was; after a refusal all of output is. For
 * slices lent as said above the call always returns, whatever they hold, in
 * time linear in the dictionary and the index.
 */
mopekihua_answer mopekihua_to_gaps(const uint16_t *chars, size_t chars_len,
                                   const uint16_t *lengths, size_t lengths_len,
                                   const uint16_t *index, size_t index_len,
                                   uint16_t *output, size_t output_len);

/*
 * Restores an index from its gap form: under each key the first number stays,
 * and to each later one all those before it under the same key are added
 * (prefix sums). Header and directory stay, and the length is the same.
 *
 * The dictionary is lent as to mopekihua_admit, the gap form as
 * mopekihua_to_gaps writes it. It may come from elsewhere and hold anything. It
 * is accepted if its restored form is readable, as for mopekihua_tally, whether
 * a text has that or not. So a gap of 0 is refused, a sum at which the last
 * character of the key falls after n, and a number too many or too few. Sums do
 * not wrap: 3 and then a gap of 65,534 make 65,537, which is past every n.
 *
 * The index that mopekihua_to_gaps was lent is restored exactly, and for every
 * gap form accepted mopekihua_to_gaps gives the same gap form again.
 *
 * Answers, the first that applies:
 *   MOPEKIHUA_DICTIONARY_TOO_LARGE, MOPEKIHUA_LENGTHS_WRONG,
 *   MOPEKIHUA_WORDS_NOT_ASCENDING,
 *   MOPEKIHUA_FULL_WIDTH_WORD       as mopekihua_admit answers
 *   MOPEKIHUA_INDEX_NOT_READABLE    the restored form is not readable
 *   MOPEKIHUA_OUTPUT_TOO_SHORT      output_len is below gaps_len
 *   MOPEKIHUA_ACCEPTED              the index is written to the front of
 *                                   output; count is gaps_len
 *
 * output past count is left as it was; after a refusal all of output is. For
 * slices lent as said above the call always returns, whatever they hold, in
 * time linear in the dictionary and the gap form.
 */
mopekihua_answer mopekihua_from_gaps(const uint16_t *chars, size_t chars_len,
                                     const uint16_t *lengths,
                                     size_t lengths_len, const uint16_t *gaps,
                                     size_t gaps_len, uint16_t *output,
                                     size_t output_len);

#ifdef __cplusplus
}
#endif

#endif
