/*
 * A libFuzzer target over the C functions: dictionaries, texts, indexes and
 * strings out of any bytes, lent to every operation, and each answer held to
 * what the others say. Beside what call() holds every call to:
 *
 * - a refusal comes exactly where the table has it, in the operation's order,
 *   but that the tally says which indexes are readable;
 * - a text and its replaced text have the same index, and a string and its
 *   replaced string the same answers;
 * - the index of a text is received, the replaced text is recovered from it,
 *   and the positions found are those at which the replaced string stands in it;
 * - an index is received exactly if it is built from the text that it shows,
 *   and that holds no full-width form;
 * - the cut-down index finds what the index finds, and the tally adds up;
 * - the first position is the head of what search finds, and the same without
 *   the entries that start behind the string laid there;
 * - gap forms and restored forms are those of a plain reading, and each leads
 *   back to the other.
 */
#include <string.h>

#include "ample.h"
#include "call.h"
#include "gaps.h"
#include "input.h"
#include "shown.h"
#include "width.h"

enum {
    LONGEST_TEXT = MOPEKIHUA_LONGEST_TEXT,
    LONGEST_STRING = MOPEKIHUA_LONGEST_STRING
};

/* Texts longer than this are handed only to the operation asked for. */
#define SHORT_TEXT 4096

/* Results of calls, each as long as it can be. */
static uint16_t built[LONGEST_INDEX];
static uint16_t delivered[LONGEST_INDEX], delivered_gaps[LONGEST_INDEX];
static uint16_t result[LONGEST_INDEX], other[LONGEST_INDEX];

/* The loan with its text, a short one, and its string replaced. */
static loan with_replaced(loan lent)
{
    static uint16_t text[SHORT_TEXT], string[LONGEST_STRING + 1];
    slice from_text = lent.parts[TEXT], from_string = lent.parts[STRING];

    for (size_t i = 0; i < from_text.len; i++)
        text[i] = replaced(from_text.numbers[i]);
    for (size_t i = 0; i < from_string.len; i++)
        string[i] = replaced(from_string.numbers[i]);
    lent = with(lent, TEXT, text, from_text.len);
    return with(lent, STRING, string, from_string.len);
}

/* Whether the string stands at this position of the text. */
static int stands(slice text, slice string, size_t position)
{
    return position >= 1 && position + string.len <= text.len + 1 &&
           memcmp(text.numbers + position - 1, string.numbers,
                  string.len * sizeof *text.numbers) == 0;
}

/*
 * The index of a text: it is that of the replaced text, which is received,
 * recovered and searched.
 */
static void check_index_of(const loan *lent)
{
    loan folded = with_replaced(*lent);
    slice text = folded.parts[TEXT], string = folded.parts[STRING];
    answer rebuilt = ample(BUILD, folded, other);
    require(holds(lent->parts[INDEX], other, rebuilt.count),
            "the replaced text has another index");
    answer received = ample(RECEIVE, *lent, result);
    require(received.refusal == 0 && received.count == text.len,
            "the index of a text is not received");
    answer recovered = ample(RECOVER, *lent, result);
    require(recovered.refusal == 0 && holds(text, result, recovered.count),
            "another text is recovered");
    if (string.len == 0 || string.len > LONGEST_STRING)
        return;
    answer found = ample(SEARCH, *lent, result);
    require(found.refusal == 0, "a search is refused");
    size_t listed = 0;
    for (size_t p = 1; p <= text.len; p++) {
        int is_listed = listed < found.count && result[listed] == p;
        require(is_listed == stands(text, string, p),
                "a position is found where the string does not stand, or none "
                "where it does");
        listed += is_listed;
    }
    require(listed == found.count, "positions past the text, or not in order");
}

/* A string and its replaced string have the same answers. */
static void check_string_replaced(const loan *lent)
{
    static const enum operation operations[] = {SEARCH, CUT, FIRST};
    loan folded = with_replaced(*lent);

    for (size_t i = 0; i < sizeof operations / sizeof *operations; i++) {
        answer one = ample(operations[i], *lent, result);
        answer again = ample(operations[i], folded, other);
        require(one.refusal == again.refusal && one.count == again.count,
                "the replaced string has another answer");
        require(!takes_output(operations[i]) ||
                    holds((slice){result, one.count}, other, again.count),
                "the replaced string has another result");
    }
}

/* The head of what search finds; 0 where it finds nothing. */
static size_t head_found(const loan *lent)
{
    answer found = ample(SEARCH, *lent, other);

    require(found.refusal == 0, "a search is refused");
    return found.count > 0 ? other[0] : 0;
}

/* The first position in a readable index. */
static void check_first(const loan *lent)
{
    slice index = lent->parts[INDEX], string = lent->parts[STRING];
    answer first = ample(FIRST, *lent, result);

    require(first.refusal == 0 && first.count == head_found(lent),
            "the first position is not the head of those found");
    if (first.count == 0)
        return;
    size_t end = first.count + string.len - 1;
    size_t len = copy_up_to(other, index.numbers, end);
    answer again = ample(FIRST, with(*lent, INDEX, other, len), result);
    require(again.refusal == 0 && again.count == first.count,
            "the first position hangs on entries that start later");
}

/* A readable index, whether a text has it or not. */
static void check_readable(const loan *lent)
{
    slice index = lent->parts[INDEX], string = lent->parts[STRING];
    answer tallied = ample(TALLY, *lent, result);
    uint64_t sum = 0;

    for (size_t i = 0; i < 32; i++)
        sum += tallied.by_length[i];
    require(tallied.count == sum &&
                sum == index.len - 2 - 3 * (size_t)index.numbers[1],
            "the tally does not add up to M");
    if (string.len == 0 || string.len > LONGEST_STRING)
        return;
    answer less = ample(CUT, *lent, other);
    require(less.refusal == 0 && less.count >= 2 && other[0] == index.numbers[0],
            "an index is not cut down");
    require(!has_lone_form(other), "a lone full-width form is kept");
    answer found = ample(SEARCH, *lent, result);
    for (size_t i = 0; i < found.count; i++)
        require(result[i] > (i == 0 ? 0 : result[i - 1]) &&
                    result[i] + string.len <= (size_t)index.numbers[0] + 1,
                "positions do not ascend within the text");
    static uint16_t again[LONGEST_TEXT];
    loan cut = with(*lent, INDEX, other, less.count);
    answer found_again = ample(SEARCH, cut, again);
    require(found_again.refusal == 0 &&
                holds((slice){result, found.count}, again, found_again.count),
            "the cut-down index finds other positions");
    check_first(lent);
    check_string_replaced(lent);
}

/*
 * The number of the first line of the table that is met, in the operation's
 * order, where work space and output are ample. The tally says whether the index
 * or the restored one is readable.
 */
static uint32_t first_met(enum operation operation, const loan *lent)
{
    size_t string_len = lent->parts[STRING].len;
    uint32_t dictionary = dictionary_refusal(lent);

    if (operation == ADMIT || dictionary != 0)
        return dictionary;
    if (operation == BUILD)
        return lent->parts[TEXT].len > LONGEST_TEXT ? 4 : 0;
    if (operation == FROM_GAPS)
        return is_gap_form(lent) ? 0 : 5;
    uint32_t index = ample(TALLY, *lent, result).refusal;
    if (operation == TALLY || operation == TO_GAPS || index != 0)
        return index;
    if (operation == SEARCH || operation == CUT || operation == FIRST)
        return string_len == 0 || string_len > LONGEST_STRING ? 6 : 0;
    if (has_lone_form(lent->parts[INDEX].numbers))
        return 9;
    return is_of_shown(lent) ? 0 : 9;
}

/* What an accepted call answers, where that is known beforehand. */
static int counts_right(enum operation operation, const loan *lent, answer given)
{
    if (operation == ADMIT)
        return given.count == lent->parts[LENGTHS].len;
    if (operation == RECEIVE || operation == RECOVER)
        return given.count == stated_length(operation, lent);
    if (operation == FIRST)
        return given.count == head_found(lent);
    if (operation == TO_GAPS)
        return given.count == lent->parts[INDEX].len;
    if (operation == FROM_GAPS)
        return given.count == lent->parts[GAPS].len;
    return 1;
}

/* The operation asked for, with ample room and with as much as is asked for. */
static void check_asked(const input *in, loan lent)
{
    enum operation operation = in->operation;
    size_t work_needed = MOPEKIHUA_WORK_NEEDED(stated_length(operation, &lent));
    uint32_t expected = first_met(operation, &lent);
    answer whole = ample(operation, lent, result);

    require(whole.refusal == expected, "another refusal than the first met");
    require(whole.refusal != 0 || counts_right(operation, &lent, whole),
            "another count or position");
    if (takes_work(operation)) {
        lent.parts[WORK].len = room_for(in->work, work_needed);
        /* 7 comes before 9, and after all else that it can meet here. */
        if (lent.parts[WORK].len < work_needed && (expected == 0 || expected == 9))
            expected = 7;
    }
    if (takes_output(operation)) {
        lent.parts[OUTPUT].len = room_for(in->output, whole.count);
        if (lent.parts[OUTPUT].len < whole.count && expected == 0)
            expected = 8;
    }
    answer asked = call(operation, &lent, other);
    require(asked.refusal == expected, "another refusal for this room");
    if (expected == 0)
        require(asked.count == whole.count &&
                    (!takes_output(operation) ||
                     holds((slice){result, whole.count}, other, asked.count)),
                "another result for this room");
}

/* Makes the changes that are asked for, in an index or in a gap form. */
static slice changed(const input *in, uint16_t *numbers, size_t len)
{
    for (size_t i = 0; i < in->changes; i++)
        len = change_index(numbers, len, in->change[i]);
    return (slice){numbers, len};
}

/* Delivers the built index and its gap form, each with its changes. */
static void deliver(const input *in, loan *lent, size_t built_len)
{
    memcpy(delivered, built, built_len * sizeof *built);
    put_gaps(delivered_gaps, built, built_len);
    lent->parts[INDEX] = changed(in, delivered, built_len);
    lent->parts[GAPS] = changed(in, delivered_gaps, built_len);
}

int LLVMFuzzerTestOneInput(const uint8_t *bytes, size_t len)
{
    const input *in = read_input(bytes, len);
    loan lent = in->lent;
    size_t text_len = lent.parts[TEXT].len;
    int admitted = dictionary_refusal(&lent) == 0;

    if (admitted && !in->delivered && text_len <= LONGEST_TEXT) {
        answer index = ample(BUILD, lent, built);
        require(index.refusal == 0 && index.count >= 2 && built[0] == text_len,
                "a text is not indexed");
        lent.parts[INDEX] = (slice){built, index.count};
        if (text_len <= SHORT_TEXT)
            check_index_of(&lent);
        deliver(in, &lent, index.count);
    }
    if (text_len <= SHORT_TEXT) {
        if (ample(TALLY, lent, result).refusal == 0)
            check_readable(&lent);
        check_gaps(&lent);
    }
    check_asked(in, lent);
    return 0;
}
