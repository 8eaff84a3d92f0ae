#include "gaps.h"

#include <string.h>

#include "ample.h"
#include "layout.h"

static uint16_t plain[LONGEST_INDEX], result[LONGEST_INDEX];
static uint16_t back[LONGEST_INDEX];

static void copy(uint16_t *to, const uint16_t *from, size_t len)
{
    if (len > 0)
        memcpy(to, from, len * sizeof *to);
}

void put_gaps(uint16_t *gaps, const uint16_t *index, size_t len)
{
    size_t keys = index[1], start = line_start(keys);

    copy(gaps, index, len);
    for (size_t i = 0; i < keys; i++) {
        size_t end = start + index[line_count(i)];
        for (size_t at = start + 1; at < end; at++)
            gaps[at] = index[at] - index[at - 1];
        start = end;
    }
}

/*
 * Puts the restored form of any numbers there: behind a whole directory, as many
 * sums as each line counts, as far as there are numbers. Answers whether none of
 * them is above 65,535; one that is falls after every n.
 */
static int put_restored(uint16_t *restored, slice gaps)
{
    size_t keys = gaps.len < MOPEKIHUA_HEADER ? 0 : gaps.numbers[1];
    size_t at = line_start(keys);
    int all_fit = 1;

    copy(restored, gaps.numbers, gaps.len);
    for (size_t i = 0; i < keys && at < gaps.len; i++) {
        size_t sum = 0;
        for (size_t left = gaps.numbers[line_count(i)]; left > 0 && at < gaps.len;
             left--, at++) {
            sum += gaps.numbers[at];
            all_fit &= sum <= UINT16_MAX;
            restored[at] = (uint16_t)sum;
        }
    }
    return all_fit;
}

int is_gap_form(const loan *lent)
{
    slice gaps = lent->parts[GAPS];

    if (!put_restored(plain, gaps))
        return 0;
    return ample(TALLY, with(*lent, INDEX, plain, gaps.len), back).refusal == 0;
}

static void check_to_gaps(const loan *lent)
{
    slice index = lent->parts[INDEX];
    uint32_t expected = ample(TALLY, *lent, result).refusal;
    answer given = ample(TO_GAPS, *lent, result);

    require(given.refusal == expected, "another refusal than that of the tally");
    if (expected)
        return;
    put_gaps(plain, index.numbers, index.len);
    require(holds((slice){result, given.count}, plain, index.len),
            "another gap form");
    answer restored = ample(FROM_GAPS, with(*lent, GAPS, result, given.count), back);
    require(restored.refusal == 0 && holds(index, back, restored.count),
            "another index is restored");
}

/* The dictionary is an admitted one. */
static void check_from_gaps(const loan *lent)
{
    slice gaps = lent->parts[GAPS];
    uint32_t expected = is_gap_form(lent) ? 0 : 5;
    answer given = ample(FROM_GAPS, *lent, result);

    require(given.refusal == expected, "another refusal of a gap form");
    if (expected)
        return;
    require(holds((slice){result, given.count}, plain, gaps.len),
            "another restored form");
    answer again = ample(TO_GAPS, with(*lent, INDEX, result, given.count), back);
    require(again.refusal == 0 && holds(gaps, back, again.count),
            "the restored index has another gap form");
}

void check_gaps(const loan *lent)
{
    check_to_gaps(lent);
    if (dictionary_refusal(lent) == 0)
        check_from_gaps(lent);
}
