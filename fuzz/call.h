/* The operations, each held to what it says of every slice lent. */
#ifndef FUZZ_CALL_H
#define FUZZ_CALL_H

#include <stddef.h>
#include <stdint.h>

#include "mopekihua.h"

enum operation {
    ADMIT, BUILD, TALLY, RECEIVE, RECOVER, SEARCH, CUT, FIRST, TO_GAPS,
    FROM_GAPS, OPERATIONS
};

/* The slices that are lent, those to be written last. */
enum part { CHARS, LENGTHS, TEXT, INDEX, STRING, GAPS, OUTPUT, WORK, PARTS };

typedef struct {
    const uint16_t *numbers;
    size_t len;
} slice;

/*
 * What a call is lent. An operation takes only its own slices. Of those to be
 * written only the length counts.
 */
typedef struct {
    slice parts[PARTS];
} loan;

/*
 * The answer of any operation; by_length is 0 but for the tally. For the first
 * position count is that position.
 */
typedef mopekihua_tally_answer answer;

/* Stops with these words unless the condition holds. */
void require(int condition, const char *words);

int takes_work(enum operation operation);
int takes_output(enum operation operation);

/*
 * Makes a call, once with each side of its slices forbidden and with other
 * numbers in those that it writes. Both answer the same, by one of the
 * operation's refusals or by none; what is lent to be read is not changed, nor
 * what lies beside a slice, nor the output past the count; work is all zeros.
 * What is written is copied to written, which is as long as the output.
 */
answer call(enum operation operation, const loan *lent, uint16_t *written);

#endif
