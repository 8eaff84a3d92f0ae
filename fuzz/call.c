#include "call.h"

#include <stdio.h>
#include <stdlib.h>
#include <string.h>

#include "lend.h"

#define BIT(number) (1u << (number))
#define DICTIONARY (BIT(1) | BIT(2) | BIT(3) | BIT(12))

/* The refusals of each operation, a bit each. */
static const uint32_t refusals[OPERATIONS] = {
    [ADMIT] = DICTIONARY,
    [BUILD] = DICTIONARY | BIT(4) | BIT(7) | BIT(8),
    [TALLY] = DICTIONARY | BIT(5),
    [RECEIVE] = DICTIONARY | BIT(5) | BIT(7) | BIT(9),
    [RECOVER] = DICTIONARY | BIT(5) | BIT(7) | BIT(8) | BIT(9),
    [SEARCH] = DICTIONARY | BIT(5) | BIT(6) | BIT(8),
    [CUT] = DICTIONARY | BIT(5) | BIT(6) | BIT(8),
    [FIRST] = DICTIONARY | BIT(5) | BIT(6),
    [TO_GAPS] = DICTIONARY | BIT(5) | BIT(8),
    [FROM_GAPS] = DICTIONARY | BIT(5) | BIT(8),
};

/*
 * The library has no instrumentation that the fuzzer could go by, so it is told
 * here what each operation answered, and of which size the count is.
 */
__attribute__((section("__libfuzzer_extra_counters")))
static uint8_t seen[OPERATIONS][64];

static void note(enum operation operation, answer given)
{
    unsigned bits = 0;

    while (bits < 47 && given.count >> bits)
        bits++;
    seen[operation][given.refusal == 0 ? 16 + bits : given.refusal] = 1;
}

void require(int condition, const char *words)
{
    if (condition)
        return;
    fprintf(stderr, "not as it should be: %s\n", words);
    abort();
}

int takes_work(enum operation operation)
{
    return operation == BUILD || operation == RECEIVE || operation == RECOVER;
}

int takes_output(enum operation operation)
{
    return operation == BUILD || operation == RECOVER ||
           operation == SEARCH || operation == CUT ||
           operation == TO_GAPS || operation == FROM_GAPS;
}

static answer plain(mopekihua_answer given)
{
    return (answer){.refusal = given.refusal, .count = given.count};
}

static answer located(mopekihua_first_answer given)
{
    return (answer){.refusal = given.refusal, .count = given.position};
}

/* The call itself, of slices that begin there. */
static answer made(enum operation operation, const loan *lent, uint16_t *at[])
{
#define LENT(part) at[part], lent->parts[part].len
#define DICTIONARY_LENT LENT(CHARS), LENT(LENGTHS)
    switch (operation) {
    case ADMIT:
        return plain(mopekihua_admit(DICTIONARY_LENT));
    case BUILD:
        return plain(mopekihua_build(DICTIONARY_LENT, LENT(TEXT), LENT(OUTPUT),
                                     LENT(WORK)));
    case TALLY:
        return mopekihua_tally(DICTIONARY_LENT, LENT(INDEX));
    case RECEIVE:
        return plain(mopekihua_receive(DICTIONARY_LENT, LENT(INDEX), LENT(WORK)));
    case RECOVER:
        return plain(mopekihua_recover(DICTIONARY_LENT, LENT(INDEX), LENT(OUTPUT),
                                       LENT(WORK)));
    case SEARCH:
        return plain(mopekihua_search(DICTIONARY_LENT, LENT(INDEX), LENT(STRING),
                                      LENT(OUTPUT)));
    case CUT:
        return plain(mopekihua_cut(DICTIONARY_LENT, LENT(INDEX), LENT(STRING),
                                   LENT(OUTPUT)));
    case FIRST:
        return located(mopekihua_first(DICTIONARY_LENT, LENT(INDEX),
                                       LENT(STRING)));
    case TO_GAPS:
        return plain(mopekihua_to_gaps(DICTIONARY_LENT, LENT(INDEX),
                                       LENT(OUTPUT)));
    default:
        return plain(mopekihua_from_gaps(DICTIONARY_LENT, LENT(GAPS),
                                         LENT(OUTPUT)));
    }
}

/* What a slice to be written holds before the call, and a cleared one after. */
static uint16_t leftover[SIDES][LONGEST_SLICE];
static const uint16_t zeros[LONGEST_SLICE];

static void make_leftover(void)
{
    for (size_t i = 0; i < LONGEST_SLICE; i++) {
        leftover[AFTER][i] = (uint16_t)(i * 40503u + 1);
        leftover[BEFORE][i] = (uint16_t)~leftover[AFTER][i];
    }
}

/* Whether len numbers are the same; there may be none at all. */
static int same(const uint16_t *a, const uint16_t *b, size_t len)
{
    return len == 0 || memcmp(a, b, len * sizeof *a) == 0;
}

static int is_written(enum part part)
{
    return part == OUTPUT || part == WORK;
}

/* Lends a part, with what it is to hold. */
static uint16_t *lend_part(enum part part, slice held, enum side side)
{
    uint16_t *at = lend(part, side, held.len);

    if (held.len > 0)
        memcpy(at, is_written(part) ? leftover[side] : held.numbers,
               held.len * sizeof *at);
    return at;
}

static void check_answer(enum operation operation, answer given)
{
    if (given.refusal == 0)
        return;
    require(given.refusal < 32 && (refusals[operation] & BIT(given.refusal)),
            "a number that the operation does not refuse with");
    require(given.count == 0, "a count or position beside a refusal");
    for (size_t i = 0; i < 32; i++)
        require(given.by_length[i] == 0, "a tally beside a refusal");
}

/* A part after a call that may change its first numbers, this many. */
static void check_part(enum part part, slice held, const uint16_t *at,
                       enum side side, size_t changed)
{
    require(beside_unchanged(part, side, held.len), "changed beside a slice");
    require(changed <= held.len, "more is counted than was lent");
    if (is_written(part))
        require(same(at + changed, leftover[side] + changed, held.len - changed),
                "output changed past the count, or a slice that is not taken");
    else
        require(same(at, held.numbers, held.len),
                "a slice lent to be read is changed");
}

/* One call, with the forbidden pages on this side. */
static answer call_once(enum operation operation, const loan *lent,
                        enum side side, uint16_t *written)
{
    uint16_t *at[PARTS];

    for (unsigned part = 0; part < PARTS; part++)
        at[part] = lend_part(part, lent->parts[part], side);
    answer given = made(operation, lent, at);
    check_answer(operation, given);

    size_t changed[PARTS] = {0};
    if (takes_output(operation))
        changed[OUTPUT] = given.count;
    if (takes_work(operation))
        changed[WORK] = lent->parts[WORK].len;
    for (unsigned part = 0; part < PARTS; part++)
        check_part(part, lent->parts[part], at[part], side, changed[part]);
    require(same(at[WORK], zeros, changed[WORK]), "work is not cleared");
    if (changed[OUTPUT] > 0)
        memcpy(written, at[OUTPUT], changed[OUTPUT] * sizeof *written);
    return given;
}

answer call(enum operation operation, const loan *lent, uint16_t *written)
{
    static uint16_t again[LONGEST_SLICE];

    if (leftover[AFTER][0] == 0)
        make_leftover();
    answer first = call_once(operation, lent, AFTER, written);
    answer second = call_once(operation, lent, BEFORE, again);

    require(first.refusal == second.refusal && first.count == second.count &&
                memcmp(first.by_length, second.by_length,
                       sizeof first.by_length) == 0,
            "two answers to one call");
    require(!takes_output(operation) || same(written, again, first.count),
            "two results of one call");
    note(operation, first);
    return first;
}
