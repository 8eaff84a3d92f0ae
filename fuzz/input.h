/* What the fuzzer's bytes stand for. */
#ifndef FUZZ_INPUT_H
#define FUZZ_INPUT_H

#include <stddef.h>
#include <stdint.h>

#include "call.h"
#include "change.h"

/* The most changes that are made to an index. */
#define MOST_CHANGES 4

typedef struct {
    enum operation operation;

    /*
     * The dictionary, the text and the string; the index and the gap form, of
     * the same numbers, if the index is not built.
     */
    loan lent;

    /* Whether the index is delivered as it is, and not built from the text. */
    int delivered;

    /* What is done to an index that is built, and to its gap form. */
    size_t changes;
    change change[MOST_CHANGES];

    /* How much output and work space is lent: see room_for. */
    uint8_t output, work;
} input;

/* Reads all bytes. What it refers to stays until the next time. */
const input *read_input(const uint8_t *bytes, size_t len);

/* The number that the dictionary is refused with, by the definition; else 0. */
uint32_t dictionary_refusal(const loan *lent);

/* The length that is lent where this one is needed: it, or less, or more. */
size_t room_for(uint8_t choice, size_t needed);

#endif
