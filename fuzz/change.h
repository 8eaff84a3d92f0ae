/* Other indexes made of one, most of them readable and the index of no text. */
#ifndef FUZZ_CHANGE_H
#define FUZZ_CHANGE_H

#include <stddef.h>
#include <stdint.h>

/* What is done, where, and with which number. */
typedef struct {
    enum change_kind { ADD, INSERT, REMOVE, CHANGES } kind;
    uint16_t place, number;
} change;

/* Makes a change in place. Answers the new length, at most one more. */
size_t change_index(uint16_t *index, size_t len, change change);

/*
 * Copies a readable index without its entries that start after this position,
 * and without the keys that this leaves empty. Answers the length of the copy.
 */
size_t copy_up_to(uint16_t *copy, const uint16_t *index, size_t last);

#endif
