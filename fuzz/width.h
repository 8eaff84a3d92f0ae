/* Full-width forms, by the definition. */
#ifndef FUZZ_WIDTH_H
#define FUZZ_WIDTH_H

#include <stddef.h>
#include <stdint.h>

/* Whether this is a character from FF01 to FF5E. */
int is_full_width(uint16_t character);

/* The character FEE0 lower for a full-width form, else the same. */
uint16_t replaced(uint16_t character);

/* Whether a readable index has a lone key that is a full-width form. */
int has_lone_form(const uint16_t *index);

#endif
