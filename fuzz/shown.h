/* The text that the entries of an index show. */
#ifndef FUZZ_SHOWN_H
#define FUZZ_SHOWN_H

#include "call.h"

/* Whether a readable index is that of the text that it shows. */
int is_of_shown(const loan *lent);

#endif
