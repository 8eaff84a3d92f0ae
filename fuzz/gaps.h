/* Gap forms by the definition, and the two operations held to it. */
#ifndef FUZZ_GAPS_H
#define FUZZ_GAPS_H

#include <stddef.h>
#include <stdint.h>

#include "call.h"

/* Puts the gap form of a readable index of this length there. */
void put_gaps(uint16_t *gaps, const uint16_t *index, size_t len);

/* Whether what is lent as a gap form restores to a readable index. */
int is_gap_form(const loan *lent);

/*
 * Any numbers lent as an index: they are rearranged exactly if they are readable,
 * into their gap form, and restored from it. Any numbers lent as a gap form: they
 * are restored exactly if the restored form is readable, to that, which has them
 * as its gap form.
 */
void check_gaps(const loan *lent);

#endif
