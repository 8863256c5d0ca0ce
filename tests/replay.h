/* What the files of the replay share: a case's numbers, taken one by one, and what was compared. */
#ifndef REPLAY_H
#define REPLAY_H

#include <stdbool.h>

#include "nidskalm.h"

/* The next number of the case. A case that ends too early, or whose numbers can't be, ends the program. */
uint64_t one(void);
uint32_t small(void);

/* The next `count` numbers; they stay while the case is replayed. */
const uint64_t *wides(uint64_t count);
const uint32_t *smalls(uint64_t count);

/* Ends the program unless the record can be read on. */
void readable(bool possible);

/* How many numbers of 64 bits a set of so many bits has. */
uint64_t width(uint64_t bits);

/* An area of so many numbers, which stays while the case is replayed. */
uint32_t *lent(uint64_t length);

/* One call more, or one look into the area: the row that refused it or 0, and whether all is as recorded. */
void counted(uint64_t refusal, bool same);

/* One call more, whose refusal and value come next in the record. */
void reply_told(nidskalm_reply reply);

/* A case behind the number that says of which graph it is. */
void replay_moves(void);
void replay_merges(void);

#endif
