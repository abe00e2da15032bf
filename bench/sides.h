// The calls that are measured, of the proved library and of the baseline, both behind the same table: what is around a call costs the same.
#ifndef SIDES_H
#define SIDES_H
#include "cases.h"

// Memory that a call fills; its lengths are the case's. What an answer has beside its number is laid down here too, so that it is compared as well.
struct lent {
    u16 samples[600];
    u32 counts[4200];
    u64 told[32];
};

// A run has no more steps than this; the assembler behind them is told after them.
enum { STEPS = 24 };

// A call on a case, its answer as one number: a refusal's number and place, or something above 2^48.
typedef u64 (*side)(struct a_case *c, struct lent *out);

static inline u64 refusal_number(u32 number, u64 place) { return (u64)number << 16 | place; }

static inline u64 accepted_number(u64 high, u64 low) { return (u64)1 << 48 | high << 16 | low; }

// By op; 0 where the call is not measured. `singly` makes a list of corrections (op 22) by single edits of our own; `judged` does the same, and asks
// for the record once more before each, so that what is more of it is the cost of judging.
extern const side ours[32], theirs[32], singly[32], judged[32];

// Lay out the list of a case as the calls take it, before they are made: this is no part of what is counted.
void our_list(const struct a_case *c);
void their_list(const struct a_case *c);

#endif
