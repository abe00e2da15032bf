// The cases that the second program makes; crates/agree has their format.
#ifndef CASES_H
#define CASES_H
#include "baseline.h"

enum { PAYLOAD = 24576 };

struct a_case {
    u8 op;
    u64 a[7];
    usize n, m;
    u8 p[PAYLOAD], q[PAYLOAD];
};

// Fills all of n bytes from standard input, and tells whether they came.
int fill(u8 *to, usize n);

// Reads the next case from standard input; 0 at the end.
int next_case(struct a_case *c);

// A step of a run (op 20): a frame, or the open event given up.
struct step {
    usize after; // in the payload, where the next step begins
    u32 gives_up;
    const u8 *frame;
    usize length;
};

// The step behind the one that is given, all zeros before the first; 0 at the end.
int next_step(const struct a_case *c, struct step *s);

// A list of corrections (op 22) stands in the second payload: word, value, operator and reason of 4 bytes each, and the time of 8 bytes.
enum { CORRECTION = 24, MOST_CORRECTIONS = PAYLOAD / CORRECTION };

// The correction at a position of the list.
struct correction correction_at(const struct a_case *c, usize position);

#endif
