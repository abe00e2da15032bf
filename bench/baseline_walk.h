// The walk of the hand-written baseline, from document 01 and request 1 of document 02 alone: one pass over the words, the state in locals, a word's
// class by a tree of comparisons. It is inlined into each call, which says what to look out for on the way.
#ifndef BASELINE_WALK_H
#define BASELINE_WALK_H
#include "baseline.h"

enum refusals {
    LENGTH = 1, KIND, SIZE, SEQUENCE, END, CLASS, CUT, PLACE, VALUE, ORDER, OPEN, ROOM, ABSENT, NO_START, LINK, HEADER = 20, ENTRY, TARGET,
    NEW_VALUE, SIGNER, FULL, NO_ENTRY
};

enum classes {
    CHANNEL = 1, HISTOGRAM, HIT_COUNT, SAMPLE, BIN, LAST_CELL, TIME_BIN, DATA_FRAME, MONITOR_FRAME, COMMAND_FRAME, TEXT, START_EVENT,
    END_EVENT, FRAME_END, CONTINUE_EVENT
};

// Where the next item would stand, one bit each, so that "one of these" is one test.
enum modes {
    OUTSIDE = 1, INSIDE = 2, AFTER_CHANNEL = 4, AFTER_TIME = 8, AFTER_SAMPLE = 16, UNHEADED = 32, HEADED = 64, COMMANDS = 128
};

enum { FIRST_ITEM = 3, LAST_CHANNEL = 78, MOST_HITS = 79, LAST_TIME = 511, LAST_CHIP = 3, TIMES = 512, BINS = 4096 };

// The modes in which no frame ends: an event may be open there, but a channel's samples stand in one frame.
enum { UNFINISHED = AFTER_CHANNEL | AFTER_TIME };

// What a call looks out for on the way.
enum asked { NOTHING, AN_ITEM, AN_EVENT, A_CHANNEL, A_HISTOGRAM, KINDS };

struct question {
    enum asked asked;
    u64 ordinal; // of the item or event
    u32 low;     // chip and channel, as the low 9 bits of a header
    u8 *kinds;   // by word: 1 where a Sample begins, 2 where a Bin does
};

static inline u32 word(const u8 *s, usize i) { return s[2 * i] | (u32)s[2 * i + 1] << 8; }

static inline u32 word32(const u8 *s, usize i) { return word(s, i) | word(s, i + 1) << 16; }

static inline void put_word(u8 *s, usize i, u32 w) {
    s[2 * i] = (u8)w;
    s[2 * i + 1] = (u8)(w >> 8);
}

static inline void put_word32(u8 *s, usize i, u32 n) {
    put_word(s, i, n);
    put_word(s, i + 1, n >> 16);
}

static const struct refusal accepted = { 0, 0 };

static inline struct refusal fault(u32 number, usize place) { return (struct refusal){ number, (u32)place }; }

static inline struct verdict refused(u32 number, usize place) {
    return (struct verdict){ .number = number, .place = (u32)place };
}

// "n at least 1, byte n zero, earlier bytes not zero, a padding byte zero"
static inline int closed(const u8 *s, usize n) {
    if (n == 0) return 0;
    u8 zeros = 0; // no early exit, so that the compiler takes many bytes at once
    for (usize i = 0; i + 1 < n; i++) zeros |= s[i] == 0;
    return zeros == 0 && s[n - 1] == 0 && (n % 2 == 0 || s[n] == 0);
}

// Rules 6 to 10 over the items before word `last`: a refusal, or number 0 with the state behind them all in *st and their count in *count.
// *found is the word index of what was asked for, untouched if it was not met.
static inline __attribute__((always_inline)) struct refusal walk(
    const u8 *s, usize last, u32 card, struct question q, struct state *st, u32 *count, usize *found) {
    u32 mode = st->mode, key = st->key, next = st->next;
    usize opener = st->opener;
    u32 items = 0;
    u64 events = 0;
    usize at = FIRST_ITEM;
    while (at < last) {
        const u32 w = word(s, at);
        if (q.asked == AN_ITEM && items == q.ordinal) *found = at;
        if (w >= 0x4000) {
            const u32 low = w & 0x3FFF, channel = w & 127;
            if (w < 0x8000) { // Hit count
                if (!(mode & (INSIDE | AFTER_SAMPLE))) return fault(PLACE, at);
                if (low >> 9 != card || channel > MOST_HITS) return fault(VALUE, at);
                mode = INSIDE;
            } else if (w < 0xC000) { // Histogram
                if (!(mode & (UNHEADED | HEADED))) return fault(PLACE, at);
                if (low >> 9 != card || channel > LAST_CHANNEL) return fault(VALUE, at);
                if (low < key) return fault(ORDER, at);
                if (q.asked == A_HISTOGRAM && (w & 511) == q.low) *found = at;
                key = low + 1;
                next = 0;
                mode = HEADED;
            } else { // Channel
                if (!(mode & (INSIDE | AFTER_SAMPLE))) return fault(PLACE, at);
                if (low >> 9 != card || channel > LAST_CHANNEL) return fault(VALUE, at);
                if (low < key) return fault(ORDER, at);
                if (q.asked == A_CHANNEL && (w & 511) == q.low && events == q.ordinal + 1) *found = at;
                key = low + 1;
                mode = AFTER_CHANNEL;
            }
            at += 1;
        } else if (w >= 0x3000) { // Sample
            if (!(mode & (AFTER_TIME | AFTER_SAMPLE))) return fault(PLACE, at);
            if (next > LAST_TIME) return fault(ORDER, at);
            if (q.asked == KINDS) q.kinds[at] = 1;
            next += 1;
            mode = AFTER_SAMPLE;
            at += 1;
        } else if (w >= 0x2000) { // Bin
            if (at + 2 >= last) return fault(CUT, at);
            if (mode != HEADED) return fault(PLACE, at);
            if (word32(s, at + 1) == 0) return fault(VALUE, at);
            if ((w & 4095) < next) return fault(ORDER, at);
            if (q.asked == KINDS) q.kinds[at] = 2;
            next = (w & 4095) + 1;
            at += 3;
        } else if (w >= 0x1800) { // Last cell
            if (!(mode & (INSIDE | AFTER_SAMPLE))) return fault(PLACE, at);
            mode = INSIDE;
            at += 1;
        } else if (w >= 0x0E00 && w < 0x1000) { // Time bin
            if (!(mode & (AFTER_CHANNEL | AFTER_SAMPLE))) return fault(PLACE, at);
            if (mode == AFTER_SAMPLE && (w & 511) <= next) return fault(ORDER, at);
            next = w & 511;
            mode = AFTER_TIME;
            at += 1;
        } else if (w >> 8 == 1) { // Text
            const usize bytes = w & 255, after = at + 1 + (bytes + 1) / 2;
            if (after > last) return fault(CUT, at);
            if (mode != COMMANDS) return fault(PLACE, at);
            if (!closed(s + 2 * (at + 1), bytes)) return fault(VALUE, at);
            at = after;
        } else if (w >> 4 == 0xF) { // Start event
            if (at + 5 >= last) return fault(CUT, at);
            if (mode != OUTSIDE) return fault(PLACE, at);
            if (q.asked == AN_EVENT && events == q.ordinal) *found = at;
            events += 1;
            key = 0;
            opener = at;
            mode = INSIDE;
            at += 6;
        } else if (w >> 4 == 0xE) { // End event
            if (at + 2 >= last) return fault(CUT, at);
            if (!(mode & (INSIDE | AFTER_SAMPLE))) return fault(PLACE, at);
            if ((w & 15) != 0) return fault(VALUE, at);
            if (opener && word32(s, at + 1) != 2 * (at + 3 - opener)) return fault(VALUE, at);
            mode = OUTSIDE;
            at += 3;
        } else if (w >> 9 == 5) { // Continue event, with no opener behind it
            if (at + 2 >= last) return fault(CUT, at);
            if (mode != OUTSIDE || at != FIRST_ITEM) return fault(PLACE, at);
            if ((w & 511) != 0) return fault(VALUE, at);
            if (q.asked == AN_EVENT && events == q.ordinal) *found = at;
            events += 1;
            mode = INSIDE;
            at += 3;
        } else if ((w >= 0x0400 && w < 0x0A00) || w == 0x000F) { // a frame start, Frame end
            return fault(PLACE, at);
        } else {
            return fault(CLASS, at);
        }
        items += 1;
    }
    *st = (struct state){ mode, key, next, opener };
    *count = items;
    return accepted;
}

// The mode before the first item, by the start word; 0 where it is none of version 0.
static inline u32 first_mode(u32 start) {
    switch (start >> 5) {
    case 0x40: return OUTSIDE;
    case 0x30: return UNHEADED;
    case 0x20: return COMMANDS;
    default: return 0;
    }
}

// The verdict; *found as in walk.
static inline __attribute__((always_inline)) struct verdict judge(const u8 *s, usize n, struct question q, usize *found) {
    if (n % 2 != 0 || n < 8 || n > 8192) return refused(LENGTH, 0);
    const u32 first = word(s, 0), sequence = word(s, 2), card = first & 31;
    const usize last = n / 2 - 1;
    const u32 mode = first_mode(first);
    if (!mode) return refused(KIND, 0);
    if (word(s, 1) != n) return refused(SIZE, 0);
    if (sequence > 0x100) return refused(SEQUENCE, 0);
    if (word(s, last) != 0x000F) return refused(END, 0);
    struct state st = { .mode = mode };
    u32 items = 0;
    const struct refusal r = walk(s, last, card, q, &st, &items, found);
    if (r.number) return refused(r.number, r.place);
    if (st.mode & UNFINISHED) return refused(OPEN, last);
    const char kind = mode == OUTSIDE ? 'D' : mode == UNHEADED ? 'M' : 'C';
    return (struct verdict){ .kind = kind, .card = (u16)card, .sequence = (u16)sequence, .items = items };
}

static inline struct refusal only(struct verdict v) { return (struct refusal){ v.number, v.place }; }

#endif
