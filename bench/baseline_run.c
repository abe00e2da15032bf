// The hand-written assembler that the proved one is measured against: one walk of a data frame, which notes on its way what an open event asks for.
//
// Unlike the plain walk of the other calls this one is written for speed. Where the next item stands is a place in the program, so that each word is
// held against what may stand there and nothing else; Samples and Hit counts are taken four at a time; the end word is no item, so that items of one
// word stop there with no test of the length. What may not stand at a place is told apart once, in a frame that is refused.
#include "baseline_walk.h"

void *memcpy(void *to, const void *from, usize n);

struct assembler baseline_new_assembler(u32 card) { return (struct assembler){ .card = card }; }

struct assembler baseline_give_up(struct assembler a) { return (struct assembler){ .card = a.card, .follower = a.follower }; }

// ---- repeats: items of one manner, one behind the other

// A number in each of the four words that are loaded at once.
static inline u64 in_each(u64 w) { return w * 0x0001000100010001; }

static inline u64 four_words(const u8 *s, usize at) {
    u64 x;
    memcpy(&x, s + 2 * at, 8);
    return x;
}

static inline int is_sample(u32 w) { return w >> 12 == 3; }

// How many words stand before the first one in which a bit is set.
static inline usize before(u64 bits) { return (usize)__builtin_ctzll(bits) / 16; }

// Behind the Samples from here on.
static inline usize past_samples(const u8 *s, usize at, usize last) {
    for (; at + 3 <= last; at += 4) {
        const u64 others = (four_words(s, at) ^ in_each(0x3000)) & in_each(0xF000);
        if (others) return at + before(others);
    }
    while (is_sample(word(s, at))) at += 1;
    return at;
}

static inline int is_right_hit(u32 w, u32 card) { return w >> 9 == (0x20 | card) && (w & 127) <= MOST_HITS; }

// Behind the Hit counts from here on that are right in a frame of the card. A count of at most 79 leaves bit 7 alone where 48 is added.
static inline usize past_hits(const u8 *s, usize at, usize last, u32 card) {
    const u64 first = in_each(0x4000 | card << 9);
    if (!is_right_hit(word(s, at), card)) return at; // most often there is none
    for (; at + 3 <= last; at += 4) {
        const u64 x = four_words(s, at);
        const u64 others = ((x ^ first) & in_each(0xFE00)) | (((x & in_each(127)) + in_each(127 - MOST_HITS)) & in_each(128));
        if (others) return at + before(others);
    }
    while (is_right_hit(word(s, at), card)) at += 1;
    return at;
}

// ---- the walk

// How many words stand behind the first one of an item that begins with this word; -1 where none does.
static int words_after(u32 w) {
    if (w >> 12 == 2 || w >> 9 == 5 || w >> 4 == 0xE) return 2; // Bin, Continue event, End event
    if (w >> 8 == 1) return (int)((w & 255) + 1) / 2;
    if (w >> 4 == 0xF) return 5;
    return w >= 0x1800 || (w >= 0x0E00 && w < 0x1000) || (w >= 0x0400 && w < 0x0A00) || w == 0x000F ? 0 : -1;
}

// The refusal of a word whose class may not stand where it does: 6, 7 or 8.
static __attribute__((noinline, cold)) struct refusal misplaced(const u8 *s, usize last, usize at) {
    const int after = words_after(word(s, at));
    return fault(after < 0 ? CLASS : at + (usize)after >= last ? CUT : PLACE, at);
}

// What a data frame tells the assembler. A part is what the frame begins with of an event that began in another one.
struct track {
    u32 key;      // of the event at the frame's end: the least that its next Channel header may be
    u32 open;     // an event is open there
    u32 fallen;   // the part's first Channel header is below the key that it was to have
    usize opener; // the last event's Start event; 0 where there is none, or only a part
    usize end;    // the part's End event; 0 where it is not here
};

// Rules 6 to 11 over the items of a data frame. The part's headers go on from `given`: where its first one does not, the frame is not at fault.
static inline __attribute__((always_inline)) struct refusal walk_data(const u8 *s, usize last, u32 card, u32 given, struct track *t) {
    usize at = FIRST_ITEM, opener = 0;
    u32 key = given, fallen = 0, w = word(s, at);
    usize end = 0;
    if (w >> 9 == 5) {
        if (at + 2 >= last) return fault(CUT, at);
        if ((w & 511) != 0) return fault(VALUE, at);
        at += 3;
        goto inside;
    }

outside:
    w = word(s, at);
    if (w >> 4 != 0xF) {
        if (at != last) return misplaced(s, last, at);
        *t = (struct track){ 0, 0, fallen, opener, end };
        return accepted;
    }
    if (at + 5 >= last) return fault(CUT, at);
    opener = at;
    key = 0;
    at += 6;

inside:
    w = word(s, at);
again:
    if (w >= 0xC000) { // Channel, and all that is its own
        const u32 low = w & 0x3FFF;
        if (low >> 9 != card || (w & 127) > LAST_CHANNEL) return fault(VALUE, at);
        if (low < key) {
            if (opener || fallen || key != given) return fault(ORDER, at); // only the first one is below `given`
            fallen = 1;
        }
        key = low + 1;
        at += 1;
        w = word(s, at);
        if (w >> 9 != 7) return at == last ? fault(OPEN, at) : misplaced(s, last, at);
        for (;;) { // a Time bin and its Samples
            const usize first = at + 1, time = w & 511;
            at = past_samples(s, first, last);
            if (at == first) return at == last ? fault(OPEN, at) : misplaced(s, last, at);
            if (at - first > TIMES - time) return fault(ORDER, first + TIMES - time);
            w = word(s, at);
            if (w >> 9 != 7) goto again;
            if ((w & 511) <= time + (at - first)) return fault(ORDER, at);
        }
    }
    if (w >> 14 == 1) { // Hit counts
        if (!is_right_hit(w, card)) return fault(VALUE, at);
        at = past_hits(s, at + 1, last, card);
        goto inside;
    }
    if (w >> 11 == 3) { // Last cell
        at += 1;
        goto inside;
    }
    if (w >> 4 == 0xE) { // End event
        if (at + 2 >= last) return fault(CUT, at);
        if ((w & 15) != 0) return fault(VALUE, at);
        if (opener == 0) end = at;
        else if (word32(s, at + 1) != 2 * (at + 3 - opener)) return fault(VALUE, at);
        at += 3;
        goto outside;
    }
    if (at != last) return misplaced(s, last, at);
    *t = (struct track){ key, 1, fallen, opener, end };
    return accepted;
}

// Rules 1 to 11. Frames of another kind are judged too before they are refused, by the plain walk.
static inline __attribute__((always_inline)) struct refusal judge_data(const u8 *s, usize n, u32 given, struct track *t) {
    if (n % 2 != 0 || n < 8 || n > 8192) return fault(LENGTH, 0);
    const u32 start = word(s, 0);
    const usize last = n / 2 - 1;
    if (start >> 5 != 0x40) return only(baseline_read(s, n));
    if (word(s, 1) != n) return fault(SIZE, 0);
    if (word(s, 2) > 0x100) return fault(SEQUENCE, 0);
    if (word(s, last) != 0x000F) return fault(END, 0);
    return walk_data(s, last, start & 31, given, t);
}

// ---- the step

// A follower's step by the sequence word of an accepted frame; 0 for a number before a start.
static inline int follow(u32 sequence, u32 *follower, u32 *lost) {
    *lost = 0;
    if (sequence == 0x100) {
        *follower = 2;
    } else if (*follower) {
        *lost = (sequence + 1 - *follower) & 255;
        *follower = 1 + ((sequence + 1) & 255);
    } else {
        return sequence == 0;
    }
    return 1;
}

// Whether an accepted frame of the card goes on with the event that is open, or begins with none where none is; *size is the event's with this part.
static inline int links(const struct assembler *a, const u8 *s, usize last, const struct track *t, u64 *size) {
    if (!a->open) return word(s, FIRST_ITEM) != 0x0A00;
    const usize after = t->end ? t->end + 3 : last;
    *size = a->size + 2 * (u64)(after - FIRST_ITEM);
    if (word(s, FIRST_ITEM) != 0x0A00 || word32(s, FIRST_ITEM + 1) != a->number) return 0;
    return !t->fallen && *size >> 32 == 0 && (!t->end || word32(s, t->end + 1) == *size);
}

struct taken baseline_take(struct assembler a, const u8 *s, usize n) {
    struct track t = { 0 };
    const struct refusal r = judge_data(s, n, a.key, &t);
    if (r.number) return (struct taken){ r.number, r.place, 0, a };
    struct assembler next = { .card = a.card, .follower = a.follower };
    u32 lost;
    if (!follow(word(s, 2), &next.follower, &lost)) return (struct taken){ NO_START, 0, 0, a };
    const u32 start = word(s, 0);
    const usize last = n / 2 - 1;
    u64 size = 0;
    if (start >> 5 != 0x40 || (start & 31) != a.card || (a.open && lost) || !links(&a, s, last, &t, &size)) return (struct taken){ LINK, 0, 0, a };
    if (t.open) {
        next.open = 1;
        next.number = t.opener ? word32(s, t.opener + 4) : a.number;
        next.size = t.opener ? (u32)(2 * (last - t.opener)) : (u32)size;
        next.key = t.key;
    }
    return (struct taken){ 0, 0, lost, next };
}
