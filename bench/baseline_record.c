// The hand-written plane record that the proved one is measured against: judged in one walk of the frame, which notes where Samples and Bins
// begin, and one pass over the entries from the newest back, undone on a copy of the frame. One judge for both versions, by the version word.
#include "baseline_walk.h"

void *memcpy(void *to, const void *from, usize n);
void *memset(void *to, int byte, usize n);

enum { HEAD = 16, MOST_ENTRIES = 512, LAST_REASON = 5, LAST_OPERATOR = 65535, LAST_VALUE = 4095, LONGEST = 8192, WORDS = 4096 };

// The sizes of an entry by the record's version; in version 2 a time of 48 bits and a desk are behind the rest.
enum { SIZE_1 = 16, SIZE_2 = 24, TIME_BITS = 48 };

static inline int legal(u32 kind, u32 value) { return kind == 1 ? value <= LAST_VALUE : value != 0; }

static inline u32 value_of(const u8 *frame, u32 kind, usize w) { return kind == 1 ? word(frame, w) & LAST_VALUE : word32(frame, w + 1); }

static inline void put_value(u8 *frame, u32 kind, usize w, u32 value) {
    if (kind == 1) put_word(frame, w, 0x3000 | value);
    else put_word32(frame, w + 1, value);
}

static inline struct entry entry_of(const u8 *e, u32 size) {
    const u32 timed = size == SIZE_2;
    const u64 time = timed ? word32(e, 8) | (u64)word(e, 10) << 32 : 0;
    return (struct entry){ word(e, 0), word(e, 1), word32(e, 2), word32(e, 4), word(e, 6), word(e, 7), timed, time };
}

// Tests the entries of numbers `from` down to `to` + 1 and undoes them in the frame; the number of the first that does not fit, or 0. The kind
// is asked once: what a Sample and a Bin may hold is tested where the old value is put back.
static inline __attribute__((always_inline)) usize undo_of(u8 *frame, const u8 *kinds, const u8 *entries, u32 size, usize from, usize to) {
    for (usize m = from; m > to; m--) {
        const u8 *const at = entries + size * (m - 1);
        const struct entry e = entry_of(at, size);
        if (e.word >= WORDS || kinds[e.word] != e.kind || e.old == e.new || e.operator == 0 || e.reason - 1 >= LAST_REASON) return m;
        if (size == SIZE_2 && word(at, 11) != 0) return m; // the desk
        if (e.kind == 1) {
            if ((word(frame, e.word) & LAST_VALUE) != e.new || e.old > LAST_VALUE) return m;
            put_word(frame, e.word, 0x3000 | e.old);
        } else {
            if (e.kind == 0 || word32(frame, e.word + 1) != e.new || e.old == 0) return m;
            put_word32(frame, e.word + 1, e.old);
        }
    }
    return 0;
}

// The version is asked once: each has a loop of its own, in which the size of an entry is a constant.
static usize undo(u8 *frame, const u8 *kinds, const u8 *entries, u32 size, usize from, usize to) {
    return size == SIZE_1 ? undo_of(frame, kinds, entries, SIZE_1, from, to) : undo_of(frame, kinds, entries, SIZE_2, from, to);
}

// The header, of either version.
static inline struct refusal head(const u8 *b, usize n, struct record *x) {
    if (n < HEAD) return fault(HEADER, 0);
    const u32 first = word32(b, 0); // the version, and 1 as the number of frames
    x->length = word(b, 3);
    x->count = word(b, 5);
    x->entry_size = first == 0x10001 ? SIZE_1 : SIZE_2;
    x->total = HEAD + x->length + x->entry_size * x->count;
    const int right = first - 0x10001 <= 1 && word(b, 2) == HEAD && word(b, 4) == HEAD + x->length && x->count <= MOST_ENTRIES &&
        word(b, 6) == x->total && word(b, 7) == 0 && x->total <= n;
    return right ? accepted : fault(HEADER, 0);
}

// The frame; `kinds` notes the words that begin Samples and Bins.
static struct refusal noted(const u8 *b, const struct record *x, u8 *kinds) {
    usize found = 0;
    memset(kinds, 0, WORDS);
    return only(judge(b + HEAD, x->length, (struct question){ .asked = KINDS, .kinds = kinds }, &found));
}

struct refusal baseline_record(const u8 *b, usize n, struct record *out) {
    struct record x;
    struct refusal r = head(b, n, &x);
    if (r.number) return r;
    const u8 *const frame = b + HEAD;
    if (x.count == 0) {
        r = only(baseline_read(frame, x.length));
    } else {
        u8 kinds[WORDS], now[LONGEST];
        r = noted(b, &x, kinds);
        if (r.number) return r;
        memcpy(now, frame, x.length);
        const usize bad = undo(now, kinds, frame + x.length, x.entry_size, x.count, 0);
        if (bad) return fault(ENTRY, bad);
    }
    if (!r.number) *out = x;
    return r;
}

struct refusal baseline_entry(const u8 *b, usize n, u64 number, struct entry *out) {
    struct record x;
    const struct refusal r = baseline_record(b, n, &x);
    if (r.number) return r;
    if (number < 1 || number > x.count) return fault(NO_ENTRY, 0);
    *out = entry_of(b + HEAD + x.length + x.entry_size * (number - 1), x.entry_size);
    return r;
}

struct refusal baseline_open(u8 *b, usize n, const u8 *frame, usize length) {
    const struct verdict v = baseline_read(frame, length);
    if (v.number) return only(v);
    if (n < HEAD + length) return fault(ROOM, 0);
    const u32 words[8] = { 2, 1, HEAD, (u32)length, HEAD + (u32)length, 0, HEAD + (u32)length, 0 };
    for (usize i = 0; i < 8; i++) put_word(b, i, words[i]);
    memcpy(b + HEAD, frame, length);
    return accepted;
}

// An entry of version 2; its desk is 0.
static inline void put_entry(u8 *e, struct entry x) {
    put_word(e, 0, x.word);
    put_word(e, 1, x.kind);
    put_word32(e, 2, x.old);
    put_word32(e, 4, x.new);
    put_word(e, 6, x.operator);
    put_word(e, 7, x.reason);
    put_word32(e, 8, (u32)x.time);
    put_word32(e, 10, (u32)(x.time >> 32));
}

// A record of version 1 is not edited, whatever stands behind its version word.
struct refusal baseline_edit(u8 *b, usize n, struct correction c) {
    struct record x;
    u8 kinds[WORDS], now[LONGEST];
    struct refusal r = head(b, n, &x);
    if (!r.number && x.entry_size != SIZE_2) r = fault(HEADER, 0);
    if (!r.number) r = noted(b, &x, kinds);
    if (r.number) return r;
    u8 *const frame = b + HEAD;
    if (x.count > 0) {
        memcpy(now, frame, x.length);
        const usize bad = undo_of(now, kinds, frame + x.length, SIZE_2, x.count, 0);
        if (bad) return fault(ENTRY, bad);
    }
    const u32 kind = c.word < WORDS ? kinds[c.word] : 0;
    if (kind == 0) return fault(TARGET, 0);
    const u32 old = value_of(frame, kind, c.word);
    if (!legal(kind, c.value) || c.value == old) return fault(NEW_VALUE, 0);
    if (c.operator - 1 >= LAST_OPERATOR || c.reason - 1 >= LAST_REASON || c.time >> TIME_BITS) return fault(SIGNER, 0);
    if (x.count == MOST_ENTRIES) return fault(FULL, 0);
    if (n < x.total + SIZE_2) return fault(ROOM, 0);
    put_value(frame, kind, c.word, c.value);
    put_word(b, 5, x.count + 1);
    put_word(b, 6, x.total + SIZE_2);
    put_entry(b + x.total, (struct entry){ (u32)c.word, kind, old, c.value, c.operator, c.reason, 1, c.time });
    return accepted;
}

struct refusal baseline_edit_all(u8 *b, usize n, const struct correction *list, usize count, usize *position) {
    *position = 0;
    for (usize i = 0; i < count; i++) {
        const struct refusal r = baseline_edit(b, n, list[i]);
        if (r.number) {
            *position = i;
            return r;
        }
    }
    return accepted;
}

// The frame after the k-th edit is set aside on the way back: the older entries are still to be tested before anything is written.
struct refusal baseline_restore(const u8 *b, usize n, u64 k, u8 *out, usize room) {
    struct record x;
    u8 kinds[WORDS], now[LONGEST], then[LONGEST];
    struct refusal r = head(b, n, &x);
    if (!r.number) r = noted(b, &x, kinds);
    if (r.number) return r;
    const u8 *const entries = b + HEAD + x.length;
    const usize stop = k < x.count ? k : x.count;
    memcpy(now, b + HEAD, x.length);
    usize bad = undo(now, kinds, entries, x.entry_size, x.count, stop);
    if (bad) return fault(ENTRY, bad);
    memcpy(then, now, x.length);
    bad = undo(now, kinds, entries, x.entry_size, stop, 0);
    if (bad) return fault(ENTRY, bad);
    if (k > x.count) return fault(NO_ENTRY, 0);
    if (room < x.length) return fault(ROOM, 0);
    memcpy(out, then, x.length);
    return accepted;
}
