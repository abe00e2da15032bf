// The hand-written writer that the proved one is measured against: the step by the state, and the calls that judge the partial frame first.
#include "baseline_walk.h"

void *memcpy(void *to, const void *from, usize n);

enum { LAST_CARD = 31, LAST_SEQUENCE = 0x0100, LAST_VALUE = 4095, LAST_CELL_NUMBER = 511, LAST_TYPE = 15, MOST = 8192, MOST_TEXT = 254 };

static const u64 LAST_TIMESTAMP = 0xFFFFFFFFFFFF;

// Whether an item of so many bytes and an end word fit behind `length` bytes.
static inline int fits(usize room, usize length, usize size) {
    const usize limit = room < MOST ? room : MOST;
    return size + 2 <= limit && length <= limit - size - 2;
}

// An item of one word, and the state behind it.
static inline struct refusal one_word(u8 *buf, usize room, struct draft *d, u32 w, struct state after) {
    if (!fits(room, d->length, 2)) return fault(ROOM, 0);
    put_word(buf + d->length, 0, w);
    d->length += 2;
    d->state = after;
    return accepted;
}

// An item of a word and a number of 32 bits.
static inline struct refusal three_words(u8 *buf, usize room, struct draft *d, u32 w, u32 n, struct state after) {
    if (!fits(room, d->length, 6)) return fault(ROOM, 0);
    put_word(buf + d->length, 0, w);
    put_word32(buf + d->length, 1, n);
    d->length += 6;
    d->state = after;
    return accepted;
}

static inline int is_header(const struct item *x, u32 card, u32 most) {
    return x->fields[0] == card && card <= LAST_CARD && x->fields[1] <= LAST_CHIP && x->fields[2] <= most;
}

// The low 14 bits of a header whose fields are in range.
static inline u32 content(const struct item *x) { return (u32)x->fields[0] << 9 | (u32)x->fields[1] << 7 | (u32)x->fields[2]; }

// The step, for whoever takes this file in as text to have it inlined.
static inline __attribute__((always_inline)) struct refusal put(u8 *buf, usize room, struct draft *d, struct item x) {
    const usize at = d->length / 2;
    const struct state s = d->state;
    const u32 low = content(&x), first = (u32)x.fields[0];
    switch (x.class) {
    case CHANNEL:
        if (!(s.mode & (INSIDE | AFTER_SAMPLE))) return fault(PLACE, at);
        if (!is_header(&x, d->card, LAST_CHANNEL)) return fault(VALUE, at);
        if (low < s.key) return fault(ORDER, at);
        return one_word(buf, room, d, 0xC000 | low, (struct state){ AFTER_CHANNEL, low + 1, s.next, s.opener });
    case HISTOGRAM:
        if (!(s.mode & (UNHEADED | HEADED))) return fault(PLACE, at);
        if (!is_header(&x, d->card, LAST_CHANNEL)) return fault(VALUE, at);
        if (low < s.key) return fault(ORDER, at);
        return one_word(buf, room, d, 0x8000 | low, (struct state){ HEADED, low + 1, 0, s.opener });
    case HIT_COUNT:
        if (!(s.mode & (INSIDE | AFTER_SAMPLE))) return fault(PLACE, at);
        if (!is_header(&x, d->card, MOST_HITS)) return fault(VALUE, at);
        return one_word(buf, room, d, 0x4000 | low, (struct state){ INSIDE, s.key, s.next, s.opener });
    case SAMPLE:
        if (!(s.mode & (AFTER_TIME | AFTER_SAMPLE))) return fault(PLACE, at);
        if (x.fields[0] > LAST_VALUE) return fault(VALUE, at);
        if (s.next > LAST_TIME) return fault(ORDER, at);
        return one_word(buf, room, d, 0x3000 | first, (struct state){ AFTER_SAMPLE, s.key, s.next + 1, s.opener });
    case BIN:
        if (s.mode != HEADED) return fault(PLACE, at);
        if (x.fields[0] > LAST_VALUE || x.fields[1] == 0) return fault(VALUE, at);
        if (first < s.next) return fault(ORDER, at);
        return three_words(buf, room, d, 0x2000 | first, (u32)x.fields[1], (struct state){ HEADED, s.key, first + 1, s.opener });
    case LAST_CELL:
        if (!(s.mode & (INSIDE | AFTER_SAMPLE))) return fault(PLACE, at);
        if (x.fields[0] > LAST_CHIP || x.fields[1] > LAST_CELL_NUMBER) return fault(VALUE, at);
        return one_word(buf, room, d, 0x1800 | first << 9 | (u32)x.fields[1], (struct state){ INSIDE, s.key, s.next, s.opener });
    case TIME_BIN:
        if (!(s.mode & (AFTER_CHANNEL | AFTER_SAMPLE))) return fault(PLACE, at);
        if (x.fields[0] > LAST_TIME) return fault(VALUE, at);
        if (s.mode == AFTER_SAMPLE && first <= s.next) return fault(ORDER, at);
        return one_word(buf, room, d, 0x0E00 | first, (struct state){ AFTER_TIME, s.key, first, s.opener });
    case START_EVENT:
        if (s.mode != OUTSIDE) return fault(PLACE, at);
        if (x.fields[0] > LAST_TYPE || x.fields[1] > LAST_TIMESTAMP) return fault(VALUE, at);
        if (!fits(room, d->length, 12)) return fault(ROOM, 0);
        put_word(buf + d->length, 0, 0xF0 | first);
        put_word32(buf + d->length, 1, (u32)x.fields[1]);
        put_word(buf + d->length, 3, (u32)(x.fields[1] >> 32));
        put_word32(buf + d->length, 4, (u32)x.fields[2]);
        d->length += 12;
        d->state = (struct state){ INSIDE, 0, s.next, at };
        return accepted;
    case CONTINUE_EVENT:
        if (s.mode != OUTSIDE || at != FIRST_ITEM) return fault(PLACE, at);
        return three_words(buf, room, d, 0x0A00, first, (struct state){ INSIDE, 0, s.next, 0 });
    case END_EVENT:
        if (!(s.mode & (INSIDE | AFTER_SAMPLE))) return fault(PLACE, at);
        if (s.opener && x.fields[0] != 6 + 2 * (at < s.opener ? 0 : at - s.opener)) return fault(VALUE, at);
        return three_words(buf, room, d, 0xE0, first, (struct state){ OUTSIDE, s.key, s.next, s.opener });
    default: // a text is put by its own call
        return fault(s.mode == COMMANDS ? VALUE : PLACE, at);
    }
}

struct refusal baseline_put(u8 *buf, usize room, struct draft *d, struct item x) { return put(buf, room, d, x); }

static inline int has_zero(const u8 *s, usize n) {
    u8 zeros = 0;
    for (usize i = 0; i < n; i++) zeros |= s[i] == 0;
    return zeros;
}

struct refusal baseline_put_text(u8 *buf, usize room, struct draft *d, const u8 *text, usize n) {
    const usize at = d->length / 2, size = 2 + (n + 2) / 2 * 2;
    u8 *const to = buf + d->length;
    if (d->state.mode != COMMANDS) return fault(PLACE, at);
    if (n > MOST_TEXT || has_zero(text, n)) return fault(VALUE, at);
    if (!fits(room, d->length, size)) return fault(ROOM, 0);
    put_word(to, 0, 0x0100 | (u32)(n + 1));
    memcpy(to + 2, text, n);
    for (usize i = n + 2; i < size; i++) to[i] = 0;
    d->length += size;
    return accepted;
}

struct refusal baseline_begin(u8 *buf, usize room, char kind, u32 card, u32 sequence, struct draft *out) {
    if (card > LAST_CARD) return fault(VALUE, 0);
    if (sequence > LAST_SEQUENCE) return fault(SEQUENCE, 0);
    if (room < 8) return fault(ROOM, 0);
    const u32 start = kind == 'D' ? 0x0800 : kind == 'M' ? 0x0600 : 0x0400;
    put_word(buf, 0, start | card);
    put_word(buf, 1, 0);
    put_word(buf, 2, sequence);
    *out = (struct draft){ 6, card, { .mode = first_mode(start) } };
    return accepted;
}

// The partial frame in the first `length` bytes, by rules 1 to 4 and 6 to 10.
static struct refusal resume(const u8 *buf, usize room, u64 length, struct draft *out) {
    if (length % 2 != 0 || length < 6 || length > MOST - 2 || length > room) return fault(LENGTH, 0);
    const u32 first = word(buf, 0), card = first & 31, mode = first_mode(first);
    if (!mode) return fault(KIND, 0);
    if (word(buf, 1) != 0) return fault(SIZE, 0);
    if (word(buf, 2) > LAST_SEQUENCE) return fault(SEQUENCE, 0);
    struct draft d = { length, card, { .mode = mode } };
    u32 items = 0;
    usize found = 0;
    const struct refusal r = walk(buf, length / 2, card, (struct question){ .asked = NOTHING }, &d.state, &items, &found);
    if (!r.number) *out = d;
    return r;
}

struct refusal baseline_add(u8 *buf, usize room, u64 length, struct item x, struct draft *out) {
    struct draft d;
    struct refusal r = resume(buf, room, length, &d);
    if (!r.number) r = put(buf, room, &d, x);
    if (!r.number) *out = d;
    return r;
}

struct refusal baseline_add_text(u8 *buf, usize room, u64 length, const u8 *text, usize n, struct draft *out) {
    struct draft d;
    struct refusal r = resume(buf, room, length, &d);
    if (!r.number) r = baseline_put_text(buf, room, &d, text, n);
    if (!r.number) *out = d;
    return r;
}

struct refusal baseline_close(u8 *buf, usize room, u64 length, usize *out) {
    struct draft d;
    const struct refusal r = resume(buf, room, length, &d);
    if (r.number) return r;
    if (d.state.mode & UNFINISHED) return fault(OPEN, d.length / 2);
    if (d.length + 2 > room) return fault(ROOM, 0);
    put_word(buf, 1, (u32)d.length + 2);
    put_word(buf + d.length, 0, 0x000F);
    *out = d.length + 2;
    return accepted;
}
