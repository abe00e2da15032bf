// The hand-written reader that the proved one is measured against: the verdict and the questions.
#include "baseline_walk.h"

struct verdict baseline_read(const u8 *s, usize n) {
    usize found = 0;
    return judge(s, n, (struct question){ .asked = NOTHING }, &found);
}

// The fields of the item at a word of an accepted frame.
static struct item item_at(const u8 *s, usize at) {
    const u32 w = word(s, at);
    const u32 next = (u32)at + 1;
    if (w >= 0x4000)
        return (struct item){ w >= 0xC000 ? CHANNEL : w >= 0x8000 ? HISTOGRAM : HIT_COUNT, next, { w >> 9 & 31, w >> 7 & 3, w & 127 } };
    if (w >= 0x3000) return (struct item){ SAMPLE, next, { w & 4095 } };
    if (w >= 0x2000) return (struct item){ BIN, next + 2, { w & 4095, word32(s, at + 1) } };
    if (w >= 0x1800) return (struct item){ LAST_CELL, next, { w >> 9 & 3, w & 511 } };
    if (w >= 0x0E00) return (struct item){ TIME_BIN, next, { w & 511 } };
    if (w >= 0x0A00) return (struct item){ CONTINUE_EVENT, next + 2, { word32(s, at + 1) } };
    if (w >= 0x0100) return (struct item){ TEXT, next + ((w & 255) + 1) / 2, { w & 255 } };
    if (w >= 0x00F0)
        return (struct item){ START_EVENT, next + 5, { w & 15, word32(s, at + 1) | (u64)word(s, at + 3) << 32, word32(s, at + 4) } };
    return (struct item){ END_EVENT, next + 2, { word32(s, at + 1) } };
}

struct refusal baseline_item(const u8 *s, usize n, u64 ordinal, struct item *out) {
    usize found = 0;
    const struct verdict v = judge(s, n, (struct question){ .asked = AN_ITEM, .ordinal = ordinal }, &found);
    if (v.number) return only(v);
    if (!found) return fault(ABSENT, 0);
    *out = item_at(s, found);
    return only(v);
}

// The End event from a word inside an event of an accepted frame on, or the last word: all else inside has one word, and that from 0E00 up.
static usize end_from(const u8 *s, usize at) {
    while (word(s, at) >= 0x0E00) at += 1;
    return at;
}

struct refusal baseline_event(const u8 *s, usize n, u64 ordinal, struct event *out) {
    usize found = 0;
    const struct verdict v = judge(s, n, (struct question){ .asked = AN_EVENT, .ordinal = ordinal }, &found);
    if (v.number) return only(v);
    if (!found) return fault(ABSENT, 0);
    const usize last = n / 2 - 1;
    const struct item x = item_at(s, found);
    const usize end = end_from(s, x.next);
    *out = x.class == START_EVENT ? (struct event){ .began = 1, .type = (u32)x.fields[0], .timestamp = x.fields[1], .number = (u32)x.fields[2] }
                                  : (struct event){ .number = (u32)x.fields[0] };
    out->ended = end < last;
    out->size = end < last ? word32(s, end + 1) : 0;
    out->index = (u32)found;
    return only(v);
}

struct refusal baseline_samples(const u8 *s, usize n, u64 ordinal, u32 chip, u32 channel, u16 *out, usize room) {
    usize found = 0;
    const struct question q = { .asked = A_CHANNEL, .ordinal = ordinal, .low = chip << 7 | channel };
    const struct verdict v = judge(s, n, q, &found);
    if (v.number) return only(v);
    if (room < TIMES) return fault(ROOM, 0);
    if (!found || chip > LAST_CHIP || channel > LAST_CHANNEL) return fault(ABSENT, 0);
    for (usize t = 0; t < TIMES; t++) out[t] = 0xFFFF;
    usize t = 0;
    for (usize at = found + 1;; at++) {
        const u32 w = word(s, at);
        if (w >> 12 == 3) out[t++] = w & 4095;
        else if (w >> 9 == 7) t = w & 511;
        else return only(v);
    }
}

struct refusal baseline_counts(const u8 *s, usize n, u32 chip, u32 channel, u32 *out, usize room) {
    usize found = 0;
    const struct question q = { .asked = A_HISTOGRAM, .low = chip << 7 | channel };
    const struct verdict v = judge(s, n, q, &found);
    if (v.number) return only(v);
    if (room < BINS) return fault(ROOM, 0);
    if (!found || chip > LAST_CHIP || channel > LAST_CHANNEL) return fault(ABSENT, 0);
    for (usize b = 0; b < BINS; b++) out[b] = 0;
    for (usize at = found + 1; word(s, at) >> 12 == 2; at += 3) out[word(s, at) & 4095] = word32(s, at + 1);
    return only(v);
}

struct refusal baseline_sample_word(const u8 *s, usize n, u64 ordinal, u32 chip, u32 channel, u32 time, usize *out) {
    usize found = 0;
    const struct question q = { .asked = A_CHANNEL, .ordinal = ordinal, .low = chip << 7 | channel };
    const struct verdict v = judge(s, n, q, &found);
    if (v.number) return only(v);
    if (!found || chip > LAST_CHIP || channel > LAST_CHANNEL) return fault(ABSENT, 0);
    usize t = 0;
    for (usize at = found + 1;; at++) {
        const u32 w = word(s, at);
        if (w >> 12 == 3) {
            if (t++ != time) continue;
            *out = at;
            return only(v);
        }
        if (w >> 9 != 7) return fault(ABSENT, 0);
        t = w & 511;
    }
}

struct refusal baseline_bin_word(const u8 *s, usize n, u32 chip, u32 channel, u32 bin, usize *out) {
    usize found = 0;
    const struct question q = { .asked = A_HISTOGRAM, .low = chip << 7 | channel };
    const struct verdict v = judge(s, n, q, &found);
    if (v.number) return only(v);
    if (!found || chip > LAST_CHIP || channel > LAST_CHANNEL) return fault(ABSENT, 0);
    for (usize at = found + 1; word(s, at) >> 12 == 2; at += 3) {
        if ((word(s, at) & 4095) != bin) continue;
        *out = at;
        return only(v);
    }
    return fault(ABSENT, 0);
}
