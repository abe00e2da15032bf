// The makers. Each fills a frame to its last word with one manner of items; what is left at the end is taken up by one-word items.
#include "frames.h"

const char *const fill_names[FILLS] = { "samples", "hits", "mixed", "bins", "text", "short text", "continued samples", "continued mixed" };

enum { CARD = FRAME_CARD, SAMPLES_A_CHANNEL = 500, BINS_A_HISTOGRAM = 300 };

struct pen {
    u8 *out;
    usize at;  // the next word
    usize end; // the last word, Frame end's
    u32 seed;
};

static void put(struct pen *p, u32 w) {
    p->out[2 * p->at] = w & 255;
    p->out[2 * p->at + 1] = w >> 8 & 255;
    p->at += 1;
}

static u32 chance(struct pen *p, u32 below) {
    p->seed = p->seed * 1664525 + 1013904223;
    return (p->seed >> 16) % below;
}

static usize left(const struct pen *p) { return p->end - p->at; }

// The n-th header of a frame or event: chips in order, 79 channels each.
static u32 header(u32 prefix, u32 n) { return prefix | CARD << 9 | (n / 79) << 7 | n % 79; }

static void start_event(struct pen *p, u32 number) {
    put(p, 0xF1);
    put(p, 0x03E8 + number);
    put(p, 0);
    put(p, 0);
    put(p, number);
    put(p, 0);
}

static void continue_event(struct pen *p) {
    put(p, 0x0A00);
    put(p, EARLIER_NUMBER);
    put(p, 0);
}

static void hit(struct pen *p) { put(p, 0x4000 | CARD << 9 | chance(p, 4) << 7 | chance(p, 80)); }

// The End event of what began at a word, of so many bytes in earlier frames.
static void end_event(struct pen *p, usize from, u32 earlier) {
    put(p, 0xE0);
    put(p, earlier + 2 * (u32)(p->at + 2 - from));
    put(p, 0);
}

// Long channels from the n-th header on, up to so many words before the end.
static void long_channels(struct pen *p, u32 n, usize before) {
    for (; left(p) >= before + 8; n++) {
        usize run = left(p) - before - 2;
        if (run > SAMPLES_A_CHANNEL) run = SAMPLES_A_CHANNEL;
        put(p, header(0xC000, n));
        put(p, 0x0E00 | 3);
        while (run-- > 0) put(p, 0x3000 | chance(p, 4096));
    }
    while (left(p) > before) hit(p);
}

// One event of long channels.
static void samples(struct pen *p) {
    const usize from = p->at;
    start_event(p, 7);
    long_channels(p, 0, 3);
    end_event(p, from, 0);
}

// A part of such an event, neither its first nor its last.
static void continued_samples(struct pen *p) {
    continue_event(p);
    long_channels(p, EARLIER_HEADER, 0);
}

static void hits(struct pen *p) {
    const usize from = p->at;
    start_event(p, 7);
    while (left(p) > 3) hit(p);
    end_event(p, from, 0);
}

// What an event has: hit counts and last cells, then channels from the n-th header on with two or three short pulses each, up to about a word.
static void pulses(struct pen *p, u32 n, usize stop) {
    for (u32 chip = 0; chip < 4; chip++) {
        put(p, 0x4000 | CARD << 9 | chip << 7 | chance(p, 80));
        put(p, 0x1800 | chip << 9 | chance(p, 512));
    }
    for (n += chance(p, 20); n < 316 && left(p) >= 100 && p->at < stop; n += 1 + chance(p, 30)) {
        u32 time = chance(p, 100);
        put(p, header(0xC000, n));
        for (u32 count = 2 + chance(p, 2); count > 0; count--) {
            put(p, 0x0E00 | time);
            for (u32 run = 5 + chance(p, 20); run > 0; run--, time++) put(p, 0x3000 | chance(p, 4096));
            time += 1 + chance(p, 50);
        }
    }
}

// Events as they come, up to the last one that has room, which hit counts make longer; it ends here or stays open.
static void events(struct pen *p, u32 stays_open) {
    for (u32 number = 0; left(p) >= 120; number++) {
        const usize from = p->at;
        start_event(p, number);
        pulses(p, 0, from + 400);
        const usize before = stays_open ? 0 : 3;
        if (left(p) < 120 + 3) // no room for another one behind its end
            while (left(p) > before) hit(p);
        if (left(p) > 0) end_event(p, from, 0);
    }
}

// The last part of one event, others, and the first part of one that goes on.
static void continued_mixed(struct pen *p) {
    const usize from = p->at;
    continue_event(p);
    pulses(p, EARLIER_HEADER, from + left(p) / 4);
    end_event(p, from, EARLIER_SIZE);
    events(p, 1);
}

static void bins(struct pen *p) {
    u32 n = 0;
    while (left(p) >= 4) {
        put(p, header(0x8000, n++));
        u32 bin = chance(p, 100);
        for (u32 k = 0; k < BINS_A_HISTOGRAM && left(p) >= 3; k++, bin += 1 + chance(p, 12)) {
            put(p, 0x2000 | bin);
            put(p, 1 + chance(p, 65535));
            put(p, chance(p, 4) == 0 ? chance(p, 65536) : 0);
        }
    }
    while (left(p) > 0) put(p, header(0x8000, n++));
}

// Texts of at most so many bytes, the final zero among them.
static void texts(struct pen *p, usize most) {
    while (left(p) >= 2) {
        usize n = most;
        if (2 * (left(p) - 1) < n) n = 2 * (left(p) - 1);
        if (left(p) - 1 - (n + 1) / 2 == 1) n -= 2; // a text takes two words at least
        const usize from = 2 * (p->at + 1);
        put(p, 0x0100 | (u32)n);
        for (usize k = 0; k < (n + 1) / 2; k++) put(p, 0);
        for (usize k = 0; k + 1 < n; k++) p->out[from + k] = (u8)(32 + chance(p, 95));
    }
}

// The start word of each fill's frames, without the card.
static const u32 starts[FILLS] = { 0x0800, 0x0800, 0x0800, 0x0600, 0x0400, 0x0400, 0x0800, 0x0800 };

void make_frame(u32 fill, usize size, u8 *out) {
    struct pen p = { out, 0, size / 2 - 1, 1 };
    put(&p, starts[fill] | CARD);
    put(&p, (u32)size);
    put(&p, FRAME_SEQUENCE);
    switch (fill) {
    case 0: samples(&p); break;
    case 1: hits(&p); break;
    case 2: events(&p, 0); break;
    case 3: bins(&p); break;
    case 4: texts(&p, 255); break;
    case 5: texts(&p, 24); break;
    case 6: continued_samples(&p); break;
    default: continued_mixed(&p); break;
    }
    put(&p, 0x000F);
}
