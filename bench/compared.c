// Cases that are compared and not measured: lists of corrections that stop, and records of both versions.
#include "rows.h"

// Of the C library; the compiler comes without its headers.
void *memcpy(void *to, const void *from, usize n);

// Frames of samples, mixed ones and bins.
static const u32 fills[] = { 0, 2, 3 };
enum { KINDS = sizeof fills / sizeof fills[0] };

enum { SPOILS = 9 };

// A correction that is refused, wherever it stands: by 22, 22, 23, and 24 six times.
static struct correction spoiled(struct correction x, u32 how, int of_bins) {
    switch (how) {
    case 0: x.word = 0; break;
    case 1: x.word = 0xFFFFFFFF; break;
    case 2: x.value = of_bins ? 0 : 4096; break;
    case 3: x.operator = 0; break;
    case 4: x.operator = 65536; break;
    case 5: x.reason = 0; break;
    case 6: x.reason = 6; break;
    case 7: x.time = LATEST + 1; break;
    default: x.time = ~(u64)0; break;
    }
    return x;
}

// ---- lists that stop

// A record of the longest frame, and a list of corrections of its last words.
struct listed {
    u32 fill;
    u32 entries;
};

static void make_listed(struct a_case *c, struct listed l) {
    struct correction list[LISTED];
    c->op = EDIT_ALL;
    make_record(c, l.fill, LONGEST, 2, l.entries);
    find_targets(c, list, LISTED);
    put_list(c, list, LISTED);
}

// The list of a case with one correction changed.
static int put_changed(const struct a_case *from, u32 position, struct correction x) {
    static struct a_case c;
    struct correction list[LISTED];
    for (u32 i = 0; i < LISTED; i++) list[i] = correction_at(from, i);
    list[position] = x;
    memcpy(&c, from, sizeof c);
    put_list(&c, list, LISTED);
    return put_case(&c);
}

// A correction of the list refused at its beginning, inside and at its end, by each of 22, 23, 24 and 12; and made twice, where the second is 23.
static int put_refused(const struct a_case *from, struct listed l) {
    static const u32 positions[] = { 0, 1, LISTED / 2, LISTED - 1 };
    static struct a_case c;
    int failed = 0;
    for (u32 k = 0; k < sizeof positions / sizeof positions[0]; k++) {
        const u32 at = positions[k];
        for (u32 how = 0; how < SPOILS; how++)
            failed |= put_changed(from, at, spoiled(correction_at(from, at), how, l.fill == 3));
        if (at > 0) failed |= put_changed(from, at, correction_at(from, at - 1));
        memcpy(&c, from, sizeof c);
        c.n = 16 + LONGEST + ENTRY_2 * (l.entries + at) + ENTRY_2 - 1;
        failed |= put_case(&c);
    }
    return failed;
}

// One correction more than the list has: 25 at its end where the list fills the record.
static int put_longer(const struct a_case *from) {
    static struct a_case c;
    struct correction list[LISTED + 1];
    for (u32 i = 0; i < LISTED; i++) list[i] = correction_at(from, i);
    list[LISTED] = list[0];
    list[LISTED].value += 1;
    memcpy(&c, from, sizeof c);
    put_list(&c, list, LISTED + 1);
    return put_case(&c);
}

// The list, and none, on the record with a byte changed that makes it none: of its header, of its frame's sequence word, of its last entry's desk,
// which is the frame's end word where there is no entry, and of its reason. And none on no bytes.
static int put_damaged(const struct a_case *from, struct listed l) {
    static struct a_case c;
    const usize end = 16 + LONGEST + ENTRY_2 * l.entries;
    const usize bytes[] = { 0, 16 + 5, end - 2, end - 10 };
    int failed = 0;
    for (u32 k = 0; k < (l.entries ? 4 : 3); k++) {
        memcpy(&c, from, sizeof c);
        c.p[bytes[k]] ^= 0x40;
        failed |= put_case(&c);
        c.m = 0;
        failed |= put_case(&c);
    }
    c.n = 0;
    return failed | put_case(&c);
}

int make_stops(void) {
    static const u32 entries[] = { 512 - LISTED, 0 };
    static struct a_case c;
    int failed = 0;
    for (u32 k = 0; k < KINDS; k++)
        for (u32 i = 0; i < sizeof entries / sizeof entries[0]; i++) {
            const struct listed l = { fills[k], entries[i] };
            make_listed(&c, l);
            failed |= put_refused(&c, l) | put_longer(&c) | put_damaged(&c, l);
        }
    return failed;
}

// ---- records of both versions

enum { SHORT = 1024 }; // bytes of their frames

// How a record is made, its entries and the bytes of each; and the correction that is asked of it.
struct versioned {
    u32 entries;
    u32 entry_size;
    struct correction x;
};

static usize total_of(const struct versioned *v) { return 16 + SHORT + v->entry_size * v->entries; }

static int put_edited(struct a_case *c, struct correction x) {
    c->op = EDIT;
    put_edit(c, x);
    return put_case(c);
}

static int put_numbered(struct a_case *c, u32 op, u64 number, usize room) {
    c->op = (u8)op;
    c->a[0] = number;
    c->m = room;
    return put_case(c);
}

// The record asked by each call: judged, its newest entry, the frame in the middle of its history, an edit, and the same as a list of one.
static int put_asked(const struct a_case *from, const struct versioned *v) {
    static struct a_case c;
    memcpy(&c, from, sizeof c);
    int failed = put_numbered(&c, JUDGE, 0, 0);
    failed |= put_numbered(&c, ONE_ENTRY, v->entries, 0);
    failed |= put_numbered(&c, RESTORE, v->entries / 2, SHORT);
    c.m = 0;
    failed |= put_edited(&c, v->x);
    for (u32 i = 0; i < 7; i++) c.a[i] = 0;
    c.op = EDIT_ALL;
    put_list(&c, &v->x, 1);
    return failed | put_case(&c);
}

// Bits of a stretch changed, one at a time.
static int put_flipped(struct a_case *c, const struct versioned *v, usize from, usize to) {
    int failed = 0;
    for (usize at = from; at < to; at++)
        for (u32 bit = 0; bit <= 6; bit += 6) {
            c->p[at] ^= (u8)(1 << bit);
            failed |= put_asked(c, v);
            c->p[at] ^= (u8)(1 << bit);
        }
    return failed;
}

// Each version word with each size that a total can go by.
static int put_headers(const struct a_case *from, const struct versioned *v) {
    static struct a_case c;
    int failed = 0;
    memcpy(&c, from, sizeof c);
    for (u32 version = 0; version <= 3; version++)
        for (u32 size = ENTRY_1; size <= ENTRY_2; size += ENTRY_2 - ENTRY_1) {
            const usize total = 16 + SHORT + size * v->entries;
            c.p[0] = (u8)version;
            c.p[12] = (u8)total;
            c.p[13] = (u8)(total >> 8);
            failed |= put_asked(&c, v);
        }
    return failed;
}

// In a buffer with no room for the record, for it alone, and for one entry more of either version; and questions at their edges.
static int put_edges(const struct a_case *from, const struct versioned *v) {
    static struct a_case c;
    const usize total = total_of(v);
    const usize rooms[] = { 0, 15, 16, total - 1, total, total + ENTRY_1, total + ENTRY_2 - 1, total + ENTRY_2 };
    int failed = 0;
    memcpy(&c, from, sizeof c);
    for (u32 k = 0; k < sizeof rooms / sizeof rooms[0]; k++) {
        c.n = rooms[k];
        failed |= put_asked(&c, v);
    }
    for (u64 n = 0; n <= v->entries + 1; n++) {
        failed |= put_numbered(&c, ONE_ENTRY, n, 0);
        failed |= put_numbered(&c, RESTORE, n, SHORT) | put_numbered(&c, RESTORE, n, SHORT - 1);
    }
    c.m = 0;
    for (u32 how = 0; how < SPOILS; how++) failed |= put_edited(&c, spoiled(v->x, how, 0));
    for (u32 i = 0; i < 7; i++) c.a[i] = 0;
    c.op = EDIT_ALL; // and no correction
    return failed | put_case(&c);
}

// The correction is looked for in version 2, where it can be made.
static int put_version(u32 fill, u32 version, u32 entries) {
    static struct a_case c;
    struct versioned v = { entries, version == 1 ? ENTRY_1 : ENTRY_2, { 0 } };
    make_record(&c, fill, SHORT, 2, entries);
    find_targets(&c, &v.x, 1);
    make_record(&c, fill, SHORT, version, entries);
    c.n = total_of(&v) + ENTRY_2;
    int failed = put_asked(&c, &v) | put_headers(&c, &v) | put_edges(&c, &v) | put_flipped(&c, &v, 0, 16 + 8);
    const usize first = 16 + SHORT, last = total_of(&v) - v.entry_size;
    if (entries > 0) failed |= put_flipped(&c, &v, first, first + v.entry_size);
    if (entries > 1) failed |= put_flipped(&c, &v, last, last + v.entry_size);
    return failed;
}

// Opened in just enough room, and in less.
static int put_opened(u32 fill) {
    static struct a_case c;
    make_record(&c, fill, SHORT, 2, 0);
    c.op = OPEN_RECORD;
    c.m = SHORT;
    memcpy(c.q, c.p + 16, SHORT);
    int failed = 0;
    for (usize n = 16 + SHORT - 1; n <= 16 + SHORT + 1; n++) {
        c.n = n;
        failed |= put_case(&c);
    }
    return failed;
}

int make_versions(void) {
    static const u32 entries[] = { 0, 1, 40 };
    int failed = 0;
    for (u32 k = 0; k < KINDS; k++) {
        failed |= put_opened(fills[k]);
        for (u32 i = 0; i < sizeof entries / sizeof entries[0]; i++)
            failed |= put_version(fills[k], 1, entries[i]) | put_version(fills[k], 2, entries[i]);
    }
    return failed;
}
