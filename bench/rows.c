// The rows of the table, and the case of each.
#include "rows.h"
#include "frames.h"

// Of the C library; the compiler comes without its headers.
long write(int to, const void *from, usize n);
int printf(const char *format, ...);
void *memcpy(void *to, const void *from, usize n);
void *memmove(void *to, const void *from, usize n);

// A call that is measured; `fills` has a bit for each fill that it is asked of. A record has a version; edited is version 2 alone.
struct call {
    const char *name;
    u32 op;
    u32 fills;
    u32 version;
};

static const struct call calls[] = {
    { "read", READ, 255, 0 }, { "item", ITEM, 63, 0 }, { "event", EVENT, 7, 0 }, { "samples", SAMPLES, 5, 0 }, { "counts", COUNTS, 8, 0 },
    { "sample word", SAMPLE_WORD, 5, 0 }, { "bin word", BIN_WORD, 8, 0 }, { "take", TAKE, 192, 0 },
    { "record", JUDGE, 13, 2 }, { "record v1", JUDGE, 13, 1 }, { "edit", EDIT, 13, 2 }, { "restore", RESTORE, 13, 2 },
    { "restore v1", RESTORE, 13, 1 }, { "edit all", EDIT_ALL, 13, 2 },
};

static int of_record(u32 op) { return (op >= JUDGE && op <= RESTORE) || op == EDIT_ALL; }

// A frame's rows go by its size in bytes, a record's by its number of entries; that of a list by the entries before it, so that at most 512 stand.
struct row {
    const struct call *call;
    u32 fill;
    u32 size;
};

struct ladder {
    u32 steps;
    u32 sizes[4];
};

static struct ladder ladder(u32 op) {
    if (op == EDIT_ALL) return (struct ladder){ 2, { 512 - LISTED, 0 } };
    if (of_record(op)) return (struct ladder){ 4, { 512, 256, 128, 0 } };
    return (struct ladder){ 4, { 8192, 4096, 2048, 1024 } };
}

static u32 rows(struct row *out) {
    u32 count = 0;
    for (u32 c = 0; c < sizeof calls / sizeof calls[0]; c++) {
        const struct ladder l = ladder(calls[c].op);
        for (u32 fill = 0; fill < FILLS; fill++)
            if (calls[c].fills >> fill & 1)
                for (u32 k = 0; k < l.steps; k++) out[count++] = (struct row){ &calls[c], fill, l.sizes[k] };
    }
    return count;
}

void list_rows(void) {
    struct row all[256];
    const u32 count = rows(all);
    for (u32 i = 0; i < count; i++)
        printf("%s|%s|%u|%s\n", all[i].call->name, fill_names[all[i].fill], all[i].size, of_record(all[i].call->op) ? "entries" : "bytes");
}

// ---- the case of a row

// The last header of the class: its chip and channel, and the number of events before its own end. It is looked for from the left.
static void last_header(const struct a_case *c, u32 class, u64 *event, u64 *chip, u64 *channel) {
    struct item x;
    u64 events = 0;
    for (u64 i = 0; baseline_item(c->p, c->n, i, &x).number == 0; i++) {
        events += x.class == 12;
        if (x.class != class) continue;
        *event = events - 1;
        *chip = x.fields[1];
        *channel = x.fields[2];
    }
}

// The last Bin: its chip, channel and number. A last header may have none behind it.
static void last_bin(struct a_case *c) {
    struct item x;
    u64 chip = 0, channel = 0;
    for (u64 i = 0; baseline_item(c->p, c->n, i, &x).number == 0; i++) {
        if (x.class == 2) {
            chip = x.fields[1];
            channel = x.fields[2];
        }
        if (x.class != 5) continue;
        c->a[0] = chip;
        c->a[1] = channel;
        c->a[2] = x.fields[0];
    }
}

// The last time at which the channel asked for has a sample.
static u64 last_time(const struct a_case *c) {
    usize at;
    u32 time = 511;
    while (time > 0 && baseline_sample_word(c->p, c->n, c->a[0], (u32)c->a[1], (u32)c->a[2], time, &at).number) time--;
    return time;
}

// The ordinal of the last event.
static u64 last_event(const struct a_case *c) {
    struct event x;
    u64 count = 0;
    while (baseline_event(c->p, c->n, count, &x).number == 0) count++;
    return count - 1;
}

static void put_number(u8 *to, u64 x, u32 bytes) {
    for (u32 i = 0; i < bytes; i++) to[i] = (u8)(x >> 8 * i);
}

// Edits at words taken by chance, some of them more than once, at times by chance: a clock may go back.
static void edit_some(struct a_case *c, usize length, u32 entries) {
    u32 seed = 1;
    for (u32 done = 0; done < entries;) {
        seed = seed * 1664525 + 1013904223;
        const struct correction x = { (seed >> 16) % (length / 2), seed >> 7 & 4095, 1 + (seed >> 3) % 65535, 1 + done % 5, (u64)seed << 16 | done };
        done += baseline_edit(c->p, c->n, x).number == 0;
    }
}

// The record as version 1 has it: the first 16 bytes of each entry. Neither side writes one.
static void make_earlier(u8 *record, usize length, u32 entries) {
    u8 *const first = record + 16 + length;
    for (u32 i = 0; i < entries; i++) memmove(first + ENTRY_1 * i, first + ENTRY_2 * i, ENTRY_1);
    put_number(record, 1, 2);
    put_number(record + 12, 16 + length + ENTRY_1 * entries, 2);
}

void make_record(struct a_case *c, u32 fill, usize length, u32 version, u32 entries) {
    static u8 frame[LONGEST];
    make_frame(fill, length, frame);
    c->n = RECORD;
    baseline_open(c->p, c->n, frame, length);
    edit_some(c, length, entries);
    if (version == 1) make_earlier(c->p, length, entries);
}

void find_targets(const struct a_case *c, struct correction *out, u32 count) {
    static u8 copy[RECORD];
    memcpy(copy, c->p, RECORD);
    for (u64 w = LONGEST / 2; count > 0 && w-- > 0;) {
        *out = (struct correction){ w, 1234, 9, 2, LATEST - w };
        if (baseline_edit(copy, RECORD, *out).number) continue;
        out += 1;
        count -= 1;
    }
}

void put_list(struct a_case *c, const struct correction *list, u32 count) {
    c->m = CORRECTION * count;
    for (u32 i = 0; i < count; i++) {
        u8 *const to = c->q + CORRECTION * i;
        put_number(to, list[i].word, 4);
        put_number(to + 4, list[i].value, 4);
        put_number(to + 8, list[i].operator, 4);
        put_number(to + 12, list[i].reason, 4);
        put_number(to + 16, list[i].time, 8);
    }
}

void put_edit(struct a_case *c, struct correction x) {
    c->a[0] = x.word;
    c->a[1] = x.value;
    c->a[2] = x.operator;
    c->a[3] = x.reason;
    c->a[4] = x.time;
}

// Edits are measured with one entry less than may stand, so that they are accepted.
static void make_recorded(struct row r, struct a_case *c) {
    struct correction list[LISTED];
    make_record(c, r.fill, LONGEST, r.call->version, r.call->op == EDIT && r.size == 512 ? 511 : r.size);
    switch (r.call->op) {
    case EDIT:
        find_targets(c, list, 1);
        put_edit(c, list[0]);
        break;
    case EDIT_ALL:
        find_targets(c, list, LISTED);
        put_list(c, list, LISTED);
        break;
    case RESTORE: c->m = LONGEST; break;
    }
}

// The event that is open before the frame, so that the step is accepted.
static void open_event(struct a_case *c) {
    c->a[0] = FRAME_CARD;
    c->a[1] = 1 + FRAME_SEQUENCE;
    c->a[2] = 1;
    c->a[3] = EARLIER_NUMBER;
    c->a[4] = EARLIER_SIZE;
    c->a[5] = EARLIER_HEADER;
}

static void make_question(struct row r, struct a_case *c) {
    u64 none;
    make_frame(r.fill, r.size, c->p);
    c->n = r.size;
    switch (r.call->op) {
    case ITEM: c->a[0] = baseline_read(c->p, c->n).items - 1; break;
    case EVENT: c->a[0] = last_event(c); break;
    case SAMPLES:
        last_header(c, 1, &c->a[0], &c->a[1], &c->a[2]);
        c->a[3] = 512;
        break;
    case COUNTS:
        last_header(c, 2, &none, &c->a[0], &c->a[1]);
        c->a[2] = 4096;
        break;
    case SAMPLE_WORD:
        last_header(c, 1, &c->a[0], &c->a[1], &c->a[2]);
        c->a[3] = last_time(c);
        break;
    case BIN_WORD: last_bin(c); break;
    case TAKE: open_event(c); break;
    }
}

int put_case(const struct a_case *c) {
    u8 head[72] = { c->op };
    for (u32 i = 0; i < 7; i++) put_number(head + 8 + 8 * i, c->a[i], 8);
    put_number(head + 64, c->n, 4);
    put_number(head + 68, c->m, 4);
    return write(1, head, 72) < 0 || write(1, c->p, c->n) < 0 || write(1, c->q, c->m) < 0;
}

int make_case(u32 number) {
    static struct a_case c;
    struct row all[256];
    if (number >= rows(all)) return 2;
    const struct row r = all[number];
    c.op = (u8)r.call->op;
    if (of_record(c.op)) make_recorded(r, &c);
    else make_question(r, &c);
    return put_case(&c);
}
