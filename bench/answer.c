// answer: cases on standard input (crates/agree has their format), the baseline's lines on standard output, for `second compare`. The ops that
// are there: 1, 2, 4 to 10, 12 to 16 and 18 to 22.
#include "baseline.h"
#include "cases.h"

// Of the C library; the compiler comes without its headers.
int printf(const char *format, ...);

static int refused(struct refusal r) {
    if (r.number) printf("refused %u at %u", r.number, r.place);
    return r.number != 0;
}

static void done(struct refusal r) {
    if (!refused(r)) printf("ok");
}

// The check sum of a lent buffer, a step at a time.
struct sum {
    u64 a, b;
};

static struct sum summed(struct sum s, u64 element) {
    const u64 modulus = 4294967291;
    const u64 a = (s.a + element) % modulus;
    return (struct sum){ a, (s.b + a) % modulus };
}

static void buffer(usize elements, struct sum s) { printf(" | %lu %lu", elements, s.b << 32 | s.a); }

static void bytes(const u8 *p, usize n) {
    struct sum s = { 1, 0 };
    for (usize i = 0; i < n; i++) s = summed(s, p[i]);
    buffer(n, s);
}

static void frame(const struct a_case *c) {
    const struct verdict v = baseline_read(c->p, c->n);
    if (!refused((struct refusal){ v.number, v.place })) printf("ok %c %u %u %u", v.kind, v.card, v.sequence, v.items);
}

// How many fields a class of the word book has.
static const u8 fields[16] = { [1] = 3, [2] = 3, [3] = 3, [4] = 1, [5] = 2, [6] = 2, [7] = 1, [11] = 1, [12] = 3, [13] = 1, [15] = 1 };

static void item(const struct a_case *c) {
    struct item x;
    if (refused(baseline_item(c->p, c->n, c->a[0], &x))) return;
    printf("ok %u", x.class);
    for (u32 i = 0; i < fields[x.class]; i++) printf(" %lu", x.fields[i]);
    printf(" next %u", x.next);
}

// A value, or that it is missing.
static void there(u32 is, u64 value) {
    if (is) printf(" %lu", value);
    else printf(" -");
}

static void event(const struct a_case *c) {
    struct event x;
    if (refused(baseline_event(c->p, c->n, c->a[0], &x))) return;
    printf("ok");
    there(x.began, x.type);
    there(x.began, x.timestamp);
    there(1, x.number);
    there(x.ended, x.size);
    there(1, x.index);
}

static void samples(const struct a_case *c) {
    static u16 out[600];
    struct sum s = { 1, 0 };
    const usize room = c->a[3] <= 600 ? c->a[3] : 600;
    for (usize i = 0; i < room; i++) out[i] = (u16)c->a[4];
    done(baseline_samples(c->p, c->n, c->a[0], (u32)c->a[1], (u32)c->a[2], out, room));
    for (usize i = 0; i < room; i++) s = summed(s, out[i]);
    buffer(room, s);
}

static void counts(const struct a_case *c) {
    static u32 out[4200];
    struct sum s = { 1, 0 };
    const usize room = c->a[2] <= 4200 ? c->a[2] : 4200;
    for (usize i = 0; i < room; i++) out[i] = (u32)c->a[3];
    done(baseline_counts(c->p, c->n, (u32)c->a[0], (u32)c->a[1], out, room));
    for (usize i = 0; i < room; i++) s = summed(s, out[i]);
    buffer(room, s);
}

static void found(struct refusal r, usize at) {
    if (!refused(r)) printf("ok %lu", at);
}

static void sample_word(const struct a_case *c) {
    usize at = 0;
    const struct refusal r = baseline_sample_word(c->p, c->n, c->a[0], (u32)c->a[1], (u32)c->a[2], (u32)c->a[3], &at);
    found(r, at);
}

static void bin_word(const struct a_case *c) {
    usize at = 0;
    const struct refusal r = baseline_bin_word(c->p, c->n, (u32)c->a[0], (u32)c->a[1], (u32)c->a[2], &at);
    found(r, at);
}

static void written(struct refusal r, usize length, const struct a_case *c) {
    if (!refused(r)) printf("ok %lu", length);
    bytes(c->p, c->n);
}

static void begin(struct a_case *c) {
    struct draft d = { 0 };
    const struct refusal r = baseline_begin(c->p, c->n, "DMC"[c->a[0]], (u32)c->a[1], (u32)c->a[2], &d);
    written(r, d.length, c);
}

static void add(struct a_case *c) {
    struct draft d = { 0 };
    const struct item x = { (u32)c->a[1], 0, { c->a[2], c->a[3], c->a[4] } };
    const struct refusal r = baseline_add(c->p, c->n, c->a[0], x, &d);
    written(r, d.length, c);
}

static void add_text(struct a_case *c) {
    struct draft d = { 0 };
    const struct refusal r = baseline_add_text(c->p, c->n, c->a[0], c->q, c->m, &d);
    written(r, d.length, c);
}

static void close_frame(struct a_case *c) {
    usize length = 0;
    const struct refusal r = baseline_close(c->p, c->n, c->a[0], &length);
    written(r, length, c);
}

static void record(const struct a_case *c) {
    struct record x;
    if (!refused(baseline_record(c->p, c->n, &x))) printf("ok %u %u %u", x.length, x.count, x.total);
}

static void entry(const struct a_case *c) {
    struct entry x;
    if (refused(baseline_entry(c->p, c->n, c->a[0], &x))) return;
    printf("ok %u %u %u %u %u %u", x.word, x.kind, x.old, x.new, x.operator, x.reason);
    if (x.timed) printf(" %lu", x.time);
}

static void open_record(struct a_case *c) {
    done(baseline_open(c->p, c->n, c->q, c->m));
    bytes(c->p, c->n);
}

static void edit(struct a_case *c) {
    done(baseline_edit(c->p, c->n, (struct correction){ c->a[0], (u32)c->a[1], (u32)c->a[2], (u32)c->a[3], c->a[4] }));
    bytes(c->p, c->n);
}

// A list has whole corrections, and no other argument.
static int is_list(const struct a_case *c) {
    u64 other = c->m % CORRECTION;
    for (u32 i = 0; i < 7; i++) other |= c->a[i];
    return other == 0;
}

static void edit_all(struct a_case *c) {
    static struct correction list[MOST_CORRECTIONS];
    const usize count = c->m / CORRECTION;
    usize position = 0;
    for (usize i = 0; i < count; i++) list[i] = correction_at(c, i);
    const struct refusal r = baseline_edit_all(c->p, c->n, list, count, &position);
    done(r);
    if (r.number) printf(" position %lu", position);
    bytes(c->p, c->n);
}

static void restore(struct a_case *c) {
    done(baseline_restore(c->p, c->n, c->a[0], c->q, c->m));
    bytes(c->q, c->m);
}

static void run(const struct a_case *c) {
    struct assembler a = baseline_new_assembler((u32)c->a[0]);
    struct step s = { 0 };
    printf("ok");
    while (next_step(c, &s)) {
        if (s.gives_up) {
            a = baseline_give_up(a);
            printf(" given up");
            continue;
        }
        const struct taken t = baseline_take(a, s.frame, s.length);
        if (t.number) printf(" refused %u at %u", t.number, t.place);
        else printf(" lost %u", t.lost);
        a = t.next;
    }
    if (a.open) printf(" open %u %u", a.number, a.size);
    else printf(" none");
}

// One step. A case has the latest Channel header as 1 + its low 9 bits, or 0; here the key stands behind it.
static void take(const struct a_case *c) {
    const u32 card = (u32)c->a[0], header = (u32)c->a[5];
    const struct assembler a = { card, (u32)c->a[1], (u32)c->a[2], (u32)c->a[3], (u32)c->a[4], header ? 512 * card + header : 0 };
    const struct taken t = baseline_take(a, c->p, c->n);
    if (refused((struct refusal){ t.number, t.place })) return;
    printf("ok %u %u %u %u %u %u", t.lost, t.next.follower, t.next.open, t.next.number, t.next.size, t.next.key ? t.next.key - 512 * card : 0);
}

int main(void) {
    static struct a_case c;
    while (next_case(&c)) {
        switch (c.op) {
        case 1: frame(&c); break;
        case 2: item(&c); break;
        case 4: event(&c); break;
        case 5: samples(&c); break;
        case 6: counts(&c); break;
        case 7: begin(&c); break;
        case 8: add(&c); break;
        case 9: add_text(&c); break;
        case 10: close_frame(&c); break;
        case 12: record(&c); break;
        case 13: entry(&c); break;
        case 14: open_record(&c); break;
        case 15: edit(&c); break;
        case 16: restore(&c); break;
        case 18: sample_word(&c); break;
        case 19: bin_word(&c); break;
        case 20: run(&c); break;
        case 21: take(&c); break;
        case 22:
            if (!is_list(&c)) {
                printf("bad case\n");
                return 1;
            }
            edit_all(&c);
            break;
        default: printf("bad case\n"); return 1;
        }
        printf("\n");
    }
    return 0;
}
