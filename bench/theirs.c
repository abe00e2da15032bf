// The baseline's side.
#include "sides.h"

static u64 told(struct refusal r, u64 high, u64 low) { return r.number ? refusal_number(r.number, r.place) : accepted_number(high, low); }

static u64 read_frame(struct a_case *c, struct lent *out) {
    (void)out;
    const struct verdict v = baseline_read(c->p, c->n);
    return told((struct refusal){ v.number, v.place }, v.sequence, v.items);
}

// How many fields a class of the word book has.
static const u8 fields[16] = { [1] = 3, [2] = 3, [3] = 3, [4] = 1, [5] = 2, [6] = 2, [7] = 1, [11] = 1, [12] = 3, [13] = 1, [15] = 1 };

static u64 item(struct a_case *c, struct lent *out) {
    (void)out;
    struct item x;
    const struct refusal r = baseline_item(c->p, c->n, c->a[0], &x);
    return r.number ? refusal_number(r.number, r.place) : accepted_number(x.fields[fields[x.class] - 1], x.next);
}

static u64 event(struct a_case *c, struct lent *out) {
    struct event x = { 0 };
    const struct refusal r = baseline_event(c->p, c->n, c->a[0], &x);
    out->told[0] = x.began;
    out->told[1] = x.ended;
    out->told[2] = x.type;
    out->told[3] = x.timestamp;
    out->told[4] = x.number;
    return told(r, x.size, x.index);
}

static u64 samples(struct a_case *c, struct lent *out) {
    return told(baseline_samples(c->p, c->n, c->a[0], (u32)c->a[1], (u32)c->a[2], out->samples, c->a[3]), 0, 0);
}

static u64 counts(struct a_case *c, struct lent *out) {
    return told(baseline_counts(c->p, c->n, (u32)c->a[0], (u32)c->a[1], out->counts, c->a[2]), 0, 0);
}

static u64 sample_word(struct a_case *c, struct lent *out) {
    (void)out;
    usize at = 0;
    const struct refusal r = baseline_sample_word(c->p, c->n, c->a[0], (u32)c->a[1], (u32)c->a[2], (u32)c->a[3], &at);
    return told(r, 0, at);
}

static u64 bin_word(struct a_case *c, struct lent *out) {
    (void)out;
    usize at = 0;
    const struct refusal r = baseline_bin_word(c->p, c->n, (u32)c->a[0], (u32)c->a[1], (u32)c->a[2], &at);
    return told(r, 0, at);
}

static u64 record(struct a_case *c, struct lent *out) {
    (void)out;
    struct record x = { 0 };
    return told(baseline_record(c->p, c->n, &x), x.count, x.length);
}

static u64 entry(struct a_case *c, struct lent *out) {
    struct entry x = { 0 };
    const struct refusal r = baseline_entry(c->p, c->n, c->a[0], &x);
    out->told[0] = x.word;
    out->told[1] = x.kind;
    out->told[2] = x.old;
    out->told[3] = x.new;
    out->told[4] = x.operator;
    out->told[5] = x.reason;
    out->told[6] = x.timed;
    out->told[7] = x.time;
    return told(r, 0, 0);
}

static u64 open_record(struct a_case *c, struct lent *out) {
    (void)out;
    return told(baseline_open(c->p, c->n, c->q, c->m), 0, 0);
}

static u64 edit(struct a_case *c, struct lent *out) {
    (void)out;
    return told(baseline_edit(c->p, c->n, (struct correction){ c->a[0], (u32)c->a[1], (u32)c->a[2], (u32)c->a[3], c->a[4] }), 0, 0);
}

static struct correction list[MOST_CORRECTIONS];
static usize listed;

void their_list(const struct a_case *c) {
    listed = c->m / CORRECTION;
    for (usize i = 0; i < listed; i++) list[i] = correction_at(c, i);
}

static u64 edit_all(struct a_case *c, struct lent *out) {
    usize position = 0;
    const struct refusal r = baseline_edit_all(c->p, c->n, list, listed, &position);
    out->told[0] = position;
    return told(r, 0, 0);
}

static u64 restore(struct a_case *c, struct lent *out) {
    (void)out;
    return told(baseline_restore(c->p, c->n, c->a[0], c->q, c->m), 0, 0);
}

// An assembler as a case has it: the latest Channel header is 0 for none, else 1 + its chip and channel.
static struct assembler given(const struct a_case *c) {
    const u32 header = (u32)c->a[5];
    return (struct assembler){
        .card = (u32)c->a[0],
        .follower = (u32)c->a[1],
        .open = (u32)c->a[2],
        .number = (u32)c->a[3],
        .size = (u32)c->a[4],
        .key = header ? 512 * (u32)c->a[0] + header : 0,
    };
}

static void tell(u64 *told, const struct assembler *a) {
    told[0] = a->follower;
    told[1] = a->open;
    told[2] = a->number;
    told[3] = a->size;
    told[4] = a->key ? a->key - 512 * a->card : 0;
    told[5] = a->card;
}

static u64 step_told(const struct taken *t) { return told((struct refusal){ t->number, t->place }, 0, t->lost); }

static u64 take(struct a_case *c, struct lent *out) {
    const struct taken t = baseline_take(given(c), c->p, c->n);
    tell(out->told, &t.next);
    return step_told(&t);
}

static u64 run(struct a_case *c, struct lent *out) {
    struct assembler a = baseline_new_assembler((u32)c->a[0]);
    struct step s = { 0 };
    u32 steps = 0;
    for (; steps < STEPS && next_step(c, &s); steps++) {
        if (s.gives_up) {
            a = baseline_give_up(a);
            out->told[steps] = 0;
        } else {
            const struct taken t = baseline_take(a, s.frame, s.length);
            out->told[steps] = step_told(&t);
            a = t.next;
        }
    }
    tell(out->told + STEPS, &a);
    return accepted_number(0, steps);
}

const side theirs[32] = {
    [1] = read_frame, [2] = item, [4] = event, [5] = samples, [6] = counts, [12] = record, [13] = entry, [14] = open_record, [15] = edit,
    [16] = restore, [18] = sample_word, [19] = bin_word, [20] = run, [21] = take, [22] = edit_all,
};
