// Our side: the proved library as C programs call it (crates/exports).
#include "../include/plane_record.h"
#include "sides.h"

static u64 told(struct plane_done r) { return r.refused ? refusal_number(r.refused, r.place) : accepted_number(0, 0); }

static u64 read_frame(struct a_case *c, struct lent *out) {
    (void)out;
    const struct plane_frame x = plane_read(c->p, c->n);
    return x.refused ? refusal_number(x.refused, x.place) : accepted_number(x.sequence, x.items);
}

// The last of the fields that the item's class has in the word book.
static u64 last_field(const struct plane_item_fields *x) {
    switch (x->item_class) {
    case PLANE_CHANNEL:
    case PLANE_HISTOGRAM: return x->channel;
    case PLANE_HIT_COUNT: return x->hits;
    case PLANE_SAMPLE: return x->value;
    case PLANE_BIN: return x->count;
    case PLANE_LAST_CELL: return x->cell;
    case PLANE_TIME_BIN: return x->time;
    case PLANE_TEXT: return x->length;
    case PLANE_START_EVENT:
    case PLANE_CONTINUE_EVENT: return x->number;
    default: return x->size;
    }
}

static u64 item(struct a_case *c, struct lent *out) {
    (void)out;
    const struct plane_found x = plane_item(c->p, c->n, c->a[0]);
    return x.refused ? refusal_number(x.refused, x.place) : accepted_number(last_field(&x.item), x.next);
}

static u64 event(struct a_case *c, struct lent *out) {
    const struct plane_event_found x = plane_event(c->p, c->n, c->a[0]);
    out->told[0] = x.began;
    out->told[1] = x.ended;
    out->told[2] = x.kind;
    out->told[3] = x.timestamp;
    out->told[4] = x.number;
    return x.refused ? refusal_number(x.refused, x.place) : accepted_number(x.size, x.index);
}

static u64 samples(struct a_case *c, struct lent *out) {
    return told(plane_samples(c->p, c->n, c->a[0], (u16)c->a[1], (u16)c->a[2], out->samples, c->a[3]));
}

static u64 counts(struct a_case *c, struct lent *out) {
    return told(plane_counts(c->p, c->n, (u16)c->a[0], (u16)c->a[1], out->counts, c->a[2]));
}

static u64 word_told(struct plane_word_found x) {
    return x.refused ? refusal_number(x.refused, x.place) : accepted_number(0, x.word);
}

static u64 sample_word(struct a_case *c, struct lent *out) {
    (void)out;
    return word_told(plane_sample_word(c->p, c->n, c->a[0], (u16)c->a[1], (u16)c->a[2], (u16)c->a[3]));
}

static u64 bin_word(struct a_case *c, struct lent *out) {
    (void)out;
    return word_told(plane_bin_word(c->p, c->n, (u16)c->a[0], (u16)c->a[1], (u16)c->a[2]));
}

static u64 record(struct a_case *c, struct lent *out) {
    (void)out;
    const struct plane_record_found x = plane_record(c->p, c->n);
    return x.refused ? refusal_number(x.refused, x.place) : accepted_number(x.count, x.length);
}

static u64 entry(struct a_case *c, struct lent *out) {
    const struct plane_entry_found x = plane_entry(c->p, c->n, c->a[0]);
    out->told[0] = x.word;
    out->told[1] = x.kind;
    out->told[2] = x.old_value;
    out->told[3] = x.new_value;
    out->told[4] = x.operator_id;
    out->told[5] = x.reason;
    out->told[6] = x.timed;
    out->told[7] = x.time;
    return x.refused ? refusal_number(x.refused, x.place) : accepted_number(0, 0);
}

static u64 open_record(struct a_case *c, struct lent *out) {
    (void)out;
    return told(plane_open(c->p, c->n, c->q, c->m));
}

static u64 edit(struct a_case *c, struct lent *out) {
    (void)out;
    return told(plane_edit(c->p, c->n, (struct plane_correction){ c->a[0], (u32)c->a[1], (u32)c->a[2], (u32)c->a[3], c->a[4] }));
}

static struct plane_correction list[MOST_CORRECTIONS];
static usize listed;

void our_list(const struct a_case *c) {
    listed = c->m / CORRECTION;
    for (usize i = 0; i < listed; i++) {
        const struct correction x = correction_at(c, i);
        list[i] = (struct plane_correction){ x.word, x.value, x.operator, x.reason, x.time };
    }
}

static u64 edit_all(struct a_case *c, struct lent *out) {
    const struct plane_stopped s = plane_edit_all(c->p, c->n, list, listed);
    out->told[0] = s.position;
    return s.refused ? refusal_number(s.refused, s.place) : accepted_number(0, 0);
}

// The same by single edits.
static u64 edit_singly(struct a_case *c, struct lent *out) {
    out->told[0] = 0;
    for (usize i = 0; i < listed; i++) {
        const struct plane_done done = plane_edit(c->p, c->n, list[i]);
        if (done.refused) {
            out->told[0] = i;
            return told(done);
        }
    }
    return accepted_number(0, 0);
}

// The same, and the record asked for before each.
static u64 edit_judged(struct a_case *c, struct lent *out) {
    out->told[0] = 0;
    for (usize i = 0; i < listed; i++) {
        plane_record(c->p, c->n);
        const struct plane_done done = plane_edit(c->p, c->n, list[i]);
        if (done.refused) {
            out->told[0] = i;
            return told(done);
        }
    }
    return accepted_number(0, 0);
}

static u64 restore(struct a_case *c, struct lent *out) {
    (void)out;
    return told(plane_restore(c->p, c->n, c->a[0], c->q, c->m));
}

// An assembler as a case has it: the latest Channel header is 0 for none, else 1 + its chip and channel.
static struct plane_assembler given(const struct a_case *c) {
    const u32 header = (u32)c->a[5];
    return (struct plane_assembler){
        .card = (u16)c->a[0],
        .open = (u8)c->a[2],
        .follower = { c->a[1] != 0, (u8)(c->a[1] ? c->a[1] - 1 : 0) },
        .number = (u32)c->a[3],
        .size = (u32)c->a[4],
        .key = header ? 2048 * (u32)c->a[0] + header : 0,
    };
}

static void tell(u64 *told, const struct plane_assembler *a) {
    told[0] = a->follower.expecting ? 1 + (u64)a->follower.number : 0;
    told[1] = a->open;
    told[2] = a->number;
    told[3] = a->size;
    told[4] = a->key ? a->key - 2048 * (u32)a->card : 0;
    told[5] = a->card;
}

static u64 step_told(const struct plane_taken *t) {
    return t->refused ? refusal_number(t->refused, t->place) : accepted_number(0, t->lost);
}

static u64 take(struct a_case *c, struct lent *out) {
    const struct plane_taken t = plane_take(given(c), c->p, c->n);
    tell(out->told, &t.next);
    return step_told(&t);
}

static u64 run(struct a_case *c, struct lent *out) {
    struct plane_assembler a = plane_new_assembler((u16)c->a[0]);
    struct step s = { 0 };
    u32 steps = 0;
    for (; steps < STEPS && next_step(c, &s); steps++) {
        if (s.gives_up) {
            a = plane_give_up(a);
            out->told[steps] = 0;
        } else {
            const struct plane_taken t = plane_take(a, s.frame, s.length);
            out->told[steps] = step_told(&t);
            a = t.next;
        }
    }
    tell(out->told + STEPS, &a);
    return accepted_number(0, steps);
}

const side ours[32] = {
    [1] = read_frame, [2] = item, [4] = event, [5] = samples, [6] = counts, [12] = record, [13] = entry, [14] = open_record, [15] = edit,
    [16] = restore, [18] = sample_word, [19] = bin_word, [20] = run, [21] = take, [22] = edit_all,
};
const side singly[32] = { [22] = edit_singly };
const side judged[32] = { [22] = edit_judged };
