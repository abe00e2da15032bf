// The measuring program. What is measured is a case (crates/agree has the format): its op is the call, its payload the frame or the record.
//
//   measure list                      the rows of the table, as CALL FILL SIZE UNIT
//   measure make ROW                  the case of a row
//   measure stops                     cases of lists of corrections that stop, and of others beside them: no list, no record
//   measure versions                  cases of records of both versions, damaged in many ways
//   measure same                      cases on standard input: all sides answer alike and leave the same in all lent memory
//   measure repeat SIDE N             calls the case on standard input N times, by side 0 (ours) or 1 (the baseline); a list of corrections also by
//                                     side 2 (ours, by single edits) or 3 (the same, and the record judged once more before each)
//   measure time                      nanoseconds of one call of the case on standard input, ours and the baseline's, best of several
#include "rows.h"
#include "sides.h"

// Of the C library; the compiler comes without its headers.
int printf(const char *format, ...);
int strcmp(const char *a, const char *b);
int memcmp(const void *a, const void *b, usize n);
void *memcpy(void *to, const void *from, usize n);
unsigned long strtoul(const char *s, char **end, int base);
struct timespec {
    long seconds;
    long nanoseconds;
};
int clock_gettime(int clock, struct timespec *now);

static const side *const sides[] = { ours, theirs, singly, judged };
enum { SIDES = sizeof sides / sizeof sides[0] };
static struct a_case input;
static struct lent lent[2];

static void lay_out(const struct a_case *c) {
    if (c->op != EDIT_ALL) return;
    our_list(c);
    their_list(c);
}

// What an accepted edit changed in the record is put back, so that it can be made again.
struct kept {
    usize at;
    u8 value[6], header[4];
};

static struct kept keep(const struct a_case *c, u64 word) {
    struct kept k = { .at = 16 + 2 * word };
    memcpy(k.value, c->p + k.at, 6);
    memcpy(k.header, c->p + 10, 4);
    return k;
}

static void put_back(struct a_case *c, const struct kept *k) {
    memcpy(c->p + k->at, k->value, 6);
    memcpy(c->p + 10, k->header, 4);
}

static u64 repeat(u32 which, u64 n) {
    static struct kept kept[MOST_CORRECTIONS];
    const side call = sides[which][input.op];
    u64 sum = 0;
    if (input.op == EDIT) {
        const struct kept k = keep(&input, input.a[0]);
        for (u64 i = 0; i < n; i++) {
            sum += call(&input, &lent[0]);
            put_back(&input, &k);
        }
    } else if (input.op == EDIT_ALL) {
        const usize count = input.m / CORRECTION;
        for (usize k = 0; k < count; k++) kept[k] = keep(&input, correction_at(&input, k).word);
        for (u64 i = 0; i < n; i++) {
            sum += call(&input, &lent[0]);
            for (usize k = 0; k < count; k++) put_back(&input, &kept[k]);
        }
    } else {
        for (u64 i = 0; i < n; i++) sum += call(&input, &lent[0]);
    }
    return sum;
}

static double seconds(void) {
    struct timespec now;
    clock_gettime(1, &now);
    return (double)now.seconds + (double)now.nanoseconds * 1e-9;
}

// The best of several goes, the two sides in turn.
static void timed(void) {
    const u64 calls_in_one = input.op == EDIT_ALL ? input.m / CORRECTION + 1 : 1;
    const u64 n = 4000000 / (input.n + 1) / calls_in_one + 1;
    double best[2] = { 1e9, 1e9 };
    for (u32 go = 0; go < 100; go++) {
        const u32 which = go % 2;
        const double from = seconds();
        repeat(which, n);
        const double took = seconds() - from;
        if (took < best[which]) best[which] = took;
    }
    printf("%.0f %.0f\n", best[0] / (double)n * 1e9, best[1] / (double)n * 1e9);
}

static void fill_lent(struct lent *x, u32 with) {
    for (u32 i = 0; i < 600; i++) x->samples[i] = (u16)with;
    for (u32 i = 0; i < 4200; i++) x->counts[i] = with;
    for (u32 i = 0; i < 32; i++) x->told[i] = with;
}

static int same(void) {
    static struct a_case found, other;
    u32 cases = 0, accepted = 0;
    while (next_case(&found)) {
        if (found.op >= 32 || !theirs[found.op]) return 2;
        lay_out(&found);
        memcpy(&input, &found, sizeof found);
        fill_lent(&lent[0], cases);
        const u64 a = ours[found.op](&input, &lent[0]);
        for (u32 k = 1; k < SIDES; k++) {
            if (!sides[k][found.op]) continue;
            memcpy(&other, &found, sizeof found);
            fill_lent(&lent[1], cases);
            const u64 b = sides[k][found.op](&other, &lent[1]);
            if (a != b || memcmp(&input, &other, sizeof input) || memcmp(&lent[0], &lent[1], sizeof lent[0])) {
                printf("case %u, op %u: %lx, and by side %u %lx, or not the same memory\n", cases, found.op, a, k, b);
                return 1;
            }
        }
        cases += 1;
        accepted += a >> 48 != 0;
    }
    printf("%u cases answered alike by ours and the baseline, %u of them accepted\n", cases, accepted);
    return 0;
}

int main(int count, char **words) {
    const char *what = count > 1 ? words[1] : "";
    if (!strcmp(what, "list")) {
        list_rows();
        return 0;
    }
    if (!strcmp(what, "make") && count == 3) return make_case((u32)strtoul(words[2], 0, 10));
    if (!strcmp(what, "stops")) return make_stops();
    if (!strcmp(what, "versions")) return make_versions();
    if (!strcmp(what, "same")) return same();
    if (!strcmp(what, "repeat") && count == 4 && next_case(&input)) {
        const u32 which = (u32)strtoul(words[2], 0, 10);
        if (which >= SIDES || input.op >= 32 || !sides[which][input.op]) return 2;
        lay_out(&input);
        printf("%lu\n", repeat(which, strtoul(words[3], 0, 10)));
        return 0;
    }
    if (!strcmp(what, "time") && next_case(&input)) {
        lay_out(&input);
        timed();
        return 0;
    }
    printf("usage: measure list | make ROW | stops | versions | same | repeat SIDE N | time\n");
    return 2;
}
