#include "cases.h"

long read(int from, void *to, usize n);

static u64 number(const u8 *s, u32 bytes) {
    u64 x = 0;
    for (u32 i = bytes; i-- > 0;) x = x << 8 | s[i];
    return x;
}

int fill(u8 *to, usize n) {
    while (n > 0) {
        const long got = read(0, to, n);
        if (got <= 0) return 0;
        to += got;
        n -= (usize)got;
    }
    return 1;
}

int next_case(struct a_case *c) {
    u8 head[72];
    if (!fill(head, sizeof head)) return 0;
    c->op = head[0];
    for (u32 i = 0; i < 7; i++) c->a[i] = number(head + 8 + 8 * i, 8);
    c->n = number(head + 64, 4);
    c->m = number(head + 68, 4);
    return c->n <= PAYLOAD && c->m <= PAYLOAD && fill(c->p, c->n) && fill(c->q, c->m);
}

int next_step(const struct a_case *c, struct step *s) {
    if (c->n - s->after < 2) return 0;
    const usize length = number(c->p + s->after, 2), at = s->after + 2;
    const u32 gives_up = length == 65535;
    if (!gives_up && c->n - at < length) return 0;
    *s = gives_up ? (struct step){ at, 1, 0, 0 } : (struct step){ at + length, 0, c->p + at, length };
    return 1;
}

struct correction correction_at(const struct a_case *c, usize position) {
    const u8 *const s = c->q + CORRECTION * position;
    return (struct correction){ number(s, 4), (u32)number(s + 4, 4), (u32)number(s + 8, 4), (u32)number(s + 12, 4), number(s + 16, 8) };
}
