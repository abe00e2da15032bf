// fill: what crates/filler does, by the baseline's writer. Six bytes on standard input, words low byte first: how many frames, of how many bytes
// at most, and 1 where each is closed. Prints the last frame's length and a sum of its bytes. The baseline's writer is taken in as text, so that
// the compiler sees all of it here as it sees all of ours.
#include "baseline_writer.c"

long read(int from, void *to, usize n);
int printf(const char *format, ...);

enum { CARD = 5, EACH = 456 };

// The k-th item of the n-th histogram, the header being the first: chips in order, 79 channels each.
static inline struct item item_at(u32 n, u32 k, u32 round) {
    if (k == 0) return (struct item){ HISTOGRAM, 0, { CARD, n / 79, n % 79 } };
    return (struct item){ BIN, 0, { k * 8 + round % 8, round * 256 + k } };
}

// Histograms of a monitor frame, by the step, up to the first item that does not fit; the length reached.
static usize put_frame(u8 *buf, usize room, u32 round) {
    struct draft d = { 0 };
    if (baseline_begin(buf, room, 'M', CARD, round % 256, &d).number) return 0;
    for (u32 i = 0, k = 0; i < 5000; i++, k = k < EACH - 1 ? k + 1 : 0)
        if (put(buf, room, &d, item_at(i / EACH, k, round)).number) break;
    return d.length;
}

static usize close_frame(u8 *buf, usize room, usize length) {
    usize n = 0;
    return baseline_close(buf, room, length, &n).number ? 0 : n;
}

int main(void) {
    static u8 buf[8192], head[6];
    if (read(0, head, 6) != 6) return 1;
    const u32 rounds = word(head, 0), each = word(head, 2);
    const usize room = word(head, 1) < 8192 ? word(head, 1) : 8192;
    usize length = 0;
    for (u32 round = 0; round < rounds; round++) {
        length = put_frame(buf, room, round);
        if (each) length = close_frame(buf, room, length);
    }
    if (!each) length = close_frame(buf, room, length);
    u64 sum = 0;
    for (usize i = 0; i < length; i++) sum = (sum * 31 + buf[i]) % 4294967291;
    printf("%lu %lu\n", length, sum);
    return 0;
}
