// Writes a frame, opens a record of it, edits it, lists its history and restores the frame as it was; then lists and restores a record of version 1,
// whose edit is refused.
#include "plane_record.h"
#include <stdio.h>

// When the correction is made: milliseconds since 1970, on 16 November 2026 at 12:34:56. The library keeps the number, whatever clock it is of.
static const uint64_t now = 1794832496000;

// The record of document 01's case 10 after its edit, made before entries had a time: version 1.
static const uint16_t earlier[] = {
    0x0001, 0x0001, 0x0010, 0x0022, 0x0032, 0x0001, 0x0042, 0x0000, 0x0805, 0x0022, 0x0100, 0x00F1, 0x03E8, 0x0000, 0x0000, 0x0007, 0x0000,
    0xCB0A, 0x0E03, 0x3104, 0x30FB, 0x00E0, 0x001A, 0x0000, 0x000F, 0x000B, 0x0001, 0x00FA, 0x0000, 0x0104, 0x0000, 0x0009, 0x0002
};
enum { EARLIER = sizeof earlier / sizeof earlier[0] };

static unsigned word_at(const uint8_t *s, size_t i) { return s[2 * i] | s[2 * i + 1] << 8; }

static void told(const char *what, struct plane_done done) {
    if (done.refused)
        printf("%s: refused %u %s at %zu\n", what, done.refused, plane_refusal_name(done.refused), done.place);
    else
        printf("%s: accepted\n", what);
}

// The frame of document 01's case 3, item by item; its length.
static size_t write_frame(uint8_t *frame, size_t room) {
    const struct plane_item_fields items[] = {
        { .item_class = PLANE_START_EVENT, .kind = 1, .timestamp = 1000, .number = 7 },
        { .item_class = PLANE_CHANNEL, .card = 5, .chip = 2, .channel = 10 },
        { .item_class = PLANE_TIME_BIN, .time = 3 },
        { .item_class = PLANE_SAMPLE, .value = 250 },
        { .item_class = PLANE_SAMPLE, .value = 251 },
        { .item_class = PLANE_END_EVENT, .size = 26 },
    };
    struct plane_written w = plane_begin(frame, room, PLANE_DATA, 5, 0x0100);
    for (size_t i = 0; i < sizeof items / sizeof items[0] && !w.refused; i++) w = plane_add(frame, room, w.length, items[i]);
    if (!w.refused) w = plane_close(frame, room, w.length);
    return w.length;
}

// What the program `list` prints of a record.
static void list(const uint8_t *buffer, size_t room) {
    const struct plane_record_found r = plane_record(buffer, room);
    if (r.refused) {
        printf("refused %u at %zu\n", r.refused, r.place);
        return;
    }
    const struct plane_frame f = plane_read(buffer + PLANE_HEADER_BYTES, r.length);
    printf("frame %c card %u seq %04X bytes %zu items %zu\n", "?DMC"[f.kind], f.card, f.sequence, r.length, f.items);
    for (size_t n = 1; n <= r.count; n++) {
        const struct plane_entry_found e = plane_entry(buffer, room, n);
        const char *kind = e.kind == PLANE_CORRECTED_SAMPLE ? "sample" : "bin";
        printf("edit %zu word %u %s %u -> %u by %u reason %u", n, e.word, kind, e.old_value, e.new_value, e.operator_id, e.reason);
        if (e.timed) printf(" at %lu", (unsigned long)e.time);
        printf("\n");
    }
    printf("end %zu\n", r.count);
}

static void print_header(const uint8_t *buffer) {
    printf("header");
    for (size_t i = 0; i < PLANE_HEADER_BYTES / 2; i++) printf(" %04X", word_at(buffer, i));
    printf("\n");
}

// The frame before its first edit: what stands at a word, and what stood there.
static void restore(const uint8_t *buffer, size_t room, size_t word) {
    uint8_t before[PLANE_MOST_FRAME] = { 0 };
    told("restore to 0", plane_restore(buffer, room, 0, before, sizeof before));
    printf("word %zu: %04X, and as it was %04X\n", word, word_at(buffer + PLANE_HEADER_BYTES, word), word_at(before, word));
}

static void use_earlier(struct plane_correction correction) {
    uint8_t buffer[128];
    for (size_t i = 0; i < EARLIER; i++) {
        buffer[2 * i] = earlier[i] & 0xFF;
        buffer[2 * i + 1] = earlier[i] >> 8;
    }
    printf("a record of version 1\n");
    list(buffer, sizeof buffer);
    told("edit", plane_edit(buffer, sizeof buffer, correction));
    restore(buffer, sizeof buffer, correction.word);
}

int main(void) {
    uint8_t frame[PLANE_MOST_FRAME], buffer[128];
    const size_t length = write_frame(frame, sizeof frame);
    told("open", plane_open(buffer, sizeof buffer, frame, length));
    print_header(buffer);

    // The sample at time 3 of event 0, chip 2, channel 10: nobody counts words by hand.
    const struct plane_word_found found = plane_sample_word(frame, length, 0, 2, 10, 3);
    struct plane_correction correction = { .word = found.word, .value = 260, .operator_id = 9, .reason = 2, .time = now };
    told("edit", plane_edit(buffer, sizeof buffer, correction));
    told("the same edit again", plane_edit(buffer, sizeof buffer, correction));
    print_header(buffer);
    printf("entry");
    for (size_t i = 0; i < PLANE_ENTRY_BYTES; i++) printf(" %02X", buffer[PLANE_HEADER_BYTES + length + i]);
    printf("\n");
    list(buffer, sizeof buffer);
    restore(buffer, sizeof buffer, found.word);

    correction.value = 270;
    use_earlier(correction);
    correction.time = (uint64_t)1 << 48;
    told("edit at 2^48", plane_edit(buffer, sizeof buffer, correction));
    return 0;
}
