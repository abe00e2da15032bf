// Reads a frame: its first words, its items, an event and the samples of a channel; then the same frame with a wrong size in its End event.
#include "plane_record.h"
#include <stdio.h>

// Case 3 of document 01.
static const uint16_t words[] = { 0x0805, 0x0022, 0x0100, 0x00F1, 0x03E8, 0x0000, 0x0000, 0x0007, 0x0000,
                                  0xCB0A, 0x0E03, 0x30FA, 0x30FB, 0x00E0, 0x001A, 0x0000, 0x000F };
enum { WORDS = sizeof words / sizeof words[0] };

static void print_item(struct plane_item_fields x) {
    switch (x.item_class) {
    case PLANE_START_EVENT: printf("start event type %u timestamp %lu number %u", x.kind, (unsigned long)x.timestamp, x.number); break;
    case PLANE_CHANNEL: printf("channel card %u chip %u channel %u", x.card, x.chip, x.channel); break;
    case PLANE_TIME_BIN: printf("time bin %u", x.time); break;
    case PLANE_SAMPLE: printf("sample %u", x.value); break;
    case PLANE_END_EVENT: printf("end event size %u", x.size); break;
    default: printf("class %u", x.item_class);
    }
}

static void list(const uint8_t *frame, size_t length) {
    const struct plane_frame f = plane_read(frame, length);
    if (f.refused) {
        printf("refused %u %s at %zu\n", f.refused, plane_refusal_name(f.refused), f.place);
        return;
    }
    printf("frame %c card %u seq %04X bytes %zu items %zu\n", "?DMC"[f.kind], f.card, f.sequence, length, f.items);
    for (size_t n = 0; n < f.items; n++) {
        const struct plane_found found = plane_item(frame, length, n);
        printf("item %zu at word %zu: ", n, found.index);
        print_item(found.item);
        printf("\n");
    }
}

int main(void) {
    uint8_t frame[2 * WORDS];
    for (size_t i = 0; i < WORDS; i++) {
        frame[2 * i] = words[i] & 0xFF;
        frame[2 * i + 1] = words[i] >> 8;
    }
    list(frame, sizeof frame);

    const struct plane_event_found event = plane_event(frame, sizeof frame, 0);
    if (event.ended) printf("event 0: number %u size %u at word %zu\n", event.number, event.size, event.index);
    uint16_t samples[PLANE_SAMPLES];
    if (!plane_samples(frame, sizeof frame, 0, 2, 10, samples, PLANE_SAMPLES).refused)
        for (size_t time = 0; time < PLANE_SAMPLES; time++)
            if (samples[time] != PLANE_NO_SAMPLE) printf("chip 2 channel 10 time %zu: %u\n", time, samples[time]);

    frame[28] = 0x1C;
    list(frame, sizeof frame);
    return 0;
}
