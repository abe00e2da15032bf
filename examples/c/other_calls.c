// The calls that the other examples leave out: the class of a word, counts, the word of a bin, texts, what is no kind and no item, and the follower.
#include "plane_record.h"
#include <stdio.h>

// Case 7 of document 01.
static const uint16_t words[] = { 0x0605, 0x0010, 0x0000, 0x8A4E, 0x2100, 0x1170, 0x0001, 0x000F };
enum { WORDS = sizeof words / sizeof words[0] };

static void print_counts(void) {
    static uint32_t counts[PLANE_COUNTS];
    uint8_t frame[2 * WORDS];
    for (size_t i = 0; i < WORDS; i++) {
        frame[2 * i] = words[i] & 0xFF;
        frame[2 * i + 1] = words[i] >> 8;
    }
    if (!plane_counts(frame, sizeof frame, 0, 78, counts, PLANE_COUNTS).refused)
        for (size_t bin = 0; bin < PLANE_COUNTS; bin++)
            if (counts[bin]) printf("chip 0 channel 78 bin %zu: %u\n", bin, counts[bin]);
    for (uint16_t bin = 256; bin < 258; bin++) {
        const struct plane_word_found found = plane_bin_word(frame, sizeof frame, 0, 78, bin);
        if (found.refused)
            printf("bin %u: refused %u %s at %zu\n", bin, found.refused, plane_refusal_name(found.refused), found.place);
        else
            printf("bin %u: word %zu\n", bin, found.word);
    }
}

static struct plane_written told(const char *what, struct plane_written w) {
    if (w.refused)
        printf("%s: refused %u %s at %zu\n", what, w.refused, plane_refusal_name(w.refused), w.place);
    else
        printf("%s: %zu bytes\n", what, w.length);
    return w;
}

static void write_text(void) {
    const char letters[] = "beam off";
    uint8_t frame[64];
    told("begin, kind 4", plane_begin(frame, sizeof frame, 4, 5, 0));
    struct plane_written w = told("begin", plane_begin(frame, sizeof frame, PLANE_COMMAND, 5, 0));
    told("add, class 99", plane_add(frame, sizeof frame, w.length, (struct plane_item_fields){ .item_class = 99 }));
    told("add, class 8", plane_add(frame, sizeof frame, w.length, (struct plane_item_fields){ .item_class = PLANE_DATA_FRAME }));
    w = told("add text", plane_add_text(frame, sizeof frame, w.length, (const uint8_t *)letters, sizeof letters - 1));
    w = told("close", plane_close(frame, sizeof frame, w.length));
    const struct plane_text_part t = plane_text(frame, w.length, 0);
    printf("item 0: a text of %zu bytes from byte %zu: %.*s\n", t.length, t.offset, (int)t.length, (const char *)frame + t.offset);
}

static void print_follower(struct plane_follower f) {
    if (f.expecting)
        printf("expecting %u", f.number);
    else
        printf("idle");
}

static struct plane_follower follow(struct plane_follower f, uint16_t word) {
    const struct plane_followed answer = plane_follow(f, word);
    print_follower(f);
    printf(", word %04X: ", word);
    if (answer.refused)
        printf("refused %u %s at %zu, ", answer.refused, plane_refusal_name(answer.refused), answer.place);
    else
        printf("lost %u, ", answer.lost);
    print_follower(answer.next);
    printf("\n");
    return answer.next;
}

int main(void) {
    printf("word 0825: class %u\n", plane_classify(0x0825));
    print_counts();
    write_text();
    // Case 12 of document 01, and a number before a start.
    const struct plane_follower next = follow((struct plane_follower){ .expecting = 1, .number = 255 }, 0x00FF);
    follow(next, 0x0000);
    follow((struct plane_follower){ 0, 0 }, 0x0001);
    return 0;
}
