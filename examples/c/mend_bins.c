// Mends bins of a monitor frame: mend_bins FRAME. Opens a record of the frame, makes eleven corrections in one call and prints the history; then a
// list that stops at its second correction, and lists for a buffer that holds no record.
#include "plane_record.h"
#include <stdio.h>
#include <stdlib.h>
#include <string.h>

// The histogram, and the counts of its bins from 244 on as they should be.
enum { CHIP = 0, CHANNEL = 17, FIRST_BIN = 244, BINS = 11 };
static const uint32_t counts[BINS] = { 117, 463, 1198, 2140, 2502, 2111, 1226, 452, 129, 20, 3 };

// When the bins are mended, in milliseconds since 1970; the clock of operator 31, who is at work later, is an hour behind, and that is kept too.
static const uint64_t mended = 1794832496000, behind = 1794828896000;

static uint8_t frame[PLANE_MOST_FRAME + 1]; // one byte more: a longer file is refused by LENGTH
static size_t length;

static void read_file(const char *name) {
    FILE *file = fopen(name, "rb");
    if (!file) {
        perror(name);
        exit(2);
    }
    length = fread(frame, 1, sizeof frame, file);
    fclose(file);
}

// What corrects the count of a bin. An edit moves no word, so that the frame as it was read tells where the bin stands.
static struct plane_correction correction(uint16_t bin, uint32_t count, uint32_t operator_id, uint32_t reason, uint64_t time) {
    const struct plane_word_found found = plane_bin_word(frame, length, CHIP, CHANNEL, bin);
    if (found.refused) {
        printf("bin %u: refused %u %s at %zu\n", bin, found.refused, plane_refusal_name(found.refused), found.place);
        exit(1);
    }
    return (struct plane_correction){ .word = found.word, .value = count, .operator_id = operator_id, .reason = reason, .time = time };
}

static void told(const char *what, struct plane_stopped s) {
    if (s.refused)
        printf("%s: refused %u %s at %zu, position %zu\n", what, s.refused, plane_refusal_name(s.refused), s.place, s.position);
    else
        printf("%s: accepted\n", what);
}

// The corrections of a record from number `from` on, and how many there are.
static void list(const uint8_t *buffer, size_t room, size_t from) {
    const struct plane_record_found r = plane_record(buffer, room);
    for (size_t n = from; n <= r.count; n++) {
        const struct plane_entry_found e = plane_entry(buffer, room, n);
        printf("edit %zu word %u bin %u -> %u by %u reason %u", n, e.word, e.old_value, e.new_value, e.operator_id, e.reason);
        printf(" at %lu\n", (unsigned long)e.time);
    }
    printf("end %zu\n", r.count);
}

int main(int count, char **words) {
    if (count != 2) {
        fprintf(stderr, "usage: mend_bins FRAME\n");
        return 2;
    }
    read_file(words[1]);
    static uint8_t buffer[PLANE_MOST_RECORD];
    const struct plane_done opened = plane_open(buffer, sizeof buffer, frame, length);
    if (opened.refused) {
        printf("open: refused %u %s at %zu\n", opened.refused, plane_refusal_name(opened.refused), opened.place);
        return 1;
    }

    struct plane_correction mending[BINS];
    for (uint16_t i = 0; i < BINS; i++) mending[i] = correction(FIRST_BIN + i, counts[i], 9, 2, mended);
    told("eleven corrections", plane_edit_all(buffer, sizeof buffer, mending, BINS));
    list(buffer, sizeof buffer, 1);

    // 2111 stands in bin 249 already: the second is refused, the first stands, the third is not made.
    const struct plane_correction three[] = {
        correction(248, 2499, 31, 4, behind), correction(249, 2111, 31, 4, behind), correction(250, 1230, 31, 4, behind)
    };
    told("three corrections", plane_edit_all(buffer, sizeof buffer, three, 3));
    list(buffer, sizeof buffer, BINS + 1);
    static uint32_t stand[PLANE_COUNTS];
    plane_counts(buffer + PLANE_HEADER_BYTES, length, CHIP, CHANNEL, stand, PLANE_COUNTS);
    for (size_t bin = 248; bin <= 250; bin++) printf("bin %zu has %u\n", bin, stand[bin]);

    // A buffer that holds no record: any correction is refused, and none at all is accepted.
    uint8_t junk[64], before[sizeof junk];
    memset(junk, 0xA5, sizeof junk);
    memcpy(before, junk, sizeof junk);
    told("one correction of junk", plane_edit_all(junk, sizeof junk, mending, 1));
    told("no correction of junk", plane_edit_all(junk, sizeof junk, NULL, 0));
    printf("the junk is %s\n", memcmp(junk, before, sizeof junk) == 0 ? "as it was" : "changed");
    return 0;
}
