/* The header as a program uses it, in C and in C++: included twice, every struct and enum by its name, every call, every constant. */
#include "plane_record.h"
#include "plane_record.h"

#if PLANE_RECORD_VERSION != 5
#error "the version is not the one that this test was written for"
#endif

/* No name of a struct is the name of a function, so that C++ can leave the word `struct` away. */
#ifdef __cplusplus
#define STRUCT
#define ENUM
#else
#define STRUCT struct
#define ENUM enum
#endif

/* The layouts that came with the time of a correction, in numbers: where the archive's sources and the header slip alike, layout.py sees nothing. */
#define HOLDS(name, fact) typedef char holds_##name[(fact) ? 1 : -1]
HOLDS(correction, sizeof(STRUCT plane_correction) == 32 && offsetof(STRUCT plane_correction, value) == 8);
HOLDS(signer, offsetof(STRUCT plane_correction, operator_id) == 12 && offsetof(STRUCT plane_correction, reason) == 16);
HOLDS(time_given, offsetof(STRUCT plane_correction, time) == 24);
HOLDS(entry, sizeof(STRUCT plane_entry_found) == 48 && offsetof(STRUCT plane_entry_found, reason) == 30);
HOLDS(time_kept, offsetof(STRUCT plane_entry_found, timed) == 32 && offsetof(STRUCT plane_entry_found, time) == 40);
HOLDS(record, PLANE_MOST_RECORD == PLANE_HEADER_BYTES + PLANE_MOST_FRAME + PLANE_ENTRY_BYTES * PLANE_MOST_ENTRIES && PLANE_MOST_RECORD == 20496);

static int accepted(uint32_t refused, size_t place) { return refused == PLANE_ACCEPTED && place == 0; }

int use_reading(const uint8_t *frame, size_t length, uint16_t *samples, uint32_t *counts);
int use_reading(const uint8_t *frame, size_t length, uint16_t *samples, uint32_t *counts) {
    const STRUCT plane_frame f = plane_read(frame, length);
    const STRUCT plane_found found = plane_item(frame, length, 0);
    const STRUCT plane_item_fields item = found.item;
    const STRUCT plane_text_part text = plane_text(frame, length, 0);
    const STRUCT plane_event_found event = plane_event(frame, length, 0);
    const STRUCT plane_done sampled = plane_samples(frame, length, 0, 1, 2, samples, PLANE_SAMPLES);
    const STRUCT plane_done counted = plane_counts(frame, length, 1, 2, counts, PLANE_COUNTS);
    const STRUCT plane_word_found sample = plane_sample_word(frame, length, 0, 1, 2, 511);
    const STRUCT plane_word_found bin = plane_bin_word(frame, length, 1, 2, 4095);
    const ENUM plane_kind kind = PLANE_MONITOR;
    const ENUM plane_class item_class = PLANE_BIN;
    const ENUM plane_sizes first = PLANE_FIRST_ITEM;
    return accepted(f.refused, f.place) && f.kind == kind && accepted(found.refused, found.place) && item.item_class == item_class &&
           found.index == (size_t)first && found.next > found.index && accepted(sample.refused, sample.place) && accepted(bin.refused, bin.place) &&
           sample.word < bin.word && text.offset + text.length <= length && accepted(event.refused, event.place) && event.began && event.ended &&
           event.kind < 16 && event.timestamp >> 48 == 0 && event.number == item.number && event.size <= length && event.index == found.index &&
           accepted(sampled.refused, sampled.place) && samples[0] != PLANE_NO_SAMPLE && accepted(counted.refused, counted.place) &&
           plane_classify(0x0100) == PLANE_TEXT;
}

int use_writing(uint8_t *buffer, size_t room, const uint8_t *text, size_t text_length, STRUCT plane_item_fields item);
int use_writing(uint8_t *buffer, size_t room, const uint8_t *text, size_t text_length, STRUCT plane_item_fields item) {
    const STRUCT plane_written begun = plane_begin(buffer, room, PLANE_COMMAND, 5, 0x0100);
    const STRUCT plane_written added = plane_add(buffer, room, begun.length, item);
    const STRUCT plane_written worded = plane_add_text(buffer, room, added.length, text, text_length);
    const STRUCT plane_written closed = plane_close(buffer, room, worded.length);
    STRUCT plane_follower follower = { 0, 0 };
    const STRUCT plane_followed followed = plane_follow(follower, 0x0100);
    follower = followed.next;
    return accepted(closed.refused, closed.place) && follower.expecting && follower.number == 1 && followed.lost == 0;
}

int use_runs(const uint8_t *frame, size_t length);
int use_runs(const uint8_t *frame, size_t length) {
    const STRUCT plane_assembler idle = { 5, 0, { 0, 0 }, 0, 0, 0 };
    STRUCT plane_assembler assembler = plane_new_assembler(5);
    const STRUCT plane_taken taken = plane_take(assembler, frame, length);
    const STRUCT plane_found found = plane_item(frame, length, 0);
    const ENUM plane_class continues = PLANE_CONTINUE_EVENT;
    const ENUM plane_refusal refusal = PLANE_REFUSED_LINK;
    if (taken.refused == (uint32_t)refusal && found.item.item_class == (uint32_t)continues) return 0;
    assembler = plane_give_up(taken.next);
    return accepted(taken.refused, taken.place) && taken.lost == 0 && taken.next.open && taken.next.number == found.item.number &&
           taken.next.size <= length && taken.next.key >= 2048 * 5 && taken.next.follower.number == 1 && assembler.card == idle.card &&
           !assembler.open && assembler.follower.expecting && assembler.number == idle.number && assembler.size == 0 && assembler.key == 0;
}

int use_records(uint8_t *buffer, const uint8_t *frame, size_t length, uint8_t *out);
int use_records(uint8_t *buffer, const uint8_t *frame, size_t length, uint8_t *out) {
    const size_t room = PLANE_MOST_RECORD;
    const STRUCT plane_correction correction = { 11, 260, 9, 2, 1000 };
    const STRUCT plane_correction corrections[2] = { { 11, 261, 9, 2, 2000 }, { 12, 252, 9, 2, 1500 } };
    const STRUCT plane_done opened = plane_open(buffer, room, frame, length);
    const STRUCT plane_done edited = plane_edit(buffer, room, correction);
    const STRUCT plane_stopped stopped = plane_edit_all(buffer, room, corrections, sizeof corrections / sizeof corrections[0]);
    const STRUCT plane_record_found record = plane_record(buffer, room);
    const STRUCT plane_entry_found entry = plane_entry(buffer, room, record.count);
    const STRUCT plane_done restored = plane_restore(buffer, room, 0, out, PLANE_MOST_FRAME);
    const ENUM plane_corrected kind = PLANE_CORRECTED_SAMPLE;
    const ENUM plane_refusal refusal = PLANE_REFUSED_ROOM;
    return opened.refused != (uint32_t)refusal && accepted(edited.refused, edited.place) && accepted(stopped.refused, stopped.place) &&
           stopped.position == 0 && record.total == PLANE_HEADER_BYTES + length + 3 * PLANE_ENTRY_BYTES && record.count < PLANE_MOST_ENTRIES &&
           PLANE_ENTRY_BYTES_1 < PLANE_ENTRY_BYTES && entry.kind == kind && entry.timed == 1 && entry.time == corrections[1].time &&
           accepted(restored.refused, restored.place) && plane_refusal_name(restored.refused) != 0;
}
