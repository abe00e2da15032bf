// What the baseline answers. The names are those of documents 01 and 02.
#ifndef BASELINE_H
#define BASELINE_H

typedef __UINT8_TYPE__ u8;
typedef __UINT16_TYPE__ u16;
typedef __UINT32_TYPE__ u32;
typedef __UINT64_TYPE__ u64;
typedef __SIZE_TYPE__ usize;

// A refusal has a number from 1 and a place; an accepted frame has number 0 and the rest.
struct verdict {
    u32 number;
    u32 place;
    char kind; // D, M or C
    u16 card;
    u16 sequence;
    u32 items;
};

// The class is a row of the word book, from 1; the fields stand in the book's order.
struct item {
    u32 class;
    u32 next;
    u64 fields[3];
};

// Where it did not begin in this frame its type and timestamp are missing, where it does not end here its size; they are 0 then.
struct event {
    u8 began;
    u8 ended;
    u32 type;
    u32 number;
    u64 timestamp;
    u32 size;
    u32 index;
};

struct refusal {
    u32 number;
    u32 place;
};

// What the items so far leave behind, for the next one: where it would stand (0 is no mode), the least that a header may be, the time of the
// next sample or the least number of the next bin, and the latest Start event (0 is none: an open event began in another frame).
struct state {
    u32 mode;
    u32 key;
    u32 next;
    usize opener;
};

// A partial frame that is being written: its bytes so far, and the state behind them.
struct draft {
    usize length;
    u32 card;
    struct state state;
};

// The assembler of a card's events: its follower (0 idle, 1 + e expecting e), and the event that is open, if one is: its number, its bytes in all
// parts so far, and the least that its next Channel header may be, by its low 14 bits. All is 0 but card and follower where none is open.
struct assembler {
    u32 card;
    u32 follower;
    u32 open;
    u32 number;
    u32 size;
    u32 key;
};

// A refusal, with the assembler as it was; or number 0, how many frames were lost before this one, and the assembler from here on.
struct taken {
    u32 number;
    u32 place;
    u32 lost;
    struct assembler next;
};

struct record {
    u32 length; // of the frame
    u32 count;
    u32 total;
    u32 entry_size; // by its version: 16 in version 1, 24 in version 2
};

struct entry {
    u32 word;
    u32 kind; // 1 sample, 2 bin
    u32 old;
    u32 new;
    u32 operator;
    u32 reason;
    u32 timed; // 0 in version 1, which has no time
    u64 time;
};

struct correction {
    u64 word;
    u32 value;
    u32 operator;
    u32 reason;
    u64 time;
};

// ---- the reader

struct verdict baseline_read(const u8 *s, usize n);
struct refusal baseline_item(const u8 *s, usize n, u64 ordinal, struct item *out);
struct refusal baseline_event(const u8 *s, usize n, u64 ordinal, struct event *out);
struct refusal baseline_samples(const u8 *s, usize n, u64 ordinal, u32 chip, u32 channel, u16 *out, usize room);
struct refusal baseline_counts(const u8 *s, usize n, u32 chip, u32 channel, u32 *out, usize room);
// The word index of the sample at a time, and of a bin.
struct refusal baseline_sample_word(const u8 *s, usize n, u64 ordinal, u32 chip, u32 channel, u32 time, usize *out);
struct refusal baseline_bin_word(const u8 *s, usize n, u32 chip, u32 channel, u32 bin, usize *out);

// ---- the writer, on a partial frame in a buffer of `room` bytes; a refused call leaves buffer and draft as found

struct refusal baseline_begin(u8 *buf, usize room, char kind, u32 card, u32 sequence, struct draft *out);
// The step: one item, by the state that the draft carries.
struct refusal baseline_put(u8 *buf, usize room, struct draft *d, struct item x);
struct refusal baseline_put_text(u8 *buf, usize room, struct draft *d, const u8 *text, usize n);
// The calls that judge the partial frame first; the draft's length is the answer.
struct refusal baseline_add(u8 *buf, usize room, u64 length, struct item x, struct draft *out);
struct refusal baseline_add_text(u8 *buf, usize room, u64 length, const u8 *text, usize n, struct draft *out);
struct refusal baseline_close(u8 *buf, usize room, u64 length, usize *out);

// ---- the assembler

struct assembler baseline_new_assembler(u32 card);
struct taken baseline_take(struct assembler a, const u8 *s, usize n);
struct assembler baseline_give_up(struct assembler a);

// ---- the record: both versions are judged, read and restored; opened and edited is version 2

struct refusal baseline_record(const u8 *b, usize n, struct record *out);
struct refusal baseline_entry(const u8 *b, usize n, u64 number, struct entry *out);
struct refusal baseline_open(u8 *b, usize n, const u8 *frame, usize length);
struct refusal baseline_edit(u8 *b, usize n, struct correction c);
// Edits in the order of the list, and stops at the first that is refused: its position is told, and those before it stand. 0 where all were made.
struct refusal baseline_edit_all(u8 *b, usize n, const struct correction *list, usize count, usize *position);
struct refusal baseline_restore(const u8 *b, usize n, u64 k, u8 *out, usize room);

#endif
