/* The plane record library for C (C99 or later) and C++ (C++98 or later) on x86-64 Linux: frames of 16-bit words are read, written and corrected.
 * Link libexports.a. docs/FORMAT.md has frames and records byte by byte, and an example of each refusal; documents 01 (the rules) and 02 are the
 * client's papers.
 *
 * Every call is proved to answer, and to leave in the memory lent to it, exactly what document 01 and the first three requests of document 02 (events
 * over several frames, many corrections in one call, the time of a correction) say, for all bytes and all arguments. It ends, reads and writes
 * nothing but what it is lent, and keeps nothing: no heap, no globals, no clock, so threads may call it at once, each on memory of its own. Judging a
 * record takes arrays of 16 KByte on the stack, restoring one 24 KByte.
 *
 * Answers. `refused` is PLANE_ACCEPTED, 0, or the number of a refusal, with its `place`; any field that an answer does not use is 0, on a refusal all
 * but these two (a follower or an assembler is given back, and plane_edit_all tells a position). A refused call has left all lent memory as it was,
 * but for plane_edit_all, the one exception: the corrections before the one that was refused have been made and stand. A place is a word index (from
 * 0) for 6 to 11, an entry's number (from 1) for 21, else 0; the 9 of plane_begin, which has no item yet, is at 0 too.
 *
 * What the caller owes. Memory is lent by a pointer and a length, in elements. Where the length is 0 the pointer may be null. Else it is
 * aligned for its elements, and all of them can be read, and written where it is not const; they take at most PTRDIFF_MAX bytes. Until the call
 * returns nothing else writes them, and memory lent to be written overlaps nothing else that is lent. Every other argument may be any value.
 */
#ifndef PLANE_RECORD_H
#define PLANE_RECORD_H

#include <stddef.h>
#include <stdint.h>

/* Raised by one where a call is added, and where a program written for the version before has to be changed or compiled again; version 5 adds the
 * time of a correction: `time` in plane_correction, `timed` and `time` in plane_entry_found, larger entries and records; and records of version 1 are
 * no longer edited. Header and archive are of one version. A record has a version of its own, 1 or 2. */
#define PLANE_RECORD_VERSION 5

#ifdef __cplusplus
extern "C" {
#endif

/* The numbered refusals. */
enum plane_refusal {
    PLANE_ACCEPTED = 0,
    PLANE_REFUSED_LENGTH = 1,     /* odd, under 8 or over 8,192 bytes */
    PLANE_REFUSED_KIND = 2,       /* word 0 is no frame start, or version is not 0 */
    PLANE_REFUSED_SIZE = 3,       /* word 1 differs from the length */
    PLANE_REFUSED_SEQUENCE = 4,   /* word 2 above 0x0100 */
    PLANE_REFUSED_END = 5,        /* last word not 0x000F */
    PLANE_REFUSED_CLASS = 6,      /* unassigned word begins an item */
    PLANE_REFUSED_CUT = 7,        /* the item runs into the frame-end word */
    PLANE_REFUSED_PLACE = 8,      /* this class is not allowed after the item before it */
    PLANE_REFUSED_VALUE = 9,      /* a value is out of its range */
    PLANE_REFUSED_ORDER = 10,     /* times, channels, histograms or bins do not rise */
    PLANE_REFUSED_OPEN = 11,      /* the items end after a Channel or a Time bin */
    PLANE_REFUSED_ROOM = 12,      /* the output buffer is too short, or a frame that is written would pass 8,192 bytes */
    PLANE_REFUSED_ABSENT = 13,    /* no such item, event, channel, histogram, sample or bin */
    PLANE_REFUSED_NO_START = 14,  /* a sequence number 1 to 255 before the first 0x0100 */
    PLANE_REFUSED_LINK = 15,      /* the frame is not one that can come next in the run: plane_take says when */
    PLANE_REFUSED_HEADER = 20,    /* buffer under 16 bytes, a header word wrong, or buffer under the total length; an edit of a record of version 1 */
    PLANE_REFUSED_ENTRY = 21,     /* a history entry doesn't fit the frame */
    PLANE_REFUSED_TARGET = 22,    /* the word index is not a Sample's or Bin's first word */
    PLANE_REFUSED_NEW_VALUE = 23, /* sample over 4,095, bin 0, or the present value */
    PLANE_REFUSED_SIGNER = 24,    /* operator not 1 to 65,535, reason not 1 to 5, or time of 2^48 or more */
    PLANE_REFUSED_FULL = 25,      /* 512 entries stand */
    PLANE_REFUSED_NO_ENTRY = 26   /* there are not that many entries */
};

/* A refusal's name, as docs/FORMAT.md has it: "LENGTH" for 1. "ACCEPTED" for 0, "UNKNOWN" for a number that is no refusal. */
static inline const char *plane_refusal_name(uint32_t number) {
    static const char *const names[] = {
        "ACCEPTED", "LENGTH", "KIND", "SIZE", "SEQUENCE", "END", "CLASS", "CUT", "PLACE", "VALUE", "ORDER", "OPEN", "ROOM", "ABSENT", "NO START",
        "LINK", "UNKNOWN", "UNKNOWN", "UNKNOWN", "UNKNOWN", "HEADER", "ENTRY", "TARGET", "NEW VALUE", "SIGNER", "FULL", "NO ENTRY"
    };
    return number < sizeof names / sizeof names[0] ? names[number] : "UNKNOWN";
}

/* The classes, by their numbers in the word book: 1 to 14 are document 01's rows, 15 came with document 02. Frame starts and Frame end are never
 * items. */
enum plane_class {
    PLANE_UNASSIGNED = 0,
    PLANE_CHANNEL = 1,
    PLANE_HISTOGRAM = 2,
    PLANE_HIT_COUNT = 3,
    PLANE_SAMPLE = 4,
    PLANE_BIN = 5,
    PLANE_LAST_CELL = 6,
    PLANE_TIME_BIN = 7,
    PLANE_DATA_FRAME = 8,
    PLANE_MONITOR_FRAME = 9,
    PLANE_COMMAND_FRAME = 10,
    PLANE_TEXT = 11,
    PLANE_START_EVENT = 12,
    PLANE_END_EVENT = 13,
    PLANE_FRAME_END = 14,
    PLANE_CONTINUE_EVENT = 15
};

/* The kinds of frames, and of the items that an entry corrects. */
enum plane_kind { PLANE_DATA = 1, PLANE_MONITOR = 2, PLANE_COMMAND = 3 };
enum plane_corrected { PLANE_CORRECTED_SAMPLE = 1, PLANE_CORRECTED_BIN = 2 };

/* How much the calls ask for and write. */
enum plane_sizes {
    PLANE_MOST_FRAME = 8192,   /* bytes: no frame has more */
    PLANE_FIRST_ITEM = 3,      /* the word index of item 0: the start word, the size and the sequence word come first */
    PLANE_SAMPLES = 512,       /* words that plane_samples writes */
    PLANE_NO_SAMPLE = 0xFFFF,  /* what plane_samples writes where no sample stands */
    PLANE_COUNTS = 4096,       /* words that plane_counts writes */
    PLANE_HEADER_BYTES = 16,   /* of a record; its frame begins behind them */
    PLANE_ENTRY_BYTES = 24,    /* in a record of version 2, which plane_open makes: what an edit adds to the record */
    PLANE_ENTRY_BYTES_1 = 16,  /* in a record of version 1 */
    PLANE_MOST_ENTRIES = 512,
    PLANE_MOST_RECORD = 20496  /* bytes: no record has more, and in a buffer of so many no edit is refused by 12 */
};

/* ---- the class of a word */

/* One of enum plane_class. */
uint32_t plane_classify(uint16_t word);

/* ---- frames are read */

struct plane_frame {
    uint32_t refused;
    size_t place;
    uint16_t kind; /* one of enum plane_kind */
    uint16_t card;
    uint16_t sequence;
    size_t items;
};

/* Whether the bytes are a frame: refused by 1 to 11, or its first words and how many items it has. */
struct plane_frame plane_read(const uint8_t *frame, size_t length);

/* An item: its class, and the fields that the class has; the others are 0. */
struct plane_item_fields {
    uint32_t item_class; /* one of enum plane_class */
    uint16_t card;       /* Channel, Histogram, Hit count */
    uint16_t chip;       /* Channel, Histogram, Hit count, Last cell */
    uint16_t channel;    /* Channel, Histogram */
    uint16_t hits;       /* Hit count */
    uint16_t value;      /* Sample */
    uint16_t bin;        /* Bin */
    uint16_t cell;       /* Last cell */
    uint16_t time;       /* Time bin */
    uint16_t length;     /* Text: its bytes, the final zero included */
    uint16_t kind;       /* Start event: its type */
    uint32_t count;      /* Bin */
    uint32_t number;     /* Start event, Continue event */
    uint32_t size;       /* End event: the event's bytes, in all frames that it stands in */
    uint64_t timestamp;  /* Start event */
};

struct plane_found {
    uint32_t refused;
    size_t place;
    size_t index; /* the word index of the item */
    size_t next;  /* that of the next item, or of the end word */
    struct plane_item_fields item;
};

/* Item `ordinal`, from 0. Refused as plane_read refuses, then by 13. Each call judges the whole frame, so that listing one takes the square of its
 * length; plane_samples and plane_counts fetch a whole channel or histogram at once. */
struct plane_found plane_item(const uint8_t *frame, size_t length, size_t ordinal);

struct plane_text_part {
    size_t offset;
    size_t length;
};

/* The bytes of the text that is item `ordinal`, without the final zero: `length` of them, in the frame itself, from byte `offset` on. Never refused:
 * it is empty on any refusal or another class, and plane_item tells this from an empty text. */
struct plane_text_part plane_text(const uint8_t *frame, size_t length, size_t ordinal);

/* An event, or the part of one that stands in this frame. */
struct plane_event_found {
    uint32_t refused;
    size_t place;
    uint8_t began;      /* 1 where its Start event is in this frame; 0 where it began in another one, which has `kind` and `timestamp`, 0 here */
    uint8_t ended;      /* 1 where its End event is in this frame; 0 where it does not end in this one, and another has `size`, 0 here */
    uint16_t kind;      /* its type */
    uint32_t number;    /* always there */
    uint64_t timestamp;
    uint32_t size;      /* its bytes, in all frames that it stands in */
    size_t index;       /* the word index of its Start event, or of its Continue event where `began` is 0 */
};

/* Event `ordinal`, from 0; a part that begins with a Continue event is event 0. Refused as plane_read refuses, then by 13. */
struct plane_event_found plane_event(const uint8_t *frame, size_t length, size_t ordinal);

struct plane_done {
    uint32_t refused;
    size_t place;
};

/* The samples of event `ordinal`, a chip and a channel: into the first 512 words of `out`, each at its time, PLANE_NO_SAMPLE where no sample
 * stands; words beyond are untouched. Refused as plane_read refuses, then by 12 where `room` is under 512, then by 13, also for a channel of the
 * event that stands in another frame; in a run no channel of an event stands in two. */
struct plane_done plane_samples(const uint8_t *frame, size_t length, size_t ordinal, uint16_t chip, uint16_t channel, uint16_t *out, size_t room);

/* The counts of a chip's and a channel's histogram: into the first 4,096 words of `out`, each at its bin, 0 where no bin stands; words beyond are
 * untouched. Refused as plane_read refuses, then by 12 where `room` is under 4,096, then by 13. */
struct plane_done plane_counts(const uint8_t *frame, size_t length, uint16_t chip, uint16_t channel, uint32_t *out, size_t room);

struct plane_word_found {
    uint32_t refused;
    size_t place;
    size_t word; /* the index that plane_edit takes */
};

/* The word of the sample at a time, of event `ordinal`, a chip and a channel. Refused as plane_read refuses, then by 13 where there is no such event,
 * channel or sample: exactly where plane_samples is refused by 13 or writes PLANE_NO_SAMPLE at that time, and for a time over 511. */
struct plane_word_found plane_sample_word(const uint8_t *frame, size_t length, size_t ordinal, uint16_t chip, uint16_t channel, uint16_t time);

/* The word of a bin, the first of its three, of a chip's and a channel's histogram. Refused as plane_read refuses, then by 13 where there is no such
 * histogram or bin: exactly where plane_counts is refused by 13 or writes 0 at that bin, and for a bin over 4,095. */
struct plane_word_found plane_bin_word(const uint8_t *frame, size_t length, uint16_t chip, uint16_t channel, uint16_t bin);

/* ---- frames are written: a partial frame stands in the first bytes of a buffer, and each call answers its new length */

struct plane_written {
    uint32_t refused;
    size_t place;
    size_t length; /* 0 on a refusal: the partial frame stands as it stood, and its length is the one that the caller gave */
};

/* Begins a partial frame of 6 bytes. Refused by 2 where `kind` is none of enum plane_kind, by 9 for a card over 31, by 4 for a sequence word over
 * 0x0100, by 12 where the buffer is under 8 bytes. */
struct plane_written plane_begin(uint8_t *buffer, size_t room, uint16_t kind, uint16_t card, uint16_t sequence);

/* Adds an item to the partial frame in the first `length` bytes. Refused by what is wrong with the partial frame; then, at the word where the item
 * would start, by 6 for a class that is none, and by 8, 9 or 10 by the rules (8 for a frame start or Frame end; a text is added by plane_add_text,
 * here it is 8 or 9); then by 12. Fields that the class does not have are not looked at. The caller gives an End event its size: a wrong one is 9
 * where the event's Start event is in this frame; where it began in another, any size is taken here, and plane_take judges it. Each call judges the
 * whole partial frame, so that building one takes the square of its length. */
struct plane_written plane_add(uint8_t *buffer, size_t room, size_t length, struct plane_item_fields item);

/* Adds a text, which comes without its final zero: as plane_add. A text over 254 bytes or holding a zero is 9. */
struct plane_written plane_add_text(uint8_t *buffer, size_t room, size_t length, const uint8_t *text, size_t text_length);

/* Closes the partial frame: writes its size and its end word. Refused by what is wrong with the partial frame, then by 11 where its last item is a
 * Channel or a Time bin, then by 12. An event may be open: it goes on in the card's next frame. */
struct plane_written plane_close(uint8_t *buffer, size_t room, size_t length);

/* ---- sequence numbers */

/* Idle where `expecting` is 0, else it expects `number`. All zeros is a follower that has seen nothing. */
struct plane_follower {
    uint8_t expecting;
    uint8_t number;
};

struct plane_followed {
    uint32_t refused;
    size_t place;
    uint8_t lost;               /* the frames lost before this one, modulo 256 */
    struct plane_follower next; /* from here on; on a refusal the follower that was given */
};

/* Feeds a follower the sequence word of a frame. Refused by 4 for a word over 0x0100, by 14 for a number before a start. */
struct plane_followed plane_follow(struct plane_follower follower, uint16_t word);

/* ---- runs: the data frames of one card, one behind the other, with events that go on from frame to frame */

/* What is known of a run behind the frames that were taken, one assembler for each card. All of it stands here: the caller keeps it, and may copy it
 * or make one of any numbers. They are taken and answered by the rules below: an `open` that is not 0 is read as 1, and where it is 0 the last three
 * are not looked at. */
struct plane_assembler {
    uint16_t card;                  /* the frames' card; one over 31 is no frame's, so that no frame is taken */
    uint8_t open;                   /* 1 where an event is open, else 0, and then the last three are 0 */
    struct plane_follower follower; /* of the run's sequence words */
    uint32_t number;                /* the open event's number */
    uint32_t size;                  /* its bytes so far, in all its parts, their Continue events included */
    uint32_t key;                   /* the least key that its next Channel may have, or 0 for any: 2048 * card + 128 * chip + channel */
};

struct plane_taken {
    uint32_t refused;
    size_t place;
    uint8_t lost;                /* the frames lost before this one, modulo 256; 0 where an event was open */
    struct plane_assembler next; /* from here on; on a refusal the assembler that was given */
};

/* An assembler that has seen nothing: its follower is idle, and no event is open. */
struct plane_assembler plane_new_assembler(uint16_t card);

/* Takes the next frame of the run. Refused as plane_read refuses, then by 14 as plane_follow refuses, then by 15, at 0, for a frame that
 * - is no data frame, or of another card;
 * - where no event is open, begins with a Continue event;
 * - where one is open, does not begin with a Continue event of its number; has frames lost before it; has a Channel of the event whose key is under
 *   `key`; ends the event by another size than `size` and the bytes of its own part together; or brings these to 2^32 or more.
 * Where no event is open a loss is only reported. A refused frame counts as one that did not come: `next` is what was given, its follower too. So the
 * right frame can still be taken; where it does not come, plane_give_up goes on without the event. Whether the run ends inside an event is told by
 * `next.open`. */
struct plane_taken plane_take(struct plane_assembler assembler, const uint8_t *frame, size_t length);

/* Gives up the open event, if there is one: card and follower stay, and no event is open. A frame that goes on with it is then refused by 15. Refuses
 * nothing. */
struct plane_assembler plane_give_up(struct plane_assembler assembler);

/* ---- records: a frame and the history of its edits. Their first word is the version: 2 in those that plane_open makes, whose entries keep a time;
 * 1 in those that were made before there were times. Both are read and restored; only those of version 2 are edited. */

struct plane_record_found {
    uint32_t refused;
    size_t place;
    size_t length; /* of its frame, which begins at byte 16 */
    size_t count;  /* its entries */
    size_t total;  /* of the record */
};

/* Whether a buffer begins with a record, of either version. Refused by 20, then as plane_read refuses its frame, then by 21. */
struct plane_record_found plane_record(const uint8_t *buffer, size_t room);

struct plane_entry_found {
    uint32_t refused;
    size_t place;
    uint16_t word; /* the item's first word */
    uint16_t kind; /* one of enum plane_corrected */
    uint32_t old_value;
    uint32_t new_value;
    uint16_t operator_id;
    uint16_t reason;
    uint8_t timed; /* 1 where the entry keeps a time: in records of version 2; 0 in those of version 1, which have none, and then `time` is 0 */
    uint64_t time; /* as the correction gave it */
};

/* Entry `number` of a record, from 1 as the oldest. Refused as plane_record refuses, then by 26. */
struct plane_entry_found plane_entry(const uint8_t *buffer, size_t room, size_t number);

/* Opens a record of the frame, of version 2 and with no history: writes header and frame to the buffer's start. Refused as plane_read refuses, then
 * by 12. */
struct plane_done plane_open(uint8_t *buffer, size_t room, const uint8_t *frame, size_t length);

struct plane_correction {
    size_t word; /* the item's first word, in its frame: plane_sample_word and plane_bin_word find it */
    uint32_t value;
    uint32_t operator_id;
    uint32_t reason;
    uint64_t time; /* below 2^48, by the caller's clock and in the caller's unit: it is kept as given, and may be before that of an earlier edit */
};

/* Edits the record: writes the value, the two header words that change and one entry. Refused by 20 for a record of version 1, whatever its frame and
 * entries are; then as plane_record refuses, then by 22, 23, 24, 25, and by 12 where the buffer has under 24 bytes behind the record. */
struct plane_done plane_edit(uint8_t *buffer, size_t room, struct plane_correction correction);

struct plane_stopped {
    uint32_t refused;
    size_t place;
    size_t position; /* in the list, from 0, of the correction that was refused */
};

/* Makes a list of corrections in their order, each as plane_edit makes it, on the record that those before it have left. Stops at the first that is
 * refused: `refused` and `place` are plane_edit's for that one (20 for a record of version 1, else as plane_record refuses, then 22, 23, 24, 25, 12),
 * `position` is where it stands in the list. The corrections before it have been made and stand, the one exception to what is said of refused calls
 * above; it and those behind it have changed nothing. Where all were made the three fields are 0. An empty list is accepted and changes nothing,
 * whatever the buffer holds: no record need be there, and one of version 1 may be. `corrections` points to `count` structs, each with a time of its
 * own, which are only read and do not overlap the buffer; it may be null where `count` is 0. */
struct plane_stopped plane_edit_all(uint8_t *buffer, size_t room, const struct plane_correction *corrections, size_t count);

/* Restores the frame as it stood after its first `k` edits, to the start of `out`; the record, of either version, is only read. Refused as
 * plane_record refuses, then by 26, then by 12 where `out` is under the frame's length. */
struct plane_done plane_restore(const uint8_t *buffer, size_t room, size_t k, uint8_t *out, size_t out_room);

#ifdef __cplusplus
}
#endif

#endif
