// What is measured: a row is a call on a frame, or on a record of one, as a case (crates/agree has the format). And what is only compared.
#ifndef ROWS_H
#define ROWS_H
#include "cases.h"

// The calls, by their op.
enum ops {
    READ = 1, ITEM = 2, EVENT = 4, SAMPLES = 5, COUNTS = 6, JUDGE = 12, ONE_ENTRY = 13, OPEN_RECORD = 14, EDIT = 15, RESTORE = 16,
    SAMPLE_WORD = 18, BIN_WORD = 19, TAKE = 21, EDIT_ALL = 22
};

// The longest frame, an entry by the record's version, the longest record; and how many corrections a list has.
enum { LONGEST = 8192, ENTRY_1 = 16, ENTRY_2 = 24, RECORD = 16 + LONGEST + ENTRY_2 * 512, LISTED = 40 };

// The latest time that an entry can keep.
#define LATEST (((u64)1 << 48) - 1)

// Prints the rows, a line CALL|FILL|SIZE|UNIT for each.
void list_rows(void);

// Writes the case of a row to standard output; 0 where it was written.
int make_case(u32 row);

// ---- cases that are compared and not measured (compared.c)

// Lists of corrections that stop, and others beside them; records of both versions, damaged in many ways, by each call.
int make_stops(void);
int make_versions(void);

// ---- what cases are made of

// A record of a version, with so many entries, of a frame of so many bytes: into the first payload, in the room of the longest record.
void make_record(struct a_case *c, u32 fill, usize length, u32 version, u32 entries);

// Edits of the last words of the record's frame that may be changed, from the last one down: nearly the whole frame lies before them.
void find_targets(const struct a_case *c, struct correction *out, u32 count);

// What an edit asks, and a list of corrections.
void put_edit(struct a_case *c, struct correction x);
void put_list(struct a_case *c, const struct correction *list, u32 count);

int put_case(const struct a_case *c);

#endif
