/* Every call with a null pointer where the length is 0: refused as any empty memory is, or accepted where nothing has to be read or made. */
#include "plane_record.h"
#include <stdio.h>
#include <string.h>

static const uint8_t command[] = { 0x05, 0x04, 0x08, 0x00, 0x00, 0x00, 0x0F, 0x00 };
static int faults = 0;

static void wants(const char *call, uint32_t refused, uint32_t wanted) {
    if (refused == wanted) return;
    printf("%s: %u %s, not %u\n", call, refused, plane_refusal_name(refused), wanted);
    faults++;
}

/* An empty list is accepted, and changes nothing. */
static void unchanged(const char *what, uint8_t *buffer, size_t room) {
    uint8_t before[64];
    memcpy(before, buffer, room);
    wants(what, plane_edit_all(buffer, room, NULL, 0).refused, PLANE_ACCEPTED);
    if (memcmp(buffer, before, room)) wants(what, 1, 0);
}

/* An empty text is accepted, a record is restored to no room, and an empty list is made of a record of either version and of junk. */
static void with_memory(void) {
    uint8_t buffer[64];
    struct plane_written w = plane_begin(buffer, sizeof buffer, PLANE_COMMAND, 5, 0);
    w = plane_add_text(buffer, sizeof buffer, w.length, NULL, 0);
    wants("an empty text", w.refused, PLANE_ACCEPTED);
    w = plane_close(buffer, sizeof buffer, w.length);
    wants("its frame", plane_read(buffer, w.length).refused, PLANE_ACCEPTED);
    memset(buffer, 0, sizeof buffer);
    wants("a record", plane_open(buffer, sizeof buffer, command, sizeof command).refused, PLANE_ACCEPTED);
    wants("restore, no room", plane_restore(buffer, sizeof buffer, 0, NULL, 0).refused, PLANE_REFUSED_ROOM);
    unchanged("an empty list", buffer, sizeof buffer);
    /* With no entries the versions differ in the first word alone. */
    buffer[0] = 1;
    wants("restore of version 1, no room", plane_restore(buffer, sizeof buffer, 0, NULL, 0).refused, PLANE_REFUSED_ROOM);
    unchanged("an empty list on version 1", buffer, sizeof buffer);
    memset(buffer, 0xA5, sizeof buffer);
    unchanged("an empty list on junk", buffer, sizeof buffer);
}

int main(void) {
    const struct plane_item_fields sample = { .item_class = PLANE_SAMPLE };
    const struct plane_correction correction = { 11, 1, 1, 1, 1 };

    wants("read", plane_read(NULL, 0).refused, PLANE_REFUSED_LENGTH);
    wants("item", plane_item(NULL, 0, 0).refused, PLANE_REFUSED_LENGTH);
    if (plane_text(NULL, 0, 0).length) wants("text", 1, 0);
    wants("event", plane_event(NULL, 0, 0).refused, PLANE_REFUSED_LENGTH);
    wants("samples", plane_samples(NULL, 0, 0, 0, 0, NULL, 0).refused, PLANE_REFUSED_LENGTH);
    wants("samples, no room", plane_samples(command, sizeof command, 0, 0, 0, NULL, 0).refused, PLANE_REFUSED_ROOM);
    wants("counts", plane_counts(NULL, 0, 0, 0, NULL, 0).refused, PLANE_REFUSED_LENGTH);
    wants("counts, no room", plane_counts(command, sizeof command, 0, 0, NULL, 0).refused, PLANE_REFUSED_ROOM);
    wants("sample word", plane_sample_word(NULL, 0, 0, 0, 0, 0).refused, PLANE_REFUSED_LENGTH);
    wants("bin word", plane_bin_word(NULL, 0, 0, 0, 0).refused, PLANE_REFUSED_LENGTH);
    wants("begin", plane_begin(NULL, 0, PLANE_COMMAND, 5, 0).refused, PLANE_REFUSED_ROOM);
    wants("add", plane_add(NULL, 0, 0, sample).refused, PLANE_REFUSED_LENGTH);
    wants("add behind 6 bytes", plane_add(NULL, 0, 6, sample).refused, PLANE_REFUSED_LENGTH);
    wants("add text", plane_add_text(NULL, 0, 6, NULL, 0).refused, PLANE_REFUSED_LENGTH);
    wants("close", plane_close(NULL, 0, 6).refused, PLANE_REFUSED_LENGTH);
    wants("take", plane_take(plane_new_assembler(5), NULL, 0).refused, PLANE_REFUSED_LENGTH);
    wants("record", plane_record(NULL, 0).refused, PLANE_REFUSED_HEADER);
    wants("entry", plane_entry(NULL, 0, 1).refused, PLANE_REFUSED_HEADER);
    wants("open", plane_open(NULL, 0, NULL, 0).refused, PLANE_REFUSED_LENGTH);
    wants("open, no room", plane_open(NULL, 0, command, sizeof command).refused, PLANE_REFUSED_ROOM);
    wants("edit", plane_edit(NULL, 0, correction).refused, PLANE_REFUSED_HEADER);
    wants("edit all", plane_edit_all(NULL, 0, &correction, 1).refused, PLANE_REFUSED_HEADER);
    wants("edit all, nothing in nothing", plane_edit_all(NULL, 0, NULL, 0).refused, PLANE_ACCEPTED);
    wants("restore", plane_restore(NULL, 0, 0, NULL, 0).refused, PLANE_REFUSED_HEADER);
    with_memory();
    if (!faults) printf("a null pointer with length 0: taken by every call\n");
    return faults != 0;
}
