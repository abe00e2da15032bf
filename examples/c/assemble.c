// Assembles events over several frames: assemble CARD STEP .., where a step is the file of a frame, the card's next one, or the word give-up.
#include "plane_record.h"
#include <stdio.h>
#include <stdlib.h>
#include <string.h>

static size_t read_file(const char *name, uint8_t *frame, size_t room) {
    FILE *file = fopen(name, "rb");
    if (!file) {
        perror(name);
        exit(2);
    }
    const size_t length = fread(frame, 1, room, file);
    fclose(file);
    return length;
}

// What begins and what ends in this frame. Type and timestamp are where an event begins, its size is where it ends.
static void print_events(const uint8_t *frame, size_t length) {
    for (size_t n = 0;; n++) {
        const struct plane_event_found event = plane_event(frame, length, n);
        if (event.refused) return;
        if (event.began) printf("  event %u begins: type %u, timestamp %lu\n", event.number, event.kind, (unsigned long)event.timestamp);
        if (event.ended) printf("  event %u ends: %u bytes\n", event.number, event.size);
    }
}

static void print_open(struct plane_assembler assembler) {
    if (assembler.open)
        printf("  event %u is open: %u bytes so far\n", assembler.number, assembler.size);
    else
        printf("  no event is open\n");
}

int main(int count, char **words) {
    if (count < 2) {
        fprintf(stderr, "usage: assemble CARD STEP ..\n");
        return 2;
    }
    struct plane_assembler assembler = plane_new_assembler((uint16_t)strtoul(words[1], NULL, 10));
    for (int i = 2; i < count; i++) {
        if (strcmp(words[i], "give-up") == 0) {
            assembler = plane_give_up(assembler);
            printf("give-up\n");
        } else {
            uint8_t frame[PLANE_MOST_FRAME + 1]; // one byte more: a longer file is refused by LENGTH
            const size_t length = read_file(words[i], frame, sizeof frame);
            const struct plane_taken taken = plane_take(assembler, frame, length);
            if (taken.refused) {
                printf("%s: refused %u %s at %zu\n", words[i], taken.refused, plane_refusal_name(taken.refused), taken.place);
            } else {
                printf("%s: lost %u\n", words[i], taken.lost);
                print_events(frame, length);
            }
            assembler = taken.next; // on a refusal the one that was given
        }
        print_open(assembler);
    }
    return 0;
}
