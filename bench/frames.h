// Frames to measure on, made from their name and size alone; each follows the rules.
#ifndef FRAMES_H
#define FRAMES_H
#include "baseline.h"

enum { FILLS = 8 };

// Every frame's card and sequence number, and the event that is open before a frame that goes on with it: its number, its bytes so far, and which
// Channel header was its latest, from 1.
enum { FRAME_CARD = 5, FRAME_SEQUENCE = 0x11, EARLIER_NUMBER = 7, EARLIER_SIZE = 20000, EARLIER_HEADER = 20 };

// The names of the fills, in the order in which they are shown.
extern const char *const fill_names[FILLS];

// Writes a frame of exactly `size` bytes (a multiple of 2, from 1,024 to 8,192) into out.
void make_frame(u32 fill, usize size, u8 *out);

#endif
