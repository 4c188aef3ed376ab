/* The most that a call can be lent: what the interface allows, and the room that the tests give. */
#ifndef GUARD_SIZES_H
#define GUARD_SIZES_H

enum { MOST_FORMAT = 4096, MOST_KINDS = 64, MOST_AREA = 32768, MOST_ROW = 6 + 9 * MOST_KINDS + MOST_AREA };
enum { MOST_OUT = 1 << 20, MOST_ENDS = 4 * 512 };

#endif
