/*
 * A plan of 50 streams, for the longer state: the visits of ten nest boxes, and of all together. Stream 0 is a 0 at stamp 0; the ring
 * reader of box n, 1 to 10, is input 4n - 3, and 4n counts its visits; 49 is the sum of all counts, the one output.
 */
#ifndef COLONY_PLAN_H
#define COLONY_PLAN_H

#define STREAM(op, a, b, k, out) "op=" #op "\na=" #a "\nb=" #b "\nk=" #k "\nout=" #out "\n"
/* the reader, at each visit the count before it, one more, and 0 at stamp 0 */
#define BOX(reader, before, more, count) \
    STREAM(in, 0, 0, 0, 0) STREAM(last, count, reader, 0, 0) STREAM(plus, before, 0, 1, 0) STREAM(merge, more, 0, 0, 0)

static const char COLONY[] =
    "plan=1\nstreams=50\n"
    STREAM(unit, 0, 0, 0, 0)
    BOX(1, 2, 3, 4) BOX(5, 6, 7, 8) BOX(9, 10, 11, 12) BOX(13, 14, 15, 16) BOX(17, 18, 19, 20)
    BOX(21, 22, 23, 24) BOX(25, 26, 27, 28) BOX(29, 30, 31, 32) BOX(33, 34, 35, 36) BOX(37, 38, 39, 40)
    /* sums of the last known counts */
    STREAM(sadd, 4, 8, 0, 0) STREAM(sadd, 41, 12, 0, 0) STREAM(sadd, 42, 16, 0, 0) STREAM(sadd, 43, 20, 0, 0) STREAM(sadd, 44, 24, 0, 0)
    STREAM(sadd, 45, 28, 0, 0) STREAM(sadd, 46, 32, 0, 0) STREAM(sadd, 47, 36, 0, 0) STREAM(sadd, 48, 40, 0, 1);

enum { BOXES = 10 };
static inline uint32_t reader_of(uint32_t box) { return 4 * box - 3; }

#endif
