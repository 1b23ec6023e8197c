/*
 * A driver for a reader board in small. The board sees the rings of the birds at a nest box, and talks to the engine through the
 * block of registers, one byte at a time; the plan here counts the visits.
 *
 *   command   starts a command, and answers the status.
 *   poll      looks at the line and hands out what waits, until the line is down.
 *   work      runs and polls until nothing moves or waits.
 *   receive   offers a reading. One that is refused 9 is kept, and offered again after the work.
 *
 * For two things there is no command: load, and offers of progress, which a plan with a second sensor needs as logger.c has them.
 * On a computer it prints to the standard output; firmware/reader.c is this file on the board.
 */
#include <string.h>

#include "text.h"

static const char VISITS[] =
    "plan=1\nstreams=5\n"
    "op=in\na=0\nb=0\nk=0\nout=0\n"     /* 0 ring numbers */
    "op=unit\na=0\nb=0\nk=0\nout=0\n"   /* 1 a 0 at stamp 0 */
    "op=last\na=4\nb=0\nk=0\nout=0\n"   /* 2 at each visit the count before it */
    "op=plus\na=2\nb=0\nk=1\nout=0\n"   /* 3 and one more */
    "op=merge\na=3\nb=1\nk=0\nout=1\n"; /* 4 the count of visits */

enum { RING = 0 };

static uint8_t state[TESSLA_STATE_LENGTH], block[TESSLA_BLOCK_LENGTH];

static int load(void) {
    uint32_t number = tessla_load(state, sizeof state, (const uint8_t *)VISITS, sizeof VISITS - 1);
    if (number == TESSLA_DONE) put("plan loaded\n");
    else put_refused(number);
    return number == TESSLA_DONE;
}

/* ---- the driver */

/* writes a number of so many bytes into the block, the least byte first, and reads one */
static void set(uint32_t at, uint32_t bytes, uint64_t x) {
    for (uint32_t i = 0; i < bytes; i++)
        tessla_register_write(state, sizeof state, block, sizeof block, at + i, (uint8_t)(x >> 8 * i));
}
static uint64_t get(uint32_t at, uint32_t bytes) {
    uint64_t x = 0;
    for (uint32_t i = 0; i < bytes; i++) x |= (uint64_t)block[at + i] << 8 * i;
    return x;
}

static uint32_t command(uint8_t which) {
    set(TESSLA_AT_COMMAND, 1, which);
    return (uint32_t)get(TESSLA_AT_STATUS, 1);
}

static int line_is_up(void) {
    uint32_t up;
    return tessla_register_line(block, sizeof block, &up) == TESSLA_DONE && up;
}

/* hands out the oldest event of an output, if one waits, and answers how many that were */
static uint32_t collect(uint32_t stream) {
    set(TESSLA_AT_STREAM, 4, stream);
    if (command(TESSLA_COMMAND_COLLECT) != TESSLA_DONE) return 0;
    put_number("s=", stream, "");
    put_number(" t=", (int64_t)get(TESSLA_AT_REPLY, 4), "");
    put_number(" v=", (int64_t)get(TESSLA_AT_VALUE, 8), "\n");
    return 1;
}

/*
 * Until the line is down, and answers how many events were handed out. The flags that were read are cleared, and no other, before
 * anything is collected: a collect sets bit 1 again if more waits. Bit 0 asks for nothing here, since who starts a command looks
 * at its status at once; a collect that finds nothing sets it too.
 */
static uint32_t poll(void) {
    uint32_t events = 0;
    while (line_is_up()) {
        uint64_t flags = get(TESSLA_AT_FLAGS, 1);
        set(TESSLA_AT_FLAGS, 1, flags);
        for (uint32_t stream = 0; stream < TESSLA_STREAM_LIMIT && flags & TESSLA_FLAG_WAITS; stream++)
            if (tessla_is_output(state, stream)) events += collect(stream);
    }
    return events;
}

/* until nothing moves or waits: command 3 does not say how many moves it made, the bounds say whether it made one */
static void work(void) {
    uint64_t bounds;
    uint32_t events;
    do {
        bounds = tessla_bounds(state);
        command(TESSLA_COMMAND_RUN);
        events = poll();
    } while (tessla_bounds(state) != bounds || events != 0);
}

/*
 * Offers a reading, and answers the status. It is written anew each time, as the collects use the same bytes of the block. One that
 * is refused 9 again after the work is the caller's to keep: another sensor is behind. After a 15 the plan is loaded again; a
 * logger that saves its state would put back a copy.
 */
static uint32_t receive(uint32_t sensor, uint32_t stamp, int64_t value) {
    uint32_t number = TESSLA_FULL;
    for (int turn = 0; turn < 2 && (number == TESSLA_FULL || number == TESSLA_BAD_STATE); turn++) {
        set(TESSLA_AT_STREAM, 4, sensor);
        set(TESSLA_AT_STAMP, 4, stamp);
        set(TESSLA_AT_VALUE, 8, (uint64_t)value);
        number = command(TESSLA_COMMAND_OFFER);
        if (number != TESSLA_DONE) {
            put_number("t=", stamp, " ");
            put_refused(number);
        }
        if (number == TESSLA_FULL) work();
        if (number == TESSLA_BAD_STATE) load();
    }
    return number;
}

/* ---- a day; what it prints was worked out by hand from the plan's meaning, a 0 at stamp 0 and then one more at each visit */

int main(void) {
    if (!load()) return 1;
    set(TESSLA_AT_MASK, 1, TESSLA_FLAG_REFUSED | TESSLA_FLAG_WAITS);

    /* a flock: twenty visits before the main loop has time to work. The input holds 16, so the one at 170 finds it full */
    for (uint32_t stamp = 10; stamp <= 200; stamp += 10) receive(RING, stamp, 7041);
    work();
    receive(RING, 50, 7055); /* late: the input is known past 200 */
    poll();

    /* the status is not the board's to write; the flag stays, and the line up, until they are seen to */
    set(TESSLA_AT_STATUS, 1, 0);
    put_refused((uint32_t)get(TESSLA_AT_STATUS, 1));
    put_number("line=", line_is_up(), "\n");
    poll();
    put_number("line=", line_is_up(), "\n");

    /* the memory lost its contents: the count begins anew */
    memset(state, 0xFF, sizeof state);
    receive(RING, 300, 7041);
    work();
    return 0;
}
