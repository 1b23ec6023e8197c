/*
 * A logger whose group has outgrown 32 streams. Until now its firmware lent the engine the shorter state, and saved it to the flash;
 * this one lends the longer state.
 *
 *   old_firmware   what ran until the update: a plan of one box in the shorter state, saved by saving.c.
 *   put_back       after the update: the saved state is put back as it was, and widened into the longer one, where it goes on from the
 *                  same point: the count, and what the window looks back at.
 *   main           goes on with the old plan, and then loads the colony's, of 50 streams, which the shorter state refuses with 3.
 *
 * The shorter buffer is needed once, at the start; a firmware may use its bytes for something else afterwards. To save the longer
 * state take saving.c with TESSLA_LONG_STATE_LENGTH and tessla_used_length_in in place of the shorter one's, and note the length in
 * the head: a copy does not tell which of the two it is.
 *
 * On a computer it prints to the standard output; on the board it runs in 64 KB of RAM, two places of the flash among them.
 */
#include <string.h>

#include "text.h"
#include "colony_plan.h"
#include "saving.h"

/* the plan until now: 4 counts the weighings of a perch, 5 is the sum of the last three */
static const char PERCH[] =
    "plan=1\nstreams=6\n"
    STREAM(in, 0, 0, 0, 0) STREAM(unit, 0, 0, 0, 0) STREAM(last, 4, 0, 0, 0) STREAM(plus, 2, 0, 1, 0) STREAM(merge, 3, 1, 0, 1)
    STREAM(wsum, 0, 0, 3, 1);

static uint8_t shorter[TESSLA_STATE_LENGTH];
static uint8_t state[TESSLA_LONG_STATE_LENGTH];

/* ---- the flash: here two pieces of memory that start as flash does */
static uint8_t flash[PLACES][PLACE_LENGTH];
const uint8_t *flash_at(uint32_t place) { return flash[place]; }
void flash_erase(uint32_t place) { memset(flash[place], 0xFF, PLACE_LENGTH); }
void flash_write(uint32_t place, uint32_t at, const uint8_t word[WORD]) { memcpy(flash[place] + at, word, WORD); }

/* ---- the calls, on a state of either length */

static int load(uint8_t *any, uint32_t any_length, const char *text, uint32_t length) {
    uint32_t number = tessla_load(any, any_length, (const uint8_t *)text, length);
    put_number("plan in ", any_length, " bytes: ");
    if (number != TESSLA_DONE) {
        put_refused(number);
        return 0;
    }
    put_number("", tessla_streams_in(any, any_length), " streams\n");
    return 1;
}

/* until nothing moves or waits */
static void work(uint8_t *any, uint32_t any_length) {
    uint32_t moves, events;
    do {
        if (tessla_run(any, any_length, 16, &moves) != TESSLA_DONE) return;
        events = 0;
        for (uint32_t stream = 0; stream < tessla_limit(any_length); stream++) {
            uint32_t stamp;
            int64_t value;
            if (!tessla_is_output_in(any, any_length, stream)) continue;
            while (tessla_collect(any, any_length, stream, &stamp, &value) == TESSLA_DONE) {
                put_number("stream ", stream, "");
                put_number(" t=", stamp, "");
                put_number(" v=", value, "\n");
                events++;
            }
        }
    } while (moves != 0 || events != 0);
}

static void receive(uint8_t *any, uint32_t any_length, uint32_t input, uint32_t stamp, int64_t value) {
    uint32_t number = tessla_offer_reading(any, any_length, input, stamp, value);
    if (number != TESSLA_DONE) put_refused(number);
    work(any, any_length);
}

/* ---- the update */

static int old_firmware(void) {
    if (!load(shorter, sizeof shorter, PERCH, sizeof PERCH - 1)) return 0;
    receive(shorter, sizeof shorter, 0, 10, 300);
    receive(shorter, sizeof shorter, 0, 20, 310);
    save(shorter);
    put("saved\n");
    return 1;
}

static int put_back(void) {
    if (!restore(shorter)) return 0;
    uint32_t number = tessla_widen(shorter, sizeof shorter, state, sizeof state);
    if (number != TESSLA_DONE) {
        put_refused(number);
        return 0;
    }
    put_number("put back and widened, used ", tessla_used_length_in(state, sizeof state), " bytes\n");
    return 1;
}

int main(void) {
    if (!old_firmware()) return 1;
    /* the power is off, and RAM holds anything */
    memset(shorter, 0xA5, sizeof shorter);
    memset(state, 0xA5, sizeof state);
    if (!put_back()) return 1;
    receive(state, sizeof state, 0, 30, 305);
    receive(state, sizeof state, 0, 40, 290);

    /* the colony's plan, over the old one */
    if (load(shorter, sizeof shorter, COLONY, sizeof COLONY - 1)) return 1;
    if (!load(state, sizeof state, COLONY, sizeof COLONY - 1)) return 1;
    receive(state, sizeof state, reader_of(1), 5, 7041);
    receive(state, sizeof state, reader_of(10), 5, 7103);
    receive(state, sizeof state, reader_of(2), 7, 7055);
    for (uint32_t box = 1; box <= BOXES; box++) tessla_offer_progress(state, sizeof state, reader_of(box), 60);
    work(state, sizeof state);
    put_number("used ", tessla_used_length_in(state, sizeof state), " bytes\n");
    return 0;
}
