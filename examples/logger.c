/*
 * A logger in small. Three sensors report by radio, in any order; the plan of logger_plan.h counts visits and corrects
 * weights.
 *
 *   load       takes the plan of the card; without one the logger goes on too, and refuses every reading.
 *   write_card writes the plan that runs to a new card, if the old one is lost.
 *   receive    takes a reading from the radio. It waits in the line of its sensor until the engine takes it: none is lost as
 *              long as the line has room, and one that is lost is said.
 *   schedule   each minute: says how far every sensor is known, a silent or dead one above all.
 *   work       runs and collects until nothing moves or waits.
 *   say_missing   once a day: says of every stream with gaps why its events are missing.
 *   save, restore   the state in two places of the flash, in turn (saving.c).
 *
 * On a computer it prints to the standard output; firmware/main.c is this file on the board.
 */
#include <string.h>

#include "text.h"
#include "logger_plan.h"
#include "saving.h"

/*
 * The logger's own numbers. BUDGET: the moves of one run; 16 take some 4 ms on the logger, and the watchdog is fed between.
 * DELAY: the radio delivers a reading at most so many seconds late. LINE: what a sensor reports between two schedules.
 */
enum { SENSORS = 3, BUDGET = 16, DELAY = 10, LINE = 32 };

/* the one buffer of the engine */
static uint8_t state[TESSLA_STATE_LENGTH];

/* ---- the flash: here two pieces of memory that start as flash does */
static uint8_t flash[PLACES][PLACE_LENGTH];
const uint8_t *flash_at(uint32_t place) { return flash[place]; }
void flash_erase(uint32_t place) { memset(flash[place], 0xFF, PLACE_LENGTH); }
void flash_write(uint32_t place, uint32_t at, const uint8_t word[WORD]) { memcpy(flash[place] + at, word, WORD); }

/* ---- the card */

/*
 * Loads the plan of the card, and answers whether it was taken. A card without plan.txt, or with an empty one, has a text of no
 * bytes: that is taken, a plan of no streams, and every reading is refused 7 until there is another. A refused load leaves the
 * state as it was, also one without a plan: only its number tells.
 */
static int load(const char *text, uint32_t length) {
    uint32_t number = tessla_load(state, sizeof state, (const uint8_t *)text, length);
    if (number != TESSLA_DONE) {
        put("plan ");
        put_refused(number);
        return 0;
    }
    put(tessla_streams(state) == 0 ? "no plan on the card\n" : "plan loaded\n");
    return 1;
}

/* the text of a plan on a card; TESSLA_TEXT_LIMIT bytes are enough for every one */
static uint8_t card[TESSLA_TEXT_LIMIT];

/*
 * Writes the plan that runs to a card, and answers how many bytes it has there. The state has all of it, so the card may be lost;
 * the text is the one that was loaded. It is refused 15 only: the card is long enough.
 */
static uint32_t write_card(void) {
    uint64_t length;
    uint32_t number = tessla_plan_text(state, sizeof state, card, sizeof card, &length);
    if (number != TESSLA_DONE) {
        put("card ");
        put_refused(number);
        return 0;
    }
    put_number("card written, ", (int64_t)length, " bytes\n");
    return (uint32_t)length;
}

/* ---- what comes out */

/* hands out what waits of one output, and answers how many events that were */
static uint32_t collect(uint32_t stream) {
    uint32_t stamp, events = 0;
    int64_t value;
    while (tessla_collect(state, sizeof state, stream, &stamp, &value) == TESSLA_DONE) {
        put(stream == VISITS ? "visits" : "weight");
        put_number(" t=", stamp, "");
        put_number(" v=", value, "\n");
        events++;
    }
    return events;
}

/* of all outputs; to ask first which streams are outputs costs nothing, to collect from all 32 costs 30 ms more */
static uint32_t collect_all(void) {
    uint32_t events = 0;
    for (uint32_t stream = 0; stream < TESSLA_STREAM_LIMIT; stream++)
        if (tessla_is_output(state, stream)) events += collect(stream);
    return events;
}

/*
 * Until nothing moves or waits. That a run made no move is not enough: with an output full nothing moves, and the collection
 * after it makes room for more. The watchdog would be fed here, after each run.
 */
static void work(void) {
    uint32_t moves, events;
    do {
        if (tessla_run(state, sizeof state, BUDGET, &moves) != TESSLA_DONE) return;
        events = collect_all();
    } while (moves != 0 || events != 0);
}

/*
 * Why events are missing, of each stream of which some are: how many results were out of range, a sign of a broken sensor, and how
 * many divisors were 0. All streams are asked and not the outputs alone: one that passes others on has no counts of its own. A
 * millisecond each, so once a day. The counts go on from where they were, as the state does, and begin at 0 with a plan that is loaded.
 */
static void say_missing(void) {
    for (uint32_t stream = 0; stream < tessla_streams(state); stream++) {
        uint32_t outside, zero;
        if (tessla_missing(state, sizeof state, stream, &outside, &zero) != TESSLA_DONE || (outside == 0 && zero == 0)) continue;
        put_number("stream ", stream, " missing: ");
        put_number("", outside, " out of range, ");
        put_number("", zero, " by a divisor of 0\n");
    }
}

/* ---- what comes in */

struct reading {
    uint32_t stamp;
    int64_t value;
};

/* the readings of a sensor that the engine has not taken yet, the oldest first */
static struct line {
    struct reading readings[LINE];
    uint32_t count;
} lines[SENSORS];

static void say_refused(uint32_t sensor, uint32_t stamp, uint32_t number) {
    put_number("sensor ", sensor, "");
    put_number(" t=", stamp, " ");
    put_refused(number);
}

/* offers the readings of a line until one is refused 9: that one is kept, and those behind it. Answers how many went. */
static uint32_t offer_line(uint32_t sensor) {
    struct line *line = &lines[sensor];
    uint32_t gone = 0;
    while (gone < line->count) {
        const struct reading *r = &line->readings[gone];
        uint32_t number = tessla_offer_reading(state, sizeof state, sensor, r->stamp, r->value);
        if (number == TESSLA_FULL) break;
        if (number != TESSLA_DONE) say_refused(sensor, r->stamp, number);
        gone++;
    }
    line->count -= gone;
    memmove(line->readings, line->readings + gone, line->count * sizeof *line->readings);
    return gone;
}

/* works, and offers again what was kept, as long as some of it goes */
static void settle(void) {
    uint32_t gone;
    do {
        work();
        gone = 0;
        for (uint32_t sensor = 0; sensor < SENSORS; sensor++) gone += offer_line(sensor);
    } while (gone != 0);
}

/* a reading from the radio; an interrupt would only put it into the line, and the main loop do the rest */
static void receive(uint32_t sensor, uint32_t stamp, int64_t value) {
    struct line *line = &lines[sensor];
    if (line->count == LINE) {
        say_refused(sensor, stamp, TESSLA_FULL);
        return;
    }
    line->readings[line->count++] = (struct reading){ stamp, value };
    settle();
}

/*
 * By the clock: no sensor has a reading below now less DELAY any more, but for those that are still kept. Number 8 says that
 * the sensor is known further already.
 */
static void schedule(uint32_t now) {
    for (uint32_t sensor = 0; sensor < SENSORS; sensor++) {
        uint32_t bound = now < DELAY ? 0 : now - DELAY;
        if (lines[sensor].count != 0 && lines[sensor].readings[0].stamp < bound) bound = lines[sensor].readings[0].stamp;
        tessla_offer_progress(state, sizeof state, sensor, bound);
    }
    settle();
}

/* ---- a day */

/* the group has not chosen a plan yet */
static void early(void) {
    receive(RING, 5, 7041);
    schedule(8);
}

static void morning(void) {
    receive(THERMOMETER, 10, 200);
    receive(BALANCE, 12, 312);
    receive(RING, 11, 7041);
    receive(BALANCE, 30, 318);
    /* the thermometer's battery is empty; the balance goes on, more readings than an input holds */
    for (uint32_t stamp = 32; stamp <= 70; stamp += 2) receive(BALANCE, stamp, 320);
    put_number("kept ", lines[BALANCE].count, "\n");
    schedule(80);
    schedule(90);
}

/* what the radio delivers after the state was saved */
static void evening(void) {
    receive(THERMOMETER, 95, -105); /* -10.5 degrees: -105 div 100 is -2, so two grams are added */
    receive(RING, 99, 7041);
    receive(THERMOMETER, 20, 50); /* late: the thermometer is known past 20 */
    receive(BALANCE, 97, 318);
    receive(BALANCE, 98, INT64_MAX); /* a broken balance: with two grams more it is out of range, and there is no weight */
    schedule(120);
    say_missing();
}

int main(void) {
    if (!load("", 0)) return 1;
    early();

    /* of a state without a plan no byte has to be saved; it is a state all the same, and is put back as one */
    save(state);
    put("saved\n");
    memset(state, 0xFF, sizeof state);
    if (!restore(state)) return 1;
    put("put back\n");
    early();

    /* a plan is loaded over it at any time */
    if (!load(PLAN, sizeof PLAN - 1)) return 1;
    put("morning\n");
    morning();

    /* between two calls, and with nothing kept in the lines: what is kept there is not in the state */
    save(state);
    put("saved\n");
    evening();

    /* the power failed; the copy goes on as if nothing had been offered or collected since */
    memset(state, 0xFF, sizeof state);
    uint32_t moves;
    put_number("lost refused=", tessla_run(state, sizeof state, 1, &moves), "\n");
    if (!restore(state)) return 1;
    put("put back\n");
    evening();

    /* the group has lost its card: a new one is written from the state, and the plan begins anew from it */
    uint32_t length = write_card();
    if (length == 0 || !load((const char *)card, length)) return 1;
    receive(RING, 3, 7041);
    return 0;
}
