/*
 * The example driver's calls through the block, on plans of other shapes than its own: it works until nothing moves or waits, also
 * where 64 moves are not enough and where a full output stops every move; it loses no reading to a 9; whole stamps and values
 * pass through the block.
 */
#include <stdio.h>
#include <stdlib.h>

/* the example's text output, kept here */
#define BOARD_H
static char printed[1 << 16];
static size_t length;
static void put(const char *text) {
    for (; *text && length < sizeof printed - 1; text++) printed[length++] = *text;
}
#define main reader_main
#include "../../examples/reader.c"
#undef main

static int faults;

static void expect(int holds, const char *what) {
    if (!holds) printf("FAILED: %s\n", what), faults++;
}

/* loads a plan given as the lines after streams=, each `op a b k out`, with a fresh block whose mask takes in both flags */
static char plan[TESSLA_TEXT_LIMIT];
static uint32_t streams;
static void begin(void) {
    streams = 0;
    *plan = 0;
    memset(block, 0, sizeof block);
    set(TESSLA_AT_MASK, 1, TESSLA_FLAG_REFUSED | TESSLA_FLAG_WAITS);
}
static void stream(const char *op, int a, int b, int k, int out) {
    streams++;
    sprintf(plan + strlen(plan), "op=%s\na=%d\nb=%d\nk=%d\nout=%d\n", op, a, b, k, out);
}
static void loaded(void) {
    char text[TESSLA_TEXT_LIMIT + 32];
    int n = sprintf(text, "plan=1\nstreams=%lu\n%s", (unsigned long)streams, plan);
    if (tessla_load(state, sizeof state, (const uint8_t *)text, (uint64_t)n) != TESSLA_DONE) exit(2);
    length = 0;
}

/* what was printed since the plan was loaded; and that no equation can move and nothing waits, by the calls' numbers */
static void printed_is(const char *wanted, const char *what) {
    printed[length] = 0;
    if (strcmp(printed, wanted) != 0) printf("%swhere this was worked out:\n%s", printed, wanted);
    expect(strcmp(printed, wanted) == 0, what);
}
static void at_rest(const char *what) {
    uint32_t stamp;
    int64_t value;
    for (uint32_t s = 0; s < streams; s++) {
        uint32_t moved = tessla_move(state, sizeof state, s);
        uint32_t collected = tessla_collect(state, sizeof state, s, &stamp, &value);
        expect(moved == TESSLA_CANNOT_MOVE || moved == TESSLA_NO_EQUATION, what);
        expect(collected == TESSLA_NOTHING || collected == TESSLA_NO_OUTPUT, what);
    }
}

/* lines `s=.. t=.. v=..`, for stamps from 1 to n with the value that is k more than the stamp */
static const char *counted(uint32_t s, int n, int k) {
    static char text[1 << 12];
    char *p = text;
    for (int t = 1; t <= n; t++) p += sprintf(p, "s=%lu t=%d v=%d\n", (unsigned long)s, t, t + k);
    return text;
}

/* 31 equations one behind the other, each adds 1: the first 64 moves are those of equations 1 to 4 alone */
static void chain(void) {
    begin();
    stream("in", 0, 0, 0, 0);
    for (int i = 1; i < 32; i++) stream("plus", i - 1, 0, 1, i == 31);
    loaded();
    for (uint32_t t = 1; t <= 16; t++) expect(receive(0, t, t) == TESSLA_DONE, "16 readings are taken");
    work();
    printed_is(counted(31, 16, 31), "a chain hands out all its events");
    at_rest("a chain is worked off");
}

/* an output holds 16 and its input 16 more: no equation can move until something is collected */
static void full(void) {
    begin();
    stream("in", 0, 0, 0, 0);
    stream("plus", 0, 0, 5, 1);
    loaded();
    for (uint32_t t = 1; t <= 32; t++) {
        expect(tessla_offer_reading(state, sizeof state, 0, t, t) == TESSLA_DONE, "32 readings are taken");
        if (t == 16) command(TESSLA_COMMAND_RUN);
    }
    work();
    printed_is(counted(1, 32, 5), "a full output and what stands behind it come out");
    at_rest("a full output is worked off");
}

/* forty readings of one input without a run between: each 17th finds it full, and none is lost */
static void burst(void) {
    char wanted[1 << 12];
    begin();
    stream("in", 0, 0, 0, 0);
    stream("plus", 0, 0, -3, 1);
    loaded();
    for (uint32_t t = 1; t <= 40; t++) expect(receive(0, t, t) == TESSLA_DONE, "a reading refused 9 is taken after the work");
    work();
    /* two say 9, before the first and the 17th event; all other lines are events */
    char *p = wanted;
    for (int t = 1; t <= 40; t++) {
        if (t == 1 || t == 17) p += sprintf(p, "t=%d refused=9: %s\n", t + 16, tessla_text(9));
        p += sprintf(p, "s=1 t=%d v=%d\n", t, t - 3);
    }
    printed_is(wanted, "forty readings in one go");
    at_rest("a burst is worked off");
}

/* two outputs, and numbers that use all their bytes */
static void extremes(void) {
    begin();
    stream("in", 0, 0, 0, 0);
    stream("in", 0, 0, 0, 0);
    stream("neg", 1, 0, 0, 1);
    stream("plus", 0, 0, 0, 1);
    loaded();
    expect(receive(0, 0, -1) == TESSLA_DONE, "-1 at 0");
    expect(receive(0, 4278255361u, INT64_MIN) == TESSLA_DONE, "the least value");
    expect(receive(1, 4294967295u, INT64_MAX) == TESSLA_DONE, "the greatest value");
    expect(receive(256, 5, 5) == TESSLA_NO_INPUT, "stream 256 is not stream 0");
    expect(receive(0, 4278255361u, 5) == TESSLA_TOO_EARLY, "a second reading at its stamp");
    length = 0;
    work();
    printed_is("s=2 t=4294967295 v=-9223372036854775807\n"
               "s=3 t=0 v=-1\n"
               "s=3 t=4278255361 v=-9223372036854775808\n",
               "whole stamps and values");
    at_rest("two outputs are worked off");
}

/* contents that are no state: everything is refused, and the driver ends all the same */
static void damaged(void) {
    begin();
    memset(state, 0xFF, sizeof state);
    length = 0;
    work();
    expect(command(TESSLA_COMMAND_RUN) == TESSLA_BAD_STATE && length == 0, "a damaged state is refused 15");
    expect(receive(RING, 7, 1) == TESSLA_DONE, "the plan is loaded again, and the reading is taken");
}

int main(void) {
    chain();
    full();
    burst();
    extremes();
    damaged();
    return faults != 0;
}
