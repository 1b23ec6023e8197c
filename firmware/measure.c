/*
 * What the calls cost on the board, on states of both lengths: each measured call stands between gauge_begin and gauge_end, which
 * a plugin of the emulator looks for, and is counted by SysTick as well. One line each: plan, what, number returned, instructions.
 */
#include <string.h>

#include "board.h"
#include "plans.h"
#include "tessla.h"

/* two states of the longer length: with the stack and the rest they fit into the logger's RAM, or this would not be linked */
static uint8_t state[TESSLA_LONG_STATE_LENGTH] __attribute__((aligned(8)));
static uint8_t copy[TESSLA_LONG_STATE_LENGTH];
static uint64_t lent = TESSLA_STATE_LENGTH; /* as much of the state is lent to the calls */
static uint8_t text[TESSLA_TEXT_LIMIT];
static uint8_t page[TESSLA_TEXT_LIMIT];
static uint8_t block[TESSLA_BLOCK_LENGTH];
static uint32_t own; /* instructions of the gauge itself */

static void put_number(uint64_t x) {
    uint8_t bytes[24];
    struct text t = { bytes, 0 };
    add_number(&t, (int64_t)x);
    bytes[t.length] = 0;
    put((const char *)bytes);
}

static const char *plan, *what;
__attribute__((noinline)) void gauge_begin(void) { count_start(); }
__attribute__((noinline)) uint32_t gauge_end(void) { return count_read(); }

static void say(const char *kind, uint32_t number, uint32_t count) {
    put(kind);
    put(plan);
    put("|");
    put(what);
    put("|");
    put_number(number);
    put("|");
    put_number(count);
    put("\n");
}

#define MEASURE(name, call)                \
    do {                                   \
        uint32_t number, count;            \
        what = name;                       \
        gauge_begin();                     \
        number = (call);                   \
        count = gauge_end();               \
        say("zone|", number, count - own); \
    } while (0)

/* the same for a single call of the engine, with the stack that it takes below its caller's */
static uint32_t deep;
#define MEASURE_CALL(name, call)                          \
    do {                                                  \
        uint32_t sp, mark;                                \
        __asm__ volatile("mov %0, sp" : "=r"(sp));        \
        stack_paint();                                    \
        uint32_t number, count;                           \
        what = name;                                      \
        gauge_begin();                                    \
        number = (call);                                  \
        count = gauge_end();                              \
        mark = stack_mark();                              \
        say("zone|", number, count - own);                \
        if (deep < sp - mark) deep = sp - mark;           \
    } while (0)

/* the counts of a stream; the number is both together */
#define MEASURE_MISSING(stream) MEASURE_CALL("missing", (tessla_missing(S, (stream), &outside, &zero), outside + zero))

/* the plan's text into a page that is long enough; the number is its length */
#define MEASURE_TEXT() MEASURE_CALL("plan text", (tessla_plan_text(S, page, sizeof page, &length), (uint32_t)length))

#define S state, lent
#define B block, TESSLA_BLOCK_LENGTH

/* one reading to rest: the offer, and a run until nothing moves */
static uint32_t to_rest(uint32_t input, uint32_t t, int64_t v) {
    uint32_t moves = 0;
    if (tessla_offer_reading(S, input, t, v) != 0) return 0;
    tessla_run(S, 100000, &moves);
    return moves;
}

static uint32_t collect_all(void) {
    uint32_t stamp, events = 0;
    int64_t value;
    for (uint32_t i = 0; i < tessla_limit(lent); i++)
        if (tessla_is_output_in(S, i))
            while (tessla_collect(S, i, &stamp, &value) == 0) events++;
    return events;
}

/* the same without asking which streams are outputs */
static uint32_t collect_every(void) {
    uint32_t stamp, events = 0;
    int64_t value;
    for (uint32_t i = 0; i < tessla_limit(lent); i++)
        while (tessla_collect(S, i, &stamp, &value) == 0) events++;
    return events;
}

/* all other inputs are known up to this bound, and nothing can move or waits */
static void others_known(const struct row *rows, uint32_t n, uint64_t bound) {
    uint32_t moves;
    for (uint32_t i = 1; i < n; i++)
        if (rows[i].op == IN) tessla_offer_progress(S, i, bound);
    do tessla_run(S, 100000, &moves);
    while (collect_all() != 0 || moves != 0);
}

/* a block with these numbers, for a command beside the call that it makes, on the same state */
static void fill_block(uint32_t stream, uint32_t at, int64_t value) {
    memset(block, 0, sizeof block);
    for (uint32_t i = 0; i < 4; i++) {
        block[TESSLA_AT_STREAM + i] = (uint8_t)(stream >> 8 * i);
        block[TESSLA_AT_STAMP + i] = (uint8_t)(at >> 8 * i);
    }
    for (uint32_t i = 0; i < 8; i++) block[TESSLA_AT_VALUE + i] = (uint8_t)((uint64_t)value >> 8 * i);
}

/* the shorter state copied into the longer one, and then back as it was */
static void measure_widen(void) {
    memcpy(copy, state, TESSLA_STATE_LENGTH);
    MEASURE_CALL("widen", tessla_widen(copy, TESSLA_STATE_LENGTH, state, TESSLA_LONG_STATE_LENGTH));
    memcpy(state, copy, TESSLA_STATE_LENGTH);
}

static void measure(const char *name, const struct row *rows, uint32_t n) {
    uint32_t moves, stamp, up, outside, zero, mover = 0, output = 0;
    uint64_t length = write_plan(text, rows, n);
    int64_t value;
    plan = name;
    MEASURE_CALL("load", tessla_load(S, text, length));
    for (uint32_t t = 10; t < 50; t += 10) {
        others_known(rows, n, t + 1);
        to_rest(0, t, 5);
        collect_all();
    }
    others_known(rows, n, 200);
    MEASURE_CALL("validation", tessla_move(S, 99));
    MEASURE_CALL("run at rest", tessla_run(S, 100000, &moves));
    MEASURE_TEXT();
    MEASURE_MISSING(n - 1);
    if (lent == TESSLA_STATE_LENGTH) measure_widen();
    fill_block(0, 70, 7);
    MEASURE_CALL("plain write", tessla_register_write(S, B, TESSLA_AT_STAMP, 70));
    MEASURE_CALL("line", tessla_register_line(B, &up));
    MEASURE_CALL("command 3 at rest", tessla_register_write(S, B, TESSLA_AT_COMMAND, TESSLA_COMMAND_RUN));
    memcpy(copy, state, sizeof state);
    MEASURE_CALL("progress", tessla_offer_progress(S, 0, 60));
    memcpy(state, copy, sizeof state);
    MEASURE_CALL("command 1", tessla_register_write(S, B, TESSLA_AT_COMMAND, TESSLA_COMMAND_OFFER));
    memcpy(state, copy, sizeof state);
    MEASURE_CALL("offer", tessla_offer_reading(S, 0, 70, 7));
    while (mover < n && tessla_move(S, mover) != 0) mover++;
    memcpy(state, copy, sizeof state);
    tessla_offer_reading(S, 0, 70, 7);
    MEASURE_CALL("move", tessla_move(S, mover));
    memcpy(state, copy, sizeof state);
    tessla_offer_reading(S, 0, 70, 7);
    MEASURE_CALL("run to rest", tessla_run(S, 100000, &moves));
    memcpy(state, copy, sizeof state);
    tessla_offer_reading(S, 0, 70, 7);
    MEASURE_CALL("command 3 to rest", tessla_register_write(S, B, TESSLA_AT_COMMAND, TESSLA_COMMAND_RUN));
    memcpy(state, copy, sizeof state);
    MEASURE("a reading to rest", to_rest(0, 70, 7));
    memcpy(copy, state, sizeof state);
    while (output < n && tessla_collect(S, output, &stamp, &value) != 0) output++;
    memcpy(state, copy, sizeof state);
    MEASURE_CALL("collect", tessla_collect(S, output, &stamp, &value));
    memcpy(state, copy, sizeof state);
    fill_block(output, 0, 0);
    MEASURE_CALL("command 2", tessla_register_write(S, B, TESSLA_AT_COMMAND, TESSLA_COMMAND_COLLECT));
    memcpy(state, copy, sizeof state);
    MEASURE("collecting the outputs", collect_all());
    memcpy(state, copy, sizeof state);
    MEASURE("collecting every stream", collect_every());
}

/* every stream holds 16 events that nobody collects */
static void full(const char *name, const struct row *rows, uint32_t n) {
    uint32_t moves;
    plan = name;
    tessla_load(S, text, write_plan(text, rows, n));
    for (uint32_t t = 0; t < TESSLA_ROOM; t++) to_rest(0, 3 * t, 5);
    MEASURE_CALL("validation", tessla_move(S, 99));
    MEASURE_CALL("run at rest", tessla_run(S, 100000, &moves));
    MEASURE("a reading to rest", to_rest(0, 70, 7));
    MEASURE_CALL("run, all wait", tessla_run(S, 100000, &moves));
    MEASURE("collecting all", collect_all());
}

/* the longest text: values of 20 characters in all streams but one */
static void longest(const char *name, struct row *rows, uint32_t n) {
    uint64_t length;
    uint32_t bytes, end = n - 1;
    for (uint32_t i = 0; i < end; i++) rows[i] = (struct row){ .op = PLUS, .a = (uint8_t)end, .k = INT64_MIN, .out = 1 };
    rows[end] = (struct row){ .op = UNIT, .out = 1 };
    plan = name;
    bytes = write_plan(text, rows, n);
    tessla_load(S, text, bytes);
    MEASURE_CALL("validation", tessla_move(S, 99));
    MEASURE_TEXT();
    /* a page too short for it */
    MEASURE_CALL("plan text refused", tessla_plan_text(S, page, bytes - 1, &length));
}

/* a reading of the first of two inputs, of which both have reported before, for what it costs beside the inputs alone */
static void beside(const char *name, const struct row *rows, uint32_t n) {
    plan = name;
    tessla_load(S, text, write_plan(text, rows, n));
    tessla_offer_reading(S, 1, 5, 3);
    for (uint32_t t = 10; t < 50; t += 10) {
        others_known(rows, n, t + 1);
        to_rest(0, t, 5);
        collect_all();
    }
    others_known(rows, n, 200);
    MEASURE("a reading to rest", to_rest(0, 70, 7));
}

/* a signal form, and the five streams that it stands for */
static void signals(void) {
    static const struct row form[] = { { .op = IN }, { .op = IN }, { .op = SADD, .b = 1, .out = 1 } };
    static const struct row five[] = {
        { .op = IN }, { .op = IN }, { .op = LAST, .a = 0, .b = 1 }, { .op = MERGE, .a = 0, .b = 2 }, { .op = LAST, .a = 1, .b = 0 },
        { .op = MERGE, .a = 1, .b = 4 }, { .op = ADD, .a = 3, .b = 5, .out = 1 },
    };
    beside("two inputs alone", form, 2);
    beside("two inputs, a signal form", form, 3);
    beside("two inputs, its five streams", five, 7);
}

/* a reading of one input, of which 70 came before, so that a window of 64 is full; the same values to each plan */
static void windowed(const char *name, const struct row *rows, uint32_t n) {
    plan = name;
    tessla_load(S, text, write_plan(text, rows, n));
    for (uint32_t t = 1; t <= 70; t++) {
        to_rest(0, t, (int64_t)(t * 2654435761u % 200001) - 100000);
        collect_all();
    }
    MEASURE("a reading to rest", to_rest(0, 90, 7));
}

/* 16 readings of stream 0 that all its readers wait for, run to rest after so many moves; an input beside it has nothing there */
static void space(const char *name, const struct row *rows, uint32_t n, uint32_t before) {
    uint32_t moves;
    plan = name;
    tessla_load(S, text, write_plan(text, rows, n));
    for (uint32_t t = 0; t < TESSLA_ROOM; t++) tessla_offer_reading(S, 0, 3 * t, 5);
    if (rows[1].op == IN) tessla_offer_progress(S, 1, 3 * TESSLA_ROOM);
    tessla_run(S, before, &moves);
    MEASURE_CALL("run to rest", tessla_run(S, 100000, &moves));
}

/* n streams, of which all but the inputs read the first */
static void spaces(struct row *rows, uint32_t n, const char *const names[3]) {
    rows[0] = (struct row){ .op = IN };
    for (uint32_t i = 1; i < n; i++) rows[i] = (struct row){ .op = NEG };
    space(names[0], rows, n, 0);
    rows[1] = (struct row){ .op = IN };
    for (uint32_t i = 2; i < n; i++) rows[i] = (struct row){ .op = KEEP, .b = 1 };
    space(names[1], rows, n, 0);
    space(names[2], rows, n, n - 3);
}

static uint32_t moves_of_run(void) {
    uint32_t moves = 0;
    tessla_run(S, 100000, &moves);
    return moves;
}

/* a window of the latest 64 values beside the input alone, and beside neg, which looks at one; one move of the sum that passes 16 readings, at each of which it is out
   of range; all eight windows */
static void windows(void) {
    static const char *const names[] = { "one input, neg", "one input, wsum of 64", "one input, wmin of 64", "one input, wmax of 64" };
    static const uint8_t ops[] = { NEG, WSUM, WMIN, WMAX };
    static const struct row alone[] = { { .op = IN } };
    struct row eight[9];
    windowed("one input, alone", alone, 1);
    for (uint32_t i = 0; i < 4; i++) {
        const struct row two[] = { { .op = IN }, { .op = ops[i], .k = ops[i] == NEG ? 0 : 64, .out = 1 } };
        windowed(names[i], two, 2);
        if (ops[i] != WSUM) continue;
        /* twice the greatest value are in the window when the 16 come */
        for (uint32_t t = 100; t < 102; t++) to_rest(0, t, INT64_MAX);
        collect_all();
        for (uint32_t t = 102; t < 118; t++) tessla_offer_reading(S, 0, t, INT64_MAX);
        MEASURE("run over 16 readings", moves_of_run());
    }
    windowed("one input, eight windows of 64", eight, eight_windows(eight));
}

/*
 * One move that passes 16 readings of each of two inputs, at one stamp or by turns, with no event at any of them: of keep, which counts
 * nothing, and of arithmetic that counts each.
 */
static void passing(const char *name, uint8_t op, uint32_t apart, int64_t x, int64_t y) {
    const struct row rows[] = { { .op = IN }, { .op = IN }, { .op = op, .b = 1, .out = 1 } };
    uint32_t moves, outside, zero;
    plan = name;
    tessla_load(S, text, write_plan(text, rows, 3));
    for (uint32_t t = 0; t < TESSLA_ROOM; t++) {
        tessla_offer_reading(S, 0, 4 * t, x);
        tessla_offer_reading(S, 1, 4 * t + apart, y);
    }
    tessla_offer_progress(S, 0, 4 * TESSLA_ROOM);
    tessla_offer_progress(S, 1, 4 * TESSLA_ROOM);
    MEASURE_CALL("check before", tessla_move(S, 99));
    MEASURE_CALL("run past them", (tessla_run(S, 100000, &moves), moves));
    MEASURE_CALL("validation", tessla_move(S, 99));
    MEASURE_MISSING(2);
}

static void all_passing(void) {
    passing("two inputs, keep past 16 stamps", KEEP, 0, 7, 0);
    passing("two inputs, div past 16 stamps", DIV, 0, 7, 0);
    passing("two inputs, mul past 16 stamps", MUL, 0, INT64_MAX, 2);
    passing("two inputs, sdiv past 32 stamps", SDIV, 1, 7, 0);
}

/* one move of a calculation to its event, both arguments having one; lt does the same but for the arithmetic */
static void calculation(const char *name, uint8_t op, const char *operands, int64_t x, int64_t y) {
    const struct row rows[] = { { .op = IN }, { .op = IN }, { .op = op, .b = 1, .out = 1 } };
    plan = name;
    tessla_load(S, text, write_plan(text, rows, 3));
    tessla_offer_reading(S, 0, 1, x);
    tessla_offer_reading(S, 1, 1, y);
    MEASURE_CALL(operands, tessla_move(S, 2));
}

/* a Cortex-M0+ has no divider: a quotient takes a step for each of its bits, and a longer one for a bit that is 1 */
static void divisions(void) {
    static const struct {
        const char *operands;
        int64_t x, y;
    } pairs[] = {
        { "7 by 2", 7, 2 },
        { "-7 by 2", -7, 2 },
        { "7 by -2", 7, -2 },
        { "-7 by -2", -7, -2 },
        { "-6 by 2", -6, 2 },
        { "greatest by 1", INT64_MAX, 1 },
        { "greatest by -1", INT64_MAX, -1 },
        { "least by 1", INT64_MIN, 1 },
        { "greatest by -3", INT64_MAX, -3 },
        { "2^54 + 1 by -2^18 - 1", (INT64_C(1) << 54) + 1, -262145 },
        { "-1 by greatest", -1, INT64_MAX },
    };
    for (uint32_t i = 0; i < sizeof pairs / sizeof *pairs; i++) {
        calculation("one lt", LT, pairs[i].operands, pairs[i].x, pairs[i].y);
        calculation("one div", DIV, pairs[i].operands, pairs[i].x, pairs[i].y);
        calculation("one rem", REM, pairs[i].operands, pairs[i].x, pairs[i].y);
    }
    calculation("one add", ADD, "-7 by 2", -7, 2);
    calculation("one mul", MUL, "-7 by 2", -7, 2);
    calculation("one slt", SLT, "-7 by 2", -7, 2);
    calculation("one sdiv", SDIV, "-7 by 2", -7, 2);
    calculation("one srem", SREM, "-7 by 2", -7, 2);
}

/* the visits of one nest box, six streams from s on */
static uint32_t box(struct row *r, uint32_t s) {
    uint8_t b = (uint8_t)s;
    r[s + 0] = (struct row){ .op = IN };
    r[s + 1] = (struct row){ .op = UNIT };
    r[s + 2] = (struct row){ .op = SET, .a = b + 1 };
    r[s + 3] = (struct row){ .op = LAST, .a = b + 5, .b = b };
    r[s + 4] = (struct row){ .op = PLUS, .a = b + 3, .k = 1 };
    r[s + 5] = (struct row){ .op = MERGE, .a = b + 4, .b = b + 2, .out = 1 };
    return s + 6;
}

/* each stream reads the one before it */
static void chain(struct row *r, uint32_t n) {
    r[0] = (struct row){ .op = IN };
    for (uint32_t i = 1; i < n; i++) r[i] = (struct row){ .op = NEG, .a = (uint8_t)(i - 1), .out = i + 1 == n };
}

/* an input, half of the streams each read it, the others join two of those before them, down to one */
static void tree(struct row *r, uint32_t n) {
    r[0] = (struct row){ .op = IN };
    for (uint32_t i = 1; i < n; i++)
        r[i] = i <= n / 2 ? (struct row){ .op = NEG }
                          : (struct row){ .op = ADD, .a = (uint8_t)(2 * (i - n / 2) - 1), .b = (uint8_t)(2 * (i - n / 2)), .out = i + 1 == n };
}

/* all read the one input */
static void readers(struct row *r, uint32_t n) {
    r[0] = (struct row){ .op = IN };
    for (uint32_t i = 1; i < n; i++) r[i] = (struct row){ .op = PLUS, .k = i, .out = i + 1 == n };
}

/* each operator on two inputs and, where there is room, again from time to seq on what the first of its kind gives; further delays */
static void operators(struct row *r, uint32_t n) {
    for (uint8_t i = 0; i < n; i++) {
        uint8_t again = i > WMAX ? (uint8_t)(i - WMAX + UNIT) : 0;
        uint8_t op = i < 2 ? IN : i <= WMAX ? i : n > TESSLA_STREAM_LIMIT && again <= SEQ ? again : DELAY;
        r[i] = (struct row){ .op = op, .b = uses_b(op), .k = uses_k(op) ? 3 : 0, .out = op > IN };
        if (i > WMAX) r[i].a = n > TESSLA_STREAM_LIMIT ? again : i - 4;
    }
}

static struct row rows[TESSLA_LONG_STREAM_LIMIT];

/* boxes, then merges of their counts */
static uint32_t boxes(uint32_t n, uint32_t streams) {
    uint32_t s = 0, b = 0;
    for (uint32_t i = 0; i < n; i++) s = box(rows, s);
    while (s < streams) {
        rows[s] = (struct row){ .op = MERGE, .a = (uint8_t)(6 * b + 5), .b = (uint8_t)(6 * (b + 1) + 5), .out = s + 1 == streams };
        s++;
        b = (b + 1) % (n - 1);
    }
    return s;
}

/* what hangs on how many streams there are, for as many as the lent state has room for */
static void fill(const char *const names[7], const char *const spaced[3]) {
    uint32_t n = tessla_limit(lent);
    boxes(n / 6, n);
    measure(names[0], rows, n);
    chain(rows, n);
    measure(names[1], rows, n);
    tree(rows, n);
    measure(names[2], rows, n);
    readers(rows, n);
    measure(names[3], rows, n);
    for (uint32_t i = 1; i < n; i++) rows[i].out = 1;
    full(names[4], rows, n);
    operators(rows, n);
    measure(names[5], rows, n);
    longest(names[6], rows, n);
    spaces(rows, n, spaced);
}

static const char *const SHORTER[] = { "32 streams, five boxes", "32 streams, a chain", "32 streams, a tree", "32 streams, 31 readers",
                                       "32 streams, all full", "32 streams, every operator", "32 streams, the longest text" };
static const char *const SHORTER_SPACES[] = { "31 readers, one let go at a time", "30 readers, 16 let go at once",
                                              "30 readers, the move that lets 16 go" };
static const char *const LONGER[] = { "64 streams, ten boxes", "64 streams, a chain", "64 streams, a tree", "64 streams, 63 readers",
                                      "64 streams, all full", "64 streams, every operator", "64 streams, the longest text" };
static const char *const LONGER_SPACES[] = { "63 readers, one let go at a time", "62 readers, 16 let go at once",
                                             "62 readers, the move that lets 16 go" };

int main(void) {
    gauge_begin();
    own = gauge_end();
    box(rows, 0);
    measure("6 streams, one box", rows, 6);
    boxes(2, 16);
    measure("16 streams, two boxes", rows, 16);
    chain(rows, 16);
    measure("16 streams, a chain", rows, 16);
    fill(SHORTER, SHORTER_SPACES);
    signals();
    windows();
    divisions();
    all_passing();
    /* the longer state: plans that the shorter one takes as well, and plans that fill it */
    lent = TESSLA_LONG_STATE_LENGTH;
    box(rows, 0);
    measure("longer state, 6 streams, one box", rows, 6);
    chain(rows, TESSLA_STREAM_LIMIT);
    measure("longer state, 32 streams, a chain", rows, TESSLA_STREAM_LIMIT);
    fill(LONGER, LONGER_SPACES);
    put("stack|");
    put_number(deep);
    put("\n");
    return 0;
}
