/*
 * What include/tessla.h says of a state's bytes without a call, of either length, against the calls; its places, commands and flags, against writes
 * to a block; the lengths of plan texts, against the texts that come back; its table of what counts missing events, against every
 * operator; and its texts of the numbers.
 */
#include <stdio.h>
#include <string.h>

#define TESSLA_TEXTS
#include "tessla.h"
#include "../../examples/logger_plan.h"

static uint8_t state[TESSLA_STATE_LENGTH];
static uint8_t longer[TESSLA_LONG_STATE_LENGTH];
static uint8_t block[TESSLA_BLOCK_LENGTH];
static int faults;

static void expect(int holds, const char *what, uint32_t at) {
    if (!holds && ++faults <= 20) printf("FAILED: %s, %lu\n", what, (unsigned long)at);
}

/* a plan of n streams, unit and plus in turn, of which every third is an output; without streams it has no text */
static uint32_t make(char *text, uint32_t n) {
    if (n == 0) return 0;
    uint32_t at = (uint32_t)sprintf(text, "plan=1\nstreams=%lu\n", (unsigned long)n);
    for (uint32_t i = 0; i < n; i++)
        at += (uint32_t)sprintf(text + at, "op=%s\na=0\nb=0\nk=0\nout=%d\n", i % 2 ? "plus" : "unit", i % 3 == 2);
    return at;
}

/* the plan loaded into a state of this length has n streams, and so many bytes of the state are used */
static void look_used_in(uint8_t *any, uint32_t length, uint32_t n, uint32_t used) {
    uint32_t stamp;
    int64_t value;
    expect(tessla_streams_in(any, length) == n, "the number of streams", n);
    expect(tessla_used_length_in(any, length) == used, "the bytes used", n);
    for (uint32_t i = tessla_used_length_in(any, length); i < length; i++) expect(any[i] == 0, "a byte behind the used ones", i);
    for (uint32_t i = 0; i < 300; i++) {
        uint32_t number = tessla_collect(any, length, i, &stamp, &value);
        expect(tessla_is_output_in(any, length, i) == (number != TESSLA_NO_OUTPUT), "whether a stream is an output", i);
    }
}

/* of a state of the shorter length the shorter names say the same */
static void look_used(uint32_t n, uint32_t used) {
    look_used_in(state, sizeof state, n, used);
    expect(tessla_streams(state) == n && tessla_used_length(state) == used, "the shorter names", n);
    expect(tessla_bounds(state) == tessla_bounds_in(state, sizeof state), "the shorter name of the bounds", n);
    for (uint32_t i = 0; i < 300; i++) expect(tessla_is_output(state, i) == tessla_is_output_in(state, sizeof state, i), "the shorter name", i);
}

/* the call once more: with another prototype in the header this does not compile. The state is lent to be read only */
uint32_t tessla_plan_text(const uint8_t *, uint64_t, uint8_t *, uint64_t, uint64_t *);

enum { MARK = 0xA5 };

/* the call with so many bytes of a buffer of marks: its number and *length, and how many bytes of the buffer are no marks then */
static uint32_t written(uint8_t *buffer, uint64_t room, uint64_t *length) {
    uint32_t changed = TESSLA_TEXT_LIMIT + 1;
    memset(buffer, MARK, TESSLA_TEXT_LIMIT + 1);
    *length = UINT64_MAX;
    uint32_t number = tessla_plan_text(state, sizeof state, buffer, room, length);
    while (changed > 0 && buffer[changed - 1] == MARK) changed--;
    expect(changed == *length, "bytes behind the text", changed);
    return number;
}

/* the loaded plan's text comes back: of TESSLA_TEXT_LIMIT bytes and of as many as it has, with no zero behind; 19 of fewer */
static void look_at_text(const char *text, uint32_t n) {
    static uint8_t buffer[TESSLA_TEXT_LIMIT + 1];
    static uint8_t before[TESSLA_STATE_LENGTH];
    uint64_t length, rooms[] = { TESSLA_TEXT_LIMIT, n };
    memcpy(before, state, sizeof before);
    for (int i = 0; i < 2; i++) {
        expect(written(buffer, rooms[i], &length) == TESSLA_DONE && length == n, "the length of a text", n);
        expect(memcmp(buffer, text, n) == 0, "the text", n);
    }
    for (uint32_t room = 0; room < n; room += room + 7 < n ? 7 : 1)
        expect(written(buffer, room, &length) == TESSLA_TEXT_ROOM && length == 0, "a buffer too short", room);
    expect(tessla_plan_text(state, sizeof state - 1, buffer, sizeof buffer, &length) == TESSLA_BAD_STATE && length == 0, "no state", n);
    expect(memcmp(before, state, sizeof before) == 0, "the state after its text", n);
}

/* the longest text: n - 1 streams of plus with two digits of a and 20 characters of k, and one that has no argument */
static uint32_t make_longest(char *text, int n) {
    uint32_t at = (uint32_t)sprintf(text, "plan=1\nstreams=%d\n", n);
    for (int i = 0; i < n - 1; i++) at += (uint32_t)sprintf(text + at, "op=plus\na=%d\nb=0\nk=-9223372036854775808\nout=1\n", n - 1);
    return at + (uint32_t)sprintf(text + at, "op=unit\na=0\nb=0\nk=0\nout=1\n");
}

static void look_at_the_longest(void) {
    static char text[TESSLA_TEXT_LIMIT + 2];
    static uint8_t back[TESSLA_TEXT_LIMIT];
    uint64_t length = 0;
    uint32_t at = make_longest(text, TESSLA_STREAM_LIMIT);
    expect(at == 1470, "the longest text", at);
    expect(tessla_load(state, sizeof state, (const uint8_t *)text, at) == TESSLA_DONE, "load of the longest text", at);
    look_at_text(text, at);
    at = make_longest(text, TESSLA_LONG_STREAM_LIMIT);
    expect(at == 2942, "the longest text of the longer state", at);
    expect(tessla_load(state, sizeof state, (const uint8_t *)text, at) == TESSLA_TEXT_STREAMS, "the longer text in the shorter state", at);
    expect(tessla_load(longer, sizeof longer, (const uint8_t *)text, at) == TESSLA_DONE, "load of the longest text", at);
    expect(tessla_plan_text(longer, sizeof longer, back, at, &length) == TESSLA_DONE && length == at && memcmp(text, back, at) == 0, "the longest text back", at);
    expect(tessla_plan_text(longer, sizeof longer, back, at - 1, &length) == TESSLA_TEXT_ROOM && length == 0, "a buffer too short", at);
    /* a text of as many bytes as the header says is looked at, a longer one is not, in both */
    memset(text, '\n', sizeof text);
    for (uint32_t more = 0; more < 2; more++) {
        uint32_t wanted = more ? TESSLA_TEXT_LONG : TESSLA_TEXT_FORM;
        expect(tessla_load(state, sizeof state, (const uint8_t *)text, TESSLA_TEXT_LIMIT + more) == wanted, "the limit of a text", more);
        expect(tessla_load(longer, sizeof longer, (const uint8_t *)text, TESSLA_TEXT_LIMIT + more) == wanted, "the limit of a text", more);
    }
}

/* the call once more, as above */
uint32_t tessla_missing(const uint8_t *, uint64_t, uint32_t, uint32_t *, uint32_t *);

/* the call has this number and these counts, and the state stays */
static void missing_is(uint32_t stream, uint64_t length, uint32_t number, uint32_t outside, uint32_t zero) {
    static uint8_t before[TESSLA_STATE_LENGTH];
    uint32_t x = 0xA5A5A5A5, y = 0x5A5A5A5A;
    memcpy(before, state, sizeof before);
    expect(tessla_missing(state, length, stream, &x, &y) == number, "the number of missing", stream);
    expect(x == outside, "how many are outside", stream);
    expect(y == zero, "how many divisors are 0", stream);
    expect(memcmp(before, state, sizeof before) == 0, "the state after missing", stream);
}

/* the counts of a stream, and where the header says they lie, the least byte first */
static void counts_are(uint32_t stream, uint32_t outside, uint32_t zero) {
    const uint8_t *record = state + stream * TESSLA_RECORD;
    missing_is(stream, sizeof state, TESSLA_DONE, outside, zero);
    for (uint32_t i = 0; i < 4; i++) {
        expect(record[56 + i] == (uint8_t)(outside >> 8 * i), "bytes 56 to 59", stream);
        expect(record[60 + i] == (uint8_t)(zero >> 8 * i), "bytes 60 to 63", stream);
    }
}

/*
 * Every operator on the same five pairs, at one stamp each: the least value and -1, the greatest and -2, 5 and 0, the least and 0, the
 * least and 1. What is missing of each, worked out by hand; those of the header's last row have 0 and 0.
 */
static void look_at_missing(void) {
    static const struct {
        const char *name;
        int b, k;
        uint32_t outside, zero;
    } rows[] = {
        { "in", 0, 0, 0, 0 },   { "nil", 0, 0, 0, 0 },  { "unit", 0, 0, 0, 0 },  { "time", 0, 0, 0, 0 },  { "set", 0, 1, 0, 0 },
        { "plus", 0, 1, 1, 0 }, { "neg", 0, 0, 3, 0 },  { "add", 1, 0, 1, 0 },   { "sub", 1, 0, 2, 0 },   { "mul", 1, 0, 2, 0 },
        { "div", 1, 0, 1, 2 },  { "rem", 1, 0, 0, 2 },  { "lt", 1, 0, 0, 0 },    { "le", 1, 0, 0, 0 },    { "eq", 1, 0, 0, 0 },
        { "keep", 1, 0, 0, 0 }, { "merge", 1, 0, 0, 0 }, { "last", 1, 0, 0, 0 }, { "delay", 1, 0, 0, 0 }, { "sadd", 1, 0, 1, 0 },
        { "ssub", 1, 0, 2, 0 }, { "smul", 1, 0, 2, 0 }, { "sdiv", 1, 0, 1, 2 },  { "srem", 1, 0, 0, 2 },  { "slt", 1, 0, 0, 0 },
        { "sle", 1, 0, 0, 0 },  { "seq", 1, 0, 0, 0 },  { "wsum", 0, 2, 2, 0 },  { "wmin", 0, 2, 0, 0 },  { "wmax", 0, 2, 0, 0 },
    };
    static const int64_t pairs[][2] = { { INT64_MIN, -1 }, { INT64_MAX, -2 }, { 5, 0 }, { INT64_MIN, 0 }, { INT64_MIN, 1 } };
    enum { ROWS = sizeof rows / sizeof *rows };
    char text[TESSLA_TEXT_LIMIT + 1];
    uint32_t moves, at = (uint32_t)sprintf(text, "plan=1\nstreams=%d\n", ROWS + 2);
    for (int i = 0; i < 2; i++) at += (uint32_t)sprintf(text + at, "op=in\na=0\nb=0\nk=0\nout=0\n");
    for (int i = 0; i < ROWS; i++) at += (uint32_t)sprintf(text + at, "op=%s\na=0\nb=%d\nk=%d\nout=0\n", rows[i].name, rows[i].b, rows[i].k);
    expect(tessla_load(state, sizeof state, (const uint8_t *)text, at) == TESSLA_DONE, "load of every operator", at);
    for (uint32_t t = 0; t < sizeof pairs / sizeof *pairs; t++)
        for (uint32_t input = 0; input < 2; input++)
            expect(tessla_offer_reading(state, sizeof state, input, t, pairs[t][input]) == TESSLA_DONE, "a reading", t);
    for (uint32_t i = 0; i < ROWS + 2; i++) counts_are(i, 0, 0);
    expect(tessla_run(state, sizeof state, 1000, &moves) == TESSLA_DONE && moves < 1000, "a run of every operator", moves);
    for (uint32_t i = 0; i < ROWS; i++) counts_are(i + 2, rows[i].outside, rows[i].zero);
    counts_are(0, 0, 0);
    missing_is(ROWS + 2, sizeof state, TESSLA_NO_EQUATION, 0, 0);
    missing_is(UINT32_MAX, sizeof state, TESSLA_NO_EQUATION, 0, 0);
    missing_is(12, sizeof state - 1, TESSLA_BAD_STATE, 0, 0);
    missing_is(UINT32_MAX, 0, TESSLA_BAD_STATE, 0, 0);
    expect(tessla_load(state, sizeof state, (const uint8_t *)text, at) == TESSLA_DONE, "load of every operator", at);
    for (uint32_t i = 0; i < ROWS + 2; i++) counts_are(i, 0, 0);
}

/* the loaded plan has n streams and no window */
static void look(uint32_t n) {
    look_used(n, n * 256);
}

/* plans of w windows over one input, with a stream behind them, in a state of either length: what is used has all that they keep, up to
   its last byte once the last window is full, and so does the place that the header gives to each */
static void look_at_windows(uint8_t *any, uint32_t length, uint32_t windows) {
    char text[TESSLA_TEXT_LIMIT + 1];
    const char *names[] = { "wsum", "wmin", "wmax" };
    uint32_t moves, stamp;
    int64_t value;
    for (uint32_t w = 0; w <= 9; w++) {
        uint32_t at = (uint32_t)sprintf(text, "plan=1\nstreams=%lu\nop=in\na=0\nb=0\nk=0\nout=0\n", (unsigned long)w + 2);
        for (uint32_t i = 0; i < w; i++) at += (uint32_t)sprintf(text + at, "op=%s\na=0\nb=0\nk=64\nout=0\n", names[i % 3]);
        at += (uint32_t)sprintf(text + at, "op=neg\na=0\nb=0\nk=0\nout=1\n");
        uint32_t number = tessla_load(any, length, (const uint8_t *)text, at);
        expect(number == (w <= 8 ? TESSLA_DONE : TESSLA_TEXT_WINDOW), "load of windows", w);
        if (number != TESSLA_DONE) break;
        uint32_t used = w == 0 ? 512 : length - 4096 + 512 * w;
        look_used_in(any, length, w + 2, used);
        for (uint32_t t = 1; t <= 70; t++) {
            expect(tessla_offer_reading(any, length, 0, t, -(int64_t)t) == TESSLA_DONE, "a reading", t);
            expect(tessla_run(any, length, 99, &moves) == TESSLA_DONE && moves == w + 1, "a run of windows", w);
            expect(tessla_collect(any, length, w + 1, &stamp, &value) == TESSLA_DONE, "a collect", w);
        }
        look_used_in(any, length, w + 2, used);
        for (uint32_t j = 0; j < w; j++) {
            const uint8_t *window = any + windows + j * TESSLA_WINDOW;
            expect(any[(j + 1) * TESSLA_RECORD + 5] == 64, "a full window", j);
            /* -7, the oldest of the latest 64, to -70 */
            for (uint32_t i = 0; i < 64; i++)
                for (uint32_t b = 0; b < 8; b++) expect(window[8 * i + b] == (b == 0 ? (uint8_t)(249 - i) : 255), "a value of a window", i);
        }
        if (w > 0) expect(any[used - 1] == 255, "the last used byte", w);
    }
}

/* the call once more, as above: the source is lent to be read only */
uint32_t tessla_widen(const uint8_t *, uint64_t, uint8_t *, uint64_t);

/* the longer state that a widened one of w windows is, where the header says that all lies; 15 for other lengths and no state */
static void look_at_widen(void) {
    static uint8_t before[TESSLA_STATE_LENGTH], marks[TESSLA_LONG_STATE_LENGTH];
    char text[TESSLA_TEXT_LIMIT + 1];
    uint32_t moves;
    memset(marks, MARK, sizeof marks);
    for (uint32_t w = 0; w <= 8; w++) {
        uint32_t at = (uint32_t)sprintf(text, "plan=1\nstreams=%lu\nop=in\na=0\nb=0\nk=0\nout=0\n", (unsigned long)w + 1);
        for (uint32_t i = 0; i < w; i++) at += (uint32_t)sprintf(text + at, "op=wmin\na=0\nb=0\nk=%lu\nout=1\n", (unsigned long)w + 3);
        expect(tessla_load(state, sizeof state, (const uint8_t *)text, at) == TESSLA_DONE, "load of windows", w);
        for (uint32_t t = 0; t < 9; t++) {
            expect(tessla_offer_reading(state, sizeof state, 0, t, -1 - (int64_t)t) == TESSLA_DONE, "a reading", t);
            expect(tessla_run(state, sizeof state, 99, &moves) == TESSLA_DONE && moves == w, "a run", w);
        }
        memcpy(before, state, sizeof before);
        memcpy(longer, marks, sizeof longer);
        expect(tessla_widen(state, sizeof state, longer, sizeof longer) == TESSLA_DONE, "widen", w);
        expect(memcmp(state, before, sizeof before) == 0, "the source", w);
        expect(memcmp(longer, state, TESSLA_WINDOWS) == 0, "the records", w);
        for (uint32_t i = TESSLA_WINDOWS; i < TESSLA_LONG_WINDOWS; i++) expect(longer[i] == 0, "a record that is new", i);
        expect(memcmp(longer + TESSLA_LONG_WINDOWS, state + TESSLA_WINDOWS, 8 * TESSLA_WINDOW) == 0, "the windows", w);
        expect(tessla_bounds_in(longer, sizeof longer) == tessla_bounds(state), "the bounds", w);
        expect(tessla_streams_in(longer, sizeof longer) == w + 1, "the streams", w);
        uint32_t used = tessla_used_length(state), used_there = tessla_used_length_in(longer, sizeof longer);
        expect(used_there == (w == 0 ? used : used + TESSLA_LONG_WINDOWS - TESSLA_WINDOWS), "the bytes used", w);
        /* refused: nothing is written */
        memcpy(longer, marks, sizeof longer);
        expect(tessla_widen(state, sizeof state - 1, longer, sizeof longer) == TESSLA_BAD_STATE, "a shorter source", w);
        expect(tessla_widen(state, sizeof state, longer, sizeof longer - 1) == TESSLA_BAD_STATE, "a shorter target", w);
        expect(tessla_widen(state, sizeof state, longer, sizeof state) == TESSLA_BAD_STATE, "a target of the shorter length", w);
        state[7] = 1;
        expect(tessla_widen(state, sizeof state, longer, sizeof longer) == TESSLA_BAD_STATE, "no state", w);
        expect(memcmp(longer, marks, sizeof longer) == 0, "the target after a refusal", w);
    }
}

/* plans of 0 to 65 streams in the longer state, and what the names that end in _in say of it; of another length nothing */
static void look_at_the_longer(void) {
    static const uint64_t neither[] = { 0, 256, TESSLA_STATE_LENGTH - 1, TESSLA_STATE_LENGTH + 1, TESSLA_LONG_STATE_LENGTH - 1,
                                        TESSLA_LONG_STATE_LENGTH + 1, (UINT64_C(1) << 32) + TESSLA_STATE_LENGTH, UINT64_MAX };
    char text[TESSLA_TEXT_LIMIT + 1];
    uint32_t moves;
    expect(tessla_limit(TESSLA_STATE_LENGTH) == TESSLA_STREAM_LIMIT && tessla_limit(TESSLA_LONG_STATE_LENGTH) == TESSLA_LONG_STREAM_LIMIT, "the limits", 0);
    for (uint32_t n = 0; n <= TESSLA_LONG_STREAM_LIMIT + 1; n++) {
        uint32_t length = make(text, n);
        memset(longer, MARK, sizeof longer);
        uint32_t number = tessla_load(longer, sizeof longer, (const uint8_t *)text, length);
        expect(number == (n <= TESSLA_LONG_STREAM_LIMIT ? TESSLA_DONE : TESSLA_TEXT_STREAMS), "load", n);
        expect(tessla_load(state, sizeof state, (const uint8_t *)text, length) == (n <= TESSLA_STREAM_LIMIT ? TESSLA_DONE : TESSLA_TEXT_STREAMS), "load", n);
        if (number != TESSLA_DONE) break;
        look_used_in(longer, sizeof longer, n, n * TESSLA_RECORD);
        expect(tessla_bounds_in(longer, sizeof longer) == 0, "the bounds of a fresh state", n);
        expect(tessla_run(longer, sizeof longer, 1000, &moves) == TESSLA_DONE && moves < 1000, "a run", n);
        /* every stream is known to the horizon */
        expect(tessla_bounds_in(longer, sizeof longer) == n * TESSLA_HORIZON, "the bounds", n);
        look_used_in(longer, sizeof longer, n, n * TESSLA_RECORD);
        for (uint32_t i = 0; i < sizeof neither / sizeof *neither; i++) {
            expect(tessla_limit(neither[i]) == 0 && tessla_streams_in(longer, neither[i]) == 0, "a length that is neither", i);
            expect(tessla_used_length_in(longer, neither[i]) == 0 && tessla_bounds_in(longer, neither[i]) == 0, "a length that is neither", i);
            expect(!tessla_is_output_in(longer, neither[i], 2), "a length that is neither", i);
            expect(tessla_run(longer, neither[i], 0, &moves) == TESSLA_BAD_STATE, "a length that is neither", i);
        }
    }
}

/* the sum of the bounds grows exactly with the moves that are made, and with an offer that makes an input known further */
static void look_at_bounds(void) {
    uint32_t moves, stamp;
    int64_t value;
    uint64_t before;
    expect(tessla_load(state, sizeof state, (const uint8_t *)PLAN, sizeof PLAN - 1) == TESSLA_DONE, "load", 0);
    expect(tessla_bounds(state) == 0, "the bounds of a fresh state", 0);
    expect(tessla_offer_progress(state, sizeof state, THERMOMETER, TESSLA_HORIZON) == TESSLA_DONE, "progress", 0);
    expect(tessla_bounds(state) == TESSLA_HORIZON, "one bound at the horizon", 0);
    for (uint32_t t = 1; t <= 40; t++) {
        before = tessla_bounds(state);
        expect(tessla_offer_reading(state, sizeof state, BALANCE, 5 * t, 300) == TESSLA_DONE, "a reading", t);
        expect(tessla_bounds(state) == before + (t == 1 ? 6 : 5), "the bounds after a reading", t);
        for (uint32_t i = 0; i < t; i++) {
            before = tessla_bounds(state);
            expect(tessla_run(state, sizeof state, i, &moves) == TESSLA_DONE, "run", i);
            uint64_t more = tessla_bounds(state) - before;
            expect(moves == 0 ? more == 0 : more >= moves, "the bounds after a run", i);
        }
        before = tessla_bounds(state);
        tessla_collect(state, sizeof state, WEIGHT, &stamp, &value);
        expect(tessla_bounds(state) == before, "the bounds after a collect", t);
    }
}

static uint32_t write(uint32_t at, uint8_t byte) {
    return tessla_register_write(state, sizeof state, block, sizeof block, at, byte);
}

/* a number into the block, and out of it, the least byte first */
static void write_number(uint32_t at, uint32_t bytes, uint64_t x) {
    for (uint32_t i = 0; i < bytes; i++) expect(write(at + i, (uint8_t)(x >> 8 * i)) == TESSLA_DONE, "a plain write", at + i);
}

static uint64_t number_at(uint32_t at, uint32_t bytes) {
    uint64_t x = 0;
    while (bytes--) x = x << 8 | block[at + bytes];
    return x;
}

/* a command returns this number, and leaves it as the status and these flags */
static void command_is(enum tessla_command command, uint32_t number, uint8_t flags) {
    expect(write(TESSLA_AT_COMMAND, (uint8_t)command) == number, "the number of a command", command);
    expect(block[TESSLA_AT_COMMAND] == command, "the command", command);
    expect(block[TESSLA_AT_STATUS] == number, "the status after a command", command);
    expect(block[TESSLA_AT_FLAGS] == flags, "the flags after a command", command);
}

/* what is written at a place by its name goes where the header says, and so does what a command leaves */
static void look_at_places(void) {
    uint32_t up, stamp = 0x01020304;
    int64_t value = -0x0102030405060708;
    const uint8_t both = TESSLA_FLAG_REFUSED | TESSLA_FLAG_WAITS;
    const char NEG[] = "plan=1\nstreams=2\nop=in\na=0\nb=0\nk=0\nout=0\nop=neg\na=0\nb=0\nk=0\nout=1\n";
    expect(tessla_load(state, sizeof state, (const uint8_t *)NEG, sizeof NEG - 1) == TESSLA_DONE, "load", 0);
    memset(block, 0, sizeof block);

    /* a reading offered by the three numbers is the one that comes out, with value and reply stamp at their places */
    expect(write(TESSLA_AT_MASK, both) == TESSLA_DONE && block[TESSLA_AT_MASK] == both, "the mask", 0);
    write_number(TESSLA_AT_STREAM, 4, 0);
    write_number(TESSLA_AT_STAMP, 4, stamp);
    write_number(TESSLA_AT_VALUE, 8, (uint64_t)value);
    command_is(TESSLA_COMMAND_OFFER, TESSLA_DONE, 0);
    command_is(TESSLA_COMMAND_OFFER, TESSLA_TOO_EARLY, TESSLA_FLAG_REFUSED);
    command_is(TESSLA_COMMAND_RUN, TESSLA_DONE, both);
    command_is(TESSLA_COMMAND_OFFER, TESSLA_TOO_EARLY, both);
    expect(write(TESSLA_AT_FLAGS, TESSLA_FLAG_REFUSED) == TESSLA_DONE, "a write to the flags", 0);
    expect(block[TESSLA_AT_FLAGS] == TESSLA_FLAG_WAITS, "the one flag cleared", 0);
    write_number(TESSLA_AT_STREAM, 4, 1);
    write_number(TESSLA_AT_STAMP, 4, 7); /* which a collect neither looks at nor changes */
    command_is(TESSLA_COMMAND_COLLECT, TESSLA_DONE, TESSLA_FLAG_WAITS);
    /* refused, it leaves them; the second flag is not set, now that nothing waits */
    for (int turn = 0; turn < 2; turn++) {
        expect(number_at(TESSLA_AT_STREAM, 4) == 1 && number_at(TESSLA_AT_STAMP, 4) == 7, "stream and stamp", 0);
        expect(number_at(TESSLA_AT_REPLY, 4) == stamp, "the reply stamp", 0);
        expect((int64_t)number_at(TESSLA_AT_VALUE, 8) == -value, "the value", 0);
        expect(write(TESSLA_AT_FLAGS, both) == TESSLA_DONE && block[TESSLA_AT_FLAGS] == 0, "both flags cleared", 0);
        command_is(TESSLA_COMMAND_COLLECT, TESSLA_NOTHING, TESSLA_FLAG_REFUSED);
    }

    /* every byte of the block, and some behind, with the flags set and not: what a write there does */
    for (uint32_t i = 0; i < 80; i++) {
        uint32_t at = i / 2;
        uint8_t was[TESSLA_BLOCK_LENGTH], fill = i % 2 ? 0x58 : 0x5B;
        int stored = at < TESSLA_AT_COMMAND || at == TESSLA_AT_MASK;
        memset(block, fill, sizeof block);
        memcpy(was, block, sizeof was);
        uint32_t number = write(at, 0xFF);
        if (stored) was[at] = 0xFF;
        else if (at == TESSLA_AT_FLAGS) was[at] = 0x58;
        else was[TESSLA_AT_STATUS] = TESSLA_BAD_WRITE, was[TESSLA_AT_FLAGS] |= TESSLA_FLAG_REFUSED;
        expect(number == (stored || at == TESSLA_AT_FLAGS ? TESSLA_DONE : TESSLA_BAD_WRITE), "the number of a write", at);
        expect(memcmp(block, was, sizeof was) == 0, "the block after a write", at);
    }

    /* all flags and masks: a flag that is in the mask takes the line up, and the other bits do not */
    for (uint32_t i = 0; i < 65536; i++) {
        uint8_t flags = (uint8_t)i, mask = (uint8_t)(i >> 8);
        uint32_t refused = flags & TESSLA_FLAG_REFUSED && mask & TESSLA_FLAG_REFUSED;
        uint32_t waits = flags & TESSLA_FLAG_WAITS && mask & TESSLA_FLAG_WAITS;
        block[TESSLA_AT_FLAGS] = flags;
        block[TESSLA_AT_MASK] = mask;
        expect(tessla_register_line(block, sizeof block, &up) == TESSLA_DONE && up == (refused || waits), "the line", i);
    }
    for (uint32_t n = 0; n < 40; n++) {
        uint8_t longer[40] = { 0 };
        uint32_t wanted = n == TESSLA_BLOCK_LENGTH ? TESSLA_DONE : TESSLA_BAD_WRITE;
        expect(tessla_register_write(state, sizeof state, longer, n, TESSLA_AT_MASK, both) == wanted, "the block's length", n);
        expect(longer[TESSLA_AT_MASK] == (wanted ? 0 : both), "a block of another length", n);
        expect(tessla_register_line(longer, n, &up) == wanted && up == 0, "the block's length at the line", n);
    }
}

/* command 3 is a run of 64: it leaves the state that the call leaves, where there are more moves to make */
static void look_at_a_run(void) {
    static uint8_t copy[TESSLA_STATE_LENGTH];
    uint32_t moves = 0;
    expect(tessla_load(state, sizeof state, (const uint8_t *)PLAN, sizeof PLAN - 1) == TESSLA_DONE, "load", 0);
    expect(tessla_offer_reading(state, sizeof state, THERMOMETER, 0, 200) == TESSLA_DONE, "a reading", 0);
    expect(tessla_offer_progress(state, sizeof state, THERMOMETER, TESSLA_HORIZON) == TESSLA_DONE, "progress", 0);
    for (uint32_t t = 1; t <= 16; t++)
        expect(tessla_offer_reading(state, sizeof state, BALANCE, t, 300) == TESSLA_DONE, "a reading", t);
    memcpy(copy, state, sizeof copy);
    expect(tessla_run(copy, sizeof copy, 64, &moves) == TESSLA_DONE && moves == 64, "64 moves to make", 0);
    expect(write(TESSLA_AT_COMMAND, TESSLA_COMMAND_RUN) == TESSLA_DONE, "the run", 0);
    expect(memcmp(state, copy, sizeof copy) == 0, "64 moves by a command", 0);
    expect(tessla_run(copy, sizeof copy, 1, &moves) == TESSLA_DONE && moves == 1, "a move more to make", 0);
}

int main(void) {
    char text[TESSLA_TEXT_LIMIT + 1], version[16];
    uint32_t moves;
    for (uint32_t n = 0; n <= TESSLA_STREAM_LIMIT; n++) {
        memset(state, 0xA5, sizeof state);
        uint32_t length = make(text, n);
        expect(tessla_load(state, sizeof state, (const uint8_t *)text, length) == TESSLA_DONE, "load", n);
        look(n);
        look_at_text(text, length);
        tessla_run(state, sizeof state, 1000, &moves);
        look(n);
        look_at_text(text, length);
    }
    expect(tessla_load(state, sizeof state, (const uint8_t *)PLAN, sizeof PLAN - 1) == TESSLA_DONE, "load", 0);
    look(14);
    look_at_text(PLAN, sizeof PLAN - 1);
    /* no plan over that one, and no text to point at */
    expect(tessla_load(state, sizeof state, NULL, 0) == TESSLA_DONE, "load", 0);
    look(0);
    expect(tessla_offer_reading(state, sizeof state, 0, 5, 7) == TESSLA_NO_INPUT, "a reading without a plan", 0);
    expect(tessla_offer_progress(state, sizeof state, 0, TESSLA_HORIZON + 1) == TESSLA_NO_INPUT, "progress without a plan", 0);
    expect(tessla_move(state, sizeof state, 0) == TESSLA_NO_EQUATION, "a move without a plan", 0);
    expect(tessla_run(state, sizeof state, 5, &moves) == TESSLA_DONE && moves == 0, "a run without a plan", moves);
    missing_is(0, sizeof state, TESSLA_NO_EQUATION, 0, 0);
    look(0);
    uint64_t none = 1;
    expect(tessla_plan_text(state, sizeof state, NULL, 0, &none) == TESSLA_DONE && none == 0, "the text of no plan", 0);
    expect(!tessla_is_output(state, UINT32_MAX) && !tessla_is_output(state, 1u << 24), "a stream far out", 0);

    look_at_the_longest();
    look_at_missing();
    look_at_windows(state, sizeof state, TESSLA_WINDOWS);
    look_at_windows(longer, sizeof longer, TESSLA_LONG_WINDOWS);
    look_at_the_longer();
    look_at_widen();
    look_at_bounds();
    look_at_places();
    look_at_a_run();

    for (uint32_t n = 0; n <= TESSLA_TEXT_ROOM; n++)
        for (uint32_t m = 0; m < n; m++) expect(strcmp(tessla_text(n), tessla_text(m)) != 0, "one text for two numbers", n);
    expect(strcmp(tessla_text(16), "no number of this engine") == 0, "the text of no number", 16);
    sprintf(version, "%d.%d", TESSLA_VERSION_MAJOR, TESSLA_VERSION_MINOR);
    expect(strcmp(version, TESSLA_VERSION) == 0, "the version", 0);
    return faults != 0;
}
