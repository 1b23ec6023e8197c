/*
 * The same calls on x86-64, on the plain C engine and on the board, on states of both lengths: one line a call with its number, its
 * further results and a hash of the whole state, the block and the buffer for a plan's text. The lines must be the same. The last
 * lines say which numbers each call returned.
 */
#include <string.h>

#include "plans.h"
#include "tessla.h"
#ifdef HOST
#include <stdio.h>
static void put(const char *text) { fputs(text, stdout); }
#else
#include "board.h"
#endif

enum { SHORT = TESSLA_STATE_LENGTH, LONG = TESSLA_LONG_STATE_LENGTH, MOST = TESSLA_TEXT_LIMIT, WINDOWS = 8 * TESSLA_WINDOW, WRONG_LENGTHS = 13 };

static uint8_t room[LONG + 8] __attribute__((aligned(8)));
static uint8_t spare[LONG + 8] __attribute__((aligned(8))); /* for a copy of a state, from which another is widened */
static uint8_t words[MOST + 16] __attribute__((aligned(8)));
static uint8_t places[TESSLA_BLOCK_LENGTH + 8] __attribute__((aligned(8)));
static uint8_t page[MOST + 16] __attribute__((aligned(8))); /* the plan's text that comes back */
static uint8_t *state = room, *copy = spare, *text = words, *block = places, *back = page;
static uint32_t whole = SHORT;                                      /* the length of the state that is used */
static uint64_t length = SHORT, block_length = TESSLA_BLOCK_LENGTH; /* what the calls are told */

/* how many streams the state that is used has room for; its windows lie behind their records */
static uint32_t cap(void) { return whole == LONG ? TESSLA_LONG_STREAM_LIMIT : TESSLA_STREAM_LIMIT; }
static uint32_t windows_at(void) { return cap() * TESSLA_RECORD; }

static void lend(uint32_t bytes) {
    whole = bytes;
    length = bytes;
}

/* ---- what is printed */

static void put_hex(uint64_t x, const char *end) {
    char b[20];
    int i = 19;
    b[i] = 0;
    do b[--i] = "0123456789abcdef"[x & 15];
    while (x >>= 4);
    put(b + i);
    put(end);
}

/* two sums over words, every byte of which goes into both */
struct sums {
    uint32_t h, g;
};

static struct sums add_up(struct sums sums, const uint8_t *bytes, uint32_t n) {
    uint32_t h = sums.h, g = sums.g;
    for (uint32_t i = 0; i < n; i += 4) {
        uint32_t w;
        memcpy(&w, __builtin_assume_aligned(bytes + i, 4), 4);
        h = (h ^ w) * 16777619u;
        h ^= h >> 15;
        g = (g << 5 | g >> 27) + w;
    }
    return (struct sums){ h, g };
}

enum { LOAD, READING, PROGRESS, MOVE, RUN, COLLECT, TEXT, MISSING, WRITE, LINE, WIDEN, CALLS };
static const char *const CALL[CALLS] = { "load ", "reading ", "progress ", "move ", "run ", "collect ", "text ", "missing ", "write ", "line ", "widen " };
static uint32_t returned[CALLS]; /* a bit for each number, bit 31 for any other */
static uint32_t made[CALLS];
static struct sums answers; /* of all calls so far: their numbers and further results, not their states */

/* of the room that the state lies in and of the block's, the bytes around them included; of the page's, for a call that is lent it;
   of the copy's, for a call that reads it */
static uint64_t hash(int call) {
    struct sums sums = add_up((struct sums){ 2166136261u, 1 }, state < spare || state >= spare + sizeof spare ? room : spare, whole + 8);
    sums = add_up(sums, places, sizeof places);
    if (call == TEXT) sums = add_up(sums, page, sizeof page);
    if (call == WIDEN) sums = add_up(sums, spare, sizeof spare);
    return (uint64_t)sums.h << 32 | sums.g;
}

static uint32_t note(int call, uint32_t number, uint64_t x, uint64_t y) {
    returned[call] |= number < 31 ? 1u << number : 1u << 31;
    made[call]++;
    const uint32_t answer[] __attribute__((aligned(8))) = { number, (uint32_t)x, (uint32_t)(x >> 32), (uint32_t)y, (uint32_t)(y >> 32) };
    answers = add_up(answers, (const uint8_t *)answer, sizeof answer);
    put(CALL[call]);
    put_hex(number, " ");
    put_hex(x, " ");
    put_hex(y, " ");
    put_hex(hash(call), "\n");
    return number;
}

/* ---- the calls; results start as something else than 0 */

static uint32_t load(uint64_t n) { return note(LOAD, tessla_load(state, length, text, n), n, 0); }
static uint32_t reading(uint32_t s, uint32_t t, int64_t v) {
    return note(READING, tessla_offer_reading(state, length, s, t, v), s, t);
}
static uint32_t progress(uint32_t s, uint64_t y) { return note(PROGRESS, tessla_offer_progress(state, length, s, y), s, y); }
static uint32_t move(uint32_t s) { return note(MOVE, tessla_move(state, length, s), s, 0); }
static uint32_t run(uint32_t n) {
    uint32_t moves = 0xA5A5A5A5;
    uint32_t number = tessla_run(state, length, n, &moves);
    return note(RUN, number, n, moves);
}
static uint32_t collect(uint32_t s) {
    uint32_t t = 0xA5A5A5A5;
    int64_t v = 0x5A5A5A5A5A5A5A5A;
    uint32_t number = tessla_collect(state, length, s, &t, &v);
    return note(COLLECT, number, t, (uint64_t)v);
}

static uint32_t missing(uint32_t s) {
    uint32_t outside = 0xA5A5A5A5, zero = 0x5A5A5A5A;
    uint32_t number = tessla_missing(state, length, s, &outside, &zero);
    return note(MISSING, number, outside, zero);
}

static uint64_t given; /* the length of the last text that came back */
/* into so many bytes of a page that holds something else than text, the same before each call */
static uint8_t mark_at(uint32_t i) { return (uint8_t)(0x80 | i); }
static uint32_t plan_text(uint64_t bytes) {
    for (uint32_t i = 0; i < sizeof page; i++) page[i] = mark_at(i);
    given = 0xA5A5A5A5A5A5A5A5;
    uint32_t number = tessla_plan_text(state, length, back, bytes, &given);
    return note(TEXT, number, bytes, given);
}

/*
 * A byte is passed in a whole word, whose upper bits are nobody's: a second name of the call, by which they are filled with
 * rubbish, another at each write.
 */
#define WORD_OF(name) #name
#define SYMBOL(name) WORD_OF(name)
uint32_t write_word(uint8_t *, uint64_t, uint8_t *, uint64_t, uint32_t at, uint32_t word) __asm__(SYMBOL(tessla_register_write));
static uint32_t written(uint32_t at, uint8_t byte) {
    static uint32_t rubbish = 0xA5A5A5A5;
    rubbish = rubbish * 1664525 + 1013904223;
    return write_word(state, length, block, block_length, at, (rubbish & 0xFFFFFF00) | byte);
}
static uint32_t write(uint32_t at, uint8_t byte) { return note(WRITE, written(at, byte), at, byte); }
static uint32_t command(uint8_t which) { return write(16, which); }
/* a number of so many bytes, written as the header has it: as many writes, one line */
static void set(uint32_t at, uint32_t bytes, uint64_t x) {
    uint32_t any = 0;
    for (uint32_t i = 0; i < bytes; i++) any |= tessla_register_write(state, length, block, block_length, at + i, (uint8_t)(x >> 8 * i));
    note(WRITE, any, at, x);
}
static uint32_t line(void) {
    uint32_t up = 0xA5A5A5A5;
    uint32_t number = tessla_register_line(block, block_length, &up);
    return note(LINE, number, up, 0);
}

/* from the copy, of which the call is told one length, into the state, of which it is told another */
static uint32_t widen(uint64_t from, uint64_t to) { return note(WIDEN, tessla_widen(copy, from, state, to), from, to); }

static void head(const char *what) {
    put(whole == LONG ? "-- long " : "-- ");
    put(what);
    put("\n");
}

/* the block, its bytes in hexadecimal */
static void show(void) {
    char b[3 * TESSLA_BLOCK_LENGTH];
    for (uint32_t i = 0; i < TESSLA_BLOCK_LENGTH; i++) {
        b[3 * i] = "0123456789abcdef"[block[i] >> 4];
        b[3 * i + 1] = "0123456789abcdef"[block[i] & 15];
        b[3 * i + 2] = ' ';
    }
    b[sizeof b - 1] = 0;
    head(b);
}

/* the text that came back, with blanks for its line ends; how many bytes of the page around it are not as they were */
static void show_text(void) {
    uint32_t at = (uint32_t)(back - page), changed = 0;
    if (given > MOST) {
        head("no length of a text");
        return;
    }
    for (uint32_t i = 0; i < sizeof page; i++) changed += (i < at || i - at >= given) && page[i] != mark_at(i);
    for (uint32_t i = 0; i < given; i++) copy[i] = back[i] == '\n' ? ' ' : back[i];
    copy[given] = 0;
    head((const char *)copy);
    put("-- around it ");
    put_hex(changed, "\n");
}

/* ---- plans */

static struct row rows[TESSLA_LONG_STREAM_LIMIT + 1];

static uint32_t load_rows(uint32_t n) { return load(write_plan(text, rows, n)); }

static void text_of(const char *t) {
    uint32_t n = 0;
    while (t[n]) {
        text[n] = (uint8_t)t[n];
        n++;
    }
    load(n);
}

static void visits(void) {
    rows[0] = (struct row){ .op = IN };
    rows[1] = (struct row){ .op = UNIT };
    rows[2] = (struct row){ .op = SET, .a = 1 };
    rows[3] = (struct row){ .op = LAST, .a = 5, .b = 0 };
    rows[4] = (struct row){ .op = PLUS, .a = 3, .k = 1 };
    rows[5] = (struct row){ .op = MERGE, .a = 4, .b = 2, .out = 1 };
}

/* every operator; inputs 0 and 1 */
static uint32_t all_operators(void) {
    uint32_t n = 0;
    rows[n++] = (struct row){ .op = IN };
    rows[n++] = (struct row){ .op = IN };
    for (uint8_t op = NIL; op <= WMAX; op++)
        rows[n++] = (struct row){ .op = op, .b = uses_b(op) ? 1 : 0, .out = 1,
                                  .k = op == SET ? INT64_MIN : op == PLUS ? INT64_MAX : is_window(op) ? 3 : 0 };
    return n;
}

/* ---- each number of each call, extremes */

static const uint64_t WRONG[WRONG_LENGTHS] = {
    0, 1, SHORT - 1, SHORT + 1, LONG - 1, LONG + 1, 32768, SHORT + (UINT64_C(1) << 32), LONG + (UINT64_C(1) << 32), UINT64_C(1) << 32, UINT64_MAX,
    (UINT64_C(1) << 63) + SHORT, (UINT64_C(1) << 63) + LONG,
};
static const uint32_t STREAMS[] = { 0,  1,  2,   3,   5,     6,          31,         32,         33,        63,
                                    64, 255, 256, 257, 65536, 0x7FFFFFFF, 0x80000000, 0x80000005, 0xFFFFFFFF };
static const uint32_t STAMPS[] = { 0, 1, 255, 256, 65535, 65536, 0x7FFFFFFF, 0x80000000, 0xFFFFFFFE, 0xFFFFFFFF };
static const uint64_t BOUNDS[] = { 0, 1, 0xFFFFFFFF, 0x100000000, 0x100000001, 0x8000000000000000, UINT64_MAX };
static const int64_t VALUES[] = { 0,           1,           -1,          255,         256,       INT32_MAX, INT32_MIN, UINT32_MAX, 0x100000000,
                                  -0x100000000, 3037000499, 3037000500, INT64_MAX, INT64_MIN, INT64_MIN + 1 };
#define COUNT(list) (sizeof(list) / sizeof *(list))

static void wrong_lengths(uint64_t text_length) {
    head("lengths");
    load(text_length - 1);
    load(text_length + 1);
    load(text_length + (UINT64_C(1) << 32));
    for (uint32_t i = 0; i < WRONG_LENGTHS; i++) {
        length = WRONG[i];
        load(text_length);
        load(0);
        reading(0, 9, 9);
        progress(0, 9);
        move(1);
        run(1);
        collect(5);
        plan_text(0);
        plan_text(MOST);
        missing(0);
        missing(99);
    }
    length = whole;
}

static void streams(void) {
    head("streams");
    for (uint32_t i = 0; i < COUNT(STREAMS); i++) {
        reading(STREAMS[i], 20 + i, -1);
        progress(STREAMS[i], 60 + i);
        move(STREAMS[i]);
        collect(STREAMS[i]);
        missing(STREAMS[i]);
    }
}

static void stamps(void) {
    head("stamps");
    for (uint32_t i = 0; i < COUNT(STAMPS); i++) {
        reading(0, STAMPS[i], (int64_t)i);
        reading(0, STAMPS[i], (int64_t)i);
        run(0xFFFFFFFF);
        collect(5);
    }
    visits();
    load_rows(6);
    for (uint32_t i = 0; i < COUNT(BOUNDS); i++) {
        progress(0, BOUNDS[i]);
        progress(0, BOUNDS[i]);
        progress(0, BOUNDS[i] - 1);
        run(0x80000000);
    }
}

static void work_off(uint32_t n) {
    for (int again = 1; again;) {
        again = 0;
        run(7);
        for (uint32_t s = 0; s < n; s++)
            if (rows[s].out)
                while (collect(s) == 0) again = 1;
    }
}

static void values(void) {
    head("values");
    for (uint32_t i = 0; i < COUNT(VALUES); i++) {
        uint32_t n = all_operators();
        load_rows(n);
        for (uint32_t j = 0; j < COUNT(VALUES); j++) {
            reading(0, 2 * j, VALUES[i]);
            reading(1, 2 * j, VALUES[j]);
            if (j % 4 == 3) work_off(n);
        }
        progress(0, TESSLA_HORIZON);
        progress(1, TESSLA_HORIZON);
        work_off(n);
        for (uint32_t s = 0; s < n; s++) missing(s);
    }
}

/* quotients and remainders of two values at stamp t, and of the same as the latest values */
static void divide(uint32_t t, int64_t x, int64_t y) {
    reading(0, t, x);
    reading(1, t, y);
    run(9);
    for (uint32_t s = 2; s < 6; s++) collect(s);
}

/* divisions: worked cases first, of which firmware/test knows the values; then every combination of signs, mostly inexact */
static void divisions(void) {
    static const int64_t WORKED[][2] = {
        { -7, 2 }, { 7, -2 }, { -7, -2 }, { 7, 2 }, { -6, 2 }, { 0, -5 }, { INT64_MIN, -1 }, { INT64_MIN, 2 }, { INT64_MAX, -1 }, { 5, 0 },
        { -1, INT64_MAX },
    };
    static const int64_t SIDES[] = { 2, -2, 3, -3, 7, -7, 4294967297, -4294967297, INT64_MAX, -INT64_MAX, INT64_MIN };
    uint32_t t = 0;
    head("worked divisions");
    rows[0] = rows[1] = (struct row){ .op = IN };
    rows[2] = (struct row){ .op = DIV, .b = 1, .out = 1 };
    rows[3] = (struct row){ .op = REM, .b = 1, .out = 1 };
    rows[4] = (struct row){ .op = SDIV, .b = 1, .out = 1 };
    rows[5] = (struct row){ .op = SREM, .b = 1, .out = 1 };
    load_rows(6);
    for (uint32_t i = 0; i < COUNT(WORKED); i++) divide(t++, WORKED[i][0], WORKED[i][1]);
    head("divisions");
    for (uint32_t i = 0; i < COUNT(SIDES); i++)
        for (uint32_t j = 0; j < COUNT(SIDES); j++) divide(t++, SIDES[i], SIDES[j]);
    /* the divisor alone reports: the signal forms keep the dividend */
    for (uint32_t i = 0; i < COUNT(SIDES); i++) {
        reading(0, t, SIDES[i]);
        progress(0, t + 1 + COUNT(SIDES));
        for (uint32_t j = 0; j < COUNT(SIDES); j++) {
            reading(1, ++t, SIDES[j]);
            run(9);
            while (collect(4) == 0) {}
            while (collect(5) == 0) {}
        }
        t++;
    }
}

/* the signal forms, on inputs that report apart and together; then what each keeps, changed in the state */
static void signals(void) {
    static const uint8_t KEPT[] = { 5, 6, 32, 39, 40, 47, 48, 55 };
    uint32_t n = 0;
    head("signals");
    rows[n++] = (struct row){ .op = IN };
    rows[n++] = (struct row){ .op = IN };
    for (uint8_t op = SADD; op <= SEQ; op++) rows[n++] = (struct row){ .op = op, .b = 1, .out = 1 };
    load_rows(n);
    for (uint32_t i = 0; i < COUNT(VALUES); i++) {
        reading(0, 4 * i + i % 2, VALUES[i]);
        reading(1, 4 * i + i % 3, VALUES[(7 * i + 3) % COUNT(VALUES)]);
        progress(0, 4 * i + 4);
        progress(1, 4 * i + 4);
        work_off(n);
    }
    memcpy(copy, state, whole);
    for (uint32_t i = 0; i < COUNT(KEPT); i++)
        for (uint32_t change = 1; change < 4; change++) {
            state[256 * (2 + i) + KEPT[i]] ^= (uint8_t)change;
            run(1);
            reading(1, 70, 6);
            progress(0, 80);
            run(100);
            collect(2 + i);
            memcpy(state, copy, whole);
        }
    /* fresh: with bound 0 nothing is kept */
    for (uint32_t i = 0; i < COUNT(KEPT); i++) {
        load_rows(n);
        state[256 * (2 + i) + KEPT[i]] = 1;
        run(1);
    }
}

/* sum, least and greatest of three, of the latest values up to one at stamp t */
static void weigh(uint32_t t, int64_t v) {
    reading(0, t, v);
    run(9);
    for (uint32_t s = 1; s < 4; s++) collect(s);
}

/* windows: worked cases first, of which firmware/test knows the values; then eight of 64, over many readings, several before a run; then
   what each keeps, changed in the state */
static void windows(void) {
    static const int64_t WORKED[] = { 5, -7, INT64_MAX, INT64_MAX, INT64_MIN, INT64_MIN, 0, 3 };
    static const uint8_t FIELDS[] = { 2, 5, 6, 8, 9, 12, 15, 32, 39, 40, 47, 48, 55, 56, 59, 60, 63 };
    uint32_t n;
    head("worked windows");
    rows[0] = (struct row){ .op = IN };
    for (uint8_t op = WSUM; op <= WMAX; op++) rows[op - WSUM + 1] = (struct row){ .op = op, .k = 3, .out = 1 };
    load_rows(4);
    for (uint32_t i = 0; i < COUNT(WORKED); i++) weigh(2 * i, WORKED[i]);
    head("windows");
    n = eight_windows(rows);
    for (uint32_t several = 1; several < 17; several += 5) {
        load_rows(n);
        for (uint32_t i = 0; i < 80; i++) {
            reading(0, 3 * i, VALUES[7 * i % COUNT(VALUES)]);
            if (i % several == 0) {
                run(50);
                for (uint32_t s = 1; s < n; s++)
                    while (s % several != 1 && collect(s) == 0) {}
            }
        }
        work_off(n);
    }
    memcpy(copy, state, whole);
    /* each field of a record, by turns of the eight; the first, a middle and the last value of each window */
    for (uint32_t i = 0; i < COUNT(FIELDS); i++)
        for (uint32_t change = 1; change < 4; change++) {
            state[256 * (1 + i % 8) + FIELDS[i]] ^= (uint8_t)change;
            run(1);
            reading(0, 300, 6);
            run(100);
            collect(1 + i % 8);
            missing(1 + i % 8);
            memcpy(state, copy, whole);
        }
    for (uint32_t j = 0; j < 8; j++)
        for (uint32_t at = 0; at < 512; at += 73) {
            state[windows_at() + 512 * j + at] ^= 0x80;
            reading(0, 300, -6);
            run(100);
            collect(1 + j);
            memcpy(state, copy, whole);
        }
    /* half full: what lies behind the fill, and in windows that no stream has */
    for (uint32_t w = 1; w < 8; w += 3) {
        load_rows(1 + w);
        for (uint32_t i = 0; i < 20; i++) {
            reading(0, i, VALUES[i % COUNT(VALUES)]);
            run(50);
            for (uint32_t s = 1; s <= w; s++) collect(s);
        }
        memcpy(copy, state, whole);
        for (uint32_t at = windows_at(); at < whole; at += at % 512 == 160 ? 1 : 31) {
            state[at] ^= 1;
            run(1);
            reading(0, 300, 1);
            run(100);
            memcpy(state, copy, whole);
        }
        for (uint32_t fill = 0; fill < 256; fill += fill < 24 || (fill > 60 && fill < 68) ? 1 : 7) {
            state[256 + 5] = (uint8_t)fill;
            run(1);
            memcpy(state, copy, whole);
            state[256 + 8] = (uint8_t)fill; /* the width */
            run(1);
            reading(0, 300, 1);
            run(100);
            memcpy(state, copy, whole);
        }
    }
    /* fresh: with bound 0 nothing is kept; a ninth window, and one for another operator */
    load_rows(n);
    for (uint32_t s = 1; s < n; s++) {
        state[256 * s + 5] = 1;
        run(1);
        state[256 * s + 5] = 0;
    }
    rows[n++] = (struct row){ .op = SET, .k = 2 };
    load_rows(n);
    state[256 * 9] = WMIN;
    run(1);
    state[256] = NEG;
    memset(state + 256 + 8, 0, 8);
    run(1);
    reading(0, 1, 1);
    run(100);
    collect(9);
}

/* ---- no plan */

/* the calls that firmware/test knows the answers to, on a state of no streams, and whether all its bytes are 0 then */
static void without_a_plan(void) {
    run(5);
    move(0);
    reading(0, 0, 0);
    progress(0, 0);
    progress(0, TESSLA_HORIZON + 1);
    collect(0);
    plan_text(0);
    plan_text(5);
    missing(0);
    for (uint8_t which = 1; which < 4; which++) command(which);
    uint32_t i = 0;
    while (i < whole && state[i] == 0) i++;
    head(i == whole ? "all bytes 0" : "a byte not 0");
}

/* loaded, texts that are refused, a byte that makes no state of it, and loaded again */
static void no_plan(void) {
    head("no plan");
    memset(room, 0xA5, sizeof room);
    load(0);
    without_a_plan();
    text_of("plan=1\nstreams=0\n");
    text_of("plan=1\n");
    text_of("\n");
    without_a_plan();
    state[whole - 1] = 1;
    without_a_plan();
    /* with no text to point at */
    text = 0;
    load(0);
    text = words;
    without_a_plan();
}

/* zeros: every stream, every alignment, other lengths, one byte set, a plan in them and gone again */
static void zeros(void) {
    head("zeros");
    for (uint32_t o = 0; o < 8; o++) {
        memset(room, 0xEE, sizeof room);
        state = room + o;
        text = words + (7 - o);
        load(0);
        without_a_plan();
    }
    state = room;
    text = words;
    memset(room, 0, sizeof room);
    streams();
    for (uint32_t i = 0; i < COUNT(BOUNDS); i++) progress(0, BOUNDS[i]);
    for (uint32_t i = 0; i < COUNT(STAMPS); i++) reading(0, STAMPS[i], VALUES[i]);
    run(0);
    run(0xFFFFFFFF);
    for (uint32_t i = 0; i < WRONG_LENGTHS; i++) {
        length = WRONG[i];
        load(0);
        without_a_plan();
    }
    length = whole;
    /* each bit of the first record, by turns, and some bytes behind it */
    for (uint32_t at = 1; at < whole; at += at < 64 ? 1 : 61) {
        state[at] = (uint8_t)(1 << at % 8);
        run(1);
        collect(0);
        state[at] = 0;
    }
    /* the first byte: a stream of an operator without arguments, else no state */
    for (uint32_t op = 0; op < 256; op += op < 33 ? 1 : 25) {
        state[0] = (uint8_t)op;
        reading(0, 3, 7);
        move(0);
        run(2);
        collect(0);
        memset(state, 0, whole);
    }
    for (uint32_t i = 0; i < 2; i++) {
        visits();
        load_rows(6);
        reading(0, 3, 7);
        run(100);
        collect(5);
        memcpy(copy, state, whole);
        load(0);
        without_a_plan();
    }
    /* the copy put back, and its first records gone */
    memcpy(state, copy, whole);
    run(100);
    for (uint32_t i = 0; i < 6; i++) {
        memset(state + 256 * i, 0, 256);
        run(100);
    }
    without_a_plan();
}

static void full(void) {
    head("full");
    visits();
    load_rows(6);
    for (uint32_t t = 0; t < 18; t++) reading(0, 3 * t, (int64_t)t); /* the 17th is refused 9 */
    for (uint32_t i = 0; i < 24; i++) run(i);
    for (uint32_t i = 0; i < 20; i++) collect(5);
    for (uint32_t s = 0; s < 6; s++) move(s);
}

/* ---- plan texts that are refused, and as many streams as there is room for */

static void texts(void) {
    head("texts");
    static const char *const refused[] = {
        "", "plan=1\n", "plan=2\nstreams=1\n", "plan=1\nstreams=0\n", "plan=1\nstreams=33\n", "plan=1\nstreams=032\n", "plan=1\nstreams=999\n",
        "plan=1\nstreams=1\nop=inn\na=0\nb=0\nk=0\nout=0\n", "plan=1\nstreams=1\nop=sqrt\na=0\nb=0\nk=0\nout=0\n",
        "plan=1\nstreams=1\nop=in\na=0\nb=0\nk=1\nout=0\n", "plan=1\nstreams=1\nop=in\na=0\nb=0\nk=0\nout=1\n",
        "plan=1\nstreams=1\nop=neg\na=1\nb=0\nk=0\nout=0\n", "plan=1\nstreams=1\nop=neg\na=0\nb=0\nk=0\nout=0\n",
        "plan=1\nstreams=1\nop=in\na=0\nb=0\nk=0\nout=0\n\n", "plan=1\nstreams=1\nop=in\na=0\nb=0\nk=0\nout=0",
        "plan=1\nstreams=1\nop=in\na=0\nb=0\nk=-0\nout=0\n", "plan=1\nstreams=1\nop=set\na=0\nb=0\nk=9223372036854775808\nout=0\n",
        "plan=1\nstreams=2\nop=in\na=0\nb=0\nk=0\nout=0\nop=set\na=0\nb=0\nk=-9223372036854775808\nout=0\n",
        "plan=1\nstreams=2\nop=in\na=0\nb=0\nk=0\nout=0\nop=plus\na=0\nb=0\nk=9223372036854775807\nout=1\n",
        "plan=1\nstreams=2\nop=merge\na=1\nb=1\nk=0\nout=0\nop=merge\na=0\nb=0\nk=0\nout=0\n",
        "plan=1\nstreams=1\nop=merge\na=0\nb=0\nk=0\nout=0\n", "plan=1\nstreams=1\nop=last\na=0\nb=0\nk=0\nout=0\n",
        "plan=1\nstreams=2\nop=last\na=0\nb=1\nk=0\nout=1\nop=in\na=0\nb=0\nk=0\nout=0\n",
        "plan=1\nstreams=1\nop=sadd\na=0\nb=0\nk=0\nout=1\n", "plan=1\nstreams=1\nop=sneg\na=0\nb=0\nk=0\nout=0\n",
        "plan=1\nstreams=2\nop=in\na=0\nb=0\nk=0\nout=0\nop=seq\na=0\nb=0\nk=1\nout=0\n",
        "plan=1\nstreams=2\nop=in\na=0\nb=0\nk=0\nout=0\nop=slt\na=0\nb=2\nk=0\nout=0\n",
        "plan=1\nstreams=2\nop=in\na=0\nb=0\nk=0\nout=0\nop=srem\na=0\nb=0\nk=0\nout=1\n",
        "plan=1\nstreams=1\nop=wsum\na=0\nb=0\nk=1\nout=0\n", "plan=1\nstreams=1\nop=wsum\na=0\nb=0\nk=65\nout=0\n",
        "plan=1\nstreams=2\nop=in\na=0\nb=0\nk=0\nout=0\nop=wmin\na=0\nb=0\nk=0\nout=1\n",
        "plan=1\nstreams=2\nop=in\na=0\nb=0\nk=0\nout=0\nop=wmin\na=0\nb=0\nk=-1\nout=1\n",
        "plan=1\nstreams=2\nop=in\na=0\nb=0\nk=0\nout=0\nop=wmin\na=0\nb=0\nk=4294967297\nout=1\n",
        "plan=1\nstreams=2\nop=in\na=0\nb=0\nk=0\nout=0\nop=wmax\na=0\nb=1\nk=0\nout=1\n",
        "plan=1\nstreams=2\nop=in\na=0\nb=0\nk=0\nout=0\nop=wmax\na=0\nb=0\nk=64\nout=1\n",
        "plan=1\nstreams=1\nop=wsums\na=0\nb=0\nk=1\nout=0\n",
    };
    for (uint32_t i = 0; i < COUNT(refused); i++) text_of(refused[i]);
    /* a window too many, in the last place or behind others, and in a plan with a cycle */
    uint32_t w = eight_windows(rows);
    rows[w++] = (struct row){ .op = WMAX, .k = 1 };
    load_rows(w);
    for (uint32_t i = 0; i < cap(); i++) rows[i] = (struct row){ .op = WSUM, .k = 64 };
    load_rows(cap());
    rows[0] = (struct row){ .op = IN };
    load_rows(cap());
    /* more streams than there is room for, and about as many as each length has */
    static const uint32_t MANY[] = { 1, 31, 32, 33, 63, 64, 65 };
    head("how many streams");
    for (uint32_t i = 0; i < COUNT(rows); i++) rows[i] = (struct row){ .op = NIL };
    for (uint32_t i = 0; i < COUNT(MANY); i++) load_rows(MANY[i]);
    /* longer than any text may be; what is behind the pointer is not looked at then */
    head("how long a text");
    load(MOST + 1);
    load(UINT64_C(1) << 32);
    load(UINT64_MAX);
    memset(text, 'x', MOST);
    load(MOST);
    load(MOST / 2 + 1);
    /* the longest chain, the cycle test at its deepest: upward, downward, and closed to a cycle */
    uint32_t end = cap() - 1;
    head("chains");
    for (int kind = 0; kind < 3; kind++) {
        for (uint32_t i = 0; i <= end; i++) rows[i] = (struct row){ .op = NEG, .a = (uint8_t)(kind ? (i + 1) % cap() : i - 1) };
        if (kind == 0) rows[0] = (struct row){ .op = IN };
        if (kind == 1) rows[end] = (struct row){ .op = IN };
        rows[16].out = 1;
        uint32_t number = load_rows(cap());
        reading(kind ? end : 0, 5, 8);
        run(1000);
        collect(16);
        if (number == 0) {
            /* the same cycle in the state, not in a text */
            state[kind ? end * 256 : 0] = NEG;
            state[(kind ? end * 256 : 0) + 1] = kind ? 0 : (uint8_t)end;
            run(1);
        }
    }
    /* shorter rings, with a tail that leads into them */
    head("rings");
    for (uint32_t ring = 1; ring < cap(); ring += 5) {
        for (uint32_t i = 0; i <= end; i++) rows[i] = (struct row){ .op = NEG, .a = (uint8_t)(i < ring ? (i + 1) % ring : i - 1) };
        load_rows(cap());
    }
}

/* ---- the plan as text */

/* cases worked out by hand: firmware/test knows the numbers, the lengths and the texts */
static void worked_texts(void) {
    head("worked texts");
    visits();
    load_rows(6);
    plan_text(2048);
    show_text();
    plan_text(171);
    show_text();
    plan_text(170);
    show_text();
    for (uint32_t t = 1; t < 6; t++) reading(0, 3 * t, 7);
    run(100);
    collect(5);
    collect(5);
    plan_text(171);
    show_text();
    /* into a second buffer */
    text = back;
    load(given);
    text = words;
    memcpy(copy, state, whole);
    load_rows(6);
    head(memcmp(copy, state, whole) ? "another state" : "the fresh state");
    length = whole - 1;
    plan_text(0);
    length = whole;
    load(0);
    plan_text(0);
    plan_text(5);
    show_text();
    rows[0] = (struct row){ .op = IN };
    rows[1] = (struct row){ .op = SET, .k = INT64_MIN, .out = 1 };
    load_rows(2);
    plan_text(100);
    show_text();
    rows[1] = (struct row){ .op = WSUM, .k = 64, .out = 1 };
    load_rows(2);
    plan_text(0);
    show_text();
}

/* a buffer about as long as a text of n bytes, and far from it */
static void around(uint32_t n) {
    for (uint32_t i = 0; i < 5; i++)
        if (n + i >= 2) plan_text(n + i - 2);
    plan_text(0);
    plan_text(MOST);
    plan_text((UINT64_C(1) << 32) + 1);
    plan_text(UINT64_MAX);
}

/* as many streams as there is room for, and values of nineteen digits */
static void longest_text(void) {
    uint32_t end = cap() - 1;
    head("the longest text");
    for (uint32_t i = 0; i < end; i++) rows[i] = (struct row){ .op = PLUS, .a = (uint8_t)end, .k = INT64_MIN, .out = 1 };
    rows[end] = (struct row){ .op = UNIT, .out = 1 };
    uint32_t n = write_plan(text, rows, cap());
    load(n);
    plan_text(n);
    plan_text(n - 1);
    plan_text(n <= 2048 ? 2048 : MOST);
    /* no buffer at all */
    back = 0;
    plan_text(0);
    load(0);
    plan_text(0);
    back = page;
    head("texts of changed states");
}

/* every length of the buffer, every alignment, every operator, values of every length, the longest text; a state changed in each field */
static void plan_texts(void) {
    uint32_t n = 0;
    head("plan texts");
    visits();
    for (uint32_t o = 0; o < 8; o++) {
        memset(room, 0xEE, sizeof room);
        state = room + (7 - o);
        back = page + o;
        n = write_plan(text, rows, 6);
        load(n);
        around(n);
        for (uint32_t i = o; i < n + 8; i += 8) plan_text(i);
    }
    state = room;
    back = page;
    n = all_operators();
    load_rows(n);
    around(write_plan(text, rows, n));
    for (uint32_t i = 0; i < COUNT(VALUES); i++) {
        rows[0] = (struct row){ .op = IN };
        rows[1] = (struct row){ .op = i % 2 ? SET : PLUS, .k = VALUES[i], .out = 1 };
        load_rows(2);
        around(write_plan(text, rows, 2));
    }
    for (int64_t tens = 1; tens < INT64_MAX / 10; tens *= 10) {
        rows[1] = (struct row){ .op = SET, .k = -tens };
        rows[2] = (struct row){ .op = PLUS, .k = tens - 1 };
        load_rows(3);
        around(write_plan(text, rows, 3));
    }
    longest_text();
    visits();
    load_rows(6);
    reading(0, 3, 7);
    run(100);
    memcpy(copy, state, whole);
    for (uint32_t s = 0; s < 7; s++)
        for (uint32_t i = 0; i < 40; i++) {
            state[256 * s + i] ^= (uint8_t)(1 << (s + i) % 8);
            plan_text(300);
            plan_text(0);
            memcpy(state, copy, whole);
        }
    for (uint32_t op = 0; op < 256; op += op < 33 ? 1 : 25)
        for (uint32_t s = 0; s < 7; s++) {
            state[256 * s] = (uint8_t)op;
            plan_text(300);
            memcpy(state, copy, whole);
        }
    state[whole - 1] = 1;
    plan_text(300);
}

/* ---- why events are missing */

/* input 0 and, if there is a second, input 1, at one stamp */
static void two_readings(uint32_t t, int64_t x, int64_t y) {
    reading(0, t, x);
    reading(1, t, y);
}

/* both counts of a stream put into the state, the least byte first */
static void put_counts(uint32_t s, uint32_t outside, uint32_t zero) {
    for (uint32_t i = 0; i < 4; i++) {
        state[256 * s + 56 + i] = (uint8_t)(outside >> 8 * i);
        state[256 * s + 60 + i] = (uint8_t)(zero >> 8 * i);
    }
}

/* cases worked out by hand: firmware/test knows the numbers and the counts */
static void worked_missing(void) {
    head("worked missing");
    /* 6 by 0, the least by -1, 6 by 2 */
    rows[0] = rows[1] = (struct row){ .op = IN };
    rows[2] = (struct row){ .op = DIV, .b = 1, .out = 1 };
    load_rows(3);
    two_readings(1, 6, 0);
    two_readings(2, INT64_MIN, -1);
    two_readings(3, 6, 2);
    missing(2);
    run(9);
    missing(2);
    missing(0);
    missing(3);
    /* from counts near the limit, of which each stops by itself: three times the least by -1, then twice the least by 0 */
    put_counts(2, 0xFFFFFFFE, 5);
    missing(2);
    for (uint32_t t = 4; t < 7; t++) two_readings(t, INT64_MIN, -1);
    run(9);
    missing(2);
    put_counts(2, 7, 0xFFFFFFFE);
    for (uint32_t t = 7; t < 9; t++) two_readings(t, INT64_MIN, 0);
    run(9);
    missing(2);
    load_rows(3);
    missing(2);
    /* plus 1, neg, a sum of two of the greatest twice and the least */
    rows[1] = (struct row){ .op = PLUS, .k = 1 };
    rows[2] = (struct row){ .op = NEG };
    rows[3] = (struct row){ .op = WSUM, .k = 2 };
    load_rows(4);
    reading(0, 1, INT64_MAX);
    reading(0, 2, INT64_MAX);
    reading(0, 3, INT64_MIN);
    run(99);
    for (uint32_t s = 1; s < 4; s++) missing(s);
    /* one move past 16 squares */
    rows[1] = (struct row){ .op = MUL };
    load_rows(2);
    for (uint32_t t = 0; t < 16; t++) reading(0, t, INT64_C(1) << 40);
    move(1);
    missing(1);
    /* a form at the stamps of either: the greatest at 1 by 2 at 2 and by 3 at 3, then 1 at 4 */
    rows[1] = (struct row){ .op = IN };
    rows[2] = (struct row){ .op = SMUL, .b = 1 };
    load_rows(3);
    reading(0, 1, INT64_MAX);
    reading(1, 2, 2);
    reading(1, 3, 3);
    reading(0, 4, 1);
    progress(0, 9);
    progress(1, 9);
    run(9);
    missing(2);
}

/* every operator with counts and without, every bit of the counts changed, every alignment, one move past 32 stamps */
static void all_missing(void) {
    uint32_t n = 0;
    head("missing");
    for (uint32_t o = 0; o < 8; o++) {
        memset(room, 0xEE, sizeof room);
        state = room + o;
        n = all_operators();
        load_rows(n);
        for (uint32_t t = 0; t < 8; t++) two_readings(3 * t, VALUES[COUNT(VALUES) - 1 - t], VALUES[(o + t) % 3]);
        run(100);
        for (uint32_t s = 0; s < n; s++)
            while (collect(s) == 0) {}
        run(1000);
        for (uint32_t s = 0; s < n + 2; s++) missing(s);
    }
    state = room;
    load_rows(n);
    for (uint32_t fresh = 0; fresh < 2; fresh++) {
        memcpy(copy, state, whole);
        for (uint32_t s = 0; s < n + 1; s++)
            for (uint32_t bit = 0; bit < 64; bit += 7) {
                state[256 * s + 56 + bit / 8] ^= (uint8_t)(1 << bit % 8);
                missing(s);
                two_readings(500, INT64_MIN, 0);
                run(40);
                missing(s);
                memcpy(state, copy, whole);
            }
        for (uint32_t t = 0; t < 4; t++) two_readings(t, INT64_MIN, (int64_t)t - 1);
        run(1000);
    }
    static const uint8_t FORMS[] = { SADD, SMUL, SDIV, SREM };
    for (uint32_t i = 0; i < COUNT(FORMS); i++) {
        rows[0] = rows[1] = (struct row){ .op = IN };
        rows[2] = (struct row){ .op = FORMS[i], .b = 1, .out = 1 };
        load_rows(3);
        for (uint32_t t = 0; t < 16; t++) {
            reading(0, 2 * t, INT64_MIN);
            reading(1, 2 * t + 1, i < 2 ? -1 : 0);
        }
        progress(0, 40);
        progress(1, 50);
        move(2);
        missing(2);
        put_counts(2, 0xFFFFFFF0, 0xFFFFFFF8);
        for (uint32_t t = 20; t < 36; t++) two_readings(2 * t, INT64_MIN, i < 2 ? -1 : 0);
        run(9);
        missing(2);
    }
}

/* ---- the block of registers */

static void begin_block(const char *plan_of, uint8_t byte) {
    head(plan_of);
    visits();
    load_rows(6);
    memset(block, byte, TESSLA_BLOCK_LENGTH);
}

/* cases worked out by hand: firmware/test knows the numbers and the blocks */
static void worked_blocks(void) {
    head("worked blocks");
    begin_block("offered, run and collected", 0);
    set(4, 4, 3);
    set(8, 8, 7);
    command(1);
    command(3);
    set(0, 1, 5);
    command(2);
    show();
    command(2);
    show();

    begin_block("refused commands and writes", 9);
    set(0, 4, 5);
    memset(block + 16, 0, 4);
    command(2);
    show();
    command(0);
    command(4);
    command(255);
    show();
    for (uint32_t at = 17; at < 25; at += at == 17 ? 3 : 1) write(at, 1);
    write(0xFFFFFFFF, 1);
    show();

    begin_block("flags and mask", 0);
    block[18] = 255;
    line();
    write(19, 255);
    line();
    write(18, 255);
    line();
    show();

    begin_block("no state, though an output would wait", 0);
    reading(0, 3, 1);
    run(99);
    state[whole - 1] = 1;
    write(5, 7);
    write(19, 3);
    command(1);
    line();
    command(9);
    show();
    command(3);
    show();

    begin_block("both flags", 0);
    reading(0, 3, 1);
    run(99);
    write(0, 9);
    command(1);
    show();
    write(0, 0);
    command(3);
    write(18, 1);
    show();

    begin_block("collected, and held for another", 0);
    rows[0] = rows[2] = (struct row){ .op = IN };
    rows[1] = (struct row){ .op = NEG, .out = 1 };
    rows[3] = (struct row){ .op = ADD, .a = 1, .b = 2 };
    load_rows(4);
    reading(0, 3, 7);
    run(9);
    write(0, 1);
    command(2);
    show();
    command(3);
    show();

    begin_block("other lengths", 0);
    for (block_length = 23; block_length < 26; block_length += 2) {
        write(0, 1);
        command(1);
        write(99, 1);
        line();
    }
    block_length = TESSLA_BLOCK_LENGTH;
    show();

    begin_block("the value -1", 0);
    rows[0] = (struct row){ .op = IN };
    rows[1] = (struct row){ .op = NEG, .out = 1 };
    load_rows(2);
    set(8, 8, UINT64_MAX);
    command(1);
    command(3);
    write(0, 1);
    command(2);
    show();
}

/* the offer of a reading and the collection of an output, by commands */
static void offer_by_block(uint32_t s, uint32_t t, int64_t v) {
    set(0, 4, s);
    set(4, 4, t);
    set(8, 8, (uint64_t)v);
    command(1);
}

static void collect_by_block(uint32_t s) {
    set(0, 4, s);
    command(2);
}

static const uint64_t BLOCK_LENGTHS[] = { 0, 1, 23, 25, 32, 24 + (UINT64_C(1) << 32), UINT64_C(1) << 32, UINT64_MAX, (UINT64_C(1) << 63) + 24 };

/* every place and beyond, every length, flags with masks, extremes */
static void registers(void) {
    static const uint8_t BYTES[] = { 0, 1, 2, 3, 4, 17, 255 };
    begin_block("places", 0);
    reading(0, 3, 1);
    run(99);
    memcpy(copy, state, whole);
    for (uint32_t at = 0; at < 28; at++)
        for (uint32_t i = 0; i < COUNT(BYTES); i++) {
            write(at, BYTES[i]);
            memcpy(state, copy, whole);
        }
    for (uint32_t i = 5; i < 32; i++) write((1u << i) + 16, 3);
    write(0x80000000, 1);
    write(0xFFFFFFFF, 3);

    head("block lengths");
    for (uint32_t i = 0; i < COUNT(BLOCK_LENGTHS); i++) {
        block_length = BLOCK_LENGTHS[i];
        for (uint8_t which = 0; which < 5; which++) command(which);
        write(0, 1);
        write(18, 255);
        write(19, 1);
        write(20, 1);
        line();
    }
    block_length = TESSLA_BLOCK_LENGTH;
    for (uint32_t i = 0; i < WRONG_LENGTHS; i++) {
        length = WRONG[i];
        for (uint8_t which = 0; which < 5; which++) command(which);
        write(3, 0);
        write(18, 1);
        write(20, 1);
    }
    length = whole;

    /* byte 18 with every byte written to it, and with every mask: the sums of what is left, of the line and of the numbers */
    head("flags and masks");
    for (uint32_t flags = 0; flags < 256; flags++) {
        uint32_t left = 0, lines = 0, up;
        for (uint32_t byte = 0; byte < 256; byte++) {
            block[18] = (uint8_t)flags;
            block[19] = (uint8_t)byte;
            lines = 3 * lines + tessla_register_line(block, block_length, &up) + up;
            lines ^= lines >> 13;
            left = 257 * left + written(18, (uint8_t)byte) + block[18];
            left ^= left >> 11;
        }
        if (flags % 16 == 15) {
            note(WRITE, 0, left, flags);
            note(LINE, 0, lines, flags);
        }
    }

    /* each end of a command with each of the flags */
    for (uint32_t flags = 0; flags < 256; flags += 51) {
        memcpy(state, copy, whole);
        memset(block, (int)flags, TESSLA_BLOCK_LENGTH);
        offer_by_block(0, 9, -1);
        offer_by_block(0, 9, -1);
        offer_by_block(5, 9, -1);
        block[18] = (uint8_t)flags;
        command(3);
        for (uint32_t i = 0; i < 4; i++) collect_by_block(5);
        collect_by_block(4);
        block[18] = (uint8_t)flags;
        command(3);
        line();
    }

    for (uint32_t o = 0; o < 8; o++) { /* every alignment of the block and of the state */
        head("alignment");
        memset(room, 0xEE, sizeof room);
        memset(places, 0xEE, sizeof places);
        state = room + (7 - o);
        block = places + o;
        visits();
        load_rows(6);
        for (uint32_t i = 0; i < COUNT(STREAMS); i++) {
            offer_by_block(STREAMS[i], 20 + i, -1);
            collect_by_block(STREAMS[i]);
        }
        for (uint32_t i = 0; i < COUNT(STAMPS); i++) {
            offer_by_block(0, STAMPS[i], VALUES[i]);
            command(3);
            collect_by_block(5);
            line();
        }
    }
    state = room;
    block = places;

    head("values by registers");
    rows[0] = (struct row){ .op = IN };
    rows[1] = (struct row){ .op = PLUS, .out = 1 };
    load_rows(2);
    for (uint32_t i = 0; i < COUNT(VALUES); i++) {
        offer_by_block(0, i, VALUES[i]);
        command(3);
        collect_by_block(1);
    }
    for (uint32_t i = 0; i < 18; i++) offer_by_block(0, 100 + i, 1); /* the 17th is refused 9 */
    command(3);
}

/* three times as many moves to make as the chain has streams behind its input, 93 or 189: 64, then the rest */
static void moves_by_block(void) {
    head("64 moves");
    for (uint32_t i = 0; i < cap(); i++) rows[i] = (struct row){ .op = i ? NEG : IN, .a = (uint8_t)(i ? i - 1 : 0), .out = i + 1 == cap() };
    load_rows(cap());
    memset(block, 0, TESSLA_BLOCK_LENGTH);
    for (uint32_t t = 1; t < 4; t++) offer_by_block(0, t, 5);
    command(3);
    run(1000);
    for (uint32_t i = 0; i < 4; i++) collect_by_block(cap() - 1);
}

/* every stream changed, each bit of it by turns, in a plan that fills the records; the first byte behind them */
static void every_record(void) {
    head("every record");
    for (uint32_t i = 0; i < cap(); i++) rows[i] = (struct row){ .op = i ? PLUS : IN, .k = i, .out = i != 0 };
    load_rows(cap());
    for (uint32_t t = 1; t < 4; t++) reading(0, t, -5);
    run(1000);
    memcpy(copy, state, whole);
    for (uint32_t i = 0; i < cap(); i++)
        for (uint32_t at = 0; at < 256; at += at < 64 ? 7 : 37) {
            state[256 * i + at] ^= (uint8_t)(1 << (i + at) % 8);
            run(1);
            collect(i);
            memcpy(state, copy, whole);
        }
    state[windows_at()] = 1;
    run(1);
    state[windows_at()] = 0;
    for (uint32_t i = 0; i < cap(); i++) {
        missing(i);
        collect(i);
        move(i);
    }
    run(1000);
}

/* ---- random: plans, calls, damage */

static uint64_t seed = 0x9E3779B97F4A7C15u;
static uint32_t next(uint32_t below) {
    seed ^= seed << 13;
    seed ^= seed >> 7;
    seed ^= seed << 17;
    return (uint32_t)(seed >> 32) % below;
}

static int64_t some_value(void) {
    switch (next(4)) {
    case 0: return VALUES[next(COUNT(VALUES))];
    case 1: return (int64_t)next(10) - 3;
    case 2: return next(200);
    default: return (int64_t)(seed * 0x2545F4914F6CDD1Du);
    }
}

static uint32_t some_plan(void) {
    if (next(25) == 0) return 0;
    uint32_t n = next(4) ? 1 + next(10) : 1 + next(32);
    if (whole == LONG && next(4)) n = 33 + next(32);
    for (uint32_t i = 0; i < n; i++) {
        struct row r = { .op = (uint8_t)(i == 0 || next(5) == 0 ? IN : 1 + next(WMAX)) };
        /* mostly backward, so that there is no cycle; last and delay also forward */
        uint32_t most = next(n > 32 ? 4 * n : 12) == 0 ? n : i ? i : 1;
        if (r.op >= TIME) r.a = (uint8_t)(r.op == LAST || r.op == DELAY ? next(n) : next(most));
        if (n > 32 && is_window(r.op) && next(2)) r.op = (uint8_t)(r.op - WSUM + SADD);
        if (uses_b(r.op)) r.b = (uint8_t)next(most);
        if (uses_k(r.op)) r.k = !is_window(r.op) ? some_value() : next(30) ? 1 + next(next(3) ? 5 : 64) : next(90);
        if (r.op != IN) r.out = next(2) == 0;
        rows[i] = r;
    }
    return n;
}

/* a reading offered by the block, or any byte to any place */
static void some_write(uint32_t s, uint32_t *now) {
    if (next(2)) {
        *now += next(3);
        offer_by_block(s, *now, some_value());
        return;
    }
    uint32_t at = next(26);
    write(at, (uint8_t)next(at == 16 ? 5 : 256));
    line();
}

/* one draw in each expression: the order of two would be the compiler's choice; without streams a call asks for the first */
static void some_call(uint32_t n, uint32_t *now) {
    uint32_t t, most = n ? n : 1, s = next(20) ? next(most) : next(TESSLA_LONG_STREAM_LIMIT + 8);
    switch (next(13)) {
    case 0:
    case 1:
    case 2:
        for (uint32_t i = 0; i < n && rows[s % n].op != IN; i++) s++;
        s = next(20) ? s % most : s;
        *now += next(3);
        t = *now + next(6);
        reading(s, t, some_value());
        break;
    case 3:
        for (uint32_t i = 0; i < n && rows[s % n].op != IN; i++) s++;
        progress(s % most, next(30) ? *now + next(8) : next(2) ? TESSLA_HORIZON : TESSLA_HORIZON + next(2));
        break;
    case 4: move(s); break;
    case 5: run(next(4)); break;
    case 6: run(next(60)); break;
    case 7:
    case 8: collect(s); break;
    case 9: some_write(s, now); break;
    case 10: plan_text(next(3) ? 17 + next(30 * most) : MOST); break;
    case 11: missing(s); break;
    default:
        write(0, (uint8_t)s);
        command((uint8_t)(2 + next(2)));
        break;
    }
}

static void random_calls(uint32_t plans, uint32_t calls) {
    head("random");
    for (uint32_t p = 0; p < plans; p++) {
        uint32_t n = some_plan(), now = next(3) ? 0 : 0xFFFFFFC0;
        state = room + p % 8;
        memset(room, 0xEE, sizeof room);
        memset(places, 0xEE, sizeof places);
        block = places + p / 8 % 8;
        back = page + p / 3 % 8;
        text = words + next(8);
        if (load_rows(n) != 0) continue;
        for (uint32_t i = 0; i < calls; i++) some_call(n, &now);
        for (uint32_t s = 0; s < n; s++) missing(s);
        /* a damaged byte, and the state put back */
        memcpy(copy, state, whole);
        for (uint32_t i = 0; i < 6; i++) {
            uint32_t at = next(4) ? next((n ? n : 1) * 256) : next(2) ? windows_at() + next(1024) : next(whole);
            state[at] ^= (uint8_t)(1 << next(8));
            if (run(1) != 0) memcpy(state, copy, whole);
            some_call(n, &now);
        }
        /* a damaged text */
        uint32_t end = write_plan(text, rows, n);
        if (end) {
            uint32_t at = next(end);
            text[at] ^= (uint8_t)(1 << next(5));
        }
        load(end);
    }
    state = room;
    text = words;
    block = places;
    back = page;
}

/* ---- the longer state, and the copy of one into it */

/* 0 if the records of the copy stand first in the state, then only zeros, then the copy's windows; else in which part another byte is */
static uint32_t unlike_copy(void) {
    if (memcmp(state, copy, SHORT - WINDOWS) != 0) return 1;
    for (uint32_t i = SHORT - WINDOWS; i < LONG - WINDOWS; i++)
        if (state[i] != 0) return 2;
    return memcmp(state + LONG - WINDOWS, copy + SHORT - WINDOWS, WINDOWS) != 0 ? 3 : 0;
}

/* what a copy of the state in the room is widened into: rubbish, at an alignment of its own */
static void take_copy(uint32_t from_offset, uint32_t to_offset) {
    memset(spare, 0x77, sizeof spare);
    copy = spare + from_offset;
    memcpy(copy, state, SHORT);
    memset(room, 0xA5, sizeof room);
    state = room + to_offset;
    lend(LONG);
}

static void put_back(void) {
    state = room;
    copy = spare;
    lend(SHORT);
}

/* cases worked out by hand: firmware/test knows the numbers and the bytes */
static void worked_widen(void) {
    put_back();
    head("worked widen");
    rows[0] = (struct row){ .op = IN };
    rows[1] = (struct row){ .op = WSUM, .k = 3, .out = 1 };
    load_rows(2);
    reading(0, 1, 5);
    reading(0, 2, 6);
    run(9);
    take_copy(0, 0);
    uint64_t before = hash(WIDEN);
    static const uint64_t PAIRS[][2] = { { LONG, LONG }, { SHORT, SHORT }, { LONG, SHORT }, { 0, LONG }, { SHORT, 0 }, { SHORT - 1, LONG }, { SHORT + 1, LONG },
                                         { SHORT, LONG - 1 }, { SHORT, LONG + 1 }, { SHORT + (UINT64_C(1) << 32), LONG }, { SHORT, LONG + (UINT64_C(1) << 32) } };
    for (uint32_t i = 0; i < COUNT(PAIRS); i++) widen(PAIRS[i][0], PAIRS[i][1]);
    /* no state: a byte behind the last stream */
    copy[513] = 1;
    widen(SHORT, LONG);
    copy[513] = 0;
    head(hash(WIDEN) == before ? "both as they were" : "something was changed");
    struct sums source = add_up((struct sums){ 1, 1 }, spare, sizeof spare);
    widen(SHORT, LONG);
    struct sums after = add_up((struct sums){ 1, 1 }, spare, sizeof spare);
    head(source.h == after.h && source.g == after.g ? "the source as it was" : "the source was changed");
    head(unlike_copy() == 0 ? "records, zeros, windows" : "other bytes");
    char b[3 * 24];
    for (uint32_t i = 0; i < 24; i++) {
        b[3 * i] = "0123456789abcdef"[state[16384 + i] >> 4];
        b[3 * i + 1] = "0123456789abcdef"[state[16384 + i] & 15];
        b[3 * i + 2] = ' ';
    }
    b[sizeof b - 1] = 0;
    head(b);
    collect(1);
    reading(0, 3, 7);
    reading(0, 4, 1);
    run(9);
    for (uint32_t i = 0; i < 4; i++) collect(1);
    /* from the longer one itself */
    memcpy(copy, state, LONG);
    widen(LONG, LONG);
    widen(LONG, SHORT);
    /* a state without a plan */
    memset(spare, 0, sizeof spare);
    widen(LONG, LONG);
    widen(SHORT, SHORT);
    widen(SHORT, LONG);
    without_a_plan();
    copy[SHORT - 1] = 1;
    widen(SHORT, LONG);
    put_back();
}

/* every alignment of both buffers; one byte changed that makes no state of it or another one */
static void widens(void) {
    head("widen");
    uint32_t n = eight_windows(rows);
    load_rows(n);
    for (uint32_t i = 0; i < 70; i++) {
        reading(0, 3 * i, VALUES[7 * i % COUNT(VALUES)]);
        run(50);
        for (uint32_t s = 1; s < n; s++)
            while (s % 3 && collect(s) == 0) {}
    }
    take_copy(0, 0);
    for (uint32_t o = 0; o < 8; o++) {
        memmove(spare + o, copy, SHORT);
        copy = spare + o;
        for (uint32_t to = 0; to < 8; to++) {
            memset(room, (int)(o + to), sizeof room);
            state = room + to;
            widen(SHORT, LONG);
            if (unlike_copy()) head("other bytes");
            run(1);
            collect(1 + to);
        }
    }
    state = room;
    for (uint32_t at = 0; at < SHORT; at += at < 600 ? 3 : 89) {
        uint8_t bit = (uint8_t)(1 << at % 8);
        copy[at] ^= bit;
        if (widen(SHORT, LONG) == 0) {
            if (unlike_copy()) head("other bytes");
            run(20);
        }
        copy[at] ^= bit;
    }
    put_back();
}

/* random calls on a state, then the same on it and on the longer copy of it: the same numbers and results, and of the copy the same bytes */
static void random_widens(uint32_t plans, uint32_t calls) {
    head("random widens");
    for (uint32_t p = 0; p < plans; p++) {
        uint32_t n = some_plan(), now = next(3) ? 0 : 0xFFFFFFC0;
        memset(room, 0xEE, sizeof room);
        if (load_rows(n) != 0) continue;
        for (uint32_t i = 0; i < calls; i++) some_call(n, &now);
        take_copy(p % 8, p / 8 % 8);
        if (widen(SHORT, LONG) != 0 || unlike_copy()) head("other bytes");
        uint64_t again = seed;
        uint32_t then = now;
        struct sums of[2];
        for (uint32_t which = 0; which < 2; which++) {
            seed = again;
            now = then;
            answers = (struct sums){ 1, 1 };
            memset(block, 0x11, TESSLA_BLOCK_LENGTH);
            if (which) {
                lend(SHORT);
                state = copy;
            }
            for (uint32_t i = 0; i < calls; i++) some_call(n, &now);
            for (uint32_t s = 0; s < n; s++) missing(s);
            of[which] = answers;
        }
        state = room + p / 8 % 8;
        int same = of[0].h == of[1].h && of[0].g == of[1].g && unlike_copy() == 0;
        put_back();
        head(same ? "the same on both" : "not the same on both");
    }
}

/* a buffer that holds a state of the one length, lent as one of the other */
static void other_length(void) {
    head("lent as the other length");
    memset(room, 0, sizeof room);
    visits();
    load_rows(6);
    reading(0, 3, 7);
    lend(LONG);
    run(100);
    reading(0, 5, 7);
    lend(SHORT);
    run(100);
    while (collect(5) == 0) {}
    rows[0] = (struct row){ .op = IN };
    rows[1] = (struct row){ .op = WMAX, .k = 5, .out = 1 };
    load_rows(2);
    reading(0, 3, 7);
    run(9);
    lend(LONG);
    run(9);
    memset(room, 0, sizeof room);
    load_rows(2);
    reading(0, 3, -7);
    run(9);
    lend(SHORT);
    run(9);
    reading(0, 4, -8);
    run(9);
    collect(1);
    collect(1);
    memset(room, 0, sizeof room);
    lend(LONG);
    for (uint32_t i = 0; i < 33; i++) rows[i] = (struct row){ .op = UNIT };
    load_rows(33);
    lend(SHORT);
    run(9);
}

/* the buffer before its first load, and document 01's example, with what is refused by its length */
static void first_steps(void) {
    head("never loaded");
    without_a_plan();
    no_plan();
    head("visits");
    memset(room, 0, sizeof room);
    visits();
    uint32_t n = write_plan(text, rows, 6);
    load(n);
    reading(0, 3, 7);
    reading(0, 3, 7);
    run(3);
    run(100);
    wrong_lengths(n);
    collect(5);
    collect(5);
    collect(5);
    move(1);
    streams();
}

/* every alignment of the buffer and of the text */
static void alignments(void) {
    for (uint32_t o = 0; o < 8; o++) {
        head("alignment");
        memset(room, 0xEE, sizeof room);
        state = room + o;
        text = words + (7 - o);
        visits();
        load_rows(6);
        stamps();
    }
    state = room;
    text = words;
}

/* in the longer state: all that asks how long it is, how many streams it has room for, or where its windows lie */
static void long_states(void) {
    memset(room, 0, sizeof room);
    lend(LONG);
    first_steps();
    alignments();
    windows();
    zeros();
    texts();
    longest_text();
    moves_by_block();
    every_record();
    random_calls(RANDOM_PLANS / 2, RANDOM_CALLS);
    lend(SHORT);
}

int main(void) {
    first_steps();
    alignments();
    values();
    divisions();
    signals();
    windows();
    zeros();
    full();
    texts();
    worked_texts();
    plan_texts();
    worked_missing();
    all_missing();
    worked_blocks();
    registers();
    moves_by_block();
    every_record();
    random_calls(RANDOM_PLANS, RANDOM_CALLS);
    long_states();
    other_length();
    worked_widen();
    widens();
    random_widens(RANDOM_PLANS / 2, RANDOM_CALLS);
    for (int i = 0; i < CALLS; i++) {
        put("numbers ");
        put(CALL[i]);
        put_hex(returned[i], " of ");
        put_hex(made[i], "\n");
    }
    return 0;
}
