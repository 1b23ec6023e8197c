/*
 * The benchmark's program, linked once with each engine: for each plan and operation it makes the same calls on many copies
 * of the same state, of the shorter length where the plan fits it. Natively it prints the time of a call, under callgrind it
 * dumps the instructions of each operation.
 */
#define _POSIX_C_SOURCE 199309L
#include <stdio.h>
#include <stdlib.h>
#include <string.h>
#include <time.h>

#include <valgrind/callgrind.h>

#include "tessla.h"

enum { COPIES = 256, MOVES = 4096 };

static uint8_t (*copies)[TESSLA_LONG_STATE_LENGTH];
static uint8_t start[TESSLA_LONG_STATE_LENGTH], wide[TESSLA_LONG_STATE_LENGTH];
static uint64_t length; /* of the states at present */
static uint8_t block[TESSLA_BLOCK_LENGTH];
static uint8_t page[TESSLA_TEXT_LIMIT];
static unsigned used; /* of the copies: all, or few under callgrind */

static void fail(const char *what) {
    fprintf(stderr, "benchmark: %s\n", what);
    exit(1);
}

/* ---- plans in short form: "in; set 0 k5; merge 4 2 out" */

struct plan {
    const char *name;
    char text[TESSLA_TEXT_LIMIT + 1];
    unsigned streams, inputs, outputs;
    uint32_t input[TESSLA_LONG_STREAM_LIMIT], output[TESSLA_LONG_STREAM_LIMIT];
};

static void make(struct plan *p, const char *name, const char *form) {
    char body[TESSLA_TEXT_LIMIT] = "", copy[TESSLA_TEXT_LIMIT];
    memset(p, 0, sizeof *p);
    p->name = name;
    strcpy(copy, form);
    char *rest = copy, *part, *at;
    while ((part = strtok_r(rest, ";", &rest))) {
        char op[8] = "";
        long long k = 0;
        long args[2] = { 0, 0 };
        int n = 0, out = 0;
        for (char *word = strtok_r(part, " ", &at); word; word = strtok_r(NULL, " ", &at)) {
            if (!op[0]) strcpy(op, word);
            else if (strcmp(word, "out") == 0) out = 1;
            else if (word[0] == 'k') k = atoll(word + 1);
            else args[n++] = atol(word);
        }
        char line[128];
        snprintf(line, sizeof line, "op=%s\na=%ld\nb=%ld\nk=%lld\nout=%d\n", op, args[0], args[1], k, out);
        strcat(body, line);
        if (strcmp(op, "in") == 0) p->input[p->inputs++] = p->streams;
        if (out) p->output[p->outputs++] = p->streams;
        p->streams++;
    }
    snprintf(p->text, sizeof p->text, "plan=1\nstreams=%u\n%s", p->streams, body);
    length = p->streams > TESSLA_STREAM_LIMIT ? TESSLA_LONG_STATE_LENGTH : TESSLA_STATE_LENGTH;
}

static void chain(struct plan *p, unsigned n) {
    static char names[TESSLA_LONG_STREAM_LIMIT][16];
    char form[TESSLA_TEXT_LIMIT] = "in";
    for (unsigned i = 0; i < n; i++) sprintf(form + strlen(form), "; neg %u%s", i, i + 1 == n ? " out" : "");
    sprintf(names[n], "CHAIN(%u)", n);
    make(p, names[n], form);
}

/* in, n neg of it, n - 1 add that join them */
static void tree(struct plan *p, const char *name, unsigned n) {
    char form[TESSLA_TEXT_LIMIT] = "in";
    for (unsigned i = 0; i < n; i++) strcat(form, "; neg 0");
    for (unsigned i = 0; i + 1 < n; i++) sprintf(form + strlen(form), "; add %u %u%s", 2 * i + 1, 2 * i + 2, i + 2 == n ? " out" : "");
    make(p, name, form);
}

static void readers(struct plan *p, const char *name, unsigned n) {
    char form[TESSLA_TEXT_LIMIT] = "in";
    for (unsigned i = 0; i < n; i++) sprintf(form + strlen(form), "; plus 0 k%u%s", i, i + 1 == n ? " out" : "");
    make(p, name, form);
}

/* ---- measuring */

static struct timespec begun;

static void begin(void) {
    CALLGRIND_ZERO_STATS;
    CALLGRIND_TOGGLE_COLLECT;
    clock_gettime(CLOCK_MONOTONIC, &begun);
}

static void end(const char *plan, const char *operation, unsigned long calls, unsigned long unit) {
    struct timespec ended;
    clock_gettime(CLOCK_MONOTONIC, &ended);
    CALLGRIND_TOGGLE_COLLECT;
    char label[96];
    snprintf(label, sizeof label, "%s|%s|%lu|%lu", plan, operation, calls, unit);
    CALLGRIND_DUMP_STATS_AT(label);
    double ns = 1e9 * (double)(ended.tv_sec - begun.tv_sec) + (double)(ended.tv_nsec - begun.tv_nsec);
    printf("%s|%.1f\n", label, ns / (double)calls);
}

static void spread(void) {
    for (unsigned i = 0; i < used; i++) memcpy(copies[i], start, length);
}

static void run_to_rest(uint8_t *s) {
    uint32_t moves;
    do
        if (tessla_run(s, length, 1000, &moves) != 0) fail("run");
    while (moves == 1000);
}

static void collect_all(const struct plan *p, uint8_t *s) {
    uint32_t stamp;
    int64_t value;
    for (unsigned i = 0; i < p->outputs; i++)
        while (tessla_collect(s, length, p->output[i], &stamp, &value) == 0) {}
}

/* a state in the middle of things: some readings worked off, all collected, `batch` more offered on each input */
static void prepare(const struct plan *p, unsigned batch) {
    uint32_t t = 1;
    if (tessla_load(start, length, (const uint8_t *)p->text, strlen(p->text)) != 0) fail(p->name);
    for (unsigned round = 0; round < 3 + batch; round++) {
        if (round < 3) {
            run_to_rest(start);
            collect_all(p, start);
        }
        if (round == 3) {
            for (unsigned i = 0; i < p->inputs; i++)
                if (tessla_offer_progress(start, length, p->input[i], t) != 0) fail("progress");
            run_to_rest(start);
            collect_all(p, start);
        }
        /* one after the other, and now and then together, as readings come */
        for (unsigned i = 0; i < p->inputs; i++)
            if (tessla_offer_reading(start, length, p->input[i], t + (round % 3 ? i : 0), 1 + (int64_t)t) != 0) fail("offer");
        t += p->inputs + 2;
    }
}

/* every copy of the start to rest: what a move costs, or a whole run. Gives the moves of all copies together */
static unsigned long all_to_rest(const struct plan *p, int whole) {
    unsigned long total = 0;
    uint32_t moves;
    spread();
    begin();
    for (unsigned i = 0; i < used; i++) {
        tessla_run(copies[i], length, 100000, &moves);
        total += moves;
    }
    end(p->name, whole ? "run to rest" : "run to rest, a move", whole ? used : total, p->streams);
    return total;
}

static void registered(uint8_t *s, uint32_t at, uint8_t byte) {
    if (tessla_register_write(s, length, block, sizeof block, at, byte) != 0) fail("register write");
}

/* the plan's text back from every copy, and that it is the one that was loaded */
static void texts(const struct plan *p) {
    uint64_t written = 0;
    begin();
    for (unsigned i = 0; i < used; i++)
        if (tessla_plan_text(copies[i], length, page, sizeof page, &written) != 0) fail("plan text");
    end(p->name, "plan text", used, p->streams);
    if (written != strlen(p->text) || memcmp(page, p->text, written) != 0) fail("another plan text");
}

/* the counts of the plan's last stream, of every copy */
static void counts(const struct plan *p) {
    uint32_t outside, zero;
    begin();
    for (unsigned i = 0; i < used; i++)
        if (tessla_missing(copies[i], length, p->streams - 1, &outside, &zero) != 0) fail("missing");
    end(p->name, "missing", used, p->streams);
}

/* every copy of the shorter length widened, and that it is the same plan at the same point */
static void widened(const struct plan *p) {
    if (length != TESSLA_STATE_LENGTH) return;
    begin();
    for (unsigned i = 0; i < used; i++)
        if (tessla_widen(copies[i], length, wide, sizeof wide) != 0) fail("widen");
    end(p->name, "widen", used, p->streams);
    if (tessla_bounds_in(wide, sizeof wide) != tessla_bounds(copies[0])) fail("other bounds");
    if (memcmp(wide + TESSLA_LONG_WINDOWS, copies[0] + TESSLA_WINDOWS, 8 * TESSLA_WINDOW) != 0) fail("other windows");
}

static void operations(const struct plan *p) {
    uint32_t moves, stamp;
    int64_t value;

    begin();
    for (unsigned i = 0; i < used; i++) tessla_load(copies[i], length, (const uint8_t *)p->text, strlen(p->text));
    end(p->name, "load", used, p->streams);

    prepare(p, 0);
    run_to_rest(start);
    collect_all(p, start);
    spread();
    begin();
    for (unsigned i = 0; i < used; i++) tessla_run(copies[i], length, 0, &moves);
    end(p->name, "check alone", used, p->streams);

    begin();
    for (unsigned i = 0; i < used; i++) tessla_run(copies[i], length, 64, &moves);
    end(p->name, "run at rest", used, p->streams);

    texts(p);
    counts(p);
    widened(p);

    begin();
    for (unsigned i = 0; i < used; i++) registered(copies[i], TESSLA_AT_COMMAND, TESSLA_COMMAND_RUN);
    end(p->name, "command 3 at rest", used, p->streams);

    begin();
    for (unsigned i = 0; i < used; i++)
        for (uint32_t at = TESSLA_AT_STREAM; at < TESSLA_AT_COMMAND; at++) registered(copies[i], at, (uint8_t)i);
    end(p->name, "plain write", (unsigned long)used * TESSLA_AT_COMMAND, p->streams);

    begin();
    for (unsigned i = 0; i < used; i++)
        if (tessla_offer_reading(copies[i], length, p->input[0], 1000, 7) != 0) fail("offer");
    end(p->name, "offer", used, p->streams);

    /* 1000 in two bytes */
    spread();
    memset(block, 0, sizeof block);
    block[TESSLA_AT_STREAM] = (uint8_t)p->input[0];
    block[TESSLA_AT_STAMP] = 0xE8;
    block[TESSLA_AT_STAMP + 1] = 0x03;
    block[TESSLA_AT_VALUE] = 7;
    begin();
    for (unsigned i = 0; i < used; i++) registered(copies[i], TESSLA_AT_COMMAND, TESSLA_COMMAND_OFFER);
    end(p->name, "command 1", used, p->streams);

    /* which equations move, one after the other, after a batch of readings */
    prepare(p, 8);
    static uint32_t order[MOVES];
    unsigned made = 0;
    memcpy(copies[0], start, length);
    for (; made < MOVES; made++) {
        static uint8_t before[TESSLA_LONG_STATE_LENGTH];
        memcpy(before, copies[0], length);
        tessla_run(copies[0], length, 1, &moves);
        if (moves == 0) break;
        /* the one whose bound is another, bytes 16 to 23 of its record */
        uint32_t s = 0;
        while (s < p->streams && memcmp(before + s * TESSLA_RECORD + 16, copies[0] + s * TESSLA_RECORD + 16, 8) == 0) s++;
        order[made] = s;
    }
    spread();
    begin();
    for (unsigned i = 0; i < used; i++)
        for (unsigned j = 0; j < made; j++)
            if (tessla_move(copies[i], length, order[j]) != 0) fail("move");
    end(p->name, "move", (unsigned long)used * made, p->streams);

    if (all_to_rest(p, 0) != (unsigned long)used * made) fail("run and moves differ");

    unsigned long events = 0;
    begin();
    for (unsigned i = 0; i < used; i++)
        for (unsigned o = 0; o < p->outputs; o++)
            while (tessla_collect(copies[i], length, p->output[o], &stamp, &value) == 0) events++;
    end(p->name, "collect", events + (unsigned long)used * p->outputs, p->streams);
}

/* cost against the events held: a sum that waits for its second input */
static void held(unsigned n) {
    static struct plan p;
    static char names[TESSLA_ROOM + 1][16];
    uint32_t moves;
    sprintf(names[n], "HELD(%u)", n);
    make(&p, names[n], "in; in; add 0 1 out");
    if (tessla_load(start, length, (const uint8_t *)p.text, strlen(p.text)) != 0) fail(p.name);
    for (uint32_t t = 0; t < n; t++)
        if (tessla_offer_reading(start, length, 0, 2 * t, 5) != 0) fail("offer");
    run_to_rest(start);
    spread();
    begin();
    for (unsigned i = 0; i < used; i++) tessla_run(copies[i], length, 0, &moves);
    end(p.name, "check alone", used, n);
    begin();
    for (unsigned i = 0; i < used; i++)
        if (tessla_offer_reading(copies[i], length, 1, 40, 7) != 0) fail("offer");
    end(p.name, "offer", used, n);
    if (tessla_offer_progress(start, length, 1, 40) != 0) fail("progress");
    if (n > 0) {
        spread();
        begin();
        for (unsigned i = 0; i < used; i++)
            if (tessla_move(copies[i], length, 2) != 0) fail("move");
        end(p.name, "move", used, n);
    }
}

/* the longest text of n streams: n - 1 values of 20 characters */
static void longest(const char *name, unsigned n, size_t bytes) {
    static struct plan p;
    uint32_t moves;
    char form[TESSLA_TEXT_LIMIT] = "";
    for (unsigned i = 0; i + 1 < n; i++) sprintf(form + strlen(form), "plus %u k-9223372036854775808 out; ", n - 1);
    strcat(form, "unit out");
    make(&p, name, form);
    if (strlen(p.text) != bytes || tessla_load(start, length, (const uint8_t *)p.text, strlen(p.text)) != 0) fail(p.name);
    spread();
    begin();
    for (unsigned i = 0; i < used; i++) tessla_run(copies[i], length, 0, &moves);
    end(p.name, "check alone", used, p.streams);
    texts(&p);
}

/* 70 readings of one input, each worked off and collected: a window of 64 is full. Then one reading more, by its calls and to rest */
static void windowed(const char *name, const char *form) {
    static struct plan p;
    uint32_t moves;
    make(&p, name, form);
    if (tessla_load(start, length, (const uint8_t *)p.text, strlen(p.text)) != 0) fail(p.name);
    for (uint32_t t = 1; t <= 70; t++) {
        if (tessla_offer_reading(start, length, 0, t, (int64_t)(t * 2654435761u % 200001) - 100000) != 0) fail("offer");
        run_to_rest(start);
        collect_all(&p, start);
    }
    spread();
    begin();
    for (unsigned i = 0; i < used; i++) tessla_run(copies[i], length, 0, &moves);
    end(p.name, "check alone", used, p.streams);
    widened(&p);

    begin();
    for (unsigned i = 0; i < used; i++) {
        if (tessla_offer_reading(copies[i], length, 0, 90, 7) != 0) fail("offer");
        tessla_run(copies[i], length, 100000, &moves);
    }
    end(p.name, "a reading to rest", used, p.streams);
    if (moves != p.outputs) fail("a move of each window");

    if (tessla_offer_reading(start, length, 0, 90, 7) != 0) fail("offer");
    spread();
    begin();
    for (unsigned i = 0; i < used; i++)
        if (tessla_move(copies[i], length, 1) != 0) fail("move");
    end(p.name, "move", used, p.streams);

    all_to_rest(&p, 0);
}

/* a wsum of 64 that is full: one move passes 16 readings, at each of which the sum is out of range */
static void missing_sums(void) {
    static struct plan p;
    make(&p, "MISSING(16)", "in; wsum 0 k64 out");
    if (tessla_load(start, length, (const uint8_t *)p.text, strlen(p.text)) != 0) fail(p.name);
    for (uint32_t t = 1; t <= 86; t++) {
        if (tessla_offer_reading(start, length, 0, t, t > 68 ? INT64_MAX : 7) != 0) fail("offer");
        if (t > 70) continue;
        run_to_rest(start);
        collect_all(&p, start);
    }
    if (all_to_rest(&p, 0) != used) fail("one move past all of them");
}

/*
 * One move that passes 16 readings of each of two inputs, at one stamp or by turns, with no event at any of them: of keep, which counts
 * nothing, and of arithmetic that counts each.
 */
static void passing(const char *name, const char *form, uint32_t apart, int64_t x, int64_t y, uint32_t outside, uint32_t zero) {
    static struct plan p;
    uint32_t found_outside, found_zero;
    make(&p, name, form);
    if (tessla_load(start, length, (const uint8_t *)p.text, strlen(p.text)) != 0) fail(p.name);
    for (uint32_t t = 0; t < TESSLA_ROOM; t++)
        if (tessla_offer_reading(start, length, 0, 4 * t, x) != 0 || tessla_offer_reading(start, length, 1, 4 * t + apart, y) != 0) fail("offer");
    for (uint32_t input = 0; input < 2; input++)
        if (tessla_offer_progress(start, length, input, 4 * TESSLA_ROOM) != 0) fail("progress");
    if (all_to_rest(&p, 1) != used) fail("one move past all of them");
    if (tessla_missing(copies[0], length, 2, &found_outside, &found_zero) != 0) fail("missing");
    if (found_outside != outside || found_zero != zero) fail("other counts");
}

static void all_passing(void) {
    passing("KEEP(16)", "in; in; keep 0 1 out", 0, 7, 0, 0, 0);
    passing("DIV(16)", "in; in; div 0 1 out", 0, 7, 0, 0, 16);
    passing("MUL(16)", "in; in; mul 0 1 out", 0, INT64_MAX, 2, 16, 0);
    /* its first stamp has an event of the first input alone */
    passing("SDIV(32)", "in; in; sdiv 0 1 out", 1, 7, 0, 0, 31);
}

static int alone; /* only these runs, and what bytes they leave */

static uint32_t fingerprint(const uint8_t *s) {
    uint32_t h = 2166136261u;
    for (unsigned i = 0; i < length; i++) h = (h ^ s[i]) * 16777619u;
    return h;
}

/* 16 readings of stream 0 that all its readers wait for; after so many moves run to rest, with so many more. An input beside it has
   nothing there */
static void space(const char *name, const char *form, uint32_t before, unsigned long moves) {
    static struct plan p;
    uint32_t made;
    make(&p, name, form);
    if (tessla_load(start, length, (const uint8_t *)p.text, strlen(p.text)) != 0) fail(p.name);
    for (uint32_t t = 0; t < TESSLA_ROOM; t++)
        if (tessla_offer_reading(start, length, 0, 3 * t, 5) != 0) fail("offer");
    if (p.inputs > 1 && tessla_offer_progress(start, length, 1, 3 * TESSLA_ROOM) != 0) fail("progress");
    if (tessla_run(start, length, before, &made) != 0 || made != before) fail(p.name);
    if (all_to_rest(&p, 1) != used * moves) fail(p.name);
    if (alone) printf("%s|bytes|%08x|0|0\n", p.name, fingerprint(copies[0]));
}

static void spaces(void) {
    char form[TESSLA_TEXT_LIMIT] = "in";
    for (unsigned i = 0; i < 31; i++) strcat(form, "; neg 0");
    space("31 readers, one let go at a time", form, 0, 31 * TESSLA_ROOM);
    strcpy(form, "in; in");
    for (unsigned i = 0; i < 30; i++) strcat(form, "; keep 0 1");
    space("30 readers, 16 let go at once", form, 0, 30);
    space("30 readers, the move that lets 16 go", form, 29, 1);
}

/* "harness readers": only the runs in which readers pass held events */
int main(int words, char **word) {
    static struct plan p;
    alone = words > 1 && strcmp(word[1], "readers") == 0;
    used = RUNNING_ON_VALGRIND ? 4 : COPIES;
    copies = malloc(sizeof *copies * COPIES);
    if (!copies) fail("no memory");
    memset(copies, 0, sizeof *copies * COPIES);
    spaces();
    if (alone) return 0;

    make(&p, "visits", "in; unit; set 1 k0; last 5 0; plus 3 k1; merge 4 2 out");
    operations(&p);
    /* document 000, appendix A.1: runtime, with the signal lift of sub and on */
    make(&p, "runtime", "in; in; time 0; time 1; last 3 2; merge 3 4; last 2 3; merge 2 6; sub 5 7; set 1 k1; keep 8 9 out");
    operations(&p);
    /* incdec: inputs setInc, getInc, setDec, getDec; value is stream 10 */
    make(&p, "incdec", "in; in; in; in; unit; last 10 1; plus 5 k1; last 10 3; plus 7 k-1; last 6 0; merge 9 12 out; last 8 2; merge 11 4");
    operations(&p);
    /* resetCount: inputs e, reset; 1 where both, 0 where reset alone, one more where e alone */
    make(&p, "resetCount", "in; in; unit; last 10 0; plus 3 k1; set 0 k1; set 1 k1; keep 5 6; set 1 k0; merge 8 4; merge 11 2 out; merge 7 9");
    operations(&p);
    /* weight and the last known temperature: as one signal form, and as the five streams that it stands for */
    make(&p, "SIGNAL", "in; in; ssub 0 1 out");
    operations(&p);
    make(&p, "SPELLED", "in; in; last 0 1; merge 0 2; last 1 0; merge 1 4; sub 3 5 out");
    operations(&p);
    static const unsigned lengths[] = { 1, 3, 7, 15, 23, 31, 47, 63 };
    for (unsigned i = 0; i < sizeof lengths / sizeof *lengths; i++) {
        chain(&p, lengths[i]);
        operations(&p);
    }
    tree(&p, "TREE(31)", 16);
    operations(&p);
    tree(&p, "TREE(63)", 32);
    operations(&p);
    readers(&p, "READERS(31)", 31);
    operations(&p);
    readers(&p, "READERS(63)", 63);
    operations(&p);
    /* what the longer state costs a plan that the shorter one takes */
    chain(&p, 31);
    p.name = "CHAIN(31), longer state";
    length = TESSLA_LONG_STATE_LENGTH;
    operations(&p);
    longest("LONGEST", 32, 1470);
    longest("LONGEST(64)", 64, 2942);
    for (unsigned n = 0; n <= TESSLA_ROOM; n += 4) held(n);
    /* a window of the latest 64 values beside neg in its place; then all eight */
    windowed("NEG", "in; neg 0 out");
    windowed("WSUM(64)", "in; wsum 0 k64 out");
    windowed("WMIN(64)", "in; wmin 0 k64 out");
    windowed("WMAX(64)", "in; wmax 0 k64 out");
    windowed("WINDOWS(8)", "in; wsum 0 k64 out; wmin 0 k64 out; wmax 0 k64 out; wsum 0 k64 out; wmin 0 k64 out; wmax 0 k64 out; wsum 0 k64 out; wmin 0 k64 out");
    missing_sums();
    all_passing();
    return 0;
}
