/*
 * The power is cut before, in and after every write and erasure of a save, and once more in the save after that. Each time a
 * restart must find the copy before or the new one, byte for byte, and be able to save again. And a copy that an earlier
 * version saved must be found.
 */
#include <setjmp.h>
#include <stdio.h>
#include <stdlib.h>

#include "../../examples/saving.c"

/* three streams, so that a save has some hundred writes */
static const char PLAN[] =
    "plan=1\nstreams=3\nop=in\na=0\nb=0\nk=0\nout=0\nop=neg\na=0\nb=0\nk=0\nout=1\nop=time\na=1\nb=0\nk=0\nout=0\n";

static uint8_t flash[PLACES][PLACE_LENGTH];

/* how many operations are left before the power is cut; what the one in which it is cut leaves; which operations were made */
static long left;
static int torn;
static long made;
static jmp_buf cut;

enum { NOTHING, HALF, MIXED, KINDS };

static void fail(const char *what) {
    printf("FAILED: %s (operation %ld, kind %d)\n", what, made, torn);
    exit(1);
}

const uint8_t *flash_at(uint32_t place) { return flash[place]; }

/* n bytes become those of `to`, if the power holds: an erasure may leave any of the old and the new bits, a write too */
static void change(uint8_t *at, const uint8_t *to, uint32_t n) {
    made++;
    if (left-- > 0) {
        memcpy(at, to, n);
        return;
    }
    for (uint32_t i = 0; i < n; i++) {
        if (torn == HALF && i < n / 2) at[i] = to[i];
        if (torn == MIXED) at[i] = (uint8_t)((at[i] & 0x5A) | (to[i] & 0xA5));
    }
    longjmp(cut, 1);
}

void flash_erase(uint32_t place) {
    static uint8_t blank[PLACE_LENGTH];
    memset(blank, 0xFF, sizeof blank);
    change(flash[place], blank, PLACE_LENGTH);
}

void flash_write(uint32_t place, uint32_t at, const uint8_t word[WORD]) {
    if (at % WORD != 0 || at + WORD > PLACE_LENGTH) fail("a write across words");
    for (uint32_t i = 0; i < WORD; i++)
        if (flash[place][at + i] != 0xFF) fail("a write over bytes that were not erased");
    change(flash[place] + at, word, WORD);
}

/* four states of a run, one after the other */
static uint8_t states[4][TESSLA_STATE_LENGTH];

static void make_states(void) {
    uint32_t moves;
    if (tessla_load(states[0], TESSLA_STATE_LENGTH, (const uint8_t *)PLAN, sizeof PLAN - 1) != TESSLA_DONE) fail("load");
    for (uint32_t i = 0; i < 4; i++) {
        if (i > 0) memcpy(states[i], states[i - 1], TESSLA_STATE_LENGTH);
        if (tessla_offer_reading(states[i], TESSLA_STATE_LENGTH, 0, 10 * i + 1, 7041) != TESSLA_DONE) fail("offer");
        if (tessla_run(states[i], TESSLA_STATE_LENGTH, 100, &moves) != TESSLA_DONE || moves == 0) fail("run");
    }
}

/* saves state i, the power cut after this many operations; whether it came to its end */
static int save_cut(int i, long operations, int kind) {
    left = operations;
    torn = kind;
    made = 0;
    if (setjmp(cut)) return 0;
    save(states[i]);
    return 1;
}

/* which of the states a restart finds; -1 for none */
static int found(void) {
    static uint8_t state[TESSLA_STATE_LENGTH];
    uint32_t moves;
    memset(state, 0xEE, sizeof state);
    if (!restore(state)) return -1;
    if (tessla_run(state, sizeof state, 0, &moves) != TESSLA_DONE) fail("what was restored is no state");
    for (int i = 0; i < 4; i++)
        if (memcmp(state, states[i], sizeof state) == 0) return i;
    fail("what was restored was never saved");
    return -1;
}

static long cases;

/* state i was saved last, -1 for none: the next is saved with a cut, and the one after it too */
static void try_from(int i) {
    static uint8_t before[PLACES][PLACE_LENGTH], after[PLACES][PLACE_LENGTH];
    memcpy(before, flash, sizeof flash);
    if (!save_cut(i + 1, 1000000, NOTHING) || found() != i + 1) fail("a save without a cut");
    long all = made;
    for (long k = 0; k < all; k++)
        for (int kind = NOTHING; kind < KINDS; kind++) {
            memcpy(flash, before, sizeof flash);
            if (save_cut(i + 1, k, kind)) fail("no cut");
            int now = found();
            if (now != i && !(now == i + 1 && k == all - 1 && kind != NOTHING)) fail("a cut lost the copy before");
            memcpy(after, flash, sizeof flash);
            for (long j = 0; j < all; j += 1 + all / 7) {
                memcpy(flash, after, sizeof flash);
                if (save_cut(now + 1, j, kind)) fail("no second cut");
                int then = found();
                if (then != now && then != now + 1) fail("a second cut lost the copy before");
                cases++;
            }
            memcpy(flash, after, sizeof flash);
            if (!save_cut(now + 1, 1000000, NOTHING) || found() != now + 1) fail("no save after a cut");
            cases++;
        }
    memcpy(flash, before, sizeof flash);
    save_cut(i + 1, 1000000, NOTHING);
}

/* the copy in a place, as if saved by this version */
static void as_of(uint8_t *head, uint8_t major, uint8_t minor) {
    head[6] = major;
    head[7] = minor;
    store_number(head + AT_SUM, sum_of(head, head + HEAD_LENGTH, number_at(head + AT_LENGTH)));
}

/* a logger without a plan saves and finds that, as the first copy of all and after one of a plan. So it does with what a version
   that knew no such plan saved of a buffer that was never loaded: the head alone, too */
static void no_plan(void) {
    static uint8_t empty[TESSLA_STATE_LENGTH], state[TESSLA_STATE_LENGTH];
    uint32_t moves;
    memset(empty, 0xEE, sizeof empty);
    if (tessla_load(empty, sizeof empty, NULL, 0) != TESSLA_DONE) fail("load of no plan");
    for (int minor = 0; minor <= TESSLA_VERSION_MINOR; minor++)
        for (int first = 0; first < 2; first++) {
            memset(flash, 0xFF, sizeof flash);
            if (!first && (!save_cut(1, 1000000, NOTHING) || found() != 1)) fail("a save without a cut");
            left = 1000000;
            save(empty);
            as_of(flash[newest()], TESSLA_VERSION_MAJOR, (uint8_t)minor);
            memset(state, 0xEE, sizeof state);
            if (!restore(state) || memcmp(state, empty, sizeof state) != 0) fail("the copy of no plan is lost");
            if (tessla_run(state, sizeof state, 5, &moves) != TESSLA_DONE || moves != 0) fail("what was restored is no state");
            if (!save_cut(2, 1000000, NOTHING) || found() != 2) fail("no save after a copy of no plan");
        }
}

/* what windows keep lies behind the records, and is saved with them: a copy of a plan with two, one of them full */
static void windows(void) {
    static const char TEXT[] = "plan=1\nstreams=3\nop=in\na=0\nb=0\nk=0\nout=0\nop=wsum\na=0\nb=0\nk=3\nout=0\nop=wmin\na=0\nb=0\nk=64\nout=0\n";
    static uint8_t before[TESSLA_STATE_LENGTH], state[TESSLA_STATE_LENGTH];
    uint32_t moves;
    if (tessla_load(before, sizeof before, (const uint8_t *)TEXT, sizeof TEXT - 1) != TESSLA_DONE) fail("load of windows");
    for (uint32_t t = 0; t < 66; t++) {
        if (tessla_offer_reading(before, sizeof before, 0, t, -1) != TESSLA_DONE) fail("offer");
        if (tessla_run(before, sizeof before, 9, &moves) != TESSLA_DONE || moves != 2) fail("run");
        if (t % 11 != 0) continue;
        memset(flash, 0xFF, sizeof flash);
        left = 1000000;
        save(before);
        memset(state, 0xEE, sizeof state);
        if (!restore(state) || memcmp(state, before, sizeof state) != 0) fail("a copy of windows is not what was saved");
        if (tessla_run(state, sizeof state, 5, &moves) != TESSLA_DONE || moves != 0) fail("what was restored is no state");
    }
}

/* a copy of every earlier minor version is found, and the next save goes on from it; one of another first part is none */
static void versions(void) {
    for (int minor = 0; minor <= TESSLA_VERSION_MINOR; minor++) {
        memset(flash, 0xFF, sizeof flash);
        if (!save_cut(1, 1000000, NOTHING)) fail("a save without a cut");
        as_of(flash[newest()], TESSLA_VERSION_MAJOR, (uint8_t)minor);
        if (found() != 1) fail("a copy of an earlier version is lost");
        if (!save_cut(2, 1000000, NOTHING) || found() != 2) fail("no save after a copy of an earlier version");
    }
    memset(flash, 0xFF, sizeof flash);
    if (!save_cut(1, 1000000, NOTHING)) fail("a save without a cut");
    as_of(flash[newest()], TESSLA_VERSION_MAJOR + 1, TESSLA_VERSION_MINOR);
    if (found() != -1) fail("a copy that this version can't read is taken");
}

int main(void) {
    make_states();
    no_plan();
    windows();
    versions();
    /* flash as it comes, and flash with anything in it */
    for (int fill = 0; fill < 2; fill++) {
        for (uint32_t i = 0; i < sizeof flash; i++) ((uint8_t *)flash)[i] = fill ? (uint8_t)(i * 167 + 13) : 0xFF;
        if (found() != -1) fail("a copy where none was saved");
        for (int i = -1; i < 2; i++) try_from(i);
    }
    printf("%ld cuts\n", cases);
    return 0;
}
