/*
 * The example logger's loop works until nothing moves or waits. An output is full and its input holds 16 more: a run makes no
 * move, the collection after it makes room, and all 32 events have to be handed out by one call of work.
 */
#include <stdio.h>

/* the example's text output, counted here */
#define BOARD_H
static int printed;
static void put(const char *text) {
    for (; *text; text++) printed += *text == '\n';
}
#define main logger_main
#include "../../examples/logger.c"
#undef main

static const char NEG[] = "plan=1\nstreams=2\nop=in\na=0\nb=0\nk=0\nout=0\nop=neg\na=0\nb=0\nk=0\nout=1\n";

static int offer_16_from(uint32_t first) {
    int taken = 0;
    for (uint32_t stamp = first; stamp < first + 16; stamp++) taken += tessla_offer_reading(state, sizeof state, 0, stamp, 7) == TESSLA_DONE;
    return taken;
}

int main(void) {
    uint32_t moves = 1;
    if (tessla_load(state, sizeof state, (const uint8_t *)NEG, sizeof NEG - 1) != TESSLA_DONE) return 2;
    /* as in a copy that was put back before anything was collected */
    if (offer_16_from(1) != 16 || tessla_run(state, sizeof state, 100, &moves) != TESSLA_DONE || moves != 16) return 2;
    if (offer_16_from(17) != 16 || tessla_run(state, sizeof state, 100, &moves) != TESSLA_DONE || moves != 0) return 2;
    work();
    printf("%d events handed out, 32 wait\n", printed);
    return printed != 32;
}
