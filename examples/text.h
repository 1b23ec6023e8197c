/* Text for the examples: numbers in decimal, and what was refused in words. The board brings `put` itself. */
#ifndef TEXT_H
#define TEXT_H

#include <stdint.h>

#ifndef BOARD_H
#include <stdio.h>
static void put(const char *text) { fputs(text, stdout); }
#endif

#define TESSLA_TEXTS
#include "tessla.h"

static void put_number(const char *before, int64_t x, const char *after) {
    char b[24];
    int i = 23;
    uint64_t u = x < 0 ? 0 - (uint64_t)x : (uint64_t)x;
    b[i] = 0;
    do b[--i] = (char)('0' + u % 10);
    while (u /= 10);
    if (x < 0) b[--i] = '-';
    put(before);
    put(b + i);
    put(after);
}

static void put_refused(uint32_t number) {
    put_number("refused=", number, ": ");
    put(tessla_text(number));
    put("\n");
}

#endif
