/* Plans as rows, written as plan text into a buffer: for the tests and measurements, on the board and off it. */
#ifndef PLANS_H
#define PLANS_H
#include <stdint.h>

enum {
    IN = 1, NIL, UNIT, TIME, SET, PLUS, NEG, ADD, SUB, MUL, DIV, REM, LT, LE, EQ, KEEP, MERGE, LAST, DELAY,
    SADD, SSUB, SMUL, SDIV, SREM, SLT, SLE, SEQ, WSUM, WMIN, WMAX
};

static const char *const NAMES[] = { "",     "in",   "nil",  "unit", "time", "set", "plus", "neg",   "add",  "sub",
                                     "mul",  "div",  "rem",  "lt",   "le",   "eq",  "keep", "merge", "last", "delay",
                                     "sadd", "ssub", "smul", "sdiv", "srem", "slt", "sle",  "seq",   "wsum", "wmin",
                                     "wmax" };

static inline int is_window(uint8_t op) { return op >= WSUM; }
static inline int uses_b(uint8_t op) { return op >= ADD && !is_window(op); }
static inline int uses_k(uint8_t op) { return op == SET || op == PLUS || is_window(op); }

struct row {
    uint8_t op, a, b, out;
    int64_t k;
};

struct text {
    uint8_t *bytes;
    uint32_t length;
};

static void add_words(struct text *t, const char *words) {
    while (*words) t->bytes[t->length++] = (uint8_t)*words++;
}

static void add_number(struct text *t, int64_t x) {
    char digits[21];
    uint32_t n = 0;
    uint64_t u = x < 0 ? 0 - (uint64_t)x : (uint64_t)x;
    if (x < 0) add_words(t, "-");
    do digits[n++] = (char)('0' + u % 10);
    while (u /= 10);
    while (n) t->bytes[t->length++] = (uint8_t)digits[--n];
}

static void add_line(struct text *t, const char *key, int64_t x) {
    add_words(t, key);
    add_number(t, x);
    add_words(t, "\n");
}

static void add_row(struct text *t, struct row r) {
    add_words(t, "op=");
    add_words(t, NAMES[r.op]);
    add_line(t, "\na=", r.a);
    add_line(t, "b=", r.b);
    add_line(t, "k=", r.k);
    add_line(t, "out=", r.out);
}

/* the text of a plan of n rows; its length, 0 for no rows */
static uint32_t write_plan(uint8_t *bytes, const struct row *rows, uint32_t n) {
    struct text t = { bytes, 0 };
    if (n == 0) return 0;
    add_line(&t, "plan=", 1);
    add_line(&t, "streams=", n);
    for (uint32_t i = 0; i < n; i++) add_row(&t, rows[i]);
    return t.length;
}

/* an input, and as many windows as a plan may have, each as wide as one may be; nine rows */
static inline uint32_t eight_windows(struct row *rows) {
    rows[0] = (struct row){ .op = IN };
    for (uint8_t i = 1; i <= 8; i++) rows[i] = (struct row){ .op = (uint8_t)(WSUM + i % 3), .k = 64, .out = 1 };
    return 9;
}
#endif
