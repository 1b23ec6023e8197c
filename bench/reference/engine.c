/*
 * A plain C engine of the same calls, written apart from the proved library: the second oracle of the tests and the
 * measure of the benchmark. It works in place on the lent bytes, makes the same checks and leaves the same bytes.
 */
#include "engine.h"

#include <stdbool.h>
#include <stddef.h>
#include <string.h>

enum { MOST = 64, ROOM = 16, RECORD = 256, EVENTS = 64, SLOT = 12, TEXT = 4096 };
/* windows: how many, their greatest width, the bytes of one and of all; they lie behind the records, up to the state's end */
enum { WINDOWS = 8, WIDEST = 64, WINDOW = 8 * WIDEST, BEHIND = WINDOWS * WINDOW };
/* the two lengths of a state, for 32 streams and for 64 */
enum { SHORT = 32 * RECORD + BEHIND, LONG = MOST * RECORD + BEHIND };
#define HORIZON UINT64_C(4294967296)

enum op {
    NONE, IN, NIL, UNIT, TIME, SET, PLUS, NEG, ADD, SUB, MUL, DIV, REM, LT, LE, EQ, KEEP, MERGE, LAST, DELAY,
    SADD, SSUB, SMUL, SDIV, SREM, SLT, SLE, SEQ, WSUM, WMIN, WMAX, OPS
};

static const char *const NAMES[OPS] = { "",     "in",   "nil",  "unit", "time", "set",  "plus", "neg",   "add",  "sub",
                                        "mul",  "div",  "rem",  "lt",   "le",   "eq",   "keep", "merge", "last", "delay",
                                        "sadd", "ssub", "smul", "sdiv", "srem", "slt",  "sle",  "seq",   "wsum", "wmin",
                                        "wmax" };

static bool is_window(unsigned op) { return op >= WSUM && op <= WMAX; }
static bool uses_a(unsigned op) { return op >= TIME; }
static bool uses_b(unsigned op) { return op >= ADD && op <= SEQ; }
static bool uses_k(unsigned op) { return op == SET || op == PLUS || is_window(op); }
/* the first argument of a last or a delay is delayed */
static bool waits_for_a(unsigned op) { return uses_a(op) && op != LAST && op != DELAY; }
/* the signal forms stand in the order of the operations that they do */
static bool is_signal(unsigned op) { return op >= SADD && op <= SEQ; }
static unsigned operation(unsigned signal) { return signal - SADD + ADD; }
/* those whose events may be missing with something to work on: the arithmetic, its signal forms, the sum of a window */
static bool counts(unsigned op) { return (op >= PLUS && op <= REM) || (op >= SADD && op <= SREM) || op == WSUM; }

/* ---- numbers in bytes, least byte first */

static uint32_t get4(const uint8_t *p) {
    return (uint32_t)p[0] | (uint32_t)p[1] << 8 | (uint32_t)p[2] << 16 | (uint32_t)p[3] << 24;
}

static uint64_t get8(const uint8_t *p) { return (uint64_t)get4(p) | (uint64_t)get4(p + 4) << 32; }

static void put4(uint8_t *p, uint32_t x) {
    p[0] = (uint8_t)x;
    p[1] = (uint8_t)(x >> 8);
    p[2] = (uint8_t)(x >> 16);
    p[3] = (uint8_t)(x >> 24);
}

static void put8(uint8_t *p, uint64_t x) {
    put4(p, (uint32_t)x);
    put4(p + 4, (uint32_t)(x >> 32));
}

static int64_t value_of(uint64_t bits) {
    int64_t v;
    memcpy(&v, &bits, sizeof v);
    return v;
}

/* ---- one record */

static unsigned op_of(const uint8_t *r) { return r[0]; }
static unsigned arg_a(const uint8_t *r) { return r[1]; }
static unsigned arg_b(const uint8_t *r) { return r[2]; }
static bool is_out(const uint8_t *r) { return r[3] != 0; }
static unsigned held(const uint8_t *r) { return r[4]; }
static int64_t k_of(const uint8_t *r) { return value_of(get8(r + 8)); }
static uint64_t bound_of(const uint8_t *r) { return get8(r + 16); }
static uint64_t mark_of(const uint8_t *r) { return get8(r + 24); }
static uint32_t stamp_at(const uint8_t *r, unsigned j) { return get4(r + EVENTS + SLOT * j); }
static int64_t value_at(const uint8_t *r, unsigned j) { return value_of(get8(r + EVENTS + SLOT * j + 4)); }

struct maybe {
    bool is;
    int64_t v;
};

static const struct maybe NOTHING = { false, 0 };

static struct maybe some(int64_t v) { return (struct maybe){ true, v }; }

static struct maybe kept(const uint8_t *r, unsigned flag, unsigned at) {
    return r[flag] ? some(value_of(get8(r + at))) : NOTHING;
}

static void keep(uint8_t *r, unsigned flag, unsigned at, struct maybe m) {
    r[flag] = m.is;
    put8(r + at, m.is ? (uint64_t)m.v : 0);
}

/* of a last: the latest value of a below the bound */
static struct maybe prev_of(const uint8_t *r) { return kept(r, 5, 32); }
/* of a delay: one past the latest set point, a's value there, a's value just below the bound */
static uint64_t since_of(const uint8_t *r) { return get8(r + 32); }
static struct maybe set_of(const uint8_t *r) { return kept(r, 5, 40); }
static struct maybe prior_of(const uint8_t *r) { return kept(r, 6, 48); }
/* of a signal form: the latest values of a and of b below the bound */
static struct maybe latest_a(const uint8_t *r) { return kept(r, 5, 32); }
static struct maybe latest_b(const uint8_t *r) { return kept(r, 6, 40); }

/* at how many stamps below the bound the result was outside the range, and the divisor 0 */
static uint32_t outside_of(const uint8_t *r) { return get4(r + 56); }
static uint32_t zero_of(const uint8_t *r) { return get4(r + 60); }

/* of a window: how many values it keeps, and how many it keeps at most */
static unsigned fill_of(const uint8_t *r) { return r[5]; }
static unsigned width_of(const uint8_t *r) { return (unsigned)k_of(r); }
static int64_t value_in(const uint8_t *w, unsigned i) { return value_of(get8(w + 8 * i)); }

/* of a state that has a right length: how many streams there is room for, its cap */
static unsigned cap_of(uint64_t length) { return (unsigned)(length - BEHIND) / RECORD; }
static bool length_good(uint64_t length) { return length == SHORT || length == LONG; }

/* a state that a call works on: its bytes, how many streams it has and how many it has room for */
struct plan {
    uint8_t *state;
    unsigned n, cap;
};

/* where the values of a window lie, by its rank among the plan's windows */
static uint8_t *window_of(struct plan p, const uint8_t *o) {
    unsigned rank = 0;
    for (const uint8_t *r = p.state; r < o; r += RECORD) rank += is_window(op_of(r));
    return p.state + RECORD * p.cap + WINDOW * rank;
}

/* the number of held events below stamp t: the place of the first one at t or later */
static unsigned place(const uint8_t *r, uint64_t t) {
    unsigned j = 0;
    while (j < held(r) && stamp_at(r, j) < t) j++;
    return j;
}

static struct maybe event_at(const uint8_t *r, uint64_t t) {
    unsigned j = place(r, t);
    return j < held(r) && stamp_at(r, j) == t ? some(value_at(r, j)) : NOTHING;
}

/* one past the latest held stamp below t, or 0 */
static uint64_t past_latest(const uint8_t *r, uint64_t t) {
    unsigned j = place(r, t);
    return j > 0 ? (uint64_t)stamp_at(r, j - 1) + 1 : 0;
}

static struct maybe latest(const uint8_t *r, uint64_t t) {
    unsigned j = place(r, t);
    return j > 0 ? some(value_at(r, j - 1)) : NOTHING;
}

static struct maybe or_else(struct maybe x, struct maybe y) { return x.is ? x : y; }

static uint64_t least(uint64_t x, uint64_t y) { return x < y ? x : y; }
static uint64_t most(uint64_t x, uint64_t y) { return x > y ? x : y; }

/* ---- number 15 */

static bool all_zero(const uint8_t *p, size_t n) {
    uint64_t any = 0;
    size_t i = 0;
    for (; i + 8 <= n; i += 8) {
        uint64_t w;
        memcpy(&w, p + i, 8);
        any |= w;
    }
    for (; i < n; i++) any |= p[i];
    return any == 0;
}

static bool fields_good(unsigned op, unsigned a, unsigned b, bool k_is_0, unsigned out, unsigned n) {
    if (uses_a(op) ? a >= n : a != 0) return false;
    if (uses_b(op) ? b >= n : b != 0) return false;
    if (!k_is_0 && !uses_k(op)) return false;
    return op != IN || out == 0;
}

/* the width of a window, as a k's bits */
static bool width_good(uint64_t k) { return k >= 1 && k <= WIDEST; }

struct edges {
    uint8_t count[MOST];
    uint8_t to[MOST][2];
};

static void note(struct edges *e, unsigned s, unsigned op, unsigned a, unsigned b) {
    unsigned c = 0;
    if (waits_for_a(op)) e->to[s][c++] = (uint8_t)a;
    if (uses_b(op)) e->to[s][c++] = (uint8_t)b;
    e->count[s] = (uint8_t)c;
}

/* colours: 0 not met, 1 being followed, 2 clear */
static bool clear(const struct edges *e, uint8_t *colour, unsigned s) {
    if (colour[s] != 0) return colour[s] == 2;
    colour[s] = 1;
    for (unsigned i = 0; i < e->count[s]; i++)
        if (!clear(e, colour, e->to[s][i])) return false;
    colour[s] = 2;
    return true;
}

static bool no_cycle(const struct edges *e, unsigned n) {
    uint8_t colour[MOST] = { 0 };
    for (unsigned s = 0; s < n; s++)
        if (!clear(e, colour, s)) return false;
    return true;
}

static bool kept_good(const uint8_t *r) {
    uint64_t bound = bound_of(r);
    if (op_of(r) < LAST) return r[5] == 0 && r[6] == 0 && all_zero(r + 32, 24);
    if (op_of(r) == LAST) {
        if (r[5] > 1 || (r[5] == 0 && get8(r + 32) != 0) || (bound == 0 && r[5] != 0)) return false;
        return r[6] == 0 && get8(r + 40) == 0 && get8(r + 48) == 0;
    }
    if (op_of(r) == DELAY) {
        if (r[5] > 1 || (r[5] == 0 && get8(r + 40) != 0)) return false;
        if (r[6] > 1 || (r[6] == 0 && get8(r + 48) != 0)) return false;
        if (since_of(r) > bound || (since_of(r) == 0 && r[5] != 0)) return false;
        /* its own events are set points: since is above the newest */
        if (held(r) > 0 && since_of(r) <= stamp_at(r, held(r) - 1)) return false;
        return bound > 0 || r[6] == 0;
    }
    if (is_signal(op_of(r))) {
        if (r[5] > 1 || (r[5] == 0 && get8(r + 32) != 0)) return false;
        if (r[6] > 1 || (r[6] == 0 && get8(r + 40) != 0)) return false;
        return get8(r + 48) == 0 && (bound > 0 || (r[5] == 0 && r[6] == 0));
    }
    /* a window */
    if (!width_good(get8(r + 8)) || fill_of(r) > width_of(r) || (bound == 0 && fill_of(r) != 0)) return false;
    return r[6] == 0 && all_zero(r + 32, 24);
}

static bool record_good(const uint8_t *r, unsigned n) {
    if (op_of(r) < IN || op_of(r) >= OPS || r[3] > 1) return false;
    if (!fields_good(op_of(r), arg_a(r), arg_b(r), get8(r + 8) == 0, r[3], n)) return false;
    uint64_t bound = bound_of(r);
    if (held(r) > ROOM || r[7] != 0 || bound > HORIZON) return false;
    if (get8(r + 56) != 0 && (bound == 0 || !counts(op_of(r)))) return false;
    if (is_out(r) ? mark_of(r) > bound : mark_of(r) != 0) return false;
    uint64_t low = 0;
    for (unsigned j = 0; j < held(r); j++) {
        if (stamp_at(r, j) < low) return false;
        low = (uint64_t)stamp_at(r, j) + 1;
    }
    size_t used = EVENTS + SLOT * (size_t)held(r);
    return low <= bound && kept_good(r) && all_zero(r + used, RECORD - used);
}

/* whether these bytes are a state, else it is refused 15; and how many streams it has, all bytes 0 being a state of none */
static bool is_state(const uint8_t *state, uint64_t length, unsigned *streams) {
    if (!length_good(length)) return false;
    unsigned n = 0, cap = cap_of(length);
    while (n < cap && state[RECORD * n] != 0) n++;
    struct edges e;
    /* what lies behind the last value of each window is 0, up to the next one */
    unsigned windows = 0;
    const uint8_t *behind = state + RECORD * n;
    for (unsigned s = 0; s < n; s++) {
        const uint8_t *r = state + RECORD * s;
        if (!record_good(r, n)) return false;
        note(&e, s, op_of(r), arg_a(r), arg_b(r));
        if (!is_window(op_of(r))) continue;
        if (windows == WINDOWS) return false;
        const uint8_t *w = state + RECORD * cap + WINDOW * windows++;
        if (!all_zero(behind, (size_t)(w - behind))) return false;
        behind = w + 8 * fill_of(r);
    }
    *streams = n;
    return all_zero(behind, (size_t)(state + length - behind)) && no_cycle(&e, n);
}

/* the same of bytes that a call may change */
static bool is_plan(uint8_t *state, uint64_t length, struct plan *p) {
    unsigned n;
    if (!is_state(state, length, &n)) return false;
    *p = (struct plan){ state, n, cap_of(length) };
    return true;
}

/* ---- load */

struct text {
    const uint8_t *p;
    uint64_t length, at;
};

static bool take(struct text *t, const char *word) {
    for (; *word; word++, t->at++)
        if (t->at >= t->length || t->p[t->at] != (uint8_t)*word) return false;
    return true;
}

static bool digit_next(const struct text *t) { return t->at < t->length && t->p[t->at] >= '0' && t->p[t->at] <= '9'; }

/* a decimal number without leading zeros, up to the limit */
static bool number(struct text *t, uint64_t limit, uint64_t *result) {
    if (!digit_next(t)) return false;
    if (t->p[t->at] == '0') {
        t->at++;
        *result = 0;
        return !digit_next(t);
    }
    uint64_t x = 0;
    for (; digit_next(t); t->at++) {
        unsigned d = t->p[t->at] - '0';
        if (d > limit || x > (limit - d) / 10) return false;
        x = 10 * x + d;
    }
    *result = x;
    return true;
}

static bool small_line(struct text *t, const char *key, uint64_t limit, uint64_t *result) {
    return take(t, key) && number(t, limit, result) && take(t, "\n");
}

static bool value_line(struct text *t, uint64_t *bits) {
    if (!take(t, "k=")) return false;
    bool minus = t->at < t->length && t->p[t->at] == '-';
    if (minus) t->at++;
    uint64_t x;
    if (!number(t, minus ? UINT64_C(1) << 63 : INT64_MAX, &x)) return false;
    if (minus && x == 0) return false;
    *bits = minus ? 0 - x : x;
    return take(t, "\n");
}

static uint32_t operator_line(struct text *t, unsigned *op) {
    if (!take(t, "op=")) return 2;
    char name[6] = { 0 };
    unsigned n = 0;
    for (; t->at < t->length && t->p[t->at] >= 'a' && t->p[t->at] <= 'z'; t->at++, n++) {
        if (n == 5) return 2;
        name[n] = (char)t->p[t->at];
    }
    if (n == 0 || !take(t, "\n")) return 2;
    for (*op = IN; *op < OPS; ++*op)
        if (strcmp(name, NAMES[*op]) == 0) return 0;
    return 4;
}

struct line {
    unsigned op;
    uint64_t a, b, k, out;
};

uint32_t ref_load(uint8_t *state, uint64_t state_length, const uint8_t *text, uint64_t text_length) {
    if (!length_good(state_length)) return 15;
    if (text_length > TEXT) return 1;
    /* the plan of no streams */
    if (text_length == 0) {
        memset(state, 0, (size_t)state_length);
        return 0;
    }
    struct text t = { text, text_length, 0 };
    struct line lines[MOST];
    uint64_t n;
    if (!take(&t, "plan=1\n") || !small_line(&t, "streams=", 999, &n)) return 2;
    if (n == 0 || n > cap_of(state_length)) return 3;
    for (unsigned s = 0; s < n; s++) {
        struct line *l = &lines[s];
        uint32_t fault = operator_line(&t, &l->op);
        if (fault != 0) return fault;
        if (!small_line(&t, "a=", 999, &l->a) || !small_line(&t, "b=", 999, &l->b)) return 2;
        if (!value_line(&t, &l->k) || !small_line(&t, "out=", 1, &l->out)) return 2;
    }
    if (t.at != t.length) return 2;
    struct edges e;
    for (unsigned s = 0; s < n; s++) {
        const struct line *l = &lines[s];
        if (!fields_good(l->op, (unsigned)l->a, (unsigned)l->b, l->k == 0, (unsigned)l->out, (unsigned)n)) return 5;
        note(&e, s, l->op, (unsigned)l->a, (unsigned)l->b);
    }
    unsigned windows = 0;
    for (unsigned s = 0; s < n; s++) {
        if (!is_window(lines[s].op)) continue;
        if (!width_good(lines[s].k) || windows++ == WINDOWS) return 18;
    }
    if (!no_cycle(&e, (unsigned)n)) return 6;
    memset(state, 0, (size_t)state_length);
    for (unsigned s = 0; s < n; s++) {
        uint8_t *r = state + RECORD * s;
        r[0] = (uint8_t)lines[s].op;
        r[1] = (uint8_t)lines[s].a;
        r[2] = (uint8_t)lines[s].b;
        r[3] = (uint8_t)lines[s].out;
        put8(r + 8, lines[s].k);
    }
    return 0;
}

/* ---- what a move finds: an event (t, v), or silence up to t, and how many events are missing before it */

/* what an operator has at a stamp: nothing to work on, a value, or none because of the range or of the divisor */
enum kind { NONE_THERE, VALUE, OUTSIDE, ZERO };

struct result {
    enum kind is;
    int64_t v;
};

static const struct result NO_RESULT = { NONE_THERE, 0 };

static struct result gives(int64_t v) { return (struct result){ VALUE, v }; }
static struct result missing(enum kind why) { return (struct result){ why, 0 }; }
/* of arithmetic that tells whether it left the range */
static struct result in_range(bool left, int64_t v) { return left ? missing(OUTSIDE) : gives(v); }
static struct result of(struct maybe m) { return m.is ? gives(m.v) : NO_RESULT; }

struct next {
    bool event;
    uint64_t t;
    int64_t v;
    uint32_t outside, zero;
};

/* whether the search ends at t with an event; if not, a missing one is counted */
static bool ends(struct next *x, uint64_t t, struct result r) {
    if (r.is == VALUE) {
        x->event = true;
        x->t = t;
        x->v = r.v;
        return true;
    }
    x->outside += r.is == OUTSIDE;
    x->zero += r.is == ZERO;
    return false;
}

static struct next found(uint64_t t, int64_t v) { return (struct next){ true, t, v, 0, 0 }; }
static struct next silent(uint64_t t) { return (struct next){ false, t, 0, 0, 0 }; }

static struct result one_value(unsigned op, int64_t k, uint64_t t, int64_t x) {
    int64_t v;
    bool left;
    switch (op) {
    case TIME: return gives((int64_t)t);
    case SET: return gives(k);
    case PLUS: left = __builtin_add_overflow(x, k, &v); return in_range(left, v);
    default: left = __builtin_sub_overflow(0, x, &v); return in_range(left, v);
    }
}

/*
 * "a quotient goes down to the next whole number and the remainder has the divisor's sign". C's / cuts toward zero and its %
 * has the dividend's sign: the same but where something is left and the quotient lies below zero. y is not 0, nor -1 with the
 * least x.
 */
static bool cut_above(int64_t x, int64_t y) { return (x < 0) != (y < 0) && x % y != 0; }
static int64_t quotient(int64_t x, int64_t y) { return cut_above(x, y) ? x / y - 1 : x / y; }
static int64_t left_over(int64_t x, int64_t y) { return cut_above(x, y) ? x % y + y : x % y; }

static struct result two_values(unsigned op, struct maybe a, struct maybe b) {
    int64_t v;
    bool left;
    if (op == MERGE) return of(or_else(a, b));
    if (!a.is || !b.is) return NO_RESULT;
    switch (op) {
    case ADD: left = __builtin_add_overflow(a.v, b.v, &v); return in_range(left, v);
    case SUB: left = __builtin_sub_overflow(a.v, b.v, &v); return in_range(left, v);
    case MUL: left = __builtin_mul_overflow(a.v, b.v, &v); return in_range(left, v);
    /* "Where both could be said, the zero divisor is." */
    case DIV:
        if (b.v == 0) return missing(ZERO);
        return a.v == INT64_MIN && b.v == -1 ? missing(OUTSIDE) : gives(quotient(a.v, b.v));
    case REM:
        if (b.v == 0) return missing(ZERO);
        return gives(b.v == -1 ? 0 : left_over(a.v, b.v));
    case LT: return gives(a.v < b.v);
    case LE: return gives(a.v <= b.v);
    case EQ: return gives(a.v == b.v);
    default: return b.v != 0 ? of(a) : NO_RESULT; /* keep */
    }
}

static struct next one_next(const uint8_t *o, const uint8_t *a) {
    uint64_t y = bound_of(o);
    struct next next = silent(most(y, bound_of(a)));
    for (unsigned j = place(a, y); j < held(a); j++) {
        uint64_t t = stamp_at(a, j);
        if (ends(&next, t, one_value(op_of(o), k_of(o), t, value_at(a, j)))) break;
    }
    return next;
}

/*
 * The latest values of a window, looked at without being moved: a's held events from its bound on, up to the one at place `to`, and
 * as many of the kept before them as the width leaves.
 */
struct latest_k {
    const uint8_t *w, *a;
    unsigned oldest, fill, from, to;
};

static struct latest_k latest_k(const uint8_t *o, const uint8_t *w, const uint8_t *a, unsigned first, unsigned to) {
    unsigned width = width_of(o), fill = fill_of(o), fresh = to - first, from = first, old = 0;
    if (fresh > width) from = to - width;
    else old = fill + fresh > width ? width - fresh : fill;
    return (struct latest_k){ w, a, fill - old, fill, from, to };
}

/*
 * The sum over whole numbers: what fits 64 bits, and how often it went over or under, which is 0 exactly if the whole sum is a
 * value.
 */
static void added(int64_t *sum, int *over, int64_t v) {
    if (__builtin_add_overflow(*sum, v, sum)) *over += v < 0 ? -1 : 1;
}

static struct result sum_of(struct latest_k x) {
    int64_t sum = 0;
    int over = 0;
    for (unsigned i = x.oldest; i < x.fill; i++) added(&sum, &over, value_in(x.w, i));
    for (unsigned j = x.from; j < x.to; j++) added(&sum, &over, value_at(x.a, j));
    return in_range(over != 0, sum);
}

static int64_t better(unsigned op, int64_t x, int64_t y) { return (op == WMIN ? y < x : y > x) ? y : x; }

/* there is at least one held event among them */
static struct result best_of(unsigned op, struct latest_k x) {
    int64_t v = value_at(x.a, x.to - 1);
    for (unsigned i = x.oldest; i < x.fill; i++) v = better(op, v, value_in(x.w, i));
    for (unsigned j = x.from; j < x.to; j++) v = better(op, v, value_at(x.a, j));
    return gives(v);
}

static struct next window_next(const uint8_t *o, const uint8_t *w, const uint8_t *a) {
    uint64_t y = bound_of(o);
    struct next next = silent(most(y, bound_of(a)));
    unsigned first = place(a, y);
    for (unsigned j = first; j < held(a); j++) {
        struct latest_k x = latest_k(o, w, a, first, j + 1);
        if (ends(&next, stamp_at(a, j), op_of(o) == WSUM ? sum_of(x) : best_of(op_of(o), x))) break;
    }
    return next;
}

static struct next two_next(const uint8_t *o, const uint8_t *a, const uint8_t *b) {
    uint64_t y = bound_of(o), reach = most(y, least(bound_of(a), bound_of(b)));
    struct next next = silent(reach);
    unsigned i = place(a, y), j = place(b, y);
    for (;;) {
        uint64_t ta = i < held(a) ? stamp_at(a, i) : HORIZON, tb = j < held(b) ? stamp_at(b, j) : HORIZON;
        uint64_t t = least(ta, tb);
        if (t >= reach) return next;
        struct maybe x = ta == t ? some(value_at(a, i++)) : NOTHING;
        struct maybe z = tb == t ? some(value_at(b, j++)) : NOTHING;
        if (ends(&next, t, two_values(op_of(o), x, z))) return next;
    }
}

/* at each stamp of either, on the latest values: those held below the bound, or kept, to begin with */
static struct next signal_next(const uint8_t *o, const uint8_t *a, const uint8_t *b) {
    uint64_t y = bound_of(o), reach = most(y, least(bound_of(a), bound_of(b)));
    struct next next = silent(reach);
    struct maybe x = or_else(latest(a, y), latest_a(o)), z = or_else(latest(b, y), latest_b(o));
    unsigned i = place(a, y), j = place(b, y);
    for (;;) {
        uint64_t ta = i < held(a) ? stamp_at(a, i) : HORIZON, tb = j < held(b) ? stamp_at(b, j) : HORIZON;
        uint64_t t = least(ta, tb);
        if (t >= reach) return next;
        if (ta == t) x = some(value_at(a, i++));
        if (tb == t) z = some(value_at(b, j++));
        if (ends(&next, t, two_values(operation(op_of(o)), x, z))) return next;
    }
}

static struct next last_next(const uint8_t *o, const uint8_t *a, const uint8_t *b) {
    uint64_t y = bound_of(o);
    for (unsigned j = place(b, y); j < held(b); j++) {
        uint64_t t = stamp_at(b, j);
        if (t > bound_of(a)) return silent(t);
        struct maybe v = or_else(latest(a, t), prev_of(o));
        if (v.is) return found(t, v.v);
    }
    return silent(most(y, bound_of(b)));
}

/* a's value one below z, where z is one past a delay's latest set point */
static struct maybe set_at(const uint8_t *o, const uint8_t *a, uint64_t z) {
    struct maybe v = event_at(a, z - 1);
    return !v.is && z == since_of(o) ? set_of(o) : v;
}

static struct next delay_next(const uint8_t *o, const uint8_t *a, const uint8_t *b) {
    uint64_t y = bound_of(o), limit = least(bound_of(b) + 1, HORIZON);
    uint64_t z = most(since_of(o), past_latest(b, y));
    /* each turn looks at the stamps from `from` on for which the latest set point lies one below z */
    for (uint64_t from = y; from < limit;) {
        if (z > bound_of(a)) return silent(from);
        unsigned j = place(b, from);
        uint64_t to = j < held(b) ? (uint64_t)stamp_at(b, j) + 1 : limit;
        if (to > limit) to = limit;
        if (z > 0) {
            struct maybe v = set_at(o, a, z);
            if (v.is && v.v > 0 && (uint64_t)v.v <= HORIZON) {
                uint64_t t = z - 1 + (uint64_t)v.v;
                if (t >= from && t < to) return found(t, 0);
            }
        }
        from = to;
        z = to;
    }
    return silent(most(y, limit));
}

static struct next next_of(struct plan p, const uint8_t *o) {
    const uint8_t *a = p.state + RECORD * arg_a(o), *b = p.state + RECORD * arg_b(o);
    unsigned op = op_of(o);
    if (op == NIL || (op == UNIT && bound_of(o) > 0)) return silent(HORIZON);
    if (op == UNIT) return found(0, 0);
    if (op == LAST) return last_next(o, a, b);
    if (op == DELAY) return delay_next(o, a, b);
    if (is_signal(op)) return signal_next(o, a, b);
    if (is_window(op)) return window_next(o, window_of(p, o), a);
    return uses_b(op) ? two_next(o, a, b) : one_next(o, a);
}

/* ---- a step: write, tell, release */

static bool reads(const uint8_t *r, unsigned s) {
    return (uses_a(op_of(r)) && arg_a(r) == s) || (uses_b(op_of(r)) && arg_b(r) == s);
}

static void release(struct plan p, unsigned s) {
    uint8_t *o = p.state + RECORD * s;
    uint64_t waiting = is_out(o) ? mark_of(o) : HORIZON;
    if (held(o) == 0) return;
    for (unsigned i = 0; i < p.n; i++) {
        const uint8_t *r = p.state + RECORD * i;
        if (reads(r, s)) waiting = least(waiting, bound_of(r));
    }
    unsigned gone = place(o, waiting), left = held(o) - gone;
    if (gone == 0) return;
    memmove(o + EVENTS, o + EVENTS + SLOT * gone, SLOT * left);
    memset(o + EVENTS + SLOT * left, 0, SLOT * gone);
    o[4] = (uint8_t)left;
}

/* a last or a delay keeps what comes in below its bound; a signal form or a window keeps what it moved over, and is not told */
static void tell(uint8_t *r, unsigned s, uint64_t t, int64_t v) {
    uint64_t y = bound_of(r);
    if (t >= y) return;
    bool is_a = arg_a(r) == s, is_b = arg_b(r) == s;
    if (op_of(r) == LAST && is_a) keep(r, 5, 32, some(v));
    if (op_of(r) == DELAY) {
        if (is_a && since_of(r) == t + 1) keep(r, 5, 40, some(v));
        if (is_a && y == t + 1) keep(r, 6, 48, some(v));
        if (is_b && t >= since_of(r)) {
            keep(r, 5, 40, y == t + 1 ? prior_of(r) : NOTHING);
            put8(r + 32, t + 1);
        }
    }
}

/* what the stream keeps, from the held events of its arguments and its own; its bound is already the new one */
static void absorb(uint8_t *o, const uint8_t *a, const uint8_t *b) {
    uint64_t y = bound_of(o);
    if (op_of(o) == LAST) {
        struct maybe v = latest(a, y);
        if (v.is) keep(o, 5, 32, v);
    }
    if (op_of(o) == DELAY) {
        uint64_t z = most(since_of(o), most(past_latest(b, y), past_latest(o, y)));
        struct maybe v = z > 0 ? set_at(o, a, z) : NOTHING;
        keep(o, 5, 40, v);
        put8(o + 32, z);
        keep(o, 6, 48, event_at(a, y - 1));
    }
    if (is_signal(op_of(o))) {
        keep(o, 5, 32, or_else(latest(a, y), latest_a(o)));
        keep(o, 6, 40, or_else(latest(b, y), latest_b(o)));
    }
}

/* a window from bound y on to its new one keeps a's held events there; the oldest values make room */
static void move_window(uint8_t *o, uint8_t *w, const uint8_t *a, uint64_t y) {
    unsigned first = place(a, y), to = place(a, bound_of(o));
    struct latest_k x = latest_k(o, w, a, first, to);
    unsigned old = x.fill - x.oldest, fill = old + x.to - x.from;
    if (first == to) return;
    memmove(w, w + 8 * x.oldest, 8 * old);
    for (unsigned j = x.from; j < x.to; j++) put8(w + 8 * (old + j - x.from), (uint64_t)value_at(a, j));
    o[5] = (uint8_t)fill;
}

/* the bound of stream s goes to y, with or without an event (t, v) */
static void raise(struct plan p, unsigned s, uint64_t y, bool event, uint64_t t, int64_t v) {
    uint8_t *o = p.state + RECORD * s, *a = p.state + RECORD * arg_a(o), *b = p.state + RECORD * arg_b(o);
    uint64_t before = bound_of(o);
    put8(o + 16, y);
    if (event) {
        uint8_t *slot = o + EVENTS + SLOT * held(o);
        put4(slot, (uint32_t)t);
        put8(slot + 4, (uint64_t)v);
        o[4]++;
    }
    absorb(o, a, b);
    if (is_window(op_of(o))) move_window(o, window_of(p, o), a, before);
    if (event)
        for (unsigned i = 0; i < p.n; i++) tell(p.state + RECORD * i, s, t, v);
    release(p, s);
    if (uses_a(op_of(o))) release(p, arg_a(o));
    if (uses_b(op_of(o))) release(p, arg_b(o));
}

/* "each count stopping at 4,294,967,295" */
static void count(uint8_t *p, uint32_t more) {
    if (more > 0) put4(p, UINT32_MAX - get4(p) < more ? UINT32_MAX : get4(p) + more);
}

/* moves equation s if it can; all missing events that were found lie below its new bound, be it t or t + 1 */
static bool moved(struct plan p, unsigned s) {
    uint8_t *o = p.state + RECORD * s;
    if (op_of(o) == IN) return false;
    struct next x = next_of(p, o);
    bool event = x.event && held(o) < ROOM;
    uint64_t y = event ? x.t + 1 : x.t;
    if (y == bound_of(o)) return false;
    count(o + 56, x.outside);
    count(o + 60, x.zero);
    raise(p, s, y, event, x.t, x.v);
    return true;
}

/* ---- the calls on a state */

static uint32_t offered(struct plan p, uint32_t stream, uint32_t stamp, int64_t value) {
    if (stream >= p.n || p.state[RECORD * stream] != IN) return 7;
    const uint8_t *o = p.state + RECORD * stream;
    if (stamp < bound_of(o)) return 8;
    if (held(o) >= ROOM) return 9;
    raise(p, stream, (uint64_t)stamp + 1, true, stamp, value);
    return 0;
}

static uint32_t run_of(struct plan p, uint32_t most_moves) {
    uint32_t moves = 0;
    for (unsigned s = 0; s < p.n && moves < most_moves;) {
        if (moved(p, s)) {
            moves++;
            s = 0;
        } else {
            s++;
        }
    }
    return moves;
}

/* the place of the oldest event that waits to be collected, or one past the last held */
static unsigned oldest(const uint8_t *o) { return place(o, mark_of(o)); }

/* stamp and value are written only where it is done */
static uint32_t collected(struct plan p, uint32_t stream, uint32_t *stamp, int64_t *value) {
    if (stream >= p.n || !is_out(p.state + RECORD * stream)) return 13;
    uint8_t *o = p.state + RECORD * stream;
    unsigned j = oldest(o);
    if (j == held(o)) return 14;
    *stamp = stamp_at(o, j);
    *value = value_at(o, j);
    put8(o + 24, (uint64_t)*stamp + 1);
    release(p, stream);
    return 0;
}

/* ---- the other calls */

uint32_t ref_offer_reading(uint8_t *state, uint64_t state_length, uint32_t stream, uint32_t stamp, int64_t value) {
    struct plan p;
    return is_plan(state, state_length, &p) ? offered(p, stream, stamp, value) : 15;
}

uint32_t ref_offer_progress(uint8_t *state, uint64_t state_length, uint32_t stream, uint64_t bound) {
    unsigned n;
    if (!is_state(state, state_length, &n)) return 15;
    if (stream >= n || state[RECORD * stream] != IN) return 7;
    uint8_t *o = state + RECORD * stream;
    if (bound > HORIZON) return 10;
    if (bound < bound_of(o)) return 8;
    put8(o + 16, bound);
    return 0;
}

uint32_t ref_move(uint8_t *state, uint64_t state_length, uint32_t stream) {
    struct plan p;
    if (!is_plan(state, state_length, &p)) return 15;
    if (stream >= p.n || state[RECORD * stream] == IN) return 11;
    return moved(p, stream) ? 0 : 12;
}

uint32_t ref_run(uint8_t *state, uint64_t state_length, uint32_t n, uint32_t *moves) {
    *moves = 0;
    struct plan p;
    if (!is_plan(state, state_length, &p)) return 15;
    *moves = run_of(p, n);
    return 0;
}

uint32_t ref_collect(uint8_t *state, uint64_t state_length, uint32_t stream, uint32_t *stamp, int64_t *value) {
    *stamp = 0;
    *value = 0;
    struct plan p;
    return is_plan(state, state_length, &p) ? collected(p, stream, stamp, value) : 15;
}

/* ---- widen: the records where they were, zeros for those that are new, and the windows behind all of them */

uint32_t ref_widen(const uint8_t *from, uint64_t from_length, uint8_t *to, uint64_t to_length) {
    unsigned n;
    if (from_length != SHORT || to_length != LONG || !is_state(from, from_length, &n)) return 15;
    memcpy(to, from, SHORT - BEHIND);
    memset(to + SHORT - BEHIND, 0, LONG - SHORT);
    memcpy(to + LONG - BEHIND, from + SHORT - BEHIND, BEHIND);
    return 0;
}

/* ---- missing */

uint32_t ref_missing(const uint8_t *state, uint64_t state_length, uint32_t stream, uint32_t *outside, uint32_t *zero) {
    *outside = 0;
    *zero = 0;
    unsigned n;
    if (!is_state(state, state_length, &n)) return 15;
    if (stream >= n) return 11;
    *outside = outside_of(state + RECORD * stream);
    *zero = zero_of(state + RECORD * stream);
    return 0;
}

/* ---- plan text */

static unsigned digits(uint64_t x) {
    unsigned n = 1;
    while (x /= 10) n++;
    return n;
}

/* a value without its sign */
static uint64_t size_of(int64_t v) { return v < 0 ? 0 - (uint64_t)v : (uint64_t)v; }

static size_t line_length(const uint8_t *r) {
    size_t numbers = digits(arg_a(r)) + digits(arg_b(r)) + (k_of(r) < 0) + digits(size_of(k_of(r))) + digits(is_out(r));
    return strlen("op=\na=\nb=\nk=\nout=\n") + strlen(NAMES[op_of(r)]) + numbers;
}

/* the length of the text of a state of n streams; the plan of no streams is written by no bytes */
static size_t plan_length(const uint8_t *state, unsigned n) {
    if (n == 0) return 0;
    size_t length = strlen("plan=1\nstreams=\n") + digits(n);
    for (unsigned s = 0; s < n; s++) length += line_length(state + RECORD * s);
    return length;
}

static uint8_t *write_word(uint8_t *p, const char *word) {
    while (*word) *p++ = (uint8_t)*word++;
    return p;
}

static uint8_t *write_number(uint8_t *p, uint64_t x) {
    unsigned n = digits(x);
    for (unsigned i = n; i > 0; i--, x /= 10) p[i - 1] = (uint8_t)('0' + x % 10);
    return p + n;
}

static uint8_t *write_line(uint8_t *p, const char *key, uint64_t x) {
    p = write_number(write_word(p, key), x);
    *p++ = '\n';
    return p;
}

static void write_plan(uint8_t *p, const uint8_t *state, unsigned n) {
    p = write_line(write_word(p, "plan=1\n"), "streams=", n);
    for (unsigned s = 0; s < n; s++) {
        const uint8_t *r = state + RECORD * s;
        p = write_word(write_word(write_word(p, "op="), NAMES[op_of(r)]), "\n");
        p = write_line(write_line(p, "a=", arg_a(r)), "b=", arg_b(r));
        p = write_line(p, k_of(r) < 0 ? "k=-" : "k=", size_of(k_of(r)));
        p = write_line(p, "out=", is_out(r));
    }
}

uint32_t ref_plan_text(const uint8_t *state, uint64_t state_length, uint8_t *text, uint64_t text_length, uint64_t *length) {
    *length = 0;
    unsigned n;
    if (!is_state(state, state_length, &n)) return 15;
    size_t needed = plan_length(state, n);
    if (text_length < needed) return 19;
    if (n > 0) write_plan(text, state, n);
    *length = needed;
    return 0;
}

/* ---- the reader board's block */

enum { AT_STREAM = 0, AT_STAMP = 4, AT_VALUE = 8, AT_COMMAND = 16, AT_STATUS, AT_FLAGS, AT_MASK, AT_REPLY, BLOCK = 24 };
enum { OFFER = 1, COLLECT, RUN, BUDGET = 64 };
enum { REFUSED = 1, WAITING = 2, FLAGS = REFUSED | WAITING };

/* "When a command or a refused write ends, flag bit 0 is set if status isn't 0." */
static uint32_t ended(uint8_t *block, uint32_t number) {
    block[AT_STATUS] = (uint8_t)number;
    if (number != 0) block[AT_FLAGS] |= REFUSED;
    return number;
}

static bool output_waits(struct plan p) {
    for (unsigned s = 0; s < p.n; s++) {
        const uint8_t *o = p.state + RECORD * s;
        if (is_out(o) && oldest(o) < held(o)) return true;
    }
    return false;
}

/* a command on a state; "value and reply stamp are filled, or stay if refused" */
static uint32_t started(struct plan p, uint8_t *block) {
    uint32_t stream = get4(block + AT_STREAM), stamp;
    int64_t value;
    switch (block[AT_COMMAND]) {
    case OFFER: return offered(p, stream, get4(block + AT_STAMP), value_of(get8(block + AT_VALUE)));
    case COLLECT: {
        uint32_t number = collected(p, stream, &stamp, &value);
        if (number != 0) return number;
        put8(block + AT_VALUE, (uint64_t)value);
        put4(block + AT_REPLY, stamp);
        return 0;
    }
    default: run_of(p, BUDGET); return 0;
    }
}

/* apart, so that a plain write pays nothing for it */
static __attribute__((noinline)) uint32_t commanded(uint8_t *state, uint64_t state_length, uint8_t *block) {
    struct plan p;
    if (!is_plan(state, state_length, &p)) return ended(block, 15);
    uint32_t number = started(p, block);
    if (output_waits(p)) block[AT_FLAGS] |= WAITING;
    return ended(block, number);
}

uint32_t ref_register_write(uint8_t *state, uint64_t state_length, uint8_t *block, uint64_t block_length, uint32_t at, uint8_t byte) {
    if (block_length != BLOCK) return 17;
    if (at == AT_FLAGS) {
        block[AT_FLAGS] &= (uint8_t)~(byte & FLAGS);
        return 0;
    }
    if (at < AT_COMMAND || at == AT_MASK) {
        block[at] = byte;
        return 0;
    }
    if (at != AT_COMMAND || byte < OFFER || byte > RUN) return ended(block, 17);
    block[AT_COMMAND] = byte;
    return commanded(state, state_length, block);
}

uint32_t ref_register_line(const uint8_t *block, uint64_t block_length, uint32_t *up) {
    *up = 0;
    if (block_length != BLOCK) return 17;
    *up = (block[AT_FLAGS] & block[AT_MASK] & FLAGS) != 0;
    return 0;
}
