/* The desk in plain C, to measure the proved one against: written as one would write it for speed, without proofs and without
 * shortcuts but one: codes that are all believed already are neither gone through nor merged again. */
#include "desk.h"

static uint8_t carried[CODES], believed[CODES], classes[8]; /* the held codes lie as in a record; a fresh board's are 0 */

static uint8_t steady(uint8_t before, uint8_t trusted, uint8_t now) { return before == now ? now : trusted; }

/* A code counts in the second of two crossings in a row that carry it on the same input: whether others are believed now. */
static int believe(const uint8_t *codes) {
    int news = 0;
    for (int j = 0; j < CODES; j++) {
        uint8_t c = carried[j], b = believed[j], now = codes[j];
        believed[j] = steady(c % 16, b % 16, now % 16) + 16 * steady(c / 16, b / 16, now / 16);
        news |= believed[j] != b;
    }
    return news;
}

static void vote(uint8_t k, uint8_t v) {
    if (k < 8 && classes[k] < v) classes[k] = v;
}

static void merge(const uint8_t *codes) {
    memset(classes, rank[0][codes[0]], 8);
    for (int j = 0; j < 20; j++) {
        const uint8_t *r = rank[12 <= j && j < 16];
        vote(owner[2 * j], r[codes[1 + j] % 16]);
        vote(owner[2 * j + 1], r[codes[1 + j] / 16]);
    }
}

/* Codes that are believed already stay so, whatever was carried before. */
static void follow(const uint8_t *codes) {
    if (memcmp(believed, codes, CODES) && believe(codes)) merge(believed);
    memcpy(carried, codes, CODES);
}

/* How many of the last k crossings carried a trigger. */
static uint32_t among(uint64_t n, uint64_t k) {
    uint32_t sum = 0;
    if (k > n) k = n;
    while (k) {
        uint64_t last = n - 1, used = last % 64 + 1, taken = k < used ? k : used;
        uint64_t w = marks[last / 64 % 32] >> (used - taken);
        if (taken < 64) w &= (1ull << taken) - 1;
        sum += __builtin_popcountll(w);
        n -= taken;
        k -= taken;
    }
    return sum;
}

static int refused_by(int warn) {
    if (among(crossings, set[R1_GAP])) return 1;
    for (int r = 2; r <= RULES; r++) {
        uint32_t *rule = &set[R2 + 3 * (r - 2)];
        if (among(crossings, rule[0] - 1) + 1 > rule[1 + warn]) return r;
    }
    return 0;
}

static void mark(uint64_t c, int x) {
    uint64_t *w = &marks[c / 64 % 32], bit = 1ull << c % 64;
    *w = x ? *w | bit : *w & ~bit;
}

static void crossing(const uint8_t *rec, uint8_t *row) {
    uint32_t number = arrive(rec[1]);
    follow(rec + 3);
    mark(crossings, cross(number, rec[2], classes, row));
    mark(crossings + 1, 0);
    advance(number, 1);
}

static void run(const uint8_t *log, int records, uint8_t *rows) {
    for (int i = 0; i < records; i++) {
        const uint8_t *rec = log + RECORD * i;
        uint8_t *row = rows + ROW * i;
        if (rec[0]) command(rec, row);
        else crossing(rec, row);
    }
}

int main(void) {
    if (!open_board()) return 1;
    merge(believed);
    replay(run);
    return 0;
}
