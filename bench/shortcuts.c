/* The desk in C with the shortcuts that a fast desk takes, so that the proved one is measured against its own way of working
 * and not only against a plain one. A crossing is one of three kinds, from common to rare:
 *   still   the believed codes stay, even if carried ones bounce; no marker, no date, nobody about to move: a stretch of them
 *           goes in one loop;
 *   plain   no marker, no date: only controllers whose members changed, that ask, or that were about to move are looked at;
 *   dated   everything else: all eight in full, as in plain.c.
 * A date is a number at which some controller may act: 0, and those of all eight schedules. */
#include "desk.h"

enum { LONGEST = 255 };
static const uint64_t LANES = 0x0101010101010101ull, EACH_CODE = 0x1111111111111111ull;

/* Made once, from the settings. */
static uint64_t lane[40][16], lanes_of_gtfe[16]; /* the bits that a code sets, see merge() */
static uint64_t spread[256];                     /* request bit k in byte k, so that the requests of many crossings add up */
static uint64_t dates[64];                       /* a bit for each number */
static uint8_t drifts[20][8];                    /* by state and class */
static uint32_t periods[RULES];

/* What goes on from crossing to crossing. */
static uint64_t carried[3], believed[3]; /* the words of a record, but for the three bytes before its codes */
static uint64_t lanes;                   /* of the believed codes, see merge() */
static uint64_t awake;           /* a bit in the lane of each controller that its class would move */
static int leaving = 1;          /* whether one may be in a state that it leaves at once, whatever the number */
static uint32_t fills[RULES];    /* the triggers in each rule's period, which ends with the crossing before */
static uint32_t held[RULES];     /* those that are still in it in this crossing */
static uint64_t tally[8][FATES]; /* requests not yet in the counts, which are read or cleared after a command, or at the end */
static uint8_t still[ROW];       /* the row of a crossing that sends nothing: the states as they are shown */

/* Where a state leads by the class alone: to itself where it goes by a number or by its wait. */
static uint8_t drift(uint8_t s, uint8_t c) {
    return 6 <= s && s <= 8 ? running(c) : s == 9 && c < BAD ? 6 : s;
}

static void make_tables(void) {
    for (int n = 0; n < 40; n++)
        for (int code = 0; code < 16; code++) {
            uint8_t r = rank[24 <= n && n < 32][code];
            lane[n][code] = owner[n] < 8 && r ? 1ull << (8 * owner[n] + r) : 0;
        }
    for (int code = 0; code < 16; code++) lanes_of_gtfe[code] = rank[0][code] ? LANES << rank[0][code] : 0;
    for (int r = 0; r < 256; r++)
        for (int k = 0; k < 8; k++) spread[r] |= (uint64_t)(r >> k & 1) << 8 * k;
    dates[0] = 1;
    for (int k = 0; k < 8; k++)
        for (int d = 0; d < SCHEDULE; d++) dates[ptcs[k].at[d] / 64] |= 1ull << ptcs[k].at[d] % 64;
    for (int s = 0; s < 20; s++)
        for (int c = 0; c < 8; c++) drifts[s][c] = drift(s, c);
    periods[0] = set[R1_GAP] + 1;
    for (int r = 1; r < RULES; r++) periods[r] = set[R2 + 3 * (r - 1)];
}

static uint64_t word(const uint8_t *at) {
    uint64_t w;
    memcpy(&w, at, 8);
    return w;
}

/* The codes of a record as words: the three bytes before them are none. */
static uint64_t codes_in(const uint8_t *rec, int j) { return j ? word(rec + 8 * j) : word(rec) >> 24 << 24; }

/* All bits of each of the sixteen codes that two words have in common. */
static uint64_t in_common(uint64_t a, uint64_t b) {
    uint64_t other = a ^ b;
    other |= other >> 1;
    other |= other >> 2;
    return ~((other & EACH_CODE) * 15);
}

/* What a crossing changes in a word of the believed codes: a code counts where the crossing before carried it too. */
static uint64_t news(int j, uint64_t now) { return (believed[j] ^ now) & in_common(carried[j], now); }

/* Whether the believed codes stay in a crossing: then it is held, and else left to learn(). That all it carries is believed, as
 * mostly, takes three compares; where codes bounce, sixteen go in a step. */
static int stays(const uint8_t *rec) {
    uint64_t a = codes_in(rec, 0), b = codes_in(rec, 1), c = codes_in(rec, 2);
    int doubted = a != believed[0] || b != believed[1] || c != believed[2];
    if (doubted && (news(0, a) | news(1, b) | news(2, c))) return 0;
    carried[0] = a;
    carried[1] = b;
    carried[2] = c;
    return 1;
}

/* Lane k, byte k of a word, has bit r where a member of controller k has class r: no member waits for another. The lanes that
 * change are handed back. */
static uint64_t merge(void) {
    const uint8_t *codes = (const uint8_t *)believed + RECORD - CODES, *inputs = codes + 1;
    uint64_t before = lanes, now = lanes_of_gtfe[codes[0]];
    for (int j = 0; j < 20; j++) now |= lane[2 * j][inputs[j] % 16] | lane[2 * j + 1][inputs[j] / 16];
    lanes = now;
    return now ^ before;
}

/* A crossing after which other codes are believed: the lanes that change. */
static uint64_t learn(const uint8_t *rec) {
    for (int j = 0; j < 3; j++) {
        uint64_t now = codes_in(rec, j);
        believed[j] ^= news(j, now);
        carried[j] = now;
    }
    return merge();
}

/* The greatest class in a lane; bit 0 stands for none. */
static uint8_t class_in(int k) { return 63 - __builtin_clzll((lanes >> 8 * k & 255) | 1); }

/* The first lane of a word that is not 0. */
static int first_lane(uint64_t w) { return __builtin_ctzll(w) / 8; }

static uint64_t without(uint64_t w, int k) { return w & ~(255ull << 8 * k); }

/* What a rule's period still holds is its fill less one mark: no period is counted again. */
static void drop_oldest(uint64_t n) {
    for (int r = 0; r < RULES; r++) {
        uint64_t oldest = n + 2048 - periods[r];
        held[r] = fills[r] - (marks[oldest / 64 % 32] >> oldest % 64 & 1);
    }
}

static void mark(uint64_t n, int passes) {
    uint64_t next = n + 1;
    marks[n / 64 % 32] |= (uint64_t)passes << n % 64;
    marks[next / 64 % 32] &= ~(1ull << next % 64);
    for (int r = 0; r < RULES; r++) fills[r] = held[r] + passes;
}

static int refused_by(int warn) {
    if (held[0]) return 1;
    for (int r = 1; r < RULES; r++)
        if (held[r] >= set[R2 + 3 * (r - 1) + 1 + warn]) return r + 1;
    return 0;
}

/* The tally into the counts. */
static void settle(void) {
    for (int k = 0; k < 8; k++) {
        Ptc *p = &ptcs[k];
        for (int f = 0; f < FATES; f++) {
            p->requested += tally[k][f];
            p->met[f] += tally[k][f];
        }
        p->events += tally[k][SENT];
    }
    memset(tally, 0, sizeof tally);
}

static int is_date(uint32_t number) { return dates[number / 64] >> number % 64 & 1; }

/* How many crossings from this number on have neither a date nor an end of the gap among them. */
static uint32_t until_date(uint32_t number) {
    uint32_t at = number / 64, end = set[ORBIT];
    uint64_t w = dates[at] >> number % 64 << number % 64;
    while (!w && 64 * ++at < end) w = dates[at];
    if (w) end = 64 * at + __builtin_ctzll(w);
    if (number < set[GAP_LOW] && set[GAP_LOW] < end) end = set[GAP_LOW];
    if (in_gap(number) && set[GAP_HIGH] + 1 < end) end = set[GAP_HIGH] + 1;
    return end - number;
}

/* Whether the throttle decides on the holder's requests here: all others have a cause without it. */
static int rules_decide(int closed) { return holder < 8 && cause(&ptcs[holder], 1, closed) == SENT; }

/* Whether a record is a crossing without a marker in which the believed codes stay. */
static int goes_on(const uint8_t *rec) { return !(word(rec) & 0xFFFF) && stays(rec); }

/* Still crossings, of which the first has been through stays(): how many there are, up to the next date. A controller's requests
 * all have one cause, or the throttle decides on them; so the former are owed, a byte for each controller, and go to the tally at
 * the end. A byte lasts for LONGEST. */
static int stretch(const uint8_t *log, int records, uint8_t *rows) {
    int most = until_date(next_number), m = 0;
    int closed = in_gap(next_number), ruled = rules_decide(closed), warn = ruled && ptcs[holder].state == 8;
    uint64_t open = ruled ? 1ull << 8 * holder : 0, owed = 0, met[RULES + 1] = {0}; /* sent, and lost to each rule */
    if (most > records) most = records;
    if (most > LONGEST) most = LONGEST;
    do {
        uint8_t *row = rows + ROW * m;
        uint64_t asks = spread[log[RECORD * m + 2]];
        int passes = 0;
        drop_oldest(crossings + m);
        if (asks & open) {
            int rule = refused_by(warn);
            passes = !rule;
            met[rule]++;
        }
        owed += asks & ~open;
        mark(crossings + m, passes);
        memcpy(row, still, ROW);
        if (passes) row[holder] = 16;
        m++;
    } while (m < most && goes_on(log + RECORD * m));
    for (; owed; owed = without(owed, first_lane(owed))) {
        uint32_t k = first_lane(owed);
        tally[k][cause(&ptcs[k], k == holder, closed)] += owed >> 8 * k & 255;
    }
    if (ruled)
        for (int r = 0; r <= RULES; r++) tally[holder][SENT + r] += met[r];
    advance(next_number, m);
    return m;
}

/* A controller's state, into the row of a crossing that sends nothing. */
static void show(int k) {
    uint8_t *pair = &still[8 + k / 2], status = shows[ptcs[k].state];
    *pair = k % 2 ? *pair % 16 + 16 * status : *pair / 16 * 16 + status;
}

/* One controller of a plain crossing: it moves by its class alone. The holder's request is left to the crossing. */
static void drift_one(uint32_t k, uint64_t asks) {
    Ptc *p = &ptcs[k];
    uint8_t class = class_in(k);
    p->state = drifts[p->state][class];
    if (!runs(p)) p->cycle = NO_CYCLE;
    show(k);
    awake |= (uint64_t)(drifts[p->state][class] != p->state) << 8 * k;
    if (k != holder) tally[k][runs(p) ? LOST_SLOT : LOST_STATE] += asks >> 8 * k & 255;
}

static void plain_crossing(const uint8_t *rec, uint64_t changed, uint8_t *row) {
    uint64_t asks = spread[rec[2]], due = changed | asks | awake;
    int passes = 0;
    awake = 0;
    for (; due; due = without(due, first_lane(due))) drift_one(first_lane(due), asks);
    memcpy(row, still, ROW);
    drop_oldest(crossings);
    if (holder < 8 && rec[2] >> holder & 1) {
        int met = fate(&ptcs[holder], 1, in_gap(next_number));
        passes = met == SENT;
        tally[holder][met]++;
        row[holder] = 16 * passes;
    }
    mark(crossings, passes);
    advance(next_number, 1);
}

static int leaves_at_once(const Ptc *p) {
    uint8_t s = p->state;
    return !p->wait && (s == 2 || s == 12 || s == 14 || s == 15 || s == 17);
}

static void dated_crossing(const uint8_t *rec, uint8_t *row) {
    uint32_t number = arrive(rec[1]);
    uint8_t classes[8];
    for (int k = 0; k < 8; k++) classes[k] = class_in(k);
    drop_oldest(crossings);
    mark(crossings, cross(number, rec[2], classes, row));
    advance(number, 1);
    awake = leaving = 0;
    for (int k = 0; k < 8; k++) {
        show(k);
        leaving |= leaves_at_once(&ptcs[k]);
        awake |= (uint64_t)(drifts[ptcs[k].state][classes[k]] != ptcs[k].state) << 8 * k;
    }
}

/* One crossing, or a stretch of them: how many. */
static int crossing(const uint8_t *log, int records, uint8_t *rows) {
    int same = stays(log);
    uint64_t changed = same ? 0 : learn(log);
    if (log[1] || leaving || is_date(next_number)) dated_crossing(log, rows);
    else if (awake || !same) plain_crossing(log, changed, rows);
    else return stretch(log, records, rows);
    return 1;
}

static void run(const uint8_t *log, int records, uint8_t *rows) {
    for (int i = 0; i < records;) {
        const uint8_t *rec = log + RECORD * i;
        uint8_t *row = rows + ROW * i;
        if (!rec[0]) i += crossing(rec, records - i, row);
        else {
            settle();
            command(rec, row);
            leaving = 1;
            i++;
        }
    }
    settle();
}

int main(void) {
    if (!open_board()) return 1;
    make_tables();
    merge();
    replay(run);
    return 0;
}
