/* What the C desks share: settings, controllers, commands, the report, and a log's way through memory in pieces. It trusts its
 * input: no ranges, no relations, no soundness, no refusals. States are numbered as in crates/states. A desk that includes this
 * adds its way through the crossings: how codes are held until they are steady and merged, how triggers are counted, and which
 * crossings are cut short. */
#include <fcntl.h>
#include <stdint.h>
#include <stdio.h>
#include <stdlib.h>
#include <string.h>
#include <unistd.h>

enum { PIECE = 61440, RECORD = 24, ROW = 12, CODES = 21 };
enum { NONE, READY, WARNING, BUSY, OUT_OF_SYNC, ERROR, BAD, DISCONNECTED };
enum { NO_CYCLE, ARMED, OPEN };
/* What a request meets; SENT + r is lost to rule r of the throttle. */
enum { LOST_STATE, LOST_SLOT, LOST_GAP, LOST_CAL, SENT, RULES = 4, FATES = SENT + RULES + 1 };
/* The places of the settings that are read by name, in the order of their lines: in set[], ... */
enum { ORBIT, GAP_LOW, GAP_HIGH, R1_GAP, R2, R3 = R2 + 3, R4 = R3 + 3, IGNORE_DISC = R4 + 3, IGNORE_BAD };
enum { SETTLE_RESYNC = IGNORE_BAD + 1, SETTLE_HARD, RECOVER_RESYNC, RECOVER_HARD, SLOT0, SETTINGS = SLOT0 + 8 };
/* ... and in the schedule of a controller. The partitions, which come last, go to owner[]. */
enum { BC0, TE, RESYNC, HARD, EC0, OC0, START, STOP, GAP, WTE, CAL, SCHEDULE };

typedef struct {
    uint8_t state, cycle;
    uint32_t wait, at[SCHEDULE];
    uint64_t requested, met[FATES], cal_requested, cal_accepted, cal_lost, events;
} Ptc;

static uint32_t set[SETTINGS];
static uint64_t crossings, orbit, errors, marks[32];
static uint32_t next_number, holder, left_orbits;
static Ptc ptcs[8];
static uint8_t owner[40], rank[2][16];
static const uint8_t shows[20] = {10, 4, 4, 4, 4, 4, 4, 8, 1, 0, 2, 12, 4, 4, 4, 4, 4, 4, 12, 4};

/* The first rule, 1 to 4, that refuses a trigger in this crossing, or 0: each desk has its way to count. */
static int refused_by(int warn);

static void take_over(uint32_t first) {
    for (uint32_t d = 0; d < 8; d++)
        if (set[SLOT0 + (first + d) % 8]) {
            holder = (first + d) % 8;
            left_orbits = 10 * set[SLOT0 + holder];
            return;
        }
    holder = 8;
    left_orbits = 0;
}

/* The values of so many lines: whether they are there. */
static int values(FILE *text, uint32_t *to, int count) {
    char line[64];
    for (; count && fgets(line, sizeof line, text); count--) *to++ = atoi(strchr(line, '=') + 1);
    return !count;
}

/* The settings of any edition: the first has no line that names it, and one schedule, which all eight go by; the first two have a
   line `warn_blocks`, and where that is 1 the low limits become 0. */
static int read_settings(uint32_t *parts) {
    uint32_t edition = 1, blocks = 0;
    FILE *text = fopen("board.set", "r");
    if (!text) return 0;
    fscanf(text, "edition=%u\n", &edition); /* takes nothing of a text that begins otherwise */
    if (!values(text, set, IGNORE_DISC) || !values(text, &blocks, edition < 3)) return 0;
    if (!values(text, set + IGNORE_DISC, SETTINGS - IGNORE_DISC)) return 0;
    if (blocks) set[R2 + 2] = set[R3 + 2] = set[R4 + 2] = 0;
    for (int k = 0; k < 8; k++)
        if (k && edition == 1) memcpy(ptcs[k].at, ptcs[0].at, sizeof ptcs[0].at);
        else if (!values(text, ptcs[k].at, SCHEDULE)) return 0;
    return values(text, parts, 32);
}

/* The settings, and the tables that go by them. */
static int open_board(void) {
    static const uint8_t class_of[16] = {DISCONNECTED, WARNING, OUT_OF_SYNC, BAD, BUSY, BAD, BAD, BAD,
                                         READY, BAD, BAD, BAD, ERROR, BAD, BAD, DISCONNECTED};
    uint32_t parts[32];
    if (!read_settings(parts)) return 0;
    for (int n = 0; n < 40; n++) owner[n] = n < 32 ? parts[n] : (uint32_t)n - 32;
    for (int half = 0; half < 2; half++)
        for (int code = 0; code < 16; code++) {
            uint8_t c = half && code == 11 ? BUSY : class_of[code];
            rank[half][code] = (c == DISCONNECTED && set[IGNORE_DISC]) || (c == BAD && set[IGNORE_BAD]) ? NONE : c;
        }
    take_over(0);
    return 1;
}

static uint32_t entry_wait(uint8_t s) {
    switch (s) {
    case 2: case 17: return set[RECOVER_RESYNC];
    case 12: return set[SETTLE_HARD];
    case 14: return set[RECOVER_HARD];
    case 15: return set[SETTLE_RESYNC];
    default: return 0;
    }
}

static uint8_t running(uint8_t c) {
    return c >= BAD ? 9 : c == OUT_OF_SYNC ? 10 : c == ERROR ? 11 : c == READY ? 7 : c == WARNING ? 8 : 6;
}

static uint8_t timed(Ptc *p, uint32_t number, int date, uint8_t code, uint8_t to) {
    if (number != p->at[date]) return 0;
    p->state = to;
    return code;
}

static uint8_t move(Ptc *p, int k, uint32_t number, uint8_t c) {
    uint8_t code = 0;
    if (p->wait) {
        p->wait -= number == 0;
        return 0;
    }
    switch (p->state) {
    case 1: code = timed(p, number, RESYNC, 5, 2); break;
    case 2: p->state = c >= OUT_OF_SYNC ? 18 : k ? 4 : 3; break;
    case 3: code = timed(p, number, OC0, 8, 4); break;
    case 4: code = timed(p, number, START, 9, 5); break;
    case 5: code = timed(p, number, EC0, 7, 6); break;
    case 12: p->state = 13; break;
    case 13: code = timed(p, number, HARD, 6, 14); break;
    case 14: p->state = 15; break;
    case 15: p->state = 16; break;
    case 16: code = timed(p, number, RESYNC, 5, 17); break;
    case 17: p->state = 5; break;
    case 19: code = timed(p, number, STOP, 10, 0); break;
    case 6: case 7: case 8: p->state = running(c); break;
    case 9: p->state = c >= BAD ? 9 : 6; break;
    }
    p->wait = entry_wait(p->state);
    return code;
}

static int runs(const Ptc *p) { return p->state == 7 || p->state == 8; }

static int in_gap(uint32_t number) { return set[GAP_LOW] <= number && number <= set[GAP_HIGH]; }

/* The cause that a request is lost under, or SENT where the rules have to tell. */
static int cause(const Ptc *p, int own, int closed) {
    return !runs(p) ? LOST_STATE : !own ? LOST_SLOT : closed ? LOST_GAP : p->cycle == OPEN ? LOST_CAL : SENT;
}

static int fate(const Ptc *p, int own, int closed) {
    int why = cause(p, own, closed);
    return why == SENT ? SENT + refused_by(p->state == 8) : why;
}

/* Cycle and trigger: the byte of a controller, by the state after the move and the code that it sent. */
static uint8_t act(Ptc *p, int own, uint32_t number, uint8_t code, int asked) {
    int sent = 0, cal = 0;
    if (!runs(p) || (p->cycle == OPEN && !own)) p->cycle = NO_CYCLE;
    if (!code) code = number == p->at[BC0] ? 1 : number == p->at[GAP] ? 11 : 0;
    if (p->cycle == ARMED && own && number == p->at[WTE]) {
        p->cycle = OPEN;
        if (!code) code = 13;
    } else if (p->cycle == OPEN && number == p->at[TE] && !code)
        code = 2;
    if (asked) {
        int met = fate(p, own, in_gap(number));
        p->requested++;
        p->met[met]++;
        sent = met == SENT;
    }
    if (p->cycle == OPEN && number == p->at[CAL]) {
        cal = !refused_by(p->state == 8);
        p->cal_requested++;
        if (cal) p->cal_accepted++;
        else p->cal_lost++;
        p->cycle = NO_CYCLE;
    }
    if (code == 7) p->events = 0;
    p->events += sent | cal;
    return code + 16 * sent + 32 * cal;
}

/* The number of a crossing, with what a new orbit brings. */
static uint32_t arrive(int marker) {
    uint32_t number = marker ? 0 : next_number;
    errors += marker && next_number;
    if (!number && crossings) {
        orbit++;
        if (holder < 8 && !--left_orbits) take_over(holder + 1);
    }
    return number;
}

/* All eight through a crossing, into its row: whether one of them sends a trigger. */
static int cross(uint32_t number, uint8_t requests, const uint8_t *classes, uint8_t *row) {
    uint8_t any = 0;
    for (uint32_t k = 0; k < 8; k++) {
        uint8_t code = move(&ptcs[k], k, number, classes[k]);
        if (code == 8) orbit = 0;
        row[k] = act(&ptcs[k], k == holder, number, code, requests >> k & 1);
        any |= row[k];
    }
    for (int k = 0; k < 4; k++) row[8 + k] = shows[ptcs[2 * k].state] + 16 * shows[ptcs[2 * k + 1].state];
    return any >= 16;
}

/* The crossings from this number on, so many, are done. */
static void advance(uint32_t number, uint32_t count) {
    crossings += count;
    next_number = number + count < set[ORBIT] ? number + count : 0;
}

static int takes(const Ptc *p, uint8_t command) {
    uint8_t s = p->state;
    switch (command) {
    case 1: return s == 0;
    case 2: return 1 <= s && s <= 18;
    case 3: return (6 <= s && s <= 11) || s == 18;
    case 4: return (6 <= s && s <= 8) || s == 10 || s == 18;
    case 5: return runs(p) && p->cycle == NO_CYCLE;
    default: return 1;
    }
}

static void command(const uint8_t *rec, uint8_t *row) {
    static const uint8_t leads[7] = {0, 1, 19, 12, 15, 0, 0};
    Ptc *p = &ptcs[rec[1]];
    memset(row, 0, ROW);
    row[0] = 0xF1;
    if (!takes(p, rec[2])) return;
    row[0] = 0xF0;
    if (rec[2] == 5) {
        p->cycle = ARMED;
        return;
    }
    if (rec[2] == 1) memset(&p->requested, 0, (char *)&p->events - (char *)&p->requested);
    p->state = leads[rec[2]];
    p->wait = entry_wait(p->state);
    p->cycle = NO_CYCLE;
}

static void report(void) {
    printf("crossings=%lu\norbit=%lu\nbc_errors=%lu\nholder=%u\n", crossings, orbit, errors, holder);
    for (int k = 0; k < 8; k++) {
        Ptc *p = &ptcs[k];
        uint64_t throttled = 0;
        if (!set[SLOT0 + k]) continue;
        for (int r = 1; r <= RULES; r++) throttled += p->met[SENT + r];
        printf("ptc=%d\nstate=%d\nrequested=%lu\naccepted=%lu\n", k, p->state, p->requested, p->met[SENT]);
        printf("lost_state=%lu\nlost_slot=%lu\nlost_gap=%lu\n", p->met[LOST_STATE], p->met[LOST_SLOT], p->met[LOST_GAP]);
        printf("lost_cal=%lu\nlost_throttle=%lu\n", p->met[LOST_CAL], throttled);
        for (int r = 1; r <= RULES; r++) printf("lost_r%d=%lu\n", r, p->met[SENT + r]);
        printf("cal_requested=%lu\ncal_accepted=%lu\ncal_lost=%lu\n", p->cal_requested, p->cal_accepted, p->cal_lost);
        printf("events=%lu\n", p->events);
    }
}

/* The log, piece by piece, through the desk's own way, and the report. The rows stay in memory, as the proved desk's do. */
static void replay(void (*run)(const uint8_t *log, int records, uint8_t *rows)) {
    static uint8_t piece[PIECE], rows[PIECE / RECORD * ROW];
    int got, log = open("run.rec", O_RDONLY);
    while ((got = read(log, piece, PIECE)) > 0) run(piece, got / RECORD, rows);
    report();
}
