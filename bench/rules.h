/* The rules of the trace judge, as one incremental record a part. */
#ifndef RULES_H
#define RULES_H

#include <stdbool.h>
#include <stdint.h>
#include <string.h>

#define INLINE static inline __attribute__((always_inline))

/* BOTH: both CS_n low, where there are two. */
enum kind { NOP, MRW, MRR, REFPB, REFAB, ACT, RD, RDA, WR, WRA, PRE, PREA, RESERVED, BOTH };

enum timing {
    tRCD,
    tRPpb,
    tRPab,
    tRAS,
    tRRD,
    tFAW,
    tRTP,
    tWR,
    tWTR,
    tDQSCK,
    tRFCab,
    tRFCpb,
    tMRR,
    tMRW,
    tCKE,
    tXP,
    tCKESR,
    tXSR,
    TIMINGS
};

enum level { AWAKE, POWER_DOWN, SELF_REFRESH, DEEP };

struct card {
    uint64_t period; /* in fs; other times are in ps */
    uint32_t refi, r;
    uint8_t mr2;
    bool sleeps;  /* tags 19 to 22 are there */
    bool presets; /* tag 23 is there */
    uint8_t mr1;
    bool two; /* tag 25 is there */
    uint8_t gap;
    bool heats;    /* tag 26 is there */
    uint32_t heat; /* 0 where it is not */
    uint32_t ps[TIMINGS];
    uint8_t floor[TIMINGS];
};

#define FS UINT64_C(1000) /* in a ps */

struct latency {
    uint8_t code;
    uint16_t least; /* period, in ps */
    uint8_t rl, wl[2];
};

static const struct latency latencies[] = {
    {1, 6000, 3, {1, 1}},   {4, 2500, 6, {3, 3}},    {6, 1875, 8, {4, 4}},
    {7, 1670, 9, {5, 5}},   {8, 1500, 10, {6, 8}},   {9, 1360, 11, {6, 9}},
    {10, 1250, 12, {6, 9}}, {12, 1071, 14, {8, 11}}, {14, 938, 16, {8, 13}},
};

/* The row of an MR2 value that MRW may write under this period, or null. */
static inline const struct latency *latency_of(uint8_t mr2, uint64_t period)
{
    if (mr2 & 0xA0)
        return 0;
    for (unsigned i = 0; i < sizeof latencies / sizeof *latencies; i++)
        if (latencies[i].code == (mr2 & 15) && FS * latencies[i].least <= period)
            return &latencies[i];
    return 0;
}

/* nWR by MR2 OP4 and MR1 OP7-5; 0: not listed. */
static const uint8_t nwrs[2][8] = {{0, 3, 0, 0, 6, 0, 8, 9}, {10, 11, 12, 0, 14, 0, 16, 0}};

#define UNLISTED 0x63 /* an MR1 value that is listed with neither OP4, and so counts as none does */

static inline bool mr1_permitted(unsigned mr1) { return (mr1 & 7) == 3; }

static inline enum kind decode(uint32_t pins)
{
    static const uint8_t by_ca[16] = {MRW, WR, ACT, RESERVED, REFPB, RD, ACT, NOP,
                                      MRR, WR, ACT, PRE,      REFAB, RD, ACT, NOP};
    if (pins >> 20 & 1)
        return NOP;
    enum kind k = by_ca[pins & 15];
    if (k == PRE)
        return pins >> 4 & 1 ? PREA : PRE;
    if (k == RD || k == WR)
        return k + (pins >> 10 & 1);
    return k;
}

#define CS_NS 0x500000u /* of both parts */

/* Of an entry for two parts: which it is for, and the pins as that part sees them, with its CS_n in bit 20. With both
   CS_n high it is a NOP, for whichever. */
INLINE unsigned part_of(uint32_t pins) { return pins >> 20 & 1; }
INLINE uint32_t seen(uint32_t pins) { return (pins & ~CS_NS) | (pins & pins >> 2 & 0x100000); }

static inline unsigned bank_bits(uint32_t pins) { return pins >> 7 & 7; }
static inline unsigned ma_bits(uint32_t pins) { return pins >> 4 & 255; }
static inline unsigned op_bits(uint32_t pins) { return pins >> 12 & 255; }

/* Cycles are signed: from this one no delay reaches cycle 0. */
#define NEVER (-(INT64_C(1) << 32))

/* rN is the first cycle that rule N permits, counted from the latest entry it names; not above 0 where there is none.
   Read and write rules stand in pairs, the read's first. r5 serves rule 5 or 6, whichever precharge says. */
struct bank {
    int64_t r4, r5, r7, r8, r9;
    int64_t r15_17[2], r16_18[3]; /* [2] is never asked */
    int64_t act10, ref10;
    unsigned precharge;
};

static const struct bank unused = {
    .r5 = NEVER,
    .r7 = NEVER,
    .r8 = NEVER,
    .r9 = NEVER,
    .r16_18 = {NEVER, NEVER},
    .act10 = NEVER,
    .ref10 = NEVER,
    .precharge = 5,
};

/* The delays that heat moves. */
struct warm {
    int64_t rcd, rppb, rpab, ras, rc, rrd;
};

/* What one part's entries leave behind. A trace of two parts has two of them, side by side. */
struct record {
    int64_t next; /* least stamp an entry, to whichever part, or a field may have */
    int64_t fail; /* first cycle that fails if neither a counted refresh nor a field comes */
    int64_t gate; /* greatest of r1, r2, r3, r22, r24 */
    int64_t r1, r2, r3, r4;
    int64_t r12[2]; /* to a read, to a write */
    int64_t r14_13[2];
    int64_t recent; /* latest ACT or REFpb, plus tRRD */
    int64_t r11[4]; /* the four latest ACT or REFpb, plus tFAW; the oldest at [oldest] */
    unsigned oldest;
    unsigned open; /* one bit a bank */
    unsigned counter;
    unsigned fail_rule;
    unsigned steady; /* bits 21 to 23 of an entry that neither moves clock-enable nor stands asleep */
    enum level level;
    int64_t fall; /* latest fall of clock-enable */
    int64_t r21, r22, r24;
    int64_t kept; /* fail, while nothing fails */
    int64_t cke, xp, ckesr, xsr;
    struct warm warm;
    int64_t faw, rfcab, rfcpb, mrr, mrw;
    uint8_t mr1, mr2;
    int64_t turn[2], to_pre[2]; /* read to write, write to read; to PRE; under the MR2 in force */
    int64_t to_own[2];          /* with AP, to the precharge it brings; under the MR1 and MR2 in force */
    uint64_t commands, refreshes;
    int64_t interval;
    int64_t origin; /* dues fall whole intervals after it; it moves on by the cycles that are not counted */
    int64_t ledger; /* after the last counted refresh or field */
    int64_t dues;   /* from the origin through that one */
    struct bank bank[8];
    struct card card;
};

struct refusal {
    unsigned number, rule;
    int64_t cycle;
};

INLINE unsigned is_write(enum kind k) { return k == WR || k == WRA; }

static inline int64_t clocks(const struct card *c, uint64_t ps, int64_t floor)
{
    int64_t n = (int64_t)((FS * ps + c->period - 1) / c->period);
    return n > floor ? n : floor;
}

static inline struct warm warm_by(const struct card *c, uint64_t ps)
{
    uint64_t rc = c->ps[tRAS] + c->ps[tRPpb] + 2 * ps;
    return (struct warm){
        .rcd = clocks(c, c->ps[tRCD] + ps, c->floor[tRCD]),
        .rppb = clocks(c, c->ps[tRPpb] + ps, c->floor[tRPpb]),
        .rpab = clocks(c, c->ps[tRPab] + ps, c->floor[tRPab]),
        .ras = clocks(c, c->ps[tRAS] + ps, c->floor[tRAS]),
        .rc = clocks(c, rc, c->floor[tRAS] + c->floor[tRPpb]),
        .rrd = clocks(c, c->ps[tRRD] + ps, c->floor[tRRD]),
    };
}

/* Quarters of tREFI by OP2-0 of MR4; 0: not permitted. */
static const uint8_t quarters[8] = {0, 16, 8, 4, 2, 1, 1, 0};

static inline int64_t interval_of(const struct card *c, unsigned mr4)
{
    int64_t n = (int64_t)(FS * c->refi * quarters[mr4 & 7] / (4 * c->period));
    return n > 1 ? n : 1;
}

static inline void set_modes(struct record *r, uint8_t mr1, uint8_t mr2)
{
    const struct card *c = &r->card;
    const struct latency *l = latency_of(mr2, c->period);
    unsigned wl = l->wl[mr2 >> 6 & 1], nwr = nwrs[mr2 >> 4 & 1][mr1 >> 5];
    r->mr1 = mr1;
    r->mr2 = mr2;
    r->turn[0] = l->rl + clocks(c, c->ps[tDQSCK], c->floor[tDQSCK]) + 5 - wl;
    r->turn[1] = wl + 5 + clocks(c, c->ps[tWTR], c->floor[tWTR]);
    r->to_pre[1] = wl + 5 + clocks(c, c->ps[tWR], c->floor[tWR]);
    r->to_own[1] = nwr ? wl + 5 + nwr : r->to_pre[1];
}

INLINE bool uncounted(enum level l) { return l == SELF_REFRESH || l == DEEP; }

/* The last counted refresh, or the latest field, was at this cycle. */
static inline void set_fail(struct record *r, int64_t from)
{
    int64_t fail19 = r->origin + (r->dues + 9 - r->ledger) * r->interval;
    int64_t fail20 = from + 9 * r->interval + 1;
    r->fail = fail19 <= fail20 ? fail19 : fail20;
    r->fail_rule = fail19 <= fail20 ? 19 : 20;
}

static inline void count_refresh(struct record *r, int64_t t)
{
    int64_t dues = (t - r->origin) / r->interval;
    int64_t ledger = r->ledger + dues - r->dues - 1;
    r->ledger = ledger < -8 ? -8 : ledger;
    r->dues = dues;
    r->refreshes++;
    set_fail(r, t);
}

/* The last counted cycle up to t. */
static inline int64_t counted(const struct record *r, int64_t t) { return uncounted(r->level) ? r->fall : t; }

static inline int64_t ledger_at(const struct record *r, int64_t t)
{
    return r->ledger + (counted(r, t) - r->origin) / r->interval - r->dues;
}

static inline void begin(struct record *r, const struct card *c)
{
    memset(r, 0, sizeof *r);
    r->card = *c;
    r->recent = r->r12[0] = r->r12[1] = r->r14_13[0] = r->r14_13[1] = NEVER;
    for (int b = 0; b < 8; b++)
        r->bank[b] = unused;
    int64_t n[TIMINGS];
    for (int i = 0; i < TIMINGS; i++)
        n[i] = clocks(c, c->ps[i], c->floor[i]);
    r->warm = warm_by(c, 0);
    r->faw = n[tFAW], r->rfcab = n[tRFCab], r->rfcpb = n[tRFCpb], r->mrr = n[tMRR], r->mrw = n[tMRW];
    r->cke = n[tCKE], r->xp = n[tXP], r->ckesr = n[tCKESR], r->xsr = n[tXSR];
    r->steady = 1;
    r->to_pre[0] = r->to_own[0] = n[tRTP] > 4 ? n[tRTP] : 4;
    r->interval = (int64_t)(FS * c->refi / c->period);
    r->fail = 9 * r->interval;
    r->fail_rule = 19;
    set_modes(r, c->presets ? c->mr1 : UNLISTED, c->mr2);
}

#define ASK(rule, cycle)      \
    do {                      \
        if (t < (cycle)) {    \
            *first = (cycle); \
            return (rule);    \
        }                     \
    } while (0)

static inline void raise_to(int64_t *a, int64_t b)
{
    if (*a < b)
        *a = b;
}

/* Rule 10: the latest ACT, and for an ACT the latest REFpb too, to another bank. */
static int64_t other_banks(const struct record *r, unsigned bank, bool act)
{
    int64_t c = 0;
    for (unsigned b = 0; b < 8; b++)
        if (b != bank) {
            raise_to(&c, r->bank[b].act10);
            if (act)
                raise_to(&c, r->bank[b].ref10);
        }
    return c;
}

/* The rules that speak for a command naming every bank: idle use, or PRE-all. */
static unsigned ask_all(const struct record *r, enum kind k, int64_t t, int64_t *first)
{
    int64_t c[19] = {0};
    c[4] = r->r4;
    for (unsigned i = 0; i < 8; i++) {
        const struct bank *b = &r->bank[i];
        if (k == PREA) {
            raise_to(&c[8], b->r8);
            raise_to(&c[15], b->r15_17[0]);
            raise_to(&c[17], b->r15_17[1]);
        } else {
            raise_to(&c[b->precharge], b->r5);
            raise_to(&c[9], b->r9);
            raise_to(&c[16], b->r16_18[0]);
            raise_to(&c[18], b->r16_18[1]);
        }
    }
    for (unsigned rule = 4; rule <= 18; rule++)
        ASK(rule, c[rule]);
    return 0;
}

/* Rules 4 to 18. */
INLINE unsigned ask_rest(const struct record *r, enum kind k, unsigned bank, int64_t t, int64_t *first)
{
    const struct bank *b = &r->bank[bank];
    switch (k) {
    case ACT:
    case REFPB:
        ASK(4, k == ACT ? b->r4 : r->r4);
        ASK(b->precharge, b->r5);
        ASK(9, b->r9);
        if (t < r->recent)
            ASK(10, other_banks(r, bank, k == ACT));
        ASK(11, r->r11[r->oldest]);
        ASK(16, b->r16_18[0]);
        ASK(18, b->r16_18[1]);
        return 0;
    case RD:
    case RDA:
    case WR:
    case WRA:
        ASK(7, b->r7);
        ASK(12, r->r12[is_write(k)]);
        ASK(14 - is_write(k), r->r14_13[is_write(k)]);
        return 0;
    case MRR:
        ASK(12, r->r12[0]);
        ASK(14, r->r14_13[0]);
        return 0;
    case PRE:
        ASK(4, b->r4);
        ASK(8, b->r8);
        ASK(15, b->r15_17[0]);
        ASK(17, b->r15_17[1]);
        return 0;
    default:
        return ask_all(r, k, t, first);
    }
}

/* All rules, of a command other than NOP, where one that asks every such command is broken; 21 is asked of falls only. */
static __attribute__((noinline)) unsigned ask_gate(const struct record *r, enum kind k, unsigned bank, bool falls,
                                                   int64_t t, int64_t *first)
{
    ASK(1, r->r1);
    ASK(2, r->r2);
    ASK(3, r->r3);
    unsigned rule = ask_rest(r, k, bank, t, first);
    if (rule)
        return rule;
    if (falls)
        ASK(21, r->r21);
    ASK(22, r->r22);
    ASK(24, r->r24);
    return 0;
}

/* The lowest rule that k at t breaks, with its first permitted cycle; 0: none. */
INLINE unsigned ask(const struct record *r, enum kind k, unsigned bank, int64_t t, int64_t *first)
{
    if (k == NOP)
        return 0;
    if (t < r->gate)
        return ask_gate(r, k, bank, false, t, first);
    return ask_rest(r, k, bank, t, first);
}

/* Rules 25 to 27: what the other part had on the bus last, with the delays of its own 12 to 14 raised by the gap. */
INLINE unsigned ask_bus(const struct record *other, enum kind k, int64_t t, int64_t *first)
{
    unsigned w = is_write(k);
    if (k != MRR && (k < RD || k > WRA))
        return 0;
    ASK(25, other->r12[w] + other->card.gap);
    ASK(27 - w, other->r14_13[w] + other->card.gap);
    return 0;
}

/* Likewise for a fall to this level: self-refresh and deep power-down have the delays of a REFab. */
static unsigned ask_fall(const struct record *r, enum level to, int64_t t, int64_t *first)
{
    if (to != POWER_DOWN)
        return ask_gate(r, REFAB, 0, true, t, first);
    ASK(21, r->r21);
    return 0;
}

static unsigned ask_rise(const struct record *r, int64_t t, int64_t *first)
{
    ASK(21, r->fall + r->cke);
    if (r->level == SELF_REFRESH)
        ASK(23, r->fall + r->ckesr);
    return 0;
}

INLINE bool state_permits(const struct record *r, enum kind k, unsigned bank)
{
    switch (k) {
    case ACT:
    case REFPB:
        return !(r->open >> bank & 1);
    case RD:
    case RDA:
    case WR:
    case WRA:
        return r->open >> bank & 1;
    case REFAB:
    case MRW:
        return !r->open;
    default:
        return true;
    }
}

static inline void note_activation(struct record *r, int64_t t)
{
    r->recent = t + r->warm.rrd;
    r->r11[r->oldest] = t + r->faw;
    r->oldest = (r->oldest + 1) & 3;
}

INLINE void note(struct record *r, enum kind k, unsigned bank, uint32_t pins, int64_t t)
{
    struct bank *b = &r->bank[bank];
    unsigned w = is_write(k), ap = k == RDA || k == WRA;
    r->commands += k != NOP;
    switch (k) {
    case ACT:
        r->open |= 1u << bank;
        b->r7 = t + r->warm.rcd;
        b->r8 = t + r->warm.ras;
        b->r9 = t + r->warm.rc;
        b->act10 = t + r->warm.rrd;
        note_activation(r, t);
        break;
    case RD:
    case RDA:
    case WR:
    case WRA:
        r->r12[w] = t + 4;
        r->r14_13[1 - w] = t + r->turn[w];
        b->r15_17[w] = t + r->to_pre[w];
        b->r16_18[ap ? w : 2] = t + r->to_own[w] + r->warm.rppb;
        r->open &= ~(ap << bank);
        break;
    case PRE:
        r->open &= ~(1u << bank);
        b->r5 = t + r->warm.rppb;
        b->precharge = 5;
        break;
    case PREA:
        r->open = 0;
        for (int i = 0; i < 8; i++) {
            r->bank[i].r5 = t + r->warm.rpab;
            r->bank[i].precharge = 6;
        }
        break;
    case REFPB:
        b->r4 = r->r4 = t + r->rfcpb;
        b->ref10 = t + r->warm.rrd;
        note_activation(r, t);
        if (r->counter == 7)
            count_refresh(r, t);
        r->counter = (r->counter + 1) & 7;
        break;
    case REFAB:
        r->r3 = t + r->rfcab;
        raise_to(&r->gate, r->r3);
        r->counter = 0;
        count_refresh(r, t);
        break;
    case MRW:
        r->r1 = t + r->mrw;
        raise_to(&r->gate, r->r1);
        if (ma_bits(pins) == 1)
            set_modes(r, (uint8_t)op_bits(pins), r->mr2);
        if (ma_bits(pins) == 2)
            set_modes(r, r->mr1, (uint8_t)op_bits(pins));
        break;
    case MRR:
        r->r2 = t + r->mrr;
        raise_to(&r->gate, r->r2);
        r->r14_13[1] = t + r->turn[0];
        break;
    default:
        break;
    }
    r->next = t + 1;
}

/* The level that a fall with these pins goes to; AWAKE: none. */
static inline enum level falls_to(uint32_t pins)
{
    if (pins >> 20 & 1)
        return POWER_DOWN;
    switch (decode(pins)) {
    case REFPB:
    case REFAB:
        return SELF_REFRESH;
    case PRE:
    case PREA:
    case RESERVED:
        return DEEP;
    default:
        return AWAKE;
    }
}

/* Nothing fails until counted cycles come again. */
static inline void hold(struct record *r)
{
    r->kept = r->fail;
    r->fail = INT64_MAX;
}

static inline void note_fall(struct record *r, enum level to, int64_t t)
{
    r->level = to;
    r->fall = t;
    r->steady = 8;
    if (uncounted(to))
        hold(r);
}

/* What would have failed fails later by the cycles that were not counted. */
static inline void note_rise(struct record *r, int64_t t)
{
    r->r21 = t + r->cke;
    if (r->level == SELF_REFRESH) {
        r->origin += t - r->fall;
        r->fail = r->kept + (t - r->fall);
        r->counter = 0;
        r->r24 = t + r->xsr;
        raise_to(&r->gate, r->r24);
    } else {
        r->r22 = t + r->xp;
        raise_to(&r->gate, r->r22);
    }
    r->level = AWAKE;
    r->steady = 1;
}

/* An entry with clock-enable low, or asleep, or with bits 22 and 23 wrong, once its stamp is good. */
static __attribute__((noinline)) bool step_moved(struct record *r, int64_t t, uint32_t pins, struct refusal *no)
{
    bool high = pins >> 21 & 1, falls = r->level == AWAKE;
    enum level to = falls_to(pins);
    int64_t first = 0;
    unsigned rule = 0;
    *no = (struct refusal){0, 0, 0};
    if (!r->card.sleeps || pins >> 22)
        no->number = 6;
    else if (r->level == DEEP || (falls && to == AWAKE) || (!falls && high && !(pins >> 20 & 1)))
        no->number = 16;
    else if (falls && to != POWER_DOWN && r->open)
        no->number = 8;
    else if (falls || high)
        rule = falls ? ask_fall(r, to, t, &first) : ask_rise(r, t, &first);
    if (rule)
        *no = (struct refusal){10, rule, first};
    else if (!no->number && t == r->fail)
        *no = (struct refusal){11, r->fail_rule, r->fail};
    if (no->number)
        return false;
    if (falls)
        note_fall(r, to, t);
    else if (high)
        note_rise(r, t);
    r->next = t + 1;
    return true;
}

/* The part whose account fails first; where both fail at one cycle, the first. */
INLINE const struct record *first_failing(const struct record *part, bool two)
{
    return two && part[1].fail < part[0].fail ? part + 1 : part;
}

/* The part whose account fails at t, if this one is refreshed there; null: none. */
INLINE const struct record *failing_at(const struct record *part, bool two, const struct record *refreshed, int64_t t)
{
    if (part[0].fail == t && refreshed != part)
        return part;
    return two && part[1].fail == t && refreshed != part + 1 ? part + 1 : 0;
}

/* The rest of a step once its kind is known; inlined once a kind, so that one jump decides it all. */
INLINE bool step_kind(struct record *part, bool two, unsigned p, enum kind k, unsigned bank, int64_t t,
                      uint32_t pins, struct refusal *no)
{
    struct record *r = part + p;
    unsigned ma = ma_bits(pins), op = op_bits(pins);
    if (k == BOTH) {
        *no = (struct refusal){24, 0, 0};
        return false;
    }
    if (k == RESERVED || (k == MRW && !(ma >= 1 && ma <= 3) && ma != 11 && ma != 16 && ma != 17)) {
        *no = (struct refusal){7, 0, 0};
        return false;
    }
    if (!state_permits(r, k, bank)) {
        *no = (struct refusal){8, 0, 0};
        return false;
    }
    if (k == MRW && ((ma == 1 && !mr1_permitted(op)) || (ma == 2 && !latency_of((uint8_t)op, r->card.period)))) {
        *no = (struct refusal){9, 0, 0};
        return false;
    }
    int64_t first;
    unsigned rule = ask(r, k, bank, t, &first);
    if (two && !rule)
        rule = ask_bus(part + !p, k, t, &first);
    if (rule) {
        *no = (struct refusal){10, rule, first};
        return false;
    }
    bool counted = k == REFAB || (k == REFPB && r->counter == 7);
    const struct record *failing = failing_at(part, two, counted ? r : 0, t);
    if (failing) {
        *no = (struct refusal){11, failing->fail_rule, t};
        return false;
    }
    note(r, k, bank, pins, t);
    if (two)
        part[!p].next = r->next;
    return true;
}

/* An entry of kind k to part p, with the pins as that part sees them. True: accepted and noted. False: refused, the
   records as they were. */
INLINE bool step(struct record *part, bool two, unsigned p, enum kind k, unsigned bank, int64_t t, uint32_t pins,
                 struct refusal *no)
{
    const struct record *failing = first_failing(part, two);
    if (t < part->next) {
        *no = (struct refusal){5, 0, 0};
        return false;
    }
    if (t > failing->fail) {
        *no = (struct refusal){11, failing->fail_rule, failing->fail};
        return false;
    }
    if (pins >> 21 != part->steady)
        return step_moved(part, t, pins, no);
    switch (k) {
    case ACT:
        return step_kind(part, two, p, ACT, bank, t, pins, no);
    case RD:
    case RDA:
    case WR:
    case WRA:
        return step_kind(part, two, p, k, bank, t, pins, no);
    case PRE:
        return step_kind(part, two, p, PRE, bank, t, pins, no);
    default:
        return step_kind(part, two, p, k, bank, t, pins, no);
    }
}

/* Delays are as they stand at the later entry, so what earlier ones left behind moves along. */
static inline void set_warm(struct record *r, struct warm to)
{
    struct warm from = r->warm;
    for (struct bank *b = r->bank; b < r->bank + 8; b++) {
        b->r5 += b->precharge == 5 ? to.rppb - from.rppb : to.rpab - from.rpab;
        b->r7 += to.rcd - from.rcd;
        b->r8 += to.ras - from.ras;
        b->r9 += to.rc - from.rc;
        b->r16_18[0] += to.rppb - from.rppb;
        b->r16_18[1] += to.rppb - from.rppb;
        b->act10 += to.rrd - from.rrd;
        b->ref10 += to.rrd - from.rrd;
    }
    r->recent += to.rrd - from.rrd;
    r->warm = to;
}

static inline void note_field(struct record *r, int64_t t, unsigned mr4)
{
    int64_t from = counted(r, t), interval = interval_of(&r->card, mr4), dues = (from - r->origin) / r->interval;
    int64_t old = r->origin + (dues + 1) * r->interval, due = from + interval;
    r->ledger += dues - r->dues;
    r->dues = 0;
    r->origin = (old < due ? old : due) - interval;
    r->interval = interval;
    set_fail(r, from);
    if (uncounted(r->level))
        hold(r);
    set_warm(r, warm_by(&r->card, (mr4 & 7) == 6 ? r->card.heat : 0));
    r->next = t + 1;
}

/* A field of tag 34. Its own cycle ends the gap of rule 20. True: taken. */
static bool step_field(struct record *part, int64_t t, unsigned mr4, struct refusal *no)
{
    bool two = part->card.two;
    const struct record *failing = first_failing(part, two);
    *no = (struct refusal){0, 0, 0};
    if (t < part->next)
        no->number = 5;
    else if (t > failing->fail)
        *no = (struct refusal){11, failing->fail_rule, failing->fail};
    else if (part->level == DEEP)
        no->number = 16;
    else if (!quarters[mr4 & 7])
        no->number = 26;
    else
        for (unsigned p = 0; p <= two; p++)
            if (part[p].fail == t && part[p].fail_rule == 19)
                *no = (struct refusal){11, 19, t};
    for (unsigned p = 0; p <= two && !no->number; p++)
        note_field(part + p, t, mr4);
    return !no->number;
}

/* True: the trace may end at this cycle. */
static inline bool finish(const struct record *part, int64_t end, struct refusal *no)
{
    const struct record *failing = first_failing(part, part->card.two);
    *no = (struct refusal){0, 0, 0};
    if (end + 1 < part->next)
        no->number = 5;
    else if (end >= failing->fail)
        *no = (struct refusal){11, failing->fail_rule, failing->fail};
    return !no->number;
}

#endif
