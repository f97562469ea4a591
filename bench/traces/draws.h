/* What is drawn by the seed: numbers, cards, pins. */
#ifndef DRAWS_H
#define DRAWS_H

#include "trace.h"

static uint64_t seed;

static uint64_t draw(void)
{
    uint64_t z = seed += 0x9E3779B97F4A7C15;
    z = (z ^ z >> 30) * 0xBF58476D1CE4E5B9;
    z = (z ^ z >> 27) * 0x94D049BB133111EB;
    return z ^ z >> 31;
}

/* No two draws stand where C leaves open which comes first: a seed means the same by every compiler. */
static int64_t below(int64_t n) { return (int64_t)(draw() % (uint64_t)n); }
static int64_t between(int64_t low, int64_t high) { return low + below(high - low + 1); }
static bool one_in(unsigned n) { return below(n) == 0; }
#define PICK(list) (list)[below(sizeof(list) / sizeof *(list))]

static const struct card bench_card = {
    .period = 1250 * FS,
    .mr2 = 0x1A,
    .r = 8192,
    .refi = 3900000,
    .ps = {18000, 18000, 21000, 42000, 10000, 50000, 7500, 15000, 7500, 5500, 130000, 60000, 0, 0},
    .floor = {3, 3, 3, 3, 2, 8, 4, 4, 4, 0, 0, 0, 4, 10},
};

/* The bench card's tCKE, tXP, tCKESR, tXSR, where it has them. */
static const uint32_t sleep_ps[] = {7500, 10000, 15000, 140000};
static const uint8_t sleep_floors[] = {3, 3, 3, 2};

/* What a trace has beyond document 01: tags 19 to 22, tag 25, fields of tag 34, tag 26, writes of MR1 that may be
   listed, tag 23, a period of 8 bytes. */
struct form {
    bool sleeps, two, warms, heats, programs, presets, fine;
};

static uint8_t random_mr1(void) { return (uint8_t)((draw() & 0xF8) | 3); }

static void add_form(struct card *c, struct form form)
{
    c->sleeps = form.sleeps;
    c->two = form.two;
    c->gap = c->two ? 2 : 0;
    c->heats = form.heats;
    c->heat = c->heats ? 1875 : 0;
    c->presets = form.presets;
    c->mr1 = c->presets ? random_mr1() : 0;
    if (c->sleeps) {
        memcpy(c->ps + tCKE, sleep_ps, sizeof sleep_ps);
        memcpy(c->floor + tCKE, sleep_floors, sizeof sleep_floors);
    }
    if (form.fine)
        c->period += (uint64_t)below(FS);
}

/* The least number of ps that is not below so many fs. */
static int64_t ps_of(int64_t fs) { return (fs + (int64_t)FS - 1) / (int64_t)FS; }

static uint8_t random_mr2(uint64_t period)
{
    uint8_t v;
    do
        v = (uint8_t)(draw() & 0x5F);
    while (!latency_of(v, period));
    return v;
}

/* An MR2 value of the last row that this period permits, or of the first that it does not. */
static uint8_t edge_mr2(uint64_t period)
{
    unsigned i = 0, last = sizeof latencies / sizeof *latencies - 1;
    while (i < last && FS * latencies[i].least > period)
        i++;
    if (i && one_in(2))
        i--;
    return (uint8_t)((draw() & 0x50) | latencies[i].code);
}

static void random_timing(struct card *c, unsigned i, unsigned style)
{
    if (style == 0) {
        c->ps[i] = (uint32_t)(c->ps[i] * between(50, 150) / 100);
    } else if (style == 1) {
        c->ps[i] = (uint32_t)(below(20) * (int64_t)c->period / (int64_t)FS);
        c->ps[i] = c->ps[i] ? c->ps[i] - (uint32_t)below(3) + 1 : 0;
        c->floor[i] = (uint8_t)below(20);
    } else if (style == 2) {
        c->ps[i] = (uint32_t)below(one_in(4) ? 200000 : 30000);
        c->floor[i] = (uint8_t)(one_in(3) ? below(16) : 0);
    } else if (style == 4) {
        /* just below whole periods or above, so many that their fractions add up */
        c->ps[i] = (uint32_t)(between(1, one_in(4) ? 900 : 40) * (int64_t)c->period / (int64_t)FS);
        c->ps[i] += (uint32_t)below(2);
        c->floor[i] = (uint8_t)below(3);
    } else if (one_in(12)) {
        c->ps[i] = one_in(2) ? 1000000 : 0;
        c->floor[i] = one_in(2) ? 255 : 0;
    }
    if (c->ps[i] > 1000000)
        c->ps[i] = 1000000;
}

static uint32_t random_heat(uint64_t period)
{
    int64_t heat = between(1, 8) * (int64_t)period / (int64_t)FS;
    heat = one_in(2) ? below(30000) : heat + below(3) - 1;
    if (one_in(8))
        heat = 1000000 * below(2);
    return heat > 1000000 ? 1000000 : (uint32_t)heat;
}

/* tREFI of a few periods, and delays so short that refreshes keep up. */
static void hurry(struct card *c)
{
    int64_t period = (int64_t)(c->period / FS);
    c->refi = (uint32_t)ps_of(between(1, 9) * (int64_t)c->period);
    c->refi += (uint32_t)below(period);
    for (unsigned i = 0; i < timings(c); i++) {
        c->ps[i] = one_in(2) ? 0 : (uint32_t)below(period);
        c->floor[i] = (uint8_t)below(2);
    }
    c->heat = c->heats ? (uint32_t)below(period) : 0;
}

/* tREFI that makes just this interval, by one of the MR4 codes, or a ps less. */
static uint32_t refi_beside(const struct card *c, int64_t interval)
{
    int64_t least = ps_of((int64_t)c->period), refi = 4 * interval * (int64_t)c->period / quarters[between(1, 6)];
    refi = ps_of(refi) - below(2);
    return (uint32_t)(refi < least ? least : refi > 20000000 ? 20000000 : refi);
}

/* Some number of these makes a duration of the bench card, or a few fs less or more. */
static uint64_t even_period(void)
{
    static const uint32_t durations[] = {5500, 7500, 10000, 15000, 18000, 21000, 42000, 50000, 60000};
    uint32_t ps = PICK(durations);
    uint64_t cycles = (uint64_t)between(1, ps / 938);
    return FS * ps / cycles + (uint64_t)below(2);
}

/* In fs: at the edges of the range and of the rows of latencies, of the kind that 933 MHz has, whole in ps, any. */
static uint64_t fine_period(void)
{
    static const uint32_t known[] = {938000, 938001, 1071429, 1071811, 33333333, 99999999, 100000000};
    uint64_t least = latencies[between(0, 7)].least;
    switch (below(7)) {
    case 0:
        return PICK(known);
    case 1:
    case 2:
        return FS * least + (uint64_t)below(3) - 1;
    case 3:
        return even_period();
    case 4:
        return FS * (uint64_t)between(938, 2000);
    case 5:
        return (uint64_t)between(938000, 2500000);
    default:
        return (uint64_t)between(938000, 100000000);
    }
}

/* By which one of the delays that heat moves comes beside whole periods. */
static uint32_t heat_beside(const struct card *c)
{
    static const uint8_t moved[] = {tRCD, tRPpb, tRPab, tRAS, tRRD};
    int64_t ps = c->ps[PICK(moved)], period = (int64_t)c->period, least = ps * (int64_t)FS / period + 1;
    int64_t heat = (least + below(8)) * period / (int64_t)FS - ps;
    heat += below(2);
    return heat > 1000000 ? 1000000 : (uint32_t)heat;
}

/* Where a fraction of a ps shows: delays and tREFI beside whole periods. */
static unsigned refine(struct card *c, int64_t interval, unsigned style)
{
    if (one_in(2))
        c->refi = refi_beside(c, interval);
    return one_in(2) ? 4 : style;
}

static void random_card(struct card *c, struct form form)
{
    static const uint32_t periods[] = {938,  939,  1070, 1071, 1072, 1249, 1250,  1251,  1360,  1500,
                                       1670, 1875, 2500, 5999, 6000, 6001, 33333, 99999, 100000};
    *c = bench_card;
    add_form(c, form);
    if (c->two)
        c->gap = (uint8_t)(one_in(4) ? below(256) : below(6));
    bool heat = c->heats && !one_in(3);
    c->period = FS * (one_in(3) ? (uint32_t)between(938, 100000) : one_in(3) ? 1250 : PICK(periods));
    if (form.fine)
        c->period = fine_period();
    c->mr2 = random_mr2(c->period);
    c->r = (uint16_t)between(1, 16384);
    int64_t interval = one_in(8) ? between(1, 20) : one_in(2) ? between(20, 600) : between(600, 22000);
    int64_t refi = ps_of(interval * (int64_t)c->period) + below((int64_t)(c->period / FS));
    c->refi = refi > 20000000 ? 20000000 : (uint32_t)refi;
    unsigned style = (unsigned)below(4);
    if (form.fine)
        style = refine(c, interval, style);
    for (unsigned i = 0; i < timings(c); i++)
        random_timing(c, i, style);
    int64_t four = c->ps[tRRD] * between(3, 6);
    if (one_in(2))
        c->ps[tFAW] = four > 1000000 ? 1000000 : (uint32_t)four;
    if (heat)
        c->heat = form.fine && !one_in(3) ? heat_beside(c) : random_heat(c->period);
    if (form.programs && one_in(2)) {
        /* the registers are written while a write counts */
        c->ps[tMRW] = 0;
        c->floor[tMRW] = (uint8_t)below(4);
    }
    if (form.warms && one_in(6))
        hurry(c);
}

static bool tidy; /* ignored bits zero */

static uint32_t encode(enum kind k, unsigned bank, unsigned ma, unsigned op)
{
    static const struct {
        uint32_t value, mask;
    } form[] = {
        [NOP] = {7, 7},       [MRW] = {0, 15},
        [MRR] = {8, 15},      [REFPB] = {4, 15},
        [REFAB] = {12, 15},   [ACT] = {2, 3},
        [RD] = {5, 7 | 1024}, [RDA] = {5 | 1024, 7 | 1024},
        [WR] = {1, 7 | 1024}, [WRA] = {1 | 1024, 7 | 1024},
        [PRE] = {11, 31},     [PREA] = {27, 31},
    };
    uint32_t other = tidy ? 0 : (uint32_t)below(1 << 20);
    if (k == NOP && one_in(2))
        return 0x300000 | other;
    uint32_t pins = (other & ~form[k].mask) | form[k].value;
    if (k == ACT || (k >= RD && k <= PRE))
        pins = (pins & ~0x380u) | bank << 7;
    if (k == MRW || k == MRR)
        pins = (pins & ~0xFF0u) | ma << 4;
    if (k == MRW)
        pins = (pins & ~0xFF000u) | op << 12;
    return 0x200000 | pins;
}

static uint32_t random_pins(enum kind k, unsigned bank, uint64_t period)
{
    static const uint8_t listed[] = {1, 2, 2, 2, 2, 3, 11, 16, 17};
    static const uint8_t programming[] = {1, 1, 1, 1, 2, 2, 2, 3, 11, 16, 17};
    unsigned ma = (unsigned)below(256), op = (unsigned)below(256);
    if (k == MRW) {
        ma = trace.programs ? PICK(programming) : PICK(listed);
        if (ma == 1)
            op = trace.programs ? (op & ~7u) | 3 : (op & 0x18) | UNLISTED;
        if (ma == 2)
            op = random_mr2(period);
    }
    return encode(k, bank, ma, op);
}

/* What a part sees, as the pins of an entry to this part. */
static uint32_t to_part(uint32_t pins, unsigned p)
{
    if (!trace.card.two)
        return pins;
    return pins | (pins >> 20 & 1 ? CS_NS : CS_NS & ~(1u << (20 + 2 * p)));
}

static unsigned with_code(int64_t code) { return (tidy ? 0 : (unsigned)below(32) << 3) | (unsigned)code; }

/* An MR4 value that is permitted. */
static unsigned some_mr4(void)
{
    int64_t code = trace.card.heat && one_in(2) ? between(5, 6) : between(1, 6);
    return with_code(code);
}

static uint32_t stray_pins(uint64_t period)
{
    enum kind k = (enum kind)below(RESERVED);
    unsigned bank = (unsigned)below(8), p = (unsigned)below(2);
    return to_part(random_pins(k, bank, period), p);
}

/* CS_n and the CA bits as they come. */
static uint32_t noise(uint32_t bits) { return tidy ? 0 : (uint32_t)below(1 << 21) & bits; }

static uint32_t fall_pins(enum level to)
{
    if (to == POWER_DOWN)
        return 0x100000 | noise(0xFFFFF);
    return noise(0xFFFF8) | (to == SELF_REFRESH ? 4 : 3);
}

static uint32_t rise_pins(void) { return 0x300000 | noise(0xFFFFF); }

#endif
