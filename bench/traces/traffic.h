/* Legal traces: traffic drawn from decks, refreshed in time, and an end. */
#ifndef TRAFFIC_H
#define TRAFFIC_H

#include "sleeps.h"

static unsigned some_bank(unsigned set)
{
    unsigned b;
    do
        b = (unsigned)below(8);
    while (!(set >> b & 1));
    return b;
}

/* A command that the bank states permit. */
static enum kind choose(const struct record *r, const uint8_t *deck, unsigned cards, unsigned *bank)
{
    unsigned closed = ~r->open & 255;
    enum kind k = deck[below(cards)];
    *bank = (unsigned)below(8);
    if (k == REFPB && r->open >> r->counter & 1) {
        *bank = r->counter;
        return PRE;
    }
    if (k == REFPB)
        *bank = r->counter;
    if ((k == REFAB || k == MRW) && r->open)
        return PREA;
    if (k >= RD && k <= WRA && !r->open)
        k = ACT;
    if (k == ACT && !closed)
        k = RD;
    if (k == ACT)
        *bank = some_bank(closed);
    if (k >= RD && k <= WRA)
        *bank = some_bank(r->open);
    if (k == PRE && r->open && !one_in(8))
        *bank = some_bank(r->open);
    return k;
}

static const uint8_t full[] = {ACT, ACT, ACT, ACT, RD,  RD,  RD,  RD,  RD,  RD, RD, WR,  WR,
                               WR,  WR,  WR,  RDA, RDA, WRA, PRE, PRE, PRE, RD, WR, ACT, PRE};
static const uint8_t all[] = {ACT, ACT, ACT, ACT,  RD,  RD,  RDA,   WR,  WR,
                              WRA, PRE, PRE, PREA, MRR, NOP, REFPB, MRW, REFAB};
static const uint8_t refreshing[] = {REFPB, REFPB, REFPB, REFPB, ACT, ACT, PRE, RDA, WRA, REFAB, NOP};
static const uint8_t modes[] = {MRR, MRR, MRW, MRW, MRW, ACT, RD, RDA, WR, WRA, PREA, RD, WR};
static const uint8_t activating[] = {ACT, ACT, ACT, ACT, ACT, ACT, RDA, RDA, WRA, WRA, PRE, REFPB, NOP};
static const uint8_t bus[] = {RD, RD, RD, WR, WR, WR, MRR, MRR, RDA, WRA};

enum style { FULL, ALL, REFRESHING, MODES, ACTIVATING, BUS, STYLES };

/* From a dense deck more than one command is drawn, and the one that may come first is taken. */
static const struct deck {
    const uint8_t *kinds;
    unsigned n;
    bool dense;
} decks[] = {
    [FULL] = {full, sizeof full, true},
    [ALL] = {all, sizeof all, false},
    [REFRESHING] = {refreshing, sizeof refreshing, false},
    [MODES] = {modes, sizeof modes, false},
    [ACTIVATING] = {activating, sizeof activating, true},
    [BUS] = {bus, sizeof bus, false},
};

static const struct deck registers = {(const uint8_t[]){MRW}, 1, false};

static const struct deck *some_deck(enum style style)
{
    if (trace.programs && one_in(style == FULL ? 100 : 8))
        return &registers;
    return decks + (style == FULL && one_in(200) ? ALL : style);
}

/* A command to a part, and when. */
struct command {
    unsigned p;
    enum kind k;
    unsigned bank;
    int64_t t;
};

static unsigned some_part(const struct record *part) { return part->card.two ? (unsigned)below(2) : 0; }

static struct command some_command(const struct record *part, const struct deck *d)
{
    struct command c = {.p = some_part(part)};
    c.k = choose(part + c.p, d->kinds, d->n, &c.bank);
    c.t = first_permitted(part, c.p, c.k, c.bank);
    return c;
}

static struct command early_command(const struct record *part, const struct deck *d)
{
    struct command c = some_command(part, d);
    for (int i = 0; d->dense && i < 2 && c.t > part->next; i++) {
        struct command other = some_command(part, d);
        if (other.t < c.t)
            c = other;
    }
    return c;
}

/* The next command. Behind a PRE-all its part wants a REFab or an MRW; these are kept in `wanted`, NOP for none. */
static struct command next_command(const struct record *part, const struct deck *d, enum kind *wanted)
{
    struct command c = {.p = some_part(part)};
    if (wanted[c.p] != NOP && !part[c.p].open) {
        c.k = wanted[c.p];
        c.t = first_permitted(part, c.p, c.k, 0);
        wanted[c.p] = NOP;
        return c;
    }
    c = early_command(part, d);
    if (c.k == PREA)
        wanted[c.p] = one_in(3) ? REFAB : MRW;
    return c;
}

/* False: nothing can follow. */
static bool some_sleeps(struct record *r, bool stays)
{
    bool awake;
    do
        awake = sleep(r, stays);
    while (awake && one_in(3));
    return awake;
}

/* One more entry, or a few. False: nothing can follow. */
static bool lay_more(struct record *part, enum style style, int64_t jump, enum kind *wanted)
{
    struct command c = next_command(part, some_deck(style), wanted);
    if (one_in(style == FULL ? 64 : 8))
        c.t += one_in(4) ? below(40) : between(1, 3);
    if (jump && one_in(16))
        c.t += below(jump);
    if (leaves_time(part, c.p, c.k, c.bank, c.t))
        return lay(part, c.p, c.k, c.bank, c.t);
    wanted[0] = wanted[1] = NOP;
    return refresh(part);
}

static void lay_legal(struct record *part, size_t count)
{
    bool goes_on = true, large = count > 1000;
    enum style style = large ? FULL : (enum style)below(part->card.two ? STYLES : BUS);
    int64_t jump = one_in(3) ? 2 * part->interval : 0;
    enum kind wanted[2] = {NOP, NOP};
    if (trace.warms && one_in(2))
        lay_fields(part);
    while (goes_on && trace.n < count) {
        if (trace.warms && one_in(large ? 300 : 6))
            lay_fields(part);
        if (part->card.sleeps && one_in(large ? 100 : 6)) {
            wanted[0] = NOP;
            goes_on = some_sleeps(part, !large);
        } else
            goes_on = lay_more(part, style, jump, wanted);
    }
}

static void choose_end(const struct record *part)
{
    int64_t low = part->next ? part->next - 1 : 0;
    int64_t fail = first_failing(part, part->card.two)->fail;
    int64_t high = uncounted(part->level) ? low + 30 * part->interval : fail - 1;
    int64_t e = one_in(3) ? low : one_in(3) ? high : between(low, high);
    trace.last = e > UINT32_MAX ? UINT32_MAX : (uint32_t)e;
    trace.fail = high + 1;
}

static struct record part[2];

static void begin_all(struct form form)
{
    trace.n = 0;
    trace.fine = form.fine;
    trace.warms = form.warms;
    trace.programs = form.programs;
    begin(&part[0], &trace.card);
    begin(&part[1], &trace.card);
}

/* MR1 or MR2 of this part is written, once its banks are closed. */
static void lay_mode(unsigned p, unsigned ma)
{
    if (part[p].open && !lay_first(part, p, PREA))
        return;
    uint8_t op = ma == 1 ? random_mr1() : random_mr2(part->card.period);
    lay_pins(part, p, MRW, 0, first_own(part + p, MRW, 0), encode(MRW, 0, ma, op));
}

/* Refreshes of this part, so many, the last at t. */
static void lay_refreshes(unsigned p, int64_t n, int64_t t)
{
    for (int64_t gap = part->rfcab + below(2); n--;)
        lay(part, p, REFAB, 0, t - n * gap);
}

/* One part's ledger is no longer the other's. */
static void lay_some_refreshes(void)
{
    unsigned p = (unsigned)below(2);
    int64_t n = between(1, 9), t = below(8 * part->interval);
    lay_refreshes(p, n, t);
}

/* Both accounts fail at cycle (m + 9) times the interval: one by rule 20, for it has a refresh or more too many, the
   last just before m intervals; the other by rule 19, with m refreshes, the last of them later. */
static void lay_tie(void)
{
    int64_t m = between(1, 5);
    unsigned p = (unsigned)below(2);
    lay_refreshes(p, m + between(1, 3), m * part->interval - 1);
    lay_refreshes(!p, m, part->next + m * (part->rfcab + 1) + below(part->interval));
}

static void legal(bool bench, struct form form, size_t count)
{
    tidy = one_in(2);
    trace.card = bench_card;
    if (bench)
        add_form(&trace.card, form);
    else
        random_card(&trace.card, form);
    begin_all(form);
    if (form.two && one_in(2))
        lay_mode((unsigned)below(2), 2);
    if (form.programs && one_in(2))
        lay_mode(some_part(part), 1);
    if (form.two && one_in(6))
        lay_some_refreshes();
    if (form.two && count <= 1000 && one_in(8))
        lay_tie();
    else
        lay_legal(part, count);
    choose_end(part);
}

/* Refreshes up to the last cycles of 32 bits; there often one entry too early. */
static void far(struct form form)
{
    tidy = true;
    trace.card = bench_card;
    add_form(&trace.card, form);
    trace.card.period = 938 * FS + (form.fine ? (uint64_t)below(FS) : 0);
    trace.card.mr2 = 0x1E;
    trace.card.refi = 20000000;
    begin_all(form);
    int64_t stop = UINT32_MAX - between(30, 4000);
    for (int64_t t = 0; t < stop; t += part->interval) {
        if (form.warms && one_in(1000)) {
            /* one due more at most, and its refresh */
            lay_field(part, part->next, some_mr4());
            lay_refreshes(0, 1, part->next + part->rfcab);
            lay_refreshes(1, form.two, part->next);
            t = part->next + part->rfcab;
        }
        lay(part, 0, REFAB, 0, t);
        if (form.two && t + 1 < stop)
            lay(part, 1, REFAB, 0, t + 1);
    }
    stop += below(20);
    unsigned p = some_part(part);
    lay(part, p, one_in(2) ? REFPB : REFAB, 0, stop);
    lay_legal(part, trace.n + 400);
    insert(trace.n, (struct entry){UINT32_MAX, stray_pins(938 * FS)});
    trace.last = UINT32_MAX;
    trace.fail = first_failing(part, part->card.two)->fail;
}

/* Likewise by one long self-refresh. */
static void far_asleep(bool bench, struct form form, size_t count)
{
    legal(bench, form, count);
    if (part->level == AWAKE && part->open)
        lay_first(part, 0, PREA);
    if (part->level == AWAKE)
        lay_pins(part, 0, NOP, 0, first_fall(part, SELF_REFRESH), fall_pins(SELF_REFRESH));
    int64_t rise = UINT32_MAX - (one_in(2) ? below(50) : below(20 * part->interval));
    if (part->level == SELF_REFRESH && rise > part->next && lay_pins(part, 0, NOP, 0, rise, rise_pins()))
        lay_legal(part, trace.n + count);
    if (one_in(2) && part->next <= UINT32_MAX)
        insert(trace.n, (struct entry){UINT32_MAX, stray_pins(938 * FS)});
    choose_end(part);
}

#endif
