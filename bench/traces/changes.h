/* Changes of a legal trace: its card, and what other changes are made of. */
#ifndef CHANGES_H
#define CHANGES_H

#include "traffic.h"

static uint32_t near(uint32_t v)
{
    int64_t by = one_in(2) ? 1 : one_in(2) ? between(1, 4) : below(200);
    return one_in(2) ? (v >= by ? v - (uint32_t)by : 0) : v + (uint32_t)by;
}

static void perturb_tag_23(struct card *c)
{
    if (one_in(4))
        c->presets = !c->presets;
    else
        c->mr1 = (uint8_t)(c->mr1 ^ 1u << (one_in(3) ? below(5) : between(5, 7)));
}

static void perturb_tag_25(struct card *c)
{
    if (one_in(2))
        c->two = !c->two;
    else
        c->gap = one_in(2) ? (uint8_t)draw() : (uint8_t)near(c->gap);
}

static const uint32_t edges[] = {0, 1, 999999, 1000000, 1000001, UINT32_MAX};

static uint32_t beside(uint32_t ps, uint64_t period)
{
    uint32_t by = (uint32_t)(period / FS);
    return one_in(2) ? near(ps) : ps + (one_in(2) ? by : 0u - by);
}

static void perturb_tag_26(struct card *c)
{
    if (one_in(4))
        c->heats = !c->heats;
    else
        c->heat = one_in(2) ? PICK(edges) : beside(c->heat, c->period);
}

/* A period of 8 bytes: a number that no card has, a bit set or a good value in the upper half, a fs more or less, or
   cut or rounded up to ps. */
static uint64_t fine_near(uint64_t period)
{
    static const uint64_t odd[] = {0,         938,        1250,      937999,            938000,    100000000,
                                   100000001, UINT32_MAX, INT64_MAX, UINT64_C(1) << 63, UINT64_MAX};
    switch (below(8)) {
    case 0:
    case 1:
        return PICK(odd);
    case 2:
        return period | UINT64_C(1) << (one_in(4) ? 63 : between(32, 63));
    case 3:
        return period << 8 * between(1, 4);
    case 4:
        return period / FS * FS;
    case 5:
        return (period + FS - 1) / FS * FS;
    default:
        return one_in(2) ? period + 1 : period - 1;
    }
}

static void perturb_period(struct card *c)
{
    static const uint32_t odd[] = {0, 937, 938, 100000, 100001, 1250000, 4296218, UINT32_MAX};
    if (one_in(6))
        trace.fine = !trace.fine;
    else if (trace.fine)
        c->period = fine_near(c->period);
    else
        c->period = FS * (one_in(2) ? PICK(odd) : near((uint32_t)(c->period / FS)));
}

/* tREFI at its bounds, or where whole intervals end. */
static void perturb_refi(struct card *c)
{
    uint64_t fs = FS * c->refi, whole = c->period ? fs - fs % c->period : 0;
    uint32_t least = (uint32_t)((c->period + FS - 1) / FS), up = (uint32_t)((whole + FS - 1) / FS);
    uint32_t refis[] = {least - 1, least, 20000000, 20000001, near(c->refi), up, up - 1};
    c->refi = PICK(refis);
}

static void perturb_mr2(struct card *c)
{
    if (one_in(3))
        c->mr2 = edge_mr2(c->period);
    else
        c->mr2 = (uint8_t)(one_in(2) ? below(256) : c->mr2 ^ 1u << below(8));
}

static void perturb_card(struct card *c)
{
    static const uint32_t rs[] = {0, 1, 16384, 16385, 65535};
    static const uint8_t floors[] = {0, 1, 254, 255};
    unsigned i = (unsigned)below(timings(c));
    switch (below(11)) {
    case 0:
        perturb_period(c);
        break;
    case 1:
        perturb_mr2(c);
        break;
    case 2:
        c->r = PICK(rs);
        break;
    case 3:
        perturb_refi(c);
        break;
    case 4:
        c->ps[i] = PICK(edges);
        break;
    case 5:
        c->floor[i] = one_in(2) ? PICK(floors) : (uint8_t)near(c->floor[i]);
        break;
    case 6:
        perturb_tag_25(c);
        break;
    case 7:
        perturb_tag_26(c);
        break;
    case 8:
        perturb_tag_23(c);
        break;
    default:
        c->ps[i] = beside(c->ps[i], c->period);
    }
}

static void shift_from(size_t i, uint32_t by)
{
    for (; i < trace.n; i++)
        trace.e[i].stamp += by;
}

static void add(int64_t t, uint32_t pins)
{
    insert(trace.n, (struct entry){(uint32_t)t, pins});
    trace.last = (uint32_t)(t + below(2));
}

static bool is_field(size_t i) { return trace.e[i].pins & FIELD; }

/* What an entry is to the part it is for; a field counts as NOP. */
static enum kind kind_of(size_t i)
{
    uint32_t pins = trace.e[i].pins;
    return is_field(i) ? NOP : decode(trace.card.two ? seen(pins) : pins);
}

/* The first entry of either kind from this place on, round about; the number of entries where there is none. */
static size_t some_of(size_t from, enum kind a, enum kind b)
{
    for (size_t j = 0; j < trace.n; j++) {
        size_t i = (from + j) % trace.n;
        if (kind_of(i) == a || kind_of(i) == b)
            return i;
    }
    return trace.n;
}

#endif
