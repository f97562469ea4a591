/* Changes of a trace where its two parts meet. */
#ifndef CROSSINGS_H
#define CROSSINGS_H

#include "changes.h"

static bool on_the_bus(size_t i)
{
    enum kind k = kind_of(i);
    return k == MRR || (k >= RD && k <= WRA);
}

/* Whether the entry on the bus before this one is the other part's. */
static bool crosses(size_t i)
{
    size_t before = i;
    while (before && !on_the_bus(before - 1))
        before--;
    return before && on_the_bus(i) && part_of(trace.e[i].pins) != part_of(trace.e[before - 1].pins);
}

/* An entry on the bus behind one of the other part; any where there is none. */
static size_t some_crossing(void)
{
    size_t from = below(trace.n);
    for (size_t j = 0; j < trace.n; j++)
        if (crosses((from + j) % trace.n))
            return (from + j) % trace.n;
    return from;
}

/* A part without refreshes from here on; its account fails where it did not yet. */
static void starve(size_t from, unsigned p)
{
    for (size_t i = trace.n; i-- > from;) {
        enum kind k = kind_of(i);
        if ((k == REFAB || k == REFPB) && part_of(trace.e[i].pins) == p)
            drop(i);
    }
    if (one_in(2))
        trace.last = (uint32_t)(9 * part->interval + below(4) - 2);
}

/* At the end, one entry or two about where an account fails; a refresh saves the part it is for. */
static void refresh_in_failing(void)
{
    int64_t t = one_in(2) ? trace.fail : trace.fail + below(4) - 2;
    uint32_t refab = encode(REFAB, 0, 0, 0), pins = refab;
    unsigned p = (unsigned)below(2), q = (unsigned)below(2);
    if (one_in(2))
        pins = one_in(2) ? 0x300000 : (uint32_t)below(1 << 24);
    add(t, to_part(pins, p));
    if (one_in(2))
        add(t + 1, to_part(refab, q));
}

/* At the end, entries on the bus, the last of them often too early, by a cycle or by more. */
static void add_on_the_bus(void)
{
    struct command c;
    for (unsigned n = (unsigned)below(4); n--;) {
        c = some_command(part, decks + BUS);
        lay(part, c.p, c.k, c.bank, c.t);
    }
    c = some_command(part, decks + BUS);
    if (one_in(3))
        c.t = between(part->next, c.t);
    else if (one_in(2) && c.t > part->next)
        c.t--;
    add(c.t, to_part(random_pins(c.k, c.bank, part->card.period), c.p));
}

/* An entry of either part close behind this one. */
static void intrude(size_t i)
{
    static const uint8_t kinds[] = {PREA, PREA, REFAB, REFPB, NOP, MRR, RD, WR};
    enum kind k = PICK(kinds);
    unsigned bank = (unsigned)below(8), p = (unsigned)below(2);
    uint32_t stamp = trace.e[i].stamp + (uint32_t)between(1, 2);
    insert(i + 1, (struct entry){stamp, to_part(encode(k, bank, 2, 0), p)});
}

/* An entry for the other part, for both or for neither, or with one of bits 20 to 23 wrong. */
static void perturb_selects(struct entry *e)
{
    switch (below(5)) {
    case 0:
        e->pins &= ~CS_NS;
        break;
    case 1:
        e->pins |= CS_NS;
        break;
    case 2:
        e->pins ^= 1u << between(20, 23);
        break;
    default:
        e->pins ^= CS_NS;
    }
}

static void perturb_crossing(size_t i)
{
    if (one_in(4))
        shift_from(i, UINT32_MAX);
    else
        trace.e[i].stamp--;
}

static void perturb_parts(void)
{
    unsigned what = (unsigned)below(20);
    if (what < 6)
        refresh_in_failing();
    else if (what < 10 || !trace.n)
        add_on_the_bus();
    else if (what < 14)
        perturb_crossing(some_crossing());
    else if (what < 18)
        perturb_selects(trace.e + below(trace.n));
    else if (one_in(2))
        intrude(below(trace.n));
    else {
        size_t from = below(trace.n);
        starve(from, (unsigned)below(2));
    }
}

#endif
