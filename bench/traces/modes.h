/* Changes of a trace at its mode registers, and where rule 18 goes by them. */
#ifndef MODES_H
#define MODES_H

#include "changes.h"

/* MR1 OP7-5, or MR2 OP4, of a write to them. */
static void perturb_mode(struct entry *e)
{
    if (ma_bits(e->pins) == 1)
        e->pins ^= (uint32_t)between(1, 7) << 17;
    else
        e->pins ^= 1u << 16;
}

static bool is_idle_use(enum kind k) { return k == ACT || k == REFPB || k == REFAB || k == MRW; }

/* The first idle use behind this write comes a cycle early. */
static void hasten_idle(size_t i)
{
    while (++i < trace.n)
        if (is_idle_use(kind_of(i))) {
            trace.e[i].stamp--;
            return;
        }
}

/* Behind a write with AP: a command that it may delay. */
static struct command behind_write(unsigned p, unsigned bank)
{
    static const uint8_t kinds[] = {ACT, ACT, ACT, REFPB, REFAB, MRW, PRE, PREA};
    struct command c = {.p = p, .k = PICK(kinds), .bank = bank};
    if (c.k == REFPB)
        c.bank = part[p].counter;
    c.t = first_permitted(part, c.p, c.k, c.bank);
    return c;
}

static void lay_some_mode(void)
{
    unsigned p = some_part(part), ma = (unsigned)between(1, 2);
    lay_mode(p, ma);
}

/* At the end: a write with AP, its part's other banks closed, registers written before and behind it, and then a
   command, often too early. */
static void end_in_write(void)
{
    unsigned p = some_part(part), bank = (unsigned)(one_in(3) ? part[p].counter : below(8));
    if (one_in(2))
        lay_some_mode();
    if (part[p].open)
        lay_first(part, p, PREA);
    lay(part, p, ACT, bank, first_permitted(part, p, ACT, bank));
    int64_t t = first_permitted(part, p, WRA, bank);
    lay(part, p, WRA, bank, one_in(2) ? t : t + below(80));
    for (int64_t n = one_in(2) ? 0 : between(1, 2); n--;)
        lay_some_mode();
    if (trace.warms && one_in(2))
        lay_field(part, part->next, with_code(one_in(3) ? 5 : 6));
    struct command c = behind_write(p, bank);
    if (c.t > part->next && !one_in(4))
        c.t -= one_in(3) ? between(1, c.t - part->next) : 1;
    add(c.t, to_part(random_pins(c.k, c.bank, part->card.period), c.p));
}

static void perturb_modes(void)
{
    unsigned what = (unsigned)below(10);
    size_t from = trace.n ? below(trace.n) : 0, i = some_of(from, what < 4 ? MRW : WRA, what < 4 ? MRW : WRA);
    if (what >= 6 || i == trace.n) {
        if (part->level == AWAKE)
            end_in_write();
    } else if (what >= 4)
        hasten_idle(i);
    else if (one_in(4))
        drop(i);
    else
        perturb_mode(trace.e + i);
}

#endif
