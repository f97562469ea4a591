/* A legal trace perturbed. */
#ifndef PERTURBS_H
#define PERTURBS_H

#include "crossings.h"
#include "fields.h"
#include "modes.h"
#include "moves.h"

static void perturb_stamp(size_t i)
{
    struct entry *e = trace.e + i;
    uint32_t by = near(0) + 1;
    if (one_in(5))
        shift_from(i, one_in(2) ? by - 2 : by);
    else if (one_in(4))
        e->stamp = near(e->stamp);
    else
        e->stamp -= (uint32_t)(one_in(2) ? 1 : between(1, 5));
}

static void perturb_pins(size_t i)
{
    struct entry *e = trace.e + i;
    if (is_field(i)) {
        perturb_value(e);
        return;
    }
    switch (below(5)) {
    case 0:
        e->pins ^= (uint32_t)between(1, 7) << 7;
        break;
    case 1:
        e->pins ^= 1u << (one_in(3) ? below(24) : below(11));
        break;
    case 2:
        e->pins ^= 1u << between(20, 23);
        break;
    case 3:
        e->pins = stray_pins(FS * (938 + (uint64_t)below(3000)));
        break;
    default:
        e->pins = (uint32_t)below(1 << 24);
    }
}

static void perturb_end(void)
{
    if (one_in(2))
        trace.last = (uint32_t)(trace.fail + below(4) - 2);
    else
        trace.last = one_in(4) ? (uint32_t)draw() : near(trace.n ? trace.e[trace.n - 1].stamp : 0);
}

static void insert_stray(size_t i)
{
    uint64_t period = trace.card.period < 938 * FS ? 938 * FS : trace.card.period;
    uint32_t stamp = trace.e[i].stamp + (one_in(2) ? UINT32_MAX : 1);
    insert(i, (struct entry){stamp, stray_pins(period)});
}

/* No refresh here, an ACT or REFpb one cycle early, or an MRW with another register or value. */
static void perturb_some(size_t from)
{
    unsigned what = (unsigned)below(3);
    unsigned shift = one_in(4) ? 4 : 12;
    enum kind a = what == 0 ? REFAB : what == 1 ? ACT : MRW;
    size_t i = some_of(from, a, what == 2 ? MRW : REFPB);
    if (i == trace.n)
        return;
    if (what == 0)
        drop(i);
    else if (what == 1)
        trace.e[i].stamp--;
    else
        trace.e[i].pins ^= (uint32_t)between(1, 255) << shift;
}

static void perturb_any(void)
{
    size_t i = trace.n ? below(trace.n) : 0;
    unsigned what = (unsigned)below(18);
    if (!trace.n && what < 14)
        what = one_in(2) ? 14 : 16;
    if (what < 5)
        perturb_stamp(i);
    else if (what < 9)
        perturb_pins(i);
    else if (what == 9)
        drop(i);
    else if (what == 10)
        insert_stray(i);
    else if (what < 14)
        perturb_some(i);
    else if (what < 16)
        perturb_card(&trace.card);
    else
        perturb_end();
}

static void perturb(void)
{
    if (trace.programs && one_in(3))
        perturb_modes();
    else if (trace.warms && one_in(2))
        perturb_fields();
    else if (trace.card.sleeps && one_in(2))
        perturb_move();
    else if (trace.card.two && one_in(2))
        perturb_parts();
    else
        perturb_any();
}

#endif
