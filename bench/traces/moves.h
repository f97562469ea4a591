/* Changes of a trace at moves of clock-enable. */
#ifndef MOVES_H
#define MOVES_H

#include "changes.h"

/* Clock-enable is low at this entry, or at the one before this field. */
static bool is_low(size_t i)
{
    while (i && is_field(i))
        i--;
    return !is_field(i) && !(trace.e[i].pins >> 21 & 1);
}

static bool is_moved(size_t i) { return is_low(i) != (i && is_low(i - 1)); }

/* An entry with clock-enable low, a rise, or the entry behind a rise; bound: none that is asleep. The number of entries where there is none. */
static size_t some_move(bool bound)
{
    size_t from = trace.n ? below(trace.n) : 0;
    for (size_t j = 0; j < trace.n; j++) {
        size_t i = (from + j) % trace.n;
        if (is_moved(i) || (i && is_moved(i - 1) && !is_low(i - 1)) || (!bound && is_low(i)))
            return i;
    }
    return trace.n;
}

static const enum level levels[] = {POWER_DOWN, SELF_REFRESH, DEEP};

/* At the end, about where the account fails. */
static void end_in_failing(void)
{
    int64_t before = trace.fail - between(1, 4), t = trace.fail + below(4) - 2;
    if (one_in(2))
        add(before, fall_pins(PICK(levels)));
    add(t, one_in(3) ? fall_pins(PICK(levels)) : one_in(2) ? rise_pins() : (uint32_t)below(1 << 22));
}

/* An entry close behind this one, most often a fall or one that is not permitted. */
static void crowd(size_t i)
{
    int64_t most = part->cke > part->xp ? part->cke : part->xp;
    int64_t by = one_in(3) ? 1 : one_in(2) ? most - 1 + below(3) : between(1, most + 1);
    struct entry e = {trace.e[i].stamp + (uint32_t)by, fall_pins(PICK(levels))};
    if (one_in(3))
        e.pins = (uint32_t)below(1 << 22);
    if (one_in(6))
        e.pins |= 1u << between(22, 23);
    insert(i + 1, e);
}

static void perturb_move(void)
{
    unsigned what = (unsigned)below(16);
    size_t i = some_move(what < 5 || what >= 14);
    if (i == trace.n)
        return;
    struct entry *e = trace.e + i;
    switch (what) {
    case 0:
    case 1:
    case 2:
        e->stamp--;
        break;
    case 3:
        shift_from(i, UINT32_MAX);
        break;
    case 4:
        shift_from(i, one_in(2) ? 1 : (uint32_t)between(1, 3 * part->interval));
        break;
    case 5:
        e->pins ^= 1u << 20;
        break;
    case 6:
        e->pins ^= 1u << 21;
        break;
    case 7:
        e->pins |= 1u << between(22, 23);
        break;
    case 8:
        e->pins = (e->pins & 0x200000) | (uint32_t)below(1 << 20);
        break;
    case 9:
    case 10:
        if (is_low(i))
            e->pins = fall_pins(PICK(levels));
        break;
    case 11:
        drop(i);
        break;
    case 12:
    case 13:
        end_in_failing();
        break;
    default:
        crowd(i);
    }
}

#endif
