/* Falls and rises of clock-enable, laid on a record. */
#ifndef SLEEPS_H
#define SLEEPS_H

#include "heats.h"

static int64_t first_fall(const struct record *r, enum level to)
{
    int64_t t = r->next, c;
    while (ask_fall(r, to, t, &c))
        t = c;
    return t;
}

static int64_t first_rise(const struct record *r)
{
    int64_t t = r->next, c;
    while (ask_rise(r, t, &c))
        t = c;
    return t;
}

/* Where to fall: as early as may be, on a due or beside it, or just before the account fails. */
static int64_t fall_at(const struct record *r, enum level to)
{
    int64_t first = first_fall(r, to), t = first, number = first - r->origin;
    if (one_in(4))
        t += between(1, 3);
    else if (one_in(4))
        t += (r->interval - number % r->interval) % r->interval + below(3) - 1;
    else if (one_in(8))
        t = r->fail - between(1, 3);
    return t < first || t >= r->fail ? first : t;
}

/* Where to rise, once fallen. */
static int64_t rise_at(const struct record *r)
{
    int64_t first = first_rise(r), t = first;
    if (one_in(2))
        return t;
    if (one_in(3))
        t += between(1, 3);
    else if (one_in(3))
        t += below(2 * r->interval);
    else if (r->level == SELF_REFRESH)
        t += below(one_in(4) ? 1 << 24 : 40 * r->interval);
    else if (one_in(2))
        t = r->fail - between(1, 4);
    return t < first || (r->level == POWER_DOWN && t > r->fail) ? first : t;
}

/* Whether a refresh can still come in time if this one, asleep, rises there. */
static bool wakes_in_time(struct record r, int64_t rise)
{
    note_rise(&r, rise);
    r.next = rise + 1;
    return rise < r.fail && reach(&r, 0) <= r.fail;
}

/* Likewise behind a field. */
static bool warms_in_time(struct record r, int64_t t, unsigned mr4, int64_t rise)
{
    struct refusal no;
    return step_field(&r, t, mr4, &no) && wakes_in_time(r, rise);
}

/* Asleep, up to a rise at this cycle; careless: it may leave no way on. */
static void lay_asleep(struct record *r, int64_t rise, bool careless)
{
    for (int64_t n = one_in(2) ? 0 : below(4); n-- && r->next < rise;) {
        int64_t t = one_in(3) ? rise - 1 : one_in(2) ? r->next : between(r->next, rise - 1);
        if (!trace.warms || one_in(3)) {
            lay_pins(r, 0, NOP, 0, t, noise(0x1FFFFF));
            continue;
        }
        unsigned mr4 = some_mr4();
        if (careless || warms_in_time(*r, t, mr4, rise))
            lay_field(r, t, mr4);
    }
}

/* A sleep; `stays`: it may be the last, or leave no way on. False: nothing can follow. */
static bool sleep(struct record *r, bool stays)
{
    bool careless = stays && one_in(6);
    enum level to = stays && one_in(20) ? DEEP : one_in(2) ? SELF_REFRESH : POWER_DOWN;
    if (to != POWER_DOWN && r->open && !lay_first(r, 0, PREA))
        return false;
    int64_t fall = fall_at(r, to);
    struct record copy = *r;
    note_fall(&copy, to, fall);
    copy.next = fall + 1;
    int64_t rise = to == DEEP ? fall + below(5000) : rise_at(&copy);
    if (to != DEEP && !careless && !wakes_in_time(copy, rise)) {
        rise = first_rise(&copy);
        if (!wakes_in_time(copy, rise))
            return true;
    }
    if (!lay_pins(r, 0, NOP, 0, fall, fall_pins(to)))
        return false;
    lay_asleep(r, rise, careless);
    if (to == DEEP || (stays && one_in(12)))
        return false;
    return lay_pins(r, 0, NOP, 0, rise, rise_pins());
}

#endif
