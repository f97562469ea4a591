/* Entries laid on the parts' records one after another, each where it may stand. `part` is both records; without tag 25
   the second lies idle. */
#ifndef LAYING_H
#define LAYING_H

#include "draws.h"

/* By the rules of its own part. */
static int64_t first_own(const struct record *r, enum kind k, unsigned bank)
{
    int64_t t = r->next, c;
    while (ask(r, k, bank, t, &c))
        t = c;
    return t;
}

static int64_t first_permitted(const struct record *part, unsigned p, enum kind k, unsigned bank)
{
    int64_t t = first_own(part + p, k, bank), c;
    while (part->card.two && ask_bus(part + !p, k, t, &c))
        t = c;
    return t;
}

static bool lay_pins(struct record *part, unsigned p, enum kind k, unsigned bank, int64_t t, uint32_t pins)
{
    struct refusal no;
    if (t > UINT32_MAX || !step(part, part->card.two, p, k, bank, t, pins, &no))
        return false;
    insert(trace.n, (struct entry){(uint32_t)t, to_part(pins, p)});
    return true;
}

static bool lay(struct record *part, unsigned p, enum kind k, unsigned bank, int64_t t)
{
    return lay_pins(part, p, k, bank, t, random_pins(k, bank, part->card.period));
}

static bool lay_field(struct record *part, int64_t t, unsigned mr4)
{
    struct refusal no;
    if (t > UINT32_MAX || !step_field(part, t, mr4, &no))
        return false;
    insert(trace.n, (struct entry){(uint32_t)t, FIELD | mr4});
    return true;
}

static bool lay_first(struct record *part, unsigned p, enum kind k)
{
    return lay(part, p, k, 0, first_permitted(part, p, k, 0));
}

/* The first cycle from this one on that a REFab could stand at, with a PRE-all before it where a bank is open. */
static int64_t reach(const struct record *r, int64_t from)
{
    struct record copy = *r;
    raise_to(&copy.next, from);
    if (copy.open)
        note(&copy, PREA, 0, 0, first_own(&copy, PREA, 0));
    return first_own(&copy, REFAB, 0);
}

/* Whether each part can still be refreshed in time, the one that fails first before the other. */
static bool in_time(const struct record *part)
{
    const struct record *a = first_failing(part, part->card.two), *b = part + (a == part);
    int64_t t = reach(a, 0);
    return t <= a->fail && (!part->card.two || reach(b, t + 1) <= b->fail);
}

/* No way to a REFab is longer than this. */
#define LONG_WAY 5000

/* Likewise, behind this entry. */
static bool leaves_time(const struct record *part, unsigned p, enum kind k, unsigned bank, int64_t t)
{
    bool two = part->card.two;
    int64_t fail = first_failing(part, two)->fail;
    if (t > fail || t + (1 + two) * LONG_WAY <= fail)
        return t <= fail;
    struct record copy[2] = {part[0], part[1]};
    note(copy + p, k, bank, 0, t);
    copy[!p].next = t + 1;
    return in_time(copy);
}

/* A refresh of this part, no bank of which is open: at once, or later if there is time; spare: only if the other part
   then has time. */
static bool lay_refresh(struct record *part, unsigned p, bool spare)
{
    const struct record *r = part + p;
    enum kind k = r->counter == 7 && first_own(r, REFPB, 7) <= r->fail ? REFPB : REFAB;
    int64_t t = first_own(r, k, 7), late = t;
    if (t < r->fail && one_in(4))
        late = one_in(2) ? r->fail : between(t, r->fail);
    if (!part->card.two || leaves_time(part, p, k, 7, late))
        t = late;
    else if (spare && !leaves_time(part, p, k, 7, t))
        return true;
    return lay(part, p, k, 7, t);
}

/* Refreshes of the part that fails first. */
static bool refresh(struct record *part)
{
    unsigned p = first_failing(part, part->card.two) != part;
    if (part[p].open && !lay_first(part, p, PREA))
        return false;
    bool good = lay_refresh(part, p, false);
    for (int64_t more = one_in(3) ? below(12) : 0; good && more; more--)
        good = lay_refresh(part, p, true);
    return good;
}

#endif
