/* Changes of a trace at its fields of tag 34. */
#ifndef FIELDS_H
#define FIELDS_H

#include "changes.h"

/* The first field from a random place on, round about; the number of entries where there is none. */
static size_t some_reading(void)
{
    size_t from = trace.n ? below(trace.n) : 0;
    for (size_t j = 0; j < trace.n; j++)
        if (is_field((from + j) % trace.n))
            return (from + j) % trace.n;
    return trace.n;
}

/* Any MR4 value, permitted or not. */
static unsigned any_mr4(void) { return one_in(8) ? with_code(one_in(2) ? 0 : 7) : some_mr4(); }

/* Another value; between 101 and 110 the interval stays, and the heat comes or goes. */
static void perturb_value(struct entry *e)
{
    unsigned code = e->pins & 7;
    if ((code == 5 || code == 6) && !one_in(3))
        e->pins ^= 3;
    else if (one_in(3))
        e->pins ^= 1u << below(8);
    else
        e->pins = FIELD | any_mr4();
}

/* The stamp of the entry before or behind it, or beside that. */
static void crowd_field(size_t i)
{
    struct entry *e = trace.e + i;
    bool back = one_in(2);
    uint32_t by = (uint32_t)(below(3) - 1);
    if (back && i)
        e->stamp = e[-1].stamp + by;
    else if (!back && i + 1 < trace.n)
        e->stamp = e[1].stamp + by;
}

/* The field and its neighbour change places; the stamps stay. */
static void pass_field(size_t i)
{
    if (i + 1 == trace.n)
        return;
    uint32_t pins = trace.e[i].pins;
    trace.e[i].pins = trace.e[i + 1].pins;
    trace.e[i + 1].pins = pins;
}

/* One of the entries close behind a field comes a cycle early. */
static void hasten_behind(size_t i)
{
    size_t j = i + between(1, 6);
    if (j < trace.n)
        trace.e[j].stamp--;
}

static void insert_field(size_t i)
{
    uint32_t stamp = trace.e[i].stamp + (uint32_t)between(1, 2);
    insert(i + 1, (struct entry){stamp, FIELD | any_mr4()});
}

/* Refreshes more than are due, of each part. */
static void bank_refreshes(void)
{
    for (unsigned p = 0; p <= part->card.two; p++) {
        if (part[p].open && !lay_first(part, p, PREA))
            return;
        for (int64_t n = between(1, 16); n--;)
            if (!lay_first(part, p, REFAB))
                return;
    }
}

/* At the end: fields about dues and about where an account fails, and an end about where one fails by then. A cycle
   where both fail, by different rules, is not passed by. */
static void end_in_fields(void)
{
    bool tie = part->card.two && part[0].fail == part[1].fail && part[0].fail_rule != part[1].fail_rule;
    if (part->level == AWAKE && !tie && one_in(2))
        bank_refreshes();
    for (int64_t n = between(1, 4); n--;) {
        unsigned mr4 = any_mr4();
        int64_t t = tie && one_in(2) ? part->fail : field_at(part);
        t += one_in(12);
        if (!lay_field(part, t, mr4)) {
            add(t, FIELD | mr4);
            return;
        }
    }
    if (part->level != AWAKE && !one_in(3))
        lay_pins(part, 0, NOP, 0, first_rise(part), rise_pins());
    choose_end(part);
    if (one_in(12))
        trace.last = trace.e[trace.n - 1].stamp - 1;
    else if (!one_in(3))
        trace.last = (uint32_t)(trace.fail + below(4) - 2);
}

/* A command to this bank, as its state permits, or between them a REFpb. */
static struct command bank_command(unsigned p, unsigned bank)
{
    static const uint8_t opened[] = {RD, RDA, RDA, RDA, WR, WRA, PRE, PREA};
    struct command c = {.p = p, .k = ACT, .bank = bank};
    unsigned turn = part[p].counter;
    if (part[p].open >> bank & 1)
        c.k = PICK(opened);
    else if (one_in(3) && !(part[p].open >> turn & 1)) {
        c.k = REFPB;
        c.bank = turn;
    }
    c.t = first_permitted(part, c.p, c.k, c.bank);
    return c;
}

/* At the end: commands, many of them to one bank, heat that comes and goes between them, and a last one, often too
   early. */
static void end_in_heat(void)
{
    const struct deck *d = decks + (one_in(2) ? REFRESHING : ACTIVATING);
    unsigned p = some_part(part), bank = (unsigned)below(8);
    for (int64_t n = between(1, 5); n--;) {
        struct command c = one_in(3) ? some_command(part, d) : bank_command(p, bank);
        lay(part, c.p, c.k, c.bank, c.t);
        int64_t t = part->next + (one_in(2) ? 0 : below(4));
        if (one_in(2))
            lay_field(part, t, with_code(one_in(3) ? 5 : 6));
    }
    struct command c = one_in(3) ? some_command(part, d) : bank_command(p, bank);
    if (c.t > part->next && !one_in(4))
        c.t -= one_in(3) ? between(1, c.t - part->next) : 1;
    add(c.t, to_part(random_pins(c.k, c.bank, part->card.period), c.p));
}

static void perturb_fields(void)
{
    unsigned what = (unsigned)below(28);
    size_t i = some_reading();
    if (i == trace.n && what < 13)
        what = trace.n && one_in(2) ? 12 : 13;
    switch (what) {
    case 0:
    case 1:
    case 2:
    case 3:
        perturb_value(trace.e + i);
        break;
    case 4:
        crowd_field(i);
        break;
    case 5:
        trace.e[i].stamp += one_in(2) ? 1u : UINT32_MAX;
        break;
    case 6:
        drop(i);
        break;
    case 7:
        pass_field(i);
        break;
    case 8:
    case 9:
    case 10:
        hasten_behind(i);
        break;
    case 11:
        insert_field(i);
        break;
    case 12:
        insert_field(below(trace.n));
        break;
    default:
        if (what < 18 || !trace.card.heat || part->level != AWAKE)
            end_in_fields();
        else
            end_in_heat();
    }
}

#endif
