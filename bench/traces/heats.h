/* Fields of tag 34, laid on the records. */
#ifndef HEATS_H
#define HEATS_H

#include "laying.h"

/* Where to put a field: as early as may be, on a due or beside it, about where an account fails, or later. */
static int64_t field_at(const struct record *part)
{
    const struct record *r = first_failing(part, part->card.two);
    int64_t t = part->next, due = t + (r->interval - (t - r->origin) % r->interval) % r->interval;
    if (uncounted(r->level))
        return t + (one_in(2) ? 0 : below(50));
    switch (below(8)) {
    case 0:
    case 1:
        t = due + below(3) - 1;
        break;
    case 2:
        t = due + below(9) * r->interval;
        t += below(3) - 1;
        break;
    case 3:
    case 4:
        t = r->fail - (one_in(2) ? 0 : below(3));
        break;
    case 5:
        t += one_in(2) ? between(1, 3) : below(2 * r->interval);
        break;
    default:
        break;
    }
    return t < part->next || t > r->fail ? part->next : t;
}

/* Whether each part can still be refreshed in time behind such a field. */
static bool field_leaves_time(const struct record *part, int64_t t, unsigned mr4)
{
    struct record copy[2] = {part[0], part[1]};
    struct refusal no;
    return step_field(copy, t, mr4, &no) && in_time(copy);
}

/* A field, or some in a row, where there is time for them. */
static void lay_fields(struct record *part)
{
    do {
        unsigned mr4 = some_mr4();
        int64_t t = field_at(part);
        if (!field_leaves_time(part, t, mr4))
            t = part->next;
        if (field_leaves_time(part, t, mr4))
            lay_field(part, t, mr4);
    } while (one_in(3));
}

#endif
