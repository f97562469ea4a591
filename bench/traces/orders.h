/* Tags where they may not come. */
#ifndef ORDERS_H
#define ORDERS_H

#include "faults.h"

/* Unknown ones too, and often those that not every card has. */
static uint8_t some_tag(void)
{
    if (one_in(12))
        return (uint8_t)(one_in(2) ? 255 : below(256));
    return (uint8_t)(one_in(4) ? between(19, 26) : below(36));
}

/* A field of this tag, of its own length where it is known; returns its bytes in all. */
static size_t make_field(uint8_t tag, uint8_t *p)
{
    static const uint8_t lengths[] = {[1] = 4,  [2] = 1,  [3] = 2,  [4] = 4,  [23] = 1,
                                      [25] = 1, [26] = 4, [32] = 7, [33] = 4, [34] = 5};
    size_t n = tag >= 5 && tag <= 22 ? 5 : tag < sizeof lengths ? lengths[tag] : 0;
    if (tag == 1 && trace.fine)
        n = 8;
    if (!n)
        n = (size_t)below(8);
    memset(p, 0, 3 + n);
    p[0] = tag;
    p[2] = (uint8_t)n;
    p[2 + n] = n ? 3 : 0;
    return 3 + n;
}

/* Where a tag is read: among tags 1 to 18, behind them in the card, behind the whole card, or behind an entry, often
   the first. */
static size_t some_tag_place(void)
{
    size_t card = card_fields();
    switch (below(4)) {
    case 0:
        return place(below(18));
    case 1:
        return place(trace.card.sleeps && one_in(2) ? between(19, 21) : between(18, card));
    case 2:
        return place(card);
    default:
        return place(card + (one_in(3) ? 1 : between(1, trace.n + 1)));
    }
}

/* The field of n bytes at this place is cut, or its length is another. */
static void spoil_behind(size_t at, size_t n)
{
    size_t cut = at + (one_in(3) ? (size_t)between(1, n) : 1);
    if (one_in(4)) {
        at += (size_t)between(1, 2);
        bytes.p[at] = (uint8_t)below(256);
    } else if (cut < bytes.n)
        bytes.n = cut;
}

/* Some tag at some place, in that of the tag there or before it. */
static void put_tag(void)
{
    uint8_t field[16], tag = some_tag();
    size_t at = some_tag_place(), n = make_field(tag, field);
    if (at < bytes.n && one_in(3))
        bytes.p[at] = tag;
    else
        insert_bytes(at, field, n);
    if (one_in(2))
        spoil_behind(at, n);
}

/* A field of the card changes places with its neighbour, stands elsewhere, or twice, or nowhere. */
static void move_field(void)
{
    uint8_t field[11];
    size_t card = card_fields(), i = one_in(2) ? below(card) : between(17, card - 1);
    size_t at = place(i), n = place(i + 1) - at;
    memcpy(field, bytes.p + at, n);
    bool twice = one_in(3), nowhere = one_in(4);
    if (!twice)
        drop_bytes(at, n);
    if (twice || !nowhere)
        insert_bytes(one_in(3) ? place(i + 1) : some_tag_place(), field, n);
}

/* Before the trace is bytes: more of the tags that may be missing, with values that change nothing. */
static void add_optional(void)
{
    struct card *c = &trace.card;
    if (!c->presets && one_in(2)) {
        c->presets = true;
        c->mr1 = UNLISTED;
    }
    if (!c->heats && one_in(3))
        c->heats = true;
    if (one_in(4))
        insert(0, (struct entry){0, FIELD | 3});
}

static void disorder(void)
{
    if (one_in(3))
        move_field();
    else
        put_tag();
}

#endif
