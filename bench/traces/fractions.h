/* Traces where a fraction of a ps decides, and what may be wrong about a period of 8 bytes. */
#ifndef FRACTIONS_H
#define FRACTIONS_H

#include "orders.h"

/* At the end: MR2 is written with the last latency that the period permits, or with the next. */
static void end_in_latency(void)
{
    unsigned p = some_part(part);
    if (part->level != AWAKE || (part[p].open && !lay_first(part, p, PREA)))
        return;
    uint32_t pins = encode(MRW, 0, 2, edge_mr2(part->card.period));
    add(first_own(part + p, MRW, 0), to_part(pins, p));
}

static const struct deck opening = {(const uint8_t[]){ACT}, 1, false};

/* At the end: commands, many of them to one bank or many ACT, and a last one, most often a cycle before it may come. */
static void end_early(void)
{
    bool opens = one_in(4);
    const struct deck *d = opens ? &opening : decks + below(part->card.two ? STYLES : BUS);
    unsigned p = some_part(part), bank = (unsigned)below(8);
    for (int64_t n = below(8); n--;) {
        struct command c = !opens && one_in(2) ? bank_command(p, bank) : some_command(part, d);
        lay(part, c.p, c.k, c.bank, c.t);
    }
    if (!opens && one_in(3))
        lay_first(part, p, PREA);
    if (trace.card.heat && !one_in(3))
        lay_field(part, part->next, with_code(6));
    struct command c = !opens && one_in(2) ? bank_command(p, bank) : some_command(part, d);
    if (c.t > part->next && !one_in(4))
        c.t--;
    add(c.t, to_part(random_pins(c.k, c.bank, part->card.period), c.p));
}

/* Likewise a rise, or a command behind it. */
static void end_awake_early(void)
{
    enum level to = one_in(2) ? SELF_REFRESH : POWER_DOWN;
    if (part->open && to != POWER_DOWN)
        lay_first(part, 0, PREA);
    if (!lay_pins(part, 0, NOP, 0, first_fall(part, to), fall_pins(to)))
        return;
    int64_t t = first_rise(part);
    if (one_in(2))
        add(t - 1, rise_pins());
    else if (lay_pins(part, 0, NOP, 0, t, rise_pins()))
        end_early();
}

/* The card or the end changed where the last digits of the period decide. */
static void perturb_fraction(void)
{
    switch (below(12)) {
    case 0:
        perturb_period(&trace.card);
        break;
    case 1:
        perturb_refi(&trace.card);
        break;
    case 2:
        trace.card.mr2 = edge_mr2(trace.card.period);
        break;
    case 3:
        end_in_latency();
        break;
    case 4:
        perturb_end();
        break;
    default:
        if (part->level == AWAKE && trace.card.sleeps && one_in(2))
            end_awake_early();
        else if (part->level == AWAKE)
            end_early();
    }
}

/* The field at this place, of another length: its value loses its highest bytes, or has zeros before it. */
static void resize(size_t at, size_t length)
{
    size_t had = (size_t)(bytes.p[at + 1] << 8 | bytes.p[at + 2]);
    uint8_t zeros[300] = {0};
    if (length < had)
        drop_bytes(at + 3, had - length);
    else
        insert_bytes(at + 3, zeros, length - had);
    bytes.p[at + 1] = (uint8_t)(length >> 8);
    bytes.p[at + 2] = (uint8_t)length;
}

/* Something wrong about tag 1, in a file that is well-formed but for such things. */
static void spoil_period(void)
{
    static const uint16_t lengths[] = {0, 1, 2, 3, 4, 5, 6, 7, 8, 9, 10, 12, 16, 255, 256, 260, 264};
    size_t n = trace.fine ? 8 : 4, at = 3 + below((int64_t)n);
    unsigned length = PICK(lengths);
    switch (below(4)) {
    case 0:
        bytes.p[1] = (uint8_t)(length >> 8);
        bytes.p[2] = (uint8_t)length;
        break;
    case 1:
        resize(0, length);
        break;
    case 2:
        bytes.p[at] ^= (uint8_t)(1u << below(8));
        break;
    default:
        bytes.n = below(3 + n);
    }
}

/* A field of the card, the first behind it, or the end, with 8 bytes, as only a period may have them. */
static void widen(void)
{
    size_t card = card_fields(), at = place(one_in(3) ? card + trace.n : (size_t)between(1, card));
    if (one_in(4))
        bytes.p[at + 2] = 8;
    else
        resize(at, 8);
}

/* Of a legal trace with a period of 8 bytes one that is wrong in such a way, or good still. */
static void edge(void)
{
    bool spoils = one_in(3);
    if (!spoils)
        perturb_fraction();
    else if (one_in(3))
        perturb_period(&trace.card);
    serialize();
    if (spoils && one_in(3))
        widen();
    else if (spoils)
        spoil_period();
}

#endif
