/* Bytes of a trace changed, whatever they stand for. */
#ifndef FAULTS_H
#define FAULTS_H

#include "perturbs.h"

static size_t card_fields(void)
{
    const struct card *c = &trace.card;
    return 4 + timings(c) + c->presets + c->two + c->heats;
}

/* Where the k-th field of the still well-formed trace begins. */
static size_t place(size_t k)
{
    size_t at = 0;
    while (k-- && at + 3 <= bytes.n)
        at += 3 + (size_t)(bytes.p[at + 1] << 8 | bytes.p[at + 2]);
    return at;
}

static size_t some_field(void)
{
    size_t card = card_fields(), at = place(one_in(3) ? below(card) : below(card + 1 + trace.n));
    return at < bytes.n ? at : 0;
}

static void insert_random(size_t at, size_t n)
{
    while (n--) {
        uint8_t b = (uint8_t)(one_in(3) ? 0 : draw());
        insert_bytes(at, &b, 1);
    }
}

/* Bytes of the fields of tags 1 to 18, and of a timing. */
static size_t head_bytes(void) { return trace.fine ? 139 : 135; }
#define TIMING 8

/* Something wrong about tags 19 to 22, in a file that is well-formed but for such things. */
static void spoil_tags(void)
{
    uint8_t field[TIMING];
    size_t k = below(4), n = (one_in(2) ? 1 : between(1, 4 - k)) * TIMING, at = head_bytes() + k * TIMING;
    if (bytes.n < head_bytes() + 4 * TIMING)
        return;
    memcpy(field, bytes.p + at, TIMING);
    switch (below(7)) {
    case 0:
        drop_bytes(at, n);
        break;
    case 1:
        drop_bytes(head_bytes(), 4 * TIMING);
        break;
    case 2:
        insert_bytes(at + (one_in(2) ? 0 : TIMING), field, TIMING);
        break;
    case 3:
    case 4: {
        /* behind the card or an entry */
        size_t to = place(card_fields() + below(trace.n + 1));
        if (to > bytes.n)
            break;
        insert_bytes(to, field, TIMING);
        if (one_in(2))
            drop_bytes(at, TIMING);
        break;
    }
    case 5:
        bytes.p[at] = (uint8_t)between(17, 26);
        break;
    default:
        bytes.p[at + 3] = (uint8_t)(one_in(2) ? 1 : draw());
    }
}

/* The field of n bytes at this place dropped, of another length, or cut. */
static void spoil_one(size_t at, size_t n)
{
    uint8_t *p = bytes.p + at;
    switch (below(4)) {
    case 0:
        drop_bytes(at, n);
        break;
    case 1:
        p[2] = (uint8_t)(one_in(2) ? p[2] + 2 * below(2) - 1 : below(256));
        break;
    case 2:
        p[1] = (uint8_t)(one_in(2) ? 1 : below(256));
        break;
    default:
        bytes.n = at + below(n + 1);
    }
}

/* One more optional field of the card: where it belongs, by turns among the last of the card, or behind an entry. */
static void insert_optional(size_t own, const uint8_t *p, size_t n)
{
    size_t at = place(card_fields() + below(trace.n + 2));
    if (one_in(3))
        at = own;
    else if (one_in(2))
        at = place(card_fields() - between(0, 6));
    if (at <= bytes.n)
        insert_bytes(at, p, n);
}

/* Where tags 23, 25 and 26 are or would be. */
static size_t mode_place(void) { return head_bytes() + (trace.card.sleeps ? 4 * TIMING : 0); }
static size_t gap_place(void) { return mode_place() + (trace.card.presets ? 4 : 0); }
static size_t heat_place(void) { return gap_place() + (trace.card.two ? 4 : 0); }

/* Something wrong about tag 23, in a file that is well-formed but for such things. */
static void spoil_mode(void)
{
    size_t at = mode_place();
    uint8_t mr1 = one_in(2) ? random_mr1() : (uint8_t)below(256);
    if (!trace.card.presets || one_in(3) || bytes.n < at + 4)
        insert_optional(at, (uint8_t[]){23, 0, 1, mr1}, 4);
    else if (one_in(3))
        bytes.p[at + 3] = mr1;
    else
        spoil_one(at, 4);
}

/* Likewise about tag 25. */
static void spoil_gap(void)
{
    size_t at = gap_place();
    if (!trace.card.two || one_in(3) || bytes.n < at + 4)
        insert_optional(at, (uint8_t[]){25, 0, 1, (uint8_t)below(256)}, 4);
    else if (!one_in(5))
        spoil_one(at, 4);
    else {
        /* tags 19 to 22 before it, or only the first of them */
        uint8_t more[4 * TIMING];
        for (uint8_t k = 0; k < 4; k++)
            memcpy(more + k * TIMING, (uint8_t[]){(uint8_t)(19 + k), 0, 5, 0, 0, 0, k, 3}, TIMING);
        insert_bytes(at, more, TIMING * (one_in(3) ? between(1, 3) : 4));
    }
}

/* Likewise about tag 26. */
static void spoil_heat(void)
{
    static const uint32_t values[] = {0, 1875, 999999, 1000000, 1000001, 16777216, UINT32_MAX};
    size_t at = heat_place();
    uint32_t v = PICK(values);
    uint8_t field[] = {26, 0, 4, (uint8_t)(v >> 24), (uint8_t)(v >> 16), (uint8_t)(v >> 8), (uint8_t)v};
    if (!trace.card.heats || one_in(3) || bytes.n < at + sizeof field)
        insert_optional(at, field, sizeof field);
    else if (one_in(3))
        memcpy(bytes.p + at, field, sizeof field);
    else
        spoil_one(at, sizeof field);
}

/* Likewise about tag 34: one more, in the card, behind it or behind the end; or one of those that are there. */
static void spoil_reading(void)
{
    uint32_t stamp = (uint32_t)below(512);
    uint8_t field[] = {34, 0, 5, 0, 0, (uint8_t)(stamp >> 8), (uint8_t)stamp, (uint8_t)below(8)};
    size_t i = some_reading(), at = place(card_fields() + i);
    if (i == trace.n || one_in(3) || bytes.n < at + sizeof field) {
        at = one_in(2) ? place(below(card_fields() + 1)) : one_in(2) ? bytes.n : some_field();
        if (at <= bytes.n)
            insert_bytes(at, field, sizeof field);
    } else if (one_in(4))
        bytes.p[at] = (uint8_t)between(31, 36);
    else
        spoil_one(at, sizeof field);
}

/* A field once more, in place, behind the end or anywhere. */
static void insert_again(void)
{
    uint8_t again[16];
    size_t from = some_field(), n = bytes.n - from;
    if (n >= 3 && bytes.p[from + 1] == 0 && bytes.p[from + 2] <= 8)
        n = n < 3u + bytes.p[from + 2] ? n : 3u + bytes.p[from + 2];
    if (n > sizeof again)
        return;
    memcpy(again, bytes.p + from, n);
    insert_bytes(one_in(3) ? from : one_in(2) ? bytes.n : some_field(), again, n);
}

static void drop_field(void)
{
    size_t from = some_field(), n = 3;
    if (from + 3 <= bytes.n)
        n += (size_t)(bytes.p[from + 1] << 8 | bytes.p[from + 2]);
    if (from + n <= bytes.n)
        drop_bytes(from, n);
}

static void spoil_field(void)
{
    static const uint8_t tags[] = {0, 1, 2, 18, 19, 20, 22, 23, 24, 25, 26, 31, 32, 33, 34, 255};
    size_t at = some_field();
    switch (below(4)) {
    case 0:
        at += between(1, 2);
        if (at < bytes.n)
            bytes.p[at] = (uint8_t)(one_in(2) ? below(12) : below(256));
        break;
    case 1:
        bytes.p[at] = PICK(tags);
        break;
    case 2:
        insert_again();
        break;
    default:
        drop_field();
    }
}

static void spoil_bytes(void)
{
    size_t at = one_in(2) ? some_field() : (size_t)below(bytes.n), n = between(1, 12);
    switch (below(7)) {
    case 0:
        bytes.n = below(bytes.n + 1);
        break;
    case 1:
        bytes.p[at] = (uint8_t)draw();
        break;
    case 2:
        bytes.p[at] ^= (uint8_t)(1u << below(8));
        break;
    case 3:
        insert_random(at, n);
        break;
    case 4:
        drop_bytes(at, n < bytes.n - at ? n : bytes.n - at);
        break;
    case 5:
        insert_random(bytes.n, between(1, 20));
        break;
    default:
        for (size_t i = one_in(4) ? at : bytes.n; i < bytes.n; i++)
            bytes.p[i] = (uint8_t)draw();
    }
}

static void spoil(void)
{
    if (!bytes.n)
        return;
    if (trace.card.sleeps && one_in(3))
        spoil_tags();
    else if (one_in(trace.card.presets ? 3 : 8))
        spoil_mode();
    else if (one_in(trace.card.two ? 3 : 8))
        spoil_gap();
    else if (one_in(trace.card.heats ? 3 : 8))
        spoil_heat();
    else if (one_in(trace.warms ? 3 : 16))
        spoil_reading();
    else if (one_in(3))
        spoil_field();
    else
        spoil_bytes();
}

#endif
