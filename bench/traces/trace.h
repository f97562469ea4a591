/* One trace in the making: its entries, and its bytes. */
#ifndef TRACE_H
#define TRACE_H

#include "../rules.h"

#include <stdio.h>
#include <stdlib.h>

static void *grown(void *p, size_t size)
{
    p = realloc(p, size);
    if (!p) {
        fprintf(stderr, "generate: no memory\n");
        exit(2);
    }
    return p;
}

/* One trace, before it becomes bytes. Among its entries are the fields of tag 34, with FIELD and the MR4 value for
   pins. */
#define FIELD 0x1000000u

struct entry {
    uint32_t stamp, pins;
};

static struct {
    struct card card;
    bool fine;     /* the period has 8 bytes */
    bool warms;    /* fields of tag 34 come */
    bool programs; /* writes of MR1 come that may be listed */
    struct entry *e;
    size_t n, room;
    uint32_t last;
    int64_t fail;
} trace;

static void insert(size_t at, struct entry e)
{
    if (trace.n == trace.room) {
        trace.room = trace.room ? 2 * trace.room : 256;
        trace.e = grown(trace.e, trace.room * sizeof *trace.e);
    }
    memmove(trace.e + at + 1, trace.e + at, (trace.n - at) * sizeof *trace.e);
    trace.e[at] = e;
    trace.n++;
}

static void drop(size_t at)
{
    trace.n--;
    memmove(trace.e + at, trace.e + at + 1, (trace.n - at) * sizeof *trace.e);
}

/* Its bytes. */
static struct {
    uint8_t *p;
    size_t n, room;
} bytes;

static void insert_bytes(size_t at, const uint8_t *p, size_t n)
{
    if (bytes.room - bytes.n < n) {
        bytes.room = 2 * bytes.room + n + 1024;
        bytes.p = grown(bytes.p, bytes.room);
    }
    memmove(bytes.p + at + n, bytes.p + at, bytes.n - at);
    memcpy(bytes.p + at, p, n);
    bytes.n += n;
}

static void drop_bytes(size_t at, size_t n)
{
    bytes.n -= n;
    memmove(bytes.p + at, bytes.p + at + n, bytes.n - at);
}

static void put(uint64_t value, unsigned n)
{
    uint8_t b[8];
    for (unsigned i = 0; i < n; i++)
        b[i] = (uint8_t)(value >> 8 * (n - 1 - i));
    insert_bytes(bytes.n, b, n);
}

static void put_field(unsigned tag, unsigned length, uint64_t value)
{
    put(tag, 1);
    put(length, 2);
    put(value, length);
}

static void put_entry(struct entry e)
{
    if (e.pins & FIELD)
        put_field(34, 5, (uint64_t)e.stamp << 8 | (e.pins & 255));
    else
        put_field(32, 7, (uint64_t)e.stamp << 24 | e.pins);
}

static unsigned timings(const struct card *c) { return c->sleeps ? TIMINGS : tCKE; }

static void serialize(void)
{
    const struct card *c = &trace.card;
    bytes.n = 0;
    put_field(1, trace.fine ? 8 : 4, trace.fine ? c->period : c->period / FS);
    put_field(2, 1, c->mr2);
    put_field(3, 2, c->r);
    put_field(4, 4, c->refi);
    for (unsigned i = 0; i < timings(c); i++)
        put_field(5 + i, 5, (uint64_t)c->ps[i] << 8 | c->floor[i]);
    if (c->presets)
        put_field(23, 1, c->mr1);
    if (c->two)
        put_field(25, 1, c->gap);
    if (c->heats)
        put_field(26, 4, c->heat);
    for (size_t i = 0; i < trace.n; i++)
        put_entry(trace.e[i]);
    put_field(33, 4, trace.last);
}

#endif
