/* Judges LPDDR3 traces.
     judge [-q]     one trace on standard input; each accepted entry, then the verdict (-q: verdict only)
     judge --many   a stream of traces, each behind its length (4 bytes, big-endian); one verdict a trace */
#include "rules.h"

#include <errno.h>
#include <inttypes.h>
#include <stdio.h>
#include <stdlib.h>
#include <unistd.h>

#define ROOM 65536
#define ENTRY 10

static void fatal(const char *what)
{
    fprintf(stderr, "judge: %s\n", what);
    exit(2);
}

/* Bytes at to end of buf are at hand; left of the file's bytes are not yet taken. */
static struct {
    uint8_t buf[ROOM];
    size_t at, end;
    uint64_t offset, left;
    uint64_t tags; /* of the fields that were taken, one bit each */
} in;

static struct {
    char buf[ROOM];
    size_t n;
} out;

/* How many bytes of the file are at hand: want or more, unless the file ends before. */
static size_t have(size_t want)
{
    if (in.end - in.at < want && in.end - in.at < in.left) {
        memmove(in.buf, in.buf + in.at, in.end - in.at);
        in.end -= in.at;
        in.at = 0;
        while (in.end < want) {
            ssize_t n = read(0, in.buf + in.end, ROOM - in.end);
            if (n < 0 && errno == EINTR)
                continue;
            if (n < 0)
                fatal("cannot read");
            if (n == 0)
                break;
            in.end += (size_t)n;
        }
    }
    size_t n = in.end - in.at;
    return n < in.left ? n : (size_t)in.left;
}

static void take(size_t n)
{
    in.at += n;
    in.offset += n;
    in.left -= n;
}

static void flush(void)
{
    for (size_t done = 0; done < out.n;) {
        ssize_t n = write(1, out.buf + done, out.n - done);
        if (n < 0 && errno == EINTR)
            continue;
        if (n < 0)
            fatal("cannot write");
        done += (size_t)n;
    }
    out.n = 0;
}

static uint32_t big(const uint8_t *p, unsigned n)
{
    uint32_t v = 0;
    while (n--)
        v = v << 8 | *p++;
    return v;
}

static uint64_t big8(const uint8_t *p)
{
    return (uint64_t)p[0] << 56 | (uint64_t)p[1] << 48 | (uint64_t)p[2] << 40 | (uint64_t)p[3] << 32 |
           (uint64_t)p[4] << 24 | (uint64_t)p[5] << 16 | (uint64_t)p[6] << 8 | (uint64_t)p[7];
}

/* Kinds by the eight pins that decide them: CA0r to CA4r, CA0f, CS_n, CKE; with CKE low an entry that is taken is NOP. */
static uint8_t kinds[256];

/* The part that a line ends in. */
enum ending { NONE, FIRST, SECOND, NEITHER, ENDINGS };

/* What follows the cycle on an entry's line; the ninth column has no bank. */
static struct tail {
    char text[15];
    uint8_t length;
} tails[ENDINGS][RESERVED][9];

static char pairs[200];

static void set_tail(enum ending e, enum kind k, int b)
{
    static const char *const names[] = {"NOP", "MRW", "MRR", "REFPB", "REFAB", "ACT",
                                        "RD",  "RDA", "WR",  "WRA",   "PRE",   "PREA"};
    static const char *const endings[] = {"", " 0", " 1", " -"};
    struct tail *t = &tails[e][k][b];
    t->length = (uint8_t)snprintf(t->text, sizeof t->text, " %s %c%s\n", names[k], b < 8 ? '0' + b : '-', endings[e]);
}

static void tables(void)
{
    for (uint32_t i = 128; i < 256; i++)
        kinds[i] = (uint8_t)decode((i & 31) | (i >> 5 & 1) << 10 | (i >> 6) << 20);
    for (int e = 0; e < ENDINGS; e++)
        for (int k = 0; k < RESERVED; k++)
            for (int b = 0; b < 9; b++)
                set_tail(e, k, b);
    for (int i = 0; i < 100; i++) {
        pairs[2 * i] = (char)('0' + i / 10);
        pairs[2 * i + 1] = (char)('0' + i % 10);
    }
}

static char *decimal(char *p, uint32_t v)
{
    char digits[10];
    unsigned n = 0;
    do
        digits[n++] = (char)('0' + v % 10);
    while (v /= 10);
    while (n)
        *p++ = digits[--n];
    return p;
}

/* Stamps rise slowly: the digits before the last four are those of the entry before, most often. */
static inline char *stamp_digits(char *p, uint32_t v)
{
    static uint32_t high;
    static char text[8];
    static size_t length;
    if (v < 10000)
        return decimal(p, v);
    uint32_t low = v % 10000;
    if (v / 10000 != high) {
        high = v / 10000;
        length = (size_t)(decimal(text, high) - text);
    }
    memcpy(p, text, sizeof text);
    memcpy(p + length, pairs + 2 * (low / 100), 2);
    memcpy(p + length + 2, pairs + 2 * (low % 100), 2);
    return p + length + 4;
}

static inline void line(uint32_t stamp, enum kind k, unsigned bank, enum ending e)
{
    if (ROOM - out.n < 32)
        flush();
    bool named = k == REFPB || k == PRE || (k >= ACT && k <= WRA);
    const struct tail *t = &tails[e][k][named ? bank : 8];
    char *p = stamp_digits(out.buf + out.n, stamp);
    memcpy(p, t->text, sizeof t->text);
    out.n = (size_t)(p - out.buf) + t->length;
}

static void refused(unsigned number, unsigned rule, int64_t cycle)
{
    if (ROOM - out.n < 128)
        flush();
    out.n += (size_t)snprintf(out.buf + out.n, 128, "refused %u %u %" PRIu64 " %" PRId64 "\n", number, rule,
                              in.offset, cycle);
}

static void accepted(const struct record *part, int64_t last)
{
    uint64_t commands = part[0].commands, refreshes = part[0].refreshes;
    char second[32] = "";
    if (part->card.two) {
        commands += part[1].commands;
        refreshes += part[1].refreshes;
        snprintf(second, sizeof second, " %" PRId64, ledger_at(part + 1, last));
    }
    if (ROOM - out.n < 128)
        flush();
    out.n += (size_t)snprintf(out.buf + out.n, 128, "accepted %" PRIu64 " %" PRIu64 " %" PRId64 "%s\n", commands,
                              refreshes, ledger_at(part, last), second);
}

#define BIT(tag) (UINT64_C(1) << (tag))
#define TAGS(low, high) (BIT((high) + 1) - BIT(low))
#define FOUR TAGS(19, 22)
#define CARD (TAGS(1, 23) | TAGS(25, 26))

/* Refuses a tag that may not come here. Where it or a higher one was taken, the set of those taken is, as a number, not
   below its bit. */
static void wrong_tag(unsigned tag)
{
    uint64_t own = tag < 64 ? BIT(tag) : 0, required = TAGS(1, 18) | BIT(33);
    if ((in.tags | own) & FOUR)
        required |= FOUR;
    unsigned expected = 1;
    while (!(required & ~in.tags & BIT(expected)))
        expected++;
    if (!(own & (CARD | TAGS(32, 34))))
        refused(17, expected, 0);
    else
        refused(own & CARD && own <= in.tags ? 18 : 19, expected, 0);
}

/* Whether a field is whole at hand, with a tag that fits and of this length. False: the verdict is out. */
static bool head(bool tag_fits, unsigned length)
{
    size_t n = have(3 + length);
    const uint8_t *p = in.buf + in.at;
    if (n && !tag_fits)
        wrong_tag(*p);
    else if (n >= 3 && big(p + 1, 2) != length)
        refused(3, 0, 0);
    else if (n < 3 + length)
        refused(1, 0, 0);
    else
        return true;
    return false;
}

/* False: a value out of range. */
static bool read_value(struct card *c, unsigned tag, const uint8_t *p, unsigned length)
{
    switch (tag) {
    case 1:
        c->period = length == 8 ? big8(p) : FS * big(p, 4);
        return c->period >= FS * 938 && c->period <= FS * 100000;
    case 2:
        c->mr2 = *p;
        return latency_of(c->mr2, c->period);
    case 3:
        c->r = big(p, 2);
        return c->r >= 1 && c->r <= 16384;
    case 4:
        c->refi = big(p, 4);
        return FS * c->refi >= c->period && c->refi <= 20000000;
    case 23:
        c->presets = true;
        c->mr1 = *p;
        return mr1_permitted(c->mr1);
    case 25:
        c->two = true;
        c->gap = *p;
        return !c->sleeps;
    case 26:
        c->heats = true;
        c->heat = big(p, 4);
        return c->heat <= 1000000;
    default:
        c->ps[tag - 5] = big(p, 4);
        c->floor[tag - 5] = p[4];
        return c->ps[tag - 5] <= 1000000;
    }
}

/* The tag that must stand here, behind this one of the card; 0: the card is whole. Tags 19 to 22 come all four or not at
   all. */
static unsigned next_tag(unsigned tag)
{
    unsigned found = have(1) ? in.buf[in.at] : 0;
    if (tag < 18 || (tag > 18 && tag < 22) || (tag == 18 && found == 19))
        return tag + 1;
    return tag < found && (found == 23 || found == 25 || found == 26) ? found : 0;
}

/* What a card tag must say of its value's length, if this is what it says: the period has 4 bytes or 8. */
static unsigned length_of(unsigned tag, unsigned said)
{
    static const uint8_t lengths[] = {[1] = 4, [2] = 1, [3] = 2, [4] = 4, [23] = 1, [25] = 1, [26] = 4};
    if (tag == 1 && said == 8)
        return 8;
    return lengths[tag] ? lengths[tag] : 5;
}

/* Not inlined: the loop over entries would have fewer registers. */
static __attribute__((noinline)) bool read_card(struct card *c)
{
    memset(c, 0, sizeof *c);
    in.tags = 0;
    for (unsigned tag = 1; tag; tag = next_tag(tag)) {
        size_t n = have(3);
        const uint8_t *p = in.buf + in.at;
        unsigned length = length_of(tag, n < 3 ? 0 : big(p + 1, 2));
        if (!head(n && *p == tag, length))
            return false;
        if (!read_value(c, tag, in.buf + in.at + 3, length)) {
            refused(4, 0, 0);
            return false;
        }
        take(3 + length);
        in.tags |= BIT(tag);
        c->sleeps = tag == 22 || c->sleeps;
    }
    return true;
}

/* Takes entries while whole ones are at hand. False: one was refused, and the verdict is out. */
INLINE bool entries_of(struct record *part, bool two, bool lines)
{
    size_t n = have(ENTRY);
    const uint8_t *p = in.buf + in.at, *start = p, *end = p + n;
    bool good = true;
    struct refusal no = {0, 0, 0};
    for (; end - p >= ENTRY; p += ENTRY) {
        uint64_t v = big8(p + 2);
        if (p[0] != 32 || p[1] != 0 || v >> 56 != 7)
            break;
        uint32_t stamp = (uint32_t)(v >> 24), all = v & 0xFFFFFF, pins = two ? seen(all) : all;
        unsigned which = two ? part_of(all) : 0;
        enum kind k = kinds[(pins & 31) | (pins >> 10 & 1) << 5 | (pins >> 20 & 3) << 6];
        if (two && !(all & CS_NS))
            k = BOTH;
        unsigned bank = k == REFPB ? part[which].counter : bank_bits(pins);
        good = step(part, two, which, k, bank, stamp, pins, &no);
        if (!good)
            break;
        if (lines)
            line(stamp, k, bank, !two ? NONE : (all & CS_NS) == CS_NS ? NEITHER : FIRST + which);
    }
    take((size_t)(p - start));
    in.tags |= p > start ? BIT(32) : 0;
    if (!good)
        refused(no.number, no.rule, no.cycle);
    return good;
}

static bool entries(struct record *part, bool lines)
{
    return part->card.two ? entries_of(part, true, lines) : entries_of(part, false, lines);
}

/* The end, whole at hand. */
static void judge_end(const struct record *part)
{
    uint32_t last = big(in.buf + in.at + 3, 4);
    struct refusal no;
    if (!finish(part, last, &no)) {
        refused(no.number, no.rule, no.cycle);
        return;
    }
    take(7);
    if (have(1))
        refused(12, 0, 0);
    else
        accepted(part, last);
}

/* A field of tag 34, whole at hand. False: it was refused, and the verdict is out. */
static bool temperature(struct record *part)
{
    const uint8_t *p = in.buf + in.at;
    struct refusal no;
    if (!step_field(part, big(p + 3, 4), p[7], &no)) {
        refused(no.number, no.rule, no.cycle);
        return false;
    }
    take(8);
    in.tags |= BIT(34);
    return true;
}

static void judge(bool lines)
{
    struct card card;
    if (!read_card(&card))
        return;
    static struct record part[2];
    begin(&part[0], &card);
    begin(&part[1], &card);
    while (entries(part, lines)) {
        size_t n = have(ENTRY);
        const uint8_t *p = in.buf + in.at;
        unsigned tag = n ? p[0] : 0;
        if (n >= ENTRY && tag == 32 && big(p + 1, 2) == 7)
            continue;
        if (!head(tag >= 32 && tag <= 34, tag == 32 ? 7 : tag == 34 ? 5 : 4))
            return;
        if (tag == 33) {
            judge_end(part);
            return;
        }
        if (!temperature(part))
            return;
    }
}

static void judge_many(void)
{
    for (;;) {
        in.left = UINT64_MAX;
        size_t n = have(4);
        if (n == 0)
            return;
        if (n < 4)
            fatal("the stream ends inside a length");
        uint32_t length = big(in.buf + in.at, 4);
        take(4);
        in.left = length;
        in.offset = 0;
        judge(false);
        while (in.left) {
            n = have(1);
            if (n == 0)
                fatal("the stream ends inside a trace");
            take(n);
        }
    }
}

int main(int argc, char **argv)
{
    bool quiet = argc == 2 && !strcmp(argv[1], "-q");
    bool many = argc == 2 && !strcmp(argv[1], "--many");
    if (argc > 2 || (argc == 2 && !quiet && !many)) {
        fprintf(stderr, "usage: judge [-q | --many]\n");
        return 2;
    }
    tables();
    if (many)
        judge_many();
    else {
        in.left = UINT64_MAX;
        judge(!quiet);
    }
    flush();
    return 0;
}
