/* Writes traces to standard output, the same for the same seed.
     generate KIND SEED [COUNT]   one trace; KIND is legal, sleeping (legal, with moves of clock-enable), paired (legal,
                                  of two parts), heated (legal, with fields of tag 34), programmed (legal, with tag 23
                                  and writes of MR1), perturbed, hostile, disordered (with a tag where it may not come),
                                  edged (with a period of 8 bytes whose last digits decide, or with one of another
                                  length or out of range) or far; about COUNT entries (far goes past 200,000 refreshes
                                  to the last of the 32-bit cycles); a seed divisible by four takes the bench card
     generate --many N SEED       N traces of mixed kinds, a third of them with sleeps, a third of two parts; a third,
                                  whatever else they have, with fields of tag 34, a third with tag 23 or writes of MR1
                                  that are listed, and two in five with a period of 8 bytes; and every cut of some, each
                                  behind its length (4 bytes, big-endian). More than a quarter of all have a wrong tag
                                  before anything else that is wrong
     generate --pick K            the K-th trace (from 1) of such a stream on standard input
     generate --fine              how many traces of such a stream have a period of 8 bytes */
#include "traces/fractions.h"

static void make(const char *kind, struct form form, uint64_t from, size_t count)
{
    bool bench = from % 4 == 0;
    seed = from;
    if (!strcmp(kind, "far")) {
        if (form.sleeps)
            far_asleep(bench, form, count);
        else
            far(form);
        serialize();
        return;
    }
    bool hostile = !strcmp(kind, "hostile"), disordered = !strcmp(kind, "disordered");
    legal(bench, form, count);
    if (!strcmp(kind, "edged")) {
        edge();
        return;
    }
    if (!strcmp(kind, "perturbed") || (hostile && one_in(4)) || (disordered && one_in(12)))
        for (unsigned n = one_in(2) ? 1 : (unsigned)between(2, 4); n--;)
            perturb();
    if (disordered)
        add_optional();
    serialize();
    if (disordered)
        disorder();
    if (hostile) {
        if (one_in(50)) {
            bytes.n = 0;
            insert_random(0, below(400));
        }
        for (unsigned n = one_in(2) ? 1 : (unsigned)between(2, 4); n--;)
            spoil();
    }
}

static void write_bytes(const uint8_t *p, size_t n)
{
    if (fwrite(p, 1, n, stdout) != n) {
        fprintf(stderr, "generate: cannot write\n");
        exit(2);
    }
}

static void write_framed(size_t n)
{
    uint8_t length[4] = {(uint8_t)(n >> 24), (uint8_t)(n >> 16), (uint8_t)(n >> 8), (uint8_t)n};
    write_bytes(length, 4);
    write_bytes(bytes.p, n);
}

static struct form some_form(void)
{
    int64_t which = below(3);
    struct form form = {.sleeps = which == 1, .two = which == 2};
    form.warms = one_in(2); /* where a trace is too short none is laid: with the cuts a third of all have fields */
    form.heats = one_in(form.warms ? 2 : 20);
    form.programs = below(5) < 2; /* likewise */
    form.presets = form.programs && !one_in(3);
    form.fine = below(5) < 2;
    return form;
}

static void many(uint64_t n, uint64_t from)
{
    static const char *const kinds[] = {"legal",     "legal",      "legal",      "perturbed",  "perturbed",
                                        "perturbed", "perturbed",  "perturbed",  "perturbed",  "hostile",
                                        "hostile",   "disordered", "disordered", "disordered", "disordered"};
    for (uint64_t i = 0; i < n; i++) {
        seed = from + i * 0xD1342543DE82EF95;
        uint64_t own = draw();
        const char *kind = PICK(kinds);
        bool cuts = i % 1000 == 7;
        size_t count = cuts         ? below(20)
                       : one_in(50) ? between(100, 1000)
                       : one_in(3)  ? below(100)
                                    : below(20);
        struct form form = some_form();
        if (cuts)
            form.fine = i / 1000 % 2 == 0;
        if (i % 25000 == 8) {
            form.sleeps = false;
            form.two = i % 50000 != 8;
        }
        if (form.fine && !strcmp(kind, "legal") && !one_in(3))
            kind = "edged";
        if (i % 25000 == 8 || (form.sleeps && one_in(40)))
            kind = "far";
        make(kind, form, own, count);
        write_framed(bytes.n);
        for (size_t k = 0; cuts && k < bytes.n; k++)
            write_framed(k);
    }
}

/* The next trace of a stream on standard input; false: there is none that is whole. */
static bool read_framed(void)
{
    uint8_t b[4];
    if (fread(b, 1, 4, stdin) != 4)
        return false;
    size_t n = (size_t)b[0] << 24 | (size_t)b[1] << 16 | (size_t)b[2] << 8 | b[3];
    if (bytes.room < n)
        bytes.p = grown(bytes.p, bytes.room = n);
    bytes.n = n;
    return fread(bytes.p, 1, n, stdin) == n;
}

static int pick(uint64_t k)
{
    while (k--)
        if (!read_framed())
            return 1;
    write_bytes(bytes.p, bytes.n);
    return 0;
}

static void count_fine(void)
{
    uint64_t n = 0;
    while (read_framed())
        n += bytes.n >= 3 && !memcmp(bytes.p, (uint8_t[]){1, 0, 8}, 3);
    printf("%llu\n", (unsigned long long)n);
}

static bool is_kind(const char *word)
{
    static const char *const kinds[] = {"legal",     "sleeping", "paired",     "heated", "programmed",
                                        "perturbed", "hostile",  "disordered", "edged",  "far"};
    for (size_t i = 0; i < sizeof kinds / sizeof *kinds; i++)
        if (!strcmp(word, kinds[i]))
            return true;
    return false;
}

static int usage(void)
{
    fprintf(stderr, "usage: generate KIND SEED [COUNT]\n"
                    "       generate --many N SEED\n"
                    "       generate --pick K\n"
                    "       generate --fine\n"
                    "KIND: legal|sleeping|paired|heated|programmed|perturbed|hostile|disordered|edged|far\n");
    return 2;
}

int main(int argc, char **argv)
{
    int status = 0;
    if (argc == 2 && !strcmp(argv[1], "--fine")) {
        count_fine();
        return fflush(stdout) ? 2 : 0;
    }
    if (argc < 3 || argc > 4)
        return usage();
    const char *kind = argv[1];
    uint64_t a = strtoull(argv[2], 0, 10), b = argc == 4 ? strtoull(argv[3], 0, 10) : 100;
    if (!strcmp(kind, "--many") && argc == 4)
        many(a, b);
    else if (!strcmp(kind, "--pick") && argc == 3)
        status = pick(a);
    else if (is_kind(kind)) {
        bool heated = !strcmp(kind, "heated"), programmed = !strcmp(kind, "programmed");
        struct form form = {.sleeps = !strcmp(kind, "sleeping"), .two = !strcmp(kind, "paired")};
        form.warms = form.heats = heated;
        form.programs = form.presets = programmed;
        form.fine = !strcmp(kind, "edged");
        make(kind, form, a, b);
        write_bytes(bytes.p, bytes.n);
    } else
        return usage();
    return fflush(stdout) ? 2 : status;
}
