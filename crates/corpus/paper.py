"""Document 01 with requests One, Two, Three, Four, Nine and Eleven of document 02 in Python, over the list of entries and cycle by cycle: slow and plain, written from the
documents alone. It knows nothing of the Rattle code."""

TIMINGS = ["tRCD", "tRPpb", "tRPab", "tRAS", "tRRD", "tFAW", "tRTP", "tWR", "tWTR", "tDQSCK", "tRFCab", "tRFCpb", "tMRR", "tMRW"]
SLEEPS = ["tCKE", "tXP", "tCKESR", "tXSR"]
SIZES = {1: (4, 8), 2: (1,), 3: (2,), 4: (4,), **{5 + k: (5,) for k in range(18)}, 23: (1,), 25: (1,), 26: (4,), 32: (7,), 33: (4,), 34: (5,)}
#       code: (least ps, RL, WL A, WL B)
ROWS = {1: (6000, 3, 1, 1), 4: (2500, 6, 3, 3), 6: (1875, 8, 4, 4), 7: (1670, 9, 5, 5), 8: (1500, 10, 6, 8), 9: (1360, 11, 6, 9),
        10: (1250, 12, 6, 9), 12: (1071, 14, 8, 11), 14: (938, 16, 8, 13)}
# OP7-5 of MR1 and OP4 of MR2: the programmed nWR
NWRS = {(1, 0): 3, (4, 0): 6, (6, 0): 8, (7, 0): 9, (0, 1): 10, (1, 1): 11, (2, 1): 12, (4, 1): 14, (6, 1): 16}
MAS = {1, 2, 3, 11, 16, 17}
# OP2-0 of MR4: the interval in quarters of tREFI; what code 110 raises
QUARTERS = {1: 16, 2: 8, 3: 4, 4: 2, 5: 1, 6: 1}
PLAIN, HOT = 3, 6
RAISED = ("tRCD", "tRPpb", "tRPab", "tRAS", "tRRD")


def mr1_good(v):
    return v & 7 == 3


def fs(ps):
    return 1000 * ps


def mr2_good(period, v):
    return v & 0x80 == 0 and v & 0x20 == 0 and v & 15 in ROWS and fs(ROWS[v & 15][0]) <= period


def rl(v):
    return ROWS[v & 15][1]


def wl(v):
    return ROWS[v & 15][3 if v & 0x40 else 2]


def nwr(mr1, mr2):
    """None where n(tWR) counts: there is no MR1 yet, or the pair is not listed."""
    return None if mr1 is None else NWRS.get((mr1 >> 5, mr2 >> 4 & 1))


def up(d, p):
    return -(-d // p)


class Card:
    """Fields by tag, as they come; the period is in fs, a timing (duration in ps, floor), MR1 None without tag 23, the gap without 25."""

    def __init__(self):
        self.timing, self.sleeps, self.mr1, self.gap, self.more = {}, False, None, None, 0

    def delays(self, code):
        """In cycles, by the code in force."""
        timing = {k: (d + (self.more if code == HOT and k in RAISED else 0), f) for k, (d, f) in self.timing.items()}
        t = {k: max(f, up(fs(d), self.period)) for k, (d, f) in timing.items()}
        (a, f), (b, g) = timing["tRAS"], timing["tRPpb"]
        t["tRC"] = max(f + g, up(fs(a + b), self.period))
        return t

    def interval(self, code):
        return max(1, fs(self.trefi) * QUARTERS[code] // (4 * self.period))

    def take(self, tag, value):
        """Whether the value is in range; if so it is kept."""
        x = int.from_bytes(value, "big")
        if tag == 1:
            self.period = x if len(value) == 8 else fs(x)
            return fs(938) <= self.period <= fs(100000)
        if tag == 2:
            self.mr2 = x
            return mr2_good(self.period, x)
        if tag == 3:
            return 1 <= x <= 16384
        if tag == 4:
            self.trefi = x
            return self.period <= fs(x) and x <= 20000000
        if tag == 23:
            self.mr1 = x
            return mr1_good(x)
        if tag == 25:
            self.gap = x
            return not self.sleeps
        if tag == 26:
            self.more = x
            return x <= 1000000
        d = int.from_bytes(value[:4], "big")
        self.timing[(TIMINGS + SLEEPS)[tag - 5]] = (d, value[4])
        self.sleeps = self.sleeps or tag >= 19
        return d <= 1000000


class Cmd:
    """What an entry is. Beside the commands: FALL (`level` says where to), LOW (asleep), RISE (`level` says where from), and MR4 for a temperature field."""

    def __init__(self, kind, bank=None, ap=False, ma=0, op=0, level=None):
        self.kind, self.bank, self.ap, self.ma, self.op, self.level = kind, bank, ap, ma, op, level

    def like(self):
        """The command whose bank states and delays it has as the later entry."""
        if self.kind == "FALL" and self.level != "power-down":
            return "REFAB"
        return "NOP" if self.kind in ("FALL", "LOW", "RISE") else self.kind


def read_pair(pins):
    """Of an entry for two parts: which it is for (None: neither) and the command, or the number 6, 7 or 24."""
    bit = lambda i: pins >> i & 1
    if not bit(21) or bit(23):
        return None, 6
    if not bit(20) and not bit(22):
        return None, 24
    if bit(20) and bit(22):
        return None, Cmd("NOP")
    return (1 if bit(20) else 0), decode(pins & ~(1 << 20))


def read(pins, sleeps, level):
    """What an entry is at this level, or the number 6, 7 or 16."""
    if pins >> 22 or not sleeps and not pins >> 21 & 1:
        return 6
    cke, cs_n, ca = pins >> 21 & 1, pins >> 20 & 1, [pins >> i & 1 for i in range(4)]
    if level == "deep":
        return 16
    if level == "awake":
        if cke:
            return decode(pins)
        if cs_n:
            return Cmd("FALL", level="power-down")
        if ca[:3] == [0, 0, 1]:
            return Cmd("FALL", level="self-refresh")
        return Cmd("FALL", level="deep") if ca[:3] == [1, 1, 0] else 16
    if not cke:
        return Cmd("LOW")
    return Cmd("RISE", level=level) if cs_n else 16


def decode(pins):
    """A command, or the number 7."""
    bit = lambda i: pins >> i & 1
    run = lambda i, k: pins >> i & (1 << k) - 1
    if bit(20):
        return Cmd("NOP")
    a, b, c, d = bit(0), bit(1), bit(2), bit(3)
    bank = run(7, 3)
    if (a, b, c) == (0, 0, 0):
        ma = run(4, 8)
        if d:
            return Cmd("MRR", ma=ma)
        return Cmd("MRW", ma=ma, op=run(12, 8)) if ma in MAS else 7
    if (a, b, c) == (0, 0, 1):
        return Cmd("REFAB" if d else "REFPB")
    if (a, b) == (0, 1):
        return Cmd("ACT", bank)
    if (a, b) == (1, 0):
        return Cmd("RD" if c else "WR", bank, ap=bit(10) == 1)
    if (a, b, c) == (1, 1, 0):
        if d == 0:
            return 7
        return Cmd("PREA") if bit(4) else Cmd("PRE", bank)
    return Cmd("NOP")


class Entry:
    """An entry that was taken, with MR1, MR2 and the round counter as they stood before it."""

    def __init__(self, t, cmd, mr1, mr2, counter):
        self.t, self.cmd, self.mr1, self.mr2, self.counter = t, cmd, mr1, mr2, counter
        self.bank = counter if cmd.kind == "REFPB" else cmd.bank


def latest(past, test):
    for e in reversed(past):
        if test(e):
            return e
    return None


def level_after(past):
    move = latest(past, lambda e: e.cmd.kind in ("FALL", "RISE"))
    return move.cmd.level if move is not None and move.cmd.kind == "FALL" else "awake"


def code_after(past):
    """OP2-0 of the latest temperature field."""
    field = latest(past, lambda e: e.cmd.kind == "MR4")
    return PLAIN if field is None else field.cmd.op & 7


def precharge(past, b):
    return latest(past, lambda e: e.cmd.kind == "PREA" or e.cmd.kind == "PRE" and e.bank == b)


def bounds(card, past, cmd, counter):
    """(rule, first permitted cycle), for each entry that a rule counts from."""
    t, k = card.delays(code_after(past)), cmd.like()
    bank = counter if k == "REFPB" else cmd.bank
    every = range(8)
    idle = every if k in ("REFAB", "MRW") else [bank] if k in ("ACT", "REFPB") else []
    pres = every if k == "PREA" else [bank] if k == "PRE" else []
    of = lambda kind, b=None, ap=None: latest(past, lambda e: e.cmd.kind == kind and (b is None or e.bank == b) and (ap is None or e.cmd.ap == ap))
    out = []

    def recovery(e):
        """From the last data of a write with AP to its precharge."""
        programmed = nwr(e.mr1, e.mr2)
        return t["tWR"] if programmed is None else programmed

    def rule(n, e, delay):
        if e is not None:
            out.append((n, e.t + delay(e) if callable(delay) else e.t + delay))

    if k != "NOP":
        rule(1, of("MRW"), t["tMRW"])
        rule(2, of("MRR"), t["tMRR"])
        rule(3, of("REFAB"), t["tRFCab"])
    if k in ("REFPB", "REFAB", "MRW", "PREA"):
        rule(4, of("REFPB"), t["tRFCpb"])
    if k in ("ACT", "PRE"):
        rule(4, of("REFPB", bank), t["tRFCpb"])
    for b in idle:
        p = precharge(past, b)
        if p is not None:
            rule(5 if p.cmd.kind == "PRE" else 6, p, t["tRPpb"] if p.cmd.kind == "PRE" else t["tRPab"])
        rule(9, of("ACT", b), t["tRC"])
        rule(16, of("RD", b, True), max(4, t["tRTP"]) + t["tRPpb"])
        rule(18, of("WR", b, True), lambda e: wl(e.mr2) + 5 + recovery(e) + t["tRPpb"])
    if k in ("RD", "WR"):
        rule(7, of("ACT", bank), t["tRCD"])
    for b in pres:
        rule(8, of("ACT", b), t["tRAS"])
        rule(15, of("RD", b), max(4, t["tRTP"]))
        rule(17, of("WR", b), lambda e: wl(e.mr2) + 5 + t["tWR"])
    if k in ("ACT", "REFPB"):
        for b in every:
            if b != bank:
                rule(10, of("ACT", b), t["tRRD"])
                if k == "ACT":
                    rule(10, of("REFPB", b), t["tRRD"])
        four = [e for e in past if e.cmd.kind in ("ACT", "REFPB")]
        if len(four) >= 4:
            rule(11, four[-4], t["tFAW"])
    if k in ("RD", "MRR"):
        rule(12, of("RD"), 4)
        rule(14, of("WR"), lambda e: wl(e.mr2) + 5 + t["tWTR"])
    if k == "WR":
        rule(12, of("WR"), 4)
        rule(13, latest(past, lambda e: e.cmd.kind in ("RD", "MRR")), lambda e: rl(e.mr2) + t["tDQSCK"] + 5 - wl(e.mr2))
    return out + (sleep_bounds(t, past, cmd) if card.sleeps else [])


def sleep_bounds(t, past, cmd):
    fall = latest(past, lambda e: e.cmd.kind == "FALL")
    rise = latest(past, lambda e: e.cmd.kind == "RISE")
    out = []
    if cmd.kind == "RISE":
        out.append((21, fall.t + t["tCKE"]))
        if cmd.level == "self-refresh":
            out.append((23, fall.t + t["tCKESR"]))
    if cmd.kind == "FALL" and rise is not None:
        out.append((21, rise.t + t["tCKE"]))
    if cmd.like() != "NOP":
        for n, where, delay in ((22, "power-down", t["tXP"]), (24, "self-refresh", t["tXSR"])):
            leaves = latest(past, lambda e: e.cmd.kind == "RISE" and e.cmd.level == where)
            if leaves is not None:
                out.append((n, leaves.t + delay))
    return out


def bus_bounds(card, other, cmd):
    """Likewise from the other part's entries."""
    t, g = card.delays(code_after(other)), card.gap
    of = lambda *kinds: latest(other, lambda e: e.cmd.kind in kinds)
    read, write, any_read, out = of("RD"), of("WR"), of("RD", "MRR"), []
    if cmd.kind in ("RD", "MRR"):
        if read is not None:
            out.append((25, read.t + 4 + g))
        if write is not None:
            out.append((27, write.t + wl(write.mr2) + 5 + t["tWTR"] + g))
    if cmd.kind == "WR":
        if write is not None:
            out.append((25, write.t + 4 + g))
        if any_read is not None:
            out.append((26, any_read.t + rl(any_read.mr2) + t["tDQSCK"] + 5 - wl(any_read.mr2) + g))
    return out


def first_broken(found, t):
    late = [(n, c) for n, c in found if c > t]
    if not late:
        return None
    n = min(n for n, c in late)
    return n, max(c for m, c in late if m == n)


class Account:
    """The ledger after cycle `at`. `count` is the number of counted cycles after cycle 0, `due` what it will be when the next refresh falls due, and `since` what
    it was at the later of the last counted refresh and the last temperature field."""

    def __init__(self, interval):
        self.i, self.at, self.owed, self.count, self.due, self.since = interval, 0, 0, 0, interval, 0

    def copy(self):
        other = Account(self.i)
        other.__dict__.update(self.__dict__)
        return other

    def tick(self, counted):
        self.at += 1
        if counted:
            self.count += 1
            if self.count == self.due:
                self.owed += 1
                self.due += self.i

    def refresh(self):
        self.owed = max(-8, self.owed - 1)
        self.since = self.count

    def temper(self, interval):
        """From here on by another interval; what is due at this very cycle has fallen by the old one."""
        self.i, self.since = interval, self.count
        self.due = min(self.due, self.count + interval)

    def fails(self):
        """The rule that fails after this cycle, or 0."""
        if self.owed > 8:
            return 19
        return 20 if self.count - self.since > 9 * self.i else 0

    def idle(self, upto, counted):
        """Goes on through `upto`, or to the first cycle that fails: then (rule, cycle)."""
        if not counted:
            self.at = max(self.at, upto)
        while self.at < upto:
            self.tick(True)
            if self.fails():
                return self.fails(), self.at
        return None


class Part:
    """The entries of one part, and what they leave behind."""

    def __init__(self, card):
        self.past, self.account = [], Account(card.interval(PLAIN))
        self.open, self.counter, self.mr1, self.mr2 = set(), 0, card.mr1, card.mr2

    def counts_next(self):
        """Whether the cycles after the last entry count, as long as nothing else comes."""
        return level_after(self.past) in ("awake", "power-down")

    def state_good(self, cmd):
        k = cmd.like()
        if k == "ACT":
            return cmd.bank not in self.open
        if k in ("RD", "WR"):
            return cmd.bank in self.open
        if k in ("REFAB", "MRW"):
            return not self.open
        return k != "REFPB" or self.counter not in self.open

    def refreshed_by(self, cmd):
        return cmd.kind == "REFAB" or cmd.kind == "REFPB" and self.counter == 7

    def change(self, e):
        self.past.append(e)
        k = e.cmd.kind
        if k == "ACT":
            self.open.add(e.bank)
        if k == "PRE" or k in ("RD", "WR") and e.cmd.ap:
            self.open.discard(e.bank)
        if k == "PREA":
            self.open.clear()
        if k == "REFAB" or k == "RISE" and e.cmd.level == "self-refresh":
            self.counter = 0
        if k == "REFPB":
            self.counter = (self.counter + 1) % 8
        if k == "MRW" and e.cmd.ma == 1:
            self.mr1 = e.cmd.op
        if k == "MRW" and e.cmd.ma == 2:
            self.mr2 = e.cmd.op


def earliest(fails):
    """Of what each account's walk came to, the failing (rule, cycle) that is named: the earliest, and of one cycle the first part's."""
    found = [f for f in fails if f]
    return min(found, key=lambda f: f[1]) if found else None


class Judge:
    def __init__(self, card):
        self.card, self.two = card, card.gap is not None
        self.parts = [Part(card) for _ in range(2 if self.two else 1)]
        self.entries = []  # (part or None, entry), both parts and temperature fields together

    def read(self, pins):
        return read_pair(pins) if self.two else (0, read(pins, self.card.sleeps, level_after(self.parts[0].past)))

    def walk(self, upto):
        """Each part's account after this cycle, and what 11 names."""
        accounts = [p.account.copy() for p in self.parts]
        return accounts, earliest([a.idle(upto, p.counts_next()) for a, p in zip(accounts, self.parts)])

    def reach(self, t):
        """Each part's account before this stamp, and 5 or 11 as (number, rule, cycle)."""
        if self.entries and t <= self.entries[-1][1].t:
            return None, (5, 0, 0)
        accounts, late = self.walk(t - 1)
        return accounts, (11, *late) if late else None

    def settle(self, t, accounts, change):
        """Takes the accounts through this stamp, each changed there, and keeps them unless 11 comes."""
        for a, p in zip(accounts, self.parts):
            if a.at < t:
                a.tick(p.counts_next())
            change(a, p)
        late = earliest([(a.fails(), t) if a.fails() else None for a in accounts])
        if late:
            return 11, *late
        for a, p in zip(accounts, self.parts):
            p.account = a
        return None

    def entry(self, t, pins):
        """None, or (number, rule, cycle)."""
        accounts, bad = self.reach(t)
        if bad:
            return bad
        which, cmd = self.read(pins)
        if isinstance(cmd, int):
            return cmd, 0, 0
        part = self.parts[which or 0]
        bad = self.command(t, which, part, cmd) or self.settle(t, accounts, lambda a, p: a.refresh() if p is part and p.refreshed_by(cmd) else None)
        if bad:
            return bad
        e = Entry(t, cmd, part.mr1, part.mr2, part.counter)
        self.entries.append((which, e))
        if which is not None:
            part.change(e)
        return None

    def temperature(self, t, value):
        """Likewise, of a temperature field, which is among every part's entries."""
        accounts, bad = self.reach(t)
        if bad:
            return bad
        if level_after(self.parts[0].past) == "deep":
            return 16, 0, 0
        if value & 7 not in QUARTERS:
            return 26, 0, 0
        bad = self.settle(t, accounts, lambda a, p: a.temper(self.card.interval(value & 7)))
        if bad:
            return bad
        e = Entry(t, Cmd("MR4", op=value), None, None, None)
        self.entries.append((None, e))
        for p in self.parts:
            p.past.append(e)
        return None

    def command(self, t, which, part, cmd):
        """8, 9 and 10."""
        if not part.state_good(cmd):
            return 8, 0, 0
        if cmd.kind == "MRW" and (cmd.ma == 1 and not mr1_good(cmd.op) or cmd.ma == 2 and not mr2_good(self.card.period, cmd.op)):
            return 9, 0, 0
        found = bounds(self.card, part.past, cmd, part.counter)
        if self.two and which is not None:
            found = found + bus_bounds(self.card, self.parts[1 - which].past, cmd)
        broken = first_broken(found, t)
        return (10, *broken) if broken else None

    def end(self, e):
        if self.entries and e < self.entries[-1][1].t:
            return 5, 0, 0
        accounts, late = self.walk(e)
        for a, p in zip(accounts, self.parts):
            p.account = a
        return (11, *late) if late else None

    def counts(self):
        past = [x for _, x in self.entries]
        commands = sum(x.cmd.kind not in ("NOP", "FALL", "LOW", "RISE", "MR4") for x in past)
        counted = sum(x.cmd.kind == "REFAB" or x.cmd.kind == "REFPB" and x.counter == 7 for x in past)
        return [commands, counted] + [p.account.owed for p in self.parts]

    def line(self):
        which, e = self.entries[-1]
        name = "NOP" if e.cmd.kind in ("FALL", "LOW", "RISE") else e.cmd.kind + ("A" if e.cmd.ap else "")
        text = "%d %s %s" % (e.t, name, "-" if e.bank is None else e.bank)
        return text + (" %s" % ("-" if which is None else which) if self.two else "")


def may_come(last):
    """The tags that may stand behind this one; 19 to 22 come all four or not at all."""
    if last < 18 or 19 <= last < 22:
        return (last + 1,)
    return {18: (19, 23, 25, 26), 22: (23, 25, 26), 23: (25, 26), 25: (26,)}.get(last, ()) + (32, 33, 34)


def wrong_tag(tags, got):
    """The number of a tag that may not come behind those that were read, and the tag expected there."""
    required = list(range(1, 19))
    if {19, 20, 21, 22} & {*tags, got}:
        required += [19, 20, 21, 22]
    missing = [t for t in required if t not in tags]
    expected = min(missing) if missing else 33
    if got not in SIZES:
        return 17, expected
    if got < 32 and (got in tags or any(t > got for t in tags)):
        return 18, expected
    return 19, expected


def size_at(data, at):
    """The length that the field at this place has, by its own word."""
    return data[at + 1] * 256 + data[at + 2]


def misformed(data, at, tags):
    """What is wrong about the tag, length and room of the field at this place, behind those that were read: (number, rule), or None."""
    if at == len(data):
        return 1, 0
    got = data[at]
    if got not in may_come(tags[-1] if tags else 0):
        return wrong_tag(tags, got)
    if len(data) < at + 3:
        return 1, 0
    size = size_at(data, at)
    if size not in SIZES[got]:
        return 3, 0
    return (1, 0) if len(data) < at + 3 + size else None


def judge(data):
    """The lines of a file, the verdict last."""
    lines, at, tags, card, run = [], 0, [], Card(), None

    def refused(n, rule=0, cycle=0):
        return lines + ["refused %d %d %d %d" % (n, rule, at, cycle)]

    while True:
        bad = misformed(data, at, tags)
        if bad:
            return refused(*bad)
        got, behind = data[at], at + 3 + size_at(data, at)
        value = data[at + 3:behind]
        if got < 32:
            if not card.take(got, value):
                return refused(4)
        elif run is None:
            run = Judge(card)
        if got == 32:
            bad = run.entry(int.from_bytes(value[:4], "big"), int.from_bytes(value[4:], "big"))
        elif got == 34:
            bad = run.temperature(int.from_bytes(value[:4], "big"), value[4])
        elif got == 33:
            bad = run.end(int.from_bytes(value, "big"))
        if bad:
            return refused(*bad)
        at = behind
        if got == 33:
            return refused(12) if at < len(data) else lines + [" ".join(["accepted"] + [str(n) for n in run.counts()])]
        if got == 32:
            lines.append(run.line())
        tags.append(got)
