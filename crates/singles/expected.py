#!/usr/bin/env python3
# What singles is to write, from document 01 and requests One, Two, Four, Nine and Eleven of document 02: the rules over the lists of the parts' earlier entries, the
# account cycle by cycle; and its table of calls.
#   python3 crates/singles/expected.py > crates/singles/stdout
#   python3 crates/singles/expected.py table > crates/singles/src/table.rt
import importlib.util, pathlib, sys

# the pins, one by one
spec = importlib.util.spec_from_file_location("allpins", pathlib.Path(__file__).parents[1] / "allpins" / "expected.py")
allpins = importlib.util.module_from_spec(spec)
spec.loader.exec_module(allpins)

TIMINGS = "tRCD tRPpb tRPab tRAS tRRD tFAW tRTP tWR tWTR tDQSCK tRFCab tRFCpb tMRR tMRW tCKE tXP tCKESR tXSR".split()
LEVELS = ["awake", "power-down", "self-refresh", "deep"]
# the period in fs, all other times in ps
BENCH = {
    "period": 1250000, "mr2": 0x1A, "R": 8192, "tREFI": 3900000,
    "ps": [18000, 18000, 21000, 42000, 10000, 50000, 7500, 15000, 7500, 5500, 130000, 60000, 0, 0, 0, 0, 0, 0],
    "floor": [3, 3, 3, 3, 2, 8, 4, 4, 4, 0, 0, 0, 4, 10, 0, 0, 0, 0],
    "sleeps": 0, "mr1": None, "paired": 0, "gap": 0, "raise": 0,
}
# code: least period in ps, RL, WL of set A, of set B
LATENCIES = {
    0b0001: (6000, 3, 1, 1), 0b0100: (2500, 6, 3, 3), 0b0110: (1875, 8, 4, 4), 0b0111: (1670, 9, 5, 5), 0b1000: (1500, 10, 6, 8),
    0b1001: (1360, 11, 6, 9), 0b1010: (1250, 12, 6, 9), 0b1100: (1071, 14, 8, 11), 0b1110: (938, 16, 8, 13),
}
# OP4 of MR2, OP7-5 of MR1: nWR
RECOVERIES = {
    (0, 0b001): 3, (0, 0b100): 6, (0, 0b110): 8, (0, 0b111): 9, (1, 0b000): 10, (1, 0b001): 11, (1, 0b010): 12, (1, 0b100): 14, (1, 0b110): 16,
}


class Refused(Exception):
    pass


def refuse(when, *numbers):
    if when:
        raise Refused(*(numbers + (0, 0))[:3])


# ---- the card
def fs(ps):
    return 1000 * ps


def writable(period, mr2):
    return not mr2 >> 7 & 1 and not mr2 >> 5 & 1 and mr2 & 15 in LATENCIES and fs(LATENCIES[mr2 & 15][0]) <= period


def mr1_writable(mr1):
    return mr1 & 7 == 0b011


def card_good(card):
    return (fs(938) <= card["period"] <= fs(100000) and writable(card["period"], card["mr2"]) and 1 <= card["R"] <= 16384
            and (card["mr1"] is None or mr1_writable(card["mr1"]))
            and card["period"] <= fs(card["tREFI"]) <= fs(20000000) and all(ps <= 1000000 for ps in card["ps"] + [card["raise"]])
            and not (card["sleeps"] and card["paired"]))


def rounded_up(ps, period):
    return -(-fs(ps) // period)


# by OP2-0 of MR4: how often the quarter of tREFI is taken; 000 and 111, which no field sets, stand for tREFI itself
QUARTERS = {0b001: 16, 0b010: 8, 0b011: 4, 0b100: 2, 0b101: 1, 0b110: 1, 0b000: 4, 0b111: 4}
RAISED = ["tRCD", "tRPpb", "tRPab", "tRAS", "tRRD"]


def clocks(card, mr4):
    """With this value of MR4 in force: code 110 adds the picoseconds of tag 26 to five timings; tRC is made of two of them."""
    raised = card["raise"] if mr4 & 7 == 0b110 else 0
    ps = {name: card["ps"][i] + raised * (name in RAISED) for i, name in enumerate(TIMINGS)}
    floor = dict(zip(TIMINGS, card["floor"]))
    n = {name: max(floor[name], rounded_up(ps[name], card["period"])) for name in TIMINGS}
    n["tRC"] = max(floor["tRAS"] + floor["tRPpb"], rounded_up(ps["tRAS"] + ps["tRPpb"], card["period"]))
    return n


def interval(card, mr4):
    """tREFI times the code's factor, over the period, rounded down; never below one cycle."""
    return max(1, fs(card["tREFI"]) * QUARTERS[mr4 & 7] // (4 * card["period"]))


class Pace:
    """One for all parts, by the numbers of counted cycles: a due at `next`, which may be any number, none before it, and one every interval after it."""

    def __init__(self, card):
        self.card, self.mr4, self.next = card, 0b011, interval(card, 0b011)

    def interval(self):
        return interval(self.card, self.mr4)

    def due(self, number):
        return self.next <= number and (number - self.next) % self.interval() == 0

    def sense(self, number, mr4):
        """A field at this number: the earlier of the old next due and one new interval after it."""
        old = max(self.next, number + 1)
        while not self.due(old):
            old += 1
        self.next, self.mr4 = min(old, number + interval(self.card, mr4)), mr4


# ---- the list: each entry with its stamp, its kind (FALL, LOW and RISE beside the commands), its bank, AP, MR2 and MR1 as they stood, and the level that a rise
# leaves
class Entry:
    def __init__(self, stamp, kind, bank=None, ap=False, mr2=0, mr1=None, level=None):
        self.stamp, self.kind, self.bank, self.ap, self.mr2, self.mr1, self.level = stamp, kind, bank, ap, mr2, mr1, level

    def rl(self):
        return LATENCIES[self.mr2 & 15][1]

    def wl(self):
        return LATENCIES[self.mr2 & 15][3 if self.mr2 >> 6 & 1 else 2]

    def nwr(self, twr):
        return twr if self.mr1 is None else RECOVERIES.get((self.mr2 >> 4 & 1, self.mr1 >> 5), twr)


def judged_as(kind, numbers):
    """The command whose bank states and delays an entry has as the later one."""
    if kind == "FALL" and numbers["level"] != "power-down":
        return "REFab"
    return "NOP" if kind in ("FALL", "LOW", "RISE") else kind


# places where the record remembers an entry, of the data bus and of bank 0: the latest of these kinds, to this bank, with AP
REMEMBERED = {"rd": (["RD"],), "wr": (["WR"],), "turn": (["RD", "MRR"],), "wr0": (["WR"], 0), "wra0": (["WR"], 0, True)}


class Part:
    """The list of the part's own entries taken so far; `odd` and `noted` are stamps, and MR2 and MR1 values, that were put where the record remembers one. The
    ledger stands at cycle `at`; `since` is a number among the counted cycles, and of those up to `at` `skipped` are not. The pace is shared."""

    def __init__(self, card, pace):
        self.card, self.pace, self.mr2, self.mr1, self.counter, self.past = card, pace, card["mr2"], card["mr1"], 0, []
        self.at, self.number, self.since, self.skipped, self.level = 0, 0, 0, 0, "awake"
        self.odd, self.noted = {}, {}

    # ---- 13
    def ledger_good(self):
        return card_good(self.card) and -8 <= self.number <= 8 and self.since <= self.count()

    def good(self, last):
        stamps = [e.stamp for e in self.past if e.kind not in ("NOP", "LOW")] + list(self.odd.values())
        written = [e for bank in range(8) for ap in (None, True) for e in self.written(bank, ap)]
        values = [self.mr2] + [e.mr2 for e in self.remembered("wr") + self.remembered("turn") + written]
        by_last = all(last is not None and t <= last for t in stamps)
        return (self.ledger_good() and all(writable(self.card["period"], v) for v in values) and by_last
                and (last is None or last <= self.at) and self.counter <= 7)

    # ---- the account
    def count(self):
        """The number of the cycle where the ledger stands; it can have skipped no more cycles than there were."""
        return max(self.at - self.skipped, 0)

    def runs(self):
        return self.level in ("awake", "power-down")

    def due(self, ledger):
        """One counted cycle on."""
        number, since, count = ledger
        return number + self.pace.due(count + 1), since, count + 1

    def account(self, t, ledger):
        number, since, count = ledger
        refuse(number > 8, 11, 19, t)
        refuse(count - since > 9 * self.pace.interval(), 11, 20, t)

    def counted(self, kind, ledger):
        """The ledger after an entry of this part; the gap counts from a temperature too."""
        if kind == "REFab" or kind == "REFpb" and self.counter == 7:
            return max(ledger[0] - 1, -8), ledger[2], ledger[2]
        return (ledger[0], ledger[2], ledger[2]) if kind == "MR4" else ledger

    def stand(self, t, ledger):
        self.number, self.since, count = ledger
        self.at, self.skipped = t, t - count

    # ---- the banks and the delay rules
    def opened(self, bank):
        is_open = False
        for e in self.past:
            if e.kind == "PREA" or e.bank == bank and (e.kind in ("ACT", "PRE") or e.kind in ("RD", "WR") and e.ap):
                is_open = e.kind == "ACT"
        return is_open

    def state_good(self, kind, bank):
        if kind in ("ACT", "REFpb"):
            return not self.opened(bank)
        if kind in ("RD", "WR"):
            return self.opened(bank)
        return kind not in ("REFab", "MRW") or not any(map(self.opened, range(8)))

    def latest(self, kinds, bank=None, ap=None):
        found = [e for e in self.past if e.kind in kinds and bank in (None, e.bank) and ap in (None, e.ap)]
        return found[-1:]

    def remembered(self, place):
        """The latest entry that this place is of, with what was put there."""
        found = self.latest(*REMEMBERED[place])
        stamps = [self.odd["at-" + place]] if "at-" + place in self.odd else [e.stamp for e in found]
        mr2 = self.noted.get("noted-mr2-" + place, found[0].mr2 if found else 0)
        mr1 = self.noted.get("noted-mr1-" + place, found[0].mr1 if found else None)
        return [Entry(stamp, place, mr2=mr2, mr1=mr1) for stamp in stamps]

    def written(self, bank, ap=None):
        """The latest WR to the bank; what is put is of bank 0."""
        return self.latest(["WR"], bank, ap) if bank else self.remembered("wra0" if ap else "wr0")

    def exit_from(self, level):
        return [e for e in self.past if e.kind == "RISE" and e.level == level][-1:]

    def delays(self, kind, bank, entry, other):
        """(rule, first permitted cycle) for each clause of each rule that speaks of this command, or of this move; `other` is the other part, if there is one."""
        n, latest = clocks(self.card, self.pace.mr4), self.latest
        everyone = range(8)
        idle = everyone if kind in ("REFab", "MRW") else [bank] if kind in ("ACT", "REFpb") else []
        named = everyone if kind == "PREA" else [bank] if kind == "PRE" else []
        active = kind in ("ACT", "REFpb")

        def after(rule, found, delay):
            return [(rule, e.stamp + (delay(e) if callable(delay) else delay)) for e in found]

        out = []
        if kind != "NOP":
            out += after(1, latest(["MRW"]), n["tMRW"]) + after(2, latest(["MRR"]), n["tMRR"]) + after(3, latest(["REFab"]), n["tRFCab"])
        if kind in ("REFpb", "REFab", "MRW", "PREA"):
            out += after(4, latest(["REFpb"]), n["tRFCpb"])
        if kind in ("ACT", "PRE"):
            out += after(4, latest(["REFpb"], bank), n["tRFCpb"])
        for b in idle:
            precharge = [e for e in self.past if e.kind == "PREA" or e.kind == "PRE" and e.bank == b][-1:]
            out += after(5, [e for e in precharge if e.kind == "PRE"], n["tRPpb"])
            out += after(6, [e for e in precharge if e.kind == "PREA"], n["tRPab"])
            out += after(9, latest(["ACT"], b), n["tRC"])
            out += after(16, latest(["RD"], b, True), max(4, n["tRTP"]) + n["tRPpb"])
            out += after(18, self.written(b, True), lambda e: e.wl() + 5 + e.nwr(n["tWR"]) + n["tRPpb"])
        for b in named:
            out += after(8, latest(["ACT"], b), n["tRAS"])
            out += after(15, latest(["RD"], b), max(4, n["tRTP"]))
            out += after(17, self.written(b), lambda e: e.wl() + 5 + n["tWR"])
        if kind in ("RD", "WR"):
            out += after(7, latest(["ACT"], bank), n["tRCD"])
        for b in everyone:
            if active and b != bank:
                out += after(10, latest(["ACT"], b), n["tRRD"])
            if kind == "ACT" and b != bank:
                out += after(10, latest(["REFpb"], b), n["tRRD"])
        if active:
            four = [e for e in self.past if e.kind in ("ACT", "REFpb")][-4:]
            out += after(11, four[:1] if len(four) == 4 else [], n["tFAW"])
        for rule, part, gap in [(12, self, 0)] + ([(25, other, self.card["gap"])] if other else []):
            if kind in ("RD", "MRR"):
                out += after(rule, part.remembered("rd"), 4 + gap) + after(rule + 2, part.remembered("wr"), lambda e: e.wl() + 5 + n["tWTR"] + gap)
            if kind == "WR":
                out += after(rule, part.remembered("wr"), 4 + gap) + after(rule + 1, part.remembered("turn"), lambda e: e.rl() + n["tDQSCK"] + 5 - e.wl() + gap)
        exits = {level: self.exit_from(level) for level in ("power-down", "self-refresh")}
        if entry == "FALL":
            out += after(21, exits["power-down"] + exits["self-refresh"], n["tCKE"])
        if entry == "RISE":
            out += after(21, latest(["FALL"]), n["tCKE"])
        if entry == "RISE" and self.level == "self-refresh":
            out += after(23, latest(["FALL"]), n["tCKESR"])
        if kind != "NOP":
            out += after(22, exits["power-down"], n["tXP"]) + after(24, exits["self-refresh"], n["tXSR"])
        return out

    # ---- an entry
    def judge(self, stamp, kind, numbers, other):
        """8, 9 and 10."""
        bank = self.counter if kind == "REFpb" else numbers.get("bank")
        like = judged_as(kind, numbers)
        refuse(not self.state_good(like, bank), 8)
        if kind == "MRW":
            refuse(numbers["ma"] == 1 and not mr1_writable(numbers["op"]), 9)
            refuse(numbers["ma"] == 2 and not writable(self.card["period"], numbers["op"]), 9)
        delays = self.delays(like, bank, kind, other)
        for rule in [*range(1, 19), *range(21, 28)]:
            first = max([cycle for r, cycle in delays if r == rule], default=0)
            refuse(stamp < first, 10, rule, first)

    def take(self, stamp, kind, numbers):
        bank = self.counter if kind == "REFpb" else numbers.get("bank")
        entry = Entry(stamp, kind, bank, bool(numbers.get("ap")), self.mr2, self.mr1, self.level)
        self.past.append(entry)
        for place in [place for place, asked in REMEMBERED.items() if entry in self.latest(*asked)]:
            self.odd.pop("at-" + place, None)
            self.noted.pop("noted-mr2-" + place, None)
            self.noted.pop("noted-mr1-" + place, None)
        if kind == "MRW" and numbers["ma"] == 1:
            self.mr1 = numbers["op"]
        if kind == "MRW" and numbers["ma"] == 2:
            self.mr2 = numbers["op"]
        if kind == "REFpb":
            self.counter = (self.counter + 1) % 8
        if kind == "REFab" or kind == "RISE" and self.level == "self-refresh":
            self.counter = 0
        self.level = {"FALL": numbers.get("level"), "RISE": "awake"}.get(kind, self.level)

    # ---- what may be put
    def put_move(self, kind, level, stamp):
        """A stamp where the record remembers the latest fall, or the latest exit from a level."""
        self.past = [e for e in self.past if (e.kind, kind == "RISE" and e.level) != (kind, level)] + [Entry(stamp, kind, level=level)]

    def put(self, place, value):
        if place == "four":
            pass  # a count above 4: no refusal, and read as 4
        elif place == "level":
            self.level = LEVELS[value]
        elif place in MOVES:
            self.put_move(*MOVES[place], value)
        elif place.startswith("at-"):
            self.odd[place] = value
        elif place.startswith("noted-"):
            self.noted[place] = value
        else:
            assert hasattr(self, place), place
            setattr(self, place, value)


def idle(parts, to):
    """Each part's ledger as after cycle `to` with no entry. Where both fail at one cycle the first part's rule is named."""
    ledgers = [(part.number, part.since, part.count()) for part in parts]
    running = [i for i, part in enumerate(parts) if part.runs()]
    for t in range(min([parts[i].at for i in running], default=to) + 1, to + 1):
        for i in running:
            if parts[i].at < t:
                ledgers[i] = parts[i].due(ledgers[i])
                parts[i].account(t, ledgers[i])
    return ledgers


class Judge:
    """The card, the last entry's stamp, of whichever part, and both parts; without tag 25 there is the first alone."""

    def __init__(self):
        self.card = {k: v[:] if isinstance(v, list) else v for k, v in BENCH.items()}
        self.fresh()

    def fresh(self):
        self.pace = Pace(self.card)
        self.last, self.both = None, [Part(self.card, self.pace), Part(self.card, self.pace)]

    def parts(self):
        return self.both[:2 if self.card["paired"] else 1]

    def good(self):
        return card_good(self.card) and all(part.good(self.last) for part in self.parts())

    def read(self, pins):
        """Whose it is (none's with both CS_n high), and what it is."""
        if not self.card["paired"]:
            return self.both[0], allpins.read(self.card["sleeps"], self.both[0].level, pins)
        own = allpins.whose(pins)
        return None if own is None else self.both[own], allpins.read_shared(pins)

    def at_stamp(self, stamp, own, kind, ledgers):
        """The ledgers after the stamp; 11 there, the first part's first."""
        ledgers = [part.due(ledger) if part.at < stamp and part.runs() else ledger for part, ledger in zip(self.parts(), ledgers)]
        ledgers = [part.counted(kind, ledger) if part is own or kind == "MR4" else ledger for part, ledger in zip(self.parts(), ledgers)]
        for part, ledger in zip(self.parts(), ledgers):
            part.account(stamp, ledger)
        return ledgers

    # ---- the calls
    def opening(self, stamp):
        """13, 5 and 11 below the stamp; the ledgers there."""
        refuse(not self.good(), 13)
        refuse(self.last is not None and stamp <= self.last or any(stamp < part.at for part in self.parts()), 5)
        return idle(self.parts(), stamp - 1)

    def stand(self, stamp, ledgers):
        self.last = stamp
        for part, ledger in zip(self.parts(), ledgers):
            part.stand(stamp, ledger)

    def step(self, stamp, pins):
        ledgers = self.opening(stamp)
        own, read = self.read(pins)
        refuse(read in (6, 24, 7, 16), read)
        kind, numbers = read
        if own:
            own.judge(stamp, kind, numbers, next((part for part in self.parts() if part is not own), None))
        self.stand(stamp, self.at_stamp(stamp, own, kind, ledgers))
        if own:
            own.take(stamp, kind, numbers)
        return "taken"

    def sense(self, stamp, mr4):
        """A value of MR4, read back: among each part's own entries, with no command and no delay. Its own cycle falls due by the old pace."""
        ledgers = self.opening(stamp)
        refuse(self.card["sleeps"] and not self.card["paired"] and self.both[0].level == "deep", 16)
        refuse(mr4 & 7 in (0b000, 0b111), 26)
        self.stand(stamp, self.at_stamp(stamp, None, "MR4", ledgers))
        self.pace.sense(self.both[0].count(), mr4)
        return "taken"

    def end(self, cycle):
        refuse(not self.good(), 13)
        refuse(self.last is not None and cycle < self.last or any(cycle < part.at for part in self.parts()), 5)
        return " ".join(str(number) for number, since, count in idle(self.parts(), cycle))

    def move(self, cycle, part):
        """Of this part's ledger, lent alone."""
        lent = self.both[part]
        refuse(not lent.ledger_good(), 13)
        refuse(cycle < lent.at, 5)
        lent.stand(cycle, idle([lent], cycle)[0])
        return lent.number

    def put(self, place, value, part):
        if place in ("period", "R", "tREFI", "sleeps", "paired", "gap", "raise"):
            self.card[place] = value
        elif place in ("next", "mr4"):
            setattr(self.pace, place, value)
        elif place in ("starting-mr2", "starting-mr1"):
            self.card[place[9:]] = value
        elif place in TIMINGS:
            self.card["ps"][TIMINGS.index(place)] = value
        elif place.endswith("floor"):
            self.card["floor"][TIMINGS.index(place[:-5])] = value
        elif place == "last":
            self.last = value
        else:
            self.both[part].put(place, value)


MOVES = {"at-fall": ("FALL", False), "at-power-exit": ("RISE", "power-down"), "at-self-exit": ("RISE", "self-refresh")}


# ---- the cases, as the documents write them
MOVE_PINS = {"POWER-DOWN": 0x100000, "SELF-REFRESH": 0x00000C, "DEEP-POWER-DOWN": 0x000003, "ASLEEP": 0x000000, "WAKE": 0x300000}
# the bench card with tags 19 to 22: 6, 8, 12 and 112 cycles
SLEEPER = ["put sleeps 1", "put tCKE 7500", "put tXP 10000", "put tCKESR 15000", "put tXSR 140000"]
# with tag 25: a gap of 2 clocks
PAIR = ["put paired 1", "put gap 2"]
# with tag 26: 1,875 ps
HOT = ["put raise 1875"]
# with a tWR of 13 cycles
THIRTEEN = ["put tWR 16250"]
# of 933 MHz
FINE = ["put period 1071811", "put starting-mr2 0x1C", "fresh"]
CARDS = {"sleeper": SLEEPER, "pair": PAIR, "hot": HOT, "thirteen": THIRTEEN, "fine": FINE}


def parted(call):
    """The words without the part, and the part, if one is named."""
    words = call.split()
    if "part" not in words:
        return words, None
    i = words.index("part")
    return words[:i] + words[i + 2:], int(words[i + 1])


def pins_of(words, part):
    if words == ["NOP", "both"]:
        return allpins.pins_of("NOP", {}, paired=True)
    kind, numbers = words[0], [int(w, 16) for w in words[1:]]
    if kind == "pins":
        return numbers[0]
    if kind in MOVE_PINS:
        return MOVE_PINS[kind]
    names = {"REFPB": "REFpb", "REFAB": "REFab", "RDA": "RD", "WRA": "WR"}
    fields = {"MRW": ("ma", "op"), "MRR": ("ma",), "ACT": ("bank",), "RD": ("bank",), "WR": ("bank",), "PRE": ("bank",)}
    plain = names.get(kind, kind)
    values = {"row": 0, "column": 0, "ap": kind in ("RDA", "WRA"), **dict(zip(fields.get(plain, ()), numbers))}
    return allpins.pins_of(plain, values, part, part is not None)


def run(judge, call):
    words, part = parted(call)
    if words[0] == "put":
        return judge.put(words[1], None if words[2] == "none" else int(words[2], 0), part or 0)
    if words[0] == "fresh":
        return judge.fresh()
    if words[0] == "E":
        return judge.end(int(words[1]))
    if words[0] == "move":
        return judge.move(int(words[1]), part or 0)
    if words[0] == "MR4":
        return judge.sense(int(words[-1]), int(words[1], 16))
    return judge.step(int(words[-1]), pins_of(words[:-2], part))


def cases():
    """(case, its calls): a line of cases.txt each, the calls between commas; a line that begins with # says what follows."""
    text = (pathlib.Path(__file__).parent / "cases.txt").read_text()
    lines = [line for line in text.split("\n") if line and not line.startswith("#")]
    calls = [[call.strip() for call in line.split(",")] for line in lines]
    return [(case, CARDS[line[0]] + line[1:] if line[0] in CARDS else line) for case, line in enumerate(calls, 1)]


# ---- the calls, as the program has them
def byte(value):
    assert 0 <= value < 1 << 8, value
    return str(value)


def half(value):
    assert 0 <= value < 1 << 16, value
    return str(value)


def word(value):
    assert 0 <= value < 1 << 32, value
    return str(value)


def long(value):
    assert 0 <= value < 1 << 64, value
    return str(value)


def flag(value):
    assert value in (0, 1), value
    return ("false", "true")[value]


def maybe(form):
    return lambda value: "None" if value is None else "Some(%s)" % form(value)


def level(value):
    return "Level::" + ("Awake", "PowerDown", "SelfRefresh", "Deep")[value]


# a place, as a case names it: as the program names it, and the form of its value
PLACES = {
    "period": ("Card(OnCard::Period(%s))", long), "starting-mr2": ("Card(OnCard::Mr2(%s))", byte), "R": ("Card(OnCard::Groups(%s))", half),
    "tREFI": ("Card(OnCard::Trefi(%s))", word), "sleeps": ("Card(OnCard::Sleeps(%s))", flag), "starting-mr1": ("Card(OnCard::Mr1(%s))", maybe(byte)),
    "paired": ("Card(OnCard::Paired(%s))", flag), "gap": ("Card(OnCard::Gap(%s))", byte), "raise": ("Card(OnCard::Raise(%s))", word),
    "last": ("Last(%s)", maybe(word)), "next": ("Next(%s)", long), "mr4": ("SensedMr4(%s)", byte),
    "mr2": ("Share(OnShare::Mode(OnModes::Mr2(%s)))", byte), "mr1": ("Share(OnShare::Mode(OnModes::Mr1(%s)))", maybe(byte)),
    "counter": ("Share(OnShare::Counter(%s))", byte), "four": ("Share(OnShare::FourCount(%s))", byte),
    "at": ("Share(OnShare::Ledger(OnLedger::At(%s)))", word), "number": ("Share(OnShare::Ledger(OnLedger::Owed(%s)))", lambda value: byte(value + 8)),
    "since": ("Share(OnShare::Ledger(OnLedger::Since(%s)))", word), "skipped": ("Share(OnShare::Ledger(OnLedger::Skipped(%s)))", word),
    "level": ("Share(OnShare::Ledger(OnLedger::Level(%s)))", level),
}


def place_of(name):
    if name in PLACES:
        return PLACES[name]
    if name in TIMINGS:
        return "Card(OnCard::Duration(Timing::%s, %%s))" % name.capitalize(), word
    if name.endswith("floor"):
        return "Card(OnCard::Floor(Timing::%s, %%s))" % name[:-5].capitalize(), byte
    kind = "".join(part.capitalize() for part in name.split("-")[-2:] if part not in ("at", "mr1", "mr2"))
    if name.startswith("at-"):
        return "Share(OnShare::At(Latest::%s, %%s))" % kind, word
    register, form = {"mr1": ("Mr1", maybe(byte)), "mr2": ("Mr2", byte)}[name.split("-")[1]]
    return "Share(OnShare::Noted(Noting::%s, OnModes::%s(%%s)))" % (kind, register), form


def put_of(name, text):
    place, form = place_of(name)
    return "Put(Place::%s)" % place % form(None if text == "none" else int(text, 0))


def call_of(words, part, names):
    """The call; `names` gathers the pins that are called by a name."""
    if words[0] == "put":
        return put_of(words[1], words[2])
    if words[0] == "fresh":
        return "Fresh"
    if words[0] in ("E", "move"):
        return "%s(%s)" % ({"E": "End", "move": "Move"}[words[0]], word(int(words[1])))
    if words[0] == "MR4":
        return "Temperature(0x%s, %s)" % (words[1].lower(), word(int(words[-1])))
    if words[0] == "pins":
        return "Entry(0x%s, %s)" % (words[1].lower(), word(int(words[-1])))
    name = "MRR" if words[:2] == ["MRR", "0"] else "_".join(words[:-2]).replace("-", "_")
    name += "" if part is None else "_PART_%d" % part
    names[name] = pins_of(words[:-2], part)
    return "Entry(%s, %s)" % (name, word(int(words[-1])))


def rows_of(case, calls, names):
    rows, lent = ["Case(%d)" % case], 0
    for call in calls:
        words, part = parted(call)
        if words[0] in ("put", "move") and lent != (part or 0):
            lent = part or 0
            rows.append("Part(Part::%s)" % ("First", "Second")[lent])
        rows.append(call_of(words, part, names))
    return rows


def table():
    names, rows = {}, []
    for case, calls in cases():
        rows += rows_of(case, calls, names)
    consts = "".join("const %s: u32 = 0x%x;\n\n" % item for item in names.items())
    print(TABLE % {"consts": consts, "count": len(rows), "calls": "".join("    Call::%s,\n" % row for row in rows)}, end="")


TABLE = """\
// The calls of all cases, one behind the other.
use crate::calls::{Call, Latest, Noting, OnCard, OnLedger, OnModes, OnShare, Part, Place, Timing};
use pins::Level;

// Pins: a command with its bank, or with MA and OP in hexadecimal, and of two parts with its part; a move of clock-enable.
%(consts)spub static CALLS: [Call; %(count)d] = [
%(calls)s];
"""


# ---- the writer
def written(paired, part, room, kind, numbers):
    answer, buffer = allpins.write(paired, part, 0, room, kind, numbers)
    return "refused %d 0 0" % answer if answer else " ".join(map(str, buffer[7:10]))


def writing():
    """ACT bank 5, row 1234 hex, and NOP, for each part that may be told; with too little room; and what is read of the ACT."""
    act = {"bank": 5, "row": 0x1234}
    for paired in False, True:
        for part in None, 0, 1, 2, 255:
            print(written(paired, part, 10, "ACT", act))
            print(written(paired, part, 10, "NOP", {}))
    for part in None, 0, 1, 2:
        print(written(True, part, 9, "ACT", act))
    kind, read = allpins.decode(0x20D2CA)
    print(read["bank"], read["row"])
    for pins in 0x60D2CA, 0x30D2CA:
        kind, read = allpins.read_shared(pins)
        print(allpins.whose(pins), read["bank"], read["row"])


def main():
    if sys.argv[1:] == ["table"]:
        return table()
    for case, calls in cases():
        judge = Judge()
        for call in calls:
            try:
                told = run(judge, call)
            except Refused as refused:
                told = "refused %d %d %d" % refused.args
            if told is not None:
                print(case, told)
    writing()


if __name__ == "__main__":
    main()
