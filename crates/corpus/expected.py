"""Writes the files of data/, the arguments, and stdout: what the program must print of them. Run it in this folder.

Each file stands for a point of document 01, or of requests One, Two, Three, Four, Nine and Eleven of document 02. Where a refusal is expected it is written here by hand, from
the document; paper.py works out the rest, and must come to the same refusal. The last files are those of examples/, whose README has their verdicts."""
import os
import re
import shutil
import subprocess
import sys

sys.dont_write_bytecode = True
import paper

# ---- bytes
def field(tag, value):
    return bytes([tag]) + len(value).to_bytes(2, "big") + value


def num(x, size):
    return x.to_bytes(size, "big")


BENCH = {"period": 1250, "mr2": 0x1A, "R": 8192, "tREFI": 3900000,
         "tRCD": (18000, 3), "tRPpb": (18000, 3), "tRPab": (21000, 3), "tRAS": (42000, 3), "tRRD": (10000, 2), "tFAW": (50000, 8), "tRTP": (7500, 4),
         "tWR": (15000, 4), "tWTR": (7500, 4), "tDQSCK": (5500, 0), "tRFCab": (130000, 0), "tRFCpb": (60000, 0), "tMRR": (0, 4), "tMRW": (0, 10)}
# tags 19 to 22: 6, 8, 12 and 112 cycles of the bench card
SLEEPS = {"tCKE": (7500, 3), "tXP": (10000, 3), "tCKESR": (15000, 3), "tXSR": (140000, 2)}


def card_fields(**changed):
    c = {**BENCH, **changed}
    period = num(c["fs"], 8) if "fs" in c else num(c["period"], 4)
    out = [field(1, period), field(2, num(c["mr2"], 1)), field(3, num(c["R"], 2)), field(4, num(c["tREFI"], 4))]
    out += [field(5 + k, num(c[name][0], 4) + num(c[name][1], 1)) for k, name in enumerate(paper.TIMINGS + paper.SLEEPS) if name in c]
    out += [field(tag, num(c[name], size)) for tag, name, size in ((23, "mr1", 1), (25, "gap", 1), (26, "hot", 4)) if name in c]
    return out


def card(**changed):
    return b"".join(card_fields(**changed))


CKE = 1 << 21
NOP, NOP_LOW = 3 << 20, CKE | 7
REFPB, REFAB, PREA = CKE | 4, CKE | 12, CKE | 11 | 1 << 4
RESERVED = CKE | 3
# clock-enable low: a fall to power-down, to self-refresh by either refresh, to deep power-down by either HHL; a rise
DOWN, SELF, SELF_PB, DEEP, DEEP_H, WAKE = 1 << 20, 12, 4, 3, 11, NOP


# of two parts: CS_n of each, and both high
CS_NS, NEITHER = (1 << 20, 1 << 22), 7 << 20


def to(part, pins):
    """The pins of a command to this part: the other's CS_n is high."""
    return pins | CS_NS[1 - part]


def mrw(ma, op):
    return CKE | ma << 4 | op << 12


def mrr(ma):
    return CKE | 8 | ma << 4


def act(b, row=0):
    return CKE | 2 | (row >> 8 & 31) << 2 | b << 7 | (row & 255) << 10 | (row >> 13 & 1) << 18 | (row >> 14 & 1) << 19


def rd(b, ap=0):
    return CKE | 5 | b << 7 | ap << 10


def wr(b, ap=0):
    return CKE | 1 | b << 7 | ap << 10


def pre(b):
    return CKE | 11 | b << 7


# above the 24 pins: a temperature field in the place of an entry
MR4 = 1 << 24


def mr4(value):
    return MR4 | value


def entry(t, pins):
    return field(34, num(t, 4) + num(pins - MR4, 1)) if pins >= MR4 else field(32, num(t, 4) + num(pins, 3))


def end(e):
    return field(33, num(e, 4))


def trace(entries, e, head=None, tail=b""):
    return (card() if head is None else head) + b"".join(entry(t, p) for t, p in entries) + end(e) + tail


# ---- the cases: name, bytes, and the verdict by hand where it is a refusal (None: accepted)
CASES = []


def case(name, data, verdict=None):
    CASES.append((name, data, verdict))


def good(name, entries, e, verdict=None, **changed):
    case(name, trace(entries, e, card(**changed)), verdict)


def bad(name, entries, e, number, rule=0, cycle=0, place=None, **changed):
    place, head = len(entries) - 1 if place is None else place, card(**changed)
    before = head + b"".join(entry(t, p) for t, p in entries[:place])
    case(name, trace(entries, e, head), "refused %d %d %d %d" % (number, rule, len(before), cycle))


def bound(name, entries, t, pins, rule, cycle, **changed):
    """Refused one cycle early, taken at the first permitted cycle."""
    assert t == cycle - 1
    bad(name + "-early", entries + [(t, pins)], cycle + 20, 10, rule, cycle, **changed)
    good(name + "-good", entries + [(cycle, pins)], cycle + 20, **changed)


def sleeper(**changed):
    return {**SLEEPS, **changed}


def bench_cases():
    bound("bench-rcd", [(0, act(0))], 14, rd(0), 7, 15)
    bound("bench-faw", [(8 * b, act(b)) for b in range(4)], 39, act(4), 11, 40)
    bad("bench-faw-32", [(8 * b, act(b)) for b in range(5)], 60, 10, 11, 40)
    bound("bench-rc", [(0, act(0)), (15, rd(0, 1))], 47, act(0), 9, 48)
    bound("bench-wtr", [(0, act(0)), (15, wr(0))], 31, rd(0), 14, 32)
    bound("bench-rd-wr", [(0, act(0)), (15, rd(0))], 30, wr(0), 13, 31)
    good("bench-preall-pre-0", [(0, PREA), (1, pre(0)), (16, act(0))], 40)
    bound("bench-preall-pre-1", [(0, PREA), (1, pre(0))], 16, act(1), 6, 17)
    bound("bench-rfcab", [(0, REFAB)], 103, act(0), 3, 104)
    bound("bench-wra", [(0, act(0)), (15, wr(0, 1))], 52, act(0), 18, 53)
    good("bench-idle", [], 28079)
    bad("bench-idle-late", [], 28080, 11, 19, 28080, place=0)
    eight = [(104 * k, REFAB) for k in range(8)]
    good("bench-eight", eight, 28808)
    bad("bench-eight-late", eight, 28809, 11, 20, 28809, place=8)
    bad("bench-mr2-19", [(0, mrw(2, 0x19))], 20, 9)
    good("bench-mr2-1c", [(0, mrw(2, 0x1C))], 20)
    good("bench-example", [(0, act(0)), (15, rd(0))], 20)
    # must not pass: I rounded up; a ninth early refresh banked
    bad("bench-interval", [], 9 * 3641, 11, 19, 9 * 3641, place=0, period=1071, mr2=0x1C)
    nine = [(104 * k, REFAB) for k in range(9)]
    good("bench-nine", nine, 832 + 28080)
    bad("bench-nine-late", nine, 832 + 28081, 11, 20, 832 + 28081, place=9)


def rule_cases():
    bound("rule1-mrr", [(0, mrw(1, 3))], 9, mrr(4), 1, 10)
    bound("rule1-pre", [(0, mrw(17, 0xFF))], 9, pre(3), 1, 10)
    good("rule1-nop", [(0, mrw(1, 3)), (1, NOP)], 20)
    bound("rule2", [(0, mrr(0))], 3, mrr(255), 2, 4)
    bound("rule2-act", [(0, mrr(0))], 3, act(7), 2, 4)
    bound("rule3", [(0, REFAB)], 103, PREA, 3, 104)
    bound("rule4-refpb", [(0, REFPB)], 47, REFPB, 4, 48)
    bound("rule4-refab", [(0, REFPB)], 47, REFAB, 4, 48)
    bound("rule4-mrw", [(0, REFPB)], 47, mrw(1, 3), 4, 48)
    bound("rule4-prea", [(0, REFPB)], 47, PREA, 4, 48)
    bound("rule4-act", [(0, REFPB)], 47, act(0), 4, 48)
    bound("rule4-pre", [(0, REFPB)], 47, pre(0), 4, 48)
    good("rule4-other", [(0, REFPB), (8, act(1)), (20, pre(2)), (23, rd(1)), (27, mrr(0))], 60)
    bound("rule5", [(0, pre(0))], 14, act(0), 5, 15)
    bound("rule5-refab", [(0, pre(3))], 14, REFAB, 5, 15)
    bound("rule6", [(0, PREA)], 16, act(5), 6, 17)
    bound("rule6-mrw", [(0, pre(1)), (1, PREA)], 17, mrw(2, 0x5A), 6, 18)
    bound("rule7-wr", [(0, act(6))], 14, wr(6), 7, 15)
    bound("rule8", [(0, act(0))], 33, pre(0), 8, 34)
    bound("rule8-prea", [(0, act(0)), (8, act(1))], 41, PREA, 8, 42)
    bound("rule8-closed", [(0, act(0)), (15, rd(0, 1))], 33, pre(0), 8, 34)
    bound("rule9-refab", [(0, act(0)), (15, rd(0, 1))], 47, REFAB, 9, 48)
    bound("rule10", [(0, act(0))], 7, act(1), 10, 8)
    bound("rule10-refpb-act", [(0, REFPB)], 7, act(1), 10, 8)
    bound("rule10-act-refpb", [(0, act(1))], 7, REFPB, 10, 8)
    bound("rule11-mixed", [(8 * b, act(b + 1)) for b in range(4)], 49, REFPB, 11, 50, tFAW=(62500, 8))
    bound("rule12-rd", [(0, act(0)), (15, rd(0))], 18, rd(0), 12, 19)
    bound("rule12-wr", [(0, act(0)), (15, wr(0))], 18, wr(0), 12, 19)
    bound("rule12-mrr", [(0, act(0)), (15, rd(0))], 18, mrr(1), 12, 19)
    bound("rule13-mrr", [(0, act(0)), (15, mrr(0))], 30, wr(0), 13, 31)
    bound("rule14-mrr", [(0, act(0)), (15, wr(0))], 31, mrr(0), 14, 32)
    bound("rule15", [(0, act(0)), (30, rd(0))], 35, pre(0), 15, 36)
    bound("rule15-prea", [(0, act(0)), (30, rd(0))], 35, PREA, 15, 36)
    bound("rule16", [(0, act(0)), (30, rd(0, 1))], 50, act(0), 16, 51)
    bound("rule16-mrw", [(0, act(0)), (30, rd(0, 1))], 50, mrw(1, 3), 16, 51)
    bound("rule17", [(0, act(0)), (15, wr(0))], 37, pre(0), 17, 38)
    bound("rule17-closed", [(0, act(0)), (15, wr(0, 1))], 37, pre(0), 17, 38)
    bound("rule18-refab", [(0, act(0)), (15, wr(0, 1))], 52, REFAB, 18, 53)
    # 15 and 17 count with or without AP, 16 and 18 with AP only
    good("rule16-no-ap", [(0, act(0)), (15, rd(0)), (34, pre(0)), (49, act(0))], 60)
    # 12: the greatest over all banks of the one rule; the lowest rule broken is named
    bad("lowest-rule", [(0, act(0)), (15, wr(0)), (16, pre(0))], 60, 10, 8, 34)
    bad("greatest-bank", [(0, act(0)), (8, act(1)), (16, act(2)), (20, PREA)], 60, 10, 8, 50)


def mr2_cases():
    far = dict(tWTR=(100000, 4), tDQSCK=(100000, 4))
    b = mrw(2, 0x5A)
    bound("mr2-wl-of-then", [(0, act(0)), (15, wr(0, 1)), (60, b)], 105, mrr(0), 14, 106, **far)
    bound("mr2-rl-of-then", [(0, act(0)), (15, rd(0, 1)), (60, mrw(2, 0x1C)), (75, act(1))], 105, wr(1), 13, 106, **far)
    bound("mr2-wl-of-the-read", [(0, act(0)), (15, rd(0, 1)), (60, b), (75, act(1))], 105, wr(1), 13, 106, **far)
    bound("mr2-new", [(0, b), (10, act(0)), (25, wr(0))], 44, rd(0), 14, 45)
    # rule 13: the one latest of RD and MRR
    bound("newer-mrr", [(0, act(0)), (15, rd(0)), (20, mrr(0))], 35, wr(0), 13, 36)
    bound("newer-rd", [(0, act(0)), (15, mrr(0)), (20, rd(0))], 35, wr(0), 13, 36)
    bound("newer-mrr-shorter", [(0, act(0)), (15, rd(0, 1)), (60, b), (70, mrr(0)), (75, act(1))], 157, wr(1), 13, 158, **far)


def refusal_cases():
    case("1-empty", b"", "refused 1 0 0 0")
    case("1-no-end", card(), "refused 1 0 135 0")
    case("1-cut-end", card() + end(5)[:6], "refused 1 0 135 0")
    case("1-one-length-byte", card() + bytes([32, 9]), "refused 1 0 135 0")
    case("1-cut-first", field(1, num(1250, 4))[:5], "refused 1 0 0 0")
    case("3-wrong", card() + bytes([32, 0, 8]), "refused 3 0 135 0")
    case("3-before-cut", card() + bytes([33, 0, 3, 1]), "refused 3 0 135 0")
    case("3-high-byte", card() + bytes([33, 1, 4]) + num(0, 4), "refused 3 0 135 0")
    for name, lo, hi, place in (("period", 937, 100001, 0), ("R", 0, 16385, 11), ("tREFI", 1249, 20000001, 16)):
        case("4-%s-low" % name, card(**{name: lo}), "refused 4 0 %d 0" % place)
        case("4-%s-high" % name, card(**{name: hi}), "refused 4 0 %d 0" % place)
    good("4-lowest", [], 100, period=938, R=1, tREFI=938 * 200, mr2=0x0E)
    good("4-highest", [], 100, period=100000, R=16384, tREFI=20000000, mr2=0x01)
    bad_mr2 = {"op7": 0x9A, "op5": 0x3A, "no-code": 0x12, "too-fast": 0x09}
    for name, v in bad_mr2.items():
        case("4-mr2-" + name, card(mr2=v), "refused 4 0 7 0")
    good("4-mr2-op4-op6", [], 10, mr2=0x4A)
    for k, name in enumerate(paper.TIMINGS):
        case("4-" + name, card(**{name: (1000001, 0)}), "refused 4 0 %d 0" % (23 + 8 * k))
    good("4-timings", [(0, act(0)), (1000, rd(0))], 1100, **{name: (1000000, 255) for name in paper.TIMINGS})
    bad("5-same", [(7, NOP), (7, NOP)], 20, 5)
    bad("5-below", [(7, NOP), (6, NOP)], 20, 5)
    good("5-rises", [(7, NOP), (8, NOP)], 20)
    good("5-first-at-0", [(0, NOP)], 0)
    bad("5-end", [(7, NOP)], 6, 5, place=1)
    good("5-end-same", [(7, NOP)], 7)
    for i, pins in (("cke", NOP & ~CKE), ("22", NOP | 1 << 22), ("23", NOP | 1 << 23)):
        bad("6-" + i, [(0, pins)], 20, 6)
    bad("7-reserved", [(0, RESERVED)], 20, 7)
    for ma in (0, 4, 10, 18, 63, 66, 129):
        bad("7-ma-%d" % ma, [(0, mrw(ma, 3))], 20, 7)
    good("7-mas", [(10 * k, mrw(ma, 3)) for k, ma in enumerate((1, 3, 11, 16, 17))], 60)
    bad("8-act-open", [(0, act(0)), (100, act(0))], 200, 8)
    bad("8-rd-closed", [(0, rd(0))], 20, 8)
    bad("8-wr-other", [(0, act(0)), (15, wr(1))], 40, 8)
    bad("8-refab-open", [(0, act(3)), (100, REFAB)], 200, 8)
    bad("8-mrw-open", [(0, act(3)), (100, mrw(1, 3))], 200, 8)
    bad("8-refpb-open", [(0, act(0)), (100, REFPB)], 200, 8)
    good("8-refpb-other-open", [(0, act(1)), (100, REFPB)], 200)
    bad("8-rda-closes", [(0, act(0)), (15, rd(0, 1)), (40, rd(0))], 200, 8)
    good("8-pre-closed", [(0, pre(0)), (1, PREA)], 20)
    bad("9-mr1", [(0, mrw(1, 4))], 20, 9)
    good("9-mr1-high-bits", [(0, mrw(1, 0xFB))], 20)
    bad("9-mr2-op7", [(0, mrw(2, 0x9A))], 20, 9)
    case("12-byte", trace([(0, NOP)], 5) + b"\0", "refused 12 0 152 0")


def order_cases():
    e = 28080
    bad("order-5-6", [(7, NOP), (7, 0)], 20, 5)
    bad("order-11-6", [(e + 1, 0)], e + 2, 11, 19, e)
    bad("order-6-at-failing", [(e, 0)], e + 2, 6)
    bad("order-7-at-failing", [(e, RESERVED)], e + 2, 7)
    bad("order-8-at-failing", [(e, rd(0))], e + 2, 8)
    bad("order-9-at-failing", [(e, mrw(2, 0x19))], e + 2, 9)
    bad("order-10-at-failing", [(e - 1, pre(0)), (e, act(0))], e + 2, 10, 5, e + 14)
    bad("order-11-at-failing", [(e, NOP)], e + 2, 11, 19, e)
    good("order-refresh-saves", [(e, REFAB)], e + 2)
    bad("order-8-9", [(0, act(0)), (5, mrw(2, 0x19))], 20, 8)
    bad("order-7-8", [(0, act(0)), (5, mrw(4, 0x19))], 20, 7)
    bad("order-9-10", [(0, mrw(1, 3)), (5, mrw(2, 0x19))], 20, 9)
    bad("order-5-11-at-end", [(e - 5, NOP)], e - 6, 5, place=1)
    case("order-11-12", trace([], e) + b"x", "refused 11 19 135 %d" % e)
    case("order-12-good-end", trace([], e - 1) + b"x", "refused 12 0 142 0")
    # 19 and 20 at one cycle: 19; the gap alone one cycle later
    bad("order-19-20", [(1, REFAB)], 9 * 3120 + 5, 11, 20, 9 * 3120 + 2, place=1)


def account_cases():
    # a round of eight REFpb counts once, at counter 7; REFab in mid-round throws it away
    eight = [(48 * k, REFPB) for k in range(8)]
    good("round", eight, 336 + 28080)
    bad("round-late", eight, 336 + 28081, 11, 20, 336 + 28081, place=8)
    seven = eight[:7]
    good("round-cut-short", seven, 28079)
    bad("round-cut-short-late", seven, 28080, 11, 19, 28080, place=7)
    good("round-thrown-away", [(48 * k, REFPB) for k in range(7)] + [(400, REFAB)] + [(504 + 48 * k, REFPB) for k in range(7)], 1000)
    good("postponed-eight", [(28079, REFAB)], 31198)
    bad("postponed-nine", [(28079, REFAB)], 31200, 11, 19, 31200, place=1)
    good("due-at-the-stamp", [(3120, REFAB)], 3120)
    good("due-not-twice", [(3120, NOP)], 3120)
    good("credit", [(104 * k, REFAB) for k in range(12)], 2000)
    good("credit-and-due", [(104 * k, REFAB) for k in range(29)] + [(3120, REFAB)], 3120)
    bad("gap", [(100, REFAB), (204, REFAB)], 204 + 28081, 11, 20, 204 + 28081, place=2)


def form_cases():
    for k in (0, 1, 2, 3, 7, 8, 15):
        good("nop-high-%d" % k, [(0, NOP | k), (1, NOP | 0xFFFFF & ~k)], 5)
    for ca in (7, 15, 0x3FF, 0xFFFF7):
        good("nop-low-%x" % ca, [(0, CKE | ca)], 5)
    good("ignored-bits", [(0, REFAB | 0xFFFF0), (104, PREA | 0xFFF80 | 0x60), (121, act(2, 0x7FFF)), (136, rd(2) | 0x18), (140, mrr(7) | 0xFF000)], 200)
    good("all-kinds", [(0, NOP), (1, mrw(3, 0)), (11, mrr(8)), (15, REFPB), (70, act(4, 0x1234)), (85, rd(4)), (101, wr(4)), (118, rd(4, 1)), (140, act(5)),
                       (155, wr(5, 1)), (200, pre(5)), (210, PREA), (230, REFAB)], 400)


def move_cases():
    """Falls, rises and what lies between them; 16, 8, 6 and 7."""
    s = SLEEPS
    low = (0, 0x1FFFFF, 0x0FFFFF, RESERVED & ~CKE, act(3) & ~CKE, SELF, DEEP)
    for name, fall in (("power-down", DOWN), ("self-refresh", SELF), ("self-refresh-pb", SELF_PB)):
        good("sleep-" + name, [(10, fall)] + [(11 + k, pins) for k, pins in enumerate(low)] + [(40, WAKE), (41, NOP), (160, act(0))], 200, **s)
        good("sleep-end-" + name, [(10, fall)], 10, **s)
        bad("16-rise-" + name, [(10, fall), (40, NOP_LOW)], 60, 16, **s)
        bad("16-rise-refab-" + name, [(10, fall), (40, REFAB)], 60, 16, **s)
        bad("16-rise-reserved-" + name, [(10, fall), (40, RESERVED)], 60, 16, **s)
        bad("16-rise-early-" + name, [(10, fall), (11, act(0))], 60, 16, **s)
        bad("5-asleep-" + name, [(10, fall), (10, DOWN)], 60, 5, **s)
        bad("5-end-asleep-" + name, [(10, fall), (12, DOWN)], 11, 5, place=2, **s)
    good("sleep-bits", [(10, DOWN | 0xFFFFF), (20, WAKE | 0xFFFFF), (40, SELF | 0xFFFF8), (60, WAKE | 3), (200, DEEP_H | 0xFFFF0)], 300, **s)
    for name, pins in (("mrw", 0), ("mrw-unlisted", 4 << 4), ("mrr", 8), ("act", 2), ("act-h", 6), ("wr", 1), ("rd", 5), ("nop", 7), ("nop-h", 15)):
        bad("16-fall-" + name, [(10, pins)], 60, 16, **s)
    bad("16-fall-early", [(10, DOWN), (20, WAKE), (21, act(0) & ~CKE)], 60, 16, **s)
    bad("16-fall-open", [(0, act(0)), (60, 2)], 70, 16, **s)
    for name, fall in (("deep", DEEP), ("deep-h", DEEP_H)):
        good("sleep-" + name, [(10, fall)], 2**32 - 1, **s)
        for after, pins in (("low", DOWN), ("wake", WAKE), ("nop", NOP_LOW), ("refab", REFAB), ("reserved", RESERVED)):
            bad("16-%s-%s" % (name, after), [(10, fall), (50000, pins)], 60000, 16, **s)
        bad("6-22-" + name, [(10, fall), (20, DOWN | 1 << 22)], 60, 6, **s)
        bad("5-" + name, [(10, fall), (10, DOWN)], 60, 5, **s)
        bad("8-fall-" + name, [(0, act(5)), (60, fall)], 100, 8, **s)
    bad("8-fall-self-refresh", [(0, act(5)), (60, SELF)], 100, 8, **s)
    bad("8-fall-self-refresh-pb", [(0, act(5)), (1, SELF_PB)], 100, 8, **s)
    good("power-down-open", [(0, act(5)), (15, rd(5)), (16, DOWN), (22, WAKE), (30, rd(5))], 100, **s)
    for i in (22, 23):
        for name, before, pins in (("awake", [], NOP), ("fall", [], DOWN), ("asleep", [(10, DOWN)], 7), ("rise", [(10, SELF)], WAKE), ("barred", [], 0)):
            bad("6-%d-%s" % (i, name), before + [(40, pins | 1 << i)], 60, 6, **s)
    bad("6-cke-without-tags", [(0, NOP), (10, DOWN)], 60, 6)
    bad("7-with-tags", [(0, RESERVED)], 60, 7, **s)
    good("all-kinds-asleep", [(0, mrw(1, 3)), (1, DOWN), (7, WAKE), (15, REFAB), (16, DOWN), (22, WAKE), (119, PREA), (120, DOWN), (126, WAKE), (136, SELF), (148, WAKE),
                              (260, REFPB), (308, DEEP)], 400, **s)


def sleep_rule_cases():
    """Rules 21 to 24, and the delays of a fall to self-refresh or deep power-down."""
    s, slept, woken = SLEEPS, [(10, DOWN), (20, WAKE)], [(10, SELF), (30, WAKE)]
    bound("rule21-power-down", [(10, DOWN)], 15, WAKE, 21, 16, **s)
    bound("rule21-asleep", [(10, DOWN), (12, 5)], 15, WAKE, 21, 16, **s)
    bound("rule21-self-refresh", [(10, SELF)], 29, WAKE, 21, 30, **sleeper(tCKE=(25000, 3)))
    bad("rule21-before-23", [(10, SELF), (15, WAKE)], 60, 10, 21, 16, **s)
    bound("rule21-again", slept, 25, DOWN, 21, 26, **s)
    bound("rule21-after-self-refresh", woken, 35, DOWN, 21, 36, **s)
    bad("rule21-before-22", slept + [(25, SELF)], 60, 10, 21, 26, **s)
    bad("rule3-before-21", [(0, REFAB)] + slept + [(25, SELF)], 200, 10, 3, 104, **s)
    good("rule21-first", [(0, DOWN)], 0, **s)
    for name, pins in (("act", act(0)), ("mrr", mrr(0)), ("prea", PREA), ("refpb", REFPB), ("mrw", mrw(1, 3)), ("self-refresh", SELF), ("deep", DEEP)):
        bound("rule22-" + name, slept, 27, pins, 22, 28, **s)
        bound("rule24-" + name, woken, 141, pins, 24, 142, **s)
    good("rule22-nop", slept + [(21, NOP), (22, NOP_LOW), (26, DOWN)], 60, **s)
    good("rule24-nop", woken + [(31, NOP), (32, NOP_LOW), (36, DOWN)], 60, **s)
    bound("rule22-open", [(0, act(0))] + slept, 27, rd(0), 22, 28, **s)
    bound("rule23", [(10, SELF)], 21, WAKE, 23, 22, **s)
    bound("rule23-pb", [(10, SELF_PB), (20, DEEP)], 21, WAKE, 23, 22, **s)
    both = woken + [(36, DOWN), (42, WAKE)]
    bad("rule22-before-24", both + [(49, act(0))], 200, 10, 22, 50, **s)
    bound("rule24-from-its-own-exit", both, 141, act(0), 24, 142, **s)
    bound("rule22-from-its-own-exit", [(10, DOWN), (20, WAKE), (28, SELF), (60, WAKE)], 171, act(0), 24, 172, **s)
    bound("rule22-latest", slept + [(26, DOWN), (32, WAKE)], 39, act(0), 22, 40, **s)
    falls = [SELF, DEEP, SELF_PB, DEEP_H]
    for k, (rule, before, cycle) in enumerate((
            (1, [(0, mrw(1, 3))], 10), (2, [(0, mrr(0))], 4), (3, [(0, REFAB)], 104), (4, [(0, REFPB)], 48), (5, [(0, pre(3))], 15), (6, [(0, PREA)], 17),
            (9, [(0, act(0)), (15, rd(0, 1))], 48), (16, [(0, act(6)), (30, rd(6, 1))], 51), (18, [(0, act(1)), (15, wr(1, 1))], 53))):
        for fall in (falls[k % 4], falls[(k + 1) % 4]):
            bound("fall-rule%d-%d" % (rule, fall), before, cycle - 1, fall, rule, cycle, **s)
        good("power-down-rule%d" % rule, before + [(before[-1][0] + 1, DOWN)], 100, **s)
    # as an earlier entry it is nothing: no rule 3, 4 or 10 counts from it
    free = sleeper(tXSR=(0, 0), tCKESR=(0, 0), tCKE=(0, 1))
    good("fall-is-no-refresh", [(10, SELF), (11, WAKE), (12, act(0))], 60, **free)
    good("fall-is-no-refresh-pb", [(10, SELF_PB), (11, WAKE), (12, REFPB), (20, act(1))], 60, **free)
    good("sleep-no-delays", [(0, DOWN), (1, WAKE), (2, SELF), (3, WAKE), (4, act(0)), (5, DOWN), (6, WAKE), (19, rd(0))], 30, **sleeper(**{k: (0, 0) for k in SLEEPS}))
    good("sleep-most", [(0, DOWN), (800, WAKE), (1600, SELF), (2400, WAKE), (3200, act(0))], 3210, **{k: (1000000, 255) for k in SLEEPS})
    bound("sleep-floors", [(0, DOWN)], 254, WAKE, 21, 255, **{k: (0, 255) for k in SLEEPS})
    bound("sleep-rounds-up", [(0, DOWN)], 6, WAKE, 21, 7, **sleeper(tCKE=(7501, 3)))


def sleep_account_cases():
    """Which cycles count, and the round counter."""
    s, i = SLEEPS, 3120
    good("due-at-the-fall", [(i, SELF)], 4000, **s)
    good("due-after-the-fall", [(i - 1, SELF)], 2**32 - 1, **s)
    good("due-at-the-exit", [(i - 1, SELF), (4000, WAKE)], 4000, **s)
    good("due-after-the-exit", [(i - 1, SELF), (4000, WAKE)], 4001, **s)
    good("due-at-the-deep-fall", [(i, DEEP)], 50000, **s)
    good("due-in-power-down", [(10, DOWN)], 2 * i, **s)
    slept = [(100, SELF), (5000, 0), (100100, WAKE)]
    good("self-refresh-uncounted", slept, 100000 + 9 * i - 1, **s)
    bad("self-refresh-uncounted-late", slept, 100000 + 9 * i, 11, 19, 100000 + 9 * i, place=3, **s)
    bad("self-refresh-uncounted-entry", slept + [(200000, 0)], 200001, 11, 19, 100000 + 9 * i, **s)
    good("self-refresh-twice", slept + [(100300, SELF_PB), (200300, WAKE)], 200000 + 9 * i - 1, **s)
    bad("self-refresh-twice-late", slept + [(100300, SELF_PB), (200300, WAKE)], 200000 + 9 * i, 11, 19, 200000 + 9 * i, place=5, **s)
    eight = [(104 * k, REFAB) for k in range(8)] + [(832, SELF), (100832, WAKE)]
    good("gap-uncounted", eight, 128808, **s)
    bad("gap-uncounted-late", eight, 128809, 11, 20, 128809, place=10, **s)
    good("gap-from-a-later-refresh", eight + [(100944, REFAB)], 100944 + 9 * i, **s)
    bad("gap-from-a-later-refresh-late", eight + [(100944, REFAB)], 100944 + 9 * i + 1, 11, 20, 100944 + 9 * i + 1, place=11, **s)
    good("power-down-counted", [(10, DOWN)], 9 * i - 1, **s)
    bad("power-down-counted-late", [(10, DOWN)], 9 * i, 11, 19, 9 * i, place=1, **s)
    for name, pins in (("asleep", 0), ("rise", WAKE)):
        good("power-down-%s-before-failing" % name, [(10, DOWN), (9 * i - 1, pins)], 9 * i - 1, **s)
        bad("power-down-%s-at-failing" % name, [(10, DOWN), (9 * i, pins)], 9 * i + 5, 11, 19, 9 * i, **s)
        bad("power-down-%s-after-failing" % name, [(10, DOWN), (9 * i + 1, pins)], 9 * i + 5, 11, 19, 9 * i, **s)
    bad("power-down-gap", [(104 * k, REFAB) for k in range(8)] + [(729, DOWN)], 28809, 11, 20, 28809, place=9, **s)
    for name, fall in (("self-refresh", SELF), ("deep", DEEP)):
        good(name + "-before-failing", [(9 * i - 1, fall)], 10 * i, **s)
        bad(name + "-at-failing", [(9 * i, fall)], 10 * i, 11, 19, 9 * i, **s)
        bad(name + "-after-failing", [(9 * i + 1, fall)], 10 * i, 11, 19, 9 * i, **s)
    good("failing-put-off", [(9 * i - 1, SELF), (40000, 0), (50000, WAKE)], 50000, **s)
    bad("failing-put-off-late", [(9 * i - 1, SELF), (40000, 0), (50000, WAKE)], 50001, 11, 19, 50001, place=3, **s)
    good("failing-put-off-refreshed", [(9 * i - 1, SELF), (50000, WAKE), (50001, REFAB)], 50002, **sleeper(tXSR=(0, 0)))
    bad("order-16-at-failing", [(10, DOWN), (9 * i, NOP_LOW)], 9 * i, 16, **s)
    bad("order-11-16", [(10, DOWN), (9 * i + 1, NOP_LOW)], 9 * i + 1, 11, 19, 9 * i, **s)
    bad("order-6-16", [(10, DEEP), (20, NOP | 1 << 23)], 30, 6, **s)
    bad("order-6-at-failing-asleep", [(10, DOWN), (9 * i, 1 << 22)], 9 * i, 6, **s)
    bad("order-8-at-failing-fall", [(9 * i - 100, act(0)), (9 * i, SELF)], 9 * i, 8, **s)
    bad("order-21-at-failing", [(9 * i - 1, DOWN), (9 * i, WAKE)], 9 * i, 10, 21, 9 * i + 5, **s)
    bad("order-8-10-fall", [(0, act(0)), (5, SELF)], 60, 8, **s)
    bad("order-5-16", [(10, DEEP), (10, NOP)], 30, 5, **s)
    three = [(48 * k, REFPB) for k in range(3)]
    good("round-over-self-refresh", three + [(144, SELF), (160, WAKE), (272, REFPB)], 400, **s)
    good("round-over-power-down", three + [(144, DOWN), (160, WAKE), (272, REFPB)], 400, **s)
    seven = [(48 * k, REFPB) for k in range(7)]
    good("round-begun-anew", seven + [(336, SELF), (350, WAKE)] + [(462 + 48 * k, REFPB) for k in range(7)], 9 * i + 13, **s)
    bad("round-begun-anew-late", seven + [(336, SELF), (350, WAKE)] + [(462 + 48 * k, REFPB) for k in range(7)], 9 * i + 14, 11, 19, 9 * i + 14, place=16, **s)
    good("round-begun-and-ended", seven + [(336, SELF), (350, WAKE)] + [(462 + 48 * k, REFPB) for k in range(8)], 9 * i + 14, **s)
    good("round-not-stepped", three + [(144, SELF_PB)], 400, **s)
    good("far-asleep", [(0, act(0)), (40, PREA), (60, SELF), (2**32 - 200, WAKE), (2**32 - 88, REFAB)], 2**32 - 1, **s)
    bad("far-awake", [(60, SELF), (2**32 - 2, WAKE), (2**32 - 1, act(0))], 2**32 - 1, 10, 24, 2**32 + 110, **s)
    bad("far-rise", [(2**32 - 20, SELF), (2**32 - 10, WAKE)], 2**32 - 1, 11, 19, 9 * i, place=0, **s)


def sleep_tag_cases():
    fields = card_fields(**SLEEPS)
    sleeps, bench = fields[18:], b"".join(fields[:18])
    more = trace([(10, DOWN)], 60, b"")
    for k, tag in enumerate((19, 20, 21, 22)):
        case("1-cut-%d" % tag, bench + b"".join(sleeps[:k]) + sleeps[k][:7], "refused 1 0 %d 0" % (135 + 8 * k))
        case("1-ends-before-%d" % tag, bench + b"".join(sleeps[:k]), "refused 1 0 %d 0" % (135 + 8 * k))
        case("3-%d" % tag, bench + b"".join(sleeps[:k]) + bytes([tag, 0, 4]) + num(0, 4), "refused 3 0 %d 0" % (135 + 8 * k))
        case("4-%d" % tag, card(**sleeper(**{paper.SLEEPS[k]: (1000001, 0)})) + more, "refused 4 0 %d 0" % (135 + 8 * k))
    good("tags-and-no-sleep", [(0, act(0)), (15, rd(0))], 20, **SLEEPS)


def parts_pins_cases():
    """Which part an entry is for; 6 and 24, and what stands before and after them."""
    g = dict(gap=2)
    lines = ["0 NOP - -", "1 NOP - 0", "2 NOP - 1", "3 NOP - -", "4 ACT 3 1", "5 ACT 3 0", "19 RD 3 1", "25 RDA 3 0", "30 MRR - 1", "60 PRE 3 1", "61 PREA - 0",
             "100 REFPB 0 1", "101 MRW - 0", "150 REFPB 1 1", "151 REFAB - 0", "accepted 11 1 -1 0"]
    entries = [(0, NEITHER), (1, to(0, NOP_LOW)), (2, to(1, NOP_LOW)), (3, NEITHER | 0xFFFFF), (4, to(1, act(3))), (5, to(0, act(3))), (19, to(1, rd(3))), (25, to(0, rd(3, 1))),
               (30, to(1, mrr(5))), (60, to(1, pre(3))), (61, to(0, PREA)), (100, to(1, REFPB)), (101, to(0, mrw(1, 3))), (150, to(1, REFPB)), (151, to(0, REFAB))]
    assert paper.judge(trace(entries, 200, card(gap=0))) == lines
    good("parts-lines", entries, 200, lines[-1], gap=0)
    good("parts-none", [], 0, "accepted 0 0 0 0", **g)
    for i, bit in (("cke", CKE), ("23", 1 << 23)):
        for name, pins in (("first", to(0, act(0))), ("second", to(1, act(0))), ("neither", NEITHER), ("both", CKE)):
            bad("6-%s-%s" % (i, name), [(0, pins ^ bit)], 20, 6, **g)
    for name, pins in (("nop", NOP_LOW), ("act", act(0)), ("reserved", RESERVED), ("closed", rd(0)), ("refab", REFAB)):
        bad("24-" + name, [(0, pins)], 20, 24, **g)
    bad("24-5", [(7, NEITHER), (7, CKE)], 20, 5, **g)
    bad("24-11", [(28081, CKE)], 28090, 11, 19, 28080, **g)
    bad("24-at-failing", [(28080, CKE)], 28090, 24, **g)
    bad("5-parts", [(7, to(0, NOP_LOW)), (7, to(1, NOP_LOW))], 20, 5, **g)
    bad("5-parts-neither", [(7, to(1, act(0))), (7, NEITHER)], 20, 5, **g)
    bad("5-parts-end", [(3, to(0, act(0))), (7, to(1, act(0)))], 6, 5, place=2, **g)
    for p in (0, 1):
        bad("7-part-%d" % p, [(0, to(p, RESERVED))], 20, 7, **g)
        bad("7-ma-part-%d" % p, [(0, to(p, mrw(4, 3)))], 20, 7, **g)
        bad("9-part-%d" % p, [(0, to(p, mrw(2, 0x19)))], 20, 9, **g)
    bad("6-second-untagged", [(0, to(0, NOP_LOW))], 20, 6)
    good("neither-is-free", [(0, to(0, REFAB)), (1, NEITHER | act(3)), (2, NEITHER | RESERVED)], 20, "accepted 1 1 -1 0", **g)


def parts_own_cases():
    """What one part does is nothing to the other."""
    g = dict(gap=2)
    for p, q in ((0, 1), (1, 0)):
        n = "-%d" % p
        bad("8-open-in-the-other" + n, [(0, to(p, act(0))), (15, to(q, rd(0)))], 40, 8, **g)
        good("act-in-both" + n, [(0, to(p, act(0))), (1, to(q, act(0)))], 40, "accepted 2 0 0 0", **g)
        good("refab-open-in-the-other" + n, [(0, to(p, act(0))), (1, to(q, REFAB)), (105, to(q, mrw(1, 3)))], 200, **g)
        bad("8-refab-open" + n, [(0, to(p, act(0))), (100, to(p, REFAB))], 200, 8, **g)
        shut = [(0, to(p, act(0))), (1, to(q, act(0))), (34, to(p, PREA))]
        good("prea-of-one" + n, shut + [(40, to(q, rd(0)))], 60, "accepted 4 0 0 0", **g)
        bad("8-prea-of-one" + n, shut + [(40, to(p, rd(0)))], 60, 8, **g)
        good("prea-rule6-of-one" + n, [(0, to(p, PREA)), (1, to(q, act(0)))], 60, **g)
        bound("parts-rule6" + n, [(0, to(p, PREA)), (1, to(q, pre(0)))], 16, to(p, act(0)), 6, 17, **g)
        for what, before in (("mrw", mrw(1, 3)), ("mrr", mrr(0)), ("refab", REFAB), ("refpb", REFPB)):
            good("%s-then-the-other%s" % (what, n), [(0, to(p, before)), (1, to(q, REFPB)), (49, to(q, act(0)))], 60, **g)
        bound("parts-rule3" + n, [(0, to(p, REFAB)), (1, to(q, REFPB))], 103, to(p, act(0)), 3, 104, **g)
        good("parts-no-rule10" + n, [(0, to(p, act(0))), (1, to(q, act(1))), (8, to(p, act(1))), (9, to(q, act(2)))], 60, **g)
        four = [(8 * b, to(p, act(b))) for b in range(4)] + [(25, to(q, act(0))), (33, to(q, act(1)))]
        bound("parts-rule11" + n, four, 39, to(p, act(4)), 11, 40, **g)
        bound("parts-rule12" + n, [(0, to(p, act(0))), (15, to(p, rd(0)))], 18, to(p, rd(0)), 12, 19, **g)
        bound("parts-rule13" + n, [(0, to(p, act(0))), (15, to(p, rd(0)))], 30, to(p, wr(0)), 13, 31, **g)
        bound("parts-rule14" + n, [(0, to(p, act(0))), (15, to(p, wr(0)))], 31, to(p, rd(0)), 14, 32, **g)
        # each its own round: the other's REFab and REFpb leave it
        three = [(48 * k, to(p, REFPB)) for k in range(3)] + [(97, to(q, REFAB)), (201, to(q, REFPB))]
        good("parts-round" + n, three + [(202, to(p, act(4)))], 300, **g)
        bad("8-parts-round" + n, [(0, to(p, act(3)))] + [(48 * k + 8, to(p, REFPB)) for k in range(3)] + [(153, to(q, REFAB)), (160, to(p, REFPB))], 300, 8, **g)


def parts_bus_cases():
    """Rules 25 to 27, from either part: on the bench card 12 to 14 are 4, 16 and 17."""
    rows = (("rd-rd", rd(0), rd(0), 25, 4), ("rd-mrr", rd(0), mrr(0), 25, 4), ("wr-wr", wr(0), wr(0), 25, 4), ("rda-rda", rd(0, 1), rd(0, 1), 25, 4),
            ("rd-wr", rd(0), wr(0), 26, 16), ("mrr-wr", mrr(0), wr(0), 26, 16), ("wr-rd", wr(0), rd(0), 27, 17), ("wra-mrr", wr(0, 1), mrr(0), 27, 17))
    for p, q in ((0, 1), (1, 0)):
        n, opened = "-%d" % p, [(0, to(p, act(0))), (1, to(q, act(0)))]
        for name, first, second, rule, delay in rows:
            bound("bus-%s%s" % (name, n), opened + [(20, to(p, first))], 20 + delay + 1, to(q, second), rule, 20 + delay + 2, gap=2)
        good("bus-mrr-mrr" + n, [(0, to(p, mrr(0))), (1, to(q, mrr(0)))], 20, "accepted 2 0 0 0", gap=2)
        good("bus-mrr-rd" + n, opened + [(20, to(p, mrr(0))), (21, to(q, rd(0)))], 40, "accepted 4 0 0 0", gap=2)
        # from the other's latest, whatever the own part did since
        bound("bus-own-since" + n, opened + [(20, to(p, rd(0))), (26, to(q, rd(0))), (30, to(q, rd(0)))], 35, to(p, rd(0)), 25, 36, gap=2)
        bound("bus-latest" + n, opened + [(20, to(p, rd(0))), (24, to(p, rd(0)))], 29, to(q, rd(0)), 25, 30, gap=2)
        # by the lowest rule that is broken
        bad("bus-7-first" + n, [(0, to(p, act(0))), (10, to(q, act(0))), (20, to(p, rd(0))), (21, to(q, rd(0)))], 60, 10, 7, 25, gap=2)
        bad("bus-25-first" + n, opened + [(20, to(p, wr(0))), (37, to(p, rd(0))), (38, to(q, rd(0)))], 60, 10, 25, 43, gap=2)
        bound("bus-no-gap" + n, opened + [(20, to(p, rd(0)))], 23, to(q, rd(0)), 25, 24, gap=0)
        bound("bus-most-gap" + n, opened + [(20, to(p, wr(0)))], 20 + 17 + 254, to(q, rd(0)), 27, 20 + 17 + 255, gap=255)
        good("bus-nothing-before" + n, [(0, to(p, act(0))), (15, to(p, rd(0))), (19, to(p, rd(0)))], 60, "accepted 3 0 0 0", gap=255)
        good("bus-others-free" + n, opened + [(20, to(p, rd(0))), (21, to(q, act(1))), (36, to(q, pre(0))), (37, to(q, NOP_LOW))], 60, gap=255)
        parts_mr2_cases(p, q, n)


def parts_mr2_cases(p, q, n):
    """RL and WL are those of the part with the earlier entry, as they stood then. MR2 5E hex: RL 16, WL 13, so 13 and 14 are 13 and 24."""
    opened = [(0, to(q, mrw(2, 0x5E))), (10, to(q, act(0))), (11, to(p, act(0)))]
    for name, first, second, rule, slow, plain in (("rd-wr", rd(0), wr(0), 26, 13, 16), ("mrr-wr", mrr(0), wr(0), 26, 13, 16), ("wr-rd", wr(0), rd(0), 27, 24, 17)):
        bound("bus-mr2-%s%s" % (name, n), opened + [(30, to(q, first))], 30 + slow + 1, to(p, second), rule, 30 + slow + 2, gap=2)
        bound("bus-mr2-plain-%s%s" % (name, n), opened + [(30, to(p, first))], 30 + plain + 1, to(q, second), rule, 30 + plain + 2, gap=2)
    then = [(0, to(q, mrw(2, 0x5E))), (10, to(p, act(0))), (30, to(q, mrr(0))), (34, to(q, mrw(2, 0x1A)))]
    bound("bus-mr2-of-then" + n, then, 44, to(p, wr(0)), 26, 45, gap=2)


def parts_account_cases():
    """Both ledgers at every entry and at the end; the earliest cycle, and of one cycle the first part's rule."""
    g, i = dict(gap=2), 3120
    good("parts-idle", [], 9 * i - 1, "accepted 0 0 8 8", **g)
    bad("parts-idle-late", [], 9 * i, 11, 19, 9 * i, place=0, **g)
    for p, q in ((0, 1), (1, 0)):
        n, fed = "-%d" % p, [(20000, to(p, REFAB))]
        good("starved" + n, fed, 9 * i - 1, "accepted 1 1 " + {0: "7 8", 1: "8 7"}[p], **g)
        bad("starved-end" + n, fed, 9 * i, 11, 19, 9 * i, place=1, **g)
        bad("starved-entry" + n, fed + [(30000, to(p, act(0)))], 30001, 11, 19, 9 * i, **g)
        bad("starved-at" + n, fed + [(9 * i, to(p, act(0)))], 9 * i, 11, 19, 9 * i, **g)
        bad("starved-at-neither" + n, fed + [(9 * i, NEITHER)], 9 * i, 11, 19, 9 * i, **g)
        bad("starved-other-refreshed" + n, fed + [(9 * i, to(p, REFAB))], 9 * i, 11, 19, 9 * i, **g)
        good("starved-saved" + n, fed + [(9 * i, to(q, REFAB))], 9 * i, "accepted 2 2 8 8", **g)
        bad("both-at-one" + n, [(9 * i, to(p, REFAB))], 9 * i, 11, 19, 9 * i, **g)
        bad("order-10-at-failing" + n, [(9 * i - 1, to(p, pre(0))), (9 * i, to(p, act(0)))], 9 * i + 2, 10, 5, 9 * i + 14, **g)
        eight = [(48 * k, to(p, REFPB)) for k in range(8)] + [(400, to(q, REFPB))]
        good("parts-rounds" + n, eight, 500, "accepted 9 1 " + {0: "-1 0", 1: "0 -1"}[p], **g)
    # 20 against 19 at cycle 10 I: one part's last of two refreshes just before I, the other's one after it
    for p, q, rule in ((0, 1, 20), (1, 0, 19)):
        n, tied = "-%d" % p, [(3015, to(p, REFAB)), (3119, to(p, REFAB)), (3200, to(q, REFAB))]
        good("tie" + n, tied, 10 * i - 1, "accepted 3 3 " + {0: "7 8", 1: "8 7"}[p], **g)
        bad("tie-end" + n, tied, 10 * i, 11, rule, 10 * i, place=3, **g)
        bad("tie-entry" + n, tied + [(10 * i + 5, NEITHER)], 10 * i + 9, 11, rule, 10 * i, **g)
        bad("tie-at" + n, tied + [(10 * i, to(1, act(0)))], 10 * i + 9, 11, rule, 10 * i, **g)
        bad("tie-saved-20" + n, tied + [(10 * i, to(p, REFAB))], 10 * i + 9, 11, 19, 10 * i, **g)
        bad("tie-saved-19" + n, tied + [(10 * i, to(q, REFAB))], 10 * i + 9, 11, 20, 10 * i, **g)
    # the earliest, though it is the second part's
    bad("second-fails-first", [(20000, to(0, REFAB))], 40000, 11, 19, 9 * i, place=1, **g)
    bad("second-gap-first", [(104 * k, to(1, REFAB)) for k in range(8)] + [(20000, to(0, REFAB))], 40000, 11, 20, 28809, place=9, **g)


def parts_tag_cases():
    bench, asleep, gap, more = card(), card(**SLEEPS), field(25, bytes([2])), trace([(10, NEITHER)], 60, b"")
    for value in (0, 1, 255):
        case("25-%d" % value, bench + field(25, bytes([value])) + more, "accepted 0 0 0 0")
    for k in (1, 2, 3):
        case("1-cut-25-%d" % k, bench + gap[:k], "refused 1 0 135 0")
    case("1-ends-behind-25", bench + gap, "refused 1 0 139 0")
    for name, head in (("none", [0, 0]), ("two", [0, 2, 1, 1]), ("high", [1, 1, 2])):
        case("3-25-" + name, bench + bytes([25] + head) + more, "refused 3 0 135 0")
        case("3-25-asleep-" + name, asleep + bytes([25] + head) + more, "refused 3 0 167 0")
    case("4-25", asleep + gap + more, "refused 4 0 167 0")
    case("4-25-none", asleep + field(25, bytes([0])) + more, "refused 4 0 167 0")
    case("1-cut-25-asleep", asleep + gap[:3], "refused 1 0 167 0")


def heat_interval_cases():
    """Each code's interval, from the last cycle that is good to the first that is not. The first due stays where it was if the interval grows."""
    for name, code, first, i in (("4", 1, 3120, 12480), ("2", 2, 3120, 6240), ("1", 3, 3120, 3120), ("half", 4, 1560, 1560), ("quarter", 5, 780, 780), ("hot", 6, 780, 780)):
        ninth = first + 8 * i
        good("heat-" + name, [(0, mr4(code))], ninth - 1, "accepted 0 0 8")
        bad("heat-%s-late" % name, [(0, mr4(code))], ninth, 11, 19, ninth, place=1)
    # the factor before the rounding: 3,901,249 ps are 3120.9 periods, four times that 12483.9
    ninth = 3120 + 8 * 12483
    good("heat-rounds-once", [(0, mr4(1))], ninth - 1, "accepted 0 0 8", tREFI=3901249)
    bad("heat-rounds-once-late", [(0, mr4(1))], ninth, 11, 19, ninth, place=1, tREFI=3901249)
    # never below one cycle
    for name, code in (("half", 4), ("quarter", 5)):
        good("heat-least-" + name, [(0, mr4(code))], 8, "accepted 0 0 8", tREFI=1250)
        bad("heat-least-%s-late" % name, [(0, mr4(code))], 9, 11, 19, 9, place=1, tREFI=1250)
    good("heat-least-from-3", [(10, mr4(5))], 15, "accepted 0 0 8", tREFI=4999)
    bad("heat-least-from-3-late", [(10, mr4(5))], 16, 11, 19, 16, place=1, tREFI=4999)
    good("heat-least-refreshed", [(7, mr4(4))] + [(8 + k, REFAB) for k in range(20)], 28, "accepted 20 20 8", tREFI=1250, tRFCab=(0, 0))
    bad("heat-least-grows", [(5, mr4(1))], 20, 11, 19, 18, place=1, tREFI=1250)
    most, ninth = dict(period=938, mr2=0x1E, tREFI=20000000), 21321 + 8 * 85287
    good("heat-most", [(0, mr4(1))], ninth - 1, "accepted 0 0 8", **most)
    bad("heat-most-late", [(0, mr4(1))], ninth, 11, 19, ninth, place=1, **most)


def heat_due_cases():
    """What falls due at the field's own cycle and behind it. Half the interval is 1560 cycles, a quarter 780."""
    good("heat-own-cycle", [(3120, mr4(4))], 3120, "accepted 0 0 1")
    good("heat-own-cycle-next", [(3120, mr4(4))], 4680, "accepted 0 0 2")
    # the earlier of the old next due and one new interval, on both sides of where they meet
    good("heat-old-due-first", [(1561, mr4(4))], 3120, "accepted 0 0 1")
    good("heat-old-due-first-next", [(1561, mr4(4))], 4680, "accepted 0 0 2")
    good("heat-both-dues", [(1560, mr4(4))], 4680, "accepted 0 0 2")
    good("heat-new-due-first", [(1559, mr4(4))], 3119, "accepted 0 0 1")
    bad("heat-new-due-first-late", [(1559, mr4(4))], 15599, 11, 19, 15599, place=1)
    good("heat-before-due", [(3119, mr4(5))], 3120, "accepted 0 0 1")
    good("heat-behind-due", [(3121, mr4(5))], 3900, "accepted 0 0 1")
    # several: a later one may bring the next due forward, and never puts it off
    good("heat-every-cycle", [(0, mr4(5))] + [(k, mr4(5)) for k in range(770, 790)], 789, "accepted 0 0 1")
    good("heat-not-put-off", [(500 * k, mr4(1 + k % 3)) for k in range(7)], 3120, "accepted 0 0 1")
    bad("heat-not-put-off-late", [(1000 * k, mr4(3)) for k in range(28)], 28080, 11, 19, 28080, place=28)
    good("heat-shorter-twice", [(1000, mr4(4)), (1500, mr4(5))], 2280, "accepted 0 0 1")
    good("heat-shorter-then-longer", [(1000, mr4(5)), (1001, mr4(1))], 1780 + 12479, "accepted 0 0 1")
    good("heat-shorter-then-longer-next", [(1000, mr4(5)), (1001, mr4(1))], 1780 + 12480, "accepted 0 0 2")
    good("heat-longer-then-shorter", [(4000, mr4(1)), (7000, mr4(4))], 8560, "accepted 0 0 3")
    # due at 780, 1560, 2340, 8580, and from 14820 on every 3120
    cooled = [(0, mr4(5)), (2000, mr4(2)), (12000, mr4(3))]
    good("heat-and-cooled", cooled, 14820 + 4 * 3120 - 1, "accepted 0 0 8")
    bad("heat-and-cooled-late", cooled, 14820 + 4 * 3120, 11, 19, 14820 + 4 * 3120, place=3)
    good("heat-followed", [(0, mr4(5))] + [(780 * k + 10, REFAB) for k in range(1, 16)], 780 * 16 - 1, "accepted 15 15 0")
    good("heat-credit", [(0, mr4(4))] + [(104 * k, REFAB) for k in range(1, 17)], 3120, "accepted 16 16 -7")
    good("heat-refresh-at-the-due", [(10, mr4(5)), (790, REFAB)], 790, "accepted 1 1 0")
    good("heat-round", [(0, mr4(4))] + [(48 * k + 1, REFPB) for k in range(4)] + [(200, mr4(5))] + [(48 * k + 201, REFPB) for k in range(4)], 500, "accepted 8 1 -1")


def heat_gap_cases():
    """Rule 20 counts from the later of the last counted refresh and the field. Eight refreshes leave -8, so that 19 stays away."""
    eight = [(104 * k, REFAB) for k in range(8)]
    for name, code, i in (("4", 1, 12480), ("1", 3, 3120), ("half", 4, 1560), ("hot", 6, 780)):
        good("heat-gap-" + name, eight + [(1000, mr4(code))], 1000 + 9 * i)
        bad("heat-gap-%s-late" % name, eight + [(1000, mr4(code))], 1000 + 9 * i + 1, 11, 20, 1000 + 9 * i + 1, place=9)
    shrinks = eight + [(20000, mr4(5))]
    good("heat-gap-shrinks", shrinks, 27020)
    bad("heat-gap-shrinks-late", shrinks, 27021, 11, 20, 27021, place=9)
    two = eight + [(1000, mr4(5)), (5000, mr4(4))]
    good("heat-gap-two", two, 5000 + 9 * 1560)
    bad("heat-gap-two-late", two, 5000 + 9 * 1560 + 1, 11, 20, 5000 + 9 * 1560 + 1, place=10)
    # a refresh behind the field: 728 and nine times 780 are 7748
    fed = eight[:7] + [(700, mr4(5)), (728, REFAB)]
    good("heat-gap-from-a-refresh", fed, 7748)
    bad("heat-gap-from-a-refresh-late", fed, 7749, 11, 20, 7749, place=9)
    bad("heat-gap-entry-behind", fed + [(8000, NOP)], 8001, 11, 20, 7749)
    bad("heat-gap-heat-behind", fed + [(7750, mr4(3))], 8001, 11, 20, 7749)
    # a field at the very cycle that fails saves it from 20 and not from 19
    good("heat-saves-20", fed + [(7749, mr4(5))], 7749, "accepted 8 8 1")
    good("heat-saves-20-longest", fed + [(7749, mr4(1))], 14000, "accepted 8 8 2")
    bad("heat-saves-20-for-now", fed + [(7749, mr4(5))], 40000, 11, 19, 13960, place=10)
    bad("heat-saves-not-19", [(28080, mr4(3))], 28080, 11, 19, 28080)
    bad("heat-saves-not-19-longest", [(28080, mr4(1))], 28080, 11, 19, 28080)
    good("heat-just-before-19", [(28079, mr4(1))], 28079, "accepted 0 0 8")
    bad("heat-just-before-19-late", [(28079, mr4(1))], 28080, 11, 19, 28080, place=1)


def heat_form_cases():
    """5, 26 and the order of the checks; what a field prints and counts, and that it moves nothing else."""
    lines = ["0 ACT 0", "20 RD 0", "36 PRE 0", "200 REFAB -", "accepted 4 1 -1"]
    entries = [(0, act(0)), (1, mr4(3)), (2, mr4(4)), (20, rd(0)), (30, mr4(6)), (36, pre(0)), (200, REFAB), (300, mr4(5))]
    assert paper.judge(trace(entries, 300)) == lines
    good("heat-lines", entries, 300, lines[-1])
    good("heat-alone", [(7, mr4(3))], 7, "accepted 0 0 0")
    good("heat-rises", [(0, mr4(3)), (1, NOP), (2, mr4(4)), (3, mr4(5)), (4, NOP)], 4)
    for name, entries in (("same", [(7, NOP), (7, mr4(3))]), ("below", [(7, NOP), (6, mr4(3))]), ("same-heat", [(7, mr4(3)), (7, mr4(3))]), ("below-heat", [(7, mr4(3)), (6, mr4(3))]),
                          ("behind", [(7, mr4(3)), (7, NOP)]), ("below-behind", [(7, NOP), (9, mr4(3)), (8, act(0))]), ("at-0", [(0, mr4(3)), (0, NOP)])):
        bad("5-heat-" + name, entries, 20, 5)
    bad("5-heat-end", [(3, NOP), (7, mr4(3))], 6, 5, place=2)
    for value in (0x00, 0x07, 0xF8, 0xFF):
        bad("26-%02x" % value, [(3, act(0)), (9, mr4(value))], 20, 26)
    for value, owed in ((0xF9, 1), (0xFA, 1), (0x0B, 1), (0xFC, 3), (0x85, 6), (0x7E, 6)):
        good("heat-op-%02x" % value, [(0, mr4(value))], 4680, "accepted 0 0 %d" % owed)
    bad("order-5-26", [(7, NOP), (7, mr4(0))], 20, 5)
    bad("order-11-26", [(28081, mr4(0))], 28082, 11, 19, 28080)
    bad("order-26-at-failing", [(28080, mr4(0))], 28082, 26)
    bad("order-11-heat", [(28081, mr4(3))], 28082, 11, 19, 28080)
    good("order-refresh-behind-heat", [(28079, mr4(3)), (28080, REFAB)], 28082, "accepted 1 1 8")
    bound("heat-no-source", [(0, act(0)), (1, mr4(3)), (13, mr4(4))], 14, rd(0), 7, 15)
    bound("heat-not-among-four", [(8 * k, act(k)) for k in range(4)] + [(30, mr4(3)), (31, mr4(3))], 39, act(4), 11, 40)
    bad("heat-no-bank", [(0, act(0)), (10, mr4(3)), (60, act(0))], 70, 8)
    good("heat-no-delay", [(0, mrw(1, 3)), (1, mr4(3)), (10, REFAB), (11, mr4(4))], 20, "accepted 2 1 -1")


def heat_raise_cases():
    """Code 110: on the bench card 1,875 ps more make tRCD and tRPpb 16 cycles, tRPab 19, tRAS 36, tRRD 10 and tRC 51, by the code at the later entry."""
    h = dict(hot=1875)
    for rule, before, pins, hot, cold in (
            (5, [(0, pre(0))], act(0), 16, 15), (6, [(0, PREA)], act(5), 19, 17), (7, [(0, act(6))], rd(6), 16, 15), (8, [(0, act(0))], pre(0), 36, 34),
            (9, [(0, act(0)), (16, rd(0, 1))], act(0), 51, 48), (10, [(0, act(0))], act(1), 10, 8), (16, [(0, act(0)), (40, rd(0, 1))], act(0), 62, 61),
            (18, [(0, act(0)), (16, wr(0, 1))], act(0), 55, 54)):
        last = before[-1][0]
        bound("hot-rule%d" % rule, before + [(last + 1, mr4(6))], hot - 1, pins, rule, hot, **h)
        cooled = [(0, mr4(6))] + [(t + 1, p) for t, p in before] + [(last + 2, mr4(5))]
        bound("cooled-rule%d" % rule, cooled, cold, pins, rule, cold + 1, **h)
    for rule, name, before, pins, hot in ((5, "refab", [(0, pre(3))], REFAB, 16), (6, "mrw", [(0, PREA)], mrw(1, 3), 19), (8, "prea", [(0, act(7))], PREA, 36),
                                          (10, "refpb-act", [(0, REFPB)], act(1), 10), (10, "act-refpb", [(0, act(1))], REFPB, 10)):
        bad("hot-rule%d-%s" % (rule, name), before + [(1, mr4(6)), (hot - 1, pins)], 60, 10, rule, hot, **h)
    bad("hot-throughout", [(0, mr4(6)), (1, act(0)), (16, rd(0))], 60, 10, 7, 17, **h)
    bad("hot-at-last", [(0, act(0)), (14, mr4(6)), (15, wr(0))], 60, 10, 7, 16, **h)
    good("cooled-at-last", [(0, mr4(6)), (1, act(0)), (15, mr4(3)), (16, wr(0))], 60, **h)
    bad("hot-op-fe", [(0, act(0)), (1, mr4(0xFE)), (15, rd(0))], 60, 10, 7, 16, **h)
    # nothing else rises; the cycle that is named is the bound
    for rule, before, pins, cycle in ((3, [(0, REFAB)], act(0), 104), (4, [(0, REFPB)], REFPB, 48), (11, [(8 * k, act(k)) for k in range(4)], act(4), 40),
                                      (13, [(0, act(0)), (20, rd(0))], wr(0), 36), (14, [(0, act(0)), (20, wr(0))], rd(0), 37), (15, [(0, act(0)), (40, rd(0))], pre(0), 46),
                                      (17, [(0, act(0)), (20, wr(0))], pre(0), 43)):
        bad("hot-same-rule%d" % rule, before + [(before[-1][0] + 1, mr4(6)), (cycle - 1, pins)], 110, 10, rule, cycle, **h)
    # code 101 raises nothing, nor does 110 without the tag
    bound("quarter-not-raised", [(0, act(0)), (1, mr4(5))], 14, rd(0), 7, 15, **h)
    bound("hot-untagged", [(0, act(0)), (1, mr4(6))], 14, rd(0), 7, 15)
    # before the rounding, on the durations alone, and once for each timing of tRC
    bound("hot-1-ps", [(0, act(0)), (1, mr4(6))], 8, act(1), 10, 9, hot=1)
    bound("hot-626-ps-twice", [(0, act(0)), (16, rd(0, 1)), (17, mr4(6))], 49, act(0), 9, 50, hot=626)
    bound("hot-below-floor", [(0, act(0)), (1, mr4(6))], 39, rd(0), 7, 40, hot=1875, tRCD=(0, 40))
    # 2,000,000 ps are 2133 cycles of 938 ps, and 4,000,000 ps 4265
    most, opened = dict(period=938, mr2=0x1E, hot=1000000, tRCD=(1000000, 255), tRAS=(1000000, 255), tRPpb=(1000000, 255)), [(0, mr4(6)), (1, act(0)), (2134, rd(0, 1))]
    bad("hot-most-rule9", opened + [(4265, act(0))], 4300, 10, 9, 4266, **most)
    bound("hot-most-rule16", opened, 4274, act(0), 16, 4275, **most)


def heat_sleep_cases():
    """A field in every level. Asleep in self-refresh its number is that of the fall: no cycle there is counted."""
    s, last = SLEEPS, 2**32 - 1
    lines = ["10 NOP -", "20 NOP -", "30 NOP -", "accepted 0 0 0"]
    entries = [(10, DOWN), (12, mr4(3)), (20, 0), (25, mr4(4)), (30, WAKE), (31, mr4(5))]
    assert paper.judge(trace(entries, 40, card(**s))) == lines
    good("heat-asleep-lines", entries, 40, lines[-1], **s)
    bad("heat-asleep-rule21", [(10, DOWN), (12, mr4(3)), (15, WAKE)], 60, 10, 21, 16, **s)
    good("heat-power-down", [(10, DOWN), (20, mr4(5))], 800 + 8 * 780 - 1, "accepted 0 0 8", **s)
    bad("heat-power-down-late", [(10, DOWN), (20, mr4(5))], 800 + 8 * 780, 11, 19, 800 + 8 * 780, place=2, **s)
    bad("heat-power-down-at-failing", [(10, DOWN), (28080, mr4(3))], 28080, 11, 19, 28080, **s)
    slept = [(100, SELF), (5000, mr4(5)), (100100, WAKE)]
    good("heat-self-refresh", slept, 100000 + 880 + 8 * 780 - 1, "accepted 0 0 8", **s)
    bad("heat-self-refresh-late", slept, 100000 + 880 + 8 * 780, 11, 19, 100000 + 880 + 8 * 780, place=3, **s)
    eight = [(104 * k, REFAB) for k in range(8)] + [(832, SELF), (5000, mr4(5)), (100832, WAKE)]
    good("heat-self-refresh-gap", eight, 100832 + 7020, **s)
    bad("heat-self-refresh-gap-late", eight, 100832 + 7021, 11, 20, 100832 + 7021, place=11, **s)
    # a due at the fall, and one that the fall puts off
    good("heat-due-at-the-fall", [(3120, SELF), (4000, mr4(4)), (5000, WAKE)], 6559, "accepted 0 0 1", **s)
    good("heat-due-at-the-fall-next", [(3120, SELF), (4000, mr4(4)), (5000, WAKE)], 6560, "accepted 0 0 2", **s)
    good("heat-due-behind-the-fall", [(3119, SELF), (4000, mr4(1)), (5000, WAKE)], 5000, "accepted 0 0 0", **s)
    good("heat-due-behind-the-fall-next", [(3119, SELF), (4000, mr4(1)), (5000, WAKE)], 5001, "accepted 0 0 1", **s)
    good("heat-asleep-twice", [(100, SELF), (200, mr4(5)), (300, mr4(1)), (1000, WAKE), (1779, NOP)], 1780 + 12479, "accepted 0 0 1", **s)
    good("heat-self-refresh-put-off", [(28079, SELF), (40000, mr4(1)), (50000, WAKE)], 50000, "accepted 0 0 8", **s)
    bad("heat-self-refresh-put-off-late", [(28079, SELF), (40000, mr4(1)), (50000, WAKE)], 50001, 11, 19, 50001, place=3, **s)
    for name, fall in (("power-down", DOWN), ("self-refresh", SELF)):
        bad("26-" + name, [(10, fall), (20, mr4(7))], 60, 26, **s)
    bad("5-heat-asleep", [(10, SELF), (10, mr4(3))], 60, 5, **s)
    bad("16-heat", [(10, DEEP), (50000, mr4(3))], 60000, 16, **s)
    bad("order-16-26", [(10, DEEP_H), (20, mr4(0))], 60, 16, **s)
    bad("order-5-16-heat", [(10, DEEP), (10, mr4(3))], 60, 5, **s)
    bad("5-heat-end-asleep", [(10, SELF), (20, mr4(3))], 19, 5, place=2, **s)
    # the delays of a fall are raised as those of REFab, and 21 to 24 are not
    hot = sleeper(hot=1875)
    for rule, before, fall, cycle in ((5, [(0, pre(3))], SELF, 16), (6, [(0, PREA)], DEEP, 19), (9, [(0, act(0)), (16, rd(0, 1))], SELF_PB, 51)):
        bad("hot-fall-rule%d" % rule, before + [(before[-1][0] + 1, mr4(6)), (cycle - 1, fall)], 60, 10, rule, cycle, **hot)
    bad("hot-same-rule21", [(10, DOWN), (11, mr4(6)), (15, WAKE)], 60, 10, 21, 16, **hot)
    bad("hot-same-rule22", [(10, DOWN), (20, WAKE), (21, mr4(6)), (27, act(0))], 60, 10, 22, 28, **hot)
    bad("hot-same-rule24", [(10, SELF), (11, mr4(6)), (30, WAKE), (141, act(0))], 200, 10, 24, 142, **hot)
    # the last of the 32-bit cycles
    woken = [(60, SELF), (last - 199, WAKE)]
    good("heat-far", woken + [(last - 87, REFAB), (last, mr4(4))], last, "accepted 1 1 -1", **s)
    good("heat-far-asleep", [(60, SELF), (last - 1, mr4(1)), (last, mr4(5))], last, "accepted 0 0 0", **s)
    bad("5-heat-far", [(60, SELF), (last, mr4(1)), (last, 0)], last, 5, **s)
    bad("hot-far", woken + [(last - 9, act(0)), (last - 4, mr4(6)), (last, rd(0))], last, 10, 7, last + 7, **hot)
    # intervals of 20, 10 and 5 cycles: numbers are lower by 2^32 - 105
    near = [(5, SELF), (last - 99, WAKE)]
    good("heat-far-due", near + [(last - 49, mr4(4))], last, "accepted 0 0 7", **sleeper(tREFI=25000))
    bad("heat-far-due-late", near + [(last - 49, mr4(5))], last, 11, 19, last - 14, place=3, **sleeper(tREFI=25000))


def heat_parts_cases():
    """Two parts: one schedule for both, and both gaps begin anew."""
    g, h = dict(gap=2), dict(gap=2, hot=1875)
    lines = ["0 ACT 3 1", "20 RD 3 1", "30 NOP - -", "accepted 2 0 0 0"]
    entries = [(0, to(1, act(3))), (1, mr4(3)), (20, to(1, rd(3))), (21, mr4(6)), (30, NEITHER)]
    assert paper.judge(trace(entries, 40, card(**h))) == lines
    good("parts-heat-lines", entries, 40, lines[-1], **h)
    good("parts-heat-idle", [(0, mr4(5))], 7019, "accepted 0 0 8 8", **g)
    bad("parts-heat-idle-late", [(0, mr4(5))], 7020, 11, 19, 7020, place=1, **g)
    bad("5-parts-heat", [(7, to(1, NOP_LOW)), (7, mr4(3))], 20, 5, **g)
    bad("5-parts-heat-behind", [(7, mr4(3)), (7, NEITHER)], 20, 5, **g)
    bad("26-parts", [(7, to(0, act(0))), (9, mr4(0x80))], 20, 26, **g)
    both = sorted([(104 * k, to(0, REFAB)) for k in range(8)] + [(104 * k + 50, to(1, REFAB)) for k in range(8)])
    good("parts-heat-gap", both + [(1000, mr4(3))], 29080, "accepted 16 16 1 1", **g)
    bad("parts-heat-gap-late", both + [(1000, mr4(3))], 29081, 11, 20, 29081, place=17, **g)
    good("parts-heat-saves-20", both + [(28809, mr4(5))], 28860, "accepted 16 16 1 1", **g)
    for p, q in ((0, 1), (1, 0)):
        n, fed = "-%d" % p, [(0, mr4(4)), (10000, to(p, REFAB))]
        good("parts-heat-starved" + n, fed, 14039, "accepted 1 1 " + {0: "7 8", 1: "8 7"}[p], **g)
        bad("parts-heat-starved-late" + n, fed, 14040, 11, 19, 14040, place=2, **g)
        bad("parts-heat-starved-at-heat" + n, fed + [(14040, mr4(1))], 14040, 11, 19, 14040, **g)
        good("parts-heat-starved-saved" + n, fed + [(14040, to(q, REFAB))], 14040, "accepted 2 2 8 8", **g)
        own = [(0, to(p, act(0))), (1, to(q, act(0))), (2, mr4(6))]
        bound("parts-hot" + n, own[:1] + [(2, mr4(6))], 15, to(p, rd(0)), 7, 16, **h)
        bad("parts-hot-other" + n, own + [(36, to(q, pre(0)))], 60, 10, 8, 37, **h)
        bad("parts-hot-bus" + n, own + [(20, to(p, rd(0))), (25, to(q, rd(0)))], 60, 10, 25, 26, **h)
    # 20 against 19 at one cycle, dues at 1780 and every 780 behind it
    for p, q, rule in ((0, 1, 20), (1, 0, 19)):
        n, tied = "-%d" % p, [(1000, mr4(5)), (1675, to(p, REFAB)), (1779, to(p, REFAB)), (1800, to(q, REFAB))]
        good("parts-heat-tie" + n, tied, 8799, "accepted 3 3 " + {0: "7 8", 1: "8 7"}[p], **g)
        bad("parts-heat-tie-late" + n, tied, 8800, 11, rule, 8800, place=4, **g)
        bad("parts-heat-tie-saved-20" + n, tied + [(8800, mr4(3))], 8800, 11, 19, 8800, **g)
        bad("parts-heat-tie-saved-19" + n, tied + [(8800, to(q, REFAB))], 8800, 11, 20, 8800, **g)


def heat_tag_cases():
    """Tag 26 behind all other card tags; tag 34 behind a card that is whole."""
    bench, asleep, gap, hot = card(), card(**SLEEPS), field(25, bytes([2])), field(26, num(1875, 4))
    heat, more = entry(5, mr4(4)), trace([(10, NOP)], 60, b"")
    for value in (0, 1000000):
        case("26-of-%d" % value, bench + field(26, num(value, 4)) + more, "accepted 0 0 0")
    for value in (1000001, 2**32 - 1):
        case("4-26-of-%d" % value, bench + field(26, num(value, 4)) + more, "refused 4 0 135 0")
    good("26-behind-22", [(10, DOWN)], 60, "accepted 0 0 0", **sleeper(hot=1875))
    good("26-behind-25", [(10, NEITHER)], 60, "accepted 0 0 0 0", gap=2, hot=1875)
    case("4-26-behind-22", asleep + field(26, num(1000001, 4)) + more, "refused 4 0 167 0")
    case("4-25-before-26", asleep + gap + hot + more, "refused 4 0 167 0")
    case("1-26-cut-behind-25", bench + gap + hot[:6], "refused 1 0 139 0")
    for size in (3, 5):
        case("3-26-%d" % size, bench + field(26, num(1, size)) + more, "refused 3 0 135 0")
    # tag 34
    case("34-behind-18", bench + heat + end(5), "accepted 0 0 0")
    case("34-behind-22", asleep + heat + end(5), "accepted 0 0 0")
    case("34-behind-25", bench + gap + heat + end(5), "accepted 0 0 0 0")
    case("34-behind-26", bench + hot + heat + end(5), "accepted 0 0 0")
    case("1-34-last-byte", bench + entry(0, NOP) + heat[:1], "refused 1 0 145 0")
    case("1-34-cut", bench + entry(0, NOP) + heat[:7], "refused 1 0 145 0")
    for name, head in (("4", [0, 4]), ("7", [0, 7]), ("high", [1, 5])):
        case("3-34-" + name, bench + bytes([34] + head) + num(0, 7) + end(5), "refused 3 0 135 0")


# By OP4 of MR2 and OP7-5 of MR1, and on a card whose tWR is 13 cycles, which no pair gives
LISTED = {(0, 1): 3, (0, 4): 6, (0, 6): 8, (0, 7): 9, (1, 0): 10, (1, 1): 11, (1, 2): 12, (1, 4): 14, (1, 6): 16}
THIRTEEN = dict(tWR=(16250, 4))


def mr1(op75, rest=3):
    return op75 << 5 | rest


def mr2(op4):
    """RL 12 and WL 6."""
    return 0x1A if op4 else 0x0A


def recovers(nwr, at=30):
    """The first cycle for idle use by rule 18, on the bench card with WL 6, from a write with AP at this one."""
    return at + 6 + 5 + nwr + 15


def nwr_pair_cases():
    """Every pair, on the card and written; where no nWR is listed, and where there is no MR1, it is n(tWR)."""
    for op4 in (0, 1):
        for op75 in range(8):
            name, cycle = "nwr-%d-%s" % (op4, format(op75, "03b")), recovers(LISTED.get((op4, op75), 13))
            bound(name, [(0, act(0)), (30, wr(0, 1))], cycle - 1, act(0), 18, cycle, mr1=mr1(op75), mr2=mr2(op4), **THIRTEEN)
            # OP4 and OP3 of MR1 are free and are not MR2's
            late = [(0, mrw(1, mr1(op75, 0x03 if op4 else 0x1B))), (10, act(5)), (60, wr(5, 1))]
            bound(name + "-written", late, cycle + 29, act(5), 18, cycle + 30, mr2=mr2(op4), **THIRTEEN)
        bound("nwr-%d-none" % op4, [(0, act(0)), (30, wr(0, 1))], recovers(13) - 1, act(0), 18, recovers(13), mr2=mr2(op4), **THIRTEEN)
    slow = dict(period=6000, mr2=0x01, mr1=mr1(1))
    bound("nwr-slow", [(0, act(0)), (15, wr(0, 1))], 26, act(0), 18, 27, **slow)
    bound("nwr-set-b", [(0, act(0)), (30, wr(0, 1))], 74, act(0), 18, 75, mr1=mr1(6), mr2=0x5A)
    bound("nwr-longest", [(0, act(0)), (30, wr(0, 1))], 78, act(0), 18, 79, mr1=mr1(6), mr2=0x5E)
    # the card's tWR is nothing to a listed pair, be it longer or shorter
    bound("nwr-most-twr", [(0, act(0)), (30, wr(0, 1))], 58, act(0), 18, 59, mr1=mr1(1), mr2=0x0A, tWR=(1000000, 255))
    bound("nwr-least-twr", [(0, act(0)), (30, wr(0, 1))], 71, act(0), 18, 72, mr1=mr1(6), tWR=(0, 0))
    bound("nwr-unlisted-most-twr", [(0, act(0)), (30, wr(0, 1))], recovers(800) - 1, act(0), 18, recovers(800), mr1=mr1(7), tWR=(1000000, 255))
    bound("nwr-unlisted-floor", [(0, act(0)), (30, wr(0, 1))], recovers(255) - 1, act(0), 18, recovers(255), mr1=mr1(3), tWR=(0, 255))


def nwr_write_cases():
    """MR1 and OP4 of MR2 as they stood at the write."""
    three, sixteen, quick = dict(mr1=mr1(1), mr2=0x0A, **THIRTEEN), dict(mr1=mr1(6), **THIRTEEN), dict(tMRW=(0, 0))
    opened = [(0, act(0)), (30, wr(0, 1))]

    def written(name, writes, nwr, **changed):
        before = [(10 * k, mrw(ma, op)) for k, (ma, op) in enumerate(writes)] + [(40, act(0)), (70, wr(0, 1))]
        bound("nwr-" + name, before, recovers(nwr, 70) - 1, act(0), 18, recovers(nwr, 70), **changed)

    written("card-then-written", [(1, mr1(1))], 11, **sixteen)
    written("card-then-unlisted", [(1, mr1(7))], 13, **sixteen)
    written("unlisted-then-written", [(1, mr1(4))], 14, mr1=mr1(5), **THIRTEEN)
    written("written-twice", [(1, mr1(4)), (1, mr1(0))], 10, **THIRTEEN)
    written("op4-cleared", [(2, 0x0A)], 8, **sixteen)
    written("op4-set", [(2, 0x1A)], 11, **three)
    written("op4-before-mr1", [(2, 0x0A), (1, mr1(7))], 9, **sixteen)
    written("op4-behind-mr1", [(1, mr1(7)), (2, 0x0A)], 9, **sixteen)
    written("op4-alone", [(2, 0x0A)], 13, **THIRTEEN)
    written("op4-and-back", [(2, 0x0A), (2, 0x1A)], 13, **THIRTEEN)
    for ma in (3, 11, 16, 17):
        written("ma-%d" % ma, [(ma, mr1(1))], 16, **sixteen)
        written("ma-%d-alone" % ma, [(ma, mr1(1))], 13, **THIRTEEN)
    written("mr2-rewritten", [(2, 0x1A)], 16, **sixteen)
    # no other entry touches MR1
    others = [(0, REFAB), (104, REFPB), (160, PREA), (180, mrr(1)), (190, mr4(3)), (200, act(0)), (215, rd(0)), (235, NOP), (240, wr(0, 1))]
    bound("nwr-kept", others, recovers(16, 240) - 1, act(0), 18, recovers(16, 240), **sixteen)
    # what is written behind it moves nothing: the write is let in by the nWR of before, and would have to wait by the new one
    for name, later in (("mr1", mrw(1, mr1(7))), ("mr1-unlisted", mrw(1, mr1(2))), ("op4", mrw(2, 0x1A))):
        bound("nwr-then-" + name, opened, 58, later, 18, 59, **three)
        good("nwr-of-before-" + name, opened + [(59, later), (60, act(0))], 80, "accepted 4 0 0", **three, **quick)
        good("nwr-of-before-refab-" + name, opened + [(59, later), (60, REFAB)], 80, "accepted 4 1 -1", **three, **quick)
    good("nwr-of-before-first-mr1", opened + [(56, mrw(1, mr1(6))), (57, act(0))], 80, "accepted 4 0 0", tWR=(0, 0), **quick)
    # the tRPpb of the later entry is the one thing that can still grow
    raised = [(59, mrw(1, mr1(7))), (60, mr4(6))]
    bound("nwr-of-before-hot", opened + raised, 63, act(0), 18, 64, hot=6250, **three, **quick)
    # of two writes with AP the latest counts, by its own nWR; a write without AP is none
    again = opened + [(72, mrw(1, mr1(0))), (82, act(0)), (112, wr(0, 1))]
    bound("nwr-latest", again, recovers(10, 112) - 1, act(0), 18, recovers(10, 112), **sixteen)
    bound("nwr-not-of-wr", [(0, act(0)), (30, wr(0)), (54, pre(0))], 68, act(0), 5, 69, **sixteen)
    two = [(0, act(0)), (8, act(1)), (30, wr(1, 1)), (40, wr(0, 1))]
    bound("nwr-own-bank", two, 71, act(1), 18, 72, **sixteen)
    bound("nwr-other-bank", two, 81, act(0), 18, 82, **sixteen)
    good("nwr-no-other-bank", two + [(48, act(2))], 80, "accepted 5 0 0", **sixteen)


def nwr_later_cases():
    """Idle use in every form as the later entry; rule 17 keeps n(tWR), with AP too."""
    opened = [(0, act(0)), (30, wr(0, 1))]
    for name, nwr, changed in (("3", 3, dict(mr1=mr1(1), mr2=0x0A)), ("16", 16, dict(mr1=mr1(6)))):
        cycle = recovers(nwr)
        for later, pins in (("refpb", REFPB), ("refab", REFAB), ("mrw", mrw(1, 3)), ("mrw-2", mrw(2, 0x1A)), ("mrw-17", mrw(17, 0))):
            bound("nwr-%s-%s" % (name, later), opened, cycle - 1, pins, 18, cycle, **changed)
        for later, pins in (("self-refresh", SELF), ("self-refresh-pb", SELF_PB), ("deep", DEEP)):
            bound("nwr-%s-%s" % (name, later), opened, cycle - 1, pins, 18, cycle, **changed, **SLEEPS)
        for later, pins in (("pre", pre(0)), ("prea", PREA)):
            bound("nwr-%s-rule17-%s" % (name, later), opened, 52, pins, 17, 53, **changed)
            bound("nwr-%s-rule17-%s-no-ap" % (name, later), opened[:1] + [(30, wr(0))], 52, pins, 17, 53, **changed)
        bound("nwr-%s-rule14" % name, opened, 46, mrr(0), 14, 47, **changed)
        good("nwr-%s-free" % name, opened + [(31, NOP), (38, act(1)), (48, mrr(1))], 60, **changed)
    good("nwr-refpb-other-bank", [(0, act(1)), (30, wr(1, 1)), (40, REFPB)], 100, mr1=mr1(6))
    most = [(0, act(0)), (8, act(1)), (30, wr(0, 1)), (34, wr(1, 1))]
    bound("nwr-refab-greatest", most, 75, REFAB, 18, 76, mr1=mr1(6))
    # by 18 the next ACT may come before a PRE may: 30 + 6 + 5 + 3 + 3 against 30 + 6 + 5 + 12
    soon = dict(mr1=mr1(1), mr2=0x0A, tRPpb=(0, 3), tRAS=(0, 3), tRCD=(0, 3))
    bound("nwr-act-before-pre", opened, 46, act(0), 18, 47, **soon)
    bound("nwr-pre-behind-act", opened + [(47, act(0))], 52, pre(0), 17, 53, **soon)
    bound("nwr-prea-behind-act", opened + [(47, act(0))], 52, PREA, 17, 53, **soon)
    bad("nwr-9-before-18", [(0, act(0)), (15, wr(0, 1)), (43, act(0))], 60, 10, 9, 48, mr1=mr1(1), mr2=0x0A)
    bound("nwr-below-9", [(0, act(0)), (15, wr(0, 1))], 47, act(0), 9, 48, mr1=mr1(1), mr2=0x0A)
    bad("order-9-18", opened + [(40, mrw(1, 4))], 60, 9, mr1=mr1(6))


def nwr_sleep_cases():
    """Sleeps leave MR1 alone, and delays run over them."""
    s, opened = SLEEPS, [(0, act(0)), (30, wr(0, 1))]
    for name, fall, wait in (("power-down", DOWN, 8), ("self-refresh", SELF, 112)):
        awake = 40 + wait
        write = [(awake, act(0)), (awake + 30, wr(0, 1))]
        bound("nwr-card-%s" % name, [(10, fall), (40, WAKE)] + write, recovers(16, awake + 30) - 1, act(0), 18, recovers(16, awake + 30), mr1=mr1(6), **s)
        bound("nwr-written-%s" % name, [(0, mrw(1, mr1(4))), (10, fall), (40, WAKE)] + write, recovers(14, awake + 30) - 1, act(0), 18, recovers(14, awake + 30), **s)
    bound("nwr-asleep-between", opened + [(31, DOWN), (40, 0), (50, WAKE)], 71, act(0), 18, 72, mr1=mr1(6), **s)
    # asleep the pins are ignored, those of an MRW too
    asleep = [(10, DOWN), (20, mrw(1, mr1(0)) & ~CKE), (40, WAKE), (48, act(0)), (78, wr(0, 1))]
    bound("nwr-asleep-mrw", asleep, recovers(16, 78) - 1, act(0), 18, recovers(16, 78), mr1=mr1(6), **s)
    last = 2**32 - 1
    woken = [(60, SELF), (last - 199, WAKE), (last - 80, act(0)), (last - 30, wr(0, 1))]
    bad("nwr-far", woken + [(last, act(0))], last, 10, 18, last + 12, mr1=mr1(6), **s)
    good("nwr-far-good", woken[:3] + [(last - 42, wr(0, 1)), (last, act(0))], last, mr1=mr1(6), **s)


def nwr_hot_cases():
    """Code 110 at the later entry raises tRPpb, and neither nWR nor tWR."""
    h, opened = dict(hot=1875), [(0, act(0)), (30, wr(0, 1))]
    for name, nwr, changed in (("3", 3, dict(mr1=mr1(1), mr2=0x0A)), ("16", 16, dict(mr1=mr1(6))), ("unlisted", 12, dict(mr1=mr1(3)))):
        hot = recovers(nwr) + 1
        bound("nwr-hot-" + name, opened + [(31, mr4(6))], hot - 1, act(0), 18, hot, **changed, **h)
        bound("nwr-hot-last-" + name, opened + [(40, mr4(5)), (hot - 2, mr4(6))], hot - 1, act(0), 18, hot, **changed, **h)
        bound("nwr-cooled-" + name, [(0, mr4(6)), (1, act(0)), (30, wr(0, 1)), (31, mr4(3))], hot - 2, act(0), 18, hot - 1, **changed, **h)
        bound("nwr-hot-refab-" + name, opened + [(31, mr4(6))], hot - 1, REFAB, 18, hot, **changed, **h)
    bound("nwr-hot-rule17", opened + [(31, mr4(6))], 52, pre(0), 17, 53, mr1=mr1(6), **h)
    bound("nwr-hot-untagged", opened + [(31, mr4(6))], 71, act(0), 18, 72, mr1=mr1(6))


def nwr_parts_cases():
    """Each part has its own MR1, and both begin with the card's."""
    g = dict(gap=2)
    for p, q in ((0, 1), (1, 0)):
        n = "-%d" % p
        opened = [(20, to(p, act(0))), (21, to(q, act(0))), (60, to(p, wr(0, 1))), (70, to(q, wr(0, 1)))]
        bound("parts-nwr-card" + n, opened[::2], recovers(16, 60) - 1, to(p, act(0)), 18, recovers(16, 60), mr1=mr1(6), **g)
        for name, changed, own, other in (("none", {}, 14, 12), ("card", dict(mr1=mr1(6)), 14, 16)):
            first = [(0, to(p, mrw(1, mr1(4))))] + opened
            bound("parts-nwr-%s-own%s" % (name, n), first, recovers(own, 60) - 1, to(p, act(0)), 18, recovers(own, 60), **changed, **g)
            bound("parts-nwr-%s-other%s" % (name, n), first, recovers(other, 70) - 1, to(q, act(0)), 18, recovers(other, 70), **changed, **g)
        apart = [(0, to(p, mrw(1, mr1(1)))), (1, to(q, mrw(1, mr1(6)))), (10, to(p, mrw(2, 0x0A)))] + opened
        bound("parts-nwr-apart" + n, apart, recovers(3, 60) - 1, to(p, act(0)), 18, recovers(3, 60), **g)
        bound("parts-nwr-apart-other" + n, apart, recovers(16, 70) - 1, to(q, act(0)), 18, recovers(16, 70), **g)
        bound("parts-nwr-apart-refab" + n, apart, recovers(16, 70) - 1, to(q, REFAB), 18, recovers(16, 70), **g)
        # the other part's registers written between the write and the later entry
        between = [(20, to(p, act(0))), (60, to(p, wr(0, 1))), (61, to(q, mrw(1, mr1(0)))), (71, to(q, mrw(2, 0x0A)))]
        bound("parts-nwr-between" + n, between, recovers(16, 60) - 1, to(p, act(0)), 18, recovers(16, 60), mr1=mr1(6), **g)
        bound("parts-nwr-hot" + n, opened + [(71, mr4(6))], recovers(16, 70), to(q, act(0)), 18, recovers(16, 70) + 1, mr1=mr1(6), hot=1875, **g)
        good("parts-nwr-other-free" + n, opened[:3:2] + [(61, to(q, act(0)))], 80, "accepted 3 0 0 0", mr1=mr1(6), **g)


def nwr_tag_cases():
    """Tag 23: one byte behind 18 or 22, before 25 and 26; OP2-0 are 011."""
    bench, asleep, more, mode = card(), card(**SLEEPS), trace([(10, NOP)], 60, b""), field(23, bytes([mr1(2)]))
    gap, hot, two = field(25, bytes([2])), field(26, num(1875, 4)), trace([(10, NEITHER)], 60, b"")
    for value in (0x03, 0x0B, 0x13, 0x1B, 0x43, 0xFB):
        case("23-of-%02x" % value, bench + field(23, bytes([value])) + more, "accepted 0 0 0")
    for value in (0x00, 0x01, 0x02, 0x04, 0x05, 0x06, 0x07, 0xF8, 0xFF):
        case("4-23-of-%02x" % value, bench + field(23, bytes([value])) + more, "refused 4 0 135 0")
    case("23-behind-22", asleep + mode + trace([(10, DOWN)], 60, b""), "accepted 0 0 0")
    case("4-23-behind-22", asleep + field(23, bytes([mr1(2, 2)])) + more, "refused 4 0 167 0")
    case("23-before-25", bench + mode + gap + two, "accepted 0 0 0 0")
    case("23-before-26", bench + mode + hot + more, "accepted 0 0 0")
    case("23-before-25-and-26", bench + mode + gap + hot + two, "accepted 0 0 0 0")
    case("23-between-22-and-26", asleep + mode + hot + trace([(10, DOWN)], 60, b""), "accepted 0 0 0")
    case("23-before-34", bench + mode + entry(5, mr4(4)) + more, "accepted 0 0 0")
    case("23-before-the-end", bench + mode + end(5), "accepted 0 0 0")
    case("4-25-behind-23", asleep + mode + gap + two, "refused 4 0 171 0")
    case("4-26-behind-23", bench + mode + field(26, num(1000001, 4)) + more, "refused 4 0 139 0")
    for k in (1, 2, 3):
        case("1-cut-23-%d" % k, bench + mode[:k], "refused 1 0 135 0")
        case("1-cut-23-asleep-%d" % k, asleep + mode[:k], "refused 1 0 167 0")
    case("1-ends-behind-23", bench + mode, "refused 1 0 139 0")
    case("1-ends-behind-23-asleep", asleep + mode, "refused 1 0 171 0")
    for name, head in (("none", [0, 0]), ("two", [0, 2, 3, 3]), ("high", [1, 1, 3])):
        case("3-23-" + name, bench + bytes([23] + head) + more, "refused 3 0 135 0")
        case("3-23-asleep-" + name, asleep + bytes([23] + head) + more, "refused 3 0 167 0")


UNKNOWN, REQUIRED = (0, 24, 27, 31, 35, 255), tuple(range(1, 19))
# Behind tags 1 to the first number and then those that follow it: the tag expected, and the tags that are unknown, that were seen or stand behind a higher
# one, and that come too early.
WRONG_TAGS = (
    ((0,), 1, UNKNOWN, (), (2, 3, 18, 19, 20, 21, 22, 23, 25, 26, 32, 33, 34)),
    ((1,), 2, (0, 97), (1,), (3, 18, 19, 26, 32, 33, 34)),
    ((2,), 3, (35,), (1, 2), (4, 5, 23)),
    ((4,), 5, (0, 24, 146), (1, 3, 4), (6, 7, 18, 19, 22, 23, 32, 33, 34)),
    ((11,), 12, (24, 31), (1, 10, 11), (13, 18, 20, 25, 34)),
    ((16,), 17, (27,), (1, 16), (18, 19, 32)),
    ((17,), 18, UNKNOWN, (1, 16, 17), (19, 20, 21, 22, 23, 25, 26, 32, 33, 34)),
    ((18,), 33, UNKNOWN, (1, 2, 9, 17, 18), ()),
    ((18,), 19, (), (), (20, 21, 22)),
    # inside the four every other tag
    ((19,), 20, UNKNOWN, REQUIRED + (19,), (21, 22, 23, 25, 26, 32, 33, 34)),
    ((20,), 21, UNKNOWN, REQUIRED + (19, 20), (22, 23, 25, 26, 32, 33, 34)),
    ((21,), 22, UNKNOWN, REQUIRED + (19, 20, 21), (23, 25, 26, 32, 33, 34)),
    ((22,), 33, UNKNOWN, (1, 9, 18, 19, 20, 21, 22), ()),
    # behind those that are optional: with the four, and without them, when one of the four expects 19
    ((18, 23), 33, UNKNOWN, (1, 18, 23), ()),
    ((18, 23), 19, (), (19, 20, 21, 22), ()),
    ((22, 23), 33, (24, 151), (1, 18, 19, 20, 21, 22, 23), ()),
    ((18, 25), 33, (0, 24, 27, 31), (1, 18, 23, 25), ()),
    ((18, 25), 19, (), (19, 20, 21, 22), ()),
    ((18, 23, 25), 33, (24,), (18, 23, 25), ()),
    ((18, 23, 25), 19, (), (19, 22), ()),
    ((18, 26), 33, (0, 24, 27, 35), (1, 18, 23, 25, 26), ()),
    ((18, 26), 19, (), (19, 20, 21, 22), ()),
    ((22, 26), 33, (24, 27), (1, 18, 19, 20, 21, 22, 23, 25, 26), ()),
    ((18, 23, 26), 33, (24,), (23, 25, 26), ()),
    ((18, 23, 26), 19, (), (19, 21), ()),
    ((22, 23, 26), 33, (24,), (18, 19, 22, 23, 25, 26), ()),
    ((18, 25, 26), 33, (24,), (23, 25, 26), ()),
    ((18, 25, 26), 19, (), (20, 22), ()),
    ((18, 23, 25, 26), 33, (24, 255), (1, 23, 25, 26), ()),
    ((18, 23, 25, 26), 19, (), (19, 22), ()),
    # behind the card every card tag
    ((18, 32), 33, UNKNOWN, REQUIRED + (23, 25, 26), ()),
    ((18, 32), 19, (), (19, 20, 21, 22), ()),
    ((22, 32), 33, (24, 97), (1, 18, 19, 20, 21, 22, 23, 25, 26), ()),
    ((18, 34), 33, UNKNOWN, (1, 18, 23, 25, 26), ()),
    ((18, 34), 19, (), (19, 20, 21, 22), ()),
    ((22, 34), 33, (24, 31), (1, 18, 19, 20, 21, 22, 23, 25, 26), ()),
    ((18, 23, 32), 33, (24,), (23, 25, 26), ()),
    ((18, 25, 32), 33, (27,), (23, 25, 26), ()),
    ((18, 26, 34), 33, (24,), (23, 25, 26), ()),
    ((18, 23, 25, 26, 34, 32), 33, (0,), (18, 23, 26), ()),
    ((18, 23, 25, 26, 34, 32), 19, (), (19, 22), ()),
    ((22, 23, 26, 32, 34, 32), 33, (0,), (18, 22, 23, 25, 26), ()),
)
FIELDS = {f[0]: f for f in card_fields(**SLEEPS, mr1=mr1(2), gap=2, hot=1875)}


def any_field(tag, t=0, nop=NOP):
    """A field of this tag that is good where the tag may come."""
    return {**FIELDS, 32: entry(t, nop), 33: end(t), 34: entry(t, mr4(4))}.get(tag, field(tag, b"\3"))


def fields_of(tags):
    return b"".join(any_field(tag, t, NEITHER if 25 in tags else NOP) for t, tag in enumerate(tags))


def wrong_tag_cases():
    """Each as a whole field with more behind it; the first of each sort as the last byte of the file too, and the last of each cut and with another length."""
    more = trace([(50, NOP)], 60, b"")
    for read, expected, *wrong in WRONG_TAGS:
        before = fields_of([*range(1, read[0] + 1), *read[1:]])
        place = "first" if read == (0,) else "behind-" + "-".join(str(tag) for tag in (read[1:] if read[0] == 18 and read[1:] else read))
        for number, tags in zip((17, 18, 19), wrong):
            for tag in tags:
                name, verdict, whole = "%d-%d-%s" % (number, tag, place), "refused %d %d %d 0" % (number, expected, len(before)), any_field(tag, 40)
                case(name, before + whole + more, verdict)
                if tag == tags[0]:
                    case(name + "-last", before + whole[:1], verdict)
                if tag == tags[-1]:
                    case(name + "-cut", before + bytes([tag, 0, len(whole) - 2]) + whole[3:], verdict)


def tag_order_cases():
    """A value out of range comes before the tag behind it; behind the end no tag is looked at."""
    more, late = trace([(50, NOP)], 60, b""), num(1000001, 4)
    for last, tag, value, behind in ((2, 3, num(0, 2), 6), (17, 18, late + b"\0", 20), (18, 19, late + b"\0", 32), (21, 22, late + b"\0", 24), (18, 23, bytes([4]), 23),
                                     (22, 25, bytes([2]), 24), (18, 26, late, 23)):
        before = fields_of(range(1, last + 1))
        case("4-%d-before-%d" % (tag, behind), before + field(tag, value) + any_field(behind, 40) + more, "refused 4 0 %d 0" % len(before))
    for tag in UNKNOWN + (1, 18, 19, 22, 23, 25, 26, 32, 33, 34):
        case("12-%d-behind-the-end" % tag, trace([], 5) + any_field(tag, 40), "refused 12 0 142 0")


# 933 MHz: in cycles of 1,071,811 fs 20,364 ps are 19 and 20,365 ps 20. In cycles of 1071 ps both are 20, in those of 1072 ps both are 19.
FINE = dict(fs=1071811, mr2=0x1C)
BESIDE = ((20364, 19), (20365, 20))
NO_DELAYS = {name: (0, 0) for name in paper.TIMINGS + paper.SLEEPS}


def fs_length_cases():
    """Tag 1 with 4 or 8 bytes and with no other number of them; its value stays good, and what is behind it too."""
    behind = b"".join(card_fields()[1:]) + trace([(0, act(0)), (15, rd(0))], 20, b"")
    case("fs-4-bytes", field(1, num(1250, 4)) + behind, "accepted 2 0 0")
    case("fs-8-bytes", field(1, num(1250000, 8)) + behind, "accepted 2 0 0")
    for size in (0, 1, 2, 3, 5, 6, 7, 9, 10, 12, 16, 255, 256, 260, 264, 1024, 2048, 2052):
        for unit, value in (("ps", 1250), ("fs", 1250000)):
            case("3-1-%d-%s" % (size, unit), field(1, num(value, 8).rjust(size, b"\0")[8 - size if size < 8 else 0:]) + behind, "refused 3 0 0 0")
    # cut where a value is out of range already
    for k in (1, 2, 3, 4, 7, 10):
        case("1-cut-8-bytes-%d" % k, field(1, num(2**64 - 1, 8))[:k], "refused 1 0 0 0")
    case("1-ends-behind-8-bytes", field(1, num(1250000, 8)), "refused 1 0 11 0")
    for head in ([0, 5], [0, 9], [1, 4], [1, 8], [4, 0], [8, 0], [8, 8], [255, 255]):
        case("3-1-before-cut-%d-%d" % tuple(head), bytes([1] + head), "refused 3 0 0 0")
    # 8 bytes are for the period alone
    whole, more = card_fields(**SLEEPS, mr1=mr1(2), hot=1875), trace([(40, DOWN)], 60, b"")
    for k, f in enumerate(whole[1:], 1):
        for unit, first in (("ps", whole[0]), ("fs", field(1, num(1250000, 8)))):
            before = first + b"".join(whole[1:k])
            wide = field(f[0], f[3:].rjust(8, b"\0"))
            case("3-%d-8-bytes-%s" % (f[0], unit), before + wide + b"".join(whole[k + 1:]) + more, "refused 3 0 %d 0" % len(before))
    for unit, head in (("ps", card()), ("fs", card(fs=1250000))):
        for f in (field(25, bytes([2])), entry(5, NOP), entry(5, mr4(4)), end(5)):
            case("3-%d-8-bytes-%s" % (f[0], unit), head + field(f[0], f[3:].rjust(8, b"\0")) + end(20), "refused 3 0 %d 0" % len(head))


def fs_range_cases():
    """From 938,000 to 100,000,000, over all 64 bits; in 4 bytes a thousandth of it."""
    behind = b"".join(card_fields(mr2=0x1E)[1:]) + end(20)
    for value in (938000, 938001, 1070999, 1250000, 99999999, 100000000):
        case("fs-of-%d" % value, field(1, num(value, 8)) + behind, "accepted 0 0 0")
    for value in (0, 1, 938, 1071, 1250, 100000, 937000, 937999, 100000001, 100001000, 2**31, 2**32 - 1, 2**32 + 938000, 2**32 + 1071000, 2**33 + 1250000, 2**40 + 1250000,
                  2**48 + 1250000, 2**56 + 1250000, 2**63 - 1, 2**63, 2**63 + 1250000, 2**64 - 1, 1250000 << 8, 1250000 << 16, 1250000 << 32, 1250000 << 40, 2**61 + 1250):
        case("4-fs-of-%d" % value, field(1, num(value, 8)) + behind, "refused 4 0 0 0")
    # in 4 bytes these are fs that were taken for ps, and ps whose thousandfold passes 32 bits
    for value in (938000, 1071811, 1250000, 100000000, 2**32 - 1, 4296218, 8591185):
        case("4-ps-of-%d" % value, field(1, num(value, 4)) + behind, "refused 4 0 0 0")


def fs_latency_cases():
    """The rows of MR2, at the least period and a fs below it: on the card, and written under a card that starts with 1110."""
    for code, (ps, *_) in paper.ROWS.items():
        if ps == 938:
            continue
        for name, fs in (("least", 1000 * ps), ("above", 1000 * ps + 1)):
            good("fs-mr2-%d-%s" % (code, name), [], 20, "accepted 0 0 0", fs=fs, mr2=0x50 | code, tREFI=20000000)
            good("fs-mrw-%d-%s" % (code, name), [(0, mrw(2, 0x50 | code))], 20, "accepted 1 0 0", fs=fs, mr2=0x0E, tREFI=20000000)
        case("4-fs-mr2-%d" % code, card(fs=1000 * ps - 1, mr2=0x50 | code, tREFI=20000000) + end(20), "refused 4 0 11 0")
        bad("9-fs-mrw-%d" % code, [(0, mrw(2, code))], 20, 9, fs=1000 * ps - 1, mr2=0x0E, tREFI=20000000)
    case("4-fs-mr2-half", card(fs=1070500, mr2=0x1C) + end(20), "refused 4 0 11 0")
    bad("9-fs-mrw-half", [(0, mrw(2, 0x1C))], 20, 9, fs=1070500, mr2=0x0E)
    for p in (0, 1):
        bad("9-fs-mrw-part-%d" % p, [(0, to(p, mrw(2, 0x0A)))], 20, 9, fs=1249999, mr2=0x0E, gap=2)


def fs_refi_cases():
    """tREFI in ps is not below the period in fs."""
    for fs, least in ((938000, 938), (1000000, 1000), (1000001, 1001), (1000499, 1001), (1000500, 1001), (1000501, 1001), (1000999, 1001), (1071811, 1072),
                      (99999001, 100000), (100000000, 100000)):
        case("4-fs-trefi-%d" % fs, card(fs=fs, mr2=0x0E, tREFI=least - 1) + end(0), "refused 4 0 20 0")
        # a refresh falls due at every cycle
        good("fs-trefi-%d" % fs, [], 8, "accepted 0 0 8", fs=fs, mr2=0x0E, tREFI=least)
        bad("fs-trefi-%d-late" % fs, [], 9, 11, 19, 9, place=0, fs=fs, mr2=0x0E, tREFI=least)
    case("4-fs-trefi-high", card(fs=1071811, mr2=0x1C, tREFI=20000001) + end(0), "refused 4 0 20 0")
    good("fs-trefi-high", [], 0, "accepted 0 0 0", fs=1071811, mr2=0x1C, tREFI=20000000)
    # whose thousandfold is 704 above 32 bits
    good("fs-trefi-4294968", [], 9 * 4007 - 1, "accepted 0 0 8", fs=1071811, mr2=0x1C, tREFI=4294968)
    bad("fs-trefi-4294968-late", [], 9 * 4007, 11, 19, 9 * 4007, place=0, fs=1071811, mr2=0x1C, tREFI=4294968)


def fs_delay_cases():
    """Every timing on both sides of 19 cycles, alone: RL is 14 and WL 8."""
    def beside(name, rule, timing, before, pins, wait, **changed):
        """The later entry may come so many cycles more than the timing's behind the last of those before."""
        for ps, n in BESIDE:
            cycle = before[-1][0] + wait + n
            bound("fs-%s-%d" % (name, n), before, cycle - 1, pins, rule, cycle, **{**FINE, **NO_DELAYS, timing: (ps, 0), **changed})

    opened, read, write = [(0, act(0))], [(0, act(0)), (9, rd(0, 1))], [(0, act(0)), (9, wr(0, 1))]
    beside("rule1", 1, "tMRW", [(0, mrw(1, 3))], act(0), 0)
    beside("rule2", 2, "tMRR", [(0, mrr(0))], pre(0), 0)
    beside("rule3", 3, "tRFCab", [(0, REFAB)], act(0), 0)
    beside("rule4", 4, "tRFCpb", [(0, REFPB)], REFPB, 0)
    beside("rule5", 5, "tRPpb", [(0, pre(0))], act(0), 0)
    beside("rule6", 6, "tRPab", [(0, PREA)], act(0), 0)
    beside("rule7", 7, "tRCD", opened, rd(0), 0)
    beside("rule8", 8, "tRAS", opened, pre(0), 0)
    beside("rule9-tras", 9, "tRAS", [(0, act(0)), (1, rd(0, 1))], act(0), -1)
    beside("rule10", 10, "tRRD", opened, act(1), 0)
    beside("rule11", 11, "tFAW", [(k, act(k)) for k in range(4)], act(4), -3)
    beside("rule13", 13, "tDQSCK", [(0, act(0)), (9, rd(0))], wr(0), 14 + 5 - 8)
    beside("rule14", 14, "tWTR", [(0, act(0)), (9, wr(0))], rd(0), 8 + 5)
    beside("rule15", 15, "tRTP", [(0, act(0)), (9, rd(0))], pre(0), 0)
    beside("rule16", 16, "tRTP", read, act(0), 0)
    beside("rule16-trp", 16, "tRPpb", read, act(0), 4)
    beside("rule17", 17, "tWR", write, pre(0), 8 + 5)
    beside("rule18", 18, "tWR", write, act(0), 8 + 5)
    beside("rule18-trp", 18, "tRPpb", write, act(0), 8 + 5 + 10, mr1=mr1(0))
    beside("rule21", 21, "tCKE", [(0, DOWN)], WAKE, 0)
    beside("rule22", 22, "tXP", [(0, DOWN), (9, WAKE)], act(0), 0)
    beside("rule23", 23, "tCKESR", [(0, SELF)], WAKE, 0)
    beside("rule24", 24, "tXSR", [(0, SELF), (9, WAKE)], act(0), 0)
    # NO_DELAYS has tags 19 to 22, which two parts may not
    awake = {name: (0, 0) for name in paper.TIMINGS}
    both = [(0, to(0, act(0))), (1, to(1, act(0)))]
    for ps, n in BESIDE:
        g = {**FINE, **awake, "gap": 2}
        bound("fs-rule26-%d" % n, both + [(9, to(0, rd(0)))], 21 + n, to(1, wr(0)), 26, 22 + n, **{**g, "tDQSCK": (ps, 0)})
        bound("fs-rule27-%d" % n, both + [(9, to(0, wr(0)))], 23 + n, to(1, rd(0)), 27, 24 + n, **{**g, "tWTR": (ps, 0)})
    # just so many cycles, and by a fs more or less
    for fs, ps, n in ((1071421, 20357, 20), (1071422, 20357, 19), (1071500, 21430, 20), (1071500, 21431, 21), (1071499, 21430, 21), (1071501, 21430, 20)):
        bound("fs-just-%d-%d" % (fs, ps), opened, n - 1, rd(0), 7, n, fs=fs, mr2=0x1C, tRCD=(ps, 0))
    # a floor that is greater, as great and less
    for floor, n in ((18, 19), (19, 19), (20, 20), (255, 255)):
        bound("fs-floor-%d" % floor, opened, n - 1, rd(0), 7, n, **{**FINE, "tRCD": (20364, floor)})


def fs_trc_cases():
    """tRC is rounded once: 10,182 ps are 9.5 cycles, twice that 18.9997, and a ps more 19.0006."""
    opened = [(0, act(0)), (1, rd(0, 1))]
    for name, tras, trppb, cycle in (("19", 10182, 10182, 19), ("20", 10183, 10182, 20), ("20-other", 10182, 10183, 20), ("most", 1000000, 1000000, 1867)):
        bound("fs-trc-" + name, opened, cycle - 1, act(0), 9, cycle, **{**FINE, **NO_DELAYS, "tRAS": (tras, 0), "tRPpb": (trppb, 0)})
    bound("fs-trc-floors", opened, 20, act(0), 9, 21, **{**FINE, **NO_DELAYS, "tRAS": (10182, 11), "tRPpb": (10182, 10)})


def fs_hot_cases():
    """Code 110 with tag 26: 10,000 ps and 10,364 more are 19 cycles, a ps more 20. Alone 10,000 ps are 10, 10,364 ps 10 and 10,365 ps 10."""
    opened, read, write = [(0, act(0))], [(0, act(0)), (9, rd(0, 1))], [(0, act(0)), (9, wr(0, 1))]
    for name, rule, timing, before, pins, wait in (
            ("rule5", 5, "tRPpb", [(0, pre(0))], act(0), 0), ("rule6", 6, "tRPab", [(0, PREA)], act(0), 0), ("rule7", 7, "tRCD", opened, rd(0), 0),
            ("rule8", 8, "tRAS", opened, pre(0), 0), ("rule10", 10, "tRRD", opened, act(1), 0), ("rule16", 16, "tRPpb", read, act(0), 4),
            ("rule18", 18, "tRPpb", write, act(0), 8 + 5)):
        for hot, n in ((10364, 19), (10365, 20)):
            last, changed = before[-1][0], {**FINE, **NO_DELAYS, timing: (10000, 0), "hot": hot}
            bound("fs-hot-%s-%d" % (name, n), before + [(last + 1, mr4(6))], last + wait + n - 1, pins, rule, last + wait + n, **changed)
        bound("fs-quarter-" + name, before + [(last + 1, mr4(5))], last + wait + 9, pins, rule, last + wait + 10, **changed)
    # twice 5,182 ps more: 20,364 and 20,365 ps in all
    for tras, n in ((5000, 19), (5001, 20)):
        bound("fs-hot-trc-%d" % n, [(0, act(0)), (1, mr4(6)), (5, rd(0, 1))], n - 1, act(0), 9, n, **{**FINE, **NO_DELAYS, "tRAS": (tras, 0), "tRPpb": (5000, 0), "hot": 5182})


def fs_interval_cases():
    """I by each code. 1,071,811 ps are just 1000 cycles, and a ps less does not make them full; 3,900,000 ps are 3638.7."""
    rows = ((1071811, (4000, 2000, 1000, 500, 250, 250)), (1071810, (3999, 1999, 999, 499, 249, 249)), (3900000, (14554, 7277, 3638, 1819, 909, 909)))
    for trefi, intervals in rows:
        plain, f = intervals[2], {**FINE, "tREFI": trefi}
        good("fs-idle-%d" % trefi, [], 9 * plain - 1, "accepted 0 0 8", **f)
        bad("fs-idle-%d-late" % trefi, [], 9 * plain, 11, 19, 9 * plain, place=0, **f)
        for code, i in enumerate(intervals, 1):
            ninth = min(plain, i) + 8 * i
            good("fs-heat-%d-%d" % (trefi, code), [(0, mr4(code))], ninth - 1, "accepted 0 0 8", **f)
            bad("fs-heat-%d-%d-late" % (trefi, code), [(0, mr4(code))], ninth, 11, 19, ninth, place=1, **f)
        # tRFCab of 130,000 ps is 122 cycles
        eight = [(122 * k, REFAB) for k in range(8)]
        good("fs-gap-%d" % trefi, eight, 854 + 9 * plain, **f)
        bad("fs-gap-%d-late" % trefi, eight, 855 + 9 * plain, 11, 20, 855 + 9 * plain, place=8, **f)
        good("fs-slept-%d" % trefi, [(100, SELF), (10100, WAKE)], 10000 + 9 * plain - 1, "accepted 0 0 8", **f, **SLEEPS)
        bad("fs-slept-%d-late" % trefi, [(100, SELF), (10100, WAKE)], 10000 + 9 * plain, 11, 19, 10000 + 9 * plain, place=2, **f, **SLEEPS)
        good("fs-parts-%d" % trefi, [], 9 * plain - 1, "accepted 0 0 8 8", gap=2, **f)
    most = dict(fs=938000, mr2=0x0E, tREFI=20000000)
    good("fs-heat-most", [(0, mr4(1))], 21321 + 8 * 85287 - 1, "accepted 0 0 8", **most)
    bad("fs-heat-most-late", [(0, mr4(1))], 21321 + 8 * 85287, 11, 19, 21321 + 8 * 85287, place=1, **most)
    good("fs-heat-least", [(0, mr4(5))], 8, "accepted 0 0 8", fs=1000500, mr2=0x0E, tREFI=1001)
    good("fs-heat-least-4", [(0, mr4(1))], 1 + 7 * 4, "accepted 0 0 8", fs=1000500, mr2=0x0E, tREFI=1001)
    bad("fs-heat-least-4-late", [(0, mr4(1))], 1 + 8 * 4, 11, 19, 1 + 8 * 4, place=1, fs=1000500, mr2=0x0E, tREFI=1001)


def fs_strict_cases():
    """What a card of 1071 ps refuses and one of 1,071,811 or 1,071,429 fs takes: 15,000 ps are 14.006 cycles, 13.995 and 13.99999. And the other way about: a
    refresh that comes in time by 3641 cycles and not by 3638."""
    fourteen = dict(mr2=0x1C, tRCD=(15000, 3))
    for fs in (1071811, 1071429):
        good("fs-%d-taken" % fs, [(0, act(0)), (14, rd(0))], 40, "accepted 2 0 0", fs=fs, **fourteen)
        bad("fs-%d-early" % fs, [(0, act(0)), (13, rd(0))], 40, 10, 7, 14, fs=fs, **fourteen)
    for name, head in (("ps", dict(period=1071)), ("fs", dict(fs=1071000)), ("a-third", dict(fs=1071428))):
        bad("fs-not-%s" % name, [(0, act(0)), (14, rd(0))], 40, 10, 7, 15, **head, **fourteen)
    good("fs-ps-refreshed", [(9 * 3641 - 1, REFAB)], 9 * 3641, period=1071, mr2=0x1C)
    bad("fs-refreshed-late", [(9 * 3641 - 1, REFAB)], 9 * 3641, 11, 19, 9 * 3638, **FINE)


def fs_whole_cases():
    """The bench card's period in 8 bytes: every verdict is that of its 4, four bytes further on."""
    def refused(number, rule, offset, cycle, card_bytes):
        return "refused %d %d %d %d" % (number, rule, card_bytes + offset, cycle)

    eight = [(104 * k, REFAB) for k in range(8)]
    for name, entries, e, more, refusal in (
            ("rcd", [(0, act(0)), (14, rd(0))], 40, {}, (10, 7, 10, 15)), ("rcd-good", [(0, act(0)), (15, rd(0))], 20, {}, None),
            ("faw", [(8 * b, act(b)) for b in range(5)], 60, {}, (10, 11, 40, 40)), ("rc", [(0, act(0)), (15, rd(0, 1)), (47, act(0))], 60, {}, (10, 9, 20, 48)),
            ("wra", [(0, act(0)), (15, wr(0, 1)), (52, act(0))], 60, {}, (10, 18, 20, 53)), ("idle", [], 28079, {}, None),
            ("idle-late", [], 28080, {}, (11, 19, 0, 28080)), ("eight", eight, 28808, {}, None), ("eight-late", eight, 28809, {}, (11, 20, 80, 28809)),
            ("mr2-19", [(0, mrw(2, 0x19))], 20, {}, (9, 0, 0, 0)), ("mr2-1c", [(0, mrw(2, 0x1C))], 20, {}, None),
            ("hot", [(0, act(0)), (1, mr4(6)), (15, rd(0))], 60, dict(hot=1875), (10, 7, 25, 16)),
            ("wake", [(10, DOWN), (15, WAKE)], 60, SLEEPS, (10, 21, 42, 16)), ("end", [(7, NOP)], 6, {}, (5, 0, 10, 0))):
        good("fs-whole-" + name, entries, e, refusal and refused(*refusal, 139), fs=1250000, **more)
        four = paper.judge(trace(entries, e, card(**more)))
        eight_bytes = paper.judge(trace(entries, e, card(fs=1250000, **more)))
        assert four[:-1] == eight_bytes[:-1] and four[-1] == (refused(*refusal, 135) if refusal else eight_bytes[-1]), name


def fs_tag_cases():
    """Which tag may come is not moved by the length of the first."""
    first, rest = field(1, num(1071811, 8)), b"".join(card_fields(mr2=0x1C)[1:])
    for name, data, verdict in (("again", first, "18 2"), ("again-4", field(1, num(1071, 4)), "18 2"), ("3", field(3, num(1, 2)), "19 2"), ("24", field(24, b""), "17 2"),
                                ("end", end(5), "19 2")):
        case("fs-tag-" + name, first + data + rest, "refused %s 11 0" % verdict)
    case("fs-tag-behind-18", first + rest + first + end(5), "refused 18 33 139 0")
    case("fs-tag-behind-18-early", first + rest + field(20, bytes(5)) + end(5), "refused 19 19 139 0")
    case("fs-tag-behind-entry", first + rest + entry(5, NOP) + first + end(5), "refused 18 33 149 0")
    case("fs-12", first + rest + end(5) + first, "refused 12 0 146 0")


def example_cases():
    """The traces of examples/, made of their texts, with the verdicts of the table in its README; examples/NAME.trace is a copy of the file here."""
    folder = "../../examples/"
    with open(folder + "README.md") as f:
        verdicts = re.findall(r"^\| `(.+)` \| `(.+)` \|$", f.read(), re.M)
    assert sorted(n + ".txt" for n, _ in verdicts) == sorted(n for n in os.listdir(folder) if n.endswith(".txt")), verdicts
    for name, verdict in verdicts:
        data = subprocess.run(["../../bin/trace-text", folder + name + ".txt"], stdout=subprocess.PIPE, check=True).stdout
        with open(folder + name + ".trace", "wb") as f:
            f.write(data)
        case("example-" + name, data, verdict)


SMALL = {"cuts": trace([(0, act(0)), (15, rd(0))], 20), "cuts-asleep": trace([(0, DOWN), (15, WAKE), (23, act(0))], 40, card(**SLEEPS)),
         "cuts-parts": trace([(0, to(0, act(0))), (1, to(1, act(0))), (16, to(1, rd(0)))], 40, card(gap=2)),
         "cuts-heat": trace([(0, act(0)), (5, mr4(6)), (16, rd(0)), (17, mr4(0x83))], 40, card(hot=1875)),
         "cuts-fine": trace([(0, act(0)), (5, mr4(6)), (19, rd(0)), (40, mrr(4))], 60, card(hot=1875, **FINE)),
         "cuts-nwr": trace([(0, act(0)), (20, wr(0, 1)), (62, mrw(1, mr1(0)))], 80, card(mr1=mr1(6), hot=1875))}

for build in (bench_cases, rule_cases, mr2_cases, refusal_cases, order_cases, account_cases, form_cases, move_cases, sleep_rule_cases, sleep_account_cases,
              sleep_tag_cases, parts_pins_cases, parts_own_cases, parts_bus_cases, parts_account_cases, parts_tag_cases, heat_interval_cases, heat_due_cases,
              heat_gap_cases, heat_form_cases, heat_raise_cases, heat_sleep_cases, heat_parts_cases, heat_tag_cases, nwr_pair_cases, nwr_write_cases,
              nwr_later_cases, nwr_sleep_cases, nwr_hot_cases, nwr_parts_cases, nwr_tag_cases, wrong_tag_cases, tag_order_cases, fs_length_cases, fs_range_cases,
              fs_latency_cases, fs_refi_cases, fs_delay_cases, fs_trc_cases, fs_hot_cases, fs_interval_cases, fs_strict_cases, fs_whole_cases, fs_tag_cases, example_cases):
    build()

shutil.rmtree("data", ignore_errors=True)
os.mkdir("data")
names, out = [], []
for name, data, verdict in CASES:
    lines = paper.judge(data)
    if verdict is None:
        assert lines[-1].startswith("accepted"), (name, lines)
    else:
        assert lines[-1] == verdict, (name, lines, verdict)
    assert name not in names, name
    names.append(name)
    with open("data/" + name, "wb") as f:
        f.write(data)
    out += [name] + lines + lines[-1:]
for name, data in SMALL.items():
    with open("data/" + name, "wb") as f:
        f.write(data)
    out += [name] + [paper.judge(data[:k])[-1] for k in range(len(data) + 1)]
with open("args", "w") as f:
    f.write("".join("%s\n" % n for n in names) + "--cuts\n" + "".join("%s\n" % n for n in SMALL))
with open("stdout", "w") as f:
    f.write("".join(x + "\n" for x in out))
print(len(CASES), "files")
