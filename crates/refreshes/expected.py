#!/usr/bin/env python3
# What refreshes is to write, from document 01's account and requests One, Four and Eleven of document 02, cycle by cycle wherever something can happen:
#   python3 crates/refreshes/expected.py > crates/refreshes/stdout
# A line: the refusal's number, rule and cycle, then the ledger: at, owed + 8, since, skipped, and the level, from 0 for awake to 3 for deep power-down.
# Of a pace: its next due and MR4. Of a deadline: the cycle.
from collections import namedtuple

LAST = 2**32 - 1
AWAKE, POWER_DOWN, SELF_REFRESH, DEEP = range(4)

# what the account asks of a card: the period in fs, tREFI in ps
Card = namedtuple("Card", "period trefi good", defaults=(1250000, 3900000, True))
BENCH = Card()

# `since` is a number among the counted cycles
Ledger = namedtuple("Ledger", "at owed since skipped level", defaults=(0, 0, 0, 0, AWAKE))

# one due at number `next`, none before it, and one every interval after it
Pace = namedtuple("Pace", "next mr4")

# tREFI is taken so many quarter times by OP2-0; a code that no field may have counts as 011
QUARTERS = {1: 16, 2: 8, 3: 4, 4: 2, 5: 1, 6: 1}


def interval(card, mr4):
    return max(1, 1000 * card.trefi * QUARTERS.get(mr4 % 8, 4) // (4 * card.period))


def first_pace(card):
    return Pace(interval(card, 3), 3)


FIRST = first_pace(BENCH)


def due_after(card, pace, n):
    """The first due after number n."""
    span = interval(card, pace.mr4)
    return pace.next if n < pace.next else pace.next + ((n - pace.next) // span + 1) * span


def respaced(card, pace, n, mr4):
    """After a field at number n, where the old dues count."""
    return Pace(min(due_after(card, pace, n), n + interval(card, mr4)), mr4)


def number(ledger):
    """Of the cycle where it stands, among the counted ones."""
    return max(ledger.at - ledger.skipped, 0)


def counts(ledger):
    return ledger.level in (AWAKE, POWER_DOWN)


def rules(card, pace, n, owed, since):
    """19 before 20 after a cycle; None where both hold."""
    if owed > 8:
        return 19
    return 20 if n - since > 9 * interval(card, pace.mr4) else None


def idle(ledger, pace, to, card):
    """After each counted cycle up to `to`, one after the other: the ledger then, or the refusal."""
    n = number(ledger)
    begun, stop, owed = n, n + (to - ledger.at if counts(ledger) else 0), ledger.owed
    while n < stop:
        due = due_after(card, pace, n)
        late = max(n + 1, ledger.since + 9 * interval(card, pace.mr4) + 1)
        n = min(due, late, stop)
        owed += n == due
        rule = rules(card, pace, n, owed, ledger.since)
        if rule:
            return (11, rule, ledger.at + n - begun), ledger
    return (0, 0, 0), ledger._replace(at=to, owed=owed, skipped=to - n)


def refused(ledger, to, card):
    if not card.good or not -8 <= ledger.owed <= 8 or ledger.since > number(ledger):
        return (13, 0, 0)
    return (5, 0, 0) if to < ledger.at else None


def moved(ledger, to, pace=FIRST, card=BENCH):
    bad = refused(ledger, to, card)
    return (bad, ledger) if bad else idle(ledger, pace, to, card)


def entered(ledger, stamp, counted, level=None, sensed=False, pace=FIRST, card=BENCH):
    """An entry at this stamp, a counted refresh or a temperature or neither, that leaves the part at this level, or where it is."""
    bad = refused(ledger, stamp, card)
    if bad:
        return bad, ledger
    n, owed, since = number(ledger), ledger.owed, ledger.since
    if ledger.at < stamp:
        told, here = idle(ledger, pace, stamp - 1, card)
        if told[0]:
            return told, ledger
        n, owed = number(here), here.owed
        if counts(ledger):
            owed += due_after(card, pace, n) == n + 1
            n += 1
    if counted:
        owed = max(owed - 1, -8)
    if counted or sensed:
        since = n
    rule = rules(card, pace, n, owed, since)
    stays = ledger.level if level is None else level
    return ((11, rule, stamp), ledger) if rule else ((0, 0, 0), Ledger(stamp, owed, since, stamp - n, stays))


def deadline(ledger, pace=FIRST, card=BENCH):
    """The first cycle that fails with no counted refresh; 0 where there is none."""
    if refused(ledger, ledger.at, card) or not counts(ledger):
        return 0
    return idle(ledger, pace, 2 * LAST, card)[0][2]


def show(answer):
    told, ledger = answer
    print(*told, ledger.at, ledger.owed + 8, ledger.since, ledger.skipped, ledger.level)
    return ledger


def refreshes(ledger, first, count):
    for stamp in range(first, first + 104 * count, 104):
        if stamp <= LAST:
            ledger = entered(ledger, stamp, True)[1]
    return ledger


fresh = Ledger()

# document 01's cases, and a ninth early refresh
show(moved(fresh, 28079))
show(moved(fresh, 28080))
for count, ends in ((8, (28808, 28809)), (9, (832, 28912, 28913))):
    for end in ends:
        show(moved(refreshes(fresh, 0, count), end))

# an entry's own cycle
due = show(moved(fresh, 3120))
show(entered(due, 3120, False))
show(entered(due, 3120, True))
show(entered(fresh, 3120, False))
full = show(moved(fresh, 28079))
show(entered(full, 28080, True))
show(entered(full, 28080, False))
show(entered(full, 28081, True))
for stamp, counted in ((28080, False), (28081, False), (28081, True)):
    show(entered(Ledger(0, -8), stamp, counted))

# refusals
show(moved(Ledger(5, 9), 9))
show(moved(Ledger(5, 0, 6), 4))
show(moved(Ledger(5, 0, 5), 4))
show(entered(Ledger(5, 247), 9, True))
show(entered(Ledger(5, 0, 5), 4, True))
show(moved(fresh, 1, card=BENCH._replace(good=False)))
show(entered(fresh, 1, False, card=BENCH._replace(good=False)))

# power-down: as awake
down = show(entered(fresh, 10, False, POWER_DOWN))
show(moved(down, 3120))
show(moved(down, 28079))
show(moved(down, 28080))
show(entered(down, 28079, False, POWER_DOWN))
show(entered(down, 28080, False, AWAKE))
show(entered(down, 28081, False, POWER_DOWN))

# self-refresh: the fall's own cycle counts; those behind it do not, up to and with the exit's own
for stamp in (3119, 3120):
    asleep = show(entered(fresh, stamp, False, SELF_REFRESH))
    show(moved(asleep, 3120))
    show(moved(asleep, LAST))
    awake = show(entered(show(entered(asleep, 3500, False, SELF_REFRESH)), 4000, False, AWAKE))
    show(moved(awake, 4000))
    show(moved(awake, 4001))
    show(moved(awake, 4000 + 3120))
show(entered(full, 28080, False, SELF_REFRESH))
asleep = show(entered(moved(fresh, 28078)[1], 28079, False, SELF_REFRESH))
awake = show(entered(show(moved(asleep, 40000)), 50000, False, AWAKE))
show(moved(awake, 50000))
show(moved(awake, 50001))
show(entered(awake, 50001, False, SELF_REFRESH))
show(entered(awake, 50001, True, AWAKE))
awake = entered(entered(refreshes(fresh, 0, 8), 832, False, SELF_REFRESH)[1], 100832, False, AWAKE)[1]
show(moved(awake, 128808))
show(moved(awake, 128809))
show(moved(show(entered(awake, 100944, True, AWAKE)), 100944 + 28081))

# deep power-down: nothing counts behind the fall
deep = show(entered(fresh, 3120, False, DEEP))
show(moved(deep, LAST))
show(entered(deep, 3120, False, DEEP))

# as they may be lent: more skipped than there was; since above the number; a gap that is too long already, looked at by an entry and not by a move in self-refresh
odd = Ledger(5, 0, 0, 9)
show(moved(odd, 5))
show(moved(odd, 3124))
show(moved(odd, 3125))
show(entered(odd, 5, True))
show(moved(Ledger(5, 0, 1, 9), 6))
show(moved(Ledger(10, 0, 6, 5), 12))
show(moved(Ledger(10, 0, 6, 5, SELF_REFRESH), 12))
show(moved(Ledger(10, 0, 5, 5, SELF_REFRESH), 12))
show(moved(Ledger(10, 0, 5, 5, SELF_REFRESH), 9))
show(moved(Ledger(10, 9, 5, 5, DEEP), 12))
late = Ledger(30000, 0, 0, 0, SELF_REFRESH)
show(moved(late, LAST))
show(entered(late, 30000, False, SELF_REFRESH))
show(entered(late, 30001, False, AWAKE))
show(entered(late, 30001, True, AWAKE))
show(moved(Ledger(30000, 0, 0, 2000), 30080))
show(moved(Ledger(30000, 0, 0, 2000, POWER_DOWN), 30081))
show(entered(Ledger(100, 3, 0, 50, SELF_REFRESH), 200, True, DEEP))


# ---- temperatures
def show_pace(pace):
    print(*pace)
    return pace


def senses(ledger, pace, stamp, mr4):
    """A field, and what the dues and the gap are from there on."""
    ledger = show(entered(ledger, stamp, False, sensed=True, pace=pace))
    pace = show_pace(respaced(BENCH, pace, number(ledger), mr4))
    print(deadline(ledger, pace))
    return ledger, pace


for mr4 in (0, 1, 2, 3, 4, 5, 6, 7, 0b11111001):
    show(moved(fresh, LAST, Pace(3120, mr4)))
    show(moved(Ledger(0, -8), LAST, Pace(3120, mr4)))
    show(entered(fresh, 9360, True, pace=Pace(3120, mr4)))
    for stamp in (1000, 3119, 3120, 3121):
        ledger, pace = senses(fresh, FIRST, stamp, mr4)
        for to in (3899, 3900, 6240, LAST):
            show(moved(ledger, to, pace))

# where the gap would be too long a field saves the trace; where the ledger is it does not
show(entered(Ledger(0, -8), 28081, False))
show(entered(Ledger(0, -8), 28081, False, sensed=True))
show(entered(Ledger(0, -8), 28082, False, sensed=True))
full = show(moved(fresh, 28079))
show(entered(full, 28080, False, sensed=True))
show(entered(full, 28080, True, sensed=True))

# asleep the number stays
for stamp, mr4 in ((3119, 5), (3120, 1), (3120, 4)):
    ledger, pace = senses(entered(fresh, stamp, False, SELF_REFRESH)[1], FIRST, 5000, mr4)
    awake = show(entered(ledger, 6000, False, AWAKE, pace=pace))
    show(moved(awake, 6001, pace))
    show(moved(awake, LAST, pace))
ledger, pace = senses(entered(fresh, 10, False, POWER_DOWN)[1], FIRST, 3120, 5)
show(moved(ledger, 3900, pace))
show(moved(ledger, LAST, pace))

# a next due of any kind
for mr4 in (1, 3, 5):
    for due in (0, 1, 9999, 10000, 10001, 16021, 16022, LAST, LAST + 1, 2**40, 2**64 - 2, 2**64 - 1):
        ledger, pace = Ledger(10000, 0, 9000), Pace(due, mr4)
        for to in (10000, 10001, 10780, LAST):
            show(moved(ledger, to, pace))
        show(entered(ledger, 10001, True, pace=pace))
        show(entered(ledger, 17000, False, pace=pace))
        print(deadline(ledger, pace))
        for code in (1, 6):
            show_pace(respaced(BENCH, pace, 10000, code))

# deadlines: none, and the farthest
print(deadline(Ledger(5, 9)))
print(deadline(Ledger(5, 0, 6)))
print(deadline(Ledger(level=DEEP)))
print(deadline(Ledger(LAST, 8, LAST), Pace(2**64 - 1, 1)))
print(deadline(Ledger(LAST, -8, LAST), Pace(0, 1)))

# an interval of one cycle
slow = Card(100000000, 100000)
show_pace(first_pace(slow))
pace = show_pace(respaced(slow, Pace(100, 3), 4, 5))
show(moved(Ledger(4, 0, 4), 12, pace, slow))
show(moved(Ledger(4, 0, 4), 13, pace, slow))
show(moved(Ledger(4, -8, 4), 14, pace, slow))
show(entered(Ledger(4, 0, 4), 13, True, pace=pace, card=slow))

# the pace of a card out of range
odd = Card(1, LAST)
show_pace(first_pace(odd))
for due, n in ((0, 0), (0, LAST), (LAST, LAST), (2**64 - 1, 0), (2**64 - 1, LAST)):
    for old, new in ((1, 1), (6, 2), (255, 0)):
        show_pace(respaced(odd, Pace(due, old), n, new))

# two refreshes and then a field, of one code after the other
ledger, pace = fresh, FIRST
for i in range(60):
    if i % 3 == 2:
        ledger, pace = senses(ledger, pace, 700 * (i + 1), i // 3 % 8)
    else:
        ledger = show(entered(ledger, 700 * (i + 1), True, pace=pace))

# a period that is no whole number of ps: each code's interval and deadline, and a ninth due at 8181 for 909 cycles
for trefi in (3900000, 1071811, 1071810):
    fine = Card(1071811, trefi)
    show_pace(first_pace(fine))
    for mr4 in range(1, 7):
        pace = show_pace(respaced(fine, Pace(2**32, 3), 0, mr4))
        print(deadline(fresh, pace, fine))
        for to in (8180, 8181):
            show(moved(fresh, to, pace, fine))

# a fs about the least and the most, and about tREFI
for period, trefi, good in ((937999, 3900000, False), (938000, 3900000, True), (100000000, 3900000, True), (100000001, 3900000, False),
                            (1000500, 1000, False), (1000500, 1001, True), (1001000, 1001, True), (1001001, 1001, False)):
    edge = Card(period, trefi, good)
    show(moved(fresh, 1, first_pace(edge), edge))
    show(entered(fresh, 1, False, pace=first_pace(edge), card=edge))

# 64 bits: refused, and the pace of such a card
for period in (1250, 2**32 + 1250000, 2**63, 2**63 + 1250000, 2**64 - 1):
    odd = Card(period, 20000000, False)
    show(moved(fresh, 1, card=odd))
    show(entered(fresh, 1, False, card=odd))
    show_pace(first_pace(odd))
    show_pace(respaced(odd, Pace(2**64 - 1, 1), LAST, 1))
    show_pace(respaced(odd, Pace(0, 6), LAST, 2))

# all cycles
show(moved(fresh, LAST))
show(moved(Ledger(4294939215, 0, 4294939215), LAST))
show(moved(Ledger(LAST, 8), LAST))
show(moved(Ledger(LAST, 8, 0, LAST), LAST))
show(moved(Ledger(4294967000, 8, 0, 4294939000), LAST))
show(moved(Ledger(4294967000, 8, 0, 4294939000, DEEP), LAST))
ledger = fresh
for to in range(24960, LAST + 1, 25792):
    ledger = refreshes(moved(ledger, to)[1], to, 9)
show(moved(ledger, LAST))

# and with a self-refresh of 100,000 cycles behind each run of refreshes
ledger = fresh
for to in range(24960, LAST - 100833, 125792):
    ledger = refreshes(moved(ledger, to)[1], to, 9)
    ledger = entered(ledger, to + 833, False, SELF_REFRESH)[1]
    ledger = entered(ledger, to + 100833, False, AWAKE)[1]
show(moved(ledger, 4294940000))
