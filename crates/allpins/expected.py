#!/usr/bin/env python3
# What allpins is to write, from document 01's list "Commands on the pins" and document 02, Nine, pin by pin:
#   python3 crates/allpins/expected.py > crates/allpins/stdout

NAMES = ["CA%dr" % i for i in range(10)] + ["CA%df" % i for i in range(10)] + ["CS_n", "CKE", "22", "23"]
NUMBERS = {"NOP": 0, "MRW": 1, "MRR": 2, "REFpb": 3, "REFab": 4, "ACT": 5, "RD": 6, "WR": 7, "PRE": 8, "PREA": 9, "reserved": 10}
LISTED = {1, 2, 3, 11, 16, 17}

# for each kind its levels from CA0r on, and the pins of each of its numbers from bit 0 up; a bit that has no pin is None
MA = ["CA%dr" % i for i in range(4, 10)] + ["CA0f", "CA1f"]
OP = ["CA%df" % i for i in range(2, 10)]
BA = ["CA%dr" % i for i in range(7, 10)]
ROW = ["CA%df" % i for i in range(0, 8)] + ["CA%dr" % i for i in range(2, 7)] + ["CA8f", "CA9f"]
COLUMN = [None, "CA5r", "CA6r"] + ["CA%df" % i for i in range(1, 10)]
KINDS = [
    ("MRW", "LLLL", {"ma": MA, "op": OP}),
    ("MRR", "LLLH", {"ma": MA}),
    ("REFpb", "LLHL", {}),
    ("REFab", "LLHH", {}),
    ("ACT", "LH", {"bank": BA, "row": ROW}),
    ("WR", "HLL", {"bank": BA, "column": COLUMN, "ap": ["CA0f"]}),
    ("RD", "HLH", {"bank": BA, "column": COLUMN, "ap": ["CA0f"]}),
    ("PRE", "HHLHL", {"bank": BA}),
    ("PREA", "HHLHH", {}),
    ("reserved", "HHLL", {}),
    ("NOP", "HHH", {}),
]

def levels(pins):
    return {name: pins >> i & 1 for i, name in enumerate(NAMES)}

def stands(on, level):
    return all(on["CA%dr" % i] == "LH".index(l) for i, l in enumerate(level))

def kind_at(on):
    for kind, level, places in KINDS:
        if stands(on, level):
            return kind, places

def command(on):
    """What the CA pins say to a part whose CS_n is low: a command as (kind, numbers), or the refusal 7."""
    kind, places = kind_at(on)
    if kind == "reserved":
        return 7
    numbers = {n: sum(on[pin] << b for b, pin in enumerate(at) if pin) for n, at in places.items()}
    if kind == "MRW" and numbers["ma"] not in LISTED:
        return 7
    return kind, numbers

def decode(pins):
    """In a trace of one part: a command as `command` has it, or the refusal 6 or 7."""
    on = levels(pins)
    if on["CKE"] != 1 or on["22"] or on["23"] or pins >> 24:
        return 6
    return ("NOP", {}) if on["CS_n"] else command(on)

SELECTS = ["CS_n", "22"]

def whose(pins):
    """In a trace of two parts: the one part whose CS_n is low, if it is one."""
    low = [part for part, pin in enumerate(SELECTS) if not levels(pins)[pin]]
    return low[0] if len(low) == 1 else None

def read_shared(pins):
    """In a trace of two parts: a command as `command` has it, or the refusal 6, 24 or 7."""
    on = levels(pins)
    if on["CKE"] != 1 or on["23"] or pins >> 24:
        return 6
    high = [on[pin] for pin in SELECTS]
    return 24 if not any(high) else ("NOP", {}) if all(high) else command(on)

def read(sleeps, level, pins):
    """Document 02, One: at this level of a card with tags 19 to 22, or of one without. A command as decode has it; a fall, with the level it goes to; an entry asleep;
    a rise; or the refusal 6, 7 or 16."""
    on = levels(pins)
    if not sleeps:
        return decode(pins)
    if on["22"] or on["23"] or pins >> 24:
        return 6
    if level == "deep":
        return 16
    if level != "awake":
        return ("LOW", {}) if not on["CKE"] else ("RISE", {}) if on["CS_n"] else 16
    if on["CKE"]:
        return decode(pins)
    if on["CS_n"]:
        return "FALL", {"level": "power-down"}
    to = [to for to, form in (("self-refresh", "LLH"), ("deep", "HHL")) if stands(on, form)]
    return ("FALL", {"level": to[0]}) if to else 16

def pins_of(kind, numbers, part=None, paired=False):
    """For the part told, of two where `paired`; NOP selects none."""
    if kind == "NOP":
        return 0x700000 if paired else 0x300000
    on = dict.fromkeys(NAMES, 0)
    on["CKE"] = 1
    if paired:
        on[SELECTS[1 - part]] = 1
    for name, level, places in KINDS:
        if name == kind:
            for i, l in enumerate(level):
                on["CA%dr" % i] = "LH".index(l)
            for n, at in places.items():
                for b, pin in enumerate(at):
                    if pin:
                        on[pin] = numbers[n] >> b & 1
    return sum(on[name] << i for i, name in enumerate(NAMES))

def unfit(kind, n):
    return (n.get("bank", 0) > 7 or n.get("row", 0) > 32767 or n.get("column", 0) % 2 == 1 or n.get("column", 0) > 4095
            or kind == "MRW" and n["ma"] not in LISTED)

def mistold(paired, part, kind):
    if not paired:
        return part is not None
    return kind != "NOP" if part is None else part > 1

def write(paired, part, stamp, room, kind, numbers):
    buffer = [165] * 12
    if mistold(paired, part, kind) or unfit(kind, numbers):
        return 14, buffer
    if room < 10:
        return 15, buffer
    pins = pins_of(kind, numbers, part, paired)
    buffer[:10] = bytes([32]) + (7).to_bytes(2, "big") + stamp.to_bytes(4, "big") + pins.to_bytes(3, "big")
    return 0, buffer

def mix(h, x):
    return (h * 1000003 + x) % 2**32

def put(h, paired, part, stamp, room, kind, numbers):
    answer, buffer = write(paired, part, stamp, room, kind, numbers)
    for x in [answer] + buffer:
        h = mix(h, x)
    return h

def packed(kind, n):
    small = n.get("bank", n.get("ma", 0))
    large = n.get("row", n.get("column", n.get("op", 0)))
    return (NUMBERS[kind] + 5 * n.get("ap", 0)) * 2**24 + small * 2**16 + large

def again(h, paired, part, pins, read):
    if read in (6, 7, 24):
        return mix(h, read)
    return put(mix(h, packed(*read)), paired, part, pins % 2**20 * 4093, 12, *read)

def decoded(h, pins):
    return again(h, False, None, pins, decode(pins))

def shared(h, pins):
    part = whose(pins)
    return again(mix(h, {0: 1, 1: 2, None: 3}[part]), True, part, pins, read_shared(pins))

def made(h, paired, part, n):
    access = {"bank": n % 16, "column": n * 7, "ap": int(n % 3 == 0)}
    for kind, numbers in [
        ("ACT", {"bank": n % 16, "row": n * 61}), ("RD", access), ("WR", access), ("PRE", {"bank": n % 256}),
        ("MRR", {"ma": n % 256}), ("MRW", {"ma": n % 256, "op": n // 4}), ("NOP", {}),
    ]:
        h = put(h, paired, part, n, n % 13, kind, numbers)
    return h

def line(rising):
    h = 0
    for f in range(1024):
        ca = f * 1024 + rising
        h = shared(shared(decoded(h, 0x200000 + ca), 0x600000 + ca), 0x300000 + ca)
    ca = (1023 - rising) * 1024 + rising
    for high in range(32):
        h = shared(decoded(h, high * 2**20 + ca), high * 2**20 + ca)
    for paired in [False, True]:
        for part in [None, rising % 3]:
            h = made(h, paired, part, rising)
    return "%d %d" % (NUMBERS[kind_at(levels(rising))[0]], h)

if __name__ == "__main__":
    for r in range(1024):
        print(line(r))
