"""Writes stdin and stdout: a stream of traces, and the verdict of each by corpus/paper.py, which is written from the documents. Run it in this folder.

The traces are the files of corpus/data and five that are longer than the program's buffer: one is accepted, so are one with sleeps, one of two parts and one with
temperature fields, and of one all behind an early entry is passed over."""
import os
import sys

sys.dont_write_bytecode = True
sys.path.insert(0, "../corpus")
import paper

CKE, NOP = 1 << 21, 3 << 20
ACT, RD, PRE, REFAB = CKE | 2, CKE | 5, CKE | 11, CKE | 12
DOWN, SELF, WAKE = 1 << 20, 12, NOP
MR4 = 1 << 24  # above the 24 pins: a temperature field


def corpus(name):
    with open("../corpus/data/" + name, "rb") as f:
        return f.read()


def pins(k):
    """REFab once an interval of the bench card, a bank opened, read and closed in between, and NOP."""
    return {0: REFAB, 100: ACT, 150: RD, 200: PRE}.get(k % 780, NOP)


def sleeping_pins(k):
    """Likewise, with a self-refresh and a power-down in each interval and entries asleep."""
    moves = {300: SELF, 400: WAKE, 500: DOWN, 600: WAKE}
    asleep = 300 < k % 780 < 400 or 500 < k % 780 < 600
    return moves.get(k % 780, k & 0xFF if asleep else pins(k))


def parts_pins(k):
    """Likewise in both parts, the second an entry behind the first; CS_n of both is high elsewhere."""
    first, second = pins(k), pins(k - 1)
    if first != NOP:
        return first | 1 << 22
    return second | 1 << 20 if k and second != NOP else 7 << 20


def heated_pins(k):
    """Likewise, with a temperature field in each interval of the bench card: a half and the whole of it in turn."""
    return MR4 | (3 if k // 780 % 2 else 4) if k % 780 == 300 else pins(k)


def field(t, p):
    stamp = t.to_bytes(4, "big")
    return bytes([34, 0, 5]) + stamp + bytes([p - MR4]) if p >= MR4 else bytes([32, 0, 7]) + stamp + p.to_bytes(3, "big")


def long(changed=(), pins=pins, card=corpus("1-no-end")):
    """An entry every four cycles behind the bench card; some are changed."""
    entries = {**{k: pins(k) for k in range(6600)}, **dict(changed)}
    out = [card] + [field(4 * k, p) for k, p in sorted(entries.items())]
    return b"".join(out) + bytes([33, 0, 4]) + (4 * 6600).to_bytes(4, "big")


traces = [corpus(name) for name in sorted(os.listdir("../corpus/data"))]
traces += [long(), long(pins=sleeping_pins, card=corpus("tags-and-no-sleep")[:167]), long(pins=parts_pins, card=corpus("25-0")[:139]), long(pins=heated_pins), long({160: ACT}),
           corpus("bench-example")]
verdicts = [paper.judge(t)[-1] for t in traces]
assert verdicts[-2] == "refused 8 0 %d 0" % (135 + 1600)
# of the one with fields 12 fall due: at 2760, 4320 and 5880, and so on every 6240 cycles
assert verdicts[-6:-2] == ["accepted 36 9 -1", "accepted 36 9 -2", "accepted 72 18 -1 -1", "accepted 36 9 3"], verdicts[-6:]
assert all(len(t) > 65536 for t in traces[-6:-1])
with open("stdin", "wb") as f:
    f.write(b"".join(len(t).to_bytes(4, "big") + t for t in traces))
with open("stdout", "w") as f:
    f.write("".join(v + "\n" for v in verdicts))
print(len(traces), "traces")
