#!/usr/bin/env python3
"""edits.py [FOLDER]: the editor's calls (drag, vibrato, velocity to amp, the polarity and the depth of a drag) as the Rust answers them.

Writes edits.txt and HOW.txt into FOLDER (crates/replay_edits/data of the repository), asking target/release/edits. Then holds the list to
a plain copy of the calls in Python, and to copies with one mistake each: how many lines every mistake changes. Exit 1 if
the plain copy differs anywhere or a mistake changes no line. The same files come out each time.

No binary32 is exactly 0.005 from the middle, rounded, so whether such a position is centred shows nowhere.
"""
import ctypes
import math
import os
import random
import struct
import subprocess
import sys

HERE = os.path.dirname(os.path.abspath(__file__))
EDITS = os.path.join(HERE, "target/release/edits")
SEED = 2027
INF, NAN = math.inf, math.nan
NOTHING, NO_SLOT, FULL, NO_FREE_LFO = 0xFFFFFFFF, 64, 64, 65
CLEAR, PUT, DRAG, VIBRATO, VELOCITY, POLARITY, DEPTH = range(7)
HOW = """edits.txt is written by `python3 oracle/edits.py`, random numbers by Python's random.Random(%d); run again, it writes the same bytes. The
answers are the published Rust's, which oracle/driver/src/bin/edits.rs asks; where document 01 refuses a call its number is the answer, and the
Rust is not asked (`oracle/target/release/edits --all` says what it does there). %d lines of 24 words, each 8 hexadecimal
digits, parted by one blank; a number is a binary32's bits. The calls are made one after the other on one matrix, empty at first.
0      the call: 0 an empty matrix, 1 set_slot, 2 drag, 3 create_vibrato, 4 create_velocity_to_amp, 5 drag_polarity, 6 limit_depth
1      source, or the mod wheel
2 3    target: 1 and a parameter, or 2 and LFO x 256 + bus
4 5    position, amount
6      1 toggle (call 2 and 5) or bipolar (call 6), 2 limit
7 8 9  how many LFOs, and their numbers, a byte each
10     the answer: the slot, 40 full, 41 no free LFO; call 5: 1 is bipolar; 100 + n: refused with document 01's number n
11     the answer's number, of call 6
12     the slot that the call changes, 40 where it changes none; calls 0 and 1 as asked
13..23 that slot afterwards: source, aux (FFFFFFFF is none), target (0 is none) as above, amount, output, flags (1 bipolar, 2 aux
       inverted, 4 bypass, 8 and 10 the source's and the aux's curve are tables), rise and fall of the source's curve and of the aux's
"""


def f32(x):
    return ctypes.c_float(x).value


def hx(x):
    return "7FC00000" if x != x else struct.pack(">f", x).hex().upper()


def bits(x):
    return int(hx(x), 16)


def fl(n):
    return struct.unpack(">f", struct.pack(">I", n))[0]


def near(x, by):
    """The binary32 that is so many steps from x > 0."""
    return fl(bits(f32(x)) + by)


TINY, SUBNORMAL, LARGEST = fl(1), fl(0x007FFFFF), fl(0x7F7FFFFF)
POSITIONS = [0.0, -0.0, 1.0, 0.5, 0.25, 0.75, -1.0, 2.0, TINY, -TINY, SUBNORMAL, near(1, -1), near(1, 1), LARGEST, -LARGEST]
CENTRE = [near(x, by) for x in (0.495, 0.5, 0.505) for by in range(-3, 4)]
AMOUNTS = [0.0, -0.0, 1.0, -1.0, 0.5, -0.5, 1.5, -2.0, TINY, -TINY, near(1, 1), -near(1, 1), 0.25, -0.75, LARGEST, -LARGEST]
ODD = [NAN, INF, -INF]
TARGETS = [(1, 0), (1, 7), (1, 0xFFFFFFFF), (2, 0), (2, 0x0302), (2, 0xFFFF), (2, 0x00FF), (2, 0xFF00)]


# What is asked ---------------------------------------------------------------------

def ask(call, source=0, target=(0, 0), position=0.0, amount=0.0, flags=0, lfos=()):
    b = list(lfos) + [0] * (8 - len(lfos))
    packed = [int.from_bytes(bytes(b[i:i + 4]), "big") for i in (0, 4)]
    return [call, source, target[0], target[1], bits(position), bits(amount), flags, len(lfos)] + packed


def put(n, source=NOTHING, aux=NOTHING, target=(0, 0), amount=0.0, output=1.0, flags=0, seconds=(0.0, 0.0, 0.0, 0.0)):
    return ask(PUT) + [0, 0, n, source, aux, target[0], target[1], bits(amount), bits(output), flags] + [bits(x) for x in seconds]


def alone(r):
    """Polarities and depths, which ask no matrix."""
    random_positions = [f32(r.uniform(0, 1)) for _ in range(12)]
    for x in POSITIONS + CENTRE + ODD + random_positions:
        for toggle in (0, 1):
            yield ask(POLARITY, position=x, flags=toggle)
    for x in POSITIONS + random_positions[:6] + ODD[:2]:
        for bipolar in (0, 1):
            for a in AMOUNTS + [f32(r.uniform(-1, 1))] + ODD:
                if x == x and a == a or a in (1.0, 0.5) or x == 0.5:
                    yield ask(DEPTH, position=x, amount=a, flags=bipolar)


def drags(r):
    """Drags into an empty matrix: every target, position and amount, both marks."""
    for i, (x, a) in enumerate([(x, r.choice(AMOUNTS)) for x in POSITIONS + CENTRE + ODD] + [(r.choice(POSITIONS + CENTRE), a) for a in AMOUNTS + ODD]):
        if i % 40 == 0:
            yield ask(CLEAR)
        yield ask(DRAG, i, TARGETS[i % len(TARGETS)], x, a, i % 4)
    for flags in range(4):
        yield ask(CLEAR)
        for x in POSITIONS + [near(0.505, -1), near(0.505, 1)]:
            yield ask(DRAG, 65535, r.choice(TARGETS), x, r.choice((1.0, -1.0, 1.5, -2.0, 0.25, -0.25)), flags)


def full():
    """A matrix that fills up, and every call on it when it is full."""
    yield ask(CLEAR)
    for n in range(64):
        yield ask((DRAG, VELOCITY)[n % 2], n, TARGETS[n % len(TARGETS)], 0.5, 1.0, n % 4)
    yield ask(DRAG, 1, (1, 5), 0.5, 1.0)
    yield ask(DRAG, 1, (1, 5), NAN, 1.0)
    yield ask(VELOCITY, 1, (1, 5), amount=1.0)
    yield ask(VELOCITY, 1, (1, 5), amount=INF)
    yield ask(VIBRATO, 9, (1, 5), amount=1.0, lfos=(100,))
    yield ask(VIBRATO, 9, (1, 5), amount=1.0, lfos=(1, 2))
    yield ask(VIBRATO, 9, (1, 5), amount=1.0)
    yield ask(VIBRATO, 9, (1, 5), amount=NAN, lfos=(1, 2))
    for n in (63, 0, 17):
        yield put(n)
        yield ask(DRAG, 200 + n, (2, 5), 0.75, 0.5, 2)
        yield ask(DRAG, 200 + n, (2, 5), 0.75, 0.5, 2)


def leftovers():
    """Slots that are empty but for what the last route left in them, and slots with a source or a destination alone."""
    left = dict(amount=0.75, output=0.25, flags=31, aux=5, seconds=(1.0, 2.0, 0.5, 0.25))
    for call in (ask(DRAG, 3, (1, 9), 0.25, 0.5, 2), ask(VELOCITY, 3, (2, 0x0102), amount=-0.5), ask(VIBRATO, 4, (1, 9), amount=0.5, lfos=(3,))):
        yield ask(CLEAR)
        yield put(0, **left)
        yield put(1, **left)
        yield call
        yield call
        yield ask(CLEAR)
        yield put(0, source=7, **left)
        yield put(1, target=(1, 9), **left)
        yield put(2, target=(2, 0), **left)
        yield call
        yield put(63, source=7, target=(1, 1), **left)
        yield put(64, source=7)
        yield put(64, amount=NAN)
        yield put(5, amount=NAN)
        yield put(5, output=INF)
        yield put(5, flags=8, seconds=(-INF, 0.0, 0.0, 0.0))
        yield put(5, flags=16, seconds=(0.0, 0.0, 0.0, NAN))
        yield put(5, source=1, amount=2.5, output=-3.0)
        yield call


def vibratos():
    """Which LFO is free, and every amount and target."""
    lists = [(), (3,), (3, 4), (4, 3), (3, 3), (3, 4, 5, 6, 7, 8, 9, 10), (255, 0), (0,)]
    for used in ((), (3,), (3, 4), (0, 255), (3, 4, 5, 6, 7, 8, 9)):
        for lfos in lists:
            yield ask(CLEAR)
            for i, n in enumerate(used):
                yield put(2 * i, source=n, target=(1, i), flags=(0, 4)[i % 2])
            yield put(20, source=90, aux=10, target=(1, 3))
            yield ask(VIBRATO, 77, (1, 40), amount=0.5, lfos=lfos)
            yield ask(VIBRATO, 65535, (2, 0x0201), amount=-0.5, lfos=lfos)
    yield ask(CLEAR)
    yield put(0, source=3)
    yield put(1, target=(1, 3))
    for i, a in enumerate(AMOUNTS + ODD):
        yield ask(VIBRATO, i, TARGETS[i % len(TARGETS)], amount=a, lfos=(3, 100 + i))
    yield ask(CLEAR)
    for i, a in enumerate(AMOUNTS + ODD):
        yield ask(VELOCITY, i, TARGETS[i % len(TARGETS)], amount=a)


def walk(r):
    """A random walk."""
    yield ask(CLEAR)
    for _ in range(90):
        x, a = r.choice(POSITIONS + CENTRE + [f32(r.uniform(0, 1))] * 20), r.choice(AMOUNTS + [f32(r.uniform(-1.2, 1.2))] * 20)
        x, a = (r.choice(ODD), a) if r.random() < 0.03 else (x, r.choice(ODD)) if r.random() < 0.03 else (x, a)
        t, lfos = r.choice(TARGETS), [r.randrange(12) for _ in range(r.randrange(9))]
        yield r.choice([ask(DRAG, r.randrange(12), t, x, a, r.randrange(4))] * 5 + [ask(VELOCITY, r.randrange(12), t, amount=a)] * 2
                       + [ask(VIBRATO, r.randrange(300), t, amount=a, lfos=lfos)] * 3
                       + [put(r.randrange(64), r.choice([NOTHING, r.randrange(12)]), r.choice([NOTHING, 4]), r.choice([(0, 0), t]), amount=a, flags=r.randrange(32), seconds=(0.5, 0.0, -1.0, 2.0))] * 2
                       + [put(r.randrange(64))])


def questions():
    r = random.Random(SEED)
    return [q for part in (alone(r), drags(r), full(), leftovers(), vibratos(), walk(r), walk(r), walk(r), walk(r)) for q in part]


# The calls in Python ------------------------------------------------------------------

def clamp(x, lo, hi):
    return lo if x < lo else hi if x > hi else x


def polarity_of(x, toggle, wrong):
    tolerance = f32({"no tolerance": 0.0, "a smaller tolerance": 0.0049999, "a larger tolerance": 0.0050001}.get(wrong, 0.005))
    centred = abs(f32(x - 0.5)) <= tolerance
    return centred != (toggle and wrong != "toggle does nothing")


def depth_of(x, bipolar, a, wrong):
    if wrong != "the position is not held to 0 to 1":
        x = clamp(x, 0.0, 1.0)
    above = f32(1.0 - x)
    room = above if a >= 0 else x
    if wrong == "the room is the other way's":
        room = x if a >= 0 else above
    if wrong == "a negative amount has the room above":
        room = above
    if bipolar and wrong != "both ways have the room of one":
        room = max(x, above) if wrong == "both ways have the room of the further end" else min(x, above)
    if wrong == "an amount below 0 is not limited" and a < 0:
        return a
    return min(max(a, -room), room) if room < 0 else clamp(a, -room, room)


def empty():
    return [NOTHING, NOTHING, 0, 0, 0.0, 1.0, 0, 0.0, 0.0, 0.0, 0.0]


def is_empty(s, wrong):
    if wrong == "a slot with a source alone is empty":
        return s[2] == 0
    if wrong == "a slot with a destination alone is empty":
        return s[0] == NOTHING
    return s[0] == NOTHING and s[2] == 0


def add(m, source, target, a, bipolar, wrong, aux=NOTHING):
    free = [n for n in range(64) if is_empty(m[n], wrong)]
    if not free:
        return FULL, None
    n = free[-1] if wrong == "the last empty slot is taken" else free[0]
    s = list(m[n]) if wrong == "what the last route left stays" else empty()
    kept = a if wrong == "the amount is not held to -1 to 1" else clamp(a, -1.0, 1.0)
    s[0], s[1], s[2:4], s[4], s[6] = source, aux, target, kept, int(bipolar) | (2 if aux != NOTHING and wrong == "the mod wheel is inverted" else 0)
    return n, s


def in_use(m, lfo, wrong):
    return any(s[0] == lfo and not (wrong == "a bypassed slot uses no LFO" and s[6] & 4) or wrong == "an aux is in use" and s[1] == lfo for s in m)


def vibrato(m, q, target, a, wrong):
    lfos = b"".join(x.to_bytes(4, "big") for x in q[8:10])[:q[7]]
    free = [n for n in lfos if not in_use(m, n, wrong)]
    if not free and not (wrong == "full before no free LFO" and not any(is_empty(s, wrong) for s in m)):
        return NO_FREE_LFO, None
    lfo = 0 if not free else free[-1] if wrong == "the last free LFO is taken" else free[0]
    return add(m, lfo, target, a, wrong != "a vibrato is one way", wrong, NOTHING if wrong == "a vibrato has no aux" else q[1])


def slot_of(w):
    return w[:4] + [fl(w[4]), fl(w[5]), w[6]] + [fl(x) for x in w[7:11]]


def refused(q):
    taken = {PUT: (17, 18, 20, 21, 22, 23), DRAG: (4, 5), DEPTH: (4, 5), VIBRATO: (5,), VELOCITY: (5,), POLARITY: (4,)}.get(q[0], ())
    return not all(math.isfinite(fl(q[i])) for i in taken)


def answer(m, q, wrong):
    """The answer, its number, and the slot that changes."""
    call, x, a, target, toggle = q[0], fl(q[4]), fl(q[5]), q[2:4], q[6] & 1 == 1
    if call == PUT and q[12] > 63:
        return 0x105, 0.0, None, None
    if refused(q) and wrong != "numbers that are not finite are taken":
        return 0x106, 0.0, None, None
    if call == PUT:
        return 0, 0.0, q[12], slot_of(q[13:24])
    if call == POLARITY:
        return int(polarity_of(x, toggle, wrong)), 0.0, None, None
    if call == DEPTH:
        return 0, depth_of(x, toggle, a, wrong), None, None
    if call == VIBRATO:
        n, s = vibrato(m, q, target, a, wrong)
    elif call == VELOCITY:
        n, s = add(m, q[1], target, a, wrong == "velocity to amp is both ways", wrong)
    else:
        both = polarity_of(x, toggle, wrong)
        limited = depth_of(x, both, a, wrong) if q[6] & 2 or wrong == "a drag is always limited" else a
        n, s = add(m, q[1], target, a if wrong == "limit does nothing" else limited, both, wrong)
    return n, 0.0, n if s else None, s


def same(a, b):
    return a == b or a != a and b != b


def differing(rows, wrong):
    """How many lines of the list a copy of the calls answers otherwise. After each the matrix is the list's."""
    m, n = [empty() for _ in range(64)], 0
    for q in rows:
        if q[0] == CLEAR:
            m = [empty() for _ in range(64)]
            continue
        code, x, at, s = answer(m, q, wrong)
        want, changed = slot_of(q[13:24]), q[12] if q[10] < 0x100 and q[12] < 64 else None
        slot_differs = at != changed and not (s and changed is None and at is not None and all(map(same, s, m[at])))
        slot_differs |= at is not None and at == changed and not all(map(same, s, want))
        n += code != q[10] or not same(x, fl(q[11])) or slot_differs
        if changed is not None:
            m[changed] = want
    return n


MISTAKES = """no tolerance. a smaller tolerance. a larger tolerance. toggle does nothing. the position is not held to 0 to 1. the
room is the other way's. a negative amount has the room above. both ways have the room of one. both ways have the room of the further end. an amount below 0 is
not limited. a drag is always limited. limit does nothing. the amount is not held to -1 to 1. a slot with a source alone is empty. a slot with a destination alone is
empty. the last empty slot is taken. what the last route left stays. a bypassed slot uses no LFO. an aux is in use. the last free LFO is taken. full before no free LFO. a
vibrato is one way. a vibrato has no aux. the mod wheel is inverted. velocity to amp is both ways. numbers that are not finite are taken"""


def main():
    folder = sys.argv[1] if len(sys.argv) > 1 else os.path.join(HERE, "..", "crates", "replay_edits", "data")
    os.makedirs(folder, exist_ok=True)
    asked = "\n".join(" ".join("%08X" % w for w in q) for q in questions()) + "\n"
    text = subprocess.run([EDITS], input=asked.encode(), stdout=subprocess.PIPE, check=True).stdout.decode()
    rows = [[int(w, 16) for w in line.split()] for line in text.split("\n")[:-1]]
    with open(os.path.join(folder, "edits.txt"), "w", newline="\n") as f:
        f.write(text)
    with open(os.path.join(folder, "HOW.txt"), "w", newline="\n") as f:
        f.write(HOW % (SEED, len(rows)))
    ok = True
    for wrong in [None] + [" ".join(x.split()) for x in MISTAKES.split(". ")]:
        n = differing(rows, wrong)
        ok &= (n == 0) if wrong is None else n > 0
        print("edits %5d of %d lines differ: %s" % (n, len(rows), wrong or "the calls"))
    sys.exit(not ok)


if __name__ == "__main__":
    main()
