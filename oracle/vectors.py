#!/usr/bin/env python3
"""vectors.py [FOLDER]: the lookup, a slew step and a slew's rate as the Rust computes them, as text files.

Writes tables.txt, lookup.txt, slew.txt, rate.txt and HOW.txt into FOLDER (crates/replay_leaves/data of the
repository), asking target/release/vectors. Then holds each file to a plain copy of the formula in
Python, and to copies with one mistake each: how many lines every mistake changes. Exit 1 if the plain
copy differs anywhere or a mistake changes no line. The same files come out each time.
"""
import ctypes
import math
import os
import random
import struct
import subprocess
import sys

HERE = os.path.dirname(os.path.abspath(__file__))
VECTORS = os.path.join(HERE, "target/release/vectors")
SEED = 2027
INF, NAN = math.inf, math.nan
HOW = """tables.txt, lookup.txt, slew.txt and rate.txt are written by `python3 oracle/vectors.py`, random numbers by
Python's random.Random(%d); run again, it writes the same bytes. The answers are the published Rust's, which
oracle/driver/src/bin/vectors.rs asks. Every word is the 8 hexadecimal digits of a binary32's bits, NaN is
7FC00000, a zero has the sign that the Rust gives it; words are parted by one blank, a line ends with one newline.
tables.txt  3 tables of 513 numbers, one a line, table after table.
            0: i/512. 1: random from -16 to 16, with -0, subnormals and both bounds. 2: steps, one steep.
lookup.txt  T X Y: table number, position, the lookup's answer (curve.rs, lookup). %d lines.
slew.txt    PREV U UP DOWN STEPS SNAP Y: what the slew held, its input, both rates per sample, how many
            samples (0 off-phase, 1 audio, 32 tick), snap (0 or 1), what it holds afterwards
            (engine.rs, input). %d lines.
rate.txt    SECONDS RATE Y: a rise in seconds, the sample rate, the rate per sample
            (program.rs, per_sample, after Curve::slew). %d lines.
"""


def f32(x):
    return ctypes.c_float(x).value


def hx(x):
    return "7FC00000" if x != x else struct.pack(">f", x).hex().upper()


def fl(h):
    return struct.unpack(">f", bytes.fromhex(h))[0]


def ask(lines):
    p = subprocess.run([VECTORS], input="\n".join(lines).encode() + b"\n", stdout=subprocess.PIPE, check=True)
    return p.stdout.decode().split("\n")[:-1]


def near(x, by):
    """The binary32 next to x, up or down."""
    n = struct.unpack(">i", struct.pack(">f", x))[0]
    n = n if n >= 0 else -(n & 0x7FFFFFFF)
    n += by
    return fl("%08X" % (n if n >= 0 else 0x80000000 | -n))


TINY, SUBNORMAL, NORMAL, LARGEST = fl("00000001"), fl("007FFFFF"), fl("00800000"), fl("7F7FFFFF")


# What is asked ---------------------------------------------------------------------

def tables(r):
    line = [i / 512.0 for i in range(513)]
    wild = [f32(r.uniform(-16, 16)) if r.random() < 0.7 else f32(r.uniform(-1, 1) * 2.0 ** r.randrange(-20, 4)) for _ in range(513)]
    for i, x in zip([0, 7, 8, 9, 64, 65, 128, 129, 255, 256, 400, 401, 510, 511, 512],
                    [-0.0, 16.0, -16.0, 16.0, -0.0, -1.0, TINY, -TINY, SUBNORMAL, -SUBNORMAL, NORMAL, -0.0, 16.0, f32(-15.9), f32(0.1)]):
        wild[i] = x
    steps = []
    while len(steps) < 513:
        steps += [f32(r.uniform(-2, 2))] * r.randrange(2, 12)
    steps = steps[:513]
    steps[300:310] = [-16.0] * 5 + [16.0] * 5
    steps[511], steps[512] = 16.0, f32(0.1)
    return [line, wild, steps]


def positions(r):
    xs = [NAN, INF, -INF, 0.0, -0.0, TINY, -TINY, SUBNORMAL, -SUBNORMAL, NORMAL, 1.0, near(1.0, -1), near(1.0, 1), -1.0,
          LARGEST, -LARGEST, 0.5]
    for i in range(513):
        xs += [near(i / 512.0, -1), i / 512.0, near(i / 512.0, 1)]
    xs += [f32(r.random()) for _ in range(300)]
    return list(dict.fromkeys(hx(x) for x in xs))


RATES = [  # sample rate, rise, fall
    (64.0, 1.0, 1.0), (64.0, 1.0, 0.0), (64.0, 0.0, 1.0), (64.0, 0.25, 4.0), (48000.0, 0.01, 0.5), (44100.0, 2.0, 0.003),
    (3e38, 10.0, 10.0), (3e38, 10.0, 0.0), (3e38, 0.0, 10.0), (3e38, 10.0, 1e-38),       # overflow: rate 0
    (0.001, 1e-45, 1e-45), (0.5, 1e-45, 2.0), (2.0, 2.0, 1e-42),                         # underflow: infinite
    (1.0, 3e-38, 1.0), (1.0, 1.0, 3e-38),                                                # times 32 is infinite
    (1e30, 1e8, 1e7), (1e38, 3.0, 2.0),                                                  # tiny and subnormal rates
]


def slew_questions(r):
    # The third table answers entry i at i/512, exactly, where the next entry is no smaller or it is not 0.
    special = [0.0, 1.0, -0.0, -1.0, TINY, 1.0, -TINY, 2.0, SUBNORMAL, 3.0, -SUBNORMAL, 4.0, NORMAL, -NORMAL, 16.0, -16.0, 0.5, f32(0.1)]
    special += [f32(r.uniform(-1, 1) * 2.0 ** r.randrange(-30, 5)) for _ in range(513 - len(special))]
    line = [i / 512.0 for i in range(513)]
    constant = [f32(0.3)] * 513
    out = ["table " + " ".join(map(hx, t)) for t in (line, constant, special)]
    fixed = [NAN, INF, -INF, 0.0, -0.0, TINY, -TINY, SUBNORMAL, -SUBNORMAL, NORMAL, LARGEST, -LARGEST, 1.0, -1.0, 0.5, 16.0, -16.0, f32(0.3)]
    for rate, rise, fall in RATES:
        for steps in (0.0, 1.0, 32.0):
            for batch in range(3):
                t = r.choice([0, 1, 2, 2])
                lanes = []
                for _ in range(16):
                    x = {0: r.random(), 1: r.uniform(-1, 2), 2: r.choice([r.randrange(20), r.randrange(513)]) / 512.0}[t]
                    x = NAN if r.random() < 0.1 else f32(x)
                    prev = r.choice([r.choice(fixed), f32(r.uniform(-2, 2)), f32(r.random()), fl("%08X" % r.getrandbits(32))])
                    lanes.append("%s:%s:%s" % (hx(prev), hx(x), hx(float(r.random() < 0.4))))
                out.append("slew %s %s %s %s %X %s" % (hx(rate), hx(rise), hx(fall), hx(steps), t, " ".join(lanes)))
    return out


def rate_questions(r):
    seconds = [0.0, -0.0, -1.0, -TINY, -LARGEST, TINY, SUBNORMAL, NORMAL, LARGEST, 1.0, 0.5, 0.01, 3.0, 10.0, 1e-30, 1e30, 1.0 / 3.0, 32.0 / 48000.0]
    rates = [64.0, 1.0, 0.001, 44100.0, 48000.0, 96000.0, TINY, SUBNORMAL, NORMAL, LARGEST, 1e30, 3e38, 1.0 / 3.0]
    both = [(f32(s), f32(q)) for s in seconds for q in rates]
    both += [(f32(r.uniform(0, 3)), f32(r.uniform(1, 1e5))) for _ in range(100)]
    both += [(abs(fl("%08X" % r.getrandbits(31))), abs(fl("%08X" % r.getrandbits(31)))) for _ in range(100)]
    both = [(hx(s), hx(q)) for s, q in both if math.isfinite(s) and math.isfinite(q) and q > 0]
    return list(dict.fromkeys(both))


# The formulas, with mistakes to choose ---------------------------------------------

def add(a, b):
    return f32(a + b)


def mul(a, b):
    return f32(a * b)


def fmax(a, b):
    return b if a != a or a < b else a


def fmin(a, b):
    return b if a != a or b < a else a


def lookup(t, x, wrong=None):
    if wrong == "entry 512 at 1" and x >= 1:
        return t[512]
    if wrong == "a NaN position answers entry 0" and x != x:
        return t[0]
    lo = x if wrong == "not held to 0" else 0.0 if x < 0 else x
    pos = mul(1.0 if lo > 1 and wrong != "not held to 1" else lo, 512.0)
    near_cell = 0.5 if wrong == "the nearest cell" else 0.0
    i = 0 if pos != pos else int(max(0.0, min(pos + near_cell, 511.0)))
    part = add(pos, -float(i))
    if wrong == "a(1 - part) + b part":
        return add(mul(t[i], add(1.0, -part)), mul(t[i + 1], part))
    return add(t[i], mul(add(t[i + 1], -t[i]), part))


LOOKUP = ["entry 512 at 1", "a NaN position answers entry 0", "not held to 0", "not held to 1", "the nearest cell", "a(1 - part) + b part"]


def slew(prev, u, up, down, steps, snap, wrong=None):
    if wrong == "down for up":
        up = down
    if wrong == "up for down":
        down = up
    if steps == 0 and wrong != "rates times 0 samples" and not (wrong == "0 samples at an infinite rate move"):
        up = down = 0.0
    elif wrong == "0 samples at an infinite rate move" and steps == 0:
        up, down = (x if x == INF else 0.0 for x in (up, down))
    else:
        up, down = mul(up, steps), mul(down, steps)
    d = add(u, -prev)
    if wrong == "max and min swapped":
        d = fmax(fmin(d, -down), up)
    else:
        d = fmin(fmax(d, -down), up)
    moved = u if wrong == "in full is u" and d == add(u, -prev) else add(prev, d)
    if wrong == "no snap where it is 0" and snap == 0:
        return moved
    if wrong == "a snap is u" and snap == 1:
        return u
    return add(moved, mul(add(u, -moved), snap))


SLEW = ["max and min swapped", "no snap where it is 0", "down for up", "up for down", "rates times 0 samples",
        "0 samples at an infinite rate move", "a snap is u", "in full is u"]


def per_sample(seconds, rate, wrong=None):
    if not seconds > 0:
        return 0.0 if wrong == "0 seconds stand still" else INF
    if wrong == "1 / seconds / rate":
        return f32(f32(1 / seconds) / rate)
    product = seconds * rate if wrong == "the product not rounded" else mul(seconds, rate)
    if wrong == "overflow is infinite" and product == INF:
        return INF
    return INF if product == 0 else f32(1 / product)


RATE = ["0 seconds stand still", "1 / seconds / rate", "the product not rounded", "overflow is infinite"]


def hold(name, rows, formula, mistakes):
    """Holds rows of words to the formula: the last word is the answer. True if all is as it should be."""
    ok = True
    for wrong in [None] + mistakes:
        n = sum(hx(formula(w, wrong)) != w[-1] for w in rows)
        ok &= (n == 0) if wrong is None else n > 0
        print("%-10s %5d of %d lines differ: %s" % (name, n, len(rows), wrong or "the formula"))
    return ok


def describe(path, own):
    """Puts our paragraph into HOW.txt, in place of an earlier one; other paragraphs stay."""
    others = open(path).read().split("\n\n") if os.path.exists(path) else []
    others = [x.strip("\n") for x in others if x.strip() and x.split(".txt")[0] != own.split(".txt")[0]]
    with open(path, "w", newline="\n") as f:
        f.write("\n\n".join([own.strip("\n")] + others) + "\n")


def main():
    folder = sys.argv[1] if len(sys.argv) > 1 else os.path.join(HERE, "..", "crates", "replay_leaves", "data")
    os.makedirs(folder, exist_ok=True)
    r = random.Random(SEED)
    ts = tables(r)
    asked = [("%08X" % t, x) for t in range(3) for x in positions(r)]
    answers = ask(["table " + " ".join(map(hx, t)) for t in ts] + ["lookup %s %s" % q for q in asked])
    looked = [[t, x, y] for (t, x), y in zip(asked, answers)]
    slewed = [l.split() for l in dict.fromkeys(ask(slew_questions(r)))]
    asked = rate_questions(r)
    rated = [[s, q, y] for (s, q), y in zip(asked, ask(["rate %s %s" % q for q in asked]))]
    for name, rows in [("tables", [[hx(x)] for t in ts for x in t]), ("lookup", looked), ("slew", slewed), ("rate", rated)]:
        with open(os.path.join(folder, name + ".txt"), "w", newline="\n") as f:
            f.writelines(" ".join(w) + "\n" for w in rows)
    describe(os.path.join(folder, "HOW.txt"), HOW % (SEED, len(looked), len(slewed), len(rated)))
    ok = hold("lookup", looked, lambda w, wrong: lookup(ts[int(w[0], 16)], fl(w[1]), wrong), LOOKUP)
    ok &= hold("slew", slewed, lambda w, wrong: slew(*map(fl, w[:6]), wrong), SLEW)
    ok &= hold("rate", rated, lambda w, wrong: per_sample(fl(w[0]), fl(w[1]), wrong), RATE)
    sys.exit(not ok)


main()
