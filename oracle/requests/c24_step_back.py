#!/usr/bin/env python3
"""c24_step_back.py SEED COUNT | --hold PROGRAM SEED COUNT | --faults [SEED COUNT] | --rust SEED COUNT

C-24, taking back draws: the line `step_back N`.

Written from: Vigna's xorshift64* (x ^= x >> 12, x ^= x << 25, x ^= x >> 27 on 64 bits; the product is of what is drawn
and not of the state); document 02, C-24; the session lines of the requests' page.

The oracle has no such call. In its session `step_back N` becomes `set_rng`, with the state that `state` prints there,
taken back by the reference; every other line is the oracle's. Open blocks are rewritten as c18_open.py has it.

--rust holds the forward step to the Rust, and shows by matrices of bits that stepping back undoes every step: a step is
linear over single bits, so it is decided by the 64 states that have one bit. The matrix has full rank, so no two states
share a next one, and 0 comes from 0 alone.

Decided here: `step_back` judges 22, then 19; 0 draws and 4,096 are accepted; nothing but the state of the draws
changes, neither marks nor numbers that were drawn.
"""
import random
import re
import sys

import c18_open
import common
import make

MASK = (1 << 64) - 1
MOST = 4096

FAULTS = [
    ("forward", "steps forward"),
    ("one-more", "one draw too many"),
    ("one-less", "one draw too few"),
    ("single", "each shift is undone by one shift"),
    ("half", "the first shift is undone by two shifts, 12 and 24"),
    ("wrong-order", "the shifts are undone in the order in which they were made"),
    ("product", "the product is taken back too"),
    ("zero-anew", "a state of 0 is started anew"),
    ("to-the-start", "goes back to the fresh engine's state"),
    ("only-one", "takes back one draw whatever is asked for"),
    ("at-4096", "4,096 is refused"),
    ("at-4097", "4,097 is accepted"),
    ("holds", "more than 4,096 takes back 4,096"),
    ("modulo", "the count is taken modulo 4,096"),
    ("as-16-bits", "the count is taken modulo 65,536"),
    ("at-once", "in an open block it acts at once"),
    ("uncounted", "in an open block it waits, but is not counted"),
    ("19-first", "19 is judged before 22"),
]


def step(s):
    s ^= s >> 12
    s ^= s << 25 & MASK
    return s ^ s >> 27


def unshift(x, k, fault=""):
    """Undoes x ^= x shifted by k (to the right, or to the left where k is below 0), by doubling the shift."""
    n = abs(k)
    while n < 64:
        x ^= x >> n if k > 0 else x << n & MASK
        n *= 2
        if fault == "single" or (fault == "half" and k == 12 and n > 24):
            return x
    return x


def back(s, fault=""):
    shifts = [27, -25, 12]
    for k in shifts[::-1] if fault == "wrong-order" else shifts:
        s = unshift(s, k, fault)
    return s


def taken_back(s, n, fault=""):
    n = {"one-more": n + 1, "one-less": max(n - 1, 0), "only-one": min(n, 1), "modulo": n % MOST,
         "as-16-bits": n % 65536, "holds": min(n, MOST)}.get(fault, n)
    if fault == "to-the-start":
        return START if n else s
    if fault == "zero-anew" and s == 0:
        s = START
    for _ in range(n):
        s = step(s) if fault == "forward" else back(s, fault)
    return s * pow(0x2545F4914F6CDD1D, -1, 1 << 64) & MASK if fault == "product" and n else s


START = 0x9E3779B97F4A7C15      # the Rust's first state


def row(n, fault=""):
    if fault == "as-16-bits":
        n %= 65536
    most = {"at-4096": MOST - 1, "at-4097": MOST + 1}.get(fault, MOST)
    return 22 if n > most and fault not in ("holds", "modulo") else None


def rng_of(lines):
    return int(re.search(r"rng ([0-9A-F]{16})", " ".join(lines))[1], 16)


class Judge(c18_open.Judge):
    """The rows of C-18, with 22 before 19."""

    def __init__(self, fault=""):
        super().__init__("19-first" if fault == "19-first" else "")
        self.how = fault
        self.waits = c18_open.WAITS + (("step_back",) if fault not in ("at-once", "uncounted") else ())

    def row_rest(self, c, w):
        return row(int(w[1]), self.how) if c == "step_back" else super().row_rest(c, w)


class Rewriter(c18_open.Rewriter):
    """`step_back` becomes `set_rng`, once the state before it is known."""

    def __init__(self, fault):
        super().__init__(Judge(fault))
        self.fault = fault

    def asked(self, items):
        items, keep = list(items), []
        for at, (n, line) in enumerate(items):      # each state depends on those that were set before it
            if line.startswith("step_back "):
                keep.append(n)
                state = rng_of(common.asked(items[:at] + [(n, "state")])[n][-1])
                items[at] = (n, "set_rng %016X" % taken_back(state, int(line.split()[1]), self.fault))
        return {n: [[]] if n in keep else x for n, x in common.asked(items).items()}

    def line(self, n, w):
        block = self.judge.block
        if w[0] != "step_back" or not block or self.fault not in ("at-once", "uncounted"):
            return super().line(n, w)
        code = self.judge.line(w)
        if code:
            self.out[n] = ["REFUSED %d" % code]
        elif self.fault == "uncounted":
            self.waiting.append((n, " ".join(w)))
        else:
            (self.late if block["made"] else self.early).append((n, " ".join(w)))
        return None


def owed(text, fault=""):
    return Rewriter(fault).answers(text)


# Sessions ----------------------------------------------------------------------------------------
def count(s, last):
    r = s.r
    if s.p(0.15):
        return r.choice([4097, 4098, 8192, 65536, 65537, 65536 + 3, 1 << 32, (1 << 64) - 1])
    return r.choice([0, 1, 2, 3, last, last, last + 1, r.randrange(40), r.randrange(4097), 4095, 4096])


def state_word(r):
    x = r.choice([0, 0, 1, 2, 1 << 63, MASK, 1 << r.randrange(64), r.getrandbits(64), r.getrandbits(64)])
    return "%016X" % x


def open_block(s, randoms):
    """An open block in which draws are taken back, now and then with as many waiting calls as there may be."""
    s.w("open", 0, s.frames)
    chunks = len(c18_open.judged(s).block["ends"])
    for _ in range(s.r.choice([0, 0, 30, 31, 32])):
        s.w("set_base", 0, "3F000000")
    for i in range(chunks + 1):
        for _ in range(s.r.randrange(3)):
            v = s.r.randrange(s.voices)
            s.w(*s.r.choice([("step_back", count(s, randoms)), ("step_back", count(s, randoms)),
                             ("note_on", v, "42700000", "3F000000", 0, "00000000")]))
        s.w("step" if i < chunks else "close")
    s.w("state")


def again(s, randoms):
    """The same note twice, its draws taken back between."""
    v = s.r.randrange(s.voices)
    for _ in range(2):
        s.w("note_on", v, "42700000", "3F000000", 0, "00000000")
        s.w("state")
        s.w("step_back", randoms if s.p(0.7) else count(s, randoms))
    s.process()


def session(seed):
    s = make.Small("c24 %d" % seed, random.Random(seed).choice(["notes", "notes", "mixed", "feeds"]))
    s.begin(voices=random.Random(seed).choice([1, 2, 3, 17]))
    s.registries()
    for kind in ("random", "random", "routerandom"):
        s.add_source(kind, "v")
    s.add_dest(scope="v", wide=True)
    for n, i in enumerate([len(s.sources) - 3, len(s.sources) - 1]):
        s.w("slot", 40 + n, "src=%d" % i, "dst=" + s.dests[-1][0], "amt=3F000000")
    first = s.preset()
    s.slot(1)
    other = s.compile()
    s.engine(first)
    s.w("print hash")
    randoms = sum(x[0] == "random" for x in s.sources)
    for _ in range(s.r.randrange(4, 12)):
        k = s.r.choices(["again", "back", "set", "play", "swap", "open"], [5, 4, 2, 4, 1, 2])[0]
        if k == "again":
            again(s, randoms)
        elif k == "back":
            s.w("step_back", count(s, randoms))
            s.w("state")
        elif k == "set":
            s.w("set_rng", state_word(s.r))
            s.w("step_back", count(s, randoms))
            s.w("state")
        elif k == "play":
            s.events(4)
            s.process()
        elif k == "open":
            open_block(s, randoms)
        elif other:
            s.w("swap", other)
            other = None
    s.w("process", 0, s.frames)
    s.w("state")
    s.w("memory")
    return s.text()


# The Rust's step, and every state -----------------------------------------------------------------
def rank(columns):
    """How many of these bit rows are independent."""
    basis = {}
    for x in columns:
        while x and x.bit_length() in basis:
            x ^= basis[x.bit_length()]
        if x:
            basis[x.bit_length()] = x
    return len(basis)


def rust(first, many):
    r = random.Random(first)
    states = [0, 1, MASK] + [1 << k for k in range(64)] + [r.getrandbits(64) for _ in range(many)]
    text = "config 42800000 64 1\nsource r random v u\nengine\n"
    text += "".join("set_rng %016X\nnote_on 0 42700000 3F800000 0 00000000\nstate\n" % x for x in states)
    got = common.run(common.ORACLE, text)
    bad = sum(rng_of(got[6 + 3 * i]) != step(x) for i, x in enumerate(states))
    bits = [1 << k for k in range(64)]
    undone = all(back(step(x)) == x and step(back(x)) == x for x in bits + states)
    whole = all(step(x ^ y) == step(x) ^ step(y) for x in bits for y in states)
    far = all(taken_back(forward(x, MOST), MOST) == x for x in states[:20])
    full = rank([step(x) for x in bits])
    print("%d states, %d steps differ from the Rust; rank %d; undone %s; linear %s; 4,096 back %s"
          % (len(states), bad, full, undone, whole, far))
    sys.exit(bad > 0 or full != 64 or not (undone and whole and far))


def forward(s, n):
    for _ in range(n):
        s = step(s)
    return s


if __name__ == "__main__":
    if sys.argv[1:2] == ["--rust"]:
        rust(*map(int, sys.argv[2:4]))
    common.main(__doc__, session, owed, FAULTS)
