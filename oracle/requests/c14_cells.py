#!/usr/bin/env python3
"""c14_cells.py SEED COUNT | --hold PROGRAM SEED COUNT | --faults [SEED COUNT] | --rust SEED COUNT

C-14, the dot on the curve: the lines `lookup`, `cells`, `cell`, and what `note_on` prints after `cells 1`.

Written from: document 01, Curve table (lookup clamps to 0..1, multiplies by 512, takes the whole part, at most 511; a
NaN position uses cell 0); document 02, C-14; the session lines of the requests' page; the Rust's `lookup` and `note_on`
for the two positions of a note (velocity, and key / 127).

A cell is worked out from what the oracle prints at that moment: which input a route reads (`ROUTE`), the held numbers
(`S held`, `S heldglobal`), the feeders' last "to" and the per-route randoms (`M cur`, `M random`), and the signals that
the session has bound. A source that is bipolar is mapped by x * 0.5 + 0.5, both steps rounded. All other lines are the
oracle's. --rust holds the looked-up values to the Rust: each position is a frame of an audio destination.

Decided here: `lookup` judges the rows of curve::lookup, 6 before 15, and `lookup lin` none; `cell` judges 1, 2, 5, 13
and 14 in this order, and answers `none` only where none of them applies. `lookup` and `cells` need no engine.

Of the position key / 127 the rounding changes no cell: at all 512 edges key / 127 and key * (1 / 127), rounded or not,
have the same one.
"""
import random
import sys

import common
import make
from common import INF, NAN, f32, number, word

rows = common.rows
rows.LENT["cell"] = ["held", "globals", "values"]
SLOTS = 96      # a slot from here on is refused, with 64 slots and with 96

FAULTS = [
    ("nearest", "the nearest entry instead of the cell"),
    ("end-512", "1 has cell 512"),
    ("nan-511", "NaN has cell 511"),
    ("by-511", "the position is multiplied by 511"),
    ("wraps", "a position above 1 is not held"),
    ("raw-linear", "a linear mark goes by the bipolar input as it is"),
    ("raw-bipolar", "every bipolar input goes by its number as it is"),
    ("unrounded", "the bipolar mapping is not rounded"),
    ("key-128", "the key is divided by 128"),
    ("newest", "a route into a global destination answers for the newest voice"),
    ("fed-from", "a fed input is its feeder's last from"),
    ("slewed", "the input after its slew"),
    ("after-curve", "the cell of the curve's value"),
    ("aux-is-source", "the aux answers as the source"),
    ("aux-inverted", "an inverted aux is turned round first"),
    ("frame-0", "signals are read at frame 0"),
    ("chunk-frame", "signals are read at the last block's first frame"),
    ("no-legato", "a legato note that does not take its velocity answers cell 0 for it"),
    ("at-first", "cells are printed from the start"),
    ("no-plain", "routes without curve and aux have no cell"),
    ("no-audio", "routes into audio destinations have no cell"),
    ("by-voices", "a lane not below the voices is refused"),
    ("slot-first", "5 is judged before 1 and 2"),
    ("none-first", "a slot without a route is answered before any row"),
    ("length-first", "15 is judged before 6"),
]


def cell_of(x, fault=""):
    if x != x:
        return 511 if fault == "nan-511" else 0
    top = 512 if fault == "end-512" else 511
    pos = f32(min(max(x, 0.0), 1.0) * (511 if fault == "by-511" else 512))
    if fault == "wraps" and x > 1.0:
        return int(f32(x * 512)) % 512 if x < INF else 0
    if fault == "unrounded":
        pos = min(max(x, 0.0), 1.0) * 512
    return min(int(pos + 0.5 if fault == "nearest" else pos), top)


def looked(table, x):
    """The value between two entries, as document 01 and the Rust have it."""
    pos = x if x != x else f32(min(max(x, 0.0), 1.0) * 512)
    i = cell_of(x)
    return f32(table[i] + f32(f32(table[i + 1] - table[i]) * f32(pos - i)))


LINEAR = [i / 512 for i in range(513)]


class Judge(rows.Owed):
    """The number that each line owes, and whether the installed program's legato notes take their velocity."""

    def __init__(self, fault=""):
        super().__init__()
        self.fault, self.take, self.takes = fault, False, {}

    def effect(self, w):
        if w[0] in ("note", "clear"):
            self.take = w[0] == "note" and w[4] == "1"
        elif w[0] == "compile":
            self.takes[w[1]] = self.take
        super().effect(w)

    def legato(self):
        return self.takes.get(self.installed, False)

    def row(self, w):
        if w[0] != "lookup" or w[1] == "lin":
            return super().row(w)
        good = self.tables[w[1]]
        both = [(6, not all(good)), (15, len(good) != 513)]
        return rows.first(*(both[::-1] if self.fault == "length-first" else both))

    def row_engine(self, c, w):
        if c != "cell":
            return super().row_engine(c, w)
        (_, frames, voices), _, _ = self.engine
        needs = {**self.engine_needs(*self.engine), **self.program()["needs"]}
        lanes = voices if self.fault == "by-voices" else rows.stride(self.engine[0])
        judged = [(1, int(w[3]) >= frames), (2, int(w[4]) >= lanes), (5, int(w[1]) >= SLOTS),
                  (13, any(s > 256 for _, _, s in self.parts.values())), (14, self.short(c, needs) or self.outside())]
        if self.fault == "slot-first":
            judged.insert(0, judged.pop(2))
        return rows.first(*judged)


# What the oracle prints --------------------------------------------------------------------------
def input_of(words):
    """READ RANGE curve C slew S as the ROUTE line has it; None for `-`."""
    if words[0] == "-":
        return None
    return {"read": words[0].split(":"), "bipolar": words[1] == "b", "curved": words[3] != "-"}


def routes_of(lines):
    """The routes of a compiled program, by slot."""
    out, plans = {}, {}
    for line in lines:
        w = line.split()
        if w[0] == "PLAN":
            plans[w[1]] = {"global": w[5] == "g", "audio": w[7] == "a"}
        elif w[0] == "ROUTE":
            at = w.index("src")
            aux = w.index("aux", at)
            out[int(w[3])] = {"src": input_of(w[at + 1:]), "aux": input_of(w[aux + 1:]), "inverted": w[11] == "1",
                              **plans[w[5]]}
    return out


def rows_of(lines, head):
    """The rows whose first words are `head`: the words up to the numbers, and the numbers."""
    for line in lines:
        w = line.split()
        if w[:len(head)] == head:
            yield w[len(head):]


def kept(state, memory):
    """What an input can read."""
    return {
        "global": [number(x) for x in next(rows_of(state, ["S", "heldglobal"]), [])],
        "held": {int(w[0]): [number(x) for x in w[1:]] for w in rows_of(state, ["S", "held"])},
        "cur": {int(w[0]): [number(x) for x in w[1:]] for w in rows_of(memory, ["M", "cur"])},
        "from": {int(w[0]): [number(x) for x in w[1:]] for w in rows_of(memory, ["M", "from"])},
        "random": {(int(w[0]), int(w[1])): [number(x) for x in w[2:]] for w in rows_of(memory, ["M", "random"])},
        "slew": {(int(w[0]), int(w[1])): [number(x) for x in w[2:]] for w in rows_of(memory, ["M", "slew"])},
        "newest": next((l.split()[4] for l in state if l.startswith("S phase")), "-"),
    }


def sample(bound, source, per_voice, frame, lane):
    """A signal's number, 0 where it has none."""
    if source not in bound:
        return 0.0
    stride, data = bound[source]
    stride = max(stride, 1)
    at = frame * stride + (lane if per_voice else 0)
    return data[at] if at < len(data) and (not per_voice or lane < stride) else 0.0


def input_number(read, slot, place, frame, lane, kept, bound, fault):
    kind = read[0]
    if kind == "const":
        return 1.0
    if kind == "rnd":
        return kept["random"][slot, place][lane]
    if kind == "fed":
        row = kept["from" if fault == "fed-from" else "cur"][int(read[1])]
        return row[lane if len(row) > 1 else 0]
    source, per_voice = int(read[1]), read[2] == "v"
    if kind == "sig":
        return sample(bound, source, per_voice, frame, lane)
    return kept["held"][source][lane] if per_voice else kept["global"][source]


def position(route, slot, place, frame, lane, now, fault):
    """The place on the curve, from 0 to 1 where the input is in its range; None where there is no such input."""
    name = "src" if fault == "aux-is-source" else ("src", "aux")[place]
    part = route and route[("src", "aux")[place]] and route[name]
    if not part or (fault == "no-audio" and route["audio"]):
        return None
    if fault == "no-plain" and not part["curved"] and not route["aux"]:
        return None
    if fault == "newest" and route["global"] and now["newest"] != "-":
        lane = int(now["newest"])
    frame = {"frame-0": 0, "chunk-frame": now["start"]}.get(fault, frame)
    x = input_number(part["read"], slot, place, frame, lane, now, now["bound"], fault)
    if part["bipolar"] and fault != "raw-bipolar" and not (fault == "raw-linear" and not part["curved"]):
        x = x * 0.5 + 0.5 if fault == "unrounded" else f32(f32(x * 0.5) + 0.5)
    if fault == "slewed":
        x = now["slew"].get((slot, place), [x] * 64)[lane]
    if fault == "after-curve" and (slot, place) in now["tables"]:
        x = looked(now["tables"][slot, place], x)
    return f32(1.0 - x) if fault == "aux-inverted" and place == 1 and route["inverted"] else x


# A session's answers -----------------------------------------------------------------------------
def asked_of_oracle(text):
    """The session for the oracle: refused calls left out, and `state` and `memory` in place of `cell`."""
    judge, items = Judge(), []
    for n, w in common.calls(text):
        line = " ".join(w)
        if w[0] == "cell" and judge.row(w) is None:
            items += [(n, "state"), (n, "memory")]
        elif w[0] not in ("lookup", "cells", "cell") and judge.line(w) is None:
            items.append((n, line))
    return common.asked(items)


def owed(text, fault=""):
    judge, out, shown, answers = Judge(fault), {}, fault == "at-first", asked_of_oracle(text)
    tables, curves, programs, bound, start = {"diag": LINEAR}, {}, {"~": ({}, {})}, {}, 0
    for n, w in common.calls(text):
        row = judge.line(w)
        if w[0] == "cell" and fault == "none-first" and int(w[1]) not in programs[judge.installed][0]:
            row = None
        if row:
            out[n] = ["REFUSED %d" % row]
        elif w[0] == "lookup":
            t, x = LINEAR if w[1] == "lin" else tables[w[1]], number(w[2])
            out[n] = ["LOOK %d %s" % (cell_of(x, fault), word(looked(t, x)))]
        elif w[0] == "cells":
            shown, out[n] = w[1] == "1", []
        elif w[0] == "cell":
            routes, named = programs[judge.installed]
            now = {**kept(*answers[n]), "bound": bound, "start": start, "tables": named} if n in answers else {}
            place = ("src", "aux").index(w[2])
            x = position(routes.get(int(w[1])), int(w[1]), place, int(w[3]), int(w[4]), now, fault)
            out[n] = ["CELL %s %s" % (" ".join(w[1:]), "none" if x is None else cell_of(x, fault))]
        else:
            out[n] = answers[n][0] if n in answers else []
            if w[0] == "note_on" and shown:
                out[n] = out[n] + [cells(w, judge, fault)]
            elif w[0] == "table":
                tables[w[1]] = common.table(w[2:])
            elif w[0] == "slot":
                curves[int(w[1])] = {p: tables[c[0]] for p, c in rows.curves_of(w[2:]).items()}
            elif w[0] == "clear":
                curves = {}
            elif w[0] == "compile":
                programs[w[1]] = (routes_of(out[n]), {(s, p): t for s, c in curves.items() for p, t in c.items()})
            elif w[0] == "bind":
                bound[int(w[1])] = (int(w[2]), common.table(w[3:]))
            elif w[0] == "unbind":
                bound = {} if len(w) < 2 else {k: x for k, x in bound.items() if k != int(w[1])}
            elif w[0] == "process" and int(w[1]) < int(w[2]):
                start = int(w[1])
    return out


def cells(w, judge, fault):
    """Velocity's cell and key's, of a line `note_on`."""
    key = cell_of(f32(number(w[2]) / (128 if fault == "key-128" else 127)), fault)
    velocity = cell_of(number(w[3]), fault)
    if fault == "no-legato" and w[4] == "1" and not judge.legato():
        velocity = 0
    return "CELLS %d %d" % (velocity, key)


# Sessions ----------------------------------------------------------------------------------------
def edge(r, bipolar=False, finite=True):
    """A number at a cell's edge or beside it, in the range asked for."""
    if r.random() < 0.2:
        wild = [1.0, 0.0, -0.0, -3.0, 1.5, 2.0, 1e-40, -1e-9, -2.0 ** -30, -2.0 ** -26, 1e30, 1.0 - 2.0 ** -24]
        return r.choice(wild if finite else wild + [NAN, NAN, NAN, INF, -INF])
    x = r.randrange(513) / 512
    x = 2 * x - 1 if bipolar else x
    return common.of_bits(common.bits_of(common.raw(x)) + r.choice([-1, 0, 0, 1])) if x else x


def key_edge(r):
    """A key whose 127th part is at a cell's edge, or beside it."""
    return common.beside(f32(r.randrange(1, 513) * 127 / 512), r.choice([-1, 0, 0, 1]))


def set_edges(s):
    r = s.r
    for i, (kind, _, rng, _) in enumerate(s.sources):
        b = rng == "b"
        if kind in ("signal", "audio"):
            stride = r.choice([1, 3, s.stride, s.stride + 1])
            n = min(4 * stride, 70) + r.randrange(3)
            s.w("bind", i, stride, "hex", *[common.raw(edge(r, b, False)) for _ in range(n)])
        elif s.p(0.7):
            s.w("set_held", i, common.raw(edge(r, b)))
            if s.p(0.5):
                s.w("set_voice_held", i, r.randrange(s.stride), common.raw(edge(r, b)))


def ask(s):
    r = s.r
    slot = r.randrange(s.nslots) if s.p(0.93) else r.choice([63, SLOTS, SLOTS + 1, 1000])
    frame = r.randrange(min(s.frames, 4)) if s.p(0.95) else r.choice([s.frames - 1, s.frames, s.frames + 1])
    lane = r.randrange(s.stride) if s.p(0.5) else r.choice([0, 0, max(s.voices - 1, 0), s.stride - 1])
    lane = lane if s.p(0.96) else r.choice([s.stride, s.stride + 1, 300])
    s.w("cell", slot, r.choice(["src", "src", "aux"]), frame, lane)


def note(s):
    if s.voices:
        r = s.r
        s.w("note_on", r.randrange(s.voices + (not r.randrange(12))),
            common.raw(key_edge(r) if s.p(0.7) else float(r.randrange(128))),
            common.raw(edge(r)), r.randrange(2), "00000000")


def short(s):
    what = s.r.choice(["held", "globals", "values", "bases", "audio", "tables", "engine"])
    s.w("memory_len", what, "need-1")
    ask(s)
    s.w("memory_len", what, "all")


def part(s):
    """A signal's record with a bad stride, or outside its slice."""
    free = [i for i, x in enumerate(s.sources) if x[0] not in ("signal", "audio")]
    if free:
        i = s.r.choice(free)
        s.w("signal_part", i, *s.r.choice([("0", "0", 257), ("0", "end+1", 1), ("end+1", "0", 300), ("end", "0", 1)]))
        ask(s)
        s.w("unbind", i)


def look(s):
    name = s.r.choice(["lin", "lin", "t0", "t1", "diag", "t0", "short", "odd", "far", "both"])
    s.w("lookup", name, common.raw(edge(s.r, False, False)))


def session(seed):
    s = make.Small("c14 %d" % seed, random.Random(seed).choice(["mixed", "feeds", "slews", "plain", "notes"]))
    s.begin()
    s.w("table short len 512 lin")
    s.w("table odd put 3 7FC00000 lin")
    s.w("table far put 0 41880000 lin")
    s.w("table both len 514 put 3 7F800000 lin")
    s.registries()
    first = s.preset()
    s.slot(0)
    s.note_curves()
    other = s.compile()
    look(s)
    s.engine(first if s.p(0.8) else None)
    s.w("print none")
    for _ in range(s.r.randrange(14, 30)):
        k = s.r.choices(["edges", "ask", "note", "look", "events", "process", "cells", "short", "part", "swap"],
                        [4, 14, 4, 4, 3, 4, 1.5, 0.5, 0.4, 0.5])[0]
        if k == "edges":
            set_edges(s)
            ask(s)
        elif k in ("ask", "note", "look", "short", "part"):
            globals()[k](s)
        elif k == "events":
            s.events(3)
        elif k == "process":
            s.process()
            ask(s)
        elif k == "cells":
            s.w("cells", s.r.choice([1, 1, 1, 0]))
            note(s)
        elif k == "swap" and other:
            s.w("swap", other)
            other = None
            ask(s)
    return s.text()


# The Rust's values -------------------------------------------------------------------------------
def rust(first, count):
    """Each looked-up position as a frame of an audio destination: the value must be the reference's."""
    r, bad, done = random.Random(first), 0, 0
    for k in range(count):
        spec = r.choice(["lin", "rev", "sq", "step 512 41600000 3DCCCCCD"] + ["gen %d %s" % (k, g) for g in "tub"])
        xs = [edge(r, False, False) if r.random() < 0.7 else common.of_bits(r.getrandbits(32)) for _ in range(64)]
        text = "canon 1\nconfig 42800000 64 1\nsource s signal g u\ndest p:0 g audio FF800000 7F800000 -\n" \
            "table t %s\nslot 0 src=0 dst=p:0 amt=3F800000 sc=t:00000000:00000000\ncompile P\n" \
            "engine\nswap P\nbind 0 1 hex %s\nprocess 0 64\n" % (spec, " ".join(map(common.raw, xs)))
        got = [l.split()[-1] for l in common.run(common.ORACLE, text)[11] if l.startswith("A ")]
        want = [word(looked(common.table(spec.split()), x)) for x in xs]
        bad += got != want
        done += 64
    print("%d positions, %d tables differ from the Rust" % (done, bad))
    sys.exit(bad > 0)


if __name__ == "__main__":
    if sys.argv[1:2] == ["--rust"]:
        rust(*map(int, sys.argv[2:4]))
    common.main(__doc__, session, owed, FAULTS)
