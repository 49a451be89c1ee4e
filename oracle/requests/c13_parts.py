#!/usr/bin/env python3
"""c13_parts.py SEED COUNT | --hold PROGRAM SEED COUNT | --faults [SEED COUNT] | --add PROGRAM SEED COUNT |
             --rust SEED COUNT

C-13, what made this value: the line `parts DEST LANE`.

Written from: document 02, C-13 (and C-17, C-23); document 01, Chunk and value, for what is added in which order; the
session lines and decisions of the requests' page. Two things judge an answer:

- which parts are owed, with which numbers: model.py, which records them at each tick;
- whether they make the value: --add runs PROGRAM on sessions with `canon 0`, adds the printed parts in binary32 in
  their order, holds the sum to the destination's bounds as C-23 has it, and compares raw bits with the last `TO` that
  was printed since the program came in (NaN equals NaN). It also says whether min and max changed the sum. This uses no
  model. --hold does both; --rust adds up the model's parts and compares them with the Rust's values.

Sessions ask before any tick, after swaps and carries, off phase, with a gap of a group between active voices, with
bases of -0, samples of NaN, infinite bounds; and they change knobs, notes and signals between a tick and the question.

Decided here: 2, then 17, then 14 (`values`); a destination that is not registered is 17; a refused, an empty and a
routeless block leave the record.
"""
import random
import re
import sys

import c17_carry
import common
import make
import model
from common import f32, number

rows = common.rows
rows.LENT["parts"] = ["values"]

FAULTS = [
    ("recomputed", "the parts are worked out when they are asked for"),
    ("base-now", "the base is the one of the moment of asking"),
    ("base-set", "a fed thing's destination shows its set base"),
    ("no-offsets", "offsets are no part"),
    ("offsets-not-0", "offsets whose sum is 0 are no part"),
    ("offsets-always", "per-voice destinations always have an offsets part"),
    ("offsets-in-terms", "each plain part has its offset"),
    ("slot-order", "plain and other routes stand in slot order"),
    ("no-zero", "a part that is 0 is left out"),
    ("no-nan", "a part that is NaN is left out"),
    ("idle", "routes that add nothing are listed with 0"),
    ("every-group", "lanes of groups without an active voice have the others' parts"),
    ("gap", "lanes in a gap of the span have the base alone"),
    ("span", "lanes outside the span have the offsets"),
    ("newest", "a voice route with nobody newest is listed with 0"),
    ("kept-parts", "a kept lane answers the parts of before"),
    ("never-kept", "a kept lane answers its value as the base"),
    ("kept-unprimed", "an off-phase tick of an unprimed program answers kept"),
    ("kept-global", "an off-phase tick answers parts for a global destination"),
    ("by-primed", "17 goes by the mark that a carry may bring"),
    ("swap-leaves", "a swap leaves the answer"),
    ("empty-clears", "an empty block clears the answer"),
    ("block-clears", "a block without a tick clears the answer"),
    ("audio-0", "an audio destination answers a base of 0"),
    ("by-voices", "2 goes by the voices"),
    ("global-lanes", "a global destination takes every lane"),
    ("17-first", "17 is judged before 2"),
    ("14-first", "14 is judged before 17"),
    ("no-14", "14 is not judged"),
    ("equal-min", "a sum at a bound counts as changed"),
    ("nan-min", "NaN does not count as changed"),
    ("zero-min", "a zero of the other sign counts as changed"),
    ("only-min", "max is not told"),
]


class Judge(c17_carry.Judge):
    """17 is known from the model's session; without one `parts` is not judged."""
    session = None

    def row_engine(self, c, w):
        if c != "parts" or not self.session:
            return super().row_engine(c, w)
        e, d, lane, fault = self.session.e, int(w[1]), int(w[2]), self.fault
        lanes = self.engine[0][2] if fault == "by-voices" else rows.stride(self.engine[0])
        if fault == "global-lanes" and d in e.p.width and not e.p.dests[d].voice:
            lanes = 1 << 64
        two, none = (2, lane >= lanes), (17, e.parts_of(d, min(lane, e.stride - 1)) is None)
        short = (14, fault != "no-14" and self.short(c, self.program()["needs"]))
        order = {"17-first": [none, two, short], "14-first": [two, short, none]}.get(fault, [two, none, short])
        return rows.first(*order)


class Wrong(model.Engine):
    """Records or answers with one mistake; its values are right."""
    fault, at = "", 0

    def tick(self, k, phase, first):
        before, self.at, primed = self.record, k, self.p.primed
        off = phase != 0
        unprimed = [d for d in self.p.control if not primed(d)]
        super().tick(k, phase, first)
        if self.fault == "kept-parts":
            self.record = {**before, **self.record}
        if self.fault == "kept-unprimed" and off:
            self.record = {x: y for x, y in self.record.items() if x[0] not in unprimed}
        if self.fault == "kept-global" and off:
            for d in [d for d in self.p.control if not self.p.dests[d].voice and (d, 0) not in self.record]:
                self.record[d, 0] = (self.p.cur[d][0], None, [], False, False)

    def process(self, start, end):
        before = self.p.ticked and self.record
        self.record = None if self.p.ticked and self.fault == "block-clears" and start < end else self.record
        super().process(start, end)
        if self.fault == "empty-clears" and start >= end and before:
            self.record = {}
        if self.record is None:
            self.record = {}

    def install(self, p, inherited=()):
        record = self.record
        old = super().install(p, inherited)
        if self.fault == "swap-leaves":
            self.record, p.answers = record, True
        return old

    def recorded(self, t, d, l, fed, parts):
        base, offsets, terms, low, high = super().recorded(t, d, l, fed, parts)
        x, info, fault = model.added(parts), self.p.dests[d], self.fault
        if fault == "equal-min":
            low, high = low or x == info.low, high or x == info.high
        elif fault == "nan-min":
            low = low and x == x
        elif fault == "zero-min":
            low = low or (x == 0.0 == info.low and common.raw(x) != common.raw(model.larger(x, info.low)))
        elif fault == "only-min":
            high = False
        elif fault == "base-set" and d < len(self.bases):
            base = self.bases[d]
        return self.listed(t, d, l, fed, base, offsets, terms) + (low, high)

    def listed(self, t, d, l, fed, base, offsets, terms):
        fault, p, voice = self.fault, self.p, self.p.dests[d].voice
        plains = {r.slot: r for r in t.plains(d)}
        if fault == "no-offsets" or (fault == "offsets-not-0" and offsets == 0.0):
            offsets = None
        elif (fault == "offsets-always" and voice) or (fault == "span" and plains):
            offsets = offsets or 0.0
        elif fault == "gap" and voice and t.span[l] and not t.groups[l]:
            offsets, terms = None, []
        elif fault in ("no-zero", "no-nan"):
            terms = [(n, x) for n, x in terms if (x != 0.0 if fault == "no-zero" else x == x)]
        elif fault == "slot-order":
            terms = sorted(terms, key=lambda x: x[0])
        elif fault == "offsets-in-terms" and offsets is not None:
            offsets, terms = None, [(n, f32(x + f32(plains[n].affine[1] * self.gain(plains[n]))) if n in plains else x)
                                    for n, x in terms]
        elif fault == "idle":
            terms = terms + [(r.slot, 0.0) for r in p.of[d] if self.idle(r) and r.slot not in plains]
        elif fault == "every-group" and voice and not t.groups[l]:
            others = [r for r in p.of[d] if r.slot not in plains and not self.idle(r)]
            terms = terms + [(r.slot, t.term(r, l if r.voice else 0, fed)) for r in others]
        elif fault == "newest" and not voice and self.newest is None:
            terms = terms + [(r.slot, 0.0) for r in p.of[d] if r.voice and not self.idle(r)]
        return base, offsets, terms

    def parts_of(self, d, lane):
        fault, p = self.fault, self.p
        if fault == "by-primed" and d in p.control and not p.ticked and p.primed(d):
            return "kept"
        if fault == "swap-leaves" and d in p.control and getattr(p, "answers", False) and not p.ticked:
            return self.record.get((d, self.lane(d, lane)))
        if fault == "audio-0" and d in p.audio and p.ticked:
            return 0.0, None, [], False, False
        found = super().parts_of(d, lane)
        if found == "kept" and fault == "never-kept":
            return p.cur[d][self.lane(d, lane)], None, [], False, False
        if found in (None, "kept"):
            return found
        if fault == "base-now":
            return (self.base_of(d),) + found[1:]
        if fault == "recomputed":
            t = model.Tick(self, self.at, self.at + 1, 0.0, False)
            l = self.lane(d, lane)

            def fed(a, m):
                return p.cur[a][self.lane(a, m)]
            return self.recorded(t, d, l, fed, t.parts(d, l, fed))
        return found


def owed(text, fault=""):
    kind = type("Engine", (Wrong,), {"fault": fault}) if fault else model.Engine
    return model.answers(text, Judge(fault), kind)


# The parts added up ------------------------------------------------------------------------------
def held(x, low, high):
    """The sum held to the bounds, and what is said of it."""
    y = model.larger(x, low)
    z = model.smaller(y, high)
    said = ["min"] * (not model.same(x, y)) + ["max"] * (not model.same(y, z))
    return z, said or ["-"]


def sum_of(words):
    """The sum of `base X [offsets X] SLOT X .. marks`, and the marks."""
    x, at = number(words[1]), 2
    while at + 1 < len(words) and re.fullmatch("[0-9A-F]{8}", words[at + 1]):
        x = f32(x + number(words[at + 1]))
        at += 2
    return x, words[at:]


def add_up(text, got, digits=common.raw):
    """The lines at which the printed parts do not make the last value, and how many were added."""
    judge, bounds, of, last, bad, count = c17_carry.Judge(), [], {}, {}, [], 0
    for n, w in common.calls(text):
        said = got.get(n, [])
        if said and said[0].startswith("REFUSED"):
            continue
        judge.line(w)
        if w[0] == "dest":
            bounds.append((number(w[4]), number(w[5])))
        elif w[0] == "newreg":
            bounds = []
        elif w[0] == "compile":
            of[w[1]] = list(bounds)
        elif w[0] in ("swap", "carry", "engine"):
            last = {}
        elif w[0] == "process":
            last.update({int(l.split()[1]): l.split()[4:] for l in said if l.startswith("TO ")})
        elif w[0] == "parts" and said[:1] and said[0].split()[3:4] == ["base"]:
            d, lane, words = int(w[1]), int(w[2]), said[0].split()[3:]
            x, marks = sum_of(words)
            value, want = held(x, *of[judge.installed][d])
            to = last.get(d, ["none"])
            to = to[lane if len(to) > 1 else 0]
            count += 1
            if marks != want or to == "none" or digits(value) != digits(number(to)):
                bad.append("line %d: %s, but TO is %s, the sum %s %s" % (n, said[0], to, common.raw(value), want))
    return bad, count


def add(program, sessions):
    bad = count = 0
    for name, text in sessions:
        text = text.replace("canon 1", "canon 0", 1).replace("print hash", "print full")
        wrong, n = add_up(text, common.run(program, text))
        bad, count = bad + bool(wrong), count + n
        if wrong:
            print("%s: %s" % (name, wrong[0]))
    print("%d answers added up, %d sessions differ" % (count, bad))
    return bad


def rust(first, count):
    """Every carry made a swap: the model's parts, added up, must be the Rust's values, zeros alike."""
    bad = added = 0
    for seed in range(first, first + count):
        text = session(seed).replace("\ncarry ", "\nswap ")
        answers = owed(text)
        mine = {n: answers[n] for n, w in common.calls(text) if w[0] == "parts"}
        refused = [n for n in answers if answers[n][:1] and answers[n][0].startswith("REFUSED")]
        got = common.run(common.ORACLE, common.compare.without(text, list(mine) + refused))
        wrong, n = add_up(text, {**got, **mine, **{k: answers[k] for k in refused}}, common.word)
        bad, added = bad + bool(wrong), added + n
        if wrong:
            print("seed %d: %s" % (seed, wrong[0]))
    print("%d answers of the model added up, %d sessions differ from the Rust" % (added, bad))
    return bad


# Sessions ----------------------------------------------------------------------------------------
def used(s):
    """Destinations at control rate that a slot names."""
    named = {f[4:] for l in s.lines if l.startswith("slot ") for f in l.split() if f.startswith("dst=")}
    return [d for d, x in enumerate(s.dests) if x[0] in named and (x[2] == "control" or x[3] != "-")]


def ask(s, times=3):
    r, often = s.r, used(s)
    for _ in range(r.randrange(1, times + 1)):
        d = r.choice(often) if often and s.p(0.85) else r.randrange(len(s.dests) + 2)
        lane = r.choice([0, 0, max(s.voices - 1, 0), r.randrange(s.stride), r.choice(s.favourites)])
        lane = lane if s.p(0.95) else r.choice([s.stride, s.stride + 1, 1000])
        s.w("parts", d, lane)


def odd_numbers(s):
    """Bases of -0, samples that are not finite."""
    r = s.r
    s.w("set_base", r.randrange(len(s.dests)), r.choice(["80000000", "80000000", "00000000", "3F800000", "BF800000"]))
    for i, (kind, scope, _, _) in enumerate(s.sources):
        if kind in ("signal", "audio") and s.p(0.6):
            stride = s.stride if scope == "v" else 1
            odd = ["7FC00000", "7F800000", "FF800000", "80000000", "3F000000", "BF000000", "3E800000"]
            s.w("bind", i, stride, "hex", *[r.choice(odd) for _ in range(stride)])


def gap(s):
    """Voices of the first and the last group, none between."""
    if s.voices > 32:
        s.w("note_on", s.r.randrange(16), "42700000", "3F000000", 0, "00000000")
        s.w("note_on", 32 + s.r.randrange(s.voices - 32), "42700000", "3F000000", 0, "00000000")
        s.w("process", 0, s.r.choice([5, s.frames]))
        for d in used(s):
            s.w("parts", d, 16 + s.r.randrange(16))


def short(s):
    s.w("memory_len", s.r.choice(["values", "values", "audio", "held"]), "need-1")
    ask(s)
    for what in ("values", "audio", "held"):
        s.w("memory_len", what, "all")


def session(seed):
    r = random.Random("c13 %d" % seed)
    s = make.Small("c13 %d" % seed, r.choice(["plain", "plain", "mixed", "feeds", "slews", "edge", "audio"]))
    s.begin(voices=r.choice([0, 1, 2, 3, 17, 33, 33, 40]), frames=r.choice([5, 32, 33, 40]))
    s.registries(sources=r.randrange(2, 5), dests=r.randrange(2, 5), slots=r.choice([2, 3, 4, 6, 8]),
                 control=0.75)
    names = [s.preset()]
    names.append(c17_carry.edited(s))
    s.engine()
    here = "~"
    if s.p(0.3):
        ask(s)
    for _ in range(r.randrange(8, 20)):
        k = r.choices(["swap", "block", "ask", "events", "odd", "gap", "short", "empty", "rebind"],
                      [1.5, 6, 4, 4, 1.5, 1, 0.4, 0.6, 0.6])[0]
        k = "swap" if here == "~" else k
        if k == "swap":
            here = r.choice([n for n in names + ["~"] * s.p(0.05) if n != here])
            s.w("carry" if s.p(0.4) else "swap", here)
            if s.p(0.4):
                ask(s)
        elif k == "block":
            c17_carry.off_phase(s)
            s.events(s.r.choice([0, 0, 3]))
            ask(s)
        elif k == "empty":
            s.w("process", 3, 2)
            ask(s)
        elif k == "events":
            s.events(4)
        elif k == "rebind":
            s.rebind(0.5)
        else:
            {"ask": ask, "odd": odd_numbers, "gap": gap, "short": short}[k](s)
    s.w("process", 0, s.frames)
    ask(s, 6)
    return s.text()


if __name__ == "__main__":
    seeds = [int(x) for x in sys.argv[-2:]] if len(sys.argv) > 3 else [0, 0]
    every = (("seed %d" % k, session(k)) for k in range(seeds[0], sum(seeds)))
    if sys.argv[1:2] == ["--rust"]:
        sys.exit(rust(*seeds) > 0)
    if sys.argv[1:2] == ["--add"]:
        sys.exit(add(sys.argv[2], every) > 0)
    if sys.argv[1:2] == ["--hold"] and add(sys.argv[2], every):
        sys.exit(1)
    common.main(__doc__, session, owed, FAULTS)
