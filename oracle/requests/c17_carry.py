#!/usr/bin/env python3
"""c17_carry.py SEED COUNT | --hold PROGRAM SEED COUNT | --faults [SEED COUNT] | --rust SEED COUNT

C-17, changing a preset under a held chord: the line `carry NAME`.

Written from: document 02, C-17; the session lines and decisions of the requests' page. model.py has the engine, by
destination and slot; its `carry` is the request's. At every tick that no chain bars it asserts the rule of demand 3,
with carried values as the state before the tick. --rust makes each `carry` a `swap` and holds the model to the oracle
on the same sessions.

Sessions: a chord is held, a slot is edited, the other program is carried in, and a block comes off phase; scopes that
flip, sources moved to another slot, feeds that come and go, carries to and fro, before any tick, and among plain swaps.

Decided here: `M program` prints as primed whether a tick has come since installation; a carry judges 7, 8 and then 14,
for `values` of the program that comes out and of the one that goes in, each by its own need.
"""
import random
import sys

import common
import make
import model

rows = common.rows

FAULTS = [
    ("as-swap", "a carry is a plain swap"),
    ("swap-carries", "a plain swap carries"),
    ("any-scope", "values are kept whatever the scopes"),
    ("by-place", "values go by the place in running order"),
    ("no-from", "the from values are not kept"),
    ("from-is-to", "the from values are the to values"),
    ("chunk-rows", "the rows of the last block are kept"),
    ("clears-chunks", "the chunk list is emptied"),
    ("no-slews", "slews are not kept"),
    ("no-randoms", "per-route randoms are not kept"),
    ("any-source", "slews are kept whatever the source"),
    ("any-reading", "slews are kept whether read per voice or globally"),
    ("source-scope", "reading alike goes by the source's scope, fed or not"),
    ("same-read", "slews are kept only where both are fed, or neither"),
    ("same-dest", "slews are kept only into the same destination"),
    ("same-curve", "slews are kept only with the same curve and seconds"),
    ("by-route", "slews go by the route's number"),
    ("only-new", "a slew that only the new program has starts at 0"),
    ("other-place", "a slew of the source's place serves the aux's"),
    ("cleared", "what is not kept is cleared"),
    ("control-only", "slews of audio routes are not kept"),
    ("active-lanes", "only lanes of active voices are kept"),
    ("fresh", "active voices are marked fresh"),
    ("renoted", "active voices are marked renoted"),
    ("any-fresh", "the mark any fresh is set"),
    ("unmarks", "marks that were set are cleared"),
    ("all-inherit", "every control destination inherits the mark"),
    ("none-inherit", "nothing inherits the mark"),
    ("all-primed", "kept destinations are primed even where the old ones were not"),
    ("ticked-only", "a mark that was inherited is not inherited again"),
    ("swap-keeps", "a plain swap leaves the marks"),
    ("old-gains", "amounts and outputs stay those of before"),
    ("no-14", "14 is not judged"),
    ("old-14", "14 is judged for the old program alone"),
    ("new-14", "14 is judged for the new program alone"),
    ("14-first", "14 is judged before 7 and 8"),
    ("no-8", "8 is not judged"),
]


class Judge(rows.Owed):
    def __init__(self, fault=""):
        super().__init__()
        self.fault = fault

    def short_values(self, new):
        who = {"old-14": [self.program()], "new-14": [new], "no-14": []}.get(self.fault, [self.program(), new])
        return any(self.length("values", p["needs"]["values"]) < p["needs"]["values"] for p in who)

    def row_engine(self, c, w):
        if c != "carry":
            return super().row_engine(c, w)
        new = self.programs[w[1]]
        short = (14, self.short_values(new))
        plain = self.row_swap(new)
        plain = None if self.fault == "no-8" and plain == 8 else plain
        return rows.first(short, (plain, plain)) if self.fault == "14-first" else rows.first((plain, plain), short)

    def effect(self, w):
        if w[0] == "carry":
            self.installed = w[1]
        else:
            super().effect(w)


class Wrong(model.Engine):
    """The engine with one mistake."""
    fault = ""

    def agree(self, old, new, slot, place):
        a, b = (next(r for r in p.routes if r.slot == slot) for p in (old, new))
        x, y, fault = a.inputs[place], b.inputs[place], self.fault
        if fault in ("no-slews", "no-randoms"):
            return super().agree(old, new, slot, place) and (y.read == "rnd") == (fault == "no-slews")
        if fault == "same-dest" and a.dest != b.dest:
            return False
        if fault == "same-curve" and (x.table != y.table or x.slew != y.slew):
            return False
        if fault == "control-only" and b.dest in new.audio:
            return False
        if fault == "same-read" and (x.read == "fed") != (y.read == "fed"):
            return False
        alike = x.voice == y.voice or fault == "any-reading"
        if fault == "source-scope":                 # only global sources are fed
            alike = (x.voice and x.read != "fed") == (y.voice and y.read != "fed")
        return (x.source == y.source or fault == "any-source") and alike

    def carry(self, new):
        old, fault = self.p, self.fault
        if fault == "as-swap":
            return super().swap(new)
        kept, before = self.carried(old, new), self.copy(new)
        gains = (self.amounts, self.outputs)
        super().carry(new)
        self.values_wrong(old, new, kept, before)
        self.inputs_wrong(old, new, before)
        self.marks_wrong(old, new, kept)
        if fault == "old-gains":
            self.amounts, self.outputs = gains
        if fault == "clears-chunks":
            self.chunks = []
        return old

    @staticmethod
    def copy(p):
        return {name: {k: list(x) for k, x in getattr(p, name).items()} for name in ("cur", "start", "slew", "random")}

    def values_wrong(self, old, new, kept, before):
        fault = self.fault
        for d in kept:
            if fault == "no-from":
                new.start[d] = before["start"][d]
            elif fault == "from-is-to":
                new.start[d] = list(new.cur[d])
            elif fault == "chunk-rows":
                new.rows[d] = list(old.rows[d])
            elif fault == "active-lanes" and new.width[d] > 1:
                new.cur[d] = [x if self.active[l] else before["cur"][d][l] for l, x in enumerate(new.cur[d])]
        for d in [d for d in new.control if d in old.control and fault == "any-scope"]:
            w = new.width[d]
            new.cur[d], new.start[d] = (old.cur[d] * w)[:w], (old.start[d] * w)[:w]
        if fault == "by-place":
            new.cur = before["cur"]
            for d, o in zip(new.order, old.order):
                if new.width[d] == old.width[o]:
                    new.cur[d] = list(old.cur[o])

    def inputs_wrong(self, old, new, before):
        slots = [r.slot for r in old.routes]
        for i, r in enumerate(new.routes):
            for place in range(2):
                key = (r.slot, place)
                if key in new.slew:
                    self.slew_wrong(old, new, key, slots[i] if i < len(slots) else None, before)
        if self.fault == "cleared":
            for name in ("slew", "random"):
                for key, row in getattr(new, name).items():
                    if key not in getattr(old, name) or not super().agree(old, new, *key):
                        row[:] = [0.0] * self.stride

    def slew_wrong(self, old, new, key, slot, before):
        fault = self.fault
        if fault == "only-new" and key not in old.slew:
            new.slew[key] = [0.0] * self.stride
        elif fault == "other-place" and key[1] == 1 and (key[0], 0) in old.slew:
            new.slew[key] = list(old.slew[key[0], 0])
        elif fault == "by-route":
            new.slew[key] = list(old.slew.get((slot, key[1]), before["slew"][key]))

    def marks_wrong(self, old, new, kept):
        fault = self.fault
        for v in [v for v in range(self.stride) if self.active[v]]:
            self.fresh[v] |= fault == "fresh"
            self.renote[v] |= fault == "renoted"
            self.any_fresh |= fault in ("fresh", "any-fresh")
            self.any_renote |= fault == "renoted"
        if fault == "unmarks":
            self.fresh, self.any_fresh = [False] * self.stride, False
        told = set(kept) if old.ticked else set()
        wrong = {"all-inherit": set(new.control) if old.ticked else new.inherited, "none-inherit": set(),
                 "all-primed": set(kept), "ticked-only": told}
        new.inherited = wrong.get(fault, new.inherited)

    def swap(self, new):
        if self.fault == "swap-carries":
            return model.Engine.carry(self, new)
        old = super().swap(new)
        if self.fault == "swap-keeps":
            new.inherited = {d for d in new.control if old.primed(d)} if old.ticked else set()
        return old


def owed(text, fault=""):
    kind = type("Engine", (Wrong,), {"fault": fault}) if fault else model.Engine
    return model.answers(text, Judge(fault), kind)


# Sessions ----------------------------------------------------------------------------------------
def edited(s):
    """Another program: a slot or two changed, two slots exchanged, or a slot emptied."""
    r = s.r
    for _ in range(r.randrange(1, 3)):
        n = r.randrange(s.nslots)
        lines = [l for l in s.lines if l.startswith("slot %d " % n)]
        k = r.random()
        if k < 0.35 or not lines:
            s.slot(n)
        elif k < 0.5:
            s.w("slot", n)
        elif k < 0.65:
            s.w("slot", r.randrange(s.nslots), *lines[-1].split()[2:])
        else:                                       # one field: another destination, source, gain or curve
            fields = dict(x.split("=") for x in lines[-1].split()[2:])
            name = r.choice(["dst", "dst", "src", "sc", "sc", "sc", "amt", "aux", "pol"])
            made = {"dst": r.choice(s.dests)[0], "src": r.randrange(len(s.sources)), "sc": s.curve(),
                    "amt": make.hx(s.amount()), "aux": r.randrange(len(s.sources)), "pol": r.choice("ub")}
            fields[name] = made[name]
            s.w("slot", n, *["%s=%s" % x for x in fields.items()])
    return s.compile()


def flipped(s):
    """The registries anew with some scopes and feeds changed: one program is of each."""
    sources, dests = list(s.sources), list(s.dests)
    s.w("newreg")
    s.sources, s.dests = [], []
    for kind, scope, rng, _ in sources:
        s.add_source(kind, "vg"[scope == "v"] if s.p(0.3) else scope, rng)
    for target, scope, rate, feed in dests:
        scope = "vg"[scope == "v"] if s.p(0.35) else scope
        feed = s.feed() if s.p(0.3) else feed
        lo, hi = s.bounds()
        s.w("dest", target, scope, rate, make.hx(lo), make.hx(hi), feed)
        s.dests.append((target, scope, rate, feed))


def refused(s, names):
    """Programs that a carry must turn away: 7, and 8."""
    s.w("config", make.hx(s.rate), s.frames + 1, s.voices)
    names.append(s.compile())
    s.w("config", make.hx(s.rate), s.frames, s.voices)


def look(s):
    for w in s.r.sample(["out", "state", "memory", "latest", "ramp"], 2):
        if w in ("latest", "ramp") and s.voices:
            s.w(w, s.r.randrange(len(s.dests)), s.r.randrange(s.voices))
        elif w not in ("latest", "ramp"):
            s.w(w)


def chord(s):
    for v in s.r.sample(range(s.voices), min(s.voices, s.r.randrange(1, 4))):
        s.w("note_on", v, make.hx(float(s.r.randrange(128))), make.hx(s.unit()), 0, "00000000")


def off_phase(s):
    n = s.r.choice([1, 5, 7, 13, 27, 31, 32, 33, 40])
    s.w("process", 0, min(n, s.frames))


def change(s, names, here):
    """A carry or a swap to a program that is not installed; answers what is installed then."""
    there = s.r.choice([n for n in names + ["~"] * s.p(0.1) if n != here] or [here])
    if there == here:
        return here
    short = s.p(0.06)
    if short:
        s.w("memory_len", s.r.choice(["values", "values", "audio"]), "need-1")
    word = s.r.choice(["carry", "carry", "carry", "swap"])
    s.w(word, there)
    if short:
        s.w("memory_len", "values", "all")
        s.w("memory_len", "audio", "all")
        s.w("memory")
    judge = Judge()
    for _, w in common.calls(s.text()):
        judge.line(w)
    return judge.installed


def programs(s, r):
    """Set-up and programs: a preset, edits of it, one of other registries, now and then some that are refused."""
    s.begin(voices=r.choice([1, 2, 3, 17, 33]), frames=r.choice([32, 33, 40, 64]))
    s.registries(sources=r.randrange(2, 5), dests=r.randrange(2, 5), slots=r.choice([2, 3, 4, 6]))
    if s.p(0.6):
        s.add_source("routerandom", "v")
        s.w("slot", s.nslots, "src=%d" % (len(s.sources) - 1), "dst=" + r.choice(s.dests)[0], "amt=3F000000")
    fed = s.p(0.3)
    if fed:
        s.group()
        feeder = s.lines[-1].split()[1]
    names = [s.preset()]
    if fed:
        s.w("slot", feeder)
        names.append(s.compile())
    names += [edited(s) for _ in range(r.choice([1, 1, 2]))]
    if s.p(0.35):
        flipped(s)
        names.append(s.compile() if s.p(0.5) else edited(s))
    if s.p(0.15):
        refused(s, names)
    s.engine()
    if s.p(0.2):                                    # against more sources than the engine has
        s.add_source()
        s.w("slot", 0, "src=%d" % (len(s.sources) - 1), "dst=" + s.dests[0][0], "amt=3F000000")
        names.append(s.compile())
    return names


def session(seed):
    r = random.Random("c17 %d" % seed)
    s = make.Small("c17 %d" % seed, r.choice(["slews", "slews", "mixed", "feeds", "notes", "plain", "audio"]))
    names = programs(s, r)
    here = change(s, names[:1], "~")
    for _ in range(r.randrange(8, 18)):
        k = r.choices(["change", "block", "chord", "events", "look", "rebind"], [5, 6, 2, 2, 2, 1])[0]
        if k == "change":
            here = change(s, names, here)
            if s.p(0.4):
                look(s)
            if s.p(0.6):
                off_phase(s)
        elif k == "block":
            off_phase(s)
        elif k == "chord":
            chord(s)
        elif k == "events":
            s.events(3)
        elif k == "look":
            look(s)
        else:
            s.rebind(0.5)
    s.w("process", 0, s.frames)
    s.w("memory")
    s.w("state")
    return s.text()


def rust(first, count):
    """Every carry made a swap: the model must print what the oracle prints."""
    bad = lines = done = 0
    for seed in range(first, first + count):
        text = session(seed).replace("\ncarry ", "\nswap ")
        if "memory_len" in text:                    # a swap is not refused where a carry is
            continue
        want = model.answers(text, Judge())
        refused_ = [n for n, x in want.items() if x and x[0].startswith("REFUSED")]
        got = common.run(common.ORACLE, common.compare.without(text, refused_))
        d = common.first_difference(text, {n: x for n, x in want.items() if n not in refused_}, got)
        done, bad, lines = done + 1, bad + bool(d), lines + sum(map(len, want.values()))
        if d:
            print("seed %d: %s" % (seed, d[:200]))
    print("%d sessions with swaps for carries, %d lines, %d differ from the oracle" % (done, lines, bad))
    sys.exit(bad > 0)


if __name__ == "__main__":
    if sys.argv[1:2] == ["--rust"]:
        rust(*map(int, sys.argv[2:4]))
    common.main(__doc__, session, owed, FAULTS)
