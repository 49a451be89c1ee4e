#!/usr/bin/env python3
"""c18_open.py SEED COUNT | --hold PROGRAM SEED COUNT | --faults [SEED COUNT] | --model SEED COUNT

C-18, knobs while a block is being made: the lines `open START END`, `step` and `close`, and every call in between.

Written from: document 02, C-18; the session lines and decisions of the requests' page. There are two writings:

- a rewriter: `close` becomes `process START END` and the calls that waited, in arrival order, and the oracle answers.
  While a block is open, a reader is asked in a session of its own: all that came before, then `process` from START to
  the end of the last finished chunk. With no chunk finished it is asked before the block; what is printed of control
  plans has then no chunk. `state` and `memory` are not owed while a block is open.
- model.py's engine with open, step and close, which --model holds to the first, and which the wrong versions are of. It
  also answers `parts`, which in an open block are those of the last tick that was made.

Which rows are owed is worked out from the session: 18 before any other row, 19 behind every other.

Decided here: `set_rng` acts at once: before the first step it is before the block's draws, later behind them; a refused
`close` leaves the block open with what waits; a fresh engine ends an open block; signals that are bound anew after the
last step are of later blocks, and sessions bind none between the first step and the last; a byte and a carry are
refused with 18 whatever they would be otherwise.
"""
import random
import sys

import c13_parts
import c14_cells
import common
import make
import model

rows = common.rows
rows.LENT["close"] = ["held", "globals", "bases", "tables"]
rows.LENT["step"] = rows.LENT["process"]
WAITS = ("set_held", "set_voice_held", "set_base", "set_amount", "set_output", "set_voice_limit", "note_on", "note_off",
         "voice_ended")
BARRED = ("swap", "carry", "process", "open", "byte")
READERS = ("out", "latest", "latest_all", "ramp", "is_active", "rate")
MOST = 32

FAULTS = [
    ("at-once", "calls in an open block take effect at once"),
    ("reverse", "waiting calls take effect in reverse order"),
    ("lost", "waiting calls are lost"),
    ("last-one", "only the last waiting call takes effect"),
    ("notes-first", "waiting notes take effect before setters"),
    ("before-marks", "waiting calls take effect before the marks are cleared"),
    ("before-clock", "waiting notes are sounded before the block's last glides"),
    ("at-step", "waiting calls take effect at the next step"),
    ("no-draws", "the first step draws nothing"),
    ("every-draw", "every step draws"),
    ("no-load", "load is not set"),
    ("glide-at-close", "glides advance at close, by the whole length"),
    ("rng-waits", "set_rng waits"),
    ("limit-at-once", "set_voice_limit does not wait"),
    ("output-at-once", "set_output does not wait"),
    ("shows-former", "while open the former block is shown"),
    ("shows-plan", "while open all chunks of the range are shown"),
    ("waiting-active", "is_active sees waiting calls"),
    ("parts-former", "while open, parts are those before the block"),
    ("cells-later", "a waiting note prints no cells"),
    ("empty-clears", "closing an empty range leaves no chunks"),
    ("routeless-chunks", "a routeless range has chunks"),
    ("routeless-glides", "a routeless range moves no glides"),
    ("19-at-32", "the thirty-second waiting call is refused"),
    ("19-at-34", "a thirty-third waiting call is accepted"),
    ("19-first", "19 is judged before the other rows"),
    ("refused-wait", "refused calls count as waiting"),
    ("still-counted", "close leaves the count of waiting calls"),
    ("18-after-1", "1 is judged before 18"),
    ("18-last", "18 is judged behind every other row"),
    ("close-early", "close is accepted with a chunk left"),
    ("step-past", "step is accepted with no chunk left"),
    ("swap-open", "a swap is accepted in an open block"),
    ("open-14", "open judges 14"),
    ("close-14", "close judges no 14"),
    ("close-all-14", "close judges what process does"),
    ("retry", "a refused step counts as made"),
    ("no-ended", "voice_ended is refused in an open block"),
]


class Judge(c13_parts.Judge):
    """The number that each line owes. `block` is the open block: start, end, its chunks' ends, how many are made."""
    waits = WAITS

    def __init__(self, fault=""):
        super().__init__()
        self.what, self.block, self.waiting, self.phase = fault, None, 0, 0

    def chunk_ends(self, start, end):
        if start >= end or (not self.program()["routes"] and self.what != "routeless-chunks"):
            return []
        edges = [k for k in range(start + 1, end) if (k - start + self.phase) % 32 == 0]
        return edges + [end]

    def row18(self, c):
        b = self.block
        if c in BARRED:
            return b is not None and not (self.what == "swap-open" and c == "swap")
        if c == "step":
            return b is None or (b["made"] >= len(b["ends"]) and not (self.what == "step-past" and b["ends"]))
        if c == "close":
            return b is None or (b["made"] < len(b["ends"]) and self.what != "close-early")
        return False

    def row_engine(self, c, w):
        first, last = (18, self.row18(c)), (19, self.row19(c))
        other = None if c in ("byte",) else self.row_rest(c, w)
        order = [last, first, (other, other)] if self.what == "19-first" else [first, (other, other), last]
        if self.what == "18-last" or (self.what == "18-after-1" and other == 1):
            order = [(other, other), first, last]
        return rows.first(*order)

    def row19(self, c):
        most = {"19-at-32": 31, "19-at-34": 33}.get(self.what, MOST)
        return self.block is not None and c in self.waits and self.waiting >= most

    def row_rest(self, c, w):
        needs = {**self.engine_needs(*self.engine), **self.program()["needs"], "out": self.frames}
        if c == "open":
            short = self.what == "open-14" and self.short("step", needs)
            return rows.first((1, int(w[2]) > self.engine[0][1]), (14, short))
        if c == "step":
            return rows.first((13, any(s > 256 for _, _, s in self.parts.values())),
                              (14, self.short(c, needs) or self.outside()))
        if c == "close":
            short = self.short("process" if self.what == "close-all-14" else c, needs)
            return rows.first((14, short and self.what != "close-14"))
        if c == "voice_ended" and self.what == "no-ended" and self.block:
            return 18
        return super().row_engine(c, w)

    def effect(self, w):
        c, b = w[0], self.block
        if c == "open":
            start, end = int(w[1]), int(w[2])
            ends = self.chunk_ends(start, end)
            self.block = {"start": start, "end": end, "ends": ends, "made": 0, "former": self.frames}
            self.frames, self.waiting = 0, self.waiting if self.what == "still-counted" else 0
        elif c == "step":
            b["made"] += 1
            self.frames = b["ends"][min(b["made"], len(b["ends"])) - 1] - b["start"]
        elif c == "close":
            self.frames = self.frames if b["start"] < b["end"] else b["former"]
            self.phase, self.block = (self.phase + max(b["end"] - b["start"], 0)) % 32, None
        elif c == "process":
            self.phase = (self.phase + max(int(w[2]) - int(w[1]), 0)) % 32
            super().effect(w)
        elif b and c in self.waits:
            self.waiting += 1
        else:
            self.phase, self.block = (0, None) if c == "engine" else (self.phase, b)
            super().effect(w)

    def line(self, w):
        row = super().line(w)
        if row and self.block and w[0] in self.waits and self.what == "refused-wait":
            self.waiting += 1
        if row in (13, 14) and w[0] == "step" and self.what == "retry":
            self.effect(w)
        return row


# By the Rust -------------------------------------------------------------------------------------
EMPTY = "CBF29CE484222325"      # a hash of nothing


def unshown(line):
    """A printed line with no chunk finished; None where nothing is printed."""
    w = line.split()
    if w[0] in ("CHUNK", "FROM", "TO"):
        return None
    if w[0] == "HC":
        return "HC %s 0 %s %s %s" % (w[1], w[3], EMPTY, EMPTY)
    if w[0] == "LATEST":
        return " ".join(w[:3] + ["none"])
    if w[0] == "RAMP":
        return " ".join(w[:3] + ["none"] * (w[3:] == ["none"]))
    return line


class Rewriter:
    def __init__(self, judge):
        self.judge, self.items, self.out = judge, [], {}
        self.early, self.late, self.waiting = [], [], []    # of an open block: before it, right behind it, waiting
        self.cells = False

    def whole(self, end):
        """The lines of the open block as far as a frame."""
        b = self.judge.block
        return self.items + self.early + [(0, "process %d %d" % (b["start"], end))] * (end > b["start"]) + self.late

    def read(self, n, line):
        """A reader in an open block."""
        b = self.judge.block
        end = b["ends"][b["made"] - 1] if b["made"] else b["start"]
        said = self.asked(self.whole(end) + [(n, line)])[n][-1]
        if not b["made"]:
            said = [y for y in map(unshown, said) if y is not None]
        self.out[n] = said

    def asked(self, items):
        return common.asked(items)

    def close(self, n, b):
        process = [(n, "process %d %d" % (b["start"], b["end"]))]
        self.items += self.early + process + self.late + self.waiting
        self.early, self.late, self.waiting = [], [], []

    def line(self, n, w):
        judge, line = self.judge, " ".join(w)
        block = judge.block
        made = block and block["made"]
        row = judge.line(w) if w[0] != "parts" else None
        if w[0] == "note_on" and self.cells and not row:
            self.out[n] = [c14_cells.cells(w, None, "")]
        if row:
            self.out[n] = ["REFUSED %d" % row]
        elif w[0] == "cells":
            self.cells, self.out[n] = w[1] == "1", []
        elif w[0] == "parts":
            pass                                    # the model's
        elif w[0] == "open":
            self.out[n] = []
        elif w[0] == "step":
            self.out[n] = ["STEP %d" % (block["made"] - 1)]
        elif w[0] == "close":
            self.close(n, block)
        elif block and w[0] in judge.waits:
            self.waiting.append((n, line))
        elif block and w[0] in READERS:
            self.read(n, line)
        elif block and w[0] == "set_rng":
            (self.late if made else self.early).append((n, line))
        elif block and w[0] in ("bind", "unbind") and made:
            self.late.append((n, line))
        elif not (block and w[0] in ("state", "memory")):
            if w[0] == "engine":
                self.early, self.late, self.waiting = [], [], []
            self.items.append((n, line))


    def answers(self, text):
        for n, w in common.calls(text):
            self.line(n, w)
        got = self.asked(self.items)
        self.out.update({n: got[n][0] for n in got if n and n not in self.out})
        return self.out


def owed(text, fault=""):
    out = Rewriter(Judge()).answers(text)
    asked = [n for n, w in common.calls(text) if w[0] == "parts"]
    if asked:
        parts = native(text)
        out.update({n: parts[n] for n in asked})
    return out


# By the model ------------------------------------------------------------------------------------
class Engine(model.Engine):
    """open, step and close as calls of the engine, with one mistake where there is a fault."""
    fault, block = "", None

    def open(self, start, end):
        routed = self.p.routes or self.fault == "routeless-chunks"
        plan = self.cut(start, end) if routed and start < end else []
        self.block = {"start": start, "end": end, "plan": plan, "former": self.chunks, "record": self.record}
        self.chunks = {"shows-former": self.chunks, "shows-plan": list(plan)}.get(self.fault, [])
        self.count = 0

    def step(self):
        i, fault, plan = self.count, self.fault, self.block["plan"]
        chunk = plan[min(i, len(plan) - 1)]
        if self.p.routes:
            if i == 0 and fault != "no-load":
                self.loaded()
            if (i == 0 or fault == "every-draw") and fault != "no-draws":
                self.drawn()
            self.chunk(min(i, len(plan) - 1), *chunk)
        self.count += 1
        if fault not in ("shows-former", "shows-plan"):
            self.chunks = self.chunks + [chunk]

    def glides(self, n):
        if not (self.fault == "glide-at-close" and self.block and self.p.routes):
            super().glides(n)

    def parts_of(self, d, lane):
        now = self.record
        if self.fault == "parts-former" and self.block:
            self.record = self.block["record"]
        found = super().parts_of(d, lane)
        self.record = now
        return found

    def close(self, apply):
        b, self.block, fault = self.block, None, self.fault
        frames = b["end"] - b["start"]
        if frames <= 0:
            self.chunks = [] if fault == "empty-clears" else b["former"]
            return apply()
        if fault == "shows-former":
            self.chunks = b["plan"]
        if (not self.p.routes and fault != "routeless-glides") or fault == "glide-at-close":
            super().glides(frames)
        if fault == "before-marks":
            apply()
        self.closed(frames)
        return None if fault == "before-marks" else apply()


class Session(model.Session):
    fault, waits = "", WAITS

    def __init__(self, engine):
        super().__init__(engine)
        self.waiting, self.cells = [], False

    def on_cells(self, flag):
        self.cells = flag == "1"

    def call_note_on(self, *w):
        super().call_note_on(*w)
        return [c14_cells.cells(("note_on",) + w, None, "")] if self.cells else []

    def line(self, w):
        fault, open_ = self.fault, self.e and self.e.block
        alone = {"limit-at-once": "set_voice_limit", "output-at-once": "set_output"}
        now = fault == "at-once" or alone.get(fault) == w[0]
        if open_ and (w[0] in self.waits or (w[0] == "set_rng" and fault == "rng-waits")) and not now:
            self.waiting.append(w)
            told = self.cells and w[0] == "note_on" and fault != "cells-later"
            return [c14_cells.cells(w, None, "")] if told else []
        return super().line(w)

    def on_engine(self):
        self.waiting = []
        return super().on_engine()

    def apply(self):
        calls, self.waiting = self.waiting, []
        chosen = {"reverse": calls[::-1], "lost": [], "last-one": calls[-1:],
                  "notes-first": sorted(calls, key=lambda w: not w[0].startswith(("note", "voice")))}
        for w in chosen.get(self.fault, calls):
            super().line(w)

    def call_open(self, start, end):
        self.e.open(int(start), int(end))
        self.range = (int(start), int(end))

    def call_step(self):
        self.e.bound = dict(self.bound)
        if self.fault == "at-step":
            self.apply()
        if self.fault == "before-clock" and self.e.count == len(self.e.block["plan"]) - 1:
            self.apply()
        self.e.step()
        return ["STEP %d" % (self.e.count - 1)]

    def call_close(self):
        self.e.close(self.apply if self.fault == "before-marks" else lambda: None)
        said = self.outputs(*self.range)
        self.apply()
        return said

    def call_is_active(self, v):
        if self.fault == "waiting-active":
            for w in reversed(self.waiting):
                if w[0] in ("note_on", "voice_ended") and w[1] == v:
                    return ["ACTIVE %s %d" % (v, w[0] == "note_on")]
        return super().call_is_active(v)


ANSWERED = model.ANSWERED + ("open", "step", "close", "cells")


def native(text, fault=""):
    """The session by the model."""
    engine = type("Engine", (Engine,), {"fault": fault})
    s, judge, out = type("Session", (Session,), {"fault": fault})(engine), Judge(fault), {}
    judge.session = s
    for n, w in common.calls(text):
        inside = bool(judge.block)
        row = judge.line(w)
        if row:
            out[n] = ["REFUSED %d" % row]
            if fault == "retry" and w[0] == "step" and row in (13, 14):
                s.line(w)
            continue
        try:
            said = [x.rstrip() for x in s.line(w)]
        except model.Installed as name:
            out[n] = ["ERROR line %d: '%s' is installed" % (n, name)]
            break
        if w[0] in ANSWERED and not (inside and w[0] in ("state", "memory")):
            out[n] = said
    return out


# Sessions ----------------------------------------------------------------------------------------
def judged(s, judge=None):
    """The judge after the session so far: which block is open, which program is installed."""
    judge = judge or Judge()
    for _, w in common.calls(s.text()):
        judge.line(w)
    return judge


def waiting_call(s):
    """A setter or note; now and then one that is refused."""
    r = s.r
    k = r.random()
    if k < 0.12:
        half = "3F000000"
        s.w(*r.choice([("set_amount", 1000, half), ("set_base", 500, half), ("set_held", 0, "7FC00000"),
                       ("note_on", s.voices, "42700000", half, 0, "00000000"), ("note_off", 300, half),
                       ("set_held", 200, half), ("voice_ended", 64), ("set_voice_held", 0, s.stride, half)]))
    elif k < 0.5 and s.voices:
        v = r.randrange(s.voices)
        s.w(*r.choice([("note_on", v, "%08X" % common.bits_of(make.hx(float(r.randrange(128)))), make.hx(s.unit()),
                        r.randrange(2), r.choice(["00000000", "3F800000", "3DCCCCCD"])),
                       ("note_on", v, "42700000", "3F400000", 0, "00000000"), ("voice_ended", v),
                       ("note_off", v, make.hx(s.unit()))]))
    elif k < 0.65 and s.voices:                     # a note, then a setter of what it writes
        v, key = r.randrange(s.voices), next(i for i, x in enumerate(s.sources) if x[0] == "key")
        s.w("note_on", v, "42700000", "3F400000", 0, "00000000")
        s.w("set_voice_held", key, v, make.hx(s.unit()))
    elif k < 0.8:
        s.w(*r.choice([("set_voice_limit", r.choice([1, 2, 7, 64])),
                       ("set_output", r.choice([n for n in range(40) if "slot %d " % n in "\n".join(s.lines)]),
                        make.hx(s.unit()))]))
    else:
        s.event()


def rest(s):
    """A glide under way while a program without routes is in: an open block moves it once, at close."""
    v = s.r.randrange(s.voices)
    s.w("note_on", v, "41F00000", "3F000000", 0, "00000000")
    s.w("note_on", v, "42B40000", "3F000000", 1, s.r.choice(["3F800000", "40000000", "3F400000"]))
    s.w("swap ~")
    for _ in range(s.r.randrange(1, 3)):
        s.w("open", 0, s.r.choice([5, 27, 32]))
        if s.p(0.5):
            s.w("note_on", v, "42700000", "3F000000", 1, "3F800000")
        s.w("close")
        s.w("state")


def many(s, count):
    """Waiting calls up to the most, with a refused one among them now and then."""
    for _ in range(count):
        if s.p(0.05):
            s.w("set_base", 500, "3F000000")
        s.w("set_base", s.r.randrange(len(s.dests)), make.hx(s.signed()))


def barred(s, names):
    """A call that an open block bars, with a bad end too."""
    name = s.r.choice(names)
    s.w(*s.r.choice([("process", 0, s.frames), ("process", 0, s.frames + 1), ("open", 0, s.frames), ("byte", "90"),
                     ("open", 0, s.frames + 9), ("swap", name), ("carry", name), ("byte", "3C")]))


def read(s):
    r = s.r
    k = r.choice(["out", "out", "latest", "ramp", "is_active", "parts", "parts"])
    if k == "parts":
        c13_parts.ask(s)
    elif k == "out":
        a = r.randrange(s.frames + 1)
        s.w("out", a, r.randrange(a, s.frames + 1)) if s.p(0.6) else s.w("out")
    elif s.voices:
        s.w(k, *([r.randrange(len(s.dests))] if k != "is_active" else []), r.randrange(s.voices))


def short(s, word):
    s.w("memory_len", s.r.choice(["values", "held", "globals", "bases", "audio", "tables"]), "need-1")
    s.w(word)
    for what in ("engine", "values", "audio", "tables"):
        s.w("memory_len", what, "all")


def between(s, names, stray):
    """What may come between steps; `stray` is the word that is refused there."""
    while s.p(0.6):
        k = s.r.choices(["call", "read", "barred", "early", "state"], [6, 3, 1, 1, 0.3])[0]
        if k == "call":
            waiting_call(s)
        elif k == "read":
            read(s)
        elif k == "barred":
            barred(s, names)
        else:
            s.w(stray if k == "early" else "state")


def block(s, names, judge=Judge):
    """An open block: its steps, with what may come between."""
    r = s.r
    a = r.randrange(s.frames + 1) if s.p(0.4) else 0
    b = a + r.choice([0, 1, 5, 31, 32, 33, 40, 64, s.frames]) if s.p(0.9) else r.randrange(s.frames + 1)
    if s.p(0.1):
        s.w("memory_len", r.choice(["values", "held", "bases"]), "need-1")
    s.w("open", a, min(b, s.frames) if s.p(0.97) else s.frames + 1)
    for what in ("engine", "values"):
        s.w("memory_len", what, "all")
    block = judged(s, judge()).block
    if block is None:                               # it was refused
        s.w(r.choice(["step", "close", "out"]))
        return
    left = len(block["ends"])
    if s.p(0.15):
        many(s, r.choice([31, 32, 33, 34]))
    if s.p(0.08):
        s.w("set_rng", "%016X" % r.getrandbits(64))
    if s.p(0.15):
        s.w("set_voice_limit", r.choice([1, 5, 7, 64]))
    for i in range(left + 1):
        between(s, names, "close" if i < left else "step")
        if i < left:
            if s.p(0.12):
                short(s, "step")
            s.w("step")
    if s.p(0.12):
        short(s, "close")
    if s.p(0.1):
        s.w("set_rng", "%016X" % r.getrandbits(64))
    if s.p(0.1):
        s.rebind(0.5)
    s.w("close")


def programs(s, r):
    """Set-up with key, load and both kinds of randoms routed, and two programs."""
    s.begin(voices=r.choice([0, 1, 2, 3, 17]), frames=r.choice([32, 33, 40, 64, 70]), rate=64.0)
    s.registries(sources=r.randrange(2, 4), dests=r.randrange(1, 4), slots=r.choice([2, 3, 4]))
    s.w("note", r.choice(["t0", "diag"]), "diag", 1, r.randrange(2))
    for kind in ("key", "load", "routerandom", "random"):
        s.add_source(kind, "g" if kind == "load" else "v")
        if kind != "random":
            s.add_dest(scope="v" if kind != "load" else "g", wide=True, feed="-")
            s.w("slot", 30 + len(s.sources), "src=%d" % (len(s.sources) - 1), "dst=" + s.dests[-1][0], "amt=3F000000")
    names = [s.preset()]
    s.slot(1)
    return names + [s.compile()]


def swap(s, names, other):
    """A swap where none is barred; answers a program that is not installed then."""
    judge = judged(s)
    if judge.block is not None:
        return other
    there = "~" if s.p(0.2) and judge.installed != "~" else s.r.choice([n for n in names if n != judge.installed])
    s.w("swap", there)
    return [n for n in names if n != there][0]


def session(seed):
    r = random.Random("c18 %d" % seed)
    s = make.Small("c18 %d" % seed, r.choice(["notes", "notes", "mixed", "feeds", "slews", "plain", "audio"]))
    names = programs(s, r)
    s.engine(names[0] if s.p(0.85) else None)
    other = names[1]
    if s.p(0.3):
        s.w("cells 1")
    for _ in range(r.randrange(3, 8)):
        k = r.choices(["block", "process", "events", "look", "swap", "stray"], [8, 2, 3, 2, 1, 0.7])[0]
        if k == "block":
            block(s, [other])
            if s.p(0.7):
                s.w("out")
        elif k == "process":
            s.process()
        elif k == "events":
            s.events(3)
        elif k == "look":
            s.w(r.choice(["state", "memory"]))
        elif k == "stray":
            s.w(r.choice(["step", "close"]))
        else:
            other = swap(s, names, other)
    judge = judged(s)
    if s.voices and judge.block is None and judge.installed != "~" and s.p(0.4):
        rest(s)
    if s.p(0.9):
        s.w("process", 0, s.frames)
    s.w("state")
    s.w("memory")
    return s.text()


def agree(first, count):
    """The model beside the rewriter, on the lines that both answer."""
    bad = lines = 0
    for seed in range(first, first + count):
        text = session(seed)
        a, b = owed(text), native(text)
        both = {n: x for n, x in b.items() if n in a}
        d = common.first_difference(text, both, a)
        bad, lines = bad + bool(d), lines + sum(map(len, both.values()))
        if d:
            print("seed %d: %s" % (seed, d[:300]))
    print("%d sessions, %d lines, %d differ between model and Rust" % (count, lines, bad))
    sys.exit(bad > 0)


if __name__ == "__main__":
    if sys.argv[1:2] == ["--model"]:
        agree(*map(int, sys.argv[2:4]))
    common.main(__doc__, session, owed, FAULTS, told=native)
