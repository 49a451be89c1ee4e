#!/usr/bin/env python3
"""whole.py SEED COUNT | --hold PROGRAM SEED COUNT | --faults [SEED COUNT] | --check COUNT

All requests in one session: slots up to 95, cells, carries, parts, bytes, open blocks, songs and steps back, as they
come together once every request has landed. The single references are put together here: model.py's engine with
c18_open.py's open blocks, c11_cable.py's reader, c14_cells.py's lookups, c21_song.py's counts, c24_step_back.py's
inverse, and the rows of each.

--check answers the first COUNT sessions of each single reference and compares, so that this writing is no other than
theirs. Wrong versions here are of what two requests have to do with each other.

Decided here: a byte is judged 18, 14, 16; a carry leaves reader and owners as a swap does; a direct call that waits
takes its voice from a channel when it takes effect; `cell` reads what stands at that moment, in an open block too.
"""
import random
import sys

import c11_cable
import c13_parts
import c14_cells
import c15_slots
import c17_carry
import c18_open
import c21_song
import c24_step_back
import common
import make
import model
from common import f32, number

rows = common.rows

FAULTS = [
    ("carry-owners", "a carry clears the owners"),
    ("carry-reader", "a carry clears the reader"),
    ("carry-64", "slews and randoms of slots from 64 on are not carried"),
    ("parts-64", "parts of slots from 64 on are not listed"),
    ("parts-carried", "parts answer after a carry as before it"),
    ("cell-64", "slots from 64 on have no cell"),
    ("cell-old", "after a carry cells are of the program that came out"),
    ("byte-voices", "a byte's note does not count for the next off-phase tick"),
    ("byte-owner", "a waiting direct note leaves the owner"),
    ("back-draws", "a step back draws the sounding voices' randoms anew"),
]


class Judge(c24_step_back.Judge, c15_slots.Judge):
    """Every request's rows, but for 14 and 16 of a byte, which need its reader."""

    def __init__(self):
        super().__init__("")

    def row(self, w):
        if w[0] == "lookup" and w[1] != "lin":
            good = self.tables[w[1]]
            return rows.first((6, not all(good)), (15, len(good) != 513))
        if w[0] == "song":
            return c21_song.row(*c21_song.parsed(w))
        return super().row(w)

    def row_rest(self, c, w):
        if c != "cell":
            return super().row_rest(c, w)
        needs = {**self.engine_needs(*self.engine), **self.program()["needs"]}
        return rows.first((1, int(w[3]) >= self.engine[0][1]), (2, int(w[4]) >= rows.stride(self.engine[0])),
                          (5, int(w[1]) >= c15_slots.SLOTS), (13, any(s > 256 for _, _, s in self.parts.values())),
                          (14, self.short(c, needs) or self.outside()))


class Engine(c18_open.Engine):
    how = ""

    def agree(self, old, new, slot, place):
        return super().agree(old, new, slot, place) and not (self.how == "carry-64" and slot >= 64)

    def recorded(self, t, d, l, fed, parts):
        base, offsets, terms, low, high = super().recorded(t, d, l, fed, parts)
        if self.how == "parts-64":
            terms = [x for x in terms if x[0] < 64]
        return base, offsets, terms, low, high

    def carry(self, new):
        record, ticked = self.record, self.p.ticked
        old = super().carry(new)
        if self.how == "parts-carried" and ticked:
            self.record, new.ticked = {k: x for k, x in record.items() if k[0] in new.inherited}, True
        self.before = old
        return old


class Session(c18_open.Session):
    how, cable = "", None
    waits = c18_open.WAITS + ("step_back",)

    def on_engine(self):
        said = super().on_engine()
        self.cable = c11_cable.Cable(self.e.voices)
        return said

    # Direct calls, which the cable must know ------------------------------------------------------
    def call_note_on(self, *w):
        said = super().call_note_on(*w)
        self.cable.direct(("note_on",) + w)
        return said

    def call_note_off(self, *w):
        super().call_note_off(*w)
        self.cable.direct(("note_off",) + w)

    def call_voice_ended(self, *w):
        super().call_voice_ended(*w)
        self.cable.direct(("voice_ended",) + w)

    def apply(self):
        owners = dict(self.cable.voices.owner)
        super().apply()
        if self.how == "byte-owner":
            self.cable.voices.owner = owners

    def call_carry(self, name):
        if self.how == "carry-reader":
            self.cable.reader = c11_cable.Reader()
        if self.how == "carry-owners":
            self.cable.voices.owner = {}
        return super().call_carry(name)

    # Lines of single requests ---------------------------------------------------------------------
    def sound(self, call):
        """A note call that a byte has set off."""
        word, *rest = call.split()
        getattr(c18_open.Session, "call_" + word)(self, *rest)
        if self.how == "byte-voices" and word == "note_on":
            self.e.fresh[int(rest[0])] = self.e.any_fresh = False

    def call_step_back(self, n):
        self.e.rng = c24_step_back.taken_back(self.e.rng, int(n))
        if self.how == "back-draws":
            self.e.renote = [a or b for a, b in zip(self.e.renote, self.e.active)]
            self.e.any_renote = any(self.e.renote)

    def on_lookup(self, name, x):
        table = model.LINEAR if name == "lin" else self.tables[name]
        return ["LOOK %d %s" % (c14_cells.cell_of(number(x)), self.word(c14_cells.looked(table, number(x))))]

    def on_song(self, *w):
        return ["SONG %d %d" % c21_song.counts(*c21_song.parsed(("song",) + w))]

    def call_cell(self, slot, name, frame, lane):
        e, place = self.e, ("src", "aux").index(name)
        p = getattr(e, "before", e.p) if self.how == "cell-old" else e.p
        route = next((r for r in p.routes if r.slot == int(slot)), None)
        said = "CELL %s %s %s %s " % (slot, name, frame, lane)
        if not route or not route.inputs[place] or (self.how == "cell-64" and int(slot) >= 64):
            return [said + "none"]
        bound, installed, e.bound, e.p = e.bound, e.p, dict(self.bound), p
        t = model.Tick(e, int(frame), int(frame) + 1, 0.0, False)
        x = t.raw(route, place, int(lane), lambda a, m: p.cur[a][e.lane(a, m)])
        e.bound, e.p = bound, installed
        x = f32(f32(x * 0.5) + 0.5) if route.inputs[place].bipolar else x
        return [said + str(c14_cells.cell_of(x))]


ANSWERED = c18_open.ANSWERED + ("lookup", "song", "cell", "byte", "step_back", "carry", "parts")


def byte(s, judge, w):
    """What a byte prints, by 18, 14, 16 and the reader."""
    if judge.block:
        return "REFUSED 18"
    said, call = c11_cable.judged(s.cable, judge, int(w[1], 16), "")
    if call:
        s.sound(call)
    return said


def owed(text, fault=""):
    s = type("Session", (Session,), {"how": fault})(type("Engine", (Engine,), {"how": fault}))
    judge, out = Judge(), {}
    judge.session = s
    for n, w in common.calls(text):
        inside = bool(judge.block)
        if w[0] == "byte":
            out[n] = [byte(s, judge, w)]
            continue
        row = judge.line(w)
        if row:
            out[n] = ["REFUSED %d" % row]
            continue
        try:
            said = [x.rstrip() for x in s.line(w)]
        except model.Installed as name:
            out[n] = ["ERROR line %d: '%s' is installed" % (n, name)]
            break
        if w[0] in ANSWERED and not (inside and w[0] in ("state", "memory")):
            out[n] = said
    out.update(c15_slots.compiles(text, out))
    return out


# Sessions ----------------------------------------------------------------------------------------
def programs(s, r):
    """Set-up by wide slots: key, velocity, release, randoms and load routed; three programs, edits of one another."""
    s.begin(voices=r.choice([1, 2, 3, 17]), frames=r.choice([32, 33, 40, 64]), rate=64.0)
    s.nslots = 4
    for kind in ("held", "held", "key", "release", "routerandom", "random", "load"):
        s.add_source(kind, "g" if kind in ("held", "load") else "v")
    for _ in range(r.randrange(1, 3)):
        s.add_source()
    slots = sorted(r.sample(range(60, 96), 4) + r.sample(range(8), 2))
    for _ in range(r.randrange(2, 5)):
        s.add_dest(feed=c15_slots.feed(s, slots), rate=r.choice(["control", "control", None]))
    names = []
    for _ in range(3):
        for n in slots if not names else r.sample(slots, 2):
            s.slot(n)
        s.note_curves()
        names.append(s.compile())
    return slots, names


def change(s, names):
    """A carry or a swap, where none is barred."""
    installed = c18_open.judged(s, Judge()).installed
    s.w("carry" if s.p(0.6) else "swap", s.r.choice([n for n in names if n != installed]))
    if s.p(0.5):
        c13_parts.ask(s)


def cell(s, slots):
    frame, lane = s.r.randrange(s.frames + s.p(0.05)), s.r.randrange(s.stride + s.p(0.05))
    s.w("cell", s.r.choice(slots + [96] * s.p(0.1)), s.r.choice(["src", "src", "aux"]), frame, lane)


def session(seed):
    r = random.Random("whole %d" % seed)
    s = make.Small("whole %d" % seed, r.choice(["notes", "notes", "mixed", "feeds", "slews", "plain"]))
    slots, names = programs(s, r)
    s.engine(names[0])
    s.w("cells", r.randrange(2))
    for _ in range(r.randrange(10, 24)):
        k = r.choices(["block", "bytes", "change", "cell", "parts", "back", "events", "process", "song", "look"],
                      [3, 6, 3, 3, 2, 2, 3, 4, 0.3, 1])[0]
        if k == "block":
            installed = c18_open.judged(s, Judge()).installed
            c18_open.block(s, [n for n in names if n != installed], Judge)
        elif k == "bytes":
            c11_cable.send(s, c11_cable.phrase(r))
        elif k == "change":
            change(s, names)
        elif k == "cell":
            cell(s, slots)
        elif k == "parts":
            c13_parts.ask(s)
        elif k == "back":
            s.w("step_back", c24_step_back.count(s, 1))
        elif k == "events":
            s.events(3)
        elif k == "process":
            c17_carry.off_phase(s)
        elif k == "song":
            s.w(c21_song.song_line(r).rstrip())
        else:
            s.w(r.choice(["state", "memory", "out"]))
    s.w("process", 0, s.frames)
    s.w("state")
    s.w("memory")
    return s.text()


# The single references ---------------------------------------------------------------------------
def check(count):
    """The sessions of each single reference, answered here and there."""
    bad = 0
    for ref in (c11_cable, c13_parts, c14_cells, c17_carry, c18_open, c21_song, c24_step_back, c15_slots):
        common.GAINS = 96 if ref is c15_slots else 64
        differ = lines = 0
        for seed in range(count):
            text = ref.session(seed)
            a, b = ref.owed(text, ""), owed(text)
            both = {n: x for n, x in b.items() if n in a}
            d = common.first_difference(text, both, a)
            differ, lines = differ + bool(d), lines + sum(map(len, both.values()))
            if d and differ < 4:
                print("%s, seed %d: %s" % (ref.__name__, seed, d[:300]))
        print("%s: %d sessions, %d lines, %d differ" % (ref.__name__, count, lines, differ))
        bad += differ
    sys.exit(bad > 0)


if __name__ == "__main__":
    if sys.argv[1:2] == ["--check"]:
        check(int(sys.argv[2]))
    common.main(__doc__, session, owed, FAULTS)
