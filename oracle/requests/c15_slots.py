#!/usr/bin/env python3
"""c15_slots.py SEED COUNT | --hold PROGRAM SEED COUNT | --faults [SEED COUNT] | --rust SEED COUNT

C-15, ninety-six slots: sessions that use the slots from 64 on, which the Rust does not have.

Written from: document 02, C-15; the decisions of the requests' page. model.py has 96 slots and answers; the rows are
those of document 01's table with 96 for 64 slots and 95 for 63, and a table memory has 194 places of 513 numbers.

--rust holds the model to the oracle on these sessions. What a session answers depends on the order of its slots and not
on their numbers; so, where it names at most 64 of them, they are numbered anew from 0 in the same order, in `slot`
lines, feeds and setters, and the answers are numbered back. Amounts and outputs, which stand by slot, are left out of
`state` there.

The fixed sessions have slots and feeds at 63, 64, 95 and 96; 96 plain routes into one destination, and 96 of which some
are plain; 96 plans of one route each, with memories at their need as numbers; a chain through slots 64 to 95; note
curves beside slot 64's.

Decided here: `matrix_put` and the words of its places are not used.
"""
import random
import re
import sys

import common
import make
import model
from common import f32

rows = common.rows
rows.TABLES = 194 * 513
SLOTS, LAST = 96, 95
common.GAINS = SLOTS

FAULTS = [
    ("slot-64", "slots from 64 on are refused"),
    ("slot-95", "slot 95 is refused"),
    ("slot-96", "slot 96 is accepted"),
    ("setter-64", "amounts and outputs of slots from 64 on are refused"),
    ("setter-95", "the amount of slot 95 is refused"),
    ("setter-lost", "amounts and outputs of slots from 64 on are not set"),
    ("feed-64", "feeds onto slots from 64 on are refused"),
    ("feed-95", "a feed onto slot 95 is refused"),
    ("feed-96", "a feed onto slot 96 is accepted"),
    ("feed-lost", "a feed onto a slot from 64 on is not read"),
    ("order-64", "the order of plans goes by the slots below 64"),
    ("routes-64", "only the first 64 routes are there"),
    ("plain-lost", "plain routes from the 65th on add nothing"),
    ("plain-other", "plain routes from the 65th on are not plain"),
    ("plain-twice", "plain routes from the 65th on are added twice"),
    ("plain-first", "from the 65th route on those are plain whose 64th before is"),
    ("draws-64", "per-route randoms of slots from 64 on draw nothing"),
    ("slews-64", "slews of slots from 64 on stand still"),
    ("gains-64", "the compiled amounts of slots from 64 on are 0"),
    ("notes-128", "the note curves stand at the places of slot 64"),
    ("tables-64", "a table memory of 66,690 numbers will do"),
]


class Judge(rows.Owed):
    """The rows with 96 slots."""

    def __init__(self, fault=""):
        super().__init__()
        self.fault = fault
        self.tables_need = 130 * 513 if fault == "tables-64" else rows.TABLES

    def beyond(self, what, n):
        """Whether a slot number is refused, for a slot line, a setter or a feed."""
        last = {what + "-64": 63, what + "-95": 94, what + "-96": 96}.get(self.fault, LAST)
        return n > last

    def row_tables(self, call, names):
        return rows.first((6, not all(all(self.tables[n]) for n in names)),
                          (14, names and self.short(call, {"matrix_tables": self.tables_need})),
                          (15, any(len(self.tables[n]) != 513 for n in names)))

    def row_slot(self, n, fields):
        return 5 if self.beyond("slot", n) else super().row_slot(0, fields)

    def row_dest(self, w):
        feed = w[6]
        slot = feed[:3] in ("amt", "out") and int(feed[4:])
        near = rows.Owed.row_dest(self, w[:6] + ["-"])
        return near if near in (9, 10) else 11 if slot is not False and self.beyond("feed", slot) else near

    def row_engine(self, c, w):
        if c in ("set_amount", "set_output"):
            return rows.first((5, self.beyond("setter", int(w[1]))), (6, not rows.finite(w[2])))
        return super().row_engine(c, w)

    def named(self):
        """Places by slot and position; the note curves' are behind the last slot's."""
        slots = {2 * n + p for n, f in self.slots.items() for p in rows.curves_of(f)}
        return slots | {2 * SLOTS + i for i, n in enumerate(self.note) if n != "diag"}


# Wrong versions of the model ----------------------------------------------------------------------
class Tick(model.Tick):
    fault = ""

    def place(self, r):
        return self.e.p.routes.index(r)

    def plain(self, r):
        late = self.place(r) >= 64
        if self.fault in ("plain-other", "plain-first") and late:
            before = self.e.p.routes[self.place(r) - 64]
            return self.fault == "plain-first" and super().plain(before) and r.inputs[0].voice
        return super().plain(r)

    def parts(self, d, lane, fed):
        found = super().parts(d, lane, fed)
        late = {r.slot for r in self.plains(d) if self.place(r) >= 64}
        if found is None or not late or self.fault not in ("plain-lost", "plain-twice"):
            return found
        base, offsets, terms = found
        if self.fault == "plain-lost":
            return base, offsets, [x for x in terms if x[0] not in late]
        return base, offsets, terms + [x for x in terms if x[0] in late]

    def slews(self, d, fed):
        for key, m, y in super().slews(d, fed):
            if not (self.fault == "slews-64" and key[0] >= 64):
                yield key, m, y


class Program(model.Program):
    fault = ""

    def __init__(self, *a):
        super().__init__(*a)
        if self.fault == "gains-64":
            self.amounts[64:] = [0.0] * 32

    def candidates(self, sources):
        super().candidates(sources)
        if self.fault == "routes-64":
            self.named = self.named[:64]
            self.used = sorted({d for _, d in self.named})
        if self.fault == "feed-lost":
            self.reader = {t: d for t, d in self.reader.items() if t[0] == "src" or t[1] < 64}

    def things(self, d):
        every = super().things(d)
        return {t for t in every if t[0] == "src" or t[1] < 64} if self.fault == "order-64" else every


class Engine(model.Engine):
    fault = ""

    def drawn(self):
        kept = {k: list(x) for k, x in self.p.random.items() if k[0] >= 64}
        super().drawn()
        if self.fault == "draws-64":
            self.p.random.update(kept)

    def set_gain(self, row, n, x):
        if not (self.fault == "setter-lost" and n >= 64):
            row[n] = x


class Session(model.Session):
    fault = ""

    def on_slot(self, n, *fields):
        super().on_slot(n, *fields)
        if n == "64" and self.fault == "notes-128":
            curves = self.slots[64].curves
            velocity, key = (c.table if c else t for c, t in zip(curves, self.note))
            self.note = (velocity, key) + self.note[2:]


def owed(text, fault=""):
    """The session by the model, or by a wrong version of it."""
    names = {"Tick": Tick, "Program": Program, "Engine": Engine, "Session": Session}
    parts = {k: type(k, (x,), {"fault": fault}) if fault else getattr(model, k) for k, x in names.items()}
    before = {k: getattr(model, k) for k in names}
    try:
        for k, x in parts.items():
            setattr(model, k, x)
        out = model.answers(text, Judge(fault), parts["Engine"])
        return {**out, **compiles(text, out)}
    finally:
        for k, x in before.items():
            setattr(model, k, x)


# Sessions ----------------------------------------------------------------------------------------
def feed(s, slots):
    r = s.r
    if s.p(0.35):
        return "%s:%d" % (r.choice(["amt", "out"]), r.choice(slots))
    return "src:%d" % r.randrange(2) if s.p(0.3) else "-"


def programs(s, r):
    """Set-up and two programs, most of whose slots are beyond 63; answers the slots and the programs' names."""
    s.begin(voices=r.choice([1, 2, 17]), frames=r.choice([5, 32, 40]))
    slots = sorted(r.sample(range(58, SLOTS), r.choice([2, 4, 8, 20])) + r.sample(range(58), r.choice([0, 2, 6])))
    s.nslots = SLOTS
    for _ in range(2):
        s.add_source("held", "g")
    for _ in range(r.randrange(2, 6)):
        s.add_source()
    if s.p(0.5):
        s.add_source("routerandom", "v")
    for _ in range(r.randrange(2, 6)):
        s.add_dest(feed=feed(s, slots))
    names = []
    for _ in range(2):
        for n in slots:
            if s.p(0.8 if not names else 0.3):
                s.slot(n)
        if s.p(0.3):
            s.w("slot", *r.choice([(96, "src=0"), (97,), (1000, "amt=7FC00000")]))
        s.note_curves()
        names.append(s.compile())
    return slots, names


def session(seed):
    r = random.Random("c15 %d" % seed)
    s = make.Small("c15 %d" % seed, r.choice(["mixed", "feeds", "slews", "plain", "notes"]))
    slots, names = programs(s, r)
    s.engine(names[0])
    for _ in range(r.randrange(5, 14)):
        k = r.choices(["events", "gain", "block", "swap", "look"], [4, 5, 6, 1, 1])[0]
        if k == "events":
            s.events(4)
        elif k == "gain":
            n = r.choice(slots) if s.p(0.85) else r.choice([63, 64, 94, 95, 96, 97, 255])
            word = r.choice(["set_amount", "set_output"])
            s.w(word, n, make.hx(s.amount() if word == "set_amount" else s.output()))
        elif k == "block":
            s.w("process", 0, min(s.frames, r.choice([1, 5, 27, 32, 40])))
        elif k == "swap" and len(names) > 1:
            s.w("swap", names.pop())
        else:
            s.w("memory")
    s.w("process", 0, s.frames)
    s.w("memory")
    s.w("state")
    return s.text()


def many_plain(aux=()):
    """96 routes into one destination, at control rate and at audio rate, plain but where there is an aux; every product
    and offset rounds."""
    lines = ["canon 1", "config 42800000 8 2"] + ["source s%d held v %s" % (i, "ub"[i % 2]) for i in range(96)]
    for k, rate in enumerate(("control", "audio")):
        lines += ["dest p:%d v %s FF800000 7F800000 -" % (k, rate)]
        for n in range(96):
            gain, pol, more = common.raw(f32(1 / (n + 3))), "ub"[n % 3 == 0], " aux=1" * (n in aux)
            lines.append("slot %d src=%d dst=p:%d amt=%s pol=%s%s" % (n, n, k, gain, pol, more))
        lines += ["compile P%d" % k]
    values = [(i, v, common.raw(f32((i + v + 1) / 7))) for i in range(96) for v in range(2)]
    lines += ["engine"] + ["set_voice_held %d %d %s" % x for x in values]
    lines += ["note_on 0 42700000 3F800000 0 00000000", "swap P0", "process 0 8", "set_amount 95 3E99999A",
              "set_amount 64 00000000", "swap P1", "process 0 8", "set_output 64 3EAAAAAB", "process 0 8", "memory"]
    return lines


def some_plain():
    return many_plain(range(32))


def many_plans():
    """96 plans with one route each; a memory one number short of its need, as a number."""
    lines = ["canon 1", "config 42800000 64 17", "source s0 held v u"]
    for n in range(96):
        lines += ["dest p:%d v control 00000000 3F800000 -" % n, "slot %d src=0 dst=p:%d amt=3F000000" % (n, n)]
    need = 32 * (96 * (2 * 4 + 6) + 8 * 96)
    lines += ["memory_len values %d" % (need - 1), "compile P", "memory_len values %d" % need, "compile P", "engine",
              "swap P", "set_held 0 3F000000", "process 0 32", "memory_len values %d" % (need - 1), "process 0 32",
              "memory_len values all", "set_amount 95 3F800000", "process 0 32", "latest 95 0"]
    return lines


def chain():
    """A destination for each slot from 64 on that feeds the next slot's amount."""
    lines = ["canon 1", "config 42800000 32 1", "source one constant g u"]
    for n in range(64, 96):
        feeds = "amt:%d" % (n - 1) if n > 64 else "-"
        lines += ["dest p:%d g control BF800000 40000000 %s" % (n, feeds),
                  "slot %d src=0 dst=p:%d amt=3DCCCCCD" % (n, n)]
    return lines + ["compile P", "engine", "swap P", "process 0 32", "set_amount 95 3F000000", "process 0 32", "memory"]


def edges():
    """Slots, setters and feeds at 63, 64, 95 and 96; tables at the places beside the note curves'."""
    lines = ["canon 1", "config 42800000 32 1", "source s0 held g u", "source v velocity v u"]
    lines += ["table a sq", "table b rev"]
    for i, n in enumerate((63, 64, 95, 96, 97, 255)):
        lines += ["dest p:%d v control 00000000 3F800000 amt:%d" % (i, n),
                  "dest p:%d v control 00000000 3F800000 -" % (50 + i),
                  "slot %d src=%d dst=p:%d amt=3F000000" % (n, i % 2, 50 + i)]
    lines += ["slot 65 src=1 dst=p:50 amt=3F000000", "note b diag 0 0",
              "slot 64 src=0 aux=1 dst=p:51 amt=3F000000 sc=a:00000000:00000000 ac=a:00000000:00000000"]
    for length in (66690, 99521, 99522):
        lines += ["memory_len matrix_tables %d" % length, "slot 66 src=1 dst=p:50 amt=3F000000 sc=a:00000000:00000000"]
    lines += ["memory_len matrix_tables all", "compile P", "engine", "swap P"]
    for n in (63, 64, 95, 96, 255):
        lines += ["set_amount %d 3F000000" % n, "set_output %d 3F400000" % n]
    note = "note_on 0 42700000 3F000000 0 00000000"
    return lines + [note, "set_held 0 3F000000", "process 0 32", "memory", "state", "memory_len tables 66690",
                    "process 0 1", "memory_len tables 99521", note, "memory_len tables 99522", "process 0 1"]


def fixed():
    for make_lines in (edges, many_plain, some_plain, many_plans, chain):
        yield make_lines.__name__, "\n".join(make_lines()) + "\n"


# The Rust, by slots numbered anew -----------------------------------------------------------------
PLACES = [r"^(slot )(\d+)", r"^(set_amount )(\d+)", r"^(set_output )(\d+)", r"^(dest .* (?:amt|out):)(\d+)$"]


def renumbered(text):
    """The session with its slots numbered from 0 in the same order, and the numbers; None where there are too many."""
    used = sorted({int(m[2]) for p in PLACES for m in re.finditer(p, text, re.M)})
    if len(used) > 64:
        return None, None
    number = {n: i for i, n in enumerate(used)}
    for p in PLACES:
        text = re.sub(p, lambda m: m[1] + str(number[int(m[2])]), text, flags=re.M)
    return text, used


def back(line, used):
    """A printed line with the slots' own numbers."""
    w = line.split()
    at = {"SKIP": 1, "ROUTE": 3}.get(w[0], 2 if w[:2] in (["M", "slew"], ["M", "random"]) else 0)
    if at:
        w[at] = str(used[int(w[at])])
    return re.sub(r"base (amt|out):(\d+)", lambda m: "base %s:%d" % (m[1], used[int(m[2])]), " ".join(w))


def compiles(text, answers):
    """What the oracle prints for the lines `compile`, where it has slots enough."""
    refused = [n for n, x in answers.items() if x and x[0].startswith("REFUSED")]
    other, used = renumbered(common.compare.without(text, refused))
    if other is None:
        return {}
    places = [(n, " ".join(w)) for n, w in common.calls(other) if w[0] in model.SETS_UP]
    got = common.asked(places)
    return {n: [back(x, used) for x in got[n][0]] for n, line in places if line.startswith("compile ")}


def rust(first, count):
    bad = done = lines = 0
    every = [("seed %d" % s, session(s)) for s in range(first, first + count)] + list(fixed())
    for name, text in every:
        want = owed(text)
        refused = [n for n, x in want.items() if x and x[0].startswith("REFUSED")]
        other, used = renumbered(common.compare.without(text, refused))
        if other is None:
            continue
        got = {n: [back(x, used) for x in b] for n, b in common.run(common.ORACLE, other).items()}
        want, got = ({n: [l for l in x if not re.match("S (amounts|outputs)", l)] for n, x in y.items()}
                     for y in (want, got))
        want = {n: x for n, x in want.items() if n not in refused}
        d = common.first_difference(text, want, got)
        done, bad, lines = done + 1, bad + bool(d), lines + sum(map(len, want.values()))
        if d:
            print("%s: %s" % (name, d[:300]))
    print("%d sessions, %d lines, %d differ from the oracle" % (done, lines, bad))
    sys.exit(bad > 0)


if __name__ == "__main__":
    if sys.argv[1:2] == ["--rust"]:
        rust(*map(int, sys.argv[2:4]))
    common.main(__doc__, session, owed, FAULTS, fixed)
