#!/usr/bin/env python3
"""c11_cable.py SEED COUNT | --hold PROGRAM SEED COUNT | --faults [SEED COUNT] | --strings

C-11, play from a keyboard cable: the line `byte HH`.

Written from: document 02, C-11; the session lines and decisions of the requests' page; MIDI 1.0 for how many data bytes
a channel message has (two; C0 to DF one).

A reader turns bytes into note calls, and the oracle judges every value: in its session `byte HH` becomes `note_on` or
`note_off` of the voice that the reference chooses, or nothing. Sessions of seeds are weighted to status and real-time
bytes at every place, few keys and channels, more notes than voices, and direct calls between. Behind them stand all
strings of up to 4 bytes over an alphabet of 12, each on a fresh engine (--strings prints them). A state that a string
leaves is shown by what follows it: the strings of length 4 have every state of length 3 before every byte.

Decided here: 14 is judged before 16, for every byte, with `held` and the installed program's `tables`; a byte refused
with 14 is not consumed; a note that a byte sets off prints no `CELLS`; with no voices a note answers `BYTE none`; a
fresh engine has a fresh reader and no owners; swaps leave both.

How long a dropped channel message is can't be told from what is printed: its data bytes, those of the next one by
running status, and what a status byte finds begun of it are dropped alike.
"""
import itertools
import random
import sys

import c14_cells
import common
import make
from common import f32, raw

rows = common.rows
rows.LENT["byte"] = ["held", "tables"]

FAULTS = [
    ("f8-drops", "a real-time byte drops what has come of a message"),
    ("f8-ends", "a real-time byte ends running status"),
    ("f8-16", "a real-time byte outside a message is refused"),
    ("f7-only", "only F7 ends an exclusive"),
    ("exclusive-eats", "the status that ends an exclusive is not read"),
    ("exclusive-running", "running status is back after an exclusive"),
    ("exclusive-16", "data bytes of an exclusive are refused"),
    ("system-running", "F1 to F7 leave running status"),
    ("f1-none", "F1 takes no data byte"),
    ("f2-one", "F2 takes one data byte"),
    ("f3-none", "F3 takes no data byte"),
    ("f4-one", "F4 and F5 take one data byte"),
    ("f6-one", "F6 takes one data byte"),
    ("f7-skips", "F7 outside an exclusive skips data bytes"),
    ("no-running", "running status does not hold"),
    ("dropped-ends", "running status does not hold after a dropped message"),
    ("inside-kept", "a status byte inside a message keeps the data bytes"),
    ("silent", "no byte is refused"),
    ("zero-sounds", "a note on with velocity 0 sounds"),
    ("zero-release", "a note on with velocity 0 releases with 0"),
    ("zero-half", "a note on with velocity 0 releases with a half"),
    ("fixed-release", "a note off releases with 64 / 127 whatever it has"),
    ("times", "velocity is data * (1 / 127)"),
    ("by-128", "velocity is data / 128"),
    ("key-part", "the key is data / 127"),
    ("any-channel", "a note off goes by the key alone"),
    ("any-key", "a note off goes by the channel alone"),
    ("oldest", "a note off goes to the oldest voice of its key"),
    ("released-too", "a note off goes to a released voice too"),
    ("highest", "the highest inactive voice is taken"),
    ("steals-newest", "the voice sounded last is stolen"),
    ("steals-lowest", "voice 0 is stolen"),
    ("ranks-64", "the voice sounded longest ago is looked for among 64"),
    ("by-limit", "notes are given to voices below the voice limit"),
    ("released-free", "a released voice is taken as inactive"),
    ("released-first", "a released voice is stolen first"),
    ("same-key", "a note takes the voice that its key sounds on"),
    ("direct-owned", "a direct note leaves the owner"),
    ("legato-owned", "a direct legato note leaves the owner"),
    ("ended-owned", "a voice that ended belongs to its channel still"),
    ("direct-off", "a direct note off does not release"),
    ("direct-unsounded", "direct notes do not count as sounded"),
    ("legato-unsounded", "legato notes do not count as sounded"),
    ("cable-legato", "a note onto an active voice is legato"),
    ("swap-reader", "a swap clears the reader"),
    ("swap-owners", "a swap clears the owners"),
    ("consumed-14", "a byte refused with 14 is consumed"),
    ("notes-14", "14 is judged only where a note is set off"),
    ("16-first", "16 is judged before 14"),
    ("engine-reader", "a fresh engine keeps the reader"),
    ("byte-cells", "a note that a byte sets off prints cells"),
]


class Reader:
    """The bytes that have come of a message: a status with data, a system message's data left, or an exclusive."""

    def __init__(self, fault=""):
        self.fault, self.status, self.data, self.left, self.exclusive, self.before = fault, None, [], 0, False, None

    def copy(self):
        other = Reader(self.fault)
        other.__dict__.update(self.__dict__, data=list(self.data))
        return other

    def length(self, status):
        """How many data bytes a channel message has."""
        return 1 if status & 0xF0 in (0xC0, 0xD0) else 2

    def system(self, byte):
        """F0 to F7."""
        outside = byte == 0xF7 and not self.exclusive
        self.before = self.status if byte == 0xF0 else self.before
        if self.fault == "system-running" and byte != 0xF0:
            self.data = []
        else:
            self.status, self.data = None, []
        if self.fault == "exclusive-running" and byte == 0xF7 and self.exclusive:
            self.status = self.before
        self.exclusive = byte == 0xF0 or (self.fault == "f7-skips" and outside)
        takes = {0xF1: 1, 0xF2: 2, 0xF3: 1}
        wrong = {"f1-none": {0xF1: 0}, "f2-one": {0xF2: 1}, "f3-none": {0xF3: 0}, "f4-one": {0xF4: 1, 0xF5: 1},
                 "f6-one": {0xF6: 1}}
        self.left = {**takes, **wrong.get(self.fault, {})}.get(byte, 0)

    def message(self):
        """A whole message, after which running status holds."""
        whole, self.data = (self.status, self.data), []
        dropped = self.status >= 0xA0
        if self.fault == "no-running" or (self.fault == "dropped-ends" and dropped):
            self.status = None
        return None if dropped else whole

    def take(self, byte):
        """None, 16, or the status and data of a note message."""
        fault = self.fault
        if byte >= 0xF8:
            if fault in ("f8-drops", "f8-ends"):
                self.data = []
                self.status = None if fault == "f8-ends" else self.status
            return 16 if fault == "f8-16" and not self.status and not self.left and not self.exclusive else None
        if self.exclusive and byte >= 0x80 and fault == "f7-only" and byte != 0xF7:
            return None
        if self.exclusive and byte >= 0x80 and fault == "exclusive-eats":
            self.exclusive = False
            return None
        if byte >= 0xF0:
            self.system(byte)
        elif byte >= 0x80:
            self.status, self.left, self.exclusive = byte, 0, False
            self.data = self.data if fault == "inside-kept" else []
        elif self.exclusive:
            return 16 if fault == "exclusive-16" else None
        elif self.left:
            self.left -= 1
        elif self.status is None:
            return None if fault == "silent" else 16
        else:
            self.data.append(byte)
            if len(self.data) >= self.length(self.status):
                return self.message()
        return None


class Voices:
    """Which voices are active, when each sounded last, and to whom they belong."""

    def __init__(self, count, fault=""):
        self.count, self.fault, self.limit = count, fault, max(count, 1)
        self.active, self.sounded, self.owner, self.released, self.clock = set(), {}, {}, set(), 0

    def sound(self, v, legato=False, direct=False):
        self.active.add(v)
        self.clock += 1
        skipped = (self.fault == "direct-unsounded" and direct) or (self.fault == "legato-unsounded" and legato)
        if not skipped or v not in self.sounded:
            self.sounded[v] = self.clock
        if direct and not (self.fault == "direct-owned" or (self.fault == "legato-owned" and legato)):
            self.owner.pop(v, None)

    def ended(self, v):
        self.active.discard(v)
        if self.fault != "ended-owned":
            self.owner.pop(v, None)

    def off(self, v, direct=False):
        if not (direct and self.fault == "direct-off"):
            self.released.add(v)

    def choose(self, who):
        """The voice of a note; None where it is dropped."""
        fault = self.fault
        count = min(self.limit, self.count) if fault == "by-limit" else self.count
        if fault == "same-key" and who in self.owner.values():
            return next(v for v, x in self.owner.items() if x == who)
        idle = [v for v in range(count) if v not in self.active]
        if fault == "released-free":
            idle = [v for v in range(count) if v not in self.active or v in self.released]
        if idle:
            return max(idle) if fault == "highest" else min(idle)
        if not count or (fault == "ranks-64" and count < 64):
            return None
        among = range(count)
        if fault == "released-first" and self.released & set(among):
            among = sorted(self.released & set(among))
        if fault == "steals-lowest":
            return 0
        return (max if fault == "steals-newest" else min)(among, key=lambda v: self.sounded.get(v, 0))

    def released_by(self, who):
        """The voice that a note off goes to; None where there is none."""
        part = {"any-channel": 1, "any-key": 0}.get(self.fault)
        same = [v for v, x in self.owner.items() if (x == who if part is None else x[part] == who[part])]
        if self.fault != "released-too":
            same = [v for v in same if v not in self.released]
        pick = min if self.fault == "oldest" else max
        return pick(same, key=lambda v: self.sounded[v]) if same else None


class Cable:
    def __init__(self, voices, fault=""):
        self.fault, self.reader, self.voices = fault, Reader(fault), Voices(voices, fault)

    def part(self, data):
        """A data byte as a velocity."""
        if self.fault == "times":
            return f32(data * f32(1 / 127))
        return f32(data / (128 if self.fault == "by-128" else 127))

    def direct(self, w):
        """A call of the session itself that was accepted."""
        v = self.voices
        if w[0] == "note_on":
            v.sound(int(w[1]), w[4] == "1", True)
            if int(w[1]) not in v.owner:
                v.released.discard(int(w[1]))
        elif w[0] == "note_off":
            v.off(int(w[1]), True)
        elif w[0] == "voice_ended":
            v.ended(int(w[1]))
        elif w[0] == "set_voice_limit":
            v.limit = max(int(w[1]), 1)
        elif w[0] == "swap":
            if self.fault == "swap-reader":
                self.reader = Reader(self.fault)
            if self.fault == "swap-owners":
                v.owner = {}

    def note_on(self, who, data):
        v = self.voices.choose(who)
        if v is None:
            return "BYTE none", None
        legato = self.fault == "cable-legato" and v in self.voices.active
        self.voices.sound(v)
        self.voices.owner[v] = who
        self.voices.released.discard(v)
        key = f32(who[1] / 127) if self.fault == "key-part" else float(who[1])
        return "BYTE on %d" % v, "note_on %d %s %s %d 00000000" % (v, raw(key), raw(self.part(data)), legato)

    def note_off(self, who, release):
        v = self.voices.released_by(who)
        if v is None:
            return "BYTE none", None
        self.voices.off(v)
        return "BYTE off %d" % v, "note_off %d %s" % (v, raw(release))

    def byte(self, byte):
        """What is printed for a byte, and the call that it stands for."""
        said = self.reader.take(byte)
        if said == 16:
            return "REFUSED 16", None
        if said is None:
            return "BYTE none", None
        status, (key, data) = said
        who = (status & 15, key)
        if status >= 0x90 and (data or self.fault == "zero-sounds"):
            return self.note_on(who, data)
        release = self.part(data)
        if status >= 0x90 or self.fault == "fixed-release":
            release = {"zero-release": 0.0, "zero-half": 0.5}.get(self.fault, f32(64 / 127))
        return self.note_off(who, release)


def judged(cable, judge, byte, fault):
    """What is printed for a byte, with row 14, and the call."""
    needs = {**judge.engine_needs(*judge.engine), **judge.program()["needs"]}
    short = judge.short("byte", needs)
    if short and fault in ("16-first", "notes-14"):
        said = cable.reader.copy().take(byte)
        if (fault == "16-first" and said == 16) or (fault == "notes-14" and said in (None, 16)):
            short = False
    if not short:
        return cable.byte(byte)
    if fault == "consumed-14":
        cable.reader.take(byte)
    return "REFUSED 14", None


def rewritten(text, fault=""):
    """The session for the oracle, and what the bytes print."""
    judge, items, out, cable, cells = rows.Owed(), [], {}, None, False
    for n, w in common.calls(text):
        if w[0] == "byte":
            said, call = judged(cable, judge, int(w[1], 16), fault)
            out[n] = [said]
            items += [(n, call)] if call else []
            if fault == "byte-cells" and cells and said.startswith("BYTE on"):
                out[n].append(c14_cells.cells(call.split(), None, ""))
            continue
        code = judge.line(w)
        if code:
            out[n] = ["REFUSED %d" % code]
            continue
        if w[0] == "cells":
            cells, out[n] = w[1] == "1", []
            continue
        if w[0] == "note_on" and cells:
            out[n] = [c14_cells.cells(w, None, "")]
        items.append((n, " ".join(w)))
        if w[0] == "engine":
            last, cable = cable, Cable(judge.engine[0][2], fault)
            if fault == "engine-reader" and last:
                cable.reader = last.reader
        elif cable:
            cable.direct(w)
    return items, out


def owed(text, fault=""):
    items, out = rewritten(text, fault)
    got = common.asked(items)
    out.update({n: got[n][0] for n in got if n not in out})
    return out


# Sessions ----------------------------------------------------------------------------------------
STATUS = [0x80, 0x80, 0x81, 0x90, 0x90, 0x90, 0x90, 0x91, 0x9F, 0xA0, 0xB0, 0xC0, 0xC1, 0xD0, 0xE0, 0xEF]
SYSTEM = [0xF0, 0xF1, 0xF2, 0xF3, 0xF4, 0xF5, 0xF6, 0xF7]
DATA = [60, 60, 60, 62, 62, 64, 0, 1, 63, 126, 127]


def data(r):
    return r.choice(DATA) if r.random() < 0.8 else r.randrange(128)


def phrase(r):
    """A message, whole or cut, with what may stand in it."""
    k = r.random()
    if k < 0.5:
        out = [r.choice([0x90, 0x90, 0x90, 0x91, 0x80, 0x80, 0x81])]
        for _ in range(r.choice([1, 1, 1, 2, 3])):
            out += [r.choice([60, 60, 62, 64]), r.choice([0, 0, 1, 64, 100, 127, data(r)])]
    elif k < 0.6:
        out = [r.choice(STATUS)] + [data(r) for _ in range(r.randrange(5))]
    elif k < 0.7:
        out = [0xF0] + [data(r) for _ in range(r.randrange(4))] + [r.choice([0xF7, 0xF7, 0xF6, 0x90, 0x80, 0xF1])]
    elif k < 0.85:
        out = [r.choice(SYSTEM)] + [data(r) for _ in range(r.randrange(4))]
    else:
        out = [data(r) for _ in range(r.randrange(1, 4))]
    if r.random() < 0.15:
        out = out[:r.randrange(1, len(out) + 1)]
    while r.random() < 0.35:
        out.insert(r.randrange(len(out) + 1), r.choice([0xF8, 0xFA, 0xFE, 0xFF]))
    return out


def direct(s):
    r, v = s.r, s.r.randrange(max(s.voices, 1))
    if not s.voices:
        return
    s.w(*r.choice([("note_on", v, "42700000", "3F000000", 0, "00000000"), ("voice_ended", v), ("voice_ended", v),
                   ("note_on", v, "42780000", "3F000000", 1, "00000000"), ("note_off", v, "3E800000"),
                   ("note_on", s.voices, "42700000", "3F000000", 0, "00000000"), ("voice_ended", s.voices)]))


def short(s):
    what = s.r.choice(["held", "tables", "globals", "values"])
    s.w("memory_len", what, "need-1")
    send(s, phrase(s.r)[:2])
    s.w("memory_len", what, "all")


def send(s, bytes_):
    for b in bytes_:
        s.w("byte", "%02X" % b)
        if s.p(0.02):
            s.w("process", 0, s.r.randrange(s.frames + 1))


def session(seed):
    r = random.Random("c11 %d" % seed)
    s = make.Small("c11 %d" % seed, "notes")
    s.begin(voices=r.choice([0, 1, 1, 2, 2, 3, 5, 17, 64]), frames=r.choice([1, 32, 40]))
    for kind in ("velocity", "key", "release", "random", "alt"):
        s.add_source(kind, "v")
    s.registries(sources=1, dests=2, slots=3)
    s.w("note", "t0", "diag", 1, 1)
    first = s.preset()
    other = s.compile()
    s.engine(first)
    s.w("print hash")
    if s.p(0.2):
        s.w("cells 1")
    for _ in range(r.randrange(10, 40)):
        k = r.choices(["send", "chord", "direct", "short", "process", "state", "limit", "swap", "engine"],
                      [20, 3, 6, 1, 3, 2, 0.5, 0.5, 0.3])[0]
        if k == "send":
            send(s, phrase(r))
        elif k == "chord":
            for i in range(min(s.voices + r.randrange(3), 70)):
                send(s, [0x90, r.choice([60, 60 + i % 60]), 100])
        elif k in ("direct", "short"):
            globals()[k](s)
        elif k == "limit":
            s.w("set_voice_limit", r.choice([1, 2]))
        elif k == "swap" and other:
            send(s, [0x90, 60])
            s.w("swap", other)
            send(s, [100])
            other = None
        elif k == "engine":
            s.w("engine")
            other = None
        else:
            s.w(*(("process", 0, s.frames) if k == "process" else ("state",)))
    s.w("process", 0, s.frames)
    s.w("state")
    return s.text()


ALPHABET = [0x80, 0x90, 0x91, 0xC0, 0xF0, 0xF1, 0xF2, 0xF6, 0xF8, 0x3C, 0x40, 0x00]
HEAD = ["canon 1", "config 42800000 32 2", "source v velocity v u", "source k key v u", "source r release v u"]


def strings():
    """All strings of up to 4 bytes over the alphabet, 400 to a session, each on a fresh engine, its state behind."""
    every = [x for n in range(1, 5) for x in itertools.product(ALPHABET, repeat=n)]
    for at in range(0, len(every), 400):
        lines = list(HEAD)
        for string in every[at:at + 400]:
            lines += ["engine"] + ["byte %02X" % b for b in string] + ["state"]
        yield "strings %d" % at, "\n".join(lines) + "\n"


if __name__ == "__main__":
    if sys.argv[1:] == ["--strings"]:
        for name, text in strings():
            common.show(name, text, owed(text))
        sys.exit()
    common.main(__doc__, session, owed, FAULTS, strings)
