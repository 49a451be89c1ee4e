"""An engine of document 01, lane by lane and order-free, with what document 02 adds to ticks and swaps.

Written from document 01 (Chunk and value; The model), the Rust where document 01 leaves it to docs/src, and document
02's C-13 (parts), C-15 (96 slots: compiled.SLOTS) and C-17 (carry). At a tick of a program that no chain bars each
control value is found by asking its feeders, recursively; then the rule of demand 3 is asserted of the values found.

Without the lines of document 02 it prints what the Rust prints: `model.py FIRST LAST` holds it to the oracle on cases/
and on gen.py's sessions FIRST to LAST - 1, but for those that are large. c13_parts.py and c17_carry.py have wrong
versions of it.
"""
import functools
import glob
import math
import os
import struct
import sys

import common
import gen
from common import INF, NAN, div, f32, number, raw, word
from compiled import LINEAR, SLOTS, Dest, Program, Slot, Source


def larger(a, b):
    """maximumNumber of IEEE 754-2019 (C-23); the Rust leaves the sign of a zero open."""
    if a == b == 0.0:
        return b if math.copysign(1.0, a) < 0.0 else a
    return b if a != a or a < b else a


def smaller(a, b):
    """minimumNumber."""
    if a == b == 0.0:
        return a if math.copysign(1.0, a) < 0.0 else b
    return b if a != a or b < a else a


def same(a, b):
    return a == b or (a != a and b != b)


def looked(table, x):
    if x != x:
        return NAN
    pos = f32(min(max(x, 0.0), 1.0) * 512.0)
    i = min(int(pos), 511)
    return f32(table[i] + f32(f32(table[i + 1] - table[i]) * f32(pos - i)))


class Tick:
    """One moment: frame k, the end of the chunk, how many samples slews move, whether fresh lanes snap."""

    def __init__(self, e, k, end, steps, snapping, audio=False):
        self.e, self.k, self.end, self.steps, self.snapping, self.audio = e, k, end, steps, snapping, audio
        self.groups = [any(e.active[l // 16 * 16:l // 16 * 16 + 16]) for l in range(e.stride)]
        on = [l for l in range(e.stride) if self.groups[l]]
        self.span = [bool(on) and on[0] <= l <= on[-1] for l in range(e.stride)]
        self.any = bool(on)

    def raw(self, route, place, m, fed):
        e, i = self.e, route.inputs[place]
        if i.read == "fed":
            return fed(i.of, m)
        if i.read == "const":
            return 1.0
        if i.read == "rnd":
            return e.p.random[route.slot, place][m]
        if i.read == "held":
            return e.held[i.of][m] if i.voice else e.globals[i.of]
        stride, data = e.bound.get(i.of, (1, ()))
        stride = max(stride, 1)
        at = self.k * stride + (m if i.voice else 0)
        return data[at] if at < len(data) and (not i.voice or m < stride) else 0.0

    def input(self, route, place, m, fed):
        i, u = route.inputs[place], self.raw(route, place, m, fed)
        if i.bipolar:
            u = f32(f32(u * 0.5) + 0.5)
        if i.table:
            u = looked(i.table, u)
        if i.slew:
            u = self.slewed(route, place, m, u)
        return u

    def slewed(self, route, place, m, u):
        old = self.e.p.slew[route.slot, place][m]
        up, down = (0.0 if self.steps == 0.0 else f32(x * self.steps) for x in route.inputs[place].slew)
        moved = f32(old + smaller(larger(f32(u - old), -down), up))
        snap = 1.0 if self.snapping and route.voice and self.e.fresh[m] else 0.0
        return f32(moved + f32(f32(u - moved) * snap))

    def term(self, route, m, fed):
        if route.inputs[0].table is None:
            scale, offset = route.affine
            x = f32(f32(self.raw(route, 0, m, fed) * scale) + offset)
        else:
            x = self.input(route, 0, m, fed)
            x = f32(f32(x * 2.0) - 1.0) if route.bipolar else x
        if route.inputs[1]:
            a = self.input(route, 1, m, fed)
            x = f32(x * (f32(1.0 - a) if route.inverted else a))
        amount = self.e.amounts[route.slot] if route.fed[0] is None else fed(route.fed[0], m)
        output = self.e.outputs[route.slot] if route.fed[1] is None else fed(route.fed[1], m)
        return f32(x * f32(amount * output))

    def plain(self, route):
        """Whether a route is plain (`plain_of`): simple, and its signal whole as far as the chunk goes."""
        i = route.inputs[0]
        if not route.simple or i.read != "sig":
            return route.simple
        stride, data = self.e.bound.get(i.of, (0, ()))
        return i.of in self.e.bound and max(stride, 1) >= self.e.stride and self.end * max(stride, 1) <= len(data)

    def plains(self, d):
        return [r for r in self.e.p.of[d] if self.any and self.plain(r)] if self.e.p.dests[d].voice else []

    def parts(self, d, lane, fed):
        """The base, the offsets (None where they are no part) and each route's slot and contribution, in the order
        added; None where a lane keeps old audio."""
        e, base, out, offsets = self.e, self.e.base_of(d), [], None
        if not e.p.dests[d].voice:
            for r in e.p.of[d]:
                if not e.idle(r) and not (r.voice and e.newest is None):
                    out.append((r.slot, self.term(r, e.newest if r.voice else 0, fed)))
            return base, None, out
        plains = self.plains(d)
        if plains and not self.span[lane] and self.audio:
            return None
        if plains and self.span[lane]:
            offsets = 0.0
            for r in plains:
                offsets = f32(offsets + f32(r.affine[1] * e.gain(r)))
            for r in plains:
                scaled = f32(r.affine[0] * e.gain(r))
                if scaled != 0.0:
                    out.append((r.slot, f32(self.raw(r, 0, lane, fed) * scaled)))
        if self.groups[lane]:
            others = [r for r in e.p.of[d] if r not in plains and not e.idle(r)]
            out += [(r.slot, self.term(r, lane if r.voice else 0, fed)) for r in others]
        return base, offsets, out

    def slews(self, d, fed):
        """The slews of a destination's routes after this moment: place, lane, number."""
        for r in self.e.p.of[d]:
            for place, i in enumerate(r.inputs):
                if i and i.slew and not self.e.idle(r):
                    for m in range(self.e.stride):
                        if self.moves(r, m):
                            yield (r.slot, place), m, self.input(r, place, m, fed)

    def moves(self, r, m):
        if not r.voice:
            return m < 16
        if self.e.p.dests[r.dest].voice:
            return self.groups[m]
        return self.e.newest is not None and self.e.newest // 16 == m // 16


def added(parts):
    """The sum of parts by binary32, starting at the base."""
    base, offsets, terms = parts
    x = base if offsets is None else f32(base + offsets)
    for _, t in terms:
        x = f32(x + t)
    return x


class Engine:
    def __init__(self, config, sources, dests):
        self.config, self.sources = config, list(sources)
        self.rate, self.frames, self.voices = config
        self.p = Program(config, [], [], {}, (LINEAR, LINEAR, False, False))
        s = self.stride = self.p.stride
        self.held, self.globals = [[0.0] * s for _ in sources], [0.0] * len(sources)
        self.bases = [0.0] * len(dests)
        self.amounts, self.outputs = [0.0] * SLOTS, [1.0] * SLOTS
        self.active, self.fresh, self.renote = ([False] * s for _ in range(3))
        self.any_fresh = self.any_renote = self.alternate = False
        self.sounded, self.newest, self.limit = [], None, max(self.voices, 1)
        self.value, self.target, self.speed = ([[0.0] * s, [0.0] * s] for _ in range(3))
        self.rng, self.phase, self.chunks, self.bound, self.record = 0x9E3779B97F4A7C15, 0, [], {}, {}

    # What a tick asks ----------------------------------------------------------------------------
    def gain(self, r):
        return f32(self.amounts[r.slot] * self.outputs[r.slot])

    def idle(self, r):
        return r.fed == [None, None] and self.gain(r) == 0.0

    def base_of(self, d):
        feed = self.p.counted[d]
        if feed is None:
            return self.bases[d]
        return {"src": self.globals, "amt": self.amounts, "out": self.outputs}[feed[0]][feed[1]]

    def hold(self, d, x):
        return smaller(larger(x, self.p.dests[d].low), self.p.dests[d].high)

    def lane(self, d, m):
        return m if self.p.dests[d].voice else 0

    # A tick --------------------------------------------------------------------------------------
    def tick(self, k, phase, first):
        off, snapping = phase != 0, first and self.any_fresh
        t, p = Tick(self, k, k + 1, 0.0 if off else 32.0, snapping), self.p

        def starts(d, l):
            return snapping and p.dests[d].voice and self.fresh[l]

        def kept(d, l):
            return off and p.primed(d) and not starts(d, l)
        found = {}
        values, slews = self.by_plans(t, kept, found) if p.barred else self.by_feeders(t, kept, found)
        if not p.barred:
            self.assert_rule(t, kept, values)
        for d in p.control:
            for l in range(p.width[d]):
                if not kept(d, l):
                    p.start[d][l] = values[d][l] if not p.primed(d) or starts(d, l) else p.cur[d][l]
        for key, m, y in slews:
            p.slew[key][m] = y
        p.cur, p.ticked, self.record = values, True, found

    def read_after(self, d, values):
        """A fed input: the feeder's value after the tick; fed by itself, its own before."""
        cur = self.p.cur
        return lambda a, m: cur[d][self.lane(d, m)] if a == d else values(a, self.lane(a, m))

    def made(self, t, d, l, fed, found):
        parts = t.parts(d, l, fed)
        found[d, l] = self.recorded(t, d, l, fed, parts)
        return self.hold(d, added(parts))

    def recorded(self, t, d, l, fed, parts):
        """C-13: base, offsets and terms, and whether min and max changed their sum."""
        x = added(parts)
        y = larger(x, self.p.dests[d].low)
        return parts + (not same(x, y), not same(y, smaller(y, self.p.dests[d].high)))

    def by_feeders(self, t, kept, found):
        p, memo = self.p, {}

        def value(d, l):
            if (d, l) not in memo:
                old = kept(d, l)
                memo[d, l] = p.cur[d][l] if old else self.made(t, d, l, self.read_after(d, value), found)
            return memo[d, l]
        values = {d: [value(d, l) for l in range(p.width[d])] for d in reversed(p.control)}
        return values, [s for d in p.control for s in t.slews(d, self.read_after(d, lambda a, m: values[a][m]))]

    def by_plans(self, t, kept, found):
        p, now, slews = self.p, dict(self.p.cur), []
        for d in p.order:
            def fed(a, m):
                return now[a][self.lane(a, m)]
            row = [p.cur[d][l] if kept(d, l) else self.made(t, d, l, fed, found) for l in range(p.width[d])]
            slews += list(t.slews(d, fed))
            now[d] = row
        return now, slews

    def assert_rule(self, t, kept, values):
        for d in self.p.control:
            for l in range(self.p.width[d]):
                fed = self.read_after(d, lambda a, m: values[a][m])
                want = self.p.cur[d][l] if kept(d, l) else self.hold(d, added(t.parts(d, l, fed)))
                assert same(want, values[d][l]), "rule"

    # A block -------------------------------------------------------------------------------------
    def process(self, start, end):
        if start >= end:
            return
        self.chunks = []
        if not self.p.routes:
            self.glides(end - start)
        else:
            self.chunks = self.cut(start, end)
            self.loaded()
            self.drawn()
            for i, chunk in enumerate(self.chunks):
                self.chunk(i, *chunk)
        self.closed(end - start)

    def closed(self, frames):
        self.phase = (self.phase + frames) % 32
        self.fresh, self.renote = [False] * self.stride, [False] * self.stride
        self.any_fresh = self.any_renote = False

    def cut(self, start, end):
        """The chunks of a range: start, length, phase, tick."""
        k, phase, out = start, self.phase, []
        while k < end:
            n = min(32 - phase, end - k)
            out.append((k, n, phase, phase == 0 or (k == start and self.any_fresh)))
            k, phase = k + n, 0
        return out

    def loaded(self):
        load = f32(sum(self.active) / self.limit)
        for i, s in enumerate(self.sources):
            if s.kind == "load":
                self.globals[i] = load if load < 1.0 else 1.0

    def drawn(self):
        """The draws of per-route randoms."""
        for d in (self.p.order + self.p.audio) if self.any_renote else []:
            for key in [(r.slot, place) for r in self.p.of[d] for place in range(2)]:
                if key in self.p.random:
                    for v in [v for v in range(self.voices) if self.renote[v]]:
                        self.p.random[key][v] = self.draw()

    def chunk(self, i, k, n, phase, ticks):
        p = self.p
        if ticks:
            self.tick(k, phase, i == 0)
        for d in p.control:
            p.rows[d][i] = (list(p.start[d]), list(p.cur[d]))
        for d in p.audio:
            for j in range(n):
                self.frame(d, Tick(self, k + j, k + n, 1.0, i == 0 and self.any_fresh and j == 0, audio=True))
        self.glides(n)

    def frame(self, d, t):
        p = self.p

        def fed(a, m):
            return p.cur[a][self.lane(a, m)]
        info = p.dests[d]
        bounded = info.low > -INF or info.high < INF
        all_plain = info.voice and any(self.active) and all(t.plain(r) for r in p.of[d])
        row = []
        for l in range(p.width[d]):
            parts = t.parts(d, l, fed)
            x = p.sound[d][t.k][l] if parts is None else added(parts)
            row.append(self.hold(d, x) if bounded and not (parts is None and all_plain) else x)
        slews = list(t.slews(d, fed))
        p.sound[d][t.k] = row
        for key, m, y in slews:
            p.slew[key][m] = y

    # Notes ---------------------------------------------------------------------------------------
    def draw(self):
        s = self.rng
        s ^= s >> 12
        s ^= s << 25 & 0xFFFFFFFFFFFFFFFF
        self.rng = s = s ^ s >> 27
        return (s * 0x2545F4914F6CDD1D % (1 << 64) >> 40) / 16777216

    def shown(self, j, v):
        for i, s in enumerate(self.sources):
            if s.kind == ("velocity", "key")[j]:
                self.held[i][v] = self.value[j][v]

    def set_value(self, j, v, target, glide):
        if glide is not None and target != self.value[j][v]:
            self.target[j][v] = target
            self.speed[j][v] = div(abs(f32(target - self.value[j][v])), f32(glide * self.rate))
        else:
            self.speed[j][v], self.value[j][v] = 0.0, target
            self.shown(j, v)

    def glides(self, n):
        for j in range(2):
            for v in range(self.voices):
                if self.speed[j][v] > 0.0:
                    self.glide(j, v, f32(self.speed[j][v] * n))

    def glide(self, j, v, way):
        target, x = self.target[j][v], self.value[j][v]
        if abs(f32(target - x)) <= way:
            self.value[j][v], self.speed[j][v] = target, 0.0
        else:
            self.value[j][v] = f32(x + way) if target > x else f32(x - way)
        self.shown(j, v)

    def note_on(self, v, key, velocity, legato, seconds):
        self.active[v], self.newest, self.renote[v], self.any_renote = True, v, True, True
        self.sounded = [x for x in self.sounded if x != v] + [v]
        if not legato:
            self.fresh[v] = self.any_fresh = True
        velocities, keys, glides, takes = self.p.note
        glide = seconds if legato and glides and seconds > 0.0 else None
        if not legato or takes:
            self.set_value(0, v, looked(velocities, velocity), glide)
        self.set_value(1, v, looked(keys, f32(key / 127.0)), glide)
        for i, s in enumerate(self.sources):
            if s.kind == "random":
                self.held[i][v] = self.draw()
        self.alternate = not self.alternate
        for i, s in enumerate(self.sources):
            if s.kind in ("alt", "altinv", "release"):
                self.held[i][v] = float({"alt": self.alternate, "altinv": not self.alternate}.get(s.kind, 0))

    def voice_ended(self, v):
        self.active[v] = self.fresh[v] = self.renote[v] = False
        self.speed[0][v] = self.speed[1][v] = 0.0
        if self.newest == v:
            self.newest = next((x for x in reversed(self.sounded) if self.active[x]), None)

    def set_gain(self, row, n, x):
        row[n] = x

    def set_held(self, i, x):
        if self.sources[i].voice:
            self.held[i] = [x] * self.stride
        else:
            self.globals[i] = x

    # Swaps ---------------------------------------------------------------------------------------
    def swap(self, p):
        for v in range(self.stride):
            if self.active[v]:
                self.fresh[v] = self.renote[v] = self.any_fresh = self.any_renote = True
        return self.install(p)

    def install(self, p, inherited=()):
        old, self.p = self.p, p
        self.amounts, self.outputs = list(p.amounts), list(p.outputs)
        p.ticked, p.inherited, self.record = False, set(inherited), {}
        return old

    def carry(self, new):
        """C-17: what the two programs have alike goes over; no voice is marked."""
        old, both = self.p, self.carried(self.p, new)
        for d in both:
            new.cur[d], new.start[d] = list(old.cur[d]), list(old.start[d])
        for name in ("slew", "random"):
            mine, theirs = getattr(new, name), getattr(old, name)
            for key in mine:
                if key in theirs and self.agree(old, new, *key):
                    mine[key] = list(theirs[key])
        return self.install(new, [d for d in both if old.primed(d)])

    def carried(self, old, new):
        """Control destinations with the same number in both, and equal scope."""
        return [d for d in new.control if d in old.control and new.dests[d].voice == old.dests[d].voice]

    def agree(self, old, new, slot, place):
        """Whether an input of a slot has one source in both, and is read alike, per voice or globally."""
        a, b = (next(r for r in p.routes if r.slot == slot).inputs[place] for p in (old, new))
        return a.source == b.source and a.voice == b.voice

    # Readers -------------------------------------------------------------------------------------
    def latest(self, d, v):
        if not self.chunks or d not in self.p.width:
            return None
        at = self.lane(d, v)
        if d in self.p.rows:
            return self.p.rows[d][len(self.chunks) - 1][1][at]
        k, n, _, _ = self.chunks[-1]
        return self.p.sound[d][k + n - 1][at]

    def ramp(self, d, v):
        if d not in self.p.rows:
            return None
        out, at = [], self.lane(d, v)
        for i, (_, n, phase, _) in enumerate(self.chunks):
            a, b = (row[at] for row in self.p.rows[d][i])
            step = f32(f32(b - a) / 32.0)
            out += [f32(a + f32(step * (phase + j))) for j in range(n)]
        return out

    def parts_of(self, d, lane):
        """C-13: what the last tick recorded, "kept" where it kept the lane, None where the answer is 17."""
        if d not in self.p.control or not self.p.ticked:
            return None
        return self.record.get((d, self.lane(d, lane)), "kept")


def fnv(row, h=0xCBF29CE484222325):
    for x in row:
        for b in struct.pack("<I", int(word(x), 16)):
            h = (h ^ b) * 0x100000001B3 % (1 << 64)
    return h


class Installed(Exception):
    """A swap by the name of the program that is installed, which ends a session."""


class Session:
    """Runs a session's lines. A line that is refused must not come here; what `compile` prints is the oracle's."""

    def __init__(self, engine=Engine):
        self.make_engine, self.config, self.sources, self.dests = engine, (48000.0, 64, 1), [], []
        self.tables, self.slots, self.note = {"diag": LINEAR}, {}, (LINEAR, LINEAR, False, False)
        self.programs, self.installed, self.e, self.bound, self.mode = {}, "~", None, {}, "full"
        self.word = raw

    def line(self, w):
        """What a line prints."""
        made = getattr(self, "on_" + w[0], None)
        if made:
            return made(*w[1:]) or []
        if self.e and hasattr(self, "call_" + w[0]):
            return getattr(self, "call_" + w[0])(*w[1:]) or []
        return []

    # Setting up ----------------------------------------------------------------------------------
    def on_config(self, rate, frames, voices):
        self.config = (number(rate), int(frames), int(voices))
        return ["CONFIG stride %d chunks %d" % (max(1, -(-int(voices) // 16)) * 16, int(frames) // 32 + 2)]

    def on_source(self, key, kind, scope, rng):
        self.sources.append(Source(kind, scope, rng))
        return ["SOURCE %d" % (len(self.sources) - 1)]

    def on_dest(self, target, scope, rate, low, high, feed):
        self.dests.append(Dest(target, scope, rate, number(low), number(high), feed))
        return ["DEST %d" % (len(self.dests) - 1)]

    def on_newreg(self):
        self.sources, self.dests = [], []

    def on_table(self, name, *spec):
        self.tables[name] = common.table(spec)

    def on_slot(self, n, *fields):
        self.slots[int(n)] = Slot(fields, self.tables)

    def on_note(self, velocity, key, glide, takes):
        self.note = (self.tables[velocity], self.tables[key], glide == "1", takes == "1")

    def on_clear(self):
        self.slots, self.note = {}, (LINEAR, LINEAR, False, False)

    def on_compile(self, name):
        self.programs[name] = Program(self.config, self.sources, self.dests, dict(self.slots), self.note)

    def on_engine(self):
        self.e, self.installed = self.make_engine(self.config, self.sources, self.dests), "~"
        return ["ENGINE stride %d" % self.e.stride]

    def on_canon(self, flag):
        self.word = word if flag == "1" else raw

    def row(self, head, numbers):
        return " ".join([head] + [self.word(x) for x in numbers])

    def on_print(self, mode):
        self.mode = mode

    def on_bind(self, source, stride, *spec):
        self.bound[int(source)] = (int(stride), common.table(spec))

    def on_unbind(self, *source):
        self.bound = {k: x for k, x in self.bound.items() if source and k != int(source[0])}

    # Calls ---------------------------------------------------------------------------------------
    def exchange(self, name, install):
        if name == self.installed:
            raise Installed(name)
        old, self.installed = self.installed, name
        self.programs[old] = install(self.programs.pop(name))
        return old

    def call_swap(self, name):
        return ["SWAP " + self.exchange(name, self.e.swap)]

    def call_carry(self, name):
        return ["CARRY " + self.exchange(name, self.e.carry)]

    def call_process(self, start, end):
        self.e.bound = dict(self.bound)
        self.e.process(int(start), int(end))
        return self.outputs(int(start), int(end))

    def call_out(self, start="0", end="0"):
        return self.outputs(int(start), int(end))

    def call_set_held(self, i, x):
        self.e.set_held(int(i), number(x))

    def call_set_voice_held(self, i, v, x):
        self.e.held[int(i)][int(v)] = number(x)

    def call_set_base(self, d, x):
        self.e.bases[int(d)] = number(x)

    def call_set_amount(self, n, x):
        self.e.set_gain(self.e.amounts, int(n), min(max(number(x), -1.0), 1.0))

    def call_set_output(self, n, x):
        self.e.set_gain(self.e.outputs, int(n), min(max(number(x), 0.0), 1.0))

    def call_set_voice_limit(self, n):
        self.e.limit = max(int(n), 1)

    def call_set_rng(self, x):
        self.e.rng = int(x, 16)

    def call_note_on(self, v, key, velocity, legato, seconds):
        self.e.note_on(int(v), number(key), number(velocity), legato == "1", number(seconds))

    def call_note_off(self, v, x):
        for i, s in enumerate(self.e.sources):
            if s.kind == "release":
                self.e.held[i][int(v)] = number(x)

    def call_voice_ended(self, v):
        self.e.voice_ended(int(v))

    # What is printed -----------------------------------------------------------------------------
    def outputs(self, start, end):
        if self.mode == "none":
            return []
        e, p, out, none, shown = self.e, self.e.p, [], [], False
        for d in range(max(len(self.dests), len(p.dests))):
            if d in p.rows:
                if not shown:
                    out += ["CHUNK %d %d %d %d %d" % ((i,) + c) for i, c in enumerate(e.chunks)]
                shown = True
                out += self.control(d)
            elif d in p.sound:
                out += self.sounded(d, start, max(start, end))
            else:
                none.append(d)
        return out + ["UNMOD " + " ".join(map(str, none))] * bool(none)

    def control(self, d):
        w, rows = self.e.p.width[d], self.e.p.rows[d][:len(self.e.chunks)]
        if self.mode == "hash":
            both = [fnv([x for row in rows for x in row[i]]) for i in range(2)]
            return ["HC %d %d %d %016X %016X" % (d, len(rows), w, *both)]
        both = [(i, name, row[k]) for i, row in enumerate(rows) for k, name in enumerate(("FROM", "TO"))]
        return [self.row("%s %d %d %d" % (name, d, i, w), row) for i, name, row in both]

    def sounded(self, d, start, end):
        w, rows = self.e.p.width[d], self.e.p.sound[d][start:end]
        if self.mode == "hash":
            return ["HA %d %d %d %016X" % (d, end - start, w, fnv([x for row in rows for x in row]))]
        return [self.row("A %d %d %d" % (d, start + i, w), row) for i, row in enumerate(rows)]

    def call_latest(self, d, v):
        x = self.e.latest(int(d), int(v))
        return ["LATEST %s %s %s" % (d, v, "none" if x is None else self.word(x))]

    def call_ramp(self, d, v):
        row = self.e.ramp(int(d), int(v))
        return ["RAMP %s %s none" % (d, v) if row is None else self.row("RAMP %s %s" % (d, v), row)]

    def call_is_active(self, v):
        return ["ACTIVE %s %d" % (v, self.e.active[int(v)])]

    def call_parts(self, d, lane):
        found = self.e.parts_of(int(d), int(lane))
        if found == "kept":
            return ["PARTS %s %s kept" % (d, lane)]
        base, offsets, terms, low, high = found
        said = ["base " + self.word(base)] + (["offsets " + self.word(offsets)] if offsets is not None else [])
        said += ["%d %s" % (slot, self.word(x)) for slot, x in terms]
        said += ["min"] * low + ["max"] * high or ["-"]
        return ["PARTS %s %s %s" % (d, lane, " ".join(said))]

    def call_state(self):
        e = self.e
        newest = "-" if e.newest is None else e.newest
        out = ["S phase %d newest %s alternate %d rng %016X limit %d anyfresh %d anyrenote %d"
               % (e.phase, newest, e.alternate, e.rng, e.limit, e.any_fresh, e.any_renote)]
        for name in ("active", "fresh", "renote"):
            out.append("S %s %s" % (name, "".join("01"[x] for x in getattr(e, name))))
        out.append(self.row("S heldglobal", e.globals))
        out += [self.row("S held %d" % i, row) for i, row in enumerate(e.held)]
        out.append(self.row("S base", e.bases))
        for name, row in (("amounts", e.amounts), ("outputs", e.outputs)):
            out.append(self.row("S " + name, row[:common.GAINS]))
        out += [self.row("S notevalue %d" % j, e.value[j]) for j in range(2)]
        for j in range(2):
            out += [self.row("S target %d" % j, e.target[j]), self.row("S step %d" % j, e.speed[j])]
        return out + ["S chunks %d" % len(e.chunks)]

    def call_memory(self):
        p = self.e.p
        out = ["M program %s primed %d" % (self.installed, p.ticked)]
        for d in p.order:
            out += [self.row("M from %d" % d, p.start[d]), self.row("M cur %d" % d, p.cur[d])]
        for name in ("slew", "random"):
            for key in [(r.slot, place) for d in p.order + p.audio for r in p.of[d] for place in range(2)]:
                if key in getattr(p, name):
                    out.append(self.row("M %s %d %d" % (name, *key), getattr(p, name)[key]))
        return out + ["M audio %d %d %016X" % (d, p.width[d], fnv([x for row in p.sound[d] for x in row]))
                      for d in p.audio]


QUIET = ("newreg", "table", "slot", "note", "clear", "bind", "unbind", "set_held", "set_voice_held", "set_base",
         "set_amount", "set_output", "set_voice_limit", "set_rng", "note_on", "note_off", "voice_ended", "memory_len")
ANSWERED = QUIET + ("config", "source", "dest", "engine", "swap", "carry", "process", "out", "latest", "ramp",
                    "is_active", "parts", "state", "memory")


SETS_UP = ("config", "source", "dest", "newreg", "table", "slot", "note", "clear", "compile")


@functools.lru_cache(maxsize=64)
def compiled(lines):
    """What the oracle prints for lines that set up."""
    return common.run(common.ORACLE, "\n".join(lines) + "\n")


def answers(text, judge, engine=Engine):
    """What is printed under each line: by the model, under `compile` by the oracle, where it has the slots; and the
    number under each line that is refused."""
    s, out, lines, places = Session(engine), {}, [], []
    judge.session = s
    for n, w in common.calls(text):
        row = judge.line(w)
        if row:
            out[n] = ["REFUSED %d" % row]
            continue
        try:
            said = [x.rstrip() for x in s.line(w)]
        except Installed as name:
            out[n] = ["ERROR line %d: '%s' is installed" % (n, name)]
            break
        if w[0] in ANSWERED:
            out[n] = said
        if w[0] in SETS_UP:
            lines.append(" ".join(w))
            places += [(n, len(lines))] * (w[0] == "compile")
    if common.GAINS == 64:
        said = compiled(tuple(lines))
        out.update({n: said[k] for n, k in places})
    return out


def small_sessions(first, last):
    """The sessions in cases/ and of gen.py's seeds that are not large."""
    files = sorted(glob.glob(os.path.join(common.TOP, "cases", "*.txt")))
    every = [(os.path.basename(f), open(f).read()) for f in files]
    for name, text in every + [("seed %d" % s, gen.session(s, mode="hash")) for s in range(first, last)]:
        calls = [w for _, w in common.calls(text)]
        frames, voices = max((int(w[2]), int(w[3])) for w in calls if w[0] == "config")
        blocks = sum(w[0] == "process" for w in calls)
        if "print cases" not in text and frames * (voices + 16) * blocks <= 40000:
            yield name, "canon 1\n" + text


def check(first, last):
    bad = done = lines = 0
    for name, text in small_sessions(first, last):
        want = answers(text, common.rows.Owed())
        refused = [n for n, x in want.items() if x and x[0].startswith("REFUSED")]
        got = common.run(common.ORACLE, common.compare.without(text, refused))
        d = common.first_difference(text, {n: x for n, x in want.items() if n not in refused}, got)
        done, lines, bad = done + 1, lines + sum(map(len, want.values())), bad + bool(d)
        if d:
            print("%s: %s" % (name, d[:300]))
    print("%d sessions, %d lines, %d differ from the oracle" % (done, lines, bad))
    sys.exit(bad > 0)


if __name__ == "__main__":
    check(*map(int, sys.argv[1:3]))
