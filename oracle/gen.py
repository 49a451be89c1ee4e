#!/usr/bin/env python3
"""gen.py SEED [--clean | --refused] [--print full|hash]

Writes one random session to standard output (format: README.md), in document
01's domain.  The same seed gives the same session.

--clean    leave out calls the port refuses (range end above frames, numbers out
           of range, registry errors, a swap with another configuration)
--refused  put in calls that the port refuses and the Rust has no answer for (rows 6,
           13 and 14), each with its number above it
--print    force the print mode; by default `hash` where `full` would be long
"""
import random
import struct
import sys

INF = float("inf")
NAN = float("nan")
KINDS = ["signal", "audio", "held", "velocity", "key", "release", "random",
         "alt", "altinv", "routerandom", "load", "constant"]
KIND_W = {
    "mixed":  [6, 3, 6, 2, 2, 1, 2, 1, 1, 2, 2, 2],
    "feeds":  [2, 1, 12, 1, 1, 0.5, 1, 0.5, 0.5, 1, 1, 3],
    "plain":  [10, 5, 4, 2, 2, 1, 2, 1, 1, 3, 0.5, 0.5],
    "slews":  [6, 3, 6, 2, 2, 1, 1, 1, 1, 1, 1, 1],
    "notes":  [1, 0.5, 2, 5, 5, 3, 5, 3, 3, 5, 3, 1],
    "audio":  [6, 8, 3, 1, 1, 1, 1, 1, 1, 1, 1, 1],
    "edge":   [5, 3, 5, 1, 1, 1, 1, 1, 1, 1, 1, 1],
}


def hx(x):
    return struct.pack(">f", x).hex().upper()


def f32(x):
    return struct.unpack(">f", struct.pack(">f", x))[0]


class Gen:
    def __init__(self, seed, clean=False, mode=None):
        self.r = random.Random(seed)
        self.clean = clean
        self.mode = mode
        self.lines = []
        self.profile = self.r.choices(list(KIND_W), [4, 4, 3, 3, 2, 3, 2])[0]
        self.seed = seed
        self.sources = []   # (kind, scope, range)
        self.dests = []     # (target, scope, rate, feed)
        self.tables = []
        self.names = 0
        self.sounding = []  # voices by their last note-on, the newest last
        self.lanes_of = []  # per-voice held sources that a slewed global route follows
        self.other = []     # the registry that programs were compiled against, if not the engine's

    def p(self, x):
        return self.r.random() < x

    def w(self, *words):
        self.lines.append(" ".join(str(x) for x in words))

    # numbers -------------------------------------------------------------
    def unit(self):
        r = self.r
        if self.p(0.06):                                     # at 1 and beside it
            return r.choice([1.0, 1.0 - 2.0 ** -24, 1.0 + 2.0 ** -23, 1.0 - 2.0 ** -10, 511.0 / 512.0])
        return r.choice([0.0, 1.0, 0.5, 0.25, r.random(), r.random(), r.random()])

    def signed(self):
        r = self.r
        x = r.choice([self.unit(), r.uniform(-1, 1), -self.unit()])
        if self.p(0.05):
            x = r.choice([-0.0, 2.0, -3.5, r.uniform(-20, 20), 1e-40, -1e-38, r.uniform(-1e6, 1e6)])
        if self.profile == "edge" and self.p(0.15):
            x = r.choice([3e38, -3e38, 1e30, -1e30, 1e-45, 1.1754944e-38, 1e-30])
        return x

    def amount(self):
        r = self.r
        if self.p(0.12):
            return r.choice([0.0, -0.0])
        return r.choice([r.uniform(-1, 1), r.uniform(-1, 1), 1.0, -1.0, 0.5, self.signed()])

    def output(self):
        r = self.r
        if self.p(0.6):
            return 1.0
        if self.p(0.15):
            return r.choice([0.0, -0.0])
        return r.choice([r.random(), r.random(), 0.5, self.signed()])

    def seconds(self):
        r = self.r
        period = 32.0 / self.rate
        return r.choice([0.0, 0.0, -1.0, -0.0, 0.01, 1.0, 0.5, period, period * r.uniform(0.1, 20),
                         period * r.uniform(0.1, 5), 1.0 / self.rate, r.uniform(0, 3), 1e-30, 1e30])

    # registries ----------------------------------------------------------
    def add_source(self, kind=None, scope=None, rng=None):
        r = self.r
        if len(self.sources) >= 128:
            return None
        kind = kind or r.choices(KINDS, KIND_W[self.profile])[0]
        if scope is None:
            scope = "g" if kind in ("held", "load", "constant") else "v"
            if kind in ("signal", "audio", "held"):
                scope = r.choice("vg") if self.p(0.5) else scope
            elif self.p(0.1):
                scope = r.choice("vg")
            if self.profile == "plain" and kind in ("signal", "audio", "held"):
                scope = "v" if self.p(0.9) else "g"
        if rng is None:
            rng = "b" if kind == "audio" else "u"
            if self.p(0.3):
                rng = r.choice("ub")
        key = "~" if not any(s[3] == "~" for s in self.sources) and self.p(0.02) else "s%d" % len(self.sources)
        self.w("source", key, kind, scope, rng)
        self.sources.append((kind, scope, rng, key))
        if not self.clean and self.p(0.02):
            self.w("source", key, "held", "g", "u")         # duplicate
        return len(self.sources) - 1

    def bounds(self):
        r = self.r
        c = r.random()
        if c < 0.35:
            return 0.0, 1.0
        if c < 0.55:
            return -1.0, 1.0
        if c < 0.75:
            return -INF, INF
        if c < 0.80:
            return 0.0, INF
        if c < 0.85:
            return -INF, 0.0
        if c < 0.88:
            return -0.0, 1.0
        if c < 0.94:                                           # 0 outside
            a = f32(r.uniform(0.1, 1.5))
            return r.choice([(a, a + 1.0), (-a - 1.0, -a), (a, INF)])
        a, b = f32(r.uniform(-3, 3)), f32(r.uniform(-3, 3))
        if a == b:
            b = a + 1
        return min(a, b), max(a, b)

    def feed(self):
        r = self.r
        prob = {"feeds": 0.65, "mixed": 0.25, "edge": 0.3}.get(self.profile, 0.12)
        if not self.p(prob):
            return "-"
        taken = [d[3] for d in self.dests if d[3] != "-"]
        if taken and self.p(0.2):                             # a second feeder of one thing
            return r.choice(taken)
        k = r.choices(["src", "amt", "out"], [5, 3, 2])[0]
        if k == "src":
            good = [i for i, s in enumerate(self.sources) if s[0] == "held" and s[1] == "g"]
            if good and self.p(0.85):
                return "src:%d" % r.choice(good)
            return "src:%d" % r.randrange(len(self.sources) + 2)
        return "%s:%d" % (k, r.randrange(self.nslots) if self.nslots and self.p(0.92) else r.randrange(64))

    def add_dest(self, scope=None, rate=None, feed=None, wide=False):
        r = self.r
        n = len(self.dests)
        target = "l:%d:%d" % (n % 10, n // 10) if self.p(0.2) else "p:%d" % (n * 7 if self.p(0.98) else 4294967295 - n)
        scope = scope or ("v" if self.p({"plain": 0.9, "feeds": 0.4}.get(self.profile, 0.55)) else "g")
        rates = {"audio": [6, 2, 4], "plain": [5, 4, 2], "feeds": [1, 6, 1]}.get(self.profile, [3, 5, 3])
        rate = rate or r.choices(["audio", "control", "adaptive"], rates)[0]
        lo, hi = (-INF, INF) if wide else self.bounds()
        feed = feed or self.feed()
        if not self.clean and self.p(0.03):                  # refused
            bad = r.randrange(4)
            if bad == 0:
                self.w("dest", target, scope, rate, hx(NAN), hx(1.0), "-")
            elif bad == 1:
                self.w("dest", target, scope, rate, hx(1.0), hx(1.0), "-")
            elif bad == 2:
                self.w("dest", target, scope, rate, hx(0.0), hx(1.0), "amt:%d" % r.choice([64, 65, 255]))
            elif self.dests:
                self.w("dest", r.choice(self.dests)[0], scope, rate, hx(0.0), hx(1.0), "-")
        if any(d[0] == target for d in self.dests):
            target = "p:%d" % (1000000 + n)
        self.w("dest", target, scope, rate, hx(lo), hx(hi), feed)
        self.dests.append((target, scope, rate, feed))
        return len(self.dests) - 1

    # matrix --------------------------------------------------------------
    def add_table(self):
        r = self.r
        name = "t%d" % len(self.tables)
        c = r.randrange(12)
        if c == 0:
            spec = "lin"
        elif c == 1:
            spec = "rev"
        elif c == 2:
            spec = "sq"
        elif c == 3:
            spec = "const " + hx(r.choice([0.0, 1.0, 0.5, -16.0, 16.0, r.uniform(-2, 2)]))
        elif c == 4:
            spec = "step %d %s %s" % (r.randrange(514), hx(r.uniform(-1, 1)), hx(r.uniform(0, 1)))
        elif c <= 6:                                          # the last cells' difference is rounded
            spec = "step %d %s %s" % (r.choice([1, 511, 512, 512, 512]), hx(r.choice([-1, 1]) * r.uniform(2, 16)),
                                      hx(r.uniform(-0.2, 0.2)))
        elif c == 7 and self.p(0.4):
            spec = "hex " + " ".join(hx(r.uniform(-1, 1) * 2.0 ** r.randrange(-12, 5)) for _ in range(513))
        else:
            spec = "gen %d %s" % (r.randrange(1 << 32), r.choice("uuubt"))
        self.w("table", name, spec)
        self.tables.append(name)

    def curve(self):
        slewy = {"slews": 0.75, "plain": 0.1}.get(self.profile, 0.35)
        if not self.p(slewy):
            return "lin"
        t = self.r.choice(self.tables)
        if self.p({"slews": 0.15}.get(self.profile, 0.5)):
            return "%s:%s:%s" % (t, hx(0.0), hx(0.0))
        return "%s:%s:%s" % (t, hx(self.seconds()), hx(self.seconds()))

    def slot(self, n):
        r = self.r
        if self.p(0.04):
            self.w("slot", n)
            return
        ns, nd = len(self.sources), len(self.dests)
        f = []
        # sources that some destination feeds are read more often
        fed = [int(d[3][4:]) for d in self.dests if d[3].startswith("src:") and int(d[3][4:]) < ns]
        if not self.p(0.02):
            src = r.choice(fed) if fed and self.p({"feeds": 0.6}.get(self.profile, 0.2)) else r.randrange(ns)
            if self.profile == "plain" and self.p(0.8):
                good = [i for i, s in enumerate(self.sources) if s[1] == "v"]
                src = r.choice(good) if good else src
            if self.p(0.02):
                src = r.choice([ns, ns + 5, 128, 65535])
            f.append("src=%d" % src)
        if self.p({"plain": 0.1}.get(self.profile, 0.35)):
            aux = r.choice(fed) if fed and self.p(0.3) else r.randrange(ns)
            if self.p(0.03):
                aux = r.choice([ns, 200])
            f.append("aux=%d" % aux)
            f.append("inv=%d" % r.randrange(2))
            f.append("ac=" + self.curve())
        f.append("sc=" + self.curve())
        f.append("amt=" + hx(self.amount()))
        if self.p(0.5):
            f.append("out=" + hx(self.output()))
        f.append("pol=" + r.choice("ub"))
        if not self.p(0.02):
            dst = r.choice(self.dests)[0] if nd else "p:1"
            # a route's own amount or a loop, more often than by chance
            own = [d[0] for d in self.dests if d[3] in ("amt:%d" % n, "out:%d" % n)]
            if own and self.p(0.25):
                dst = r.choice(own)
            feeders = [d[0] for d in self.dests if d[3] != "-"]
            if self.profile == "feeds" and feeders and self.p(0.5):
                dst = r.choice(feeders)
            if self.p(0.03):
                dst = r.choice(["p:999999999", "l:200:200"])
            f.append("dst=" + dst)
        if self.p(0.06):
            f.append("byp=1")
        self.w("slot", n, *f)

    def chains(self):
        """Slots along a random graph over the feeding destinations: chains,
        loops, several feeders of one thing, fed amounts and outputs."""
        r = self.r
        feeders = [d for d in self.dests if d[3] != "-"]
        if not feeders:
            return
        n = 0
        for _ in range(r.randrange(2, 3 + 2 * len(feeders))):
            a, b = r.choice(feeders), r.choice(self.dests if self.p(0.3) else feeders)
            kind, num = a[3].split(":")
            num = int(num)
            if kind == "src":
                if num >= len(self.sources) or n >= 64:
                    continue
                slot, src = n, num
                n += 1
            else:
                slot, src = num, r.randrange(len(self.sources))
            f = ["src=%d" % src, "dst=" + b[0], "amt=" + hx(r.uniform(-1, 1)), "pol=" + r.choice("ub")]
            if self.p(0.2):
                other = [int(d[3][4:]) for d in feeders if d[3].startswith("src:")]
                other = [x for x in other if x < len(self.sources)]
                if other:
                    f += ["aux=%d" % r.choice(other), "inv=%d" % r.randrange(2)]
            if self.p(0.15):
                f.append("sc=" + self.curve())
            self.w("slot", slot, *f)

    def free_slot(self):
        """A slot for a part that must be there; what stood in it is lost."""
        n = self.r.randrange(max(self.nslots, 8)) if self.p(0.8) else self.r.randrange(64)
        while n in self.taken:
            n = self.r.randrange(64)
        self.taken.add(n)
        return n

    def set_slot(self, n, src, dest, *more):
        amount = self.r.choice([1.0, 0.5, self.r.uniform(0.1, 1), self.r.uniform(-1, -0.1)])
        self.w("slot", n, "src=%d" % src, "dst=" + self.dests[dest][0], "amt=" + hx(amount), "pol=" + self.r.choice("uub"), *more)

    def other_source(self):
        """A source that no destination feeds."""
        return self.add_source(*self.r.choice([("constant", "g"), ("held", "v"), ("velocity", "v"), ("signal", "g")]))

    def twins(self):
        """Two destinations feed one thing; a slot of the lower one reads that thing."""
        slot = self.free_slot()
        if self.p(0.6):
            thing = self.add_source("held", "g")
            feed = "src:%d" % thing
        else:
            thing = self.other_source()
            feed = "%s:%d" % (self.r.choice(["amt", "out"]), slot)
        low = self.add_dest(feed=feed, wide=self.p(0.7))
        high = self.add_dest(feed=feed, wide=self.p(0.7))
        self.set_slot(slot, thing, low)
        self.set_slot(self.free_slot(), self.other_source(), high)
        if self.p(0.4):
            self.set_slot(self.free_slot(), self.other_source(), low)

    def group(self):
        """A slewed input of a global destination is fed by a per-voice one: its slews follow each lane's feeder."""
        r = self.r
        thing, own = self.add_source("held", "g"), self.add_source("held", "v")
        top = self.add_dest(scope="g", feed="-", rate=r.choice(["control", "control", "audio"]), wide=self.p(0.8))
        feeder = self.add_dest(scope="v", feed="src:%d" % thing, wide=self.p(0.8))
        period = 32.0 / self.rate
        table = r.choice(self.tables) if self.p(0.4) else "diag"
        slew = "%s:%s:%s" % (table, hx(period * r.uniform(0.5, 30)), hx(period * r.uniform(0.5, 30)))
        if self.p(0.7):
            self.set_slot(self.free_slot(), thing, top, "sc=" + slew)
        else:
            self.set_slot(self.free_slot(), self.other_source(), top, "aux=%d" % thing, "ac=" + slew)
        self.set_slot(self.free_slot(), own, feeder)
        self.lanes_of.append(own)

    def keyed(self):
        """Key and velocity reach per-voice destinations, so that a glide is seen; load is registered."""
        for kind in self.r.choice([["key"], ["key", "velocity"]]):
            n = self.add_source(kind, "v")
            self.set_slot(self.free_slot(), n, self.add_dest(scope="v", feed="-", wide=True))
        if self.p(0.8):
            self.add_source("load", self.r.choice("gggv"))

    def other_registry(self):
        """Empties the registries and fills them anew: at least as many entries, some of another kind and scope."""
        r = self.r
        old, dests = self.sources, self.dests
        self.other = old
        self.w("newreg")
        self.sources, self.dests = [], []
        for kind, scope, rng, _ in old:
            if self.p(0.4):
                scope = "g" if scope == "v" else "v"
            if self.p(0.25):
                kind = r.choices(KINDS, KIND_W[self.profile])[0]
            self.add_source(kind, scope, rng if self.p(0.8) else None)
        for target, scope, rate, feed in dests:
            if self.p(0.8):
                lo, hi = self.bounds()
                if self.p(0.3):
                    scope = "g" if scope == "v" else "v"
                self.w("dest", target, scope, rate, hx(lo), hx(hi), feed)
                self.dests.append((target, scope, rate, feed))
            else:
                self.add_dest()
        for _ in range(r.choice([0, 0, 1, 3])):
            self.add_source()

    def note_curves(self, gliding=False):
        r = self.r
        if not gliding and self.p(0.3):
            return
        t = ["diag"] + self.tables
        glide = gliding or r.random() < {"notes": 0.8}.get(self.profile, 0.5)
        self.w("note", r.choice(t), r.choice(t), int(glide), r.randrange(2))

    def compile(self):
        name = "P%d" % self.names
        self.names += 1
        self.w("compile", name)
        return name

    # engine --------------------------------------------------------------
    def bind(self, i):
        r = self.r
        entry = self.other[i] if i < len(self.other) and self.p(0.5) else self.sources[i]
        kind, scope, rng, _ = entry
        if scope == "v":
            c = r.random()
            if c < 0.55:
                stride = self.stride
            elif c < 0.70:
                stride = min(256, self.stride + r.choice([1, 3, 16, 17, 64, 256]))
            elif c < 0.80:
                stride = max(self.voices, 0)
            elif c < 0.97:
                stride = r.randrange(0, self.stride + 1)
            else:
                stride = 0
        else:
            stride = r.choice([1, 1, 1, 1, 0, 2, 3, 64])
        rows = self.frames
        full = rows * max(stride, 1)
        c = r.random()
        if c < 0.65:
            n = full
        elif c < 0.75:
            n = full + r.randrange(0, 40)
        elif c < 0.95:
            n = r.randrange(0, full + 1)
        elif c < 0.98:
            n = max(0, full - r.randrange(1, 20))
        else:
            n = 0
        wild = {"edge": 0.5, "mixed": 0.15}.get(self.profile, 0.06)
        base = "b" if rng == "b" else "u"
        g = base
        if self.p(wild):
            g = r.choice([{"u": "x", "b": "y"}[base], "r" if self.p(0.3) else "x"])
        elif self.p(0.05):
            g = r.choice("ubt")
        if n <= 8 and self.p(0.5):
            self.w("bind", i, stride, "hex", *[hx(self.signed()) for _ in range(n)])
        else:
            self.w("bind", i, stride, "gen", r.randrange(1 << 32), n, g)

    def rebind(self, prob=1.0):
        for i, s in enumerate(self.sources):
            if s[0] in ("signal", "audio") or (i < len(self.other) and self.other[i][0] in ("signal", "audio")):
                if self.p(prob):
                    if self.p(0.9):
                        self.bind(i)
                elif self.p(0.02):
                    self.w("unbind", i)
            elif self.p(0.01):
                self.bind(i)                                  # bound, never read

    def voice(self):
        r = self.r
        if self.voices == 0 or (not self.clean and self.p(0.03)):
            return r.choice([self.voices, self.voices + 1, 64, 1000]) if not self.clean else None
        if self.p(0.5):
            return r.choice(self.favourites)
        return r.randrange(self.voices)

    def process(self):
        r = self.r
        F = self.frames
        if not self.clean and self.p(0.02):
            a = r.randrange(0, F + 3)
            self.w("process", a, F + 1 + r.choice([0, 0, 1, 31, 5000]))
            return
        if self.p(0.04):
            a = r.randrange(0, F + 2)
            self.w("process", a, r.randrange(0, min(a, F) + 1))     # empty
            return
        c = r.random()
        if c < 0.3:
            a, b = 0, F
        elif c < 0.75:
            n = min(F, r.choice([1, 2, 5, 7, 16, 27, 31, 32, 33, 40, 64, r.randrange(1, 100)]))
            a = r.randrange(0, F - n + 1)
            b = a + n
        else:
            a = r.randrange(0, F + 1)
            b = r.randrange(a, F + 1)
        self.w("process", a, b)

    def split_block(self):
        """A block as a host renders it: the whole block, split at events."""
        r = self.r
        cuts = sorted(r.randrange(0, self.frames + 1) for _ in range(r.randrange(0, 4)))
        at = 0
        for c in cuts + [self.frames]:
            self.w("process", at, c)
            at = c
            if c != self.frames:
                for _ in range(r.randrange(1, 4)):
                    self.event()

    def event(self):
        r = self.r
        ns, nd = self.engine_ns, len(self.dests)
        over = 0 if self.clean else 0.03
        k = r.choices(["on", "off", "end", "held", "vheld", "base", "amt", "out", "limit"],
                      [8, 2, 3, 4, 3, 3, 3, 2, 0.7])[0]
        if k in ("on", "off", "end"):
            v = self.voice()
            if v is None:
                return
            if k == "end" and self.sounding and self.p(0.35):
                v = self.sounding[-1]
            if k != "off" and v in self.sounding:
                self.sounding.remove(v)
            if k == "on" and v < self.voices:
                self.sounding.append(v)
            if k == "on":
                legato = self.p(0.35)
                key = r.choice([float(r.randrange(128)), r.uniform(0, 127), 0.0, 127.0, -5.0, 300.0]) \
                    if self.p(0.9) else self.signed()
                glide = r.choice([0.0, 1.0, -1.0, 32.0 / self.rate, r.uniform(0, 200) / self.rate,
                                  1e-30, 1e30, 0.1])
                self.w("note_on", v, hx(key), hx(self.signed() if self.p(0.2) else self.unit()),
                       int(legato), hx(glide))
            elif k == "off":
                self.w("note_off", v, hx(self.unit() if self.p(0.9) else self.signed()))
            else:
                self.w("voice_ended", v)
        elif k == "held":
            s = r.randrange(ns) if not self.p(over) else r.choice([ns, 128, 65535])
            self.w("set_held", s, hx(self.signed()))
        elif k == "vheld":
            s = r.randrange(ns) if not self.p(over) else r.choice([ns, 128])
            v = r.randrange(self.stride) if not self.p(over) else self.stride + r.randrange(3)
            self.w("set_voice_held", s, v, hx(self.signed()))
        elif k == "base":
            d = r.randrange(nd) if nd and not self.p(over) else None
            if d is None:
                if self.clean:
                    return
                d = nd + r.randrange(3)
            self.w("set_base", d, hx(self.signed()))
        elif k in ("amt", "out"):
            n = r.randrange(max(self.nslots, 1)) if self.p(0.9) else r.randrange(64)
            if self.p(over):
                n = r.choice([64, 65, 1000])
            x = self.amount() if k == "amt" else self.output()
            self.w("set_amount" if k == "amt" else "set_output", n, hx(x))
        else:
            self.w("set_voice_limit", r.choice([0, 1, 2, self.voices, 64, 7, 1000]))

    def long_enough(self, frames):
        """Whole blocks of some frames together."""
        for _ in range(min(4, -(-frames // max(self.frames, 1)))):
            self.w("process", 0, self.frames)

    def group_scene(self):
        """Notes in one group of 16 with unlike lanes; then the newest ends."""
        r = self.r
        if self.voices < 2:
            return
        first = r.randrange(self.voices - 1) // 16 * 16
        lanes = list(range(first, min(first + 16, self.voices)))
        chosen = r.sample(lanes, min(len(lanes), r.randrange(2, 5)))
        for v in chosen:
            self.w("note_on", v, hx(float(r.randrange(128))), hx(self.unit()), int(self.p(0.2)), hx(0.0))
        for own in self.lanes_of:
            for v in chosen:
                self.w("set_voice_held", own, v, hx(self.signed()))
        self.long_enough(40)
        if self.p(0.3):
            self.w("set_voice_held", r.choice(self.lanes_of), r.choice(chosen), hx(self.unit()))
            self.process()
        self.w("voice_ended", chosen[-1])
        self.long_enough(40)
        self.sounding = [v for v in self.sounding if v not in chosen] + chosen[:-1]

    def rest_scene(self, rest, back):
        """A stay of a program without routes: notes glide, time passes; then another program shows the values."""
        r = self.r
        self.w("swap", rest)
        v = r.randrange(max(self.voices, 1))
        total = min(4, -(-70 // max(self.frames, 1))) * self.frames
        if self.voices:
            if self.p(0.7):
                self.w("note_on", v, hx(float(r.randrange(128))), hx(self.unit()), 0, hx(0.0))
            if self.p(0.3):
                self.process()
            seconds = max(total, 1) * r.uniform(1.1, 6) / self.rate
            self.w("note_on", v, hx(r.choice([r.uniform(0, 127), float(r.randrange(128))])), hx(r.random()), 1, hx(seconds))
            self.sounding = [x for x in self.sounding if x != v] + [v]
        self.long_enough(70)
        if self.p(0.7):
            self.w("state")
        if self.p(0.3):
            self.event()
            self.process()
        self.w("swap", back)
        self.w("process", 0, min(self.frames, 40))

    def run(self):
        r = self.r
        small = [0, 1, 2, 3, 4, 5, 8, 15, 16]
        self.voices = r.choice(small) if self.p({"plain": 0.3}.get(self.profile, 0.6)) else r.choice([17, 20, 31, 32, 33, 40, 47, 48, 49, 63, 64])
        if self.voices == 0 and self.p(0.5):
            self.voices = 1
        self.stride = max(1, (self.voices + 15) // 16) * 16
        c = r.random()
        if c < 0.02:
            self.frames = 0
        elif c < 0.55:
            self.frames = r.choice([1, 5, 31, 32, 33, 40, 63, 64, 65])
        elif c < 0.93:
            self.frames = r.choice([96, 100, 128, 160, 200, 256])
        elif c < 0.985:
            self.frames = r.choice([511, 512, 1000, 1024])
        else:
            self.frames = r.choice([2048, 4095, 4096])
        self.rate = f32(r.choice([64.0, 64.0, 1000.0, 44100.0, 48000.0, 96000.0, 1.0, r.uniform(1, 1e5),
                                  0.001, 1e9]))
        self.nslots = r.choice([1, 2, 3, 4, 6, 8, 12, 16]) if self.p(0.75) else r.choice([0, 20, 32, 48, 63, 64])
        self.favourites = [r.randrange(max(self.voices, 1)) for _ in range(3)]
        ns = r.randrange(1, 12) if self.p(0.85) else r.choice([20, 40, 100, 128])
        nd = r.randrange(1, 8) if self.p(0.8) else r.choice([0, 12, 20, 40, 70])
        if self.frames > 600:
            ns, nd = min(ns, 12), min(nd, 6)
        self.w("# gen.py seed %s profile %s" % (self.seed, self.profile))
        self.w("canon 1")
        head = len(self.lines)
        self.w("config", hx(self.rate), self.frames, self.voices)
        for _ in range(r.randrange(1, 5)):
            self.add_table()
        if self.profile == "feeds":
            nd = max(nd, r.randrange(3, 10))
            for _ in range(r.randrange(1, 4)):
                self.add_source("held", "g")
        for _ in range(ns):
            self.add_source()
        if not self.clean and len(self.sources) == 128 and self.p(0.5):
            self.w("source", "late", "held", "g", "u")         # full
        for _ in range(nd):
            self.add_dest()
        parts = [m for m in ("twins", "group", "rest", "registry") if self.p(0.22) and len(self.sources) < 100]
        self.taken = set()
        rest = None
        if "rest" in parts:
            self.note_curves(gliding=True)
            rest = self.compile()
        for n in range(self.nslots):
            self.slot(n)
        if self.nslots < 64 and self.p(0.2):
            self.slot(63)
        if self.p({"feeds": 0.7}.get(self.profile, 0.1)):
            self.chains()
        if "twins" in parts:
            self.twins()
        if "group" in parts:
            self.group()
        if "rest" in parts:
            self.keyed()
        self.note_curves()
        programs = [self.compile()]
        if self.p(0.3):
            for _ in range(r.randrange(1, 4)):
                self.add_source()
            if self.dests:
                self.add_dest()
        for _ in range(r.choices([0, 1, 2, 3], [4, 3, 2, 1])[0]):
            c = r.random()
            if c < 0.12:
                self.w("clear")
                self.note_curves()
                programs.append(self.compile())
                if self.p(0.7):
                    for n in range(self.nslots):
                        self.slot(n)
                continue
            for _ in range(r.randrange(1, 5)):
                self.slot(r.randrange(max(1, min(64, self.nslots + 1))))
            if self.profile == "feeds" and self.p(0.3):
                self.chains()
            if self.p(0.4):
                self.note_curves()
            if not self.clean and self.p(0.1):                 # another configuration
                self.w("config", hx(self.rate), min(4096, self.frames + r.randrange(0, 2)),
                       self.voices + 1 if self.voices < 64 else 63)
                programs.append(self.compile())
                self.w("config", hx(self.rate), self.frames, self.voices)
            else:
                programs.append(self.compile())
        if "registry" in parts:
            self.other_registry()
            if self.p(0.4):
                programs.append(self.compile())
        self.w("engine")
        self.engine_ns = len(self.sources)
        if self.p(0.05):                                       # more sources, but no routes
            self.add_source()
            self.w("clear")
            programs.append(self.compile())
        out = list(programs)
        installed = None
        for _ in range(r.randrange(0, 8)):
            self.event()
        for i, was in enumerate(self.other):
            if was[1] != self.sources[i][1]:                   # the engine writes here what a program does not read
                if self.p(0.7):
                    self.w("set_held", i, hx(self.signed()))
                if self.p(0.5):
                    self.w("set_voice_held", i, r.randrange(self.stride), hx(self.signed()))
        self.rebind()
        if self.p(0.25):
            self.process()                                     # with no program
            if self.p(0.3):
                self.w("state")
        def swap():
            nonlocal installed
            can = [n for n in out if n != installed]
            if can:
                n = r.choice(can)
                self.w("swap", n)
                # a refused one stays out; the oracle says which, so keep it
                # possible to name it again: only offer names surely outside
                return n
            return None
        # keep track of refusals: programs compiled with another config
        refused = set()
        cfg = None
        want = "config %s %d %d" % (hx(self.rate), self.frames, self.voices)
        for line in self.lines:
            if line.startswith("config "):
                cfg = line
            elif line.startswith("compile ") and cfg != want:
                refused.add(line.split()[1])
        def do_swap():
            nonlocal installed
            n = swap()
            if n is not None and n not in refused:
                installed = n
        # the first program sooner or later
        self.w("swap", programs[0])
        installed = programs[0]
        steps = r.randrange(3, 30) if self.frames <= 600 else r.randrange(2, 6)
        for _ in range(steps):
            k = r.choices(["event", "process", "split", "swap", "rebind", "ask", "state", "group", "rest"],
                          [12, 8, 3, 1.2, 1.5, 1, 0.4, 3 if self.lanes_of else 0, 3 if rest else 0])[0]
            if k == "event":
                for _ in range(r.randrange(1, 4)):
                    self.event()
            elif k == "process":
                self.process()
            elif k == "split":
                self.split_block()
            elif k == "swap":
                do_swap()
                if self.p(0.2):
                    self.w("out")
            elif k == "rebind":
                self.rebind(0.5)
            elif k == "group":
                self.group_scene()
            elif k == "rest":
                back = r.choice([n for n in programs if n not in refused])
                self.rest_scene(rest, back)
                installed = back
            elif k == "ask":
                d = r.randrange(len(self.dests) + 1)
                v = r.randrange(max(self.voices, 1))
                if not self.clean and self.voices < self.stride and self.p(0.1):
                    v = r.randrange(self.voices, self.stride)
                asked = r.choice(["latest", "ramp"])
                if not self.clean or v < self.voices:
                    self.w(asked, d, v)
                    self.w("is_active", v)
            else:
                self.w("state")
                self.w("memory")
        self.w("process", 0, self.frames)
        self.w("process", 0, min(self.frames, 5))
        self.w("state")
        self.w("memory")
        audio = sum(1 for d in self.dests if d[2] != "control")
        calls = sum(1 for l in self.lines if l.startswith("process"))
        volume = calls * self.frames * self.stride * audio * 9 / 3
        mode = self.mode or ("hash" if volume > 1_500_000 else "full")
        self.lines.insert(head, "print " + mode)
        return "\n".join(self.lines) + "\n"


def session(seed, clean=False, mode=None, refused=False):
    text = Gen(seed, clean, mode).run()
    return with_refused(seed, text) if refused else text


def misspelt(r, w):
    """The word with a letter less or doubled, in capitals, with a byte before, behind or in it, or noise."""
    k = r.randrange(len(w))
    return r.choice([w[:k] + w[k + 1:], w[:k] + w[k] + w[k:], w.upper(), "\ufeff" + w, w + "_", w[:k] + "?" + w[k:], "%x" % r.getrandbits(60)])


def broken(text, seed):
    """The session, in one of eight with a line that is not of the grammar put in: a first word that is no command, a word
    too few, one too many, or a word that is misspelt."""
    r = random.Random("broken %d" % seed)
    if r.randrange(8):
        return text
    lines = text.split("\n")
    i = r.choice([i for i in range(len(lines)) if not i or not lines[i - 1].startswith("#=")])
    calls = [l.split() for l in lines if l.split() and not l.startswith("#")]
    words, w = [c[0] for c in calls], list(r.choice(calls))
    if r.randrange(2):
        bad = misspelt(r, w[0])
        rest = r.choice([[], ["0"], ["0", "00000000"], lines[i].split()[1:]])
        w = [bad if bad and bad not in words and bad[0] != "#" else "x" + w[0]] + rest
    elif len(w) == 1 or not r.randrange(3):
        w.append("x")
    else:
        k = r.randrange(1, len(w))
        w = r.choice([w[:k] + w[k + 1:], w[:k] + [misspelt(r, w[k]) or "x"] + w[k + 1:], w[:k] + ["x"] + w[k + 1:]])
    return "\n".join(lines[:i] + [" ".join(w)] + lines[i:])


def damaged(text, seed):
    """The session with one to four things damaged: a byte changed, put in or taken out, a word dropped, doubled, misspelt or
    put elsewhere, a line cut, dropped or doubled. Bytes that are no text are as Python's surrogateescape has them."""
    r = random.Random("damaged %d" % seed)
    lines = text.split("\n")
    for _ in range(r.randrange(1, 5)):
        i = r.randrange(len(lines))
        l, w = lines[i], lines[i].split()
        k, j = r.randrange(len(l) + 1), r.randrange(len(w) + 1)
        byte = bytes([r.choice([r.randrange(256), r.randrange(33, 127)])]).decode("utf-8", "surrogateescape")
        other = r.choice(lines).split() or ["x"]
        lines[i] = r.choice([
            lambda: l[:k] + byte + l[k + 1:], lambda: l[:k] + byte + l[k:], lambda: l[:k] + l[k + 1:], lambda: l[:k],
            lambda: " ".join(w[:j] + w[j + 1:]), lambda: " ".join(w[:j] + w[j:j + 1] + w[j:]),
            lambda: " ".join(w[:j] + [misspelt(r, x) for x in w[j:j + 1]] + w[j + 1:]),
            lambda: " ".join(w[:j] + [r.choice(other)] + w[j + 1:]), lambda: " ".join(w[:j] + [r.choice(other)] + w[j:]),
            lambda: "", lambda: l + "\n" + l, lambda: "\n".join([l, " ".join(other)])])()
    return "\n".join(lines)


def with_refused(seed, text):
    """The session with calls of rows 6, 13 and 14 put in here and there, once there is an engine."""
    import owed
    r = random.Random("refused %d" % seed)
    nan = lambda: r.choice(["7FC00000", "7F800000", "FF800000"])
    menu = [
        lambda: ["set_held %d %s" % (r.randrange(3), nan())],
        lambda: ["set_voice_held %d %d %s" % (r.randrange(3), r.randrange(18), nan())],
        lambda: ["set_base %d %s" % (r.randrange(3), nan())],
        lambda: ["%s %d %s" % (r.choice(["set_amount", "set_output"]), r.randrange(66), nan())],
        lambda: ["note_on %d %s" % (r.randrange(3), r.choice(["%s 3F800000 0 00000000", "42700000 %s 0 00000000", "42700000 3F800000 1 %s"]) % nan())],
        lambda: ["note_off %d %s" % (r.randrange(3), nan())],
        lambda: ["config %s" % r.choice(["7FC00000 64 1", "00000000 64 1", "42800000 4097 1", "42800000 64 65", "FF800000 9999 99"])],
        lambda: ["slot %d src=0 amt=%s" % (r.randrange(65), nan())],
        lambda: ["bind %d %d hex 3F800000" % (r.randrange(3), r.choice([257, 1000]))],
        lambda: ["memory_len %s need-1" % (m := r.choice(["values", "audio"])), "process 0 0", "process 0 %d" % r.choice([0, 1, 5000]), "out", "memory_len %s all" % m],
        lambda: ["memory_len %s need-1" % (m := r.choice(["engine", "held", "globals", "bases"])), "set_held 0 3F000000", "set_voice_held 0 0 3F000000", "set_base 0 3F000000",
                 "note_on 0 42700000 3F800000 0 00000000", "note_off 0 3F000000", "voice_ended 0", "process 0 1", "memory_len %s all" % m],
        lambda: ["memory_len tables need-1", "note_on 0 42700000 3F800000 0 00000000", "process 0 1", "memory_len tables all"],
        lambda: ["memory_len %s need-1" % (m := r.choice(["values", "audio", "out"])), "latest 0 0", "ramp 0 0", "memory_len %s all" % m],
    ]
    lines, out, judge = text.rstrip("\n").split("\n"), [], owed.Owed()
    for line in lines:
        more = r.choice(menu)() if judge.engine and r.random() < 0.25 else []
        for x in more + [line]:
            w = x.split()
            row = None if w[0].startswith("#") else judge.line(w)
            if row and x is not line:
                out.append("#= REFUSED %d" % row)
            out.append(x)
    return "\n".join(out) + "\n"


def main():
    a = sys.argv[1:]
    clean = "--clean" in a
    mode = a[a.index("--print") + 1] if "--print" in a else None
    if not a or a[0].startswith("-"):
        sys.exit(__doc__)
    sys.stdout.write(session(int(a[0]), clean, mode, "--refused" in a))


if __name__ == "__main__":
    main()
