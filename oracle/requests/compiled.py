"""Registries, matrix and compiled programs for model.py, from document 01 (Plan and route) and the Rust's program.rs.

SLOTS is how many slots there are: 64, or 96 with C-15.
"""
from common import INF, f32, number

SLOTS = 96
LINEAR = [i / 512 for i in range(513)]


class Source:
    def __init__(self, kind, scope, rng):
        self.kind, self.voice, self.bipolar = kind, scope == "v", rng == "b"


class Dest:
    def __init__(self, target, scope, rate, low, high, feed):
        self.target, self.voice, self.rate, self.low, self.high = target, scope == "v", rate, low, high
        kind, _, n = feed.partition(":")
        self.feed = (kind, int(n)) if n else None


class Curve:
    def __init__(self, table, rise, fall):
        self.table, self.rise, self.fall = table, max(rise, 0.0), max(fall, 0.0)


class Slot:
    """A slot as its line sets it, fields that are not named at their defaults."""

    def __init__(self, fields=(), tables=None):
        f = dict(x.partition("=")[::2] for x in fields)
        self.source, self.aux = (int(f[k]) if f.get(k, "-") != "-" else None for k in ("src", "aux"))
        self.target = f.get("dst", "-")
        self.amount, self.output = number(f.get("amt", "00000000")), number(f.get("out", "3F800000"))
        self.bipolar, self.inverted, self.bypassed = f.get("pol") == "b", f.get("inv") == "1", f.get("byp") == "1"
        self.curves = [self.curve(f.get(k, "lin"), tables) for k in ("sc", "ac")]

    @staticmethod
    def curve(word, tables):
        if word == "lin":
            return None
        name, rise, fall = word.split(":")
        return Curve(tables[name], number(rise), number(fall))


class Input:
    """What a route reads at one place: how (fed, sig, held, const, rnd), of which source, per voice or globally."""

    def __init__(self, read, of, source, voice, bipolar, curve, rate):
        self.read, self.of, self.source, self.voice, self.bipolar = read, of, source, voice, bipolar
        self.table = curve and curve.table
        slewed = curve and (curve.rise > 0.0 or curve.fall > 0.0)
        self.slew = (per_sample(curve.rise, rate), per_sample(curve.fall, rate)) if slewed else None


def per_sample(seconds, rate):
    """How far a slew moves in a sample."""
    if not seconds > 0.0:
        return INF
    samples = f32(seconds * rate)
    return f32(1.0 / samples) if samples else INF


class Route:
    def __init__(self, n, dest, slot, inputs, fed, dests):
        self.slot, self.dest, self.inputs, self.fed = n, dest, inputs, fed      # fed: the feeders of amount and output
        self.inverted, self.bipolar = slot.inverted, slot.bipolar
        own = inputs[0]
        self.affine = (1.0, 0.0)
        if own.bipolar != slot.bipolar:
            self.affine = (2.0, -1.0) if slot.bipolar else (0.5, 0.5)
        self.voice = any(i and i.voice for i in inputs) or any(f is not None and dests[f].voice for f in fed)
        bare = own.table is None and inputs[1] is None and fed == [None, None]
        self.simple = bare and own.voice and dests[dest].voice


class Program:
    """A compiled program with its memory: values 0, or its last ones."""

    def __init__(self, config, sources, dests, slots, note):
        self.config, self.dests, self.note, self.slots = config, list(dests), note, slots
        self.amounts = [slots[n].amount if n in slots else 0.0 for n in range(SLOTS)]
        self.outputs = [slots[n].output if n in slots else 1.0 for n in range(SLOTS)]
        self.stride = max(1, -(-config[2] // 16)) * 16
        self.candidates(sources)
        self.rates(sources)
        self.ordered()
        self.make_routes(sources)
        self.make_memory()

    def candidates(self, sources):
        number_of = {d.target: i for i, d in reversed(list(enumerate(self.dests)))}
        self.named = []
        for n, s in sorted(self.slots.items()):
            known = s.source is not None and s.source < len(sources) and (s.aux is None or s.aux < len(sources))
            if known and s.target in number_of and not s.bypassed:
                self.named.append((n, number_of[s.target]))
        self.used = sorted({d for _, d in self.named})

        def counts(feed):
            kind, n = feed
            return kind != "src" or (n < len(sources) and sources[n].kind == "held" and not sources[n].voice)
        self.counted = {d: f if (f := self.dests[d].feed) and counts(f) else None for d in self.used}
        self.reader = {self.counted[d]: d for d in self.used if self.counted[d]}    # the highest-numbered is read

    def things(self, d):
        """What the routes of a destination read: sources, amounts and outputs."""
        out = set()
        for n, dest in self.named:
            if dest == d:
                s = self.slots[n]
                out |= {("src", s.source), ("amt", n), ("out", n)} | ({("src", s.aux)} if s.aux is not None else set())
        return out

    def rates(self, sources):
        def sounds(i):
            return i is not None and sources[i].kind == "audio"

        def is_audio(d):
            if self.counted[d] or self.dests[d].rate == "control":
                return False
            slots = [self.slots[n] for n, dest in self.named if dest == d]
            return self.dests[d].rate == "audio" or any(sounds(s.source) or sounds(s.aux) for s in slots)
        self.audio = [d for d in self.used if is_audio(d)]
        self.control = [d for d in self.used if not is_audio(d)]

    def ordered(self):
        """The running order of control destinations, and whether a chain bars the rule."""
        things = {d: self.things(d) for d in self.used}
        left, self.order = list(self.control), []
        while left:
            feeders = {b: {self.reader[t] for t in things[b] if t in self.reader} - {b} for b in left}
            free = [b for b in left if not feeders[b] & set(left)]
            self.order.append((free or left)[0])
            left.remove(self.order[-1])
        left, before = list(self.control), None
        while left != before:
            before = left
            left = [b for b in left if any(a != b and self.counted[a] in things[b] for a in left)]
        self.barred = bool(left)

    def make_routes(self, sources):
        self.routes, self.slew, self.random = [], {}, {}
        for n, d in self.named:
            s = self.slots[n]
            inputs = [self.make_input(n, k, i, s.curves[k], sources) for k, i in enumerate((s.source, s.aux))]
            fed = [self.reader.get((k, n)) for k in ("amt", "out")]
            self.routes.append(Route(n, d, s, inputs, fed, self.dests))
        self.of = {d: [r for r in self.routes if r.dest == d] for d in self.used}

    def make_input(self, n, place, i, curve, sources):
        if i is None:
            return None
        source = sources[i]
        read, of, voice = "held", i, source.voice
        if ("src", i) in self.reader:
            read, of = "fed", self.reader["src", i]
            voice = self.dests[of].voice
        elif source.kind in ("signal", "audio"):
            read = "sig"
        elif source.kind == "constant":
            read, voice = "const", False
        elif source.kind == "routerandom":
            read, voice = "rnd", True
            self.random[n, place] = [0.0] * self.stride
        made = Input(read, of, i, voice, source.bipolar, curve, self.config[0])
        if made.slew:
            self.slew[n, place] = [0.0] * self.stride
        return made

    def make_memory(self):
        self.width = {d: self.stride if self.dests[d].voice else 1 for d in self.used}
        chunks = self.config[1] // 32 + 2
        self.cur, self.start = ({d: [0.0] * self.width[d] for d in self.control} for _ in range(2))
        self.rows = {d: [([0.0] * self.width[d], [0.0] * self.width[d]) for _ in range(chunks)] for d in self.control}
        self.sound = {d: [[0.0] * self.width[d] for _ in range(self.config[1])] for d in self.audio}
        self.ticked, self.inherited = False, set()

    def primed(self, d):
        return self.ticked or d in self.inherited
