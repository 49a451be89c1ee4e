"""The number that each call of a session owes by document 01's table, worked out from the session alone.

Owed().line(words) answers the number, or None where the call is accepted, and then takes the call's
effect on what later numbers depend on: registries, tables, slots, programs, lengths lent. docs/CALLS.md
decides; README.md says which calls a line stands for and which rows are judged for it, in which order.
"""
import re
import struct
from fractions import Fraction

SPECIAL = [0x7F800000, 0xFF800000, 0x7FC00000, 0x80000000, 1, 0x7F7FFFFF, 0xFF7FFFFF, 0x3F800000]


def of_bits(bits):
    return struct.unpack(">f", struct.pack(">I", bits))[0]


def nearest(x):
    """The bits of the binary32 nearest to a fraction that is not below 0, a tie going to the even one."""
    bits = struct.unpack(">I", struct.pack(">f", float(x)))[0]
    near = [b for b in (bits - 1, bits, bits + 1) if 0 <= b < 0x7F800000]
    return min(near, key=lambda b: (abs(Fraction(of_bits(b)) - x), b % 2))


def bits_of(word):
    """The bits of a number of a session: eight hexadecimal digits, or a decimal."""
    if re.fullmatch("[0-9A-Fa-f]{8}", word):
        return int(word, 16)
    return nearest(abs(Fraction(word))) | (1 << 31 if word.startswith("-") else 0)


def finite(word):
    return bits_of(word) & 0x7F800000 != 0x7F800000


def number(word):
    return of_bits(bits_of(word))


def in_table(word):
    return finite(word) and -16.0 <= number(word) <= 16.0


def drawn(seed, n, kind):
    """Whether each of the n drawn numbers may stand in a table."""
    s, good = int(seed), []
    for _ in range(n):
        s = (s * 6364136223846793005 + 1442695040888963407) % (1 << 64)
        bits = s >> 32 if kind == "r" else SPECIAL[(s >> 37) & 7] if kind in "xy" and (s >> 32) & 31 == 0 else 0
        good.append(in_table("%08X" % bits))
    return good


def table(spec):
    """A table as a list: may this number stand in a table?"""
    w = spec[0]
    if w == "len":
        t, n = table(spec[2:]), int(spec[1])
        return (t + [t[-1]] * n)[:n]
    if w == "put":
        t = table(spec[3:])
        t[int(spec[1])] = in_table(spec[2])
        return t
    if w == "const":
        return [in_table(spec[1])] * 513
    if w == "step":
        return [in_table(spec[2] if i < int(spec[1]) else spec[3]) for i in range(513)]
    if w == "gen":
        return drawn(spec[1], 513 if len(spec) == 3 else int(spec[2]), spec[-1])
    if w == "hex":
        return [in_table(x) for x in spec[1:]]
    return [True] * 513


def key_of(word):
    """A key's bytes."""
    return b"" if word == "~" else word.encode("utf-8", "surrogateescape")


FIXED = [b"velocity", b"key", b"channel_pressure", b"poly_pressure", b"random1", b"random2", b"alternate1", b"alternate2",
         b"mod_wheel", b"pitch_bend", b"mpe_x", b"mpe_y", b"mpe_z", b"release_velocity", b"constant", b"voice_load", b"random_route"]


def is_standard(key, counts):
    """Whether a key is one of the standard sources with these counts (envelopes, LFOs, macros, sequence values)."""
    m = re.fullmatch(rb"(env|lfo|macro|seq_value)([1-9][0-9]*)(_y)?", key)
    if m and (m[3] is None or m[1] == b"lfo"):
        return int(m[2]) <= counts[[b"env", b"lfo", b"macro", b"seq_value"].index(m[1])]
    return key in FIXED or key == b"seq_index" and counts[3] > 0


def standard_count(counts, audio):
    e, l, m, v = counts
    return e + 2 * l + m + v + (v > 0) + len(FIXED) + len(audio)


def curves_of(fields):
    """Position (0 source, 1 aux) to table name and seconds, for the curves of a slot's fields that are tables."""
    pairs = [f.partition("=")[::2] for f in fields]
    return {("sc", "ac").index(k): x.split(":") for k, x in pairs if k in ("sc", "ac") and x != "lin"}


def stride(config):
    return max(1, -(-config[2] // 16)) * 16


def first(*rows):
    """The first number whose row applies."""
    return next((n for n, applies in rows if applies), None)


TABLES = 130 * 513                                  # the numbers of a table memory

# What each call is lent (docs/CALLS.md, Which call a short memory refuses).
LENT = {
    "slot": ["matrix_tables"],
    "note": ["matrix_tables"],
    "compile": ["matrix_tables", "values", "audio", "tables"],
    "engine": ["held", "globals", "bases"],
    "set_held": ["held", "globals"],
    "set_voice_held": ["held"],
    "set_base": ["bases"],
    "note_on": ["held", "tables"],
    "note_off": ["held"],
    "voice_ended": ["held"],
    "process": ["held", "globals", "bases", "values", "audio", "tables"],
    "out": ["values", "audio"],
    "latest": ["values", "audio"],
    "latest_all": ["values", "audio"],
    "ramp": ["values", "out"],
}


class Owed:
    def __init__(self):
        self.config = ("473B8000", 64, 1)
        self.sources, self.dests = [], []           # keys; targets
        self.tables = {"diag": [True] * 513}
        self.slots, self.note = {}, ["diag", "diag"]
        self.wrong = set()                          # places in the matrix's tables of numbers that row 6 refuses
        self.programs, self.installed = {}, "~"
        self.engine = None                          # config, sources, destinations
        self.frames = 0                             # of the last block's chunks
        self.lent = {}
        self.parts = {}                             # signal_part: at, length, stride

    # What is needed, by docs/CALLS.md, Memories -------------------------------------
    def engine_needs(self, config, sources, dests):
        return {"held": stride(config) * sources, "globals": sources, "bases": dests}

    def program_needs(self, config, plans, routes, tabled):
        s, chunks = stride(config), config[1] // 32 + 2
        return {"values": s * (plans * (2 * chunks + 6) + 8 * routes), "audio": s * plans * config[1],
                "tables": TABLES if tabled else 0}

    def length(self, what, need):
        """How many numbers of a memory are lent; `all` is at least a whole table memory."""
        x = self.lent.get(what, "all")
        return max(need, TABLES) if x == "all" else need if x == "need" else max(0, need - 1) if x == "need-1" else int(x)

    def short(self, call, needs):
        return any(self.length(what, needs[what]) < needs[what] for what in LENT[call])

    def program(self):
        return self.programs[self.installed]

    def outside(self):
        """Whether some signal's part is not inside the samples. A session does not say how many samples are lent, so
        a part that is inside for some length of them and outside for another is a mistake in the session."""
        def at_length(samples):
            def place(x):
                return samples + int(x[4:] or 0) if x.startswith("end") else int(x)
            return any(place(at) > samples or place(n) > samples - place(at) for at, n, _ in self.parts.values())
        if at_length(0) != at_length(1 << 40):
            raise ValueError("a signal_part that the session does not decide")
        return at_length(0)

    # The rows ---------------------------------------------------------------------
    def row_tables(self, call, names):
        """Setting the tables of a slot, or of the notes."""
        return first((6, not all(all(self.tables[n]) for n in names)),
                     (14, names and self.short(call, {"matrix_tables": TABLES})),
                     (15, any(len(self.tables[n]) != 513 for n in names)))

    def row_slot(self, n, fields):
        curves = list(curves_of(fields).values())
        numbers = [x for f in fields for k, _, x in [f.partition("=")] if k in ("amt", "out")]
        return first((5, n > 63),
                     (6, not all(map(finite, numbers + [s for c in curves for s in c[1:]])))) \
            or self.row_tables("slot", [c[0] for c in curves])

    def row_compile(self):
        needs = self.compiled()["needs"]
        needs["matrix_tables"] = needs["tables"]
        reach, named = self.length("matrix_tables", needs["tables"]), self.named()
        return first((6, any(i < reach and i // 513 in named for i in self.wrong)), (14, self.short("compile", needs)))

    def row_dest(self, w):
        feed = w[6]
        return first((9, w[1] in self.dests), (10, not number(w[4]) < number(w[5])),
                     (11, feed[:3] in ("amt", "out") and int(feed[4:]) > 63), (12, len(self.dests) >= 1024))

    def row_swap(self, p):
        # row 6, a program's amounts and outputs: a line installs only what compile made, whose are finite
        a, b = p["config"], self.engine[0]
        return first((7, (number(a[0]),) + a[1:] != (number(b[0]),) + b[1:]),
                     (8, p["routes"] and (p["sources"] > self.engine[1] or p["dests"] > self.engine[2])))

    def row(self, w):
        """The rows of a line before there need be an engine; the others are the engine's."""
        c = w[0]
        if c == "config":
            return first((6, not finite(w[1])), (13, number(w[1]) <= 0 or int(w[2]) > 4096 or int(w[3]) > 64))
        if c == "source":
            return first((9, key_of(w[1]) in self.sources), (12, len(self.sources) >= 128), (15, len(key_of(w[1])) > 32))
        if c == "find":
            return first((15, len(key_of(w[1])) > 32))
        if c == "standard":
            counts, keys = [int(x) for x in w[1:5]], [key_of(x) for x in w[5:]]
            return first((9, len(set(keys)) < len(keys) or any(is_standard(k, counts) for k in keys)),
                         (12, standard_count(counts, keys) > 128), (15, any(len(k) > 32 for k in keys)))
        if c == "dest":
            return self.row_dest(w)
        if c == "slot":
            return self.row_slot(int(w[1]), w[2:])
        if c == "note":
            return self.row_tables(c, [n for n in w[1:3] if n != "diag"])
        if c == "compile":
            return self.row_compile()
        if c == "engine":
            return first((14, self.short(c, self.engine_needs(self.config, len(self.sources), len(self.dests)))))
        if c == "bind":
            return first((13, int(w[2]) > 256))
        return None if self.engine is None else self.row_engine(c, w)

    def row_engine(self, c, w):
        (_, frames, voices), sources, dests = self.engine
        needs = {**self.engine_needs(*self.engine), **self.program()["needs"], "out": self.frames}
        short = c in LENT and self.short(c, needs)
        if c == "set_held":
            return first((3, int(w[1]) >= sources), (6, not finite(w[2])), (14, short))
        if c == "set_voice_held":
            return first((2, int(w[2]) >= stride(self.engine[0])), (3, int(w[1]) >= sources), (6, not finite(w[3])), (14, short))
        if c == "set_base":
            return first((4, int(w[1]) >= dests), (6, not finite(w[2])), (14, short))
        if c in ("set_amount", "set_output"):
            return first((5, int(w[1]) > 63), (6, not finite(w[2])))
        if c == "note_on":
            return first((2, int(w[1]) >= voices), (6, not all(map(finite, (w[2], w[3], w[5])))), (14, short))
        if c == "note_off":
            return first((2, int(w[1]) >= voices), (6, not finite(w[2])), (14, short))
        if c == "voice_ended":
            return first((2, int(w[1]) >= voices), (14, short))
        if c == "is_active":
            return first((2, int(w[1]) >= voices))
        if c == "swap":
            return self.row_swap(self.programs[w[1]])
        if c == "process":
            return first((1, int(w[2]) > frames), (13, any(s > 256 for _, _, s in self.parts.values())), (14, short or self.outside()))
        if c == "out":
            return first((14, short))
        if c in ("latest", "ramp"):
            return first((2, int(w[2]) >= voices), (14, short))
        if c == "latest_all":
            return first((14, short or int(w[1]) * int(w[2]) < int(w[1]) * self.program()["dests"]))
        return None

    # Effects ----------------------------------------------------------------------
    def named(self):
        """The places of the matrix's tables that a curve names, of a slot that is empty or bypassed too."""
        slots = {2 * n + p for n, f in self.slots.items() for p in curves_of(f)}
        return slots | {128 + i for i, n in enumerate(self.note) if n != "diag"}

    def compiled(self):
        routes, used = 0, set()
        for f in self.slots.values():
            d = dict(x.partition("=")[::2] for x in f)
            known = [int(d[k]) < len(self.sources) for k in ("src", "aux") if d.get(k, "-") != "-"]
            if d.get("src", "-") != "-" and all(known) and d.get("dst") in self.dests and d.get("byp") != "1":
                routes += 1
                used.add(d["dst"])
        return {"config": self.config, "sources": len(self.sources), "dests": len(self.dests), "routes": routes,
                "needs": self.program_needs(self.config, len(used), routes, self.named())}

    def effect(self, w):
        c = w[0]
        if c == "config":
            self.config = (w[1], int(w[2]), int(w[3]))
        elif c == "source":
            self.sources.append(key_of(w[1]))
        elif c == "standard":
            e, l, m, v = [int(x) for x in w[1:5]]
            names = FIXED + [key_of(x) for x in w[5:]] + [b"seq_index"] * (v > 0)
            for name, n in zip((b"env%d", b"lfo%d", b"lfo%d_y", b"macro%d", b"seq_value%d"), (e, l, l, m, v)):
                names += [name % i for i in range(1, n + 1)]
            self.sources = names
        elif c == "dest":
            self.dests.append(w[1])
        elif c == "newreg":
            self.sources, self.dests = [], []
        elif c == "table":
            self.tables[w[1]] = table(w[2:])
        elif c == "slot":
            self.slots[int(w[1])] = w[2:]
            self.rewritten({2 * int(w[1]) + p for p in curves_of(w[2:])})
        elif c == "note":
            self.note = w[1:3]
            self.rewritten({128 + i for i, n in enumerate(self.note) if n != "diag"})
        elif c == "clear":
            self.slots, self.note = {}, ["diag", "diag"]
        elif c == "compile":
            self.programs[w[1]] = self.compiled()
        elif c == "engine":
            self.engine, self.frames = (self.config, len(self.sources), len(self.dests)), 0
            self.programs["~"] = {"config": self.config, "sources": 0, "dests": 0, "routes": 0,
                                  "needs": self.program_needs(self.config, 0, 0, False)}
            self.installed = "~"
        elif c == "swap":
            self.installed = w[1]
        elif c == "process" and int(w[1]) < int(w[2]):
            self.frames = int(w[2]) - int(w[1]) if self.program()["routes"] else 0
        else:
            self.lending(c, w)

    def rewritten(self, places):
        self.wrong = {i for i in self.wrong if i // 513 not in places}

    def lending(self, c, w):
        """Lines that change what is lent."""
        if c == "memory_len":
            for what in ("held", "globals", "bases") if w[1] == "engine" else w[1:2]:
                self.lent[what] = w[2]
        elif c == "matrix_put":
            (self.wrong.discard if in_table(w[3]) else self.wrong.add)(int(w[1]) * 513 + int(w[2]))
        elif c == "signal_part":
            self.parts[w[1]] = (w[2], w[3], int(w[4]))
        elif c == "bind":
            self.parts.pop(w[1], None)
        elif c == "unbind":
            self.parts = {} if len(w) < 2 else {k: x for k, x in self.parts.items() if k != w[1]}

    def line(self, w):
        row = self.row(w)
        if row is None:
            self.effect(w)
        return row


def owed(text, end=None):
    """Line number to owed number, for a whole session, or for the lines before line `end`."""
    o, out = Owed(), {}
    for n, line in enumerate(text.split("\n")[:end and end - 1], 1):
        w = line.split()
        if w and not w[0].startswith("#"):
            row = o.line(w)
            if row:
                out[n] = row
    return out


def above(text):
    """Line number to the words of a line `#= ...` directly above."""
    return {n + 2: l.split()[1:] for n, l in enumerate(text.split("\n")) if l.startswith("#= ")}


def stated(text):
    """Line number to the number that a line `#= REFUSED n` directly above states."""
    return {n: int(w[1]) for n, w in above(text).items() if w[0] == "REFUSED"}


def answers(text):
    """Line number to what the port prints, by any other line `#= ...` directly above: an accepted call at which the Rust panics."""
    return {n: " ".join(w) for n, w in above(text).items() if w[0] != "REFUSED"}
