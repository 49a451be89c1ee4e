#!/usr/bin/env python3
"""sessions.py [FILE]

Writes examples for the definitions of calls on an engine (crates/model_examples/specs/SessionExamples.antt): the sessions in cases/ that are
small enough, with what the Rust prints after each block: "from" and "to" of every chunk of each control destination, in every lane, and the audio rows
of the block's frames. Those that BESIDE names, which refuse the must-fail edits of crate model, are written beside the definitions
(crates/model/specs/SmallSessions.antt) and not there. With FILE, all go into that one. The checker computes the definitions on each and
compares, the two zeros taken as one. Needs target/release/oracle; `rt fmt` lays the files out.
"""
import os
import re
import subprocess
import sys

import programs as P
import small

HERE = os.path.dirname(os.path.abspath(__file__))
ORACLE = os.path.join(HERE, "target/release/oracle")
HEAD = open(os.path.join(HERE, "sessions.head"), encoding="utf-8").read()


def size(crate, name):
    """a size of the port, as its code has it"""
    path = os.path.join(HERE, "..", "crates", crate, "src", "lib.rt")
    return int(re.search(r"pub const %s: usize = (\d+);" % name, open(path, encoding="utf-8").read())[1])


SLOTS, POINTS = size("config", "SLOTS"), size("curve_table", "POINTS")
# sessions that stay beside the definitions
BESIDE = ("diff-3-", "t14-", "t28-", "t29-")


class Skip(Exception):
    pass


def answers_of(text):
    out = subprocess.run([ORACLE], input=text, capture_output=True, text=True).stdout
    answers, at = {}, None
    for line in out.split("\n"):
        if line.startswith("@"):
            at = int(line[1:].split()[0])
            answers[at] = []
        elif at is not None and line:
            answers[at].append(line)
    return answers


def table(words):
    kind = words[2]
    if kind == "lin":
        return "tabulated diagonal_at"
    if kind == "rev":
        return "tabulated (λ i. diagonal_at (512 - i))"
    if kind == "const":
        return "tabulated (λ i. %s)" % P.number(words[3])
    if kind == "step":
        return "tabulated (λ i. cond (ltb i %s) %s %s)" % (words[3], P.number(words[4]), P.number(words[5]))
    raise Skip("table " + kind)


def bits(words):
    return ["0x%s" % w for w in words]


def shown(answer):
    """what a block prints: per control destination from rows then to rows, per audio destination its rows, destinations ascending"""
    rows = {}
    for line in answer:
        w = line.split()
        if w[0] == "PANIC":
            raise Skip("panic")
        if w[0] == "FROM":
            rows.setdefault(int(w[1]), ([], [], []))[0].extend(w[4:])
        elif w[0] == "TO":
            rows.setdefault(int(w[1]), ([], [], []))[1].extend(w[4:])
        elif w[0] == "A":
            rows.setdefault(int(w[1]), ([], [], []))[2].extend(w[4:])
    out = []
    for d in sorted(rows):
        for part in rows[d]:
            out += part
    return [str(int(x, 16)) for x in out]


class Session(P.Session):
    def __init__(self):
        super().__init__()
        self.frames, self.voices, self.tables, self.note = 0, 0, {}, ("diag", "diag", "0", "0")
        self.names, self.kept, self.calls, self.reports, self.bound, self.start = {"~": 0}, [], [], [], {}, None
        self.samples = []

    def wiring(self):
        text = super().wiring()
        parts = text.split("\n")
        sources, dests, slots = parts[1:]
        v, k = ["N.Linear" if t == "diag" else "N.Table" for t in self.note[:2]]
        return ("wired_as (record { sample_rate = %s; max_frames = %d; voices = %d })\n%s\n%s\n%s\n    %s %s %s %s"
                % (P.number(self.rate), self.frames, self.voices, sources, dests, slots, v, k, P.BOOL[self.note[2]], P.BOOL[self.note[3]]))

    def tables_of(self):
        places = []
        for n in range(SLOTS):
            f = self.slots.get(n, {})
            for p, key in enumerate(("sc", "ac")):
                c = f.get(key, "lin")
                if c != "lin":
                    places.append((2 * n + p, c.split(":")[0]))
        for p, t in zip((2 * SLOTS, 2 * SLOTS + 1), self.note[:2]):
            if t != "diag":
                places.append((p, t))
        if not places:
            return "[]"
        out, at = [], 0
        for p, t in places:
            if p > at:
                out.append("replicate %d zero32" % ((p - at) * POINTS))
            if t != "diag" and t not in self.tables:
                raise Skip("table")
            out.append("tabulated diagonal_at" if t == "diag" else self.tables[t])
            at = p + 1
        out.append("replicate %d zero32" % ((2 * SLOTS + 2 - at) * POINTS))
        return "(" + " ++ (".join(out) + ")" * len(out)

    def signals(self):
        samples, parts = [], ["no_part"] * (max(self.bound, default=-1) + 1)
        for i, (stride, data) in sorted(self.bound.items()):
            parts[i] = "record { at = %d; len = %d; stride = %d }" % (len(samples), len(data), stride)
            samples += [P.number(x) for x in data]
        return P.listed(samples), P.listed(parts)

    def feed(self, w, answer):
        what = w[0]
        if what == "config":
            self.rate, self.frames, self.voices = w[1], int(w[2]), int(w[3])
        elif what == "table":
            self.tables[w[1]] = table(w)
        elif what == "note":
            self.note = tuple(w[1:5])
        elif what == "clear":
            self.slots, self.note = {}, ("diag", "diag", "0", "0")
        elif what == "compile":
            self.names[w[1]] = len(self.kept) + 1
            self.kept.append((self.wiring(), self.tables_of()))
        elif what == "engine":
            if self.start is not None:
                raise Skip("two engines")
            self.start = self.wiring()
        elif what in ("source", "dest", "slot", "newreg"):
            self.line(w, answer)
        elif what in ("print", "canon", "state", "memory", "out", "latest", "latest_all", "ramp", "is_active", "rate", "find"):
            return
        else:
            self.call(w, answer)

    def call(self, w, answer):
        n = P.number
        what = w[0]
        if what == "set_held":
            self.calls.append("held-set %s %s" % (w[1], n(w[2])))
        elif what == "set_voice_held":
            self.calls.append("voice-held-set %s %s %s" % (w[1], w[2], n(w[3])))
        elif what == "set_base":
            self.calls.append("base-set %s %s" % (w[1], n(w[2])))
        elif what == "set_amount":
            self.calls.append("amount-set %s %s" % (w[1], n(w[2])))
        elif what == "set_output":
            self.calls.append("output-set %s %s" % (w[1], n(w[2])))
        elif what == "set_voice_limit":
            self.calls.append("limit-set %s" % w[1])
        elif what == "note_on":
            self.calls.append("note-on %s (record { key = %s; velocity = %s; legato = %s; glide_seconds = %s })"
                              % (w[1], n(w[2]), n(w[3]), P.BOOL[w[4]], n(w[5])))
        elif what == "note_off":
            self.calls.append("note-off %s %s" % (w[1], n(w[2])))
        elif what == "voice_ended":
            self.calls.append("voice-ended %s" % w[1])
        elif what == "swap":
            self.calls.append("swap %d" % self.names[w[1]])
        elif what == "bind" and w[3] == "hex":
            self.bound[int(w[1])] = (int(w[2]), w[4:])
        elif what == "unbind":
            for i in list(self.bound):
                if len(w) == 1 or i == int(w[1]):
                    del self.bound[i]
        elif what == "process":
            samples, parts = self.signals()
            self.calls.append("block (%s) (record { part = %s }) %s %s" % (samples, parts, w[1], w[2]))
            self.calls.append(None)
            self.reports.append(shown(answer))
        else:
            raise Skip(what)


def example(name, text):
    full = "print full\ncanon 1\n" + "\n".join("#" + l if l.startswith(("print", "canon")) else l for l in text.split("\n"))
    answers = answers_of(full)
    s = Session()
    for n, line in enumerate(full.split("\n"), 1):
        w = line.split()
        if w and not w[0].startswith("#"):
            s.feed(w, answers.get(n, []))
    if s.start is None or not s.reports:
        raise Skip("no block")
    if sum(map(len, s.reports)) > 1500:
        raise Skip("large")
    return s


def definitions(i, name, s):
    """session number i as a runner, its calls, and what is seen after each block"""
    kept = P.listed(["kept_of (%s) %s" % (w, t) for w, t in s.kept])
    blocks, at = [], []
    for c in s.calls:
        if c is None:
            blocks.append(at)
            at = []
        else:
            at.append("(%s)" % c)
    return ["-- %s\nr%d : Runner\nr%d =\n    start_with (%s)\n    (%s)\n" % (name, i, i, s.start, kept),
            "c%d : List (List Call)\nc%d = %s\n" % (i, i, P.listed(["(%s)" % P.listed(b) for b in blocks])),
            "e%d : reports c%d r%d ≡ %s\nunfolding c%d r%d ALL\ne%d = refl\n"
            % (i, i, i, P.listed(["(%s)" % P.listed(b) for b in s.reports]), i, i, i)]


def write(path, parts):
    """the sessions of a file"""
    with open(os.path.join(HERE, path), "w", encoding="utf-8") as f:
        f.write("\n".join([HEAD] + parts).replace(" ALL\n", " " + UNFOLDED + "\n"))


def main():
    parts, beside, done = [], [], 0
    only, seeds = os.environ.get("ONLY"), os.environ.get("SEEDS")
    texts = [("cases/" + n, open(os.path.join(HERE, "cases", n), encoding="utf-8").read()) for n in sorted(os.listdir(os.path.join(HERE, "cases")))
             if not only or n.startswith(tuple(only.split(",")))]
    if seeds:
        a, b = map(int, seeds.split(","))
        texts = [("small.py %d" % k, small.session(k)) for k in range(a, b)]
    one = os.path.abspath(sys.argv[1]) if len(sys.argv) > 1 else None
    for name, text in texts:
        try:
            s = example(name, text)
        except Skip as e:
            print("left out: %s: %s" % (name, e))
            continue
        small_one = not one and name.startswith(tuple("cases/" + b for b in BESIDE))
        (beside if small_one else parts).extend(definitions(done, name, s))
        done += 1
    write(one or "../crates/model_examples/specs/SessionExamples.antt", parts)
    if not one:
        write("../crates/model/specs/SmallSessions.antt", beside)
    print("sessions: %d examples" % done)


UNFOLDED = open(os.path.join(HERE, "sessions.unfolded"), encoding="utf-8").read().strip()
if __name__ == "__main__":
    main()
