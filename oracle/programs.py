#!/usr/bin/env python3
"""programs.py [FILE]

Writes examples for the definition of compiling (crates/model_examples/specs/CompiledExamples.antt, or
FILE): each program that the sessions in cases/ compile, and those of a few random sessions
with small registries, with the plans, the routes and the slots left out as the Rust compiles
them. A random one is taken if it shows a kind of plan or route that none before it shows. The
checker computes the definitions on each and compares. Needs target/release/oracle; `rt fmt` lays the file out.
"""
import os
import re
import subprocess
import sys

HERE = os.path.dirname(os.path.abspath(__file__))
SEEDS = range(0, 400)   # random sessions that are looked at
MOST = 12               # destinations and slots of a random one that is taken

KIND = {"signal": "K.Signal", "audio": "K.Audio", "held": "K.Held", "velocity": "K.Velocity", "key": "K.Key",
        "release": "K.ReleaseVelocity", "random": "K.Random", "alt": "K.Alternate false",
        "altinv": "K.Alternate true", "routerandom": "K.RandomPerRoute", "load": "K.VoiceLoad",
        "constant": "K.Constant"}
SCOPE = {"v": "S.Voice", "g": "S.Global"}
RANGE = {"u": "R.Unipolar", "b": "R.Bipolar"}
RATE = {"audio": "T.Audio", "control": "T.Control", "adaptive": "T.Adaptive"}
BOOL = {"0": "false", "1": "true"}
REASON = {"source": "E.UnknownSource", "aux": "E.UnknownAux", "dest": "E.UnknownDestination"}


def number(bits):
    """the Float of eight hexadecimal digits: m odd, or 0"""
    n = int(bits, 16)
    sign = "true" if n >> 31 else "false"
    e, t = n >> 23 & 255, n & 0x7FFFFF
    if e == 255:
        return "nan" if t else "(inf %s)" % sign
    m, x = (t, -149) if e == 0 else (t | 0x800000, e - 150)
    if m == 0:
        return "(fin %s 0 (pos 0))" % sign
    while m % 2 == 0:
        m, x = m // 2, x + 1
    return "(fin %s %d (%s))" % (sign, m, "pos %d" % x if x >= 0 else "negsuc %d" % (-x - 1))


def feed(word):
    kind, _, n = word.partition(":")
    return {"-": "F.Nothing", "src": "(F.Source %s)" % n, "amt": "(F.Amount %s)" % n, "out": "(F.Output %s)" % n}[kind]


def target(word):
    parts = word.split(":")
    return "(A.Param %s)" % parts[1] if parts[0] == "p" else "(A.LfoBus %s %s)" % (parts[1], parts[2])


def listed(items):
    return " ∷ ".join(items + ["[]"])


def curve(word):
    if word == "lin":
        return "C.Linear"
    _, rise, fall = word.split(":")
    return "C.Table %s %s" % (number(rise), number(fall))


def pick(word):
    return "P.Nothing" if word == "-" else "P.Source %s" % word


class Session:
    """what the oracle's compile lines were given"""

    def __init__(self):
        self.sources, self.dests, self.slots, self.rate = [], [], {}, "42800000"

    def line(self, words, answer):
        what = words[0]
        if what == "config":
            self.rate = words[1]
        elif what == "newreg":
            self.sources, self.dests = [], []
        elif what == "clear":
            self.slots = {}
        elif what == "source" and answer and answer[0].split()[1].isdigit():
            self.sources.append(words[2:5])
        elif what == "dest" and answer and answer[0].split()[1].isdigit():
            self.dests.append(words[1:7])
        elif what == "slot" and int(words[1]) < 64:
            self.slots[int(words[1])] = dict(w.split("=", 1) for w in words[2:])

    def wiring(self):
        sources = ["source (%s) %s %s" % (KIND[k], SCOPE[s], RANGE[r]) for k, s, r in self.sources]
        dests = ["record { target = %s; scope = %s; rate = %s; min = %s; max = %s; feed = %s }"
                 % (target(t), SCOPE[s], RATE[r], number(lo), number(hi), feed(f)) for t, s, r, lo, hi, f in self.dests]
        slots = []
        for n in range(max(self.slots, default=-1) + 1):
            f = self.slots.get(n)
            if f is None:
                slots.append("unused")
                continue
            dst = f.get("dst", "-")
            slots.append("record { source = %s; source_curve = %s; amount = %s; polarity = %s; destination = %s; aux = %s; "
                         "aux_invert = %s; aux_curve = %s; output = %s; bypass = %s }"
                         % (pick(f.get("src", "-")), curve(f.get("sc", "lin")), number(f.get("amt", "00000000")),
                            {"u": "Q.Unipolar", "b": "Q.Bipolar"}[f.get("pol", "u")],
                            "M.Nothing" if dst == "-" else "M.At %s" % target(dst), pick(f.get("aux", "-")),
                            BOOL[f.get("inv", "0")], curve(f.get("ac", "lin")), number(f.get("out", "3F800000")),
                            BOOL[f.get("byp", "0")]))
        return ("wired %s\n    (%s)\n    (%s)\n    (%s)"
                % (number(self.rate), listed(sources), listed(dests), listed(slots)))


def expected(answer):
    """plans, control, routes and skipped slots of the oracle's program"""
    place = {}
    plans, routes, skipped, control = [], [], [], 0
    for text in answer:
        w = text.split()
        if w[0] == "PROGRAM":
            control = w[w.index("control") + 1]
        elif w[0] == "SKIP":
            skipped.append("record { slot = %s; reason = %s }" % (w[1], REASON[w[2]]))
        elif w[0] == "PLAN":
            f = dict(zip(w[2::2], w[3::2]))
            place[w[3]] = w[1]
            at = w.index("routes")
            first, end = int(w[at + 1]), int(w[at + 2])
            base, _, n = f["base"].partition(":")
            plans.append("record { dest = %s; voice = %s; audio = %s; min = %s; max = %s; base = %s; first = %d; count = %d }"
                         % (w[3], "true" if w[5] == "v" else "false", "true" if w[7] == "a" else "false",
                            number(w[w.index("min") + 1]), number(w[w.index("max") + 1]),
                            {"set": "B.Set", "held": "B.Held %s" % n, "amt": "B.Amount %s" % n, "out": "B.Output %s" % n}[base],
                            first, end - first))

    def voice(s):
        return "true" if s == "v" else "false"

    def gain(word):
        if word == "live":
            return "G.Live"
        _, dest, _, scope = word.split(":")
        return "G.Fed %s %s" % (place[dest], voice(scope))

    def read(word):
        p = word.split(":")
        return {"sig": lambda: "D.Signal %s %s" % (p[1], voice(p[2])), "held": lambda: "D.Held %s %s" % (p[1], voice(p[2])),
                "fed": lambda: "D.Fed %s %s" % (place[p[1]], voice(p[3])), "const": lambda: "D.Constant",
                "rnd": lambda: "D.RouteRandom"}[p[0]]()

    def inputs(w):
        slew = w[5]
        if slew == "-":
            limit = "None"
        else:
            _, up, down = slew.split(":")
            limit = "Some (record { up = %s; down = %s })" % (number(up), number(down))
        return ("record { read = %s; bipolar = %s; table = %s; slew = %s }"
                % (read(w[0]), "true" if w[1] == "b" else "false", "false" if w[3] == "-" else "true", limit))

    for text in answer:
        w = text.split()
        if w[0] != "ROUTE":
            continue
        at = {k: w.index(k) for k in ("slot", "scope", "pol", "inv", "amt", "affine", "simple", "src", "aux")}
        src = w[at["src"] + 1:at["aux"]]
        aux = w[at["aux"] + 1:]
        routes.append("record { slot = %s; source = %s; aux = %s; aux_invert = %s; bipolar = %s; amount = %s; output = %s; voice = %s; "
                      "scale = %s; offset = %s; simple = %s }"
                      % (w[at["slot"] + 1], inputs(src), "None" if aux == ["-"] else "Some (%s)" % inputs(aux),
                         BOOL[w[at["inv"] + 1]], "true" if w[at["pol"] + 1] == "b" else "false", gain(w[at["amt"] + 1]),
                         gain(w[at["amt"] + 3]), voice(w[at["scope"] + 1]), number(w[at["affine"] + 1]),
                         number(w[at["affine"] + 2]), BOOL[w[at["simple"] + 1]]))
    return plans, control, routes, skipped


def programs(text):
    """(wiring, expected) of each compile line of a session"""
    out = subprocess.run([os.path.join(HERE, "target/release/oracle")], input=text, capture_output=True, text=True).stdout
    answers, at = {}, None
    for line in out.split("\n"):
        if line.startswith("@"):
            at = int(line[1:].split()[0])
            answers[at] = []
        elif at is not None and line:
            answers[at].append(line)
    s = Session()
    for n, line in enumerate(text.split("\n"), 1):
        words = line.split()
        if not words or words[0].startswith("#"):
            continue
        answer = answers.get(n, [])
        if words[0] == "compile" and answer:
            yield s, s.wiring(), expected(answer)
        s.line(words, answer)


def kinds(want, s):
    """what a program shows: its plans without their numbers, with the rate and feed that their destination was given; its routes' gains,
    marks, reads and curves"""
    out = set()
    for plan in want[0]:
        d = int(re.match(r"record { dest = (\d+)", plan)[1])
        given = (s.dests[d][2], s.dests[d][5].split(":")[0])
        out.add((re.sub(r"\(fin.*?\)\)|\(inf .*?\)|nan|\d+", "", plan),) + given)
    for route in want[2]:
        field = dict(re.findall(r"(\w+) = ([A-Z]\.\w+(?: .*?)?|true|false)[;)} ]", route))
        out.add(("gains", field.get("amount"), field.get("output")))
        out.add(("marks", field.get("voice"), field.get("simple"), "X.With" in route))
        for read in re.findall(r"read = (D\.\w+)(?: \d+)?( \w+)?; bipolar = (\w+); table = (\w+); slew = (L\.\w+)", route):
            out.add(("input",) + read[:2])
            out.add(("curve",) + read[2:])
    return out


HEAD = open(os.path.join(HERE, "programs.head"), encoding="utf-8").read()


def main():
    found, seen, shown = [], set(), set()
    for name in sorted(os.listdir(os.path.join(HERE, "cases"))):
        text = open(os.path.join(HERE, "cases", name), encoding="utf-8").read()
        for s, wiring, want in programs(text):
            if wiring not in seen:
                seen.add(wiring)
                shown |= kinds(want, s)
                found.append(("cases/" + name, wiring, want))
    for seed in SEEDS:
        text = subprocess.run([sys.executable, os.path.join(HERE, "gen.py"), str(seed), "--clean"], capture_output=True, text=True).stdout
        for s, wiring, want in programs(text):
            if wiring not in seen and len(s.dests) <= MOST and max(s.slots, default=0) < MOST and kinds(want, s) - shown:
                seen.add(wiring)
                shown |= kinds(want, s)
                found.append(("gen.py %d" % seed, wiring, want))
    parts = [HEAD]
    for i, (name, wiring, (plans, control, routes, skipped)) in enumerate(found):
        parts.append("-- %s\nw%d : Wiring\nw%d =\n    %s\n" % (name, i, i, wiring))
        parts.append("p%d : Compiles w%d\n    (%s)\n    %s\n    (%s)\n    (%s)\nunfolding w%d ALL\np%d = (refl, refl, refl, refl)\n"
                     % (i, i, listed(plans), control, listed(routes), listed(skipped), i, i))
    path = sys.argv[1] if len(sys.argv) > 1 else os.path.join(HERE, "../crates/model_examples/specs/CompiledExamples.antt")
    with open(path, "w", encoding="utf-8") as f:
        f.write("\n".join(parts).replace(" ALL\n", " " + UNFOLDED + "\n"))
    print("programs: %d examples" % len(found))


UNFOLDED = ("target_place verdict verdicts_from verdicts candidates skipped_of in_use counted_feed used_dests feeder_of readers_of reads "
            "hears_audio is_audio controls audios plan_order slew_for input_by route_by route_in plan_by plans_of all_routes order seconds_of "
            "rate_per_sample max32 is_nan lt eq mul div")
if __name__ == "__main__":
    main()
