"""What the references of document 02's requests share: binary32 numbers, the specs of tables and samples, runs of the
oracle and of other programs, and the command line that each reference has (README.md, The requests of document 02).

A reference has `session(seed)`, which writes a session; `owed(text, fault)`, which answers what is owed under which
line of it, by the reference or, with a fault's name, by a wrong version of it; and FAULTS, the wrong versions with the
mistake of each.
"""
import ctypes
import itertools
import os
import re
import struct
import subprocess
import sys

HERE = os.path.dirname(os.path.abspath(__file__))
TOP = os.path.dirname(HERE)
sys.path.insert(0, TOP)
import compare
import owed as rows

ORACLE = os.environ.get("ORACLE", compare.ORACLE)
NAN, INF = float("nan"), float("inf")
GAINS = 64      # how many of the slots' amounts and outputs in `state` are compared: the Rust has so many


# Numbers -----------------------------------------------------------------------------------------
def f32(x):
    """The binary32 nearest to a double, a tie going to the even one. Of two binary32 numbers the sum, difference,
    product and quotient are right when they are worked out as doubles and rounded so."""
    return ctypes.c_float(x).value


def div(a, b):
    if b == 0.0 and not (a != a or b != b):
        sign = struct.pack(">d", a)[0] >> 7 ^ struct.pack(">d", b)[0] >> 7
        return NAN if a == 0.0 else -INF if sign else INF
    return f32(a / b)


def raw(x):
    """The eight digits of a number as they are."""
    return struct.pack(">f", x).hex().upper() if x == x else "7FC00000"


def word(x):
    """The eight digits of a number as `canon 1` prints them."""
    return "00000000" if x == 0.0 else raw(x)


number, bits_of, of_bits = rows.number, rows.bits_of, rows.of_bits


def beside(x, steps):
    """The binary32 that many steps above x, which is finite and above 0."""
    return of_bits(bits_of(raw(x)) + steps)


# Tables and samples ------------------------------------------------------------------------------
def drawn(seed, n, kind):
    """n numbers of the generator that README.md describes."""
    s, out = int(seed), []
    for _ in range(n):
        s = (s * 6364136223846793005 + 1442695040888963407) % (1 << 64)
        m = s >> 40
        if kind == "r":
            out.append(of_bits(s >> 32))
        elif kind in "xy" and (s >> 32) & 31 == 0:
            out.append(of_bits(rows.SPECIAL[(s >> 37) & 7]))
        else:
            unit, both = m / 2 ** 24, (m - 2 ** 23) / 2 ** 23
            out.append({"u": unit, "x": unit, "t": both * 16}.get(kind, both))
    return out


def table(spec):
    """The numbers of a SPEC of docs/SESSIONS.md."""
    w = spec[0]
    if w == "len":
        t, n = table(spec[2:]), int(spec[1])
        return (t + t[-1:] * n)[:n]
    if w == "put":
        t = table(spec[3:])
        t[int(spec[1])] = number(spec[2])
        return t
    if w == "gen":
        return drawn(spec[1], 513 if len(spec) == 3 else int(spec[2]), spec[-1])
    if w == "hex":
        return [number(x) for x in spec[1:]]
    if w == "const":
        return [number(spec[1])] * 513
    if w == "step":
        return [number(spec[2] if i < int(spec[1]) else spec[3]) for i in range(513)]
    return [{"lin": i / 512, "rev": (512 - i) / 512, "sq": f32(i * i / 262144)}[w] for i in range(513)]


# Runs --------------------------------------------------------------------------------------------
def calls(text):
    """Number and words of each line that is a call."""
    for n, line in enumerate(text.split("\n"), 1):
        w = line.split()
        if w and not w[0].startswith("#"):
            yield n, w


def printed(line):
    """A printed line as it is compared: without offsets, clocks and counters, and with the first slots' gains."""
    if re.match(r"S (amounts|outputs) ", line):
        return " ".join(line.split()[:2 + GAINS])
    return " ".join(line.split()[:2]) if line.startswith("REFUSED ") else compare.canon(line)


KEPT = ("clock", "phase", "active", "fresh", "renote", "heldglobal", "held", "base", "amounts", "outputs", "notevalue",
        "target", "step", "chunks")
KEPT_BY_PROGRAM = ("program", "from", "cur", "slew", "random", "audio")


def blocks(text):
    """What is printed under each line. `S` and `M` lines that the oracle does not have are left out."""
    out, at = {}, 0
    for line in text.split("\n"):
        if line.startswith("@"):
            at = int(line[1:].split()[0])
            out[at] = []
        elif line.strip() and not re.match(r"END \d+ lines", line):
            known = {"S": KEPT, "M": KEPT_BY_PROGRAM}.get(line.split()[0])
            if known is None or line.split()[1] in known:
                out.setdefault(at, []).append(printed(line))
    return out


def run(program, text):
    p = subprocess.run([program], input=text.encode(), stdout=subprocess.PIPE, stderr=subprocess.DEVNULL)
    return blocks(p.stdout.decode("ascii", "replace"))


def asked(items):
    """Runs the oracle on lines that stand for lines of another session: pairs of that line's number and a line.
    Answers what each printed, in a list for each number."""
    got = run(ORACLE, "\n".join(line for _, line in items) + "\n")
    out = {}
    for k, (n, _) in enumerate(items, 1):
        out.setdefault(n, []).append(got.get(k, []))
    return out


# The command line --------------------------------------------------------------------------------
def show(name, text, answers):
    """A session as the stored lists have it: under each line, behind a |, what is owed."""
    print("= " + name)
    for n, line in enumerate(text.rstrip("\n").split("\n"), 1):
        print(line)
        for x in answers.get(n, []):
            print("|" + x)


def trace(text, answers):
    """A session's answers as a program prints them."""
    out = []
    for n, w in calls(text):
        out += ["@%d %s" % (n, w[0])] * (w[0] != "print") + answers.get(n, [])
    return "\n".join(out + ["END %d lines" % len(out)]) + "\n"


def first_difference(text, want, got):
    lines = text.split("\n")
    for n in sorted(want):
        if want[n] != got.get(n, []):
            both = [want[n], got.get(n, [])]
            i = next(i for i in range(max(map(len, both))) if both[0][i:i + 1] != both[1][i:i + 1])
            return "line %d, %s: owed %s, printed %s" % (n, lines[n - 1], both[0][i:i + 1], both[1][i:i + 1])
    return None


def hold(program, sessions, owed):
    bad = count = answers = 0
    for name, text in sessions:
        want = owed(text, "")
        d = first_difference(text, want, run(os.path.abspath(program), text))
        count += 1
        answers += sum(map(len, want.values()))
        if d:
            bad += 1
            print("%s: %s" % (name, d))
            if bad >= 10:
                break
    print("%d sessions, %d answers, %d sessions differ" % (count, answers, bad))
    return bad


def stored(program, sessions, owed):
    """A list as crates/replay/data has them: PROGRAM's text, where it is what is owed. A session with another answer,
    or with one that is not owed, is left out and told on standard error."""
    left = 0
    for name, text in sessions:
        want, got = owed(text, ""), texts(program, text)
        wrong = [n for n in got if n and n not in want]
        wrong += [n for n, x in want.items() if x != blocks("@1\n" + "\n".join(got.get(n, [])))[1]]
        if wrong:
            left += 1
            print("%s: line %d is not owed" % (name, min(wrong)), file=sys.stderr)
        else:
            show(name, text, got)
    return left


def texts(program, text):
    """What a program prints under each line, as it stands."""
    p = subprocess.run([program], input=text.encode(), stdout=subprocess.PIPE, stderr=subprocess.DEVNULL)
    out, at = {}, 0
    for line in p.stdout.decode("ascii", "replace").split("\n"):
        if line.startswith("@"):
            at = int(line[1:].split()[0])
        elif line.strip() and not re.match(r"END \d+ lines", line):
            out.setdefault(at, []).append(line.rstrip())
    return out


def find_faults(sessions, owed, faults):
    """Which session shows each wrong version first."""
    left, shown, count = dict(faults), {}, 0
    for name, text in sessions:
        right = owed(text, "")
        count += 1
        for fault in list(left):
            d = first_difference(text, right, owed(text, fault))
            if d:
                shown[fault] = (name, d)
                del left[fault]
        if not left:
            break
    for fault, mistake in faults:
        where = "%s, %s" % shown[fault] if fault in shown else "SHOWN BY NOTHING"
        print("%s (%s): %s" % (fault, mistake, where[:200]))
    print("%d wrong versions, %d shown by %d sessions" % (len(faults), len(shown), count))
    return len(left)


def main(doc, session, owed, faults, fixed=lambda: [], told=None):
    """SEED COUNT; --hold PROGRAM SEED COUNT; --faults [SEED COUNT]; --list PROGRAM SEED COUNT; --answer [FAULT], which
    reads a session from standard input and answers it as a program does. Fixed sessions come behind those of seeds.
    Wrong versions are told by `told`, where that is another writing than `owed`."""
    a = sys.argv[1:]
    if not a or a[0] in ("-h", "--help"):
        sys.exit(doc)
    if a[0] == "--answer":
        text = sys.stdin.read()
        sys.stdout.write(trace(text, (told if told and a[1:] else owed)(text, "".join(a[1:]))))
        return
    first, count = [int(x) for x in a[-2:]] if len(a) > 1 and a[-1].isdigit() else (0, 200)
    seeds = (("seed %d" % s, session(s)) for s in range(first, first + count))
    if a[0] == "--faults":
        sys.exit(find_faults(itertools.chain(seeds, fixed()), told or owed, faults) > 0)
    if a[0] == "--list":
        sys.exit(stored(a[1], itertools.chain(seeds, fixed()), owed) > 0)
    if a[0] == "--hold":
        sys.exit(hold(a[1], itertools.chain(seeds, fixed()), owed) > 0)
    for name, text in seeds:
        show(name, text, owed(text, ""))
