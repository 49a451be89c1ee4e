#!/usr/bin/env python3
"""check_rows.py [N]: checks the sessions in rows/, the numbers that owed.py works out, and compare.py.

1. Each number stated in rows/ is the one worked out, and no call without a number owes one.
2. What the Rust answers agrees with the numbers worked out, where it has an answer (rows 1, 5, 7, 9 to 12), in rows/ and in N
   random sessions (100); and making the calls of rows 1 to 5, 7 and 9 to 11 leaves the Rust as not making them. Where a
   line `#= TEXT` has another answer than a number, the Rust panics.
3. compare.py passes a faithful stand-in of the port (fake.py), and finds one that answers another number, accepts
   a refused call, or answers the number and makes the call all the same: each in turn, at every refused line of rows/.
   A call that was made must be found wherever it changes what the session goes on with, by outputs alone too.
Prints counts and what is amiss; exit 1 if anything is.
"""
import collections
import os
import subprocess
import sys

import compare
import fake
import gen
import owed

RUST = {"SLOT none": 5, "SWAP refused": 7, "SOURCE duplicate": 9, "SOURCE full": 12, "DEST duplicate": 9, "DEST bounds": 10,
        "DEST slot": 11, "DEST full": 12, "PANIC": 1}
# The Rust answers these where the port refuses: a voice that is not there.
QUERIES = ("is_active", "latest", "ramp")
# Calls that change nothing, or that the session makes again later.
SILENT = ("out", "find", "compile", "engine", "latest_all") + QUERIES
bad = 0


def silent(w):
    """Whether making the call shows nothing in the Rust's outputs: also an empty range, a signal that nobody reads, and more
    frames (which a port shows by accepting a longer range)."""
    return w[0] in SILENT or (w[0] == "process" and int(w[1]) >= int(w[2])) or (w[0] == "bind" and int(w[1]) >= 127) or w[:3] == ["config", "42800000", "4097"]


def fail(*words):
    global bad
    bad += 1
    print("WRONG", *words)


def call(text, n):
    return text.split("\n")[n - 1]


def rust_answers(name, text):
    """Holds the Rust's own refusals to the numbers worked out; answers how many were held."""
    codes, other = owed.owed(text), owed.answers(text)
    body = "\n".join("#" if l.startswith("#=") else l for l in text.split("\n"))
    # Calls for which the Rust has no answer are left out, and destinations above 1,024.
    none = {n for n, c in codes.items() if c in (6, 8, 13, 14, 15) or (c == 12 and call(text, n).startswith("dest"))}
    out = compare.blocks(compare.run(compare.ORACLE, compare.without(body, none))[1])
    left = compare.blocks(compare.run(compare.ORACLE, compare.without(body, set(codes) | set(other)))[1])
    held = 0
    for n, printed in out.items():
        owes = codes.get(n)
        if n in other:
            if printed != ["PANIC"]:
                fail(name, n, call(text, n), "the Rust", printed[:1], "not PANIC")
            continue
        # Asked for a voice that is not there, the Rust answers something, or panics.
        said = [] if owes == 2 and call(text, n).startswith(QUERIES) else [RUST[l] for l in printed if l in RUST]
        # At standard sources that do not fit, or a key that comes twice, it panics.
        said = [owes] if said and call(text, n).startswith("standard") else said
        if said != ([owes] if owes and (owes in (1, 7, 9, 10, 11, 12) or (owes == 5 and call(text, n).startswith("slot"))) else []):
            fail(name, n, call(text, n), "the Rust", printed[:1], "owed", owes)
        held += len(said)
        if n not in codes and printed != left.get(n):
            fail(name, n, call(text, n), "a refused call above left a trace in the Rust")
    return held


def fakes(name, text):
    codes = owed.owed(text)
    rc, want = compare.run(compare.ORACLE, compare.without(text, codes))
    found = collections.Counter()
    if rc or compare.difference(text, codes, want, fake.answer(text)):
        fail(name, "the faithful stand-in differs", compare.difference(text, codes, want, fake.answer(text)))
    for n, code in codes.items():
        for fault in ("code", "accept", "leak", "quiet"):
            d = compare.difference(text, codes, want, fake.answer(text, fault, n))
            found[fault] += d is not None
            if d is None and fault in ("code", "accept"):
                fail(name, n, call(text, n), fault, "passed")
            elif d is None and code in (6, 8, 13, 14, 15) and not silent(call(text, n).split()):
                fail(name, n, call(text, n), fault, "passed")
    for n in owed.answers(text):
        found["panic"] += 1
        if compare.difference(text, codes, want, fake.answer(text, "accept", n)) is None:
            fail(name, n, call(text, n), "the Rust's panic passed")
    return found


def main():
    sessions = list(compare.row_sessions())
    total, held, found = 0, 0, collections.Counter()
    for name, text in sessions:
        a, b = owed.owed(text), owed.stated(text)
        total += len(b)
        for n in sorted(set(a) | set(b)):
            if a.get(n) != b.get(n):
                fail(name, n, call(text, n), "stated", b.get(n), "worked out", a.get(n))
        held += rust_answers(name, text)
        if name.endswith(".txt"):
            found += fakes(name, text)
    n = int(sys.argv[1]) if len(sys.argv) > 1 else 100
    numbers = collections.Counter()
    for seed in range(n):
        text = gen.session(seed)
        numbers += collections.Counter(owed.owed(text).values())
        held += rust_answers("seed %d" % seed, text)
    print("rows: %d sessions with %d refused calls; the Rust's own answers: %d; in %d random sessions refused: %s"
          % (len(sessions), total, held, n, " ".join("%d:%d" % x for x in sorted(numbers.items()))))
    print("compare.py found at refused lines: another number %(code)d, accepted %(accept)d, made %(leak)d, made and seen in outputs %(quiet)d; a panic for an answer %(panic)d" % found)
    # The command line too: the faithful stand-in passes, a wrong one does not.
    program = os.path.join(compare.HERE, "fake.py")
    path = os.path.join(compare.HERE, "rows", "06-not-finite.txt")
    lines = open(path).read().split("\n")
    at = lines.index("set_held 0 7FC00000") + 1
    for env, want in [("", 0), ("code %d" % at, 1), ("accept %d" % at, 1), ("leak %d" % at, 1)]:
        p = subprocess.run([sys.executable, os.path.join(compare.HERE, "compare.py"), program, "--file", path],
                           env={**os.environ, "FAKE": env}, stdout=subprocess.PIPE)
        if p.returncode != want:
            fail("compare.py", repr(env), p.stdout.decode())
    sys.exit(bad > 0)


main()
