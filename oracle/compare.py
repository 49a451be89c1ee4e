#!/usr/bin/env python3
"""compare.py PROGRAM FIRST LAST [options]
compare.py PROGRAM --file SESSION... [options]
compare.py PROGRAM --rows [options]

Runs gen.py's sessions FIRST..LAST-1 (or the named files, or all of rows/) through
target/release/oracle and through PROGRAM, which reads a session from standard input
and prints what the oracle prints, and compares line by line under each `@LINE`.

Where a call is refused PROGRAM prints `REFUSED n` with document 01's number and nothing
else. Which call owes which number is worked out from the session (owed.py); where a line
`#= REFUSED n` states it too, both must agree. Any other line `#= TEXT` has what PROGRAM prints
where the Rust panics. The oracle is given the session without these calls. So a `REFUSED` line is compared with what is owed and not with the Rust, and
everything printed afterwards is that of an engine that never saw the refused call.

The Rust's own buffer offsets (PLAN at, out; ROUTE curve, slew, fed and rnd offsets;
PROGRAM luts, slew, random), its clock, its count of gliding values and its note counters are
left out of the comparison, and so are `state` and `memory` lines, unless PROGRAM prints
them. One generated session in eight has a line that is not of the grammar, at which both must end with
the same line `ERROR line N: ..`. A session for which PROGRAM prints a line that begins `TOO LARGE` (its
memories have fixed sizes, and it says which) is compared up to that line, and counted apart. PROGRAM's last
line must be `END n lines`, n being the lines before it.

--clean            sessions without refused calls
--refused          sessions with refused calls of rows 6, 13 and 14 put in
--damaged          every generated session with bytes changed, words dropped, doubled, misspelt or moved, lines cut,
                   dropped or doubled; compared up to a call at which the Rust panics
--print full|hash  the print mode of generated sessions (hash)
--only WORD,WORD   compare what these commands print and nothing else
--keep DIR         keep the sessions that differ

Prints the first difference of each session and a count; exit 1 if any differ.
"""
import argparse
import os
import re
import subprocess
import sys
import time

import gen
import owed

HERE = os.path.dirname(os.path.abspath(__file__))
ORACLE = os.path.join(HERE, "target/release/oracle")


def canon(line):
    line = line.rstrip()
    if line.startswith("PROGRAM"):
        return re.sub(r" (luts|slew|random) \d+", "", line)
    if line.startswith("PLAN"):
        return re.sub(r" at \d+ out \d+$", "", line)
    if line.startswith("S clock"):
        return re.sub(r"clock \d+ | gliding \d+", "", line)
    if line.startswith("ROUTE"):
        line = re.sub(r"fed:(\d+):\d+:", r"fed:\1:", line)
        line = re.sub(r"curve \d+", "curve +", line)
        line = re.sub(r"slew \d+:([0-9A-F]{8}:[0-9A-F]{8})", r"slew \1", line)
        return re.sub(r"rnd:\d+", "rnd", line)
    return line


def stop_of(text):
    """How a session ended before its last line: ERROR or TOO LARGE, and the line's number; or None."""
    m = re.search(r"^(ERROR|TOO LARGE) line (\d+): ", text, re.M)
    return (m[1], int(m[2])) if m else None


def fault_of(text):
    """The line by which a session ended, where it is not of the format or names what is not there; or None."""
    m = re.search(r"^ERROR line .*$", text, re.M)
    return m and m[0]


def is_whole(text):
    """Whether the last line says how many lines stand before it."""
    lines = text.split("\n")
    return lines[-1] == "" and lines[-2:-1] == ["END %d lines" % (len(lines) - 2)]


def blocks(text):
    text = re.sub(r"^(?:END \d+ lines|(?:ERROR|TOO LARGE) line .*)$", "", text, flags=re.M)
    out, at = {}, 0
    for line in text.split("\n"):
        if line.startswith("@"):
            at = int(line[1:].split()[0])
            out[at] = []
        elif line.strip() and not line.startswith("S order"):
            out.setdefault(at, []).append(canon(line))
    return out


def without(text, refused):
    """The session with the refused calls made comments."""
    return "\n".join("# " + l if n in refused else l for n, l in enumerate(text.split("\n"), 1))


def run(binary, text, seconds=3600):
    data = text.encode("utf-8", "surrogateescape")
    p = subprocess.run([binary], input=data, stdout=subprocess.PIPE, stderr=subprocess.DEVNULL, timeout=seconds)
    return p.returncode, p.stdout.decode("ascii", "replace")


def difference(text, refused, want, got, only=None, past_panics=False):
    """The first line at which PROGRAM's output is not what is owed: number, line, what is owed, what it printed.
    With past_panics nothing is compared from the first call on at which the Rust panics."""
    a, b, said, other = blocks(want), blocks(got), owed.stated(text), owed.answers(text)
    ends, stop = stop_of(want), stop_of(got)
    if not is_whole(got):
        return len(text.split("\n")), "", ["END"], got.split("\n")[-2:]
    for n, line in enumerate(text.split("\n"), 1):
        if stop and stop[0] == "TOO LARGE" and n >= stop[1]:
            return None
        if (n,) in (ends and ends[1:], stop and stop[1:]):
            return None if fault_of(want) == fault_of(got) else (n, line, [fault_of(want)], [fault_of(got) or stop])
        if n not in refused and a.get(n, [])[-1:] == ["PANIC"] and n not in other and past_panics:
            return None
        w = line.split()
        if not w or w[0].startswith("#"):
            continue
        row = refused.get(n)
        if n in said and said[n] != row:
            return n, line, ["stated REFUSED %d" % said[n]], ["worked out %s" % row]
        x, y = ["REFUSED %d" % row] if row else [other[n]] if n in other else a.get(n, []), b.get(n, [])
        if (only and w[0] not in only) or (w[0] in ("state", "memory") and not y):
            continue
        if x != y:
            i = next((i for i in range(max(len(x), len(y))) if x[i:i + 1] != y[i:i + 1]), 0)
            return n, line, x[i:i + 1], y[i:i + 1]
    return None


def row_sessions():
    """rows/*.txt, and what rows/*.py print."""
    for name in sorted(os.listdir(os.path.join(HERE, "rows"))):
        path = os.path.join(HERE, "rows", name)
        if name.endswith(".txt"):
            yield name, open(path).read()
        elif name.endswith(".py"):
            yield name, subprocess.run([sys.executable, path], stdout=subprocess.PIPE, check=True).stdout.decode()


def main():
    a = argparse.ArgumentParser(usage=__doc__)
    a.add_argument("program")
    a.add_argument("range", nargs="*", type=int)
    a.add_argument("--file", nargs="+", default=[])
    a.add_argument("--rows", action="store_true")
    a.add_argument("--clean", action="store_true")
    a.add_argument("--refused", action="store_true")
    a.add_argument("--damaged", action="store_true")
    a.add_argument("--print", dest="mode", default="hash")
    a.add_argument("--only")
    a.add_argument("--keep")
    o = a.parse_args()
    program = os.path.abspath(o.program)
    sessions = [(f, open(f).read()) for f in o.file] + (list(row_sessions()) if o.rows else [])
    sessions += [(str(s), None) for s in range(*o.range or [0])]
    count = bad = large = 0
    t0 = time.time()
    for name, text in sessions:
        seeded = text is None
        text = text or (gen.damaged if o.damaged else gen.broken)(gen.session(int(name), o.clean, o.mode, o.refused), int(name))
        rc2, got = run(program, text, 60 if o.damaged else 3600)
        stop = stop_of(got)
        refused = owed.owed(text, stop and stop[1])
        body = "\n".join(text.split("\n")[:stop[1] - 1]) if stop and stop[0] == "TOO LARGE" else text
        rc, want = run(ORACLE, without(body, refused))
        count += 1
        large += bool(stop) and stop[0] == "TOO LARGE"
        d = difference(text, refused, want, got, o.only and o.only.split(","), o.damaged)
        if rc != (2 if stop_of(want) else 0) or rc2 or d:
            bad += 1
            print("%s: exit %d and %d, first difference %s" % (name, rc, rc2, d))
            if o.keep and seeded:
                with open(os.path.join(o.keep, name + ".txt"), "w", errors="surrogateescape") as f:
                    f.write(text)
            if bad >= 10:
                break
    print("%d sessions, %d differ, %d too large, %.0f s" % (count, bad, large, time.time() - t0))
    sys.exit(bad > 0)


if __name__ == "__main__":
    main()
