#!/usr/bin/env python3
"""unchanged.py PROGRAM [FIRST LAST]

Refused calls leave engine and memories as before. Takes the sessions of rows/ and cases/, and gen.py's sessions FIRST..LAST-1 with refused
calls put in; puts `state` and `memory` before and after each call that owes a number (owed.py), once there is an engine; runs them through PROGRAM (target/bin/trace) and compares
the two texts around each refused call: all of the engine's state and lent numbers, and all of the installed program's. Prints for each row how many calls were refused
with its number, and a checksum over the texts; exit 1 where a number is not the one owed, or a text changes.
"""
import collections
import glob
import hashlib
import os
import subprocess
import sys

import compare
import gen
import owed

LOOK = ["state", "memory"]


def around(text):
    """The session with looks put in, and for each refused call: its line, its number, and whether it has looks around it."""
    out, calls, o = [], [], owed.Owed()
    for line in text.split("\n"):
        w = line.split()
        if w and w[0] == "print" and w[1] == "cases":
            out.append("#")                         # in this mode `state` prints nothing
            continue
        if not w or w[0].startswith("#"):
            out.append("#" if line.startswith("#=") else line)
            continue
        row = o.line(w)
        look = LOOK if row and o.engine is not None else []
        out += look + [line]
        if row:
            calls.append((len(out), row, bool(look)))
        out += look
    return "\n".join(out) + "\n", calls


def answers(text):
    """Line number to the lines printed under it."""
    out, at = {}, 0
    for line in text.split("\n"):
        if line.startswith("@"):
            at = int(line[1:].split()[0])
            out[at] = []
        elif line and not line.startswith("END "):
            out.setdefault(at, []).append(line)
    return out


def held(program, name, text, count, total):
    session, calls = around(text)
    p = subprocess.run([program], input=session.encode(), stdout=subprocess.PIPE, timeout=3600)
    got, bad = answers(p.stdout.decode("ascii", "replace")), 0
    if any(l.startswith("TOO LARGE") for lines in got.values() for l in lines):
        return 0
    for at, row, looked in calls:
        if got.get(at) != ["REFUSED %d" % row]:
            print("%s: line %d of the session with looks owes %d, printed %s" % (name, at, row, got.get(at)))
            bad += 1
        if looked:
            before, after = [got.get(at + i) for i in (-2, -1)], [got.get(at + i) for i in (1, 2)]
            if not before[0] or before != after:
                print("%s: line %d of the session with looks changed something" % (name, at))
                bad += 1
            total.update(repr(before).encode())
        count[row, looked] += 1
    return bad


def main():
    if len(sys.argv) not in (2, 4):
        sys.exit(__doc__)
    here = os.path.dirname(os.path.abspath(__file__))
    sessions = [(os.path.basename(n), t) for n, t in compare.row_sessions()]
    sessions += [(os.path.basename(n), open(n).read()) for n in sorted(glob.glob(os.path.join(here, "cases/*.txt")))]
    sessions += [("seed %d" % s, gen.session(s, mode="hash", refused=True)) for s in (range(*map(int, sys.argv[2:])) if len(sys.argv) == 4 else [])]
    count, total = collections.Counter(), hashlib.sha256()
    bad = sum(held(sys.argv[1], name, text, count, total) for name, text in sessions)
    for row in sorted({r for r, _ in count}):
        print("row %2d: %6d refused, %6d with state and memory before and after" % (row, count[row, False] + count[row, True], count[row, True]))
    print("%d sessions, %d wrong, checksum %s" % (len(sessions), bad, total.hexdigest()[:16]))
    sys.exit(1 if bad else 0)


if __name__ == "__main__":
    main()
