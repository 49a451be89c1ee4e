#!/usr/bin/env python3
"""c16_same.py OLD NEW SEED COUNT

C-16, no scratch lanes in the curve step: callers must not be able to tell. Runs two programs that answer sessions, the
one before the change and the one after it, and compares what they print byte by byte, with `canon 0`, so that signs of
zeros and bits of NaN count.

Sessions: for each seed one of c14_cells.py (cells of lookups, notes and slots, inputs at the edges of cells, samples
that are not finite), printed in full, and one of gen.py, printed in full where it is small. OLD and NEW must both take
C-14's lines, since C-16 lands behind it.
"""
import subprocess
import sys

import c14_cells
import gen


def sessions(first, count):
    for seed in range(first, first + count):
        text = c14_cells.session(seed).replace("canon 1", "canon 0", 1).replace("print none", "print full")
        yield "cells %d" % seed, text
        mode = "full" if len(gen.session(seed)) < 20000 else "hash"
        yield "gen %d" % seed, gen.session(seed, mode=mode).replace("canon 1", "canon 0", 1)


def said(program, text):
    return subprocess.run([program], input=text.encode(), stdout=subprocess.PIPE, stderr=subprocess.DEVNULL).stdout


def main():
    if len(sys.argv) != 5:
        sys.exit(__doc__)
    old, new, first, count = sys.argv[1], sys.argv[2], int(sys.argv[3]), int(sys.argv[4])
    bad = done = size = 0
    for name, text in sessions(first, count):
        a, b = said(old, text), said(new, text)
        done, size, bad = done + 1, size + len(a), bad + (a != b)
        if a != b:
            lines = [x.decode("ascii", "replace").split("\n") for x in (a, b)]
            i = next((i for i, (x, y) in enumerate(zip(*lines)) if x != y), min(map(len, lines)) - 1)
            print("%s, printed line %d: %s | %s" % (name, i + 1, lines[0][i][:120], lines[1][i][:120]))
    print("%d sessions, %d bytes, %d differ" % (done, size, bad))
    sys.exit(bad > 0)


if __name__ == "__main__":
    main()
