#!/usr/bin/env python3
"""agree.py FIRST LAST [MODEL]: holds the order-free model to the oracle on cases/*.txt and on random sessions FIRST..LAST-1.

Compared are outputs, `state` and `memory`. Left out: the clock (its phase stays), the count of gliding
values and the note counters, which the model does not have. Prints the sessions that differ and a count.
"""
import concurrent.futures
import glob
import os
import re
import subprocess
import sys

HERE = os.path.dirname(os.path.abspath(__file__))
TOP = os.path.dirname(HERE)
sys.path.insert(0, TOP)
import gen

ORACLE = os.path.join(TOP, "target/release/oracle")
MODEL = os.path.join(TOP, "target/model")
OUTPUT = re.compile(r"(CHUNK|FROM|TO|A|UNMOD|PANIC)\b")
PRIVATE = re.compile(r"[SM] (?!order)")
LEFT_OUT = ("print", "canon", "latest", "ramp", "set_rng")


def lines(command, text):
    """What is compared of a run: its outputs, and its private state."""
    p = subprocess.run(command, input=text.encode(), stdout=subprocess.PIPE, stderr=subprocess.DEVNULL)
    if p.returncode:
        return ["exit %d" % p.returncode], []
    out = [l.rstrip() for l in p.stdout.decode().split("\n")]
    return [l for l in out if OUTPUT.match(l)], [re.sub(r"clock \d+ | gliding \d+", "", l) for l in out if PRIVATE.match(l)]


def plain(text):
    """The session without what the model does not know, printed in full."""
    return "canon 1\n" + "\n".join(l for l in text.split("\n") if not l.startswith(LEFT_OUT)) + "\n"


def both(text, model=MODEL):
    text = plain(text)
    return lines([ORACLE, "--quiet"], text), lines([model], text)


def fixed():
    return [(os.path.basename(f), open(f).read()) for f in sorted(glob.glob(os.path.join(TOP, "cases", "[0-9dt]*.txt")))]


def main():
    model = os.path.abspath(sys.argv[3]) if len(sys.argv) > 3 else MODEL
    sessions = fixed() + [("seed %d" % s, s) for s in range(int(sys.argv[1]), int(sys.argv[2]))]
    bad = rows = 0
    with concurrent.futures.ThreadPoolExecutor(os.cpu_count()) as pool:
        results = pool.map(lambda s: both(s[1] if isinstance(s[1], str) else gen.session(s[1]), model), sessions)
        for (name, _), (a, b) in zip(sessions, results):
            rows += len(a[0]) + len(a[1])
            if a != b:
                bad += 1
                print("differs:", name)
    print("model and oracle: %d sessions, %d lines, %d differ" % (len(sessions), rows, bad))
    sys.exit(bad > 0)


if __name__ == "__main__":
    main()
