#!/usr/bin/env python3
"""stress.py FIRST LAST [OTHER_BINARY]

Runs gen.py's sessions FIRST..LAST-1 through target/release/oracle twice (the
second time through OTHER_BINARY, if given), and checks: exit code 0, no ERROR,
the same output both times, and PANIC exactly at `process` lines whose range ends
above frames.  Prints what the sessions covered.
"""
import collections
import os
import re
import subprocess
import sys
import time

import gen

HERE = os.path.dirname(os.path.abspath(__file__))
BIN = os.path.join(HERE, "target/release/oracle")


def run(binary, text):
    p = subprocess.run([binary], input=text.encode(), stdout=subprocess.PIPE, stderr=subprocess.PIPE, timeout=300)
    return p.returncode, p.stdout.decode(), p.stderr.decode()


def main():
    first, last = int(sys.argv[1]), int(sys.argv[2])
    other = sys.argv[3] if len(sys.argv) > 3 else BIN
    c = collections.Counter()
    bad = 0
    t0 = time.time()
    for seed in range(first, last):
        text = gen.session(seed)
        rc, out, err = run(BIN, text)
        rc2, out2, _ = run(other, text)
        lines = text.split("\n")
        frames = None
        cfg = 0
        want = set()
        for n, l in enumerate(lines, 1):
            w = l.split()
            if w[:1] == ["config"]:
                cfg = int(w[2])
            elif w[:1] == ["engine"]:
                frames = cfg
            elif w[:1] == ["process"]:
                c["process"] += 1
                c["process empty"] += int(w[1]) >= int(w[2])
                if int(w[2]) > frames:
                    want.add(n)
            elif w[:1] == ["note_on"]:
                c["note_on legato" if w[4] == "1" else "note_on"] += 1
        got = set()
        at = 0
        tick = None
        for l in out.split("\n"):
            if l.startswith("@"):
                at = int(l[1:].split()[0])
            elif l == "PANIC":
                got.add(at)
            elif l.startswith("ERROR"):
                c["ERROR"] += 1
            elif l.startswith("CHUNK"):
                w = l.split()
                c["chunk"] += 1
                c["chunk off-phase tick"] += w[5] == "1" and w[4] != "0"
                c["chunk no tick"] += w[5] == "0"
            elif l.startswith("SKIP"):
                c[l.split()[0] + " " + l.split()[2]] += 1
            elif l.startswith("SWAP"):
                c["swap refused" if "refused" in l else "swap"] += 1
            elif l.startswith("PLAN"):
                w = l.split()
                c["plan %s%s" % (w[5], w[7])] += 1
                c["plan base " + w[9].split(":")[0]] += 1
            elif l.startswith("ROUTE"):
                c["route"] += 1
                c["route plain-able"] += "simple 1" in l
                c["route fed source/aux"] += bool(re.search(r"(src|aux) fed", l))
                c["route fed gain"] += bool(re.search(r"(amt|out) fed", l))
                c["route slew"] += bool(re.search(r"slew \d", l))
                c["route random"] += " rnd:" in l
                c["route aux"] += not l.endswith("aux -")
            elif l.startswith("TO "):
                c["values"] += 1
                c["value rows with NaN"] += "7FC00000" in l
            elif l.startswith("A "):
                c["audio rows"] += 1
                c["audio rows with NaN"] += "7FC00000" in l
            elif l.startswith(("HC", "HA")):
                c["hash rows"] += 1
        # loops: a control plan reading one placed after it, or itself
        for block in out.split("PROGRAM ")[1:]:
            place = {}
            for m in re.finditer(r"^PLAN (\d+) dest (\d+)", block, re.M):
                place[m[2]] = int(m[1])
            loop = own = False
            for m in re.finditer(r"^ROUTE \d+ slot \d+ plan (\d+) .*$", block, re.M):
                for f in re.finditer(r"fed:(\d+):", m[0]):
                    loop |= place[f[1]] > int(m[1])
                    own |= place[f[1]] == int(m[1])
            feeds = collections.Counter(re.findall(r"base ((?:held|amt|out):\d+)", block))
            c["programs with an unread feeder"] += any(n > 1 for n in feeds.values())
            c["programs"] += 1
            c["programs with a loop"] += loop
            c["programs with a self-feed"] += own
        c["PANIC (documented)"] += len(got & want)
        if rc or rc2 or out != out2 or got != want or "ERROR" in out:
            bad += 1
            print("seed", seed, "rc", rc, rc2, "same", out == out2, "panics", sorted(got ^ want), err[:300])
            if bad > 5:
                break
        c["sessions"] += 1
        c["output bytes"] += len(out)
    for k in sorted(c):
        print("%-32s %d" % (k, c[k]))
    print("bad", bad, "seconds %.0f" % (time.time() - t0))
    sys.exit(bad > 0)


main()
