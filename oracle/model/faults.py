#!/usr/bin/env python3
"""faults.py [FIRST LAST]: which random sessions tell wrong copies of the order-free model from the oracle.

Each fault below is put into a copy of model.rs, in a temporary folder, and run on sessions FIRST..LAST-1
(0..399). For each: how many sessions show it in their outputs, the first such seed, and how many show
it in `state` and `memory` lines as well. Exit 1 if some fault shows nowhere.
"""
import concurrent.futures
import os
import subprocess
import sys
import tempfile

import agree
import gen

LOAD = '''let load = self.active.iter().filter(|a| **a).count() as f32 / self.limit as f32;
            for i in 0..self.src.len() { if self.src[i].kind == "load" { self.hg[i] = if load < 1.0 { load } else { 1.0 }; } }'''
FAULTS = [
    ("t08", "lookup at 1 answers entry 512", [
        ("let pos = cl(x", "if x >= 1.0 { return t[512]; } let pos = cl(x")]),
    ("t14", "a lower feeder that reads its own thing reads itself", [
        ("if a == d { t.e.p.cur", "if a == d || t.e.p.cf[&a] == t.e.p.cf[&d] { t.e.p.cur"),
        ("if a == d { p.cur", "if a == d || p.cf[&a] == p.cf[&d] { p.cur")]),
    ("t18", "slews of the newest's group read the newest's lane of the feeder", [
        ("self.input(r, q, m, fed)))", "self.input(r, q, m, &|a, l| fed(a, if r.rv && !e.p.dests[d].voice { e.newest.unwrap_or(l) } else { l }))))")]),
    ("t07", "a global read of a source that is per voice in the engine reads lanes", [
        ("Rd::Held(i, false) => e.hg[i],", "Rd::Held(i, false) => if e.src[i].voice { e.held[i][m] } else { e.hg[i] },")]),
    ("t25", "a per-voice read of a source that is global in the engine reads the global number", [
        ("Rd::Held(i, true) => e.held[i][m],", "Rd::Held(i, true) => if e.src[i].voice { e.held[i][m] } else { e.hg[i] },")]),
    ("t24", "a routeless block moves glides chunk by chunk", [
        ("{ self.glides(t - s); }", "{ let (mut k, mut ph) = (s, self.phase); while k < t { let n = (32 - ph).min(t - k); self.glides(n); k += n; ph = 0; } }")]),
    ("t16", "a routeless block sets the load", [
        ("{ self.glides(t - s); }", "{ " + LOAD + " self.glides(t - s); }")]),
]


def main():
    first, last = (int(x) for x in (sys.argv[1:] or ["0", "400"]))
    text = open(os.path.join(agree.HERE, "model.rs")).read()
    shown = {name: [[], []] for name, _, _ in FAULTS}
    with tempfile.TemporaryDirectory() as tmp:
        for name, _, edits in FAULTS:
            wrong = text
            for old, new in edits:
                assert old in wrong, (name, old)
                wrong = wrong.replace(old, new)
            path = os.path.join(tmp, name)
            with open(path + ".rs", "w") as f:
                f.write(wrong)
            subprocess.run(["rustc", "-O", "-A", "warnings", "-o", path, path + ".rs"], check=True)

        def one(seed):
            session = agree.plain(gen.session(seed))
            right = agree.lines([agree.ORACLE, "--quiet"], session)
            return seed, right, {name: agree.lines([os.path.join(tmp, name)], session) for name in shown}

        with concurrent.futures.ThreadPoolExecutor(os.cpu_count()) as pool:
            for seed, right, wrong in pool.map(one, range(first, last)):
                for name, got in wrong.items():
                    assert got[0][:1] != ["exit 101"], (name, seed)
                    for i in range(2):
                        if got[i] != right[i]:
                            shown[name][i].append(seed)
    for name, what, _ in FAULTS:
        out, private = shown[name]
        print("%s  outputs %3d (first seed %s)  state %3d (first seed %s)  %s"
              % (name, len(out), out[0] if out else "-", len(private), private[0] if private else "-", what))
    sys.exit(not all(a or b for a, b in shown.values()))


if __name__ == "__main__":
    main()
