#!/usr/bin/env python3
"""held.py [FILE]: holds the list of draws (crates/replay_leaves/data/draw.txt, or FILE) to the Rust.

For each line the oracle's draw state is set to STATE and a note is sounded with one Random source; the state
and the number drawn afterwards must be NEXT and DRAW. Needs target/release/oracle. Exit 1 where a line differs.
"""
import os
import re
import subprocess
import sys

HERE = os.path.dirname(os.path.abspath(__file__))
path = sys.argv[1] if len(sys.argv) > 1 else os.path.join(HERE, "../../crates/replay_leaves/data/draw.txt")
lines = [line.split() for line in open(path)]
session = ["config 42800000 32 1", "source r random v u", "engine"]
for state, _, _, _, _ in lines:
    session += ["set_rng " + state, "note_on 0 42700000 3F800000 0 00000000", "state"]
out = subprocess.run([os.path.join(HERE, "../target/release/oracle")], input="\n".join(session) + "\n",
                     capture_output=True, text=True).stdout
states = re.findall(r"^S clock.* rng (\w+)", out, re.M)
drawn = re.findall(r"^S held 0 (\w+)", out, re.M)
if len(states) != len(lines) or len(drawn) != len(lines):
    print("draws: the oracle answered %d states and %d draws for %d lines" % (len(states), len(drawn), len(lines)))
    sys.exit(1)
differ = sum(int(s, 16) != int(w[1], 16) or d != w[4] for w, s, d in zip(lines, states, drawn))
print("draws: %d lines, %d differ" % (len(lines), differ))
sys.exit(differ > 0)
