#!/usr/bin/env python3
"""Runs cases/*.txt and checks document 01's hand-checked numbers. Exit 1 if one is not met."""
import os
import re
import subprocess
import sys

HERE = os.path.dirname(os.path.abspath(__file__))


def run(name):
    with open(os.path.join(HERE, "cases", name + ".txt"), "rb") as f:
        p = subprocess.run([os.path.join(HERE, "target/release/oracle")], stdin=f, stdout=subprocess.PIPE,
                           stderr=subprocess.DEVNULL)
    return p.stdout.decode()


def order(out):
    return re.findall(r"^PLAN \d+ dest (\d+)", out, re.M)


def lanes(out, head, lane=0):
    return [l.split()[len(head.split()) + lane] for l in out.split("\n") if l.startswith(head + " ")]


def to(out, dest, lane=0):
    return [l.split()[4 + lane] for l in out.split("\n") if l.startswith("TO %d " % dest)]


bad = 0


def say(case, got, want):
    global bad
    bad += got != want
    print("case %-14s %s" % (case, "agrees" if got == want else "DISAGREES %s" % (got,)))


say("1", order(run("01-order")), ["1", "2", "0"])
say("2", order(run("02-cycle")), ["2", "0", "1"])
say("3", re.findall(r"CONFIG stride (\d+)", run("03-stride")), ["16", "16", "32"])
say("4", re.findall(r"CHUNK \d (\d+) (\d+)", run("04-chunks").split("@10")[1]), [("0", "27"), ("27", "32"), ("59", "5")])
say("5", run("05-constant"), "D 0 0 32 0 1 3F400000 3F400000\nD 0 32 32 0 1 3F400000 3F400000\n")
say("6", lanes(run("06-lookup"), "S notevalue 0"), ["00000000", "3F000000", "3F800000"])
say("7", to(run("07-slew"), 0), ["3F000000", "3F800000", "00000000"])
o = run("08-glide")
say("8", (lanes(o, "S notevalue 1"), lanes(o, "S step 1"), re.findall(r"gliding (\d+)", o)),
    (["00000000", "3F000000", "3F800000"], ["3C800000", "3C800000", "00000000"], ["2", "2", "0"]))
say("9", to(run("09-bipolar"), 0), ["00000001", "BE99999A"])
say("10", run("10-note"), "D 0 0 27 5 1 3F400000 3F400000\n")
say("10 without", run("10-without"), "D 0 0 27 5 0 00000000 00000000\n")
o = run("11-clamp")
say("11", (re.findall(r"S amounts (\w+) (\w+)", o), to(o, 0)[0]), ([("3F800000", "BF800000")], "40200000"))
say("12", int(re.search(r"rng (\w+)", run("12-draw"))[1], 16), 33554433)
say("13 (C-12)", run("13-c12").split("\n")[0::2][:2], ["D 0 0 32 0 1 3F800000 3F800000", "D 1 0 32 0 1 3F400000 3F400000"])
sys.exit(bad > 0)
