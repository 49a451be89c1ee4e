#!/usr/bin/env python3
"""small.py SEED

Prints a random session that is small enough for the checker: one or two voices, few frames, few sources, destinations and slots, with feeds, curves, slews,
aux inputs, notes, swaps inside a control period, signals and gains at the edges of binary32.
"""
import random
import struct
import sys

EDGE = ["00000001", "00800000", "7F7FFFFF", "FF7FFFFF", "80000000", "00000000", "33800000", "5F000000"]


def bits(x):
    return "%08X" % struct.unpack("<I", struct.pack("<f", x))[0]


def session(seed):
    r = random.Random(seed)
    out = []
    voices = r.choice([1, 1, 2, 2, 3, 17])
    frames = r.choice([33, 40, 64]) if voices < 17 else 33
    audio = r.random() < 0.4
    if audio:
        frames = r.choice([3, 5, 34])
    out.append("config %s %d %d" % (r.choice(["42800000", "473B8000", "42C80000"]), frames, voices))
    kinds = ["signal", "audio", "held", "held", "velocity", "key", "release", "random", "alt", "altinv", "routerandom", "load", "constant"]
    ns, nd = r.randint(1, 5), r.randint(1, 4)
    src = []
    for i in range(ns):
        k = r.choice(kinds)
        sc = r.choice("vg")
        src.append((k, sc))
        out.append("source s%d %s %s %s" % (i, k, sc, r.choice("uub")))
    nslots = r.randint(1, 5)
    for d in range(nd):
        lo, hi = r.choice([("00000000", "3F800000"), ("BF800000", "3F800000"), ("FF800000", "7F800000"), ("BF000000", "7F800000")])
        feed = r.choice(["-", "-", "src:%d" % r.randrange(ns), "amt:%d" % r.randrange(nslots), "out:%d" % r.randrange(nslots)])
        rate = r.choice(["control", "adaptive", "audio"]) if audio else "control"
        out.append("dest p:%d %s %s %s %s %s" % (d, r.choice("vg"), rate, lo, hi, feed))
    tables = r.random() < 0.6
    if tables:
        out += ["table a lin", "table b rev", "table c step 256 3DCCCCCD 41800000"]

    def num():
        return r.choice(EDGE) if r.random() < 0.12 else bits(r.uniform(-1.2, 1.2))

    def slots():
        for n in range(nslots):
            f = ["slot %d" % n, "src=%d" % r.randrange(ns), "dst=p:%d" % r.randrange(nd), "amt=%s" % num()]
            if r.random() < 0.3:
                f.append("out=%s" % num())
            if r.random() < 0.4:
                f.append("pol=b")
            if r.random() < 0.35:
                f += ["aux=%d" % r.randrange(ns), "inv=%d" % r.randrange(2)]
            for c in ("sc", "ac"):
                if tables and r.random() < 0.5:
                    f.append("%s=%s:%s:%s" % (c, r.choice("abc"), r.choice(["00000000", "3C23D70A", "3F800000", "BF800000"]),
                                              r.choice(["00000000", "3C23D70A", "3F800000"])))
            out.append(" ".join(f))
        out.append("note diag diag %d %d" % (r.randrange(2), r.randrange(2)))

    slots()
    out.append("compile P")
    two = r.random() < 0.4
    if two:
        slots()
        out.append("compile Q")
    out.append("engine")
    out.append("swap P")
    at = "P"
    blocks = 0
    for _ in range(r.randint(5, 14)):
        w = r.random()
        if w < 0.3:
            a = r.randrange(frames)
            b = min(frames, a + r.choice([1, 2, 5, 27, 32, 33]) if not audio else a + r.choice([1, 2, 3]))
            out.append("process %d %d" % (a, b))
            blocks += 1
        elif w < 0.45:
            out.append("note_on %d %s %s %d %s" % (r.randrange(voices), bits(r.choice([0.0, 60.0, 127.0, 300.0])), bits(r.random()), r.randrange(2), r.choice(["00000000", "3F000000", "3C23D70A"])))
        elif w < 0.52:
            out.append("voice_ended %d" % r.randrange(voices))
        elif w < 0.57:
            out.append("note_off %d %s" % (r.randrange(voices), bits(r.random())))
        elif w < 0.67:
            out.append("set_held %d %s" % (r.randrange(ns), num()))
        elif w < 0.72:
            out.append("set_voice_held %d %d %s" % (r.randrange(ns), r.randrange(16), num()))
        elif w < 0.78:
            out.append("set_base %d %s" % (r.randrange(nd), num()))
        elif w < 0.83:
            out.append("set_amount %d %s" % (r.randrange(nslots), num()))
        elif w < 0.86:
            out.append("set_output %d %s" % (r.randrange(nslots), num()))
        elif w < 0.88:
            out.append("set_voice_limit %d" % r.randrange(4))
        elif w < 0.95:
            stride = r.choice([0, 1, 2, 16, 17])
            n = r.choice([0, 1, 3, 20, frames * max(stride, 1)])
            n = min(n, 80)
            data = [r.choice(["7FC00000", "7F800000", "FF800000"]) if r.random() < 0.05 else bits(r.uniform(-1, 1)) for _ in range(n)]
            if data:
                out.append("bind %d %d hex %s" % (r.randrange(ns), stride, " ".join(data)))
        elif two:
            at = "Q" if at == "P" else "P"
            out.append("swap %s" % at)
    if not blocks:
        out.append("process 0 %d" % min(frames, 3))
    return "\n".join(out) + "\n"


if __name__ == "__main__":
    sys.stdout.write(session(int(sys.argv[1])))
