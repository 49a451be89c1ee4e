#!/usr/bin/env python3
"""decimals.py N PROGRAM..

Holds how each PROGRAM (target/bin/trace, target/release/oracle) reads decimals to docs/SESSIONS.md (How a line reads), worked
out here with exact fractions: N sessions that set 500 bases to random decimals and 500 to what
tools/in_decimals shows of random bits, and print their bits; of those shown, no decimal with a digit less may have the bits;
words that are no decimals, or lie outside what is read, each of which must end its session. Prints counts; exit 1 where
anything differs.
"""
import importlib.machinery
import importlib.util
import os
import random
import re
import sys
from fractions import Fraction

import compare
import owed

TOOL = os.path.join(os.path.dirname(os.path.dirname(os.path.abspath(__file__))), "tools", "in_decimals")

BASES = 500
WORD = re.compile(r"[+-]?(?:(\d+)(?:\.(\d*))?|\.(\d+))(?:[eE]([+-]?\d+))?")


def is_read(word):
    """Whether a word is a decimal that is read."""
    m = WORD.fullmatch(word)
    if not m or not (re.search("[.eE]", word)):
        return False
    digits = (m[1] or "") + (m[2] or "") + (m[3] or "")
    power = int(m[4] or 0)
    value, last = int(digits), power - len(m[2] or m[3] or "")
    if value >= 10 ** 18 or abs(power) >= 1000:
        return False
    return value == 0 or (-17 <= last < 0) or (last >= 0 and value * 10 ** last < 2 ** 64)


def digits(r, n):
    return "".join(r.choice("0123456789") for _ in range(n))


def near_tie(r):
    """A decimal at or beside the middle of two binary32 numbers."""
    bits = r.choice([r.randrange(0x3F000000, 0x5F000000), r.randrange(0x33000000, 0x3F800000)])
    middle = (Fraction(owed.of_bits(bits)) + Fraction(owed.of_bits(bits + 1))) / 2
    places = r.choice([9, 12, 15, 17])
    return "%s.%0*d" % (int(middle), places, (middle - int(middle)) * 10 ** places + r.choice([-1, 0, 0, 1]))


def decimal(r):
    how = r.randrange(6)
    sign = r.choice(["", "", "-", "+"])
    if how == 0:
        word = near_tie(r)
    elif how == 1:
        word = "%d.%s" % (r.randrange(10 ** r.randrange(1, 10)), digits(r, r.randrange(0, 10)))
    elif how == 2:
        word = ".%s" % digits(r, r.randrange(1, 18))
    elif how == 3:
        word = "%de%d" % (r.randrange(10 ** r.randrange(1, 18)), r.randrange(-17, 12))
    elif how == 4:
        word = "%d.%sE%s%d" % (r.randrange(100), digits(r, r.randrange(0, 6)), r.choice(["", "+", "-"]), r.randrange(12))
    else:
        word = "0" * r.randrange(4) + "%s.%s" % (digits(r, r.randrange(0, 4)), digits(r, r.randrange(1, 14)))
    return sign + word


def good(r):
    while True:
        word = decimal(r)
        if is_read(word) and not re.fullmatch("[0-9A-Fa-f]{8}", word):
            return word


def session(words):
    head = ["config 48000.0 64 1"] + ["dest p:%d g control 0.0 1.0 -" % i for i in range(len(words))] + ["engine"]
    return "\n".join(head + ["set_base %d %s" % x for x in enumerate(words)] + ["state"]) + "\n"


def bases(text):
    found = re.search("^S base (.*)$", text, re.M)
    return found[1].split() if found else []


def wrong_words(r):
    """Words that are no number of a session."""
    yield from ("1", "-1", "12345678901", ".", "-", "+", "e5", ".e5", "1e", "1e+", "1.5e", "1.5e-", "1..5", "1.5.5", "1e5e5", "--1.0", "+-1.0",
                "1,5", "0x1.0", "nan", "inf", "-inf", "infinity", "NaN", "1.0f", "1_0.0", "1e5.0", "1000000000000000000.0",
                "0.000000000000000001", "1e20", "18446744073709551616.0", "18446744073709551616e0", "1e1000", "0e1000", "1e-18", "١.٠")
    for _ in range(200):
        word = decimal(r)
        k = r.randrange(len(word))
        bad = word[:k] + r.choice("xX+-.eE,0") + word[k + r.randrange(2):]
        if bad and not is_read(bad) and not re.fullmatch("[0-9A-Fa-f]{8}", bad):
            yield bad


def tool():
    """tools/in_decimals as a module."""
    loader = importlib.machinery.SourceFileLoader("in_decimals", TOOL)
    module = importlib.util.module_from_spec(importlib.util.spec_from_loader("in_decimals", loader))
    loader.exec_module(module)
    return module


def finite_bits(r):
    """The bits of a finite binary32: any, one beside a power of two, one that a few decimal digits say, one of a size
    that presets have."""
    how = r.randrange(4)
    if how == 0:
        bits = r.randrange(0x7F800000)
    elif how == 1:
        bits = max(0, (r.randrange(256) << 23) + r.randrange(-2, 3))
    elif how == 2:
        bits = owed.bits_of("%d.%se%d" % (r.randrange(10), digits(r, 3), r.randrange(-9, 9)))
    else:
        bits = r.randrange(0x38000000, 0x48000000)
    return min(bits, 0x7F7FFFFF) | r.choice([0, 0, 0x80000000])


def around(n, power):
    """The bits that three decimals around n round to, whose last digit counts 10 ^ power."""
    unit = Fraction(10) ** power
    return [owed.nearest(k * unit) for k in range(max(0, round(n / unit) - 1), round(n / unit) + 2)]


def is_shown(word, said):
    """Whether what is shown of a finite number is a decimal of its bits that is read, and none with a digit less is; or
    the number has no such decimal, and stays as it was."""
    bits = int(word, 16) & 0x7FFFFFFF
    n = Fraction(owed.of_bits(bits))
    if said == word:
        return n > 2 ** 64 or bits not in around(n, -17)
    if not is_read(said) or owed.bits_of(said) != int(word, 16) or re.fullmatch("[0-9A-Fa-f]{8}", said):
        return False
    mantissa, _, power = said.lower().lstrip("-").partition("e")
    whole, _, part = mantissa.partition(".")
    last = int(power or 0) - len(part.rstrip("0")) + (len(whole) - len(whole.rstrip("0")) if not part.strip("0") else 0)
    return bits == 0 or bits not in around(n, last + 1)


def main():
    if len(sys.argv) < 3 or not sys.argv[1].isdigit():
        sys.exit(__doc__)
    programs = [os.path.abspath(p) for p in sys.argv[2:]]
    r, bad, read, ended, shown = random.Random(2019), 0, 0, 0, tool().shown
    for _ in range(int(sys.argv[1])):
        words = [good(r) for _ in range(BASES)]
        want = ["%08X" % owed.bits_of(w) for w in words]
        bits = ["%08X" % finite_bits(r) for _ in range(BASES)]
        said = [shown(w) for w in bits]
        for w, x in zip(bits, said):
            if not is_shown(w, x):
                bad += 1
                print("%s is shown as %s" % (w, x))
        words, want = words + said, want + bits
        for program in programs:
            got = bases(compare.run(program, session(words))[1])
            for w, x, y in zip(words, want, got + ["nothing"] * len(words)):
                if x != y:
                    bad += 1
                    print("%s: %s is %s, not %s" % (program, w, x, y))
            read += len(words)
    for word in wrong_words(r):
        for program in programs:
            out = compare.run(program, "config %s 64 1\nclear\n" % word)[1]
            ended += 1
            if compare.stop_of(out) != ("ERROR", 1):
                bad += 1
                print("%s: %s is taken for a number" % (program, word))
    print("decimals: %d read, %d words that are no number, %d wrong" % (read, ended, bad))
    sys.exit(bad > 0)


if __name__ == "__main__":
    main()
