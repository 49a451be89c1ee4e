#!/usr/bin/env python3
"""A stand-in for the port, to test compare.py: the oracle, answering `REFUSED n` where a line `#= REFUSED n` says so, and the
text of any other line `#= TEXT`.

FAKE in the environment makes it wrong at one line: `code LINE` answers another number, `accept LINE` makes the call
and prints its result, `leak LINE` answers the number although the call was made. `quiet LINE` is `leak`, without
`state` and `memory`. Calls without a `#=` line are answered by the number that owed.py works out.
"""
import os
import sys

import compare
import owed


def answer(text, fault="", line=0):
    codes, other = {**owed.owed(text), **owed.stated(text)}, owed.answers(text)
    refused = (set(codes) | set(other)) - ({line} if fault in ("accept", "leak", "quiet") else set())
    body = "\n".join("#" if l.startswith("#=") else l for l in text.split("\n"))
    _, out = compare.run(compare.ORACLE, compare.without(body, refused))
    printed, at = {}, 0
    for l in out.split("\n"):
        if l.startswith("@"):
            at = int(l[1:].split()[0])
            printed[at] = []
        elif l:
            printed.setdefault(at, []).append(l)
    said = {**{n: "REFUSED %d" % (c + (fault == "code" and n == line)) for n, c in codes.items()}, **other}
    printed.update({n: [x] for n, x in said.items() if not (fault == "accept" and n == line)})
    lines = text.split("\n")
    result = []
    for n in sorted(printed):
        word = lines[n - 1].split()[0]
        result.append("@%d %s" % (n, word))
        if not (fault == "quiet" and word in ("state", "memory")):
            result += printed[n]
    return "\n".join(result + ["END %d lines" % len(result)]) + "\n"


if __name__ == "__main__":
    kind, _, at = os.environ.get("FAKE", "").partition(" ")
    sys.stdout.write(answer(sys.stdin.read(), kind, int(at or 0)))
