#!/usr/bin/env python3
"""replay.py PROGRAM [FOLDER]

Writes the lists that the program `replay` replays, crates/replay/data/*.txt or into FOLDER: cases.txt (all of cases/ and extra/), rows.txt (all
of rows/) and random.txt (random sessions, SEEDS below). A line that begins with = starts a session and names it; the lines of the
session follow without its comments, and under each, behind a |, what is printed for it.

What is printed is the oracle's text (target/release/oracle), or REFUSED n where owed.py says that a call is refused, or the text
of a line `#= TEXT`. PROGRAM (target/bin/trace) is run on the same sessions. Where a line has offsets of the Rust's own (PROGRAM,
PLAN, ROUTE, S clock) and compare.canon takes the two for the same, the list has PROGRAM's text; the oracle's `S order` lines are
left out. Any other difference ends the run, and nothing is written.
"""
import os
import re
import sys

import compare
import gen
import owed

HERE = compare.HERE
LISTS = os.path.join(HERE, "../crates/replay/data")
OFFSETS = ("PROGRAM ", "PLAN ", "ROUTE ", "S clock ")
LONGEST = 65000     # bytes of one answer, and of one line: replay has a buffer of 65,536

# Random sessions: gen.py's seeds, printed by hashes; a seed with an r has refused calls put in. Chosen by replay_faults.py --choose.
SEEDS = """
326 217 82 221 123r 174r 252r 160 377 331 200 24r 238 387r 164 302 29 126r 215 195r 368 390r 219r 118 332 121 197 91 242
158 358 83 73 52 101 259 31 149 220 278 104 110 348r 393r 261r 289 279r 204r 54r 398 184 167 354r 124 384r 77 371 141r
57r 351r 179 287 175 229 365 185 283 16 383 95 7 180r 288r 11 32 109 122 366r 103 280 144r 142 253 251 333r 294r 193 61
362 152 245 66r 46 15r 271 243r 296 187 247 236 310 108r 248 90r 194 395 202 267r 151 30r 88 176 257 320 226 255r 208
293 329 153r 244 300r 250 281 177r 270r 380 21r 17 12r
"""


def random_session(word):
    return gen.session(int(word.rstrip("r")), False, "hash", word.endswith("r"))


def sessions():
    """List, name and text of every session."""
    for folder in ("cases", "extra"):
        for name in sorted(os.listdir(os.path.join(HERE, folder))):
            yield "cases", name, open(os.path.join(HERE, folder, name)).read()
    for name, text in compare.row_sessions():
        yield "rows", name, text
    for word in SEEDS.split():
        yield "random", "seed " + word, random_session(word)


def blocks(text):
    """What is printed under each line."""
    out, at = {}, 0
    for line in text.split("\n"):
        if line.startswith("@"):
            at = int(line[1:].split()[0])
        elif line.strip() and not line.startswith(("S order", "END ")):
            out.setdefault(at, []).append(line.rstrip())
    return out


def quiet_blocks(binary, text):
    """The same for a session that prints no `@` lines: what each line adds to the output."""
    lines, out, before = text.split("\n"), {}, ""
    for n in range(1, len(lines) + 1):
        now = re.sub(r"^END \d+ lines\n", "", compare.run(binary, "\n".join(lines[:n]) + "\n")[1], flags=re.M)
        if now != before:
            out[n] = now[len(before):].rstrip("\n").split("\n")
        before = now
    return out


def run(binary, name, text):
    if re.search(r"^print cases", text, re.M):
        return quiet_blocks(binary, text)
    rc, out = compare.run(binary, text)
    if rc or re.search(r"^(ERROR|TOO LARGE) ", out, re.M):
        raise ValueError("%s: %s ended with %d: %s" % (name, binary, rc, out[-200:]))
    return blocks(out)


def line_of(name, n, want, got):
    """A line of the list, by the oracle's and PROGRAM's."""
    if want == got:
        return want
    if want.startswith(OFFSETS) and compare.canon(want) == compare.canon(got):
        return got
    raise ValueError("%s line %d: the oracle has %r, the program %r" % (name, n, want[:200], got[:200]))


def answers(program, name, text):
    """The session's lines, each with what is printed for it."""
    refused, other, said = owed.owed(text), owed.answers(text), owed.stated(text)
    if any(refused.get(n) != row for n, row in said.items()):
        raise ValueError("%s: a number is stated that is not owed" % name)
    a, b = run(compare.ORACLE, name, compare.without(text, refused)), run(program, name, text)
    for n, line in enumerate(text.split("\n"), 1):
        if not line.split() or line.split()[0].startswith("#"):
            continue
        want = ["REFUSED %d" % refused[n]] if n in refused else [other[n]] if n in other else a.get(n, [])
        got = b.get(n, [])
        if len(want) != len(got):
            raise ValueError("%s line %d, %s: the oracle prints %d lines, the program %d" % (name, n, line[:60], len(want), len(got)))
        out = [line_of(name, n, x, y) for x, y in zip(want, got)]
        if sum(len(x) + 1 for x in out) > LONGEST or len(line) > LONGEST:
            raise ValueError("%s line %d: longer than replay's buffer" % (name, n))
        yield line.strip(), out


def listed(program, name, text):
    """A session as text of the list."""
    out = ["= " + name]
    for line, printed in answers(program, name, text):
        out.append(line)
        out += ["|" + x for x in printed]
    return "\n".join(out) + "\n"


def main():
    if len(sys.argv) < 2:
        sys.exit(__doc__)
    program, folder = os.path.abspath(sys.argv[1]), sys.argv[2] if len(sys.argv) > 2 else LISTS
    lists = {}
    for kind, name, text in sessions():
        lists.setdefault(kind, []).append(listed(program, name, text))
    for kind, parts in lists.items():
        text = "# Made by oracle/replay.py, which says what this is: cd oracle && ./build.sh && python3 replay.py ../target/bin/trace\n" + "".join(parts)
        with open(os.path.join(folder, kind + ".txt"), "w") as f:
            f.write(text)
        count = sum(1 for l in text.split("\n") if l and l[0] not in "#=|")
        print("%s: %d sessions, %d answers, %d bytes" % (kind, len(parts), count, len(text)))


if __name__ == "__main__":
    main()
