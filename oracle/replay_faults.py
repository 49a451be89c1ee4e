#!/usr/bin/env python3
"""replay_faults.py [--only NAME,NAME] [--choose PROGRAM N LAST] [--folder FOLDER] [--jobs N] [--markdown] [--cover]

Which sessions of the lists that `replay` replays (crates/replay/data) tell a wrong engine from the right one. Each fault of model/wrong.py
and model/faults.py is put into a copy of the order-free model, in a temporary folder; the copy is given every session of the lists, without
its refused calls, and what it prints for `config`, `process`, `out`, the readers of outputs, `rate`, `is_active`, `state` and `memory`, and the SKIP
lines of `compile`, is held to the list.
A fault in judging is put into a copy of owed.py, and the numbers that it works out are held to the list's. For each fault: where the
sentence stands that it gets wrong (model/wrong.py), how many sessions catch it, by outputs alone and by anything, and the first of them.
Exit 1 if some fault is caught by none, or if the right model differs from the list.

A session with a line that the model does not have (`standard`) is left out, and named.

--choose    takes cases/, extra/ and rows/ from the lists and prints further seeds below LAST (every third with refused calls put in, marked by
            an r), small sessions first, such that every fault is caught by N sessions, if it can be. For replay.py's SEEDS. PROGRAM is replay.py's.
--folder    builds the wrong copies there and keeps them
--markdown  prints the table as README.md has it
--cover     plays nothing: holds the names in model/COVER.md to the faults, each of which must be there
"""
import argparse
import concurrent.futures
import os
import re
import subprocess
import sys
import tempfile

import compare
import replay

sys.path.insert(0, os.path.join(compare.HERE, "model"))
import faults
import wrong

FAULTS = wrong.WRONG + [(name, "D9, " + name, what, edits) for name, what, edits in faults.FAULTS]
JUDGED = wrong.JUDGED
MODEL = os.path.join(compare.HERE, "model/model.rs")
OWED = os.path.join(compare.HERE, "owed.py")
LISTS = ("cases", "rows", "random")
OUTPUTS = ("process", "out", "latest", "latest_all", "ramp", "is_active", "rate")
WORDS = OUTPUTS + ("config", "state", "memory", "compile")


def bits(match):
    n = int(match[0], 16)
    return "7FC00000" if n & 0x7FFFFFFF > 0x7F800000 else "00000000" if n == 0x80000000 else match[0]


def canon(line):
    return re.sub(r"\b[0-9A-F]{8}\b", bits, compare.canon(line))


def parse(text):
    """A list's sessions: name, and its lines with what is printed for each."""
    out = []
    for line in text.split("\n"):
        if line.startswith("="):
            out.append((line[2:], []))
        elif line.startswith("|"):
            out[-1][1][-1][1].append(canon(line[1:]))
        elif line and not line.startswith("#"):
            out[-1][1].append((line, []))
    return out


# Wrong models ---------------------------------------------------------------------
def given(lines):
    """The session for the model, its refused calls passed over."""
    return "\n".join("#" if printed[:1] and printed[0].startswith("REFUSED") else line for line, printed in lines) + "\n"


def output(binary, lines):
    """What a model prints; None where it does not play the session."""
    p = subprocess.run([binary], input=given(lines).encode(), stdout=subprocess.PIPE, stderr=subprocess.DEVNULL)
    return None if p.returncode else p.stdout.decode()


def played(text, lines):
    """What is printed under each line."""
    if lines[0][0] == "print cases":
        return {None: [l for l in text.split("\n") if l]}
    out = {}
    for line in text.split("\n"):
        if line.startswith("@"):
            at = out.setdefault(int(line[1:].split()[0]), [])
        elif line:
            at.append(canon(line.rstrip()))
    return out


def held_to(word, printed):
    """What is compared of a line's answer."""
    return [l for l in printed if l.startswith("SKIP")] if word == "compile" else printed


def caught(text, lines):
    """Whether what a model prints differs from the list: in outputs, in anything. A model that panics differs in neither."""
    if text is None:
        return False, False
    got = played(text, lines)
    if None in got:
        differs = got[None] != [x for _, printed in lines for x in printed]
        return differs, differs
    words = [(n, line.split()[0], printed) for n, (line, printed) in enumerate(lines, 1)]
    which = {w in OUTPUTS for n, w, printed in words if w in WORDS and n in got and got[n] != held_to(w, printed)}
    return True in which, bool(which)


def catches(folder, name, session):
    """The same for a wrong copy. Where it prints what the right one prints it differs nowhere, since that is the list's."""
    text = output(os.path.join(folder, name), session[1])
    return (False, False) if text == session[2] else caught(text, session[1])


def edited(name, text, edits):
    for old, new in edits:
        if old not in text:
            raise ValueError("%s: there is no %r" % (name, old))
        text = text.replace(old, new)
    return text


def build(folder, pool, names):
    """The model without its own checks, and its wrong copies."""
    text = open(MODEL).read()
    a, b = text.index("            // Rule(V) holds"), text.index("        } else {\n            let mut now")
    text = text[:a] + text[b:]

    def one(fault):
        name, _, _, edits = fault
        path, copy = os.path.join(folder, name), edited(name, text, edits)
        if os.path.exists(path) and open(path + ".rs").read() == copy:
            return
        with open(path + ".rs", "w") as f:
            f.write(copy)
        p = subprocess.run(["rustc", "--crate-name", "model", "-C", "overflow-checks=off", "-A", "warnings", "-o", path, path + ".rs"], stderr=subprocess.PIPE)
        if p.returncode:
            raise ValueError("%s: %s" % (name, p.stderr.decode()[:2000]))
    list(pool.map(one, [("right", "", "", [])] + [f for f in FAULTS if f[0] in names]))


def by_model(folder, pool, sessions):
    """The sessions that the right model plays, each as the list has it: name, lines, what the model prints."""
    texts = pool.map(lambda s: output(os.path.join(folder, "right"), s[1]), sessions)
    good = [(name, lines, text) for (name, lines), text in zip(sessions, texts) if text is not None]
    differ = [name for name, lines, text in good if caught(text, lines)[1]]
    if differ:
        raise ValueError("the right model differs from the list: " + ", ".join(differ))
    return good


# Wrong judges -----------------------------------------------------------------------
def judge(edits):
    """owed.py with these edits: what makes one that judges."""
    module = {"__name__": "judge"}
    exec(compile(edited("owed.py", open(OWED).read(), edits), OWED, "exec"), module)
    return module["Owed"]


def misjudged(make, lines):
    """Whether some number that is worked out is not the list's."""
    o = make()
    for line, printed in lines:
        want = int(printed[0].split()[1]) if printed[:1] and printed[0].startswith("REFUSED") else None
        if o.line(line.split()) != want:
            return True
    return False


# The table --------------------------------------------------------------------------
def stored(kinds):
    """The stored sessions of these lists: name and lines."""
    return [s for kind in kinds for s in parse(open(os.path.join(replay.LISTS, kind + ".txt")).read())]


def shown(fault, sessions, found, markdown):
    """Prints a row; answers whether some session catches the fault."""
    name, where, what, _ = fault
    first = [s[0] for s, f in zip(sessions, found) if f[1]]
    outputs = "" if fault in JUDGED else sum(f[0] for f in found)
    row = "| %s | %s | %s | %s | %d | %s |" if markdown else "%-20s %-18s %s: %s by outputs, %d (%s)"
    print(row % (name, where, what, outputs, len(first), ", ".join(first[:2]).replace(".txt", "") or "NONE"), flush=True)
    return bool(first)


def table(folder, pool, names, markdown):
    """Prints the table; answers how many faults no session catches."""
    sessions = stored(LISTS)
    used = by_model(folder, pool, sessions)
    names_used = {s[0] for s in used}
    print("%d sessions, not played by the model: %s" % (len(sessions), ", ".join(s[0] for s in sessions if s[0] not in names_used)))
    if markdown:
        print("\n| Fault | Where | Mistake | Sessions, by outputs | by anything | First |\n|---|---|---|---|---|---|")
    seen = []
    for fault in FAULTS:
        if fault[0] in names:
            seen.append(shown(fault, used, list(pool.map(lambda s: catches(folder, fault[0], s), used)), markdown))
    for fault in JUDGED:
        if fault[0] in names:
            make = judge(fault[3])
            seen.append(shown(fault, sessions, [(False, misjudged(make, s[1])) for s in sessions], markdown))
    print("%s%d faults, %d caught by no session" % ("\n" if markdown else "", len(seen), seen.count(False)))
    return seen.count(False)


def choose(folder, pool, names, program, wanted, last):
    """Prints seeds below `last`, small sessions first, such that each fault is caught by so many sessions of the lists, if it can be."""
    names = [f[0] for f in FAULTS if f[0] in names]
    fixed = by_model(folder, pool, stored(("cases", "rows")))
    count = {n: sum(pool.map(lambda s: catches(folder, n, s)[1], fixed)) for n in names}

    def one(word):
        try:
            return word, replay.listed(program, word, replay.random_session(word))
        except ValueError:
            return word, None
    found = [(len(text), word, parse(text)[0]) for word, text in pool.map(one, ["%d%s" % (i, "r" if i % 3 == 0 else "") for i in range(last)]) if text]
    chosen = []
    for size, word, session in sorted(found, key=lambda f: f[:2]):
        missing = [n for n in names if count[n] < wanted]
        if not missing:
            break
        one_session = by_model(folder, pool, [session])
        new = [n for n, c in zip(missing, pool.map(lambda n: catches(folder, n, one_session[0])[1], missing)) if c] if one_session else []
        if new:
            chosen.append(word)
            for n in new:
                count[n] += 1
            print("%s, %d bytes: %s" % (word, size, " ".join(new)), flush=True)
    print("SEEDS = \"%s\"" % " ".join(chosen))
    print("below %d: %s" % (wanted, " ".join("%s:%d" % (n, count[n]) for n in names if count[n] < wanted)))


def cover():
    """Prints the names that model/COVER.md has and that are no faults, and the faults that it does not have; answers how many."""
    rows = [l for l in open(os.path.join(compare.HERE, "model/COVER.md")).read().split("\n") if l.startswith("| ")]
    there, named = {n for l in rows for n in re.findall(r"`([\w-]+)`", l.split("|")[-2])}, {f[0] for f in FAULTS + JUDGED}
    for name in sorted(there ^ named):
        print("%s is %s" % (name, "no fault" if name in there else "not in the table"))
    print("%d faults, %d rows" % (len(named), sum("---" not in l for l in rows)))
    return len(there ^ named)


def main():
    a = argparse.ArgumentParser(usage=__doc__)
    a.add_argument("--only")
    a.add_argument("--choose", nargs=3, metavar=("PROGRAM", "N", "LAST"))
    a.add_argument("--folder")
    a.add_argument("--jobs", type=int, default=os.cpu_count())
    a.add_argument("--markdown", action="store_true")
    a.add_argument("--cover", action="store_true")
    o = a.parse_args()
    if o.cover:
        sys.exit(cover() > 0)
    names = [f[0] for f in FAULTS + JUDGED if not o.only or f[0] in o.only.split(",")]
    with tempfile.TemporaryDirectory() as own, concurrent.futures.ThreadPoolExecutor(o.jobs) as pool:
        folder = o.folder or own
        build(folder, pool, names)
        if o.choose:
            choose(folder, pool, names, os.path.abspath(o.choose[0]), int(o.choose[1]), int(o.choose[2]))
        else:
            sys.exit(table(folder, pool, names, o.markdown) > 0)


if __name__ == "__main__":
    main()
