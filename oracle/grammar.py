#!/usr/bin/env python3
"""grammar.py [PROGRAM] [FILE]

Reads the session language from docs/SESSIONS.md (The grammar, Kinds of words) and writes crates/replay/data/words.txt, or FILE: for
every command, and every word that a table or samples begin with, sessions with a word too few, one too many, and each word of a wrong
kind; misspelt commands; and names of what is not there. Each ends by itself, with the error line that is owed, which is made of the
page alone. With PROGRAM (target/bin/trace) the same sessions are run through it, and so are the right words: no error, or one that
says what is not there. Exit 1 where PROGRAM prints another line.
"""
import os
import re
import resource
import subprocess
import sys

HERE = os.path.dirname(os.path.abspath(__file__))
PAGE = os.path.join(HERE, "../docs/SESSIONS.md")
LIST = os.path.join(HERE, "../crates/replay/data/words.txt")
HEAD = "# Made by oracle/grammar.py, which says what this is: cd oracle && python3 grammar.py ../target/bin/trace\n"


def table(text, first):
    """The rows below a table's head whose first cell is `first`, each a list of cells."""
    lines = text.split("\n")
    at = next(i for i, l in enumerate(lines) if l.startswith("| %s |" % first))
    rows = []
    for line in lines[at + 2:]:
        if not line.startswith("|"):
            break
        rows.append([c.strip() for c in line.strip("|").split("|")])
    return rows


class Grammar:
    def __init__(self, text):
        self.commands, self.specs, self.samples = ({r[0].strip("`"): r[1] for r in table(text, t)} for t in ("Command", "SPEC", "SAMPLES"))
        kinds = table(text, "Kind")
        self.called = {r[0]: r[1] for r in kinds}
        self.right = {r[0]: re.findall(r"`([^`]*)`", r[3]) for r in kinds}
        self.wrong = {r[0]: re.findall(r"`([^`]*)`", r[4]) for r in kinds}

    def places(self, row):
        """The kinds of a row's words; the last may be repeated; how many words of them a line may end after."""
        optional = row.startswith("[")
        kinds = row.strip("[]").split()
        repeated = kinds[-1:] == [".."]
        kinds = kinds[:-1] if repeated else kinds
        ends = {len(kinds)} | ({0} if optional else set()) | ({len(kinds) - 1} if repeated else set())
        return kinds, repeated, ends

    def rows(self):
        """Every row: the words before it, all right, and its own words after them."""
        for c, row in self.commands.items():
            yield [c], row
        for w, row in self.specs.items():
            yield ["table", "n", w], row
        for w, row in self.samples.items():
            yield ["bind", "0", "1", w], row

    def word(self, kind):
        return self.right[kind][0]

    def sessions(self):
        """Name, line, and the words owed after `ERROR line N: `."""
        for before, row in self.rows():
            kinds, repeated, ends = self.places(row)
            words, name = before + [self.word(k) for k in kinds], " ".join(before)
            for n, kind in enumerate(kinds):
                k = len(before) + n
                if n not in ends:
                    yield "%s, a word too few" % name, words[:k], "word %d is missing: a %s" % (k + 1, self.called[kind])
                for w in self.wrong[kind]:
                    yield "%s, word %d" % (name, k + 1), words[:k] + [w] + words[k + 1:], "word %d, '%s', is no %s" % (k + 1, w, self.called[kind])
            if not repeated and (not kinds or kinds[-1] not in ("SPEC", "SAMPLES")):
                yield "%s, one too many" % name, words + ["x"], "word %d, 'x', is one too many" % (len(words) + 1)
            if repeated and self.wrong[kinds[-1]]:
                yield "%s, one more" % name, words + ["x"], "word %d, 'x', is no %s" % (len(words) + 1, self.called[kinds[-1]])
        for c in self.commands:
            for w in (c[1:], c[:-1], c + c[-1], c.upper(), "x" + c):
                if w and w not in self.commands:
                    yield "%s misspelt" % c, [w] + c.split(), "'%s' is no command" % w

    def good(self):
        """Lines whose words are all right: each right word of each kind."""
        for before, row in self.rows():
            kinds, repeated, ends = self.places(row)
            words = before + [self.word(k) for k in kinds]
            for n, kind in enumerate(kinds):
                for w in self.right[kind]:
                    tail = {"SPEC": [], "SAMPLES": []}.get(kind, words[len(before) + n + 1:])
                    yield words[:len(before) + n] + [w] + tail
            for n in ends:
                yield words[:len(before) + n]


# What a line names that is not there: the lines before it, the line, the error.
ABSENT = [
    ([], "set_held 0 3F800000", "there is no engine yet"), ([], "process 0 64", "there is no engine yet"),
    ([], "state", "there is no engine yet"), ([], "latest 0 0", "there is no engine yet"), ([], "swap p", "there is no engine yet"),
    ([], "note diag t9 0 0", "'t9' names no table"), ([], "note t8 t9 0 0", "'t8' names no table"),
    (["table t9 lin"], "slot 0 sc=t9:00000000:00000000 ac=t10:00000000:00000000", "'t10' names no table"),
    ([], "slot 0 ac=lin sc=:00000000:00000000", "'' names no table"),
    (["engine"], "swap preset2", "'preset2' names no program"), (["engine"], "swap ~", "'~' is installed"),
    (["engine"], "compile ~", "'~' is installed"),
    (["compile p", "engine", "swap p"], "compile p", "'p' is installed"), (["compile p", "engine", "swap p"], "swap p", "'p' is installed"),
    (["compile p", "engine", "swap p", "engine"], "swap p", "'p' names no program"),
    ([], "table t put 513 3F800000 lin", "the table has no such entry"), ([], "table t put 3 3F800000 len 3 lin", "the table has no such entry"),
    ([], "table t len 3 len 0 lin", "the table has no such entry"), ([], "table t len 3 hex", "the table has no such entry"),
]
ANSWERS = {"engine": ["ENGINE stride 16"], "swap p": ["SWAP ~"],
           "compile p": ["PROGRAM stride 16 plans 0 control 0 routes 0 luts 0 slew 0 random 0 glide 0 vlegato 0"]}


def listed(g):
    """The sessions of the list: name, lines, the error's words. The line in question is never the first."""
    for name, words, owed in g.sessions():
        yield name, ["clear", " ".join(words)], owed
    for before, line, owed in ABSENT:
        yield "not there: " + line, ["clear"] + before + [line], owed


def text_of(sessions):
    out = [HEAD]
    for name, lines, owed in sessions:
        out.append("= %s\n" % name)
        for line in lines[:-1]:
            out.append(line + "\n" + "".join("|%s\n" % a for a in ANSWERS.get(line, [])))
        out.append("%s\n|ERROR line %d: %s\n" % (lines[-1], len(lines), owed))
    return "".join(out)


def run(program, text):
    def start():
        hard = resource.getrlimit(resource.RLIMIT_STACK)[1]
        resource.setrlimit(resource.RLIMIT_STACK, (64 << 20 if hard == resource.RLIM_INFINITY else min(64 << 20, hard), hard))
    return subprocess.run([program], input=text.encode(), stdout=subprocess.PIPE, preexec_fn=start, timeout=120).stdout.decode("latin-1")


def held(program, g, sessions):
    """How many sessions PROGRAM answers otherwise."""
    bad = 0
    for name, lines, owed in sessions:
        got = re.findall(r"^ERROR .*$", run(program, "\n".join(lines) + "\nclear\n"), re.M)
        want = ["ERROR line %d: %s" % (len(lines), owed)]
        bad += got != want
        if got != want:
            print("%s: %s\n  owed %s\n  got  %s" % (name, lines[-1], want, got))
    for words in g.good():
        out = run(program, "engine\n" + " ".join(words) + "\nclear\n")
        got = [e for e in re.findall(r"^ERROR .*$", out, re.M) if not re.search("is installed$|no such entry$", e)]
        bad += bool(got)
        if got:
            print("%s: %s" % (" ".join(words), got))
    return bad


def main():
    g = Grammar(open(PAGE, encoding="utf-8").read())
    sessions = list(listed(g))
    bad = held(os.path.abspath(sys.argv[1]), g, sessions) if len(sys.argv) > 1 else 0
    with open(sys.argv[2] if len(sys.argv) > 2 else LIST, "w", encoding="utf-8") as f:
        f.write(text_of(sessions))
    print("words: %d sessions, %d rows, %d differ" % (len(sessions), len(list(g.rows())), bad))
    sys.exit(bad > 0)


if __name__ == "__main__":
    main()
