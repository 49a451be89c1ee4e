"""What ./plot, ./collate and ./trace --decimal share: the numbers of sessions and traces, printed traces call by call,
and the session beside a trace."""
import math
import os
import re
import struct

PERIOD = 32
# as many lanes as a row can have
MOST_VOICES = 64
BITS = re.compile(r"[0-9A-Fa-f]{8}\Z")
DECIMAL = re.compile(r"[+-]?(?:\d+\.?\d*|\.\d+)(?:[eE][+-]?\d+)?\Z")
# a line that no trace has: neither `@LINE call` nor an answer, which begins with a word in capitals
STRANGE = re.compile(r"\n(?!@\d+ \S+(?:\n|\Z)|[A-Z]+(?:[ \n]|\Z))(.*)")
END = re.compile(r"END (\d+) lines?\Z")
# print modes by the lines that outputs have in them
MODES = ("full", ("\nTO ", "\nA ")), ("hash", ("\nHC ", "\nHA ")), ("cases", ("\nD ",))
ENDING = re.compile(r"^((?:ERROR|TOO LARGE) line )\d+")
# a comment that names the target of a destination
NAMING = re.compile(r"#+\s*(p:\d+|l:\d+:\d+):\s+(\S.*)")

# how many words make the name of an answer's line, and from which word on it has numbers
ROWS = {"FROM": (3, 4), "TO": (3, 4), "A": (3, 4), "D": (3, 6), "LATEST": (3, 3), "RAMP": (3, 3), "ALL": (1, 3),
        **dict.fromkeys(("CHUNK", "HC", "HA", "PLAN", "ROUTE", "SKIP", "ENTRY"), (2, 99))}
# the same of lines S and M, by their second word
KEPT = {**dict.fromkeys(("heldglobal", "base", "amounts", "outputs"), (2, 2)),
        **dict.fromkeys(("held", "notevalue", "target", "step", "from", "cur"), (3, 3)),
        **dict.fromkeys(("slew", "random"), (4, 4))}


class Bad(Exception):
    """A file that cannot be taken: what is wrong with it, in words."""


# ---- numbers


def of_bits(word):
    """The binary32 with these 8 hexadecimal digits."""
    return struct.unpack(">f", bytes.fromhex(word))[0]


def bits_of(x):
    return struct.unpack(">I", struct.pack(">f", x))[0]


def row_of(text):
    """The binary32 numbers of a row, 8 hexadecimal digits each, parted by blanks."""
    return struct.unpack(">%df" % ((len(text) + 1) // 9), bytes.fromhex(text))


def number(word):
    """A number as a session has it: the 8 hexadecimal digits of its bits, or a decimal, to the nearest binary32."""
    if BITS.match(word):
        return of_bits(word)
    if not DECIMAL.match(word):
        raise ValueError(word)
    try:
        return struct.unpack(">f", struct.pack(">f", float(word)))[0]
    except OverflowError:
        return math.copysign(math.inf, float(word))


def decimal(x):
    """The shortest decimal that is read back as this binary32."""
    if not math.isfinite(x):
        return "NaN" if x != x else "infinity" if x > 0 else "-infinity"
    for digits in range(1, 9):
        said = "%.*g" % (digits, x)
        try:
            if bits_of(float(said)) == bits_of(x):
                return said
        except OverflowError:
            continue
    return "%.9g" % x


def canonical(word):
    """One spelling for the numbers that compare equal: NaN equals NaN, and the two zeros are equal."""
    bits = int(word, 16)
    if bits & 0x7FFFFFFF > 0x7F800000:
        return "7FC00000"
    return "00000000" if bits == 0x80000000 else word


def is_odd(text):
    """Whether NaN or -0, which have more than one spelling for what compares equal, may be in it."""
    return " 80000000" in text or " 7F" in text or " FF" in text


def steps(a, b):
    """How many steps b is above a in the order of binary32 numbers, the two zeros being one; None with a NaN."""
    if canonical(a) == "7FC00000" or canonical(b) == "7FC00000":
        return None
    place = lambda bits: bits if bits < 0x80000000 else 0x80000000 - bits
    return place(int(b, 16)) - place(int(a, 16))


def grouped_digits(n):
    return format(n, ",")


# ---- the words of an answer


def form_of(w):
    """How many words name an answer's line, and from which word on it has numbers."""
    if w[0] in ("S", "M") and len(w) > 1:
        return KEPT.get(w[1], (2, len(w)))
    return ROWS.get(w[0], (1, len(w)))


def is_number(w, k):
    """Whether word k of an answer is a binary32."""
    if w[0] in ("PLAN", "ROUTE"):
        return w[k - 1] in ("min", "max", "affine") or w[k - 2] == "affine"
    return k >= form_of(w)[1] and BITS.match(w[k]) is not None


# ---- files


def read_text(path):
    if os.path.isdir(path):
        raise Bad("%s: a folder, not a file" % path)
    try:
        with open(path, encoding="utf-8", newline="") as f:
            return f.read().replace("\r\n", "\n")
    except OSError as e:
        raise Bad("%s: %s" % (path, (e.strerror or str(e)).lower()))
    except UnicodeDecodeError:
        raise Bad("%s: not a text" % path)


class Trace:
    """What `trace` printed, call by call: `words` the calls' words, `ids` their lines in the session (0 where none
    is printed), `bodies` what they answered, `at` the line of the trace where each begins. `cut` says in words why
    it is not whole, or is None; `open`: it has no last line END, so that its last call may have more to say."""

    def __init__(self, text, path=""):
        self.path, self.words, self.ids, self.bodies, self.at = path, [], [], [], []
        self.cut, self.open = None, False
        body = self.without_end(text)
        self.odd = is_odd(body)
        body = "\n" + body
        self.modes = [mode for mode, lines in MODES if any(l in body for l in lines)]
        parts = body.split("\n@")
        line = 1
        if len(parts[0]) > 1:
            line += parts[0].count("\n")
            self.unnamed(parts[0][1:].split("\n"), 1)
        plain = "\nD " not in body and "\nREFUSED" not in body
        for part in parts[1:]:
            head, _, answer = part.partition("\n")
            n, _, word = head.partition(" ")
            if plain:
                self.add(word, int(n), answer, line)
            else:
                self.call(word, int(n), answer, line)
            line += part.count("\n") + 1

    def without_end(self, text):
        """The text without its last line, `END n lines`; where there is none, or another n, the trace is cut."""
        if text and not text.endswith("\n"):
            # the last line may be a part of one
            text = text[:text.rfind("\n") + 1]
            self.cut = "its last line does not end"
        text = text[:-1]
        before, _, last = text.rpartition("\n")
        found = END.match(last)
        self.lines = text.count("\n") + 1 if text else 0
        if not found:
            self.cut, self.open = self.cut or "its last line is not `END n lines`", True
            return text
        self.lines -= 1
        if int(found[1]) != self.lines:
            self.cut = "its last line counts %s lines, and %s are there" % (found[1], grouped_digits(self.lines))
        return before

    def call(self, word, n, answer, line):
        """A call with its answer. Below it may stand answers of calls that print no line of their own (print mode
        cases)."""
        if not (answer.startswith("D ") or "\nD " in answer or "\nREFUSED" in answer):
            return self.add(word, n, answer, line)
        lines = answer.split("\n")
        k = next(k for k, l in enumerate(lines) if l.startswith("D ") or (k and l.startswith("REFUSED")))
        self.add(word, n, "\n".join(lines[:k]), line)
        self.unnamed(lines[k:], line + 1 + k)

    def add(self, word, n, body, line):
        self.words.append(word)
        self.ids.append(n)
        self.bodies.append(body)
        self.at.append(line)

    def unnamed(self, lines, line):
        """Answers without a line `@LINE call`: a block begins where destinations or frames start again."""
        last = None
        for k, said in enumerate(lines):
            w = said.split()
            if w[:1] == ["D"] and len(w) > 2:
                here = int(w[1]), int(w[2])
                if last and here > last:
                    self.bodies[-1] += "\n" + said
                else:
                    self.add("process", 0, said, line + k)
                last = here
            else:
                self.add("call", 0, said, line + k)
                last = None

    def ended(self):
        """The line that ended the session early, ERROR or TOO LARGE, or None."""
        last = self.bodies[-1].rpartition("\n")[2] if self.bodies else ""
        return last if last.startswith(("ERROR", "TOO LARGE")) else None


def read_trace(path):
    text = read_text(path)
    if not text.strip():
        raise Bad("%s: no trace: it is empty" % path)
    strange = STRANGE.search("\n" + (text[:text.rfind("\n")] if "\n" in text else text))
    if strange:
        hint = " (a session? ./trace prints its trace)" if strange[1].startswith(("#", "config")) else ""
        at = text.count("\n", 0, strange.start()) + 1
        raise Bad("%s: no trace: line %d is '%s'%s" % (path, at, strange[1][:60], hint))
    return Trace(text, path)


class Session:
    """The lines of a session, in words, by their numbers."""

    def __init__(self, text):
        self.lines = text.split("\n")

    def words(self, n):
        return self.lines[n - 1].split() if 0 < n <= len(self.lines) else []

    def fits(self, trace):
        """Whether every call of the trace stands in its line."""
        return all(self.words(n)[:1] == [w] for n, w in zip(trace.ids, trace.words) if n)


def beside(trace):
    """The session beside a trace (X.txt for X.out), or None, and what to say about it."""
    stem, ending = os.path.splitext(trace.path)
    path = stem + ".txt"
    if ending != ".out" or not os.path.exists(path):
        return None, "no session beside it"
    try:
        session = Session(read_text(path))
    except Bad as e:
        return None, str(e)
    return (session, None) if session.fits(trace) else (None, "%s is not its session: the calls are others" % path)


def named_targets(session_lines):
    """Names of targets from comments, the last of each: `# p:0: cutoff`."""
    found = (NAMING.match(l.strip()) for l in session_lines if l.lstrip().startswith("#"))
    return {m[1]: m[2].strip() for m in found if m}


# ---- where in time


def chunks_of(body):
    """The chunks of a block by number: (start, length, phase, tick)."""
    found = re.findall(r"^CHUNK (\d+) (\d+) (\d+) (\d+) (\d)", body, re.M)
    return {int(c[0]): tuple(map(int, c[1:])) for c in found}


def range_of(body, call):
    """START and END of a block: from its call in the session, or from what was printed; None where neither says."""
    if len(call) == 3:
        return int(call[1]), int(call[2])
    chunks = chunks_of(body[:body.find("\nFROM")] if "\nFROM" in body else body)
    spans = [(c[0], c[0] + c[1]) for c in chunks.values()]
    spans = spans or [(int(s), int(s) + int(n)) for s, n in re.findall(r"^D \d+ (\d+) (\d+)", body, re.M)]
    spans = spans or [(int(f), int(f) + 1) for f in re.findall(r"^A \d+ (\d+) ", body, re.M)]
    return (min(spans)[0], max(s[1] for s in spans)) if spans else None


class Clock:
    """Walks a trace: before call i, how many blocks and frames were played, and the seconds of them; None where it
    cannot be known."""

    def __init__(self, trace, session, rate=None):
        self.trace, self.session, self.given = trace, session, rate
        self.next, self.blocks, self.frames, self.seconds = 0, 0, 0, 0.0
        self.config = self.rate = rate or self.only_rate()

    def only_rate(self):
        """The session's rate where the trace prints no `config` (print mode cases) and the session has one rate
        alone."""
        if not self.session or "config" in self.trace.words:
            return None
        found = {w[1] for w in map(str.split, self.session.lines) if w[:1] == ["config"] and len(w) == 4}
        said = found.pop() if len(found) == 1 else ""
        return number(said) if BITS.match(said) or DECIMAL.match(said) else None

    def words(self, i):
        """Call i as the session has it, or its word alone."""
        return self.session.words(self.trace.ids[i]) if self.session and self.trace.ids[i] else [self.trace.words[i]]

    def to(self, i):
        while self.next < i:
            self.step(self.next)
            self.next += 1
        return self

    def step(self, i):
        word, body = self.trace.words[i], self.trace.bodies[i]
        if word == "process" and not body.startswith(("REFUSED", "ERROR", "TOO LARGE")):
            self.blocks += 1
            here = range_of(body, self.words(i))
            frames = max(0, here[1] - here[0]) if here else None
            self.frames = None if frames is None or self.frames is None else self.frames + frames
            known = self.frames is not None and self.rate and self.seconds is not None
            self.seconds = self.seconds + frames / self.rate if known else None
        elif word == "config" and body.startswith("CONFIG") and self.session and not self.given:
            self.config = number(self.words(i)[1])
        elif word == "engine" and body.startswith("ENGINE"):
            self.rate = self.config
