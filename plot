#!/usr/bin/env python3
"""Draws the control values of a session over time: makes its calls with ./trace and writes an SVG beside it.

One panel for each destination that has control values: the ramps, one line for each voice from its note until it has
ended, and one line where the destination is the same for all voices; voices that have the same values all the time
share a line. Strokes on the time axis are control ticks. Dashed uprights are settings (which knob, to what), notes,
ends of notes and voices, swaps, new engines and refused calls. A comment `# p:0: cutoff` names the destination whose
target is p:0. Lines `print` and `canon` of the session are passed over. Of a long session each half of a pixel shows
the least and the greatest value. Needs python3 alone.

Exit status: 0; 1 where the session ended early (ERROR, TOO LARGE), its trace is cut or nothing can be drawn: what
was played up to there is drawn; 2 for bad usage.
"""
import argparse
import gc
import itertools
import os
import subprocess
import sys

sys.dont_write_bytecode = True
sys.path.insert(0, os.path.join(os.path.dirname(os.path.realpath(__file__)), "tools"))
import pictures
import traces
from pictures import GAP, HEAD, LEFT, LEVEL, PLOT, WIDTH, cut, ranges, stroke, text, width_of

SETTINGS = "set_held", "set_voice_held", "set_base", "set_amount", "set_output"
NOTES = {"note_on": "note", "note_off": "off", "voice_ended": "end"}
MARKED = {"process", "swap", "set_voice_limit", *SETTINGS, *NOTES}


def fail(what, status=1):
    print("plot: " + what, file=sys.stderr)
    sys.exit(status)


# ---- what a session printed


class Story:
    """What happened: frames so far, rows of values, marks as (frame, kind, which), and what sources and destinations
    are called. Which of a setting: the knob and the number, as the session has it."""

    def __init__(self):
        self.now, self.rate, self.config, self.active = 0, None, None, frozenset()
        self.rows, self.marks, self.rates = pictures.Rows(), [], set()
        self.targets, self.sources, self.titles = {}, {}, {}

    def mark(self, kind, which=None):
        self.marks.append((self.now, kind, which))

    def name_of(self, dest):
        """A destination's name, its target or its number."""
        target = self.targets.get(dest)
        return self.titles.get(target) or target or str(dest)

    def block(self, start, end, body):
        # an empty range plays nothing, and prints the last block once more
        if start < end:
            self.rows.block(self.now, start, body, self.active)
            self.rates.add(self.rate)
            self.now += end - start

    def register(self, w, answer):
        a = [line.split() for line in answer.split("\n")]
        if w[0] == "newreg":
            self.targets, self.sources = {}, {}
        elif w[0] == "standard":
            self.sources = {int(e[1]): e[2] for e in a if e[:1] == ["ENTRY"]}
        elif len(a[0]) == 2 and a[0][1].isdigit():
            (self.targets if w[0] == "dest" else self.sources)[int(a[0][1])] = w[1]

    def setting(self, w):
        of = int(w[1])
        if w[0] in ("set_held", "set_voice_held"):
            knob = self.sources.get(of, "source %d" % of) + (" of voice " + w[2] if w[0] == "set_voice_held" else "")
        elif w[0] == "set_base":
            knob = "base of " + self.name_of(of)
        else:
            knob = "%s of slot %d" % (w[0][4:], of)
        self.mark("set", (knob, w[-1]))

    def note(self, w):
        voice = int(w[1])
        self.mark(NOTES[w[0]], voice)
        if w[0] != "note_off":
            self.active = self.active | {voice} if w[0] == "note_on" else self.active - {voice}

    def line(self, w, answer):
        if answer.startswith(("REFUSED", "ERROR", "TOO LARGE")):
            if w[0] in MARKED and answer.startswith("REFUSED"):
                self.mark("refused", "%s: %s" % (w[0], answer.split()[1]))
        elif w[0] == "process":
            self.block(int(w[1]), int(w[2]), answer)
        elif w[0] in SETTINGS:
            self.setting(w)
        elif w[0] in NOTES:
            self.note(w)
        elif w[0] == "swap":
            self.mark("swap", w[1])
        elif w[0] == "config":
            self.config = traces.number(w[1])
        elif w[0] == "engine":
            if self.now:
                self.mark("engine")
            self.rate, self.active = self.config, frozenset()
        elif w[0] in ("dest", "source", "standard", "newreg"):
            self.register(w, answer)


def story_of(session, said):
    """What happened, from the session and what ./trace printed of it, a text or a Trace, up to the last call there."""
    trace = said if isinstance(said, traces.Trace) else traces.Trace(said)
    lines, story = session.split("\n"), Story()
    story.titles = traces.named_targets(lines)
    for n, answer in zip(trace.ids, trace.bodies):
        w = lines[n - 1].split() if 0 < n <= len(lines) else []
        if w:
            story.line(w, answer)
    return story


# ---- the picture


def label_of(marks):
    """The name of all marks at one frame; of a knob that is set twice the last value."""
    kinds = {}
    for _, kind, which in marks:
        kinds.setdefault(kind, []).append(which)
    out = []
    for kind, which in kinds.items():
        if kind == "swap":
            out += ["swap " + cut(w, 24) for w in which]
        elif kind == "set":
            out += ["%s = %s" % (cut(knob, 40), traces.decimal(traces.number(x))) for knob, x in dict(which).items()]
        elif kind == "refused":
            out.append("refused " + (which[0] if len(which) == 1 else "(%d calls)" % len(which)))
        else:
            many = "s" * (kind == "note" and len(set(which)) > 1)
            out.append(kind if which[0] is None else "%s %s" % (kind + many, ranges(which)))
    return cut(", ".join(out), 80)


def grouped(lanes):
    """Lanes with the same ramps, as (lanes, ramps), by the lowest lane."""
    out = {}
    for lane in sorted(lanes, key=lambda v: -1 if v is None else v):
        out.setdefault(tuple(lanes[lane]), []).append(lane)
    return [(same, ramps) for ramps, same in out.items()]


def lines_of(lanes):
    """The lines of a panel: (name or None, ramps, style)."""
    groups = grouped(lanes)
    styles = itertools.cycle(pictures.STYLES) if len(groups) > 1 else [pictures.ALONE]
    called = lambda same: cut("voice%s %s" % ("s" * (len(same) > 1), ranges(same)), 40)
    return [(None if same == [None] else called(same), ramps, style) for (same, ramps), style in zip(groups, styles)]


def placed(marks, view):
    """The marks by frame with their names on levels, so that no two names meet: (frame, name, level, x); no level
    where there is no room."""
    by_frame, ends, out = {}, [], []
    for m in marks:
        by_frame.setdefault(m[0], []).append(m)
    for f in sorted(by_frame):
        # where even one letter meets a name on every level
        if len(ends) == 6 and min(ends) > view.x(f) + 3:
            out.append((f, "", None, view.x(f)))
            continue
        name = label_of(by_frame[f])
        wide = width_of(name, 11)
        x = min(view.x(f) + 3, WIDTH - 4 - wide)
        level = next((i for i, e in enumerate(ends) if e <= x), len(ends))
        if level < 6:
            ends[level:level + 1] = [x + wide + 6]
        out.append((f, name, level if level < 6 else None, x))
    return out


def uprights(marks, view, first, bottom):
    """The marks. Where there are many, those without a name are short, at most one a pixel."""
    many, seen, out = len(marks) > 60, set(), []
    style = 'stroke="%s" stroke-width="0.8" stroke-dasharray="4 3"' % ("#c4c4c4" if many else "#666")
    for f, name, level, x in marks:
        at = view.x(f)
        if level is None and many:
            if round(at) not in seen:
                out.append(stroke(at, first, at, first + 5, 'stroke="#999" stroke-width="0.8"'))
            seen.add(round(at))
            continue
        y = HEAD + (level or 0) * LEVEL
        out.append(stroke(at, y if level is not None else first - 4, at, bottom, style))
        if level is not None:
            out.append('<rect x="%.1f" y="%.1f" width="%.1f" height="%d" fill="white"/>' %
                       (x - 1, y - 10, width_of(name, 11), LEVEL - 1))
            out.append(text(x, y, name, 'font-size="11" fill="#222"'))
    return out


def below(story, view, y, unnamed, left_out):
    """The axis, its ticks, and what is said below it."""
    rate = next(iter(story.rates)) if len(story.rates) == 1 else None
    out = pictures.axis(view, y, rate)
    ticks = [f for f in story.rows.ticks if view.first <= f < view.last]
    close = len(ticks) * 3 > PLOT
    out += [] if close else [stroke(view.x(f), y, view.x(f), y + 8, 'stroke="#000" stroke-width="1.6"') for f in ticks]
    said = ["frames, %s a second" % format(round(rate), ",") if rate else "frames"]
    said += ["rates differ: no seconds"] * (len(story.rates) > 1)
    said += ["%s control ticks, too close to draw" % format(len(ticks), ",") if close
             else "a black stroke on the axis is a control tick"]
    said += ["%s marks without room for a name" % format(unnamed, ",")] * bool(unnamed)
    y += 58 if rate else 46
    for line in ["; ".join(said)] + [left_out] * bool(left_out):
        out.append(text(LEFT + PLOT / 2, y, line, 'text-anchor="middle"'))
        y += 18
    return out, y


def heading_of(story, dest):
    """A destination with its number, its target and its name, as far as it has them."""
    target = story.targets.get(dest)
    if target in story.titles:
        return "%s (destination %d, %s)" % (cut(story.titles[target], 40), dest, target)
    return "destination %d" % dest + (" (%s)" % target if target else "")


def panels_of(story, view, dests=(), audio=None):
    """The panels: (name, lines)."""
    every = not dests and audio is None
    asked = [(d, rows, "") for d, rows in sorted(story.rows.control.items()) if every or d in dests]
    asked += [(audio, story.rows.audio[audio], ", audio rate")] if audio in story.rows.audio else []
    lanes = [(heading_of(story, d) + more, pictures.lanes_of(rows, view)) for d, rows, more in asked]
    return [(name, lines_of(found)) for name, found in lanes if found]


def left_out(story, audio):
    """What is said of audio destinations that are not drawn."""
    rest = sorted(set(story.rows.audio) - {audio})
    if not rest:
        return ""
    said = "destinations %s are" if len(rest) > 1 else "destination %s is"
    return cut("audio %s left out (--audio %d draws %s)" % (
        said % cut(ranges(rest), 60), rest[0], "one" if len(rest) > 1 else "it"), 130)


def picture(title, story, view=None, panels=None, audio=None):
    """The SVG; without a view all frames, without panels all control destinations."""
    view = view or pictures.View(0, story.now)
    panels = panels_of(story, view) if panels is None else panels
    height = 150 if len(panels) <= 6 else 100
    marks = placed([m for m in story.marks if view.first <= m[0] <= view.last], view)
    levels = max([m[2] + 1 for m in marks if m[2] is not None], default=0)
    first = top = HEAD + levels * LEVEL + 22
    out, bottom = [], top
    for name, lines in panels:
        drawn, more = pictures.panel(top, height, name, lines, view)
        out += drawn
        bottom = top + more + height
        top = bottom + GAP
    foot, end = below(story, view, bottom, sum(m[2] is None for m in marks), left_out(story, audio))
    return pictures.drawing(title, uprights(marks, view, first, bottom) + out + foot, end)


def title_of(path, session):
    """The session's name with its first comment."""
    comments = (l.strip("# \r") for l in session.split("\n") if l.startswith("#") and not traces.NAMING.match(l))
    first = next((l for l in comments if l), "")
    return cut(os.path.basename(path) + (": " + first if first else ""), 100)


# ---- files


def printed(path, session):
    """What ./trace prints of the session in full, whatever its own lines say about printing, and its exit status."""
    full = "\n".join("#" if l.split()[:1] in (["print"], ["canon"]) else l for l in session.split("\n"))
    trace = os.path.join(os.path.dirname(os.path.realpath(__file__)), "trace")
    try:
        p = subprocess.run([trace], input=full.encode(), stdout=subprocess.PIPE)
    except OSError as e:
        fail("%s: %s" % (trace, e.strerror))
    if not p.stdout:
        fail("%s: ./trace printed nothing, exit status %d" % (path, p.returncode))
    return traces.Trace(p.stdout.decode("ascii", "replace")), p.returncode


def wrong_with(trace, status):
    """What is wrong with a trace, in words, or None."""
    if trace.ended():
        return trace.ended()
    if trace.cut:
        return "the trace is cut: %s (./trace: exit status %d)" % (trace.cut, status)
    return "./trace: exit status %d" % status if status else None


def found_dest(story, word, rows, kind):
    """The destination of that number, target or name."""
    found = [d for d in rows if word in (str(d), story.targets.get(d), story.name_of(d))]
    if not found:
        have = ", ".join(str(d) for d in sorted(rows)) or "none"
        fail("no %s destination %s has values; these have: %s" % (kind, word, cut(have, 200)), 2)
    return found[0]


def wanted(argv):
    p = argparse.ArgumentParser(prog="plot", description=__doc__, formatter_class=argparse.RawDescriptionHelpFormatter)
    p.add_argument("session", metavar="SESSION")
    p.add_argument("picture", metavar="PICTURE.svg", nargs="?",
                   help="where to write (SESSION with .svg in place of its ending)")
    p.add_argument("--from", dest="first", metavar="F", type=int, default=0, help="the first frame in the picture (0)")
    p.add_argument("--to", dest="last", metavar="F", type=int, help="the frame where the picture ends (the last)")
    p.add_argument("--dest", metavar="D", action="append", default=[],
                   help="this destination alone: its number, target or name; may be given again")
    p.add_argument("--audio", metavar="D",
                   help="draws this audio destination, each frame's value; without --dest nothing else")
    return p.parse_intermixed_args(argv)


def drawn(args, session, trace):
    """The picture of what was printed."""
    story = story_of(session, trace)
    last = story.now if args.last is None else args.last
    dests = [found_dest(story, d, story.rows.control, "control") for d in args.dest]
    audio = None if args.audio is None else found_dest(story, args.audio, story.rows.audio, "audio")
    if story.now and not 0 <= args.first < last <= story.now:
        fail("--from %d --to %d: the session has the frames 0 to %d" % (args.first, last, story.now), 2)
    view = pictures.View(args.first, last)
    panels = panels_of(story, view, dests, audio)
    if not panels:
        fail("%s: nothing to draw: no block has control values there (a swap to a program with a control destination, "
             "then `process`; of a destination per voice, a voice that sounds)%s" % (
                 args.session, "; " + left_out(story, None) if story.rows.audio else ""))
    return picture(title_of(args.session, session), story, view, panels, audio)


def main(argv):
    args = wanted(argv)
    out = args.picture or os.path.splitext(args.session)[0] + ".svg"
    if os.path.abspath(out) == os.path.abspath(args.session):
        fail("%s: the picture would be written over the session" % args.session, 2)
    try:
        session = traces.read_text(args.session)
    except traces.Bad as e:
        fail(str(e), 2)
    trace, status = printed(args.session, session)
    wrong = wrong_with(trace, status)
    if wrong:
        print("plot: %s: %s; drawn is what was played up to there" % (args.session, wrong), file=sys.stderr)
    svg = drawn(args, session, trace)
    try:
        with open(out, "w", encoding="utf-8") as f:
            f.write(svg)
    except OSError as e:
        fail("%s: %s" % (out, e.strerror))
    print(out)
    return 1 if wrong else 0


if __name__ == "__main__":
    # a long trace is hundreds of thousands of rows without a cycle
    gc.disable()
    sys.exit(main(sys.argv[1:]))
