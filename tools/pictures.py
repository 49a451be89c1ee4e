"""What ./plot and ./collate share for pictures: rows of values over frames, thinned to what a pixel shows, and the
parts of an SVG."""
import bisect
import itertools
import math
import operator
import re

from traces import PERIOD, row_of

WIDTH, LEFT, RIGHT, HEAD, GAP = 900, 84, 24, 46, 40
PLOT = WIDTH - LEFT - RIGHT
LEVEL = 13
# colour, width and dashes: in black and white the first three differ by width and grey, all by their dashes
STYLES = [("#8ab6d6", 5.0, ""), ("#c0392b", 2.6, "9 4"), ("#111111", 1.5, ""), ("#2e7d32", 2.2, "2 3"),
          ("#7b4b94", 2.2, "12 3 2 3"), ("#b8860b", 3.2, "5 5"), ("#00695c", 1.5, "6 2"), ("#5d4037", 1.5, "1 4")]
ALONE = ("#1b4f72", 2.2, "")


def finite(x):
    return math.isfinite(x)


# ---- rows


class Rows:
    """The values that blocks printed: by destination, rows (frame, length, phase, lanes, from, to), the last two as
    text, or as numbers. `lanes` are those that count, or None for all. An audio row has 1 frame, phase 0, and the
    same text twice."""

    def __init__(self):
        self.control, self.audio, self.ticks = {}, {}, []

    def block(self, now, start, body, lanes):
        """A block whose frame `start` is the frame `now` of the picture."""
        chunks, first = {}, ""
        for line in body.split("\n"):
            kind = line[:2]
            if kind == "FR":
                first = line
            elif kind == "TO":
                _, dest, chunk, _, last = line.split(" ", 4)
                # FROM stands above, with the same words before its numbers
                row = *chunks[chunk], lanes, first[len(line) - len(last) + 2:], last
                self.control.setdefault(int(dest), []).append(row)
            elif kind == "A ":
                _, dest, frame, _, row = line.split(" ", 4)
                self.audio.setdefault(int(dest), []).append((now + int(frame) - start, 1, 0, lanes, row, row))
            elif kind == "CH":
                _, i, at, length, phase, tick = line.split(" ")
                chunks[i] = now + int(at) - start, int(length), int(phase)
                if tick == "1":
                    self.ticks.append(chunks[i][0])
            elif kind == "D ":
                _, dest, at, length, phase, tick, first, last = line.split(" ")
                row = now + int(at) - start, int(length), int(phase), lanes, first, last
                self.control.setdefault(int(dest), []).append(row)


class View:
    """The frames that a picture shows, and where they stand."""

    def __init__(self, first, last):
        self.first, self.last = first, last
        self.span = max(last - first, 1)

    def x(self, frame):
        return LEFT + (frame - self.first) / self.span * PLOT

    def behind(self, frame):
        """The first frame behind the half of a pixel that a frame stands in."""
        column = int((frame - self.first) * 2 * PLOT // self.span) + 1
        return self.first - (-column * self.span // (2 * PLOT))

    def inside(self, row):
        """The part of a row in view, or None."""
        at, length, phase, lanes, first, last = row
        start, end = max(at, self.first), min(at + length, self.last)
        if start >= end:
            return None
        if (start, end) == (at, at + length):
            return row
        return start, end - start, phase + start - at, lanes, first, last

    def columns(self, rows):
        """The rows in view, those that begin in one half of a pixel together; rows of another width stand alone."""
        ats = [r[0] for r in rows]
        low, high = bisect.bisect_left(ats, self.first), bisect.bisect_left(ats, self.last)
        # the first may begin before the view, the last may end behind it
        low = max(low - 1, 0)
        edges = rows[low:low + 2], rows[max(low + 2, high - 1):high]
        begin, end = ([r for r in map(self.inside, some) if r] for some in edges)
        rows = begin + rows[low + 2:high - 1] + end
        ats, i = [r[0] for r in rows], 0
        while i < len(rows):
            j = bisect.bisect_left(ats, self.behind(ats[i]), i + 1)
            some = rows[i:j]
            yield from [some] if len({len(r[4]) for r in some}) == 1 else [[r] for r in some]
            i = j


def flat(rows):
    """The numbers of rows of one width, one after the other, and the width."""
    if isinstance(rows[0], tuple):
        return tuple(itertools.chain.from_iterable(rows)), len(rows[0])
    return row_of(" ".join(rows)), (len(rows[0]) + 1) // 9


def lanes_of(rows, view):
    """By lane (None: one value for all), ramps (frame, from, to, length): all of them, or what half a pixel shows of
    them."""
    out = {}
    for some in view.columns(rows):
        ats, lengths, phases, lanes, first, last = zip(*some)
        (x, width), (y, _) = flat(first), flat(last)
        whole = all(n == PERIOD for n in lengths) or first[0] is last[0]
        counted = None if width == 1 or None in lanes else set(lanes)
        for lane in range(width) if counted is None else sorted(set().union(*counted) & set(range(width))):
            xs, ys = x[lane::width], y[lane::width]
            if not whole:
                both = list(zip(xs, ys))
                xs = [p + (q - p) / PERIOD * f for (p, q), f in zip(both, phases)]
                ys = [p + (q - p) / PERIOD * (f + n) for (p, q), f, n in zip(both, phases, lengths)]
            ramps = list(zip(ats, xs, ys, lengths))
            if counted and len(counted) > 1:
                ramps = [r for r, these in zip(ramps, lanes) if lane in these]
            out.setdefault(None if width == 1 else lane, []).extend(ramps if len(ramps) <= 2 else shown(ramps))
    return out


def shown(ramps):
    """Ramps in place of these within half a pixel: first, least, greatest and last value are the same. A value that
    is no finite number ends the line."""
    ats, xs, ys, lengths = zip(*ramps)
    values, frames = [0.0] * (2 * len(xs)), list(ats) * 2
    values[0::2], values[1::2] = xs, ys
    frames[0::2], frames[1::2] = ats, map(operator.add, ats, lengths)
    broken = not finite(sum(values))
    if broken:
        kept = [k for k, v in enumerate(values) if finite(v)]
        values, frames = [values[k] for k in kept], [frames[k] for k in kept]
    keep = sorted({0, len(values) - 1, values.index(min(values)), values.index(max(values))}) if values else []
    out = [(frames[a], values[a], values[b], frames[b] - frames[a]) for a, b in zip(keep, keep[1:] or keep)]
    return out + [(ramps[-1][0], math.nan, math.nan, ramps[-1][3])] if broken else out


def points_of(rows):
    """Unbroken lines, each a list of (frame, value)."""
    lines = []
    for at, x, y, length in rows:
        if not (finite(x) and finite(y)):
            lines.append([])
            continue
        if not lines or not lines[-1] or lines[-1][-1][0] != at:
            lines.append([(at, x)])
        elif lines[-1][-1][1] != x:
            lines[-1].append((at, x))
        lines[-1].append((at + length, y))
    return [l for l in lines if l]


def straightened(line):
    """Without points that lie on the way between their neighbours."""
    out = []
    for p in line:
        while len(out) > 1:
            (a, x), (b, y) = out[-2], out[-1]
            if a < b < p[0] and abs(x + (p[1] - x) * (b - a) / (p[0] - a) - y) <= 1e-9 * max(abs(x), abs(y), abs(p[1])):
                out.pop()
            else:
                break
        out.append(p)
    return out


# ---- words


def escaped(s):
    """As a text of an SVG; characters that XML does not take stand as a mark."""
    s = re.sub("[\x00-\x08\x0b-\x1f\x7f\ufffe\uffff]", "\ufffd", s)
    return s.replace("&", "&amp;").replace("<", "&lt;").replace(">", "&gt;")


def text(x, y, s, more=""):
    return '<text x="%.1f" y="%.1f" %s>%s</text>' % (x, y, more, escaped(s))


def stroke(x1, y1, x2, y2, more):
    return '<line x1="%.1f" y1="%.1f" x2="%.1f" y2="%.1f" %s/>' % (x1, y1, x2, y2, more)


def width_of(s, size):
    """About the width of a text."""
    return len(s) * size * 0.6


def cut(s, most):
    return s if len(s) <= most else s[:most - 1] + "…"


def ranges(numbers):
    """0, 1, 2, 5 as '0-2, 5'."""
    out = []
    for n in sorted(set(numbers)):
        if out and out[-1][1] == n - 1:
            out[-1][1] = n
        else:
            out.append([n, n])
    return ", ".join("%d" % a if a == b else "%d, %d" % (a, b) if b == a + 1 else "%d-%d" % (a, b) for a, b in out)


def word(x, step):
    """A number on an axis whose lines are `step` apart."""
    if abs(x) < step / 1e3:
        return "0"
    if 1e-4 <= abs(x) < 1e6 and step >= 1e-6:
        return ("%.7f" % x).rstrip("0").rstrip(".")
    return "%.6g" % x


# ---- panels


def scale(lanes):
    """Round numbers around all values, and the step between the lines drawn."""
    xs = [x for rows in lanes.values() for r in rows for x in r[1:3] if finite(x)]
    if not xs:
        return 0.0, 1.0, 0.5
    low, high = min(xs), max(xs)
    # a line that stands, or nearly so, has room around it
    room = max(high - low, 1e-4 * max(abs(low), abs(high))) or 1.0
    if high == low:
        room = abs(high) or 1.0
    step = next(m * 10.0 ** e for e in range(-50, 45) for m in (1, 2, 2.5, 5) if room / (m * 10.0 ** e) <= 4)
    return math.floor(low / step - 0.1) * step, math.ceil(high / step + 0.1) * step, step


def path(rows, x_of, y_of, style):
    ink, width, dash = style
    d = []
    for line in points_of(rows):
        d.append("M" + "L".join("%.1f %.1f" % (x_of(f), y_of(v)) for f, v in straightened(line)))
    return '<path d="%s" fill="none" stroke="%s" stroke-width="%.1f" stroke-linejoin="round"%s/>' % (
        "".join(d), ink, width, ' stroke-dasharray="%s"' % dash if dash else "")


def keys(named):
    """The names of a panel's lines with a sample of each, in rows from the right: (row, x, name, style)."""
    out, row, x = [], 0, float(LEFT + 330)
    for name, style in named:
        wide = 34 + width_of(name, 12) + 12
        if x + wide > WIDTH - RIGHT and x > LEFT + 330:
            row, x = row + 1, float(LEFT + 330)
        out.append((row, x, name, style))
        x += wide
    return out


def heading(top, name, named):
    """A panel's name with those of its lines, and how much room they take."""
    placed = keys(named)
    more = max([k[0] for k in placed], default=0) * LEVEL
    out = ['<rect x="%d" y="%.1f" width="%d" height="%d" fill="white"/>' % (LEFT - 2, top - 21, PLOT + 4, 20 + more),
           text(LEFT, top - 8, name, 'font-weight="bold"')]
    for row, x, key, style in placed:
        y = top - 8 + row * LEVEL
        out += [stroke(x, y - 4, x + 28, y - 4, 'stroke="%s" stroke-width="%.1f"%s' % (
            style[0], style[1], ' stroke-dasharray="%s"' % style[2] if style[2] else "")), text(x + 34, y, key)]
    return out, more


def panel(top, height, name, lines, view):
    """A panel of lines (name or None, ramps, style), and how much higher than `height` it is with the names of its
    lines."""
    out, more = heading(top, name, [(n, style) for n, _, style in lines if n])
    top += more
    low, high, step = scale({k: ramps for k, (_, ramps, _) in enumerate(lines)})
    y_of = lambda v: top + height - (v - low) / (high - low) * height
    for k in range(round((high - low) / step) + 1):
        v = low + step * k
        out.append(stroke(LEFT, y_of(v), WIDTH - RIGHT, y_of(v), 'stroke="#d8d8d8"'))
        out.append(text(LEFT - 7, y_of(v) + 4, word(v, step), 'text-anchor="end"'))
    out.append('<rect x="%d" y="%.1f" width="%d" height="%.1f" fill="none" stroke="#777"/>' % (LEFT, top, PLOT, height))
    out += [path(ramps, view.x, y_of, style) for _, ramps, style in lines]
    if any(not finite(x) for _, ramps, _ in lines for r in ramps for x in r[1:3]):
        out.append(text(WIDTH - RIGHT - 6, top + height - 6, "gaps: a value that is no finite number",
                        'text-anchor="end" font-style="italic"'))
    return out, more


# ---- the axis


def axis(view, y, rate):
    """Frames, and below them their seconds where the rate is known."""
    span = view.last - view.first
    step = next(2 ** e for e in range(70) if span / 2 ** e <= 12)
    unit = None if not rate or not finite(rate) else ("s", 1) if span / rate >= 1 else ("ms", 1000)
    time = lambda f: decimals(f / rate * unit[1], step / rate * unit[1]) + " " + unit[0]
    out = []

    def label(f, x, anchor):
        out.append(text(x, y + 22, format(f, ","), 'text-anchor="%s"' % anchor))
        if unit:
            out.append(text(x, y + 37, time(f), 'text-anchor="%s" font-size="11" fill="#555"' % anchor))

    wide = lambda f: max(width_of(format(f, ","), 12), width_of(time(f), 11) if unit else 0)
    first = -(-view.first // step) * step
    for f in range(first, view.last + 1, step):
        out.append(stroke(view.x(f), y, view.x(f), y + 4, 'stroke="#777"'))
        # the last frame's own number stands at the end
        if f == view.last or view.x(view.last) - view.x(f) > wide(f) / 2 + wide(view.last) + 8:
            outside = view.x(f) + wide(f) / 2 > WIDTH - 4
            label(f, WIDTH - 4 if outside else view.x(f), "end" if outside else "middle")
    if view.last % step:
        label(view.last, WIDTH - RIGHT, "end")
    return out


def decimals(x, step):
    """A time with as many digits as tell marks `step` apart, at least to a thousandth part of it."""
    digits = max(0, 2 - math.floor(math.log10(step)))
    said = "%.*f" % (min(digits, 9), x)
    return said.rstrip("0").rstrip(".") if "." in said else said


def drawing(title, parts, bottom):
    """The whole SVG."""
    total = math.ceil(bottom)
    return "\n".join(['<svg xmlns="http://www.w3.org/2000/svg" viewBox="0 0 %d %d" width="%d" height="%d" '
                      'font-family="DejaVu Sans, Verdana, sans-serif" font-size="12">' % (WIDTH, total, WIDTH, total),
                      '<rect width="100%" height="100%" fill="white"/>', text(LEFT, 22, title, 'font-size="14"')]
                     + parts + ["</svg>"]) + "\n"
