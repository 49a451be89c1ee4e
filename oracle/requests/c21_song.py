#!/usr/bin/env python3
"""c21_song.py SEED COUNT | --hold PROGRAM SEED COUNT | --faults [SEED COUNT] | --check SEED COUNT

C-21, how many voices a song needs: the line `song VOICES START:KEY:VELOCITY:LENGTH ..`.

Written from: document 02, C-21, and C-11's choice of voice (the lowest inactive one, else the one sounded longest ago);
the session lines of the requests' page.

Notes are stepped through in the order of the list, with a heap of ends: before a start every end at or before it is
taken off the heap, and an end frees its voice only where that voice still plays the note that it belongs to. Reported
are the starts onto an active voice and the most voices active after a start. --check holds this to a second writing, a
table of samples: at each start every note before it is asked whether it still sounds.

Decided here: 13, then 21, for bounds of single records and of the list alike, with no voices too; starts are equal or
rise; the list's records are judged whatever comes before them; without records 0 and 0; the line needs no engine.

Which of several inactive voices a note takes changes neither count, so no song tells the lowest from another: that is
C-11's to show (c11_cable.py).
"""
import heapq
import random
import sys

import common

FAULTS = [
    ("starts-first", "starts at a sample come before ends at it"),
    ("stolen-end", "a stolen note's end frees the voice"),
    ("end-early", "a note ends one sample before its end"),
    ("end-late", "a note ends one sample after its end"),
    ("steals-newest", "the voice sounded last is stolen"),
    ("steals-lowest", "voice 0 is stolen"),
    ("steals-next-end", "the voice that ends first is stolen"),
    ("same-key", "a note of the same key takes its voice"),
    ("most-before", "the most is counted before each start"),
    ("most-kept", "a stolen voice is counted twice"),
    ("most-is-notes", "the most goes by the notes, not the voices"),
    ("none-stolen", "with no voices every note counts as stolen"),
    ("stolen-all", "every start but the first counts as stolen"),
    ("no-voices-first", "with no voices nothing is judged"),
    ("voices-64", "64 voices are refused"),
    ("voices-65", "65 voices are accepted"),
    ("song-first", "21 is judged before 13"),
    ("records-256", "256 records are refused"),
    ("records-257", "257 records are accepted"),
    ("start-top", "a start of 100,000,000 is accepted"),
    ("length-0", "a length of 0 is accepted"),
    ("length-top", "a length of 1,000,001 is accepted"),
    ("length-million", "a length of 1,000,000 is refused"),
    ("key-128", "key 128 is accepted"),
    ("key-0", "key 0 is refused"),
    ("velocity-0", "velocity 0 is accepted"),
    ("velocity-128", "velocity 128 is accepted"),
    ("rising", "equal starts are refused"),
    ("falling", "starts that fall are accepted"),
    ("last-record", "the last record is not judged"),
]


def bad_record(start, key, velocity, length, fault):
    return (start >= 100_000_000 + (fault == "start-top") or key > 127 + (fault == "key-128") or
            key < (fault == "key-0") or velocity > 127 + (fault == "velocity-128") or
            velocity < 1 - (fault == "velocity-0") or length < 1 - (fault == "length-0") or
            length > 1_000_000 + (fault == "length-top") - (fault == "length-million"))


def row(voices, notes, fault=""):
    starts = [n[0] for n in notes]
    falls = any(b < a or (fault == "rising" and b == a) for a, b in zip(starts, starts[1:]))
    judged = notes[:-1] if fault == "last-record" else notes
    song = len(notes) > 256 + (fault == "records-257") - (fault == "records-256") or \
        any(bad_record(*n, fault) for n in judged) or (falls and fault != "falling")
    many = voices > 64 + (fault == "voices-65") - (fault == "voices-64")
    if fault == "no-voices-first" and voices == 0:
        return None
    both = [(13, many), (21, song)]
    return common.rows.first(*(both[::-1] if fault == "song-first" else both))


def chosen(voices, playing, sounded, note, ends, fault):
    """The voice of a note: playing has the note of each active voice, sounded when each voice sounded last."""
    if fault == "same-key" and any(k == note[1] for k, _ in playing.values()):
        return next(v for v, (k, _) in playing.items() if k == note[1])
    free = [v for v in range(voices) if v not in playing]
    if free:
        return min(free)
    if fault == "steals-newest":
        return max(sounded, key=sounded.get)
    if fault == "steals-next-end":
        return min(playing, key=lambda v: (ends[playing[v][1]], v))
    return 0 if fault == "steals-lowest" else min(sounded, key=sounded.get)


def counts(voices, notes, fault=""):
    if voices == 0:
        return (len(notes) if fault == "none-stolen" else 0), 0
    heap, playing, sounded, ends, stolen, most = [], {}, {}, {}, 0, 0
    for i, (start, key, _, length) in enumerate(notes):
        late = {"starts-first": 1, "end-late": 1, "end-early": -1}.get(fault, 0)
        while heap and heap[0][0] + late <= start:
            _, j, v = heapq.heappop(heap)
            if playing.get(v, (0, -1))[1] == j or (fault == "stolen-end" and v in playing):
                del playing[v]
        if fault == "most-before":
            most = max(most, len(playing))
        v = chosen(voices, playing, sounded, notes[i], ends, fault)
        stolen += v in playing or (fault == "stolen-all" and i > 0)
        extra = (v in playing) and fault == "most-kept"
        playing[v], sounded[v], ends[i] = (key, i), i, start + length
        heapq.heappush(heap, (start + length, i, v))
        if fault != "most-before":
            most = max(most, len(heap) if fault == "most-is-notes" else len(playing) + extra)
    return stolen, most


def parsed(w):
    return int(w[1]), [tuple(int(x) for x in note.split(":")) for note in w[2:]]


def owed(text, fault=""):
    out = {}
    for n, w in common.calls(text):
        if w[0] == "song":
            voices, notes = parsed(w)
            code = row(voices, notes, fault)
            out[n] = ["REFUSED %d" % code if code else "SONG %d %d" % counts(voices, notes, fault)]
    return out


# A second writing --------------------------------------------------------------------------------
def by_table(voices, notes):
    """Each note's voice and when it stops sounding: at its end, or when it is stolen. No heap."""
    took, stops, stolen, most = [], [], 0, 0
    for i, (start, _, _, length) in enumerate(notes if voices else []):
        sounding = {took[j]: j for j in range(i) if stops[j] > start}
        free = [v for v in range(voices) if v not in sounding]
        v = free[0] if free else min(sounding, key=sounding.get)
        if not free:
            stops[sounding[v]] = start
            stolen += 1
        took.append(v)
        stops.append(start + length)
        most = max(most, len(sounding) + bool(free))
    return stolen, most


# Sessions ----------------------------------------------------------------------------------------
def part(r):
    """Notes weighted to ends at starts, chords and voices that are stolen while their old end is still to come."""
    n = r.choice([0, 1, 2, 3, 5, 8, 12, 20, r.randrange(60), r.choice([65, 70, 255, 256])])
    unit, at, notes = r.choice([1, 10, 100, 1000]), r.choice([0, 0, 5, 99_000_000]), []
    for _ in range(n):
        if r.random() < 0.6:
            at += unit * r.choice([1, 1, 2, 3])
        span = unit * r.choice([1, 1, 2, 3, 4, 6, 10])
        span += r.choice([0, 0, 0, 0, -1, 1]) if span > 1 else 0
        span = span if r.random() < 0.97 else r.choice([1, 1_000_000, 999_999])
        notes.append([min(at, 99_999_999), r.choice([0, 60, 60, 62, 64, 127]), r.choice([1, 64, 127]), span])
    return notes


def damaged(r, notes):
    """One thing outside its bounds, or just inside."""
    if not notes:
        return notes
    i = r.choice([0, len(notes) - 1, r.randrange(len(notes))])
    place, x = r.choice([(0, 100_000_000), (0, 99_999_999), (0, 1 << 40), (1, 128), (1, 127), (1, 0), (1, 300), (2, 0),
                         (2, 1), (2, 128), (3, 0), (3, 1), (3, 1_000_000), (3, 1_000_001), (3, 1 << 33)])
    notes[i][place] = x
    if r.random() < 0.3 and i:
        notes[i][0] = max(notes[i - 1][0] - 1, 0)
    return notes


def song_line(r):
    notes = part(r)
    voices = r.choice([0, 1, 1, 2, 2, 3, 3, 4, 5, 8, 16, 63, 64, 64])
    if r.random() < 0.3:
        notes = damaged(r, notes)
    if r.random() < 0.08:
        voices = r.choice([65, 66, 1000, 1 << 40])
    if r.random() < 0.05:
        notes = [[100 * (i // r.choice([1, 2])), 60, 64, 150] for i in range(r.choice([255, 256, 257, 300]))]
        notes.sort()
    return "song %d %s" % (voices, " ".join(":".join(map(str, n)) for n in notes))


def session(seed):
    r = random.Random("c21 %d" % seed)
    return "\n".join(song_line(r).rstrip() for _ in range(20)) + "\n"


def check(first, count):
    r, bad = random.Random(first), 0
    for _ in range(count):
        voices, notes = r.choice([0, 1, 2, 3, 4, 7, 16, 63, 64]), part(r)
        bad += counts(voices, notes) != by_table(voices, notes)
    print("%d songs, %d differ from the second writing" % (count, bad))
    sys.exit(bad > 0)


if __name__ == "__main__":
    if sys.argv[1:2] == ["--check"]:
        check(*map(int, sys.argv[2:4]))
    common.main(__doc__, session, owed, FAULTS)
