#!/usr/bin/env python3
"""An independent computation of reports.

It follows every start place through all instants of a window by itself, from the definition of permitted motions: it chooses
angles, the least ones, that never fall and stand before and after each move, tries every order of the edges of one instant,
and tests whole histories against the limits on speed and ratio. It shares no code with the program, keeps no set of places,
and is for small captures.

usage: bench/reference.py WHEEL CAPTURE [CRANK [CAM1 [CAM2]]]        prints the report
"""
import itertools
import re
import sys
import tomllib
from decimal import Decimal

CHANNELS = ("crank", "cam1", "cam2")


class Wheel:
    def __init__(self, file):
        self.degrees = file.get("degrees", 360)
        self.slots = file["slots"] if "slots" in file else self.pattern(file)
        self.low, self.high = file["rpm_low"], file["rpm_high"]
        self.rn, self.rd = file["ratio"]
        self.keep = {c: file.get(c, "rising") for c in CHANNELS}
        self.early = {c: file.get(c + "_early", 0) for c in CHANNELS}
        self.late = {c: file.get(c + "_late", 0) for c in CHANNELS}
        self.edges = {c: self.edges_on(bit, self.keep[c]) for bit, c in enumerate(CHANNELS)}

    def pattern(self, file):
        turn = [1, 0] * (file["teeth"] - file["missing"]) + [0, 0] * file["missing"]
        slots = turn * (2 if self.degrees == 720 else 1)
        for bit, key in ((2, "cam1_high"), (4, "cam2_high")):
            first, count = file.get(key, (0, 0))
            for k in range(first, first + count):
                slots[k % len(slots)] += bit
        return slots

    def edges_on(self, bit, keep):
        edges = []
        for k, slot in enumerate(self.slots):
            before, level = self.slots[k - 1] >> bit & 1, slot >> bit & 1
            if before != level and keep in ("both", "rising" if level else "falling"):
                edges.append((k, "+" if level else "-"))
        return edges

    def slot(self, channel, m):
        edges = self.edges[channel]
        return m // len(edges) * len(self.slots) + edges[m % len(edges)][0]

    def angle(self, channel, m):
        return 1000 * self.degrees * self.slot(channel, m)

    def range(self, channel, m):
        """Where edge m may fall, in units of a millidegree over the number of slots."""
        n = len(self.slots)
        return self.angle(channel, m) - self.early[channel] * n, self.angle(channel, m) + self.late[channel] * n

    def span(self, indices):
        """The least and the greatest angle that stand with these next edges."""
        low, high = [], []
        for channel, m in indices.items():
            if self.edges[channel]:
                low.append(self.range(channel, m - 1)[0])
                high.append(self.range(channel, m)[1])
            elif m:
                return 1, 0
        return max(low), min(high)

    def places(self):
        """Every place that stands: the last crank edge passed, and the next edges of the cams."""
        found = []
        counts = [len(self.edges[c]) for c in CHANNELS]
        for j in range(counts[0]):
            for n1, n2 in itertools.product(*[range(-2 * k - 2, 3 * k + 3) if k else (0,) for k in counts[1:]]):
                low, high = self.span({"crank": j + 1, "cam1": n1, "cam2": n2})
                if low <= high:
                    found.append((j, n1, n2))
        return found

    def place(self, indices):
        cycles, j = divmod(indices["crank"] - 1, len(self.edges["crank"]))
        return (j, *(indices[c] - cycles * len(self.edges[c]) for c in CHANNELS[1:]))


def stamps_of_csv(path, watched, names):
    rows = [[field.strip() for field in line.split(",")] for line in open(path) if line.strip()]
    column = {c: rows[0].index(names.get(c, c)) for c in watched}
    stamps = {}
    for row in rows[1:]:
        stamps.setdefault(int(Decimal(row[0]) * 10**15), {}).update({c: row[column[c]] for c in watched})
    return stamps


def stamps_of_dump(path, watched, names):
    """The scalar changes of a value change dump, for dumps of one scope."""
    header, changes = open(path).read().split("$enddefinitions")
    units = {"s": 15, "ms": 12, "us": 9, "ns": 6, "ps": 3, "fs": 0}
    scale = re.search(r"\$timescale\s+(\d+)\s*(\w+)\s+\$end", header)
    scale = int(scale[1]) * 10 ** units[scale[2]]
    codes = {name: code for code, name in re.findall(r"\$var\s+\S+\s+1\s+(\S+)\s+(\S+)\s", header)}
    channels = {codes[names.get(c, c)]: c for c in watched}
    stamps, time = {}, 0
    for word in changes.split():
        if word[0] == "#" and word[1:].isdigit():
            time = int(word[1:]) * scale
        elif word[0] in "01" and word[1:] in channels:
            stamps.setdefault(time, {})[channels[word[1:]]] = word[0]
    return stamps


def instants_of(wheel, path, names):
    watched = [c for c in CHANNELS if wheel.edges[c] or c in names]
    is_dump = open(path).read().lstrip().startswith("$")
    stamps = (stamps_of_dump if is_dump else stamps_of_csv)(path, watched, names)
    instants, known = [], {}
    for time in sorted(stamps):
        edges = {}
        for c, level in stamps[time].items():
            if c in known and known[c] != level and wheel.keep[c] in ("both", "rising" if level == "1" else "falling"):
                edges[c] = "+" if level == "1" else "-"
            known[c] = level
        if edges:
            instants.append((time, edges))
    return instants


def keeps_speed(wheel, s, t):
    """Whether a gap of these slots may take this time."""
    way = s * wheel.degrees * 10**15
    return t >= 1 and wheel.low * 6 * len(wheel.slots) * t <= way <= wheel.high * 6 * len(wheel.slots) * t


def keeps_ratio(wheel, s0, t0, s1, t1):
    """Whether a gap of s1 slots in the time t1 may follow one of s0 slots in the time t0."""
    return s0 * t1 * wheel.rd <= s1 * t0 * wheel.rn and s1 * t0 * wheel.rd <= s0 * t1 * wheel.rn


def keeps_limits(wheel, passes):
    """Whether crank edges passed at these times keep the limits on speed and on its ratio."""
    gaps = [(wheel.slot("crank", n) - wheel.slot("crank", m), u - t) for (m, t), (n, u) in zip(passes, passes[1:])]
    return all(keeps_speed(wheel, *gap) for gap in gaps) and all(
        keeps_ratio(wheel, *before, *gap) for before, gap in zip(gaps, gaps[1:])
    )


def move(wheel, angle, indices, channel, polarity):
    """The angle and the next edges after a move of the channel, or None."""
    edges = wheel.edges[channel]
    if not edges or edges[indices[channel] % len(edges)][1] != polarity:
        return None
    after = {**indices, channel: indices[channel] + 1}
    low, high = wheel.span(after)
    angle = max(angle, low)
    return (angle, after) if angle <= min(high, wheel.span(indices)[1]) else None


def ends(wheel, start, instants):
    """The end place of the permitted motions that begin at a place and give the instants, or None."""
    indices = dict(zip(CHANNELS, (start[0] + 1, *start[1:])))
    state, passes = (wheel.span(indices)[0], indices), []
    for time, edges in instants:
        if "crank" in edges:
            passes.append((indices["crank"], time))
            indices = {**indices, "crank": indices["crank"] + 1}
        after = [moves(wheel, state, order, edges) for order in itertools.permutations(edges)]
        # every order that works ends with the same next edges; the least angle leaves most to come
        state = min((end for end in after if end), key=lambda end: end[0], default=None)
        if not state:
            return None
    return wheel.place(state[1]) if keeps_limits(wheel, passes) else None


def moves(wheel, state, order, edges):
    for channel in order:
        state = state and move(wheel, *state, channel, edges[channel])
    return state


def verdict(wheel, places, instants):
    found = sorted((end, start) for start in places if (end := ends(wheel, start, instants)) is not None)
    if not found:
        return None
    others = [pair for pair in found if pair[0][0] != found[0][0][0]]
    if not others:
        j = found[0][0][0]
        return "at %d slot %d" % (j, wheel.edges["crank"][j][0])
    return "open %d:%d:%d %d:%d:%d" % (*found[0][1], *others[0][1])


def report(wheel, instants):
    places, window = wheel.places(), []
    for index, (time, edges) in enumerate(instants, 1):
        window = window + [(time, edges)]
        says = verdict(wheel, places, window)
        shape = "".join(mark + edges[c] for mark, c in zip("C12", CHANNELS) if c in edges)
        print(index, time, shape, says or "lost")
        if says is None:
            window = window[-1:] if len(window) > 1 and verdict(wheel, places, window[-1:]) else []


if __name__ == "__main__":
    wheel = Wheel(tomllib.load(open(sys.argv[1], "rb")))
    names = dict(zip(CHANNELS, sys.argv[3:]))
    report(wheel, instants_of(wheel, sys.argv[2], names))
