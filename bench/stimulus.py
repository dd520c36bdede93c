#!/usr/bin/env python3
"""An independent computation of stimuli and of their files.

Numbers come from PCG XSH RR 64/32 by its published definition: a state of 64 bits that a step multiplies by a constant and adds an odd
number to, which is twice the stream and 1, and a word of 32 bits that an exclusive or, a shift and a rotation make of the state before
the step. It shares no code with the program. It lists the edges of each channel, sorts them by time and groups those of one time.

usage: bench/stimulus.py WHEEL SEED GAPS             prints the instants, as `C+1- 1000000000000fs`
       bench/stimulus.py WHEEL SEED GAPS csv|vcd     prints the file of them
"""
import sys
import tomllib

from reference import CHANNELS, Wheel

BITS = 2**64 - 1
FIRST_TIME = 10**12
MOST_EDGES = 4_000_000


class Generator:
    def __init__(self, seed, stream):
        self.step = (2 * stream + 1) & BITS
        self.state = 0
        self.word()
        self.state = (self.state + seed) & BITS
        self.word()

    def word(self):
        old = self.state
        self.state = (old * 6364136223846793005 + self.step) & BITS
        mixed, turn = (old >> 18 ^ old) >> 27 & 0xFFFFFFFF, old >> 59
        return (mixed >> turn | mixed << (-turn & 31)) & 0xFFFFFFFF

    def draw(self, low, high):
        first, second = self.word(), self.word()
        return low + (first + (second << 32)) % (high - low + 1)


class Refused(Exception):
    """Why there is no stimulus."""


def crank_edges(wheel, seed, gaps):
    """The number and the time of each crank edge."""
    generator = Generator(seed, 0)
    edges = [(generator.draw(0, len(wheel.edges["crank"]) - 1), FIRST_TIME)]
    pace, before = 6 * len(wheel.slots), None
    for gap in range(gaps):
        j, time = edges[-1]
        slots = wheel.slot("crank", j + 1) - wheel.slot("crank", j)
        way = slots * wheel.degrees * 10**15
        low, high = -(-way // (pace * wheel.high)), way // (pace * wheel.low)
        if before:
            low = max(low, -(-slots * before[1] * wheel.rd // (before[0] * wheel.rn)))
            high = min(high, slots * before[1] * wheel.rn // (before[0] * wheel.rd))
        if low > high:
            raise Refused("stuck %d %d %d" % (gap, low, high))
        before = slots, generator.draw(low, high)
        edges.append((j + 1, time + before[1]))
    return edges


def cam_edges(wheel, channel, seed, first, end):
    """The number and the angle of each edge of a cam, from the first crank edge's angle on and before the last one's."""
    edges, generator = [], Generator(seed, CHANNELS.index(channel))
    if not wheel.edges[channel]:
        return edges
    n, free = 0, first
    while wheel.angle(channel, n) < first:
        n += 1
    while True:
        low, high = wheel.range(channel, n)
        angle = generator.draw(max(low, free), high)
        if angle >= end:
            return edges
        edges.append((n, angle))
        n, free = n + 1, angle + 1


def edges_of(wheel, seed, gaps):
    """The edges of each channel, with their times and polarities."""
    cranks = crank_edges(wheel, seed, gaps)
    angles = [wheel.angle("crank", j) for j, _ in cranks]
    found = {"crank": [(time, wheel.edges["crank"][j % len(wheel.edges["crank"])][1]) for j, time in cranks]}
    for channel in CHANNELS[1:]:
        found[channel], gap = [], 0
        for n, angle in cam_edges(wheel, channel, seed, angles[0], angles[-1]):
            while angles[gap + 1] <= angle:
                gap += 1
            (_, time), (_, later) = cranks[gap : gap + 2]
            time += (later - time) * (angle - angles[gap]) // (angles[gap + 1] - angles[gap])
            found[channel].append((time, wheel.edges[channel][n % len(wheel.edges[channel])][1]))
    if sum(map(len, found.values())) > MOST_EDGES:
        raise Refused("limit: edges")
    return found


def instants(wheel, seed, gaps):
    """The instants: a time, and the polarity of each channel that has an edge then."""
    grouped = {}
    for channel, edges in edges_of(wheel, seed, gaps).items():
        for time, polarity in edges:
            grouped.setdefault(time, {})[channel] = polarity
    return sorted(grouped.items())


def shown(time, edges):
    return "%s %dfs" % ("".join(mark + edges[c] for mark, c in zip("C12", CHANNELS) if c in edges), time)


def changes_of(keep, edges):
    """The level of a channel before its first edge, and the time and the level of each change."""
    changes = []
    for at, (time, polarity) in enumerate(edges):
        changes.append((time, polarity == "+"))
        if keep != "both" and at + 1 < len(edges):
            changes.append(((time + edges[at + 1][0]) // 2, polarity != "+"))
    return bool(edges) and edges[0][1] == "-", changes


def stamps_of(wheel, seed, gaps):
    """The levels at time 0, and then for each time with a change the levels that change there."""
    stamps = {0: {}}
    for channel, edges in edges_of(wheel, seed, gaps).items():
        if wheel.edges[channel]:
            level, changes = changes_of(wheel.keep[channel], edges)
            for time, level in [(0, level), *changes]:
                stamps.setdefault(time, {})[channel] = level
    return sorted(stamps.items())


def csv_of(stamps):
    levels = dict(stamps[0][1])
    lines = [",".join(["time", *levels])]
    for time, changed in stamps:
        levels |= changed
        lines.append("%d.%015d,%s" % (*divmod(time, 10**15), ",".join(str(int(level)) for level in levels.values())))
    return "\n".join(lines) + "\n"


def vcd_of(stamps):
    codes = dict(zip(CHANNELS, '!"#'))
    lines = ["$timescale 1 fs $end", "$scope module wheel $end"]
    lines += ["$var wire 1 %s %s $end" % (codes[c], c) for c in stamps[0][1]]
    lines += ["$upscope $end", "$enddefinitions $end"]
    for time, changed in stamps:
        scalars = ["%d%s" % (level, codes[c]) for c, level in sorted(changed.items(), key=lambda item: CHANNELS.index(item[0]))]
        lines += ["#%d" % time, *(scalars if time else ["$dumpvars", *scalars, "$end"])]
    return "\n".join(lines) + "\n"


def told(wheel, seed, gaps):
    """The instants as a row tells them."""
    try:
        return ", ".join(shown(*instant) for instant in instants(wheel, seed, gaps))
    except Refused as why:
        return str(why)


def totals(wheel, seed, gaps):
    """How many instants, how many edges, the last instant, and two sums of times."""
    try:
        made = instants(wheel, seed, gaps)
    except Refused as why:
        return str(why)
    times = [time for time, _ in made]
    counts = len(made), sum(len(edges) for _, edges in made)
    sums = sum(times) % 2**64, sum(at * time for at, time in enumerate(times, 1)) % 2**64
    return "%d instants, %d edges, sums %d %d, %s" % (*counts, *sums, shown(*made[-1]))


def main(path, seed, gaps, kind=None):
    wheel = Wheel(tomllib.load(open(path, "rb")))
    if kind:
        stamps = stamps_of(wheel, int(seed), int(gaps))
        sys.stdout.write({"csv": csv_of, "vcd": vcd_of}[kind](stamps))
    else:
        print(told(wheel, int(seed), int(gaps)))


if __name__ == "__main__":
    main(*sys.argv[1:])
