#!/usr/bin/env python3
"""Prints a table of rows with what the independent computation of stimulus.py tells of the files of their instants.

usage: bench/files.py TABLE | diff TABLE -
       bench/files.py made              prints rows of both files of the stimuli of twenty wheels

Rows of crates/stimulus_rows/stdin are told anew. Other lines are printed as they stand.
"""
import re
import sys

from reference import CHANNELS, Wheel
from stimulus import changes_of, csv_of, instants, shown, vcd_of

SIGNS = {"+": "rising", "-": "falling", "*": "both"}
UNITS = {"fs": 1, "ms": 10**12}
MOST = 10**24


def edges_of(text):
    """The edges of each channel in instants as `C+1- 15ms`."""
    edges = {channel: [] for channel in CHANNELS}
    for part in text.split(", "):
        shape, number, unit = re.fullmatch(r"(\S+) (-?\d+)(fs|ms)", part).groups()
        for mark, polarity in re.findall(r"([C12])([+-])", shape):
            edges[CHANNELS["C12".index(mark)]].append((int(number) * UNITS[unit], polarity))
    return edges


def stamps_of(watch, edges):
    """The levels at time 0 and then those that change, for each time with a change; None where changes do not rise, or are too late."""
    stamps = {0: {}}
    if any(abs(time) > MOST for times in edges.values() for time, _ in times):
        return None
    for channel, sign in zip(CHANNELS, watch):
        if sign == ".":
            continue
        level, changes = changes_of(SIGNS[sign], edges[channel])
        times = [0, *(time for time, _ in changes)]
        if any(later <= time or later > MOST for time, later in zip(times, times[1:])):
            return None
        for time, level in [(0, level), *changes]:
            stamps.setdefault(time, {})[channel] = level
    return sorted(stamps.items())


def told(kind, watch, text):
    stamps = stamps_of(watch, edges_of(text))
    return "refused" if stamps is None else {"csv": csv_of, "vcd": vcd_of}[kind](stamps).replace("\n", "␤")


def twenty():
    """Wheels with and without cams, of each polarity, with cams that are wider than half a cycle, and with one tooth."""
    teeth = {"teeth": 6, "missing": 1}
    cams = {"degrees": 720, "cam1_high": (2, 5), "cam2_high": (20, 3)}
    wide = {"cam1_early": 200_000, "cam1_late": 250_000, "cam2_early": 400_000, "cam2_late": 300_000}
    keeps = [("rising", "rising", "rising"), ("falling", "falling", "falling"), ("both", "both", "both"), ("rising", "both", "falling")]
    for keep in keeps:
        kept = dict(zip(CHANNELS, keep))
        yield {**teeth, **kept}
        yield {**teeth, **cams, **kept}
        yield {**teeth, **cams, **wide, **kept}
        yield {"teeth": 1, "missing": 0, **kept}
        yield {"slots": [1, 0, 4, 6], "cam2_late": 120_000, **kept}


def made():
    for seed, file in enumerate(twenty()):
        wheel = Wheel({"rpm_low": 600, "rpm_high": 6000, "ratio": (3, 2), **file})
        text = ", ".join(shown(*instant) for instant in instants(wheel, seed, 8))
        watch = "".join("+-*"[("rising", "falling", "both").index(wheel.keep[c])] if wheel.edges[c] else "." for c in CHANNELS)
        for kind in ("csv", "vcd"):
            print("%s | %s | %s => %s" % (kind, watch, text, told(kind, watch, text)))


def main(path):
    if path == "made":
        return made()
    for line in open(path):
        run, arrow, _ = line.rstrip("\n").partition(" => ")
        print(run + arrow + told(*run.split(" | ")) if arrow else run)


if __name__ == "__main__":
    main(*sys.argv[1:])
