#!/usr/bin/env python3
"""Captures of the wheels in examples/wheels, their reports, and the sizes of their tables.

For each wheel it draws an engine that keeps the wheel's limits: a speed that rises with a ripple, cams that lie where their phasing
allows, every time a whole microsecond; and it tests the limits, whole, on the times that it writes. The reports are those of
bench/reference.py and the sizes those of bench/tables.py, which share no code with the program; `outside/recipes` compares what the
program prints with them.

usage: bench/wheels.py            writes examples/wheels/*.csv, *.report, *.sizes, sets the line `# First at` of each wheel
       bench/wheels.py --check    compares them, and changes nothing
"""
import os
import random
import re
import subprocess
import sys
import tomllib

from reference import Wheel, keeps_limits
from tables import MOST, size

TOP = os.path.dirname(os.path.dirname(os.path.abspath(__file__)))
WHEELS = os.path.join(TOP, "examples/wheels")
MICRO = 10**9
FIRST = re.compile(r"^# First at: .*\n", re.M)

# the wheel: the crank edge that comes first, how many gaps follow, the speed at first in turns a minute, how far the cams lie in
# their ranges, in parts of a hundred
RUNS = {
    "4+1": (3, 8, 400, 40),
    "4-1": (1, 8, 300, 0),
    "12-1": (5, 14, 500, 0),
    "24+1": (6, 12, 240, 0),
    "24-1": (15, 14, 900, 0),
    "36+1": (16, 12, 260, 0),
    "36-1": (27, 14, 700, 0),
    "36-2": (26, 14, 320, 0),
    "36-1-two-cams": (62, 26, 800, 60),
    "60-2": (50, 14, 850, 0),
    "60-2-half-moon": (12, 50, 1000, 50),
    "optical-360": (14, 28, 180, 0),
    "uneven-4-5-6-9-12": (1, 12, 400, 0),
}


class Engine:
    """An engine's times at its crank edges, from edge `first` on, in whole microseconds."""

    def __init__(self, wheel, name):
        self.wheel = wheel
        self.first, gaps, rpm, self.part = RUNS[name]
        draws = random.Random(name)
        self.times = [2000]
        for m in range(self.first, self.first + gaps):
            rpm *= 1 + draws.uniform(-0.008, 0.02)
            slots = wheel.slot("crank", m + 1) - wheel.slot("crank", m)
            seconds = slots * wheel.degrees / len(wheel.slots) / 6 / rpm
            self.times.append(self.times[-1] + round(seconds * 10**6))
        passes = [(self.first + k, time * MICRO) for k, time in enumerate(self.times)]
        if not keeps_limits(wheel, passes):
            raise SystemExit("%s: the drawn engine does not keep the limits" % name)

    def time_at(self, slot):
        """The time, in microseconds, at this place in slots, or None outside of the capture. Past the last crank edge the speed stays."""
        slots = [self.wheel.slot("crank", self.first + k) for k in range(len(self.times))]
        for k in range(len(slots) - 1):
            if slots[k] <= slot <= slots[k + 1]:
                return self.times[k] + round((slot - slots[k]) * (self.times[k + 1] - self.times[k]) / (slots[k + 1] - slots[k]))
        return None


def changes(wheel, engine):
    """Each change of a level in the capture, (time, channel, level), and the levels before."""
    count, begin = len(wheel.slots), wheel.slot("crank", engine.first)
    found, before = [], {}
    for bit, channel in enumerate(("crank", "cam1", "cam2")):
        if not wheel.edges[channel]:
            continue
        reach = wheel.late[channel] + wheel.early[channel]
        shift = (reach * engine.part / 100 - wheel.early[channel]) / (1000 * wheel.degrees) * count if bit else 0
        level = lambda slot: wheel.slots[slot % count] >> bit & 1
        before[channel] = level(int((begin - shift) // 1) - (0 if bit else 1))
        for slot in range(begin - count, begin + 3 * count):
            if level(slot) != level(slot - 1) and (time := engine.time_at(slot + shift)) is not None:
                found.append((time, channel, level(slot)))
    return sorted(found, key=lambda change: change[0]), before


def capture(wheel, engine):
    found, levels = changes(wheel, engine)
    lines = ["time," + ",".join(levels), "0.000000," + ",".join(str(level) for level in levels.values())]
    for time in sorted({change[0] for change in found}):
        for at, channel, level in found:
            if at == time:
                levels[channel] = level
        lines.append("%d.%06d,%s" % (*divmod(time, 10**6), ",".join(str(level) for level in levels.values())))
    return "\n".join(lines) + "\n"


def first_at(report):
    """The comment that names the first line of a report with a position."""
    for line in report.splitlines():
        index, time, shape, kind, *rest = line.split()
        if kind == "at":
            edge = "the crank's edge" if shape == "C+" else "the cam's edge"
            return "# First at: instant %s, %s at %s us: %s %s\n" % (index, edge, int(time) // MICRO, kind, " ".join(rest))
    return "# First at: never\n"


def due(name):
    """The four texts of a wheel that the script makes."""
    path = os.path.join(WHEELS, name)
    with open(path + ".toml") as it:
        text = FIRST.sub("", it.read())
    wheel = Wheel(tomllib.loads(text))
    made = capture(wheel, Engine(wheel, name))
    with open(path + ".csv~", "w") as it:
        it.write(made)
    report = subprocess.run(
        [sys.executable, os.path.join(TOP, "bench/reference.py"), path + ".toml", path + ".csv~"],
        capture_output=True, text=True, check=True,
    ).stdout
    os.remove(path + ".csv~")
    head = re.match(r"(#.*\n)*", text)[0]
    told = head + first_at(report) + text[len(head):]
    return {path + ".toml": told, path + ".csv": made, path + ".report": report, path + ".sizes": size(wheel, MOST) + "\n"}


def main():
    names = sorted(name[:-5] for name in os.listdir(WHEELS) if name.endswith(".toml"))
    if names != sorted(RUNS):
        raise SystemExit("wheels: the wheels of the folder and those of the script differ")
    differ = 0
    for name in names:
        for path, text in due(name).items():
            if "--check" not in sys.argv[1:]:
                with open(path, "w") as it:
                    it.write(text)
            elif not os.path.exists(path) or open(path).read() != text:
                differ += 1
                print("wheels: %s differs" % os.path.relpath(path, TOP))
    if "--check" in sys.argv[1:]:
        print("wheels: %d wheels, %d files differ" % (len(names), differ))
    return 1 if differ else 0


if __name__ == "__main__":
    sys.exit(main())
