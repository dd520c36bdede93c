#!/usr/bin/env python3
"""Prints the table of runs with what the independent computations of this folder tell of its rows over images and stimuli.

The audit, the walk, stimuli and images are those of audits.py, images.py, stimulus.py and tables.py, and reports are those of reference.py. A wheel's file is printed in the
form of a TOML table whose keys ascend. Rows in which a call fails, or many gaps are asked for, and all other rows, are printed as they stand.

usage: bench/runs.py crates/run_rows/stdin | diff crates/run_rows/stdin -
"""
import contextlib
import io
import os
import re
import sys
import tempfile
import tomllib

from audits import told_of_audit
from images import Fields, told_of_bytes, walked
from reference import CHANNELS, Wheel, instants_of, report
from stimulus import Refused, instants
from tables import MOST, PLACES, image, size

DATA = os.path.join(os.path.dirname(os.path.abspath(__file__)), "..", "crates", "run_rows", "data")
# how many gaps are computed here at most
FEW = 10_000
NAMES = {"TooManyPlaces": "places", "Places": "place", "TimeCut": "time cut", "RatioCut": "ratio cut"}


def spoiled(name, changes):
    b = bytearray(open(os.path.join(DATA, name), "rb").read())
    for place, value in (change.split("=") for change in changes.split()):
        if place == "first":
            del b[int(value) :]
        elif place == "more":
            b.append(int(value))
        else:
            b[int(place)] = int(value)
    return bytes(b)


def fault_line(told):
    """The line of a rule of the layout, as `Range 7 90`, or of a difference, as `Kind { state: 3, .. }`."""
    if "{" not in told and told != "TooManyPlaces":
        return "image: " + told.lower()
    kind, numbers = told.split(" ")[0], re.findall(r"(?:state|first|letter|found|due|at|word): (?:Some\()?(\w+)", told)
    wanted = {"Twice": 2, "Mismatch": 4, "TooManyPlaces": 0}.get(kind, 1)
    return " ".join(["audit:", NAMES.get(kind, kind.lower()), *numbers[:wanted]]).replace("None", "none")


def wheel_text(w):
    lines = []
    for c in ("cam1", "cam2"):
        lines += ['%s = "%s"' % (c, w.keep[c]), "%s_early = %d" % (c, w.early[c]), "%s_late = %d" % (c, w.late[c])]
    lines += ['crank = "%s"' % w.keep["crank"], "degrees = %d" % w.degrees, "ratio = [%d, %d]" % (w.rn, w.rd)]
    lines += ["rpm_high = %d" % w.high, "rpm_low = %d" % w.low, "slots = [%s]" % ", ".join(map(str, w.slots))]
    return "".join(line + "␤" for line in lines)


def told_of_table(words, failing, name, changes, capture):
    command, *rest = words.split()
    b = spoiled(name, changes)
    fault = told_of_bytes(b)
    if failing or rest[:1] != ["image"] or (command == "replay" and b[:4] != b"WSYN"):
        return None
    if fault != "image":
        return " / Refused %s␤" % fault_line(fault)
    fields = Fields(b)
    if command == "audit" and len(rest) == 1:
        told = told_of_audit(b)
        if not told.startswith("sound"):
            return " / Refused %s␤" % fault_line(told)
        return "sound states %d places %d␤%s / Done" % (fields.states, fields.places, wheel_text(fields.wheel()))
    if command == "trace" and rest == ["image", "capture"] and "x" not in capture:
        return told_of_trace(fields, capture)
    if command == "replay" and rest == ["image", "capture"] and "x" not in capture:
        told = told_of_audit(b)
        return told_of_replay(fields.wheel(), capture) if told.startswith("sound") else " / Refused %s␤" % fault_line(told)
    return None


def moments_of(wheel, capture):
    with tempfile.NamedTemporaryFile("w", suffix=".csv") as file:
        file.write(capture.replace("␤", "\n"))
        file.flush()
        return instants_of(wheel, file.name, {})


def told_of_replay(wheel, capture):
    """The report by sets of places, and not by the image's rows."""
    with contextlib.redirect_stdout(io.StringIO()) as out:
        report(wheel, moments_of(wheel, capture))
    return out.getvalue().replace("\n", "␤") + " / Done"


def told_of_trace(fields, capture):
    moments = moments_of(fields.wheel(), capture)
    lines = []
    for index, ((time, edges), (_, state, _, _)) in enumerate(zip(moments, walked(fields, moments)), 1):
        shape = "".join(mark + edges[c] for mark, c in zip("C12", CHANNELS) if c in edges)
        lines.append("%d %d %s state %d␤" % (index, time, shape, state))
    return "".join(lines) + " / Done"


def wheel_of(text):
    return Wheel(tomllib.loads(text.replace("␤", "\n")))


def told_of_self(wheel, seed, gaps):
    wheel = wheel_of(wheel)
    table = size(wheel, MOST)
    if table.startswith("limit"):
        return " / Limit %s␤" % table
    try:
        moments = instants(wheel, seed, gaps)
    except Refused as why:
        return " / %s %s␤" % ("Limit" if str(why).startswith("limit") else "Refused", why)
    kinds = [verdict[0] for verdict, _, _, _ in walked(Fields(image(wheel)), moments)]
    first = kinds.index(1) + 1 if 1 in kinds else 0
    counts = len(kinds), kinds.count(1), kinds.count(2), kinds.count(0), first
    return "instants %d at %d open %d lost %d first %d␤ / Done" % counts


def told_of_stimulus(wheel, asked):
    form, seed, gaps = asked.split()
    if int(gaps) > FEW or form not in ("csv", "vcd") or len(wheel_of(wheel).places()) > PLACES:
        return None
    try:
        return "%d lines, 0 lost / Done" % len(instants(wheel_of(wheel), int(seed), int(gaps)))
    except Refused as why:
        return "none / %s %s␤" % ("Limit" if str(why).startswith("limit") else "Refused", why)


def told_of(fields):
    if fields[0] == "table" and len(fields) == 6:
        return told_of_table(*fields[1:])
    if fields[0] == "stimulus" and len(fields) == 3:
        return told_of_stimulus(*fields[1:])
    if re.fullmatch(r"self wheel \d+ \d+", fields[0]) and fields[1] == "":
        seed, gaps = map(int, fields[0].split()[2:])
        return told_of_self(fields[2], seed, gaps) if seed < 2**64 and 0 < gaps <= FEW else None
    return None


def told_of_line(line, names):
    if " => " in line:
        run, was = line.split(" => ", 1)
        told = told_of([names.get(field.strip(), field.strip()) for field in run.split("|")])
        return line if told is None else run + " => " + told
    if " := " in line:
        name, text = line.split(" := ", 1)
        names[name] = text
    return line


if __name__ == "__main__":
    names = {}
    for line in open(sys.argv[1]):
        print(told_of_line(line.rstrip("\n"), names))
