#!/usr/bin/env python3
"""Prints a table of rows with what the independent computations of this folder tell of them, where they can.

usage: bench/rows.py TABLE | diff TABLE -

Rows of sizes in crates/wheel_rows/stdin and all of crates/image_rows/stdin and crates/draw_rows/stdin are told anew, and a named
image is made anew from the line before it, `-- image SLOTS | PARTS:`. Other lines are printed as they stand.
"""
import re
import struct
import sys
from itertools import groupby

from audits import told_of_audit
from images import Fields, reported, told_of_bytes, walked
from reference import CHANNELS, Wheel
from stimulus import Generator, told as told_of_stimulus, totals as totals_of_stimulus
from tables import MOST, image, letters, size

KINDS = ("dead", "at %d", "open %d %d")
UNITS = {"fs": 1, "ms": 10**12}


def repeated(text):
    """The text in which a word as `3*10` is `10` three times."""
    words = [word.rpartition("*") for word in text.split()]
    return "".join(word * int(times or 1) for times, _, word in words)


def wheel_of(slots, parts):
    long = slots.removeprefix("alternating ")
    slots = [int(digit) for digit in (repeated(slots) if slots == long else "10" * (int(long) // 2))]
    file = {"slots": slots, "cam1": "both", "cam2": "both", "rpm_low": 60, "rpm_high": 6000, "ratio": (3, 2)}
    for key, value in (part.split("=") for part in parts.split()):
        pair = [int(number) for number in value.split(",")] if "," in value else None
        if key in CHANNELS:
            file |= dict(zip((key + "_early", key + "_late"), pair)) if pair else {key: value}
        elif key == "rpm":
            file["rpm_low"], file["rpm_high"] = pair
        else:
            file[key] = pair or int(value)
    return Wheel(file)


def image_of(hexadecimal, change=""):
    """The bytes of an image after a change of it."""
    b = bytes.fromhex(repeated(hexadecimal))
    for key, value in (word.split("=") for word in change.split()):
        if key == "first":
            b = b[: int(value)]
        else:
            part = bytes.fromhex(repeated(value))
            at = len(b) if key == "and" else int(key)
            b = b[:at] + part + b[at + len(part) :]
    return b


def told_of_prefixes(b):
    told = [told_of_bytes(b[:length]) for length in range(len(b) + 1)]
    runs = [(told, [length for length, _ in run]) for told, run in groupby(enumerate(told), lambda pair: pair[1])]
    return ", ".join("%s %d" % (told, run[0]) + ("-%d" % run[-1] if len(run) > 1 else "") for told, run in runs)


def told_of_flips(b, mask):
    groups = {}
    for place in range(len(b)):
        told = told_of_bytes(b[:place] + bytes([b[place] ^ int(mask, 16)]) + b[place + 1 :]).split()
        at = int(told.pop()) if len(told) == 3 else 0
        count, total = groups.get(" ".join(told), (0, 0))
        groups[" ".join(told)] = count + 1, total + place * (at + 1)
    return ", ".join("%s %d/%d" % (told, *group) for told, group in groups.items())


def instants_of(text):
    instants = []
    for crank, cam1, cam2, time, unit in re.findall(r"(?:C(.))?(?:1(.))?(?:2(.))? (-?\d+)(ms|fs)", text):
        edges = {c: polarity for c, polarity in zip(CHANNELS, (crank, cam1, cam2)) if polarity}
        instants.append((int(time) * UNITS[unit], edges))
    return instants


def told_of_entries(b, begin):
    """The audits of an image with each entry of its rows changed to each other state of the phase that is due there, or to 0."""
    fields, lines, there = Fields(b), [], 0
    phases = [phase for phase, *_ in fields.entries(5)]
    for state, phase in enumerate(phases):
        due = letters(phase, fields.times, fields.ratios) if state else []
        for column, after in sorted(due):
            entry = state * fields.width + column
            for to in [to for to in range(fields.states) if to == 0 or phases[to] == after]:
                if to != fields.row(state)[column]:
                    told = told_of_audit(image_of(b.hex(), "%d=%s" % (begin + 2 * entry, struct.pack("<H", to).hex())))
                    there += told.startswith("Mismatch { state: %d, letter: %d," % (state, column))
                    lines.append("%d %d Some(%s)\n" % (entry, to, told))
    counts = len(lines), there, sums_of("".join(lines).encode())
    return "%d changes, %d mismatches there; lines of %s" % counts


def told_of_walk(b, text):
    steps = [(told_of_kind(*verdict), state, reads) for verdict, state, reads, _ in walked(Fields(b), instants_of(text))]
    return "; ".join("%s in %d by %d" % step for step in steps).replace("dead", "lost")


def told_of_report(b, text):
    return "; ".join(reported(Fields(b), instants_of(text)))


def told_of_kind(kind, a, b):
    return KINDS[kind] % (a, b)[:kind]


def told_of_fields(b):
    fields = Fields(b)
    wheel = fields.wheel()
    at, cams = [slot for slot, _ in wheel.edges["crank"]], [len(wheel.edges[c]) for c in CHANNELS[1:]]
    lists = [(at, "%d"), (cams, "%d"), (fields.entries(2), "%d:%d:%d"), (fields.entries(3), "%d"), (fields.entries(4), "%d/%d")]
    counts = len(at), fields.places, fields.times, fields.ratios, fields.words, fields.width, fields.states
    told = ["cranks %d, places %d, cuts %d %d, words %d, width %d, states %d" % counts]
    told += [" ".join(shown % value for value in values) for values, shown in lists]
    keep = " ".join(wheel.keep[c].capitalize() for c in CHANNELS)
    told.append("%d %s, %d %d, %d %d, %d %d, %d/%d" % (wheel.degrees, keep, *fields.word[10:18]))
    return "; ".join([*told, " ".join(map(str, wheel.slots))])


def told_of_state(b, state):
    fields = Fields(b)
    phase, *kind = fields.entries(5)[state]
    (members,) = fields.entries(6)[state]
    row = "".join(" %d:%d" % pair for pair in enumerate(fields.row(state)) if pair[1])
    return "phase %d %s, %s,%s" % (phase, told_of_kind(*kind), members[::-1].hex(), row)


def told_of_compiled(slots, parts, *named):
    """What a compiled wheel is beside named bytes."""
    wheel = wheel_of(slots, parts)
    refused = refusal(size(wheel, MOST))
    if refused:
        return refused
    b, wanted = image(wheel), image_of(*named)
    if b == wanted:
        return "the image of %d bytes" % len(b)
    place = next((at for at, (one, other) in enumerate(zip(b, wanted)) if one != other), min(len(b), len(wanted)))
    return "%d bytes, other ones from byte %d on" % (len(b), place)


def told_of_sums(slots, parts, limit):
    """The length and the sums of the bytes of a compiled wheel."""
    wheel = wheel_of(slots, parts)
    refused = refusal(size(wheel, int(limit)))
    if refused:
        return refused
    return sums_of(image(wheel))


def sums_of(b):
    return "%d bytes, sums %d %d" % (len(b), sum(b), sum(at * byte for at, byte in enumerate(b, 1)) % 2**64)


def refusal(told):
    """Why there is no image, by what is told of sizes, or None."""
    if told == "limit: places":
        return "TooManyPlaces"
    return told.replace("limit: states", "TooLarge") if told.startswith("limit") else None


def told_of_draws(of, ranges):
    """The numbers drawn from ranges by the generator of a seed and a stream."""
    generator = Generator(*map(int, of.split()))
    return " ".join(str(generator.draw(*map(int, pair.split("-")))) for pair in ranges.split())


def told_of(kind, fields):
    """What is told of a row, or None where these computations tell nothing of its kind."""
    if kind == "draws":
        return told_of_draws(*fields)
    if kind in ("instants", "totals"):
        tells = {"instants": told_of_stimulus, "totals": totals_of_stimulus}[kind]
        return tells(wheel_of(*fields[:2]), *map(int, fields[2].split()))
    if kind == "size":
        return size(wheel_of(*fields[:2]), int(fields[2]))
    if kind in ("compile", "sums"):
        return {"compile": told_of_compiled, "sums": told_of_sums}[kind](*fields)
    if kind in ("verify", "prefixes", "fields", "audit"):
        tells = {"verify": told_of_bytes, "prefixes": told_of_prefixes, "fields": told_of_fields, "audit": told_of_audit}
        return tells[kind](image_of(*fields))
    if kind in ("flips", "entries", "walk", "report", "state"):
        b = image_of(*fields[1:])
        fault = told_of_bytes(b)
        if fault != "image":
            return fault
        tells = {"flips": told_of_flips, "walk": told_of_walk, "report": told_of_report}
        tells |= {"state": lambda b, state: told_of_state(b, int(state)), "entries": lambda b, begin: told_of_entries(b, int(begin))}
        return tells[kind](b, fields[0])
    return None


def told_of_line(line, before, names):
    if " => " in line:
        run, was = line.split(" => ")
        kind, *fields = [names.get(field, field) for field in run.split(" | ")]
        told = told_of(kind, fields)
        return run + " => " + (was if told is None else told)
    if " := " in line:
        name, text = line.split(" := ")
        if of := re.fullmatch(r"-- image (.*) \| (.*):", before):
            text = shortened(image(wheel_of(*of.groups())).hex())
        names[name] = text
        return name + " := " + text
    return line


def shortened(text):
    """The hexadecimal text, in which `12*00` stands for a run of bytes."""
    runs = [("".join(run), byte) for byte, run in groupby([text[at : at + 2] for at in range(0, len(text), 2)])]
    return "".join(" %d*%s " % (len(run) // 2, byte) if len(run) > 6 else run for run, byte in runs).replace("  ", " ").strip()


if __name__ == "__main__":
    names, before = {}, ""
    for line in open(sys.argv[1]):
        print(told_of_line(line.rstrip("\n"), before, names))
        before = line.strip()
