#!/usr/bin/env python3
"""An independent computation of certificates, and of what a checker is to answer to spoiled ones.

The exact certificate is found by whole motions: the cover of a line is the set of the places where the motions of reference.py
end that give the window's instants. The checker tests the rules one by one, each as it is written, by steps of single places
that reference.py's moves make. It shares no code with the program.

usage: bench/certificates.py exact WHEEL CAPTURE [CRANK [CAM1 [CAM2]]]      prints the exact certificate
       bench/certificates.py rows WHEEL CAPTURE COUNT SEED                   prints rows of spoiled ones, each with its answer
"""
import itertools
import random
import sys
import tomllib

from reference import CHANNELS, Wheel, ends, instants_of, keeps_limits, moves


def shape(edges):
    return "".join(mark + edges[c] for mark, c in zip("C12", CHANNELS) if c in edges)


def text(place):
    return "%d:%d:%d" % place


def found_ends(wheel, places, window):
    """The end place of each start place from which a motion gives the window's instants."""
    return {start: end for start in places if (end := ends(wheel, start, window)) is not None}


def lines(wheel, instants):
    """For each instant the report's line and the exact certificate's, as lists of words."""
    places, window, report, certificate = wheel.places(), [], [], []
    for index, (time, edges) in enumerate(instants, 1):
        window = window + [(time, edges)]
        found = found_ends(wheel, places, window)
        starts = {end: start for start, end in found.items()}
        cover = sorted(starts)
        others = [end for end in cover if end[0] != cover[0][0]]
        if not cover:
            kind, says = ["lost"], ["lost"]
            again = found_ends(wheel, places, window[-1:]) if len(window) > 1 else {}
            window, cover = (window[-1:] if again else []), sorted(again.values())
        elif others:
            pair = [text(starts[cover[0]]), text(starts[others[0]])]
            kind, says = ["open", *pair], ["open", *pair]
        else:
            j = cover[0][0]
            kind, says = ["at", text(starts[cover[0]])], ["at", str(j), "slot", str(wheel.edges["crank"][j][0])]
        report.append([str(index), str(time), shape(edges), *says])
        certificate.append([str(index), *kind, ":", *map(text, cover)])
    return report, certificate


def step(wheel, place, window, instant):
    """The legal step of a place at an instant of a window: where its moves end in some order, if the gap keeps the limits."""
    time, edges = instant
    indices = dict(zip(CHANNELS, (place[0] + 1, *place[1:])))
    if "crank" in edges:
        before = [t for t, seen in window if "crank" in seen][-2:]
        last = indices["crank"] - len(before)
        if not keeps_limits(wheel, [(last + k, t) for k, t in enumerate(before + [time])]):
            return None
    state = (wheel.span(indices)[0], indices)
    after = [end for order in itertools.permutations(edges) if (end := moves(wheel, state, order, edges))]
    return wheel.place(after[0][1]) if after else None


def place_of(word):
    return tuple(int(n) for n in word.split(":"))


def walk_end(wheel, start, window):
    """Where the walk from a place ends that is legal at each instant of the window, or None."""
    place = start
    for k, instant in enumerate(window):
        place = place and step(wheel, place, window[:k], instant)
    return place


def first_broken(wheel, places, before, window, number, instant, said, line):
    """The first rule that an instant's lines break, or None. `before` is the cover of the line before."""
    verdict, kind = said[3:], line[1:line.index(":")]
    cover = [place_of(word) for word in line[line.index(":") + 1:]]
    if said[:3] != [str(number), str(instant[0]), shape(instant[1])]:
        return 2
    if line[0] != str(number) or kind[0] != verdict[0]:
        return 3
    if any(a >= b for a, b in zip(cover, cover[1:])) or not set(cover) <= set(places):
        return 4
    steps = {end for place in (before if window else places) if (end := step(wheel, place, window, instant)) is not None}
    if (verdict[0] == "lost" and steps) or (verdict[0] != "lost" and not steps <= set(cover)):
        return 5
    edges = wheel.edges["crank"]
    if verdict[0] == "at":
        j, slot = int(verdict[1]), int(verdict[3])
        if any(place[0] != j for place in cover) or j >= len(edges) or edges[j][0] != slot:
            return 6
    reached = [walk_end(wheel, place_of(word), window + [instant]) if place_of(word) in places else None for word in kind[1:]]
    if None in reached:
        return 7
    if verdict[0] == "open":
        others = [place for place in cover if place[0] != cover[0][0]]
        if verdict[1:] != kind[1:] or reached[0] != cover[0] or not others or reached[1] != others[0]:
            return 8
    if verdict[0] == "lost":
        alone = {end for place in places if (end := step(wheel, place, [], instant)) is not None}
        if (cover if not window else not alone <= set(cover) or (not cover) != (not alone)):
            return 9
    return None


def answer(wheel, instants, report, certificate):
    counts = (len(instants), len(report), len(certificate))
    if len(set(counts)) > 1:
        return "no %d 1" % (min(counts) + 1)
    places, window, before = wheel.places(), [], []
    for number, (instant, said, line) in enumerate(zip(instants, report, certificate), 1):
        rule = first_broken(wheel, places, before, window, number, instant, said, line)
        if rule:
            return "no %d %d" % (number, rule)
        before = [place_of(word) for word in line[line.index(":") + 1:]]
        lost = said[3] == "lost"
        window = ([instant] if window and before else []) if lost else window + [instant]
    return "yes"


def spoiled(wheel, rng, report, certificate):
    """A copy of both with one or two small changes."""
    report, certificate = [line[:] for line in report], [line[:] for line in certificate]
    places = list(map(text, wheel.places()))
    for _ in range(rng.choice((1, 1, 1, 2))):
        k = rng.randrange(len(certificate))
        line, said = certificate[k], report[k]
        colon = line.index(":")
        deed = rng.randrange(10)
        if deed == 0 and len(line) > colon + 1:
            del line[rng.randrange(colon + 1, len(line))]
        elif deed == 1:
            line.insert(rng.randrange(colon + 1, len(line) + 1), rng.choice(places))
        elif deed == 2 and colon > 2:
            line[rng.randrange(2, colon)] = rng.choice(places)
        elif deed == 3:
            line[0] = str(int(line[0]) + rng.choice((-1, 1)))
        elif deed == 4 and said[3] == "at":
            said[rng.choice((4, 6))] = str(rng.randrange(8))
        elif deed == 5 and said[3] == "open":
            said[4], said[5] = said[5], said[4]
        elif deed == 6:
            said[1] = str(int(said[1]) + rng.choice((-1, 1)))
        elif deed == 7:
            del (certificate if rng.random() < 0.5 else report)[-1]
            break
        elif deed == 8 and said[3] == "open":
            said[4:], line[1:colon] = [], ["lost"]
            said[3] = "lost"
        elif deed == 9 and said[3] == "at":
            j = rng.randrange(len(wheel.edges["crank"]))
            said[4], said[6] = str(j), str(wheel.edges["crank"][j][0])
    return report, certificate


def joined(rows):
    return "".join(" ".join(row) + "␤" for row in rows)


def main(words):
    with open(words[1], "rb") as it:
        wheel = Wheel(tomllib.load(it))
    if words[0] == "exact":
        instants = instants_of(wheel, words[2], dict(zip(CHANNELS, words[3:])))
        print("\n".join(" ".join(line) for line in lines(wheel, instants)[1]))
        return
    instants, count, rng = instants_of(wheel, words[2], {}), int(words[3]), random.Random(int(words[4]))
    whole, seen = lines(wheel, instants), set()
    while len(seen) < count:
        report, certificate = spoiled(wheel, rng, *whole)
        row = "%s | %s => %s" % (joined(report), joined(certificate), answer(wheel, instants, report, certificate))
        if row not in seen:
            seen.add(row)
            print(row)


if __name__ == "__main__":
    main(sys.argv[1:])
