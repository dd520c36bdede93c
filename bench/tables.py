"""An independent computation of the table of a wheel: the sets of places that letters reach, their numbers, and the image.

What a class keeps is tested at times of the class against the limits themselves, and where a shape ends by every order of its
edges over angles, as in reference.py. It shares no code with the program. bench/rows.py prints what it tells.
"""
import struct
from fractions import Fraction
from functools import cache
from itertools import permutations

from reference import CHANNELS, keeps_ratio, keeps_speed, moves

PLACES = 16384
MOST = 65535
CELLS = 2**23
KEEPS = {"rising": 1, "falling": 2, "both": 3}
SHAPES = [{c: "+-"[n // 3**i % 3 - 1] for i, c in enumerate(CHANNELS) if n // 3**i % 3} for n in range(1, 27)]


def words_of(places):
    return (places + 63) // 64


def width_of(times, ratios):
    return times + 1 + 2 * ratios + 1 + 26


@cache
def letters(phase, times, ratios):
    """The columns of a phase, each with the phase that its letter leads to."""
    first = times + 1 + 2 * ratios + 1
    shapes = list(enumerate(SHAPES, first))
    if phase in (3, 5):
        return [(column, 2) for column, edges in shapes if "crank" in edges]
    if phase == 4:
        return [(column, 5) for column in range(times + 1, first)]
    if phase == 0:
        return [(column, 1 if "crank" in edges else 0) for column, edges in shapes]
    timed = [(column, phase + 2) for column in range(times + 1)]
    return timed + [(column, phase) for column, edges in shapes if "crank" not in edges]


class Table:
    """The places and cuts of a wheel, and for each column the places that it keeps or where it leads from each."""

    def __init__(self, wheel):
        self.wheel, self.places = wheel, sorted(wheel.places())
        count = len(wheel.edges["crank"])
        self.gaps = [wheel.slot("crank", j + 1) - wheel.slot("crank", j) for j in range(count)]
        pairs = [(self.gaps[j - 1], self.gaps[j]) for j in range(count)]
        unit = 6 * len(wheel.slots)
        ways = [gap * wheel.degrees * 10**15 for gap in self.gaps]
        least, most = [-(-way // (wheel.high * unit)) for way in ways], [way // (wheel.low * unit) + 1 for way in ways]
        self.times = sorted({*least, *most})
        limit = Fraction(wheel.rn, wheel.rd)
        self.ratios = sorted({Fraction(s1, s0) * by for s0, s1 in pairs for by in (1 / limit, limit)})
        self.width = width_of(len(self.times), len(self.ratios))
        ends = [self.ends(edges) for edges in SHAPES]
        kept = [self.kept(self.keeps_time, some) for some in self.some_times()]
        kept += [self.kept(self.keeps_ratio, some) for some in self.some_ratios()]
        self.leads = [{i: i for i in places} for places in kept] + ends

    def some_times(self):
        """Times of each class: the first, one between, and the last."""
        for first, next_first in zip([1, *self.times], [*self.times, 2**64]):
            yield {first, (first + next_first) // 2, next_first - 1}

    def some_ratios(self):
        """Ratios of each class: between two cuts near each and in the middle, or the cut."""
        for low, high in zip([Fraction(0), *self.ratios], [*self.ratios, self.ratios[-1] * 2]):
            yield {low + (high - low) * part / 10 for part in (1, 5, 9)}
            if high in self.ratios:
                yield {high}

    def keeps_time(self, j, time):
        return keeps_speed(self.wheel, self.gaps[j], time)

    def keeps_ratio(self, j, ratio):
        return keeps_ratio(self.wheel, self.gaps[j - 1], ratio.denominator, self.gaps[j], ratio.numerator)

    def kept(self, keeps, some):
        """The places that a class keeps. All of its times must say the same."""
        says = [{i for i, place in enumerate(self.places) if keeps(place[0], one)} for one in some]
        assert all(one == says[0] for one in says)
        return says[0]

    def ends(self, edges):
        """Where a shape's edges lead from each place, in some order."""
        found, numbers = {}, {place: i for i, place in enumerate(self.places)}
        for i, (j, *cams) in enumerate(self.places):
            indices = dict(zip(CHANNELS, (j + 1, *cams)))
            start = (self.wheel.span(indices)[0], indices)
            ends = {self.wheel.place(end[1]) for order in permutations(edges) if (end := moves(self.wheel, start, order, edges))}
            assert len(ends) < 2
            found.update((i, numbers[place]) for place in ends)
        return found

    def family(self, limit):
        """The states, each a phase and a set of places, with their rows, or None past the limit."""
        numbers = {(0, frozenset()): 0, (0, frozenset(range(len(self.places)))): 1}
        states, rows = list(numbers), []
        for state, (phase, members) in enumerate(states):
            if len(states) > limit:
                return None
            rows.append([0] * self.width)
            for column, after in letters(phase, len(self.times), len(self.ratios)):
                leads = self.leads[column]
                ends = frozenset([leads[i] for i in members if i in leads])
                if ends and (after, ends) not in numbers:
                    numbers[after, ends] = len(states)
                    states.append((after, ends))
                rows[state][column] = numbers[after, ends] if ends else 0
        return None if len(states) > limit else (states, rows)

    def limit(self, given):
        return min(given, MOST, CELLS // words_of(len(self.places)), CELLS // self.width)

    def kind(self, members):
        """What a state says: nothing, one position, or two places at two positions."""
        if not members:
            return 0, 0, 0
        first = min(members)
        others = [i for i in members if self.places[i][0] != self.places[first][0]]
        return (2, first, min(others)) if others else (1, self.places[first][0], 0)


def size(wheel, given):
    if len(wheel.places()) > PLACES:
        return "limit: places"
    table = Table(wheel)
    found = table.family(table.limit(given))
    if not found:
        return "limit: states %d" % table.limit(given)
    counts = len(table.places), len(table.times), len(table.ratios), len(found[0])
    return "places %d time-cuts %d ratio-cuts %d states %d" % counts


def image(wheel):
    table = Table(wheel)
    states, rows = table.family(table.limit(MOST))
    words = words_of(len(table.places))
    sections = [
        bytes(wheel.slots),
        b"".join(struct.pack("<Iii", *place) for place in table.places),
        b"".join(struct.pack("<Q", cut) for cut in table.times),
        b"".join(struct.pack("<II", cut.numerator, cut.denominator) for cut in table.ratios),
        b"".join(struct.pack("<IIII", phase, *table.kind(members)) for phase, members in states),
        b"".join(sum(1 << i for i in members).to_bytes(8 * words, "little") for _, members in states),
        b"".join(struct.pack("<%dH" % table.width, *row) for row in rows),
    ]
    body = b"".join(section + bytes(-len(section) % 8) for section in sections)
    keep = sum(KEEPS[wheel.keep[c]] * 4**i for i, c in enumerate(CHANNELS))
    cams = [part[c] for c in CHANNELS[1:] for part in (wheel.early, wheel.late)]
    counts = len(wheel.slots), len(table.places), len(table.times), len(table.ratios), len(states)
    header = 1, 72 + len(body), *counts, wheel.degrees, keep, *cams, wheel.low, wheel.high, wheel.rn, wheel.rd
    return b"WSYN" + struct.pack("<17I", *header) + body
