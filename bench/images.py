"""The rules of an image and its walk, written from the description of its layout alone. bench/rows.py prints what they tell."""
import struct
from fractions import Fraction

from reference import CHANNELS, Wheel
from tables import CELLS, KEEPS, MOST, SHAPES, letters, width_of, words_of


class Fields:
    """The fields of an image by their places in it."""

    def __init__(self, b):
        self.bytes, self.word = b, struct.unpack_from("<18I", b)
        self.slots, self.places, times, ratios, self.states = self.word[3:8]
        self.times, self.ratios = times, ratios
        self.words, self.width = words_of(self.places), width_of(times, ratios)
        sizes = (72, self.slots, 12 * self.places, 8 * times, 8 * ratios, 16 * self.states)
        sizes += 8 * self.words * self.states, 2 * self.width * self.states
        self.ends, self.begins, self.length = [], [], 0
        for size in sizes:
            self.begins.append(self.length)
            self.ends.append(self.length + size)
            self.length += (size + 7) // 8 * 8

    def entries(self, section):
        """The numbers of a section's entries; the words of a state's members are one."""
        layout = ("I", "B", "Iii", "Q", "II", "IIII", "%ds" % (8 * self.words))[section]
        return list(struct.iter_unpack("<" + layout, self.bytes[self.begins[section] : self.ends[section]]))

    def row(self, state):
        return struct.unpack_from("<%dH" % self.width, self.bytes, self.begins[7] + 2 * state * self.width)

    def wheel(self):
        keep = [list(KEEPS)[self.word[9] // 4**i % 4 - 1] for i in range(3)]
        file = {"degrees": self.word[8], "slots": [slot for (slot,) in self.entries(1)], **dict(zip(CHANNELS, keep))}
        file.update(zip(("cam1_early", "cam1_late", "cam2_early", "cam2_late"), self.word[10:14]))
        return Wheel(file | {"rpm_low": self.word[14], "rpm_high": self.word[15], "ratio": self.word[16:18]})


def header_faults(b):
    """The broken rules of the header, in their order, as far as they are asked for."""
    if b[:4] != b"WSYN":
        yield "Magic"
    if len(b) < 72:
        yield "Short"
    fields = Fields(b)
    word = dict(zip(range(0, 72, 4), fields.word))
    if word[4] != 1:
        yield "Version"
    keep = [word[36] >> shift & 3 for shift in (0, 2, 4)]
    cells = fields.states * max(fields.words, fields.width)
    rules = {
        12: 2 <= word[12] <= 4096,
        16: 1 <= word[16] <= 16384,
        20: word[20] <= 8192,
        24: word[24] <= 8192,
        28: 2 <= word[28] <= MOST and cells <= CELLS,
        32: word[32] in (360, 720),
        36: 0 not in keep and word[36] >> 6 == 0,
        44: word[40] + word[44] < 1000 * word[32],
        52: word[48] + word[52] < 1000 * word[32],
        56: 1 <= word[56] <= word[60],
        60: word[60] <= 30000,
        64: word[68] <= word[64] <= 65535,
        68: word[68] >= 1,
    }
    yield from ("Range 0 %d" % at for at, holds in sorted(rules.items()) if not holds)
    if len(b) != fields.length:
        yield "Short" if len(b) < fields.length else "Extra"
    if word[8] != len(b):
        yield "Range 0 8"


def is_place(cranks, entry):
    return entry[0] < cranks and all(abs(n) < 2**20 for n in entry[1:])


def is_kind(places, cranks, state, entry):
    phase, kind, a, b = entry
    if state == 0:
        return not any(entry)
    if phase > 5 or state == 1 and phase != 0:
        return False
    if kind == 1:
        return a < cranks and b == 0
    return kind == 2 and a < b < len(places) and places[a][0] != places[b][0]


def is_row(fields, phases, state, row):
    """Of each entry of a row whether it keeps its range."""
    due = dict(letters(phases[state], fields.times, fields.ratios)) if state else {}
    return [not to or column in due and to < fields.states and phases[to] == due[column] for column, to in enumerate(row)]


def section_faults(fields):
    """The broken rules of the sections, in their order."""
    slots, places, times, ratios, kinds, members = [fields.entries(section) for section in range(1, 7)]
    cranks = len(fields.wheel().edges["crank"]) if all(slot < 8 for (slot,) in slots) else 0
    phases = [kind[0] for kind in kinds]
    cuts = [Fraction(*cut) if all(cut) else None for cut in ratios]
    sets = [int.from_bytes(words, "little") for (words,) in members]
    yield from checked(fields, 1, [slot < 8 for (slot,) in slots] + [cranks > 0])
    yield from checked(fields, 2, [is_place(cranks, place) for place in places], places)
    yield from checked(fields, 3, [cut >= 1 for (cut,) in times], times)
    yield from checked(fields, 4, [cut is not None for cut in cuts], cuts)
    yield from checked(fields, 5, [is_kind(places, cranks, *kind) for kind in enumerate(kinds)])
    yield from checked(fields, 6, [some >> (fields.places if state else 0) == 0 for state, some in enumerate(sets)])
    hold = [is_row(fields, phases, state, fields.row(state)) for state in range(fields.states)]
    yield from checked(fields, 7, sum(hold, []))


def checked(fields, section, hold, ascending=()):
    """The faults of a section whose entries keep their range or not, in which these values are to ascend."""
    for at, holds in enumerate(hold):
        if not holds:
            yield "Range %d %d" % (section, at)
        if at and ascending and ascending[at] <= ascending[at - 1]:
            yield "Order %d %d" % (section, at)
    if any(fields.bytes[fields.ends[section] : (fields.begins + [fields.length])[section + 1]]):
        count = (0, fields.slots, fields.places, fields.times, fields.ratios, fields.states, fields.states)
        yield "Range %d %d" % (section, (*count, fields.states * fields.width)[section])


def told_of_bytes(b):
    """The first broken rule, or `image`."""
    fault = next(header_faults(b), None)
    return fault or next(section_faults(Fields(b)), "image")


def walked(fields, instants):
    """The verdict, the state after it, the number of entries read, and whether the next window has an instant, of each in turn."""
    times, ratios = [cut for (cut,) in fields.entries(3)], [Fraction(*cut) for cut in fields.entries(4)]
    kinds, state, passed, has_begun = fields.entries(5), 1, [], False
    for time, edges in instants:
        shape = fields.width - 26 + SHAPES.index(edges)
        columns = []
        if "crank" in edges and kinds[state][0] > 0:
            gap, *before = [min(b - a, 2**64 - 1) for a, b in zip(passed, passed[1:] + [time])][::-1]
            columns.append(sum(cut <= gap for cut in times))
            if kinds[state][0] == 2:
                ratio = Fraction(gap, before[0])
                columns.append(fields.times + 1 + sum(2 * (cut < ratio) + (cut == ratio) for cut in ratios))
        reads = 0
        for column in [*columns, shape]:
            state, reads = fields.row(state)[column], reads + 1
            if state == 0:
                break
        verdict = kinds[state][1:]
        if state == 0:
            passed, reads = [], reads + has_begun
            state = has_begun and fields.row(1)[shape]
            has_begun = state > 0
        else:
            has_begun = True
        passed += [time] if has_begun and "crank" in edges else []
        state = state or 1
        yield verdict, state, reads, has_begun


def cut(number):
    return max(-(2**31), min(number, 2**31 - 1))


def taken_back(fields, place, counts):
    """The text of a place taken back by these numbers of edges of each channel."""
    each = [len(fields.wheel().edges[c]) for c in CHANNELS]
    cycle, j = divmod(place[0] - counts[0], each[0])
    return "%d:%d:%d" % (j, *(cut(n - counts[k] - cycle * each[k]) for k, n in enumerate(place[1:], 1)))


def reported(fields, instants):
    """The lines of the walk's report."""
    window, places = [], fields.entries(2)
    for index, ((time, edges), step) in enumerate(zip(instants, walked(fields, instants)), 1):
        window.append(edges)
        counts = [sum(c in seen for seen in window) for c in CHANNELS]
        kind, a, b = step[0]
        told = (
            "lost",
            "at %d slot %d" % (a, fields.wheel().edges["crank"][a][0]) if kind == 1 else "",
            "open %s %s" % tuple(taken_back(fields, places[e], counts) for e in (a, b)) if kind == 2 else "",
        )[kind]
        shape = "".join(name + edges[c] for c, name in zip(CHANNELS, "C12") if c in edges)
        yield "%d %d %s %s" % (index, time, shape, told)
        if kind == 0:
            window = [edges] if step[3] else []
