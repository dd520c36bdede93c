"""The audit of an image, written from the definition of a sound image alone: its parts beside those of its own wheel, which tables.py
computes. bench/rows.py prints what it tells."""
import struct
from itertools import zip_longest

from images import Fields, told_of_bytes
from tables import PLACES, Table, letters, words_of


def some(told):
    return "None" if told is None else "Some(%s)" % told


def place_text(place):
    return place and "Place { j: %d, n1: %d, n2: %d }" % place


def kind_text(kind):
    return ("Dead", "At { j: %d }" % kind[1], "Open { e: %d, f: %d }" % kind[1:])[kind[0]]


def differences(found, due):
    """The places at which two lists differ, from the front, with what each has there or None."""
    for at, pair in enumerate(zip_longest(found, due)):
        if pair[0] != pair[1]:
            yield (at, *pair)


def list_faults(fields, table):
    lists = [("Places", fields.entries(2), table.places, place_text)]
    lists.append(("TimeCut", [cut for (cut,) in fields.entries(3)], table.times, lambda cut: cut))
    ratios = [(cut.numerator, cut.denominator) for cut in table.ratios]
    lists.append(("RatioCut", fields.entries(4), ratios, lambda cut: cut and "(%d, %d)" % cut))
    for name, found, due, text in lists:
        for at, one, other in differences(found, due):
            yield "%s { at: %d, found: %s, due: %s }" % (name, at, some(text(one)), some(text(other)))


def reached(fields, states, due):
    """The states that words of letters reach, by a walk over the entries of rows that are due."""
    found, waiting = {1}, [1]
    while waiting:
        state = waiting.pop()
        for to in due[state].values():
            if to not in found:
                found.add(to)
                waiting.append(to)
    return found


def faults(fields):
    """The differences between an image and its own wheel's table, in their order."""
    wheel = fields.wheel()
    if len(wheel.places()) > PLACES:
        yield "TooManyPlaces"
    table = Table(wheel)
    yield from list_faults(fields, table)
    words, members = words_of(len(table.places)), [set_words for (set_words,) in fields.entries(6)]
    full = (2 ** len(table.places) - 1).to_bytes(8 * words, "little")
    unpacked = [struct.unpack("<%dQ" % words, some_words) for some_words in (members[1], full)]
    for word, found, due in differences(*unpacked):
        yield "Start { word: %d, found: %d, due: %d }" % (word, found, due)
    kinds = fields.entries(5)
    sets = [frozenset(i for i in range(64 * words) if int.from_bytes(one, "little") >> i & 1) for one in members]
    states = [(kind[0] if some_set else 0, some_set) for kind, some_set in zip(kinds, sets)]
    numbers = {}
    for state, pair in enumerate(states):
        if numbers.setdefault(pair, state) != state:
            yield "Twice { first: %d, state: %d }" % (numbers[pair], state)
    for state, some_set in enumerate(sets):
        if kinds[state][1:] != table.kind(some_set):
            yield "Kind { state: %d, found: %s, due: %s }" % (state, kind_text(kinds[state][1:]), kind_text(table.kind(some_set)))
    due = [{} for _ in states]
    for state, (phase, some_set) in enumerate(states):
        after = dict(letters(phase, len(table.times), len(table.ratios)))
        for column, found in enumerate(fields.row(state)):
            number = 0
            if column in after:
                ends = frozenset(table.leads[column][i] for i in some_set if i in table.leads[column])
                number = due[state][column] = numbers.get((after[column] if ends else 0, ends))
            if found != number:
                told = some(number)
                yield "Mismatch { state: %d, letter: %d, found: %d, due: %s }" % (state, column, found, told)
    there = reached(fields, states, due)
    for state in range(len(states)):
        if state not in there:
            yield "Unreached { state: %d }" % state


def told_of_audit(b):
    """The first rule of the layout that is broken, else the first difference, else how many states and places are sound."""
    fault = told_of_bytes(b)
    if fault != "image":
        return fault
    fields = Fields(b)
    return next(faults(fields), "sound %d %d" % (fields.states, fields.places))
