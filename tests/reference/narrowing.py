"""Table rules and narrowing in plain words, by going through every filling.

It shares nothing with the proved crates, so that each can be held against the other.
"""

from itertools import product
from math import prod

import catalogue

SLOTS = 24
EMPTY = 0
GOES, NEEDS, BARS = range(3)


class Rule:
    def __init__(self, kind, t, slots, rows):
        self.kind = kind
        self.t = t
        self.slots = slots
        self.rows = {tuple(row) for row in rows}

    def scope(self):
        """The slots that the rule looks at."""
        return self.slots if self.kind == GOES else self.slots + [self.t]

    def allows(self, filling):
        """Whether the rule allows a filling, which gives each slot of the scope a number."""
        parts = tuple(filling[slot] for slot in self.slots)
        if EMPTY in parts:
            return True
        if self.kind == GOES:
            return parts in self.rows
        if parts not in self.rows:
            return True
        if self.kind == NEEDS:
            return filling[self.t] != EMPTY
        return filling[self.t] == EMPTY


def rules_of(cells):
    """The rules that cells say; unlawful cells say none."""
    if not catalogue.is_lawful(cells):
        return []
    taker = catalogue.Taker(cells)
    taker.take()
    taker.take_many(taker.take())
    return [taken_rule(taker) for _ in range(taker.take())]


def taken_rule(taker):
    kind, t, count = taker.take_many(3)
    slots = taker.take_many(count)
    rows = [taker.take_many(count) for _ in range(taker.take())]
    return Rule(kind, t, slots, rows)


def members(label):
    return [number for number in range(16) if label >> number & 1]


def volume(box, slots=range(SLOTS)):
    """How many choices the labels of the slots give."""
    return prod(len(members(box[slot])) for slot in slots)


def narrowed_over(slots, rule, box):
    """The box with what each of the slots has in some allowed choice for them, or None where no choice is allowed."""
    found = dict.fromkeys(slots, 0)
    for numbers in product(*(members(box[slot]) for slot in slots)):
        if rule.allows(dict(zip(slots, numbers))):
            for slot, number in zip(slots, numbers):
                found[slot] |= 1 << number
    if 0 in found.values():
        return None
    return [found.get(slot, label) for slot, label in enumerate(box)]


def narrow(rules, number, box):
    """Whether narrowing fits, and the box afterwards.

    A slot that the rule does not look at takes each of its numbers in an allowed filling, if there is one at all.
    """
    assert len(box) == SLOTS and all(0 < label < 2 ** 16 for label in box)
    if number >= len(rules):
        return True, box
    after = narrowed_over(rules[number].scope(), rules[number], box)
    return (False, box) if after is None else (True, after)


def narrow_every_slot(rules, number, box):
    """The same by the fillings of all slots, for boxes of few fillings."""
    if number >= len(rules):
        return True, box
    after = narrowed_over(range(SLOTS), rules[number], box)
    return (False, box) if after is None else (True, after)
