"""Writes the cases of narrowing by table rules and what the reference answers to each.

    narrowing_cases.py FOLDER

writes FOLDER/narrow_cases/stdin and FOLDER/narrow_cases/stdout.

A line `NAME book CELLS` takes the book of the cells; the answer is how many rules it has. A line `NAME box RULE LABELS`
narrows a box of 24 labels by a rule of that book; the answer is `fits` or `fails`, and then SLOT=LABEL for each label that
changed, or `same`. `N*C` is the number C N times.
"""

import os
import sys
from itertools import product

import catalogue
import narrowing
from catalogue_cases import CELLS, Cases, Dice, packed_cells, put_cases, with_cell
from narrowing import BARS, EMPTY, GOES, NEEDS, SLOTS, members, volume

ONLY_EMPTY = 1
FILLED = 0xfffe
FULL = 0xffff
SAME = "fits same"
FAILS = "fails same"

# The most choices for the slots of a rule, and the most fillings of a box that are gone through as a whole.
MOST_CHOICES = 3000
FEW_FILLINGS = 200


# ---- lists of cases ----

class NarrowCases(Cases):
    def __init__(self):
        super().__init__()
        self.book = None
        self.rules = []
        self.boxes = 0

    def add_book(self, name, cells, count=None):
        """A book, with its count where the case was written for one. The boxes after it are narrowed by its rules."""
        self.book = name
        self.rules = narrowing.rules_of(cells)
        self.boxes = 0
        assert count is None or len(self.rules) == count, (name, len(self.rules))
        self.add(name, "book " + packed_cells(cells), "count=%d" % len(self.rules))

    def add_box(self, rule, box, answer=None):
        """A box, with its answer where the case was written for one."""
        self.boxes += 1
        name = "%s.%d" % (self.book, self.boxes)
        outcome = narrowing.narrow(self.rules, rule, box)
        if volume(box) <= FEW_FILLINGS:
            assert outcome == narrowing.narrow_every_slot(self.rules, rule, box), name
        words = answer_words(box, *outcome)
        assert answer is None or words == answer, (name, words, answer)
        self.add(name, "box %d %s" % (rule, packed_cells(box)), words)

    def add_past_the_count(self, box):
        """The box under numbers that have no rule."""
        for number in sorted({len(self.rules), 63, 64, 255}):
            if number >= len(self.rules):
                self.add_box(number, box, SAME)


def answer_words(before, fits, after):
    changes = ["%d=%d" % (slot, after[slot]) for slot in range(SLOTS) if after[slot] != before[slot]]
    return " ".join(["fits" if fits else "fails"] + (changes or ["same"]))


# ---- cells and boxes ----

def label(*numbers):
    return sum(1 << number for number in numbers)


def box_of(labels, others=ONLY_EMPTY):
    """The box with these labels by their slots, and one label for all others."""
    return [labels.get(slot, others) for slot in range(SLOTS)]


def cells_of(rules, used=SLOTS, parts=15):
    """The cells of rules (kind, t, slots, rows) over standard slots that all offer as many parts."""
    cells = [1, used] + [catalogue.STANDARD + parts] * used + [len(rules)]
    for kind, t, slots, rows in rules:
        cells += [kind, t, len(slots)] + list(slots) + [len(rows)]
        for row in rows:
            cells += row
    return cells


def of_each_kind(t, slots, rows):
    return [(GOES, 0, slots, rows), (NEEDS, t, slots, rows), (BARS, t, slots, rows)]


def every_row(arity, most):
    return list(product(range(1, most + 1), repeat=arity))


# ---- by hand ----

def practice(cases):
    """The practice catalogue: every box over its three slots."""
    cases.add_book("practice", CELLS, count=4)
    for labels in product(range(1, 8), repeat=3):
        for rule in range(4):
            cases.add_box(rule, list(labels) + [ONLY_EMPTY] * 21)
    cases.add_past_the_count(box_of({0: 2, 1: 4}))


def practice_pieces(cases):
    """Single boxes of the practice catalogue, with answers found by hand, and some boxes more."""
    cases.add_book("pieces", CELLS, count=4)

    def single(rule, numbers, answer):
        cases.add_box(rule, box_of({slot: label(number) for slot, number in enumerate(numbers)}), answer)

    single(0, [1, 1, 0], SAME)
    single(0, [1, 2, 0], FAILS)
    single(0, [0, 2, 0], SAME)
    single(1, [2, 1, 0], SAME)
    single(1, [1, 1, 0], FAILS)
    single(2, [2, 2, 1], FAILS)
    single(3, [1, 1, 2], SAME)
    single(3, [1, 1, 1], FAILS)
    opening = box_of({0: 6, 1: 6, 2: 7})
    for rule, answer in enumerate([SAME, SAME, SAME, "fits 2=5"]):
        cases.add_box(rule, opening, answer)
    cases.add_box(0, box_of({0: 2, 1: 6, 2: 7}), "fits 1=2")
    cases.add_box(1, box_of({0: 2, 1: 6, 2: 7}), "fits 2=6")
    cases.add_box(2, box_of({0: 6, 1: 4, 2: 7}), "fits 2=1")
    cases.add_box(3, box_of({0: 6, 1: 6, 2: 6}), "fits 1=2 2=4")
    # Numbers that no slot offers, and filled slots that the catalogue does not use.
    cases.add_box(0, [FULL] * SLOTS, SAME)
    cases.add_box(0, [FILLED] * SLOTS, "fits 0=6 1=6")
    cases.add_box(1, [FILLED] * SLOTS, SAME)
    cases.add_box(2, [FILLED] * SLOTS, "fits 1=65530")
    cases.add_box(3, [FILLED] * SLOTS, "fits 1=2 2=4")


def no_rows(cases):
    """Rules without rows: nothing goes, and nothing is needed or barred."""
    rules = [rule for arity in range(1, 5) for rule in of_each_kind(23, range(arity), [])]
    cases.add_book("no-rows", cells_of(rules), count=12)
    for arity in range(1, 5):
        goes = 3 * arity - 3
        filled = dict.fromkeys(range(arity), label(1, 2, 15))
        cases.add_box(goes, box_of(filled), FAILS)
        cases.add_box(goes, box_of(filled, FULL), FAILS)
        for slot in range(arity):
            cases.add_box(goes, box_of({**filled, slot: label(0, 3)}), "fits %d=1" % slot)
            cases.add_box(goes, box_of({**filled, slot: ONLY_EMPTY}), SAME)
            for other in range(slot):
                cases.add_box(goes, box_of({**filled, slot: label(0, 3), other: label(0, 4)}), SAME)
        for t in (ONLY_EMPTY, label(15), FILLED, FULL):
            cases.add_box(goes + NEEDS, box_of({**filled, 23: t}), SAME)
            cases.add_box(goes + BARS, box_of({**filled, 23: t}), SAME)
    cases.add_past_the_count(box_of({0: 2, 1: 2, 2: 2, 3: 2}))


def covered(cases):
    """Rules whose rows are every choice of the parts 1 to `most`, once or several times."""
    for arity, most, times in [(1, 15, 1), (1, 15, 17), (1, 1, 255), (2, 15, 1), (2, 5, 10), (3, 6, 1), (3, 2, 31), (4, 3, 3), (4, 2, 1)]:
        slots = [[6], [3, 19], [0, 1, 23], [2, 3, 11, 22]][arity - 1]
        rows = every_row(arity, most) * times
        cases.add_book("covered-%d-%d-%d" % (arity, most, times), cells_of(of_each_kind(5, slots, rows)), count=3)
        parts = FILLED & (2 << most) - 1
        all_parts = dict.fromkeys(slots, parts)

        def ask(labels, t, goes=None, needs=None, bars=None):
            for kind, answer in ((GOES, goes), (NEEDS, needs), (BARS, bars)):
                cases.add_box(kind, box_of({**labels, 5: t}), answer)

        ask(all_parts, ONLY_EMPTY, SAME, FAILS, SAME)
        ask(all_parts, label(15), SAME, SAME, FAILS)
        ask(all_parts, FILLED, SAME, SAME, FAILS)
        ask(all_parts, FULL, SAME, "fits 5=65534", "fits 5=1")
        ask(all_parts, label(0, 9), SAME, "fits 5=512", "fits 5=1")
        for slot in slots:
            # One slot can be empty: that spares the rule.
            maybe = {**all_parts, slot: parts | ONLY_EMPTY}
            ask(maybe, ONLY_EMPTY, SAME, "fits %d=1" % slot, SAME)
            ask(maybe, FILLED, SAME, SAME, "fits %d=1" % slot)
            ask(maybe, FULL, SAME, SAME, SAME)
            ask({**all_parts, slot: ONLY_EMPTY}, ONLY_EMPTY, SAME, SAME, SAME)
            ask({**all_parts, slot: ONLY_EMPTY}, FILLED, SAME, SAME, SAME)
            ask({**all_parts, slot: label(1)}, ONLY_EMPTY, SAME, FAILS, SAME)
            if most < 15:
                # A part more than the rows have: it never goes, and alone spares the rule.
                more = {**all_parts, slot: parts | 2 << most}
                ask(more, ONLY_EMPTY, "fits %d=%d" % (slot, parts), "fits %d=%d" % (slot, 2 << most), SAME)
                ask(more, FILLED, "fits %d=%d" % (slot, parts), SAME, "fits %d=%d" % (slot, 2 << most))
                ask(more, FULL, "fits %d=%d" % (slot, parts), SAME, SAME)
                ask({**all_parts, slot: 2 << most}, ONLY_EMPTY, FAILS, SAME, SAME)
        if arity > 1:
            both = dict.fromkeys(slots[:2], parts | ONLY_EMPTY)
            ask({**all_parts, **both}, ONLY_EMPTY, SAME, SAME, SAME)
            ask({**all_parts, **both}, label(2, 3), SAME, SAME, SAME)


def one_choice_less(cases):
    """Rows for every choice but one, with as many rows as choices, fewer or more."""
    for arity, most, fill_up in [(1, 15, True), (2, 2, False), (2, 15, False), (3, 3, True), (3, 6, False), (4, 3, False), (4, 4, False)]:
        choices = every_row(arity, most)
        middle = len(choices) // 2
        for place in (0, middle, len(choices) - 1) if len(choices) < 30 else (middle,):
            rows = choices[:place] + choices[place + 1:]
            add_gap(cases, "gap-%d-%d-%d" % (arity, most, place), choices[place], rows, most)
            if len(choices) <= 255:
                add_gap(cases, "gap-%d-%d-%d-one-twice" % (arity, most, place), choices[place], rows + rows[:1], most)
            if fill_up and place == middle:
                add_gap(cases, "gap-%d-%d-%d-255-rows" % (arity, most, place), choices[place], (rows * 255)[:255], most)


def add_gap(cases, name, gap, rows, most):
    """A book whose rows are every choice of the parts 1 to `most` but the gap, and its boxes."""
    arity = len(gap)
    slots = [[23], [0, 23], [7, 8, 9], [1, 4, 12, 20]][arity - 1]
    cases.add_book(name, cells_of(of_each_kind(10, slots, rows)), count=3)
    parts = FILLED & (2 << most) - 1
    labels = dict.fromkeys(slots, parts)
    left = " ".join(["fits"] + ["%d=%d" % (slot, label(part)) for slot, part in zip(slots, gap)])
    cases.add_box(GOES, box_of(labels, FULL), SAME if arity > 1 else "fits 23=%d" % (parts & ~label(*gap)))
    cases.add_box(NEEDS, box_of({**labels, 10: ONLY_EMPTY}, FULL), left)
    cases.add_box(BARS, box_of({**labels, 10: FILLED}), left)
    cases.add_box(NEEDS, box_of({**labels, 10: FULL}), SAME)
    cases.add_box(BARS, box_of({**labels, 10: FULL}), SAME)
    alone = {slot: label(part) for slot, part in zip(slots, gap)}
    cases.add_box(GOES, box_of(alone), FAILS)
    cases.add_box(NEEDS, box_of(alone), SAME)
    # Without the gap's part in one slot the rows are every choice.
    without = {**labels, slots[-1]: parts & ~label(gap[-1])}
    cases.add_box(GOES, box_of(without), SAME)
    cases.add_box(NEEDS, box_of({**without, 10: ONLY_EMPTY}), FAILS)
    cases.add_box(BARS, box_of({**without, 10: FULL}), "fits 10=1")


def wide_labels(cases):
    """Full labels on rules of few rows: far more choices than rows."""
    for arity in range(1, 5):
        slots = list(range(20, 20 + arity))
        rows = [tuple(range(1, arity + 1)), (15,) * arity, (15,) * arity]
        cases.add_book("wide-%d" % arity, cells_of(of_each_kind(0, slots, rows)), count=3)
        filled = dict.fromkeys(slots, FILLED if arity < 4 else label(1, 2, 3, 4, 7, 15))
        full = dict.fromkeys(slots, FULL if arity < 4 else label(0, 1, 4, 5, 6, 15))
        for kind in (GOES, NEEDS, BARS):
            for t in (ONLY_EMPTY, FILLED, FULL):
                if arity < 3 or t == ONLY_EMPTY:
                    cases.add_box(kind, box_of({**filled, 0: t}))
                    cases.add_box(kind, box_of({**full, 0: t}, FULL))
                cases.add_box(kind, box_of({**dict.fromkeys(slots, label(15)), 0: t}))
                cases.add_box(kind, box_of({**dict(zip(slots, map(label, rows[0]))), 0: t}, FILLED))
    # The most choices that there are: four slots of fifteen parts.
    cases.add_book("widest", cells_of(of_each_kind(0, [20, 21, 22, 23], [(1, 2, 3, 4), (15, 15, 15, 15), (1, 15, 3, 15)])), count=3)
    filled = dict.fromkeys([20, 21, 22, 23], FILLED)
    cases.add_box(GOES, box_of(filled), "fits 20=32770 21=32772 22=32776 23=32784")
    cases.add_box(NEEDS, box_of(filled), SAME)
    cases.add_box(BARS, box_of({**filled, 0: label(15)}), SAME)


def many_rules(cases):
    """64 rules that all differ: each narrows as its own cells say."""
    rules = []
    for number in range(64):
        slot, part = number % 24, number % 15 + 1
        kind = number % 3
        rules.append((kind, (slot + 1 + number // 24) % 24 if kind else 0, [slot], [(part,)] * (number % 4 + 1)))
    cases.add_book("64-rules", cells_of(rules), count=64)
    for number, (kind, t, [slot], [(part,), *_]) in enumerate(rules):
        if kind == GOES:
            cases.add_box(number, [FILLED] * SLOTS, "fits %d=%d" % (slot, label(part)))
            cases.add_box(number, [FULL] * SLOTS, "fits %d=%d" % (slot, label(0, part)))
        else:
            barred = ONLY_EMPTY if kind == NEEDS else FILLED
            cases.add_box(number, box_of({t: barred}, FILLED), "fits %d=%d" % (slot, FILLED & ~label(part)))
            cases.add_box(number, box_of({slot: label(part)}, FULL), "fits %d=%d" % (t, FULL & ~barred))
    cases.add_past_the_count([FILLED] * SLOTS)


def most_cells(cases):
    """As many cells as a catalogue may have, and one more."""
    for total in (8191, 8192, 8193):
        left = total - 27 - 64 * 5
        rules = []
        for number in range(64):
            rows = min(255, left - (63 - number))
            left -= rows
            rules.append((GOES, 0, [number % 24], [(number % 15 + 1,)] * rows))
        cells = cells_of(rules)
        assert len(cells) == total
        cases.add_book("%d-cells" % total, cells, count=0 if total > 8192 else 64)
        for number in (0, 1, 29, 30, 31, 32, 62, 63):
            answer = SAME if total > 8192 else "fits %d=%d" % (number % 24, label(number % 15 + 1))
            cases.add_box(number, [FILLED] * SLOTS, answer)
        cases.add_past_the_count([FILLED] * SLOTS)


def no_rules(cases):
    """Lawful cells without rules."""
    for name, cells in [("least", [0, 1, 257, 0]), ("24-slots", cells_of([]))]:
        cases.add_book("no-rules-" + name, cells, count=0)
        cases.add_past_the_count([2] * SLOTS)
        cases.add_past_the_count([FULL] * SLOTS)


def unlawful(cases):
    """Unlawful cells: a book without rules."""
    spoiled = [
        ("none", []), ("mark-alone", [7]), ("one-short", CELLS[:-1]), ("first-rule-alone", CELLS[:18]), ("one-more", CELLS + [0]),
        ("twice", CELLS + CELLS), ("used-0", with_cell(1, 0)), ("used-25", [1, 25] + [257] * 25 + [0]), ("slot-of-no-parts", with_cell(2, 256)),
        ("slot-of-16-parts", with_cell(2, 272)), ("no-standard", [7, 3, 2, 2] + CELLS[4:]), ("rule-more", with_cell(5, 5)),
        ("rule-less", with_cell(5, 3)), ("65-rules", [1, 1, 257, 65] + [0, 0, 1, 0, 0] * 65), ("kind-3", with_cell(6, 3)),
        ("last-kind-3", with_cell(30, 3)), ("goes-with-t", with_cell(7, 1)), ("no-slot", with_cell(8, 0)), ("slots-5", with_cell(8, 5)),
        ("slots-fall", with_cell(9, 2)), ("slot-unused", with_cell(10, 3)), ("part-0", with_cell(12, 0)), ("part-not-offered", with_cell(12, 3)),
        ("last-part-not-offered", with_cell(37, 3)), ("t-unused", with_cell(19, 3)), ("t-of-its-own", with_cell(19, 0)),
        ("256-rows", [1, 1, 271, 1, 0, 0, 1, 0, 256] + [1] * 256),
    ]
    for name, cells in spoiled:
        cases.add_book("unlawful-" + name, cells, count=0)
        cases.add_box(0, box_of({0: 2, 1: 4}), SAME)
        cases.add_box(1, box_of({0: 2, 1: 2}), SAME)
        cases.add_box(255, [FULL] * SLOTS, SAME)


# ---- generated ----

def made_rows(dice, offers):
    """Rows over slots with these offers: few, many with repeats, or nearly every choice."""
    def some(count):
        return [[dice.between(1, parts) for parts in offers] for _ in range(count)]

    way = dice.below(4)
    if way == 0:
        return some(dice.below(4))
    if way == 1:
        return some(dice.between(4, 14))
    choices = [list(row) for row in product(*(range(1, parts + 1) for parts in offers))]
    if len(choices) > 40:
        return some(dice.between(10, 24))
    for _ in range(dice.below(4)):
        if choices:
            choices.pop(dice.below(len(choices)))
    for _ in range(dice.below(4)):
        if choices:
            choices.insert(dice.below(len(choices) + 1), dice.pick(choices))
    return choices


def made_book(dice):
    """The cells of a lawful catalogue of one to four rules."""
    used = dice.pick([2, 3, 4, 5, 5, 6, 7, 12, 24])
    offers = [dice.pick([1, 2, 2, 3, 3, 4, 5, 15]) for _ in range(used)]
    cells = [dice.below(65536), used] + [catalogue.STANDARD + offers[0]]
    cells += [parts + dice.pick([0, catalogue.STANDARD]) for parts in offers[1:]]
    count = dice.between(1, 4)
    cells.append(count)
    for _ in range(count):
        slots = dice.rising(dice.between(1, min(4, used)), used)
        others = [slot for slot in range(used) if slot not in slots]
        kind = dice.below(3) if others else GOES
        rows = made_rows(dice, [offers[slot] for slot in slots])
        cells += [kind, dice.pick(others) if kind else 0, len(slots)] + slots + [len(rows)]
        cells += [part for row in rows for part in row]
    return cells


def made_label(dice, parts):
    """A label for a slot of a rule whose rows have these parts there."""
    some = sum({1 << part for part in parts if dice.below(2)})
    way = dice.below(12)
    if way < 3:
        return label(*set(parts)) or label(1)
    if way < 5:
        return some or label(dice.between(1, 15))
    if way == 5:
        return some | ONLY_EMPTY
    if way == 6:
        return some | label(dice.between(1, 15)) | dice.below(2)
    if way == 7:
        return label(*set(parts)) | label(dice.between(1, 15))
    if way == 8:
        return label(dice.pick(parts)) if parts else label(1)
    if way == 9:
        return dice.pick([ONLY_EMPTY, FULL, FILLED])
    if way == 10:
        return dice.between(1, FULL)
    return dice.between(1, 15) * 2


def made_box(dice, rule):
    """A box with few choices for the slots of the rule: any, or a row with one slot open."""
    others = dice.pick([ONLY_EMPTY, ONLY_EMPTY, ONLY_EMPTY, FULL, FILLED, dice.between(1, FULL)])
    box = [others] * SLOTS
    if dice.below(12) == 0:
        box = [dice.between(1, FULL) for _ in range(SLOTS)]
    rows = sorted(rule.rows)
    near = dice.pick(rows) if rows and dice.below(2) else None
    open_place = dice.below(len(rule.slots))
    for place, slot in enumerate(rule.slots):
        if near is None or place == open_place:
            box[slot] = made_label(dice, [row[place] for row in rows])
        else:
            box[slot] = label(near[place])
    if rule.kind != GOES:
        box[rule.t] = dice.pick([ONLY_EMPTY, ONLY_EMPTY, label(dice.between(1, 15)), FILLED, FULL, label(0, dice.between(1, 15)), dice.between(1, FULL)])
    while volume(box, rule.scope()) > MOST_CHOICES:
        slot = dice.pick(rule.scope())
        if volume(box, [slot]) > 1:
            box[slot] &= ~label(dice.pick(members(box[slot])))
    return box


def made_single(dice, rule):
    """A single box: the slots of the rule hold a row, or nearly."""
    box = [label(dice.below(16)) for _ in range(SLOTS)] if dice.below(6) == 0 else [ONLY_EMPTY] * SLOTS
    numbers = list(dice.pick(sorted(rule.rows))) if rule.rows else [1] * len(rule.slots)
    if dice.below(2):
        numbers[dice.below(len(numbers))] = dice.pick([EMPTY, 1, 2, 3, 15])
    for slot, number in zip(rule.slots, numbers):
        box[slot] = label(number)
    if rule.kind != GOES:
        box[rule.t] = dice.pick([ONLY_EMPTY, label(dice.between(1, 15))])
    return box


def generated(cases):
    dice = Dice(2417)
    for number in range(110):
        cases.add_book("made-%d" % number, made_book(dice))
        for place, rule in enumerate(cases.rules):
            for _ in range(4):
                cases.add_box(place, made_box(dice, rule))
            cases.add_box(place, made_single(dice, rule))
        if dice.below(6) == 0:
            cases.add_past_the_count([dice.between(1, FULL) for _ in range(SLOTS)])


def generated_edits(cases):
    """Cells with one of them changed: mostly unlawful, and otherwise another catalogue."""
    dice = Dice(977)
    for number in range(50):
        cells = made_book(dice)
        at = dice.below(len(cells))
        cells[at] = dice.pick([0, 1, 2, 3, cells[at] + 1, cells[at] ^ 256, dice.below(65536)]) % 65536
        cases.add_book("edit-%d" % number, cells)
        for rule in range(2):
            cases.add_box(rule, box_of({slot: label(dice.below(4), dice.between(4, 6)) for slot in range(6)}, dice.pick([ONLY_EMPTY, label(1), label(2)])))


# ---- files ----

def narrow_cases():
    cases = NarrowCases()
    for part in (practice, practice_pieces, no_rows, covered, one_choice_less, wide_labels, many_rules, most_cells, no_rules, unlawful,
                 generated, generated_edits):
        part(cases)
    return cases


def main():
    print(put_cases(os.path.join(sys.argv[1], "narrow_cases"), narrow_cases()))


if __name__ == "__main__":
    main()
