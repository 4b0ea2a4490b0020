"""A plain reading of the catalogue format: reader, writer and test of lawfulness.

It shares nothing with the proved crates, so that each can be held against the other.
"""

import re

MOST_BYTES = 65536
MOST_IN_LINE = 80
MOST_CELLS = 8192
MOST_MARK = 65535
MOST_USED = 24
MOST_PARTS = 15
MOST_RULES = 64
MOST_SLOTS = 4
MOST_ROWS = 255
STANDARD = 256
KINDS = ("goes", "needs", "bars")

NUMBER = re.compile(rb"0|[1-9][0-9]{0,4}")


class Fault(Exception):
    """A refusal: the number of its question and the line, or 0."""

    def __init__(self, code, line):
        super().__init__(code, line)
        self.code = code
        self.line = line

    def layer(self):
        if self.code <= 3:
            return "line"
        if self.code <= 5:
            return "field"
        if self.code <= 11:
            return "catalogue"
        return "none"


class Reader:
    """The lines of a text, asked one after the other."""

    def __init__(self, text):
        self.text = text
        self.at = 0
        self.line = 0

    def fail(self, code):
        raise Fault(code, self.line)

    def due(self, key):
        """What stands after the key and the "=" of the next line."""
        self.line += 1
        end = self.text.find(b"\n", self.at)
        if end < 0:
            self.fail(2)
        line = self.text[self.at:end]
        self.at = end + 1
        if len(line) > MOST_IN_LINE:
            self.fail(3)
        if not line.startswith(key + b"="):
            self.fail(4)
        return line[len(key) + 1:]

    def number(self, word):
        if not NUMBER.fullmatch(word):
            self.fail(5)
        return int(word)

    def numbers(self, value, fewest, most):
        words = value.split(b" ")
        found = [self.number(word) for word in words]
        if not fewest <= len(found) <= most:
            self.fail(5)
        return found

    def within(self, number, low, high):
        if not low <= number <= high:
            self.fail(6)
        return number

    def single(self, key, low, high):
        """The number of a line that has one number and no word."""
        [number] = self.numbers(self.due(key), 1, 1)
        return self.within(number, low, high)

    def slot(self):
        """The part count of a slot line, and whether the slot is standard."""
        words = self.due(b"slot").split(b" ")
        if len(words) != 2 or words[1] not in (b"standard", b"optional"):
            self.fail(5)
        parts = self.within(self.number(words[0]), 1, MOST_PARTS)
        return parts, words[1] == b"standard"

    def slots(self):
        used = self.single(b"slots", 1, MOST_USED)
        slots = [self.slot() for _ in range(used)]
        if not any(standard for _, standard in slots):
            self.fail(9)
        return slots

    def head(self, used):
        """The kind of a rule and its t."""
        value = self.due(b"rule")
        if value == b"goes":
            return 0, 0
        words = value.split(b" ")
        if len(words) != 2 or words[0] not in (b"needs", b"bars"):
            self.fail(5)
        t = self.within(self.number(words[1]), 0, used - 1)
        return KINDS.index(words[0].decode()), t

    def rule(self, offers):
        used = len(offers)
        kind, t = self.head(used)
        slots = self.numbers(self.due(b"of"), 1, MOST_SLOTS)
        for slot in slots:
            self.within(slot, 0, used - 1)
        if any(a >= b for a, b in zip(slots, slots[1:])):
            self.fail(7)
        if kind != 0 and t in slots:
            self.fail(8)
        rows = self.single(b"rows", 0, MOST_ROWS)
        cells = [kind, t, len(slots)] + slots + [rows]
        for _ in range(rows):
            row = self.numbers(self.due(b"row"), len(slots), len(slots))
            for slot, part in zip(slots, row):
                self.within(part, 1, offers[slot])
            cells += row
        return cells

    def catalogue(self):
        cells = [self.single(b"mark", 0, MOST_MARK)]
        slots = self.slots()
        cells.append(len(slots))
        for parts, standard in slots:
            cells.append(parts + (STANDARD if standard else 0))
        rules = self.single(b"rules", 0, MOST_RULES)
        cells.append(rules)
        offers = [parts for parts, _ in slots]
        for _ in range(rules):
            cells += self.rule(offers)
        if self.at < len(self.text):
            self.line += 1
            self.fail(10)
        return cells


def read(text, room):
    """The cells of a text where `room` cells are lent; raises Fault."""
    if len(text) > MOST_BYTES:
        raise Fault(1, 0)
    cells = Reader(text).catalogue()
    if len(cells) > MOST_CELLS or len(cells) > room:
        raise Fault(11, 0)
    return cells


def check(text):
    """The same where as many cells are lent as a catalogue may have."""
    return read(text, MOST_CELLS)


class Taker:
    """Cells taken one after the other; IndexError where they run out."""

    def __init__(self, cells):
        self.cells = cells
        self.at = 0

    def take(self):
        if self.at >= len(self.cells):
            raise IndexError
        self.at += 1
        return self.cells[self.at - 1]

    def take_many(self, count):
        return [self.take() for _ in range(count)]


def shown(cells):
    """The text that cells would have by their shape alone, or None where they have no shape."""
    taker = Taker(cells)
    lines = []
    try:
        lines.append("mark=%d" % taker.take())
        used = taker.take()
        lines.append("slots=%d" % used)
        for cell in taker.take_many(used):
            word = "standard" if cell & STANDARD else "optional"
            lines.append("slot=%d %s" % (cell & ~STANDARD, word))
        rules = taker.take()
        lines.append("rules=%d" % rules)
        for _ in range(rules):
            kind, t, count = taker.take_many(3)
            if kind > 2:
                return None
            lines.append("rule=goes" if kind == 0 else "rule=%s %d" % (KINDS[kind], t))
            lines.append("of=" + " ".join(map(str, taker.take_many(count))))
            rows = taker.take()
            lines.append("rows=%d" % rows)
            for _ in range(rows):
                lines.append("row=" + " ".join(map(str, taker.take_many(count))))
    except IndexError:
        return None
    if taker.at < len(cells):
        return None
    return "".join(line + "\n" for line in lines).encode()


def is_lawful(cells):
    """Whether some text reads to the cells.

    A text is fixed by the cells that it reads to, so the one text of their shape decides.
    """
    text = shown(cells)
    if text is None:
        return False
    try:
        return read(text, len(cells)) == cells
    except Fault:
        return False


def keeps_the_rules(cells):
    """The same by the ranges of the cells, with no text."""
    taker = Taker(cells)
    try:
        taker.take()
        used = taker.take()
        if not 1 <= used <= MOST_USED:
            return False
        slots = taker.take_many(used)
        if any(cell // STANDARD > 1 or not 1 <= cell % STANDARD <= MOST_PARTS for cell in slots):
            return False
        if all(cell < STANDARD for cell in slots):
            return False
        rules = taker.take()
        if rules > MOST_RULES:
            return False
        for _ in range(rules):
            if not rule_keeps(taker, [cell % STANDARD for cell in slots]):
                return False
    except IndexError:
        return False
    return taker.at == len(cells) <= MOST_CELLS


def rule_keeps(taker, offers):
    kind, t, count = taker.take_many(3)
    if kind > 2 or not 1 <= count <= MOST_SLOTS:
        return False
    slots = taker.take_many(count)
    if any(slot >= len(offers) for slot in slots) or sorted(set(slots)) != slots:
        return False
    if kind == 0 and t != 0:
        return False
    if kind != 0 and (t >= len(offers) or t in slots):
        return False
    rows = taker.take()
    if rows > MOST_ROWS:
        return False
    for _ in range(rows):
        row = taker.take_many(count)
        if any(not 1 <= part <= offers[slot] for slot, part in zip(slots, row)):
            return False
    return True


def write(cells, room):
    """The text of lawful cells where `room` bytes are lent; raises Fault."""
    if not is_lawful(cells):
        raise Fault(12, 0)
    text = shown(cells)
    if len(text) > room:
        raise Fault(13, 0)
    return text
