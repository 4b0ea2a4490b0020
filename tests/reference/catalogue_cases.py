"""Writes the cases of the catalogue format and what the reference answers to each.

    catalogue_cases.py FOLDER

writes FOLDER/read_cases/stdin, FOLDER/read_cases/stdout and the same for write_cases.

A reading case is a line NAME ROOM TEXT: ROOM cells are lent, and TEXT is escaped:
`\\n` is a line end, `\\xHH` a byte, `\\\\` a backslash, and `\\{N|UNIT}` is UNIT N times.
A writing case is a line NAME ROOM CELLS: ROOM bytes are lent, and `N*C` is the cell C N times.
"""

import os
import sys

import catalogue
from catalogue import Fault, MOST_BYTES

PLENTY = 9000
SHOWN_CELLS = 60
SHOWN_BYTES = 240

PRACTICE = [
    "mark=7", "slots=3", "slot=2 standard", "slot=2 standard", "slot=2 optional", "rules=4",
    "rule=goes", "of=0 1", "rows=3", "row=1 1", "row=2 1", "row=2 2",
    "rule=needs 2", "of=0", "rows=1", "row=1",
    "rule=bars 2", "of=1", "rows=1", "row=2",
    "rule=goes", "of=1 2", "rows=1", "row=1 2",
]


# ---- how cases and answers are spelled ----

def escaped(data):
    """Bytes as printable text, on one line."""
    out = []
    for byte in data:
        if byte == 10:
            out.append("\\n")
        elif byte == 92:
            out.append("\\\\")
        elif byte < 32 or byte > 126 or byte == 125:
            out.append("\\x%02x" % byte)
        else:
            out.append(chr(byte))
    return "".join(out)


def packed(text):
    """The escaped text, with runs of one line or of one byte said once."""
    pieces = text.split(b"\n")
    units = [piece + b"\n" for piece in pieces[:-1]] + [pieces[-1]]
    out = []
    for unit, count in runs(units):
        if count >= 4 and unit:
            out.append("\\{%d|%s}" % (count, escaped(unit)))
        else:
            out.append(packed_line(unit) * count)
    return "".join(out)


def packed_line(line):
    out = []
    for byte, count in runs(list(line)):
        unit = escaped(bytes([byte]))
        out.append("\\{%d|%s}" % (count, unit) if count >= 12 else unit * count)
    return "".join(out)


def runs(items):
    """Items with how often each comes in a row."""
    found = []
    for item in items:
        if found and found[-1][0] == item:
            found[-1][1] += 1
        else:
            found.append([item, 1])
    return [tuple(run) for run in found]


def packed_cells(cells):
    words = []
    for cell, count in runs(cells):
        words += ["%d*%d" % (count, cell)] if count >= 4 else [str(cell)] * count
    return " ".join(words)


def fnv(data):
    """FNV-1a of 64 bits."""
    value = 0xcbf29ce484222325
    for byte in data:
        value = ((value ^ byte) * 0x100000001b3) % 2 ** 64
    return "%016x" % value


def cell_bytes(cells):
    """The low and the high byte of each cell."""
    return bytes(byte for cell in cells for byte in (cell % 256, cell // 256))


def fault_words(fault):
    return "line=%d code=%d layer=%s" % (fault.line, fault.code, fault.layer())


def read_answer(text, room):
    try:
        cells = catalogue.read(text, room)
    except Fault as fault:
        words = fault_words(fault)
        read_as = (fault.line, fault.code)
    else:
        words = "cells=%d" % len(cells)
        read_as = len(cells)
        if len(cells) <= SHOWN_CELLS:
            words += " " + " ".join(map(str, cells))
        else:
            words += " fnv=" + fnv(cell_bytes(cells))
    try:
        count = len(catalogue.check(text))
    except Fault as fault:
        return words + check_words(read_as, (fault.line, fault.code), fault_words(fault))
    return words + check_words(read_as, count, "cells=%d" % count)


def check_words(read_as, checked, words):
    return " check=same" if read_as == checked else " check: " + words


def write_answer(cells, room):
    lawful = catalogue.is_lawful(cells)
    assert lawful == catalogue.keeps_the_rules(cells), cells
    words = "lawful=yes" if lawful else "lawful=no"
    try:
        text = catalogue.write(cells, room)
    except Fault as fault:
        return words + " " + fault_words(fault)
    words += " bytes=%d fnv=%s" % (len(text), fnv(text))
    if len(text) <= SHOWN_BYTES:
        words += " " + escaped(text)
    return words


# ---- lists of cases ----

class Cases:
    """Named cases in order, each with what the reference answers."""

    def __init__(self):
        self.names = set()
        self.asked = []
        self.answers = []

    def add(self, name, asked, answer):
        assert name not in self.names and " " not in name, name
        self.names.add(name)
        self.asked.append("%s %s\n" % (name, asked))
        self.answers.append("%s %s\n" % (name, answer))


class ReadCases(Cases):
    def add_text(self, name, text, room=PLENTY, line=None, code=None, cells=None):
        """A case, with its answer where the case was written for one."""
        data = text if isinstance(text, bytes) else text.encode("latin-1")
        try:
            got = (len(catalogue.read(data, room)), None, None)
        except Fault as fault:
            got = (None, fault.line, fault.code)
        if code is not None or cells is not None:
            assert got == (cells, line, code), (name, got)
        answer = read_answer(data, room)
        spelled = packed(data)
        assert unpacked(spelled) == data, name
        self.add(name, "%d %s" % (room, spelled), answer)


class WriteCases(Cases):
    def add_cells(self, name, cells, room=PLENTY, code=None, size=None):
        try:
            got = (len(catalogue.write(cells, room)), None)
        except Fault as fault:
            got = (None, fault.code)
        if code is not None or size is not None:
            assert got == (size, code), (name, got)
        self.add(name, "%d %s" % (room, packed_cells(cells)), write_answer(cells, room))


def unpacked(spelled):
    """The bytes that an escaped text stands for."""
    out = bytearray()
    at = 0
    while at < len(spelled):
        if not spelled.startswith("\\", at):
            out += spelled[at].encode()
            at += 1
        elif spelled[at + 1] == "n":
            out += b"\n"
            at += 2
        elif spelled[at + 1] == "\\":
            out += b"\\"
            at += 2
        elif spelled[at + 1] == "x":
            out.append(int(spelled[at + 2:at + 4], 16))
            at += 4
        else:
            bar = spelled.index("|", at)
            end = spelled.index("}", bar)
            out += unpacked(spelled[bar + 1:end]) * int(spelled[at + 2:bar])
            at = end + 1
    return bytes(out)


# ---- texts ----

def text_of(lines):
    return "".join(line + "\n" for line in lines)


def with_line(number, line, lines=PRACTICE):
    """The lines with another line under a number, from 1."""
    return text_of(lines[:number - 1] + [line] + lines[number:])


def up_to(number, line):
    """The practice text up to a line in place of its own, and the one after."""
    return text_of(PRACTICE[:number - 1] + [line] + PRACTICE[number:number + 1])


def small(mark="mark=0", slots="slots=1", slot="slot=1 standard", rules="rules=0", rest=()):
    return text_of([mark, slots, slot, rules] + list(rest))


def wide(used, parts=15, rest=("rules=0",)):
    """A text of so many slots, all standard, each with so many parts."""
    return text_of(["mark=1", "slots=%d" % used] + ["slot=%d standard" % parts] * used + list(rest))


def rule(head="rule=goes", of="of=0", rows=None, count=None):
    """The lines of a rule."""
    rows = [] if rows is None else rows
    return [head, of, "rows=%d" % (len(rows) if count is None else count)] + rows


def tall(cells, row="row=1"):
    """A text of one slot that reads to so many cells: 64 rules, each with rows as they go."""
    left = cells - 4 - 64 * 5
    lines = ["mark=9", "slots=1", "slot=15 standard", "rules=64"]
    for _ in range(64):
        rows = min(255, left)
        left -= rows
        lines += rule(rows=[row] * rows)
    assert left == 0
    return text_of(lines)


# ---- reading, by hand ----

def good_texts(cases):
    add = cases.add_text
    practice = text_of(PRACTICE)
    add("practice", practice, cells=38)
    add("practice-room-exact", practice, room=38, cells=38)
    add("practice-room-one-over", practice, room=39, cells=38)
    add("practice-room-one-short", practice, room=37, line=0, code=11)
    add("practice-room-one", practice, room=1, line=0, code=11)
    add("practice-room-none", practice, room=0, line=0, code=11)
    add("practice-room-most", practice, room=8192, cells=38)
    add("smallest", small(), cells=4)
    add("smallest-room-exact", small(), room=4, cells=4)
    add("smallest-room-one-short", small(), room=3, line=0, code=11)
    add("smallest-room-none", small(), room=0, line=0, code=11)
    add("one-rule-no-rows", small(rules="rules=1", rest=rule()), cells=9)
    add("goes-of-slot-0-where-t-is-0", small(rules="rules=1", rest=rule(rows=["row=1"])), cells=10)
    add("rows-repeat", small(rules="rules=1", rest=rule(rows=["row=1"] * 3)), cells=12)
    add("rules-repeat", small(rules="rules=2", rest=rule(rows=["row=1"]) * 2), cells=16)
    add("last-slot-alone-standard", text_of(["mark=1", "slots=2", "slot=1 optional", "slot=1 standard", "rules=0"]), cells=5)
    add("first-slot-alone-standard", text_of(["mark=1", "slots=2", "slot=1 standard", "slot=1 optional", "rules=0"]), cells=5)
    add("needs-0-of-the-rest", wide(5, rest=["rules=1"] + rule("rule=needs 0", "of=1 2 3 4", ["row=15 15 15 15"])), cells=20)
    add("bars-between", wide(5, rest=["rules=1"] + rule("rule=bars 2", "of=0 1 3 4", ["row=1 15 1 15"])), cells=20)
    add("needs-the-last", wide(24, rest=["rules=1"] + rule("rule=needs 23", "of=22", ["row=15"])), cells=33)
    add("goes-of-the-last-four", wide(24, rest=["rules=1"] + rule("rule=goes", "of=20 21 22 23", ["row=1 2 3 4"])), cells=39)
    add("24-slots-64-rules", wide(24, rest=["rules=64"] + rule("rule=bars 0", "of=20 21 22 23", ["row=15 14 13 12"]) * 64), cells=795)
    add("each-slot-its-own-offer", text_of(
        ["mark=65535", "slots=15"] + ["slot=%d %s" % (n, "standard" if n % 2 else "optional") for n in range(1, 16)]
        + ["rules=1"] + rule("rule=goes", "of=0 6 9 14", ["row=1 7 10 15", "row=1 1 1 1"])), cells=34)


def ranges(cases):
    """Each field at both ends of its range, and one past."""
    add = cases.add_text
    for mark, code in [(0, None), (1, None), (9, None), (10, None), (255, None), (256, None), (32768, None),
                       (65535, None), (65536, 6), (65537, 6), (99999, 6), (100000, 5), (165535, 5), (4294967296, 5)]:
        add("mark-%d" % mark, small(mark="mark=%d" % mark), **verdict(1, code, 4))
    for used, code in [(0, 6), (1, None), (2, None), (23, None), (24, None), (25, 6), (256, 6), (99999, 6), (100000, 5)]:
        add("slots-%d" % used, wide(min(used, 30)).replace("slots=30", "slots=%d" % used), **verdict(2, code, used + 3))
    for parts, code in [(0, 6), (1, None), (2, None), (14, None), (15, None), (16, 6), (255, 6), (256, 6), (257, 6),
                        (65535, 6), (65536, 6), (65537, 6), (99999, 6), (100000, 5)]:
        add("parts-%d" % parts, small(slot="slot=%d standard" % parts), **verdict(3, code, 4))
        slots = ["slots=2", "slot=1 standard", "slot=%d optional" % parts]
        add("parts-optional-%d" % parts, text_of(["mark=0"] + slots + ["rules=0"]), **verdict(4, code, 5))
    for rules, code in [(0, None), (1, None), (63, None), (64, None), (65, 6), (256, 6), (65536, 6), (65537, 6), (99999, 6), (100000, 5)]:
        add("rules-%d" % rules, small(rules="rules=%d" % rules, rest=rule() * min(rules, 70)), **verdict(4, code, 4 + 5 * rules))
    for rows, code in [(0, None), (1, None), (254, None), (255, None), (256, 6), (257, 6), (65535, 6), (65536, 6), (99999, 6), (100000, 5)]:
        add("rows-%d" % rows, small(rules="rules=1", rest=rule(rows=["row=1"] * min(rows, 300), count=rows)), **verdict(7, code, 9 + rows))
    for kind in ["needs", "bars"]:
        for t, code in [(0, None), (1, None), (2, 8), (3, None), (4, 6), (5, 6), (65536, 6), (99999, 6), (100000, 5)]:
            text = wide(4, rest=["rules=1"] + rule("rule=%s %d" % (kind, t), "of=2", ["row=3"]))
            add("%s-%d-of-2" % (kind, t), text, **verdict(9 if code == 8 else 8, code, 13))
    for slot, code in [(0, None), (3, None), (4, 6), (5, 6), (23, 6), (24, 6), (65536, 6), (99999, 6), (100000, 5)]:
        add("of-%d" % slot, wide(4, rest=["rules=1"] + rule("rule=goes", "of=%d" % slot, ["row=3"])), **verdict(9, code, 13))
        add("of-3-and-%d" % slot, wide(4, rest=["rules=1"] + rule("rule=goes", "of=3 %d" % slot, ["row=3 3"])),
            **verdict(9, code or 7, 0))
    for part, code in [(0, 6), (1, None), (6, None), (7, 6), (8, 6), (15, 6), (16, 6), (256, 6), (65536, 6), (65537, 6),
                       (99999, 6), (100000, 5)]:
        text = text_of(["mark=1", "slots=2", "slot=7 standard", "slot=6 standard", "rules=1"]
                       + rule("rule=goes", "of=0 1", ["row=7 6", "row=7 %d" % part, "row=1 1"]))
        add("part-%d-of-6" % part, text, **verdict(10, code, 17))


def verdict(line, code, cells):
    return dict(cells=cells) if code is None else dict(line=line, code=code)


def every_line(cases):
    """Each line of the practice text, spoiled in each way that a line can be."""
    add = cases.add_text
    for number in range(1, len(PRACTICE) + 1):
        good = PRACTICE[number - 1]
        key, value = good.split("=")
        before = text_of(PRACTICE[:number - 1])
        name = "line-%d-" % number

        def spoiled(way, line, code):
            add(name + way, up_to(number, line), line=number, code=code)

        add(name + "absent", before, line=number, code=2)
        add(name + "unended", before + good, line=number, code=2)
        add(name + "one-byte-unended", before + good[0], line=number, code=2)
        add(name + "lone-line-end", before + "\n", line=number, code=4)
        add(name + "lone-line-end-inserted", before + "\n" + text_of(PRACTICE[number - 1:]), line=number, code=4)
        spoiled("81-bytes", good + "x" * (81 - len(good)), 3)
        spoiled("80-bytes", good + "x" * (80 - len(good)), 5)
        spoiled("81-bytes-wrong-key", "x" * 81, 3)
        spoiled("80-bytes-wrong-key", "x" * 80, 4)
        spoiled("wrong-key", "make=" + value, 4)
        spoiled("longer-key", key + "s=" + value, 4)
        spoiled("shorter-key", key[:-1] + "=" + value, 4)
        spoiled("upper-key", key.upper() + "=" + value, 4)
        spoiled("leading-space", " " + good, 4)
        spoiled("space-before-equals", key + " =" + value, 4)
        spoiled("no-equals", key + value, 4)
        spoiled("key-alone", key, 4)
        spoiled("no-value", key + "=", 5)
        spoiled("space-after-equals", key + "= " + value, 5)
        spoiled("trailing-space", good + " ", 5)
        spoiled("carriage-return", good + "\r", 5)
        spoiled("nul-at-end", good + "\0", 5)
        spoiled("nul-at-start", "\0" + good, 4)
        spoiled("two-equals", key + "==" + value, 5)
        spoiled("a-word-more", good + " x", 5)
        spoiled("upper-word", key + "=X", 5)


def forms(cases):
    """Wrong words, counts and numbers, by the kind of line."""
    add = cases.add_text
    bad_numbers = {
        "empty": "", "leading-zero": "02", "two-zeros": "00", "six-digits": "100000", "six-zeros": "000000",
        "leading-zero-six": "000002", "leading-zero-five": "00002", "plus": "+2", "minus": "-2", "minus-zero": "-0", "hex": "0x2",
        "letter": "2a", "letter-first": "a2", "point": "2.0", "underscore": "1_0", "comma": "1,2", "tab-after": "2\t",
        "tab-before": "\t2", "nul": "2\0", "high-byte": "2\xff", "colon": "1:", "slash": "/1", "wide-digit": "\xb2",
        "semicolon": ";", "twenty-digits": "1" * 20, "sixty-digits": "1" * 60,
    }
    for name, word in bad_numbers.items():
        add("mark-" + name, small(mark="mark=" + word), line=1, code=5)
        add("slot-" + name, small(slot="slot=" + word + " standard"), line=3, code=5)
        add("needs-" + name, up_to(13, "rule=needs " + word), line=13, code=5)
        add("of-second-" + name, up_to(8, "of=0 " + word), line=8, code=5)
        add("row-first-" + name, up_to(11, "row=" + word + " 1"), line=11, code=5)
        add("row-last-" + name, up_to(24, "row=1 " + word), line=24, code=5)
    add("rules-zero-zero", small(rules="rules=00"), line=4, code=5)
    add("rows-zero-zero", small(rules="rules=1", rest=["rule=goes", "of=0", "rows=00"]), line=7, code=5)
    add("of-zero-zero", small(rules="rules=1", rest=["rule=goes", "of=00", "rows=0"]), line=6, code=5)
    for name, line in [("two-numbers", "slots=3 3"), ("with-word", "slots=3 standard"), ("word", "slots=three")]:
        add("slots-" + name, up_to(2, line), line=2, code=5)
    for name, value in [
        ("no-word", "2"), ("number-and-space", "2 "), ("no-number", "standard"), ("no-number-space", " standard"),
        ("swapped", "standard 2"), ("upper", "2 STANDARD"), ("capital", "2 Standard"), ("short", "2 standar"),
        ("long", "2 standards"), ("other", "2 default"), ("two-words", "2 standard optional"), ("two-spaces", "2  standard"),
        ("two-numbers", "2 2 standard"), ("trailing", "2 standard "), ("leading", " 2 standard"), ("tab", "2\tstandard"),
        ("joined", "2standard"), ("half", "2 standard\0"), ("optional-short", "2 optiona"), ("optional-upper", "2 OPTIONAL"),
        ("optional-long", "2 optional1"), ("256-and-more", "258"), ("empty", ""), ("space", " "),
    ]:
        for number in [3, 5]:
            add("slot-line-%d-%s" % (number, name), up_to(number, "slot=" + value), line=number, code=5)
    for name, value in [
        ("empty", ""), ("goes-with-number", "goes 0"), ("goes-trailing", "goes "), ("goes-leading", " goes"), ("goes-upper", "GOES"),
        ("goes-capital", "Goes"), ("goes-short", "goe"), ("goes-long", "goess"), ("needs-alone", "needs"), ("needs-space", "needs "),
        ("needs-two-numbers", "needs 2 2"), ("needs-two-spaces", "needs  2"), ("needs-trailing", "needs 2 "), ("needs-joined", "needs2"),
        ("needs-upper", "NEEDS 2"), ("need", "need 2"), ("bars-alone", "bars"), ("bars-space", "bars "), ("bars-two-numbers", "bars 2 1"),
        ("bars-word", "bars two"), ("bar", "bar 2"), ("bars-tab", "bars\t2"), ("other", "wants 2"), ("number", "2"), ("number-first", "2 needs"),
        ("two-kinds", "needs bars 2"), ("kind-0", "0"), ("kind-1", "1 2"),
    ]:
        for number in [7, 13, 21]:
            add("rule-line-%d-%s" % (number, name), up_to(number, "rule=" + value), line=number, code=5)
    for name, value in [
        ("five", "0 1 2 3 4"), ("six", "0 1 2 3 4 5"), ("five-equal", "0 0 0 0 0"), ("five-falling", "4 3 2 1 0"), ("five-far", "9 9 9 9 9"),
        ("two-spaces", "0  1"), ("trailing", "0 1 "), ("leading", " 0 1"), ("word", "0 one"), ("comma", "0,1"), ("empty", ""),
        ("far-then-word", "9 x"), ("falling-then-word", "1 0 x"),
    ]:
        add("of-" + name, wide(5, rest=["rules=1"] + rule("rule=goes", "of=" + value)), line=10, code=5)
    for name, value in [
        ("one-short", "1"), ("one-more", "1 1 1"), ("none", ""), ("two-spaces", "1  1"), ("five", "1 1 1 1 1"), ("zero-short", "0"),
        ("far-and-more", "9 9 9"), ("trailing", "1 1 "), ("leading", " 1 1"), ("word", "1 standard"),
    ]:
        for number in [10, 12, 24]:
            add("row-line-%d-%s" % (number, name), up_to(number, "row=" + value), line=number, code=5)
    add("rows-two-numbers", up_to(9, "rows=3 3"), line=9, code=5)
    add("rules-two-numbers", up_to(6, "rules=4 4"), line=6, code=5)
    add("row-of-four-one-short", wide(4, rest=["rules=1"] + rule("rule=goes", "of=0 1 2 3", ["row=1 1 1"])), line=11, code=5)
    add("row-of-four-one-more", wide(4, rest=["rules=1"] + rule("rule=goes", "of=0 1 2 3", ["row=1 1 1 1 1"])), line=11, code=5)


def slots_of_rules(cases):
    """Order of the slots, and t among them."""
    add = cases.add_text

    def of(name, head, slots, code):
        rows = ["row=" + " ".join(["2"] * len(slots.split()))]
        text = wide(6, rest=["rules=2"] + rule() + rule(head, "of=" + slots, rows))
        add("second-" + name, text, **verdict(14, code, 18 + 2 * len(slots.split())))

    of("of-rising-two", "rule=goes", "2 4", None)
    of("of-rising-four", "rule=goes", "0 1 4 5", None)
    of("of-equal-two", "rule=goes", "2 2", 7)
    of("of-equal-zero", "rule=goes", "0 0", 7)
    of("of-falling-two", "rule=goes", "1 0", 7)
    of("of-equal-last", "rule=goes", "1 2 2", 7)
    of("of-falling-last", "rule=goes", "0 1 3 2", 7)
    of("of-equal-first-of-four", "rule=goes", "1 1 2 3", 7)
    of("of-falling-middle", "rule=goes", "0 3 1 4", 7)
    of("of-back-to-first", "rule=goes", "0 1 2 0", 7)
    of("of-rising-over-a-fall", "rule=goes", "0 2 1 3", 7)
    for kind in ["needs", "bars"]:
        of(kind + "-t-alone", "rule=%s 3" % kind, "3", 8)
        of(kind + "-t-first", "rule=%s 0" % kind, "0 1", 8)
        of(kind + "-t-last", "rule=%s 5" % kind, "0 1 4 5", 8)
        of(kind + "-t-middle", "rule=%s 4" % kind, "0 1 4 5", 8)
        of(kind + "-t-between", "rule=%s 3" % kind, "0 1 4 5", None)
        of(kind + "-t-before", "rule=%s 0" % kind, "1 2 3", None)
        of(kind + "-t-after", "rule=%s 5" % kind, "1 2 3", None)
        of(kind + "-falling-and-t", "rule=%s 3" % kind, "4 3", 7)
        of(kind + "-equal-and-t", "rule=%s 3" % kind, "3 3", 7)
        of(kind + "-far-and-t", "rule=%s 3" % kind, "3 6", 6)
        of(kind + "-far-and-falling", "rule=%s 3" % kind, "6 1", 6)
        of(kind + "-far-last-after-a-fall", "rule=%s 3" % kind, "4 3 9", 6)
        of(kind + "-five-digits-far", "rule=%s 3" % kind, "3 99999", 6)
        of(kind + "-six-digits", "rule=%s 3" % kind, "3 100000", 5)


def order(cases):
    """Two faults in one text: the earlier line, and on one line the earlier question."""
    add = cases.add_text
    none = ["mark=1", "slots=2", "slot=1 optional", "slot=1 optional", "rules=0"]
    add("no-standard-slot", text_of(none), line=4, code=9)
    add("no-standard-of-one", small(slot="slot=1 optional"), line=3, code=9)
    add("no-standard-of-24", wide(24).replace("standard", "optional"), line=26, code=9)
    add("no-standard-and-nothing-after", text_of(none[:4]), line=4, code=9)
    add("no-standard-then-wrong-key", with_line(5, "x", none), line=4, code=9)
    add("no-standard-then-text", text_of(none) + "x", line=4, code=9)
    add("no-standard-last-out-of-range", with_line(4, "slot=16 optional", none), line=4, code=6)
    add("no-standard-last-form", with_line(4, "slot=1 Optional", none), line=4, code=5)
    add("no-standard-last-key", with_line(4, "slots=1 optional", none), line=4, code=4)
    add("no-standard-last-unended", text_of(none[:3]) + none[3], line=4, code=2)
    add("no-standard-last-absent", text_of(none[:3]), line=4, code=2)
    add("no-standard-last-long", with_line(4, "slot=1 optional" + " " * 66, none), line=4, code=3)
    add("no-standard-first-out-of-range", with_line(3, "slot=0 optional", none), line=3, code=6)
    add("no-standard-room-none", text_of(none), room=0, line=4, code=9)
    add("unended-and-long", text_of(PRACTICE[:5]) + "x" * 90, line=6, code=2)
    add("unended-and-long-first", "x" * 81, line=1, code=2)
    add("unended-very-long", text_of(PRACTICE[:12]) + "x" * 5000, line=13, code=2)
    add("long-and-key", with_line(1, "x" * 81), line=1, code=3)
    add("key-and-form", with_line(1, "marks=x"), line=1, code=4)
    add("form-and-range", with_line(1, "mark=99999 x"), line=1, code=5)
    add("range-before-form", with_line(8, "of=9 01"), line=8, code=5)
    add("row-range-before-form", with_line(10, "row=9 01"), line=10, code=5)
    add("slot-range-and-word", with_line(3, "slot=99 Standard"), line=3, code=5)
    add("needs-range-and-count", with_line(13, "rule=needs 99 1"), line=13, code=5)
    add("range-line-1-form-line-2", text_of(["mark=99999", "slots=x"]), line=1, code=6)
    add("form-line-1-range-line-2", text_of(["mark=x", "slots=99"]), line=1, code=5)
    add("range-line-2-missing-line-3", text_of(["mark=1", "slots=99"]), line=2, code=6)
    add("t-out-of-range-then-of", text_of(PRACTICE[:12] + ["rule=needs 3", "of=x"]), line=13, code=6)
    add("t-among-then-rows", text_of(PRACTICE[:12] + ["rule=needs 0", "of=0", "rows=256"]), line=14, code=8)
    add("falling-then-rows", text_of(PRACTICE[:12] + ["rule=goes", "of=1 0", "rows=x"]), line=14, code=7)
    add("row-out-of-range-then-form", text_of(PRACTICE[:9] + ["row=1 3", "row=x"]), line=10, code=6)
    add("fault-then-text-after", with_line(24, "row=1 3") + "x", line=24, code=6)
    add("fault-and-no-room", with_line(24, "row=1 3"), room=0, line=24, code=6)
    add("fault-and-room-one-short", with_line(23, "rows=256"), room=37, line=23, code=6)
    add("unended-last-and-no-room", text_of(PRACTICE)[:-1], room=0, line=24, code=2)


def after_the_end(cases):
    add = cases.add_text
    practice = text_of(PRACTICE)
    for name, rest in [
        ("line-end", "\n"), ("letter", "x"), ("space", " "), ("nul", "\0"), ("carriage-return", "\r"), ("rule", "rule=goes\n"),
        ("rule-unended", "rule=goes"), ("row", "row=1 1\n"), ("long-line", "x" * 81 + "\n"), ("long-unended", "x" * 500),
        ("line-ends", "\n" * 50), ("itself", practice), ("high-byte", "\xff"), ("whole-rule", text_of(rule())),
    ]:
        add("after-practice-" + name, practice + rest, line=25, code=10)
        add("after-smallest-" + name, small() + rest, line=5, code=10)
    add("after-room-none", practice + "\n", room=0, line=25, code=10)
    add("after-room-one-short", practice + "x", room=37, line=25, code=10)
    add("after-too-many-cells", tall(8193) + "x", line=8193 - 64 * 2 + 1, code=10)
    add("after-too-many-cells-line-end", tall(8193) + "\n", line=8193 - 64 * 2 + 1, code=10)
    add("after-most-cells", tall(8192) + "\n", line=8192 - 64 * 2 + 1, code=10)


def sizes(cases):
    """The longest texts and the most cells."""
    add = cases.add_text
    practice = text_of(PRACTICE)
    for cells, room in [(51, 60), (51, 59), (52, 61), (52, 60)]:
        text = small(rules="rules=1", rest=rule(rows=["row=1"] * cells))
        add("cells-%d-room-%d" % (cells + 9, room), text, room=room, **verdict(0, None if room > cells + 8 else 11, cells + 9))
    for cells, room, code in [
        (8191, 9000, None), (8191, 8191, None), (8191, 8190, 11), (8192, 9000, None), (8192, 8192, None), (8192, 8191, 11),
        (8192, 0, 11), (8193, 8192, 11), (8193, 8193, 11), (8193, 9000, 11), (8193, 65535, 11), (8193, 8191, 11), (9000, 9000, 11),
        (9000, 16384, 11),
    ]:
        add("cells-%d-room-%d" % (cells, room), tall(cells), room=room, **verdict(0, code, cells))
    add("most-cells-in-fours", fours(8192), cells=8192)
    add("one-cell-too-many-in-fours", fours(8193), line=0, code=11)
    add("every-rule-full-of-fours", fours(MOST_IN_FOURS), room=65535, line=0, code=1)
    full = padded(MOST_BYTES)
    add("65536-bytes-too-many-cells", full, line=0, code=11)
    add("65536-bytes-too-many-cells-room-none", full, room=0, line=0, code=11)
    add("65537-bytes-too-many-cells", full + "x", line=0, code=1)
    add("65537-bytes-line-end", full + "\n", line=0, code=1)
    add("65537-bytes-of-rows", padded(MOST_BYTES + 1), line=0, code=1)
    shorter = padded(MOST_BYTES - 1)
    add("65535-bytes-and-one-after", shorter + "x", line=shorter.count("\n") + 1, code=10)
    for size, code in [(65535, None), (65536, None), (65537, 1), (70000, 1)]:
        add("practice-then-x-to-%d" % size, practice + "x" * (size - 212), line=0 if code else 25, code=code or 10)
        add("practice-then-line-ends-to-%d" % size, practice + "\n" * (size - 212), line=0 if code else 25, code=code or 10)
        add("line-ends-%d" % size, "\n" * size, line=0 if code else 1, code=code or 4)
        add("letters-%d" % size, "x" * size, line=0 if code else 1, code=code or 2)
        add("nuls-%d" % size, "\0" * size, line=0 if code else 1, code=code or 2)
        add("last-row-unended-%d" % size, text_of(PRACTICE[:23]) + "x" * (size - len(text_of(PRACTICE[:23]))),
            line=0 if code else 24, code=code or 2)
    add("too-long-room-none", "x" * 65537, room=0, line=0, code=1)
    add("too-long-of-good-lines", "mark=1\n" * 9363, line=0, code=1)
    add("good-lines-to-65534", "mark=1\n" * 9362, line=2, code=4)


FOURS = ["mark=4", "slots=16"] + ["slot=15 standard"] * 16 + ["rules=64"]
MOST_IN_FOURS = 3 + 16 + 64 * (8 + 255 * 4)


def fours(cells):
    """A text of so many cells, four to a row but in its last rule, which has one to a row."""
    left = cells - 3 - 16 - 63 * 8
    lines = list(FOURS)
    for _ in range(63):
        rows = min(255, (left - 5) // 4)
        left -= 4 * rows
        lines += rule("rule=needs 15", "of=0 1 2 14", ["row=15 14 13 12"] * rows)
    if left == 8 + 4 * 255:
        return text_of(lines + rule("rule=needs 15", "of=0 1 2 14", ["row=15 14 13 12"] * 255))
    return text_of(lines + rule("rule=goes", "of=15", ["row=15"] * (left - 5)))


def padded(size):
    """A text of exactly so many bytes, with no fault but that it has too many cells."""
    lines = FOURS[:-1] + ["rules=22"]
    heads = len("rule=bars 9\nof=0 1 2 10\nrows=100\n")
    lines += rule("rule=bars 9", "of=0 1 2 10", ["row=1 1 1 1"] * 255) * 20
    rows = (size - len(text_of(lines)) - heads - 900) // 12
    assert 100 <= rows <= 255, rows
    lines += rule("rule=bars 9", "of=0 1 2 10", ["row=1 1 1 1"] * rows)
    # The last rule takes up the rest with rows of 6 and of 7 bytes.
    left = size - len(text_of(lines)) - len("rule=goes\nof=0\nrows=100\n")
    longer = left % 6
    rows = ["row=1"] * (left // 6 - longer) + ["row=15"] * longer
    assert 100 <= len(rows) <= 255, len(rows)
    text = text_of(lines + rule(rows=rows))
    assert len(text) == size, len(text)
    return text


def odd_bytes(cases):
    """Texts that are hardly texts."""
    add = cases.add_text
    practice = text_of(PRACTICE)
    add("empty", "", line=1, code=2)
    add("empty-room-none", "", room=0, line=1, code=2)
    add("line-end", "\n", line=1, code=4)
    add("two-line-ends", "\n\n", line=1, code=4)
    add("line-end-first", "\n" + practice, line=1, code=4)
    add("space", " ", line=1, code=2)
    add("nul", "\0", line=1, code=2)
    add("nul-line", "\0\n", line=1, code=4)
    add("byte-order-mark", "\xef\xbb\xbf" + practice, line=1, code=4)
    add("crlf", practice.replace("\n", "\r\n"), line=1, code=5)
    add("cr-only", practice.replace("\n", "\r"), line=1, code=2)
    add("lf-cr", practice.replace("\n", "\n\r"), line=2, code=4)
    add("no-final-line-end", practice[:-1], line=24, code=2)
    add("upper-case", practice.upper(), line=1, code=4)
    add("tabs-for-spaces", practice.replace(" ", "\t"), line=3, code=5)
    add("two-spaces-everywhere", practice.replace(" ", "  "), line=3, code=5)
    add("slashes-for-line-ends", practice.replace("\n", " / "), line=1, code=2)
    add("backwards", text_of(PRACTICE[::-1]), line=1, code=4)
    add("all-bytes", bytes(range(256)).decode("latin-1"), line=1, code=4)
    add("high-bit-digit", "mark=\xb7\n", line=1, code=5)
    add("vertical-tab", with_line(2, "slots=3\x0b"), line=2, code=5)
    add("form-feed", with_line(2, "slots=\x0c3"), line=2, code=5)
    add("next-line-byte", with_line(2, "slots=3\x85"), line=2, code=5)
    add("backslash", with_line(2, "slots=\\3"), line=2, code=5)
    add("braces", with_line(2, "slots={3|}"), line=2, code=5)
    add("comment", "# a catalogue\n" + practice, line=1, code=4)
    add("semicolon-end", with_line(2, "slots=3;"), line=2, code=5)
    for size in (79, 80, 81, 82, 255, 256, 257, 1000, 65534):
        add("first-line-%d-bytes" % size, "mark=" + "1" * (size - 5) + "\n", line=1, code=5 if size <= 80 else 3)
        add("blank-line-%d-bytes" % size, " " * size + "\n", line=1, code=4 if size <= 80 else 3)


# ---- generated cases ----

class Dice:
    """Numbers that look random and are the same at each run (splitmix64)."""

    def __init__(self, seed):
        self.state = seed

    def below(self, bound):
        self.state = (self.state + 0x9e3779b97f4a7c15) % 2 ** 64
        value = self.state
        value = (value ^ (value >> 30)) * 0xbf58476d1ce4e5b9 % 2 ** 64
        value = (value ^ (value >> 27)) * 0x94d049bb133111eb % 2 ** 64
        return (value ^ (value >> 31)) % bound

    def between(self, low, high):
        return low + self.below(high - low + 1)

    def pick(self, items):
        return items[self.below(len(items))]

    def rising(self, count, bound):
        left = list(range(bound))
        return sorted(left.pop(self.below(len(left))) for _ in range(count))


def made_cells(dice):
    """The cells of a small lawful catalogue."""
    used = dice.pick([1, 2, 3, 3, 4, 5, 6, 8, 24])
    slots = [dice.between(1, 15) + dice.pick([0, 256]) for _ in range(used)]
    slots[dice.below(used)] |= 256
    cells = [dice.pick([0, 7, 255, 256, 65535, dice.below(65536)]), used] + slots
    rules = dice.below(5)
    cells.append(rules)
    for _ in range(rules):
        count = dice.between(1, min(4, used))
        of = dice.rising(count, used)
        others = [slot for slot in range(used) if slot not in of]
        kind = dice.below(3) if others else 0
        rows = dice.pick([0, 1, 2, 3])
        cells += [kind, dice.pick(others) if kind else 0, count] + of + [rows]
        for _ in range(rows):
            cells += [dice.between(1, slots[slot] % 256) for slot in of]
    return cells


def edited(dice, text):
    """The text with one change, and the name of the change."""
    way = dice.pick(["byte-deleted", "byte-inserted", "byte-changed", "byte-changed",
                     "line-dropped", "line-doubled", "lines-swapped", "cut"])
    at = dice.below(len(text))
    byte = bytes([dice.pick(list(b"0123456789 =\n\n\r\t\x00xrs") + [dice.below(256)])])
    lines = text.splitlines(keepends=True)
    line = dice.below(len(lines))
    if way == "byte-deleted":
        return way, text[:at] + text[at + 1:]
    if way == "byte-inserted":
        return way, text[:at] + byte + text[at:]
    if way == "byte-changed":
        return way, text[:at] + byte + text[at + 1:]
    if way == "line-dropped":
        return way, b"".join(lines[:line] + lines[line + 1:])
    if way == "line-doubled":
        return way, b"".join(lines[:line] + [lines[line]] + lines[line:])
    if way == "lines-swapped":
        other = dice.below(len(lines))
        lines[line], lines[other] = lines[other], lines[line]
        return way, b"".join(lines)
    return way, text[:at]


def number_edited(dice, text):
    """The text with one of its numbers moved by a little."""
    places = [at for at in range(len(text)) if text[at:at + 1].isdigit() and not text[at - 1:at].isdigit()]
    at = dice.pick(places)
    end = at
    while text[end:end + 1].isdigit():
        end += 1
    number = max(0, int(text[at:end]) + dice.pick([-2, -1, 1, 1, 2, 3]))
    return text[:at] + b"%d" % number + text[end:]


def generated_reads(cases):
    dice = Dice(2024)
    for number in range(60):
        cells = made_cells(dice)
        text = catalogue.shown(cells)
        cases.add_text("made-%d" % number, text, room=len(cells), cells=len(cells))
    for number in range(240):
        way, text = edited(dice, catalogue.shown(made_cells(dice)))
        cases.add_text("edit-%d-%s" % (number, way), text)
    for number in range(160):
        text = number_edited(dice, catalogue.shown(made_cells(dice)))
        cases.add_text("number-%d" % number, text)


# ---- writing, by hand ----

CELLS = [
    7, 3, 258, 258, 2, 4,
    0, 0, 2, 0, 1, 3, 1, 1, 2, 1, 2, 2,
    1, 2, 1, 0, 1, 1,
    2, 2, 1, 1, 1, 2,
    0, 0, 2, 1, 2, 1, 1, 2,
]


def with_cell(at, cell, cells=None):
    cells = CELLS if cells is None else cells
    return cells[:at] + [cell] + cells[at + 1:]


def tall_cells(cells):
    """Cells of one slot and 64 rules, as many as asked."""
    left = cells - 4 - 64 * 5
    out = [9, 1, 256 + 15, 64]
    for _ in range(64):
        rows = min(255, left)
        left -= rows
        out += [0, 0, 1, 0, rows] + [15] * rows
    assert left == 0
    return out


def lawful_cells(cases):
    add = cases.add_cells
    add("practice", CELLS, size=212)
    for room, code in [(212, None), (213, None), (211, 13), (100, 13), (1, 13), (0, 13), (65536, None)]:
        add("practice-room-%d" % room, CELLS, room=room, **({"code": code} if code else {"size": 212}))
    least = [0, 1, 257, 0]
    for room, code in [(39, None), (38, 13), (40, None), (0, 13)]:
        add("least-room-%d" % room, least, room=room, **({"code": code} if code else {"size": 39}))
    add("mark-highest", [65535, 1, 257, 0], size=43)
    add("24-slots", [1, 24] + [271] * 24 + [0])
    add("24-slots-one-standard", [1, 24] + [15] * 23 + [257] + [0])
    add("no-rows", [1, 1, 271, 1, 0, 0, 1, 0, 0])
    add("255-rows", [1, 1, 271, 1, 0, 0, 1, 0, 255] + [15] * 255)
    add("64-rules", [1, 1, 257, 64] + [0, 0, 1, 0, 0] * 64)
    add("four-slots", [1, 5] + [271] * 5 + [1, 2, 4, 4, 0, 1, 2, 3, 1, 15, 14, 13, 12])
    add("needs-0", [1, 5] + [271] * 5 + [1, 1, 0, 4, 1, 2, 3, 4, 1, 15, 14, 13, 12])
    text = len(catalogue.shown(tall_cells(8192)))
    add("8191-cells", tall_cells(8191), room=65536)
    add("8192-cells", tall_cells(8192), room=65536)
    add("8192-cells-room-exact", tall_cells(8192), room=text, size=text)
    add("8192-cells-room-one-short", tall_cells(8192), room=text - 1, code=13)
    add("8193-cells", tall_cells(8193), room=65536, code=12)
    add("9000-cells", tall_cells(9000), room=65536, code=12)


def unlawful_cells(cases):
    """Each way to be unlawful, one at a time."""
    def no(name, cells):
        cases.add_cells(name, cells, code=12)

    no("none", [])
    for count in range(1, len(CELLS)):
        no("first-%d" % count, CELLS[:count])
    no("one-more-0", CELLS + [0])
    no("one-more-1", CELLS + [1])
    no("one-more-rule", CELLS + [0, 0, 1, 0, 0])
    no("twice", CELLS + CELLS)
    no("one-inserted-first", [7] + CELLS)
    no("least-too-long", [0, 1, 257, 0, 0])
    no("least-too-short", [0, 1, 257])
    for used in (0, 1, 2, 4, 25, 65535):
        no("used-%d-of-3" % used, with_cell(1, used))
    no("used-25", [1, 25] + [257] * 25 + [0])
    no("used-256", [1, 256] + [257] * 256 + [0])
    for cell in (0, 16, 17, 255, 256, 272, 273, 511, 512, 513, 514, 527, 770, 1282, 32770, 33026, 65535):
        no("slot-0-cell-%d" % cell, with_cell(2, cell))
        no("slot-2-cell-%d" % cell, with_cell(4, cell))
        no("alone-cell-%d" % cell, [1, 1, cell, 0])
    for cell in (2, 15, 258, 271):
        cases.add_cells("slot-2-cell-%d" % cell, with_cell(4, cell))
    for cell in (257, 258, 271):
        cases.add_cells("alone-cell-%d" % cell, [1, 1, cell, 0])
    for cell in (1, 15):
        no("alone-cell-%d-optional" % cell, [1, 1, cell, 0])
    no("no-standard", [7, 3, 2, 2, 2] + CELLS[5:])
    no("no-standard-24", [1, 24] + [15] * 24 + [0])
    for rules in (0, 3, 5, 64, 65, 65535):
        no("rules-%d-of-4" % rules, with_cell(5, rules))
    no("rules-65", [1, 1, 257, 65] + [0, 0, 1, 0, 0] * 65)
    no("rules-256", [1, 1, 257, 256] + [0, 0, 1, 0, 0] * 256)
    for kind in (3, 4, 255, 256, 257, 258, 65535):
        no("first-kind-%d" % kind, with_cell(6, kind))
        no("second-kind-%d" % kind, with_cell(18, kind))
        no("last-kind-%d" % kind, with_cell(30, kind))
    for t in (1, 2, 3, 256, 65535):
        no("goes-t-%d" % t, with_cell(7, t))
        no("last-goes-t-%d" % t, with_cell(31, t))
    no("needs-as-goes", with_cell(18, 0))
    cases.add_cells("needs-as-bars", with_cell(18, 2), size=211)
    for t in (3, 4, 24, 256, 258, 65535):
        no("needs-t-%d" % t, with_cell(19, t))
        no("bars-t-%d" % t, with_cell(25, t))
    no("needs-t-among", with_cell(19, 0))
    no("bars-t-among", with_cell(25, 1))
    cases.add_cells("needs-t-1", with_cell(19, 1), size=212)
    for count in (0, 1, 3, 4, 5, 65535):
        no("goes-slot-count-%d" % count, with_cell(8, count))
    wide_slots = [1, 6] + [271] * 6 + [1]
    no("no-slots", wide_slots + [0, 0, 0, 0])
    no("no-slots-one-row", wide_slots + [0, 0, 0, 1])
    no("no-slots-many-rows", wide_slots + [0, 0, 0, 255])
    no("five-slots", wide_slots + [0, 0, 5, 0, 1, 2, 3, 4, 1, 1, 1, 1, 1, 1])
    no("six-slots", wide_slots + [0, 0, 6, 0, 1, 2, 3, 4, 5, 0])
    for name, of in [("equal", [2, 2]), ("falling", [3, 2]), ("equal-last", [0, 1, 2, 2]), ("falling-last", [0, 1, 5, 4]),
                     ("falling-first", [1, 0, 2, 3]), ("equal-first", [0, 0, 1, 2]), ("back", [0, 1, 2, 0]),
                     ("far", [6]), ("far-last", [0, 1, 2, 6]), ("far-24", [0, 24]), ("far-256", [256]), ("far-65535", [0, 65535])]:
        no("of-" + name, wide_slots + [0, 0, len(of)] + of + [1] + [1] * len(of))
        no("needs-of-" + name, wide_slots + [1, 5, len(of)] + of + [1] + [1] * len(of))
    for t, of in [(2, [2]), (0, [0, 1]), (3, [0, 1, 2, 3]), (1, [0, 1, 2])]:
        for kind in (1, 2):
            no("kind-%d-t-%d-among-%d" % (kind, t, len(of)), wide_slots + [kind, t, len(of)] + of + [0])
    for rows in (0, 2, 4, 255, 256, 65535):
        no("rows-%d-of-3" % rows, with_cell(11, rows))
    for rows in (0, 2, 256, 65535):
        no("last-rows-%d-of-1" % rows, with_cell(35, rows))
    no("256-rows", [1, 1, 271, 1, 0, 0, 1, 0, 256] + [15] * 256)
    no("65535-rows", [1, 1, 271, 1, 0, 0, 1, 0, 65535] + [15] * 300)
    for at in (12, 13, 16, 17, 23, 29, 36, 37):
        for part in (0, 3, 16, 256, 257, 258, 65535):
            no("part-at-%d-is-%d" % (at, part), with_cell(at, part))
    no("part-standard", [1, 1, 258, 1, 0, 0, 1, 0, 1, 258])
    for name, cells in [("none", []), ("practice-short", CELLS[:-1]), ("mark-alone", [7])]:
        cases.add_cells("room-0-" + name, cells, room=0, code=12)


def generated_writes(cases):
    dice = Dice(4202)
    for number in range(60):
        cells = made_cells(dice)
        text = len(catalogue.shown(cells))
        room = dice.pick([text, text, text + 1, text + 40, text - 1, 0])
        cases.add_cells("made-%d" % number, cells, room=room, **({"size": text} if room >= text else {"code": 13}))
    for number in range(240):
        cells = made_cells(dice)
        at = dice.below(len(cells))
        new = dice.pick([0, 1, 2, 3, cells[at] + 1, max(0, cells[at] - 1), cells[at] ^ 256, dice.below(300), dice.below(65536)]) % 65536
        cases.add_cells("edit-%d" % number, with_cell(at, new, cells))
    for number in range(60):
        cells = made_cells(dice)
        at = dice.below(len(cells))
        change = dice.below(3)
        if change == 0:
            cells = cells[:at] + cells[at + 1:]
        elif change == 1:
            cells = cells[:at] + [dice.below(4)] + cells[at:]
        else:
            other = dice.below(len(cells))
            cells[at], cells[other] = cells[other], cells[at]
        cases.add_cells("shape-%d" % number, cells)


# ---- files ----

def read_cases():
    cases = ReadCases()
    for part in (good_texts, ranges, every_line, forms, slots_of_rules, order, after_the_end, sizes, odd_bytes, generated_reads):
        part(cases)
    return cases


def write_cases():
    cases = WriteCases()
    for part in (lawful_cells, unlawful_cells, generated_writes):
        part(cases)
    return cases


def put(folder, name, lines):
    with open(os.path.join(folder, name), "wb") as file:
        file.write("".join(lines).encode("ascii"))


def put_cases(folder, cases):
    """Writes the two files of some cases, and answers how many there are."""
    os.makedirs(folder, exist_ok=True)
    put(folder, "stdin", cases.asked)
    put(folder, "stdout", cases.answers)
    return len(cases.asked)


def main():
    total = 0
    for name, cases in (("read_cases", read_cases()), ("write_cases", write_cases())):
        total += put_cases(os.path.join(sys.argv[1], name), cases)
    print(total)


if __name__ == "__main__":
    main()
