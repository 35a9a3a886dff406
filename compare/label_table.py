#!/usr/bin/env python3
# label_table.py
#
# Writes crates/answer_table/stdin, a table of label lines and faults to write, and crates/answer_table/stdout, what the
# program `answer_table` must print for it. The expected lines come from docs/RULES.md ("Lines", "Windows" and "Label
# lines and answers"), read here a second time in Python: no program of the repository is asked. The seed is fixed, so
# every run writes the same two files. On the way it prints how many rows have which outcome. It also writes
# crates/labels/stdout, what the program `labels` must print for its own example.

import random
import re
from collections import Counter
from pathlib import Path

CRATES = Path(__file__).resolve().parent.parent / "crates"
FOLDER = CRATES / "answer_table"
LABELS = CRATES / "labels"
MOST = 4294967295
FILL = 238
LONGEST_BUFFER = 60


# The rules.


class Refusal(Exception):
    """A refused label line, with the four numbers of the fault."""

    def __init__(self, *numbers):
        super().__init__(numbers)
        self.numbers = numbers


def breaks_of(source):
    """The places of each break's first and last byte."""
    return [(found.start(), found.end() - 1) for found in re.finditer(rb"\r\n|\r|\n", source)]


def line_of(breaks, offset):
    return sum(1 for _, last in breaks if last < offset)


def start_of(breaks, line):
    return breaks[line - 1][1] + 1 if line > 0 else 0


def column_of(breaks, offset):
    inside = [first for first, last in breaks if first < offset <= last]
    lowered = inside[0] if inside else offset
    return lowered - start_of(breaks, line_of(breaks, offset))


def end_of(source, breaks, target, after):
    """Where a window ends whose span has the byte `target` as its last."""
    n = len(source)
    if target == n:
        return n
    if after == 0:
        holding = [last for first, last in breaks if first <= target <= last]
        return holding[0] + 1 if holding else target + 1
    later = [last for first, last in breaks if first > target]
    return later[after] + 1 if after < len(later) else n


def window_of(source, offset, length, before, after):
    """The five numbers of a window, or None where there is no window."""
    n = len(source)
    if offset + length > n + 1 or (before == 0 and length == 0 and offset == n + 1):
        return None
    breaks = breaks_of(source)
    line = max(0, line_of(breaks, offset) - before)
    start = offset if before == 0 else start_of(breaks, line)
    end = end_of(source, breaks, offset + length - 1, after)
    return start, end - start, line, column_of(breaks, start), line_of(breaks, end)


def field_of(field, number, start):
    """The value of a field that starts at a place of the line."""
    if field == b"":
        raise Refusal(1, 1, number, start)
    for place, byte in enumerate(field):
        if not 48 <= byte <= 57:
            raise Refusal(2, 1, number, start + place)
    if len(field) > 10 or int(field) > MOST:
        raise Refusal(3, 1, number, start)
    return int(field)


def label_of(line):
    """The four numbers of a label line."""
    if len(line) > 255:
        raise Refusal(4, 2, 0, 255)
    fields = line.split(b",")
    numbers = []
    start = 0
    for number, field in enumerate(fields[:4], 1):
        numbers.append(field_of(field, number, start))
        start += len(field) + 1
    if len(fields) < 4:
        raise Refusal(4, 2, len(fields) + 1, len(line))
    if len(fields) > 4:
        raise Refusal(4, 2, 5, start - 1)
    return numbers


def row_of(numbers):
    return (",".join(str(number) for number in numbers) + "\n").encode()


def answer_of(source, line, room):
    """The bytes that `answer` writes into a buffer of `room` bytes."""
    window = window_of(source, *label_of(line))
    if window is None:
        raise Refusal(5, 3, 0, 0)
    text = row_of(window)
    if len(text) > room:
        raise Refusal(6, 4, 0, 0)
    return text


def fault_text(numbers):
    return b"fault," + row_of(numbers)


def page_of(source, labels):
    """What `labels` prints: the answer or the fault of each label line, an empty last line being none."""
    lines = re.split(rb"\r\n|\r|\n", labels)
    if lines[-1] == b"":
        lines.pop()
    page = b""
    for line in lines:
        try:
            page += answer_of(source, line, LONGEST_BUFFER)
        except Refusal as refusal:
            page += fault_text(refusal.numbers)
    return page


# The table.


class Table:
    """The rows so far, what they give, and how often each outcome came."""

    def __init__(self):
        self.rows = ["# label lines and faults to write, made by compare/label_table.py"]
        self.results = []
        self.outcomes = Counter()
        self.source = b""

    def note(self, text):
        self.rows.append("# " + text)

    def use_source(self, source):
        self.source = source
        self.rows.append(f"source {source.hex()}".rstrip())

    def answer(self, line, room=16):
        """A label line and a buffer of `room` bytes."""
        self.rows.append(f"answer {room} {line.hex()}".rstrip())
        try:
            text = answer_of(self.source, line, room)
        except Refusal as refusal:
            numbers = ",".join(str(number) for number in refusal.numbers)
            self.add_result(f"fault {numbers}", b"", room)
            self.outcomes[f"answer: fault {refusal.numbers[0]}"] += 1
        else:
            self.add_result(f"count {len(text)}", text, room)
            self.outcomes["answer: count"] += 1

    def answer_around(self, line):
        """A label line with buffers about as long as its answer."""
        exact = len(answer_of(self.source, line, LONGEST_BUFFER))
        for room in (exact - 1, exact, exact + 1):
            self.answer(line, room)

    def fault(self, numbers, room):
        """A fault to write into a buffer of `room` bytes."""
        self.rows.append(f"fault {room} " + " ".join(str(number) for number in numbers))
        text = fault_text(numbers)
        if len(text) > room:
            self.add_result("none", b"", room)
            self.outcomes["fault: none"] += 1
        else:
            self.add_result(f"count {len(text)}", text, room)
            self.outcomes["fault: count"] += 1

    def fault_around(self, *numbers):
        """A fault to write with buffers about as long as its line."""
        exact = len(fault_text(numbers))
        for room in (exact - 1, exact, exact + 1):
            self.fault(numbers, room)

    def add_result(self, word, text, room):
        buffer = text + bytes([FILL]) * (room - len(text))
        self.results.append(f"{word} {buffer.hex()}".rstrip())


def label(*fields):
    """A label line of numbers and texts."""
    return ",".join(str(field) for field in fields).encode()


# The groups of rows.

EXAMPLE = b"Do\r\nRe\rMi\nFa"
SECOND = b"\nLa\nTi"

# The windows that docs/RULES.md gives for these sources, by offset, length, before and after.
GIVEN = {
    EXAMPLE: [
        ((7, 2, 0, 0), (7, 2, 2, 0, 2)),
        ((8, 1, 0, 0), (8, 1, 2, 1, 2)),
        ((8, 1, 1, 1), (4, 8, 1, 0, 3)),
        ((8, 1, 0, 1), (8, 4, 2, 1, 3)),
        ((3, 0, 0, 0), (3, 1, 0, 2, 1)),
        ((2, 1, 0, 0), (2, 2, 0, 2, 1)),
        ((0, 0, 0, 0), (0, 0, 0, 0, 0)),
        ((12, 1, 0, 0), (12, 0, 3, 2, 3)),
        ((13, 0, 0, 0), None),
        ((13, 0, 1, 0), (7, 5, 2, 0, 3)),
        ((13, 1, 1, 0), None),
    ],
    b"": [
        ((0, 1, 0, 0), (0, 0, 0, 0, 0)),
        ((1, 0, 0, 0), None),
    ],
    SECOND: [
        ((0, 0, 0, 1), (0, 4, 0, 0, 2)),
        ((0, 1, 0, 1), (0, 6, 0, 0, 2)),
    ],
}

# The fault lines that docs/RULES.md gives for labels of the example.
GIVEN_FAULTS = [
    (b"13,0,0,0", b"fault,5,3,0,0\n"),
    (b"8,,0,0", b"fault,1,1,2,2\n"),
    (b"8,1,0", b"fault,4,2,4,5\n"),
]


def add_given(table):
    """The windows and faults that the rules work out, each compared with what this script makes of it."""
    for source, windows in GIVEN.items():
        table.use_source(source)
        for query, window in windows:
            if window_of(source, *query) != window:
                raise SystemExit(f"the rules give {window} for {query}")
            table.answer(label(*query))
    table.use_source(EXAMPLE)
    for line, text in GIVEN_FAULTS:
        try:
            answer_of(EXAMPLE, line, LONGEST_BUFFER)
        except Refusal as refusal:
            if fault_text(refusal.numbers) != text:
                raise SystemExit(f"the rules give {text} for {line}") from None
        else:
            raise SystemExit(f"the rules refuse {line}")
        table.answer(line)


def add_small_sources(table):
    """Spans all over the example, and about the ends of the empty source and the second one."""
    table.use_source(EXAMPLE)
    for offset in range(15):
        table.answer(label(offset, offset % 2, 0, 0))
        table.answer(label(offset, 0, 1, 1))
    table.use_source(b"")
    for fields in ((0, 0, 0, 0), (0, 0, 1, 1), (0, 1, 1, 1), (0, 2, 0, 0), (1, 0, 1, 0), (1, 1, 1, 1), (2, 0, 1, 1)):
        table.answer(label(*fields))
    table.use_source(SECOND)
    for fields in ((0, 0, 0, 0), (0, 1, 0, 0), (1, 0, 0, 0), (1, 0, 0, 1), (3, 0, 1, 0), (6, 0, 0, 0), (6, 1, 1, 1)):
        table.answer(label(*fields))
    table.answer(label(7, 0, 2, 0))


def add_lengths(table):
    """Lines of 253 to 258 bytes, by what makes them long."""
    ends = [
        (b"", b"x", b""),
        (b"", b",", b""),
        (b"", b"0", b""),
        (b"", b"7", b"x"),
        (b"8,1,0,0,", b"0", b""),
        (b"8,1,0,", b"0", b""),
        (b"8,1,", b"9", b":"),
        (b"8,,", b"\xff", b""),
    ]
    table.use_source(EXAMPLE)
    for size in range(253, 259):
        for head, middle, tail in ends:
            line = head + middle * (size - len(head) - len(tail)) + tail
            table.answer(line, 4)


def add_values(table):
    """Numbers of 1 to 12 digits and about the largest one, in each field."""
    values = [
        "8",
        "000000008",
        "123456789",
        "0000000008",
        "1234567890",
        "00000000008",
        "12345678901",
        "123456789012",
        "4294967294",
        "4294967295",
        "4294967296",
        "9999999999",
        "04294967295",
        "0000000000",
        "00000000000",
    ]
    for field in range(4):
        for value in values:
            fields = ["2", "1", "0", "1"]
            fields[field] = value
            table.answer(label(*fields), 20)
    # Sums that come into the source if they are taken with 32 bits alone.
    for offset, length in ((MOST, 1), (MOST, 9), (1, MOST), (MOST, MOST), (MOST - 3, 8)):
        table.answer(label(offset, length, 0, 0))
        table.answer(label(offset, length, MOST, MOST))
    table.answer(label(0, 0, MOST, MOST))
    table.answer(label(13, 0, MOST, 0))
    table.answer(label("0000000012", "0000000001", "0000000001", "0000000001"))
    table.answer(label("0000000008", "0000000001", "0000000000", "00000000000"))


def add_counts(table):
    """Lines of 0 to 6 fields, with a comma after them or not, and lines of commas alone."""
    for count in range(7):
        line = label(*[8, 1, 0, 0, 0, 0][:count])
        table.answer(line)
        table.answer(line + b",")
    for count in range(2, 8):
        table.answer(b"," * count)
    # The longest lines that miss a field or have one too many.
    for count in range(1, 6):
        table.answer(label(*["0000000008"] * count))


def add_empty_fields(table):
    """Each way to leave fields of a line of 4 empty, and each single one of 2, 3, 5 and 6."""
    for empty in range(1, 16):
        table.answer(label(*["" if empty >> place & 1 else 12 for place in range(4)]))
    for count in (2, 3, 5, 6):
        for empty in range(count):
            table.answer(label(*["" if place == empty else 8 for place in range(count)]))


def add_bytes(table):
    """Bytes that are no digits before, between and after the bytes of a line, and some in place of one."""
    for byte in (b"\0", b"\xff", b" ", b"+", b"-", b".", b"x", b"/", b":", b"\r", b"\n"):
        line = b"07,01,02,00"
        for place in range(len(line) + 1):
            table.answer(line[:place] + byte + line[place:], 10)
    for byte in (b"/", b":", b"\xb8"):
        line = b"8,1,0,0"
        for place in range(len(line)):
            table.answer(line[:place] + byte + line[place + 1 :], 10)


def add_precedence(table):
    """Two or more faults in one call."""
    faulty = ("", "1x", "4294967296")
    for first, second in ((0, 1), (1, 2), (2, 3), (0, 3)):
        for one in faulty:
            for other in faulty:
                fields = ["8", "1", "0", "0"]
                fields[first] = one
                fields[second] = other
                table.answer(label(*fields), 8)
    for field in range(4):
        for value in ("12345678901x", "x12345678901", "9999999999:"):
            fields = ["8", "1", "0", "0"]
            fields[field] = value
            table.answer(label(*fields), 8)
        for value in faulty:
            fields = ["8", "1", "0", "0"]
            fields[field] = value
            table.answer(label(*fields[: field + 1]), 8)
            table.answer(label(*fields, "0"), 8)
    # A line with a field too few or too many and no window.
    for line in (b"99", b"99,1", b"13,0,0", b"13,1,0", b"13,0,0,0,0", b"99,1,1,1,x", b"4294967295,1,0,0,"):
        table.answer(line, 8)
    # Every fault with a buffer that would be too short, and with none at all.
    faults = (b"", b"x", b"99999999999", b"8" * 256, b"8,1,0", b"8,1,0,0,0", b"13,0,0,0", b"13,1,1,0", b"8,1,0,0")
    for room in (0, 9):
        for line in faults:
            table.answer(line, room)


def add_buffers(table):
    """Buffers of 0 to 60 bytes for a short and a long answer, and for short and long fault lines."""
    table.use_source(EXAMPLE)
    for room in range(LONGEST_BUFFER + 1):
        table.answer(b"0,0,0,0", room)
    for fields in ((8, 1, 1, 1), (12, 0, 0, 0), (9, 1, 0, 0), (10, 0, 0, 0), (0, 12, 0, 0)):
        table.answer_around(label(*fields))
    # Every number of this answer has five digits.
    table.use_source(b"\n" * 10234 + b"s" * 10567 + b"p\r\n\r\n" * 13 + b"t" * 10324)
    for room in range(LONGEST_BUFFER + 1):
        table.answer(b"20801,1,0,26", room)
    for room in range(LONGEST_BUFFER + 1):
        table.fault((5, 3, 0, 0), room)
    for room in range(LONGEST_BUFFER + 1):
        table.fault((MOST, MOST, MOST, MOST), room)
    table.fault_around(1, 1, 1, 0)
    table.fault_around(2, 1, 4, 254)
    table.fault_around(4, 2, 0, 255)
    table.fault_around(0, 0, 0, 0)
    # Numbers about each power of ten, once in each place.
    for digits in range(1, 10):
        power = 10**digits
        numbers = [power - 1, power, power + 1, MOST - power]
        turn = digits % 4
        table.fault(numbers[turn:] + numbers[:turn], LONGEST_BUFFER)


class Chance:
    """Numbers from a fixed seed, drawn in the way that every Python 3 repeats."""

    def __init__(self, seed):
        self.draws = random.Random(seed)

    def below(self, bound):
        return int(self.draws.random() * bound)

    def pick(self, choices):
        return choices[self.below(len(choices))]


def generated_source(chance):
    """Forty lines of 0 to 12 letters and the last one, with the three endings mixed."""
    source = b""
    for _ in range(40):
        letters = bytes(chance.pick(b"doremifasolati") for _ in range(chance.below(13)))
        source += letters + chance.pick((b"\n", b"\r", b"\r\n"))
    return source + b"end"


def random_context(chance):
    huge = (38, 39, 40, 41, 1000, 2147483648, MOST - 1, MOST)
    return chance.pick(huge) if chance.below(8) == 0 else chance.below(6)


def add_generated(table):
    """Random labels of a generated source, with a buffer that is mostly about as long as the answer."""
    chance = Chance(20417)
    source = generated_source(chance)
    table.use_source(source)
    past = len(source) + 3
    for _ in range(70):
        offset = chance.below(past)
        length = chance.below(past - offset)
        if chance.below(2) == 0:
            length = min(length, chance.below(20))
        query = offset, length, random_context(chance), random_context(chance)
        window = window_of(source, *query)
        exact = 12 if window is None else len(row_of(window))
        table.answer(label(*query), chance.pick((exact, exact, exact + 1, exact - 1, exact + 3)))
    for offset in range(len(source) - 1, past):
        for length in range(3):
            table.answer(label(offset, length, chance.below(3), chance.below(3)), 18)


def add_mixed(table):
    """Lines of 1 to 6 random fields, good and bad, on the same source."""
    chance = Chance(7193)
    fields = ("0", "7", "42", "007", "1", "3", "", "x", "4294967296", "00000000000", "9 ", "-1")
    for _ in range(24):
        count = chance.pick((1, 2, 3, 4, 4, 4, 4, 5, 6))
        table.answer(label(*[chance.pick(fields[: chance.pick((6, 6, 12))]) for _ in range(count)]), 17)


def main():
    table = Table()
    groups = (
        ("what the rules work out", add_given),
        ("three small sources", add_small_sources),
        ("the example again: long lines", add_lengths),
        ("values", add_values),
        ("counts of fields", add_counts),
        ("empty fields", add_empty_fields),
        ("bytes that are no digits", add_bytes),
        ("two or more faults", add_precedence),
        ("buffers", add_buffers),
        ("a generated source", add_generated),
        ("mixed lines", add_mixed),
    )
    for title, add in groups:
        before = len(table.results)
        table.note(title)
        add(table)
        print(f"{len(table.results) - before:5} {title}")
    (FOLDER / "stdin").write_text("\n".join(table.rows) + "\n")
    (FOLDER / "stdout").write_text("\n".join(table.results) + "\n")
    example = (LABELS / "data" / "source.txt").read_bytes()
    (LABELS / "stdout").write_bytes(page_of(example, (LABELS / "stdin").read_bytes()))
    print(f"{len(table.results):5} rows")
    for outcome in sorted(table.outcomes):
        print(f"{table.outcomes[outcome]:5} {outcome}")


if __name__ == "__main__":
    main()
