#!/usr/bin/env python3
"""Writes what the programs `memories` and `damage` are held to: a day over memories of several kinds, and images with one byte damaged.

The answers are computed here from the rules, by stores, layers and images of this file's own; entries and spends are judged by the bench of
`slips.py`. Nothing is taken from the programs under test, and nothing of them is run.

Usage: memory_day.py MEMORIES DAMAGE   (writes stdin and stdout into the first folder, and stdout into the second)
"""

import os
import sys
from collections import namedtuple

from slips import Bench, slip, tariff

Record = namedtuple("Record", "credit highest counted index tariff")
BLANK = Record(0, 0, frozenset(), 0, None)

# ---------------------------------------------------------------- stores


class Plain:
    def __init__(self):
        self.record = BLANK

    def meaning(self):
        return self.record, 2**32 - 1

    def write(self, record):
        self.record = record
        return True


def spelled(record, writes):
    """The 68 bytes of an image."""
    marks = sum(1 << k for k in range(126) if record.highest - 1 - k in record.counted)
    if record.tariff is None:
        prices = bytes(20)
    else:
        complete, month, multiplier, listed = record.tariff
        eight = list(listed) + [0] * (8 - len(listed))
        prices = bytes([complete, month, multiplier, len(listed)]) + b"".join(p.to_bytes(2, "big") for p in eight)
    values = [
        record.credit.to_bytes(4, "big"),
        record.highest.to_bytes(4, "big"),
        marks.to_bytes(16, "big"),
        record.index.to_bytes(2, "big"),
        prices,
        writes.to_bytes(4, "big"),
    ]
    return b"".join(bytes([tag]) + len(v).to_bytes(2, "big") + v for tag, v in enumerate(values, 1))


def told(memory):
    """What an image tells, field by field: None where it is ill-formed."""
    values, at = [], 0
    for tag, width in ((1, 4), (2, 4), (3, 16), (4, 2), (5, 20), (6, 4)):
        if memory[at : at + 3] != bytes([tag, 0, width]) or len(memory) < at + 3 + width:
            return None
        values.append(memory[at + 3 : at + 3 + width])
        at += 3 + width
    credit, highest, marks, index, rates, writes = values
    credit, highest, marks = (int.from_bytes(v, "big") for v in (credit, highest, marks))
    for k in range(128):
        if marks >> k & 1 and (k >= 126 or highest - 1 - k < 1):
            return None
    complete, month, multiplier, count = rates[:4]
    prices = [int.from_bytes(rates[i : i + 2], "big") for i in range(4, 20, 2)]
    if count == 0:
        if any(rates):
            return None
        read = None
    else:
        if complete > 1 or month > 63 or multiplier > 6 or count > 8 or max(prices) > 16383 or any(prices[count:]):
            return None
        read = (complete, month, multiplier, count, prices)
    return credit, highest, marks, int.from_bytes(index, "big"), read, int.from_bytes(writes, "big")


class InImage:
    """A store in 68 bytes, with bytes after them that are not touched."""

    def __init__(self, writes):
        self.record, self.left = BLANK, writes
        self.rest = bytes([170]) * 12

    def meaning(self):
        return self.record, self.left

    def write(self, record):
        if self.left == 0:
            return False
        self.record, self.left = record, self.left - 1
        return True

    def memory(self):
        return spelled(self.record, self.left) + self.rest


class Behind:
    """At most length - 1 writes that lower the credit are only kept between two writes below."""

    def __init__(self, below, length):
        self.below, self.length, self.kept = below, length, []

    def meaning(self):
        record, left = self.below.meaning()
        return (self.kept[-1] if self.kept and left else record), left

    def write(self, record):
        meant, left = self.meaning()
        if left == 0:
            return False
        if record.credit < meant.credit and len(self.kept) < self.length - 1:
            self.kept.append(record)
            return True
        self.kept = []
        return self.below.write(record)

    def flush(self):
        if self.kept and self.below.write(self.kept[-1]):
            self.kept = []


class Quota:
    def __init__(self, below, left):
        self.below, self.left = below, left

    def meaning(self):
        record, left = self.below.meaning()
        return record, min(self.left, left)

    def write(self, record):
        if self.meaning()[1] == 0:
            return False
        assert self.below.write(record)
        self.left -= 1
        return True


# ---------------------------------------------------------------- a meter over a store


def rate_prices(further):
    """Complete, month, multiplier code and prices in the data parts of blocks that keep the rules."""
    parts = [block % 2**59 for block in further]
    head, fields = parts[0], []
    width = 11 + (head >> 35 & 3)
    for part, room, most in zip(parts, (35, 59, 59), (2, 4, 2)):
        fields += [part >> (room - width * (i + 1)) & (2**width - 1) for i in range(most)]
    return head >> 58, head >> 44 & 63, head >> 37 & 7, tuple(fields[: (head >> 40 & 15) + 1])


class Meter:
    def __init__(self, store):
        self.store = store

    def answer(self, line):
        record, left = self.store.meaning()
        bench = Bench()
        bench.credit, bench.highest, bench.index = record.credit, record.highest, record.index
        bench.counted = set(record.counted)
        said = bench.answer(line)
        if said[0] in "AS":
            rates = record.tariff
            if bench.index > record.index:
                further = [int(line[2 + i : 21 + i]) for i in range(20, len(line) - 2, 20)]
                rates = rate_prices(further)
            next_record = Record(bench.credit, bench.highest, frozenset(bench.counted), bench.index, rates)
            if not self.store.write(next_record):
                return f"R 14 {record.credit}"
        return said

    def standing(self):
        record, left = self.store.meaning()
        return f"{record.credit} with {left} left"


def meters(image, below, length):
    return (
        Meter(InImage(image)),
        Meter(Behind(InImage(below), length)),
        Meter(Quota(Behind(InImage(below), length), image)),
        Meter(Behind(Quota(Plain(), below), length)),
    )


# ---------------------------------------------------------------- the day


def lines_of_the_day():
    def e(text):
        return b"E " + text

    def u(amount):
        return b"U %d" % amount

    return [
        e(slip(1, 500)),
        u(20), u(30), u(40), u(50), u(60),
        e(slip(1, 500)),
        e(slip(2, 100, config=1)),
        u(7), u(8),
        e(slip(130, 3, config=2)),
        u(9), u(10), u(11), u(12), u(13), u(14),
        u(0), u(5000),
        e(slip(131, 40, subclass=10, index=1, further=tariff([11, 22, 33], size=1))),
        u(15), u(16), u(17),
        e(slip(7, 0)),
        u(18),
        e(slip(129, 8191)),
        e(slip(200, 5, subclass=8, index=1)),
        u(19), u(21),
        e(slip(201, 60, subclass=10, index=2, further=tariff([16383, 0, 5, 6, 7, 8, 9, 10], multiplier=6, month=63))),
        u(23), u(24), u(25), u(26), u(27), u(28), u(29), u(31),
        b"",
        e(slip(75, 1)),
        e(slip(74, 1)),
        e(slip(327, 2, off=1)),
        e(slip(327, 2)),
        u(33), u(34),
    ]


def mixed(digest, n):
    return (digest * 1000003 + n) % 2**64


def digest_of(digest, image):
    credit, highest, marks, index, rates, writes = image
    for n in (credit, highest, marks >> 64, marks % 2**64, index):
        digest = mixed(digest, n)
    if rates is None:
        digest = mixed(digest, 0)
    else:
        for n in (*rates[:4], *rates[4]):
            digest = mixed(digest, n)
    return mixed(digest, writes)


def damaged(memory):
    for at in range(68):
        ill_formed = right = digest = 0
        for value in range(256):
            if value != memory[at]:
                image = told(memory[:at] + bytes([value]) + memory[at + 1 :])
                if image is None:
                    ill_formed += 1
                else:
                    right += 1
                    digest = digest_of(digest, image)
        yield f"byte {at}: {ill_formed} ill-formed, {right} told, 0 mistaken, digest {digest}"


def day(lines):
    yield "memories"
    plain = Meter(Plain())
    many = meters(1000, 1000, 4)
    few = meters(12, 9, 4)
    for line in lines:
        right = plain.answer(line)
        columns = [[("=" if own == right else f"[{own}]") for own in (m.answer(line) for m in each)] for each in (many, few)]
        assert columns[0] == ["="] * 4
        yield f"{right} | {' '.join(columns[0])} | {' '.join(columns[1])}"
    for title, each in (("many", many), ("few", few)):
        yield f"{title} writes:" + "".join(f" {m.standing()};" for m in each)
        memory = each[0].store.memory()
        assert told(memory)[0] == each[0].store.meaning()[0].credit and told(memory)[-1] == each[0].store.meaning()[1]
    for k in (1, 2, 3, 64):
        meter = Meter(Behind(InImage(1000), k))
        for line in lines:
            meter.answer(line)
        meant, left = meter.store.meaning()
        meter.store.flush()
        record, after = meter.store.below.meaning()
        yield f"length {k}: {meant.credit} with {left} left, below after flushing {record.credit} with {after} left"


def damage():
    yield "damage"
    for k, answer in ((0, 22), (1, 0), (64, 0), (65, 22), (255, 22)):
        yield f"length {k}: {answer}"
    yield "format 67 bytes: 21, as it was true"
    yield "format 68 bytes: 0, shorter ones ill-formed 68"
    yield "format 80 bytes: 0, after the image as it was true"
    # Numbers 200, 198 and 130 are marked, beside the highest.
    full = Record(1238, 201, frozenset((201, 200, 198, 130)), 2, (1, 63, 6, (16383, 0, 258)))
    for title, record, writes in (("an image of a new meter", BLANK._replace(credit=500), 962), ("an image with each part", full, 962)):
        yield title
        yield from damaged(spelled(record, writes))


def write(path, text):
    with open(path, "wb") as f:
        f.write(text)


def main(memories, damaged_images):
    lines = lines_of_the_day()
    write(os.path.join(memories, "stdin"), b"\n".join(lines) + b"\n")
    write(os.path.join(memories, "stdout"), ("\n".join(day(lines)) + "\n").encode("ascii"))
    write(os.path.join(damaged_images, "stdout"), ("\n".join(damage()) + "\n").encode("ascii"))


if __name__ == "__main__":
    main(*sys.argv[1:])
