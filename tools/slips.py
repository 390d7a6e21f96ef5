"""Slips by the rules: check digits, the seal of the bench, slips and rate prices made, and a meter that takes them.

The scripts beside this file compute by it what the programs have to print. It is written from the rules alone: nothing
of the programs is read or run.

The bench: SupplierID 1, MeterID 2, multipliers 1, 10, 100 and 1000, ceiling 3400, a cipher that leaves every number
as it is, and a seal that is the sum of all bytes of nonce and message.
"""

SUPPLIER, METER = 1, 2
MULTIPLIERS = (1, 10, 100, 1000)
CEILING = 3400
OFFSET = 7394156990786306048


# ---------------------------------------------------------------- rules

MAP = (1, 5, 7, 6, 2, 8, 3, 0, 9, 4)


def times(a, b):
    if a < 5:
        return (a + b) % 5 if b < 5 else 5 + (a + b) % 5
    return 5 + (a - b) % 5 if b < 5 else (a - b) % 5


def check_digit(digits):
    """The digit that brings the running product of a text of digits to 0."""
    product = 0
    for place, byte in enumerate(digits):
        d = int(byte)
        for _ in range(place):
            d = MAP[d]
        product = times(product, d)
    (only,) = [c for c in range(10) if times(product, c) == 0]
    return str(only)


def seal(number, index, subclass, config, amt, further):
    """The four bytes of the bench seal, as a number."""
    nonce = SUPPLIER.to_bytes(8, "big") + number.to_bytes(4, "big")
    message = (
        SUPPLIER.to_bytes(8, "big")
        + METER.to_bytes(8, "big")
        + b"\x01"
        + number.to_bytes(4, "big")
        + index.to_bytes(2, "big")
        + bytes([subclass, config])
        + amt.to_bytes(2, "big")
        + b"".join(block.to_bytes(8, "big") for block in further)
    )
    return sum(nonce) + sum(message)


def prices_stand(further):
    """Whether the data parts of the further blocks keep every rule of rate prices."""
    parts = [block % 2**59 for block in further]
    head = parts[0]
    kind, sub = head >> 54 & 15, head >> 50 & 15
    code, multiplier, size = head >> 40 & 15, head >> 37 & 7, head >> 35 & 3
    if kind != 1 or sub != 1 or code > 7 or multiplier > 6:
        return False
    count = code + 1
    if len(parts) != (1 if count <= 2 else 2 if count <= 6 else 3):
        return False
    width = 11 + size
    rooms = [(head % 2**35, 35, 2), *[(p, 59, f) for p, f in zip(parts[1:], (4, 2))]]
    for bits, room, fields in rooms:
        held = min(count, fields)
        count -= held
        if bits % 2 ** (room - held * width):
            return False
    return True


class Meter:
    """A blank meter of the bench, with a store that is never full."""

    def __init__(self):
        self.credit = 0
        self.highest = 0
        self.counted = set()
        self.index = 0

    def window(self):
        return range(max(1, self.highest - 126), min(self.highest + 128, 2**32 - 1) + 1)

    def enter(self, text):
        """The refusal's number, or number and amount of a slip that is taken."""
        if len(text) not in (20, 40, 60, 80):
            return 1
        if any(byte not in b"0123456789" for byte in text):
            return 2
        text = text.decode("ascii")
        groups = [text[i : i + 20] for i in range(0, len(text), 20)]
        before = ""
        for group in groups:
            if check_digit(before + group[:19]) != group[19]:
                return 3
            before = group[19]
        blocks = [int(group[:19]) for group in groups]
        blocks[0] -= OFFSET
        if any(not 0 <= block < 2**61 for block in blocks):
            return 4
        first, further = blocks[0], blocks[1:]
        subclass, tstn = first >> 57, first >> 47 & 1023
        config, amt, tmac = first >> 45 & 3, first >> 32 & 8191, first % 2**32
        if subclass not in (0, 8, 10):
            return 5
        if (len(further) not in (1, 2, 3)) if subclass == 10 else further:
            return 6
        if [block >> 59 for block in further] != list(range(len(further)))[::-1]:
            return 6
        if subclass == 10 and self.index == 65535:
            return 7
        numbers = [n for n in self.window() if n % 1024 == tstn]
        if not numbers:
            return 8
        (number,) = numbers
        index = {0: 0, 8: self.index, 10: self.index + 1}[subclass]
        if tmac != seal(number, index, subclass, config, amt, further):
            return 9
        if number in self.counted:
            return 10
        if MULTIPLIERS[config] == 0:
            return 11
        if subclass == 10 and not prices_stand(further):
            return 12
        amount = amt * MULTIPLIERS[config]
        if self.credit + amount > CEILING:
            return 13
        self.counted.add(number)
        self.highest = max(self.highest, number)
        self.credit += amount
        if subclass == 10:
            self.index += 1
        return number, amount

    def spend(self, amount):
        if amount == 0 or amount > 1000000:
            return 15
        if amount > self.credit:
            return 16
        self.credit -= amount
        return None


class Bench(Meter):
    """The bench: a meter with its lines."""

    def answer(self, line):
        """The line that is printed for a line without its newline."""
        if line[:2] == b"E ":
            done = self.enter(line[2:])
            if isinstance(done, int):
                return f"R {done} {self.credit}"
            return f"A {done[0]} {done[1]} {self.credit}"
        digits = line[2:]
        if line[:2] == b"U " and 1 <= len(digits) <= 9 and all(b in b"0123456789" for b in digits):
            amount = int(digits)
            refused = self.spend(amount)
            return f"S {amount} {self.credit}" if refused is None else f"R {refused} {self.credit}"
        return "?"


# ---------------------------------------------------------------- slips


def grouped(numbers):
    """Twenty digits for each number, each group sealed with the check digit before it."""
    text = before = ""
    for number in numbers:
        body = f"{number:019d}"
        last = check_digit(before + body)
        text += body + last
        before = last
    return text.encode("ascii")


def slip(number, amt, config=0, subclass=0, index=0, further=(), off=0):
    """A slip; `index` is the one in the message, and `off` is added to the right seal."""
    tmac = seal(number, index, subclass, config, amt, further) + off
    first = subclass << 57 | number % 1024 << 47 | config << 45 | amt << 32 | tmac
    return grouped([OFFSET + first, *further])


def tariff(prices, size=3, complete=1, kind=1, sub=1, month=7, code=None, multiplier=3, blocks=None, extra=(), sequence=None):
    """The further blocks of rate prices. `code`, `blocks`, `sequence` and `extra` (bits added to parts) break rules."""
    count = len(prices)
    if blocks is None:
        blocks = 1 if count <= 2 else 2 if count <= 6 else 3
    if code is None:
        code = count - 1
    width = 11 + size
    left = list(prices)
    parts = []
    for i in range(blocks):
        room, fields = ((35, 2), (59, 4), (59, 2))[i]
        bits = 0
        for _ in range(fields):
            room -= width
            bits |= (left.pop(0) if left else 0) << room
        if i == 0:
            bits |= complete << 58 | kind << 54 | sub << 50 | month << 44 | code << 40 | multiplier << 37 | size << 35
        parts.append(bits)
    for i, bits in extra:
        assert parts[i] & bits == 0
        parts[i] |= bits
    if sequence is None:
        sequence = range(blocks - 1, -1, -1)
    return tuple(s << 59 | part for s, part in zip(sequence, parts))


def spoilt(text, at):
    """The same text with one digit raised by one."""
    return text[:at] + b"%d" % ((text[at] - 47) % 10) + text[at + 1 :]
