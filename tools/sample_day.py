#!/usr/bin/env python3
"""Writes a day at the bench: the lines keyed in, and the lines that a correct bench prints.

The answers are computed from the rules of slips, by the meter of slips.py. Nothing is taken from the program under
test, and nothing of it is run: the files are made once and the program is held to them.

Usage: sample_day.py SHORT FULL   (writes stdin and stdout into both folders; the full day goes on until the function
index is at its end, which takes 65,535 slips with rate prices)

The bench: SupplierID 1, MeterID 2, multipliers 1, 10, 100 and 1000, ceiling 3400, a cipher that leaves every number
as it is, a seal that is the sum of all bytes of nonce and message, and a store that is blank at first and never full.
So two refusals of entries cannot occur: 11 wants a multiplier that is reserved, and 14 a store without writes. Numbers
17 and up belong to settings, tills and stores, which no line reaches. The worked transcript comes first and takes
number 1, so that the window of a blank meter (1 to 128) is tested below by assertions on that meter, and in the sample
from M = 4 on.
"""

import sys

from slips import MULTIPLIERS, OFFSET, Bench, check_digit, grouped, seal, slip, spoilt, tariff


# ---------------------------------------------------------------- worked values

assert check_digit("8889793723820927018") == "1"
assert check_digit("10166099218669395579") == "2"


def number_at(highest, tstn):
    bench = Bench()
    bench.highest = highest
    return [n for n in bench.window() if n % 1024 == tstn]


assert [number_at(0, t) for t in (1, 128, 0, 129)] == [[1], [128], [], []]
assert [number_at(1024, t) for t in (898, 0, 128, 897, 129)] == [[898], [1024], [1152], [], []]
assert [number_at(2**32 - 1, t) for t in (1023, 0)] == [[2**32 - 1], []]


# ---------------------------------------------------------------- the day

BENCH = Bench()
LINES = []


def key(line, want):
    """One line keyed in, and what it is meant to give: checked here against the rules above."""
    assert b"\n" not in line
    got = BENCH.answer(line)
    assert got == want, (len(LINES) + 1, line, got, want)
    LINES.append((line, got))


def enter(text, want):
    key(b"E " + text, want)


def spend(text, want):
    key(b"U " + text, want)


def lines_of_the_day():
    # The worked transcript.
    enter(b"73942998757583096280", "A 1 500 500")
    enter(b"73942998757583096280", "R 10 500")
    enter(b"73942998800532769246", "R 9 500")
    enter(b"73944749386252943917", "R 13 500")
    spend(b"200", "S 200 300")
    enter(b"73944749386252943917", "A 2 3000 3300")

    # The ceiling, one above it and just met.
    enter(slip(3, 101), "R 13 3300")
    enter(slip(3, 100), "A 3 100 3400")
    # At the ceiling a slip of nothing is taken, and one of a single unit is not.
    enter(slip(4, 0), "A 4 0 3400")
    enter(slip(5, 1), "R 13 3400")
    # The largest slip there is.
    enter(slip(5, 8191, config=3), "R 13 3400")

    # Spends: none, one, the largest, above it, nine digits, zeros in front, more than the credit by one, all of it.
    spend(b"0", "R 15 3400")
    spend(b"1", "S 1 3399")
    spend(b"1000000", "R 16 3399")
    spend(b"1000001", "R 15 3399")
    spend(b"999999999", "R 15 3399")
    spend(b"000000000", "R 15 3399")
    spend(b"000000399", "S 399 3000")
    spend(b"3001", "R 16 3000")
    spend(b"3000", "S 3000 0")
    spend(b"1", "R 16 0")

    # No requests: ten digits, no digits, a sign, a fraction, blanks around the digits, a letter, no blank, two blanks.
    spend(b"0000000001", "?")
    spend(b"1000000000", "?")
    spend(b"", "?")
    spend(b"+5", "?")
    spend(b"-5", "?")
    spend(b"5.0", "?")
    spend(b"5 ", "?")
    spend(b" 5", "?")
    spend(b"5a", "?")
    key(b"U", "?")
    key(b"U5", "?")
    key(b"U\t5", "?")
    # An empty line, lower case, other letters, a letter alone, a tab for the blank, a blank in front.
    key(b"", "?")
    key(b" ", "?")
    key(b"u 5", "?")
    key(b"e 73942998757583096280", "?")
    key(b"E", "?")
    key(b"E73942998757583096280", "?")
    key(b"E\t73942998757583096280", "?")
    key(b" E 73942998757583096280", "?")
    key(b"73942998757583096280", "?")
    key(b"Q 1", "?")
    key(b"slipbench", "?")
    # A carriage return is a byte as any other: after the digits of a spend, after twenty digits, and as the twentieth byte.
    spend(b"5\r", "?")
    key(b"\r", "?")
    enter(slip(5, 1) + b"\r", "R 1 0")
    enter(slip(5, 1)[:19] + b"\r", "R 2 0")

    # Lengths: nothing, one digit, 19, 21, 39, 41, 100 digits, and a second blank in front.
    enter(b"", "R 1 0")
    enter(b"7", "R 1 0")
    enter(slip(5, 1)[:19], "R 1 0")
    enter(slip(5, 1) + b"0", "R 1 0")
    enter((slip(5, 1) * 2)[:39], "R 1 0")
    enter(slip(5, 1) * 2 + b"0", "R 1 0")
    enter(slip(5, 1) * 5, "R 1 0")
    enter(b" " + slip(5, 1), "R 1 0")
    # Bytes that are no digits: a letter first, last, a blank among the digits, the bytes on either side of the digits, 0.
    enter(b"A" + slip(5, 1)[1:], "R 2 0")
    enter(slip(5, 1)[:19] + b"x", "R 2 0")
    enter(slip(5, 1)[:9] + b" " + slip(5, 1)[10:], "R 2 0")
    enter(b"/" + slip(5, 1)[1:], "R 2 0")
    enter(b":" + slip(5, 1)[1:], "R 2 0")
    enter(slip(5, 1)[:19] + b"\x00", "R 2 0")
    # A byte that is no digit in the second group, after a wrong check digit in the first: all bytes come first.
    enter(spoilt(slip(5, 1), 19) + b"0000000000000000000x", "R 2 0")
    # Bytes past ASCII: twenty of them; digits of other scripts, of two and three bytes each; a line that opens with one.
    enter(bytes(range(236, 256)), "R 2 0")
    enter("٠١٢٣٤٥٦٧٨٩٠١٢٣٤٥٦٧٨٩".encode("utf-8"), "R 2 0")
    enter("０１２３４５６７８９０１２３４５６７８９".encode("utf-8"), "R 2 0")
    enter("é".encode("utf-8"), "R 1 0")
    key("É 5".encode("utf-8"), "?")
    key(b"\xff\xfe\x80", "?")
    spend("５".encode("utf-8"), "?")

    # Check digits: each kind of slip of the hand, a wrong one in the second group, one that leaves the group before out.
    good = slip(5, 40)
    enter(spoilt(good, 19), "R 3 0")
    enter(spoilt(good, 0), "R 3 0")
    enter(good[:15] + good[16:17] + good[15:16] + good[17:], "R 3 0")
    two = slip(5, 40, subclass=10, index=1, further=tariff([9, 8]))
    enter(spoilt(two, 39), "R 3 0")
    alone = two[20:39] + check_digit(two[20:39].decode("ascii")).encode("ascii")
    assert alone != two[20:]
    enter(two[:20] + alone, "R 3 0")
    enter(b"0" * 20, "R 3 0")
    # A wrong check digit counts before a number without a block.
    enter(spoilt(grouped([OFFSET - 1]), 19), "R 3 0")
    # Numbers without a block: one below the lowest, 0, one above the highest, and a second number at 2^61.
    enter(grouped([OFFSET - 1]), "R 4 0")
    enter(grouped([0]), "R 4 0")
    enter(grouped([OFFSET + 2**61]), "R 4 0")
    enter(grouped([9999999999999999999]), "R 4 0")
    enter(grouped([OFFSET + (10 << 57), 2**61]), "R 4 0")
    # The lowest and the highest block: SubClass 0 with TSTN 0, and SubClass 15.
    enter(grouped([OFFSET]), "R 8 0")
    enter(grouped([OFFSET + 2**61 - 1]), "R 5 0")
    # Other SubClasses, also with so many groups as none has.
    for subclass in (1, 7, 9, 11, 15):
        enter(slip(5, 1, subclass=subclass), "R 5 0")
    enter(slip(5, 1, subclass=3, further=tariff([1])), "R 5 0")
    # Groups: two for 0 and for 8, four for 0, one for 10.
    enter(slip(5, 1, further=tariff([1])), "R 6 0")
    enter(slip(5, 1, further=tariff([1] * 8)), "R 6 0")
    enter(slip(5, 1, subclass=8, further=tariff([1])), "R 6 0")
    enter(slip(5, 1, subclass=10, index=1), "R 6 0")
    # BlockSequence: 1 and 3 in the last block, two blocks alike, two the wrong way round, three counted up.
    for sequence in ((1,), (3,)):
        enter(slip(5, 1, subclass=10, index=1, further=tariff([1], sequence=sequence)), "R 6 0")
    for sequence in ((0, 0), (1, 1), (0, 1), (2, 1)):
        enter(slip(5, 1, subclass=10, index=1, further=tariff([1] * 3, sequence=sequence)), "R 6 0")
    for sequence in ((0, 1, 2), (2, 1, 1), (3, 2, 1)):
        enter(slip(5, 1, subclass=10, index=1, further=tariff([1] * 7, sequence=sequence)), "R 6 0")
    # Groups count before the window, the window before the seal, the seal before the mark.
    enter(slip(500, 1, further=tariff([1])), "R 6 0")
    enter(slip(500, 1, off=1), "R 8 0")
    enter(slip(1, 1, off=1), "R 9 0")
    # A worked pair of groups of SubClass 10: it passes each check up to the groups, and its number is outside the window.
    enter(b"8889793723820927018101660992186693955792", "R 8 0")

    # The window at M = 4, from 1 to 132: 0 and 133 are outside, 1 and 4 are marked.
    enter(slip(1024, 1), "R 8 0")
    enter(slip(133, 1), "R 8 0")
    enter(slip(1, 1), "R 10 0")
    enter(slip(4, 1), "R 10 0")
    enter(slip(132, 5), "A 132 5 5")
    # M = 132: from 6 to 260. 5 has fallen out; 6 is the lowest; numbers out of order are taken once each.
    enter(slip(5, 1), "R 8 5")
    enter(slip(4, 1), "R 8 5")
    enter(slip(261, 1), "R 8 5")
    enter(slip(6, 6), "A 6 6 11")
    enter(slip(6, 6), "R 10 11")
    enter(slip(100, 1, config=1), "A 100 10 21")
    enter(slip(7, 7), "A 7 7 28")
    enter(slip(131, 2), "A 131 2 30")
    enter(slip(131, 3), "R 10 30")
    enter(slip(132, 5), "R 10 30")
    enter(slip(133, 1), "A 133 1 31")
    # M = 133: from 7 to 261. 6 is below, 7 is the lowest and marked, 132 keeps its mark.
    enter(slip(6, 6), "R 8 31")
    enter(slip(7, 7), "R 10 31")
    enter(slip(132, 5), "R 10 31")
    enter(slip(262, 1), "R 8 31")
    enter(slip(261, 1, config=2), "A 261 100 131")
    # M = 261: marks stay where their numbers still lie in the window, from 135 on.
    enter(slip(133, 1), "R 8 131")
    enter(slip(134, 1), "R 8 131")
    enter(slip(135, 1), "A 135 1 132")
    # On to M = 1024 by the largest steps, where ten bits begin again.
    for number in (389, 517, 645, 773, 896, 898):
        enter(slip(number, 0), f"A {number} 0 132")
    enter(slip(1024, 1, config=1), "A 1024 10 142")
    enter(slip(1024, 1, config=1), "R 10 142")
    enter(slip(897, 1), "R 8 142")
    enter(slip(898, 1), "R 10 142")
    enter(slip(899, 1), "A 899 1 143")
    enter(slip(1153, 1), "R 8 143")
    # TSTN 1 is 1025 now, and its seal is that of 1025 and not that of 1.
    enter(slip(1, 1), "R 9 143")
    enter(slip(1025, 1), "A 1025 1 144")
    enter(slip(1023, 1), "A 1023 1 145")
    enter(slip(1153, 2), "A 1153 2 147")
    # M = 1153: from 1027 to 1281.
    enter(slip(1026, 1), "R 8 147")
    enter(slip(1025, 1), "R 8 147")
    enter(slip(1027, 3), "A 1027 3 150")
    enter(slip(1282, 1), "R 8 150")

    # SubClass 8 at index 0: current, and one ahead; the same digits again; a slip of nothing.
    enter(slip(1154, 50, subclass=8, index=1), "R 9 150")
    enter(slip(1154, 50, subclass=8), "A 1154 50 200")
    enter(slip(1154, 50, subclass=8), "R 10 200")
    enter(slip(1155, 0, config=3, subclass=8), "A 1155 0 200")
    # SubClass 10 with one price: its message has the index after it, so 0 and 2 are wrong.
    one = tariff([1234], size=0, complete=0, month=0, multiplier=0)
    enter(slip(1156, 10, subclass=10, index=0, further=one), "R 9 200")
    enter(slip(1156, 10, subclass=10, index=2, further=one), "R 9 200")
    enter(slip(1156, 10, subclass=10, index=1, further=one), "A 1156 10 210")
    enter(slip(1156, 10, subclass=10, index=1, further=one), "R 9 210")
    enter(slip(1156, 10, subclass=10, index=2, further=one), "R 10 210")
    # The index is 1: SubClass 8 with the index before is stale, with this one current. SubClass 0 has none.
    enter(slip(1157, 5, subclass=8, index=0), "R 9 210")
    enter(slip(1157, 5, subclass=8, index=1), "A 1157 5 215")
    enter(slip(1158, 5), "A 1158 5 220")
    enter(slip(1159, 5, index=1), "R 9 220")
    # Two prices of each size, the largest that the field holds; month 63; all multiplier codes.
    enter(slip(1160, 0, subclass=10, index=2, further=tariff([2047, 2047], size=0, month=63, multiplier=6)), "A 1160 0 220")
    enter(slip(1161, 0, subclass=10, index=3, further=tariff([4095, 4095], size=1, multiplier=1)), "A 1161 0 220")
    enter(slip(1162, 0, subclass=10, index=4, further=tariff([8191, 8191], size=2, multiplier=2)), "A 1162 0 220")
    enter(slip(1163, 0, subclass=10, index=5, further=tariff([16383, 16383], size=3, multiplier=4)), "A 1163 0 220")
    # Three, four, six, seven and eight prices; prices of 0 are prices; out of order in number, in order of index.
    enter(slip(1170, 1, subclass=10, index=6, further=tariff([1, 0, 3], size=0, multiplier=5)), "A 1170 1 221")
    enter(slip(1169, 1, subclass=10, index=7, further=tariff([10, 20, 30, 40], size=1)), "A 1169 1 222")
    enter(slip(1168, 1, subclass=10, index=8, further=tariff([16383] * 6)), "A 1168 1 223")
    enter(slip(1167, 1, subclass=10, index=9, further=tariff([8191] * 7, size=2)), "A 1167 1 224")
    enter(slip(1166, 1, subclass=10, index=10, further=tariff([16383] * 8)), "A 1166 1 225")
    enter(slip(1165, 1, subclass=10, index=11, further=tariff([0] * 8, size=0)), "A 1165 1 226")

    # Rules of rate prices, each broken alone: type, sub-information, number code, multiplier code.
    def broken(want="R 12 226", **how):
        prices = how.pop("prices", [5, 6])
        enter(slip(1200, 1, subclass=10, index=12, further=tariff(prices, **how)), want)

    for kind in (0, 2, 3, 9, 15):
        broken(kind=kind)
    for sub in (0, 2, 3, 15):
        broken(sub=sub)
    for code in (8, 9, 15):
        broken(code=code)
    broken(code=8, prices=[1] * 8)
    broken(multiplier=7)
    # A number code for another count of blocks, both ways.
    broken(code=2, prices=[1])
    broken(prices=[1, 2], blocks=2)
    broken(prices=[1], blocks=3)
    broken(code=1, prices=[1, 2, 0])
    broken(code=6, prices=[1, 2, 3])
    broken(code=5, prices=[1, 2, 3, 4, 5, 6], blocks=3)
    broken(code=2, prices=[1, 2, 3, 0, 0, 0, 0, 0])
    # Fields and bits that are unused and not zero: the second price of one, the lowest and the highest bit left over.
    broken(code=0, prices=[5, 6])
    broken(extra=[(0, 1)])
    broken(extra=[(0, 1 << 6)])
    broken(size=0, extra=[(0, 1 << 12)])
    broken(code=2, prices=[1, 2, 3, 4])
    broken(code=2, prices=[1, 2, 3, 0, 0, 6])
    broken(prices=[1] * 6, extra=[(1, 1)])
    broken(prices=[1] * 6, extra=[(1, 1 << 2)])
    broken(code=6, prices=[1] * 8)
    broken(prices=[1] * 8, extra=[(2, 1)])
    broken(prices=[1] * 8, extra=[(2, 1 << 30)])
    broken(prices=[1] * 8, size=0, extra=[(2, 1 << 36)])
    # A broken rule counts after the seal and the mark, and before the ceiling.
    enter(slip(1200, 1, subclass=10, index=12, further=tariff([5], kind=2), off=1), "R 9 226")
    enter(slip(1170, 1, subclass=10, index=12, further=tariff([5], kind=2)), "R 10 226")
    enter(slip(1200, 8191, config=3, subclass=10, index=12, further=tariff([5], kind=2)), "R 12 226")
    # None of these counted the number or raised the index.
    enter(slip(1171, 4, subclass=8, index=11), "A 1171 4 230")
    # SubClass 10 at the ceiling: refused and nothing changed, and after a spend the same digits are taken.
    rich = slip(1200, 3171, subclass=10, index=12, further=tariff([5, 6]))
    enter(rich, "R 13 230")
    enter(slip(1172, 0, subclass=8, index=12), "R 9 230")
    spend(b"1", "S 1 229")
    enter(rich, "A 1200 3171 3400")
    enter(rich, "R 9 3400")
    enter(slip(1172, 0, subclass=8, index=11), "R 9 3400")
    enter(slip(1172, 0, subclass=8, index=12), "A 1172 0 3400")

    # Seals off by one either way, in the top bit, and of another amount, multiplier and SubClass.
    spend(b"3000", "S 3000 400")
    enter(slip(1173, 30, off=1), "R 9 400")
    enter(slip(1173, 30, off=-1), "R 9 400")
    enter(slip(1173, 30, off=2**31), "R 9 400")
    right = slip(1173, 30)
    assert int(right[:19]) + (1 << 32) == int(slip(1173, 31, off=-1)[:19])
    enter(slip(1173, 31, off=-1), "R 9 400")
    enter(slip(1173, 30, config=1, off=-1), "R 9 400")
    enter(slip(1173, 30, subclass=8, index=12, off=-20), "R 9 400")
    # A change of two bytes that keeps their sum keeps the seal: the bench seal is no protection, and says so here.
    assert seal(1174, 0, 0, 0, 256 + 1, ()) == seal(1174, 0, 0, 0, 2, ())
    enter(grouped([int(slip(1174, 257)[:19]) - (255 << 32)]), "A 1174 2 402")
    enter(right, "A 1173 30 432")

    # Long lines: five thousand digits, eight thousand bytes of any kind, four thousand digits of a spend, one letter more.
    enter(b"1234567890" * 500, "R 1 432")
    enter(bytes(b for b in range(256) if b != 10) * 32, "R 1 432")
    spend(b"0" * 4000, "?")
    key(b"x" * 6001, "?")

    # The same entry at each multiplier, and a spend of what is left.
    for config, amount in enumerate(MULTIPLIERS):
        enter(slip(1210 + config, 2, config=config), f"A {1210 + config} {2 * amount} {432 + 2 * sum(MULTIPLIERS[: config + 1])}")
    spend(b"002654", "S 2654 0")


def end_of_the_index():
    """Slips with rate prices until the function index can be raised no more."""
    while BENCH.index < 65535:
        number = BENCH.highest + 1
        enter(slip(number, 0, subclass=10, index=BENCH.index + 1, further=tariff([1])), f"A {number} 0 0")
    number = BENCH.highest + 1
    # Refused for the index before anything is asked of number and seal; other SubClasses go on.
    enter(slip(number, 0, subclass=10, index=65535, further=tariff([1])), "R 7 0")
    enter(slip(number + 500, 0, subclass=10, index=0, further=tariff([1]), off=1), "R 7 0")
    enter(slip(number, 5, subclass=8, index=65535), f"A {number} 5 5")
    enter(slip(number + 1, 6), f"A {number + 1} 6 11")
    spend(b"11", "S 11 0")


def last_line():
    """A slip on a line without its newline."""
    number = BENCH.highest + 1
    enter(slip(number, 7), f"A {number} 7 7")


def write(folder, day):
    with open(f"{folder}/stdin", "wb") as file:
        file.write(b"\n".join(line for line, _ in day))
    with open(f"{folder}/stdout", "w", encoding="ascii") as file:
        file.write("slipbench\n" + "".join(answer + "\n" for _, answer in day))


def main():
    short, full = sys.argv[1:]
    lines_of_the_day()
    write(short, LINES)
    end_of_the_index()
    last_line()
    write(full, LINES)


if __name__ == "__main__":
    main()
