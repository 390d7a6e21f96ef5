#!/usr/bin/env python3
"""Writes what the program `day` has to print: the journal of a day at one till and one meter, and the balance.

It is computed from the rules of slips, by the till below and the meter of slips.py. Nothing is taken from the program
under test, and nothing of it is run.

Usage: till_day.py FILE
"""

import sys

from slips import MULTIPLIERS, Meter, slip, spoilt, tariff

REASONS = {
    3: "a check digit is wrong",
    9: "the tag is wrong",
    10: "the number was counted before",
    13: "the credit would pass the ceiling",
    15: "no amount to be spent",
    16: "more than the credit",
    18: "a sale that no slip can carry",
}


class Till:
    """A new till of the bench."""

    def __init__(self):
        self.draws = self.issues = self.voids = 0
        self.index = 0
        self.hand = []

    def draw(self):
        self.draws += 1
        self.hand.append(self.draws)
        return self.draws

    def issue(self, number, subclass, config, amt, prices=None, multiplier=3):
        """The digits of a slip, or the refusal's number."""
        if subclass not in (0, 8, 10) or config > 3 or MULTIPLIERS[config] == 0 or amt > 8191:
            return 18
        if (prices is not None) != (subclass == 10):
            return 18
        further = ()
        if prices is not None:
            if not 1 <= len(prices) <= 8 or multiplier > 6 or any(price >= 2**14 for price in prices):
                return 18
            further = tariff(prices, multiplier=multiplier)
        index = {0: 0, 8: self.index, 10: self.index + 1}[subclass]
        text = slip(number, amt, config=config, subclass=subclass, index=index, further=further)
        self.index += subclass == 10
        self.issues += 1
        self.hand.remove(number)
        return text

    def void(self, number):
        self.voids += 1
        self.hand.remove(number)


class Day:
    """A till and a meter, with what is printed for each call."""

    def __init__(self):
        self.till, self.meter = Till(), Meter()
        self.taken = self.spent = 0
        self.slips = {}
        self.lines = []

    def say(self, text):
        self.lines.append(text)

    def draw(self):
        self.say(f"draw: number {self.till.draw()}")

    def issue(self, number, subclass, config, amt, prices=None, **how):
        what = f"issue of {number}, SubClass {subclass}, AMTConfig {config}, AMT {amt}"
        if prices is not None:
            what += f", {len(prices)} prices"
        if number not in self.till.hand:
            self.say(f"{what} refused: not in hand")
            return
        text = self.till.issue(number, subclass, config, amt, prices, **how)
        if isinstance(text, int):
            self.say(f"{what} refused: {text}, {REASONS[text]}")
            return
        self.slips[number] = text
        digits = text.decode("ascii")
        self.say(f"{what}: " + " ".join(digits[i : i + 4] for i in range(0, len(digits), 4)))

    def void(self, number):
        if number not in self.till.hand:
            self.say(f"void of {number} refused: not in hand")
            return
        self.till.void(number)
        self.say(f"void of {number}")

    def key(self, number, misread=None):
        text = self.slips[number]
        done = self.meter.enter(text if misread is None else spoilt(text, misread))
        if isinstance(done, int):
            self.say(f"entry refused: {done}, {REASONS[done]}")
            return
        counted, amount = done
        self.taken += amount
        self.say(f"entry taken: number {counted}, amount {amount}, credit {self.meter.credit}")

    def spend(self, amount):
        refused = self.meter.spend(amount)
        if refused is not None:
            self.say(f"spend of {amount} refused: {refused}, {REASONS[refused]}")
            return
        self.spent += amount
        self.say(f"spend of {amount}: credit {self.meter.credit}")

    def close(self):
        till, meter = self.till, self.meter
        assert meter.credit == self.taken - self.spent
        assert till.draws == till.issues + till.voids + len(till.hand)
        self.say("closing balance")
        self.say(f"opening credit 0, taken {self.taken}, spent {self.spent}, credit {meter.credit}")
        self.say(f"draws {till.draws}, issues {till.issues}, voids {till.voids}, in hand {len(till.hand)}")
        self.say("in hand: " + " ".join(str(number) for number in till.hand))
        self.say("the sums agree")
        self.say(f"the till closes with {till.voids + len(till.hand)} voids and nothing in hand")


def the_day():
    day = Day()
    # A slip is taken; keyed again, its number is counted.
    day.draw()
    day.issue(1, 0, 0, 500)
    day.key(1)
    day.key(1)
    day.spend(200)
    # Two slips, the later number keyed first; the other would pass the ceiling, and is taken after a spend.
    day.draw()
    day.draw()
    day.issue(2, 0, 3, 3)
    day.issue(3, 8, 1, 30)
    day.key(3)
    day.key(2)
    day.spend(250)
    day.key(2)
    day.key(3)
    # Sales that no slip can carry leave the number in hand.
    day.draw()
    day.issue(4, 5, 0, 40)
    day.issue(4, 0, 0, 8192)
    day.issue(4, 10, 0, 40, [100, 200], multiplier=7)
    day.issue(4, 0, 0, 40)
    day.issue(4, 0, 0, 40)
    # Numbers that are not in hand: never drawn, and voided.
    day.issue(9, 0, 0, 40)
    day.draw()
    day.void(5)
    day.void(5)
    day.issue(5, 0, 0, 40)
    # An enciphered slip, and new rate prices issued after it and keyed before it.
    day.draw()
    day.draw()
    day.issue(6, 8, 0, 25)
    day.issue(7, 10, 0, 10, [1850, 2100])
    day.key(7)
    day.key(6)
    # The slip in clear is keyed late, first with a digit misread; it needs no index.
    day.spend(300)
    day.key(4, misread=7)
    day.key(4)
    # Eight prices, and the enciphered slip sold again at the new index.
    day.draw()
    day.draw()
    day.issue(8, 10, 1, 5, [1850, 2100, 1900, 2150, 0, 16383, 1, 700])
    day.issue(9, 8, 0, 25)
    day.key(9)
    day.key(8)
    day.key(9)
    # Spends: none, above the credit, to the last unit.
    day.spend(0)
    day.spend(3401)
    day.spend(3000)
    day.spend(day.meter.credit)
    day.spend(1)
    # Two numbers stay in hand.
    day.draw()
    day.draw()
    day.close()
    return day.lines


def main():
    (path,) = sys.argv[1:]
    with open(path, "w", encoding="ascii") as file:
        file.write("a day at the till\n" + "".join(line + "\n" for line in the_day()))


main()
