#!/usr/bin/env python3
"""Turns a recipe (Start, Stop, bytes written, bytes read) into a capture as the report reads it: digits 0 to 3 and h.

    make_capture.py [-g] [-s] [-c SAMPLES] [-d DELAY] [-j SEED] [-o FILE] RECIPE..

A recipe is a row of words:

    S           a Start, from a free bus or repeated
    P           a Stop
    30          two hex digits: a byte the master drives, its ninth slot released
    a  n        a byte the master reads and acknowledges, or does not acknowledge
    30.7        only the first rises of such a byte, 1 to 9, and what follows cuts it short
    i           a free clock, both lines released
    =3232:S     these items as they stand; the letters after the colon say which events they show

A digit is what everybody but the module drives, 2 * SCL + SDA. SAMPLES is the number of samples per clock (2 or more):
SCL is low for the first half, SDA changes in the middle of it. A handler call comes DELAY samples after each ninth fall
(0: never); a master that wants SCL high before that waits for it. With a SEED above 0 each length is off by up to a
quarter, the same way for the same seed. With -g the capture begins with g: the report's module has GCEN on. With -s a call
comes after each Start too, for firmware that is interrupted there.
"""
import argparse
import re
import sys

WIDTH = 96
BYTE = re.compile(r"([0-9A-F]{2})(?:\.([1-9]))?\Z")
LITERAL = re.compile(r"=([0-3h]+)(?::([SP]*))?\Z")


class Lengths:
    """How many samples a part of a clock takes: as asked for, or a little off where a seed is given."""

    def __init__(self, seed):
        self.seed = seed

    def near(self, length):
        spread = length // 4
        if self.seed == 0 or spread == 0:
            return length
        self.seed = (self.seed * 1103515245 + 12345) % 2**31
        return length - spread + (self.seed >> 8) % (2 * spread + 1)


class Wave:
    """The items so far, SDA as it is driven, and the handler call that is still to come."""

    def __init__(self, samples, delay, seed, start_calls):
        self.low = samples // 2
        self.hold = self.low // 2
        self.high = samples - self.low
        self.delay = delay
        self.start_calls = start_calls
        self.lengths = Lengths(seed)
        self.items = []
        self.sda = 1
        self.free = True
        self.due = 0

    def drive(self, scl, sda, count):
        """So many samples of one level; the handler call comes in between when its time is there."""
        self.sda = sda
        for _ in range(count):
            self.items.append(str(2 * scl + sda))
            if self.due > 0:
                self.due -= 1
                if self.due == 0:
                    self.items.append("h")

    def set_up(self, sda):
        """SCL low: SDA stays for the hold time, then takes its new value."""
        low = self.lengths.near(self.low)
        hold = min(self.hold, low - 1)
        self.drive(0, self.sda, hold)
        self.drive(0, sda, low - hold)

    def rise(self, sda):
        """SCL released; as long as the handler call is to come the master waits."""
        while self.due > 0:
            self.drive(1, sda, 1)
        self.drive(1, sda, self.lengths.near(self.high))

    def start(self):
        if not self.free:
            self.set_up(1)
            self.rise(1)
        else:
            self.drive(1, 1, 1)
        if self.start_calls:
            self.due = self.delay
        self.drive(1, 0, max(1, self.high // 2))
        self.free = False

    def stop(self):
        self.set_up(0)
        self.rise(0)
        self.drive(1, 1, self.lengths.near(self.high))
        self.free = True

    def byte(self, value, ninth, rises=None):
        """Eight bits and the ninth slot, up to and with the ninth fall; or only so many rises of it."""
        for place in range(8, 8 - (rises or 9), -1):
            bit = (2 * value + ninth) >> place & 1
            self.set_up(bit)
            self.rise(bit)
        if rises is None:
            self.due = self.delay
            self.drive(0, ninth, 1)

    def literal(self, items, events):
        self.items.extend(items)
        if events:
            self.free = events[-1] == "P"
        levels = [item for item in items if item != "h"]
        if levels:
            self.sda = int(levels[-1]) & 1

    def word(self, word):
        """One word of the recipe; answers whether it is one."""
        literal = LITERAL.match(word)
        byte = BYTE.match(word)
        if word == "S":
            self.start()
        elif word == "P":
            self.stop()
        elif word in ("a", "n"):
            self.byte(0xFF, 1 if word == "n" else 0)
        elif word == "i":
            self.drive(1, 1, self.low + self.high)
        elif literal:
            self.literal(literal.group(1), literal.group(2) or "")
        elif byte:
            self.byte(int(byte.group(1), 16), 1, int(byte.group(2)) if byte.group(2) else None)
        else:
            return False
        return True


def capture(words, samples=2, delay=1, seed=0, general_call=False, start_calls=False):
    """The capture of a recipe as text, a new line for each word; ValueError names a word that is none."""
    wave = Wave(samples, delay, seed, start_calls)
    lines = ["g"] if general_call else []
    for word in words:
        begin = len(wave.items)
        if not wave.word(word):
            raise ValueError(f"no word of a recipe: {word}")
        text = "".join(wave.items[begin:])
        lines.extend(text[at:at + WIDTH] for at in range(0, len(text), WIDTH))
    return "".join(line + "\n" for line in lines)


def parser():
    p = argparse.ArgumentParser(description="Turns a recipe into a capture.")
    p.add_argument("-g", "--general-call", action="store_true", help="g first: GCEN is on")
    p.add_argument("-s", "--start-calls", action="store_true", help="a handler call after each Start too")
    p.add_argument("-c", "--samples", type=int, default=2, help="samples per clock, 2 or more")
    p.add_argument("-d", "--delay", type=int, default=1, help="samples from a ninth fall to the handler call; 0: none")
    p.add_argument("-j", "--seed", type=int, default=0, help="above 0: lengths off by up to a quarter")
    p.add_argument("-o", "--output", help="the file to write; else standard output")
    p.add_argument("recipe", nargs="+", help="S, P, two hex digits, 30.7, a, n, i or =ITEMS:EVENTS")
    return p


def main(arguments):
    a = parser().parse_args(arguments)
    if a.samples < 2 or a.delay < 0 or a.seed < 0:
        print("make_capture.py: samples below 2, or a negative delay or seed", file=sys.stderr)
        return 2
    try:
        text = capture(a.recipe, a.samples, a.delay, a.seed, a.general_call, a.start_calls)
    except ValueError as wrong:
        print(f"make_capture.py: {wrong}", file=sys.stderr)
        return 2
    if a.output is None:
        sys.stdout.write(text)
        return 0
    with open(a.output, "w", encoding="ascii") as file:
        file.write(text)
    return 0


if __name__ == "__main__":
    sys.exit(main(sys.argv[1:]))
