#!/usr/bin/env python3
"""Tests what the command says of records that look wrong: exchanged, inverted or coarsely sampled lines, and no Start at all.

    suspicions.py OUT WIRES      WIRES is a folder of wire records as digits; OUT one for files
"""
import os
import sys

from common import COMMAND, digits, expect, finish, put, record, show

WORDS = "i S 42+ 05+ 1C+ 2D+ P i S 42+ 05+ S 43+ 1C+ 2D- P i S A0+ 00+ 55- P i"
READINGS = ["", "SCL and SDA look exchanged", "SCL looks inverted", "SCL and SDA look exchanged, and SDA looks inverted",
            "SDA looks inverted", "SCL and SDA look exchanged, and SCL looks inverted", "SCL and SDA look inverted",
            "SCL and SDA look exchanged and inverted"]


def told(out, levels, *options):
    """The warnings for a record, and its exit status."""
    done = show(put(out, "record.txt", digits(levels)), "--add", "42", *options)
    warnings = [line.split("warning: ")[1] for line in done.err.splitlines() if "warning: " in line]
    return warnings, done.status


def turned(levels, reading):
    """A record with SCL (2) or SDA (4) turned over, and then the two exchanged (1)."""
    table = []
    for level in range(4):
        level ^= (2 if reading & 2 else 0) | (1 if reading & 4 else 0)
        table.append(level >> 1 | (level & 1) << 1 if reading & 1 else level)
    return bytes(table[level] for level in levels)


def readings(out):
    """Each of the seven ways to have the lines wrong is named, for a long and for a short record."""
    short = "1 whole message"
    for words, messages in ((WORDS, "4 whole messages"), ("i S 42+ 05+ P i", short), ("i S A1- P i", short)):
        for reading, name in enumerate(READINGS):
            warnings, status = told(out, turned(record(words), reading))
            wanted = [f"{name}: read so, the record has {messages}, as given it has none"] if name else []
            expect(warnings == wanted and status == 0, f"{words} {reading}: {warnings}")
    nobody = "i S A0- 00- P i S A0- 00- 12- P i"  # a master that goes on though nobody answers
    expect(told(out, record(nobody)) == ([], 0), "messages that nobody answers")


def choices():
    """Another reading has to be far better: by ten times, or where the given one has nothing; and most of it must be answered."""
    for given, other, is_told in ((0, (3, 3, 3), True), (1, (9, 9, 9), False), (1, (10, 10, 10), True), (5, (6, 6, 6), False),
                                  (0, (6, 6, 3), False), (0, (5, 3, 3), True)):
        readings = [(given, given, given), other] + [(0, 0, 0)] * 6
        expect((COMMAND.table.better_reading(readings) == 1) == is_told, f"{given} or {other}")


def samples(out):
    """Two samples a clock are enough; fewer are told, down to where no message is left."""
    fine = record((WORDS + " ") * 4, 50, 50)
    for step in (1, 10, 25, 40, 50):
        warnings, _ = told(out, fine[::step])
        expect(warnings == [], f"every {step}th sample: {warnings}")
    for step in (52, 56, 60, 66):
        warnings, _ = told(out, fine[::step])
        expect(len(warnings) == 1 and warnings[0].startswith("the record looks sampled too coarsely: "), f"{step}: {warnings}")
    for step in (80, 90, 120):
        warnings, _ = told(out, fine[::step])
        expect(len(warnings) == 1 and "is whole: is it sampled too coarsely, or are these other signals?" in warnings[0],
               f"{step}: {warnings}")
    cut = record("i S 42+ 05+ P i S 42+ 05+ P i S 42+ .0101 P i S 42+ P i", 1, 1)
    expect(told(out, cut)[0] == [], "one byte cut off is no coarse sampling")


def no_start(out):
    """A bus on which nothing happens, and one seen from the middle of a message on."""
    for levels in (bytes([3]) * 100, bytes([0]) * 100, record("i .010101 l")):
        warnings, status = told(out, levels)
        expect(warnings == ["there is no Start in the record; are these the right signals?"] and status == 0, f"{warnings}")


def quiet(wires):
    """The stored captures are above suspicion."""
    for name in sorted(name for name in os.listdir(wires) if name.endswith(".txt")):
        done = show(os.path.join(wires, name), "--add", "30")
        expect("warning" not in done.err, f"{name}: {done.err}")


def main(arguments):
    if len(arguments) != 2:
        print(__doc__, file=sys.stderr)
        return 2
    out, wires = arguments
    readings(out)
    choices()
    samples(out)
    no_start(out)
    quiet(wires)
    return finish()


if __name__ == "__main__":
    sys.exit(main(sys.argv[1:]))
