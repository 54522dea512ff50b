#!/usr/bin/env python3
"""Compares the command over the archive with the command over the second program, whose build is under sanitizers.

    checked.py OUT WIRES CHECKED      WIRES is a folder of wire records as digits; CHECKED the other C program; OUT for files
"""
import os
import random
import sys

from common import digits, expect, finish, get, put, record, show, vcd_text

BYTES = ["42", "43", "00", "01", "46", "A0", "FF", "5A"]


def both(path, out, checked, *options):
    """The table, the lanes and the status of a record, by each program."""
    kept, found = os.environ["WHERRYOAR_PROGRAM"], []
    for program in (kept, checked):
        os.environ["WHERRYOAR_PROGRAM"] = program
        done = show(path, *options, "--lanes", os.path.join(out, "lanes.vcd"))
        found.append((done.out, done.err, done.status, get(os.path.join(out, "lanes.vcd"))))
    os.environ["WHERRYOAR_PROGRAM"] = kept
    return found


def random_words(chance):
    """Messages at random, answered or not, some cut off."""
    words = ["i"]
    for _ in range(chance.randrange(1, 12)):
        words += ["S"] if chance.random() < 0.9 else ["i"]
        words += [chance.choice(BYTES) + chance.choice("+++-") for _ in range(chance.randrange(5))]
        words += ["." + format(chance.randrange(256), "08b")[:chance.randrange(9)]] if chance.random() < 0.2 else []
        words += ["P", "i"] if chance.random() < 0.7 else []
    return " ".join(words)


def random_levels(chance):
    """A record of random words, with levels put in and left out, or nothing but random levels."""
    if chance.random() < 0.2:
        return bytes(chance.randrange(4) for _ in range(chance.randrange(1, 2000)))
    levels = bytearray(record(random_words(chance), chance.randrange(1, 50), chance.randrange(1, 50)))
    for _ in range(chance.choice((0, 0, 1, 3, 20))):
        at = chance.randrange(len(levels))
        levels[at:at + chance.randrange(3)] = bytes([chance.randrange(4)] * chance.randrange(3))
    return bytes(levels) or b"\3"


def main(arguments):
    if len(arguments) != 3:
        print(__doc__, file=sys.stderr)
        return 2
    out, wires, checked = arguments
    for name in sorted(name for name in os.listdir(wires) if name.endswith(".txt")):
        ours, theirs = both(os.path.join(wires, name), out, checked, "--add", "30", "--general-call")
        expect(ours == theirs and ours[2] in (0, 1), f"{name}: {ours[1:3]} {theirs[1:3]}")
    chance, statuses = random.Random(4), set()
    for number in range(60):
        levels = random_levels(chance)
        path = put(out, f"random_{number}", vcd_text(levels) if chance.random() < 0.5 else digits(levels))
        options = ["--add", chance.choice(("42", "00", "5A")), "--n", str(chance.choice((1, 4, 256))), "--mask",
                   chance.choice(("FF", "F0"))] + ["--general-call"] * chance.randrange(2)
        ours, theirs = both(path, out, checked, *options)
        expect(ours == theirs, f"{path} {options}: {ours[1:3]} {theirs[1:3]}")
        statuses.add(ours[2])
    expect(statuses == {0, 1}, f"both statuses come: {statuses}")
    return finish()


if __name__ == "__main__":
    sys.exit(main(sys.argv[1:]))
