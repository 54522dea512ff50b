#!/usr/bin/env python3
"""Makes inputs for the report program: captures mangled at random, general calls, noise, and inputs of the greatest length
and one more. Of each kind some have a g in front, which turns GCEN on.

    report_inputs.py OUT
"""
import os
import random
import sys

HERE = os.path.dirname(os.path.abspath(__file__))
CAPTURES = os.path.join(HERE, "..", "captures")
sys.path.insert(0, os.path.join(HERE, "..", "..", "tools"))
import make_capture  # noqa: E402

LONGEST = 60000
FRONT = (b"", b"g")  # g as the first byte turns GCEN on


def captures():
    """The stored captures, without the g that some begin with."""
    for name in sorted(os.listdir(CAPTURES)):
        if name.endswith(".txt") and name != "manifest.txt":
            with open(os.path.join(CAPTURES, name), "rb") as file:
                yield file.read().removeprefix(b"g")


def noise(chance, length):
    """So many items at random."""
    return bytes(chance.choice(b"0123h") for _ in range(length))


def general_calls(chance, delay):
    """Messages to 00, 01, the module and another one, with 00 among their later bytes; with a delay of 0 no handler call."""
    words = []
    for _ in range(chance.randrange(6, 12)):
        words += ["S", chance.choice(("00", "00", "00", "01", "30", "31", "20"))]
        words += [chance.choice(("00", "06", "5A", "a", "n")) for _ in range(chance.randrange(4))]
        words += ["P"] if chance.random() < 0.6 else []
    return make_capture.capture(words, chance.choice((2, 3, 4)), delay).encode("ascii")


def mangled(chance, data):
    """A few items changed, dropped, doubled or put in; now and then a byte that is no item."""
    data = bytearray(data)
    for _ in range(chance.randrange(1, 8)):
        at, kind = chance.randrange(len(data) + 1), chance.randrange(4)
        if kind == 0 and at < len(data):
            data[at] = chance.choice(b"0123h")
        elif kind == 1:
            del data[at:at + chance.randrange(1, 20)]
        elif kind == 2:
            data[at:at] = data[at:at + chance.randrange(1, 60)]
        else:
            data[at:at] = bytes([chance.choice(b"0123h \n")])
    if chance.random() < 0.1:
        data[chance.randrange(len(data))] = chance.choice((ord("g"), chance.randrange(256)))
    return bytes(data)


def inputs(chance):
    """Names and inputs."""
    stored = list(captures())
    for number in range(30):
        yield f"mangled_{number}", FRONT[number % 2] + mangled(chance, chance.choice(stored))
    for number in range(12):
        calls = general_calls(chance, number // 2 % 3)
        yield f"general_calls_{number}", FRONT[number % 2] + calls
        yield f"general_calls_mangled_{number}", FRONT[number % 2] + mangled(chance, calls)
    for number in range(10):
        yield f"noise_{number}", FRONT[number % 2] + noise(chance, chance.randrange(1, 3000))
    long = b"".join(stored) * 20
    yield "longest", long[:LONGEST]
    yield "longest_with_g", b"g" + long[:LONGEST - 1]
    yield "longest_of_noise", noise(chance, LONGEST)
    yield "too_long", long[:LONGEST + 1]
    yield "too_long_with_g", b"g" + long[:LONGEST]
    yield "too_long_and_blank", b" " * (LONGEST + 1)
    yield "too_long_and_foreign", b"x" + b"3" * LONGEST
    yield "longest_and_foreign", b"3" * (LONGEST - 1) + b"x"
    yield "longest_with_two_g", b"g" + b"3" * (LONGEST - 2) + b"g"
    yield "much_too_long", b"32" * LONGEST


def main(arguments):
    if len(arguments) != 1:
        print("usage: report_inputs.py OUT", file=sys.stderr)
        return 2
    os.makedirs(arguments[0], exist_ok=True)
    for name, data in inputs(random.Random(3)):
        with open(os.path.join(arguments[0], name), "wb") as file:
            file.write(data)
    return 0


if __name__ == "__main__":
    sys.exit(main(sys.argv[1:]))
