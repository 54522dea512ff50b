#!/usr/bin/env python3
"""Compares sigrok's i2c decoder with the plain reader on wire records: whole, cut, with listed differences, and at random.

    sigrok_agree.py whole WIREBYTES RECORD..      the same events, but for Stops outside a message
    sigrok_agree.py cuts WIREBYTES OUT RECORD     the record cut on the left and on the right at every item
    sigrok_agree.py listed WIREBYTES OUT          the records of tests/sigrok/differences.txt
    sigrok_agree.py random WIREBYTES OUT ITEMS    one random record: sigrok is the plain reader with the listed differences
    sigrok_agree.py ten_bit WIREBYTES RECORD..    ten-bit addresses: the same events, and what sigrok calls their bytes

A record is a file with a byte of 0 to 3 for each level, SCL in bit 1 and SDA in bit 0. WIREBYTES is tests/wirebytes.c.
Events are tuples (item, letter, byte, acknowledge); a byte's item is that of its ninth rise.
"""
import concurrent.futures
import os
import random
import re
import subprocess
import sys

HERE = os.path.dirname(os.path.abspath(__file__))
sys.path.insert(0, os.path.join(HERE, "..", "tools"))
import make_capture  # noqa: E402

ANNOTATION = re.compile(r"(\d+)-\d+ i2c-1: (Start repeat|Start|Stop|ACK|NACK|"
                        r"(Address|Data) (?:read|write): ([0-9A-F]{2}))\Z")
NAMED = re.compile(r"\d+-\d+ i2c-1: ((?:Address|Data) (?:read|write)): ([0-9A-F]{2})\Z")

# The bytes of ten-bit addressing: what follows each in a message, and what sigrok calls it.
FOLLOWS = {"high": "low", "low": "written", "written": "written", "high to read": "read", "read": "read"}
CALLED = {"high": "Address write", "low": "Data write", "written": "Data write",
          "high to read": "Address read", "read": "Data read"}


def run(words):
    return subprocess.run(words, check=True, stdout=subprocess.PIPE, text=True).stdout.splitlines()


def annotations(path, form="unshifted"):
    """The lines that sigrok's decoder writes for a record."""
    return run(["sigrok-cli", "-I", "binary:numchannels=2", "-i", path, "-P", f"i2c:scl=1:sda=0:address_format={form}",
                "-A", "i2c=addr-data", "--protocol-decoder-samplenum"])


def sigrok(path):
    """What sigrok's decoder makes of a record."""
    events, pending = [], None
    for line in annotations(path):
        found = ANNOTATION.match(line)
        if not found:
            if re.search(r"i2c-1: (Read|Write)\Z", line):
                continue
            raise ValueError(f"sigrok wrote: {line}")
        begin, text, kind, value = found.groups()
        if kind:
            pending = (kind[0], value)
        elif text in ("ACK", "NACK"):
            events.append((int(begin), *pending, "0" if text == "ACK" else "1"))
            pending = None
        else:
            events.append((int(begin), "P" if text == "Stop" else "S", "--", "-"))
    return events, pending


def plain(wirebytes, path):
    """What the plain reader hears."""
    events = []
    for line in run([wirebytes, path]):
        item, letter, byte, answer, rise = line.split()
        events.append((int(item if rise == "-" else rise), letter, byte, answer))
    return events


def as_sigrok(wirebytes, path):
    """What the plain reader would hear with the rules of docs/SIGROK.md; a byte comes at the eighth and the ninth rise."""
    events, pending = [], None
    for line in run([wirebytes, "-s", path]):
        item, letter, byte, answer, _ = line.split()
        if answer == "?":
            pending = (letter, byte)
        else:
            events.append((int(item), letter, byte, answer))
            pending = None if letter in "AD" else pending
    return events, pending


def without_outer_stops(events):
    """Rule A: a Stop outside a message is not heard."""
    kept, inside = [], False
    for event in events:
        if event[1] != "P" or inside:
            kept.append(event)
        inside = event[1] == "S" or (inside and event[1] != "P")
    return kept


def write(path, levels):
    with open(path, "wb") as file:
        file.write(bytes(levels))


def read(path):
    with open(path, "rb") as file:
        return list(file.read())


def both_at_once(levels):
    """Whether SCL rises and SDA falls in one sample somewhere, which is where rule B can act."""
    return any(a == 1 and b == 2 for a, b in zip(levels, levels[1:]))


def whole(wirebytes, records):
    """Whole captures: the same events at the same items."""
    events = wrong = 0
    for path in records:
        heard, pending = sigrok(path)
        ours = without_outer_stops(plain(wirebytes, path))
        events += len(heard)
        if heard != ours or pending is not None:
            print(f"{path}: sigrok {heard} {pending}, plain {ours}")
            wrong += 1
    print(f"records {len(records)} events {events} differences {wrong}")
    return wrong == 0 and events > 0


def right_edge(ours, heard, levels):
    """Rule E at the end of a record: in the high time of a ninth clock sigrok has a byte that we do not have yet."""
    more = heard[len(ours):]
    if heard[:len(ours)] != ours or len(more) > 1:
        return False
    return not more or (more[0][1] in "AD" and all(level & 2 for level in levels[more[0][0]:]))


def later_part(wirebytes, path):
    """Cut on the left: the same events, but for Stops outside a message."""
    heard, pending = sigrok(path)
    return heard == without_outer_stops(plain(wirebytes, path)) and pending is None


def earlier_part(wirebytes, path, levels):
    """Cut on the right: the same events, but for a byte in its ninth clock."""
    heard, pending = sigrok(path)
    return right_edge(plain(wirebytes, path), heard, levels) and (heard, pending) == as_sigrok(wirebytes, path)


def cuts(wirebytes, out, record):
    """A record cut at every item, the later part and the earlier part."""
    levels = read(record)
    if both_at_once(levels):
        print("this record has both lines changing at once: rule B would act")
        return False

    def cut(at):
        path = os.path.join(out, f"cut_{at}.bin")
        write(path, levels[at:])
        fine = later_part(wirebytes, path)
        write(path, levels[:at])
        fine = earlier_part(wirebytes, path, levels[:at]) and fine
        os.remove(path)
        return fine

    with concurrent.futures.ThreadPoolExecutor(os.cpu_count()) as pool:
        wrong = [at for at, fine in enumerate(pool.map(cut, range(1, len(levels))), 1) if not fine]
    print(f"cuts {2 * (len(levels) - 1)} differences {len(wrong)}{': ' + str(wrong) if wrong else ''}")
    return not wrong and len(levels) > 1


def shown(events, pending=None):
    """Events as differences.txt has them."""
    row = [f"{e[1]}@{e[0]}" if e[2] == "--" else f"{e[1]}{e[2]}/{e[3]}@{e[0]}" for e in events]
    if pending is not None:
        row.append(f"{pending[0]}{pending[1]}/?")
    return " ".join(row)


def listed(wirebytes, out):
    """Each listed difference is exactly the one that is there."""
    records = wrong = 0
    with open(os.path.join(HERE, "sigrok", "differences.txt"), encoding="ascii") as file:
        lines = [line for line in file if not line.startswith("#")]
    for line in lines:
        name, recipe, ours, theirs = (part.strip() for part in line.split("|"))
        path = os.path.join(out, name + ".bin")
        text = make_capture.capture(recipe.split(), 4, 0)
        write(path, [int(c) for c in text if c != "\n"])
        seen = (shown(plain(wirebytes, path)), shown(*sigrok(path)), shown(*as_sigrok(wirebytes, path)))
        records += 1
        if seen != (ours, theirs, theirs) or ours == theirs:
            print(f"{name}:\n  plain {seen[0]}\n  sigrok {seen[1]}\n  by the rules {seen[2]}")
            wrong += 1
    print(f"listed differences {records} not as listed {wrong}")
    return wrong == 0 and records > 0


def random_levels(chance, items):
    """Messages whole and cut short, with stray levels between and inside them."""
    levels = []
    while len(levels) < items:
        words = ["S"] if chance.random() < 0.9 else []
        words += [f"{chance.randrange(256):02X}" for _ in range(chance.randrange(4))]
        words += ["a"] * chance.randrange(2) + (["P"] if chance.random() < 0.8 else [])
        text = make_capture.capture(words, chance.choice((2, 3, 4, 6)), 0) if words else ""
        part = [int(c) for c in text if c != "\n"]
        for _ in range(chance.choice((0, 0, 0, 1, 2))):
            part.insert(chance.randrange(len(part) + 1), chance.randrange(4))
        if chance.random() < 0.2:
            part = part[:chance.randrange(len(part) + 1)]
        levels += part
        if chance.random() < 0.1:
            levels += [chance.randrange(4) for _ in range(chance.randrange(40))]
    return levels


def at_random(wirebytes, out, items):
    """One long random record: sigrok is exactly the plain reader with the listed rules, and the rules matter."""
    path = os.path.join(out, "random.bin")
    write(path, random_levels(random.Random(1), items))
    theirs, rules, ours = sigrok(path), as_sigrok(wirebytes, path), plain(wirebytes, path)
    same = theirs == rules
    common = len(set(theirs[0]) & set(ours))
    print(f"items {items} sigrok's events {len(theirs[0])} plain events {len(ours)} in common {common}"
          f" differences from the rules {0 if same else 1}")
    if not same:
        print([pair for pair in zip(theirs[0], rules[0]) if pair[0] != pair[1]][:1])
    return same and common > 0 and common < len(ours)


def ten_bit_parts(events):
    """Each byte with what it is in ten-bit addressing; a first byte that opens no ten-bit address is none of it."""
    part = None
    for _, letter, byte, _ in events:
        if letter == "A":
            opens = int(byte, 16) >> 3 == 0b11110
            part = ("high to read" if int(byte, 16) & 1 else "high") if opens else "no ten bits"
        elif letter == "D":
            part = FOLLOWS.get(part, "no ten bits")
        if letter in "AD":
            yield part, int(byte, 16)


def names(path, form):
    """Each byte with what sigrok calls it."""
    return [(found.group(1), int(found.group(2), 16)) for found in map(NAMED.match, annotations(path, form)) if found]


def ten_bit(wirebytes, records):
    """The same events by every item, but to sigrok the high byte is an address of seven bits, and the low byte is data."""
    counts, wrong = dict.fromkeys(CALLED, 0), 0
    for path in records:
        events = plain(wirebytes, path)
        parts = list(ten_bit_parts(events))
        called = [(CALLED.get(part), byte) for part, byte in parts]
        shifted = [(name, byte >> 1 if name and name.startswith("Address") else byte) for name, byte in called]
        named = names(path, "unshifted"), names(path, "shifted")
        if named != (called, shifted) or sigrok(path) != (events, None):
            print(f"{path}: sigrok {named[0]}, ten bits {parts}")
            wrong += 1
        for part, _ in parts:
            counts[part] = counts.get(part, 0) + 1
    print(f"records {len(records)} differences {wrong}; " + ", ".join(f"{part} {n}" for part, n in counts.items()))
    return wrong == 0 and min(counts.values()) > 0


def main(arguments):
    if len(arguments) >= 3 and arguments[0] == "whole":
        fine = whole(arguments[1], arguments[2:])
    elif len(arguments) >= 3 and arguments[0] == "ten_bit":
        fine = ten_bit(arguments[1], arguments[2:])
    elif len(arguments) == 4 and arguments[0] == "cuts":
        fine = cuts(*arguments[1:])
    elif len(arguments) == 3 and arguments[0] == "listed":
        fine = listed(*arguments[1:])
    elif len(arguments) == 4 and arguments[0] == "random":
        fine = at_random(arguments[1], arguments[2], int(arguments[3]))
    else:
        print(__doc__, file=sys.stderr)
        return 2
    return 0 if fine else 1


if __name__ == "__main__":
    sys.exit(main(sys.argv[1:]))
