#!/usr/bin/env python3
"""Tests the command's table beside sigrok's i2c decoder: the same Starts, Stops, bytes and acknowledges at the same items.

    beside_sigrok.py OUT WIRES      WIRES is a folder of wire records as digits; OUT one for files

What the two hear differently is told in docs/SIGROK.md; of that only Stops outside a message come in these records.
"""
import os
import sys

from common import HERE, digits, expect, finish, get, put, record, show

sys.path.insert(0, os.path.join(HERE, ".."))
import sigrok_agree  # noqa: E402

# Traffic of several slaves and masters, at several lengths of the clock.
TRAFFIC = "i S 42+ 05+ 1C+ 2D- P i S 42+ 05+ S 43+ 1C+ 2D- P S A0+ 00+ FF+ P i S 7E- P S 00+ 06+ P S 43+ 80+ 7F+ 00- P i"


def events(rows):
    """The table's events as sigrok_agree has them: item, letter, byte, acknowledge."""
    found = []
    for row in rows:
        item, event, byte, wire = int(row[:10]), row[28:40].strip(), row[42:50].strip(), row[52:56].strip()
        letter = {"Start": "S", "Stop": "P", "data": "D"}.get(event, "A")
        found.append((item, letter, byte or "--", {"ack": "0", "nack": "1", "": "-"}[wire]))
    return found


def same(name, path, levels, out):
    """The events of one record."""
    done = show(path, "--add", "30")
    heard, pending = sigrok_agree.sigrok(put(out, "record.bin", levels))
    ours = sigrok_agree.without_outer_stops(events(row for row in done.rows() if "cut off" not in row))
    expect(pending is None and heard == ours, f"{name}: sigrok {heard}, the table {ours}")
    return len(heard)


def main(arguments):
    if len(arguments) != 2:
        print(__doc__, file=sys.stderr)
        return 2
    out, wires = arguments
    heard = 0
    names = sorted(name for name in os.listdir(wires) if name.endswith(".txt"))
    for name in names:
        path = os.path.join(wires, name)
        heard += same(name, path, bytes(int(digit) for digit in get(path).decode() if digit in "0123"), out)
    for low, high in ((2, 2), (4, 4), (3, 9), (40, 25)):
        levels = record(TRAFFIC, low, high)
        heard += same(f"{low} and {high}", put(out, "record.txt", digits(levels)), levels, out)
    expect(len(names) > 20 and heard > 400, f"records {len(names)}, events {heard}")
    return finish()


if __name__ == "__main__":
    sys.exit(main(sys.argv[1:]))
