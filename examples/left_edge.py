#!/usr/bin/env python3
"""Shows one capture from several left edges: what a decoder that begins at the edge draws, and what the report says.

    examples/left_edge.py [CAPTURE [EDGE..]]

A capture holds wire levels, digits 0 to 3 (2 * SCL + SDA); an edge is the item that the screen begins with. Item numbers are
those of the whole capture.
"""
import os
import subprocess
import sys

HERE = os.path.dirname(os.path.abspath(__file__))
REPORT = os.path.join(HERE, "..", "tools", "report.sh")


def first_eight_clocks(levels):
    """The complaint: the first eight clocks in sight are taken for an address, the ninth for its acknowledge."""
    bits = []
    for before, level in zip(levels, levels[1:]):
        if before < 2 <= level:  # SCL rises: SDA is a bit
            bits.append(level % 2)
        if len(bits) == 9:
            byte = sum(bit << (7 - place) for place, bit in enumerate(bits[:8]))
            return "%02X %s" % (byte, "NACK" if bits[8] else "ACK")
    return "nothing"


def reported(levels, edge):
    """The report's events from the edge up to the first address, by the items of the whole capture."""
    text = "".join(str(level) for level in levels)
    report = subprocess.run([REPORT], input=text, stdout=subprocess.PIPE, text=True)
    if report.returncode != 0:  # the script has said why, on standard error
        sys.exit(report.returncode)
    events = []
    for line in report.stdout.splitlines()[1:-1]:
        item, event, byte, acknowledge, _ = line.split()
        events.append("%d %s" % (int(item) + edge, event))
        if event == "A":
            events[-1] += " %s %s" % (byte, "NACK" if acknowledge == "1" else "ACK")
            break
    return ", ".join(events) or "no Start in sight"


def main():
    path = sys.argv[1] if len(sys.argv) > 1 else os.path.join(HERE, "left_edge.txt")
    edges = [int(word) for word in sys.argv[2:]] or [0, 100, 110, 120, 130, 140, 150, 300, 500]
    with open(path, encoding="ascii") as file:
        levels = [int(digit) for digit in file.read() if digit in "0123"]
    print("%9s  %-25s  %s" % ("left edge", "first eight clocks drawn", "the report: item and event, up to the first address"))
    for edge in edges:
        print("%9d  %-25s  %s" % (edge, first_eight_clocks(levels[edge:]), reported(levels[edge:], edge)))


main()
