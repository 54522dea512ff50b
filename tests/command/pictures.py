#!/usr/bin/env python3
"""Tests the command's pictures: the lanes VCD read back, the SVG and the text as they are stored, and the part that they show.

    pictures.py OUT WIRES      WIRES is a folder of wire records as digits; OUT one for files
"""
import itertools
import os
import random
import re
import struct
import subprocess
import sys
import xml.etree.ElementTree

from common import COMMAND, HERE, csv_text, digits, expect, finish, get, put, record, show, vcd_text

LONG = "i S 42+ 05+ 1C+ 2D+ P i S 42+ 05+ S 43+ 1C+ 2D- P i " * 30
MODEL = ["--add", "30", "--n", "32"]


# ---- The lanes, told by the C program itself ----

def lines_of(stream, add, *file, most=2**64 - 1):
    """What the program prints for a stream, with the lanes of every item."""
    line = [*COMMAND.stream.program(COMMAND.HERE), add, "32", "FF", "01", "-", *file]
    stream = b"w" + struct.pack("<QQQ", 0, 2**64 - 1, most) + stream + b"e"
    return subprocess.run(line, input=stream, stdout=subprocess.PIPE, check=True).stdout.decode().splitlines()


def words_of(levels):
    """The program's word for each item of a record, without what no lane shows."""
    done = lines_of(b"r" + struct.pack("<I", len(levels)) + levels, "30")
    changes = {int(fields[1]): int(fields[4], 16) for fields in (row.split() for row in done if row.startswith("L"))}
    found = []
    for item in range(len(levels)):
        found.append(changes.get(item, found[-1] if found else None))
    return found


def lanes_of(word, level):
    """The lanes of a word and a level by their names, as include/wherryoar.h places them."""
    bits = {"SDA": level, "SCL": level >> 1, "pulls": word >> 2, "held": word >> 3, "BF": word >> 8, "SSPIF": word >> 16,
            "SSPOV": word >> 18, "called": word >> 22, "stored": word >> 23, "conflict": word >> 26}
    bits.update({f"phase[{bit}]": word >> 4 + bit for bit in range(4)})
    bits.update({f"pointer[{bit}]": word >> 32 + bit for bit in range(8)})
    return {name: value & 1 for name, value in bits.items()}


def read_by_sigrok(path):
    """Every sample of a VCD as sigrok-cli reads it: a dictionary of its signals for each."""
    line = ["sigrok-cli", "-I", "vcd", "-i", path, "-O", "csv"]
    text = subprocess.run(line, check=True, stdout=subprocess.PIPE).stdout.decode()
    names = re.search(r"; Channels \(\d+/\d+\): (.*)", text).group(1).split(", ")
    rows = [line.split(",") for line in text.splitlines() if re.match(r"[01](,[01])*\Z", line)]
    return [dict(zip(names, map(int, row))) for row in rows]


def lanes_back(out, wires):
    """The lanes of a record, read back by sigrok sample for sample, and by our own reader as the record that it was."""
    for name in ("brief_example", "read_cut_short", "bench_4"):
        path = os.path.join(wires, name + ".txt")
        levels = bytes(int(digit) for digit in get(path).decode() if digit in "0123")
        target = os.path.join(out, name + ".vcd")
        first = show(path, *MODEL, "--rate", "1GHz", "--lanes", target)
        wanted = [lanes_of(word, level) for word, level in zip(words_of(levels), levels)]
        expect(first.status == 0 and read_by_sigrok(target) == wanted, f"{name}: its lanes read by sigrok")
        again = show(target, *MODEL)
        expect(again.out == first.out, f"{name}: its lanes read by the command")


def lanes_times(out):
    """The time unit is the input's, or a nanosecond; a window has its own times, not from 0 on."""
    levels = record("i S 42+ 05+ 1C+ P i")
    target = os.path.join(out, "times.vcd")
    cases = [("a.vcd", vcd_text(levels, timescale="10 us", first=30, step=7), ["--period", "7"], "10 us", 7, 30),
             ("b.txt", digits(levels), [], "1 ns", 1, 0), ("c.txt", digits(levels), ["--rate", "1MHz"], "1 ns", 1000, 0),
             ("d.csv", csv_text(levels, "Time,SCL,SDA", "{time},{scl},{sda}", first=-0.5), [], "1 ns", 1000, 0),
             ("e.txt", digits(levels), ["--rate", "4GHz"], "1 ps", 250, 0),
             ("f.txt", digits(levels), ["--rate", "1000GHz"], "1 ps", 1, 0),
             ("g.txt", digits(levels), ["--rate", "1"], "1 ns", 10**9, 0),
             ("h.txt", digits(levels), ["--rate", "1.00000000000000000001MHz"], "1 ns", 1000, 0)]
    for name, data, options, unit, step, first in cases:
        done = show(put(out, name, data), "--add", "42", *options, "--lanes", target)
        text = get(target).decode()
        start = levels.index(2)
        expect(done.status == 0 and f"$timescale {unit} $end" in text, f"{name}: its unit")
        expect(f"\n#{first + start * step} 0B" in text, f"{name}: its times")
        times = [int(time) for time in re.findall(r"(?m)^#(\d+)", text)]
        end = first + len(levels) * step if name != "d.csv" else times[-2] + 1
        expect(times == sorted(set(times)) and times[-1] == end, f"{name}: its end {times[-2:]}")
        again = show(target, "--add", "42", "--period", str(step))
        rows = [[row.split()[0], *row[28:].split()] for row in done.rows()]
        expect([[row.split()[0], *row[28:].split()] for row in again.rows()] == rows, f"{name}: read again")
    show(put(out, "b.txt", digits(levels)), "--add", "42", "--lanes", target, "--from", "40", "--to", "60")
    times = [int(time) for time in re.findall(r"(?m)^#(\d+)", get(target).decode())]
    expect(times[0] == 40 and times[-1] == 60 and all(40 <= time <= 60 for time in times), f"a window: {times}")


def lanes_clock(out):
    """Times by a clock are the nearest whole ones, however large: so many items from one change to the next, at random."""
    chance = random.Random(5)
    for _ in range(40):
        parts = chance.randrange(1, 2**chance.randrange(1, 31))
        step = chance.randrange(1, 2**chance.randrange(2, 60))
        first = chance.randrange(2**chance.randrange(1, 60))
        most = min(2**63, (2**64 - first) * parts // step // 70)  # so that the last time fits
        counts = [chance.randrange(1, 2**chance.randrange(2, 64) + 2) % most + 1 for _ in range(60)]
        path = put(out, "clock.vcd", "")
        stream = b"v" + struct.pack("<IBQQQ", 1, 1, first, step, parts)
        stream += b"k" + struct.pack("<I", 60) + b"\3\1" * 30 + b"".join(struct.pack("<Q", count) for count in counts)
        lines_of(stream, "42", path)
        items = [sum(counts[:at]) for at in range(61)]
        wanted = [first + (2 * item * step + parts) // (2 * parts) for item in items]
        found = [int(time) for time in re.findall(rb"#(\d+)", get(path))]
        expect(found == sorted(set(wanted)), f"first {first} step {step}/{parts}: {counts}")


def lanes_of_runs(out):
    """Runs of a VCD, which are not drawn item by item, have the lanes that their items have; also from the middle of one on."""
    levels = record("i S 42+ 05+ 1C+ P i S 43+ 1C+ FF- P S A0+ 00+ P i", 60, 40)
    parts = [bytes(run) for _, run in itertools.groupby(levels)]
    together = b"k" + struct.pack("<I", len(parts)) + bytes(part[0] for part in parts)
    together += b"".join(struct.pack("<Q", len(part)) for part in parts)
    apart = b"r" + struct.pack("<I", len(levels)) + levels
    expect(lines_of(together, "42") == lines_of(apart, "42"), "every line of the program")
    few = b"w" + struct.pack("<QQQ", 0, 50, 5) + apart + b"w" + struct.pack("<QQQ", 0, 2**64 - 1, 5) + apart
    told = [line.split()[0] for line in lines_of(few, "42", most=0)]
    expect(told.count("L") == 5 and told.count("W") == 3, f"no more lines than are asked for: {told.count('L')}")
    single, runs = put(out, "single.txt", digits(levels)), put(out, "runs.vcd", vcd_text(levels, timescale="1 ns"))
    for options in ([], ["--from", "700", "--to", "900"], ["--from", "845", "--to", "999999"], ["--from", "5", "--to", "30"]):
        files = [os.path.join(out, name) for name in ("single.vcd", "of_runs.vcd")]
        done = [show(path, "--add", "42", "--lanes", target, *options) for path, target in zip((single, runs), files)]
        expect(done[0].status == done[1].status == 0 and get(files[0]) == get(files[1]), f"runs {options}: see {files}")
        begin = f"#{options[1] if options else 0} "
        text = get(files[0]).decode().split("$enddefinitions $end\n")[1]
        expect(text.startswith(begin) and len(text.split("\n")[0].split()) == 23, f"its first line: {text[:80]}")


# ---- SVG and text ----

def stored_pictures(out, wires):
    """A small record's SVG and text, as they are stored."""
    path, target = os.path.join(wires, "brief_combined.txt"), os.path.join(out, "brief_combined.svg")
    memory = put(out, "memory", bytes(32))
    done = show(path, "--add", "30", "--memory", memory, "--rate", "400kHz", "--svg", target, "--text")
    put(out, "brief_combined.text", done.out)
    expect(done.status == 0 and get(target) == get(os.path.join(HERE, "brief_combined.svg")), f"the SVG: see {target}")
    expect(done.out == get(os.path.join(HERE, "brief_combined.text")).decode(), f"the text: see {out}/brief_combined.text")


def labels(path):
    """The texts of an SVG; that it is one at all is checked with it."""
    root = xml.etree.ElementTree.parse(path).getroot()
    return [text.text for text in root.iter("{http://www.w3.org/2000/svg}text")]


def contents(out):
    """What differs is red in the SVG and a line in the text; a name that is no XML is none of its harm."""
    target = os.path.join(out, "red.svg")
    path = put(out, "a & <b>.txt", digits(record("i S 42+ 05+ 1C- P S 42+ 05+ S 43+ 1D- P S A0- .010 P i")))
    done = show(path, "--add", "42", "--svg", target, "--text")
    texts = labels(target)
    for label in ("42 A", "05 A", "1C N", "43 A", "1D N", "A0 N", "address 42", "sending 1C", "S", "P", "06"):
        expect(label in texts, f"the label {label}: {texts}")
    expect(texts[0].startswith("a & <b>.txt, ADD 42, items 0 to "), f"the head: {texts[0]}")
    expect(get(target).count(b'class="bad"') == 2 and get(target).count(b'class="clash"') == 2, "what differs, in the SVG")
    conflict = "".join(re.findall(r"(?m)^  conflict  (.*)", done.out))
    expect(done.status == 1 and conflict.count("#") == 4, f"what differs, in the text: {conflict}")


def windows(out):
    """The part that is drawn: the whole of a short record, the first part of a long one, or what is asked for."""
    target = os.path.join(out, "window.svg")
    short = put(out, "short.txt", digits(record("i S 42+ 05+ P i")))
    long = put(out, "long.txt", digits(record(LONG)))
    done = show(short, "--add", "42", "--svg", target)
    expect("items 0 to 232" in labels(target)[0] and done.err == "", f"a short record: {done.err} {labels(target)[0]}")
    for begin in (8000, 20000):
        show(long, "--add", "42", "--svg", target, "--from", str(begin), "--to", str(begin + 400))
        texts = labels(target)
        expect(f"items {begin} to {begin + 400}" in texts[0] and 4 <= sum(text[2:] in (" A", " N") for text in texts) <= 6 and
               "data" not in texts, f"far behind: {texts}")
    done = show(long, "--add", "42", "--svg", target, "--text")
    found = re.search(r"the picture is of items (\d+) to (\d+) of (\d+); --from and --to choose another part", done.err)
    expect(found and int(found.group(2)) < int(found.group(3)), f"a long record: {done.err}")
    expect(found and f"items {found.group(1)} to {found.group(2)}" in labels(target)[0], f"its part: {labels(target)[0]}")
    for options, part in ((["--from", "100", "--to", "300"], (100, 300)), (["--to", "300"], (0, 300)),
                          (["--from", "100us", "--to", "0.3 ms", "--rate", "1MHz"], (100, 300)),
                          (["--from", "100", "--to", "150us", "--rate", "2MHz"], (100, 300)),
                          (["--from", "41.667ns", "--to", "12.5us", "--rate", "24MHz"], (1, 300))):
        done = show(long, "--add", "42", "--svg", target, *options)
        expect(done.status == 0 and done.err == "" and "items %d to %d" % part in labels(target)[0], f"{options}: {done.err}")
    timed = put(out, "timed.csv", csv_text(record(LONG), "Time,SCL,SDA", "{time},{scl},{sda}"))
    done = show(timed, "--add", "42", "--svg", target, "--from", "1.1ms", "--to", "1300us")
    expect("items 1100 to 1300" in labels(target)[0] and any("1.1" in text and "ms" in text for text in labels(target)),
           f"times of a table: {labels(target)}")
    idle = put(out, "idle.vcd", vcd_text(bytes([3]) * 1000 + record("i S 42+ 05+ P i") + bytes([3]) * 1000, step=10**6))
    done = show(idle, "--add", "42", "--svg", target, "--text")
    expect("the picture is of items " in done.err and "items 0 to" not in labels(target)[0], f"a long time before: {done.err}")


def text_columns(out):
    """Many samples a clock are put together in a column, so that the same picture comes."""
    words = "i S 42+ 05+ 1C+ P i"
    pictures = []
    for length in (4, 40, 4000):
        path = put(out, "columns.txt", digits(record(words, length, length)))
        done = show(path, "--add", "42", "--text", "--to", str(length * 60))
        expect(f"a column is {length // 2} items" in done.out, f"columns of {length}")
        lanes = re.findall(r"(?m)^  (?:SCL|SDA|phase|SSPIF|held|pulls|BF|pointer) .*", done.out)
        pictures.append(lanes)
    spiked = bytearray(record(words, 4000, 4000))
    spiked[100] = spiked[9000] = 0  # one item each
    path = put(out, "spiked.vcd", vcd_text(bytes(spiked) + bytes([3]) * 10**6, timescale="1 ns"))
    done = show(path, "--add", "42", "--text")
    expect("a column is 2000 items" in done.out and "--text goes up to" not in done.err, f"spikes: {done.err}")
    expect(pictures[0] == pictures[1] == pictures[2] and len(pictures[0]) > 8, "the same picture")


def main(arguments):
    if len(arguments) != 2:
        print(__doc__, file=sys.stderr)
        return 2
    out, wires = arguments
    lanes_back(out, wires)
    lanes_times(out)
    lanes_clock(out)
    lanes_of_runs(out)
    stored_pictures(out, wires)
    contents(out)
    windows(out)
    text_columns(out)
    return finish()


if __name__ == "__main__":
    sys.exit(main(sys.argv[1:]))
