#!/usr/bin/env python3
"""Converts wire records between items text (digits 0 to 3), sigrok's binary form and VCD.

    convert.py [OPTIONS] FROM TO INPUT OUTPUT          FROM and TO: items, binary, vcd; - is standard input or output

    items     digits 0 to 3 (2 * SCL + SDA), spaces and newlines skipped
    binary    sigrok's "binary": a byte for each sample, a bit for each channel
    vcd       value change dump; INPUT is sampled every PERIOD of its time units from its first time on, or with --changes
              once for each time at which SCL or SDA changes; a last time without any change ends the record and is not
              sampled, as sigrok has it. OUTPUT has one time unit for each item, and such a last time

    --scl, --sda            of INPUT; binary: the channel's number (1 and 0 unless given); vcd: the signal's name (SCL and
                            SDA unless given)
    --out-scl, --out-sda    the same of OUTPUT
    --period N              time units from item to item of a VCD (1 unless given)
    --changes               items only where a line changes; between them nothing can happen
    --timescale T           the time unit written to a VCD ("1 us" unless given)

What is wrong with a file is told on standard error, the exit status is 1, and nothing is written. A file without a single
item is wrong; so is a VCD in which a line is x or z or not known when it is sampled, or whose last line is not ended. A VCD
cut exactly between two of its lines is a shorter VCD: nothing in the form tells it.
"""
import argparse
import os
import re
import sys

sys.dont_write_bytecode = True
sys.path.insert(0, os.path.join(os.path.dirname(os.path.realpath(__file__)), "..", "command"))
from outputs import Output  # noqa: E402
from readers import channels, reader_of_data  # noqa: E402
from records import Bad, Runs  # noqa: E402
from vcd import TIMESCALE  # noqa: E402

LARGEST = 100_000_000  # items


# ---- Reading: the command's readers ----

def expanded(runs, levels):
    """The items of runs, behind those that there are; not more than can be held."""
    for level, count in zip(runs.levels, runs.counts):
        if len(levels) + count > LARGEST:
            raise Bad(f"more than {LARGEST} items, the most that are taken; choose a longer period or --changes")
        levels += bytes([level]) * count


def changed(runs, levels):
    """The same, but an item only where the level changes."""
    for level in runs.levels:
        if not levels or levels[-1] != level:
            levels.append(level)


def levels_of(form, data, options):
    """The levels of a file in this form; there has to be at least one."""
    if not data:
        raise Bad("the file is empty")
    levels = bytearray()
    for piece in reader_of_data(data, form, options).pieces():
        if isinstance(piece, Runs):
            (changed if options.changes else expanded)(piece, levels)
        else:
            levels += piece.levels
    if not levels:
        raise Bad("there is no item in it")
    return bytes(levels)


# ---- Writing ----

def items_out(levels, _):
    text = levels.translate(bytes.maketrans(b"\0\1\2\3", b"0123"))
    return b"".join(text[at:at + 96] + b"\n" for at in range(0, len(text), 96))


def binary_out(levels, options):
    scl, sda = channels(options.out_scl, options.out_sda)
    table = bytes((level >> 1 & 1) << scl | (level & 1) << sda for level in range(4)) + bytes(252)
    return levels.translate(table)


def vcd_out(levels, options):
    """The changes at the items that bring them, and the number of items as the last time."""
    names = (options.out_scl or "SCL", options.out_sda or "SDA")
    if names[0] == names[1] or not all(re.match(r"[!-~]+\Z", name) for name in names):
        raise Bad(f"{names[0]} and {names[1]} are no two names for signals")
    if not TIMESCALE.match(options.timescale):
        raise Bad(f"{options.timescale} is no time unit")
    lines = ["$version wherryoar $end", f"$timescale {options.timescale} $end", "$scope module wire $end",
             f"$var wire 1 ! {names[0]} $end", f'$var wire 1 " {names[1]} $end', "$upscope $end", "$enddefinitions $end"]
    before = None
    for item, level in enumerate(levels):
        if level != before:
            changed = [f"{level >> 1}!"] if before is None or (before ^ level) & 2 else []
            changed += [f'{level & 1}"'] if before is None or (before ^ level) & 1 else []
            lines.append(" ".join([f"#{item}"] + changed))
        before = level
    lines.append(f"#{len(levels)}")
    return ("\n".join(lines) + "\n").encode("ascii")


# ---- The command ----

def converted(options, data):
    """The bytes of the output; Bad where there are none."""
    if options.period < 1:
        raise Bad(f"a period of {options.period}: it is at least 1")
    if options.changes:
        options.period = 1  # so that no change falls between two items
    levels = levels_of(options.source, data, options)
    return {"items": items_out, "binary": binary_out, "vcd": vcd_out}[options.target](levels, options)


def write(path, data):
    """All of it or nothing."""
    if path == "-":
        sys.stdout.buffer.write(data)
        sys.stdout.buffer.flush()
        return
    with Output(path) as file:
        file.write(data)


def parser():
    p = argparse.ArgumentParser(description="Converts wire records between items text, sigrok's binary form and VCD.",
                                epilog="Exit status: 0 converted, 1 something is wrong with a file, 2 the call is wrong.")
    channel = "binary: the channel's number, 0 to 7 (%s unless given); vcd: the signal's name (%s unless given)"
    p.add_argument("--scl", metavar="NAME", help="SCL of INPUT; " + channel % ("1", "SCL"))
    p.add_argument("--sda", metavar="NAME", help="SDA of INPUT; " + channel % ("0", "SDA"))
    p.add_argument("--out-scl", metavar="NAME", help="SCL of OUTPUT, in the same way")
    p.add_argument("--out-sda", metavar="NAME", help="SDA of OUTPUT, in the same way")
    p.add_argument("--period", type=int, default=1, metavar="N", help="time units of a VCD from item to item, 1 or more (1)")
    p.add_argument("--changes", action="store_true", help="of a VCD: items only where a line changes")
    p.add_argument("--timescale", default="1 us", metavar="T", help="the time unit of a VCD that is written (1 us)")
    forms = ("items", "binary", "vcd")
    p.add_argument("source", metavar="FROM", choices=forms, help="what INPUT is: items, binary or vcd")
    p.add_argument("target", metavar="TO", choices=forms, help="what OUTPUT is to be: items, binary or vcd")
    p.add_argument("input", metavar="INPUT", help="the file to read; - is standard input")
    p.add_argument("output", metavar="OUTPUT", help="the file to write; - is standard output")
    return p


def main(arguments):
    options = parser().parse_args(arguments)
    try:
        if options.input == "-":
            data = sys.stdin.buffer.read()
        else:
            with open(options.input, "rb") as file:
                data = file.read()
        write(options.output, converted(options, data))
    except Bad as wrong:
        print(f"convert.py: {wrong.of or options.input}: {wrong}", file=sys.stderr)
        return 1
    except OSError as wrong:
        print(f"convert.py: {wrong}", file=sys.stderr)
        return 1
    return 0


if __name__ == "__main__":
    sys.exit(main(sys.argv[1:]))
