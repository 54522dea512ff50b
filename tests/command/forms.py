#!/usr/bin/env python3
"""Tests the command's readers: one record in every form gives one table, with the times that the form tells.

    forms.py OUT WIRES      WIRES is a folder of wire records as digits; OUT one for files
"""
import argparse
import contextlib
import os
import random
import re
import subprocess
import sys
import threading

from common import COMMAND, counts, csv_text, digits, expect, finish, get, put, show, sr_bytes, vcd_text

MODEL = ["--add", "30", "--general-call"]


def without_times(text):
    return re.sub(r"(?m)^( *\d+) +(?:-|-?[\d.]+ [num]?s)  ", r"\1  ", text)


class Forms:
    """The record that is written in every form, and the table that it gives at a microsecond an item."""

    def __init__(self, out, path):
        self.out = out
        text = get(path).decode()
        self.levels = bytes(int(digit) for digit in text if digit in "0123")
        done = show(path, *MODEL, "--rate", "1MHz")
        self.table = done.out
        expect(done.status == 0 and len(done.rows()) > 30, f"{path}: {done.err}")

    def same(self, name, data, *options, timed=True):
        """The same table from a file with this content, its times too unless it has none."""
        done = show(put(self.out, name, data), *MODEL, *options)
        ours, theirs = (done.out, self.table) if timed else (without_times(done.out), without_times(self.table))
        expect(done.status == 0 and ours == theirs, f"{name} {options}: {done.status} {done.err}")


def texts(forms):
    """Digits, with everything that may stand between them."""
    text = digits(forms.levels)
    forms.same("plain.txt", text, "--rate", "1MHz")
    forms.same("windows.txt", text.replace("\n", "\r\n"), "--rate", "1000kHz")
    forms.same("spaced.vcd", " ".join(text), "--rate", "1000000")
    forms.same("mark.txt", "\ufeff" + text, "--as", "items", "--rate", "1M")
    forms.same("untimed.txt", text, timed=False)


def binary(forms):
    """A byte for each sample, the lines in two of its bits; other bits are other channels."""
    levels = forms.levels
    forms.same("plain.bin", levels, "--as", "binary", "--rate", "1MHz")
    forms.same("busy.bin", bytes(level | 0xA4 for level in levels), "--as", "binary", "--rate", "1MHz")
    moved = bytes((level >> 1) << 6 | (level & 1) << 3 | 0x81 for level in levels)
    forms.same("moved.bin", moved, "--as", "binary", "--scl", "6", "--sda", "3", "--rate", "1MHz")
    forms.same("letters.bin", bytes(level | 0x30 for level in levels), "--as", "binary", "--rate", "1MHz")


def sigrok_files(forms):
    """.sr files of ours: wide samples, many parts, names and numbers; and one without a sample rate."""
    levels = forms.levels
    forms.same("plain.sr", sr_bytes(levels))
    forms.same("no_ending", sr_bytes(levels, parts=12))
    forms.same("wide.sr", sr_bytes(levels, size=3, scl=17, sda=2, parts=3))
    forms.same("beside.sr", sr_bytes(levels, size=2, scl=9, sda=15), "--as", "sr")
    forms.same("named.sr", sr_bytes(levels, names=("my clock", "DATA")), "--scl", "my clock", "--sda", "data")
    forms.same("numbered.sr", sr_bytes(levels, names=("x", "y"), scl=4, sda=6), "--scl", "5", "--sda", "7")
    forms.same("untimed.sr", sr_bytes(levels, rate=None), "--rate", "1MHz")
    forms.same("untimed2.sr", sr_bytes(levels, rate=None), timed=False)


def tables(forms):
    """CSV: separators, headers or none, columns by name and number, times by name and by their look."""
    levels, rate = forms.levels, ["--rate", "1MHz"]
    forms.same("plain.csv", csv_text(levels), *rate)
    forms.same("swapped.csv", csv_text(levels, "sda,other,scl", "{sda},7,{scl}"), *rate)
    forms.same("bare.csv", csv_text(levels, None), "--scl", "1", "--sda", "2", *rate)
    forms.same("numbered.csv", csv_text(levels, None, "{sda},0,{scl},x"), "--scl", "3", "--sda", "1", *rate)
    for name, separator in (("semicolon", ";"), ("tab", "\t"), ("bar", "|"), ("space", " ")):
        row = separator.join(("{scl}", "{sda}"))
        forms.same(name + ".csv", csv_text(levels, separator.join(("SCL", "SDA")), row), *rate)
        forms.same(name + "_bare.csv", csv_text(levels, None, row), "--scl", "1", "--sda", "2", *rate)
    forms.same("windows.csv", "\ufeff" + csv_text(levels, '"SCL","SDA"', '"{scl}", {sda}', end="\r\n"), *rate)
    forms.same("remarks.csv", csv_text(levels, "; a remark\n\nSCL,SDA", "{scl},{sda}") + "\n; the end\n", *rate)
    forms.same("unended.csv", csv_text(levels).rstrip("\n"), *rate)
    forms.same("spaces.csv", csv_text(levels, "Channel 0 , Channel 1", "{scl}, {sda}"), "--scl", "Channel 0", "--sda",
               "channel 1", *rate)
    forms.same("counted.csv", csv_text(levels, "n,SCL,SDA", "{item},{scl},{sda}"), *rate)
    forms.same("latin.csv", csv_text(levels, "Gr\u00f6\u00dfe,SCL,SDA", "1,{scl},{sda}").encode("latin-1"), *rate)


def timed_tables(forms):
    """CSV with a column of times: in each unit, by its look alone, with a comma for the point, and at changes only."""
    levels = forms.levels
    for head, step in (("Time [s]", 1e-6), ("time (ms)", 1e-3), ("Time[us]", 1), ("t_ns", 1000), ("TIMESTAMP", 1e-6)):
        forms.same("timed.csv", csv_text(levels, head + ",SCL,SDA", "{time},{scl},{sda}", step))
    forms.same("look.csv", csv_text(levels, None, "{time},{sda},{scl}"), "--scl", "3", "--sda", "2")
    comma = csv_text(levels, None, "{time};{scl};{sda}").replace(".", ",")
    forms.same("comma.csv", "Zeit;SCL;SDA\n" + comma)
    before = show(put(forms.out, "before.csv", csv_text(levels, "Time,SCL,SDA", "{time},{scl},{sda}", first=-0.000010)), *MODEL)
    expect(before.rows()[0].split() == ["5", "-5.000", "us", "Start"], f"times before 0: {before.rows()[:1]}")
    changes = [(item, level) for item, level in enumerate(levels) if item == 0 or level != levels[item - 1]]
    text = "Time [s],SCL,SDA\n" + "".join(f"{item / 1e6:.6f},{level >> 1},{level & 1}\n" for item, level in changes)
    done = show(put(forms.out, "changes.csv", text), *MODEL)
    times = [re.findall(r"[\d.]+ us", row) for row in done.rows()]
    expect(done.status == 0 and times == [re.findall(r"[\d.]+ us", row) for row in forms.table.splitlines()[1:-1]],
           "rows at changes alone have their own times")


def vcds(forms):
    """VCD: times from any beginning, periods, names in scopes and with spaces, other signals, vectors, UTF-8."""
    levels = forms.levels
    text = vcd_text(levels)
    forms.same("plain.vcd", text)
    forms.same("step.vcd", vcd_text(levels, timescale="1ns", step=1000), "--period", "1000")
    forms.same("tens.vcd", vcd_text(levels, timescale="100 ns", step=10), "--period", "10")
    forms.same("no_unit.vcd", text.replace("$timescale 1 us $end\n", ""), timed=False)
    forms.same("names.vcd", vcd_text(levels, ("my clock", "scl data")), "--scl", "my clock", "--sda", "SCL data")
    forms.same("date.vcd", text.replace("today", "le 3 ao\u00fbt"))
    others = text.replace("$upscope", "$var wire 8 # bus [7:0] $end\n$var real 64 $ volts $end\n$upscope", 1)
    forms.same("others.vcd", re.sub(r"(?m)^(#\d*7)$", r"\1 b1010 # r3.3 $\n$comment a remark $end", others))
    twice = text.replace("$upscope $end", "$scope module in $end\n$var wire 1 % SCL $end\n$upscope $end\n$upscope $end", 1)
    forms.same("scopes.vcd", twice, "--scl", "top.SCL")
    late = show(put(forms.out, "late.vcd", vcd_text(levels, first=7000)), *MODEL)
    expect(late.rows()[0].split() == ["5", "7.005000", "ms", "Start"], f"a VCD that begins late: {late.rows()[:1]}")
    slow = show(put(forms.out, "slow.vcd", vcd_text(levels, timescale="1 ps", step=10**12)), *MODEL)
    expect(slow.status == 0 and slow.rows()[0].split() == ["5000000000000", "5.000000000", "s", "Start"],
           f"a VCD of a long time: {slow.rows()[:1]}")


def styled(chance, levels):
    """A VCD of some levels, at random in all that may differ between two of one record."""
    others = chance.choice([[""], ["", "b101 %", "1#", "b0\n#", "0a#7", "0999", "r1.5 %", "$comment a\n#3 b $end",
                                   "sidle %"]])
    gap, lines, before = chance.choice("\n "), [], None
    for item, level in enumerate(levels):
        changes = [chance.choice(["{}{}", "{}{}", "b{} {}"]).format(level >> bit & 1, code) for bit, code in ((1, "!"), (0, '"'))
                   if before is None or (level ^ before) >> bit & 1 or chance.random() < 0.1]
        if level != before or chance.random() < 0.2:
            words = [f"#{item}"] * chance.choice([1, 1, 1, 2]) + changes + [chance.choice(others)]
            lines.append(gap.join(word for word in words if word))
        before = level
    lines += [f"#{len(levels)}"] * chance.choice([1, 2])
    text = vcd_text(levels).split("#", 1)[0] + "\n".join(lines) + "\n"
    return text.replace("\n", chance.choice(["\n", "\r\n"])).encode("ascii")


def vcds_at_random(forms):
    """VCDs in all styles, read in parts of all sizes, give the levels that they were made of."""
    chance, records = random.Random(4), sys.modules["records"]
    plain, kept = argparse.Namespace(scl=None, sda=None, period=1), (records.HEAD, records.PART)
    for _ in range(400):
        begin = chance.randrange(len(forms.levels))
        levels = forms.levels[begin:begin + chance.randrange(1, 200)]
        text = styled(chance, levels)
        records.HEAD, records.PART = chance.choice([40, kept[0]]), chance.choice([40, 100, kept[1]])
        pieces = COMMAND.readers.reader_of_data(text, "vcd", plain).pieces()
        found = b"".join(bytes([level]) * count for piece in pieces for level, count in zip(piece.levels, piece.counts))
        expect(found == levels, f"parts of {records.PART} bytes: {text!r}")
    records.HEAD, records.PART = kept


def pipes(forms):
    """A capture that comes through a pipe; a .sr cannot, since a zip is read from its end."""
    fifo = os.path.join(forms.out, "fifo")
    os.mkfifo(fifo)
    for data, wanted in ((vcd_text(forms.levels).encode(), None), (csv_text(forms.levels).encode(), None),
                         (sr_bytes(forms.levels), "a .sr has to be a file, not a pipe")):
        writer = threading.Thread(target=fill, args=(fifo, data))
        writer.start()
        done = show(fifo, *MODEL)
        writer.join()
        fine = done.status == 2 and wanted in done.err if wanted else without_times(done.out) == without_times(forms.table)
        expect(fine, f"a pipe: {done.status} {done.err}")
    os.remove(fifo)


def fill(path, data):
    with contextlib.suppress(BrokenPipeError), open(path, "wb") as file:
        file.write(data)


def by_sigrok(forms):
    """What sigrok-cli itself writes, in every form that it has for levels."""
    out = forms.out
    paths = {name: os.path.join(out, "theirs" + name) for name in (".bin", ".sr", ".vcd")}
    put(out, "theirs.bin", forms.levels)
    own = ["--scl", "1", "--sda", "0"]

    def sigrok(*words):
        return subprocess.run(["sigrok-cli", *words], check=True, stdout=subprocess.PIPE).stdout

    sigrok("-I", "binary:numchannels=2:samplerate=1000000", "-i", paths[".bin"], "-o", paths[".sr"])
    forms.same("copy.sr", get(paths[".sr"]), *own)
    put(out, "theirs.vcd", sigrok("-i", paths[".sr"], "-O", "vcd"))
    forms.same("copy.vcd", get(paths[".vcd"]), *own)
    for form in ("csv", "csv:label=channel", "csv:value=;", "csv:value=\t"):
        forms.same("theirs.csv", sigrok("-i", paths[".sr"], "-O", form), *own)
    forms.same("headless.csv", sigrok("-i", paths[".sr"], "-O", "csv:header=false"), "--scl", "2", "--sda", "1", "--rate", "1MHz")
    forms.same("learned.csv", sigrok("-I", "vcd", "-i", paths[".vcd"], "-O", "csv"), *own)
    forms.same("timed.csv", sigrok("-i", paths[".sr"], "-O", "csv:time=true"), *own, timed=False)


def main(arguments):
    if len(arguments) != 2:
        print(__doc__, file=sys.stderr)
        return 2
    forms = Forms(arguments[0], os.path.join(arguments[1], "bench_4_general_call.txt"))
    for test in (texts, binary, sigrok_files, tables, timed_tables, vcds, vcds_at_random, pipes, by_sigrok):
        before = counts["checks"]
        test(forms)
        expect(counts["checks"] > before, test.__name__)
    return finish()


if __name__ == "__main__":
    sys.exit(main(sys.argv[1:]))
