#!/usr/bin/env python3
"""Tests tools/convert.py: round trips, files that are wrong, a VCD cut at every byte, and files changed at random.

    convert_test.py OUT [CAPTURE..]      OUT is a folder for files; CAPTURE are wire records, a byte of 0 to 3 for each level
"""
import contextlib
import io
import os
import random
import shutil
import subprocess
import sys

HERE = os.path.dirname(os.path.abspath(__file__))
TOOL = os.path.join(HERE, "..", "tools", "convert.py")
sys.path.insert(0, os.path.join(HERE, "..", "tools"))
sys.path.insert(0, os.path.join(HERE, "command"))
import convert  # noqa: E402
from common import expect, finish  # noqa: E402

HEAD = b"$timescale 1 us $end\n$var wire 1 ! SCL $end\n$var wire 1 # SDA $end\n$enddefinitions $end\n"

# What is wrong, the form, the file, and words that the message must have.
WRONG = [
    ("empty items", "items", b"", "empty"),
    ("empty binary", "binary", b"", "empty"),
    ("empty VCD", "vcd", b"", "empty"),
    ("a zip as binary", "binary", b"PK\3\4" + bytes(40), "looks like a zip"),
    ("digits as binary", "binary", b"3202\n", "looks like digits"),
    ("a VCD as binary", "binary", HEAD + b"#0 1! 1#\n", "looks like a VCD"),
    ("a table as binary", "binary", b"SCL,SDA\n1,1\n", "looks like text"),
    ("no item", "items", b" \n \n", "no item"),
    ("a level above 3", "items", b"3234", "byte 3 is no item"),
    ("a letter", "items", b"32 x", "byte 3 is no item"),
    ("a handler call", "items", b"3202h", "item 4 is a handler call"),
    ("no VCD", "vcd", b"3202\n", "3202 has no $end"),
    ("no end of the header", "vcd", b"$var wire 1 ! SCL $end\n", "no $enddefinitions"),
    ("a section without its end", "vcd", b"$comment a b c\n", "$comment has no $end"),
    ("no SDA", "vcd", b"$var wire 1 ! SCL $end\n$enddefinitions $end\n#0 1!\n", "no signal SDA"),
    ("no SCL", "vcd", b"$var wire 1 ! SDA $end\n$enddefinitions $end\n#0 1!\n", "no signal SCL"),
    ("two SDA", "vcd", HEAD.replace(b"SCL", b"SDA") + b"#0 1! 1#\n", "two signals SDA"),
    ("a wide SCL", "vcd", HEAD.replace(b"1 !", b"8 !") + b"#0 1! 1#\n", "not one bit wide"),
    ("a short $var", "vcd", b"$var wire 1 $end\n$enddefinitions $end\n#0 1!\n", "a $var of 2 words"),
    ("x", "vcd", HEAD + b"#0 1! x#\n#5 1#\n", "SDA is x at time 0"),
    ("z", "vcd", HEAD + b"#0 1! 1#\n#5 Z!\n#6\n", "SCL is z at time 5"),
    ("no first value", "vcd", HEAD + b"#0 1!\n#5 1#\n", "SDA has no value at time 0"),
    ("time backwards", "vcd", HEAD + b"#7 1! 1#\n#3 0#\n", "backwards, from 7 to 3"),
    ("no time", "vcd", HEAD + b"1! 1#\n", "no time"),
    ("a time that is none", "vcd", HEAD + b"#-1 1! 1#\n", "#-1 is no time"),
    ("too long a time", "vcd", HEAD + b"#0 1! 1#\n#9000000000000000000 0#\n", "more than 100000000 items"),
    ("a value without identifier", "vcd", HEAD + b"#0 1! 1#\n#1 b1\n", "b1 has no identifier"),
    ("a value of two bits", "vcd", HEAD + b"#0 1! b10 #\n", "b10 is no value of one bit"),
    ("no value change", "vcd", HEAD + b"#0 1! 1#\n#1 hello\n", "hello is no value change"),
    ("the last line cut", "vcd", HEAD + b"#0 1! 1#\n#1 0", "cut short"),
    ("not ASCII", "vcd", HEAD + b"#0 1! 1#\n\xff\n", "not ASCII"),
]

def tool(*words):
    return subprocess.run([sys.executable, "-B", TOOL, *words], stdout=subprocess.PIPE, stderr=subprocess.PIPE, check=False)


def turned(source, target, data, *words):
    """A conversion inside this process; Bad where the data are wrong."""
    return convert.converted(convert.parser().parse_args([*words, source, target, "-", "-"]), data)


def put(path, data):
    with open(path, "wb") as file:
        file.write(data)


def get(path):
    with open(path, "rb") as file:
        return file.read()


def round_trips(levels, name):
    """Each form there and back, with the channels and names changed too."""
    items = turned("binary", "items", levels)
    expect(turned("items", "binary", items) == levels, f"{name}: items and back")
    vcd = turned("binary", "vcd", levels)
    expect(turned("vcd", "binary", vcd) == levels, f"{name}: VCD and back")
    expect(turned("binary", "vcd", turned("vcd", "binary", vcd)) == vcd, f"{name}: the VCD itself")
    other = turned("items", "binary", items, "--out-scl", "3", "--out-sda", "6")
    expect(other == bytes((level >> 1) << 3 | (level & 1) << 6 for level in levels), f"{name}: to other channels")
    expect(turned("binary", "items", other, "--scl", "3", "--sda", "6") == items, f"{name}: from other channels")
    noisy = bytes(byte | 0x85 for byte in other)
    expect(turned("binary", "items", noisy, "--scl", "3", "--sda", "6") == items, f"{name}: busy channels beside them")
    renamed = turned("binary", "vcd", levels, "--out-scl", "clk", "--out-sda", "d0", "--timescale", "10 ns")
    expect(turned("vcd", "items", renamed, "--scl", "clk", "--sda", "d0") == items, f"{name}: other names")
    changes = bytes(level for at, level in enumerate(levels) if at == 0 or level != levels[at - 1])
    expect(turned("vcd", "binary", vcd, "--changes") == changes, f"{name}: changes only")
    slow = turned("binary", "vcd", bytes(level for level in levels for _ in range(3)))
    expect(turned("vcd", "binary", slow, "--period", "3") == levels, f"{name}: a period of 3")


def command_line(out):
    """The same through files, and standard input and output."""
    path, back = os.path.join(out, "a.txt"), os.path.join(out, "b.vcd")
    put(path, b"32 0202\n1310233\n")
    done = tool("items", "vcd", path, back)
    expect(done.returncode == 0 and done.stderr == b"", "items to VCD by files")
    done = tool("vcd", "items", back, "-")
    expect(done.returncode == 0 and done.stdout == b"3202021310233\n", "VCD to standard output")
    done = tool("items", "binary", os.path.join(out, "is_not_there"), back)
    expect(done.returncode == 1 and done.stderr != b"", "a file that is not there")
    for words in (("--out-scl", "8"), ("--out-scl", "0"), ("--out-sda", "x")):
        done = tool(*words, "items", "binary", path, "-")
        expect(done.returncode == 1 and done.stdout == b"" and b"channel" in done.stderr, f"channels {words}")
    expect(tool("--period", "0", "items", "binary", path, "-").returncode == 1, "a period of 0")
    for words in (("items", "binary", path), ("items", "sr", path, "-"), ("--period", "x", "vcd", "items", back, "-")):
        expect(tool(*words).returncode == 2, f"wrong usage {words}")
    help_text = tool("--help").stdout.decode()
    expect(all(f"--{name} " in help_text for name in ("scl", "sda", "out-scl", "out-sda", "period", "timescale")), "help")
    expect(tool("--timescale", "soon", "items", "vcd", path, "-").returncode == 1, "a time unit that is none")


def wrong_files(out):
    """A clear message, exit status 1, and the output as it was: not there, or untouched."""
    path, target = os.path.join(out, "wrong"), os.path.join(out, "target")
    for name, form, data, words in WRONG:
        put(path, data)
        if os.path.exists(target):
            os.remove(target)
        done = tool(form, "binary", path, target)
        message = done.stderr.decode()
        expect(done.returncode == 1 and words in message and message.startswith("convert.py: ") and message.count("\n") == 1,
               f"{name}: {done.returncode} {message}")
        expect(not os.path.exists(target) and done.stdout == b"", f"{name}: something was written")
        put(target, b"before")
        try:
            turned(form, "binary", data)
            expect(False, f"{name}: taken")
        except convert.Bad:
            with contextlib.redirect_stderr(io.StringIO()):
                expect(convert.main([form, "binary", path, target]) == 1, f"{name}: status")
        expect(get(target) == b"before", f"{name}: the output was touched")
    expect(sorted(os.listdir(out)) == sorted({"wrong", "target", "a.txt", "b.vcd"}), "a file was left behind")


def last_times():
    """A last time is sampled if it brings a change, and with --changes every change counts, whatever the period."""
    changed = HEAD + b"#0 1! 1#\n#1 0#\n#2 1#\n#3 0#\n"
    expect(turned("vcd", "items", changed) == b"3232\n", "a change at the last time")
    expect(turned("vcd", "items", changed + b"#4\n") == b"3232\n", "a last time without a change")
    expect(turned("vcd", "items", changed, "--changes", "--period", "2") == b"3232\n", "changes between two items")
    expect(turned("vcd", "items", changed, "--period", "2") == b"33\n", "a period of 2")


def cut_everywhere():
    """A VCD cut at every byte is refused, or cut between two lines after its header: then it is a shorter record."""
    levels = bytes([3, 2, 0, 0, 2, 2, 0, 1, 3, 3, 1, 0, 2, 3, 3, 3])
    vcd = turned("binary", "vcd", levels)
    header = vcd.index(b"#0")
    taken = 0
    for at in range(len(vcd)):
        try:
            part = turned("vcd", "binary", vcd[:at])
        except convert.Bad:
            continue
        taken += 1
        expect(at > header and vcd[at - 1:at] == b"\n" and levels.startswith(part), f"a VCD cut at {at}")
    expect(0 < taken < vcd.count(b"\n"), "some cuts are shorter records")


def mangled(chance, data):
    """A file with a few bytes changed, dropped, doubled or put elsewhere."""
    data = bytearray(data)
    for _ in range(chance.randrange(1, 6)):
        at, kind = chance.randrange(len(data) + 1), chance.randrange(4)
        if kind == 0 and at < len(data):
            data[at] = chance.choice(b"01xzb#$! \n\0\xff") if chance.random() < 0.8 else chance.randrange(256)
        elif kind == 1:
            del data[at:at + chance.randrange(1, 12)]
        elif kind == 2:
            data[at:at] = data[at:at + chance.randrange(1, 30)]
        else:
            data[at:at] = bytes([chance.choice(b"01xzb#$! \n9")])
    return bytes(data)


def at_random(rounds):
    """Changed files are converted or refused; nothing else happens."""
    chance = random.Random(2)
    convert.LARGEST = 20000
    levels = bytes(chance.randrange(4) for _ in range(40))
    whole = {form: turned("binary", form, levels) for form in ("items", "binary", "vcd")}
    taken = refused = 0
    for _ in range(rounds):
        form = chance.choice(("items", "binary", "vcd", "vcd", "vcd"))
        data = mangled(chance, whole[form])
        words = ["--changes"] if chance.random() < 0.5 else []
        try:
            back = turned(form, "binary", data, *words)
            expect(len(back) > 0 and max(back) <= 3, f"levels of {data!r}")
            taken += 1
        except convert.Bad as wrong:
            expect(str(wrong) != "", "a message")
            refused += 1
        except Exception as other:  # anything else is a fault of the converter
            expect(False, f"{other!r} from {data!r}")
    expect(taken > 0 and refused > 0, "both happen")


def by_sigrok(out, captures):
    """sigrok's own VCD of a capture gives the capture back; sigrok reads our VCD as it reads the capture."""
    between, theirs, ours = (os.path.join(out, name) for name in ("between.sr", "theirs.vcd", "ours.vcd"))
    for path in captures:
        levels = get(path)
        form = "binary:numchannels=2:samplerate=1000000"
        subprocess.run(["sigrok-cli", "-I", form, "-i", path, "-o", between], check=True)
        subprocess.run(["sigrok-cli", "-i", between, "-O", "vcd", "-o", theirs], check=True)
        expect(turned("vcd", "binary", get(theirs), "--scl", "1", "--sda", "0") == levels, f"{path}: sigrok's VCD")
        put(ours, turned("binary", "vcd", levels))
        decoder = ["-A", "i2c=addr-data", "--protocol-decoder-samplenum", "-P"]
        first = subprocess.run(["sigrok-cli", "-I", "binary:numchannels=2", "-i", path, *decoder, "i2c:scl=1:sda=0"],
                               check=True, stdout=subprocess.PIPE).stdout
        second = subprocess.run(["sigrok-cli", "-I", "vcd", "-i", ours, *decoder, "i2c:scl=SCL:sda=SDA"],
                                check=True, stdout=subprocess.PIPE).stdout
        expect(first == second, f"{path}: our VCD read by sigrok")
        for file in (between, theirs, ours):
            os.remove(file)


def main(arguments):
    if not arguments:
        print("usage: convert_test.py OUT [CAPTURE..]", file=sys.stderr)
        return 2
    out, captures = arguments[0], arguments[1:]
    shutil.rmtree(out, ignore_errors=True)
    os.makedirs(out)
    chance = random.Random(1)
    for length in (1, 2, 3, 10, 97, 1000):
        round_trips(bytes(chance.randrange(4) for _ in range(length)), f"{length} random levels")
        round_trips(bytes([3]) * length, f"{length} equal levels")
    for path in captures:
        round_trips(get(path), path)
    command_line(out)
    wrong_files(out)
    last_times()
    cut_everywhere()
    if shutil.which("sigrok-cli"):
        by_sigrok(out, captures)
    at_random(4000)
    return finish()


if __name__ == "__main__":
    sys.exit(main(sys.argv[1:]))
