#!/usr/bin/env python3
"""Tests the command's table: stored tables, what differs and what does not, one bit changed, memory, mask and general call.

    tables.py OUT WIRES      WIRES is a folder of wire records as digits; OUT one for files
"""
import os
import re
import sys

from common import COMMAND, HERE, digits, expect, finish, get, put, record, show

# A record with a bit of everything: acknowledges that are missing, a byte read otherwise, bytes cut off, other slaves.
MIXED = ("i S 42+ 05+ 1C+ 2D- P i S 42+ 05+ S 43+ 1D+ 2D- P S A0+ 00+ P S 42+ .0101 S 42+ .01 P S .010 P "
         "S 43+ FF+ 00+ P i S 43+ 00- P S 00+ 06+ P S 42+ 00+ l")
# A write of two bytes and their reading, as it should be.
FINE = "i S 42+ 05+ 1C+ 2D+ P i S 42+ 05+ S 43+ 1C+ 2D- P i"


def table(out, words, *options):
    """What the command makes of a row of words."""
    return show(put(out, "record.txt", digits(record(words))), *options)


# ---- Stored tables ----

def stored(out, wires):
    """Tables byte for byte, with what goes to standard error and the exit status."""
    cases = [("brief_example", os.path.join(wires, "brief_example.txt"), ["--add", "30", "--n", "32", "--rate", "1MHz"]),
             ("read_cut_short", os.path.join(wires, "read_cut_short.txt"), ["--add", "30", "--n", "32"]),
             ("general_call", os.path.join(wires, "bench_4_general_call.txt"), ["--add7", "18", "--n", "32", "--general-call"]),
             ("mixed", put(out, "mixed.txt", digits(record(MIXED))), ["--add", "42", "--rate", "4 MHz"])]
    for name, path, options in cases:
        done = show(path, *options)
        text = f"{done.out}{done.err}status {done.status}\n"
        put(out, name + ".table", text)
        expect(text == get(os.path.join(HERE, name + ".table")).decode(), f"the table {name}: see {out}/{name}.table")


def captures(out, wires):
    """Every stored capture's wire record agrees with the model that made it: 32 bytes of 0 at ADD 30."""
    names = sorted(name for name in os.listdir(wires) if name.endswith(".txt"))
    zeros = put(out, "zeros", bytes(32))
    for name in names:
        done = show(os.path.join(wires, name), "--add", "31", "--memory", zeros,
                    *(["--general-call"] if "general_call" in name and name != "brief_general_call.txt" else []))
        expect(done.status == 0 and done.last().endswith("; wire and model agree"), f"{name}: {done.last()} {done.err}")
    expect(len(names) > 20, "captures")


# ---- What differs ----

def one_line(out, words, wanted, event=""):
    """A record that differs in one line, how that line ends, and its event."""
    done = table(out, words, "--add", "42")
    fine = done.status == 1 and len(done.marked()) == 1 and done.marked()[0].endswith(wanted) and event in done.marked()[0]
    item = int(done.marked()[0].split()[0]) if done.marked() else None
    expect(fine, f"{words}: {done.status} {done.marked()}")
    expect(done.last().endswith(f"; they differ in 1 line, the first at item {item}"), f"{words}: {done.last()}")


def differences(out):
    """Each way to differ, by one line alone; and what is none."""
    expect(table(out, FINE, "--add", "42").status == 0, "the record as it should be")
    one_line(out, FINE.replace("2D+ P", "2D- P"), "< the model acknowledges, the wire does not")
    one_line(out, FINE.replace("i S 42+ 05+ 1C+", "i S 42- 05+ 1C+"), "< the model acknowledges, the wire does not")
    one_line(out, FINE.replace("43+ 1C+", "43+ 9C+"), "< the model sends 1C, the wire has 9C")
    one_line(out, FINE.replace("43+ 1C+", "43+ 0C+"), "< the model sends 1C, the wire has 0C")
    # The master acknowledges and then stops, or the record ends, or a byte is cut off: the model has laid out the next byte.
    pulls = "< the model pulls SDA where the wire is high"
    one_line(out, "S 42+ 05+ 1C+ 00+ P i S 42+ 05+ S 43+ 1C+ P", pulls, "Stop")
    one_line(out, "S 42+ 05+ 1C+ 00+ P i S 42+ 05+ S 43+ 1C+ .1", pulls, "end")
    one_line(out, "S 42+ 05+ 1C+ 0F+ P i S 42+ 05+ S 43+ 1C+ .0010 S 42+ P", pulls, "cut off")
    # A model that pulls does not see that Stop, nor the next Start: it is at another place of the message there.
    lost = table(out, "S 42+ 05+ 1C+ 00+ P i S 42+ 05+ S 43+ 1C+ P i S 42+ P", "--add", "42")
    expect([row.split(" < ")[1] for row in lost.marked()] == [pulls[2:], "the model is at another place of a message"], lost.out)
    taken = table(out, "i S 42+ .01010101 P i S 42+ 05+ P i S 42+ P i", "--add", "42")
    expect([row.split(" < ")[1] for row in taken.marked()] == [pulls[2:], "the model is at another place of a message"] and
           "cut off       01010101  -     -  " in taken.out and "42 at 55" in taken.marked()[1], taken.out)
    for words in ("S A0+ 00+ P", "S A0- P", "S 43+ 00+ 12- P", "S 42+ P", "i", "S 43+ FF+ FF- P"):
        done = table(out, "i " + words + " i", "--add", "42")
        expect(done.status == 0 and not done.marked(), f"{words}: {done.out}")


def flips(out):
    """Each bit of the bytes that the model sends, and each of its acknowledges, changed on the wire: just that line differs."""
    words = FINE.split()
    plain = table(out, FINE, "--add", "42").rows()
    lines = [row for row in plain if re.search(r"address|data", row)]
    places = [at for at, word in enumerate(words) if re.match(r"[0-9A-F]{2}[+-]", word)]
    for number, at in enumerate(places):
        is_sent = number > 0 and words[at - 1].startswith(("43", "1C")) and "43+" in words[:at]
        byte = int(words[at][:2], 16)
        changed = [f"{byte ^ 1 << bit:02X}{words[at][2]}" for bit in range(8)] if is_sent else [words[at][:2] + "-"]
        for word in changed:
            done = table(out, " ".join(words[:at] + [word] + words[at + 1:]), "--add", "42")
            item = lines[number].split()[0]
            fine = done.status == 1 and [row.split()[0] for row in done.marked()] == [item]
            expect(fine, f"{words[at]} as {word}: {done.marked()}")
    expect(len(places) == 9, f"bytes {len(places)}")


def lines_alone():
    """What no record brings the model to, since its handler is never late: a byte that it does not acknowledge."""
    for answer, model, marks in (("0", "n", 1), ("1", "n", 0), ("1", "a", 1), ("0", "a", 0), ("0", "-", 0), ("1", "o", 1)):
        row = COMMAND.table.Row(f"B 36 - 4 38 1 42 {answer} {model} 00 0 00 - -\n".encode())
        expect(len(row.said.differences) == marks, f"{answer} {model}: {row.said.differences}")
    refused = COMMAND.table.Row(b"B 36 - 4 38 1 42 0 n 00 0 00 - -\n").line(None)
    expect(refused.endswith("ack   nack       00                 < the wire acknowledges, the model does not"), refused)
    for number in range(1 << 15):  # however many there are, few of them are kept
        row = COMMAND.table.Row(f"B 9 - 4 8 - {number & 0xFF:02X} 0 a 00 0 {number >> 7:02X} - -\n".encode())
    expect(row.said.pointer == "FF" and len(row.known) <= COMMAND.table.MOST_KNOWN, f"rows kept: {len(row.known)}")


# ---- The model ----

def memory(out):
    """Bytes that are known are compared; those that nobody knows are not, and are counted."""
    path = put(out, "bytes", bytes([0xA1, 0xB2, 0xC3, 0xD4]))
    read = "i S 42+ 01+ S 43+ B2+ C3- P i"
    expect(table(out, read, "--add", "42", "--memory", path).status == 0, "a memory that is given")
    other = table(out, read.replace("C3", "C2"), "--add", "42", "--memory", path)
    expect(other.status == 1 and other.err == "" and other.marked()[0].endswith("sends C3, the wire has C2"), f"{other.out}")
    unknown = table(out, read, "--add", "42")
    expect(unknown.status == 0 and unknown.out.count("sends ?") == 2, "bytes that nobody knows")
    expect("2 bytes sent from places that nobody knows, not compared; --memory FILE gives them" in unknown.err, unknown.err)
    wrapped = table(out, "i S 42+ 07+ S 43+ D4+ A1- P i", "--add", "42", "--memory", path)
    expect(wrapped.status == 0 and " 01" in wrapped.rows()[-2], f"a memory of four bytes: {wrapped.out}")
    part = table(out, "i S 42+ 03+ S 43+ B2- P i", "--add", "42", "--memory", path, "--n", "2")
    expect(part.status == 0, f"--n takes the first bytes: {part.out}")
    small = table(out, "i S 42+ 11+ 77+ P S 42+ 01+ S 43+ 77- P i", "--add", "42", "--n", "16")
    expect(small.status == 0 and "77 at 01" in small.out and small.err == "", f"--n without --memory: {small.out}")
    text = put(out, "hex", "A1 B2 C3 D4\n")
    expect("looks like hex numbers in text" in table(out, read, "--add", "42", "--memory", text).err, "hex numbers in text")


def addresses(out):
    """The two forms of ADD, MSK and the general call."""
    words = "i S 42+ 05+ P S 46+ 05+ P S 00+ 06+ 1C+ P S 01- P i"
    for options in (["--add", "42"], ["--add", "43"], ["--add", "0x42"], ["--add7", "21"]):
        done = table(out, words, *options)
        expect(done.status == 0 and done.last() == "4 messages, 8 bytes, 1 to this address; wire and model agree", f"{options}")
    masked = table(out, words, "--add", "42", "--mask", "FB")
    expect(masked.status == 0 and masked.last().startswith("4 messages, 8 bytes, 2 to this address"), masked.out)
    called = table(out, words, "--add", "42", "--general-call")
    expect(called.status == 0 and called.out.count("general call  00        ack   ack") == 1, called.out)
    expect("1C at 06" in called.out and "address 00 W" not in called.out and "address 00 R" in called.out, called.out)
    off = table(out, words, "--add", "42")
    expect("address 00 W  00        ack   -" in off.out, off.out)


def main(arguments):
    if len(arguments) != 2:
        print(__doc__, file=sys.stderr)
        return 2
    out, wires = arguments
    stored(out, wires)
    captures(out, wires)
    differences(out)
    flips(out)
    lines_alone()
    memory(out)
    addresses(out)
    return finish()


if __name__ == "__main__":
    sys.exit(main(sys.argv[1:]))
