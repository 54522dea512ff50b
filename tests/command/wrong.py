#!/usr/bin/env python3
"""Tests what the command refuses: files, options and outputs that are wrong get one sentence, status 2 and leave no file.

    wrong.py OUT      OUT is a folder for files
"""
import argparse
import contextlib
import io
import os
import random
import re
import resource
import shutil
import signal
import struct
import subprocess
import sys

from common import (COMMAND, HERE, SCRIPT, csv_text, digits, expect, finish, get, put, record, run, run_apart, show, sr_bytes,
                    vcd_text, zip_bytes)

sys.path.insert(0, os.path.join(HERE, ".."))
import convert_test  # noqa: E402

LEVELS = record("i S 42+ 05+ 1C+ P i S 43+ 1C- P i")
SR = sr_bytes(LEVELS)
METADATA = "[device 1]\ncapturefile=logic-1\nprobe1=SDA\nprobe2=SCL\nunitsize=1\n"


def refused(out, name, data, words, *options):
    """A file that is refused with a sentence that has these words; outputs that were asked for are not there."""
    folder = os.path.join(out, "refused")
    shutil.rmtree(folder, ignore_errors=True)
    os.makedirs(folder)
    path = put(folder, name, data)
    done = show(path, "--add", "42", "--lanes", os.path.join(folder, "out.vcd"), "--svg", os.path.join(folder, "out.svg"),
                *options)
    expect(done.status == 2 and words in done.err, f"{name} {options}: {done.status} {done.err!r}, not {words!r}")
    expect(done.err.startswith("wherryoar: ") and done.err.count("\n") == 1, f"{name}: one sentence: {done.err!r}")
    expect(os.listdir(folder) == [name], f"{name}: left behind: {os.listdir(folder)}")
    expect("wire and model" not in done.out, f"{name}: a verdict")


# ---- Files ----

def strangers(out):
    """Files that are no capture, and captures that are not what they were said to be."""
    text, vcd = digits(LEVELS), vcd_text(LEVELS)
    for name, data, words, options in (
            ("empty", b"", "the file is empty", []),
            ("blank.txt", " \n\n ", "no item in it, only blanks", []),
            ("a.png", b"\x89PNG\r\n\x1a\n" + bytes(100), "looks like a picture (PNG)", []),
            ("a.gz", b"\x1f\x8b" + bytes(100), "packed by gzip", []),
            ("a.pdf", b"%PDF-1.4\n", "looks like a PDF", []),
            ("program", b"\x7fELF" + bytes(100), "looks like a program", []),
            ("utf16.csv", csv_text(LEVELS).encode("utf-16"), "text in UTF-16", []),
            ("a.bin", LEVELS, "if it is sigrok's binary form, say --as binary", []),
            ("noise", bytes(range(256)), "bytes that are no text", []),
            ("letter.txt", "Dear Sir\nit does not work\n", "no table of levels; it begins with 'Dear Sir'", []),
            ("a.sr", SR, "said to be binary, but it looks like a zip", ["--as", "binary"]),
            ("a.txt", text, "said to be binary, but it looks like digits", ["--as", "binary"]),
            ("a.csv", csv_text(LEVELS), "said to be binary, but it looks like text", ["--as", "binary"]),
            ("a.vcd", vcd, "said to be binary, but it looks like a VCD", ["--as", "binary"]),
            ("b.sr", SR, "said to be vcd, but it looks like a zip", ["--as", "vcd"]),
            ("b.vcd", vcd, "said to be csv, but it looks like a VCD", ["--as", "csv"]),
            ("c.vcd", vcd, "said to be sr, but it looks like a VCD", ["--as", "sr"]),
            ("b.bin", LEVELS, "said to be items, but it looks like bytes", ["--as", "items"]),
            ("d.txt", text, "said to be vcd, but it looks like digits", ["--as", "vcd"])):
        refused(out, name, data, words, *options)


def wrong_digits(out):
    """Digits with something between them that is no level."""
    refused(out, "a.txt", "3202h", "item 4 is a handler call (byte 4), which no wire record has")
    refused(out, "a.txt", "g3202", "byte 0 is g, which turns the general call on")
    refused(out, "a.txt", "3202 4", "byte 5 is no item: b'4'", "--as", "items")
    refused(out, "a.txt", digits(LEVELS) + "x", "is no item: b'x'", "--as", "items")
    far = "3" * 3_000_000 + "h"
    refused(out, "a.txt", far, "item 3000000 is a handler call (byte 3000000)", "--as", "items")


def wrong_vcds(out):
    """All that tools/convert.py refuses, here with its line; and signals that are not there."""
    for name, form, data, words in convert_test.WRONG:
        if form == "vcd" and data and data.startswith(b"$") and "more than" not in words:
            refused(out, name + ".vcd", data, words)
    text = vcd_text(LEVELS)
    refused(out, "x.vcd", text.replace("#40\n1!", "#40\nx!"), "the signal SCL is x at time 40")
    cut = text[:len(text) // 2].rsplit("\n", 1)[0] + "\n#9"
    refused(out, "cut.vcd", cut, "the last line is not ended: the file is cut short")
    refused(out, "head.vcd", text[:100], "cut short")
    refused(out, "names.vcd", text, "there is no signal CLK; there are: SCL, SDA", "--scl", "CLK")
    refused(out, "same.vcd", text, "SCL and SDA are both the signal SCL", "--sda", "scl")
    refused(out, "bad.vcd", text.replace("#40\n", "#40\nhello\n"), "line 12: hello is no value change")
    refused(out, "ff.vcd", text.encode().replace(b"today", b"\xff"), "line 1: the byte FF is not ASCII, nor UTF-8")
    for word in ("1@!", "@1!"):
        inside = text.replace("#40\n1!", f"#40\n{word}").encode().replace(b"@", b"\xff")
        line = inside[:inside.index(0xFF)].count(b"\n") + 1
        refused(out, "inside.vcd", inside, f"line {line}: the byte FF is not ASCII, nor UTF-8")
    far = vcd_text(LEVELS * 20)  # so far behind the beginning that every word is known
    times = re.findall(r"#(\d+)\n", far)
    time = int(times[len(times) // 2])
    for wrong, words in ((f"#{time - 1}\nx!\n#{time}\n", f"the signal SCL is x at time {time - 1}"),
                         (f"#{'9' * 20}\n", f"#{'9' * 20} is no time"), (f"#{'9' * 5000}\n", f"#{'9' * 39}.. is no time"),
                         (f"#{time}\n#0\n", f"time runs backwards, from {time} to 0")):
        refused(out, "far.vcd", far.replace(f"#{time}\n", wrong, 1), words)
    refused(out, "rate.vcd", text, "it has times of its own: --rate is for a file that has none", "--rate", "1MHz")


def wrong_zips(out):
    """A .sr cut short or spoilt, without its parts, or with other signals."""
    for at in (10, len(SR) // 2, len(SR) - 30, len(SR) - 1):
        refused(out, "cut.sr", SR[:at], "it begins as a zip, but has no end as one: it is cut short or spoilt")
    place = SR.index(b"logic-1-1") + 9 + 8
    spoilt = SR[:place] + bytes([SR[place] ^ 0x55]) + SR[place + 1:]
    refused(out, "spoilt.sr", spoilt, "logic-1-1 in it cannot be read")
    for name, members, words in (
            ("other.zip", {"a.txt": "b"}, "no sigrok capture: there is no metadata in it, but a.txt"),
            ("no_device.sr", {"metadata": "[global]\na=b\n"}, "its metadata have no [device 1]"),
            ("no_form.sr", {"metadata": "hello"}, "its metadata cannot be read"),
            ("no_samples.sr", {"metadata": METADATA}, "there are no samples in it: no logic-1-1"),
            ("no_sample.sr", {"metadata": METADATA, "logic-1-1": b""}, "there is no item in it"),
            ("a_gap.sr", {"metadata": METADATA, "logic-1-1": LEVELS, "logic-1-3": LEVELS}, "logic-1-2 is missing"),
            ("odd.sr", {"metadata": METADATA.replace("size=1", "size=2"), "logic-1-1": LEVELS + b"\0" * (1 - len(LEVELS) % 2)},
             "logic-1-1 ends inside a sample of 2 bytes"),
            ("zero.sr", {"metadata": METADATA.replace("size=1", "size=0"), "logic-1-1": LEVELS}, "its metadata say unitsize=0"),
            ("wide.sr", {"metadata": METADATA.replace("probe2", "probe9"), "logic-1-1": LEVELS}, "more signals than the 1 bytes"),
            ("names.sr", {"metadata": METADATA.replace("SCL", "CLK"), "logic-1-1": LEVELS},
             "no signal SCL; there are: SDA, CLK")):
        refused(out, name, zip_bytes(members), words)
    refused(out, "rate.sr", SR, "it has times of its own", "--rate", "1MHz")
    refused(out, "period.sr", SR, "--period is for a VCD", "--period", "2")


def wrong_tables(out):
    """Tables with one column, other columns, texts, volts, or times that are none; each with its line."""
    text = csv_text(LEVELS)
    timed = csv_text(LEVELS, "Time,SCL,SDA", "{time},{scl},{sda}")
    refused(out, "one.csv", csv_text(LEVELS, "SCL", "{scl}"), "one column alone, and SCL and SDA are two")
    refused(out, "signal.csv", csv_text(LEVELS, "SCL,other"), "there is no column SDA; there are: SCL, other")
    refused(out, "bare.csv", csv_text(LEVELS, None), "its 2 columns have no names: say which are SCL and SDA by their numbers")
    refused(out, "far.csv", text, "there is no column 3; there are: SCL, SDA", "--scl", "3")
    refused(out, "same.csv", text, "SCL and SDA are both the column SCL", "--sda", "scl")
    refused(out, "head.csv", "SCL,SDA\n", "there is no item in it")
    for wrong, words in (("1", "line 9 has 1 columns, not 2"), ("1,0,1", "line 9 has 3 columns, not 2"),
                         ("1,high", "line 9: column SDA is 'high', no level 0 or 1"), ("1,", "line 9: column SDA is ''"),
                         ("2,1", "line 9: column SCL is 2, no level 0 or 1"),
                         ("3.3,1", "line 9: column SCL is 3.3, no level 0 or 1; volts are not taken: export levels")):
        lines = text.splitlines()
        refused(out, "row.csv", "\n".join(lines[:8] + [wrong] + lines[9:]) + "\n", words)
        far = csv_text(LEVELS * 200).splitlines()  # so far behind the first rows that whole parts are taken at once
        far[50000] = wrong
        refused(out, "far_row.csv", "\n".join(far) + "\n", words.replace("line 9", "line 50001"))
    far = csv_text(LEVELS * 200).splitlines()
    far[50000], far[50003] = "10,1", ",1"  # as long as two levels
    refused(out, "two.csv", "\n".join(far) + "\n", "line 50001: column SCL is 10, no level 0 or 1")
    far = csv_text(LEVELS * 200, "Time,SCL,SDA", "{time},{scl},{sda}").splitlines()
    for wrong, words in (("0.000002,1,1", "line 50001: time runs backwards, from 0.049998 to 2e-06"),
                         ("soon,1,1", "line 50001: the time 'soon' is no number"), ("inf,1,1", "the time 'inf' is no number"),
                         ("0.0_5,1,1", "line 50001: the time '0.0_5' is no number")):
        refused(out, "times.csv", "\n".join(far[:50000] + [wrong] + far[50001:]) + "\n", words)
    far = [row.replace(",", ";").replace(".", ",") for row in far]
    for wrong, words in (("0,05.1;1;1", "line 50001: the time '0,05.1' is no number"),
                         ("0,05;1;,1", "line 50001: column SDA is ,1, no level 0 or 1"),
                         ("0,05;1;1,", "line 50001: column SDA is 1,, no level 0 or 1")):
        refused(out, "commas.csv", "\n".join(far[:50000] + [wrong] + far[50001:]) + "\n", words)
    volts = csv_text(LEVELS).replace("1", "3.3").replace("0", "0.1")
    refused(out, "volts.csv", volts, "line 2: column SCL is 3.3, no level 0 or 1; volts are not taken")
    refused(out, "back.csv", timed.replace("0.000020000", "0.000002000"), "line 22: time runs backwards, from 1.9e-05 to 2e-06")
    refused(out, "clock.csv", timed.replace("0.000020000", "12:30"), "line 22: the time '12:30' is no number")
    refused(out, "rate.csv", timed, "it has times of its own", "--rate", "1MHz")
    refused(out, "long.csv", text + "1" * 6_000_000, "is longer than 4194304 bytes, which no table has")


# ---- Options and outputs ----

def options(out):
    """Options that are wrong, or do not go together."""
    path = put(out, "fine.txt", digits(LEVELS))
    memory, large, empty = put(out, "three", b"abc"), put(out, "large", bytes(300)), put(out, "none", b"")
    target = os.path.join(out, "never.svg")
    own = [path, "--add", "42"]
    for words, wanted in (
            ([path], "one of the arguments --add --add7 is required"),
            ([path, "--add", "142"], "142 is no hex number up to FF"),
            ([path, "--add", "4G"], "4G is no hex number"),
            ([path, "--add7", "80"], "80 is no hex number up to 7F"),
            ([*own, "--add7", "21"], "not allowed with"),
            ([*own, "--n", "0"], "0 is no number from 1 to 256"),
            ([*own, "--n", "257"], "257 is no number from 1 to 256"),
            ([*own, "--mask", "1FF"], "1FF is no hex"),
            ([*own, "--rate", "0"], "0 is no sample rate"), ([*own, "--rate", "0.99"], "0.99 is no sample rate"),
            ([*own, "--rate", "1000.1GHz"], "1000.1GHz is no sample rate"),
            ([*own, "--rate", "fast"], "fast is no sample rate"),
            ([*own, "--period", "0"], "0 is no number from 1"),
            ([*own, "--as", "wav"], "invalid choice: 'wav'"),
            ([*own, "--memory", memory, "--n", "4"], f"{memory}: it has 3 bytes, fewer than --n 4"),
            ([*own, "--memory", large], f"{large}: it has more than 256 bytes; --n says how many"),
            ([*own, "--memory", empty], f"{empty}: it is empty, and a memory has 1 to 256 bytes"),
            ([*own, "--memory", memory + "x"], f"{memory}x: No such file or directory"),
            ([path + "x", "--add", "42"], f"{path}x: No such file or directory"),
            ([out, "--add", "42"], f"{out}: Is a directory"),
            ([*own, "--from", "soon", "--svg", target], "soon is no item such as 1200, and no time such as 1.5ms"),
            ([*own, "--from", "3"], "--from and --to choose a part for --lanes, --svg or --text"),
            ([*own, "--svg", target, "--from", "9", "--to", "9"], "--to does not lie behind --from"),
            ([*own, "--svg", target, "--from", "99999"], "no item of the record lies between --from and --to: it has"),
            ([*own, "--svg", target, "--rate", "1MHz", "--from", "9" * 40 + "s"], "no item of the record lies between"),
            ([*own, "--svg", target, "--from", "1ms"], "it has no times: --from and --to are items here, or --rate"),
            ([*own, "--svg", path], "one file is named for two things"),
            ([*own, "--svg", target, "--lanes", target], "one file is named for two things")):
        done = show(*words)
        expect(done.status == 2 and wanted in done.err, f"{words[1:]}: {done.status} {done.err!r}")
        expect(not os.path.exists(target), f"{words}: a file was left")
    for words in ([], ["draw"], ["show"]):
        expect(run(*words).status == 2, f"{words}")


def channels(out):
    """Channels that a binary capture has not."""
    samples = put(out, "fine.bin", LEVELS)
    for words, wanted in ((["--scl", "8"], "8 is no channel of a binary capture: 0 to 7"),
                          (["--scl", "0"], "SCL and SDA are both channel 0"),
                          (["--sda", "SDA"], "SDA is no channel of a binary capture: 0 to 7")):
        done = show(samples, "--add", "42", "--as", "binary", *words)
        expect(done.status == 2 and wanted in done.err, f"{words}: {done.err}")


def pictures(out):
    """Parts that are too wide for a picture are refused with the limit, and outputs that cannot be written with their names."""
    wide = put(out, "wide.txt", digits(LEVELS * 20))
    target = os.path.join(out, "never.svg")
    done = show(wide, "--add", "42", "--svg", target, "--from", "0")
    expect(done.status == 2 and "change more than 2000 times between --from and --to" in done.err, f"changes: {done.err}")
    still = put(out, "still.vcd", vcd_text(record("i S 42+ P i") + bytes([3]) * 50000))
    done = show(still, "--add", "42", "--text", "--svg", target, "--to", "50000")
    expect(done.status == 2 and "columns between --from and --to, and has at most 4000" in done.err, f"columns: {done.err}")
    nowhere = os.path.join(out, "is_not_there", "a.svg")
    for path, wanted in ((nowhere, f"{nowhere}: it cannot be written: No such file or directory"), (out, "no plain file"),
                         ("/dev/full", "no plain file")):
        done = show(wide, "--add", "42", "--svg", path)
        expect(done.status == 2 and wanted in done.err, f"{path}: {done.status} {done.err}")
    expect(not os.path.exists(target) and not [name for name in os.listdir(out) if name.startswith(".wherryoar")], "left behind")
    put(out, "there.svg", "before")
    link = os.path.join(out, "link.svg")
    os.symlink("there.svg", link)
    short = put(out, "short.txt", digits(LEVELS))
    expect(show(short, "--add", "42", "--svg", link).status == 0 and os.path.islink(link) and
           get(os.path.join(out, "there.svg")).startswith(b"<svg"), "a link's file is written, and the link stays")
    os.remove(link)


def programs(out):
    """A C program that is not there, or fails, is told."""
    path, kept = put(out, "fine.txt", digits(LEVELS)), os.environ["WHERRYOAR_PROGRAM"]
    for program, wanted in (("/is/not/there", "/is/not/there cannot be run: No such file or directory"),
                            ("false", "the program false failed"), (f"{kept} 1", "failed: usage: draw ADD N MSK CON2 MEMORY")):
        os.environ["WHERRYOAR_PROGRAM"] = program
        done = show(path, "--add", "42")
        expect(done.status == 2 and wanted in done.err, f"{program}: {done.status} {done.err}")
    os.environ["WHERRYOAR_PROGRAM"] = f"env -u LANG {kept}"
    expect(show(path, "--add", "42").status == 0, "a command line of several words")
    os.environ["WHERRYOAR_PROGRAM"] = kept
    closed = run_apart("show", path, "--add", "42", preexec_fn=lambda: os.close(1))
    expect(closed.status == 2 and closed.err == "wherryoar: standard output: it is closed\n", f"closed: {closed.err}")
    with open("/dev/full", "wb") as full:
        line = [sys.executable, SCRIPT, "show", path, "--add", "42"]
        done = subprocess.run(line, stdout=full, stderr=subprocess.PIPE, check=False)
    expect(done.returncode == 2 and done.stderr == b"wherryoar: standard output: No space left on device\n", f"{done.stderr}")
    done = run_apart("--version")
    expect(done.status == 0 and done.out.startswith("wherryoar ") and done.out[10:].strip()[0].isdigit(), f"{done.out}")
    expect(run_apart("--help").status == 0 and run_apart("show", "--help").status == 0, "help")
    expect(os.access(SCRIPT, os.X_OK), "the script can be run")


def too_large(out):
    """A lanes file that becomes too large, in its header or later, or has times that are, is refused with its name."""
    folder = os.path.join(out, "too_large")
    os.makedirs(folder)
    path, short = put(folder, "long.txt", digits(LEVELS * 50)), put(folder, "short.txt", digits(LEVELS))
    target = os.path.join(folder, "out.vcd")
    expect(show(short, "--add", "42", "--lanes", target).status == 0, "large enough")
    for path, most in ((path, 100), (path, 20000), (short, os.path.getsize(target) - 1)):  # in the header, later, at the end
        if os.path.exists(target):
            os.remove(target)
        done = run_apart("show", path, "--add", "42", "--lanes", target,
                         preexec_fn=lambda most=most: resource.setrlimit(resource.RLIMIT_FSIZE, (most, most)))
        wanted = f"wherryoar: {target}: it cannot be written: File too large\n"
        expect(done.status == 2 and done.err == wanted, f"{most}: {done.err}")
    far = put(folder, "far.csv", "Time,SCL,SDA\n0,1,1\n1,1,0\n9.3e9,0,0\n")
    done = show(far, "--add", "42", "--lanes", target)
    wanted = f"wherryoar: {target}: it cannot be written: its times do not fit into the 64 bits of a VCD's\n"
    expect(done.status == 2 and done.err == wanted, f"times: {done.err}")
    expect(sorted(os.listdir(folder)) == ["far.csv", "long.txt", "short.txt"], f"left behind: {os.listdir(folder)}")
    expect(show(far, "--add", "42").status == 0, "without lanes its times are no harm")


def killed(out):
    """A reading process that is killed is told, and so is what else may happen to it."""
    path, feed = put(out, "fine.txt", digits(LEVELS)), COMMAND.stream.Feeder.feed
    for end, wanted in ((lambda *_: os.kill(os.getpid(), signal.SIGKILL), "fine.txt: it could not be read to its end"),
                        (lambda *_: os._exit(1), "fine.txt: it could not be read to its end"),
                        (lambda *_: open("/is/not/there"), "/is/not/there: No such file or directory")):
        COMMAND.stream.Feeder.feed = end
        done = show(path, "--add", "42")
        expect(done.status == 2 and done.err.endswith(wanted + "\n") and done.err.count("\n") == 1, f"{wanted}: {done.err}")
    COMMAND.stream.Feeder.feed = feed


def signals(out):
    """What the C program is told of a lanes file is refused where it is none; a time that does not fit is, too."""
    path = put(out, "signals.vcd", "")
    words = [*COMMAND.stream.program(COMMAND.HERE), "42", "4", "FF", "01", "-", path]
    item, window = b"r\1\0\0\0\3", b"w" + struct.pack("<QQQ", 0, 2**64 - 1, 0)

    def told(count, place, first, step, parts):
        return b"v" + struct.pack("<I", count) + bytes([place]) * count + struct.pack("<QQQ", first, step, parts)

    for stream, status in ((told(1, 0, 0, 1, 1), 0), (told(58, 63, 0, 1, 1), 0), (told(59, 0, 0, 1, 1), 1),
                           (told(1, 64, 0, 1, 1), 1), (told(1, 0, 0, 0, 1), 1), (told(1, 0, 0, 1, 0), 1),
                           (told(1, 0, 2**64 - 1, 1, 1), 3), (b"", 0)):
        done = subprocess.run(words, input=stream + window + item + b"e", stdout=subprocess.PIPE, stderr=subprocess.PIPE,
                              check=False)
        expect(done.returncode == status, f"{stream}: {done.returncode} {done.stderr}")
    done = subprocess.run([*words[:-1], os.path.join(out, "is_not_there", "a.vcd")], input=b"e", stderr=subprocess.PIPE,
                          check=False)
    expect(done.returncode == 3 and done.stderr == b"No such file or directory\n", f"{done.returncode} {done.stderr}")


def unread():
    """The C program ends where nobody reads what it writes, and does not wait for the record's end."""
    words = [*COMMAND.stream.program(COMMAND.HERE), "42", "4", "FF", "01", "-"]
    part = record("S 42+ 05+ P", 1, 1) * 1000
    with subprocess.Popen(words, stdin=subprocess.PIPE, stdout=subprocess.PIPE, restore_signals=False) as process:
        process.stdout.close()
        with contextlib.suppress(BrokenPipeError):
            for _ in range(100):
                process.stdin.write(b"r" + struct.pack("<I", len(part)) + part)
            expect(False, "a program that nobody reads goes on")
        with contextlib.suppress(BrokenPipeError):
            process.stdin.close()
    expect(process.returncode == 1, f"a program that nobody reads: {process.returncode}")


def streams():
    """The C program by itself refuses a stream that is none, and arguments that are none."""
    words = [*COMMAND.stream.program(COMMAND.HERE), "42", "4", "FF", "01", "-"]
    broken, no_level = b"the stream is broken", b"an item is no level"
    for stream, wanted in ((b"", broken), (b"x", broken), (b"r\5\0\0\0\3\3", broken), (b"r\1\0\0\0\3", broken),
                           (b"r\1\0\1\0" + bytes(65537) + b"e", broken), (b"r\1\0\0\0\4e", no_level),
                           (b"k\1\0\0\0\7" + bytes([99]) + bytes(7) + b"e", no_level)):
        done = subprocess.run(words, input=stream, stdout=subprocess.PIPE, stderr=subprocess.PIPE, check=False)
        expect(done.returncode == 1 and wanted in done.stderr and b"E " not in done.stdout, f"{stream[:20]}: {done.stderr}")
    for wrong in (["42", "0", "FF", "01", "-"], ["42", "257", "FF", "01", "-"], ["42", "4", "FF", "1E", "-"],
                  ["42", "4", "FF", "01", "00"]):
        done = subprocess.run([*words[:-5], *wrong], input=b"e", stdout=subprocess.PIPE, stderr=subprocess.PIPE, check=False)
        expect(done.returncode == 2 and b"usage: draw" in done.stderr, f"{wrong}: {done.stderr}")


# ---- At random ----

def at_random(rounds):
    """Files changed at random are read, or refused with a sentence; nothing else happens."""
    chance = random.Random(3)
    readers, records = COMMAND.readers, sys.modules["records"]
    whole = [digits(LEVELS).encode(), vcd_text(LEVELS).encode(), SR, csv_text(LEVELS).encode(), sr_bytes(LEVELS, 2, 9, 3),
             csv_text(LEVELS, "Time;SCL;SDA", "{time};{scl};{sda}").encode(),
             csv_text(LEVELS, "; a\nSCL\tSDA", "{scl}\t{sda}").encode()]
    plain = argparse.Namespace(scl=None, sda=None, form=None, period=1, rate=None)
    taken = wrong = 0
    for _ in range(rounds):
        data = convert_test.mangled(chance, chance.choice(whole))
        try:
            reader = readers.reader_of(records.Source(io.BytesIO(data)), plain)
            levels = b"".join(bytes(piece.levels) for piece in reader.pieces())
            expect(not levels or max(levels) <= 3, f"levels of {data!r}")
            taken += 1
        except records.Bad as told:
            expect(str(told) != "", "a sentence")
            wrong += 1
        except Exception as other:  # anything else is a fault of a reader
            expect(False, f"{other!r} from {data!r}")
    expect(taken > rounds // 50 and wrong > rounds // 50, f"both happen: {taken} {wrong}")


def main(arguments):
    if len(arguments) != 1:
        print(__doc__, file=sys.stderr)
        return 2
    out = arguments[0]
    for test in (strangers, wrong_digits, wrong_vcds, wrong_zips, wrong_tables, options, channels, pictures, too_large, programs,
                 killed, signals):
        test(out)
    unread()
    streams()
    at_random(3000)
    return finish()


if __name__ == "__main__":
    sys.exit(main(sys.argv[1:]))
