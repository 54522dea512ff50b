#!/usr/bin/env python3
"""Tests long records: so many samples in each form, in time and memory; the bar on a terminal; an interrupted run.

    length.py OUT SAMPLES SECONDS      OUT is a folder for files; SECONDS the most that a form may take, 0 for no limit
"""
import os
import pty
import resource
import signal
import subprocess
import sys
import time
import zipfile

from common import COMMAND, SCRIPT, csv_text, expect, finish, get, put, record, vcd_text

WORDS = "i S 42+ 05+ 1C+ 2D+ P i S 42+ 05+ S 43+ 1C+ 2D- P i S A0+ 00+ P i"
BLOCK, DENSE = record(WORDS, 10, 10), record(WORDS, 1, 1)  # 20 samples for a clock, and as few as there may be
MESSAGES, BYTES, OWN = 4, 11, 3
MOST_MEMORY = 200  # megabytes
MODEL = ["--add", "42"]


def vcd_changes(levels, block):
    """The changes of a block, moved on in time."""
    first = block * len(levels)
    return "".join(f'#{first + item}\n{level >> 1}!\n{level & 1}"\n' for item, level in enumerate(levels)
                   if item == 0 or level != levels[item - 1]).encode("ascii")


def timed_rows(levels, block):
    return csv_text(levels, None, "{time},{scl},{sda}", first=block * len(levels) / 1e6).encode("ascii")


def written(out, name, head, part, count, end=""):
    """A file written part by part: this process stays small, since a child's memory is counted from its parent's on."""
    path = put(out, name, head)
    with open(path, "ab") as file:
        for block in range(count):
            file.write(part(block))
        file.write(end.encode("ascii"))
    return path


def written_sr(out, blocks):
    """A .sr with a member for every 1,000 blocks."""
    path = os.path.join(out, "long.sr")
    with zipfile.ZipFile(path, "w", zipfile.ZIP_DEFLATED) as file:
        file.writestr("metadata", "[device 1]\ncapturefile=logic-1\nsamplerate=1 MHz\nprobe1=SDA\nprobe2=SCL\nunitsize=1\n")
        for at in range(0, blocks, 1000):
            file.writestr(f"logic-1-{at // 1000 + 1}", BLOCK * min(1000, blocks - at))
    return path


def written_vcd(out, name, levels, blocks):
    head = vcd_text(levels).split("#0\n", 1)[0]
    return written(out, name, head, lambda block: vcd_changes(levels, block), blocks, f"#{blocks * len(levels)}\n")


def files(out, samples):
    """One record of so many samples in each form, with the lanes of the first one; CSV with times too, at a tenth of the length,
    and the densest record with its lanes, at a quarter, in the two forms that take longest."""
    blocks, few, dense = (-(-samples // length) for length in (len(BLOCK), 10 * len(BLOCK), 4 * len(DENSE)))
    rows = csv_text(BLOCK, None).encode("ascii")
    lanes = ["--lanes", os.path.join(out, "lanes.vcd")]
    binary = written(out, "long.bin", b"", lambda block: BLOCK, blocks)
    return [(binary, ["--as", "binary"], BLOCK, blocks), (binary, ["--as", "binary", *lanes], BLOCK, blocks),
            (written_sr(out, blocks), [], BLOCK, blocks),
            (written(out, "long.csv", "SCL,SDA\n", lambda block: rows, blocks), [], BLOCK, blocks),
            (written_vcd(out, "long.vcd", BLOCK, blocks), [], BLOCK, blocks),
            (written(out, "timed.csv", "Time,SCL,SDA\n", lambda block: timed_rows(BLOCK, block), few), [], BLOCK, few),
            (written_vcd(out, "dense.vcd", DENSE, dense), lanes, DENSE, dense),
            (written(out, "dense.csv", "Time,SCL,SDA\n", lambda block: timed_rows(DENSE, block), dense), lanes, DENSE, dense)]


def limits(cases, seconds):
    """Each form gives the right counts, in time and memory."""
    for path, options, levels, blocks in cases:
        begin = time.monotonic()
        done = subprocess.run([sys.executable, SCRIPT, "show", path, *MODEL, *options], stdout=subprocess.PIPE,
                              stderr=subprocess.PIPE, check=False)
        taken = time.monotonic() - begin
        memory = resource.getrusage(resource.RUSAGE_CHILDREN).ru_maxrss // 1024
        last = done.stdout.decode().splitlines()[-1] if done.stdout else ""
        wanted = f"{MESSAGES * blocks} messages, {BYTES * blocks} bytes, {OWN * blocks} to this address; wire and model agree"
        expect(done.returncode == 0 and last == wanted, f"{path}: {done.returncode} {last} {done.stderr.decode()}")
        expect(seconds == 0 or taken < seconds, f"{path}: {taken:.1f} s")
        expect(memory < MOST_MEMORY, f"{path}: {memory} megabytes")
        print(f"{os.path.basename(path)}{' with lanes' * ('--lanes' in options)}: {blocks * len(levels)} samples, {taken:.1f} s,"
              f" {memory} megabytes")


def in_parts(out):
    """A VCD is sent on while it is read, so that its length is no memory."""
    path = written_vcd(out, "parts.vcd", DENSE, 2000)
    with open(path, "rb") as file:
        source = COMMAND.readers.Source(file)
        piece = next(COMMAND.readers.reader_of(source, COMMAND.parser().parse_args(["show", path, *MODEL])).pieces())
    expect(0 < len(piece.levels) and source.taken < os.path.getsize(path) // 4, f"{path}: {source.taken} bytes before a piece")


def long_time(out):
    """A VCD of hours at a nanosecond an item is as quick as a short one."""
    begin = time.monotonic()
    path = put(out, "hours.vcd", vcd_text(BLOCK, timescale="1 ns", step=10**10))
    done = subprocess.run([sys.executable, SCRIPT, "show", path, *MODEL], stdout=subprocess.PIPE, check=False)
    expect(done.returncode == 0 and time.monotonic() - begin < 5, f"a VCD of hours: {time.monotonic() - begin:.1f} s")


def buses(out):
    """A VCD with other signals that change at every time, vectors and numbers among them, gives the same table, as quickly."""
    levels = BLOCK * 40
    head, _, changes = vcd_text(levels).partition("#")
    busy = "".join(f"#{piece}b{int(piece.split()[0]):b} %\nr{piece.split()[0]}.5 &\n{int(piece.split()[0]) % 2}'\nsidle <\n"
                   for piece in changes.split("#"))
    still = "".join(f"#{at}\nb{at:b} %\n" for at in range(len(levels) + 1, len(levels) + 100000))
    begin = time.monotonic()
    busy_path = put(out, "buses.vcd", head + busy + still)
    plain = subprocess.run([sys.executable, SCRIPT, "show", put(out, "alone.vcd", vcd_text(levels)), *MODEL],
                           stdout=subprocess.PIPE, check=False)
    done = subprocess.run([sys.executable, SCRIPT, "show", busy_path, *MODEL], stdout=subprocess.PIPE, check=False)
    taken = time.monotonic() - begin
    expect(done.returncode == 0 and done.stdout == plain.stdout and taken < 10, f"buses: {done.returncode} {taken:.1f} s")


def bar(path):
    """The bar is drawn where standard error is a terminal, and taken away; the table does not go there."""
    ours, theirs = pty.openpty()
    with open(os.devnull, "wb") as nowhere:
        process = subprocess.Popen([sys.executable, SCRIPT, "show", path, *MODEL], stdout=nowhere, stderr=theirs)
    os.close(theirs)
    seen = b""
    while True:
        try:
            part = os.read(ours, 65536)
        except OSError:
            break
        seen += part
        if not part:
            break
    os.close(ours)
    expect(process.wait() == 0 and b"\r[#" in seen and b"%" in seen and seen.endswith(b" \r"), f"the bar: {seen[-200:]!r}")


def interrupted(out, path):
    """A run that is interrupted, or ended, leaves no output behind, and what was there stays."""
    signal.signal(signal.SIGINT, signal.default_int_handler)  # a shell's background jobs ignore it, and so would the run
    for number, status in ((signal.SIGINT, 130), (signal.SIGTERM, 143)):
        folder = os.path.join(out, f"stopped_{number}")
        os.makedirs(folder)
        before = put(folder, "a.vcd", "before")
        process = subprocess.Popen([sys.executable, SCRIPT, "show", path, *MODEL, "--lanes", before, "--svg",
                                    os.path.join(folder, "a.svg")], stdout=subprocess.PIPE, stderr=subprocess.PIPE)
        process.stdout.read(100)  # it is at work
        expect(len(os.listdir(folder)) == 3, f"it writes beside its outputs: {os.listdir(folder)}")
        process.send_signal(number)
        _, err = process.communicate()
        expect(process.returncode == status and err == b"", f"signal {number}: {process.returncode} {err!r}")
        expect(os.listdir(folder) == ["a.vcd"] and get(before) == b"before", f"signal {number}: {os.listdir(folder)}")
    process = subprocess.Popen([sys.executable, SCRIPT, "show", path, *MODEL], stdout=subprocess.PIPE, stderr=subprocess.PIPE)
    process.stdout.read(100)
    process.kill()
    try:
        process.communicate(timeout=10)  # the processes that it began have its outputs too, and end them by their own end
    except subprocess.TimeoutExpired:
        expect(False, "a run that is killed: its processes go on")
    head = subprocess.run(f"'{sys.executable}' '{SCRIPT}' show '{path}' --add 42 | head -n 2", shell=True, stdout=subprocess.PIPE,
                          stderr=subprocess.PIPE, check=False)
    expect(head.stdout.count(b"\n") == 2 and head.stderr == b"", f"a reader that has seen enough: {head.stderr!r}")


def main(arguments):
    if len(arguments) != 3:
        print(__doc__, file=sys.stderr)
        return 2
    out, samples, seconds = arguments[0], int(arguments[1]), float(arguments[2])
    cases = files(out, samples)
    limits(cases, seconds)
    in_parts(out)
    long_time(out)
    buses(out)
    bar(cases[4][0])
    interrupted(out, cases[3][0])
    return finish()


if __name__ == "__main__":
    sys.exit(main(sys.argv[1:]))
