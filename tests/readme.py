#!/usr/bin/env python3
"""Runs the README's commands and its lines of C, and compares what they print with what it shows or with what is stored.

    readme.py        where the archive, the report program and the release are made; CC_ARCHIVE and RUN are those of
                     tools/machine.sh

The gate itself and tools/check.sh are not run: the one runs this, the other is for work on the code."""
import glob
import os
import re
import shutil
import subprocess
import sys
import tempfile

ROOT = os.path.join(os.path.dirname(os.path.abspath(__file__)), "..")
COMPILER = os.environ.get("CC_ARCHIVE", "cc")
EMULATOR = os.environ.get("RUN", "")
NOT_RUN = ("bash .ci/run", "tools/check.sh", "tools/release.sh")  # the release is made before this
failures = 0


def expect(holds, told):
    global failures
    if not holds:
        failures += 1
        print(f"NOT SO: {told}")


def get(*parts):
    with open(os.path.join(ROOT, *parts), encoding="utf-8") as file:
        return file.read()


def printed(line, folder):
    """What a command prints, its errors too."""
    done = subprocess.run(["bash", "-o", "pipefail", "-c", line], cwd=folder, stdout=subprocess.PIPE, stderr=subprocess.STDOUT,
                          check=False)
    return done.returncode, done.stdout.decode()


def shown(page):
    """Each block that begins with a command is what that prints. A capture in which wire and model differ ends with 1."""
    blocks = re.findall(r"(?ms)^```\n\$ ([^\n]*)\n(.*?)^```$", page)
    for line, wanted in blocks:
        _, said = printed(line, ROOT)
        expect(said == wanted, f"{line} prints\n{said}")
    return len(blocks)


def listed(page):
    """The commands that stand by themselves, without the words behind them."""
    lines = re.findall(r"(?m)^    ((?:tools|bash|tar|bin|cc)[/ ][^#\n]*)", page)
    return [line.strip() for line in lines if not line.startswith(NOT_RUN)]


def as_here(line):
    """A line of the release's, for this machine: what is in it is x86-64 code."""
    return line.replace("CAPTURE", "examples/left_edge.txt").replace("cc -o", f"{COMPILER} -o").replace("./draw", f"{EMULATOR} ./draw")


def in_release(lines):
    """The release is unpacked and used."""
    folder = tempfile.mkdtemp()
    archive = glob.glob(os.path.join(ROOT, "target", "release", "*.tar.gz"))[0]
    shutil.copy(archive, folder)
    if EMULATOR:
        lines = [f"export WHERRYOAR_PROGRAM='{EMULATOR} libexec/wherryoar/draw'; {line}" if line.startswith("bin/") else line for line in lines]
    status, said = printed("; ".join(["set -e"] + [as_here(line) for line in lines]), folder)
    expect(said == get("examples", "show.out") + get("examples", "draw.out"), f"in the release, status {status}\n{said}")
    shutil.rmtree(folder)


def reported(line):
    status, said = printed(line + " 2>/dev/null", ROOT)
    expect((status, said) == (0, get("tests", "report", "worked.out")), f"{line}, status {status}\n{said}")


def from_c(page):
    """The lines of C, as the body of a program: the module holds the clock, so the address was acknowledged."""
    include, body = re.search(r"(?s)```c\n(#include [^\n]*)\n(.*?)```", page).groups()
    folder = tempfile.mkdtemp()
    with open(os.path.join(folder, "host.c"), "w", encoding="utf-8") as file:
        file.write(f"{include}\nint main(void)\n{{{body}return now.scl_pulled == 1 ? 0 : 1;\n}}\n")
    flags = f"-std=c99 -Wall -Wextra -Wpedantic -Werror -I{ROOT}/include"
    status, said = printed(f"{COMPILER} {flags} -o host host.c {ROOT}/target/staticlib/libdoor.a && {EMULATOR} ./host", folder)
    expect(status == 0, f"the lines of C, status {status}\n{said}")
    shutil.rmtree(folder)


def main():
    page = get("README.md")
    blocks = shown(page)
    lines = listed(page)
    reports = [line for line in lines if line.startswith("tools/report.sh")]
    of_release = [line for line in lines if line.startswith(("tar", "bin", "cc"))]
    for line in reports:
        reported(line)
    in_release(of_release)
    from_c(page)
    expect((blocks, len(reports), len(of_release), len(lines)) == (1, 1, 3, 4), f"commands {blocks}, {lines}")
    print(f"commands {blocks + len(lines)}")
    return 1 if failures else 0


if __name__ == "__main__":
    sys.exit(main())
