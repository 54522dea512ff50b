"""What the tests of the command share: running it, records made level by level, and the forms that they are written in."""
import contextlib
import importlib.machinery
import importlib.util
import io
import os
import subprocess
import sys
import zipfile

sys.dont_write_bytecode = True
HERE = os.path.dirname(os.path.abspath(__file__))
ROOT = os.path.join(HERE, "..", "..")
SCRIPT = os.path.join(ROOT, "command", "wherryoar")

counts = {"checks": 0, "failures": 0}


def expect(fine, what):
    """A check; one that fails is told."""
    counts["checks"] += 1
    if not fine:
        counts["failures"] += 1
        print(f"failed: {what}")


def finish():
    """Tells the counts; answers the exit status."""
    print(f"checks {counts['checks']} failures {counts['failures']}")
    return 0 if counts["failures"] == 0 and counts["checks"] > 0 else 1


# ---- Running the command ----

def loaded():
    """The script as a module, so that most tests run in one process."""
    loader = importlib.machinery.SourceFileLoader("wherryoar_command", SCRIPT)
    module = importlib.util.module_from_spec(importlib.util.spec_from_loader(loader.name, loader))
    loader.exec_module(module)
    return module


COMMAND = loaded()


class Result:
    """What a run gave: its status, and what it wrote."""

    def __init__(self, status, out, err):
        self.status, self.out, self.err = status, out, err

    def rows(self):
        """The table's lines, without its head and its last line."""
        return self.out.splitlines()[1:-1]

    def last(self):
        return self.out.splitlines()[-1] if self.out else ""

    def marked(self):
        return [row for row in self.rows() if " < " in row]


class Written(io.StringIO):
    """Standard output or error as a text."""

    def fileno(self):
        raise OSError("a text has no number")


def run(*words):
    """The command in this process."""
    out, err = Written(), Written()
    with contextlib.redirect_stdout(out), contextlib.redirect_stderr(err):
        try:
            status = COMMAND.main([str(word) for word in words])
        except SystemExit as left:
            status = left.code
    return Result(status, out.getvalue(), err.getvalue())


def show(*words):
    return run("show", *words)


def run_apart(*words, **more):
    """The command in a process of its own."""
    done = subprocess.run([sys.executable, SCRIPT, *(str(word) for word in words)], stdout=subprocess.PIPE,
                          stderr=subprocess.PIPE, check=False, **more)
    return Result(done.returncode, done.stdout.decode(), done.stderr.decode())


# ---- Records ----

class Wire:
    """A record put together level by level: what the wire shows, whoever pulls."""

    def __init__(self, low, high):
        self.low, self.high = low, high
        self.levels = bytearray()
        self.sda = 1
        self.is_free = True
        self.put(1, 1, 2 * high)

    def put(self, scl, sda, count):
        self.sda = sda
        self.levels += bytes([2 * scl + sda]) * count

    def bit(self, sda):
        """SCL falls, SDA takes its new value in the low time, SCL rises."""
        self.put(0, self.sda, max(1, self.low // 2))
        self.put(0, sda, self.low - max(1, self.low // 2))
        self.put(1, sda, self.high)

    def word(self, word):
        """S, P, a byte with its answer (42+ acknowledged, 42- not), .0101 for bits alone, l for SCL low, i for a free bus."""
        if word == "S":
            if not self.is_free:
                self.bit(1)
            self.put(1, 0, self.high)
        elif word == "P":
            self.bit(0)
            self.put(1, 1, self.high)
        elif word == "i":
            self.put(1, 1, 8 * self.high)
        elif word == "l":
            self.put(0, self.sda, self.low)
        else:
            bits = word[1:] if word[0] == "." else f"{int(word[:2], 16):08b}" + {"+": "0", "-": "1"}[word[2]]
            for bit in bits:
                self.bit(int(bit))
        self.is_free = word in ("P", "i") or self.is_free and word != "S"


def record(words, low=4, high=4):
    """The levels of a row of words."""
    wire = Wire(low, high)
    for word in words.split():
        wire.word(word)
    return bytes(wire.levels)


def put(folder, name, data):
    """A file in a folder; answers its path."""
    path = os.path.join(folder, name)
    with open(path, "wb") as file:
        file.write(data if isinstance(data, bytes) else data.encode("utf-8"))
    return path


def get(path):
    with open(path, "rb") as file:
        return file.read()


# ---- Forms ----

def digits(levels):
    text = levels.translate(bytes.maketrans(b"\0\1\2\3", b"0123")).decode("ascii")
    return "".join(text[at:at + 96] + "\n" for at in range(0, len(text), 96))


def csv_text(levels, head="SCL,SDA", row="{scl},{sda}", step=1e-6, first=0.0, end="\n"):
    """A table, a row for each level; a row may have the item's number and its time."""
    rows = (row.format(scl=level >> 1, sda=level & 1, item=item, time=f"{first + item * step:.9f}")
            for item, level in enumerate(levels))
    return "".join(line + end for line in ([head] if head else []) + list(rows))


def vcd_text(levels, names=("SCL", "SDA"), timescale="1 us", first=0, step=1):
    """A VCD with a time for each change, and one behind the last item."""
    head = (f"$date today $end\n$timescale {timescale} $end\n$scope module top $end\n$var wire 1 ! {names[0]} $end\n"
            f'$var wire 1 " {names[1]} $end\n$upscope $end\n$enddefinitions $end\n')
    lines, before = [], None
    for item, level in enumerate(levels):
        if level != before:
            lines.append(f'#{first + item * step}\n{level >> 1}!\n{level & 1}"\n')
        before = level
    return head + "".join(lines) + f"#{first + len(levels) * step}\n"


def sr_bytes(levels, size=1, scl=1, sda=0, rate="1 MHz", parts=1, names=("SCL", "SDA")):
    """A .sr: samples of so many bytes, the lines in two of their bits, all other bits busy."""
    samples = bytearray()
    for level in levels:
        number = (1 << 8 * size) - 1 & ~(1 << scl | 1 << sda) | (level >> 1) << scl | (level & 1) << sda
        samples += number.to_bytes(size, "little")
    metadata = f"[global]\nsigrok version=0.5.2\n\n[device 1]\ncapturefile=logic-1\ntotal probes={8 * size}\n"
    metadata += f"samplerate={rate}\n" if rate else ""
    metadata += f"probe{scl + 1}={names[0]}\nprobe{sda + 1}={names[1]}\nunitsize={size}\n"
    step = -(-len(levels) // parts) * size
    members = {"version": "2", "metadata": metadata}
    members.update({f"logic-1-{at // step + 1}": bytes(samples[at:at + step]) for at in range(0, len(samples), step)})
    return zip_bytes(members)


def zip_bytes(members):
    file = io.BytesIO()
    with zipfile.ZipFile(file, "w", zipfile.ZIP_DEFLATED) as out:
        for name, data in members.items():
            out.writestr(name, data)
    return file.getvalue()
