#!/usr/bin/env python3
"""Makes every capture of the manifest, holds the stored ones to it, and holds each report's events to the recipe's bytes.

    captures.py OUT      captures go to OUT/NAME.txt, the report expected of each is tests/captures/NAME.report

Those of ten-bit addresses go to OUT/ten_bit/NAME.txt. Their report is that of the wire which examples/ten_bit.c makes of them,
and the lanes that it draws, tests/captures/NAME.lanes, end in the memory that the recipe leaves.
"""
import os
import shlex
import sys

HERE = os.path.dirname(os.path.abspath(__file__))
STORE = os.path.join(HERE, "captures")
sys.path.insert(0, os.path.join(HERE, "..", "tools"))
import make_capture  # noqa: E402

ADD, HIGH, LOW = 0x30, 0xF4, 0xA7


class Device:
    """What a memory of 32 bytes at address 30 does with whole bytes: the events of a recipe, told without levels."""

    def __init__(self, general_call):
        self.general_call = general_call  # it answers the general call too
        self.memory = [0] * 32
        self.pointer = 0
        self.inside = self.first = self.due = False
        self.turn = None
        self.laid_out = 0xFF
        self.events = []

    def event(self, letter, byte, answer):
        self.events.append((letter, byte, answer, str(self.pointer)))

    def condition(self, letter):
        self.event(letter, "--", "-")
        self.inside = self.first = letter == "S"
        self.turn = None

    def lay_out(self):
        self.laid_out = self.memory[self.pointer]
        self.pointer = (self.pointer + 1) % len(self.memory)

    def letter(self, byte):
        """D for a later byte; G for a first one that is the general call, where that is answered; A for any other address."""
        if not self.first:
            return "D"
        return "G" if self.general_call and byte == 0 else "A"

    def hits(self, byte):
        """Whether a byte is an address of this device."""
        return self.letter(byte) == "G" or (self.first and byte >> 1 == ADD >> 1)

    def address(self, byte):
        self.turn, self.due = ("read", False) if byte & 1 else ("write", True)
        if self.turn == "read":
            self.lay_out()

    def written(self, byte):
        if self.due:
            self.pointer, self.due = byte % len(self.memory), False
        else:
            self.memory[self.pointer] = byte
            self.pointer = (self.pointer + 1) % len(self.memory)

    def read(self, answer):
        if answer == 0:
            self.lay_out()
        else:
            self.turn = None

    def byte(self, driven, ninth):
        """A whole byte with its ninth slot; its event has the pointer from before the handler call that follows."""
        if not self.inside:
            return
        hit = self.hits(driven)
        reading = not self.first and self.turn == "read"
        byte = driven & self.laid_out if reading else driven
        answer = 0 if hit or (self.turn == "write" and not self.first) else ninth
        self.event(self.letter(driven), f"{byte:02X}", str(answer))
        if hit:
            self.address(byte)
        elif self.turn == "write":
            self.written(byte)
        elif reading:
            self.read(answer)
        self.first = False


class TenBitDevice(Device):
    """What the supply of examples/ten_bit.c does: 16 bytes at the ten-bit address of the high byte F4 and the low byte A7."""

    def __init__(self):
        super().__init__(False)
        self.memory = list(range(0xD0, 0xE0))
        self.full = False  # both bytes of the address have matched

    def event(self, letter, byte, answer):
        """The report's own module, at ADD 30, takes no part: its pointer stays 0."""
        self.events.append((letter, byte, answer, "0"))

    def condition(self, letter):
        super().condition(letter)
        self.full = self.full and letter != "P"

    def hits(self, byte):
        """The high byte, to be read only after both bytes have matched; then the low byte."""
        if not self.first:
            return self.turn == "low" and byte == LOW
        return byte >> 1 == HIGH >> 1 and (self.full or byte & 1 == 0)

    def address(self, byte):
        if not self.first:
            self.turn, self.due = "write", True
        elif byte & 1:
            self.turn = "read"
            self.lay_out()
        else:
            self.turn = "low"

    def byte(self, driven, ninth):
        hit, first, low = self.hits(driven), self.first, self.turn == "low"
        super().byte(driven, ninth)
        if first:
            self.full = hit and driven & 1 == 1  # a first byte ends the match, but for a read that is answered
        elif low:
            self.full = hit
            self.turn = "write" if hit else None


def play(device, words):
    """A device after a recipe; its events are the last four columns of a report."""
    for word in words:
        literal = make_capture.LITERAL.match(word)
        if word in ("S", "P"):
            device.condition(word)
        elif literal:
            for letter in literal.group(2) or "":
                device.condition(letter)
        elif word != "i" and "." not in word:
            device.byte(0xFF if word in "an" else int(word, 16), 0 if word == "a" else 1)
    return device


def manifest():
    """The manifest's lines as (name, kind, options and recipe)."""
    with open(os.path.join(STORE, "manifest.txt"), encoding="ascii") as file:
        for line in file:
            if line.startswith("#"):
                continue
            name, kind, options, recipe, _ = (part.strip() for part in line.split("|", 4))
            a = make_capture.parser().parse_args(shlex.split(options) + recipe.split())
            yield name, kind, a


def read(path):
    with open(path, encoding="ascii", newline="") as file:
        return file.read()


def memory_after(name):
    """The last line of the lanes."""
    return [int(byte, 16) for byte in read(os.path.join(STORE, name + ".lanes")).splitlines()[-1].split()]


def faults(name, kind, a, text):
    """What is wrong with one capture and its report."""
    stored = os.path.join(STORE, name + ".txt")
    if (kind != "made") != os.path.exists(stored) or kind not in ("stored", "made", "ten_bit"):
        yield "the manifest and the folder differ on whether it is stored"
    elif kind != "made" and read(stored) != text:
        yield "the stored items are not those of the recipe"
    if len(text) > 60000:
        yield "longer than the report's input may be"
    lines = read(os.path.join(STORE, name + ".report")).splitlines()
    items = sum(1 for c in text if c in ("0123" if kind == "ten_bit" else "0123h"))
    if lines[0] != "item event byte ack pointer" or lines[-1] != f"end {items}":
        yield "the report's first or last line is wrong"
    events = [tuple(line.split()[1:]) for line in lines[1:-1]]
    device = play(TenBitDevice() if kind == "ten_bit" else Device(a.general_call), a.recipe)
    if events != device.events:
        yield "the report's events are not those of the recipe"
    if kind == "ten_bit" and memory_after(name) != device.memory:
        yield "the lanes do not end in the memory that the recipe leaves"


def main(arguments):
    if len(arguments) != 1:
        print("usage: captures.py OUT", file=sys.stderr)
        return 2
    os.makedirs(os.path.join(arguments[0], "ten_bit"), exist_ok=True)
    captures = wrong = 0
    for name, kind, a in manifest():
        text = make_capture.capture(a.recipe, a.samples, a.delay, a.seed, a.general_call, a.start_calls)
        folder = os.path.join(arguments[0], "ten_bit" if kind == "ten_bit" else "")
        with open(os.path.join(folder, name + ".txt"), "w", encoding="ascii") as file:
            file.write(text)
        captures += 1
        for fault in faults(name, kind, a, text):
            print(f"{name}: {fault}")
            wrong += 1
    known = {name for name, _, _ in manifest()}
    for file in sorted(os.listdir(STORE)):
        if file != "manifest.txt" and os.path.splitext(file)[0] not in known:
            print(f"{file}: not in the manifest")
            wrong += 1
    print(f"captures {captures} faults {wrong}")
    return 0 if captures > 0 and wrong == 0 else 1


if __name__ == "__main__":
    sys.exit(main(sys.argv[1:]))
