"""The lanes of record and model as a VCD: a signal for each, by changes. Numbers are a wire for each of their bits, which every
viewer takes (GTKWave joins them again; PulseView has no other signals)."""
import struct
from fractions import Fraction

from records import PICOSECONDS

MOST_PARTS = 2**31 - 1  # of a clock's step, as the program takes them

# Bits of a program's word, as include/wherryoar.h has them.
SDA_PULLED, SCL_PULLED, PHASE, BF, SSPIF, SSPOV = 1 << 2, 1 << 3, 4, 1 << 8, 1 << 16, 1 << 18
CALLED, STORED, START, CONFLICT, POINTER = 1 << 22, 1 << 23, 1 << 24, 1 << 26, 32

FLAGS = [("SSPIF", SSPIF), ("held", SCL_PULLED), ("pulls", SDA_PULLED), ("BF", BF), ("SSPOV", SSPOV),
         ("conflict", CONFLICT), ("called", CALLED), ("stored", STORED)]
PHASES = ("quiet", "address", "data", "held before acknowledge", "acknowledge slot", "held for sending", "sending",
          "master's acknowledge", "held for ADD")
REMARK = "phase: " + ", ".join(f"{number} {name}" for number, name in enumerate(PHASES))


def signals():
    """Each signal of the file: its scope, its declared name, and a place in a number made of level and word."""
    rows = [("record", "SCL", 1), ("record", "SDA", 0)]
    rows += [("model", name, bit.bit_length() + 1) for name, bit in FLAGS]
    rows += [("model", f"phase [{bit}]", PHASE + bit + 2) for bit in (3, 2, 1, 0)]
    return rows + [("model", f"pointer [{bit}]", POINTER + bit + 2) for bit in range(7, -1, -1)]


def is_fine(clock):
    """Whether items lie closer together than a nanosecond."""
    return clock is not None and clock.step < PICOSECONDS["ns"]


class LanesFile:
    """The VCD: its header, written here, and what the program is told so that it adds the changes. Times are in the units of a
    VCD that was read, else in nanoseconds, or in picoseconds where that is not enough."""

    def __init__(self, output, reader, version):
        self.output, self.reader = output, reader
        self.is_vcd = hasattr(reader, "sampler")
        self.unit = "1 ps" if not self.is_vcd and is_fine(reader.clock) else "1 ns"
        if self.is_vcd and reader.timescale:
            self.unit = reader.timescale
        output.write(self.header(version).encode("ascii"))

    def header(self, version):
        lines = [f"$version wherryoar {version} $end", f"$comment {REMARK} $end", f"$timescale {self.unit} $end"]
        scope = None
        for at, (where, name, _) in enumerate(signals()):
            if where != scope:
                lines += ["$upscope $end"] * (scope is not None) + [f"$scope module {where} $end"]
            scope = where
            lines.append(f"$var wire 1 {chr(ord('A') + at)} {name} $end")
        return "\n".join(lines + ["$upscope $end", "$enddefinitions $end"]) + "\n"

    def clock(self):
        """The time of the first item, and how far it is to the next; of items without times their numbers."""
        if self.is_vcd:
            return self.reader.first, Fraction(self.reader.sampler.period)
        if self.reader.clock is None:
            return 0, Fraction(1)
        return 0, (self.reader.clock.step / PICOSECONDS[self.unit[2:]]).limit_denominator(MOST_PARTS)

    def message(self):
        """The part of the stream that tells of signals and clock; the first item has to be known."""
        places = bytes(place for _, _, place in signals())
        first, step = self.clock()
        return struct.pack("<cI", b"v", len(places)) + places + struct.pack("<QQQ", first, step.numerator, step.denominator)
