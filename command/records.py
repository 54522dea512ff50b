"""What the readers of wire records share: their pieces, their times, the file they read and the sentences for what is wrong."""
import re
from fractions import Fraction

HEAD = 65536      # bytes of a file that are looked at to tell what it is
PART = 1 << 20    # bytes read at a time
CHUNK = 65536     # items or runs in a piece
HIGHEST_LEVEL = 3
MARK = b"\xef\xbb\xbf"  # the byte order mark that some programs put before UTF-8

PICOSECONDS = {"s": 10**12, "ms": 10**9, "us": 10**6, "\u00b5s": 10**6, "\u03bcs": 10**6, "ns": 1000, "ps": 1,
               "fs": Fraction(1, 1000)}
HERTZ = {"": 1, "hz": 1, "k": 10**3, "khz": 10**3, "m": 10**6, "mhz": 10**6, "g": 10**9, "ghz": 10**9}


class Bad(Exception):
    """What is wrong with the input, for the reader's eyes; of another file than the capture, or of the options, if so named."""

    def __init__(self, words, of=None):
        super().__init__(words)
        self.of = of

    def __reduce__(self):
        return Bad, (str(self), self.of)


class Levels:
    """Items one by one: a byte of 0 to 3 for each, and their times in seconds where the file has them."""

    def __init__(self, levels, times=None):
        self.levels = levels
        self.times = times


class Runs:
    """Runs of equal items: a level and a count for each."""

    def __init__(self, levels, counts):
        self.levels = levels
        self.counts = counts


class Clock:
    """The time of an item by its number, in picoseconds: where the first one lies, and how far it is to the next."""

    def __init__(self, step, start=0):
        self.step = Fraction(step)
        self.start = Fraction(start)
        self.parts = self.step.denominator * self.start.denominator  # of a picosecond, in which both are whole
        self.whole_step, self.whole_start = int(self.step * self.parts), int(self.start * self.parts)

    def at(self, item):
        return (2 * (self.whole_start + item * self.whole_step) + self.parts) // (2 * self.parts)

    def item_at(self, picoseconds):
        """The first item that is not before a time, both rounded to the picosecond."""
        return max(0, -((self.start - picoseconds + Fraction(1, 2)) // self.step))


def clock_of_rate(hertz):
    return Clock(Fraction(10**12) / hertz)


def number_and_unit(text, units):
    """A number with a unit behind it, such as 1.5ms or 24 MHz, in the unit that counts as 1; None where it is none."""
    found = re.match(r"([+-]?[0-9]+(?:\.[0-9]+)?)\s*([^\W\d_]*)\Z", text.strip())
    if not found or found.group(2) not in units:
        return None
    return Fraction(found.group(1)) * units[found.group(2)]


def rate_of(text):
    """A sample rate such as 1000000, 24MHz or 1 MHz; None where it is none, or not from once a second to once a picosecond."""
    rate = number_and_unit(text.lower(), HERTZ)
    return rate if rate is not None and 1 <= rate <= PICOSECONDS["s"] else None


class Source:
    """A file whose first bytes are looked at before it is read."""

    def __init__(self, file, size=0):
        self.file = file
        self.size = size
        self.taken = 0  # bytes, for a progress bar
        self.head = self.read(HEAD)

    def parts(self):
        """The bytes in parts, from the beginning."""
        part = self.head
        while part:
            self.taken += len(part)
            yield part
            part = self.read(PART)

    def read(self, size):
        try:
            return self.file.read(size)
        except OSError as wrong:
            raise Bad(f"it cannot be read: {wrong.strerror}") from None


def text_parts(source):
    """The parts of a text, without a byte order mark."""
    is_first = True
    for part in source.parts():
        yield part[len(MARK):] if is_first and part.startswith(MARK) else part
        is_first = False


def lines_in_parts(source, what, ends=b"\n"):
    """The parts of a text, each cut behind a line's end (or another byte in ends), and the number of the first line in it."""
    rest, line = b"", 1
    for part in text_parts(source):
        cut = max(part.rfind(end) for end in (ends[at:at + 1] for at in range(len(ends)))) + 1
        if cut == 0:
            rest += part
            if len(rest) > 4 * PART:
                raise Bad(f"line {line} is longer than {4 * PART} bytes, which no {what} has")
            continue
        whole = rest + part[:cut]
        yield whole, line
        line += whole.count(b"\n")
        rest = part[cut:]
    if rest:
        yield rest, line


def in_pieces(levels):
    """Items in pieces that are not too long."""
    for at in range(0, len(levels), CHUNK):
        yield Levels(levels[at:at + CHUNK])


def chosen(wanted, names, what):
    """The place of a name among names: as it stands, or but for capitals; a number counts from 1 where no name fits."""
    for same in (lambda name: name == wanted, lambda name: name.lower() == wanted.lower()):
        places = [place for place, name in enumerate(names) if name is not None and same(name)]
        if len(places) > 1:
            raise Bad(f"there are two {what}s {wanted}")
        if places:
            return places[0]
    if re.match(r"[0-9]{1,6}\Z", wanted) and 1 <= int(wanted) <= len(names) and names[int(wanted) - 1] is not None:
        return int(wanted) - 1
    raise Bad(missing(wanted, names, what))


def missing(wanted, names, what):
    there = ", ".join(name for name in names if name)
    return f"there is no {what} {wanted}; " + (f"there are: {there}" if there else f"the {what}s have no names")


def two_chosen(options, names, what):
    """The places of SCL and SDA among names."""
    both = options.scl or "SCL", options.sda or "SDA"
    for wanted in both:
        if names.count(wanted) > 1:
            raise Bad(f"there are two {what}s {wanted}")
    scl, sda = (chosen(wanted, names, what) for wanted in both)
    if scl == sda:
        raise Bad(f"SCL and SDA are both the {what} {names[scl] or scl + 1}")
    return scl, sda
