"""Reads SCL and SDA from a table of levels: text in columns, a row for each item, as sigrok, Saleae and others export it.

A table with the same columns in every row is taken in large parts at once; what is not so regular goes row by row.
"""
import collections
import csv
import re
from array import array

from records import Bad, CHUNK, HEAD, Levels, MARK, PICOSECONDS, clock_of_rate, lines_in_parts, rate_of, two_chosen

SEPARATORS = ",;\t| "
SAMPLE_ROWS = 50
NUMBER = re.compile(r"[+-]?(?:[0-9]+(?:[.,][0-9]*)?|[.,][0-9]+)(?:[eE][+-]?[0-9]+)?\Z")
TIME_NAME = re.compile(r"(?:time(?:stamp)?|t|seconds?)(?=[^a-z0-9]|\Z)", re.IGNORECASE)
UNIT = re.compile(r"(?:[\[(]\s*|[_ ])(s|ms|us|\u00b5s|\u03bcs|ns|ps)\s*[\])]?\Z")
SIGROK_UNITS = {"seconds": "s", "milliseconds": "ms", "microseconds": "us", "nanoseconds": "ns", "picoseconds": "ps"}
SIGROK_KINDS = re.compile(r"(?:logic|samples|trigger|.*[VA](?: (?:AC|DC).*)?|" + "|".join(SIGROK_UNITS) + r")\Z")


def is_remark(line):
    """A line of sigrok's that is no row: a comment, or what it learned on the way. A blank line is none either."""
    return line.startswith((";", "META ")) or not line.strip()


def number(text):
    """The number in a field, where a comma may stand for the point; None where there is none."""
    text = text.strip()
    return float(text.replace(",", ".")) if NUMBER.match(text) else None


def split(lines, separator):
    """The fields of some lines."""
    if separator == " ":
        return [line.split() for line in lines]
    try:
        plain = (line.replace("\r", " ") for line in lines)
        return [[field.strip() for field in row] for row in csv.reader(plain, delimiter=separator)]
    except csv.Error:
        return [[line] for line in lines]  # what is no row at all is one of a single field


def level_columns(rows):
    """How many columns have levels alone, in rows of one length."""
    return sum(all(field in ("0", "1") for field in column) for column in zip(*rows))


def separator_of(lines):
    """The separator that gives most rows one length, and most columns of levels; None where there is none."""
    best, most = None, -1
    for separator in SEPARATORS:
        rows = split(lines, separator)
        width, agreeing = collections.Counter(map(len, rows)).most_common(1)[0]
        if width < 2 or 2 * agreeing <= len(rows):
            continue
        levels = level_columns([row for row in rows[1:] if len(row) == width] or rows[:1])
        if levels > most:
            best, most = separator, levels
    return best


def is_header(fields):
    """Whether the first row names the columns: it has a text where the next row has a number, or there is no next row."""
    first, second = fields[0], fields[1] if len(fields) > 1 else []
    texts = [place for place, field in enumerate(first) if field and number(field) is None]
    return any(place >= len(second) or number(second[place]) is not None for place in texts)


class Layout:
    """What the first lines tell: separator, names, the column of times and its unit, a sample rate."""

    def __init__(self, head):
        lines = decoded(head[:head.rfind(b"\n") + 1] if len(head) == HEAD else head).split("\n")
        remarks = [line for line in lines[:SAMPLE_ROWS] if is_remark(line)]
        rows = [line.rstrip("\r") for line in lines if not is_remark(line)][:SAMPLE_ROWS]
        self.separator = separator_of(rows) if rows else None
        if self.separator is None:
            raise Bad(no_columns(rows))
        fields = split(rows, self.separator)
        self.width = len(fields[0])
        self.remarks(remarks)
        self.has_header = is_header(fields) or fields[0] == self.channels
        self.kinds = fields[0] if self.has_header else [""] * self.width
        self.names = self.column_names()
        self.time = self.time_column(fields[1:] if self.has_header else fields)
        self.unit = self.time_unit()

    def remarks(self, lines):
        """sigrok's comments name the channels and the sample rate."""
        self.channels, self.rate = None, None
        for line in lines:
            names = re.match(r"; Channels \(\d+/\d+\): (.*)", line)
            rate = re.match(r"(?:; Samplerate|META samplerate): (.*)", line)
            if names:
                self.channels = [name.strip() for name in names.group(1).split(",")]
            if rate:
                self.rate = rate_of(rate.group(1))

    def column_names(self):
        """The header's names; where it has sigrok's kinds of columns, the channels that its comment names."""
        if not self.channels or not all(SIGROK_KINDS.match(kind) for kind in self.kinds):
            return [kind or None for kind in self.kinds]
        before = self.width - len(self.channels)
        is_trigger = self.kinds[-1] == "trigger"
        names = [None] * (before - is_trigger) + self.channels + [None] * is_trigger
        return names[:self.width]

    def time_column(self, rows):
        """By its name, or as the first column of rising numbers with a point in them; None where there is none."""
        for place, kind in enumerate(self.kinds):
            if TIME_NAME.match(kind) or kind in SIGROK_UNITS:
                return place
        for place, column in enumerate(zip(*rows)):
            values = [number(field) for field in column]
            if None not in values and any("." in field or "," in field for field in column) and rises(values):
                return place
        return None

    def time_unit(self):
        """Seconds that a number of the time column stands for."""
        if self.time is None:
            return None
        kind = self.kinds[self.time]
        found = UNIT.search(kind)
        return PICOSECONDS[found.group(1) if found else SIGROK_UNITS.get(kind, "s")] / 10**12


def rises(values):
    return len(values) > 1 and all(a < b for a, b in zip(values, values[1:]))


def is_one_column(lines):
    """Whether lines, but for a header, are a level each."""
    return len(lines) > 1 and all(re.match(r"[01]\s*\Z", line) for line in lines[1:])


def no_columns(rows):
    if not rows:
        return "there is no row in it"
    return f"its rows have no columns of one number, separated by comma, semicolon, tab, bar or space: {rows[0][:40]!r}"


class ColumnsReader:
    """The items of a table."""

    def __init__(self, source, options):
        self.source = source
        self.layout = layout = Layout(source.head)
        self.scl, self.sda = self.columns(options)
        self.clock = clock_of_rate(layout.rate) if layout.rate and layout.time is None else None
        self.has_times = layout.time is not None
        self.is_begun = not layout.has_header
        self.last_time = None
        separator = layout.separator.encode("ascii")
        self.pattern = separator * (layout.width - 1) + b"\n"
        self.others = bytes(byte for byte in range(256) if byte not in self.pattern)

    def columns(self, options):
        layout = self.layout
        if not options.scl and not options.sda and not any(layout.names):
            raise Bad(f"its {layout.width} columns have no names: say which are SCL and SDA by their numbers, such as"
                      f" --scl {layout.width - 1} --sda {layout.width}")
        return two_chosen(options, [name or "" for name in layout.names], "column")

    def pieces(self):
        for part, line in lines_in_parts(self.source, "table"):
            levels, times = self.regular(part) or self.by_rows(part, line)
            for at in range(0, len(levels), CHUNK):
                yield Levels(levels[at:at + CHUNK], times[at:at + CHUNK] if times is not None else None)

    def regular(self, part):
        """The levels and times of a part whose rows are all alike; None where they are not, or something is wrong."""
        separator, width = self.pattern[:1], self.layout.width
        part = part.replace(b"\r", b"")
        if separator != b" ":
            part = part.replace(b" ", b"")
        if separator != b",":
            part = part.replace(b",", b".")
        rows = part.count(b"\n")
        if not self.is_begun or part.translate(None, self.others) != self.pattern * rows or part[-1:] != b"\n":
            return None
        if b"_" in part:  # Python reads 1_0 as a number
            return None
        if len(part) == 2 * width * rows and not self.has_times:
            scl, sda = (part[2 * column::2 * width] for column in (self.scl, self.sda))
            return None if (scl + sda).translate(None, b"01") else (both(scl, sda), None)
        fields = part.replace(b"\n", separator).split(separator)
        scl, sda = (digits(fields[column:-1:width], separator) for column in (self.scl, self.sda))
        times = self.regular_times(fields) if self.has_times and scl and sda else None
        return None if not scl or not sda or self.has_times and times is None else (both(scl, sda), times)

    def regular_times(self, fields):
        """The times of a regular part, if they are numbers that do not run backwards."""
        texts = fields[self.layout.time:-1:self.layout.width]
        try:
            values = list(map(float, texts))
        except ValueError:
            return None
        first = values[0] if self.last_time is None else self.last_time
        if sorted(values) != values or not first <= values[0] or not values[-1] < float("inf"):
            return None
        self.last_time = values[-1]
        return array("d", values if self.layout.unit == 1 else [value * self.layout.unit for value in values])

    def by_rows(self, part, line):
        """The same row by row; what is wrong is told with its line."""
        levels, times = bytearray(), array("d") if self.has_times else None
        for place, text in enumerate(decoded(part).split("\n"), line):
            text = text.rstrip("\r")
            if is_remark(text):
                continue
            if not self.is_begun:
                self.is_begun = True
                continue
            fields = self.row(text, place)
            levels.append(2 * self.level(fields, self.scl, place) + self.level(fields, self.sda, place))
            if self.has_times:
                times.append(self.row_time(fields, place) * self.layout.unit)
        return bytes(levels), times

    def row(self, text, place):
        fields = split([text], self.layout.separator)[0]
        if len(fields) != self.layout.width:
            raise Bad(f"line {place} has {len(fields)} columns, not {self.layout.width}")
        return fields

    def level(self, fields, column, place):
        text = fields[column]
        if text in ("0", "1"):
            return int(text)
        name = self.layout.names[column] or column + 1
        if number(text) is not None:
            raise Bad(f"line {place}: column {name} is {text}, no level 0 or 1; volts are not taken: export levels")
        raise Bad(f"line {place}: column {name} is {text!r}, no level 0 or 1")

    def row_time(self, fields, place):
        text = fields[self.layout.time]
        value = number(text)
        if value is None:
            raise Bad(f"line {place}: the time {text!r} is no number")
        if self.last_time is not None and value < self.last_time:
            raise Bad(f"line {place}: time runs backwards, from {self.last_time} to {value}")
        self.last_time = value
        return value


def digits(fields, separator):
    """Fields of a single 0 or 1 each, as one string; None where one is another. As many separators as there are places between
    the even ones leave the even ones alone only if each field is one digit."""
    text = separator.join(fields)
    if len(text) != 2 * len(fields) - 1 or text[0::2].translate(None, b"01"):
        return None
    return text[0::2]


def both(scl, sda):
    """The levels of two strings of 0 and 1."""
    high = int.from_bytes(scl.translate(bytes.maketrans(b"01", b"\0\2")), "little")
    low = int.from_bytes(sda.translate(bytes.maketrans(b"01", b"\0\1")), "little")
    return (high | low).to_bytes(len(scl), "little")


def decoded(part):
    """A text in UTF-8, or where it is none in the older form of one byte for each letter."""
    part = part[len(MARK):] if part.startswith(MARK) else part
    try:
        return part.decode("utf-8")
    except UnicodeDecodeError:
        return part.decode("latin-1")
