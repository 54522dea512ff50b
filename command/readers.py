"""Tells what a capture's file is by its content, and reads it: digits, sigrok's binary form and sigrok's .sr; vcd.py and
columns.py read the other forms. A reader has pieces(), the record in parts, and a clock where the file tells the time."""
import configparser
import io
import re
import struct
import zipfile
import zlib

from columns import ColumnsReader, is_one_column, separator_of
from records import Bad, HIGHEST_LEVEL, MARK, PART, Source, clock_of_rate, in_pieces, rate_of, text_parts, two_chosen
from vcd import VcdReader

FORMS = ("vcd", "sr", "csv", "binary", "items")
ZIP = "a zip, as sigrok's .sr is"
DIGITS = "digits 0 to 3, as our items are"
VCD = "a VCD"
TEXT = "text"
BYTES = "bytes that are no text"
SIGNS = [(b"PK\3\4", ZIP), (b"PK\5\6", "an empty zip"), (b"\x1f\x8b", "a file packed by gzip"), (b"\x7fELF", "a program"),
         (b"\x89PNG", "a picture (PNG)"), (b"\xff\xd8\xff", "a picture (JPEG)"), (b"%PDF", "a PDF"),
         (b"7z\xbc\xaf\x27\x1c", "an archive of 7-Zip"), (b"\xff\xfe", "text in UTF-16"), (b"\xfe\xff", "text in UTF-16")]
CONTROL = bytes(byte for byte in range(32) if byte not in b"\t\n\r\f") + b"\x7f"
SPOILT = (zipfile.BadZipFile, zlib.error, struct.error, EOFError, OSError, ValueError, KeyError, NotImplementedError,
          RuntimeError)
TWO_COLUMNS = re.compile(rb"(?:[01](?: [01])+\r?\n){2,}")


# ---- What a file is ----

def looks_like(head):
    """What a file is by its first bytes, in words for its reader."""
    for sign, words in SIGNS:
        if head.startswith(sign):
            return words
    text = head[len(MARK):] if head.startswith(MARK) else head
    if not is_text(text):
        return BYTES
    if text.lstrip().startswith(b"$"):
        return VCD
    if not text.translate(None, b"0123gh \r\n") and not TWO_COLUMNS.match(text):
        return DIGITS
    return TEXT


def is_text(text):
    """Whether bytes are text: no control characters, something but blanks, and few letters that are not ASCII."""
    if text.translate(None, CONTROL) != text or not text.strip():
        return False
    return len(text.translate(None, bytes(range(128)))) * 10 < len(text)


def form_by_content(head):
    """The form of a file; Bad where it is none that can be told by content."""
    looks = looks_like(head)
    if not head.strip():
        raise Bad("there is no item in it, only blanks")
    if looks in (ZIP, VCD, DIGITS):
        return {ZIP: "sr", VCD: "vcd", DIGITS: "items"}[looks]
    lines = [line for line in head.decode("latin-1").splitlines()[:50] if line.strip()]
    if looks == TEXT and separator_of(lines):
        return "csv"
    if looks == TEXT and is_one_column(lines):
        raise Bad("it has one column alone, and SCL and SDA are two")
    if looks == TEXT:
        raise Bad(f"it is text, but no VCD, no digits and no table of levels; it begins with {lines[0][:40]!r}")
    hint = "; if it is sigrok's binary form, say --as binary" if looks == BYTES else ""
    raise Bad(f"it looks like {looks}, which is no capture that is read here{hint}")


def refuse_other(head, form):
    """A file that was said to be of a form must not look like another one."""
    looks = looks_like(head)
    fits = {"vcd": (VCD,), "sr": (ZIP,), "csv": (TEXT, DIGITS), "items": (DIGITS, TEXT), "binary": (BYTES,)}[form]
    if form == "binary" and looks in (TEXT, DIGITS, VCD) and b"\n" not in head:
        return  # a byte for each sample may be a letter; but no text comes without the end of a line
    if looks not in fits:
        raise Bad(f"it was said to be {form}, but it looks like {looks}")


def reader_of(source, options):
    """The reader of a file, by what it was said to be or by its content."""
    if not source.head:
        raise Bad("the file is empty")
    form = options.form or form_by_content(source.head)
    if options.form:
        refuse_other(source.head, form)
    if form != "vcd" and options.period != 1:
        raise Bad("--period is for a VCD, whose time units are no items")
    reader = {"vcd": VcdReader, "sr": SigrokReader, "csv": ColumnsReader, "binary": BinaryReader,
              "items": ItemsReader}[form](source, options)
    if options.rate and (form == "vcd" or reader.clock is not None or getattr(reader, "has_times", False)):
        raise Bad("it has times of its own: --rate is for a file that has none")
    if options.rate:
        reader.clock = clock_of_rate(options.rate)
    return reader


# ---- Digits ----

class ItemsReader:
    """Digits 0 to 3 (2 * SCL + SDA), spaces and newlines skipped."""

    table = bytes(byte - 0x30 if 0x30 <= byte <= 0x33 else 255 for byte in range(256))

    def __init__(self, source, _):
        self.source = source
        self.clock = None

    def pieces(self):
        items = taken = 0
        for part in text_parts(self.source):
            levels = part.translate(self.table, b" \r\n")
            if levels and max(levels) > HIGHEST_LEVEL:
                self.refuse(part, items, taken)
            yield from in_pieces(levels)
            items += len(levels)
            taken += len(part)

    def refuse(self, part, items, taken):
        """Names the first byte of a part that is no level."""
        at = re.search(rb"[^0-3 \r\n]", part).start()
        item, byte = items + len(part[:at].translate(None, b" \r\n")), part[at:at + 1]
        if byte == b"h":
            raise Bad(f"item {item} is a handler call (byte {taken + at}), which no wire record has")
        if byte == b"g" and taken + at == 0:
            raise Bad("byte 0 is g, which turns the general call on in a text of driven levels; a wire record has none")
        raise Bad(f"byte {taken + at} is no item: {byte!r}")


# ---- sigrok's binary form ----

def channel(text, default):
    """A channel's number, 0 to 7."""
    number = default if text is None else text
    if not re.match(r"[0-7]\Z", number):
        raise Bad(f"{number} is no channel of a binary capture: 0 to 7")
    return int(number)


def channels(scl, sda):
    """The channels of SCL and SDA, 1 and 0 unless given."""
    scl, sda = channel(scl, "1"), channel(sda, "0")
    if scl == sda:
        raise Bad(f"SCL and SDA are both channel {scl}")
    return scl, sda


def bits_to_levels(scl, sda):
    """The level of each byte that has the lines in two of its bits; a bit of None counts as 0."""
    def bit(byte, place):
        return 0 if place is None else byte >> place & 1

    return bytes(2 * bit(byte, scl) + bit(byte, sda) for byte in range(256))


class BinaryReader:
    """A byte for each sample, a bit for each channel."""

    def __init__(self, source, options):
        self.source = source
        self.clock = None
        self.table = bits_to_levels(*channels(options.scl, options.sda))

    def pieces(self):
        for part in self.source.parts():
            yield from in_pieces(part.translate(self.table))


# ---- sigrok's .sr ----

class SigrokReader:
    """A zip with metadata and the samples in logic-1-1, logic-1-2 and so on, a few bytes for each sample."""

    def __init__(self, source, options):
        self.source = source
        self.zip = self.opened()
        device = self.metadata()
        self.size = whole_number(device, "unitsize", 1)
        names = probe_names(device)
        self.scl, self.sda = two_chosen(options, names, "signal")
        if max(self.scl, self.sda) >= 8 * self.size:
            raise Bad(f"its metadata name more signals than the {self.size} bytes of a sample have bits")
        rate = device.get("samplerate")
        self.clock = clock_of_rate(rate_of(rate)) if rate and rate_of(rate) else None
        self.parts = self.part_names(device.get("capturefile", "logic-1"))

    def opened(self):
        if not self.source.file.seekable():
            raise Bad("a .sr has to be a file, not a pipe")
        try:
            return zipfile.ZipFile(self.source.file)
        except SPOILT as wrong:
            raise Bad(f"it begins as a zip, but has no end as one: it is cut short or spoilt ({wrong})") from None

    def metadata(self):
        """What the metadata say of the device."""
        if "metadata" not in self.zip.namelist():
            raise Bad(f"it is a zip, but no sigrok capture: there is no metadata in it, but {', '.join(self.zip.namelist()[:5])}")
        parser = configparser.ConfigParser(interpolation=None, strict=False, delimiters=("=",), comment_prefixes=("#",))
        try:
            parser.read_string(b"".join(self.read("metadata")).decode("utf-8", "replace"))
        except configparser.Error as wrong:
            raise Bad(f"its metadata cannot be read: {str(wrong).splitlines()[0]}") from None
        if "device 1" not in parser:
            raise Bad("its metadata have no [device 1]")
        return parser["device 1"]

    def part_names(self, name):
        """The parts of the samples in their order."""
        numbered = {int(found.group(1)): found.string for found in
                    (re.match(re.escape(name) + r"-([0-9]{1,9})\Z", entry) for entry in self.zip.namelist()) if found}
        if not numbered and name in self.zip.namelist():
            return [name]
        if not numbered:
            raise Bad(f"there are no samples in it: no {name}-1")
        for number in range(1, max(numbered) + 1):
            if number not in numbered:
                raise Bad(f"{name}-{number} is missing")
        return [numbered[number] for number in sorted(numbered)]

    def read(self, name):
        """A member of the zip in parts."""
        try:
            with self.zip.open(name) as file:
                yield from iter(lambda: file.read(PART), b"")
        except SPOILT as wrong:
            raise Bad(f"{name} in it cannot be read: {wrong}") from None

    def pieces(self):
        rest = b""
        self.source.size = sum(self.zip.getinfo(name).file_size for name in self.parts)
        for name in self.parts:
            for part in self.read(name):
                self.source.taken += len(part)
                part = rest + part
                whole = len(part) - len(part) % self.size
                rest = part[whole:]
                yield from in_pieces(self.levels(part[:whole]))
            if rest:
                raise Bad(f"{name} ends inside a sample of {self.size} bytes: the samples are cut short")

    def levels(self, samples):
        """The levels of whole samples; the lines may lie in different bytes."""
        place = {line: (samples[line // 8::self.size], line % 8) for line in (self.scl, self.sda)}
        (high, scl), (low, sda) = place[self.scl], place[self.sda]
        if self.scl // 8 == self.sda // 8:
            return high.translate(bits_to_levels(scl, sda))
        ored = (int.from_bytes(high.translate(bits_to_levels(scl, None)), "little") |
                int.from_bytes(low.translate(bits_to_levels(None, sda)), "little"))
        return ored.to_bytes(len(high), "little")


def whole_number(device, key, default):
    text = device.get(key, str(default))
    if not re.match(r"[1-9][0-9]{0,3}\Z", text):
        raise Bad(f"its metadata say {key}={text}")
    return int(text)


def probe_names(device):
    """The names of the probes by their bits; None where a bit has no probe."""
    probes = {int(key[5:]) - 1: name for key, name in device.items() if re.match(r"probe[1-9][0-9]{0,3}\Z", key)}
    return [probes.get(bit) for bit in range(max(probes, default=-1) + 1)]


def reader_of_data(data, form, options):
    """The reader of a file at hand, whose form is said."""
    source = Source(io.BytesIO(data))
    if form == "binary":
        refuse_other(source.head, form)
    return {"items": ItemsReader, "binary": BinaryReader, "vcd": VcdReader}[form](source, options)
