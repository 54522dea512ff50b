"""Reads SCL and SDA of a VCD as runs of levels: an item for each period of its time units, from its first time on.

Strict where the form has anything to hold on to: a line that is x, z or not known when it is sampled is wrong, and so is a
last line that is not ended. A last time without any change ends the record and is not sampled, as sigrok has it. A VCD cut
exactly between two of its lines is a shorter VCD: nothing in the form tells it.
"""
import itertools
import re
from array import array

from records import Bad, Clock, PICOSECONDS, Runs, lines_in_parts, two_chosen

KEYWORDS = (b"$comment", b"$date", b"$version", b"$scope", b"$upscope", b"$timescale")
DUMPS = (b"$dumpvars", b"$dumpall", b"$dumpon", b"$dumpoff", b"$end")
TIMESCALE = re.compile(r"(1|10|100) ?(s|ms|us|ns|ps|fs)\Z")
VALUES = b"01xz"  # of a line; one that has none yet is the fifth
LONG_VALUES = (b"b", b"r", b"s")  # how a vector, a real number and a string begin
NONE = len(VALUES)
MOST_KNOWN = 10_000
MOST_DIGITS = 19  # of a time
CUT_SHORT = "the last line is not ended: the file is cut short"

# The lines' values as one number, 5 * SCL + SDA, and the level that it stands for.
LEVEL = [2 * (both // 5) + both % 5 if both // 5 < 2 and both % 5 < 2 else None for both in range(25)]
SAME = bytes(range(25))  # what a change of another signal does to them


class Words:
    """The words of a text, part by part, and the lines on which they stand. A part comes in pieces, each but the first from a
    time at the beginning of a line up to the next one, without its mark (#)."""

    def __init__(self, source):
        self.parts = lines_in_parts(source, "VCD", b"\n \t\r")
        self.part, self.line = b"", 1
        self.pieces, self.next = [], 0
        self.words, self.at = [], 0  # of the piece before the next one

    def refill(self):
        """Goes on to the next part; answers whether there is one."""
        part, line = next(self.parts, (None, 0))
        if part is None:
            return False
        self.part, self.line, self.pieces = part, line, part.split(b"\n#")
        self.skip_to(0)
        try:
            part.decode("utf-8")
        except UnicodeDecodeError as wrong:
            self.skip_to(part.count(b"\n#", 0, wrong.start))
            self.open()
            self.at = len((part[part.rfind(b"\n#", 0, wrong.start) + 1:wrong.start] + b"x").split())
            raise Bad(f"the byte {part[wrong.start]:02X} is not ASCII, nor UTF-8") from None
        return True

    def skip_to(self, piece):
        """Goes on with a piece of the part."""
        self.next, self.words, self.at = piece, [], 0

    def piece(self, number):
        """A piece with its mark."""
        return (b"#" if number else b"") + self.pieces[number]

    def open(self):
        self.words, self.at = self.piece(self.next).split(), 0
        self.next += 1

    def is_at_time(self):
        """Whether a time at the beginning of a line comes next."""
        return self.at == len(self.words) and 0 < self.next < len(self.pieces)

    def has_more(self):
        """Whether there may be words left of the part."""
        return self.at < len(self.words) or self.next < len(self.pieces)

    def gap(self):
        """What stands between a time and its changes, as the next piece has it."""
        found = re.match(rb"[0-9]+(\s+)", self.pieces[self.next])
        return found.group(1) if found else b"\n"

    def take(self):
        """The next word; None at the end."""
        while self.at == len(self.words):
            if self.has_more():
                self.open()
            elif not self.refill():
                return None
        self.at += 1
        return self.words[self.at - 1]

    def section(self, keyword):
        """The words up to the $end of a section."""
        inside, word = [], self.take()
        while word != b"$end":
            if word is None:
                raise Bad(f"{shown(keyword)} has no $end: the file is cut short")
            inside.append(word.decode("utf-8"))
            word = self.take()
        return inside

    def is_cut(self):
        """Whether the word that was taken last is the file's end, without the end of a line."""
        return not self.has_more() and not self.part[-1:].isspace()

    def here(self):
        """The line of the word that was taken last."""
        if self.next == 0:
            return self.line
        before = b"\n#".join(self.pieces[:self.next - 1] + [b""])
        found = next(itertools.islice(re.finditer(rb"\S+", self.piece(self.next - 1)), max(self.at - 1, 0), None), None)
        return self.line + before.count(b"\n") + (self.piece(self.next - 1).count(b"\n", 0, found.start()) if found else 0)


def shown(word):
    """A word for a message, not too long."""
    text = word.decode("utf-8", "replace")
    return text if len(text) <= 40 else text[:40] + ".."


class Signal:
    """A declared signal: its name, the scopes it stands in, its identifier and whether it is one bit wide."""

    def __init__(self, words, scopes):
        if len(words) < 4:
            raise Bad(f"a $var of {len(words)} words: {' '.join(words)}")
        self.code = words[2].encode("utf-8")
        self.is_bit = words[1] == "1"
        parts = words[3:]
        bit = parts.pop() if len(parts) > 1 and parts[-1].startswith("[") else "[0]"
        self.name = " ".join(parts) + (bit if self.is_bit and bit != "[0]" else "")
        self.path = ".".join([*scopes, self.name])


class Header:
    """Everything up to $enddefinitions."""

    def __init__(self, words):
        self.signals, self.scopes, self.timescale, self.unit = [], [], None, None
        keyword = words.take()
        while keyword is not None:
            self.take(keyword, words.section(keyword))
            if keyword == b"$enddefinitions":
                return
            keyword = words.take()
        raise Bad("there is no $enddefinitions: the file is cut short, or it is no VCD")

    def take(self, keyword, inside):
        if keyword == b"$var":
            self.signals.append(Signal(inside, self.scopes))
        elif keyword == b"$scope":
            self.scopes.append(inside[-1] if inside else "")
        elif keyword == b"$upscope":
            del self.scopes[-1:]
        elif keyword == b"$timescale":
            found = TIMESCALE.match(" ".join(inside))
            if found:
                self.timescale = " ".join(found.groups())
                self.unit = int(found.group(1)) * PICOSECONDS[found.group(2)]
        elif keyword not in KEYWORDS and keyword != b"$enddefinitions":
            raise Bad(f"{shown(keyword)} where a declaration should be")

    def lines(self, options):
        """The signals of SCL and SDA. One name for several signals is told apart by the scopes before it."""
        signals = list({(signal.name, signal.code): signal for signal in self.signals}.values())
        names = [signal.name for signal in signals]
        told = [signal.path if names.count(signal.name) > 1 else signal.name for signal in signals]
        lines = [signals[place] for place in two_chosen(options, told, "signal")]
        for line in lines:
            if not line.is_bit:
                raise Bad(f"the signal {line.name} is not one bit wide")
        return lines


class Sampler:
    """Puts down a run for the time that each level stood."""

    def __init__(self, lines, period):
        self.lines = lines
        self.period = period
        self.both = 5 * NONE + NONE
        self.time = self.due = None  # the time reached, and that of the next item
        self.has_changed = False     # since the time began
        self.total = False           # whether there was any item yet
        self.tables = {}             # what each known word does to the lines' values, and what rows of them do
        self.rows = {}
        self.levels, self.counts = bytearray(), array("Q")

    def flush(self):
        """The runs so far."""
        runs = Runs(bytes(self.levels), self.counts)
        self.levels, self.counts = bytearray(), array("Q")
        return runs

    def put(self, level, count):
        self.total = True
        if self.levels and self.levels[-1] == level:
            self.counts[-1] += count
        else:
            self.levels.append(level)
            self.counts.append(count)

    def level(self):
        for line, value in zip(self.lines, divmod(self.both, 5)):
            if value > 1:
                told = "has no value" if value == NONE else f"is {chr(VALUES[value])}"
                raise Bad(f"the signal {line.name} {told} at time {self.time}")
        return LEVEL[self.both]

    def settle(self, end):
        """The values of the time reached hold up to a later one, which is not yet sampled."""
        level = self.level()
        if self.due < end:
            count = (end - 1 - self.due) // self.period + 1
            self.put(level, count)
            self.due += count * self.period

    def move(self, time):
        if self.time is None:
            self.due = time
        elif time < self.time:
            raise Bad(f"time runs backwards, from {self.time} to {time}")
        elif time > self.time:
            self.settle(time)
            self.has_changed = False
        self.time = time

    def take(self, value, code):
        """A value change; other signals may have any value. Answers what it does to the lines' values."""
        is_own = [code == line.code for line in self.lines]
        if any(is_own) and value not in (b"0", b"1", b"x", b"z"):
            raise Bad(f"{shown(value)} is no value of one bit")
        place = VALUES.find(value)
        table = bytes(5 * (place if is_own[0] else both // 5) + (place if is_own[1] else both % 5)
                      for both in SAME) if any(is_own) else SAME
        self.both, self.has_changed = table[self.both], True
        return table

    def take_word(self, word):
        """A value change of one character, with its identifier."""
        table = self.tables.get(word)
        if table is not None:
            self.both, self.has_changed = table[self.both], True
            return
        table = self.take(word[:1].lower(), word[1:])
        if len(self.tables) < MOST_KNOWN:
            self.tables[word] = table

    def row(self, text):
        """What known words do one after the other, and values of other signals; None where one is another."""
        words, whole = iter(text.split()), SAME
        for word in words:
            table = self.tables.get(word) or self.of_other(word, words)
            if table is None:
                return None
            if table is not SAME:
                whole = whole.translate(table.ljust(256))
        if len(self.rows) < MOST_KNOWN:
            self.rows[text] = whole
        return whole

    def of_other(self, word, words):
        """The same for a value of more than one character and its identifier, which is the next word: another signal's."""
        code = next(words, None) if word[:1].lower() in LONG_VALUES and len(word) > 1 else None
        return None if code is None or code in (self.lines[0].code, self.lines[1].code) else SAME

    def finish(self):
        """The last time is sampled if it brought a change, or if it is the only one."""
        if self.time is None:
            raise Bad("there is no time in it")
        if self.has_changed or not self.total:
            self.settle(self.time + 1)

    def take_known(self, words):
        """As many pieces as are a later time and known changes, quickly, but for the part's last one, which may go on; the first
        other one is left, and so is a wrong one."""
        rows, both, time, due, period = self.rows, self.both, self.time, self.due, self.period
        levels, counts, last = self.levels, self.counts, None
        at, gap, pieces = words.next - 1, words.gap(), words.pieces
        for at in range(words.next, len(pieces) - 1):
            digits, _, changes = pieces[at].partition(gap)
            table, level = rows.get(changes) or self.row(changes), LEVEL[both]
            if table is None or level is None or not digits.isdigit() or len(digits) > MOST_DIGITS:
                break
            now = int(digits)
            if now <= time:
                break
            if due < now:
                count = (now - 1 - due) // period + 1
                due += count * period
                if level == last:
                    counts[-1] += count
                else:
                    levels.append(level)
                    counts.append(count)
                    last = level
            time, both = now, table[both]
        else:
            at += 1
        if at > words.next:
            self.total, self.has_changed = self.total or len(levels) > 0, len(pieces[at - 1].split()) > 1
            self.both, self.time, self.due = both, time, due
            words.skip_to(at)


class VcdReader:
    """The runs of a VCD; its clock stands as soon as there is one."""

    def __init__(self, source, options):
        self.words = Words(source)
        self.clock = None
        self.first = None  # the time of the first item, in the file's own units
        self.located(self.begin, options)

    def located(self, work, *words):
        """Does a work whose complaints are told with their lines."""
        try:
            return work(*words)
        except Bad as wrong:
            told = CUT_SHORT if self.words.is_cut() else wrong
            raise Bad(f"line {self.words.here()}: {told}") from None

    def begin(self, options):
        header = Header(self.words)
        self.sampler = Sampler(header.lines(options), options.period)
        self.unit, self.timescale = header.unit, header.timescale

    def pieces(self):
        is_more = True
        while is_more:
            is_more = self.located(self.take_part)
            yield self.sampler.flush()

    def take_part(self):
        """A part's words, or the last ones; answers whether there may be more."""
        words, sampler = self.words, self.sampler
        while words.has_more() or words.refill():
            if sampler.time is not None and words.is_at_time():
                sampler.take_known(words)
            word = words.take()
            if word is not None:
                self.take_word(word)
            if sampler.levels and not words.has_more():
                return True
        if not words.part.endswith(b"\n"):
            raise Bad(CUT_SHORT)
        sampler.finish()
        return False

    def take_word(self, word):
        """One word after the header, with what belongs to it."""
        first = word[:1].lower()
        if first == b"#":
            self.take_time(word)
        elif first in (b"0", b"1", b"x", b"z") and len(word) > 1:
            self.sampler.take_word(word)
        elif first in LONG_VALUES and len(word) > 1:
            self.take_vector(word)
        elif word == b"$comment":
            self.words.section(word)
        elif word not in DUMPS:
            raise Bad(f"{shown(word)} is no value change")

    def take_time(self, word):
        if not word[1:].isdigit() or len(word) > 1 + MOST_DIGITS:
            raise Bad(f"{shown(word)} is no time")
        self.sampler.move(int(word[1:]))
        if self.first is None:
            self.first = self.sampler.time
            self.clock = Clock(self.unit * self.sampler.period, self.unit * self.first) if self.unit else None

    def take_vector(self, word):
        """A value of more than one character, with its identifier in the next word."""
        code = self.words.take()
        if code is None:
            raise Bad(f"{shown(word)} has no identifier: the file is cut short")
        is_own = any(code == line.code for line in self.sampler.lines)
        if is_own and (word[:1] not in b"bB" or len(word) != 2):
            raise Bad(f"{shown(word)} is no value of one bit")
        self.sampler.take(word[1:].lower(), code)
