"""The table: a line for each Start, Stop and byte of a record, what the wire shows beside what the model would do."""

PLACE = "{:>10}  {:>14}  "
SAID = "{:<12}  {:<8}  {:<4}  {:<9}  {:<7}  {:<8}"
HEADER = (PLACE + SAID).format("item", "time", "event", "byte", "wire", "model", "pointer", "stored").rstrip()
MOST_KNOWN = 10_000
PULLS = "the model pulls SDA where the wire is high"
MODEL = {b"-": "-", b"a": "ack", b"n": "nack", b"u": "sends ?", b"o": "elsewhere"}


def counted(count, what):
    return f"{count} {what}{'' if count == 1 else 's'}"


def engineering(picoseconds):
    """A time down to the nanosecond: 12.345 us."""
    sign, picoseconds = ("-", -picoseconds) if picoseconds < 0 else ("", picoseconds)
    nanoseconds = picoseconds // 1000
    if nanoseconds < 10**3:
        return f"{sign}{nanoseconds}.{picoseconds % 1000:03d} ns"
    if nanoseconds < 10**6:
        return f"{sign}{nanoseconds // 10**3}.{nanoseconds % 10**3:03d} us"
    if nanoseconds < 10**9:
        return f"{sign}{nanoseconds // 10**6}.{nanoseconds % 10**6:06d} ms"
    return f"{sign}{nanoseconds // 10**9}.{nanoseconds % 10**9:09d} s"


def picoseconds_at(clock, item, time):
    """The time of an item: its own in seconds where it has one, else by the clock; None where there is neither."""
    if time != b"-":
        return round(float(time) * 1e12)
    return None if clock is None else clock.at(item)


class Said:
    """What a line of the program says behind its place, and the text for it: the same for many lines, and made once for them."""

    def __init__(self, kind, fields):
        self.event, self.byte, self.wire, self.model, self.pointer, self.stored = "", "", "", "", "", ""
        self.is_hit = self.is_unknown = False
        self.differences = []
        {b"B": self.take_byte, b"C": self.take_cut_off}.get(kind, self.take_event)(kind, *fields)
        self.text = SAID.format(self.event, self.byte, self.wire, self.model, self.pointer, self.stored)
        self.text = self.text + "  < " + ", ".join(self.differences) if self.differences else self.text.rstrip()

    def take_event(self, kind, conflict):
        self.event = {b"S": "Start", b"P": "Stop", b"X": "end"}[kind]
        self.clash(conflict)

    def take_cut_off(self, _, count, bits, conflict):
        self.event = "cut off"
        self.byte = f"{int(bits, 16):0{int(count)}b}"
        self.wire = self.model = "-"
        self.clash(conflict)

    def clash(self, conflict):
        if conflict == b"1" and not self.differences:
            self.differences.append(PULLS)

    def take_byte(self, _, hit, byte, answer, model, sent, conflict, pointer, place, stored):
        self.byte, self.wire = byte.decode(), "ack" if answer == b"0" else "nack"
        self.is_hit = hit in (b"1", b"2")
        self.event = event_of(hit, int(byte, 16))
        self.is_unknown = model == b"u"
        self.model = "sends " + sent.decode() if model == b"s" else MODEL[model]
        self.pointer = "-" if model == b"-" else pointer.decode()
        self.stored = "" if place == b"-" else f"{stored.decode()} at {place.decode()}"
        self.compare(model, sent.decode())
        self.clash(conflict)

    def compare(self, model, sent):
        if model == b"a" and self.wire == "nack":
            self.differences.append("the model acknowledges, the wire does not")
        elif model == b"n" and self.wire == "ack":
            self.differences.append("the wire acknowledges, the model does not")
        elif model == b"s" and sent != self.byte:
            self.differences.append(f"the model sends {sent}, the wire has {self.byte}")
        elif model == b"o":
            self.differences.append("the model is at another place of a message")


class Row:
    """A line of the table, by the program's line."""

    known = {}  # what lines say, by what stands behind their place

    def __init__(self, line):
        self.kind, item, self.time, *self.span, said = line.split(b" ", 5)
        self.item = int(item)
        self.said = self.known.get((self.kind, said)) or self.learn(said)

    def learn(self, said):
        if len(self.known) >= MOST_KNOWN:
            self.known.clear()
        self.known[self.kind, said] = known = Said(self.kind, said.split())
        return known

    def begin(self):
        return int(self.span[0]) if self.span else self.item

    def end(self):
        return int(self.span[1]) if self.span else self.item

    def line(self, clock):
        """The row as text."""
        picoseconds = picoseconds_at(clock, self.item, self.time)
        return PLACE.format(self.item, "-" if picoseconds is None else engineering(picoseconds)) + self.said.text


def event_of(hit, byte):
    if hit == b"-":
        return "data"
    if hit == b"2":
        return "general call"
    return f"address {byte & 0xFE:02X} {'R' if byte & 1 else 'W'}"


class Counts:
    """What the last line counts."""

    def __init__(self):
        self.messages = self.bytes = self.own = self.unknown = self.differing = 0
        self.first = None  # item of the first line that differs

    def take(self, row):
        self.messages += row.kind == b"S"
        self.bytes += row.kind == b"B"
        self.own += row.said.is_hit
        self.unknown += row.said.is_unknown
        if row.said.differences:
            self.differing += 1
            self.first = row.item if self.first is None else self.first

    def verdict(self):
        told = f"{counted(self.messages, 'message')}, {counted(self.bytes, 'byte')}, {self.own} to this address; "
        if not self.differing:
            return told + "wire and model agree"
        return told + f"they differ in {counted(self.differing, 'line')}, the first at item {self.first}"


# ---- What looks wrong with a record ----

def reading_words(reading):
    """How a record would have to be read, by its number among the program's eight readings."""
    inverted = {0: None, 2: "SCL looks inverted", 4: "SDA looks inverted", 6: "SCL and SDA look inverted"}[reading & 6]
    if reading == 7:
        return "SCL and SDA look exchanged and inverted"
    exchanged = "SCL and SDA look exchanged" if reading & 1 else None
    return ", and ".join(words for words in (exchanged, inverted) if words)


def better_reading(readings):
    """The reading with most answered messages, if the record as given has none or far fewer; None where it is fine."""
    given = readings[0][2]
    best = max(range(1, len(readings)), key=lambda at: (readings[at][2], -readings[at][0], -at))
    ended, _, answered = readings[best]
    return best if 2 * answered > ended and (given == 0 or 10 * given <= answered) else None


def suspicions(fields, messages):
    """What the program's last line says against a record of so many messages, as sentences."""
    phases, singles, *numbers = (int(field) for field in fields[2:])
    readings = list(zip(numbers[0::3], numbers[1::3], numbers[2::3]))
    better = better_reading(readings)
    ended, whole, answered = readings[0]
    if better is not None:
        return [f"{reading_words(better)}: read so, the record has {counted(readings[better][2], 'whole message')},"
                f" as given it has {answered or 'none'}"]
    if not messages:
        return ["there is no Start in the record; are these the right signals?"]
    if 4 * (ended - whole) > ended and 4 * singles >= phases:
        return [f"the record looks sampled too coarsely: {ended - whole} of {counted(ended, 'message')} are broken, and SCL stood"
                f" for a single sample {singles} of {phases} times"]
    if ended and not whole:
        return [f"none of {counted(ended, 'message')} is whole: is it sampled too coarsely, or are these other signals?"]
    return []
