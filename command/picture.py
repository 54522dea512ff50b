"""Pictures of the lanes for a part of a record: as SVG, and as text in the manner of a scope that has letters only."""
import bisect
import html
import os

import lanes
from lanes import CALLED, CONFLICT, SCL_PULLED, SDA_PULLED, START
from records import Bad
from stream import Window
from table import engineering, picoseconds_at

MOST_CHANGES = 2000   # of a picture that is asked for by --from and --to
FIRST_CHANGES = 600   # of one that is not
MOST_COLUMNS = 4000   # the same for text
FIRST_COLUMNS = 1600
PIECE = 80            # columns of text beside one another
SDA, SCL = 1, 2
SLOT = 4
SHORT_NAMES = ("quiet", "address", "data", "held", "ack", "held", "sending", "M", "held")
FLAGS = [(name, bit) for name, bit in lanes.FLAGS if bit not in (CALLED, lanes.STORED)]


# ---- What is seen ----

class Change:
    """The lanes from an item on."""

    def __init__(self, item, time, level, word):
        self.item, self.time, self.level, self.word = item, time, level, word

    def phase(self):
        """The phase in a word short enough for its lane."""
        number = self.word >> lanes.PHASE & 0xF
        if self.word & SCL_PULLED:
            return "held"
        return "no" if number == SLOT and not self.word & SDA_PULLED else SHORT_NAMES[number]

    def pointer(self):
        return f"{self.word >> lanes.POINTER & 0xFF:02X}"

    def moved(self, item):
        return Change(item, self.time, self.level, self.word)


class View:
    """The part of a record that is drawn: its changes, its bytes, and where it begins and ends."""

    def __init__(self, most):
        self.most = most
        self.changes, self.rows, self.conditions = [], [], {}
        self.is_full = False
        self.begin = self.end = 0

    def take(self, change):
        self.is_full = self.is_full or len(self.changes) >= self.most
        if not self.is_full:
            self.changes.append(change)

    def take_row(self, row):
        if row.kind in (b"S", b"P"):
            self.conditions[row.item] = row.kind.decode()
        elif row.kind in (b"B", b"C"):
            self.rows.append(row)

    def cut(self, begin, end):
        """Leaves the items from one up to another."""
        places = [change.item for change in self.changes]
        first = max(bisect.bisect_right(places, begin) - 1, 0)
        kept = self.changes[first:bisect.bisect_left(places, end)]
        self.changes = [kept[0].moved(max(begin, kept[0].item))] + kept[1:]
        self.begin, self.end = self.changes[0].item, end

    def trimmed(self, items):
        """The part that shows most: all that was seen, without a time before or behind the changes that is longer than they."""
        places = [change.item for change in self.changes[1:]] or [0]
        end = places[-1] if self.is_full else items
        span = places[-1] - places[0]
        margin = max(span // 20, 4)
        return (places[0] - margin if places[0] > span + margin else 0,
                places[-1] + margin if end - places[-1] > span + margin else end)

    def stretches(self, value, splits=0):
        """The times for which a value of the changes stands: begin, end, value. A bit of splits begins a new one."""
        found = []
        for change in self.changes:
            now = value(change)
            if not found or now != found[-1][1] or change.word & splits:
                found.append((change.item, now))
        ends = [item for item, _ in found[1:]] + [self.end]
        return [(item, end, now) for (item, now), end in zip(found, ends)]

    def phase_label(self, begin, end, name):
        """A phase with the byte that it takes or sends."""
        if name not in ("address", "data", "sending"):
            return name
        row = next((row for row in self.rows if row.begin() < end and row.end() > begin and row.kind == b"B"), None)
        if row is None or name == "sending" and not row.said.model.startswith("sends "):
            return name
        return f"{name} {row.said.model[6:] if name == 'sending' else row.said.byte}"

    def clock_phases(self):
        """How long SCL stood between two of its edges, in items, in order of length."""
        edges = [now.item for before, now in zip(self.changes, self.changes[1:]) if (before.level ^ now.level) & SCL]
        return sorted(b - a for a, b in zip(edges, edges[1:])) or [1]


# ---- Text ----

def write(text, begin, end, label):
    """Writes as much of a label as fits in the piece."""
    for at, letter in zip(range(begin, min(end, begin - begin % PIECE + PIECE)), label):
        text[at] = letter


class TextLanes:
    """The lanes as text: a column for so many items, pieces of columns below one another."""

    def __init__(self, view, clock):
        self.view, self.clock = view, clock
        phases = view.clock_phases()
        self.items = max(1, phases[len(phases) // 10] // 2)  # in a column: half of a short phase, so that a clock can be seen
        self.width = -(-(view.end - view.begin) // self.items)

    def columns(self):
        """The changes that stand in each column, the one that stands at its end last."""
        changes, seen = self.view.changes, []
        places = [change.item for change in changes]
        for begin in range(self.view.begin, self.view.end, self.items):
            seen.append(changes[bisect.bisect_right(places, begin) - 1:bisect.bisect_left(places, begin + self.items)])
        return seen

    def line(self, bit):
        """SCL or SDA: _ low, - high, the edges between them."""
        text, before = "", None
        for stood in self.seen:
            now = stood[-1].level & bit
            text += ("-" if now else "_") if before in (None, now) else "/" if now else "\\"
            before = now
        return text

    def data_line(self):
        """SDA, with Starts and Stops by their letters."""
        text = list(self.line(SDA))
        for item, letter in self.view.conditions.items():
            if self.view.begin <= item < self.view.end:
                text[(item - self.view.begin) // self.items] = letter
        return "".join(text)

    def flag(self, bit):
        return "".join("#" if any(change.word & bit for change in stood) else "." for stood in self.seen)

    def labelled(self, stretches, label):
        """A bar where a stretch begins, then its label; in a later piece its label alone."""
        text = [" "] * self.width
        for begin, end, now in stretches:
            first, behind = ((place - self.view.begin) // self.items for place in (begin, end + self.items - 1))
            behind = min(behind, self.width)
            write(text, first, behind, "|" + label(begin, end, now))
            for piece in range(first - first % PIECE + PIECE, behind, PIECE):
                write(text, piece, behind, label(begin, end, now))
        return "".join(text)

    def rows(self):
        """The lanes by their names, each as one long text."""
        view = self.view
        rows = [("  SCL", self.line(SCL)), ("  SDA", self.data_line()),
                ("  phase", self.labelled(view.stretches(Change.phase, START), view.phase_label))]
        rows += [("  " + name, self.flag(bit)) for name, bit in FLAGS]
        rows.append(("  pointer", self.labelled(view.stretches(Change.pointer), lambda begin, end, now: now)))
        if self.items == 1:
            rows.insert(0, ("record", "".join(str(stood[-1].level) for stood in self.seen)))
        return rows

    def axis(self, at):
        """The numbers of every tenth column's item, and the time of the first, if it has one."""
        text = ""
        for column in range(at, min(at + PIECE, self.width), 10):
            label = str(self.view.begin + column * self.items)
            if len(text) <= column - at and (column - at) + len(label) <= PIECE:
                text = text.ljust(column - at) + label
        first = self.seen[at][0]
        item = self.view.begin + at * self.items
        picoseconds = picoseconds_at(self.clock, item, first.time if first.item == item else b"-")
        return text, "" if picoseconds is None else engineering(picoseconds)

    def text(self):
        """The whole picture."""
        self.seen = self.columns()
        head = f"a column is {self.items} items\n" if self.items > 1 else ""
        rows, pieces = self.rows(), []
        for at in range(0, self.width, PIECE):
            numbers, time = self.axis(at)
            lines = [("item", numbers)] + [("time", time)] * (time != "")
            lines += [(name, text[at:at + PIECE].rstrip()) for name, text in rows]
            pieces.append("".join(f"{name:<12}{text}".rstrip() + "\n" for name, text in lines))
        return head + "\n".join(pieces)


# ---- SVG ----

LEFT, TOP, ROW, HIGH, RIGHT = 76, 44, 26, 14, 44
LETTER = 6.7          # a letter's width
PHASE_WIDTH = 8.0     # of the middle one of SCL's phases, where there is room
WIDEST = 16000
APART = 100           # of two ticks, at least
STYLE = """text{font:11px monospace;fill:#222}.name{text-anchor:end}.head{font-weight:bold}.tick{fill:#666;text-anchor:middle}
.grid{stroke:#e4e4e4}.wire{fill:none;stroke:#111;stroke-width:1.3}.cond{stroke:#999;stroke-dasharray:2 2}
.byte{fill:#eef3f8;stroke:#7a8ea3}.bad{fill:#fbdcdc;stroke:#c0392b}.box{fill:#eef7ee;stroke:#86a886}.on{fill:#2f74b5}
.clash{fill:#c0392b}.in{text-anchor:middle}.back{fill:#fafafa}"""


def rounded(picoseconds):
    """A time without the zeros behind its point."""
    number, unit = engineering(picoseconds).split(" ")
    return f"{number.rstrip('0').rstrip('.')} {unit}"


class SvgLanes:
    """The lanes as a picture: the wire on top, the model below, items and times along the bottom."""

    def __init__(self, view, clock, title):
        self.view, self.clock, self.title = view, clock, title
        phases = view.clock_phases()
        items = max(view.end - view.begin, 1)
        self.scale = min(max(PHASE_WIDTH / phases[len(phases) // 2], 500 / items), WIDEST / items)
        self.width = LEFT + items * self.scale + RIGHT
        self.parts, self.row = [], 0

    def x(self, item):
        return f"{LEFT + (min(max(item, self.view.begin), self.view.end) - self.view.begin) * self.scale:.1f}"

    def y(self):
        return TOP + self.row * ROW

    def name(self, text):
        self.parts.append(f'<text class="name" x="{LEFT - 8}" y="{self.y() + HIGH - 2}">{text}</text>')

    def line(self, name, bit):
        """SCL or SDA as a line."""
        self.name(name)
        path, before = "", None
        for change in self.view.changes:
            now = change.level & bit
            if before is None:
                path = f"M{self.x(change.item)} {self.height(now)}"
            elif now != before:
                path += f"H{self.x(change.item)}V{self.height(now)}"
            before = now
        self.parts.append(f'<path class="wire" d="{path}H{self.x(self.view.end)}"/>')
        self.row += 1

    def height(self, is_high):
        return self.y() if is_high else self.y() + HIGH

    def box(self, kind, begin, end, label, short):
        """A stretch with its label, or its short one, or none, as there is room."""
        left, right = float(self.x(begin)), float(self.x(end))
        self.parts.append(f'<rect class="{kind}" x="{left:.1f}" y="{self.y()}" width="{right - left:.1f}" height="{HIGH}"/>')
        texts = [text for text in (label, short) if len(text) * LETTER <= right - left]
        if texts:
            self.parts.append(f'<text class="in" x="{(left + right) / 2:.1f}" y="{self.y() + HIGH - 3}">{texts[0]}</text>')

    def bytes(self):
        """Each byte of the wire with its acknowledge: A or N."""
        self.name("bytes")
        for row in self.view.rows:
            if row.end() > self.view.begin and row.begin() < self.view.end:
                said, answer = row.said, {"ack": " A", "nack": " N"}.get(row.said.wire, " cut off")
                self.box("bad" if said.differences else "byte", row.begin(), row.end(), said.byte + answer, said.byte)
        self.row += 1

    def boxes(self, name, stretches, label):
        self.name(name)
        for begin, end, now in stretches:
            text = label(begin, end, now)
            if now != "quiet":
                self.box("box", begin, end, text, text.split(" ")[-1])
        self.row += 1

    def bars(self, name, bit):
        """A lane that is on or off."""
        self.name(name)
        kind = "clash" if bit == CONFLICT else "on"
        for begin, end, is_on in self.view.stretches(lambda change: change.word & bit != 0):
            if is_on:
                left, right = float(self.x(begin)), float(self.x(end))
                self.parts.append(f'<rect class="{kind}" x="{left:.1f}" y="{self.y() + 2}" width="{right - left:.1f}"'
                                  f' height="{HIGH - 4}"/>')
        self.row += 1

    def conditions(self):
        """Starts and Stops as letters above the lanes."""
        for item, letter in self.view.conditions.items():
            if self.view.begin <= item < self.view.end:
                x = self.x(item)
                self.parts.append(f'<line class="cond" x1="{x}" y1="{TOP - 8}" x2="{x}" y2="{TOP + 3 * ROW - 8}"/>'
                                  f'<text class="in" x="{x}" y="{TOP - 11}">{letter}</text>')

    def ticks(self):
        """Items far enough apart for their labels, with their times where they have any."""
        if any(change.time != b"-" for change in self.view.changes):
            return [(change.item, change.time) for change in self.view.changes]
        step = next(base * 10**power for power in range(20) for base in (1, 2, 5) if base * 10**power * self.scale >= APART)
        first = -(-self.view.begin // step) * step
        return [(item, b"-") for item in range(first, self.view.end, step)]

    def axis(self):
        """Items and times along the bottom."""
        bottom, before = self.y() + 4, -1000.0
        for item, time in self.ticks():
            x = self.x(item)
            if float(x) - before < APART:
                continue
            before = float(x)
            picoseconds = picoseconds_at(self.clock, item, time)
            self.parts.insert(0, f'<line class="grid" x1="{x}" y1="{TOP - 4}" x2="{x}" y2="{bottom}"/>')
            self.parts.append(f'<text class="tick" x="{x}" y="{bottom + 12}">{item}</text>')
            if picoseconds is not None:
                self.parts.append(f'<text class="tick" x="{x}" y="{bottom + 26}">{rounded(picoseconds)}</text>')
        self.parts.append(f'<text class="name" x="{LEFT - 8}" y="{bottom + 12}">item</text>')
        return bottom + 34

    def text(self):
        """The whole picture."""
        self.line("SCL", SCL)
        self.line("SDA", SDA)
        self.bytes()
        self.boxes("phase", self.view.stretches(Change.phase, START), self.view.phase_label)
        for name, bit in FLAGS:
            self.bars(name, bit)
        self.boxes("pointer", self.view.stretches(Change.pointer), lambda begin, end, now: now)
        self.conditions()
        height = self.axis()
        back = f'<rect class="back" x="{LEFT}" y="{TOP + 3 * ROW - 6}" width="{self.width - LEFT - RIGHT:.1f}"' \
               f' height="{(self.row - 3) * ROW}"/>'
        head = f'<text class="head" x="8" y="16">{html.escape(self.title, quote=False)}</text>'
        return (f'<svg xmlns="http://www.w3.org/2000/svg" width="{self.width:.0f}" height="{height}"'
                f' viewBox="0 0 {self.width:.0f} {height}">\n<style>{STYLE}</style>\n'
                f'<rect width="100%" height="100%" fill="#fff"/>\n' + "\n".join([back, head] + self.parts) + "\n</svg>\n")


# ---- All of them ----

class Pictures:
    """The pictures that are asked for, fed with the program's lines."""

    def __init__(self, options, reader, outputs, version):
        self.options, self.reader, self.outputs = options, reader, outputs
        self.notes = []
        self.is_chosen = options.begin is not None or options.end is not None
        self.file = lanes.LanesFile(outputs["lanes"], reader, version) if "lanes" in outputs else None
        is_drawn = options.text or "svg" in outputs
        self.view = View(MOST_CHANGES if self.is_chosen else FIRST_CHANGES) if is_drawn else None
        most = self.view.most + 1 if is_drawn else 0  # one more tells that it is full
        self.window = Window(options.begin, options.end, most) if self.file or is_drawn else None

    def take_window(self, line):
        self.window.sent = tuple(map(int, line.split()[1:]))

    def take_lanes(self, line):
        _, item, time, level, word = line.split()
        self.view.take(Change(int(item), time, int(level), int(word, 16)))

    def take_row(self, row):
        if self.view and not self.view.is_full and row.end() >= self.window.sent[0] and row.begin() < self.window.sent[1]:
            self.view.take_row(row)

    def finish(self, items):
        """The record has come to its end: so many items."""
        if self.window is None:
            return
        end = min(self.window.sent[1], items)
        if self.window.sent[0] >= end:
            raise Bad(f"no item of the record lies between --from and --to: it has {items}")
        if self.view:
            self.choose(items, end)
            self.draw()

    def choose(self, items, end):
        """The part that is drawn: the one asked for, or the whole record if it is short, or its first part."""
        view = self.view
        if self.is_chosen and view.is_full:
            raise Bad(f"the lanes change more than {MOST_CHANGES} times between --from and --to, too often for a picture:"
                      " choose a smaller part")
        begin, end = (self.window.sent[0], end) if self.is_chosen else view.trimmed(items)
        view.cut(begin, end)
        if not self.is_chosen and (begin, end) != (0, items):
            self.notes.append(f"the picture is of items {begin} to {end} of {items}; --from and --to choose another part")

    def draw(self):
        options, view, clock = self.options, self.view, self.reader.clock
        if "svg" in self.outputs:
            own = options.add7 if options.add is None else options.add
            name = "".join(letter if letter.isprintable() else "?" for letter in os.path.basename(options.file))
            title = f"{name}, ADD {own:02X}, items {view.begin} to {view.end}"
            self.outputs["svg"].write(SvgLanes(view, clock, title).text().encode("utf-8"))
        if options.text:
            self.print_text(view, clock)

    def print_text(self, view, clock):
        picture = TextLanes(view, clock)
        if picture.width > MOST_COLUMNS and self.is_chosen:
            raise Bad(f"--text would have {picture.width} columns between --from and --to, and has at most {MOST_COLUMNS}:"
                      " choose a smaller part")
        if picture.width > FIRST_COLUMNS and not self.is_chosen:
            view.cut(view.begin, view.begin + FIRST_COLUMNS * picture.items)
            self.notes.append(f"--text goes up to item {view.end}; --from and --to choose another part")
            picture = TextLanes(view, clock)
        print("\n" + picture.text())
