"""Runs the C program beside the readers: a process of its own reads the record and feeds it, its lines are read here."""
import bisect
import os
import pickle
import shlex
import signal
import struct
import subprocess
import sys

from records import Bad, CHUNK, Runs

EVERYTHING = 2**64 - 1
NOT_WRITTEN = 3  # the program's status where the lanes' file is what failed


def program(here):
    """The command line of the C program: as it is told, installed beside the script, or built in the source tree."""
    told = os.environ.get("WHERRYOAR_PROGRAM")
    if told:
        return shlex.split(told)
    installed = os.path.join(here, "..", "libexec", "wherryoar", "draw")
    if os.path.isfile(installed):
        return [installed]
    build = os.path.join(here, "build.sh")
    if not os.path.isfile(build):
        raise Bad(f"the program draw is neither at {installed} nor named by WHERRYOAR_PROGRAM")
    done = subprocess.run(["bash", build], stdout=subprocess.PIPE, check=False)
    if done.returncode != 0:
        raise Bad(f"{build} could not build the program draw")
    return shlex.split(done.stdout.decode().splitlines()[-1])


class Window:
    """The items whose lanes are told: from one up to another, each an item's number or a time in picoseconds; and by how many
    lines at most."""

    def __init__(self, begin, end, most):
        self.begin, self.end, self.most = begin, end, most  # (number, is it a time), or None
        self.items = None if self.is_timed() else (begin[0] if begin else 0, end[0] if end else EVERYTHING)
        self.sent = (0, 0)  # its items, as the program was told them last

    def is_timed(self):
        return any(edge is not None and edge[1] for edge in (self.begin, self.end))

    def by_clock(self, clock):
        """The items of a window in times, where a clock gives them."""
        def item(edge, default):
            return default if edge is None else min(clock.item_at(edge[0]), EVERYTHING) if edge[1] else edge[0]

        return item(self.begin, 0), item(self.end, EVERYTHING)

    def by_times(self, before, times):
        """The items of a window in times, as far as the times of these items tell; what is still to come lies far away."""
        def item(edge, default, found):
            if edge is None or not edge[1]:
                return default if edge is None else edge[0]
            place = bisect.bisect_left(times, float(edge[0]) / 1e12 - 5e-13)  # half a picosecond, for what rounding does
            return found if found is not None else before + place if place < len(times) else None

        begin, end = self.items or (None, None)
        self.items = item(self.begin, 0, begin), item(self.end, EVERYTHING, end)
        return tuple(EVERYTHING if place is None else place for place in self.items)


def parted():
    """A process like this one; answers its number here, and 0 in it."""
    try:
        return os.fork()
    except OSError as wrong:
        raise Bad(f"no process can be had to read it: {wrong.strerror}") from None


class Feeder:
    """Sends a record to the program, in a process of its own so that reading and showing go side by side. The first piece is read
    before it parts: with it the reader knows its clock."""

    def __init__(self, program, reader, pictures, progress):
        self.pipe, self.reader, self.pictures, self.progress = program.stdin, reader, pictures, progress
        self.items = 0
        self.sent = None  # the window that the program has
        pieces = reader.pieces()
        first = next(pieces, None)
        self.result, theirs = os.pipe()
        before = signal.pthread_sigmask(signal.SIG_BLOCK, [signal.SIGINT])  # one of the two takes an interrupt, and ends both
        self.process = parted()
        if self.process == 0:
            self.run(program, first, pieces, theirs)
        signal.pthread_sigmask(signal.SIG_SETMASK, before)
        os.close(theirs)
        self.pipe.close()

    def run(self, program, first, pieces, result):
        """The process: feeds, tells what was wrong and ends without a word more. What the program writes is not for it: were it
        open here, nobody would learn that the other process has ended."""
        try:
            program.stdout.close()
            program.stderr.close()
            os.write(result, pickle.dumps(self.fed(first, pieces)))
        finally:
            os._exit(0)

    def fed(self, first, pieces):
        """Feeds; answers what was wrong, None where nothing was."""
        try:
            self.feed(first, pieces)
            self.pipe.close()
        except BrokenPipeError:
            pass  # the program has ended; its status tells why
        except BaseException as wrong:
            return wrong
        return None

    def finish(self):
        """Waits for the process; raises what was wrong."""
        with os.fdopen(self.result, "rb") as result:
            told = result.read()
        os.waitpid(self.process, 0)
        self.process = None
        wrong = pickle.loads(told) if told else Bad("it could not be read to its end")
        if wrong is not None:
            raise wrong

    def stop(self):
        if self.process is not None:
            os.kill(self.process, signal.SIGKILL)
            os.waitpid(self.process, 0)

    def feed(self, piece, pieces):
        while piece is not None:
            self.send_window(piece)
            if isinstance(piece, Runs):
                self.send_runs(piece)
            elif piece.levels:
                self.send_levels(piece)
            self.progress()
            piece = next(pieces, None)
        if self.items == 0:
            raise Bad("there is no item in it")
        self.pipe.write(b"e")

    def send_window(self, piece):
        """The window, whenever it has become another; before the first one, what the lanes' file is to have."""
        window, times = self.pictures.window, getattr(piece, "times", None)
        if window is None or not piece.levels:
            return
        if window.is_timed() and times is not None:
            items = window.by_times(self.items, times)
        elif window.is_timed():
            if self.reader.clock is None:
                raise Bad("it has no times: --from and --to are items here, or --rate gives it times")
            items = window.by_clock(self.reader.clock)
        else:
            items = window.items
        if self.sent is None and self.pictures.file:
            self.pipe.write(self.pictures.file.message())
        if items != self.sent:
            self.pipe.write(b"w" + struct.pack("<QQQ", *items, window.most))
            self.sent = items

    def send_levels(self, piece):
        head = struct.pack("<cI", b"r" if piece.times is None else b"t", len(piece.levels))
        self.pipe.write(head + (b"" if piece.times is None else little_endian(piece.times)) + piece.levels)
        self.items += len(piece.levels)

    def send_runs(self, piece):
        for at in range(0, len(piece.levels), CHUNK):
            levels, counts = piece.levels[at:at + CHUNK], piece.counts[at:at + CHUNK]
            self.pipe.write(struct.pack("<cI", b"k", len(levels)) + levels + little_endian(counts))
            self.items += sum(counts)


def little_endian(numbers):
    if sys.byteorder == "big":
        numbers = numbers[:]
        numbers.byteswap()
    return numbers.tobytes()


def lines(words, reader, pictures, progress):
    """The lines of the program for a record. Bad where the record is, or the program fails."""
    file = pictures.file
    try:
        # What Python ignores stays ignored: a file that becomes too large is told by the program, not by its end.
        process = subprocess.Popen(words + ([file.output.beside] if file else []), stdin=subprocess.PIPE, stdout=subprocess.PIPE,
                                   stderr=subprocess.PIPE, restore_signals=False, bufsize=1 << 20)
    except OSError as wrong:
        raise Bad(f"{words[0]} cannot be run: {wrong.strerror}; WHERRYOAR_PROGRAM names another") from None
    feeder = None
    try:
        feeder = Feeder(process, reader, pictures, progress)
        yield from process.stdout
        feeder.finish()
        told = process.stderr.read().decode("utf-8", "replace").strip()
        if process.wait() == NOT_WRITTEN and file:
            raise Bad(f"it cannot be written: {told}", file.output.told)
        if process.returncode != 0:
            raise Bad(f"the program {words[0]} failed: {told or process.returncode}")
    finally:
        if feeder:
            feeder.stop()
        process.kill()
        process.wait()
