#!/usr/bin/env python3
"""Tries the must-fail edits and tells of each wrong program and definition in them what refused it.

usage: refused.py [--goals] [CRATE..]     at the top of the repository; RT_JOBS checks at once, or else one a processor

rt tries an edit as a whole, says in one line whether it is refused, and keeps nothing of what the check said. So each edit is
checked here once more, by rt check in a copy of the repository. The copies lie below a folder for temporary files, one of this
checkout's own (REFUSED names another), since rt ci refuses a copy inside the repository. What a check said is kept in the user's
cache, by the checksums of what it read: nothing is tried again while the toolchain, what is changed, the texts of the crate, and the code,
definitions and theorems of those below it are the same. REFUSED_LOGS names another folder for that; an empty one tries all.

Each wrong program begins with '# WHO: what is wrong' or '# WHO at PLACE: what is wrong'; without a PLACE it is WHO. It is refused by
itself where
- the log has 'fn CRATE::PLACE: no proof: .. did not prove `GOAL`' (or 'does not close'): a goal of the function is left;
- or an error stands in proofs/PLACE/ or names PLACE in specs/ or proofs/, and none of PLACE's errors says that a proof names what
  is no longer there (a name, a field, a place), or gives an invariant or a measure of other variables.
It is not where it only rests on another: 'it calls `..`, which is not proved', 'declarations that depend on `..`'.
A wrong program that the check of the whole edit does not show so, or whose place another of the edit has too, is checked alone.
With --goals each line goes on with the goals that are left, or with the error.
"""
import collections
import concurrent.futures
import fcntl
import glob
import hashlib
import os
import queue
import re
import shutil
import subprocess
import sys
import tempfile

COPIES = os.path.abspath(os.environ.get("REFUSED") or os.path.join(tempfile.gettempdir(), "refused-" + hashlib.sha256(os.getcwd().encode()).hexdigest()[:12]))
LOGS = os.path.abspath(os.environ.get("REFUSED_LOGS") or os.path.join(os.environ.get("XDG_CACHE_HOME") or os.path.expanduser("~/.cache"), "wherryoar", "refused"))
AT_ONCE = int(os.environ.get("RT_JOBS") or os.cpu_count())
UNFIT = re.compile(r"is not in scope|has no field|has no `|is not a (field|constructor)|can be named|binders, but its type has room|explicit arguments more than|is for an impossible case|is not a structural call|error: `(invariant|decreases)-")
FOLLOWS = re.compile("was not admitted|which was rejected")
PARTS = ("src", "specs", "proofs")


def read(path):
    with open(path, encoding="utf-8") as it:
        return it.read()


def write(path, text):
    os.makedirs(os.path.dirname(path), exist_ok=True)
    with open(path, "w", encoding="utf-8") as it:
        it.write(text)


def crates():
    lines = [line for line in read("crates.txt").split("\n") if line.strip() and not line.startswith("#")]
    return {line.partition(":")[0].split()[0]: line.partition(":")[2].split() for line in lines}


def below(name, listed, found=None):
    """The crate and those that it rests on, lowest first."""
    found = found if found is not None else []
    if name in listed and name not in found:
        for dep in listed[name]:
            below(dep, listed, found)
        found.append(name)
    return found


def texts(crate, whole=True):
    """The files that a check of the crate reads; those that a check of one above reads are all but the proofs of functions."""
    found = [it for part in PARTS for it in glob.glob(f"crates/{crate}/{part}/**/*", recursive=True) if os.path.isfile(it)]
    return sorted(it for it in found if whole or not re.match(r"crates/\w+/proofs/.*/", it))


def edits(crate):
    return sorted(glob.glob(f"crates/{crate}/must-fail/*.edit"))


def wrongs(edit):
    """The wrong programs of an edit: for each whom it is wrong for, where, what is wrong, and its pairs of file, old and new text."""
    found, path, old = [], "", ""
    for line in read(edit).split("\n"):
        title = re.match(r"# ([A-Za-z0-9_, '-]*): (.*)", line)
        if title:
            who, _, place = title.group(1).partition(" at ")
            found.append((re.split(", *", place or who), title.group(2), []))
        elif line.startswith("file: "):
            path = line[len("file: "):].strip()
        elif line.startswith("old: "):
            old = line[len("old: "):]
        elif line.startswith("new:"):
            found[-1][2].append((path, old, line[len("new: "):]))
    return found


def apply(pairs, folder):
    """Changes the crate in this folder; returns the texts as they were, and the old texts that do not stand there once."""
    were, misfits = {}, []
    for path, old, new in pairs:
        text = read(f"{folder}/{path}")
        were.setdefault(path, text)
        if text.count(old) != 1:
            misfits.append(f"an old: text stands {text.count(old)} times: {old}")
        write(f"{folder}/{path}", text.replace(old, new))
    return were, misfits


def check(crate, pairs, copies):
    """What a check of the crate, so changed, says. It is made in a copy, since crates above would see the wrong crate."""
    copy = copies.get()
    folder = f"{copy}/crates/{crate}"
    were, misfits = apply(pairs, folder)
    said = "".join(f"misfit: {it}\n" for it in misfits)
    if not misfits:
        said = subprocess.run(["rt", "check", "--jobs", "1"], cwd=folder, stdout=subprocess.PIPE, stderr=subprocess.STDOUT, stdin=subprocess.DEVNULL).stdout.decode(errors="replace")
    for path, text in were.items():
        write(f"{folder}/{path}", text)
    copies.put(copy)
    return said


def log_of(crate, pairs, listed, toolchain, copies):
    """What the check of a crate, changed by these pairs, said, now or before."""
    made = hashlib.sha256(toolchain)
    made.update(f"{crate}\n{pairs}\n".encode())
    for path in [it for name in below(crate, listed) for it in texts(name, name == crate)]:
        made.update(f"{path}\n{read(path)}\n".encode())
    kept = f"{LOGS}/{made.hexdigest()}.log"
    if os.path.exists(kept):
        return read(kept)
    said = check(crate, pairs, copies)
    # (one that came to no verdict is tried again the next time)
    if re.search(r"^logic=not-proved", said, re.M):
        write(kept, said)
    return said


def by_itself(crate, place, log):
    """Returns what shows that a proof failed by itself, or ''."""
    name = re.escape(place)
    left = re.search(rf"^fn {crate}::(?:\w+::)*{name}: no proof: .*(?:did not prove|does not close).*$", log, re.M)
    if left:
        return left.group()
    own = re.findall(rf"^\./proofs/(?:\w+/)*\+?{name}/\S+: error: .*$|^\./(?:specs|proofs)/\S+: error: `{name}`: .*$", log, re.M)
    own = [it for it in own if not FOLLOWS.search(it)]
    return own[0] if own and not any(UNFIT.search(it) for it in own) else ""


def goals(shown):
    """The goals, or the error, that a refusal rests on."""
    left = re.findall(r"`([^`]+)`", re.sub(r"`search` did not prove|`search`", "", shown.partition("no proof: ")[2]))
    error = re.match(r"\./(\S+?):\d+:\d+: error: (?:`([^`]+)`)?", shown)
    return ", ".join(left) or (f"{error.group(2)} in {error.group(1)}" if error and error.group(2) else shown[:200])


def make_copies(listed):
    """A copy of the crates as they are now, in which this goes on, and as many more as there are checks at once."""
    copies = queue.Queue()
    for copy in ["as-it-is"] + [str(number) for number in range(AT_ONCE)]:
        for name in listed:
            os.makedirs(f"{COPIES}/{copy}/crates/{name}", exist_ok=True)
            for part in PARTS + ("must-fail",):
                shutil.rmtree(f"{COPIES}/{copy}/crates/{name}/{part}", ignore_errors=True)
                if os.path.isdir(f"crates/{name}/{part}"):
                    shutil.copytree(f"crates/{name}/{part}", f"{COPIES}/{copy}/crates/{name}/{part}")
        shutil.copy("crates.txt", f"{COPIES}/{copy}/crates.txt")
        if copy == "as-it-is":
            os.chdir(f"{COPIES}/{copy}")
        else:
            copies.put(f"{COPIES}/{copy}")
    return copies


def alone(crate, found, log):
    """Which wrong programs of an edit have to be checked alone: those that the log of the whole does not show, and those that share a place."""
    places = collections.Counter(place for at, _, _ in found for place in at)
    return [n for n, (at, _, _) in enumerate(found) if any(places[it] > 1 or not by_itself(crate, it, log) for it in at)]


def main():
    listed = crates()
    with_goals = "--goals" in sys.argv
    names = [it for it in sys.argv[1:] if it != "--goals"] or list(listed)
    toolchain = subprocess.run(["rt", "version"], stdout=subprocess.PIPE, check=True).stdout
    os.makedirs(COPIES, exist_ok=True)
    one_run = open(f"{COPIES}/lock", "w")  # another one of this checkout waits, since the copies are the same
    fcntl.flock(one_run, fcntl.LOCK_EX)
    copies = make_copies(listed)
    wanted = [(name, edit, wrongs(edit)) for name in names for edit in edits(name)]
    checked = missing = 0
    with concurrent.futures.ThreadPoolExecutor(AT_ONCE) as pool:
        tried = lambda crate, pairs: pool.submit(log_of, crate, pairs, listed, toolchain, copies)
        whole = [tried(crate, [pair for _, _, pairs in found for pair in pairs]) for crate, _, found in wanted]
        parts = []
        for (crate, _, found), log in zip(wanted, whole):
            parts.append({n: tried(crate, found[n][2]) for n in alone(crate, found, log.result())})
        for (crate, edit, found), log, part in zip(wanted, whole, parts):
            label = os.path.basename(edit)[:-len(".edit")]
            for n, (at, what, _) in enumerate(found):
                said = part[n].result() if n in part else log.result()
                for place in at:
                    shown = by_itself(crate, place, said)
                    checked += 1
                    missing += not shown
                    misfit = re.match(r"misfit: (.*)", said)
                    by = f": {misfit.group(1)}" if misfit else f": {goals(shown)}" if with_goals and shown else ""
                    print(f"{'refused by' if shown else 'NOT SO:'} {crate}::{place} ({label}): {what}{by}", flush=True)
    print(f"wrong programs and definitions refused by a proof that failed by itself: {checked - missing} of {checked}")
    return 1 if missing or not checked else 0


if __name__ == "__main__":
    sys.exit(main())
