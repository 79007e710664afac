#!/usr/bin/env python3
"""Runs the gate, and says what it costs: processor minutes by crate, for its proof, its tests and its must-fail edits.

    python3 tools/gate_table.py [WORDS ..]     runs 'rt ci WORDS', passes on what it prints, and writes docs/GATE.md

The gate prints no times, so this looks at the checks that it starts, five times a second, by /proc (Linux alone). A check
that the gate keeps from an earlier run costs nothing: for a whole table run it where nothing is kept, or with --anew.
It ends with the gate's own status."""

import os
import re
import subprocess
import sys
import threading
import time

TOP = os.path.dirname(os.path.dirname(os.path.abspath(__file__)))
TABLE = os.path.join(TOP, "docs", "GATE.md")
KINDS = ("proof", "tests", "edits")
TICKS = os.sysconf("SC_CLK_TCK")
PAUSE = 0.2


def read(path):
    try:
        with open(path, "rb") as file:
            return file.read()
    except OSError:
        return b""


def processes():
    """Each process: its number, that of its parent, and its ticks of processor time."""
    for name in os.listdir("/proc"):
        if name.isdigit():
            # the name in brackets may hold anything; what follows it is numbers
            fields = read("/proc/%s/stat" % name).rpartition(b")")[2].split()
            if len(fields) > 12:
                yield int(name), int(fields[1]), int(fields[11]) + int(fields[12])


def below(pid):
    """The processes that one started, they and theirs, with their ticks."""
    parents = {}
    for number, parent, ticks in processes():
        parents.setdefault(parent, []).append((number, ticks))
    found, left = {}, [pid]
    while left:
        for number, ticks in parents.get(left.pop(), []):
            found[number] = ticks
            left.append(number)
    return found


def work_of(pid):
    """The crate that a process checks, and whether it is its proof, its tests or an edit; none for other processes."""
    words = read("/proc/%d/cmdline" % pid).split(b"\0")
    if b"--crate-name" not in words:
        return None
    crate = words[words.index(b"--crate-name") + 1].decode()
    try:
        folder = os.readlink("/proc/%d/cwd" % pid)
    except OSError:
        folder = ""
    is_edit = "rt-edit" in folder or any(b"rt-edit" in word for word in words)
    return crate, "edits" if is_edit else "tests" if b"--test" in words else "proof"


class Meter:
    """The processor time of the checks below a process."""

    def __init__(self, pid):
        self.pid = pid
        self.known = {}
        self.seen = {}

    def look(self):
        for pid, ticks in below(self.pid).items():
            # (a process that was only just started is not yet what it will be)
            if self.known.get(pid) is None:
                self.known[pid] = work_of(pid)
            if self.known[pid]:
                self.seen[pid] = (self.known[pid], max(ticks, self.seen.get(pid, (None, 0))[1]))

    def minutes(self):
        """By crate and kind."""
        found = {}
        for (crate, kind), ticks in self.seen.values():
            found.setdefault(crate, dict.fromkeys(KINDS, 0.0))[kind] += ticks / TICKS / 60
        return found


def crates():
    """The crates in the order in which crates.txt has them."""
    with open(os.path.join(TOP, "crates.txt"), encoding="utf-8") as file:
        return [line.split(":")[0].split()[0] for line in file if ":" in line and not line.startswith("#")]


def lines_of(crate):
    """Lines of code without tests, and of definitions."""
    count = 0
    for part, end in (("src", ".rt"), ("specs", ".antt")):
        for folder, _, names in os.walk(os.path.join(TOP, "crates", crate, part)):
            for name in names:
                if name.endswith(end) and not name.startswith("tests"):
                    with open(os.path.join(folder, name), encoding="utf-8") as file:
                        count += sum(1 for _ in file)
    return count


def edits_of(crate):
    folder = os.path.join(TOP, "crates", crate, "must-fail")
    return len([name for name in os.listdir(folder) if name.endswith(".edit")]) if os.path.isdir(folder) else 0


def table(minutes, seconds, words, last):
    """The page."""
    version = subprocess.run(["rt", "version"], stdout=subprocess.PIPE, text=True, check=False).stdout.strip()
    head = ["# What the gate costs", "",
            "Written by `python3 tools/gate_table.py%s`, which runs `rt ci` and measures the checks that it starts."
            % "".join(" " + word for word in words), "",
            "- Kit: `%s`" % version,
            "- Processors: %d" % os.cpu_count(),
            "- Clock: %d minutes %d seconds" % divmod(round(seconds), 60),
            "- The gate said: `%s`" % last, "",
            "Processor minutes:", "",
            "| Crate | Lines of code and definitions | Proof | Tests | Edits | How many edits | All |",
            "|---|---|---|---|---|---|---|"]
    rows, sums, lines, edits = [], dict.fromkeys(KINDS, 0.0), 0, 0
    for crate in crates():
        found = minutes.get(crate, dict.fromkeys(KINDS, 0.0))
        size, count = lines_of(crate), edits_of(crate)
        rows.append("| `%s` | %d | %s | %d | %.1f |" % (
            crate, size, " | ".join("%.1f" % found[kind] for kind in KINDS), count, sum(found.values())))
        sums = {kind: sums[kind] + found[kind] for kind in KINDS}
        lines, edits = lines + size, edits + count
    rows.append("| all | %d | %s | %d | %.1f |" % (
        lines, " | ".join("%.1f" % sums[kind] for kind in KINDS), edits, sum(sums.values())))
    return "\n".join(head + rows) + "\n"


def main(words):
    begun = time.monotonic()
    gate = subprocess.Popen(["rt", "ci", *words], cwd=TOP, stdout=subprocess.PIPE, stderr=subprocess.STDOUT, text=True)
    meter = Meter(gate.pid)
    is_over = threading.Event()

    def watch():
        while not is_over.wait(PAUSE):
            meter.look()

    watcher = threading.Thread(target=watch)
    watcher.start()
    last = ""
    for line in gate.stdout:
        print(line, end="", flush=True)
        if re.fullmatch(r"\d+ passed, \d+ failed.*\n", line):
            last = line.strip()
    status = gate.wait()
    is_over.set()
    watcher.join()
    with open(TABLE, "w", encoding="utf-8") as out:
        out.write(table(meter.minutes(), time.monotonic() - begun, words, last))
    return status


if __name__ == "__main__":
    sys.exit(main(sys.argv[1:]))
