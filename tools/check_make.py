#!/usr/bin/env python3
"""Holds `make N` against the same stream, made by the few lines of bench/stream.py and not by the program.

    python3 tools/check_make.py PROGRAM [N..]

Without numbers for 1 and 500 masternodes. Of each run

- the seven lines are those of the stream: its height, masternodes, banned ones and root, 680 records, of which 104 stand behind the
  newest snapshot, and the hash of the entries of both pages;
- the journal has the stream's commands, byte for byte, and an audit of it tells the same five lines;
- a second `make` in the folder, and one over another registry, ends with 9, and changes and sends nothing."""

import os
import subprocess
import sys
import tempfile

HERE = os.path.dirname(os.path.abspath(__file__))
sys.path.insert(0, os.path.join(HERE, "cases"))
sys.path.insert(0, os.path.join(HERE, "..", "bench"))

from answers import CONNECT, DISCONNECT  # noqa: E402 (found above)
from disk import CLOSED, EVERY, OPEN, PATHS, header_text  # noqa: E402
from stream import FIRST, Stream, start_record  # noqa: E402
from wire import dsha, entry_text, number  # noqa: E402

BLOCKS, FORKED, PAGE = 600, 40, 100
MAIN = 2
ALREADY_INIT = 9


class Wrong(Exception):
    """What the program does otherwise than it is to."""


def wants(what, came, wanted):
    if came != wanted:
        raise Wrong("%s: %s is wanted, and %s came" % (what, wanted[:300], came[:300]))


class Expected:
    """What a run is to send, and to leave in the journal."""

    def __init__(self, count):
        self.stream = Stream(count)
        self.journal = header_text(start_record()) + CLOSED
        self.kinds = []
        self.entries = b""
        self.run()

    def keep(self, kind, body):
        self.kinds.append(kind)
        self.journal = self.journal[:-1] + OPEN + number(len(body) + 1, 4) + number(kind, 1) + body + CLOSED

    def run(self):
        self.add(BLOCKS, "block")
        pinned = self.list_text()
        for _ in range(FORKED):
            self.keep(DISCONNECT, self.stream.take_back())
        self.add(FORKED, "fork")
        self.entries = b"".join(pinned[:2 * PAGE])

    def add(self, count, name):
        for _ in range(count):
            self.keep(CONNECT, self.stream.add(name))

    def list_text(self):
        by_hash = {masternode.hash: masternode for masternode in self.stream.masternodes}
        return [entry_text(by_hash[hash_].entry) for hash_ in self.stream.order]

    def tail(self):
        mark = 0
        for place, kind in enumerate(self.kinds):
            if kind == CONNECT and place - mark >= EVERY[MAIN]:
                mark = place
        return len(self.kinds) - mark

    def audit(self):
        listed = [masternode for masternode in self.stream.masternodes if masternode.hash in self.stream.leaves]
        banned = sum(1 for masternode in listed if masternode.entry["banned"])
        return "height %d\nrows %d\nbanned %d\nroot %s\nrecords %d\n" % (
            self.stream.height, len(listed), banned, self.stream.root.hex(), len(self.kinds))

    def text(self):
        return self.audit() + "tail %d\npages %s\n" % (self.tail(), dsha(self.entries).hex())


def run(program, folder, words):
    done = subprocess.run([program] + words, stdout=subprocess.PIPE, stderr=subprocess.PIPE, cwd=folder, check=False)
    wants("standard error of '%s'" % " ".join(words), done.stderr.decode("latin1"), "")
    return done.stdout.decode("latin1"), done.returncode


def texts(folder):
    found = []
    for name in PATHS:
        path = os.path.join(folder, name)
        with open(path, "rb") as text:
            found.append(text.read())
    return found


def check(program, folder, count):
    expected = Expected(count)
    sent, code = run(program, folder, ["make", str(count)])
    wants("the status of make %d" % count, str(code), "0")
    wants("the lines of make %d" % count, sent, expected.text())
    left = texts(folder)
    if left[0] != expected.journal:
        raise Wrong("the journal of make %d is not that of the stream" % count)
    sent, code = run(program, folder, ["audit"])
    wants("an audit behind make %d" % count, "%d %s" % (code, sent), "0 " + expected.audit())
    sent, code = run(program, folder, ["make", "1"])
    wants("a second make", "%d %s" % (code, sent), "%d " % ALREADY_INIT)
    if texts(folder) != left:
        raise Wrong("a second make changed the files")
    return expected.stream.height - FIRST + 1


def main(words):
    if not words:
        sys.exit(__doc__)
    program = os.path.abspath(words[0])
    for count in [int(word) for word in words[1:]] or [1, 500]:
        with tempfile.TemporaryDirectory() as folder:
            try:
                blocks = check(program, folder, count)
            except Wrong as wrong:
                sys.exit("check_make: %s" % wrong)
        print("make %d: %d blocks, the lines and the journal are those of the stream" % (count, blocks))


if __name__ == "__main__":
    main(sys.argv[1:])
