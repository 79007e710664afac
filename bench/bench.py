#!/usr/bin/env python3
"""Measures the built program on streams that it makes itself, each figure beside a plain yardstick on the same machine.

    python3 bench/bench.py crates/dmnd/out/dmnd [--quick] [--only WORD ..] [--folder FOLDER] [--into FILE]

Prints a table. With --into FILE it puts it between the two marks of this file, as in docs/PERFORMANCE.md. --quick leaves out what
takes long: it takes half a minute or so on an idle machine. --only names parts: blocks, questions, opening, snapshots, callers,
memory, make. The registries stand in a folder of their own, below FOLDER where it is told, else below the system's for temporary
files: an fsync costs what it costs there.

What 'serve' does is measured on port 9996, which must be free. Bytes read are counted by strace, where it is there."""

import argparse
import hashlib
import os
import platform
import re
import shutil
import socket
import ssl
import subprocess
import sys
import tempfile
import threading
import time
from dataclasses import dataclass

from stream import FIRST, PER_BLOCK, Stream, start_record

sys.path.insert(0, os.path.join(os.path.dirname(os.path.abspath(__file__)), "..", "tools", "cases"))

from disk import EVERY  # noqa: E402 (found by the line above)
from model import CONFIRM, KEPT, PROFILES  # noqa: E402
from wire import HEAD, ZERO_HASH, frame, number  # noqa: E402

TIP, LIST, ROW, PAYEES, MEMBERS, QUORUMS, DIFF, PIN, PAGE, RELEASE = range(3, 13)
PORT = 9996
FILES = ("journal.dmn", "snap1.dmn", "snap2.dmn")
# A row as it is stored, an entry of the list.
ROW_SIZE, ENTRY_SIZE = 293, 151
# SHA-256 goes over pieces of so many bytes. Of an entry it goes over three and then one, as it is taken twice; of two hashes
# over two and then one. A list of n entries has n leaves and as many pairs, or a few more. A masternode's score is made by two
# hashes of two pieces each. Of a registration the id, the hash of inputs and its part of the block's root are made.
PIECE = 64
PIECES_OF_ENTRY, PIECES_OF_PAIR = 4, 3
PIECES_OF_SCORE = 4
PIECES_OF_REGISTRATION = 11
MARKS = ("<!-- figures -->", "<!-- end of figures -->")
HELD = KEPT["main"] + 1
# A block has a snapshot written before it where so many records stand behind the newest one, or behind the header.
DUE = EVERY[PROFILES["main"]]


class Wrong(Exception):
    """What the program does otherwise than it is to."""


# ---- runs

@dataclass
class Spent:
    """For so many frames: the seconds until the last answer, those that the program was on a processor, and the answers' bytes."""
    count: int = 0
    seconds: float = 0.0
    worked: float = 0.0
    size: int = 0

    def plus(self, other):
        return Spent(self.count + other.count, self.seconds + other.seconds, self.worked + other.worked, self.size + other.size)

    def rate(self):
        return rate(self.count, self.seconds)

    def each(self):
        """The processor's time for one of them."""
        return self.worked / self.count


class Run:
    """A run of a program that takes frames and answers each."""

    def __init__(self, words, folder):
        self.process = subprocess.Popen(words, cwd=folder, stdin=subprocess.PIPE, stdout=subprocess.PIPE, bufsize=0)
        self.rest = b""

    def ask(self, frames):
        """Sends frames while it takes their answers: how much that takes, and how many bytes come."""
        text = b"".join(frames)
        worked, begun = self.worked(), time.perf_counter()
        sender = threading.Thread(target=self.send, args=(text,))
        sender.start()
        size = self.take(len(frames))
        seconds = time.perf_counter() - begun
        sender.join()
        return Spent(len(frames), seconds, self.worked() - worked, size)

    def worked(self):
        """The seconds that the process was on a processor; in steps of ten milliseconds where the system counts no finer."""
        place = "/proc/%d/" % self.process.pid
        if os.path.exists(place + "schedstat"):
            with open(place + "schedstat", encoding="ascii") as counts:
                return int(counts.read().split()[0]) / 1e9
        with open(place + "stat", encoding="ascii") as counts:
            return sum(int(count) for count in counts.read().rpartition(")")[2].split()[11:13]) / os.sysconf("SC_CLK_TCK")

    def send(self, text):
        view, pipe = memoryview(text), self.process.stdin.fileno()
        while view:
            view = view[os.write(pipe, view[:65_536]):]

    def take(self, count):
        """Takes so many answers, each of which is to be Ok."""
        pipe, size, rest = self.process.stdout.fileno(), 0, self.rest
        while True:
            at = 0
            while count and len(rest) >= at + HEAD:
                end = at + HEAD + int.from_bytes(rest[at + 1:at + HEAD], "little")
                if rest[at]:
                    raise Wrong("an answer is not Ok: %s" % rest[at:at + 60].hex())
                if len(rest) < end:
                    rest += self.more(pipe, end - len(rest))
                count, at, size = count - 1, end, size + end - at
            rest = rest[at:]
            if not count:
                self.rest = rest
                return size
            rest += self.more(pipe, 1)

    @staticmethod
    def more(pipe, least):
        """At least so many bytes of the answers."""
        pieces = []
        while least > 0:
            piece = os.read(pipe, 1 << 20)
            if not piece:
                raise Wrong("the program ended")
            pieces.append(piece)
            least -= len(piece)
        return b"".join(pieces)

    def peak(self):
        """The most memory that it had, in bytes."""
        with open("/proc/%d/status" % self.process.pid, encoding="ascii") as status:
            return int(re.search(r"VmHWM:\s+(\d+) kB", status.read()).group(1)) * 1024

    def end(self):
        self.process.stdin.close()
        code = self.process.wait()
        if code:
            raise Wrong("the program ended with %d" % code)


class Bench:
    """The program, a folder for its registries, and the figures."""

    def __init__(self, program, folder, is_quick):
        self.program = program
        self.folder = folder
        self.is_quick = is_quick
        self.rows = []
        self.notes = []
        self.parts = ()
        self.hash_rate = hash_rate()
        self.fsync_seconds = fsync_seconds(folder)
        self.blank = self.registry("blank")

    def say(self, what, came, plain=None, yardstick="", each=None, plain_each=None, alike=0.0):
        """A figure; a yardstick's figure of the same kind, and what it is; the processor's seconds for one, and those of the
        yardstick; and the seconds that are none of the processor's and count alike for both."""
        share = "" if plain is None else ratio(came, plain, each, plain_each, alike)
        worked = "" if each is None else str(Figure(each * 1e6, "us") if each < 1e-3 else Figure(each * 1e3, "ms"))
        row = (what, str(came), worked, "" if plain is None else str(plain), share, yardstick)
        self.rows.append(row)
        print("  ".join(part for part in row if part), flush=True)

    def registry(self, name):
        """A folder with a registry that has no command."""
        folder = os.path.join(self.folder, name)
        os.mkdir(folder)
        subprocess.run([self.program, "init"], cwd=folder, input=start_record(), check=True)
        return folder

    def feed(self, folder):
        return Run([self.program, "feed"], folder)


class Figure:
    """An amount with its unit; whether it is a rate, of which more is better."""

    def __init__(self, amount, unit, is_rate=True):
        self.amount = amount
        self.unit = unit
        self.is_rate = is_rate

    def __str__(self):
        digits = 0 if self.amount >= 100 or self.amount == int(self.amount) else 1 if self.amount >= 10 else 2
        return "{:,.{}f} {}".format(self.amount, digits, self.unit)


def ratio(came, plain, each, plain_each, alike):
    """How often the program could do its work in the yardstick's time: by the processor's, where both are known."""
    if each is not None and plain_each is not None:
        return "%.2f" % ((plain_each + alike) / (each + alike))
    return "%.2f" % (came.amount / plain.amount if came.is_rate else plain.amount / max(came.amount, 1e-9))


def rate(count, seconds):
    return Figure(count / seconds, "/s")


def took(seconds):
    return Figure(seconds * 1000, "ms", False)


def megabytes(size):
    return Figure(size / 1e6, "MB", False)


# ---- yardsticks

def hash_rate():
    """How many bytes SHA-256 takes in a second on a processor, by OpenSSL as Python has it, of one long text."""
    text, best = bytes(1 << 25), 0
    for _ in range(3):
        begun = time.process_time()
        hashlib.sha256(text).digest()
        best = max(best, len(text) / (time.process_time() - begun))
    return best


def fsync_seconds(folder, records=100):
    """How long a record takes of which the text and then a byte before it are written, each with an fsync."""
    path = os.path.join(folder, "yardstick")
    with open(path, "wb", buffering=0) as file:
        begun = time.perf_counter()
        for place in range(records):
            at = place * 400
            os.pwrite(file.fileno(), bytes(399), at + 1)
            os.fsync(file.fileno())
            os.pwrite(file.fileno(), b"\1", at)
            os.fsync(file.fileno())
        seconds = (time.perf_counter() - begun) / records
    os.remove(path)
    return seconds


def list_bytes(masternodes):
    """How many bytes SHA-256 goes over for the root of a list of so many."""
    return masternodes * (PIECES_OF_ENTRY + PIECES_OF_PAIR) * PIECE


def score_bytes(masternodes):
    """And for the scores of which the greatest are the members of one quorum."""
    return masternodes * PIECES_OF_SCORE * PIECE


# Answers frames as the program does, a head and a body read and one text written for each, and does nothing else: each answer
# has as many bytes as the second word of its command line says.
ANSWERING = """
import os, sys
answer = bytes(1) + (int(sys.argv[1]) - 5).to_bytes(4, "little") + bytes(int(sys.argv[1]) - 5)
def take(size):
    text = os.read(0, size)
    while text and len(text) < size:
        text += os.read(0, size - len(text))
    return text
while head := take(5):
    take(int.from_bytes(head[1:], "little"))
    view = memoryview(answer)
    while view:
        view = view[os.write(1, view):]
"""

# Serves callers one after another: a head is read to its end, and one text is sent.
SERVING = """
import socket, sys
listener = socket.create_server(("127.0.0.1", int(sys.argv[1])))
size = int(sys.argv[3])
reply = b"HTTP/1.1 200 OK\\r\\nContent-Length: %d\\r\\nConnection: close\\r\\n\\r\\n" % size + bytes(size)
for _ in range(int(sys.argv[2])):
    caller, _ = listener.accept()
    head = b""
    while not head.endswith(b"\\r\\n\\r\\n"):
        head += caller.recv(4096)
    caller.sendall(reply)
    caller.close()
"""

# Runs a program, and says how it ended, its peak memory in KiB and its seconds on a processor. A run that is begun from here would
# count this one's memory too, since it is a copy of it at first.
WATCHING = """
import os, subprocess, sys
process = subprocess.Popen(sys.argv[1:], stdin=subprocess.DEVNULL, stdout=subprocess.DEVNULL)
_, status, usage = os.wait4(process.pid, 0)
print(os.waitstatus_to_exitcode(status), usage.ru_maxrss, usage.ru_utime + usage.ru_stime)
"""


# ---- blocks and questions

def say_blocks(bench, what, spent, hashed):
    """Blocks, each beside two fsync and SHA-256 of so many bytes."""
    plain = 1 / (hashed / bench.hash_rate + bench.fsync_seconds)
    bench.say(what, spent.rate(), rate(plain, 1), "two fsync, SHA-256 of %.2f MB" % (hashed / 1e6), spent.each(),
              hashed / bench.hash_rate, bench.fsync_seconds)


def blocks_behind(bench, masternodes, folder, stream, count):
    """Registers masternodes, confirms them, and adds so many blocks behind; a run that is still open."""
    run = bench.feed(folder)
    registering = (masternodes + PER_BLOCK - 1) // PER_BLOCK
    spent = run.ask(list(stream.connects(registering)))
    # the list is half full on the way
    say_blocks(bench, "blocks that register 250 masternodes, up to %d" % masternodes, spent,
               list_bytes(masternodes / 2) + PIECES_OF_REGISTRATION * PIECE * PER_BLOCK)
    run.ask(list(stream.connects(max(0, CONFIRM - registering))))
    spent = run.ask(list(stream.connects(min(registering, CONFIRM))))
    say_blocks(bench, "blocks that confirm 250 of %d masternodes" % masternodes, spent, list_bytes(masternodes))
    run.ask(list(stream.connects(20)))
    before = len(stream.mined)
    spent = run.ask(list(stream.connects(count)))
    say_blocks(bench, "blocks that change no entry, %d masternodes" % masternodes, spent,
               (len(stream.mined) - before) * score_bytes(masternodes) / count)
    return run


def take_back(bench, run, stream, masternodes, count):
    """Takes blocks back and adds others."""
    spent = run.ask(list(stream.disconnects(count)))
    plain = rate(1, bench.fsync_seconds)
    bench.say("disconnects, %d masternodes" % masternodes, spent.rate(), plain, "two fsync", spent.each(), 0.0,
              bench.fsync_seconds)
    run.ask(list(stream.connects(count, "fork")))


def questions(stream, masternodes):
    """Kinds of questions in words, and a frame of each."""
    tip = stream.height
    one = stream.masternodes[masternodes // 2].hash

    def at(height):
        return number(height, 4)

    def hash_at(height):
        return stream.hash_at(height)

    yield "Tip", frame(TIP, b"")
    yield "List", frame(LIST, at(tip))
    yield "Row", frame(ROW, at(tip) + one)
    yield "Payees, 10", frame(PAYEES, at(tip) + number(10, 2))
    yield "Payees, all", frame(PAYEES, at(tip) + number(min(masternodes, 65_535), 2))
    yield "Members of 50", frame(MEMBERS, number(1, 1) + at(tip - tip % 24))
    if tip - tip % 288 > FIRST:
        yield "Members of 400", frame(MEMBERS, number(2, 1) + at(tip - tip % 288))
    yield "Quorums", frame(QUORUMS, at(tip))
    yield "Diff of a block, asked again", frame(DIFF, hash_at(tip - 1) + hash_at(tip))
    yield "Diff from nothing, asked again", frame(DIFF, ZERO_HASH + hash_at(tip))
    yield "Page of 100", frame(PAGE, number(1, 4) + number(masternodes // 2, 4) + number(100, 2))


def ask_questions(bench, run, stream, masternodes):
    run.ask([frame(PIN, number(stream.height, 4))])
    seconds_each = 0.3 if bench.is_quick else 1.0
    for name, text in questions(stream, masternodes):
        measure(bench, run, "%s, %d masternodes" % (name, masternodes), masternodes, [text], seconds_each)
    pairs = [frame(DIFF, stream.hash_at(stream.height - back - 1) + stream.hash_at(stream.height - behind))
             for back in range(30, 150) for behind in range(2)]
    measure(bench, run, "Diffs of 30 to 150 blocks, %d masternodes" % masternodes, masternodes, pairs, seconds_each)
    measure(bench, run, "Pin and Release, %d masternodes" % masternodes, masternodes, None, seconds_each)


def measure(bench, run, name, masternodes, texts, seconds_each):
    """As many questions as take about so long, and as many of a program that answers the same number of bytes."""
    if texts is None:
        spent = pins(run, seconds_each)
    else:
        spent = run.ask(texts[:1])
        for most in (50_000, 200_000):
            if spent.seconds < seconds_each / 2:
                count = max(3, min(most, int(spent.count * seconds_each / max(spent.seconds, 1e-6))))
                spent = run.ask([texts[place % len(texts)] for place in range(count)])
    if name.startswith("Members"):
        hashed = score_bytes(masternodes)
        bench.say(name, spent.rate(), rate(bench.hash_rate, hashed), "SHA-256 of %.2f MB" % (hashed / 1e6), spent.each(),
                  hashed / bench.hash_rate)
        return
    length = spent.size // spent.count
    plain = Run([sys.executable, "-c", ANSWERING, str(length)], bench.folder)
    plain.ask([frame(TIP, b"")])
    answered = plain.ask([texts[0] if texts else frame(PIN, number(0, 4))] * min(spent.count, 20_000))
    plain.end()
    yardstick = "answers of %s bytes by a few lines of Python" % "{:,}".format(length)
    bench.say(name, spent.rate(), answered.rate(), yardstick, spent.each(), answered.each())


def pins(run, seconds_each):
    """Pins made and released, by numbers from 2 on."""
    spent, next_pin = Spent(), 2
    while spent.seconds < seconds_each and spent.count < 100_000:
        texts = []
        for pin in range(next_pin, next_pin + 500):
            texts += [frame(PIN, number(FIRST - 1 + run.pinned, 4)), frame(RELEASE, number(pin, 4))]
        next_pin += 500
        spent = spent.plus(run.ask(texts))
    return spent


def measure_blocks(bench):
    for masternodes in (500, 5_000) if bench.is_quick else (500, 5_000, 20_000):
        stream = Stream(masternodes)
        folder = bench.registry("blocks%d" % masternodes)
        few = {500: 400, 5_000: 60, 20_000: 0} if bench.is_quick else {500: 2_000, 5_000: 600, 20_000: 300}
        run = blocks_behind(bench, masternodes, folder, stream, few[masternodes])
        take_back(bench, run, stream, masternodes, 40)
        if "questions" in bench.parts:
            run.pinned = stream.height - FIRST + 1
            ask_questions(bench, run, stream, masternodes)
        bench.say("peak memory, %d masternodes, %d blocks" % (masternodes, stream.height - FIRST + 1), megabytes(run.peak()),
                  megabytes(HELD * masternodes * ROW_SIZE), "whole lists of rows, one for each of %d heights" % HELD)
        run.end()


# ---- opening

def newest_mark(folder):
    """The place in the journal from which on an opening reads, and the number of records before it; the header's end and 0
    where there is no snapshot. A slot begins with a gate, the length of what follows, its sequence number, place and records."""
    with open(os.path.join(folder, FILES[0]), "rb") as journal:
        head = journal.read(12)
    found = (0, 12 + int.from_bytes(head[8:12], "little"), 0)
    for name in FILES[1:]:
        with open(os.path.join(folder, name), "rb") as file:
            text = file.read(33)
        if len(text) == 33 and text[0] == 1:
            sequence, place, records = (int.from_bytes(text[at:at + 8], "little") for at in (9, 17, 25))
            found = max(found, (sequence, place, records))
    return found[1:]


def least_read(folder):
    """The bytes of the journal that an opening is to read at most: its header, and what stands behind the newest snapshot."""
    path = os.path.join(folder, FILES[0])
    with open(path, "rb") as journal:
        head = journal.read(12)
    place, _ = newest_mark(folder)
    return 12 + int.from_bytes(head[8:12], "little") + os.path.getsize(path) - place


def journal_bytes(bench, folder):
    """How many bytes of the journal an opening reads, by strace; where that is not to be had, about how many, by what the system
    counts for the process; and how it was counted."""
    log = os.path.join(bench.folder, "trace")
    words = ["strace", "-f", "-y", "-e", "trace=read,pread64", "-o", log, bench.program, "feed"]
    if shutil.which("strace"):
        done = subprocess.run(words, cwd=folder, stdin=subprocess.DEVNULL, stdout=subprocess.DEVNULL,
                              stderr=subprocess.DEVNULL, check=False)
        if done.returncode == 0:
            pattern = re.compile(r"read(?:64)?\(\d+<[^>]*%s>.*\) = (\d+)$" % re.escape(FILES[0]))
            with open(log, encoding="utf-8", errors="replace") as lines:
                return sum(int(found.group(1)) for found in (pattern.search(line.rstrip()) for line in lines) if found), "strace"
    snapshots = sum(os.path.getsize(os.path.join(folder, name)) for name in FILES[1:])
    return max(0, read_by(bench, folder) - read_by(bench, bench.blank) - snapshots), "/proc, about"


def read_by(bench, folder):
    """How many bytes a run of 'feed' has read when it has answered a Tip."""
    run = bench.feed(folder)
    run.ask([frame(TIP, b"")])
    with open("/proc/%d/io" % run.process.pid, encoding="ascii") as counts:
        size = int(re.search(r"rchar: (\d+)", counts.read()).group(1))
    run.end()
    return size


def opening(bench, folder, times):
    """From the start of a run of 'feed' to its answer to a Tip: the least of so many tries, and of what is spent on a processor."""
    seconds, worked = [], []
    for _ in range(times):
        begun = time.perf_counter()
        run = bench.feed(folder)
        run.ask([frame(TIP, b"")])
        seconds.append(time.perf_counter() - begun)
        worked.append(run.worked())
        run.end()
    return min(seconds), min(worked)


def audit(bench, folder):
    """How many records there are, and how many seconds it takes to replay them all."""
    begun = time.perf_counter()
    told = subprocess.run([bench.program, "audit"], cwd=folder, stdout=subprocess.PIPE, check=True).stdout
    return int(told.split()[-1]), time.perf_counter() - begun


def try_opening(bench, folder, what, times):
    """An opening beside SHA-256 of what it reads."""
    came, worked = opening(bench, folder, times)
    begun = time.perf_counter()
    subprocess.run(["sha256sum"] + [os.path.join(folder, name) for name in FILES[1:]], stdout=subprocess.DEVNULL, check=True)
    plain = time.perf_counter() - begun + least_read(folder) / bench.hash_rate
    bench.say(what, took(came), took(plain), "SHA-256 of all that is read, that of the snapshots by sha256sum", worked, plain)


def say_opening(bench, folder, masternodes):
    records, whole = audit(bench, folder)
    behind = records - newest_mark(folder)[1]
    try_opening(bench, folder, "opening, %d masternodes, %d records, %d of them behind the newest snapshot" % (
        masternodes, records, behind), 3)
    bench.say("replay of all %d records ('audit')" % records, took(whole))
    read, how = journal_bytes(bench, folder)
    size = os.path.getsize(os.path.join(folder, FILES[0]))
    bench.say("what this opening reads of a journal of %.2f MB (%s)" % (size / 1e6, how), Figure(read, "bytes", False),
              Figure(least_read(folder), "bytes", False), "the header, and what stands behind the snapshot")


def measure_opening(bench):
    masternodes = 500
    stream, folder = Stream(masternodes), bench.registry("opening")
    for records in (100, 1_000) if bench.is_quick else (100, 1_000, 10_000):
        run = bench.feed(folder)
        run.ask(list(stream.connects(records - len(stream.heights))))
        run.end()
        say_opening(bench, folder, masternodes)


def measure_snapshots(bench):
    """Openings with one block behind the newest snapshot: of one that begins at the height before all registrations, so that these
    are among what changes from one height to the next, and of one that has as many heights as are held, all masternodes in each."""
    masternodes = 5_000
    stream, folder = Stream(masternodes), bench.registry("snapshots")
    for records in (DUE + 1, 2 * DUE + 1):
        run = bench.feed(folder)
        run.ask(list(stream.connects(records - len(stream.heights))))
        run.end()
        before = newest_mark(folder)[1]
        if before != records - 1:
            raise Wrong("the newest snapshot stands behind %d of %d records" % (before, records))
        try_opening(bench, folder, "opening, %d masternodes, snapshot of %d heights" % (masternodes, min(HELD, records)), 5)


# ---- callers

def ask_once(text):
    """A caller's request, and its reply."""
    with socket.create_connection(("127.0.0.1", PORT), timeout=10) as line:
        line.sendall(text)
        size = 0
        while True:
            piece = line.recv(1 << 20)
            if not piece:
                return size
            size += len(piece)


def server(words, folder):
    """A server that takes callers. Where the port is not free it is tried for two minutes."""
    for _ in range(120):
        process = subprocess.Popen(words, cwd=folder, stdin=subprocess.DEVNULL, stdout=subprocess.DEVNULL,
                                   stderr=subprocess.DEVNULL)
        for _ in range(200):
            if process.poll() is not None:
                break
            if is_listened(process.pid):
                return process
            time.sleep(0.02)
        process.kill()
        process.wait()
        time.sleep(1)
    raise Wrong("port %d is not free" % PORT)


def is_listened(pid):
    """Whether this process listens on the port, without a caller that it would take."""
    mine = set()
    try:
        for name in os.listdir("/proc/%d/fd" % pid):
            mine.add(os.readlink("/proc/%d/fd/%s" % (pid, name)))
    except OSError:
        return False
    with open("/proc/net/tcp", encoding="ascii") as table:
        for line in table:
            parts = line.split()
            if parts[1].endswith(":%04X" % PORT) and parts[3] == "0A" and "socket:[%s]" % parts[9] in mine:
                return True
    return False


def served_seconds(words, folder, text, count):
    process = server(words, folder)
    try:
        begun = time.perf_counter()
        size = 0
        for _ in range(count):
            size = ask_once(text)
        seconds = time.perf_counter() - begun
        process.wait(20)
    finally:
        process.kill()
        process.wait()
    return seconds, size


def measure_callers(bench):
    masternodes = 500
    stream, folder = Stream(masternodes), bench.registry("callers")
    run = bench.feed(folder)
    run.ask(list(stream.connects(40)))
    run.end()
    count = 500 if bench.is_quick else 3_000
    for name, path in (("/tip", "/tip"), ("/list", "/list/%d" % stream.height),
                       ("/payees, 10", "/payees/%d/10" % stream.height)):
        text = ("GET %s HTTP/1.1\r\nHost: x\r\n\r\n" % path).encode()
        seconds, size = served_seconds([bench.program, "serve", str(count)], folder, text, count)
        serving = [sys.executable, "-c", SERVING, str(PORT), str(count), str(max(size - 100, 0))]
        plain, _ = served_seconds(serving, folder, text, count)
        bench.say("callers one after another, %s, %d masternodes" % (name, masternodes), rate(count, seconds), rate(count, plain),
                  "replies of %s bytes by a few lines of Python" % "{:,}".format(size))


# ---- memory, and the program's own generator

def measure_memory(bench):
    """A long stream: so many masternodes and blocks, its peak memory, and an opening behind it."""
    masternodes, blocks = (500, 600) if bench.is_quick else (20_000, 2_000)
    stream, folder = Stream(masternodes), bench.registry("memory")
    run = bench.feed(folder)
    run.ask(list(stream.connects(blocks)))
    bench.say("peak memory, %d masternodes, %d blocks in one run" % (masternodes, blocks), megabytes(run.peak()),
              megabytes(HELD * masternodes * ROW_SIZE), "whole lists of rows, one for each of %d heights" % HELD)
    run.end()
    say_opening(bench, folder, masternodes)


def measure_make(bench):
    """The program's own generator, where it has it."""
    for masternodes in (500,) if bench.is_quick else (500, 5_000):
        folder = os.path.join(bench.folder, "make%d" % masternodes)
        os.mkdir(folder)
        begun = time.perf_counter()
        told = subprocess.run([sys.executable, "-c", WATCHING, bench.program, "make", str(masternodes)], cwd=folder,
                              stdout=subprocess.PIPE, check=True).stdout.split()
        seconds = time.perf_counter() - begun
        code, peak, worked = int(told[0]), int(told[1]) * 1024, float(told[2])
        if code:
            raise Wrong("'make %d' ended with %d" % (masternodes, code))
        changing = 2 * ((masternodes + PER_BLOCK - 1) // PER_BLOCK)
        hashed = changing * list_bytes(masternodes) / bench.hash_rate
        bench.say("make %d" % masternodes, took(seconds), took(hashed + 680 * bench.fsync_seconds),
                  "1,360 fsync, SHA-256 of the list for each of %d blocks" % changing, worked)
        bench.say("peak memory of make %d" % masternodes, megabytes(peak),
                  megabytes(HELD * masternodes * ROW_SIZE), "whole lists of rows, one for each of %d heights" % HELD)


# ---- the table

def machine(folder):
    """What is told of the machine."""
    with open("/proc/cpuinfo", encoding="utf-8") as text:
        found = re.search(r"model name\s*:\s*(.*)", text.read())
    with open("/proc/meminfo", encoding="ascii") as text:
        memory = int(re.search(r"MemTotal:\s+(\d+) kB", text.read()).group(1)) / (1 << 20)
    kinds = {}
    with open("/proc/mounts", encoding="utf-8") as mounts:
        for line in mounts:
            _, place, kind = line.split()[:3]
            kinds[place] = kind
    place = os.path.realpath(folder)
    while place not in kinds:
        place = os.path.dirname(place)
    return [
        "- Processor: %s, %d of them; load when it began: %.1f" % (found.group(1) if found else platform.machine(), os.cpu_count(),
                                                             os.getloadavg()[0]),
        "- Memory: %.0f GiB. Kernel: Linux %s. File system: %s" % (memory, platform.release().split("-")[0], kinds[place]),
        "- Yardsticks: SHA-256 by %s, through Python %s; sha256sum of coreutils" % (ssl.OPENSSL_VERSION, platform.python_version()),
    ]


def table(bench, about):
    lines = about + ["- SHA-256 of one long text: %.0f MB/s. Two fsync with their writes: %.2f ms" % (
        bench.hash_rate / 1e6, bench.fsync_seconds * 1000)]
    lines += ["- %s" % note for note in bench.notes]
    lines += ["", "| What | The program | On a processor, each | The yardstick | Ratio | What the yardstick is |",
              "|---|---|---|---|---|---|"]
    return "\n".join(lines + ["| %s |" % " | ".join(row) for row in bench.rows]) + "\n"


def put_into(path, text):
    with open(path, encoding="utf-8") as file:
        whole = file.read()
    before, first, rest = whole.partition(MARKS[0])
    _, last, behind = rest.partition(MARKS[1])
    if not first or not last:
        sys.exit("bench: %s has no marks" % path)
    with open(path, "w", encoding="utf-8") as file:
        file.write("%s%s\n\n%s\n%s%s" % (before, first, text, last, behind))


PARTS = {"blocks": measure_blocks, "questions": measure_blocks, "opening": measure_opening, "snapshots": measure_snapshots,
         "callers": measure_callers, "memory": measure_memory, "make": measure_make}


def main(words):
    parser = argparse.ArgumentParser(description=__doc__, formatter_class=argparse.RawDescriptionHelpFormatter)
    parser.add_argument("program")
    parser.add_argument("--quick", action="store_true")
    parser.add_argument("--only", nargs="+", choices=sorted(PARTS), default=sorted(PARTS))
    parser.add_argument("--folder")
    parser.add_argument("--into")
    told = parser.parse_args(words)
    if not os.path.isfile(told.program):
        sys.exit("bench: %s is not built" % told.program)
    with tempfile.TemporaryDirectory(dir=told.folder) as folder:
        about = machine(folder)
        print("\n".join(about), flush=True)
        bench = Bench(os.path.abspath(told.program), folder, told.quick)
        bench.parts = told.only
        begun = time.monotonic()
        for part in dict.fromkeys(PARTS[name] for name in PARTS if name in told.only):
            part(bench)
        bench.notes.append("%s in %.0f seconds%s" % ("Measured" if set(told.only) == set(PARTS) else "A part, measured",
                                                     time.monotonic() - begun, ", with --quick" if told.quick else ""))
    text = table(bench, about)
    print("\n" + text)
    if told.into:
        put_into(told.into, text)


if __name__ == "__main__":
    try:
        main(sys.argv[1:])
    except (Wrong, OSError, subprocess.SubprocessError) as wrong:
        sys.exit("bench: %s" % wrong)
