#!/usr/bin/env python3
"""Looks at what snapshots and compaction may not change: runs the built program on random streams of blocks and on a long one,
closes and opens it, and compares all that it answers.

    python3 tools/check_snapshots.py PROGRAM [--seed N]

- A stream of the profile small: registrations, updates, revocations, spends, confirmations, penalties and bans, quorums,
  disconnects. One registry is never closed, one is closed and opened behind 60 blocks, one is opened again before each command.
  Every question at every height that is held has the same answer in all of them, and so for the next 40 blocks.
- Behind each command the newest slot tells the place and the number of records that it is to tell.
- The newest snapshot is read and not the journal before it: with that overwritten all answers stay. With a slot damaged, or
  both, the opening goes on from the other one, or from the first record.
- A block's snapshot that is cut, torn or not opened leaves the registry as it was before the block.
- A penalty that is stored at another height, where it reads the same, is the same.
- A stream of the profile main with 500 masternodes over 600 blocks, whose trees are compacted: pins of its heights read the same
  to its end, and disconnects behind each block, whichever was compacted, leave what was there.

The streams are those of generators with a seed, which is printed."""

import argparse
import os
import random
import shutil
import subprocess
import sys
import tempfile

HERE = os.path.dirname(os.path.abspath(__file__))
sys.path.insert(0, os.path.join(HERE, "cases"))
sys.path.insert(0, os.path.join(HERE, "..", "bench"))

from answers import (DIFF, DISCONNECT, LIST, MEMBERS, PAGE, PAYEES, PIN, QUORUMS, ROW, ROW_SIZE, TIP)  # noqa: E402 (found above)
from casefile import Case, Line  # noqa: E402
from disk import EVERY, PATHS, header_text  # noqa: E402
from light import ENTRY_SIZE  # noqa: E402
from model import KEPT, members  # noqa: E402
from stream import FIRST, Stream, start_record  # noqa: E402
from wire import HASH_SIZE, HEAD, ZERO_HASH, entry_text, frame, number  # noqa: E402

# How many blocks the branch has when it is closed, and how many are added behind it.
BEFORE, BEHIND = 60, 40
DEPTH = 6
SMALL = 1
# The profile's one type of quorum, and how many members a commitment needs at least.
KIND, SIZE, MINIMUM = 100, 4, 3
# Of a row: its penalty in force; behind it, where it is stored, the height at which this was in force.
PENALTY_AT = 80
# A slot: its gate, the length of what follows, its sequence number, place and records, and what it holds.
LENGTH_AT, SEQUENCE_AT, PLACE_AT, RECORDS_AT, HELD_AT = 1, 9, 17, 25, 33
# What it holds begins with two heights, a hash, and the number of rows.
ROWS_AT = HELD_AT + 4 + 4 + HASH_SIZE + 4


class Wrong(Exception):
    """What the program does otherwise than it is to."""


def wants(what, came, wanted):
    if came != wanted:
        raise Wrong("%s: %s is wanted, and %s came" % (what, wanted[:80] if isinstance(wanted, bytes) else wanted,
                                                     came[:80] if isinstance(came, bytes) else came))


# ---- the program

class Folder:
    """A registry's folder, and runs of the program in it."""

    def __init__(self, program, path):
        self.program = program
        self.path = path
        os.makedirs(path, exist_ok=True)

    def run(self, words, text=b""):
        done = subprocess.run([self.program] + words, input=text, stdout=subprocess.PIPE, stderr=subprocess.PIPE, cwd=self.path,
                              check=False)
        if done.stderr:
            raise Wrong("'%s' wrote to standard error: %s" % (" ".join(words), done.stderr[:200]))
        return done.stdout, done.returncode

    def answers(self, frames):
        """The answers of a run of 'feed' to these frames."""
        sent, code = self.run(["feed"], b"".join(frames))
        if code:
            raise Wrong("'feed' ended with %d" % code)
        return cut(sent)

    def text(self, file):
        path = os.path.join(self.path, PATHS[file])
        if not os.path.exists(path):
            return b""
        with open(path, "rb") as found:
            return found.read()

    def put(self, file, text):
        with open(os.path.join(self.path, PATHS[file]), "wb") as out:
            out.write(text)

    def copy(self, name):
        """Another folder with the same files."""
        other = Folder(self.program, os.path.join(os.path.dirname(self.path), name))
        for file in range(len(PATHS)):
            other.put(file, self.text(file))
        return other


class Live(Folder):
    """A registry in a run of 'feed' that goes on."""

    def open(self):
        self.process = subprocess.Popen([self.program, "feed"], stdin=subprocess.PIPE, stdout=subprocess.PIPE, cwd=self.path)
        return self

    def answers(self, frames):
        """The answers to these frames, which are sent few at a time, so that neither side waits."""
        found = []
        for at in range(0, len(frames), 20):
            some = frames[at:at + 20]
            self.process.stdin.write(b"".join(some))
            self.process.stdin.flush()
            found += [self.answer() for _ in some]
        return found

    def answer(self):
        head = self.process.stdout.read(HEAD)
        return head + self.process.stdout.read(int.from_bytes(head[1:], "little"))

    def close(self):
        self.process.stdin.close()
        code = self.process.wait()
        self.process.stdout.close()
        if code:
            raise Wrong("'feed' ended with %d" % code)


def cut(text):
    """The frames of a text."""
    found, at = [], 0
    while at < len(text):
        end = at + HEAD + int.from_bytes(text[at + 1:at + HEAD], "little")
        found.append(text[at:end])
        at = end
    return found


def mark_of(slot):
    """The sequence number, the place and the records of a slot; None where it is not valid by its gate and its numbers."""
    if len(slot) < HELD_AT or slot[0] != 1:
        return None
    length, sequence, place, records = (int.from_bytes(slot[at:at + 8], "little")
                                        for at in (LENGTH_AT, SEQUENCE_AT, PLACE_AT, RECORDS_AT))
    is_valid = len(slot) >= 9 + length and length >= 24 and 1 <= sequence <= records + 1 and records <= place
    return (sequence, place, records) if is_valid else None


# ---- a random stream of the profile small

class Commands:
    """Commands of a registry of the profile small, each of which is accepted: frames, answers, and which snapshots they leave."""

    def __init__(self, generator):
        self.generator = generator
        self.case = Case("snapshots", 1)
        self.line = 0
        self.registered = 0
        self.hashes = []
        self.say("run init")
        self.say("record small 2 01")
        self.say("run feed")
        self.record = self.case.runs[0].input()
        self.place = len(header_text(self.record))
        self.marks = {1: None, 2: None}
        self.newest = (0, self.place, 0)
        self.records = 0

    def say(self, text):
        self.line += 1
        self.case.take(Line(self.line, text))

    def last(self):
        """The last command's frame and answer; what its record leaves is noted."""
        ask = self.case.runs[-1].asks[-1]
        if ask.text[0] != DISCONNECT and self.records - self.newest[2] >= EVERY[SMALL]:
            sequence = self.newest[0] + 1
            self.newest = (sequence, self.place, self.records)
            self.marks[2 - sequence % 2] = self.newest
        self.records += 1
        self.place += len(ask.text) + 1
        return ask.text, ask.answer

    def block(self, items):
        height, block_hash = self.case.tip().height + 1, self.generator.randbytes(HASH_SIZE).hex()
        self.say("block %d with hash %s: %s" % (height, block_hash, ", ".join(items)))
        self.say("= Ok height %d, hash %s" % (height, block_hash))
        return self.last()

    def take_back(self):
        gone, before = self.case.tip(), self.case.states[-2]
        self.say("disconnect %s" % gone.hash.hex())
        self.say("= Ok height %d, hash %s" % (before.height, before.hash.hex()))
        return self.last()

    def may_go_back(self):
        return self.case.tip().height > max(self.case.first - 1, self.case.top - DEPTH)

    def next(self):
        """A block, or at times a disconnect."""
        if self.may_go_back() and self.generator.random() < 0.2:
            return self.take_back()
        items = [self.commitment()]
        for k in range(1, self.registered + 1):
            row = self.case.tip().rows.get(self.case.names[str(k)].id())
            if row is not None and self.generator.random() < 0.04:
                items.append(self.change(k, row))
        if self.registered < 25 and self.generator.random() < 0.5:
            self.registered += 1
            items.append("register %d" % self.registered)
        return self.block(items)

    def commitment(self):
        """The commitment that is due: null, or signed by all members, one of whom may be not valid."""
        case = self.case
        height = case.tip().height + 1
        base = case.state_at(height - height % 12)
        if not 4 <= height % 12 <= 10 or base is None or base.height < case.first or (KIND, base.height) in case.tip().mined:
            return "duties"
        seats = members(base, KIND, SIZE)
        if len(seats) < MINIMUM or self.generator.random() < 0.4:
            return "duties"
        if len(seats) == MINIMUM or self.generator.random() < 0.2:
            return "commitment"
        absent = seats[0] if self.generator.random() < 0.7 else self.generator.choice(seats)
        name = next(name for name, tx in case.names.items() if tx.id() == absent)
        return "commitment with without %s" % name

    def change(self, k, row):
        spent = "ordinary spending output 0 of register %d and paying 1000 DASH to key 07" % k
        if not any(row.operator):
            return self.generator.choice((spent, "update registrar of %d with operator %s" % (
                k, self.generator.randbytes(48).hex())))
        service = "update service of %d with address 10.%d.7.%d" % (k, self.line % 250, k)
        if row.banned:
            return service
        return self.generator.choice((
            spent, service, service, "revoke %d with reason 2" % k,
            "update registrar of %d with voting %s" % (k, self.generator.randbytes(20).hex())))

    def held(self):
        """The heights that are held."""
        low = max(self.case.first - 1, self.case.top - KEPT["small"])
        return range(low, self.case.tip().height + 1)

    def questions(self):
        """Every question at every height that is held, and at the two beside these."""
        held = self.held()
        ids = sorted({row for state in self.case.states for row in state.rows}) + [b"\x09" * HASH_SIZE]
        frames = [frame(TIP, b"")]
        for height in (held[0] - 1, *held, held[-1] + 1):
            at = number(height, 4)
            frames += [frame(LIST, at), frame(PAYEES, at + number(100, 2)), frame(QUORUMS, at), frame(MEMBERS, bytes([KIND]) + at)]
            frames += [frame(ROW, at + row) for row in ids]
        hashes = [state.hash for state in self.case.states if state.height in held]
        frames += [frame(DIFF, base + target) for base in [ZERO_HASH] + hashes for target in hashes]
        return frames


def same_answers(what, commands, registries):
    """Each question has the same answer in these registries."""
    frames = commands.questions()
    wanted = registries[0].answers(frames)
    for other in registries[1:]:
        came = other.answers(frames)
        for asked, one, two in zip(frames, wanted, came):
            if one != two:
                raise Wrong("%s: to %s one registry answers %s, another %s" % (
                    what, asked[:45].hex(), one[:200].hex(), two[:200].hex()))
        wants("%s: answers" % what, len(came), len(wanted))
    return len(frames)


def check_slots(what, commands, folder):
    for slot, mark in commands.marks.items():
        wants("%s: the mark of slot %d" % (what, slot), mark_of(folder.text(slot)), mark)


def give(folder, command):
    wants("a command", folder.answers([command[0]]), [command[1]])


def grown(commands, registries, blocks):
    """Adds commands until there are so many blocks."""
    while commands.case.tip().height < commands.case.first - 1 + blocks:
        command = commands.next()
        for registry in registries:
            give(registry, command)
        yield command


def check_reopened(program, room, generator):
    commands = Commands(generator)
    stays, once, each = (Live(program, os.path.join(room, "stays")), Live(program, os.path.join(room, "once")),
                         Folder(program, os.path.join(room, "each")))
    for registry in (stays, once, each):
        wants("init", registry.run(["init"], commands.record), (b"", 0))
    stays.open(), once.open()
    asked = 0
    for place, _ in enumerate(grown(commands, (stays, once, each), BEFORE)):
        check_slots("behind command %d" % (place + 1), commands, each)
    once.close()
    once.open()
    asked += same_answers("behind %d blocks" % BEFORE, commands, (stays, once, each))
    for place, _ in enumerate(grown(commands, (stays, once, each), BEFORE + BEHIND)):
        check_slots("behind command %d" % commands.records, commands, once)
        if place % 5 == 0:
            asked += same_answers("behind command %d" % commands.records, commands, (stays, once, each))
    asked += same_answers("at the end", commands, (stays, once, each))
    stays.close(), once.close()
    wants("the journals", stays.text(0), each.text(0))
    rows = [row for state in commands.case.states for row in state.rows.values()]
    if not any(row.penalty for row in rows) or not any(row.banned for row in rows) or not commands.case.tip().mined:
        raise Wrong("the stream has no penalties, no bans or no quorums: another seed is wanted")
    return commands, each, "%d commands, %d snapshots; %d questions asked of each of three registries" % (
        commands.records, commands.newest[0], asked)


# ---- files that are damaged

def overwritten(journal, header, place):
    """A journal of which the records before a place are no records, behind the first one's gate."""
    return journal[:header + 1] + b"\xff" * (place - header - 1) + journal[place:]


def check_damaged(commands, folder):
    """What stands before the newest snapshot is not read; a slot that is no valid one is passed over."""
    questions = commands.questions()
    wanted = folder.answers(questions)
    header, place = len(header_text(commands.record)), commands.newest[1]
    newest = 2 - commands.newest[0] % 2
    journal = folder.text(0)

    def opens(what, changes):
        other = folder.copy("damaged")
        for file, text in changes.items():
            other.put(file, text)
        wants(what, other.answers(questions), wanted)

    def fails(what, changes):
        other = folder.copy("damaged")
        for file, text in changes.items():
            other.put(file, text)
        sent, code = other.run(["feed"], frame(TIP, b""))
        wants(what, (sent, code), (b"", 6))

    torn = overwritten(journal, header, place)
    opens("a journal that is overwritten before the newest snapshot", {0: torn})
    slot = folder.text(newest)
    slot = slot[:SEQUENCE_AT + int.from_bytes(slot[LENGTH_AT:SEQUENCE_AT], "little")]
    other = 3 - newest
    for what, text in (("a closed gate", b"\0" + slot[1:]), ("a cut slot", slot[:-1]), ("no slot", b""),
                       ("another sequence", slot[:SEQUENCE_AT] + bytes(8) + slot[PLACE_AT:]),
                       ("a text out of its form", slot[:ROWS_AT - 4] + b"\xff" * 4 + slot[ROWS_AT:])):
        opens("%s in the place of the newest snapshot" % what, {newest: text})
        opens("%s in the place of both" % what, {newest: text, other: b""})
        fails("%s, and a journal that is overwritten before it" % what, {newest: text, other: b"", 0: torn})
    return "a journal overwritten before the newest snapshot, and damaged slots"


def check_penalty(program, room, generator):
    """A row of a snapshot that has a penalty is stored with another height, at which it is as it reads."""
    for _ in range(50):
        commands = Commands(generator)
        folder = Folder(program, os.path.join(room, "penalty"))
        shutil.rmtree(folder.path)
        folder = Folder(program, folder.path)
        folder.run(["init"], commands.record)
        frames = [command[0] for command in (commands.next() for _ in range(90))]
        folder.answers(frames)
        newest = 2 - commands.newest[0] % 2
        slot = folder.text(newest)
        low = int.from_bytes(slot[HELD_AT + 4:HELD_AT + 8], "little")
        count = int.from_bytes(slot[ROWS_AT - 4:ROWS_AT], "little")
        found = list(later_penalties(slot, count, low))
        if found:
            questions = commands.questions()
            wanted = folder.answers(questions)
            for changed in found:
                other = folder.copy("penalty-moved")
                other.put(newest, changed)
                wants("a penalty that is stored at another height", other.answers(questions), wanted)
            return "%d penalties stored at another height" % len(found)
    raise Wrong("no stream has a penalty in the first list of a snapshot: another seed is wanted")


def later_penalties(slot, count, low):
    """The slot, with each penalty of its first list in turn stored as it reads one height later, or at the list's height."""
    for place in range(count):
        at = ROWS_AT + place * (ROW_SIZE + 4)
        penalty, height = (int.from_bytes(slot[start:start + 4], "little") for start in (at + PENALTY_AT, at + ROW_SIZE))
        banned = int.from_bytes(slot[at + 76:at + 80], "little")
        for later in (height + 1, low):
            reads = penalty if banned else max(0, penalty - (later - height))
            if penalty and height < later <= low:
                moved = bytearray(slot)
                moved[at + PENALTY_AT:at + PENALTY_AT + 4] = number(reads, 4)
                moved[at + ROW_SIZE:at + ROW_SIZE + 4] = number(later, 4)
                yield bytes(moved)


# ---- fourteen records, and snapshots that are torn

def filled(program, room, name, generator, plan):
    """A registry behind these commands, each a number of blocks, or of disconnects where it is below 0."""
    commands, folder = Commands(generator), Folder(program, os.path.join(room, name))
    folder.run(["init"], commands.record)
    for count in plan:
        for _ in range(abs(count)):
            give(folder, commands.block(["duties", "register %d" % (commands.records + 1)] if commands.records < 30 else ["duties"])
                 if count > 0 else commands.take_back())
    check_slots("behind %s" % (plan,), commands, folder)
    return commands, folder


def tail_of(commands, folder):
    """How many records stand behind the newest snapshot that is in the files."""
    marks = [mark for mark in (mark_of(folder.text(1)), mark_of(folder.text(2))) if mark]
    return commands.records - max(marks)[2] if marks else commands.records


def check_fourteen(program, room, generator):
    """Eight blocks, and of fourteen records behind the snapshot eight blocks and six disconnects; then one block more."""
    commands, folder = filled(program, room, "fourteen", generator, (8, 8, -6))
    wants("the records behind the newest snapshot", tail_of(commands, folder), 14)
    wants("the newest snapshot's records", commands.newest[2], 8)
    header = len(header_text(commands.record))
    journal = folder.text(0)
    other = folder.copy("fourteen-torn")
    other.put(0, overwritten(journal, header, commands.newest[1]))
    wants("an opening that reads the header and 14 records", other.answers([frame(TIP, b"")]), folder.answers([frame(TIP, b"")]))
    give(folder, commands.block(["duties"]))
    wants("the records behind the newest snapshot, one block later", tail_of(commands, folder), 1)
    check_slots("one block later", commands, folder)
    same_answers("behind fourteen records", commands, (folder, folder.copy("fourteen-again")))
    return "fourteen records behind the newest snapshot, and one behind the next"


def check_empty(program, room, generator):
    """A snapshot of a registry without blocks, whose tip has come back to the start."""
    commands, folder = filled(program, room, "empty", generator, (4, -4, 1, -1))
    wants("the newest snapshot's records", commands.newest[2], 8)
    wants("the rows of the snapshot", folder.text(1)[ROWS_AT - 4:ROWS_AT], bytes(4))
    other = Folder(program, os.path.join(room, "empty-whole"))
    for file, text in enumerate((folder.text(0), b"", b"")):
        other.put(file, text)
    same_answers("an empty registry with a snapshot", commands, (folder, other))
    give(folder, commands.block(["duties"]))
    give(other, (commands.case.runs[-1].asks[-1].text, commands.case.runs[-1].asks[-1].answer))
    same_answers("a block behind it", commands, (folder, other))
    return "an empty registry with a snapshot"


def torn_slots(slot, generator):
    """What may stand in a file without a slot while the first snapshot is written: nothing; a gate that isn't open and what was
    written, of any length and with any bytes; the whole text, with any gate that isn't open; the slot."""
    yield b"", False
    for byte in (0, 255):
        yield bytes([byte]) * len(slot), False
        yield bytes([byte]) + slot[1:], False
    for _ in range(12):
        size = generator.randrange(1, len(slot))
        yield b"\0" + slot[1:size], False
        torn = bytearray(b"\0" + slot[1:])
        begin = generator.randrange(1, len(slot))
        end = generator.randrange(begin, len(slot)) + 1
        torn[begin:end] = generator.randbytes(end - begin)
        yield bytes(torn), False
    yield slot, True


def check_torn(program, room, generator):
    """The ninth block's snapshot, as far as a crash leaves it: eight blocks are there, with the slot or without."""
    commands, folder = filled(program, room, "torn", generator, (8,))
    ninth = commands.block(["duties"])
    questions = [frame(TIP, b"")] + [frame(LIST, number(height, 4)) for height in range(1, 10)]
    wanted = folder.answers(questions)
    whole = folder.copy("torn-whole")
    give(whole, ninth)
    slot, count = whole.text(1), 0
    wants("the ninth block's snapshot", mark_of(slot), (1, commands.newest[1], 8))
    for text, is_whole in torn_slots(slot, generator):
        other = folder.copy("torn-other")
        other.put(1, text)
        wants("whether the slot is valid", mark_of(text) is not None, is_whole)
        wants("a registry whose first snapshot is torn", other.answers(questions), wanted)
        give(other, ninth)
        wants("a snapshot behind a torn one", (mark_of(other.text(1)), other.text(2)), ((1, commands.newest[1], 8), b""))
        wants("and the journal", other.text(0), whole.text(0))
        count += 1
    return "%d images of a first snapshot that is being written" % count


# ---- compaction

def pages(pin, count):
    return [frame(PAGE, number(pin, 4) + number(at, 4) + number(100, 2)) for at in range(0, count, 100)]


def entries_of(answers):
    return b"".join(answer[HEAD + 2:] for answer in answers)


def list_entries(stream):
    """The entries of the list behind the stream's tip."""
    by_hash = {masternode.hash: masternode.entry for masternode in stream.masternodes[:stream.listed]}
    return b"".join(entry_text(by_hash[hash_]) for hash_ in stream.order)


def check_compacted(program, room, generator):
    """The generator's stream, with every block taken back and added again, and deeper ways back; two pins."""
    count, blocks, pinned_at = 500, 600, 600
    stream, folder = Stream(count), Live(program, os.path.join(room, "compacted"))
    wants("init", folder.run(["init"], start_record()), (b"", 0))
    folder.open()
    pins = {}
    for place in range(blocks):
        body = stream.add()
        block = frame(1, body)
        back = frame(DISCONNECT, stream.hash)
        before = folder.answers([block, back, block])
        if any(answer[0] for answer in before):
            raise Wrong("block %d, its disconnect, and it once more: %s" % (stream.height, [answer.hex() for answer in before]))
        if stream.height in (pinned_at, pinned_at - 10):
            pin = int.from_bytes(folder.answers([frame(PIN, number(stream.height, 4))])[0][HEAD:], "little")
            pins[pin] = list_entries(stream)
        if place % 50 == 49:
            deep = generator.randrange(2, 100)
            backs = [frame(DISCONNECT, stream.take_back()) for _ in range(min(deep, place))]
            again = [frame(1, stream.add()) for _ in backs]
            if any(answer[0] for answer in folder.answers(backs + again)):
                raise Wrong("%d disconnects from block %d, and the blocks once more" % (deep, stream.height))
        if place % 25 == 24:
            check_list(folder, stream, pins, count)
    lists = [frame(LIST, number(height, 4)) for height in range(stream.height - KEPT["main"], stream.height + 1)]
    shown = folder.answers(lists)
    folder.close()
    wants("the lists of all heights that are held, once it is opened again", folder.copy("compacted-again").answers(lists), shown)
    return "%d blocks of %d masternodes, each taken back and added again; %d pins" % (blocks, count, len(pins))


def check_list(folder, stream, pins, count):
    told = folder.answers([frame(LIST, number(stream.height, 4))])[0]
    wanted = stream.root + number(stream.listed, 4) + list_entries(stream)
    wants("the list of %d" % stream.height, told[HEAD + 4 + HASH_SIZE:], wanted)
    for pin, entries in pins.items():
        wants("pin %d at height %d" % (pin, stream.height), entries_of(folder.answers(pages(pin, count))), entries)
        wants("its size", len(entries) % ENTRY_SIZE, 0)


# ---- all of it

def check_streams(program, room, generator):
    commands, each, said = check_reopened(program, room, generator)
    return said + "; " + check_damaged(commands, each)


CHECKS = (check_fourteen, check_empty, check_torn, check_streams, check_penalty, check_compacted)


def main(words):
    parser = argparse.ArgumentParser(description=__doc__, formatter_class=argparse.RawDescriptionHelpFormatter)
    parser.add_argument("program")
    parser.add_argument("--seed", type=int, default=1)
    told = parser.parse_args(words)
    if not os.path.isfile(told.program):
        sys.exit("check_snapshots: %s is not built" % told.program)
    with tempfile.TemporaryDirectory() as room:
        for check in CHECKS:
            try:
                print("snapshots: %s: as it is to be (seed %d)" % (
                    check(os.path.abspath(told.program), room, random.Random(told.seed)), told.seed), flush=True)
            except (Wrong, OSError, subprocess.SubprocessError) as wrong:
                print("snapshots: WRONG in %s (seed %d): %s" % (check.__name__, told.seed, wrong))
                return 1
    return 0


if __name__ == "__main__":
    sys.exit(main(sys.argv[1:]))
