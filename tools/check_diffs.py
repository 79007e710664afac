#!/usr/bin/env python3
"""Runs the built program on a random stream of blocks, and looks at its diffs: those that 'feed' answers, and what 'client'
makes of them.

    python3 tools/check_diffs.py PROGRAM [--seed N]

- 60 blocks, with others that are taken back: registrations, updates, revocations, spends, confirmations. The list of each
  height is asked for, and the diff between every two heights, and from the empty list. Each list is the one that the blocks
  leave, and each diff has exactly what turns the one list into the other.
- A client that has the headers takes each of these diffs, and then holds the list of the block.
- Of one diff every proper front is out of its form, at the right place; and with a bit of one byte turned it is refused as
  it is to be, or leads to the same list.
- A client takes 65,536 headers, and not one more.

What is wanted comes from the tool of cases, which has a model of the lists and of a client of its own. The stream is that of a
generator with a seed, which is printed."""

import argparse
import os
import random
import subprocess
import sys
import tempfile
import time

sys.path.insert(0, os.path.join(os.path.dirname(os.path.abspath(__file__)), "cases"))

from answers import APPLY, DIFF, HEADER, LIST, NUMBERS, SHOW, cut_answers  # noqa: E402 (found by the line above)
from casefile import Case, Line  # noqa: E402
from light import (BAD_BRANCH, BAD_ROOT, DIFF_FORM, ENTRY_SIZE, HEADER_DIFFERS, HEADERS_FULL, MOST_HEADERS, OK,  # noqa: E402
                   UNKNOWN_HEADER, WRONG_BASE, Client, diff_between, read_diff)
from wire import HASH_SIZE, ZERO_HASH, frame, header_text, number  # noqa: E402
from words import Mistake  # noqa: E402

BLOCKS = 60
# What a client may say of a diff of which one bit is turned. Another coinbase has another id, and so is no BadCoinbase.
TURNED = (OK, DIFF_FORM, WRONG_BASE, UNKNOWN_HEADER, BAD_BRANCH, BAD_ROOT)
FIRST = 2
# No run takes longer.
LONGEST_RUN = 50
# Where an answer to List has its root, its count and its entries.
LIST_ROOT = 36
LIST_COUNT = LIST_ROOT + HASH_SIZE
LIST_ENTRIES = LIST_COUNT + 4


class Wrong(Exception):
    """What the program does otherwise than it is to."""


# ---- a stream of blocks

class Stream:
    """Commands of a registry of the profile main, which holds all of these heights, and what stands behind each block."""

    def __init__(self, generator):
        self.generator = generator
        self.case = Case("diffs", 1)
        self.line = 0
        self.blocks = 0
        # the registrations of the branch, behind each of its blocks
        self.used = [frozenset()]
        self.say("run init")
        self.say("record main %d 01" % FIRST)
        self.say("run feed")
        while self.case.tip().height < FIRST + BLOCKS - 1:
            if self.generator.random() < 0.12:
                self.take_back(self.generator.randrange(1, 6))
            self.add()

    def say(self, text):
        self.line += 1
        self.case.take(Line(self.line, text))

    def take_back(self, count):
        for _ in range(min(count, len(self.case.states) - 1)):
            gone, before = self.case.tip(), self.case.states[-2]
            self.say("disconnect %s" % gone.hash.hex())
            self.say("= Ok height %d, hash %s" % (before.height, before.hash.hex()))
            self.used.pop()

    def add(self):
        """A block of a hash that comes once: registrations that the branch has not, and a change for some of its rows."""
        self.blocks += 1
        fresh = [k for k in range(1, 31) if k not in self.used[-1]]
        new = self.generator.sample(fresh, min(len(fresh), self.generator.choice((0, 0, 0, 1, 1, 3))))
        items = ["duties"] + ["register %d" % k for k in new]
        rows = self.case.tip().rows
        for k in sorted(self.used[-1]):
            row = rows.get(self.case.names[str(k)].id())
            if row is not None and self.generator.random() < 0.08:
                items.append(self.change(k, row))
        if self.generator.random() < 0.3:
            items.append("%d ordinary" % self.generator.randrange(1, 20))
        height, block_hash = self.case.tip().height + 1, self.generator.randbytes(HASH_SIZE).hex()
        self.say("block %d with hash %s: %s" % (height, block_hash, ", ".join(items)))
        self.say("= Ok height %d, hash %s" % (height, block_hash))
        self.used.append(self.used[-1] | frozenset(new))

    def change(self, k, row):
        """A change of a row: its service moves, its operator is another one, or gone, or its collateral is spent."""
        spent = "ordinary spending output 0 of register %d" % k
        if not any(row.operator):
            return self.generator.choice((spent, "update registrar of %d with operator %s" % (
                k, self.generator.randbytes(48).hex())))
        return self.generator.choice((
            spent, "revoke %d" % k,
            "update registrar of %d with voting %s" % (k, self.generator.randbytes(20).hex()),
            "update service of %d with address 10.%d.7.%d" % (k, self.blocks, k),
            "update service of %d with address 10.%d.8.%d" % (k, self.blocks, k)))

    def states(self):
        """The state before the first block, and that behind each block of the branch."""
        return self.case.states

    def headers(self):
        """A header frame for each block that was ever added."""
        return [frame(HEADER, state.hash + header_text(**state.header)) for state in self.case.blocks.values() if state.header]


# ---- runs

class Program:
    """The program, in a folder of its own."""

    def __init__(self, path, folder):
        self.path = path
        self.folder = folder

    def run(self, word, text):
        """What a run sends."""
        done = subprocess.run([self.path, word], input=text, stdout=subprocess.PIPE, stderr=subprocess.PIPE, cwd=self.folder,
                              timeout=LONGEST_RUN, check=False)
        if done.returncode or done.stderr:
            raise Wrong("'%s' ended with %d: %s" % (word, done.returncode, done.stderr[:200]))
        return done.stdout

    def answers(self, word, frames):
        """The status and the body of the answer to each frame."""
        found = cut_answers(self.run(word, b"".join(frames)))
        if len(found) != len(frames):
            raise Wrong("'%s' answered %d of %d frames" % (word, len(found), len(frames)))
        return found


def wants(what, came, wanted):
    if came != wanted:
        raise Wrong("%s: %s is wanted, and %s came" % (what, wanted[:120].hex(), came[:120].hex()))


def answer(status, body=b""):
    return frame(NUMBERS[status], body)


# ---- lists and diffs of a registry

class Registry:
    """A stream's registry as 'feed' answers of it: the list of each height, and diffs."""

    def __init__(self, program, stream, generator):
        self.states = stream.states()
        init, feed = stream.case.runs
        program.run("init", init.input())
        pairs = [(base, target) for base in [None] + self.states for target in self.states]
        generator.shuffle(pairs)
        asked = [frame(LIST, number(state.height, 4)) for state in self.states]
        asked += [frame(DIFF, (base.hash if base else ZERO_HASH) + target.hash) for base, target in pairs]
        frames = [ask.text for ask in feed.asks] + asked
        found = [frame(*told) for told in program.answers("feed", frames)]
        wants("the blocks", b"".join(found[:len(feed.asks)]), feed.output())
        told = found[len(feed.asks):]
        self.lists = {state.height: text[5:] for state, text in zip(self.states, told)}
        self.diffs = dict(zip([(base.height if base else None, target.height) for base, target in pairs],
                              told[len(self.states):]))

    def entries(self, height):
        """The entries that the list of a height has, by their hashes; none of no height."""
        text = b"" if height is None else self.lists[height][LIST_ENTRIES:]
        return {text[at:at + HASH_SIZE]: text[at:at + ENTRY_SIZE] for at in range(0, len(text), ENTRY_SIZE)}

    def held(self, height):
        """What a client shows that holds the list of this height."""
        text = self.lists[height]
        return frame(OK, text[4:LIST_ROOT] + text[LIST_ROOT:LIST_ENTRIES])


def check_lists(registry):
    for state in registry.states:
        entries = [row.entry() for row in state.rows.values()]
        told = registry.entries(state.height)
        head = number(state.height, 4) + state.hash + state.root() + number(len(entries), 4)
        wants("the list of %d" % state.height, registry.lists[state.height][:LIST_ENTRIES], head)
        if sorted(told) != sorted(state.rows):
            raise Wrong("the list of %d has other masternodes" % state.height)


def check_diff(registry, base, target):
    """The diff between two lists, or from the empty one where the base is None."""
    what = "the diff from %s to %d" % (base.height if base else "nothing", target.height)
    came = registry.diffs[base.height if base else None, target.height]
    if base and base.height > target.height:
        return wants(what, came, answer("BaseAbove"))
    if target.height < FIRST:
        return wants(what, came, answer("NoSuch"))
    diff = read_diff(came[5:])
    before, after = registry.entries(base.height if base else None), registry.entries(target.height)
    if diff.changed(before) != after:
        raise Wrong("%s does not turn the one list into the other" % what)
    if set(diff.deleted) != set(before) - set(after) or any(before.get(entry[:HASH_SIZE]) == entry for entry in diff.entries):
        raise Wrong("%s has more than what changed" % what)
    return wants(what, came, answer("Ok", diff_between(base, target).text()))


def check_diffs(registry):
    for base in [None] + registry.states:
        for target in registry.states:
            check_diff(registry, base, target)


# ---- what a client makes of them

def check_client(program, registry, headers):
    """A client takes each diff of which it holds the base."""
    frames, wanted = list(headers), [frame(OK, b"")] * len(headers)

    def apply(base, target):
        frames.append(frame(APPLY, registry.diffs[base, target][5:]))
        wanted.append(registry.held(target))

    heights = [state.height for state in registry.states[1:]]
    for base in heights:
        for target in heights[base - FIRST:]:
            apply(None, base)
            apply(base, target)
            frames.append(frame(SHOW, b""))
            wanted.append(registry.held(target))
    for place, (came, wants_it) in enumerate(zip(program.answers("client", frames), wanted)):
        wants("frame %d of a client" % place, frame(*came), wants_it)
    return len(frames)


def changed_texts(text):
    """Each proper front of a text, and the text with one bit turned."""
    for size in range(len(text)):
        yield text[:size]
    for place, byte in enumerate(text):
        for bit in range(8):
            yield text[:place] + bytes([byte ^ 1 << bit]) + text[place + 1:]


def check_changed(program, registry, headers):
    """A diff that is cut, or of which one bit is turned, behind its base."""
    base, target = max(registry.diffs, key=lambda pair: interest(registry, *pair))
    whole, first = registry.diffs[base, target][5:], frame(APPLY, registry.diffs[None, base][5:])
    model = Client()
    frames, wanted = [], []

    def ask(kind, body):
        frames.append(frame(kind, body))
        wanted.append(model.add_header(body[:HASH_SIZE], body[HASH_SIZE:]) if kind == HEADER else model.apply(body))

    for header in headers:
        ask(HEADER, header[5:])
    ask(APPLY, first[5:])
    before = model.shown()
    for place, text in enumerate(changed_texts(whole)):
        ask(APPLY, text)
        if place < len(whole) and wanted[-1][0] != DIFF_FORM:
            raise Wrong("the model takes a front of %d bytes for a diff" % place)
        if wanted[-1][0] == OK and wanted[-1] != registry.held(target):
            raise Wrong("the model takes another list for that of %d" % target)
        frames.append(frame(SHOW, b""))
        wanted.append(model.shown())
        if model.shown() != before:
            ask(APPLY, first[5:])
    seen = {}
    for place, (came, wants_it) in enumerate(zip(program.answers("client", frames), wanted)):
        wants("frame %d of a client whose diff is changed" % place, frame(*came), wants_it)
        seen[came[0]] = seen.get(came[0], 0) + 1
    if sorted(seen) != sorted(TURNED):
        raise Wrong("the answers are to be those of %s, and are %s" % (TURNED, seen))
    return len(whole)


def interest(registry, base, target):
    """How much a short diff has: that with deleted ones, several entries and several transactions is to be changed."""
    text = registry.diffs[base, target]
    if base is None or base < FIRST or target < FIRST or text[0] != OK or len(text) > 1_200:
        return -1
    diff = read_diff(text[5:])
    return min(len(diff.deleted), 2) * 4 + min(len(diff.entries), 3) * 2 + min(diff.total, 5)


def check_headers(program):
    """As many headers as there may be, and one more."""
    def header(place, root):
        return frame(HEADER, place.to_bytes(4, "big") + bytes(HASH_SIZE - 4) + header_text(bytes([root]) * HASH_SIZE))

    frames = [header(place, 1 + place % 255) for place in range(1, MOST_HEADERS + 2)]
    frames += [header(1, 2), header(1, 3), header(MOST_HEADERS, 1 + MOST_HEADERS % 255), frame(SHOW, b"")]
    wanted = [frame(OK, b"")] * MOST_HEADERS
    wanted += [frame(HEADERS_FULL, b""), frame(OK, b""), frame(HEADER_DIFFERS, b"\2" * HASH_SIZE), frame(OK, b""),
               Client().shown()]
    for place, (came, wants_it) in enumerate(zip(program.answers("client", frames), wanted)):
        wants("header %d" % (place + 1), frame(*came), wants_it)


def check(program, generator):
    stream = Stream(generator)
    registry = Registry(program, stream, generator)
    check_lists(registry)
    check_diffs(registry)
    headers = stream.headers()
    frames = check_client(program, registry, headers)
    size = check_changed(program, registry, headers)
    check_headers(program)
    return "%d blocks of which %d stay, %d diffs; %d frames of a client; a diff of %d bytes cut and changed; %d headers" % (
        stream.blocks, len(stream.states()) - 1, len(registry.diffs), frames, size, MOST_HEADERS + 1)


def main(words):
    parser = argparse.ArgumentParser(description=__doc__, formatter_class=argparse.RawDescriptionHelpFormatter)
    parser.add_argument("program")
    parser.add_argument("--seed", type=int, default=1)
    told = parser.parse_args(words)
    if not os.path.isfile(told.program):
        sys.exit("check_diffs: %s is not built" % told.program)
    begun = time.monotonic()
    with tempfile.TemporaryDirectory() as folder:
        try:
            said = check(Program(os.path.abspath(told.program), folder), random.Random(told.seed))
        except (Wrong, Mistake, OSError, ValueError, subprocess.SubprocessError) as wrong:
            print("diffs: WRONG (seed %d): %s" % (told.seed, wrong))
            return 1
    print("diffs: %s: as it is to be (seed %d, %d seconds)" % (said, told.seed, time.monotonic() - begun))
    return 0


if __name__ == "__main__":
    sys.exit(main(sys.argv[1:]))
