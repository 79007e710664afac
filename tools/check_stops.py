#!/usr/bin/env python3
"""Runs the built program in folders of its own, stops it, and looks at what is left: what no proof can say of real files and
processes.

    python3 tools/check_stops.py PROGRAM [--kills N] [--seed N] [--seconds N] [--long N]

- A run of 'feed' is killed at a random moment, N times (40), and opened again each time: the registry has a front of the
  commands that were sent, and each one that was answered is among them. Some runs of 'init' are killed too.
- With --long a registry of the profile 'small' takes N records (as many as 2,000), and is killed again and again until it
  has, while its snapshots are written one over the other.
- The file is not let grow: that is answered by code 4, and nothing that was answered is lost.
- A journal that cannot be written ends the run with code 4, an empty folder with code 6, and nothing is sent.
- Journals of unequal profiles are opened by their own.

The moments are those of a generator with a seed, which is printed. Once the seconds (120) are over no run is begun, and it
says how many were. A kill takes nothing from what the system holds of a file, so this shows what stands on writes and their
order, and not on what a disk keeps when its power fails."""

import argparse
import os
import random
import resource
import shutil
import signal
import subprocess
import sys
import tempfile
import time

sys.path.insert(0, os.path.join(os.path.dirname(os.path.abspath(__file__)), "cases"))

from casefile import CODES, Case, Line  # noqa: E402 (found by the line above)
from disk import OPEN, PATHS, header_text  # noqa: E402
from wire import frame  # noqa: E402

JOURNAL = PATHS[0]
TIP = frame(3, b"")
KILLED = -signal.SIGKILL
NOBODY = 65534
# As many commands as one registry takes before the next is begun.
COMMANDS = 60
# Of so many kills one falls on 'init'.
INITS = 8
# A run that takes longer is a fault.
LONGEST_RUN = 60


class Wrong(Exception):
    """What the program does otherwise than it is to."""


# ---- commands

class Plan:
    """A start record, commands with the answers to them, and what stands behind each number of them."""

    def __init__(self, generator, profile="small", count=COMMANDS):
        self.begin(profile)
        for _ in range(count):
            self.add(generator)
        self.collect()

    def begin(self, profile):
        self.case = Case("stops", 1)
        self.line = 0
        self.registered = 0
        self.say("run init")
        self.say("record %s 2 01" % profile)
        self.say("run feed")

    def collect(self):
        """What the words say, in bytes."""
        self.record = self.case.runs[0].input()
        run = self.case.runs[1]
        self.frames = [ask.text for ask in run.asks]
        self.answers = [ask.answer for ask in run.asks]
        self.stands = [run.stand.shows()] + [ask.stand.shows() for ask in run.asks]

    def say(self, text):
        self.line += 1
        self.case.take(Line(self.line, text))

    def add(self, generator):
        """A block, or a disconnect of the last one. No hash comes twice."""
        tip = self.case.tip()
        deepest = max(self.case.first - 1, self.case.top - 6)
        if tip.height > deepest and generator.random() < 0.3:
            before = self.case.states[-2]
            self.say("disconnect %s" % tip.hash.hex())
            self.say("= Ok height %d, hash %s" % (before.height, before.hash.hex()))
            return
        block_hash = generator.randbytes(32).hex()
        items = ["duties"]
        if self.registered < 30 and generator.random() < 0.5:
            self.registered += 1
            items.append("register %d" % self.registered)
        if generator.random() < 0.1:
            items.append("ordinary paying 5 to bytes %s" % generator.randbytes(generator.randrange(1, 9_000)).hex())
        self.say("block %d with hash %s: %s" % (tip.height + 1, block_hash, ", ".join(items)))
        self.say("= Ok height %d, hash %s" % (tip.height + 1, block_hash))


class LongPlan(Plan):
    """So many commands that a journal of the profile 'small' just holds them: short blocks, and as many disconnects, below the
    heights at which commitments are due."""

    HIGHEST = 13

    def add(self, generator):
        tip = self.case.tip()
        floor = max(self.case.first - 1, self.case.top - 6)
        if tip.height > floor and (tip.height == self.HIGHEST or generator.random() < 0.5):
            before = self.case.states[-2]
            self.say("disconnect %s" % tip.hash.hex())
            self.say("= Ok height %d, hash %s" % (before.height, before.hash.hex()))
            return
        block_hash = generator.randbytes(32).hex()
        is_new = self.registered < 20 and generator.random() < 0.05
        self.registered += is_new
        self.say("block %d with hash %s%s" % (tip.height + 1, block_hash, ": register %d" % self.registered if is_new else ""))
        self.say("= Ok height %d, hash %s" % (tip.height + 1, block_hash))


def answered(plan, begun, sent):
    """How many commands behind the first ones were answered, by what was sent."""
    count, at = begun, 0
    while count < len(plan.answers) and sent.startswith(plan.answers[count], at):
        at += len(plan.answers[count])
        count += 1
    rest = sent[at:]
    if rest and not (count < len(plan.answers) and plan.answers[count].startswith(rest)):
        raise Wrong("an answer to command %d that is not right: %s" % (count, rest.hex()))
    return count


# ---- runs

class Program:
    """The program, in a folder of its own."""

    def __init__(self, path, folder):
        self.path = path
        self.folder = folder

    def empty(self):
        for name in os.listdir(self.folder):
            path = os.path.join(self.folder, name)
            if os.path.isdir(path):
                os.rmdir(path)
            else:
                os.remove(path)

    def run(self, words, text=b"", prepare=None):
        """What a run sends, and its code."""
        done = subprocess.run([self.path] + words, input=text, stdout=subprocess.PIPE, stderr=subprocess.PIPE, cwd=self.folder,
                              preexec_fn=prepare, timeout=LONGEST_RUN, check=False)
        if done.stderr:
            raise Wrong("'%s' wrote to standard error: %s" % (" ".join(words), done.stderr[:200]))
        return done.stdout, done.returncode

    def wants(self, words, text, sent, status, prepare=None):
        """A run that is to send this and to end so."""
        came, code = self.run(words, text, prepare)
        if (came, code) != (sent, CODES[status]):
            raise Wrong("'%s' sent %s and ended with %d; wanted %s and %s" % (
                " ".join(words), came[:80].hex(), code, sent[:80].hex(), status))

    def kill(self, words, text, seconds):
        """What a run has sent that is killed after so many seconds, and its code, which is another one where it was over."""
        with tempfile.TemporaryFile() as asked, tempfile.TemporaryFile() as sent:
            asked.write(text)
            asked.seek(0)
            with subprocess.Popen([self.path] + words, stdin=asked, stdout=sent, cwd=self.folder) as process:
                time.sleep(seconds)
                process.kill()
                code = process.wait(LONGEST_RUN)
            sent.seek(0)
            return sent.read(), code

    def shows(self):
        """What an audit and then a Tip send."""
        audit, code = self.run(["audit"])
        tip, tip_code = self.run(["feed"], TIP)
        if (code, tip_code) != (0, 0):
            raise Wrong("a registry is not opened: 'audit' ended with %d, 'feed' with %d" % (code, tip_code))
        return audit + tip

    def recovered(self, plan, least):
        """How many of the commands are there, of which so many were answered."""
        shows = self.shows()
        for count in range(least, len(plan.stands)):
            if plan.stands[count] == shows:
                return count
        raise Wrong("%d commands were answered, and what is there is no front of the commands with these: %s" % (
            least, shows))


# ---- kills

class Kills:
    """Runs that are killed, on one registry after the other."""

    def __init__(self, program, generator):
        self.program = program
        self.generator = generator
        self.inside = 0
        self.measure()
        self.begin()

    def measure(self):
        """Runs that are not killed say how long one takes."""
        plan = Plan(self.generator)
        self.program.empty()
        self.init_seconds = self.seconds_of(["init"], plan.record)
        self.feed_seconds = self.seconds_of(["feed"], b"".join(plan.frames))
        self.program.recovered(plan, len(plan.frames))

    def begin(self):
        """The next registry."""
        self.plan = Plan(self.generator)
        self.count = 0
        self.program.empty()
        self.program.wants(["init"], self.plan.record, b"", "Done")

    def seconds_of(self, words, text):
        begun = time.monotonic()
        _, code = self.program.run(words, text)
        if code:
            raise Wrong("'%s' ended with %d" % (words[0], code))
        return time.monotonic() - begun

    def kill_feed(self):
        if self.count == len(self.plan.frames):
            self.begin()
        rest = self.plan.frames[self.count:]
        seconds = self.feed_seconds * self.generator.random() * (0.2 + len(rest) / COMMANDS)
        sent, code = self.program.kill(["feed"], b"".join(rest), seconds)
        if code not in (0, KILLED):
            raise Wrong("'feed' ended with %d" % code)
        least = answered(self.plan, self.count, sent)
        found = self.program.recovered(self.plan, least)
        if found > least + 1:
            raise Wrong("%d commands were answered, and %d are there" % (least, found))
        self.inside += code == KILLED and found > self.count
        self.count = found

    def kill_init(self):
        """A folder is left without a registry, or with one that has no command."""
        self.program.empty()
        _, code = self.program.kill(["init"], self.plan.record, self.init_seconds * self.generator.random() * 1.2)
        if code not in (0, KILLED):
            raise Wrong("'init' ended with %d" % code)
        _, found = self.program.run(["audit"])
        if found == CODES["NotJournal"] and code == KILLED:
            self.program.wants(["init"], self.plan.record, b"", "Done")
        elif found:
            raise Wrong("behind 'init', which ended with %d, 'audit' ends with %d" % (code, found))
        else:
            self.program.wants(["init"], self.plan.record, b"", "AlreadyInit")
        self.count = self.program.recovered(self.plan, 0)
        if self.count:
            raise Wrong("a new registry has commands")


def newest_snapshot(program):
    """The greatest sequence number of a snapshot whose gate is open; 0 where there is none."""
    found = 0
    for name in PATHS[1:]:
        with open(os.path.join(program.folder, name), "rb") as file:
            head = file.read(17)
        if len(head) == 17 and head[:1] == OPEN:
            found = max(found, int.from_bytes(head[9:], "little"))
    return found


def check_long(program, generator, count):
    """One registry, whose run is killed again and again until it has taken all of its commands."""
    plan = LongPlan(generator, "small", count)
    program.empty()
    program.wants(["init"], plan.record, b"", "Done")
    begun, kills, done = time.monotonic(), 0, 0
    while done < count:
        seconds = 0.02 + generator.random() * 0.25
        sent, code = program.kill(["feed"], b"".join(plan.frames[done:]), seconds)
        if code not in (0, KILLED):
            raise Wrong("'feed' ended with %d" % code)
        least = answered(plan, done, sent)
        done = program.recovered(plan, least)
        if done > least + 1:
            raise Wrong("%d commands were answered, and %d are there" % (least, done))
        kills += code == KILLED
    return "%d records, %d kills, the newest snapshot is number %d, in %d seconds" % (
        count, kills, newest_snapshot(program), time.monotonic() - begun)


def check_kills(program, generator, most, ends):
    kills, done = Kills(program, generator), 0
    while done < most and time.monotonic() < ends:
        if done % INITS == INITS - 1:
            kills.kill_init()
        else:
            kills.kill_feed()
        done += 1
    return "%d of %d kills, %d of them behind a command and before the last" % (done, most, kills.inside)


# ---- files that fail

def limit_files(size):
    """Lets the files of a process grow to this size, where a write beyond it is refused as on a full disk."""
    def prepare():
        signal.signal(signal.SIGXFSZ, signal.SIG_IGN)
        resource.setrlimit(resource.RLIMIT_FSIZE, (size, size))
    return prepare


def check_limit(program, plan, size):
    """A file that may not grow above this size: what was answered stays, and with room the registry goes on."""
    program.empty()
    program.wants(["init"], plan.record, b"", "Done")
    sent, code = program.run(["feed"], b"".join(plan.frames), limit_files(size))
    if code != CODES["DiskFault"]:
        raise Wrong("with %d bytes of room 'feed' ended with %d" % (size, code))
    least = answered(plan, 0, sent)
    count = program.recovered(plan, least)
    program.wants(["feed"], b"".join(plan.frames[count:]), b"".join(plan.answers[count:]), "Done")
    program.recovered(plan, len(plan.frames))


def check_limits(program, generator, ends):
    plan, done = Plan(generator), 0
    header = len(header_text(plan.record)) + 1
    whole = header + sum(len(text) + 1 for text in plan.frames)
    for size in [header, whole - 1] + [generator.randrange(header, whole) for _ in range(6)]:
        if time.monotonic() < ends:
            check_limit(program, plan, size)
            done += 1
    program.empty()
    program.wants(["init"], plan.record, b"", "DiskFault", limit_files(generator.randrange(header)))
    program.wants(["init"], plan.record, b"", "Done")
    program.recovered(plan, 0)
    return "%d sizes of a file that may not grow" % done


def as_nobody():
    """Where this process may write whatever it likes, the program is to run as one that may not."""
    if os.geteuid() == 0:
        os.setgroups([])
        os.setgid(NOBODY)
        os.setuid(NOBODY)


def check_unwritable(program, generator, _):
    """A journal that may be read and not written, and a folder in its place."""
    plan = Plan(generator, count=3)
    program.empty()
    program.wants(["init"], plan.record, b"", "Done")
    for name in PATHS:
        os.chmod(os.path.join(program.folder, name), 0o444)
    os.chmod(program.folder, 0o755)
    program.wants(["feed"], b"".join(plan.frames), b"", "DiskFault", as_nobody)
    for name in PATHS:
        os.chmod(os.path.join(program.folder, name), 0o644)
    program.recovered(plan, 0)
    program.wants(["feed"], b"".join(plan.frames), b"".join(plan.answers), "Done")
    program.empty()
    os.mkdir(os.path.join(program.folder, JOURNAL))
    program.wants(["feed"], TIP, b"", "DiskFault")
    program.wants(["init"], plan.record, b"", "DiskFault")
    return "a journal that cannot be written"


def check_folders(program, generator, _):
    """An empty folder, and journals of unequal profiles in one folder after the other."""
    program.empty()
    program.wants(["feed"], TIP, b"", "NotJournal")
    program.wants(["audit"], b"", b"", "NotJournal")
    plans = [Plan(generator, profile, 8) for profile in ("small", "main")]
    journals = []
    for plan in plans:
        program.empty()
        program.wants(["init"], plan.record, b"", "Done")
        program.wants(["feed"], b"".join(plan.frames[:5]), b"".join(plan.answers[:5]), "Done")
        program.recovered(plan, 5)
        with open(os.path.join(program.folder, JOURNAL), "rb") as journal:
            journals.append(journal.read())
    for plan, journal in zip(plans, journals):
        with open(os.path.join(program.folder, JOURNAL), "wb") as other:
            other.write(journal)
        program.wants(["feed"], b"".join(plan.frames[5:]), b"".join(plan.answers[5:]), "Done")
        program.recovered(plan, 8)
    return "an empty folder, and two profiles"


def main(words):
    parser = argparse.ArgumentParser(description=__doc__, formatter_class=argparse.RawDescriptionHelpFormatter)
    parser.add_argument("program")
    parser.add_argument("--kills", type=int, default=40)
    parser.add_argument("--seed", type=int, default=1)
    parser.add_argument("--seconds", type=float, default=120)
    parser.add_argument("--long", type=int, default=0, metavar="N", help="a registry of N records besides, killed again and again")
    told = parser.parse_args(words)
    if not os.path.isfile(told.program):
        sys.exit("check_stops: %s is not built" % told.program)
    ends = time.monotonic() + told.seconds
    checks = (check_folders, check_unwritable, check_limits,
              lambda program, generator, ends: check_kills(program, generator, told.kills, ends))
    if told.long:
        checks += (lambda program, generator, ends: check_long(program, generator, told.long),)
    with tempfile.TemporaryDirectory() as room:
        os.chmod(room, 0o755)
        path, folder = os.path.join(room, "program"), os.path.join(room, "files")
        shutil.copy(told.program, path)
        os.chmod(path, 0o755)
        os.mkdir(folder)
        for check in checks:
            try:
                print("stops: %s: as it is to be (seed %d)" % (check(Program(path, folder), random.Random(told.seed), ends),
                                                                told.seed))
            except (Wrong, OSError, subprocess.SubprocessError) as wrong:
                print("stops: WRONG (seed %d): %s" % (told.seed, wrong))
                return 1
    return 0


if __name__ == "__main__":
    sys.exit(main(sys.argv[1:]))
