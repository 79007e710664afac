#!/usr/bin/env python3
"""Runs the built program on real files with each of its calls of the disk and of the line failing in turn, and looks at what is left.

    python3 tools/failing_devices.py PROGRAM [--seconds N]

'init', nine blocks, of which the last one's connect writes a snapshot, three disconnects, an opening with a closed gate of
value 255, and an audit are made with

- each call failing alone; each call and all later ones failing;
- each write or cut of a file and all later ones failing for want of room, or since nothing may be written;
- each sync and all later ones failing;
- a small file system for a folder, where one may be mounted, which is full after some blocks.

The run ends with code 4 where a file's call failed last, with 5 where one of the line did. No answer before differs, and behind it the
registry has a front of the commands that has each one answered, and goes on; where 'init' failed before its gate stood, the next
'init' makes the registry. It wants a C compiler: see tools/failing.py. Without one it says so, and does nothing. Once the seconds
(120) are over no run is begun, and it says how many were."""

import argparse
import os
import shutil
import subprocess
import sys
import tempfile
import time

sys.path.insert(0, os.path.dirname(os.path.abspath(__file__)))

from check_stops import JOURNAL, LONGEST_RUN, TIP, Plan, Program, Wrong, answered  # noqa: E402 (found by the line above)
from failing import Failing, is_there  # noqa: E402
from casefile import CODES  # noqa: E402 (found by check_stops)

NO_ROOM, READ_ONLY, INPUT_OUTPUT = 28, 30, 5
# What fails: the calls, whether all later ones do too, and the error.
WAYS = (("devices", False, INPUT_OUTPUT), ("devices", True, INPUT_OUTPUT), ("writes", True, NO_ROOM), ("writes", True, READ_ONLY),
        ("syncs", True, INPUT_OUTPUT), ("syncs", False, INPUT_OUTPUT))
ENDS = {"d": CODES["DiskFault"], "l": CODES["LineFault"]}
MOST_CALLS = 10_000
# The bytes of the answer to a Tip, which stands behind what an audit shows.
TIP_ANSWER = 49
# The bytes of a file system that some blocks fill.
SMALL = (4_096, 8_192, 12_288)


class TablePlan(Plan):
    """Nine blocks and three disconnects."""

    def __init__(self):
        self.begin("small")
        for text in ("block 2: register 1, register 2", "= Ok height 2, hash 02", "block 3: register 3", "= Ok height 3, hash 03",
                     "blocks 4 to 10", "= each Ok", "disconnects to 7", "= each Ok"):
            self.say(text)
        self.collect()


class Faulty(Program):
    """The program with the library that has calls fail."""

    def __init__(self, path, folder, failing):
        super().__init__(path, folder)
        self.failing = failing

    def fails(self, words, text, way, at):
        """What a run sends of which this call fails, its code, and of what the last one was that failed."""
        calls, is_on, error = way
        done = subprocess.run([self.path] + words, input=text, stdout=subprocess.PIPE, stderr=subprocess.PIPE, cwd=self.folder,
                              env=self.failing.settings(calls, at, is_on, error), timeout=LONGEST_RUN, check=False)
        if done.stderr:
            raise Wrong("'%s' wrote to standard error: %s" % (" ".join(words), done.stderr[:200]))
        what = self.failing.found()[1]
        if what in ENDS and done.returncode != ENDS[what]:
            raise Wrong("'%s' ended with %d where a call of %s failed" % (words[0], done.returncode, what))
        return done.stdout, done.returncode, what

    def keep(self, to):
        shutil.copytree(self.folder, to, dirs_exist_ok=True)

    def restore(self, of):
        self.empty()
        shutil.copytree(of, self.folder, dirs_exist_ok=True)


# ---- each run, one of whose calls fails

def try_init(program, plan, way, at):
    program.empty()
    sent, code, what = program.fails(["init"], plan.record, way, at)
    if sent:
        raise Wrong("'init' sent something")
    _, found = program.run(["audit"])
    if found == CODES["NotJournal"] and code:
        program.wants(["init"], plan.record, b"", "Done")
    else:
        program.wants(["init"], plan.record, b"", "AlreadyInit")
    program.recovered(plan, 0)
    return what


def try_feed(program, plan, way, at):
    program.restore(plan.made)
    sent, code, what = program.fails(["feed"], b"".join(plan.frames), way, at)
    least = answered(plan, 0, sent)
    count = program.recovered(plan, least)
    if count > least + 1 or (code == 0 and least < len(plan.frames)) or (code == 0) != (what == "-"):
        raise Wrong("%d commands were answered, %d are there, and the code is %d" % (least, count, code))
    program.wants(["feed"], b"".join(plan.frames[count:]), b"".join(plan.answers[count:]), "Done")
    program.recovered(plan, len(plan.frames))
    return what


def try_reading(words, text):
    """A run that answers one thing of the whole registry, and changes nothing."""
    def attempt(program, plan, way, at):
        program.restore(plan.whole)
        sent, code, what = program.fails(words, text, way, at)
        shows = plan.stands[-1]
        wanted = shows[-TIP_ANSWER:] if words == ["feed"] else shows[:-TIP_ANSWER]
        if not wanted.startswith(sent) or (code == 0 and sent != wanted) or (code == 0) != (what == "-"):
            raise Wrong("'%s' sent %s and ended with %d" % (words[0], sent[:80].hex(), code))
        program.recovered(plan, len(plan.frames))
        return what
    return attempt


ATTEMPTS = (try_init, try_feed, try_reading(["feed"], TIP), try_reading(["audit"], b""))


def try_way(program, plan, way, ends):
    """Each of the runs with each of its calls failing so; how many were made."""
    count = 0
    for attempt in ATTEMPTS:
        for at in range(1, MOST_CALLS):
            if time.monotonic() > ends:
                return count
            try:
                what = attempt(program, plan, way, at)
            except Wrong as wrong:
                raise Wrong("%s, call %d of %s: %s" % (attempt.__name__, at, way, wrong)) from wrong
            count += 1
            if what == "-":
                break
    return count


def prepare(program, plan, room):
    """The files behind 'init', and behind all commands, with a closed gate of value 255."""
    plan.made, plan.whole = os.path.join(room, "made"), os.path.join(room, "whole")
    program.empty()
    program.wants(["init"], plan.record, b"", "Done")
    program.keep(plan.made)
    program.wants(["feed"], b"".join(plan.frames), b"".join(plan.answers), "Done")
    with open(os.path.join(program.folder, JOURNAL), "r+b") as journal:
        journal.seek(-1, os.SEEK_END)
        journal.write(b"\xff")
    program.keep(plan.whole)


# ---- a file system that is full

def mounted(folder, size):
    """Whether a file system of so many bytes could be mounted here."""
    words = ["mount", "-t", "tmpfs", "-o", "size=%d" % size, "none", folder]
    try:
        return subprocess.run(words, stdout=subprocess.DEVNULL, stderr=subprocess.DEVNULL, check=False).returncode == 0
    except OSError:
        return False


def check_full(program, plan, room):
    """A file system that some of the blocks fill; with more room the registry goes on."""
    folder, full = os.path.join(room, "full"), 0
    os.mkdir(folder)
    inside = Program(program.path, folder)
    for size in SMALL:
        if not mounted(folder, size):
            return "no file system could be mounted"
        try:
            _, code = inside.run(["init"], plan.record)
            sent, code = inside.run(["feed"], b"".join(plan.frames)) if code == 0 else (b"", code)
            program.empty()
            shutil.copytree(folder, program.folder, dirs_exist_ok=True)
        finally:
            subprocess.run(["umount", folder], check=True)
        if code not in (CODES["DiskFault"], 0):
            raise Wrong("on a file system of %d bytes the program ended with %d" % (size, code))
        full += code != 0
        least = answered(plan, 0, sent)
        count = program.recovered(plan, least)
        program.wants(["feed"], b"".join(plan.frames[count:]), b"".join(plan.answers[count:]), "Done")
        program.recovered(plan, len(plan.frames))
    return "%d small file systems, %d of them full" % (len(SMALL), full)


def main(words):
    parser = argparse.ArgumentParser(description=__doc__, formatter_class=argparse.RawDescriptionHelpFormatter)
    parser.add_argument("program")
    parser.add_argument("--seconds", type=float, default=120)
    told = parser.parse_args(words)
    if not is_there():
        print("devices: no C compiler here, so no call was made to fail")
        return 0
    ends = time.monotonic() + told.seconds
    memory = "/dev/shm" if os.access("/dev/shm", os.W_OK) else None
    with tempfile.TemporaryDirectory(dir=memory) as room, Failing() as failing:
        folder = os.path.join(room, "files")
        os.mkdir(folder)
        program, plan = Faulty(os.path.abspath(told.program), folder, failing), TablePlan()
        try:
            prepare(program, plan, room)
            for way in WAYS:
                calls, is_on, error = way
                print("devices: %d runs, each with a call of '%s'%s failing (%s): as they are to be" % (
                    try_way(program, plan, way, ends), calls, " and all later ones" if is_on else "", os.strerror(error)), flush=True)
            print("devices: %s: as it is to be" % check_full(program, plan, room))
        except (Wrong, OSError, subprocess.SubprocessError) as wrong:
            print("devices: WRONG: %s" % wrong)
            return 1
    return 0


if __name__ == "__main__":
    sys.exit(main(sys.argv[1:]))
