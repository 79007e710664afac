#!/usr/bin/env python3
"""Makes each run of cases on the built program with each of its allocations failing in turn, and holds what it does to a run in
which none fails.

    python3 tools/failing_memory.py PROGRAM [CASES] [--most N] [--seed N] [--seconds N]

CASES is a file of cases (cases/hostile/memory.case). Of a run no more than N allocations (all) fail, each in a run of its own; these
are then drawn by the seed (1).

- Of 'feed', 'client' and 'serve' each answer is the one of the case, or Memory; what was answered Memory has changed nothing:
  without these requests a run in which no allocation fails gives the same answers, and leaves the same journal. Behind each
  frame the tip is asked, or what the client holds: behind one that was answered Memory it is what it was. A tip, a disconnect and a
  release are never answered Memory in 'feed'.
- 'init' makes the registry, or ends with code 3 and leaves the files as they were; 'audit' tells its five lines, or ends
  with code 3 and tells nothing. The others end with code 3 only where they have answered nothing.
- Behind two blocks of 250 masternodes each a third one finds more nodes than it leaves, and compacts first: of this run the
  allocations behind the opening fail, those of the compaction among them.

It wants a C compiler: see tools/failing.py. Without one it says so, and does nothing. Once the seconds (120) are over no run is
begun, and it says how many were. 'serve' listens on port 9996 of 127.0.0.1."""

import argparse
import os
import random
import socket
import subprocess
import sys
import tempfile
import time

HERE = os.path.dirname(os.path.abspath(__file__))
sys.path.insert(0, HERE)
sys.path.insert(0, os.path.join(HERE, "..", "bench"))

import check_http  # noqa: E402 (found by the line above)
from check_stops import TIP, Wrong  # noqa: E402
from failing import Failing, is_there  # noqa: E402
from answers import CONNECT, DISCONNECT, RELEASE, SHOW, cut_answers  # noqa: E402 (found by check_stops)
from answers import TIP as TIP_KIND  # noqa: E402
from casefile import CODES, Ask, Run, read_cases  # noqa: E402
from disk import PATHS  # noqa: E402
from over_http import reply_to  # noqa: E402
from stream import Stream, start_record  # noqa: E402 (found above)
from wire import HEAD, frame  # noqa: E402

CASES = os.path.join(check_http.CASES, "hostile", "memory.case")
MEMORY = frame(1, b"")
NEVER_MEMORY = (DISCONNECT, TIP_KIND, RELEASE)
LONGEST_RUN = 60
# As many masternodes as a block registers.
BLOCK = 250


# ---- runs

class Done:
    """How a run ended, what it sent, to its callers too, and the files that it left."""

    def __init__(self, code, sent, replies, files):
        self.code = code
        self.sent = sent
        self.replies = replies
        self.files = files

    def answers(self):
        return [frame(*answer) for answer in cut_answers(self.sent)]


class Program:
    """The program, and the library that has one of its allocations fail."""

    def __init__(self, path, failing):
        self.path = path
        self.failing = failing

    def run(self, words, files, text, callers=(), at=0):
        """A run in a folder with these files, of which this allocation fails; and how many it made."""
        with tempfile.TemporaryDirectory(dir=check_http.MEMORY) as folder:
            for path, held in zip(PATHS, files):
                if held:
                    with open(os.path.join(folder, path), "wb") as file:
                        file.write(held)
            settings = self.failing.settings("memory", at)
            if words[0] == "serve":
                code, sent, replies = self.served(words, folder, callers, settings)
            else:
                done = subprocess.run([self.path] + words, input=text, stdout=subprocess.PIPE, stderr=subprocess.PIPE,
                                      env=settings, cwd=folder, timeout=LONGEST_RUN, check=False)
                code, sent, replies = done.returncode, done.stdout + done.stderr, []
            return Done(code, sent, replies, [held_by(folder, path) for path in PATHS]), self.failing.found()[0]

    def served(self, words, folder, callers, settings):
        with subprocess.Popen([self.path] + words, stdin=subprocess.DEVNULL, stdout=subprocess.PIPE, stderr=subprocess.PIPE,
                              env=settings, cwd=folder) as process:
            try:
                replies = [reply_of(process, text) for text in callers]
                sent, said = process.communicate(timeout=LONGEST_RUN)
            finally:
                process.kill()
        return process.returncode, sent + said, replies


def held_by(folder, path):
    """What a file has; one that is not there has nothing."""
    path = os.path.join(folder, path)
    if not os.path.exists(path):
        return b""
    with open(path, "rb") as file:
        return file.read()


def reply_of(process, text):
    """What a caller is sent; None where the server has ended."""
    while not check_http.is_listening():
        if process.poll() is not None:
            return None
        time.sleep(0.0005)
    try:
        with check_http.connected() as line:
            line.sendall(text)
            line.shutdown(socket.SHUT_WR)
            return check_http.came_before(line)
    except OSError:
        return None


# ---- what each run is to be

class Asked:
    """A run of frames or of callers: what is asked, which of it is asked between, and what is wanted."""

    def __init__(self, run):
        self.words = run.words
        if run.serves():
            self.texts = [caller.text for caller in run.callers]
            self.memory = [reply_to(one.kind, one.text[HEAD:], MEMORY) for one in run.asks]
            self.kinds = [one.kind for one in run.asks]
            self.between = None
        else:
            self.between = TIP if run.words == ["feed"] else frame(SHOW, b"")
            self.texts = [self.between] + [text for one in run.asks for text in (one.text, self.between)]
            self.memory = [MEMORY] * len(self.texts)
            self.kinds = [text[0] for text in self.texts]
        self.known = {}

    def make(self, program, files, places, at=0):
        """The run with what is asked at these places."""
        texts = [self.texts[place] for place in places]
        if self.words[0] == "serve":
            done, calls = program.run(["serve", str(len(texts))], files, b"", texts, at)
            return done, done.replies, calls
        done, calls = program.run(self.words, files, b"".join(texts), at=at)
        return done, done.answers(), calls

    def without(self, program, files, places):
        """The same, none of whose allocations fails."""
        if places not in self.known:
            done, answers, _ = self.make(program, files, places)
            self.known[places] = answers, done.files[0]
        return self.known[places]

    def judge(self, program, files, at):
        """Makes the run with this allocation failing, and says whether anything was answered Memory."""
        every = tuple(range(len(self.texts)))
        done, answers, _ = self.make(program, files, every, at)
        if done.code == CODES["Memory"] and not any(answers):
            if done.files[0] != files[0]:
                raise Wrong("it ended for want of memory, and changed the journal")
            return True
        if done.code != 0 or len(answers) != len(every):
            raise Wrong("code %d, %d answers to %d requests" % (done.code, len(answers), len(every)))
        kept = tuple(place for place in every if answers[place] != self.memory[place])
        wanted, journal = self.without(program, files, kept)
        if (wanted, journal) != ([answers[place] for place in kept], done.files[0]):
            raise Wrong("it is not as in a run without what was answered Memory")
        self.judge_memory(answers, set(every) - set(kept))
        return len(kept) < len(every)

    def judge_memory(self, answers, refused):
        for place in refused:
            if self.words == ["feed"] and self.kinds[place] in NEVER_MEMORY:
                raise Wrong("request %d of kind %d was answered Memory" % (place, self.kinds[place]))
            if self.between and self.texts[place] != self.between and answers[place - 1] != answers[place + 1]:
                raise Wrong("behind request %d, which was answered Memory, another thing is shown" % place)


class Sole:
    """A run of 'init' or 'audit', which sends all or nothing."""

    def __init__(self, run, program, files):
        self.words = run.words
        self.text = run.input()
        self.done, _ = program.run(self.words, files, self.text)

    def judge(self, program, files, at):
        done, _ = program.run(self.words, files, self.text, at=at)
        wants = (CODES["Memory"], b"", files) if done.code == CODES["Memory"] else (self.done.code, self.done.sent, self.done.files)
        if (done.code, done.sent, done.files) != wants:
            raise Wrong("code %d, sent %r" % (done.code, done.sent[:80]))
        return done.code == CODES["Memory"]


# ---- all

def allocations(first, count, most, generator):
    """The numbers of those that fail, from the first one on."""
    every = range(first, count + 1)
    return every if most is None or len(every) <= most else sorted(generator.sample(every, most))


def try_run(program, run, files, told, ends, first=1):
    """A run with each of its allocations failing; what is said of it, and the files that it leaves where none does."""
    whole, count = program.run(run.words, files, run.input(), [caller.text for caller in run.callers])
    trial = Sole(run, program, files) if run.words[0] in ("init", "audit") else Asked(run)
    if isinstance(trial, Asked):
        _, _, count = trial.make(program, files, tuple(range(len(trial.texts))))
    chosen, tried, refused = allocations(first, count, told.most, random.Random(told.seed)), 0, 0
    for at in chosen:
        if time.monotonic() > ends:
            break
        try:
            refused += trial.judge(program, files, at)
        except Wrong as wrong:
            raise Wrong("allocation %d of %d: %s" % (at, count, wrong)) from wrong
        tried += 1
    return "%s: %d of %d allocations failed, %d of them were told" % (run.words[0], tried, count, refused), whole.files


def try_case(program, case, told, ends):
    files = [b""] * len(PATHS)
    for run in case.runs:
        files = [run.files.get(file, held) for file, held in enumerate(files)]
        said, files = try_run(program, run, files, told, ends)
        print("memory: %s: %s" % (case.name, said), flush=True)


def try_compaction(program, told, ends):
    """The block that compacts is asked for twice: where the first one is answered Memory, the second one adds it."""
    blocks = list(Stream(2 * BLOCK).connects(3))
    record = program.run(["init"], [b""] * len(PATHS), start_record())[0].files
    files = program.run(["feed"], record, b"".join(blocks[:2]))[0].files
    _, opening = program.run(["feed"], files, TIP)
    asks = [Ask(0, "the third block", CONNECT, blocks[2])] * 2
    said, _ = try_run(program, Run(0, ["feed"], asks=asks), files, told, ends, opening + 1)
    print("memory: a compaction: %s" % said, flush=True)


def main(words):
    parser = argparse.ArgumentParser(description=__doc__, formatter_class=argparse.RawDescriptionHelpFormatter)
    parser.add_argument("program")
    parser.add_argument("cases", nargs="?", default=CASES)
    parser.add_argument("--most", type=int, default=None)
    parser.add_argument("--seed", type=int, default=1)
    parser.add_argument("--seconds", type=float, default=120)
    told = parser.parse_args(words)
    if not is_there():
        print("memory: no C compiler here, so no allocation was made to fail")
        return 0
    with open(told.cases, encoding="utf-8") as file:
        cases = read_cases(file.read(), os.path.basename(told.cases), False)
    ends = time.monotonic() + told.seconds
    with Failing() as failing:
        program = Program(os.path.abspath(told.program), failing)
        trials = [(case.name, lambda case=case: try_case(program, case, told, ends)) for case in cases]
        for name, trial in trials + [("a compaction", lambda: try_compaction(program, told, ends))]:
            try:
                trial()
            except (Wrong, OSError, subprocess.SubprocessError) as wrong:
                print("memory: WRONG in '%s': %s" % (name, wrong))
                return 1
    return 0


if __name__ == "__main__":
    sys.exit(main(sys.argv[1:]))
