#!/usr/bin/env python3
"""Hands what 'feed' answers to a light client, and prints what both say.

    python3 tools/light_client.py PROGRAM FILE [CASE]      FILE is a file of cases, '-' is standard input

PROGRAM is run twice, each time between pipes: as 'feed', over the registry of the case, which is asked what stands in the
case's first run of it; and as 'client', which is handed the header of each block that 'feed' added, and the bytes that it
answered to each Diff, as they are. Where an answer is not as the case says, or the client does not take a header or a
diff, that is said, and the code is 1."""

import os
import subprocess
import sys
import tempfile

sys.path.insert(0, os.path.join(os.path.dirname(os.path.abspath(__file__)), "cases"))

from answers import APPLY, CONNECT, DIFF, HEADER, Shown  # noqa: E402 (found by the line above)
from casefile import read_cases  # noqa: E402
from disk import PATHS  # noqa: E402
from wire import HEAD, frame  # noqa: E402
from words import Mistake  # noqa: E402

OK = 0
# A block's hash, and behind it its header of 80 bytes.
HEADER_SIZE = 32 + 80


class Side:
    """A run of the program that is asked frame by frame."""

    def __init__(self, program, word, folder, names):
        self.word = word
        self.names = names
        self.process = subprocess.Popen([program, word], stdin=subprocess.PIPE, stdout=subprocess.PIPE, cwd=folder)

    def read(self, size):
        text = self.process.stdout.read(size)
        if len(text) < size:
            raise Mistake("'%s' ended before it had answered" % self.word)
        return text

    def ask(self, words, text):
        """The status and the body of the answer to a frame. Both are printed in words."""
        self.process.stdin.write(text)
        self.process.stdin.flush()
        head = self.read(HEAD)
        body = self.read(int.from_bytes(head[1:], "little"))
        print("%-7s > %s" % (self.word, words))
        for line in Shown(text[0], self.names).words(head[0], body):
            print("%9s %s" % ("", line))
        return head[0], body

    def ends(self):
        self.process.stdin.close()
        code = self.process.wait()
        self.process.stdout.close()
        if code:
            raise Mistake("'%s' ended with code %d" % (self.word, code))


def hand(client, words, text):
    status, _ = client.ask(words, text)
    if status != OK:
        raise Mistake("the client does not take it")


def follow(asks, feed, client):
    """Asks 'feed', and hands to 'client' what it answers."""
    for ask in asks:
        status, body = feed.ask(ask.words, ask.text)
        if ask.answer is not None and ask.answer != frame(status, body):
            raise Mistake("line %d: another answer is wanted" % ask.answer_line)
        if status == OK and ask.kind == CONNECT:
            header = ask.text[HEAD:HEAD + HEADER_SIZE]
            hand(client, "the header of block %s" % Shown(HEADER, {}).hash(header[:32]), frame(HEADER, header))
        elif status == OK and ask.kind == DIFF:
            hand(client, "that diff, as it came", frame(APPLY, body))


def case_of(path, name):
    with sys.stdin if path == "-" else open(path, encoding="utf-8") as source:
        found = read_cases(source.read(), os.path.splitext(os.path.basename(path))[0], False)
    for case in found:
        if name in (None, case.name):
            return case
    raise Mistake("%s has no case '%s'" % (path, name))


def write_files(folder, files):
    for file, text in files.items():
        with open(os.path.join(folder, PATHS[file]), "wb") as out:
            out.write(text)


def main(program, path, name=None):
    program = os.path.abspath(program)
    case = case_of(path, name)
    run = next((run for run in case.runs if run.words == ["feed"]), None)
    if run is None:
        raise Mistake("the case has no run of 'feed'")
    with tempfile.TemporaryDirectory() as folder:
        for before in case.runs[:case.runs.index(run) + 1]:
            write_files(folder, before.files)
            if before is not run:
                subprocess.run([program] + before.words, input=before.input(), stdout=subprocess.DEVNULL, cwd=folder,
                               check=True)
        feed, client = (Side(program, word, folder, case.names) for word in ("feed", "client"))
        follow(run.asks, feed, client)
        feed.ends()
        client.ends()


if __name__ == "__main__":
    if len(sys.argv) not in (3, 4):
        sys.exit(__doc__)
    try:
        main(*sys.argv[1:])
    except (Mistake, OSError, subprocess.SubprocessError) as mistake:
        sys.exit("light_client: %s" % mistake)
