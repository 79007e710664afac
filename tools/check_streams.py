#!/usr/bin/env python3
"""Compares the built program with an independent model's answers to whole runs, byte for byte: what is sent, how each run
ends, and the journal behind them.

    python3 tools/check_streams.py PROGRAM FILE..

A file has vectors, and a line 'reset' between two of them. A vector is a folder's history: 'image N BYTES' is file N (0 the
journal, 1 and 2 the snapshots) before its first run; 'run WORDS' begins a run, and behind it stand 'in BYTES', 'out BYTES'
and 'code N'; 'after N BYTES' or 'after-sha256 N LENGTH HEX' is file N behind its last run, of which the journal is compared.
Bytes are pieces of hex digits, and 'HEX*COUNT' is a piece so many times. Other lines are passed over; a vector with lines
'caller' is left out.

The model answers for one stage, the program for what is built of it. A request of 'feed' that the model answers NotBuilt,
though the program builds its kind, is left out: NotBuilt changes nothing, and so no other answer of the run is another then.

Where a vector differs it says which answer that is, and ends with code 1."""

import collections
import hashlib
import os
import subprocess
import sys
import tempfile

sys.path.insert(0, os.path.join(os.path.dirname(os.path.abspath(__file__)), "cases"))

from disk import PATHS  # noqa: E402 (found by the line above)

NOT_BUILT = bytes([13, 0, 0, 0, 0])
HEAD = 5


def bytes_of(words):
    text = b""
    for word in words.split():
        if word != "-":
            piece, _, count = word.partition("*")
            text += bytes.fromhex(piece) * int(count or 1)
    return text


class Vector:
    """The files of a folder before the first run, the runs, and the journal behind them: its text, or its length and hash."""

    def __init__(self, name):
        self.name = name
        self.images = {}
        self.runs = []
        self.journal = None
        self.journal_hash = None
        self.has_callers = False

    def take(self, word, rest):
        if word == "run":
            self.runs.append({"words": rest.split(), "in": b"", "out": b"", "code": 0})
        elif word in ("in", "out"):
            self.runs[-1][word] = bytes_of(rest)
        elif word == "code":
            self.runs[-1]["code"] = int(rest)
        elif word == "caller":
            self.has_callers = True
        elif word in ("image", "after"):
            file, _, text = rest.partition(" ")
            if word == "image":
                self.images[int(file)] = bytes_of(text)
            elif int(file) == 0:
                self.journal = bytes_of(text)
        elif word == "after-sha256":
            file, size, digest = rest.split()
            if int(file) == 0:
                self.journal_hash = (int(size), digest)


def vectors_of(path):
    found = [Vector(path)]
    with open(path, encoding="utf-8") as file:
        for line in file:
            word, _, rest = line.rstrip("\n").partition(" ")
            if word == "reset":
                found.append(Vector("%s vector %d" % (path, len(found))))
            else:
                found[-1].take(word, rest)
    return found


def frames(text):
    """Whole frames, and what is left."""
    at, found = 0, []
    while len(text) >= at + HEAD:
        end = at + HEAD + int.from_bytes(text[at + 1:at + HEAD], "little")
        if len(text) < end:
            break
        found.append(text[at:end])
        at = end
    return found, text[at:]


def put_right(run, seen):
    """What is sent, and the answers that are wanted."""
    if run["words"] != ["feed"]:
        seen["run %s" % " ".join(run["words"])] += 1
        return run["in"], [run["out"]]
    asked, rest = frames(run["in"])
    wanted, more = frames(run["out"])
    if more or len(wanted) > len(asked):
        raise ValueError("the model answers %d of %d requests" % (len(wanted), len(asked)))
    text, answers = b"", []
    for place, request in enumerate(asked):
        answer = wanted[place] if place < len(wanted) else b""
        if answer == NOT_BUILT:
            seen["left out"] += 1
            continue
        text += request
        if answer:
            answers.append(answer)
            seen["answers"] += 1
            seen["status %d" % answer[0]] += 1
            if answer[0] == 8:
                seen["rule %02d" % answer[HEAD]] += 1
    return text + rest, answers


def difference(run, program, folder, seen):
    """What differs in a run, or None."""
    text, answers = put_right(run, seen)
    done = subprocess.run([program] + run["words"], input=text, stdout=subprocess.PIPE, stderr=subprocess.PIPE, cwd=folder,
                          check=False)
    if done.stdout != b"".join(answers):
        came, _ = frames(done.stdout)
        for place, (answer, other) in enumerate(zip(answers, came)):
            if answer != other:
                return "answer %d: wanted %s, came %s" % (place, answer[:80].hex(), other[:80].hex())
        return "%d answers are wanted, %d came: %s" % (len(answers), len(came), done.stdout[-80:].hex())
    if done.returncode != run["code"]:
        return "ended with %d, wanted %d" % (done.returncode, run["code"])
    return None


def journal_difference(vector, folder):
    path = os.path.join(folder, PATHS[0])
    with open(path, "rb") if os.path.exists(path) else open(os.devnull, "rb") as file:
        came = file.read()
    if vector.journal is not None and came != vector.journal:
        return "the journal has %d bytes, and is not as wanted: %s" % (len(came), came[:80].hex())
    if vector.journal_hash is not None and (len(came), hashlib.sha256(came).hexdigest()) != vector.journal_hash:
        return "the journal has %d bytes of another hash" % len(came)
    return None


def tried(vector, program, seen):
    """What differs in a vector, or None."""
    with tempfile.TemporaryDirectory() as folder:
        for file, text in vector.images.items():
            with open(os.path.join(folder, PATHS[file]), "wb") as out:
                out.write(text)
        for place, run in enumerate(vector.runs):
            found = difference(run, program, folder, seen)
            if found:
                return "run %d (%s): %s" % (place, " ".join(run["words"]), found)
        return journal_difference(vector, folder)


def main(program, paths):
    program = os.path.abspath(program)
    count, wrong, seen = 0, 0, collections.Counter()
    for path in paths:
        for vector in vectors_of(path):
            if vector.has_callers or max(vector.images, default=0) >= len(PATHS):
                seen["vectors left out"] += 1
                continue
            count += 1
            found = tried(vector, program, seen)
            if found:
                wrong += 1
                print("%s: %s" % (vector.name, found))
    print(", ".join("%s: %d" % pair for pair in sorted(seen.items())))
    print("%d vectors, %d wrong" % (count, wrong))
    return 1 if wrong or not count else 0


if __name__ == "__main__":
    if len(sys.argv) < 3:
        sys.exit(__doc__)
    sys.exit(main(sys.argv[1], sys.argv[2:]))
