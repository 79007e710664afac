#!/usr/bin/env python3
"""Hands the built program damaged inputs, and looks at how it takes them.

    python3 tools/fuzz.py PROGRAM [--count N] [--seed N] [--seconds N] [--keep FOLDER]

The inputs are those of the cases, with bytes changed, left out, put in, repeated or cut. N of them (2,000) are tried:

- streams of frames for 'feed', over a journal that is whole: it ends with code 0, 3 or 7, sends one answer frame for each whole
  frame, says 7 exactly where the input ends within one, and its journal opens behind it, with all that it had;
- streams of frames for 'client': the same, and no file is made;
- journals: 'audit' and 'feed' open them, or both refuse them with code 6; an opening writes nothing;
- registries with snapshots, of which the journal is whole and the slots are not, or none of them is: 'audit' says what it says
  of the journal alone; 'feed' opens them or ends with code 6, and shows the journal's registry where no slot is valid with a text in
  its form, by the tool's own reading; then it takes blocks, and opens again;
- start records for 'init': code 0, 3, 6 or 7, and a registry exactly behind code 0;
- heads and bodies for 'serve': no reply, or one with a status of the table, and the next caller is served.

Before these, each byte of a small snapshot is changed, and each front of it is put in its place, with the length as it was and with
the right one; and one has a row too many. It is looked at as above.

Nothing may be written to standard error, and each run has a limit of memory and of time. A run that goes wrong is told with the
seed and its number, and its input is kept in FOLDER. Once the seconds (120) are over no input is begun, and it says how many
were; the slots have as many seconds."""

import argparse
import os
import random
import resource
import socket
import sys
import tempfile
import time

sys.path.insert(0, os.path.dirname(os.path.abspath(__file__)))

import check_http  # noqa: E402 (found by the line above)
from check_stops import TIP, Plan, Program, Wrong  # noqa: E402
from casefile import CODES, Case, Line, read_cases  # noqa: E402 (found by check_stops)
from disk import PATHS  # noqa: E402
from over_http import WORDS, request_text  # noqa: E402
from model import NO_PAY, Row  # noqa: E402
from slots import LEAST_LENGTH, MOST_ROWS, SLOT_HEAD, is_slot, row_text, slot_text  # noqa: E402
from wire import HEAD, NO_SERVICE, number  # noqa: E402
from words import Words  # noqa: E402

CASES = check_http.CASES
LONGEST_BODY = check_http.LONGEST_BODY
MOST_MEMORY = 2 << 30
KNOWN_STATUSES = set(range(13)) | set(range(16, 35))
# What a field may hold that few expect.
EXTREMES = [bytes(size) for size in (1, 2, 4, 8)] + [b"\xff" * size for size in (1, 2, 4, 8)] + [
    b"\x01\0\0\0", b"\0\0\0\x80", b"\xff\xff\xff\x7f", b"\xfd\0\0", b"\xfe\0\0\0\0", b"\xff" + b"\0" * 8]
# Where a slot has the count of the rows of its lowest height.
ROWS_AT = 73
HTTP_STATUSES = {str(status).encode() for status in WORDS}


# ---- damage

def damaged(text, generator):
    """The text with one to four changes."""
    for _ in range(generator.choice((1, 1, 1, 2, 4))):
        text = changed(text, generator)
    return text


def changed(text, generator):
    at = generator.randrange(len(text) + 1)
    end = min(len(text), at + generator.choice((1, 2, 4, 8, 32, 200)))
    way = generator.randrange(7)
    if way == 0 and text:
        at = min(at, len(text) - 1)
        return text[:at] + bytes([text[at] ^ 1 << generator.randrange(8)]) + text[at + 1:]
    if way == 1:
        return text[:at] + text[end:]
    if way == 2:
        return text[:at] + generator.randbytes(end - at) + text[end:]
    if way == 3:
        return text[:at] + text[at:end] * 2 + text[end:]
    if way == 4:
        extreme = generator.choice(EXTREMES)
        return text[:at] + extreme + text[at + len(extreme):]
    if way == 5:
        return text[:at]
    other = generator.randrange(len(text) + 1)
    return text[:at] + text[other:other + end - at] + text[at:]


def frames_of(text):
    """The whole frames of a text, as places, and whether something is left behind them."""
    at, found = 0, []
    while len(text) - at >= HEAD:
        end = at + HEAD + int.from_bytes(text[at + 1:at + HEAD], "little")
        if end > len(text):
            break
        found.append((at, end))
        at = end
    return found, at < len(text)


def damaged_stream(text, generator):
    """A stream whose frames are damaged: as bytes, or one body with the length that it then has."""
    frames, _ = frames_of(text)
    if not frames or generator.random() < 0.3:
        return damaged(text, generator)
    at, end = generator.choice(frames)
    body = damaged(text[at + HEAD:end], generator)
    return text[:at + 1] + len(body).to_bytes(4, "little") + body + text[end:]


# ---- inputs

class Inputs:
    """What the cases hand in: start records, and streams of frames with the journal before them."""

    def __init__(self):
        self.records, self.streams, self.clients, self.journals = [], [], [], []
        for folder, _, names in sorted(os.walk(CASES)):
            for name in sorted(names):
                with open(os.path.join(folder, name), encoding="utf-8") as file:
                    for case in read_cases(file.read(), name):
                        for run in case.runs:
                            self.add(run)

    def add(self, run):
        text = run.input()
        if run.is_faulty() or len(text) > 1 << 20 or run.end not in ("Done", "CutInput"):
            return
        if run.words == ["init"]:
            self.records.append(text)
        elif run.words == ["client"]:
            self.clients.append(text)
        elif run.words == ["feed"] and set(run.files) == {0, 1, 2} and not run.files[1] and not run.files[2]:
            self.streams.append((run.files[0], text))
            self.journals += [texts for _, texts in [run.becomes.get(0, (0, None))] if texts]


# ---- trials

class Trial(Program):
    """The program with limits, in a folder of its own."""

    def limited(self, words, text):
        def prepare():
            resource.setrlimit(resource.RLIMIT_AS, (MOST_MEMORY, MOST_MEMORY))
        return self.run(words, text, prepare)

    def hold(self, journal, *slots):
        self.empty()
        for path, text in zip(PATHS, (journal,) + (slots or (b"", b""))):
            with open(os.path.join(self.folder, path), "wb") as file:
                file.write(text)

    def files(self):
        """What the three files have, None of one that is not there."""
        return [self.file(path) for path in PATHS]

    def file(self, path):
        try:
            with open(os.path.join(self.folder, path), "rb") as file:
                return file.read()
        except FileNotFoundError:
            return None

    def journal(self):
        return self.file(PATHS[0])


def wants_code(words, code, names):
    if code not in [CODES[name] for name in names]:
        raise Wrong("'%s' ended with %d" % (words, code))


def answers_frames(words, text, sent, code):
    """One answer frame a whole frame, and CutInput exactly where something is left."""
    asked, is_cut = frames_of(text)
    answered, is_odd = frames_of(sent)
    if code == CODES["Memory"] and not sent:
        return
    if len(answered) != len(asked) or is_odd:
        raise Wrong("'%s' was sent %d frames and sent %d" % (words, len(asked), len(answered)))
    if (code == CODES["CutInput"]) != is_cut:
        raise Wrong("'%s' ended with %d, and its input %s within a frame" % (words, code, "ends" if is_cut else "doesn't end"))
    for at, _ in answered:
        if sent[at] not in KNOWN_STATUSES:
            raise Wrong("'%s' answered with the status %d" % (words, sent[at]))


def try_feed(program, inputs, generator):
    journal, text = generator.choice(inputs.streams)
    text = damaged_stream(text, generator)
    program.hold(journal)
    sent, code = program.limited(["feed"], text)
    wants_code("feed", code, ("Done", "Memory", "CutInput"))
    answers_frames("feed", text, sent, code)
    if not program.journal().startswith(journal[:-1]):
        raise Wrong("'feed' took something from its journal")
    program.shows()
    return text


def try_client(program, inputs, generator):
    text = damaged_stream(generator.choice(inputs.clients or [stream for _, stream in inputs.streams]), generator)
    program.empty()
    sent, code = program.limited(["client"], text)
    wants_code("client", code, ("Done", "Memory", "CutInput"))
    answers_frames("client", text, sent, code)
    if os.listdir(program.folder):
        raise Wrong("'client' made a file")
    return text


def try_journal(program, inputs, generator):
    journal = damaged(generator.choice(inputs.journals), generator)
    program.hold(journal)
    audit, code = program.limited(["audit"], b"")
    wants_code("audit", code, ("Done", "Memory", "NotJournal"))
    sent, other = program.limited(["feed"], TIP)
    if other != code:
        raise Wrong("'audit' ended with %d and 'feed' with %d" % (code, other))
    if (code == 0) != bool(audit) or (code == 0) != bool(sent):
        raise Wrong("something was sent of a journal that was refused, or nothing of one that was not")
    if program.journal() != journal:
        raise Wrong("an opening changed the journal")
    return journal


def try_slots(program, inputs, generator):
    """A registry with snapshots, one or two files of which are damaged."""
    image = generator.choice(inputs.images)
    files = list(image.files)
    for file in generator.choice(((1,), (2,), (1, 2), (1, 2), (0, 1), (0, 2))):
        files[file] = damaged_slot(files[file], generator) if file else damaged(files[file], generator)
    look_at_slots(program, image, files)
    blocks = image.frames if generator.random() < 0.2 else []
    _, code = program.limited(["feed"], b"".join(blocks))
    wants_code("feed", code, ("Done", "Memory", "NotJournal", "DiskFault"))
    _, audit = program.limited(["audit"], b"")
    wants_code("audit", audit, ("Done", "Memory", "NotJournal"))
    return b"".join(files)


def damaged_slot(text, generator):
    """A slot that is damaged, often with a length that is that of what then follows."""
    text = damaged(text, generator)
    if len(text) > SLOT_HEAD and generator.random() < 0.7:
        text = text[:1] + number(len(text) - 9, 8) + text[9:]
    return text


def look_at_slots(program, image, files):
    """How an audit and an opening take these files, which they leave as they are; whether a slot may have been taken."""
    program.hold(*files)
    audit, audit_code = program.limited(["audit"], b"")
    wants_code("audit", audit_code, ("Done", "Memory", "NotJournal"))
    tip, code = program.limited(["feed"], TIP)
    may_be_taken = is_slot(files[1]) or is_slot(files[2])
    # a slot may name a place that the file system cannot count
    wants_code("feed", code, ("Done", "Memory", "NotJournal") + ("DiskFault",) * may_be_taken)
    if program.files() != files:
        raise Wrong("an opening changed a file")
    if (code == 0) != bool(tip) or (audit_code == 0) != bool(audit):
        raise Wrong("something was sent of files that were refused, or nothing of such that were not")
    if files[0] == image.files[0] and audit + tip * (not may_be_taken) != image.audit + image.tip * (not may_be_taken):
        raise Wrong("a whole journal, %s a slot, shows %r and ends with %d: %r" % (
            "perhaps with" if may_be_taken else "without", audit, code, tip))
    return may_be_taken, code, tip == image.tip


def try_record(program, inputs, generator):
    text = damaged(generator.choice(inputs.records), generator)
    program.empty()
    sent, code = program.limited(["init"], text)
    wants_code("init", code, ("Done", "Memory", "StartForm"))
    if sent:
        raise Wrong("'init' sent something")
    _, audit = program.limited(["audit"], b"")
    wants_code("audit", audit, ("Done",) if code == 0 else ("NotJournal",))
    return text


def try_serve(program, inputs, generator):
    """One server for as many callers as it serves well; each is sent no reply, or one of the table."""
    count = 40
    program.begin()
    texts = []
    with check_http.Server(program, 2 * count):
        for _ in range(count):
            texts.append(damaged(generator.choice(inputs.requests), generator))
            came = reply(texts[-1])
            if came and not (came.startswith(b"HTTP/1.1 ") and came[9:12] in HTTP_STATUSES):
                raise Wrong("to %r 'serve' replied %r" % (texts[-1][:200], came[:200]))
            came = reply(check_http.head("GET /tip"))
            if not came.startswith(b"HTTP/1.1 200 "):
                raise Wrong("behind %r the tip was asked, and came %r" % (texts[-1][:200], came[:200]))
    program.shows()
    return b"".join(texts)


def reply(text):
    with check_http.connected() as line:
        try:
            line.sendall(text)
            line.shutdown(socket.SHUT_WR)
        except OSError:
            pass
        return check_http.came_before(line)


def requests_of(inputs):
    """Requests over HTTP of the frames that have one."""
    found = [text for text, _ in check_http.texts_and_replies()]
    for _, text in inputs.streams[:200]:
        for at, end in frames_of(text)[0]:
            body = text[at + HEAD:end]
            if check_http.is_whole(text[at], body):
                found.append(request_text(text[at], body))
    return found


# ---- all

# What is tried, each as often as its weight says. A server serves 40 callers.
TRIALS = ((try_feed, 40), (try_client, 15), (try_journal, 15), (try_slots, 20), (try_record, 9), (try_serve, 1))


class Image:
    """The files of a registry, what an audit and a Tip show of them, and frames that it has taken next."""

    def __init__(self, program, files, frames):
        self.files = files
        self.frames = frames
        program.hold(*files)
        self.audit, audit_code = program.run(["audit"])
        self.tip, code = program.run(["feed"], TIP)
        if (audit_code, code) != (0, 0):
            raise Wrong("a whole registry is not opened: codes %d and %d" % (audit_code, code))


def images_with_snapshots(program, generator):
    """Registries of which the program has written one snapshot, and more."""
    for count in (10, 22, 45):
        plan = Plan(generator)
        program.empty()
        program.wants(["init"], plan.record, b"", "Done")
        program.wants(["feed"], b"".join(plan.frames[:count]), b"".join(plan.answers[:count]), "Done")
        yield Image(program, program.files(), plan.frames[count:count + 12])


def small_image(program):
    """A registry with one short snapshot, which is told by the tool."""
    case = Case("slots", 1)
    for place, text in enumerate(("start small 2 01, aa:0 to key ee", "block 2: register 1 on aa:0", "= Ok height 2, hash 02"), 1):
        case.take(Line(place, text))
    return Image(program, [case.disk.texts[0], slot_text(Words("", case), case), b""], [])


def changed_slots(slot, changes, generator):
    """Each byte of a slot changed to so many others, each of its fronts, and each of these with the right length."""
    for place, byte in enumerate(slot):
        for turned in generator.sample(range(1, 256), changes):
            yield slot[:place] + bytes([byte ^ turned]) + slot[place + 1:]
    for size in range(len(slot)):
        yield slot[:size]
        if size >= SLOT_HEAD:
            yield slot[:1] + number(size - 9, 8) + slot[9:size]


def crowded_slot(slot, count):
    """A slot with so many rows at its lowest height, whose keys all differ."""
    def row(place):
        key = place.to_bytes(4, "big")
        return row_text(Row(key + bytes(28), 1, key * 5, key * 12, key * 5, NO_SERVICE, NO_PAY, 0, (key * 8, 0), NO_PAY), 1)
    rows = b"".join(row(place) for place in range(1, count + 1))
    held = slot[SLOT_HEAD:ROWS_AT] + number(count, 4) + rows + slot[ROWS_AT + 4:]
    return slot[:1] + number(len(held) + LEAST_LENGTH, 8) + slot[9:SLOT_HEAD] + held


def check_slots(program, changes, generator, seconds):
    image, counts = small_image(program), {}
    if look_at_slots(program, image, [image.files[0], crowded_slot(image.files[1], MOST_ROWS + 1), b""])[0]:
        raise Wrong("a slot with too many rows may be taken")
    slots, ends = list(changed_slots(image.files[1], changes, generator)), time.monotonic() + seconds
    for slot in slots:
        if time.monotonic() > ends:
            break
        may_be_taken, code, is_same = look_at_slots(program, image, [image.files[0], slot, b""])
        name = "none" if not may_be_taken else "refused" if code else "the same" if is_same else "another"
        counts[name] = counts.get(name, 0) + 1
    return "%d of %d slots of %d bytes, changed or cut: %s" % (
        sum(counts.values()), len(slots), len(image.files[1]), ", ".join("%s %d" % it for it in sorted(counts.items())))


def main(words):
    options = argparse.ArgumentParser(description="Hands the built program damaged inputs.")
    options.add_argument("program")
    options.add_argument("--count", type=int, default=2_000)
    options.add_argument("--seed", type=int, default=1)
    options.add_argument("--seconds", type=float, default=120)
    options.add_argument("--slots", type=int, default=1, help="changes of each byte of a snapshot")
    options.add_argument("--keep", default=None)
    options = options.parse_args(words)
    print("seed %d" % options.seed)
    inputs = Inputs()
    inputs.requests = requests_of(inputs)
    kinds, weights = zip(*TRIALS)
    with tempfile.TemporaryDirectory(dir=check_http.MEMORY) as folder:
        program = Trial(os.path.abspath(options.program), folder)
        program.begin = lambda: check_http.Registry.begin(program)
        try:
            print("%s: as they are to be" % check_slots(
                program, options.slots, random.Random(options.seed), options.seconds))
            inputs.images = list(images_with_snapshots(program, random.Random(options.seed)))
        except (Wrong, OSError, TimeoutError) as wrong:
            print("WRONG with a slot: %s" % wrong)
            keep(options.keep, folder, 0)
            return 1
        ends, done, counts = time.monotonic() + options.seconds, 0, {}
        while done < options.count and time.monotonic() < ends:
            generator = random.Random("%d %d" % (options.seed, done))
            kind = generator.choices(kinds, weights)[0]
            try:
                kind(program, inputs, generator)
            except (Wrong, OSError, TimeoutError) as wrong:
                print("WRONG at input %d (%s): %s" % (done, kind.__name__, wrong))
                keep(options.keep, folder, done)
                return 1
            counts[kind.__name__] = counts.get(kind.__name__, 0) + 1
            done += 1
    print("%d of %d inputs: %s: as they are to be" % (done, options.count, ", ".join("%s %d" % it for it in sorted(counts.items()))))
    return 0


def keep(to, folder, place):
    """Leaves the files of a run that went wrong; its input is made again by the seed."""
    if to:
        os.makedirs(to, exist_ok=True)
        for name in os.listdir(folder):
            with open(os.path.join(folder, name), "rb") as file, open(os.path.join(to, "%d-%s" % (place, name)), "wb") as other:
                other.write(file.read())


if __name__ == "__main__":
    sys.exit(main(sys.argv[1:]))
