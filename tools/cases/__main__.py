#!/usr/bin/env python3
"""Cases: requests and wanted answers in words, and their bytes. docs/CASES.md is the page on the words.

    python3 tools/cases check                  whether the composed files are those of the words in cases/
    python3 tools/cases compose                writes the composed files that the runner dmn_cases reads
    python3 tools/cases try COMMAND..          runs 'COMMAND WORDS' for each run of each case, WORDS being those of its
                                               command line, in a folder that has the case's files
    python3 tools/cases show [--bytes] FILE [CASE] -- COMMAND..
                                               runs a case so, and says in words what is asked and what is answered
    python3 tools/cases files FILE [CASE]      writes the files that a case begins with into the current folder
    python3 tools/cases write FILE [CASE]      writes what is sent to a case's first run; '-' is standard input
    python3 tools/cases read FILE [CASE] [--bytes]
                                               reads the answer frames from standard input and says them in words
"""

import os
import re
import subprocess
import sys
import tempfile
import textwrap

from answers import NUMBERS, RULES, Shown, cut_answers
from casefile import CODES, FRAMED, read_cases
from disk import PATHS
from wire import dsha
from words import Mistake

TOP = os.path.dirname(os.path.dirname(os.path.dirname(os.path.abspath(__file__))))
CASES = os.path.join(TOP, "cases")
CRATE = os.path.join(TOP, "crates", "dmn_cases")
# What no case can reach: rules on limits that take many long blocks, and statuses that want no memory, 4,294,967,295 frames, or
# 65,536 headers.
UNREACHED_RULES = {82, 83}
UNREACHED_STATUSES = {"Memory", "Enough", "HeadersFull"}
# A file's text that is longer is told by its length and its hash.
LONGEST_TEXT = 600


def case_files():
    """Each file of cases, by its path below cases/."""
    found = []
    for folder, _, names in os.walk(CASES):
        found += [os.path.relpath(os.path.join(folder, name), CASES) for name in names if name.endswith(".case")]
    return sorted(found)


def cases_of(path, needs_answers=True):
    source = sys.stdin if path == "-" else open(path, encoding="utf-8")
    name = os.path.splitext(os.path.basename(path))[0]
    try:
        with source:
            return read_cases(source.read(), name, needs_answers)
    except Mistake as mistake:
        raise Mistake("%s: %s" % (path, mistake)) from mistake


def all_cases():
    return [(name, cases_of(os.path.join(CASES, name))) for name in case_files()]


# ---- composed files

def hex_words(text):
    """Hex digits; a piece that stands eight times and more is written once, with '*' and how often."""
    words, at = [], 0
    for run in re.finditer(rb"(.{1,64}?)\1{7,}", text, re.DOTALL):
        piece = run.group(1)
        words.append(text[at:run.start()].hex())
        words.append("%s*%d" % (piece.hex(), (run.end() - run.start()) // len(piece)))
        at = run.end()
    words.append(text[at:].hex())
    return " ".join(word for word in words if word)


def stand_line(line, count, end, shown):
    """What an image may be behind so many answers: how the same words end on it, and what an audit and a Tip show."""
    return "stand %d %d %s %s" % (line, count, end, hex_words(shown))


def visited(run):
    """The callers of a run, and what each is sent."""
    if run.each:
        raise Mistake("line %d: a run of 'serve' is not made for each of its calls" % run.line)
    for caller in run.callers:
        yield "caller %d %s" % (caller.line, hex_words(caller.text))
        yield "reply %d %s" % (caller.reply_line, hex_words(caller.reply))


def asked(run):
    """What is sent in a run and what is to come, and where an image of each of its calls is judged, what may then stand."""
    if run.serves():
        yield from visited(run)
        return
    is_judged = bool(run.each)
    is_making = run.words == ["init"]
    if is_judged and (run.stand is None or any(ask.is_accepted() and not ask.stand for ask in run.asks)):
        raise Mistake("line %d: what stands behind each command is not known" % run.line)
    if is_judged and is_making:
        yield stand_line(run.line, 0, "Done", b"")
    elif is_judged:
        yield stand_line(run.line, 0, run.end, run.stand.shows())
    count = 0
    for ask in run.asks:
        if ask.text:
            yield "in %d %s" % (ask.line, hex_words(ask.text))
        if ask.answer:
            count += 1
            yield "out %d %s" % (ask.answer_line, hex_words(ask.answer))
        if is_judged and ask.stand:
            yield stand_line(ask.line, count, run.end, ask.stand.shows())
    if is_judged and is_making:
        yield stand_line(run.line, 1, "AlreadyInit", run.stand.shows())


def wanted_file(file, line, text):
    if len(text) <= LONGEST_TEXT:
        return "becomes %d %d %s" % (line, file, hex_words(text))
    return "hashes %d %d %d %s" % (line, file, len(text), dsha(text).hex())


def ending(run):
    return run.end if run.at is None else "%s at %d" % (run.end, run.at)


def composed_run(run):
    lines = ["image %d %s" % (file, hex_words(text)) for file, text in sorted(run.files.items())]
    lines.append(" ".join(["run", str(run.line)] + run.words))
    if run.is_behind_opening:
        lines.append("behind")
    if run.fails:
        lines.append("fails " + " ".join(str(call) for call in run.fails))
    if run.stop is not None:
        lines.append("stop %d" % run.stop)
    lines += ["each %s" % what for what in run.each]
    lines += asked(run)
    if run.pick:
        lines.append(" ".join(["pick"] + [str(word) for word in run.pick]))
    lines += [wanted_file(file, *told) for file, told in sorted(run.becomes.items())]
    return [line.rstrip() for line in lines] + ["end %d %s" % (run.end_line, ending(run))]


def made_runs(case):
    """The runs of a case, and those of the fronts of their inputs, as often as they are made."""
    return [front for run in case.runs for front in run.fronts()]


def composed_case(case):
    lines = ["case %d %s" % (case.line, case.name)]
    for run in made_runs(case):
        lines += composed_run(run)
    return lines + ["done"]


def composed():
    """Each file that the runner's folder is to have, with its text."""
    by_folder, shown = {}, []
    for name, cases in all_cases():
        lines = by_folder.setdefault(name.split(os.sep)[0], [])
        lines.append("file %s" % name)
        for case in cases:
            lines += composed_case(case)
            shown.append("ok %s: %s" % (name, case.name))
    texts = {os.path.join("data", folder + ".txt"): "\n".join(lines) + "\n" for folder, lines in by_folder.items()}
    texts[os.path.join("data", "files.txt")] = "".join("%s.txt\n" % folder for folder in by_folder)
    count = len(shown)
    texts["stdout"] = "\n".join(shown + ["%d cases, all as wanted" % count]) + "\n"
    return texts


def compose():
    for name, text in composed().items():
        path = os.path.join(CRATE, name)
        os.makedirs(os.path.dirname(path), exist_ok=True)
        with open(path, "w", encoding="utf-8") as out:
            out.write(text)
    return 0


def lacking():
    """The rules and statuses that have no case of their own, though they are reached."""
    refused = {name: {ask.answer[5] for case in cases for run in case.runs for ask in run.asks
                      if ask.answer and ask.answer[0] == NUMBERS["Refused"]} for name, cases in all_cases()}
    for number, (rule, _) in RULES.items():
        name = os.path.join("rules", "%03d-%s.case" % (number, rule))
        if number not in UNREACHED_RULES and number not in refused.get(name, ()):
            yield "rule %d (%s) has no case %s that it refuses" % (number, rule, name)
    for status in {*NUMBERS, *CODES} - UNREACHED_STATUSES:
        if os.path.join("statuses", status + ".case") not in refused:
            yield "the status %s has no case" % status


def check():
    wrong = 0
    wanted = composed()
    for words in lacking():
        print(words)
        wrong += 1
    folder = os.path.join(CRATE, "data")
    there = {os.path.join("data", name) for name in os.listdir(folder)} if os.path.isdir(folder) else set()
    for name in sorted(there - set(wanted)):
        print("%s: no words stand behind it" % name)
        wrong += 1
    for name, text in wanted.items():
        path = os.path.join(CRATE, name)
        found = open(path, encoding="utf-8").read() if os.path.exists(path) else None
        if found != text:
            print("%s is not that of the words: run 'python3 tools/cases compose'" % name)
            wrong += 1
    if not wrong:
        print("the composed files are those of the words, and each rule and status that is reached has its case")
    return 1 if wrong else 0


# ---- trying a program

def place_of(run, sent):
    """The first answer that is not as wanted: its line, what was wanted, and what came."""
    at = 0
    for ask in run.asks:
        wanted = ask.answer or b""
        came = sent[at:at + len(wanted)]
        if came != wanted:
            return ask.answer_line, wanted, sent[at:at + max(len(wanted), 64)]
        at += len(wanted)
    return run.end_line, b"", sent[at:]


def write_files(folder, texts):
    for file, text in texts.items():
        with open(os.path.join(folder, PATHS[file]), "wb") as out:
            out.write(text)


def file_text(folder, file):
    """What a file of a folder has; a file that is not there is an empty one."""
    path = os.path.join(folder, PATHS[file])
    if not os.path.exists(path):
        return b""
    with open(path, "rb") as found:
        return found.read()


def made(run, command, folder):
    """A run of a command in a folder with its files."""
    write_files(folder, run.files)
    return subprocess.run(command + run.words, input=run.input(), stdout=subprocess.PIPE, stderr=subprocess.PIPE, cwd=folder,
                          check=False)


def tried(place, run, done, folder):
    """What is wrong with a run of a command, or None."""
    if done.stdout != run.output():
        line, wanted, came = place_of(run, done.stdout)
        return place % line + "wanted %s, came %s" % (hex_words(wanted), hex_words(came))
    if done.returncode != CODES[run.end]:
        return place % run.end_line + "ended with %d, wanted %s" % (done.returncode, run.end)
    for file, (line, wanted) in run.becomes.items():
        came = file_text(folder, file)
        if came != wanted:
            return place % line + "%s: wanted %s, came %s" % (PATHS[file], hex_words(wanted), hex_words(came))
    return None


def tried_case(name, case, command):
    """How many of a case's runs were made, and what is wrong with the first that goes wrong. A run whose calls fail is made
    by no command, one of 'serve' is made elsewhere, by callers over HTTP, and nor is one behind it made."""
    with tempfile.TemporaryDirectory() as folder:
        for count, run in enumerate(made_runs(case)):
            if run.is_faulty() or run.serves():
                return count, None
            done = made(run, command, folder)
            fault = tried("%s:%%d: %s: " % (name, case.name), run, done, folder)
            if fault:
                return count + 1, fault
    return len(made_runs(case)), None


def try_all(command):
    command = command_of(command)
    count = wrong = left = 0
    for name, cases in all_cases():
        for case in cases:
            tried_runs, fault = tried_case(name, case, command)
            count += tried_runs
            left += len(made_runs(case)) - tried_runs
            if fault:
                wrong += 1
                print(fault)
    print("%d runs, %d wrong, %d not tried" % (count, wrong, left))
    return 1 if wrong else 0


def command_of(words):
    """A command; a path of a file is one from here, since each run has a folder of its own."""
    return [os.path.abspath(word) if os.path.exists(word) else word for word in words]


# ---- one case by hand

def one_case(words):
    found = cases_of(words[0], False)
    if len(words) == 1:
        return found[0]
    for case in found:
        if case.name == words[1]:
            return case
    raise Mistake("%s has no case '%s'" % (words[0], words[1]))


def write(words):
    for run in one_case(words).runs[:1]:
        sys.stdout.buffer.write(run.input())
    return 0


def files(words):
    for run in one_case(words).runs[:1]:
        write_files(".", run.files)
    return 0


def shown(title, text):
    """Bytes in hex, 32 on a line."""
    lines = textwrap.wrap(text.hex(), 64)
    return "\n".join("    %-8s %s" % ("" if n else title, line) for n, line in enumerate(lines))


def say_answers(case, run, text, with_bytes):
    """The requests of a run and what was answered, in words."""
    asks = [ask for ask in run.asks if ask.kind is not None]
    answers = cut_answers(text)
    for ask, (status, body) in zip(asks, answers):
        print("> %s" % ask.words)
        if with_bytes:
            print(shown("sent", ask.text))
            print(shown("answered", bytes([status]) + len(body).to_bytes(4, "little") + body))
        head, *below = Shown(ask.kind, case.names).words(status, body)
        print("  %s" % head)
        for line in below:
            print("      %s" % line)
    if len(answers) != len(asks):
        print("%d requests, %d answers" % (len(asks), len(answers)))


def read(words):
    with_bytes = "--bytes" in words
    case = one_case([word for word in words if word != "--bytes"])
    say_answers(case, case.runs[0], sys.stdin.buffer.read(), with_bytes)
    return 0


def say_run(case, run, done, with_bytes):
    """A run's command line, what was asked and what was answered, and its code where that is not 0."""
    print("$ %s" % " ".join(["dmnd"] + run.words))
    if run.words in FRAMED:
        say_answers(case, run, done.stdout, with_bytes)
    else:
        for ask in run.asks:
            if ask.text:
                print("> %s" % ask.words)
                if with_bytes:
                    print(shown("sent", ask.text))
        for line in done.stdout.decode().splitlines():
            print("  %s" % line)
    if done.returncode:
        print("  ended with code %d" % done.returncode)


def show(words):
    """Runs a case, and says it in words. Where a run does not go as wanted, that is said, and the code is 1."""
    with_bytes = "--bytes" in words
    place = words.index("--") if "--" in words else len(words)
    case = one_case([word for word in words[:place] if word != "--bytes"])
    command = command_of(words[place + 1:])
    if not command:
        raise Mistake("a command is wanted behind '--'")
    with tempfile.TemporaryDirectory() as folder:
        for run in case.runs:
            done = made(run, command, folder)
            say_run(case, run, done, with_bytes)
            fault = tried("line %d: ", run, done, folder)
            if fault:
                print(fault)
                return 1
    return 0


VERBS = {"check": lambda words: check(), "compose": lambda words: compose(), "try": try_all, "show": show,
                 "files": files, "write": write, "read": read}


def main(words):
    if not words or words[0] not in VERBS or (words[0] not in ("check", "compose") and len(words) < 2):
        print(__doc__.strip(), file=sys.stderr)
        return 2
    try:
        return VERBS[words[0]](words[1:])
    except (Mistake, OSError) as mistake:
        print("cases: %s" % mistake, file=sys.stderr)
        return 1


if __name__ == "__main__":
    sys.exit(main(sys.argv[1:]))
