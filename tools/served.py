#!/usr/bin/env python3
"""Runs a case whose last run is one of 'serve', asks the server what its callers ask, by curl (or by Python's http.client, where
curl is not installed), and prints both.

    python3 tools/served.py PROGRAM FILE

Where a reply is not the one of the case, that is said, and the code is 1."""

import os
import shutil
import subprocess
import sys
import tempfile

sys.path.insert(0, os.path.dirname(os.path.abspath(__file__)))

import check_http  # noqa: E402 (found by the line above)
from check_stops import Program, Wrong  # noqa: E402
from answers import CONNECT  # noqa: E402 (found by check_stops)
from casefile import read_cases  # noqa: E402
from over_http import target_of  # noqa: E402
from wire import HEAD  # noqa: E402


def curl_line(kind, body):
    method, path = target_of(kind, body)
    words = {CONNECT: "--data-binary @block "}.get(kind, "-X POST " if method == "POST" else "")
    return "curl %shttp://%s:%d%s" % (words, *check_http.ADDRESS, path)


def text_of(reply):
    """A reply as a terminal shows it: JSON as it is, bytes by their number."""
    head, _, body = reply.partition(b"\r\n\r\n")
    if b"application/json" in head:
        return body.decode()
    return "(%d bytes)" % len(body)


def ask(ask_of_case):
    kind, body = ask_of_case.kind, ask_of_case.text[HEAD:]
    asked = check_http.by_curl if shutil.which("curl") else check_http.by_client
    print("$ %s" % curl_line(kind, body))
    if kind == CONNECT:
        print("      (%s)" % ask_of_case.words)
    reply = asked(kind, body)
    print("  %s" % text_of(reply))
    return reply


def serve(program, run):
    """Serves the callers of a run; those that are told by their bytes are sent these."""
    print("$ dmnd %s" % " ".join(run.words))
    by_line = {one.line: one for one in run.asks}
    with check_http.Server(program, int(run.words[1])):
        for caller in run.callers:
            if caller.line in by_line:
                reply = ask(by_line[caller.line])
            else:
                print("%r" % caller.text.decode())
                reply = check_http.by_socket(caller.text)
                print("  %s" % text_of(reply))
            check_http.same("line %d" % caller.line, reply, caller.reply or b"")


def main(words):
    if len(words) != 2:
        print(__doc__.strip(), file=sys.stderr)
        return 2
    with open(words[1], encoding="utf-8") as file:
        case = read_cases(file.read(), words[1])[0]
    with tempfile.TemporaryDirectory() as folder:
        program = Program(os.path.abspath(words[0]), folder)
        try:
            for run in case.runs:
                if run.serves():
                    serve(program, run)
                else:
                    print("$ dmnd %s" % " ".join(run.words))
                    program.wants(run.words, run.input(), run.output(), run.end)
        except (Wrong, OSError, subprocess.SubprocessError) as wrong:
            print("WRONG: %s" % wrong)
            return 1
    return 0


if __name__ == "__main__":
    sys.exit(main(sys.argv[1:]))
