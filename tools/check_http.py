#!/usr/bin/env python3
"""Asks the built program over HTTP, as curl and others do, in folders of its own.

    python3 tools/check_http.py PROGRAM [--callers N] [--kills N] [--seed N]

- A stream of blocks, disconnects and questions of each kind: each reply is, byte for byte, what the tool of cases says that
  'feed' answers, in the form of docs/HTTP.md. Requests come by a plain socket, by curl (where it is installed) and by Python's
  http.client; in one piece, byte by byte, and two in one connection.
- Each check of a request fails alone: its reply is the one of the table; with two that fail it is the first one's.
- Callers that leave early are sent nothing, and the next one is served; one that is silent is given up.
- The last caller sends more than is taken, and has its reply all the same.
- N callers one after another (1,000).
- The server is killed at a random moment, N times (10): each block that was answered is there at the next start.

The program listens on port 9996 of 127.0.0.1, which must be free."""

import argparse
import http.client
import os
import random
import shutil
import signal
import socket
import subprocess
import sys
import tempfile
import time

sys.path.insert(0, os.path.dirname(os.path.abspath(__file__)))

from check_stops import Plan, Program, Wrong  # noqa: E402 (found by the line above)
from answers import CONNECT, DIFF, DISCONNECT, LIST, MEMBERS, PAGE, PAYEES, PIN, QUORUMS, RELEASE, ROW, TIP  # noqa: E402 (found by check_stops)
from casefile import read_cases  # noqa: E402
from disk import PATHS  # noqa: E402
from wire import HEAD  # noqa: E402
from over_http import json_reply, refusal, reply_to, request_text, target_of  # noqa: E402

CASES = os.path.join(os.path.dirname(os.path.dirname(os.path.abspath(__file__))), "cases")
ADDRESS = ("127.0.0.1", 9996)
# How /proc/net/tcp writes this address, and the state of a socket that listens.
LISTENER = "0100007F:%04X" % ADDRESS[1]
LISTENS = "0A"
LONGEST_HEAD = 8_192
LONGEST_BODY = 16_777_216
MOST_FIELDS = 32
# So many bytes behind a request are more than a head's buffer takes.
REST = 100_000
# Syncs of files in memory are quick; what a disk keeps is not what is looked at here.
MEMORY = "/dev/shm" if os.access("/dev/shm", os.W_OK) else None
# A server that takes longer to answer, or to end, is a fault.
PATIENCE = 30


# ---- callers

def connected():
    return socket.create_connection(ADDRESS, PATIENCE)


def received(line):
    """All that the server sends until it ends the connection."""
    text = b""
    while True:
        piece = line.recv(65_536)
        if not piece:
            return text
        text += piece


def by_socket(text, piece=None, pause=0.0):
    """Sends a text, whole or in pieces, and receives the reply. What comes behind a request need not be taken."""
    with connected() as line:
        line.setsockopt(socket.IPPROTO_TCP, socket.TCP_NODELAY, 1)
        try:
            for at in range(0, len(text), piece or max(1, len(text))):
                line.sendall(text[at:at + piece] if piece else text)
                time.sleep(pause)
            line.shutdown(socket.SHUT_WR)
        except (BrokenPipeError, ConnectionResetError):
            pass
        return received(line)


def by_curl(kind, body):
    method, path = target_of(kind, body)
    words = ["curl", "-s", "-i", "--max-time", str(PATIENCE), "-X", method, "http://%s:%d%s" % (*ADDRESS, path)]
    with tempfile.NamedTemporaryFile() as sent:
        if kind == CONNECT:
            sent.write(body)
            sent.flush()
            words += ["-H", "Expect:", "--data-binary", "@" + sent.name]
        return subprocess.run(words, stdout=subprocess.PIPE, check=True, timeout=PATIENCE).stdout


def by_client(kind, body):
    method, path = target_of(kind, body)
    line = http.client.HTTPConnection(*ADDRESS, timeout=PATIENCE)
    try:
        line.request(method, path, body if kind == CONNECT else None)
        reply = line.getresponse()
        text = reply.read()
        head = "HTTP/1.1 %d %s\r\n" % (reply.status, reply.reason) + "".join("%s: %s\r\n" % it for it in reply.getheaders())
        return head.encode() + b"\r\n" + text
    finally:
        line.close()


def same(what, came, wanted):
    if came != wanted:
        raise Wrong("%s: came %r, wanted %r" % (what, came[:300], wanted[:300]))


# ---- the server

def is_listening():
    """Whether somebody listens on the port, by /proc (Linux alone): a connection that only asks would be a caller."""
    with open("/proc/net/tcp", encoding="ascii") as file:
        sockets = [line.split() for line in file]
    return any(it[1] == LISTENER and it[3] == LISTENS for it in sockets)


class Server:
    """A run of 'serve', which is to end with code 0 behind its callers. It listens when this is made."""

    def __init__(self, program, callers):
        self.process = subprocess.Popen([program.path, "serve", str(callers)], cwd=program.folder, stdin=subprocess.DEVNULL,
                                        stdout=subprocess.PIPE, stderr=subprocess.PIPE)
        ends = time.monotonic() + PATIENCE
        while not is_listening():
            if time.monotonic() > ends or self.process.poll() is not None:
                self.kill()
                raise Wrong("nobody listens on port %d, and 'serve' ended with %s" % (ADDRESS[1], self.process.returncode))
            time.sleep(0.001)

    def __enter__(self):
        return self

    def __exit__(self, kind, fault, trace):
        if kind:
            self.kill()
            return
        sent, said = self.process.communicate(timeout=PATIENCE)
        if (self.process.returncode, sent, said) != (0, b"", b""):
            raise Wrong("'serve' ended with %d, sent %r and said %r" % (self.process.returncode, sent[:80], said[:200]))

    def kill(self):
        self.process.send_signal(signal.SIGKILL)
        self.process.communicate(timeout=PATIENCE)


# ---- the cases of frames, as requests over HTTP

def is_whole(kind, body):
    """Whether a frame's body is in the form that a path has too; that of a block is handed on as it is."""
    sizes = {CONNECT: len(body), DISCONNECT: 32, TIP: 0, LIST: 4, ROW: 36, PAYEES: 6, MEMBERS: 5, QUORUMS: 4, DIFF: 64, PIN: 4,
             PAGE: 10, RELEASE: 4}
    return kind in sizes and len(body) == sizes[kind] and len(body) <= LONGEST_BODY


def runs_of_cases(folders):
    """The runs of 'feed' whose frames all can come over HTTP: their files, and each request with its reply."""
    for folder in folders:
        for name in sorted(os.listdir(os.path.join(CASES, folder))):
            with open(os.path.join(CASES, folder, name), encoding="utf-8") as file:
                cases = read_cases(file.read(), name)
            for case in cases:
                if len(case.runs) == 1 and case.runs[0].words == ["feed"] and not case.runs[0].is_faulty():
                    asks = requests_of(case.runs[0])
                    if asks:
                        yield "%s/%s: %s" % (folder, name, case.name), case.runs[0].files, asks


def requests_of(run):
    found = []
    for ask in run.asks:
        kind, body = ask.kind, ask.text[HEAD:]
        if kind is None or ask.answer is None or not ask.answer:
            return []
        if is_whole(kind, body):
            found.append((kind, body, reply_to(kind, body, ask.answer)))
    return found


def check_cases(program, options):
    """The cases of each kind and status; in one of them some come by curl, or by http.client."""
    has_curl, runs, count = shutil.which("curl"), 0, 0
    for name, files, asks in runs_of_cases(("kinds", "statuses", "rules")):
        program.empty()
        for file, text in files.items():
            with open(os.path.join(program.folder, PATHS[file]), "wb") as journal:
                journal.write(text)
        with Server(program, len(asks)):
            for place, (kind, body, wanted) in enumerate(asks):
                same("%s, request %d" % (name, place + 1), asked_by(runs + place, has_curl, kind, body), wanted)
        runs, count = runs + 1, count + len(asks)
    return "%d requests of %d cases%s" % (count, runs, "" if has_curl else ", none by curl, which is not here")


def asked_by(turn, has_curl, kind, body):
    """Most requests come by a plain socket, which is quick; some by the clients that people use."""
    if turn % 10 == 0 and has_curl:
        return by_curl(kind, body)
    if turn % 10 == 5:
        return by_client(kind, body)
    return by_socket(request_text(kind, body))


# ---- heads and bodies out of their form

BAD = {name: refusal(status, name) for name, status in (
    ("HeadTooLong", 413), ("BadHead", 400), ("Encoding", 400), ("NoRoute", 404), ("Method", 405), ("BadPath", 400),
    ("Length", 400), ("BodyTooLong", 413))}
TIP_REPLY = json_reply(200, {"hash": "01" * 32, "height": 1, "low": 1, "top": 1})


def head(line, *fields):
    return ("\r\n".join((line + " HTTP/1.1",) + fields) + "\r\n\r\n").encode()


def padded(size):
    """A request for the tip whose head has so many bytes."""
    short = head("GET /tip", "A: ")
    return head("GET /tip", "A: " + "a" * (size - len(short)))


def many(fields):
    return head("GET /tip", *("F%d: %d" % (place, place) for place in range(fields)))


def texts_and_replies():
    """Each check of a request fails alone, or with a later one; b"" is no reply."""
    long_head = b"GET /tip HTTP/1.1\r\nA: " + b"a" * LONGEST_HEAD
    yield from (
        (b"", b""), (b"GET /tip HTTP/1.1", b""), (head("GET /tip")[:-1], b""), (head("POST /block", "Content-Length: 9") + b"\0" * 8, b""),
        (head("GET /tip"), TIP_REPLY), (head("GET /tip", "Host: x", "Content-Length: nine"), TIP_REPLY),
        (head("GET /tip", "Content-Length: 3") + b"abc", TIP_REPLY), (head("GET /tip") + head("GET /tip"), TIP_REPLY),
        (padded(LONGEST_HEAD - 1), TIP_REPLY), (padded(LONGEST_HEAD), TIP_REPLY), (padded(LONGEST_HEAD + 1), BAD["HeadTooLong"]),
        (long_head, BAD["HeadTooLong"]), (many(MOST_FIELDS), TIP_REPLY), (many(MOST_FIELDS + 1), BAD["BadHead"]),
        (b"GET  /tip HTTP/1.1\r\n\r\n", BAD["BadHead"]), (b"\r\n\r\nGET /tip HTTP/1.1\r\n\r\n", BAD["BadHead"]),
        (head("GET /tip", "Transfer-Encoding: chunked"), BAD["Encoding"]),
        (head("GET /nowhere", "transfer-encoding: x"), BAD["Encoding"]),
        (head("GET /nowhere"), BAD["NoRoute"]), (head("GET /tip/"), BAD["NoRoute"]), (head("GET /tip?a=b"), BAD["NoRoute"]),
        (head("GET /list/"), BAD["NoRoute"]), (head("POST /nowhere"), BAD["NoRoute"]),
        (head("POST /tip"), BAD["Method"]), (head("GET /block"), BAD["Method"]), (head("POST /list/01"), BAD["Method"]),
        (head("GET /list/01"), BAD["BadPath"]), (head("GET /list/4294967296"), BAD["BadPath"]), (head("GET /list/+1"), BAD["BadPath"]),
        (head("GET /row/01/" + "00" * 32), BAD["BadPath"]), (head("GET /row/1/" + "AA" * 32), BAD["BadPath"]),
        (head("GET /row/1/" + "00" * 32), refusal(404, "NoSuch")), (head("GET /payees/1/65536"), BAD["BadPath"]),
        (head("POST /block"), BAD["Length"]), (head("POST /block", "Content-Length: "), BAD["Length"]),
        (head("POST /block", "Content-Length: 1", "content-length: 1"), BAD["Length"]),
        (head("POST /block", "Content-Length: +1"), BAD["Length"]), (head("POST /block", "Content-Length: 1, 1"), BAD["Length"]),
        (head("POST /block", "Content-Length: %d" % (LONGEST_BODY + 1)), BAD["BodyTooLong"]),
        (head("POST /block", "Content-Length: " + "9" * 30), BAD["BodyTooLong"]),
        (head("POST /block", "Content-Length: 0"), refusal(400, "BadRequest", at=0)),
        (head("POST /block", "Content-Length: 003") + b"abcdef", refusal(400, "BadRequest", at=0)),
    )


def check_texts(program, options):
    program.begin()
    asks = list(texts_and_replies())
    with Server(program, 2 * len(asks)):
        for text, wanted in asks:
            same("%r" % text[:60], by_socket(text), wanted)
        for text, wanted in asks:
            # a long text goes in larger pieces
            same("%r in pieces" % text[:60], by_socket(text, max(1, len(text) // 100)), wanted)
    return "%d texts, whole and in pieces" % len(asks)


def check_slow(program, options):
    """One that stops within its head is given up; one that sends byte by byte, with pauses, is served, and so is the next."""
    program.begin()
    with Server(program, 4):
        with connected() as silent:
            silent.sendall(b"GET /tip")
            same("a caller who is silent", received(silent), b"")
        same("a slow caller", by_socket(head("GET /tip"), 1, 0.05), TIP_REPLY)
        with connected() as gone:
            gone.sendall(head("GET /tip")[:9])
        same("the next caller", by_socket(head("GET /tip")), TIP_REPLY)
    return "slow callers, and such as leave"


def check_last(program, options):
    """A connection that the program's end closes over bytes that nobody took would be reset."""
    program.begin()
    with Server(program, 1):
        same("the last caller", by_socket(head("GET /tip") + bytes(REST)), TIP_REPLY)
    return "a last caller with %d bytes behind its request" % REST


def check_many(program, options):
    program.begin()
    begun = time.monotonic()
    with Server(program, options.callers):
        for place in range(options.callers):
            same("caller %d" % place, by_socket(head("GET /tip")), TIP_REPLY)
    return "%d callers one after another in %.1f seconds" % (options.callers, time.monotonic() - begun)


# ---- kills

def check_kills(program, options):
    """Blocks are posted, and the server is killed: each that was answered is there behind it."""
    generator, behind = random.Random(options.seed), 0
    for _ in range(options.kills):
        plan = Plan(generator)
        program.empty()
        program.wants(["init"], plan.record, b"", "Done")
        least = posted(program, plan, generator)
        found = program.recovered(plan, least)
        if found > least + 1:
            raise Wrong("%d commands were answered, and %d are there" % (least, found))
        behind += found > 0
    return "%d kills, %d of them behind a command" % (options.kills, behind)


def posted(program, plan, generator):
    """Sends commands until the server is killed, and says how many were answered."""
    server = Server(program, 1_000)
    last = generator.randrange(len(plan.frames))
    count = 0
    try:
        for frame, answer in zip(plan.frames, plan.answers):
            kind, body = frame[0], frame[HEAD:]
            with connected() as line:
                line.sendall(request_text(kind, body))
                if count == last:
                    time.sleep(generator.random() * 0.003)
                    server.kill()
                came = came_before(line)
            if count == last:
                return count + (came == reply_to(kind, body, answer))
            same("command %d" % count, came, reply_to(kind, body, answer))
            count += 1
    finally:
        server.kill()
    return count


def came_before(line):
    """What was received until the connection ended, or broke."""
    text = b""
    try:
        while True:
            piece = line.recv(65_536)
            if not piece:
                return text
            text += piece
    except ConnectionError:
        return text


# The profile 'small', the first height, the hash of the block before, no outputs.
RECORD = b"\1\0" + b"\1" + b"\2\0\0\0" + b"\1" * 32 + b"\0\0\0\0"


class Registry(Program):
    """The program, in a folder with a registry of the profile 'small' that starts at height 2."""

    def begin(self):
        self.empty()
        self.wants(["init"], RECORD, b"", "Done")


CHECKS = (check_cases, check_texts, check_slow, check_last, check_many, check_kills)


def main(words):
    options = argparse.ArgumentParser(description="Asks the built program over HTTP.")
    options.add_argument("program")
    options.add_argument("--callers", type=int, default=1_000)
    options.add_argument("--kills", type=int, default=10)
    options.add_argument("--seed", type=int, default=1)
    options = options.parse_args(words)
    path = os.path.abspath(options.program)
    print("seed %d" % options.seed)
    with tempfile.TemporaryDirectory(dir=MEMORY) as folder:
        program = Registry(path, folder)
        for check in CHECKS:
            try:
                print("%s: as it is to be" % check(program, options), flush=True)
            except (Wrong, OSError, subprocess.SubprocessError) as wrong:
                print("WRONG in %s: %s" % (check.__name__, wrong))
                return 1
    return 0


if __name__ == "__main__":
    sys.exit(main(sys.argv[1:]))
