"""Requests in words."""

from dataclasses import dataclass

from answers import (APPLY, CONNECT, DIFF, DISCONNECT, HEADER, LIST, MEMBERS, PAGE, PAYEES, PIN, QUORUMS, RELEASE, ROW, SHOW,
                     TIP)
from blocks import Block
from diffs import Handed, Header
from light import Client
from model import PROFILES, State
from wire import HASH_SIZE, HEAD, frame, number, pay_of, pay_text, point_text
from words import Mistake, Words, bytes_of


@dataclass
class Step:
    """One request of several: its words, its bytes on the line, the answer that is wanted, and the state that it leaves."""
    words: str
    text: bytes
    answer: bytes = b""
    after: object = None


@dataclass
class Record:
    """A start record: its text, the profile, and the state before the first height."""
    text: bytes
    profile: str
    state: State


class Request:
    """A request: its kind, its bytes on the line, the block or the diff as its words drafted it, and what follows for the case
    where it is answered Ok. Where its words stand for several requests, each of which is to be answered Ok, these are its
    steps. What 'init' reads is a record."""

    def __init__(self, kind, text, drafted=None, accepted=None, steps=(), record=None):
        self.kind = kind
        self.text = text
        self.drafted = drafted
        self.block = drafted if isinstance(drafted, Block) else None
        self.moves = accepted is not None
        self.accepted = accepted or (lambda: None)
        self.steps = list(steps)
        self.record = record

    def hashes(self):
        """The hashes of a body that has nothing else."""
        return [self.text[at:at + HASH_SIZE] for at in range(HEAD, len(self.text), HASH_SIZE)]


def read_record(words):
    """'PROFILE FIRST HASH', and behind commas the outputs: 'POINT to SCRIPT'."""
    profile = words.next()
    if profile not in PROFILES:
        raise Mistake("a profile is small or main")
    first = words.number()
    before = words.hash()
    outputs = []
    while words.peek() == "," and words.peek(1) != "but":
        words.wants(",")
        point = words.point()
        words.wants("to")
        outputs.append((point, pay_of(words.script())))
    body = number(1, 2) + number(PROFILES[profile], 1) + number(first, 4) + before + number(len(outputs), 4)
    body += b"".join(point_text(point) + pay_text(pay) for point, pay in outputs)
    return Record(body, profile, State(first - 1, before, {}, dict(outputs)))


def block(words, case):
    drafted = Block(words, case)
    return CONNECT, drafted.finish(), drafted, lambda: case.keep(drafted.after)


def connect(words, _):
    return CONNECT, words.hex(), None, None


def disconnect(words, case):
    return DISCONNECT, words.hash(), None, case.go_back


def header(words, case):
    return HEADER, Header(words, case).body(), None, None


def apply(words, case):
    handed = Handed(words, case)
    return APPLY, handed.diff.text(), handed, None


def frame_of(words, _):
    kind = words.number()
    return kind, words.hex(), None, None


def fields(kind, *sizes):
    """A request of numbers of these sizes; a size of 32 is a hash."""
    def read(words, _):
        return kind, b"".join(words.hash() if size == 32 else number(words.number(), size) for size in sizes), None, None
    return read


READERS = {
    "block": block, "connect": connect, "disconnect": disconnect, "frame": frame_of, "header": header, "apply": apply,
    "tip": fields(TIP), "list": fields(LIST, 4), "row": fields(ROW, 4, 32), "payees": fields(PAYEES, 4, 2),
    "members": fields(MEMBERS, 1, 4), "quorums": fields(QUORUMS, 4), "diff": fields(DIFF, 32, 32),
    "pin": fields(PIN, 4), "page": fields(PAGE, 4, 4, 2), "release": fields(RELEASE, 4), "show": fields(SHOW),
}
# A request of which the lines below it are entries.
WITH_ENTRIES = "apply"


def moves_to(state, words, kind, body):
    """A request that makes this state the tip, and is answered so."""
    return Step(words, frame(kind, body), frame(0, number(state.height, 4) + state.hash), state)


def blocks(words, case):
    """'blocks FIRST to LAST': of each height one, of a coinbase and the null commitments that are due."""
    first = words.number()
    words.wants("to")
    last = words.number()
    is_long = words.takes("with", "long", "hashes")
    for height in range(first, last + 1):
        said = "%d%s: duties" % (height, " with hash %s" % (number(height, 4) * 8).hex() if is_long else "")
        drafted = Block(Words(said, case), case)
        body = drafted.finish()
        case.keep(drafted.after)
        yield moves_to(drafted.after, "block " + said, CONNECT, body)


def disconnects(words, case):
    """'disconnects to HEIGHT': the last block is taken back until this height is the tip."""
    words.wants("to")
    height = words.number()
    while case.tip().height > height:
        gone = case.states.pop()
        yield moves_to(case.tip(), "disconnect block %d" % gone.height, DISCONNECT, gone.hash)


def headers(words, case):
    """'headers FIRST to LAST': the header of each block of the branch between these heights."""
    first = words.number()
    words.wants("to")
    for height in range(first, words.number() + 1):
        said = "block %d" % height
        yield Step("header " + said, frame(HEADER, Header(Words(said, case), case).body()), frame(0, b""))


def fronts(words, case):
    """'fronts of BASE BLOCK': each front of the diff between these blocks, which is none."""
    words.wants("of")
    handed = Handed(words, case)
    whole = handed.diff.text()
    for size in range(len(whole)):
        yield Step("front of %d bytes" % size, frame(APPLY, whole[:size]), Client().apply(whole[:size]))


REPEATED = {"blocks": (CONNECT, blocks), "disconnects": (DISCONNECT, disconnects), "headers": (HEADER, headers),
            "fronts": (APPLY, fronts)}


def but(words, body):
    """'cut to N bytes', 'followed by HEX', 'byte N is HEX', or 'at N HEX', which is as many bytes as these: a body out of its
    form."""
    if words.takes("cut", "to"):
        size = words.number()
        words.wants("bytes")
        return body[:size]
    if words.takes("followed", "by"):
        return body + words.hex()
    if words.takes("at"):
        place, text = words.number(), words.hex()
        return body[:place] + text + body[place + len(text):]
    words.wants("byte")
    place = words.number()
    words.wants("is")
    return body[:place] + bytes_of(words.next()) + body[place + 1:]


def read_request(words, case):
    word = words.next()
    if word == "bytes":
        text = words.hex()
        words.ends()
        return Request(None, text)
    if word == "record":
        record = read_record(words)
        while words.takes(",", "but"):
            record.text = but(words, record.text)
        words.ends()
        return Request(None, record.text, record=record)
    if word in REPEATED:
        kind, read = REPEATED[word]
        request = Request(kind, b"", steps=read(words, case))
        if not request.steps:
            raise Mistake("there is no block between these heights")
        words.ends()
        return request
    if word not in READERS:
        raise Mistake("'%s' is no request" % word)
    kind, body, drafted, accepted = READERS[word](words, case)
    while words.takes(",", "but"):
        body = but(words, body)
    words.ends()
    if isinstance(drafted, Handed):
        drafted.hands(body)
    return Request(kind, frame(kind, body), drafted, accepted)
