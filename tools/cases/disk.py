"""The three files of a registry as its journal leaves them, and what the program shows of them."""

from wire import ZERO_HASH, frame, number

NAMES = ("journal", "snap1", "snap2")
# The names of these files in the folder in which the program runs.
PATHS = tuple("%s.dmn" % name for name in NAMES)
MAGIC = b"DMNJ001"
CLOSED = b"\0"
OPEN = b"\1"
CONNECT = 1
# Behind so many records a block's connect writes a snapshot first, by the number of the profile.
EVERY = {1: 8, 2: 288}


def header_text(record):
    """What stands before a journal's first record."""
    return OPEN + MAGIC + number(len(record), 4) + record


def audit_text(state, records):
    """The five lines of an audit."""
    root = state.root() if state.rows else ZERO_HASH
    banned = sum(row.banned != 0 for row in state.rows.values())
    lines = ("height %d" % state.height, "rows %d" % len(state.rows), "banned %d" % banned, "root %s" % root.hex(),
             "records %d" % records)
    return "".join(line + "\n" for line in lines).encode()


def tip_text(state, low, top):
    """The answer to a Tip."""
    return frame(0, number(state.height, 4) + state.hash + number(low, 4) + number(top, 4))


class Disk:
    """The files, each None where it is not known, and the place of the journal's closed gate, None where that is not
    known. What a snapshot holds is not known here: its file is not known any more."""

    def __init__(self):
        self.texts = [b"", b"", b""]
        self.gate = None
        self.records = 0
        self.every = None
        self.newest = None
        self.snapped = 0

    def begin(self, record):
        """A journal with this start record and no command."""
        header = header_text(record)
        self.texts = [header + CLOSED, b"", b""]
        self.gate = len(header)
        self.records = 0
        self.every = EVERY.get(record[2])
        self.newest = None
        self.snapped = 0

    def hold(self, file, text):
        """The file is to have this text. The journal's gate stays known where what stands before it is as it was."""
        before = self.texts[file]
        if file == 0 and self.gate is not None and (before is None or text[:self.gate] != before[:self.gate]):
            self.gate = None
        self.find(file, text)

    def find(self, file, text):
        """The file is found to have this text."""
        self.texts[file] = text
        if file == 0 and self.gate is not None and text[self.gate:self.gate + 1] in (b"", OPEN):
            self.gate = None

    def snap(self):
        """A snapshot in the file that has not the newest one."""
        self.newest = 2 if self.newest == 1 else 1
        self.texts[self.newest] = None
        self.snapped = self.records

    def append(self, kind, body):
        """A command's record at the closed gate, and a closed gate behind it, behind a snapshot where one is due."""
        if kind == CONNECT and self.every is not None and self.records - self.snapped >= self.every:
            self.snap()
        record = number(len(body) + 1, 4) + number(kind, 1) + body
        text = self.texts[0]
        if text is not None and self.gate is not None:
            behind = text[self.gate + len(record) + 2:]
            self.texts[0] = text[:self.gate] + OPEN + record + CLOSED + behind
        if self.gate is not None:
            self.gate += len(record) + 1
        self.records += 1

    def lose(self):
        """What the files have is not known any more, but for the journal's records."""
        self.texts = [None, None, None]
