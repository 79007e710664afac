"""Files of cases: their lines, and the runs that these ask for."""

from dataclasses import dataclass, field, replace

from answers import CONNECT, DIFF, DISCONNECT, LIST, NUMBERS, PAGE, Wanted
from disk import NAMES, Disk, audit_text, tip_text
from model import KEPT
from over_http import reply_of_words, reply_to, request_text, text_of_words
from requests import WITH_ENTRIES, Step, but, read_record, read_request
from slots import slot_text
from wire import HEAD, ZERO_HASH
from words import Mistake, Words

# The statuses with which the program ends, and their exit codes.
CODES = {"Done": 0, "Words": 2, "Memory": 3, "DiskFault": 4, "LineFault": 5, "NotJournal": 6, "StartForm": 6,
         "CutInput": 7, "Enough": 8, "AlreadyInit": 9}
# Those that tell a place.
PLACED = ("NotJournal", "StartForm")
# Words that later cases will need; until then no line begins with them.
RESERVED = ("pieces",)
PICKS = ("Before", "After", "Fill")
# The lines of the runs that send text, each of which is a name and a value.
AUDIT = ("height", "rows", "banned", "root", "records")
LINED = {"audit": AUDIT, "make": AUDIT + ("tail", "pages")}
HASHES = ("root", "pages")
COMMANDS = (CONNECT, DISCONNECT)
# Before a text, whose fronts then are those of as many callers.
FRONTS = "each front of"
# The runs that answer frames.
FRAMED = (["feed"], ["client"])


@dataclass
class Line:
    """A line with those below it that are indented."""
    number: int
    text: str
    below: list = field(default_factory=list)

    def whole(self):
        return " ".join([self.text] + [text for _, text in self.below])


@dataclass
class Stand:
    """What a registry is behind some of its commands: the state behind the tip, the number of commands, which heights are
    held."""
    state: object
    records: int
    low: int
    top: int

    def shows(self):
        """What an audit, and then a Tip, sends."""
        return audit_text(self.state, self.records) + tip_text(self.state, self.low, self.top)


@dataclass
class Ask:
    """A request's line, its bytes, and the answer that is wanted; the state that it leaves, where its line stands for
    several; and where it is a command that is accepted, what then stands."""
    line: int
    words: str
    kind: int
    text: bytes
    answer_line: int = 0
    answer: bytes = None
    after: object = None
    stand: Stand = None

    def is_accepted(self):
        """Whether it is a command that is answered Ok."""
        return self.kind in COMMANDS and self.answer is not None and self.answer[:1] == b"\0"


@dataclass
class Caller:
    """A caller of 'serve': its line and its bytes, and the reply that is wanted."""
    line: int
    text: bytes
    reply_line: int = 0
    reply: bytes = None


@dataclass
class Run:
    """One run of the program: the files that are told before it, the words of its command line, which of its calls fail,
    what is sent to it, or by its callers, how it ends, what a crash then leaves, and the files that are wanted."""
    line: int
    words: list
    files: dict = field(default_factory=dict)
    fails: list = field(default_factory=list)
    stop: int = None
    is_behind_opening: bool = False
    each: list = field(default_factory=list)
    # the files before it, and whether it is also made with each front of its input
    began: list = field(default_factory=list)
    is_cut: bool = False
    stand: Stand = None
    asks: list = field(default_factory=list)
    callers: list = field(default_factory=list)
    pick: list = field(default_factory=list)
    becomes: dict = field(default_factory=dict)
    end_line: int = 0
    end: str = "Done"
    at: int = None
    is_over: bool = False

    def input(self):
        return b"" if self.serves() else b"".join(ask.text for ask in self.asks)

    def output(self):
        return b"" if self.serves() else b"".join(ask.answer or b"" for ask in self.asks)

    def is_faulty(self):
        return bool(self.fails) or self.stop is not None

    def fronts(self):
        """The run with each front of its input, which ends within a frame or behind one, and then with all of it."""
        if not self.is_cut:
            return [self]
        if self.words not in FRAMED or self.each or self.is_faulty() or any(ask.kind is None for ask in self.asks):
            raise Mistake("line %d: the input of this run is not cut" % self.line)
        if None in self.began:
            raise Mistake("line %d: what the files have before this run is not known" % self.line)
        files = dict(enumerate(self.began))
        return [self.front(size, files) for size in range(1, len(self.input()))] + [replace(self, files=files)]

    def front(self, size, files):
        """The run with so many bytes of its input: the frames that are whole are answered."""
        whole, end = [], 0
        for ask in self.asks:
            if end + len(ask.text) > size:
                break
            whole.append(ask)
            end += len(ask.text)
        left = self.input()[end:size]
        becomes = {} if any(ask.is_accepted() for ask in whole) else {file: (self.line, text) for file, text in files.items()}
        rest = [Ask(self.line, "", None, left)] if left else []
        return replace(self, files=files, asks=whole + rest, becomes=becomes, end="CutInput" if left else "Done")

    def lines(self):
        """The names of the lines that it sends; none of a run that answers frames or callers."""
        return LINED.get(self.words[0]) if self.words else None

    def leaves_unknown(self):
        """Whether what it writes is not known: where calls fail, and in a run of 'make' that began."""
        return self.is_faulty() or self.words[:1] == ["make"] and self.end not in ("Words", "AlreadyInit")

    def serves(self):
        """Whether it is a run of 'serve', whose requests come from callers, one each."""
        return self.words[:1] == ["serve"]


def lines_of(text):
    """The lines of a file, without comments."""
    found = []
    for number, whole in enumerate(text.splitlines(), 1):
        said = whole.split("#")[0].rstrip()
        if not said:
            continue
        if said[0].isspace():
            if not found:
                raise Mistake("line %d: an indented line with none above it" % number)
            found[-1].below.append((number, said.strip()))
        else:
            found.append(Line(number, said))
    return found


class Case:
    """A case while its lines are gone through: names of transactions, the states behind its blocks, and the files."""

    def __init__(self, name, line):
        self.name = name
        self.line = line
        self.names = {}
        self.profile = "small"
        self.first = 0
        self.states = []
        self.blocks = {}
        self.top = 0
        self.height = 0
        self.updates = 0
        self.answers = {}
        self.disk = Disk()
        self.told = {}
        self.runs = []
        self.last = None

    def begin(self, record):
        """A registry that was made with this start record."""
        self.profile = record.profile
        self.first = record.state.height + 1
        self.states = []
        self.blocks = {}
        self.keep(record.state)
        self.top = record.state.height

    def keep(self, state):
        """The state behind a block that was accepted. What was known of its hash stays until another block has it."""
        self.states.append(state)
        self.blocks[state.hash] = state

    def go_back(self):
        self.states.pop()

    def tip(self):
        if not self.states:
            raise Mistake("a block in words needs a start")
        return self.states[-1]

    def state_at(self, height):
        for state in self.states:
            if state.height == height:
                return state
        return None

    def block_hash(self, height):
        """The hash of a block of the branch, or of the one that the last request hands in."""
        found = self.state_at(height)
        asked = self.last.block if self.last else None
        if found is None and asked is not None and asked.height == height:
            found = asked
        if found is None:
            raise Mistake("there is no block %d" % height)
        return found.hash

    def block_of(self, block_hash):
        """The state behind the block of this hash, which may have been taken back; none of zeros."""
        if block_hash == ZERO_HASH:
            return None
        if block_hash not in self.blocks:
            raise Mistake("no block of the case has the hash %s" % block_hash.hex())
        return self.blocks[block_hash]

    def root_of_block(self, block_hash):
        state = self.block_of(block_hash)
        return state.root() if state else ZERO_HASH

    def stand(self, state):
        """What stands with this state behind the tip, as many commands as are on the disk, and the top."""
        low = max(self.first - 1, self.top - KEPT[self.profile])
        return Stand(state, self.disk.records, low, self.top)

    # ---- runs

    def run(self, line):
        """The run that goes on, or a first one."""
        if not self.runs:
            self.begin_run(line, ["feed"])
        return self.runs[-1]

    def begin_run(self, line, words):
        self.end_run()
        run = Run(line, words, self.told)
        run.began = list(self.disk.texts)
        run.stand = self.stand(self.states[-1]) if self.states else None
        self.told = {}
        self.last = None
        self.answers = {}
        self.runs.append(run)

    def end_run(self):
        """A run that went well leaves what its commands say; a registry is then made where it was to make one."""
        if not self.runs or self.runs[-1].is_over:
            return
        run = self.runs[-1]
        run.is_over = True
        if self.last is not None and self.last.record is not None and run.end == "Done":
            self.begin(self.last.record)
            self.disk.begin(self.last.record.text)
            run.stand = self.stand(self.tip())
        if run.leaves_unknown():
            self.disk.lose()
        for file, (_, text) in run.becomes.items():
            self.disk.find(file, text)
        for file, text in enumerate(self.disk.texts):
            if text is not None and file not in run.becomes:
                run.becomes[file] = (run.end_line or run.line, text)

    # ---- lines

    def take(self, line):
        """One line of the case."""
        word, _, rest = line.text.partition(" ")
        if word in RESERVED:
            raise Mistake("'%s' is kept for cases of later stages" % word)
        if word == "=":
            self.answer(line)
        elif word in TEXTS:
            TEXTS[word](self, line)
        elif word in LINES:
            words = Words(line.whole(), self)
            words.wants(word)
            LINES[word](self, words, line.number)
            words.ends()
        else:
            self.ask(line)

    def take_run(self, words, number):
        self.begin_run(number, words.rest())

    def take_start(self, words, _):
        """The files of a registry that was made with a start record."""
        self.end_run()
        record = read_record(words)
        self.begin(record)
        self.disk.begin(record.text)
        self.told = dict(enumerate(self.disk.texts))

    def take_file(self, words, number):
        """'NAME is BYTES' and 'NAME, but ..' before a run, 'NAME becomes BYTES' behind it."""
        name = words.next()
        if name not in NAMES:
            raise Mistake("a file is %s" % " or ".join(NAMES))
        file = NAMES.index(name)
        if words.takes("becomes"):
            self.run(number).becomes[file] = (number, words.hex())
            return
        self.end_run()
        text = self.told_text(words) if words.takes("is") else self.disk.texts[file]
        if text is None:
            raise Mistake("what this file has is not known")
        while words.takes(",", "but"):
            text = self.but_gate(words, text) if words.takes("its", "gate", "is") else but(words, text)
        self.disk.hold(file, text)
        self.told[file] = text

    def but_gate(self, words, text):
        """'its gate is BYTES': the byte of the journal's closed gate, and what stands behind it."""
        if self.disk.gate is None:
            raise Mistake("where the journal's closed gate stands is not known")
        return text[:self.disk.gate] + words.hex()

    def told_text(self, words):
        """'BYTES', or 'a snapshot' of the registry as it is."""
        return slot_text(words, self) if words.takes("a", "snapshot") else words.hex()

    def take_stop(self, words, number):
        run = self.run(number)
        if words.takes("each"):
            run.each.append("stop")
            return
        run.stop = words.number()
        run.is_behind_opening = words.takes("behind", "the", "opening")

    def take_cut(self, words, number):
        words.wants("each")
        self.run(number).is_cut = True

    def take_fails(self, words, number):
        run = self.run(number)
        if words.takes("each"):
            run.each.append("fail")
            return
        while words.peek().isdigit():
            run.fails.append(words.number())
        run.is_behind_opening = words.takes("behind", "the", "opening")

    def take_pick(self, words, number):
        """'Before', 'After' or 'Fill BYTE'; behind it ', with the last command', which was not answered."""
        pick = words.next()
        if pick not in PICKS:
            raise Mistake("a pick is Before, After or Fill")
        run = self.run(number)
        run.pick = [pick] + ([words.number()] if pick == "Fill" else [])
        if words.takes(",", "with", "the", "last", "command"):
            self.accept(run.asks[-1:])

    def take_ends(self, words, number):
        run = self.run(number)
        run.end_line, run.end = number, words.next()
        if run.end not in CODES:
            raise Mistake("'%s' is no status of the program" % run.end)
        if run.end in PLACED:
            words.wants("at")
            run.at = words.number()

    def words(self, line, has_entries):
        """A line's words; those below it are a part of them, but where they are entries."""
        return Words(line.text, self, [text for _, text in line.below]) if has_entries else Words(line.whole(), self)

    def served(self, number):
        """The run that goes on, which is one of 'serve'."""
        run = self.run(number)
        if not run.serves() or run.is_over:
            raise Mistake("a caller stands in a run of 'serve'")
        return run

    def take_caller(self, line):
        """'caller TEXT': a caller that sends this text; 'caller each front of TEXT': one for each of its fronts, which is sent
        nothing."""
        self.last = None
        callers, words = self.served(line.number).callers, line.whole().partition(" ")[2]
        if not words.startswith(FRONTS):
            callers.append(Caller(line.number, text_of_words(words)))
            return
        text = text_of_words(words[len(FRONTS):])
        callers += [Caller(line.number, text[:size], line.number, b"") for size in range(len(text))]

    def take_reply(self, line):
        """'reply nothing', 'reply STATUS JSON' or 'reply TEXT': what the last caller is sent."""
        callers = self.served(line.number).callers
        if not callers or callers[-1].reply is not None:
            raise Mistake("a reply stands behind its caller")
        callers[-1].reply_line = line.number
        callers[-1].reply = reply_of_words(line.whole().partition(" ")[2])

    def ask(self, line):
        run = self.run(line.number)
        if run.is_over:
            raise Mistake("files are told before the run that begins with them")
        request = self.last = read_request(self.words(line, line.text.split()[0] == WITH_ENTRIES), self)
        if run.serves() and (request.kind is None or request.steps):
            raise Mistake("a caller asks for one request")
        steps = request.steps or [Step(line.whole(), request.text)]
        run.asks += [Ask(line.number, step.words, request.kind, step.text, after=step.after) for step in steps]
        if run.serves():
            run.callers.append(Caller(line.number, request_text(request.kind, request.text[HEAD:])))

    def answer(self, line):
        run = self.run(line.number)
        if run.lines():
            run.asks.append(self.lined(line, run.lines()))
            return
        if self.last is None or not run.asks or run.asks[-1].answer is not None:
            raise Mistake("an answer stands behind its request")
        wanted = self.wanted(line)
        asks = run.asks[-len(wanted):]
        for ask, answer in zip(asks, wanted):
            ask.answer_line, ask.answer = line.number, answer
            self.answers[ask.text] = answer
        if run.serves():
            caller = run.callers[-1]
            caller.reply_line, caller.reply = line.number, reply_to(asks[-1].kind, asks[-1].text[HEAD:], answer) if answer else b""
        if answer[:1] == b"\0":
            self.accept(asks)

    def accept(self, asks):
        """What was asked last is answered Ok: a command is on the disk then."""
        self.last.accepted()
        for ask in asks:
            if ask.kind in COMMANDS:
                ask.stand = self.stand_behind(ask)

    def stand_behind(self, ask):
        self.disk.append(ask.kind, ask.text[HEAD:])
        state = ask.after or (self.tip() if self.last.moves else None)
        if state is None:
            return None
        self.top = max(self.top, state.height)
        return self.stand(state)

    def accept_last(self):
        """Where no answers are told, as in a sample, each block is taken to be accepted."""
        if self.last is not None and self.last.kind is not None and self.runs[-1].asks[-1].answer is None:
            count = max(1, len(self.last.steps))
            self.accept(self.runs[-1].asks[-count:])
            self.last = None

    def lined(self, line, names):
        """'NAME VALUE, ..' for each of these lines; or, of an audit, 'right' for what the case's words say."""
        words = Words(line.whole(), self)
        words.wants("=")
        if words.takes("nothing"):
            text = b""
        elif words.takes("bytes"):
            text = words.hex()
        elif names == AUDIT and words.takes("right"):
            text = audit_text(self.tip(), self.disk.records)
        else:
            text = "".join(self.named_line(words, name) for name in names).encode()
        words.ends()
        return Ask(line.number, " ".join(self.runs[-1].words), None, b"", line.number, text)

    def named_line(self, words, name):
        if name != AUDIT[0]:
            words.wants(",")
        words.wants(name)
        if name not in HASHES:
            return "%s %d\n" % (name, words.number())
        is_right = name == "root" and words.takes("right")
        return "%s %s\n" % (name, (self.tip().root() if is_right else words.hash()).hex())

    def wanted(self, line):
        """The answers to what was asked last. Below that to a list stand its entries."""
        has_entries = self.last.kind in (LIST, PAGE, DIFF) and not line.text.startswith("= bytes")
        words = self.words(line, has_entries)
        words.wants("=")
        if self.last.steps:
            words.wants("each")
            status = words.next()
            words.ends()
            return [self.step_answer(step, status) for step in self.last.steps]
        if words.takes("as", "before"):
            words.ends()
            return [self.answered_before(self.last.text)]
        return [Wanted(words, self.last.kind, self.last.drafted).frame()]

    def step_answer(self, step, status):
        if step.answer[:1] != bytes([NUMBERS.get(status, 255)]):
            raise Mistake("'%s' is not answered %s" % (step.words, status))
        return step.answer

    def answered_before(self, text):
        if text not in self.answers:
            raise Mistake("this was not asked before")
        return self.answers[text]

    def finish(self, needs_answers):
        self.end_run()
        if self.told:
            raise Mistake("files are told, and no run begins with them")
        for run in self.runs:
            for ask in run.asks:
                if ask.answer is None and ask.kind is not None and needs_answers:
                    raise Mistake("line %d: no answer is told" % ask.line)
            for caller in run.callers:
                if caller.reply is None and needs_answers:
                    raise Mistake("line %d: no reply is told" % caller.line)
            run.end_line = run.end_line or self.line


TEXTS = {"caller": Case.take_caller, "reply": Case.take_reply}
LINES = {"run": Case.take_run, "start": Case.take_start, "file": Case.take_file, "stop": Case.take_stop,
         "cut": Case.take_cut, "fails": Case.take_fails, "pick": Case.take_pick, "ends": Case.take_ends}


def take_lines(case, lines, needs_answers):
    for line in lines:
        try:
            if not needs_answers and not line.text.startswith("="):
                case.accept_last()
            case.take(line)
        except (Mistake, ValueError, KeyError, IndexError, OverflowError) as mistake:
            raise Mistake("line %d: %s" % (line.number, mistake)) from mistake


def read_cases(text, name, needs_answers=True):
    """The cases of a file. What stands before the first 'case' begins each of them, and what stands there behind
    'finally' ends each. A file without 'case' is one case of the file's name."""
    begin, end, found = [], [], []
    part = begin
    for line in lines_of(text):
        word, _, rest = line.text.partition(" ")
        if line.text == "finally" and part is begin:
            part = end
        elif word == "case":
            if any(rest == other for other, _, _ in found):
                raise Mistake("line %d: a second case of this name" % line.number)
            found.append((rest, line.number, part := []))
        else:
            part.append(line)
    cases = []
    for title, number, lines in found or [(name, 1, [])]:
        case = Case(title, number)
        take_lines(case, begin + lines + end, needs_answers)
        case.finish(needs_answers)
        cases.append(case)
    return cases
