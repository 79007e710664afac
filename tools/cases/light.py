"""A light client: diffs and their texts, and what a client answers to each and holds then.

It is a model of its own: it reads a diff field by field, and a list is a dictionary of entries by their hashes."""

from dataclasses import dataclass, field

from wire import (COINBASE, HASH_SIZE, NO_INDEX, ZERO_HASH, Input, Output, Tx, blob, branch_flags, dsha, entry_text,
                  first_branch, frame, listed, merkle_root, number, tree_depth)

ENTRY_SIZE = 151
LONGEST_PAYLOAD = 10_000
MOST_HEADERS = 65_536
# The statuses of a client's answers; those of faults stand in the order in which they are looked for.
OK = 0
DIFF_FORM, WRONG_BASE, UNKNOWN_HEADER, BAD_BRANCH, BAD_COINBASE, BAD_ROOT, HEADER_DIFFERS, HEADERS_FULL = range(21, 29)
# Where a header of 80 bytes has the root of its block's transactions.
ROOT_IN_HEADER = slice(36, 68)


class Departs(ValueError):
    """A text that is out of its form, from this place on."""

    def __init__(self, place):
        super().__init__("out of its form at %d" % place)
        self.place = place


class Fields:
    """A text, read field by field from its start."""

    def __init__(self, text):
        self.text = text
        self.at = 0

    def take(self, size):
        if size > len(self.text) - self.at:
            raise Departs(self.at)
        self.at += size
        return self.text[self.at - size:self.at]

    def number(self, size):
        return int.from_bytes(self.take(size), "little")

    def compact(self, most=None):
        """A count or a length in its shortest spelling, which is at most this."""
        begin = self.at
        try:
            value = self.number(1)
            if value >= 0xFD:
                size = 1 << value - 0xFC
                value = self.number(size)
                if value < (0xFD if size == 2 else 1 << 4 * size):
                    raise Departs(begin)
        except Departs:
            raise Departs(begin) from None
        if most is not None and value > most:
            raise Departs(begin)
        return value

    def blob(self, most=None):
        return self.take(self.compact(most))

    def items(self, read):
        return [read() for _ in range(self.compact())]

    def ascending(self, size):
        """Items of this size, each one above that before it by its hash, which it begins with."""
        found = []
        for _ in range(self.compact()):
            begin = self.at
            item = self.take(size)
            is_entry = size == ENTRY_SIZE
            if found and item[:HASH_SIZE] <= found[-1][:HASH_SIZE] or is_entry and item[-1] > 1:
                raise Departs(begin)
            found.append(item)
        return found

    def input(self):
        return Input((self.take(HASH_SIZE), self.number(4)), self.blob(), self.number(4))

    def output(self):
        return Output(self.number(8), self.blob())

    def transaction(self):
        tx = Tx(self.number(2), self.number(2), self.items(self.input), self.items(self.output), self.number(4))
        if tx.has_payload():
            tx.payload = self.blob(LONGEST_PAYLOAD)
        return tx

    def ends(self):
        if self.at < len(self.text):
            raise Departs(self.at)


@dataclass
class Diff:
    """A diff, field by field; entries are their texts."""
    base: bytes
    block: bytes
    total: int
    hashes: list
    flags: bytes
    coinbase: Tx
    deleted: list = field(default_factory=list)
    entries: list = field(default_factory=list)

    def text(self):
        return (self.base + self.block + number(self.total, 4) + listed(self.hashes) + blob(self.flags)
                + self.coinbase.text() + listed(self.deleted) + listed(self.entries))

    def is_proved_by(self, root):
        """Whether the branch shows that the coinbase is the first transaction of a block with this root."""
        if self.total == 0 or len(self.hashes) != tree_depth(self.total) + 1:
            return False
        if self.flags != branch_flags(self.total) or self.hashes[0] != self.coinbase.id():
            return False
        found = self.hashes[0]
        for sibling in self.hashes[1:]:
            found = dsha(found + sibling)
        return found == root

    def committed(self):
        """The root of the list that the coinbase tells, or None where it is none that tells one."""
        tx = self.coinbase
        if [i.point for i in tx.inputs] != [(ZERO_HASH, NO_INDEX)] or (tx.version, tx.kind) != (3, COINBASE):
            return None
        if len(tx.payload) != 38 or tx.payload[:2] != number(1, 2):
            return None
        return tx.payload[6:]

    def changed(self, entries):
        """A list after this diff, where it was this one."""
        after = {} if self.base == ZERO_HASH else dict(entries)
        for gone in self.deleted:
            after.pop(gone, None)
        for entry in self.entries:
            after[entry[:HASH_SIZE]] = entry
        return after


def read_diff(text):
    """The diff whose text this is."""
    fields = Fields(text)
    diff = Diff(fields.take(HASH_SIZE), fields.take(HASH_SIZE), fields.number(4),
                fields.items(lambda: fields.take(HASH_SIZE)), fields.blob(), fields.transaction(),
                fields.ascending(HASH_SIZE), fields.ascending(ENTRY_SIZE))
    fields.ends()
    return diff


def entries_of(state):
    """The entries of a state's list, by their hashes; none of no state."""
    return {key: entry_text(row.entry()) for key, row in state.rows.items()} if state else {}


def diff_between(base, target):
    """The diff from the list of a state, or from the empty one where that is None, to that of another."""
    before, after = entries_of(base), entries_of(target)
    gone = sorted(key for key in before if key not in after)
    new = [after[key] for key in sorted(after) if before.get(key) != after[key]]
    return Diff(base.hash if base else ZERO_HASH, target.hash, *first_branch(list(target.ids)), target.coinbase, gone, new)


def root_of(entries):
    """The root of a list."""
    return merkle_root([dsha(entries[key]) for key in sorted(entries)])


@dataclass
class Client:
    """What a light client holds: the roots of transactions by blocks, the block whose list it has, and that list."""
    headers: dict = field(default_factory=dict)
    held: bytes = ZERO_HASH
    entries: dict = field(default_factory=dict)

    def shown(self):
        return frame(OK, self.held + root_of(self.entries) + number(len(self.entries), 4))

    def add_header(self, block, header):
        """The answer to a block's header of 80 bytes."""
        root = header[ROOT_IN_HEADER]
        held = self.headers.get(block)
        if held is None and len(self.headers) == MOST_HEADERS:
            return frame(HEADERS_FULL, b"")
        if held is not None and held != root:
            return frame(HEADER_DIFFERS, held)
        self.headers[block] = root
        return frame(OK, b"")

    def apply(self, text):
        """The answer to the text of a diff."""
        try:
            diff = read_diff(text)
        except Departs as fault:
            return frame(DIFF_FORM, number(fault.place, 4))
        if diff.base not in (ZERO_HASH, self.held):
            return frame(WRONG_BASE, self.held)
        if diff.block not in self.headers:
            return frame(UNKNOWN_HEADER, b"")
        if not diff.is_proved_by(self.headers[diff.block]):
            return frame(BAD_BRANCH, b"")
        committed = diff.committed()
        if committed is None:
            return frame(BAD_COINBASE, b"")
        after = diff.changed(self.entries)
        computed = root_of(after)
        if computed != committed:
            return frame(BAD_ROOT, committed + computed)
        self.held, self.entries = diff.block, after
        return self.shown()
