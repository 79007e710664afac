"""Headers and diffs that are handed to a light client, in words. What these do not say is right."""

from answers import read_entries
from blocks import read_field
from light import diff_between, entries_of, read_diff, root_of
from transactions import changed
from wire import HASH_SIZE, entry_text, header_text
from words import Mistake, bytes_of


class Header:
    """A block's header while its words are read: 'HASH', and 'with' what is told in the place of what is right."""

    def __init__(self, words, case):
        self.hash = words.hash()
        known = case.blocks.get(self.hash)
        self.fields = dict(known.header) if known else {}
        changed(self, words)

    def change(self, words):
        return read_field(words, self.fields)

    def body(self):
        if "merkle" not in self.fields:
            raise Mistake("no block of the case has this hash, and no root of its transactions is told")
        return self.hash + header_text(**self.fields)


class Handed:
    """A diff while its words are read: 'BASE BLOCK', 'with' what is told in the place of what is right, behind a comma
    'deleted' and other ids, and below it other entries; these stand in the order in which they are told."""

    def __init__(self, words, case):
        self.case = case
        base = case.block_of(words.hash())
        target = case.block_of(words.hash())
        if target is None or target.coinbase is None:
            raise Mistake("a diff leads to a block of the case")
        self.diff = diff_between(base, target)
        self.text = None
        changed(self, words)
        if words.takes(",", "deleted"):
            self.diff.deleted = words.ids()
        if words.below:
            self.diff.entries = [entry_text(entry) for line in words.below for entry in read_entries(line)]

    def change(self, words):
        diff = self.diff
        if words.takes("base"):
            diff.base = words.hash()
        elif words.takes("block"):
            diff.block = words.hash()
        elif words.takes("total"):
            diff.total = words.number()
        elif words.takes("hashes"):
            text = bytes_of(words.next())
            diff.hashes = [text[at:at + HASH_SIZE] for at in range(0, len(text), HASH_SIZE)]
        elif words.takes("flags"):
            diff.flags = bytes_of(words.next())
        elif words.takes("coinbase"):
            diff.coinbase = words.name()
        elif words.takes("alone"):
            diff.total, diff.hashes, diff.flags = 1, [diff.coinbase.id()], b"\1"
        else:
            return False
        return True

    def hands(self, text):
        """This is what is handed in, with what was cut, added or changed."""
        self.text = text

    def right(self, name, _):
        """The root that the coinbase tells, or that of the list to which the diff leads."""
        diff = read_diff(self.text)
        if name == "committed":
            return diff.committed()
        return root_of(diff.changed(entries_of(self.case.block_of(diff.base))))
