"""Words of a line, and the values that they name. docs/CASES.md is the page on them."""

import re

from wire import dsha, key_script, mapped, script_script

STOPS = (",", ":")
# Words that may stand before a transaction's name.
TITLES = ("register", "commitment")


class Mistake(Exception):
    """A line that is no line of a case, or bytes that are no answers."""


def split(text):
    """The words of a line; a comma or a colon at a word's end is a word of its own."""
    words = []
    for word in text.split():
        end = []
        while word and word[-1] in STOPS:
            end.insert(0, word[-1])
            word = word[:-1]
        words += ([word] if word else []) + end
    return words


def bytes_of(word):
    """Pieces of hex digits joined by '+'; 'HEX*COUNT' is a piece so many times."""
    text = b""
    for piece in word.split("+"):
        digits, _, times = piece.partition("*")
        try:
            text += bytes.fromhex(digits) * int(times or 1)
        except ValueError:
            raise Mistake("no hex digits: %s" % word) from None
    return text


def sized(word, size):
    """So many bytes; one byte stands for so many of it."""
    text = bytes_of(word)
    if len(text) == 1:
        text *= size
    if len(text) != size:
        raise Mistake("%d bytes are wanted, and %s has %d" % (size, word, len(text)))
    return text


class Words:
    """The words of one line, read from the left, and lines below it, where these are lines of their own. Names are those of
    the case's transactions; its states tell the hashes of its blocks."""

    def __init__(self, text, case, below=()):
        self.words = split(text)
        self.at = 0
        self.names = case.names
        self.case = case
        self.below = [Words(line, case) for line in below]

    def is_done(self):
        return self.at == len(self.words)

    def peek(self, ahead=0):
        place = self.at + ahead
        return self.words[place] if place < len(self.words) else ""

    def next(self):
        if self.is_done():
            raise Mistake("a word is missing at the end")
        self.at += 1
        return self.words[self.at - 1]

    def rest(self):
        """All words that are left."""
        rest, self.at = self.words[self.at:], len(self.words)
        return rest

    def takes(self, *words):
        """Whether these words come next; then they are passed."""
        if self.words[self.at:self.at + len(words)] != list(words):
            return False
        self.at += len(words)
        return True

    def wants(self, *words):
        if not self.takes(*words):
            raise Mistake("'%s' is wanted in the place of '%s'" % (" ".join(words), self.peek()))

    def ends(self):
        if not self.is_done():
            raise Mistake("'%s' is not understood here" % " ".join(self.words[self.at:]))

    # ---- values

    def number(self):
        word = self.next()
        try:
            return int(word)
        except ValueError:
            raise Mistake("a number is wanted in the place of '%s'" % word) from None

    def sized(self, size):
        return sized(self.next(), size)

    def hex(self):
        """Bytes of any number, to the next comma or the end."""
        text = b""
        while self.peek() not in ("", ",", "and"):
            text += bytes_of(self.next())
        return text

    def name(self):
        """A transaction of the case by its name; 'register' or 'commitment' may stand before it."""
        self.at += self.peek() in TITLES
        word = self.next()
        if word not in self.names:
            raise Mistake("no transaction has the name '%s'" % word)
        return self.names[word]

    def is_named(self):
        return self.peek(1 if self.peek() in TITLES else 0) in self.names

    def id(self):
        """The id of a transaction by its name, or a hash."""
        if self.is_named():
            return self.name().id()
        word = self.next()
        try:
            return sized(word, 32)
        except Mistake:
            raise Mistake("'%s' is neither a transaction of the case nor a hash" % word) from None

    def ids(self):
        """Ids with a comma between two of them."""
        found = [self.id()]
        while self.peek() == "," and self.peek(1) != "but":
            self.wants(",")
            found.append(self.id())
        return found

    def hash(self):
        """'of NAME' for a transaction's id, 'digest of HEX' for that of a key, 'digest of the members of NAME' for that of
        a commitment's members, 'block HEIGHT' for the hash of a block of the branch, or 32 bytes."""
        if self.takes("digest", "of"):
            return self.members()["digest"] if self.peek() == "the" else dsha(bytes_of(self.next()))
        if self.takes("block"):
            return self.case.block_hash(self.number())
        return self.id() if self.takes("of") else self.sized(32)

    def members(self):
        """'the members of NAME': a commitment, which has its members' ids and the digest of their keys."""
        self.wants("the", "members", "of")
        return self.name().values

    def point(self):
        """'output INDEX of NAME', or 'HASH:INDEX'."""
        if self.takes("output"):
            index = self.number()
            self.wants("of")
            return self.id(), index
        digits, colon, index = self.next().partition(":")
        if not colon or not index.isdigit():
            raise Mistake("an outpoint is HASH:INDEX, or 'output INDEX of NAME'")
        return sized(digits, 32), int(index)

    def script(self):
        """'key BYTES' or 'script BYTES' of 20 bytes, 'nothing', or 'bytes HEX'."""
        if self.takes("key"):
            return key_script(self.sized(20))
        if self.takes("script"):
            return script_script(self.sized(20))
        if self.takes("nothing"):
            return b""
        self.wants("bytes")
        return bytes_of(self.next())

    def address(self):
        """An IPv4 address, or 16 bytes."""
        word = self.next()
        if re.fullmatch(r"\d+(\.\d+){3}", word):
            return mapped(*(int(part) for part in word.split(".")))
        return sized(word, 16)

    def duffs(self):
        """A value; 'DASH' behind it counts 100,000,000 duffs each."""
        value = self.number()
        return value * 100_000_000 if self.takes("DASH") else value
