"""Blocks in words. What a block's words do not say is right: its roots, the block before it, and its verdicts."""

from model import Working
from transactions import (Coinbase, Draft, Raw, changed, due_commitments, finish_update, read_commitment,
                          read_ordinary, read_registrations, read_special, read_update)
from wire import REVOKE, Tx, block_text, header_text, merkle_root, verdict_text
from words import Mistake

NUMBERS = ("version", "time", "bits", "nonce")


def read_field(words, fields):
    """A field of a header, by its name; whether there is one."""
    name = words.peek()
    if name not in ("previous", "merkle") + NUMBERS:
        return False
    words.next()
    fields[name] = words.number() if name in NUMBERS else words.hash()
    return True


class Block:
    """A block while its words are read: 'block HEIGHT [with ..][: ITEM, ITEM, ..]'."""

    def __init__(self, words, case):
        self.case = case
        self.height = words.number()
        case.height = self.height
        self.hash = bytes([self.height % 256]) * 32
        self.header = {"previous": case.tip().hash}
        self.coinbase = Coinbase(self.height)
        self.has_coinbase = True
        self.drafts = []
        self.verdicts = []
        changed(self, words)
        if words.takes(":"):
            self.items(words)

    def change(self, words):
        if words.takes("hash"):
            self.hash = words.hash()
            return True
        return read_field(words, self.header)

    def items(self, words):
        self.item(words)
        while words.peek() == "," and words.peek(1) != "but":
            words.wants(",")
            self.item(words)

    def item(self, words):
        case = self.case
        if words.takes("register"):
            self.drafts += read_registrations(words, case)
        elif words.takes("update"):
            self.drafts.append(read_update(words, case))
        elif words.takes("revoke"):
            self.drafts.append(finish_update(REVOKE, words, case))
        elif words.takes("ordinary"):
            self.drafts.append(read_ordinary(words, case))
        elif words.takes("special"):
            self.drafts.append(read_special(words, case))
        elif words.takes("duties"):
            self.drafts += due_commitments(case)
        elif words.takes("null"):
            self.drafts.append(read_commitment(words, case, True))
        elif words.takes("commitment"):
            self.drafts.append(read_commitment(words, case, False))
        elif words.takes("coinbase"):
            changed(self.coinbase, words)
        elif words.takes("no", "coinbase"):
            self.has_coinbase = False
        elif words.takes("another", "coinbase"):
            name = words.next() if words.takes("as") else None
            other = changed(Coinbase(self.height), words)
            other.commit(bytes(32))
            self.drafts.append(other)
            if name:
                case.names[name] = other.tx
        elif words.takes("again"):
            self.drafts.append(Draft(words.name(), None))
        elif words.takes("transaction"):
            self.drafts.append(Draft(Raw(words.hex()), None))
        elif words.takes("verdict"):
            self.verdicts.append((words.number(), words.number(), words.hash(), words.number()))
        elif words.peek(1) == "ordinary":
            self.fillers(words)
        else:
            raise Mistake("'%s' is no item of a block" % words.peek())

    def fillers(self, words):
        """'N ordinary': so many transactions without inputs and outputs, which differ by their lock times."""
        count = words.number()
        words.wants("ordinary")
        self.drafts += [Draft(Tx(lock=lock), None) for lock in range(1, count + 1)]

    def due_verdict(self, place, draft, working):
        """The verdict on a transaction, as its words have it."""
        due = draft.due_verdict(working) if hasattr(draft, "due_verdict") else None
        said = draft.verdict
        kind = due[0] if said.kind is None and due else said.kind
        key = due[1] if said.key is None and due else said.key
        if not said.is_given or kind is None:
            return None
        return place, kind, key if key is not None else bytes(32), said.valid

    def spent(self, working):
        """Goes through inputs and outputs. A coinbase's id is known once its root is."""
        first = [self.coinbase.tx] if self.has_coinbase else []
        others = [draft.tx for draft in self.drafts]
        for tx in first:
            working.take(tx)
        for tx in others:
            working.take(tx)
            working.give(tx)
        self.root = working.root()
        self.coinbase.commit(self.root)
        for tx in first:
            working.give(tx)
        return first + others

    def finish(self):
        """The block's bytes; the state that it leaves, if it is accepted, stays at hand."""
        working = Working(self.case.tip(), self.hash)
        verdicts = []
        for place, draft in enumerate(self.drafts, 1):
            verdict = self.due_verdict(place, draft, working)
            if verdict:
                verdicts.append(verdict)
            working.apply(draft.tx)
        txs = self.spent(working)
        self.ids_root = merkle_root([tx.id() for tx in txs])
        self.after = working.state(self.hash)
        self.after.coinbase = txs[0] if txs else None
        self.after.ids = tuple(tx.id() for tx in txs)
        self.after.header = {"merkle": self.ids_root, **self.header}
        verdicts = [verdict_text(*verdict) for verdict in self.verdicts or verdicts]
        return block_text(self.hash, header_text(**self.after.header), [tx.text() for tx in txs], verdicts)

    def right(self, name, rule):
        """The root that the block should have told: that of its ids, or that of the list behind it."""
        if name != "computed":
            raise Mistake("'right' is said of a root that a block was to tell")
        return self.ids_root if rule == "BadMerkle" else self.root
