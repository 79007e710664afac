"""Answers: from words to bytes, and from bytes to words."""

import ipaddress

from light import ENTRY_SIZE, Diff, diff_between
from wire import (NO_SERVICE, commitment_text, entry_text, first_branch, frame, list_root, number, pay_of, pay_text,
                  point_text, service_text)
from words import Mistake

CONNECT, DISCONNECT, TIP, LIST, ROW, PAYEES, MEMBERS, QUORUMS, DIFF, PIN, PAGE, RELEASE = range(1, 13)
# Those of a light client.
HEADER, APPLY, SHOW = range(16, 19)
NO_TRANSACTION = 0xFFFFFFFF
ROW_SIZE = 293
# What stands in a commitment behind its bits: a key, a hash and two signatures.
KEYS_SIZE = 48 + 32 + 96 + 96

# Each status, and the fields of its body with their sizes; a field of 32 bytes is a hash. Those of Ok are by kind.
STATUSES = {
    0: ("Ok", ()), 1: ("Memory", ()), 2: ("BadRequest", (("at", 4),)), 3: ("NotHeld", (("low", 4), ("high", 4))),
    4: ("NoSuch", ()), 5: ("BaseAbove", ()), 6: ("PinsFull", ()), 7: ("PinUnknown", ()), 8: ("Refused", ()),
    9: ("NotTip", (("tip", 32),)), 10: ("AtStart", ()), 11: ("TooDeep", (("floor", 4),)), 12: ("JournalFull", ()),
    21: ("DiffForm", (("at", 4),)), 22: ("WrongBase", (("held", 32),)), 23: ("UnknownHeader", ()), 24: ("BadBranch", ()),
    25: ("BadCoinbase", ()), 26: ("BadRoot", (("committed", 32), ("computed", 32))), 27: ("HeaderDiffers", (("root", 32),)),
    28: ("HeadersFull", ()),
}
NUMBERS = {name: number for number, (name, _) in STATUSES.items()}
HELD_FIELDS = (("held", 32), ("root", 32), ("count", 4))
OK_FIELDS = {
    CONNECT: (("height", 4), ("hash", 32)), DISCONNECT: (("height", 4), ("hash", 32)),
    TIP: (("height", 4), ("hash", 32), ("low", 4), ("top", 4)), LIST: (("height", 4), ("hash", 32)),
    PIN: (("pin", 4),), PAGE: (), RELEASE: (), HEADER: (), APPLY: HELD_FIELDS, SHOW: HELD_FIELDS,
}
HASH_LISTS = (PAYEES, MEMBERS)

# The rules that a block may break, and the fields that a refusal tells, each with its size.
RULES = {
    1: ("ZeroHash", ()), 2: ("HashKnown", (("height", 4),)), 3: ("NotNext", (("tip", 32),)), 4: ("HeightLimit", ()),
    6: ("NoCoinbase", ()), 7: ("SecondCoinbase", ()), 8: ("DuplicateTx", ()), 9: ("BadMerkle", (("computed", 32),)),
    10: ("VerdictForm", (("position", 4),)), 11: ("CbPayload", ()), 12: ("CbVersion", (("found", 2),)),
    13: ("CbHeight", (("found", 4),)), 20: ("UnknownType", (("found", 2),)), 21: ("PayloadVersion", (("found", 2),)),
    22: ("PayloadForm", (("place", 4),)), 23: ("InputsHash", ()), 30: ("RegType", ()), 31: ("RegMode", ()),
    32: ("NullKey", ()), 33: ("PayoutForm", ()), 34: ("PayoutKey", ()), 35: ("RewardRange", ()),
    36: ("AddressForm", ()), 37: ("SigPresence", ()), 38: ("CollateralIndex", ()), 39: ("CollateralValue", ()),
    40: ("CollateralScript", ()), 41: ("CollateralUnknown", ()), 42: ("CollateralKeyless", ()),
    43: ("CollateralKey", ()), 44: ("DupOwner", (("row", 32),)), 45: ("DupOperator", (("row", 32),)),
    46: ("DupAddress", (("row", 32),)), 50: ("NoRow", ()), 51: ("UpAddress", ()), 52: ("UpDupAddress", (("row", 32),)),
    53: ("OperatorPayoutForm", ()), 54: ("OperatorPayoutUnasked", ()), 55: ("NoOperator", ()), 56: ("UpMode", ()),
    57: ("UpNullKey", ()), 58: ("UpPayoutForm", ()), 59: ("UpPayoutKey", ()), 60: ("UpDupOperator", (("row", 32),)),
    61: ("UpCollateralKey", ()), 62: ("RevokeReason", ()), 63: ("QuorumVersion", (("found", 2),)),
    64: ("QuorumType", (("found", 1),)), 65: ("QuorumHeight", (("found", 4),)), 66: ("QuorumWindow", ()),
    67: ("QuorumBase", (("base", 32),)), 68: ("QuorumSecond", ()), 69: ("QuorumDone", ()), 70: ("QuorumBits", ()),
    71: ("QuorumFew", ()), 73: ("VerdictMissing", ()), 74: ("VerdictOther", (("wanted", 32),)), 75: ("VerdictNo", ()),
    80: ("QuorumMissing", (("type", 1),)), 81: ("TooManyChanges", ()), 82: ("TooManyMasternodes", ()),
    83: ("TooManyOutputs", ()), 84: ("CbRoot", (("committed", 32), ("computed", 32))),
}
RULE_NUMBERS = {name: number for number, (name, _) in RULES.items()}


# ---- from words to bytes

def read_entries(words):
    """Entries of a list: that of a registration by its name, or those from one test registration to another, 'with'
    what differs."""
    txs = [words.name()]
    if words.takes("to"):
        first, last = int(words.words[words.at - 2]), words.number()
        txs += [words.names[str(k)] for k in range(first + 1, last + 1)]
    found = [{"hash": tx.id(), "confirmed": bytes(32), "banned": tx.values["service"] == NO_SERVICE,
              **{name: tx.values[name] for name in ("service", "operator", "voting")}} for tx in txs]
    begin = words.at
    for entry in found:
        words.at = begin
        if words.takes("with"):
            while change_entry(entry, words) and words.takes("and"):
                pass
    words.ends()
    return found


def change_entry(told, words):
    """What may differ from the registration in an entry or a row."""
    if "paid" in told and change_row(told, words):
        return True
    for name, size in (("owner", 20), ("operator", 48), ("voting", 20)):
        if name in told and words.takes(name):
            told[name] = words.sized(size)
            return True
    if words.takes("confirmed"):
        told["confirmed"] = words.hash()
    elif words.takes("no", "operator"):
        told["operator"] = bytes(48)
    elif words.takes("no", "service"):
        told["service"] = NO_SERVICE
    elif words.takes("address"):
        told["service"] = (words.address(), told["service"][1])
    elif words.takes("port"):
        told["service"] = (told["service"][0], words.number())
    elif "paid" not in told and words.takes("banned"):
        told["banned"] = True
    elif "paid" not in told and words.takes("valid"):
        told["banned"] = False
    else:
        return False
    return True


def change_row(row, words):
    for name in ("registered", "paid", "revived", "banned", "penalty", "reason", "reward"):
        if words.takes(name):
            row[name] = words.number()
            return True
    if words.takes("payout"):
        row["payout"] = pay_of(words.script())
    elif words.takes("operator", "payout"):
        row["operator payout"] = pay_of(words.script())
    elif words.takes("collateral"):
        row["collateral"] = words.point()
    elif words.takes("pays", "to"):
        row["script"] = pay_of(words.script())
    else:
        return False
    return True


class Wanted:
    """The words of an answer to a request of this kind, which was drafted as this where it is a block or a diff."""

    def __init__(self, words, kind, drafted):
        self.words = words
        self.kind = kind
        self.drafted = drafted
        self.rule = None
        self.held = None

    def frame(self):
        """The frame of the answer, or nothing where none is sent."""
        words = self.words
        if words.takes("nothing"):
            return b""
        if words.takes("bytes"):
            return words.hex()
        word = words.next()
        if word not in NUMBERS:
            raise Mistake("'%s' is no status" % word)
        self.status = NUMBERS[word]
        if self.status == 0:
            body = self.ok()
        elif self.status == NUMBERS["Refused"]:
            body = self.refused()
        else:
            body = self.fields(STATUSES[self.status][1])
        words.ends()
        return frame(self.status, body)

    def fields(self, wanted):
        """'NAME VALUE', with a comma between two of them."""
        text = b""
        for place, (name, size) in enumerate(wanted):
            if place:
                self.words.wants(",")
            self.words.wants(name)
            text += self.value(name, size)
        return text

    def value(self, name, size):
        if size != 32:
            return number(self.words.number(), size)
        if self.words.takes("right"):
            return self.right(name)
        value = self.words.hash()
        if name == "held":
            self.held = value
        return value

    def right(self, name):
        """The root of the list that is held, or of what was asked: a block's ids, the list behind it, that behind a diff."""
        if name == "root" and self.held is not None:
            return self.words.case.root_of_block(self.held)
        if self.drafted is None:
            raise Mistake("'right' is said of a list that is held, and of a root that a block or a diff was to tell")
        return self.drafted.right(name, RULES[self.rule][0] if self.rule else None)

    def refused(self):
        word = self.words.next()
        self.rule = int(word) if word.isdigit() else RULE_NUMBERS.get(word)
        if self.rule not in RULES:
            raise Mistake("'%s' is no rule" % word)
        if self.words.takes("(rule"):
            self.words.next()
        place = self.words.number() if self.words.takes("at") else NO_TRANSACTION
        fields = RULES[self.rule][1]
        if fields:
            self.words.wants(",")
        return number(self.rule, 1) + number(place, 4) + self.fields(fields)

    def ok(self):
        if self.kind in HASH_LISTS:
            hashes = self.hashes()
            return number(len(hashes), 2) + b"".join(hashes)
        if self.kind == ROW:
            return self.row()
        if self.kind == QUORUMS:
            texts = self.commitments()
            return number(len(texts), 2) + b"".join(texts)
        if self.kind == DIFF:
            return self.diff()
        if self.kind not in OK_FIELDS:
            raise Mistake("no words are known for an Ok to this request")
        text = self.fields(OK_FIELDS[self.kind])
        if self.kind in (LIST, PAGE):
            entries = self.listed()
            texts = b"".join(entry_text(entry) for entry in entries)
            if self.kind == PAGE:
                return number(len(entries), 2) + texts
            return text + list_root(entries) + number(len(entries), 4) + texts
        return text

    def hashes(self):
        if self.words.peek() == "the":
            return self.words.members()["members"]
        return [] if self.words.is_done() else self.words.ids()

    def listed(self):
        """The entries below the answer, in the order of their hashes."""
        return sorted((entry for line in self.words.below for entry in read_entries(line)), key=lambda e: e["hash"])

    def diff(self):
        """'from HASH to HASH', behind a comma 'deleted' and the masternodes that are gone, and below it entries; or 'right'."""
        case = self.words.case
        if self.words.takes("right"):
            return diff_between(*(case.block_of(hash) for hash in case.last.hashes())).text()
        self.words.wants("from")
        base = self.words.hash()
        self.words.wants("to")
        target = self.words.hash()
        state = next((state for state in case.states if state.hash == target and state.coinbase), None)
        if state is None:
            raise Mistake("no block has this hash")
        gone = []
        if self.words.takes(","):
            self.words.wants("deleted")
            gone = self.hashes()
        entries = [entry_text(entry) for entry in self.listed()]
        return Diff(base, target, *first_branch(list(state.ids)), state.coinbase, sorted(gone), entries).text()

    def commitments(self):
        found = []
        while not self.words.is_done():
            if found:
                self.words.wants(",")
            found.append(commitment_text(self.words.name().values))
        return found

    def row(self):
        """A row: that of a registration by its name, 'with' what differs."""
        words = self.words
        tx = words.name()
        values = tx.values
        own = values["collateral"][0] == bytes(32)
        index = values["collateral"][1]
        row = {"confirmed": bytes(32), "registered": tx.height, "paid": 0, "revived": 0, "penalty": 0, "reason": 0,
               "banned": tx.height if values["service"] == NO_SERVICE else 0, "owner": values["owner"],
               "operator": values["operator"], "voting": values["voting"], "service": values["service"],
               "payout": pay_of(values["payout"]), "operator payout": (0, bytes(20)), "reward": values["reward"],
               "collateral": (tx.id(), index) if own else values["collateral"],
               "script": pay_of(tx.outputs[index].script) if own else (0, bytes(20))}
        if words.takes("with"):
            while change_entry(row, words) and words.takes("and"):
                pass
        numbers = b"".join(number(row[name], 4) for name in ("registered", "paid", "revived", "banned", "penalty"))
        return (tx.id() + row["confirmed"] + numbers + number(row["reason"], 2) + row["owner"] + row["operator"]
                + row["voting"] + service_text(row["service"]) + pay_text(row["payout"])
                + pay_text(row["operator payout"]) + number(row["reward"], 2) + point_text(row["collateral"])
                + pay_text(row["script"]))


# ---- from bytes to words

class Shown:
    """An answer's bytes as words, with the names of the case's transactions."""

    def __init__(self, kind, names):
        self.kind = kind
        self.names = {tx.id(): name for name, tx in names.items()}
        values = {name: getattr(tx, "values", None) or {} for name, tx in names.items()}
        self.commitments = {commitment_text(told): name for name, told in values.items() if "signers" in told}

    def hash(self, text):
        if text in self.names:
            return "of register %s" % self.names[text]
        return "%02x" % text[0] if len(set(text)) == 1 else text.hex()

    def fields(self, fields, body):
        """The fields in words, and what is left of the body."""
        words = []
        for name, size in fields:
            value = body[:size]
            body = body[size:]
            words.append("%s %s" % (name, self.hash(value) if size == 32 else int.from_bytes(value, "little")))
        return words, body

    def words(self, status, body):
        """Lines: the answer, and the entries of a list below it."""
        name, fields = STATUSES.get(status, ("status %d" % status, ()))
        below = []
        if name == "Refused" and len(body) >= 5:
            told, rest = self.refused(body)
        elif status == 0 and self.kind in HASH_LISTS:
            told, rest = [self.hash(body[at:at + 32]).removeprefix("of ") for at in range(2, len(body), 32)], b""
        else:
            told, rest = self.fields(OK_FIELDS.get(self.kind, ()) if status == 0 else fields, body)
        if status == 0 and self.kind == LIST:
            told.append("root %s, entries: %d" % (rest[:32].hex(), int.from_bytes(rest[32:36], "little")))
            below, rest = self.entries(rest[36:]), b""
        elif status == 0 and self.kind == QUORUMS:
            told, rest = self.mined(rest[2:]), b""
        elif status == 0 and self.kind == ROW and len(rest) == ROW_SIZE:
            told, rest = self.row(rest), b""
        elif status == 0 and self.kind == PAGE:
            told.append("entries: %d" % int.from_bytes(rest[:2], "little"))
            below, rest = self.entries(rest[2:]), b""
        elif status == 0 and self.kind == DIFF:
            told.append("from %s to %s, bytes: %d" % (self.hash(rest[:32]), self.hash(rest[32:64]), len(rest)))
            rest = b""
        if rest:
            told.append("bytes %s" % rest.hex())
        return ["%s %s" % (name, ", ".join(told)) if told else name] + below

    def refused(self, body):
        rule, place = body[0], int.from_bytes(body[1:5], "little")
        name, fields = RULES.get(rule, ("", ()))
        told, rest = self.fields(fields, body[5:])
        head = "%s (rule %d)" % (name, rule)
        if place != NO_TRANSACTION:
            head += " at %d" % place
        return [head] + told, rest

    def mined(self, text):
        """Commitments by their names, or by types, quorums, and how many signed and are valid."""
        told = []
        while text:
            size, ones = 35, []
            for _ in range(2):
                mark = 3 if text[size] == 0xFD else 1
                count = int.from_bytes(text[size + mark // 2:size + mark], "little")
                size += mark + (count + 7) // 8
                ones.append(bin(int.from_bytes(text[size - (count + 7) // 8:size], "little")).count("1"))
            size += KEYS_SIZE
            name = self.commitments.get(text[:size])
            told.append("commitment %s" % name if name else "type %d of block %s with signers: %d, valid: %d" % (
                text[2], self.hash(text[3:35]), *ones))
            text = text[size:]
        return told

    def entries(self, text):
        return [self.entry(text[at:at + ENTRY_SIZE]) for at in range(0, len(text), ENTRY_SIZE)]

    def entry(self, entry):
        return "%s, %s" % (self.known(entry[:32], entry[64:82]), "valid" if entry[150] else "banned")

    def known(self, text, service):
        """A masternode by its registration, and where it serves."""
        address = ipaddress.IPv6Address(service[:16])
        host = str(address.ipv4_mapped or address)
        name = self.names.get(text)
        known = "register %s" % name if name else "registration %s" % text.hex()
        return known + (" at %s:%d" % (host, int.from_bytes(service[16:], "big")) if any(service) else " without a service")

    def row(self, row):
        """A row: the masternode, and its heights and numbers that aren't 0."""
        numbers = [("registered", 64), ("paid", 68), ("revived", 72), ("banned", 76), ("penalty", 80)]
        told = [(name, int.from_bytes(row[at:at + 4], "little")) for name, at in numbers]
        told += [("reason", int.from_bytes(row[84:86], "little")), ("reward", int.from_bytes(row[234:236], "little"))]
        confirmed = ["confirmed %s" % self.hash(row[32:64])] if any(row[32:64]) else []
        return [self.known(row[:32], row[174:192])] + confirmed + ["%s %d" % pair for pair in told if pair[1]]


def cut_answers(text):
    """Each answer's status and body."""
    at, found = 0, []
    while at < len(text):
        size = int.from_bytes(text[at + 1:at + 5], "little")
        if len(text) < at + 5 + size:
            raise Mistake("the last answer is cut")
        found.append((text[at], text[at + 5:at + 5 + size]))
        at += 5 + size
    return found
