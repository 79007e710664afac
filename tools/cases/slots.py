"""Slots with snapshots: their text by the words of a case, and whether a file has a slot whose text is in its form.

It is a model of its own: each height is written as what differs from the one before it, and a text is read field by field."""

from light import Departs, Fields
from model import KEPT
from wire import HASH_SIZE, blob, compact, first_branch, listed, number, pay_text, point_text, service_text
from words import Mistake

OPEN = 1
# What stands before the held text: the gate, the length of what follows, the sequence number, the place, the records.
SLOT_HEAD = 33
LEAST_LENGTH = 24
# No file has a byte at this place.
FAR = 1 << 62
MOST_ROWS = 65_535
MOST_OUTPUTS = 1_048_576
# A row's fields before the first that may be out of its form, and between these.
ROW_SIZES = ((32, 32, 4, 4, 4, 4, 4, 2, 20, 48, 20, 16, 2), (2, 32, 4), (4,))


# ---- the text

def row_text(row, at):
    """A row as it is stored: with the height for which its penalty is true."""
    return (row.hash + row.confirmed + number(row.registered, 4) + number(row.paid, 4) + number(row.revived, 4)
            + number(row.banned, 4) + number(row.penalty, 4) + number(row.reason, 2) + row.owner + row.operator + row.voting
            + service_text(row.service) + pay_text(row.payout) + pay_text(row.operator_payout) + number(row.reward, 2)
            + point_text(row.collateral) + pay_text(row.script) + number(at, 4))


def counted(texts):
    return number(len(texts), 4) + b"".join(texts)


def rows_text(rows, height, are_turned=False):
    return counted([row_text(rows[key], height) for key in sorted(rows, reverse=are_turned)])


def point_key(point):
    return point[0], point[1]


def outputs_text(outputs):
    return counted([point_text(point) + pay_text(outputs[point]) for point in sorted(outputs, key=point_key)])


def coinbase_text(state):
    """A block's first transaction with its branch; of the height before the first block nothing."""
    if state.coinbase is None:
        return compact(0) + number(0, 4) + listed([]) + blob(b"")
    total, hashes, flags = first_branch(list(state.ids))
    return blob(state.coinbase.text()) + number(total, 4) + listed(hashes) + blob(flags)


def changed(before, after):
    """What one table has that the other has not, or has otherwise."""
    return {key: after[key] for key in after if before.get(key) != after[key]}


class Told:
    """What a snapshot's words tell in the place of what is right."""

    def __init__(self, words):
        self.numbers = {}
        self.block = None
        self.are_rows_turned = False
        if words.takes("with"):
            self.read(words)
            while words.takes("and"):
                self.read(words)

    def read(self, words):
        if words.takes("block"):
            self.block = words.hash()
        elif words.takes("rows", "turned", "round"):
            self.are_rows_turned = True
        elif words.peek() in ("gate", "length", "sequence", "position", "records"):
            name = words.next()
            self.numbers[name] = words.number()
        else:
            raise Mistake("a snapshot is not told '%s'" % words.peek())


def height_text(before, state, told, is_tip):
    rows, outputs = changed(before.rows, state.rows), changed(before.outputs, state.outputs)
    removed = sorted(key for key in before.rows if key not in state.rows)
    spent = sorted((point for point in before.outputs if point not in state.outputs), key=point_key)
    return ((told.block if is_tip and told.block else state.hash) + coinbase_text(state)
            + rows_text(rows, state.height, told.are_rows_turned) + counted(removed) + outputs_text(outputs)
            + counted([point_text(point) for point in spent]) + number(0, 4))


def held_text(case, told):
    """What the snapshot holds: the lowest height that is held whole, and the difference to each one above it."""
    tip = case.tip()
    if tip.mined:
        raise Mistake("a snapshot in words holds no commitments but null ones")
    low = max(case.first - 1, case.top - KEPT[case.profile])
    states = [state for state in case.states if state.height >= low]
    lowest = states[0]
    text = number(case.top, 4) + number(low, 4) + lowest.hash + rows_text(lowest.rows, low, told.are_rows_turned)
    text += outputs_text(lowest.outputs) + number(0, 4) + coinbase_text(lowest)
    return text + b"".join(height_text(before, state, told, state is tip) for before, state in zip(states, states[1:]))


def slot_text(words, case):
    """'a snapshot' of the registry as it is, and behind 'with' what is told in the place of what is right."""
    told = Told(words)
    held = held_text(case, told)
    right = {"gate": OPEN, "length": LEAST_LENGTH + len(held), "sequence": 1, "position": case.disk.gate,
             "records": case.disk.records}
    said = {**right, **told.numbers}
    return (number(said["gate"], 1) + number(said["length"], 8) + number(said["sequence"], 8) + number(said["position"], 8)
            + number(said["records"], 8) + held)


# ---- its form

class HeldFields(Fields):
    """What a snapshot holds, read field by field."""

    def pay(self):
        begin = self.at
        kind, key = self.number(1), self.take(20)
        if kind > 2 or kind == 0 and key != bytes(20):
            raise Departs(begin)

    def row(self):
        key = self.text[self.at:self.at + HASH_SIZE]
        for pays, sizes in zip((2, 1, 0), ROW_SIZES):
            for size in sizes:
                self.take(size)
            for _ in range(pays):
                self.pay()
        return key

    def point(self):
        return self.take(HASH_SIZE), self.number(4)

    def start_output(self):
        point = self.point()
        self.pay()
        return point

    def rising(self, read, most):
        """So many items as are counted, each with a key above that of the one before."""
        count, last = self.number(4), None
        if count > most:
            raise Departs(self.at - 4)
        for _ in range(count):
            begin, key = self.at, read()
            if last is not None and key <= last:
                raise Departs(begin)
            last = key
        return count

    def bits(self):
        count = self.compact()
        text = self.take((count + 7) // 8)
        if count % 8 and text and text[-1] >> count % 8:
            raise Departs(self.at - 1)

    def commitment(self):
        self.take(2 + 1 + HASH_SIZE)
        self.bits()
        self.bits()
        self.take(48 + HASH_SIZE + 96 + 96)

    def coinbase(self):
        size = self.compact()
        end = self.at + size
        self.transaction()
        if self.at != end:
            raise Departs(end)
        self.branch()

    def branch(self):
        self.number(4)
        self.items(lambda: self.take(HASH_SIZE))
        self.blob()

    def coinbase_if(self):
        if self.text[self.at:self.at + 1] != b"\0":
            self.coinbase()
        elif self.take(7) != bytes(7):
            raise Departs(self.at)

    def held(self):
        self.take(8)
        self.take(HASH_SIZE)
        self.rising(self.row, MOST_ROWS)
        self.rising(self.start_output, MOST_OUTPUTS)
        for _ in range(self.number(4)):
            self.number(4)
            self.commitment()
        self.coinbase_if()
        while self.at < len(self.text):
            self.height()

    def height(self):
        self.take(HASH_SIZE)
        self.coinbase()
        self.rising(self.row, MOST_ROWS)
        self.rising(lambda: self.take(HASH_SIZE), MOST_ROWS)
        self.rising(self.start_output, MOST_OUTPUTS)
        self.rising(self.point, MOST_OUTPUTS)
        for _ in range(self.number(4)):
            self.commitment()


def is_slot(text):
    """Whether a file has a valid slot with a text in its form: one without counts as none."""
    if len(text) < SLOT_HEAD or text[0] != OPEN:
        return False
    length, sequence, position, records = (int.from_bytes(text[at:at + 8], "little") for at in range(1, SLOT_HEAD, 8))
    if length < LEAST_LENGTH or len(text) < 9 + length:
        return False
    if not 1 <= sequence <= records + 1 or records > position or position >= FAR:
        return False
    try:
        HeldFields(text[SLOT_HEAD:9 + length]).held()
    except Departs:
        return False
    return True
