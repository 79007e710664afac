"""The list of masternodes as a block leaves it, for the roots that a block commits to.

It judges nothing: what a block does is done, and a case says by its wanted answer whether the block was accepted."""

from dataclasses import dataclass, field, replace

from wire import (COLLATERAL, COMMITMENT, NO_SERVICE, REGISTER, REGISTRAR, REVOKE, SERVICE, ZERO_HASH, dsha, list_root,
                  number, pay_of, sha)

CONFIRM = 16
NO_PAY = (0, bytes(20))
PORTS = {"small": 19_999, "main": 9_999}
PROFILES = {"small": 1, "main": 2}
# How many heights below the top are held.
KEPT = {"small": 20, "main": 400}


@dataclass
class QuorumType:
    """How many members a quorum has, how often one is drawn, and where its commitment may be mined."""
    size: int
    interval: int
    opens: int
    closes: int

    def base(self, height):
        """The last height at or below this one from whose list members are drawn."""
        return height - height % self.interval


# Each profile's types, ascending.
QUORUMS = {"small": {100: QuorumType(4, 12, 4, 10)},
           "main": {1: QuorumType(50, 24, 10, 18), 2: QuorumType(400, 288, 20, 28), 3: QuorumType(400, 576, 20, 48)}}
# That of a commitment whose type the profile does not have.
OTHER_TYPE = QuorumType(4, 12, 4, 10)


@dataclass
class Row:
    hash: bytes
    registered: int
    owner: bytes
    operator: bytes
    voting: bytes
    service: tuple
    payout: tuple
    reward: int
    collateral: tuple
    script: tuple
    confirmed: bytes = ZERO_HASH
    paid: int = 0
    revived: int = 0
    banned: int = 0
    penalty: int = 0
    reason: int = 0
    operator_payout: tuple = NO_PAY

    def entry(self):
        return {"hash": self.hash, "confirmed": self.confirmed, "service": self.service, "operator": self.operator,
                "voting": self.voting, "banned": self.banned != 0}


@dataclass
class State:
    """What is there behind a block: rows by hash, what each output of 1,000 DASH pays to, and of which types and bases
    there are commitments that aren't null."""
    height: int
    hash: bytes
    rows: dict = field(default_factory=dict)
    outputs: dict = field(default_factory=dict)
    mined: frozenset = frozenset()
    # the first transaction of the block, the ids of all, and the fields of its header
    coinbase: object = None
    ids: tuple = ()
    header: dict = field(default_factory=dict)

    def root(self):
        return list_root([row.entry() for row in self.rows.values()])


def duties(profile, first, before, height):
    """The types of which a block at this height is to have a commitment, by the state before it."""
    for kind, quorum in QUORUMS[profile].items():
        base = quorum.base(height)
        is_open = base >= first and quorum.opens <= height % quorum.interval <= quorum.closes
        if is_open and (kind, base) not in before.mined:
            yield kind


def modifier(kind, quorum):
    return dsha(number(kind, 1) + quorum)


def score(row, mod):
    return int.from_bytes(sha(sha(row.hash + row.confirmed) + mod), "little")


def members(state, kind, size):
    """The hashes of a quorum's members by its base block's list, greatest score first."""
    mod = modifier(kind, state.hash)
    able = [row for row in state.rows.values() if row.banned == 0 and row.confirmed != ZERO_HASH]
    return [row.hash for row in sorted(able, key=lambda row: (-score(row, mod), row.hash))[:size]]


def pay_key(row):
    """The less this is, the sooner a row is paid; of equal ones the one with the lower hash."""
    return row.revived if row.revived > row.paid else row.paid or row.registered


class Working:
    """A state that becomes the next one, transaction by transaction."""

    def __init__(self, before, before_hash):
        self.before = before
        self.height = before.height + 1
        self.rows = {row.hash: self.aged(row) for row in before.rows.values()}
        self.outputs = dict(before.outputs)
        self.mined = before.mined

    def aged(self, row):
        """A row as it is confirmed, and as its penalty falls."""
        if row.confirmed == ZERO_HASH and row.registered + CONFIRM <= self.height:
            row = replace(row, confirmed=self.before.hash)
        if row.banned == 0 and row.penalty > 0:
            row = replace(row, penalty=row.penalty - 1)
        return row

    # ---- what transactions do

    def register(self, tx, p):
        own = p["collateral"][0] == ZERO_HASH
        point = (tx.id(), p["collateral"][1]) if own else p["collateral"]
        if own:
            index = p["collateral"][1]
            script = pay_of(tx.outputs[index].script) if index < len(tx.outputs) else NO_PAY
        else:
            script = self.before.outputs.get(point, NO_PAY)
        for row in [row for row in self.rows.values() if row.collateral == point]:
            del self.rows[row.hash]
        self.rows[tx.id()] = Row(
            tx.id(), self.height, p["owner"], p["operator"], p["voting"], p["service"], pay_of(p["payout"]),
            p["reward"], point, script, banned=self.height if p["service"] == NO_SERVICE else 0)

    def clear(self, row):
        """Without the operator's fields, and banned."""
        return replace(row, operator=bytes(48), service=NO_SERVICE, operator_payout=NO_PAY, reason=0,
                       banned=row.banned or self.height)

    def update(self, kind, p):
        row = self.rows.get(p["row"])
        if row is None:
            return
        if kind == SERVICE:
            row = replace(row, service=p["service"], operator_payout=pay_of(p["payout"]))
            if row.banned:
                row = replace(row, penalty=0, banned=0, revived=self.height)
        elif kind == REGISTRAR:
            if row.operator != p["operator"]:
                row = self.clear(row)
            row = replace(row, operator=p["operator"], voting=p["voting"], payout=pay_of(p["payout"]))
        else:
            row = replace(self.clear(row), reason=p["reason"])
        self.rows[row.hash] = row

    def commit(self, c):
        """Keeps a commitment that isn't null, and punishes the members that did not take part, by its own list of them."""
        self.mined = self.mined | {(c["type"], c["base"])}
        most = max(100, len(self.rows))
        for place, member in enumerate(c["members"]):
            row = self.rows.get(member)
            if row is None or (place < len(c["valid"]) and c["valid"][place]):
                continue
            penalty = min(most, row.penalty + most * 66 // 100)
            banned = row.banned or (self.height if penalty == most else 0)
            self.rows[member] = replace(row, penalty=penalty, banned=banned)

    def apply(self, tx):
        """Does what a special transaction does."""
        values = getattr(tx, "values", None)
        if values is None or tx.version != 3:
            return
        if tx.kind == REGISTER:
            self.register(tx, values)
        elif tx.kind in (SERVICE, REGISTRAR, REVOKE):
            self.update(tx.kind, values)
        elif tx.kind == COMMITMENT and not values["null"]:
            self.commit(values)

    # ---- spends

    def take(self, tx):
        for spent in tx.inputs:
            self.outputs.pop(spent.point, None)
            for row in [row for row in self.rows.values() if row.collateral == spent.point]:
                del self.rows[row.hash]

    def give(self, tx):
        tx_id = tx.id()
        for index, output in enumerate(tx.outputs):
            if output.value == COLLATERAL:
                self.outputs.setdefault((tx_id, index), pay_of(output.script))

    def root(self):
        return list_root([row.entry() for row in self.rows.values()])

    def mark(self):
        """The one that is paid by the list before, where it is still there, was paid last at this height."""
        able = [row for row in self.before.rows.values() if row.banned == 0]
        paid = min(able, key=lambda row: (pay_key(row), row.hash), default=None)
        if paid is not None and paid.hash in self.rows:
            self.rows[paid.hash] = replace(self.rows[paid.hash], paid=self.height)

    def state(self, block_hash):
        self.mark()
        return State(self.height, block_hash, self.rows, self.outputs, self.mined)
