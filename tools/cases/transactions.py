"""Transactions in words."""

from dataclasses import dataclass

from model import NO_PAY, OTHER_TYPE, PORTS, QUORUMS, duties, members
from wire import (COINBASE, COLLATERAL, COMMITMENT, NO_INDEX, NO_SERVICE, REGISTER, REGISTRAR, REVOKE, SERVICE,
                  ZERO_HASH, Input, Output, Tx, coinbase_payload, commitment_text, dsha, key_script, mapped, number,
                  registrar_update_text, registration_text, revocation_text, service_update_text)
from words import Mistake, bytes_of

COLLATERAL_KIND, OWNER_KIND, OPERATOR_KIND, MEMBERS_KIND = 1, 2, 3, 4
TEXTS = {REGISTER: registration_text, SERVICE: service_update_text, REGISTRAR: registrar_update_text,
         REVOKE: revocation_text}


@dataclass
class Raw:
    """A transaction that is given as its bytes."""
    bytes: bytes
    inputs = ()
    outputs = ()
    kind = version = 0

    def text(self):
        return self.bytes

    def id(self):
        return dsha(self.bytes)


class Verdict:
    """What is said of a signature: right unless a case says otherwise."""

    def __init__(self):
        self.is_given = True
        self.kind = self.key = None
        self.valid = 1

    def change(self, words):
        """'no verdict', or 'verdict' with 'no', 'kind N', 'key HASH' or 'valid N'."""
        if words.takes("no", "verdict"):
            self.is_given = False
        elif words.takes("verdict", "no"):
            self.valid = 0
        elif words.takes("verdict", "valid"):
            self.valid = words.number()
        elif words.takes("verdict", "kind"):
            self.kind = words.number()
        elif words.takes("verdict", "key"):
            self.key = words.hash()
        else:
            return False
        return True


class Draft:
    """A transaction while the words of its item are read."""

    def __init__(self, tx, values):
        self.tx = tx
        self.values = values
        self.verdict = Verdict()
        self.inputs_hash = None
        self.edits = []

    def change_tx(self, words):
        """What may be said of any transaction."""
        if words.takes("input"):
            self.tx.inputs[0].point = words.point()
        elif words.takes("inputs", "hash"):
            self.inputs_hash = words.hash()
        elif words.takes("tx", "version"):
            self.tx.version = words.number()
        elif words.takes("tx", "type"):
            self.tx.kind = words.number()
        elif words.takes("lock"):
            self.tx.lock = words.number()
        elif words.takes("payload", "cut", "to"):
            size = words.number()
            self.edits.append(lambda text: text[:size])
        elif words.takes("payload", "followed", "by"):
            more = bytes_of(words.next())
            self.edits.append(lambda text: text + more)
        elif words.takes("payload", "byte"):
            place = words.number()
            words.wants("is")
            byte = bytes_of(words.next())
            self.edits.append(lambda text: text[:place] + byte + text[place + 1:])
        elif words.takes("payload"):
            whole = bytes_of(words.next())
            self.edits.append(lambda text: whole)
        else:
            return self.verdict.change(words)
        return True

    def change_values(self, words):
        """What may be said of a provider transaction's payload."""
        values = self.values
        for name, size in (("owner", 20), ("operator", 48), ("voting", 20)):
            if name in values and words.takes(name):
                values[name] = words.sized(size)
                return True
        for name in ("version", "type", "mode", "reward", "reason"):
            if name in values and words.takes(name):
                values[name] = words.number()
                return True
        if "payout" in values and words.takes("payout"):
            values["payout"] = words.script()
        elif "service" in values and words.takes("no", "service"):
            values["service"] = NO_SERVICE
        elif "service" in values and words.takes("address"):
            values["service"] = (words.address(), values["service"][1])
        elif "service" in values and words.takes("port"):
            values["service"] = (values["service"][0], words.number())
        elif "signature" in values and words.takes("no", "signature"):
            values["signature"] = b""
        elif "signature" in values and words.takes("signature"):
            values["signature"] = bytes_of(words.next())
        else:
            return False
        return True

    def finish(self):
        """The payload's text, from what is now said."""
        self.values["inputs"] = self.inputs_hash or self.tx.inputs_hash()
        self.tx.payload = TEXTS[self.kind](self.values)
        self.edit()

    def edit(self):
        for edit in self.edits:
            self.tx.payload = edit(self.tx.payload)


MOST_REGISTRATIONS = 999


def key_of(k, letter, size):
    """A key of the test registration k. The first 31 have one byte throughout, the others four in turn."""
    return bytes([letter + k]) * size if k <= 31 else (number(k, 2) + bytes([letter, 0])) * (size // 4)


class Registration(Draft):
    """The test registration k: every key and address of it has k in it."""
    kind = REGISTER

    def __init__(self, k, profile):
        tx = Tx(3, REGISTER, [Input((key_of(k, 0, 32), 0))], [Output(COLLATERAL, key_script(key_of(k, 0xE0, 20)))])
        super().__init__(tx, {
            "version": 1, "type": 0, "mode": 0, "collateral": (ZERO_HASH, 0),
            "service": (mapped(10, 0, k // 256, k % 256), PORTS[profile]), "owner": key_of(k, 0, 20),
            "operator": key_of(k, 0x40, 48), "voting": key_of(k, 0x80, 20), "reward": 0,
            "payout": key_script(key_of(k, 0xC0, 20)), "signature": b""})

    def stands_on(self, point):
        """On an output that was there before, signed by who may spend it."""
        self.values["collateral"] = point
        self.values["signature"] = bytes([1]) * 65
        self.tx.outputs[0].value = 1

    def change(self, words):
        if words.takes("index"):
            self.values["collateral"] = (self.values["collateral"][0], words.number())
        elif words.takes("value"):
            self.tx.outputs[0].value = words.duffs()
        elif words.takes("script"):
            self.tx.outputs[0].script = words.script()
        elif words.takes("no", "output"):
            self.tx.outputs = []
        elif words.takes("collateral"):
            self.values["collateral"] = words.point()
        else:
            return self.change_values(words) or self.change_tx(words)
        return True

    def due_verdict(self, working):
        point = self.values["collateral"]
        kind, key = working.before.outputs.get(point, NO_PAY)
        return (COLLATERAL_KIND, dsha(key)) if point[0] != ZERO_HASH and kind == 1 else None


class Update(Draft):
    """An update or a revocation of a row. Its input differs from that of each other one of the case."""

    def __init__(self, kind, row, count, values):
        self.kind = kind
        self.row = row
        tx = Tx(3, kind, [Input((bytes([0x70 + kind]) * 32, count))])
        super().__init__(tx, {"version": 1, "row": row, **values})

    def change(self, words):
        return self.change_values(words) or self.change_tx(words)

    def due_verdict(self, working):
        row = working.rows.get(self.row)
        if row is None:
            return None
        return (OWNER_KIND, dsha(row.owner)) if self.kind == REGISTRAR else (OPERATOR_KIND, dsha(row.operator))


# The fields of a commitment behind its bits, with their sizes, and the byte of one that isn't null.
COMMITMENT_KEYS = {"key": (48, 0x61), "vvec": (32, 0x62), "signature": (96, 0x63), "members signature": (96, 0x64)}


class Commitment(Draft):
    """A quorum's commitment, null or by all members of the quorum whose base is this state."""
    kind = COMMITMENT

    def __init__(self, kind, quorum, height, state, is_null):
        self.payload_height = height
        self.payload_version = 1
        base = quorum.base(height)
        chosen = members(state, kind, quorum.size) if state else []
        keys = b"".join(member + state.rows[member].operator for member in chosen)
        given = [not is_null and place < len(chosen) for place in range(quorum.size)]
        super().__init__(Tx(3, COMMITMENT), {
            "version": 1, "type": kind, "quorum": state.hash if state else bytes([base % 256]) * 32,
            "signers": list(given), "valid": list(given), "base": base, "members": chosen, "digest": dsha(keys),
            **{name: bytes([0 if is_null else byte]) * size for name, (size, byte) in COMMITMENT_KEYS.items()}})

    def change(self, words):
        values = self.values
        if words.takes("height"):
            self.payload_height = words.number()
        elif words.takes("payload", "version"):
            self.payload_version = words.number()
        elif words.takes("version"):
            values["version"] = words.number()
        elif words.takes("type"):
            values["type"] = words.number()
        elif words.takes("quorum"):
            values["quorum"] = words.hash()
        elif words.takes("without"):
            values["valid"][self.place(words)] = False
        elif words.takes("unsigned", "by"):
            values["signers"][self.place(words)] = False
        else:
            return self.change_keys(words) or self.change_bits(words) or self.change_tx(words)
        return True

    def place(self, words):
        """The place of a member, which the words name."""
        name, member = words.peek(), words.id()
        if member not in self.values["members"]:
            raise Mistake("'%s' is no member" % name)
        return self.values["members"].index(member)

    def change_keys(self, words):
        for name, (size, _) in COMMITMENT_KEYS.items():
            if words.takes(*name.split()):
                self.values[name] = words.sized(size)
                return True
        return False

    def change_bits(self, words):
        """'signer bits N' or 'valid bits N' for their count, 'signer bits N to M' for those that alone are set, 'signer bit N'
        for one that is set, and 'no signer bit N' for one that is not."""
        is_clear = words.peek() == "no"
        name = {"signer": "signers", "valid": "valid"}.get(words.peek(1 if is_clear else 0))
        if name is None:
            return False
        words.takes("no")
        words.next()
        flags = self.values[name]
        if not words.takes("bits"):
            words.wants("bit")
            flags[words.number()] = not is_clear
            return True
        first = words.number()
        if words.takes("to"):
            last = words.number()
            self.values[name] = [first <= place <= last for place in range(len(flags))]
        else:
            self.values[name] = (flags + [False] * first)[:first]
        return True

    def finish(self):
        values = self.values
        values["null"] = not any(values["signers"] + values["valid"]) and not any(
            any(values[name]) for name in COMMITMENT_KEYS)
        self.tx.payload = (number(self.payload_version, 2) + number(self.payload_height, 4)
                           + commitment_text(values))
        self.edit()

    def due_verdict(self, working):
        return None if self.values["null"] else (MEMBERS_KIND, self.values["digest"])


class Special(Draft):
    """A special transaction of any type, with one input and no output."""

    def __init__(self, kind):
        super().__init__(Tx(3, kind, [Input((bytes([0x7F]) * 32, 0))]), None)

    def change(self, words):
        return self.change_tx(words)


class Coinbase(Draft):
    """The first transaction of a block; it commits to the root of the list behind the block."""
    kind = COINBASE

    def __init__(self, height):
        super().__init__(Tx(3, COINBASE, [Input((ZERO_HASH, NO_INDEX))]), {"version": 1, "height": height})
        self.root = None

    def change(self, words):
        if words.takes("height"):
            self.values["height"] = words.number()
        elif words.takes("version"):
            self.values["version"] = words.number()
        elif words.takes("root"):
            self.root = words.hash()
        elif words.takes("output"):
            value = words.duffs()
            words.wants("to")
            self.tx.outputs.append(Output(value, words.script()))
        else:
            return self.change_tx(words)
        return True

    def commit(self, root):
        """Writes the payload, with this root unless the case says another."""
        self.tx.payload = coinbase_payload(self.values["version"], self.values["height"], self.root or root)
        self.edit()


def changed(draft, words):
    """Reads 'with CHANGE and CHANGE ..', if it is there."""
    if words.takes("with"):
        while True:
            if not draft.change(words):
                raise Mistake("'%s' is nothing that can be said here" % words.peek())
            if not words.takes("and"):
                return draft
    return draft


# ---- items of a block

def read_registrations(words, case):
    """'K' or 'K to L'; of one alone more may be said."""
    first = words.number()
    last = words.number() if words.takes("to") else first
    if not 1 <= first <= last <= MOST_REGISTRATIONS:
        raise Mistake("test registrations are numbered from 1 to %d" % MOST_REGISTRATIONS)
    if first < last:
        return [named(Registration(k, case.profile), str(k), case) for k in range(first, last + 1)]
    draft = Registration(first, case.profile)
    name = words.next() if words.takes("as") else str(first)
    if words.takes("on"):
        draft.stands_on(words.point())
    return [named(changed(draft, words), name, case)]


def named(draft, name, case):
    """Finishes a transaction, and gives it its name in the case."""
    draft.finish()
    draft.tx.values = draft.values
    draft.tx.height = case.height
    if name:
        case.names[name] = draft.tx
    return draft


def read_update(words, case):
    if words.takes("service", "of"):
        kind = SERVICE
    elif words.takes("registrar", "of"):
        kind = REGISTRAR
    else:
        raise Mistake("an update is one 'service of' or 'registrar of' a registration")
    return finish_update(kind, words, case)


def finish_update(kind, words, case):
    """Of a registration by its name; by a hash, the fields are those of registration 1."""
    tx = words.name() if words.is_named() else None
    row = tx.id() if tx else words.id()
    told = tx.values if tx else Registration(1, case.profile).values
    values = {
        SERVICE: {"service": (told["service"][0], PORTS[case.profile]), "payout": b"", "signature": bytes([2]) * 96},
        REGISTRAR: {"mode": 0, "operator": told.get("operator"), "voting": told.get("voting"),
                    "payout": told.get("payout"), "signature": bytes([3]) * 65},
        REVOKE: {"reason": 0, "signature": bytes([4]) * 96},
    }[kind]
    name = words.next() if words.takes("as") else None
    case.updates += 1
    return named(changed(Update(kind, row, case.updates, values), words), name, case)


def read_ordinary(words, case):
    tx = Tx()
    name = words.next() if words.takes("as") else None
    while True:
        if words.takes("spending"):
            point = words.point()
            tx.inputs += [Input(point)] * times(words)
        elif words.takes("paying"):
            value = words.duffs()
            words.wants("to")
            script = words.script()
            tx.outputs += [Output(value, script)] * times(words)
        elif words.takes("lock"):
            tx.lock = words.number()
        elif words.takes("version"):
            tx.version = words.number()
        elif words.takes("type"):
            tx.kind = words.number()
        if not words.takes("and"):
            break
    draft = Draft(tx, None)
    if name:
        case.names[name] = tx
    return draft


def times(words):
    """'N times', if it is there."""
    if words.peek(1) != "times":
        return 1
    count = words.number()
    words.wants("times")
    return count


def read_special(words, _):
    """A special transaction of any type; 'payload HEX' tells its payload."""
    draft = Special(words.number())
    changed(draft, words)
    draft.edit()
    return draft


def commitment_of(kind, case, is_null):
    """A commitment of this type for the base of the block's height."""
    quorum = QUORUMS[case.profile].get(kind, OTHER_TYPE)
    return Commitment(kind, quorum, case.height, case.state_at(quorum.base(case.height)), is_null)


def read_commitment(words, case, is_null):
    """'null' and 'commitment', of the profile's least type or of another one that is told."""
    kind = words.number() if words.peek().isdigit() else min(QUORUMS[case.profile])
    name = words.next() if words.takes("as") else None
    return named(changed(commitment_of(kind, case, is_null), words), name, case)


def due_commitments(case):
    """The null commitments that the duty asks for."""
    kinds = duties(case.profile, case.first, case.tip(), case.height)
    return [named(commitment_of(kind, case, True), None, case) for kind in kinds]
