"""The bytes of what requests are made of: transactions, payloads, blocks, entries of the list, and Merkle roots.

Numbers are little endian, but for a port. Nothing here judges: any value is written as it stands."""

import hashlib
from dataclasses import dataclass, field

HASH_SIZE = 32
ZERO_HASH = bytes(HASH_SIZE)
# A frame's kind and length.
HEAD = 5
NO_INDEX = 0xFFFFFFFF
SEQUENCE = 0xFFFFFFFF
COLLATERAL = 100_000_000_000
REGISTER, SERVICE, REGISTRAR, REVOKE, COINBASE, COMMITMENT = 1, 2, 3, 4, 5, 6


def sha(text):
    return hashlib.sha256(text).digest()


def dsha(text):
    """SHA-256, taken twice."""
    return sha(sha(text))


def number(value, size):
    return int(value).to_bytes(size, "little")


def compact(value):
    """The shortest spelling of a count or a length."""
    if value < 0xFD:
        return number(value, 1)
    for mark, size in ((0xFD, 2), (0xFE, 4), (0xFF, 8)):
        if value < 1 << 8 * size:
            return number(mark, 1) + number(value, size)
    raise ValueError("no such count: %d" % value)


def blob(text):
    return compact(len(text)) + text


def listed(texts):
    return compact(len(texts)) + b"".join(texts)


def frame(kind, body):
    """A request frame: kind, length and body. An answer frame has a status in the kind's place."""
    return number(kind, 1) + number(len(body), 4) + body


def point_text(point):
    """An outpoint: a transaction's id and the index of one of its outputs."""
    return point[0] + number(point[1], 4)


@dataclass
class Input:
    point: tuple
    script: bytes = b""
    sequence: int = SEQUENCE

    def text(self):
        return point_text(self.point) + blob(self.script) + number(self.sequence, 4)


@dataclass
class Output:
    value: int
    script: bytes

    def text(self):
        return number(self.value, 8) + blob(self.script)


@dataclass
class Tx:
    version: int = 2
    kind: int = 0
    inputs: list = field(default_factory=list)
    outputs: list = field(default_factory=list)
    lock: int = 0
    payload: bytes = b""

    def has_payload(self):
        return self.version == 3 and self.kind != 0

    def text(self):
        head = number(self.version, 2) + number(self.kind, 2)
        lists = listed([i.text() for i in self.inputs]) + listed([o.text() for o in self.outputs])
        return head + lists + number(self.lock, 4) + (blob(self.payload) if self.has_payload() else b"")

    def id(self):
        return dsha(self.text())

    def inputs_hash(self):
        return dsha(b"".join(point_text(i.point) for i in self.inputs))


# ---- scripts: what an output or a payout pays to

def key_script(key):
    return b"\x76\xa9\x14" + key + b"\x88\xac"


def script_script(key):
    return b"\xa9\x14" + key + b"\x87"


def pay_of(script):
    """What a script pays to: a key (1), a script (2) or neither (0), and 20 bytes."""
    if len(script) == 25 and script[:3] == b"\x76\xa9\x14" and script[23:] == b"\x88\xac":
        return 1, script[3:23]
    if len(script) == 23 and script[:2] == b"\xa9\x14" and script[22:] == b"\x87":
        return 2, script[2:22]
    return 0, bytes(20)


def pay_text(pay):
    return number(pay[0], 1) + pay[1]


# ---- services

NO_SERVICE = (bytes(16), 0)


def mapped(a, b, c, d):
    """An IPv4 address, as it stands in 16 bytes."""
    return bytes(10) + b"\xff\xff" + bytes([a, b, c, d])


def service_text(service):
    return service[0] + service[1].to_bytes(2, "big")


# ---- payloads

def registration_text(p):
    return (number(p["version"], 2) + number(p["type"], 2) + number(p["mode"], 2) + point_text(p["collateral"])
            + service_text(p["service"]) + p["owner"] + p["operator"] + p["voting"] + number(p["reward"], 2)
            + blob(p["payout"]) + p["inputs"] + blob(p["signature"]))


def service_update_text(p):
    return (number(p["version"], 2) + p["row"] + service_text(p["service"]) + blob(p["payout"]) + p["inputs"]
            + p["signature"])


def registrar_update_text(p):
    return (number(p["version"], 2) + p["row"] + number(p["mode"], 2) + p["operator"] + p["voting"]
            + blob(p["payout"]) + p["inputs"] + blob(p["signature"]))


def revocation_text(p):
    return number(p["version"], 2) + p["row"] + number(p["reason"], 2) + p["inputs"] + p["signature"]


def coinbase_payload(version, height, root):
    return number(version, 2) + number(height, 4) + root


def bits(flags):
    """A set of members: their count, and a bit each, the lowest first."""
    text = bytearray((len(flags) + 7) // 8)
    for place, is_set in enumerate(flags):
        text[place // 8] |= is_set << place % 8
    return compact(len(flags)) + bytes(text)


def commitment_text(c):
    return (number(c["version"], 2) + number(c["type"], 1) + c["quorum"] + bits(c["signers"]) + bits(c["valid"])
            + c["key"] + c["vvec"] + c["signature"] + c["members signature"])


# ---- roots

def merkle_root(hashes):
    """By levels: an odd last one is paired with itself."""
    if not hashes:
        return ZERO_HASH
    while len(hashes) > 1:
        pairs = hashes + hashes[-1:] if len(hashes) % 2 else hashes
        hashes = [dsha(pairs[n] + pairs[n + 1]) for n in range(0, len(pairs), 2)]
    return hashes[0]


def tree_depth(total):
    """How many levels stand above so many hashes."""
    return (total - 1).bit_length()


def branch_flags(total):
    """A bit 1 for each hash of the branch of the first of so many, and then a bit 0 for each sibling, the lowest first."""
    depth = tree_depth(total)
    return number((1 << depth + 1) - 1, (2 * depth + 8) // 8)


def first_branch(hashes):
    """The branch that proves the first of these hashes: their count, it and its right siblings, and flags."""
    branch, level = hashes[:1], hashes
    while len(level) > 1:
        branch.append(level[1])
        pairs = level + level[-1:] if len(level) % 2 else level
        level = [dsha(pairs[n] + pairs[n + 1]) for n in range(0, len(pairs), 2)]
    return len(hashes), branch, branch_flags(len(hashes))


def entry_text(e):
    """An entry of the simplified list, 151 bytes."""
    return (e["hash"] + e["confirmed"] + service_text(e["service"]) + e["operator"] + e["voting"]
            + number(0 if e["banned"] else 1, 1))


def list_root(entries):
    return merkle_root([dsha(entry_text(e)) for e in sorted(entries, key=lambda e: e["hash"])])


# ---- blocks

def header_text(merkle, previous=ZERO_HASH, version=1, time=0, bits=0, nonce=0):
    return number(version, 4) + previous + merkle + number(time, 4) + number(bits, 4) + number(nonce, 4)


def verdict_text(tx, kind, key, valid):
    return number(tx, 4) + number(kind, 1) + key + number(valid, 1)


def block_text(block_hash, header, txs, verdicts):
    return block_hash + header + listed(txs) + listed(verdicts)
