#!/usr/bin/env python3
"""Makes a stream of blocks with so many masternodes, which anybody can make again: that of dmn_generator, for any number of them.

    python3 bench/stream.py MASTERNODES BLOCKS FOLDER      writes FOLDER/record, which 'dmnd init' reads, and FOLDER/frames, which
                                                           'dmnd feed' reads: a Connect for each block

The profile is main and the first height 576. Each block registers up to 250 masternodes, until all are there, and has the
commitments that are due; where a quorum is full its commitment is signed by all members, of whom the first is not valid. Keys,
outpoints and signatures are hashes of short texts. The list's root behind each block is computed here: the program is not asked.

The texts are those of docs/PROTOCOL.md, written by the tool of cases."""

import heapq
import os
import sys
from bisect import insort
from dataclasses import dataclass, field
from hashlib import sha256

sys.path.insert(0, os.path.join(os.path.dirname(os.path.abspath(__file__)), "..", "tools", "cases"))

from model import CONFIRM, PORTS, PROFILES, QUORUMS, modifier  # noqa: E402 (found by the line above)
from wire import (COLLATERAL, COMMITMENT, COINBASE, NO_INDEX, REGISTER, ZERO_HASH, Input, Output, Tx, block_text,  # noqa: E402
                  coinbase_payload, commitment_text, dsha, entry_text, frame, header_text, key_script, mapped, merkle_root,
                  number, registration_text, verdict_text)

PROFILE = "main"
FIRST = 576
BEFORE = b"\x75" * 32
PER_BLOCK = 250
CONNECT, DISCONNECT = 1, 2
# The verdict on a commitment's signatures.
MEMBERS_KIND = 4
# A commitment that isn't null stands so many blocks behind the first one that may have it.
SIGNED = 2


def tag(text):
    """What stands for a key, an outpoint or a signature."""
    return dsha(text.encode())


def start_record():
    return number(1, 2) + number(PROFILES[PROFILE], 1) + number(FIRST, 4) + BEFORE + number(0, 4)


class Masternode:
    """A masternode by its number: the transaction that registers it, and its entry of the list."""

    def __init__(self, place):
        operator = (tag("opa %d" % place) + tag("opb %d" % place))[:48]
        voting = tag("vote %d" % place)[:20]
        service = (mapped(10, place // 65_536, place // 256 % 256, place % 256), PORTS[PROFILE])
        tx = Tx(3, REGISTER, [Input((tag("fund %d" % place), 0))],
                [Output(COLLATERAL, key_script(tag("coll %d" % place)[:20]))])
        tx.payload = registration_text({
            "version": 1, "type": 0, "mode": 0, "collateral": (ZERO_HASH, 0), "service": service,
            "owner": tag("owner %d" % place)[:20], "operator": operator, "voting": voting, "reward": 0,
            "payout": key_script(tag("pay %d" % place)[:20]), "inputs": tx.inputs_hash(), "signature": b""})
        self.text = tx.text()
        self.hash = dsha(self.text)
        self.entry = {"hash": self.hash, "confirmed": ZERO_HASH, "service": service, "operator": operator, "voting": voting,
                      "banned": False}
        # what a score is made of, once it is confirmed
        self.confirmed = None

    def confirm(self, block_hash):
        self.entry["confirmed"] = block_hash
        self.confirmed = None if block_hash == ZERO_HASH else sha256(self.hash + block_hash).digest()

    def is_able(self):
        """Whether it may be a member."""
        return self.confirmed is not None and not self.entry["banned"]


@dataclass
class Height:
    """What a block found and did, so that it can be taken back."""
    hash: bytes
    root: bytes
    # how many masternodes were there before, how many of them were confirmed
    listed: int
    confirmed: int
    # the penalties of before, by the numbers of those punished; who was banned; which commitments were mined
    penalties: dict = field(default_factory=dict)
    banned: list = field(default_factory=list)
    mined: list = field(default_factory=list)


class Stream:
    """A branch that grows by the generator's blocks, with the list of masternodes behind its tip."""

    def __init__(self, count):
        self.count = count
        self.height = FIRST - 1
        self.hash = BEFORE
        self.root = ZERO_HASH
        self.masternodes = []
        self.listed = 0
        self.confirmed = 0
        self.order = []
        self.leaves = {}
        # by a masternode's hash: a penalty, and the height at which it was in force
        self.penalties = {}
        self.mined = set()
        # of each quorum that was drawn and is full, the members
        self.quorums = {}
        self.heights = []
        self.nulls = {}

    def masternode(self, place):
        while len(self.masternodes) <= place:
            self.masternodes.append(Masternode(len(self.masternodes)))
        return self.masternodes[place]

    # ---- the list

    def put(self, masternode):
        if masternode.hash not in self.leaves:
            insort(self.order, masternode.hash)
        self.leaves[masternode.hash] = dsha(entry_text(masternode.entry))

    def list_root(self):
        return merkle_root([self.leaves[hash_] for hash_ in self.order])

    def confirm(self, height):
        """Who was registered long enough ago is confirmed, in the order in which they were registered."""
        last = min(self.count, max(0, height - CONFIRM - FIRST + 1) * PER_BLOCK)
        for place in range(self.confirmed, last):
            self.masternodes[place].confirm(self.hash)
            self.put(self.masternodes[place])
        is_changed, self.confirmed = last > self.confirmed, max(last, self.confirmed)
        return is_changed

    def register(self, height):
        first = PER_BLOCK * (height - FIRST)
        new = [self.masternode(place) for place in range(first, min(self.count, first + PER_BLOCK))]
        for masternode in new:
            self.put(masternode)
        self.listed += len(new)
        return new

    # ---- quorums

    def draw(self, height):
        """The quorums whose members are drawn from the list behind this block."""
        for kind, quorum in QUORUMS[PROFILE].items():
            if height % quorum.interval == 0:
                mod = modifier(kind, self.hash)
                able = [masternode for masternode in self.masternodes[:self.confirmed] if masternode.is_able()]
                if len(able) >= quorum.size:
                    self.quorums[kind, height] = heapq.nsmallest(quorum.size, able, key=lambda m: (
                        -int.from_bytes(sha256(m.confirmed + mod).digest(), "little"), m.hash))

    def is_due(self, kind, quorum, height):
        base = quorum.base(height)
        return base >= FIRST and quorum.opens <= height % quorum.interval <= quorum.closes and (kind, base) not in self.mined

    def null(self, kind, base):
        """The text of a null commitment."""
        if (kind, base) not in self.nulls:
            none = [False] * QUORUMS[PROFILE][kind].size
            self.nulls[kind, base] = commitment_text({
                "version": 1, "type": kind, "quorum": self.hash_at(base), "signers": none, "valid": none, "key": bytes(48),
                "vvec": bytes(32), "signature": bytes(96), "members signature": bytes(96)})
        return self.nulls[kind, base]

    def hash_at(self, height):
        return self.hash if height == self.height else self.heights[height + 1 - FIRST].hash

    def signed(self, kind, base, height):
        size, signs = QUORUMS[PROFILE][kind].size, tag("qs %d %d" % (kind, height)) * 3
        return commitment_text({
            "version": 1, "type": kind, "quorum": self.hash_at(base), "signers": [True] * size,
            "valid": [False] + [True] * (size - 1),
            "key": (tag("qa %d %d" % (kind, height)) + tag("qb %d %d" % (kind, height)))[:48],
            "vvec": tag("qv %d %d" % (kind, height)), "signature": signs, "members signature": signs})

    def punish(self, masternode, height, was):
        """Adds to a penalty. Whether the masternode is banned by it."""
        most = max(100, self.listed)
        before = self.penalties.get(masternode.hash)
        penalty = max(0, before[0] - (height - before[1])) if before else 0
        penalty = min(most, penalty + most * 66 // 100)
        was.penalties[masternode.hash] = before
        self.penalties[masternode.hash] = (penalty, height)
        if masternode.entry["banned"] or penalty < most:
            return False
        masternode.entry["banned"] = True
        was.banned.append(masternode)
        self.put(masternode)
        return True

    def commitments(self, height, was):
        """The transactions of the commitments that are due, the verdicts on them, and whether the list is another one."""
        txs, verdicts, is_changed = [], [], False
        for kind, quorum in QUORUMS[PROFILE].items():
            if not self.is_due(kind, quorum, height):
                continue
            base = quorum.base(height)
            members = self.quorums.get((kind, base))
            text = self.null(kind, base)
            if members and height % quorum.interval == quorum.opens + SIGNED:
                text = self.signed(kind, base, height)
                digest = dsha(b"".join(member.hash + member.entry["operator"] for member in members))
                verdicts.append(verdict_text(len(txs) + 1, MEMBERS_KIND, digest, 1))
                self.mined.add((kind, base))
                was.mined.append((kind, base))
                is_changed |= self.punish(members[0], height, was)
            txs.append(Tx(3, COMMITMENT, payload=number(1, 2) + number(height, 4) + text).text())
        return txs, verdicts, is_changed

    # ---- blocks

    def add(self, name="block"):
        """The body of a Connect that adds the next block, whose hash is by this name."""
        height = self.height + 1
        was = Height(self.hash, self.root, self.listed, self.confirmed)
        is_changed = self.confirm(height)
        txs, verdicts, is_banned = self.commitments(height, was)
        new = self.register(height)
        if is_changed or is_banned or new:
            self.root = self.list_root()
        coinbase = Tx(3, COINBASE, [Input((ZERO_HASH, NO_INDEX), number(height, 4))], [Output(0, b"")],
                      payload=coinbase_payload(1, height, self.root)).text()
        texts = [coinbase] + txs + [masternode.text for masternode in new]
        ids = [dsha(text) for text in texts[:len(texts) - len(new)]] + [masternode.hash for masternode in new]
        block_hash = tag("%s %d" % (name, height))
        body = block_text(block_hash, header_text(merkle_root(ids), self.hash, time=height), texts, verdicts)
        self.heights.append(was)
        self.height, self.hash = height, block_hash
        self.draw(height)
        return body

    def take_back(self):
        """The body of a Disconnect that takes the last block back."""
        was, body = self.heights.pop(), self.hash
        for kind in QUORUMS[PROFILE]:
            self.quorums.pop((kind, self.height), None)
            self.nulls.pop((kind, self.height), None)
        for masternode in self.masternodes[was.listed:self.listed]:
            self.order.remove(masternode.hash)
            del self.leaves[masternode.hash]
        for masternode in was.banned:
            masternode.entry["banned"] = False
            self.put(masternode)
        for masternode in self.masternodes[was.confirmed:self.confirmed]:
            masternode.confirm(ZERO_HASH)
            if masternode.hash in self.leaves:
                self.put(masternode)
        for hash_, before in was.penalties.items():
            if before is None:
                del self.penalties[hash_]
            else:
                self.penalties[hash_] = before
        self.mined -= set(was.mined)
        self.height, self.hash, self.root = self.height - 1, was.hash, was.root
        self.listed, self.confirmed = was.listed, was.confirmed
        return body

    def connects(self, count, name="block"):
        """So many frames that add a block each."""
        for _ in range(count):
            yield frame(CONNECT, self.add(name))

    def disconnects(self, count):
        for _ in range(count):
            yield frame(DISCONNECT, self.take_back())


def main(words):
    if len(words) != 3 or not words[0].isdigit() or not words[1].isdigit():
        sys.exit(__doc__)
    os.makedirs(words[2], exist_ok=True)
    stream = Stream(int(words[0]))
    with open(os.path.join(words[2], "record"), "wb") as record:
        record.write(start_record())
    with open(os.path.join(words[2], "frames"), "wb") as frames:
        for text in stream.connects(int(words[1])):
            frames.write(text)
    print("height %d, %d masternodes, root %s" % (stream.height, stream.listed, stream.root.hex()))


if __name__ == "__main__":
    main(sys.argv[1:])
