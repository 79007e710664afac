"""Requests and answers over HTTP: what a caller sends for a frame, and the reply that says what an answer's frame says. The form of
both is that of docs/HTTP.md."""

import json
import re

from answers import (CONNECT, DIFF, DISCONNECT, LIST, MEMBERS, NO_TRANSACTION, PAGE, PAYEES, PIN, QUORUMS, RELEASE, ROW,
                     STATUSES, TIP)
from wire import HEAD
from words import Mistake, bytes_of

WORDS = {200: "OK", 400: "Bad Request", 404: "Not Found", 405: "Method Not Allowed", 409: "Conflict", 410: "Gone",
         413: "Content Too Large", 503: "Service Unavailable", 507: "Insufficient Storage"}
NUMBERS = {"BadRequest": 400, "NotHeld": 410, "NoSuch": 404, "BaseAbove": 409, "PinsFull": 409, "PinUnknown": 404, "Refused": 409,
           "NotTip": 409, "AtStart": 409, "TooDeep": 409, "JournalFull": 507, "Memory": 503}


def number(text):
    return int.from_bytes(text, "little")


def target_of(kind, body):
    """The method and the path of a request."""
    def path(name, *sizes):
        at, values = 0, [name]
        for size in sizes:
            field = body[at:at + size]
            values.append(field.hex() if size == 32 else str(number(field)))
            at += size
        return "/" + "/".join(values)
    return {
        CONNECT: lambda: ("POST", "/block"), DISCONNECT: lambda: ("POST", path("disconnect", 32)), TIP: lambda: ("GET", "/tip"),
        LIST: lambda: ("GET", path("list", 4)), ROW: lambda: ("GET", path("row", 4, 32)),
        PAYEES: lambda: ("GET", path("payees", 4, 2)), MEMBERS: lambda: ("GET", path("members", 1, 4)),
        QUORUMS: lambda: ("GET", path("quorums", 4)), DIFF: lambda: ("GET", path("diff", 32, 32)),
        PIN: lambda: ("POST", path("pin", 4)), PAGE: lambda: ("GET", path("page", 4, 4, 2)),
        RELEASE: lambda: ("POST", path("release", 4)),
    }[kind]()


def request_text(kind, body):
    method, path = target_of(kind, body)
    sent = body if kind == CONNECT else b""
    length = "Content-Length: %d\r\n" % len(sent) if kind == CONNECT else ""
    return ("%s %s HTTP/1.1\r\nHost: here\r\n%s\r\n" % (method, path, length)).encode() + sent


def reply_text(status, kind, body):
    return ("HTTP/1.1 %d %s\r\nContent-Type: application/%s\r\nContent-Length: %d\r\nConnection: close\r\n\r\n" % (
        status, WORDS[status], kind, len(body))).encode() + body


def json_reply(status, fields):
    return reply_text(status, "json", json.dumps(fields, sort_keys=True, separators=(",", ":")).encode())


def refusal(status, name, **fields):
    return json_reply(status, {"error": name, **fields})


def ok_reply(kind, asked, body):
    """The reply to a request that was answered Ok."""
    if kind in (CONNECT, DISCONNECT):
        return json_reply(200, {"height": number(body[:4]), "hash": body[4:].hex()})
    if kind == TIP:
        return json_reply(200, {"height": number(body[:4]), "hash": body[4:36].hex(), "low": number(body[36:40]),
                                "top": number(body[40:])})
    if kind == PAYEES:
        return json_reply(200, {"payees": [body[at:at + 32].hex() for at in range(2, len(body), 32)]})
    if kind == PIN:
        return json_reply(200, {"pin": number(body)})
    if kind == RELEASE:
        return json_reply(200, {"released": number(asked)})
    return reply_text(200, "octet-stream", body)


def reply_to(kind, asked, answer):
    """The reply that says what an answer's frame says."""
    status, body = answer[0], answer[HEAD:]
    if status == 0:
        return ok_reply(kind, asked, body)
    name, fields = STATUSES[status]
    if name == "Refused":
        place = number(body[1:5])
        return refusal(409, name, rule=body[0], tx=None if place == NO_TRANSACTION else place)
    told, at = {}, 0
    for field, size in fields:
        value = body[at:at + size]
        told[field] = value.hex() if size == 32 else number(value)
        at += size
    if name == "BadRequest":
        # a place in a body counts from its first byte
        told["at"] -= HEAD
    return refusal(NUMBERS[name], name, **told)


# ---- texts in words

# A piece of a text: in quotation marks as JSON has it, or hex digits, either of them perhaps so many times.
PIECE = re.compile(r'\s*(?:("(?:[^"\\]|\\.)*")(?:\*(\d+))?|([0-9a-f*+]+))(?:\s*\+)?')


def text_of_words(words):
    """Pieces one behind the other: '"GET /row/1/" + "00"*32 + " HTTP/1.1\r\n\r\n"'; bytes in hex stand without marks."""
    if words.strip() == "nothing":
        return b""
    text, at = b"", 0
    while at < len(words):
        piece = PIECE.match(words, at)
        if not piece:
            raise Mistake("a text is wanted in the place of '%s'" % words[at:].strip())
        said, times, digits = piece.groups()
        text += json.loads(said).encode() * int(times or 1) if said else bytes_of(digits)
        at = piece.end()
    return text


def reply_of_words(words):
    """'nothing'; a status and the JSON behind it, with the head that belongs to both; or a text."""
    status, _, body = words.partition(" ")
    if status.isdigit() and int(status) in WORDS:
        return reply_text(int(status), "json", body.strip().encode())
    return text_of_words(words)
