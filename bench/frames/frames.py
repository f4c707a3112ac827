"""Frames, requests and replies, as the formats have them."""
import re, struct

import policy
from policy import readings

KINDS = policy.NUMBERS


class Width:
    """How long frames may be, and what one READ or WRITE may move."""

    def __init__(self, name, most, moved):
        self.name, self.most, self.moved = name, most, moved


NARROW = Width("narrow", 16384, 16000)
WIDE = Width("wide", 65536, 60000)


def frame(width, kind, body=b"", flags=0, peerid=0, pid=0):
    """A frame; of a wide one's flags there is but the lowest bit."""
    length = 16 + len(body)
    if width is WIDE:
        return struct.pack("<IIII", kind, length | (flags & 1) << 31, peerid, pid) + body
    return struct.pack("<IHHII", kind, length, flags, peerid, pid) + body


def cut(width, data):
    """The frames in front of some bytes, and how a session ends that goes through them all."""
    frames, at = [], 0
    while len(data) - at >= 16:
        kind, length, flags, peerid, pid = struct.unpack_from("<IHHII", data, at)
        if width is WIDE:
            length, flags = length | (flags & 32767) << 16, flags >> 15
        if not 16 <= length <= width.most:
            return frames, ("bad-frame", min(length, 65535))
        if len(data) - at < length:
            break
        frames.append((kind, flags, peerid, data[at + 16:at + length]))
        at += length
    return frames, ("child-ended",) if at == len(data) else ("truncated",)


def ask_of(width, kind, flags, body):
    """The ask that a frame makes: of a CHALLENGE without its moment, of a REPLY with its readings."""
    if flags & 1:
        return "bad", 2, flags
    if flags:
        return "bad", 3, flags
    if not 1 <= kind <= 13:
        return "bad", 4, kind
    word = list(KINDS)[kind - 1]
    ask = body_of(width, word, body)
    return ("bad", 5, kind) if ask is None else (word, *ask)


def body_of(width, word, body):
    """What a request's body says, or none where it isn't one."""
    if word == "challenge":
        return (body.decode(),) if policy.NAME.fullmatch(body) else None
    if word == "reply":
        return readings(body) if re.fullmatch(rb"[\t -~]{1,256}", body) else None
    if word == "export":
        return (len(body),) if len(body) <= 8192 else None
    if word == "read":
        numbers = struct.unpack("<IQH", body) if len(body) == 14 else (0, 0, 0)
        return numbers if 1 <= numbers[2] <= width.moved else None
    if word == "write":
        return (*struct.unpack_from("<IQ", body), len(body) - 12) if 13 <= len(body) <= 12 + width.moved else None
    if word == "grant":
        return (body[0], body[1:]) if body and 1 <= body[0] <= 3 and policy.LABEL.fullmatch(body[1:]) else None
    if word in ("close", "info"):
        return struct.unpack("<I", body) if len(body) == 4 else None
    if word == "note":
        return (body,) if policy.NOTE.fullmatch(body) else None
    return None if body else ()


def reply_head(kind, flags, peerid, session, body):
    """The bytes of a reply to a request with this head, in either width."""
    answered = kind + 256 if flags == 0 and 1 <= kind <= 13 else 256
    return frame(NARROW, answered, body, 0, peerid, session)


def denial(decision):
    """The body of a denial: of a reply the child isn't told why."""
    _, rule, detail = decision
    if 13 <= rule <= 16:
        rule, detail = 16, 0
    return struct.pack("<BBI", 1, rule, detail)
