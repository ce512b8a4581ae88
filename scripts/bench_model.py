#!/usr/bin/env python3
"""A model of the bench program, independent of its code: reads steps on standard input and prints
what the bench must print. It uses Python's own hashlib and hmac, and a reader of canonical CBOR
written from the rules in docs/BENCH.md.
"""
import hashlib
import hmac
import re
import sys

LONGEST = 1024
COMMAND = 0x41
DEEPEST = 4

HELP = [
    "digest HEX         SHA-256 of the bytes",
    "hmac KEY HEX       HMAC-SHA-256 of the bytes under the key",
    "tag TOKEN SUB HEX  the first 16 bytes of the HMAC under the token, of SUB and then the bytes",
    "read HEX           the verdict on a message, and the place where it breaks",
    "explain HEX        the items of a message up to where it breaks, then the line of read",
    "help               these lines",
]


class Wrong(Exception):
    """A line that is no step."""


class Fault(Exception):
    """The place of the first item that breaks a rule."""


# Canonical CBOR


def head(message, place):
    """Major type, argument and end of the head at `place`."""
    if place >= len(message):
        raise Fault(len(message))
    major, info = message[place] >> 5, message[place] & 0x1F
    if major == 6 or info > 27:
        raise Fault(place)
    if major == 7:
        if info not in (20, 21, 22):
            raise Fault(place)
        return major, info, place + 1
    if info < 24:
        return major, info, place + 1
    size = 1 << (info - 24)
    field = message[place + 1 : place + 1 + size]
    if len(field) < size:
        raise Fault(place)
    value = int.from_bytes(field, "big")
    smallest = 24 if size == 1 else 1 << (4 * size)
    if value < smallest:
        raise Fault(place)
    return major, value, place + 1 + size


def key_rank(encoded):
    """Keys ascend by major type, then length, then bytes."""
    return encoded[0] >> 5, len(encoded), encoded


def read_item(message, place, level, listed):
    """Reads the item at `place`, which lies in `level` containers, and returns its end."""
    major, value, end = head(message, place)
    if major in (2, 3):
        content = message[end : end + value]
        if len(content) < value:
            raise Fault(place)
        listed.append((place, level, "bytes " + to_hex(content) if major == 2 else "text " + quoted(content)))
        return end + value
    if major in (4, 5) and level == DEEPEST:
        raise Fault(place)
    if major == 0:
        listed.append((place, level, "number %d" % value))
    elif major == 1:
        listed.append((place, level, "negative %d" % (-1 - value)))
    elif major == 7:
        listed.append((place, level, {20: "false", 21: "true", 22: "null"}[value]))
    elif major == 4:
        listed.append((place, level, "array %d" % value))
        while value:
            end = read_item(message, end, level + 1, listed)
            value -= 1
    else:
        listed.append((place, level, "map %d" % value))
        before = None
        while value:
            if end < len(message) and message[end] >> 5 > 3:
                raise Fault(end)
            after = read_item(message, end, level + 1, listed)
            encoded = message[end:after]
            if before is not None and key_rank(encoded) <= key_rank(before):
                raise Fault(end)
            before = encoded
            end = read_item(message, after, level + 1, listed)
            value -= 1
    return end


def verdict(message):
    """Status, place and the items that lie before the fault."""
    if not message:
        return 0x03, 0, []
    if len(message) > LONGEST:
        return 0x39, 0, []
    if message[0] != COMMAND:
        return 0x01, 0, []
    listed = []
    try:
        end = read_item(message, 1, 0, listed)
        if end < len(message):
            raise Fault(end)
    except Fault as fault:
        place = fault.args[0]
        return 0x12, place, [entry for entry in listed if entry[0] < place]
    return 0x00, 0, listed


# Text


def to_hex(data):
    return data.hex() or "-"


def quoted(data):
    out = ""
    for byte in data:
        if 0x20 <= byte <= 0x7E and byte not in b'"\\':
            out += chr(byte)
        else:
            out += "\\x%02x" % byte
    return '"' + out + '"'


def to_bytes(word):
    if not re.fullmatch(rb"-|(?:[0-9a-f][0-9a-f])+", word):
        raise Wrong("bytes must be pairs of lower-case hex digits, or -")
    return b"" if word == b"-" else bytes.fromhex(word.decode("ascii"))


def to_sub(word):
    if re.fullmatch(rb"[0-9]+", word):
        digits = word.lstrip(b"0") or b"0"
        if len(digits) <= 3 and int(digits) <= 255:
            return int(digits)
    raise Wrong("SUB must be a decimal number from 0 to 255")


# Steps


def digest(message):
    return ["digest: " + to_hex(hashlib.sha256(to_bytes(message)).digest())]


def mac(key, message):
    key, message = to_bytes(key), to_bytes(message)
    return ["hmac: " + to_hex(hmac.new(key, message, hashlib.sha256).digest())]


def tag(token, sub, params):
    token, sub, params = to_bytes(token), to_sub(sub), to_bytes(params)
    return ["tag: " + to_hex(hmac.new(token, bytes([sub]) + params, hashlib.sha256).digest()[:16])]


def read(message):
    status, place, _ = verdict(to_bytes(message))
    return ["read: 0x%02x place %d" % (status, place)]


def explain(message):
    status, place, listed = verdict(to_bytes(message))
    lines = ["%s@%d %s" % ("  " * level, at, text) for at, level, text in listed]
    return lines + ["read: 0x%02x place %d" % (status, place)]


STEPS = {
    b"digest": (1, digest),
    b"hmac": (2, mac),
    b"tag": (3, tag),
    b"read": (1, read),
    b"explain": (1, explain),
    b"help": (0, lambda: HELP),
}


def answer(line):
    """The lines that answer one line of input."""
    if not line or line.startswith(b"#"):
        return []
    name, *words = line.split(b" ")
    try:
        if name not in STEPS:
            raise Wrong("no such step, try help")
        count, step = STEPS[name]
        if len(words) != count:
            raise Wrong("wrong number of words for this step")
        return step(*words)
    except Wrong as wrong:
        return ["error: " + wrong.args[0]]


def main():
    for line in sys.stdin.buffer:
        for text in answer(line[:-1] if line.endswith(b"\n") else line):
            sys.stdout.write(text + "\n")
        sys.stdout.flush()


if __name__ == "__main__":
    main()
