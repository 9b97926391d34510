#!/usr/bin/env python3
"""Single writes and calls through the lent writer by documents 01 and 02, with Python's own UTF-8, integers and formats.

Reads the cases of writer_tests on standard input and prints what the program must print.
"""
import re
import sys

DONE, NOT_ENOUGH_SPACE, NOT_ASCII, NOT_ON_BOUNDARY = 0, 1, 2, 3
NOT_UTF8, NOT_A_CHAR, BAD_CURSOR = 4, 5, 9
MOST = 2**64 - 1


class Bad(Exception):
    """A line of another form."""


# ---- the fields of a line

def number(field, least=0, most=MOST):
    """A decimal of shortest digits, a minus only below zero."""
    if not re.fullmatch("0|-?[1-9][0-9]*", field) or not least <= int(field) <= most:
        raise Bad
    return int(field)


def text(field):
    """Upper HEX pairs, at most 72."""
    if not re.fullmatch("([0-9A-F]{2}){0,72}", field):
        raise Bad
    return bytes.fromhex(field)


def take(fields, *forms):
    """Each field read by its form; a last text that is missing is empty."""
    if len(fields) == len(forms) - 1 and forms[-1] is text:
        fields = fields + [""]
    if len(fields) != len(forms):
        raise Bad
    return [form(field) for form, field in zip(forms, fields)]


def code(field):
    return number(field, most=2**32 - 1)


def byte(field):
    return number(field, most=255)


def word(*words):
    def form(field):
        if field not in words:
            raise Bad
        return field
    return form


# ---- what texts are

def is_utf8(s):
    try:
        s.decode("utf-8")
    except UnicodeDecodeError:
        return False
    return True


def escaped(b):
    """A byte between quotation marks ('A character', 'A string')."""
    letters = {"\t": "t", "\n": "n", "\r": "r", "\\": "\\", "'": "'", '"': '"'}
    c = chr(b)
    if c in letters:
        return b"\\" + letters[c].encode()
    return b"\\x%02X" % b if b < 32 else bytes([b])


def quoted(s):
    return b'"' + b"".join(map(escaped, s)) + b'"'


def refusal_of(kind, s, start, end):
    """2 or 4 by the whole text, then 3 by the ends of the clamped range, else 0."""
    if kind == "ascii":
        return DONE if s.isascii() else NOT_ASCII
    if not is_utf8(s):
        return NOT_UTF8
    return DONE if is_utf8(s[:start]) and is_utf8(s[:end]) else NOT_ON_BOUNDARY


# ---- what a write does

def put(buf, at, refusal, body):
    """The answer, the cursor and the buffer after it ('The answer to a call'; document 02, ticket 5: a
    refused quoted text too leaves every byte)."""
    if at > len(buf):
        return BAD_CURSOR, at, buf
    if refusal:
        return refusal, at, buf
    if at + len(body) > len(buf):
        return NOT_ENOUGH_SPACE, at, buf
    return DONE, at + len(body), buf[:at] + body + buf[at + len(body):]


def put_text(buf, at, kind, is_debug, s, start=0, end=MOST):
    end = min(end, len(s))
    start = min(start, end)
    refusal = refusal_of(kind, s, start, end)
    return put(buf, at, refusal, quoted(s[start:end]) if is_debug else s[start:end])


def put_char(buf, at, is_debug, c):
    try:
        octets = chr(c).encode("utf-8")
    except (ValueError, OverflowError):
        return put(buf, at, NOT_A_CHAR, b"")
    if is_debug:
        octets = b"'" + (escaped(c) if c < 128 else octets) + b"'"
    return put(buf, at, DONE, octets)


def put_integer(buf, at, bits, x, base="dec", digits="upper", layout="plain"):
    if base == "dec":
        body = str(x)
    else:
        letter = {"hex": "x", "bin": "b"}[base]
        body = format(x % 2**bits, letter)
        body = body.upper() if digits == "upper" else body
        body = "0" + letter + body if layout == "alt" else body
    return put(buf, at, DONE, body.encode())


def truncated(buf, at, length, is_utf8):
    """The answer and the cursor ('Beside the record'; document 02, ticket 2: the end of the text is a boundary)."""
    if at > len(buf):
        return BAD_CURSOR, at
    if length > at:
        return DONE, at
    if is_utf8 and length < at and 0x80 <= buf[length] <= 0xBF:
        return NOT_ON_BOUNDARY, at
    return DONE, length


# ---- the lines

def call(name, fields, buf, at):
    """What the write of this name gives; Bad for another name or other arguments."""
    if m := re.fullmatch("write_(str|ascii)(_range)?(_debug)?", name):
        forms = (text, number, number) if m[2] else (text,)
        return put_text(buf, at, m[1], m[3], *take(fields, *forms))
    if m := re.fullmatch("write_char(_debug)?", name):
        return put_char(buf, at, m[1], *take(fields, code))
    if name == "write_ascii_repeated":
        c, n = take(fields, byte, number)
        return put(buf, at, DONE, bytes([c % 128]) * min(n, 73))
    if m := re.fullmatch("write_([ui])(8|16|32|64)_(display|debug)", name):
        bits = int(m[2])
        least, most = (0, 2**bits - 1) if m[1] == "u" else (-(2 ** (bits - 1)), 2 ** (bits - 1) - 1)
        flags = (word("dec", "hex", "bin"), word("upper", "lower"), word("plain", "alt"))
        forms = (lambda field: number(field, least, most),) + (flags if m[3] == "debug" else ())
        return put_integer(buf, at, bits, *take(fields, *forms))
    raise Bad


def write_line(name, len_field, at_field, *fields):
    buf, at = b"." * number(len_field, most=72), number(at_field)
    if name == "write_str_then_debug":
        s, t = take(list(fields), text, text)
        first, cursor, after = put_text(buf, at, "str", False, s)
        second, cursor, after = put_text(after, cursor, "str", True, t)
        gave = f"{first} {second} {cursor}"
    else:
        answer, cursor, after = call(name, list(fields), buf, at)
        gave = f"{answer} {cursor}"
    return f"{gave} [{after.hex().upper()}]"


def from_custom_line(name, *fields):
    buf, at = take(list(fields), text, number)
    answer = DONE if at <= len(buf) else BAD_CURSOR
    left = max(len(buf) - at, 0)
    return f"{answer} {at}, left {left} [{buf[:at].hex().upper()}]"


def truncate_line(name, *fields):
    buf, at, length = take(list(fields), text, number, number)
    plain, utf8 = (truncated(buf, at, length, is_utf8) for is_utf8 in (False, True))
    return "{} {}, utf8: {} {}".format(*plain, *utf8)


def write_then_truncate_line(name, *fields):
    """The write at a cleared cursor; each truncation gets the cursor that the call before it left."""
    buf, s, length, utf8_length = take(list(fields), text, text, number, number)
    written, at, after = put_text(buf, 0, "str", False, s)
    plain, at_plain = truncated(after, at, length, False)
    utf8, at_utf8 = truncated(after, at_plain, utf8_length, True)
    return f"{written}, truncate: {plain} {at_plain}, utf8: {utf8} {at_utf8} [{after.hex().upper()}]"


def answer_to(line):
    fields = line.split(",")
    kinds = {
        "from_custom": from_custom_line,
        "truncate": truncate_line,
        "write_str_then_truncate": write_then_truncate_line,
    }
    try:
        if fields[0] not in kinds and len(fields) < 3:
            raise Bad
        return line + ": " + kinds.get(fields[0], write_line)(*fields)
    except Bad:
        return "bad"


for line in sys.stdin.buffer:
    line = line.decode("latin-1").rstrip("\n")
    if not line.startswith("#"):
        print(answer_to(line))
