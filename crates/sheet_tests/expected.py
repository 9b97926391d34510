"""What the sheets of sheet_tests print, by document 01, 'The call sheet', over the model of runs of
run_tests/expected.py:

    python3 crates/sheet_tests/expected.py > crates/sheet_tests/stdout
"""
import importlib.util
import re
from pathlib import Path

HERE = Path(__file__).parent
SPEC = importlib.util.spec_from_file_location("runs", HERE.parent / "run_tests" / "expected.py")
runs = importlib.util.module_from_spec(SPEC)
SPEC.loader.exec_module(runs)

MAX_LINE = MAX_SIZE = 4096
PIECE = 65536


class Bad(Exception):
    """A line of another form, or a value outside its type or limit."""


def decimal(field, least=0, most=runs.TOP):
    if not re.fullmatch(b"0|-?[1-9][0-9]*", field) or not least <= int(field) <= most:
        raise Bad
    return int(field)


def hex_bytes(field):
    if not re.fullmatch(b"([0-9A-F]{2})*", field):
        raise Bad
    return bytes.fromhex(field.decode())


def place(field, *words):
    if field not in words:
        raise Bad
    return words.index(field)


def begin(line):
    """The size, the cursor and the flags of line 1."""
    word, size, cursor, base, digits, layout = (line.split(b",") + [b""] * 6)[:6]
    if len(line) > MAX_LINE or word != b"begin" or line.count(b",") != 5:
        raise Bad
    size, cursor = decimal(size, most=MAX_SIZE), decimal(cursor)
    flags = 4 * place(base, b"dec", b"hex", b"bin")
    return size, cursor, flags + 2 * place(digits, b"upper", b"lower") + place(layout, b"plain", b"alt")


def number(kind, field):
    if not re.fullmatch(b"[ui](8|16|32|64)", kind):
        raise Bad
    bits = int(kind[1:])
    if kind[:1] == b"u":
        return "unsigned_debug", b"", decimal(field, most=2**bits - 1), [8, 16, 32, 64].index(bits)
    value = decimal(field, -(2 ** (bits - 1)), 2 ** (bits - 1) - 1)
    return "signed_debug", b"", value % 2**bits, [8, 16, 32, 64].index(bits)


def call(line):
    """The call that a later line means."""
    if len(line) > MAX_LINE:
        raise Bad
    word, *fields = line.split(b",")
    match word, len(fields):
        case (b"open", 2):
            return ["open_struct", "open_tuple"][place(fields[0], b"struct", b"tuple")], hex_bytes(fields[1]), 0, 0
        case (b"open", 1):
            return ["open_list", "open_set"][place(fields[0], b"list", b"set")], b"", 0, 0
        case (b"field", 1):
            return "field", hex_bytes(fields[0]), 0, 0
        case (b"field", 0):
            return "tuple_field", b"", 0, 0
        case (b"entry", 0) | (b"finish", 0):
            return word.decode(), b"", 0, 0
        case (b"num", 2):
            return number(*fields)
        case (b"str", 1):
            return "str", hex_bytes(fields[0]), 0, runs.TOP
        case (b"quoted", 1):
            return "str_debug", hex_bytes(fields[0]), 0, runs.TOP
        case (b"char", 1):
            return "char", b"", decimal(fields[0], most=2**32 - 1), 0
    raise Bad


def answer(formatter, made):
    try:
        formatter.call(*made)
    except runs.Refused as refused:
        return refused.args[0]
    return 0


def printed(data):
    """The lines that a sheet prints."""
    lines = data.split(b"\n")
    if lines[-1] == b"":
        lines.pop()
    if not lines:
        return
    k = 1
    try:
        size, cursor, flags = begin(lines[0])
        if cursor > size:
            yield "1,9"
            return
        total, buffer = runs.Counter(), runs.Buffer(0, cursor)
        buffer.bytes = bytearray(size)
        counted, written = runs.Formatter(total, flags), runs.Formatter(buffer, flags)
        for k, line in enumerate(lines[1:], 2):
            made = call(line)
            counting = answer(counted, made)
            writing = answer(written, made)
            yield f"{k},{counting},{total.number},{writing},{buffer.number}"
        yield f"end,{total.number},{buffer.number},{bytes(buffer.bytes[:buffer.number]).hex().upper()}"
    except Bad:
        yield f"{k},bad"


def main():
    is_taken = True
    for word in (HERE / "args").read_text().split():
        if word in ("closed", "full"):
            is_taken = False
            continue
        data = (HERE / "data" / word).read_bytes()
        print("==", word)
        if is_taken:
            for line in printed(data):
                print(line)
        else:
            print(max(len(data) - PIECE, 0), "bytes are not read")


main()
