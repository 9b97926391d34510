"""What the cases of formatter_tests print, over the model of runs of run_tests/expected.py, which is
written from document 01 and ticket 5 of document 02:

    python3 crates/formatter_tests/expected.py < crates/formatter_tests/stdin > crates/formatter_tests/stdout

README.md has the form of the lines.
"""
import importlib.util
import re
import sys
from pathlib import Path

SPEC = importlib.util.spec_from_file_location(
    "runs", Path(__file__).parent.parent / "run_tests" / "expected.py")
runs = importlib.util.module_from_spec(SPEC)
SPEC.loader.exec_module(runs)

NO_CALL = 255
PLAIN = {"debug_list": "open_list", "debug_set": "open_set", "tuple_field": "tuple_field",
         "entry": "entry", "finish": "finish", "end_formatter": "end_formatter"}
NAMED = {"debug_struct": "open_struct", "debug_tuple": "open_tuple", "field": "field"}


def number(field, least=0, most=runs.TOP):
    if not re.fullmatch("0|-?[1-9][0-9]*", field) or not least <= int(field) <= most:
        raise ValueError(field)
    return int(field)


def text_of(field):
    if not re.fullmatch("([0-9A-F]{2})*", field) or len(field) > 144:
        raise ValueError(field)
    return bytes.fromhex(field)


def integer(signed, width, form, field):
    """An integer of a width, as the model's call."""
    if signed:
        value = number(field, -(2 ** (width - 1)), 2 ** (width - 1) - 1)
    else:
        value = number(field, most=2**width - 1)
    name = ("signed" if signed else "unsigned") + form
    return name, b"", value % 2**width, [8, 16, 32, 64].index(width)


def call_of(call):
    """The model's call for `METHOD,ARGUMENTS`."""
    name, _, rest = call.partition(",")
    if name in PLAIN and not rest:
        return PLAIN[name], b"", 0, 0
    if name in NAMED:
        return NAMED[name], text_of(rest), 0, 0
    if name == "make_formatter":
        return "sub_formatter", b"", number(rest, most=11), 0
    if name == "write_ascii_repeated":
        byte, times = rest.split(",")
        return "repeated", b"", number(byte, most=255), number(times)
    if found := re.fullmatch("write_(char|char_debug)", name):
        return found[1], b"", number(rest, most=2**32 - 1), 0
    if found := re.fullmatch("write_(str|ascii)(_debug|)", name):
        text = text_of(rest)
        return found[1] + found[2], text, 0, len(text)
    if found := re.fullmatch("write_(str|ascii)_range(_debug|)", name):
        text, start, end = rest.split(",")
        return found[1] + found[2], text_of(text), number(start), number(end)
    if found := re.fullmatch("write_([ui])(8|16|32|64)_(display|debug)", name):
        form = "_debug" if found[3] == "debug" else ""
        return integer(found[1] == "i", int(found[2]), form, rest)
    raise ValueError(call)


def make(formatter, call):
    """The answer to a call; a call of another form is not made."""
    try:
        made = call_of(call)
    except ValueError:
        return NO_CALL
    try:
        formatter.call(*made)
    except runs.Refused as refused:
        return refused.args[0]
    return 0


def play(formatter, call, before):
    """The answer to a call, or the last answer where those before it are made again."""
    if call.split(",")[0] != "repeat":
        return make(formatter, call)
    answer = NO_CALL
    try:
        times = number(call.partition(",")[2], most=65536)
    except ValueError:
        return NO_CALL
    for _ in range(times):
        for again in before:
            answer = make(formatter, again)
    return answer


def row(name, answers, formatters):
    steps = [f"{answer} {formatter.out.number} {formatter.margin} {formatter.flags}"
             for answer, formatter in zip(answers, formatters)]
    return f"{name}: {steps[0]}, {steps[1]}"


def answer(line):
    """The rows that a line prints."""
    head, *calls = line.split(";")
    name, flags, size, cursor = (head.split(",", 3) + ["", "", ""])[:4]
    flags, size, cursor = number(flags, most=11), number(size, most=256), number(cursor)
    if len(line) > 4096:
        raise ValueError(line)
    outputs = [runs.Counter(), runs.Buffer(size, cursor)]
    formatters = [runs.Formatter(out, flags) for out in outputs]
    rows = [row(name, (0, 9 if cursor > size else 0), formatters)]
    for place, call in enumerate(calls):
        answers = [play(formatter, call, calls[:place]) for formatter in formatters]
        rows.append(row(" " + call, answers, formatters))
    rows.append(f" bytes: {'2E' * 4}, {outputs[1].bytes.hex().upper()}")
    return "\n".join(rows)


def main():
    for line in sys.stdin.read().splitlines():
        if line and not line.startswith("#"):
            try:
                print(answer(line))
            except ValueError:
                print("bad")


main()
