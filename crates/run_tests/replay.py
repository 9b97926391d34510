"""Holds the model of expected.py against runs with the answers that const_format 0.2.37 gave, in the
form that crates/rust_replay/README.md gives, and prints how many differ:

    python3 crates/run_tests/replay.py < crates/rust_replay/stdin
"""
import sys

from expected import CALLS, Buffer, Counter, play


def first_and_number(out, flags, calls):
    """The first refusal, and the total or cursor."""
    return ",".join(play(out, flags, calls).split()[:2])


def replayed(line):
    """What the model gives for the run of a line, and what const_format gave."""
    flags, cursor, size, n, *rest = line.split(",")
    words, (text, *given) = [int(word) for word in rest[:int(n)]], rest[int(n):]
    text = bytes.fromhex(text)
    calls = []
    for k in range(0, len(words), 5):
        call, start, length, a, b = words[k:k + 5]
        calls.append((CALLS[call], text[start:start + length], a, b))
    buffer = Buffer(int(size), int(cursor))
    buffer.bytes = bytearray((37 * place + 91) % 256 for place in range(int(size)))
    counted = first_and_number(Counter(), int(flags), calls)
    written = first_and_number(buffer, int(flags), calls)
    return f"{counted},{written},{buffer.bytes.hex().upper()}", ",".join(given)


def main():
    pairs = [replayed(line) for line in sys.stdin.read().splitlines()]
    print(len(pairs), "replayed,", sum(model != given for model, given in pairs), "differ")


main()
