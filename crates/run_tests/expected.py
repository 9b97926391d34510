"""What the cases of run_tests print, by a model of runs that is written from document 01 and ticket 5
of document 02:

    python3 crates/run_tests/expected.py < crates/run_tests/stdin > crates/run_tests/stdout

README.md has the forms of the lines. The numbers 0 to 9 are document 01's answers.
"""
import re
import sys
from types import SimpleNamespace

TOP = 2**64 - 1
CALLS = ("open_struct open_tuple open_list open_set field tuple_field entry finish sub_formatter "
         "end_formatter str str_debug ascii ascii_debug char char_debug repeated unsigned "
         "unsigned_debug signed signed_debug no_call").split()
# The first separator, plain and alternate; the closing, plain and alternate; without fields.
BUILDERS = {
    "struct": (b" { ", b" {\n", b" }", b"}", b""),
    "tuple": (b"(", b"(\n", b")", b")", b""),
    "list": (b"[", b"[\n", b"]", b"]", b"[]"),
    "set": (b"{", b"{\n", b"}", b"}", b"{}"),
}
LETTERS = dict(zip(b"\t\n\r\\'\"", "tnr\\'\""))


class Refused(Exception):
    """The answer 1 to 9 of a call, as the only argument."""


class Counter:
    """A total."""

    def __init__(self, number=0):
        self.number = number

    def check_cursor(self):
        pass

    def check_boundaries(self, text, places):
        pass

    def put(self, text, times=1):
        if self.number + len(text) * times > TOP:
            raise Refused(6)
        self.number += len(text) * times


class Buffer:
    """Dots, and a cursor."""

    def __init__(self, size, cursor):
        self.bytes = bytearray(b"." * size)
        self.number = cursor

    def check_cursor(self):
        if self.number > len(self.bytes):
            raise Refused(9)

    def check_boundaries(self, text, places):
        if any(0x80 <= byte <= 0xBF for place in places for byte in text[place:place + 1]):
            raise Refused(3)

    def put(self, text, times=1):
        end = self.number + len(text) * times
        if end > len(self.bytes):
            raise Refused(1)
        self.bytes[self.number:end] = text * times
        self.number = end


def escaped(byte):
    if byte in LETTERS:
        return b"\\" + LETTERS[byte].encode()
    return b"\\x%02X" % byte if byte < 32 else bytes([byte])


def quoted(text, mark):
    return mark + b"".join(map(escaped, text)) + mark


def check_utf8(text):
    try:
        text.decode("utf-8")
    except UnicodeDecodeError:
        raise Refused(4) from None


class Formatter:
    """Flags as a number, the margin, and the open entries; a sub-formatter is one of no kind."""

    def __init__(self, out, flags):
        self.out, self.flags, self.margin, self.entries = out, flags, 0, []

    def innermost(self):
        return self.entries[-1] if self.entries else SimpleNamespace(kind="nothing")

    def check_place(self):
        if self.innermost().kind in BUILDERS and not self.innermost().has_field:
            raise Refused(8)

    def hold(self, entry, text, times=1):
        try:
            self.out.put(text, times)
        except Refused as refused:
            entry.held = refused

    def open(self, kind, name):
        self.check_place()
        if len(self.entries) == 64 or self.margin > 65531:
            raise Refused(7)
        check_utf8(name)
        self.entries.append(SimpleNamespace(kind=kind, has_field=False, held=None))
        self.hold(self.innermost(), name)
        self.margin += 4

    def field(self, kinds, name):
        entry = self.innermost()
        if entry.kind not in kinds:
            raise Refused(8)
        check_utf8(name)
        alternate = self.flags % 2
        separators = (b", ", b",\n") if entry.has_field else BUILDERS[entry.kind][:2]
        entry.has_field = True
        self.hold(entry, separators[alternate])
        self.hold(entry, b" ", self.margin * alternate)
        if entry.kind == "struct":
            self.hold(entry, name)
            self.hold(entry, b": ")

    def finish(self):
        entry = self.innermost()
        if entry.kind not in BUILDERS:
            raise Refused(8)
        self.entries.pop()
        if entry.held:
            raise entry.held
        self.margin -= 4
        plain, alternate, empty = BUILDERS[entry.kind][2:]
        if not entry.has_field:
            self.out.put(empty)
        elif self.flags % 2 == 0:
            self.out.put(plain)
        else:
            self.out.put(b",\n")
            self.out.put(b" ", self.margin)
            self.out.put(alternate)

    def sub_formatter(self, flags):
        self.check_place()
        if len(self.entries) == 64:
            raise Refused(7)
        self.entries.append(SimpleNamespace(kind=None, outside=(self.flags, self.margin)))
        self.flags = flags

    def end_formatter(self):
        if self.innermost().kind is not None:
            raise Refused(8)
        self.flags, self.margin = self.entries.pop().outside

    def string(self, text, start, end, debug):
        end = min(end, len(text))
        start = min(start, end)
        self.out.check_boundaries(text, (start, end))
        part = text[start:end]
        self.out.put(quoted(part, b'"') if debug else part)

    def char(self, code, debug):
        if 0xD800 <= code <= 0xDFFF or code > 0x10FFFF:
            raise Refused(5)
        text = chr(code).encode("utf-8")
        self.out.put(quoted(text, b"'") if debug else text)

    def integer(self, signed, bits, width, debug):
        form = ["d", "X", "b"][self.flags // 4] if debug else "d"
        if form == "d":
            text = str(bits - 2**width if signed and bits >= 2**(width - 1) else bits)
        else:
            text = format(bits, form.lower() if self.flags & 2 else form)
            text = {"X": "0x", "b": "0b"}[form] * (self.flags % 2) + text
        self.out.put(text.encode())

    def value(self, name, text, a, b):
        self.check_place()
        name, debug = name.removesuffix("_debug"), name.endswith("_debug")
        if name == "str":
            check_utf8(text)
            self.string(text, a, b, debug)
        elif name == "ascii":
            if not text.isascii():
                raise Refused(2)
            self.string(text, a, b, debug)
        elif name == "char":
            self.char(a, debug)
        elif name == "repeated":
            self.out.put(bytes([a % 128]), b)
        else:
            self.integer(name == "signed", a, 8 << b, debug)

    def call(self, name, text, a, b):
        self.out.check_cursor()
        numbers = {"sub_formatter": a < 12, "char": a < 2**32, "char_debug": a < 2**32,
                   "repeated": a < 256, "no_call": False}
        if not numbers.get(name, "signed" not in name or b < 4 and a < 2**(8 << b)):
            raise Refused(8)
        if name in ("open_struct", "open_tuple"):
            self.open(name[5:], text)
        elif name in ("open_list", "open_set"):
            self.open(name[5:], b"")
        elif name == "field":
            self.field(["struct"], text)
        elif name == "tuple_field":
            self.field(["tuple"], b"")
        elif name == "entry":
            self.field(["list", "set"], b"")
        elif name == "finish":
            self.finish()
        elif name == "sub_formatter":
            self.sub_formatter(a)
        elif name == "end_formatter":
            self.end_formatter()
        else:
            self.value(name, text, a, b)


def answers_of(formatter, calls):
    """Plays the calls of a run: the answer to each."""
    answers = []
    for call in calls:
        try:
            formatter.call(*call)
            answers.append(0)
        except Refused as refused:
            answers.append(refused.args[0])
    return answers


def end_of(formatter, answers):
    """The end of a run: its first refusal, its total or cursor, how many calls were done before that
    refusal, and how many entries are open."""
    refusals = [answer for answer in answers if answer]
    try:
        formatter.out.check_cursor()
    except Refused as refused:
        refusals.insert(0, refused.args[0])
    done = next((place for place, answer in enumerate(answers) if answer), len(answers))
    first = refusals[0] if refusals else 0
    return f"{first} {formatter.out.number} {done} {len(formatter.entries)}"


def play(out, flags, calls):
    """Plays a run: its end."""
    formatter = Formatter(out, flags)
    return end_of(formatter, answers_of(formatter, calls))


def written(flags, calls, size, cursor):
    buffer = Buffer(size, cursor)
    return f"{play(buffer, flags, calls)} {buffer.bytes.hex().upper()}"


def both(flags, write_flags, place, calls):
    return f"{play(Counter(), flags, calls)}, {play(Buffer(160, place), write_flags, calls)}"


def show(flags, place, calls):
    counter = Counter()
    yield "counted " + play(counter, flags, calls)
    for n in range(len(calls) + 1):
        yield f" {n} calls: {both(flags, flags, place, calls[:n])}"
    for size in range(min(counter.number + 2, 160)):
        yield f" {size}: {written(flags, calls, size, 0)}"
    yield f" 4 at 5: {written(flags, calls, 4, 5)}"


def add(flags, length, calls):
    counter = Counter()
    end = play(counter, flags, calls)
    try:
        counter.put(b".", length)
        second = 0
    except Refused as refused:
        second = refused.args[0]
    return f"{end} {second} {counter.number}"


def each_counted(flags, total, calls):
    """Counts a run call by call on from a total: for each call its answer, the total then and whether
    that is 0; at the end how many entries are open, and the margin."""
    counter = Counter(total)
    formatter = Formatter(counter, flags)
    for call in calls:
        [answer] = answers_of(formatter, [call])
        yield f"{answer} {counter.number} {int(counter.number == 0)}"
    yield f"{len(formatter.entries)} {formatter.margin}"


def each(out, flags, places, calls):
    """Plays a run: its end, and the answers in as many places as there are, which held dots before."""
    formatter = Formatter(out, flags)
    answers = answers_of(formatter, calls)
    stored = bytes(answers[:places]).ljust(places, b".")
    return f"{end_of(formatter, answers)} {stored.hex().upper()}"


def decimal(field, most=TOP):
    if not re.fullmatch("0|[1-9][0-9]*", field) or int(field) > most:
        raise ValueError(field)
    return int(field)


def call_of(call):
    name, text, a, b = (call.split(",", 3) + ["", "", ""])[:4]
    if name not in CALLS or not re.fullmatch("([0-9A-F]{2})*", text):
        raise ValueError(call)
    return name, bytes.fromhex(text), decimal(a or "0"), decimal(b or "0")


def answer(line):
    head, *calls = line.split(";")
    word, flags, number, name = (head.split(",", 3) + ["", "", ""])[:4]
    flags, number = decimal(flags, 11), decimal(number)
    calls = [call_of(call) for call in calls]
    if len(line) > 4096 or len(calls) > 255:
        raise ValueError(line)
    if word == "show":
        return f"{name}: " + "\n".join(show(flags, number, calls))
    if word == "both":
        return f"{name}: {both(flags, 0, number, calls)}"
    if word == "count":
        return f"{name}: {play(Counter(number), flags, calls)}"
    if word == "write":
        return f"{name}: {play(Buffer(4, number), flags, calls)}"
    if word == "add":
        return f"{name}: {add(flags, number, calls)}"
    if word == "calls":
        return f"{name}: " + ", ".join(each_counted(flags, number, calls))
    if word == "each":
        if number > 160:
            raise ValueError(line)
        return (f"{name}: {each(Counter(), flags, number, calls)}, "
                f"{each(Buffer(160, 0), flags, number, calls)}")
    raise ValueError(line)


if __name__ == "__main__":
    for line in sys.stdin.read().splitlines():
        try:
            if line and not line.startswith("#"):
                print(answer(line))
        except ValueError:
            print("bad")
