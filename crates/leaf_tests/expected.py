#!/usr/bin/env python3
# What leaf_tests has to print for the cases on standard input, from document 01 and by Python's own
# UTF-8 and ASCII codecs and number formats.
import sys

# 'The answer to a call'
ANSWERS = {'Done': 0, 'NotEnoughSpace': 1, 'NotAscii': 2, 'NotOnCharBoundary': 3, 'NotUtf8': 4,
           'NotAChar': 5, 'CountTooLarge': 6, 'TooDeep': 7, 'WrongCall': 8, 'BadCursor': 9}
# 'A character'
LETTERS = dict(zip(b'\t\n\r\\\'"', 'tnr\\\'"'))
TYPES = {sign + str(bits): (sign, bits) for sign in 'ui' for bits in (8, 16, 32, 64)}


def decimal(field, low=0, high=2**64 - 1):
    n = int(field)
    if str(n) != field or not low <= n <= high:
        raise ValueError(field)
    return n


def to_hex(s):
    return s.hex().upper()


def from_hex(field):
    s = bytes.fromhex(field)
    if to_hex(s) != field:
        raise ValueError(field)
    return s


def is_utf8(s):
    try:
        s.decode('utf-8')
        return 1
    except UnicodeDecodeError:
        return 0


def quoted(s, mark):
    """'A character' and 'A string': s between two marks, with the escapes."""
    text = mark
    for b in s:
        text += '\\' + LETTERS[b] if b in LETTERS else '\\x%02X' % b if b < 32 else chr(b)
    return (text + mark).encode('latin-1')


def escape(field):
    b = decimal(field, high=255)
    letter = ord(LETTERS[b]) if b in LETTERS else 'none'
    return '%d: %s %d,%d' % (b, letter, b in LETTERS or b < 32, b in LETTERS)


def character(code):
    c = decimal(code, high=2**32 - 1)
    try:
        display = chr(c).encode('utf-8')
        debug = quoted(display, "'")
        answer = 0
    except (ValueError, OverflowError):
        display, debug, answer = b'', b'', ANSWERS['NotAChar']
    forms = ((display, 4), (display, 6), (debug, 6))
    cells = ['%s,%d' % (to_hex(s.ljust(width, b'\0')), len(s)) for s, width in forms]
    return '%d: %d %s %d,%d' % (c, answer, ' '.join(cells), len(display), len(debug))


def ascii_text(field):
    s = from_hex(field)
    try:
        s.decode('ascii')
        return to_hex(s) + ': 0'
    except UnicodeDecodeError as fault:
        return '%s: %d from %d' % (to_hex(s), ANSWERS['NotAscii'], fault.start)


def boundary(field, index):
    s, i = from_hex(field), decimal(index)
    is_boundary = i == len(s) or i < len(s) and not 0x80 <= s[i] <= 0xBF
    if is_utf8(s):
        # In UTF-8, a place is a boundary exactly if both sides of it are UTF-8.
        assert is_boundary == bool(i <= len(s) and is_utf8(s[:i]) and is_utf8(s[i:]))
    return '%s at %d: %d' % (to_hex(s), i, is_boundary)


def clamp(s, start, end):
    end = min(end, len(s))
    return min(start, end), end


def text_range(field, start, end):
    s, start, end = from_hex(field), decimal(start), decimal(end)
    clamped = clamp(s, start, end)
    return '%d..%d of %d: %d..%d, up to the end %s' % (
        start, end, len(s), *clamped, s[:end].decode('latin-1'))


def quoted_lengths(field, start, end):
    s, start, end = from_hex(field), decimal(start), decimal(end)
    low, high = clamp(s, start, end)
    return '%s: 0 %d, from %d to %d 0 %d' % (
        to_hex(s), len(quoted(s, '"')), start, end, len(quoted(s[low:high], '"')))


def integer(word, value):
    """'A number': display, then debug in decimal, hexadecimal and binary by the flags."""
    sign, bits = TYPES[word]
    low, high = (0, 2**bits - 1) if sign == 'u' else (-2**(bits - 1), 2**(bits - 1) - 1)
    n = decimal(value, low, high)
    u = n % 2**bits
    forms = (f'{n:d}', f'{n:d}', f'{u:X}', f'{u:#x}', f'0x{u:X}', f'{u:b}', f'{u:#b}')
    return ', '.join('%d %s' % (len(form), form) for form in forms)


def integer_parts(unsigned, mask):
    """'Beside the record': an Integer of 64-bit fields, which may be negative and zero."""
    minus = '-' if unsigned.startswith('-') else ''
    n, m = decimal(unsigned.removeprefix('-')), decimal(mask)
    bits = (-n if minus else n) % 2**64 & m
    return f'{minus}{n},{m}: {minus}{n} {bits:X} {bits:b}'


def case(line):
    word, *fields = line.split(',')
    try:
        if not fields or len(line) > 4096:
            raise ValueError(line)
        if word in TYPES:
            return word + ' ' + integer(word, *fields)
        return word + ' ' + FORMS[word](*fields)
    except (ValueError, KeyError, TypeError):
        return 'bad'


FORMS = {
    'utf8': lambda field: '%s: %d' % (to_hex(from_hex(field)), is_utf8(from_hex(field))),
    'char': character,
    'escape': escape,
    'answer': lambda name: '%s: %d' % (name, ANSWERS[name]),
    'ascii': ascii_text,
    'boundary': boundary,
    'range': text_range,
    'quoted': quoted_lengths,
    'integer': integer_parts,
}

lines = sys.stdin.buffer.read().decode('latin-1').split('\n')
if lines[-1] == '':
    lines.pop()
for line in lines:
    if not line.startswith('#'):
        sys.stdout.buffer.write((case(line) + '\n').encode('latin-1'))
