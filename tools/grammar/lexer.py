"""The tokens of a VHDL file, or the first place where none starts; written for itself, apart from the translator's lexer.

A token is (symbol, offset): the symbol is a reserved word or a sign as the grammar writes it between double quotes, or one
of `id`, `int`, `char`, `string`, `bitstring`, `End`.
"""

import re

MOST = 16_777_216  # bytes of a file
LARGEST = 2_147_483_647  # value of a number

WORDS = frozenset("""
    abs access after alias all and architecture array assert attribute begin block body buffer bus case component
    configuration constant disconnect downto else elsif end entity exit file for function generate generic group guarded if
    impure in inertial inout is label library linkage literal loop map mod nand new next nor not null of on open or others
    out package port postponed procedure process pure range record register reject rem report return rol ror select severity
    shared signal sla sll sra srl subtype then to transport type unaffected units until use variable wait when while with
    xnor xor
""".split())

SIGNS = [":=", "<>", "<=", "=>", "/=", ">=", "**"] + list(";,.():|=<>+-&*/'")

SPACE = re.compile(rb"[ \t\n\v\f\r]+|--[^\n]*")
WORD = re.compile(rb"[A-Za-z](?:_?[A-Za-z0-9])*")
INTEGER = re.compile(rb"[0-9](?:_?[0-9])*")
BASED = re.compile(rb"([0-9](?:_?[0-9])*)#([0-9A-Za-z.](?:_?[0-9A-Za-z.])*)#")
EXPONENT = re.compile(rb"[Ee]\+?([0-9](?:_?[0-9])*)")
STRING = re.compile(rb'"(?:[ !\x23-\x7e]|"")*"')  # the longest: `""` goes on only where another quote ends it
PRINTABLE = re.compile(rb"[\x20-\x7e]*")
BITS = {"b": rb"[01]", "o": rb"[0-7]", "x": rb"[0-9A-Fa-f]"}
CHAR = re.compile(rb"'[\x20-\x7e]'")


class Bad(Exception):
    """No piece starts at `at`."""

    def __init__(self, code, at):
        super().__init__(code, at)
        self.code = code
        self.at = at


def digit(byte):
    return int(chr(byte), 36)


def small(digits):
    """The decimal number of the digits, or any number over 99."""
    figures = digits.replace(b"_", b"").lstrip(b"0")
    return int(figures[:3] or b"0")


def number_end(data, at):
    """The offset behind the number at `at`, or None where it is bad."""
    base, found = 10, INTEGER.match(data, at)
    digits, end = found[0], found.end()
    based = BASED.match(data, at)
    if based and 2 <= small(based[1]) <= 16:
        base, digits, end = small(based[1]), based[2], based.end()
    digits = digits.replace(b"_", b"")
    exponent = EXPONENT.match(data, end)
    power = 0
    if exponent:
        power, end = small(exponent[1]), exponent.end()
    behind = data[end : end + 1]
    if behind == b"." or behind.isalpha() and behind.isascii():
        return None
    if b"." in digits or any(digit(byte) >= base for byte in digits):
        return None
    value = 0
    for byte in digits.lstrip(b"0"):
        value = value * base + digit(byte)
        if value > LARGEST:
            return None
    if value > 0 and (power > 31 or value * base**power > LARGEST):
        return None
    return end


def quote(data, at):
    """Why no string starts at the quote at `at`."""
    behind = PRINTABLE.match(data, at + 1).end()
    return "X2" if data[behind : behind + 1] in (b"", b"\r", b"\n") else "X1"


def piece(data, at, is_named):
    """The piece at `at`: its symbol, or None for white space and comments, and the offset behind it."""
    byte = chr(data[at])
    space = SPACE.match(data, at)
    if space:
        return None, space.end()
    if byte.isalpha() and byte.isascii():
        text = STRING.match(data, at + 1) if byte.lower() in BITS else None
        if text:
            one = BITS[byte.lower()]
            if not re.fullmatch(one + rb"(?:_?" + one + rb")*", text[0][1:-1]):
                raise Bad("X5", at)
            return "bitstring", text.end()
        word = WORD.match(data, at)
        if data[word.end() : word.end() + 1] == b"_":
            raise Bad("X1", at)
        folded = word[0].decode().lower()
        return folded if folded in WORDS else "id", word.end()
    if byte.isdigit() and byte.isascii():
        end = number_end(data, at)
        if end is None:
            raise Bad("X3", at)
        return "int", end
    if byte == '"':
        text = STRING.match(data, at)
        if not text:
            raise Bad(quote(data, at), at)
        return "string", text.end()
    if byte == "\\":
        raise Bad("X4", at)
    if byte == "'" and not is_named and CHAR.match(data, at):
        return "char", at + 3
    for sign in SIGNS:
        if data.startswith(sign.encode(), at):
            return sign, at + len(sign)
    raise Bad("X1", at)


def tokens(data):
    """The tokens of a file with their offsets, the end of the file among them; else Bad is raised."""
    if len(data) > MOST:
        raise Bad("L1", 0)
    found, at, last = [], 0, None
    while at < len(data):
        symbol, end = piece(data, at, last in ("id", ")", "range", "all"))
        if symbol is not None:
            found.append((symbol, at))
            last = symbol
        at = end
    found.append(("End", len(data)))
    return found


def place(data, at):
    """The line and column of an offset."""
    return data.count(b"\n", 0, at) + 1, at - (data.rfind(b"\n", 0, at) + 1) + 1
