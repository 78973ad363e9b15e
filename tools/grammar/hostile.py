"""Hostile sources with their places, which are worked out from how each source is made.

All of them stand on one line, so a place is 1 plus an offset. A case is (what, a function that makes the source, answer).
"""

MOST = 16_777_216  # bytes of a file
LIMIT = 128  # depth of statements and of expressions
MANY = 1_000_000

DECLARE = b"architecture r of e is "
BEGIN = DECLARE + b"begin "
ASSIGN = BEGIN + b"y <= "
PROCESS = BEGIN + b"process begin "
END_ASSIGN = b"; end;"
END_PROCESS = b"end process; end;"


def at(offset, code):
    return f"1:{offset + 1}: {code}"


def source(*parts):
    """A source of parts, each bytes or (bytes, times), which is made when it is called."""
    return lambda: b"".join(part if isinstance(part, bytes) else part[0] * part[1] for part in parts)


def many(*pieces):
    """How often the pieces may stand, so that the source isn't too long."""
    return min(MANY, (MOST - 100) // sum(map(len, pieces)))


def filled(front, piece, end):
    """A piece again and again, with spaces behind the end, to exactly the greatest size."""
    room = MOST - len(front) - len(end)
    return source(front, (piece, room // len(piece)), end, (b" ", room % len(piece)))


def expressions():
    """Expressions in each other. A form opens one more level; the byte `|` in it marks the first expression of that level."""
    start = len(ASSIGN)
    forms = [
        ("parentheses", b"(|", b")"),
        ("calls", b"f(|", b")"),
        ("calls with a formal", b"f(x => |", b")"),
        ("calls, second arguments", b"f(|b, ", b")"),
        ("ranges in indexes", b"f(|b to ", b")"),
        ("formals with ranges", b"f(x => |b downto ", b")"),
        ("aggregates, first elements", b"(|", b", b)"),
        ("aggregates, second elements", b"(|b, ", b")"),
        ("aggregates by others", b"(others => |", b")"),
        ("aggregates by a choice", b"(|x => ", b")"),
        ("aggregates by a range", b"(|x to z => ", b")"),
        ("choices", b"(|", b" => b)"),
        ("qualified expressions", b"t'(|", b")"),
        ("qualified aggregates", b"t'(others => |", b")"),
        ("not and a parenthesis", b"not (|", b")"),
        ("right operands", b"b + (|", b")"),
        ("indexes of indexes", b"a(|1)(", b")"),
    ]
    for what, form, close in forms:
        opening, first = form.replace(b"|", b""), form.index(b"|")
        for depth in LIMIT - 1, LIMIT, LIMIT + 1:
            levels = depth - 1
            deep = start + len(opening) * (levels - 1) + first
            answer = "ok" if depth <= LIMIT else at(deep, "Y2")
            yield f"{what}, depth {depth}", source(ASSIGN, (opening, levels), b"a", (close, levels), END_ASSIGN), answer
        deep = at(start + len(opening) * (LIMIT - 1) + first, "Y2")
        most = many(opening, close)
        yield f"{what}, {most} closed", source(ASSIGN, (opening, most), b"a", (close, most), END_ASSIGN), deep
        most = many(opening)
        yield f"{what}, {most} left open", source(ASSIGN, (opening, most)), deep
    for count in 10, LIMIT - 1, LIMIT, LIMIT + 1, 10_000, MANY:
        answer = at(start + count, "Y1") if count <= LIMIT else at(start + LIMIT, "Y2")
        yield f"{count} open parentheses", source(ASSIGN, (b"(", count)), answer
    yield f"{LIMIT} open parentheses and a wrong token", source(ASSIGN, (b"(", LIMIT), b";"), at(start + LIMIT, "Y1")
    yield f"{LIMIT} open parentheses and `others`", source(ASSIGN, (b"(", LIMIT), b"others ;"), at(start + LIMIT + 7, "Y1")
    calls = start + 2 * LIMIT
    opened = (b"f(", LIMIT)
    for what, rest, answer in [
        ("a formal, and the file ends", b"x", at(calls + 1, "Y1")),
        ("a formal, and a wrong token", b"x then", at(calls + 2, "Y1")),
        ("a formal and its arrow, and the file ends", b"x =>", at(calls + 4, "Y1")),
        ("a formal and its actual", b"x => a", at(calls + 5, "Y2")),
        ("an identifier and a comma", b"x,", at(calls, "Y2")),
        ("an identifier and a point", b"x.", at(calls, "Y2")),
        ("an identifier and a tick", b"x'", at(calls, "Y2")),
        ("an identifier and an operator", b"x+", at(calls, "Y2")),
        ("an identifier and `to`", b"x to", at(calls, "Y2")),
        ("a number, and the file ends", b"1", at(calls, "Y2")),
        ("nothing more", b"", at(calls, "Y1")),
        ("a wrong token", b")", at(calls, "Y1")),
    ]:
        yield f"{LIMIT} calls, {what}", source(ASSIGN, opened, rest), answer


def ranges():
    """Calls in each other that begin a discrete range: where it begins with a name, this may be a mark."""
    for place, front, back in [
        ("a loop", PROCESS + b"for i in ", b" loop end loop; " + END_PROCESS),
        ("a loop with an end", PROCESS + b"for i in ", b" to 3 loop end loop; " + END_PROCESS),
        ("a generate", BEGIN + b"g : for i in ", b" generate end generate; end;"),
        ("an index constraint", DECLARE + b"signal s : t(", b"); begin end;"),
        ("the index of an array", DECLARE + b"type t is array (", b" downto 0) of u; begin end;"),
    ]:
        for what, first in ("f(", b"f("), ("a.b.f(", b"a.b.f("), ("t'(", b"t'("):
            for depth in LIMIT, LIMIT + 1:
                answer = "ok" if depth <= LIMIT else at(len(front) + len(first) + 2 * (LIMIT - 1), "Y2")
                text = source(front, first, (b"f(", depth - 2), b"a", (b")", depth - 1), back)
                yield f"{place}, {what}, depth {depth}", text, answer


def statements():
    """Statements in each other. The process is the first level, so `count` statements are `count + 1` levels."""
    start = len(PROCESS)
    forms = [
        ("if", b"if a then ", b"end if; "),
        ("if with a label", b"l : if a then ", b"end if; "),
        ("else", b"if a then else ", b"end if; "),
        ("elsif", b"if a then elsif b then ", b"end if; "),
        ("case", b"case a is when b => ", b"end case; "),
        ("loop", b"loop ", b"end loop; "),
        ("while", b"while a loop ", b"end loop; "),
        ("for", b"l : for i in t loop ", b"end loop; "),
        ("for over a mark and a range", b"for i in t range 0 to 3 loop ", b"end loop; "),
    ]
    for what, opening, close in forms:
        for count in LIMIT - 2, LIMIT - 1, LIMIT:
            answer = "ok" if count < LIMIT else at(start + len(opening) * (LIMIT - 1), "Y2")
            yield f"{what}, depth {count + 1}", source(PROCESS, (opening, count), (close, count), END_PROCESS), answer
            answer = "ok" if count < LIMIT - 1 else at(start + len(opening) * (LIMIT - 1), "Y2")
            text = source(PROCESS, (opening, count), b"null; ", (close, count), END_PROCESS)
            yield f"null in {what}, depth {count + 2}", text, answer
        deep = at(start + len(opening) * (LIMIT - 1), "Y2")
        most = many(opening, close)
        yield f"{what}, {most} closed", source(PROCESS, (opening, most), (close, most), END_PROCESS), deep
        most = many(opening)
        yield f"{what}, {most} left open", source(PROCESS, (opening, most)), deep
    inside = (b"loop ", LIMIT - 1)
    deep = start + 5 * (LIMIT - 1)
    for what, rest, answer in [
        ("a label", b"l : null;", at(deep, "Y2")),
        ("an identifier, and the file ends", b"x", at(deep, "Y2")),
        ("nothing more", b"", at(deep, "Y1")),
        ("a wrong token", b"then", at(deep, "Y1")),
        ("their ends", b"end loop; " * (LIMIT - 1) + END_PROCESS, "ok"),
    ]:
        yield f"{LIMIT - 1} loops, {what}", source(PROCESS, inside, rest), answer


def concurrent():
    """Generates in each other, and what stands in them."""
    start = len(BEGIN)
    forms = [
        ("if generate", b"g : if a generate "),
        ("for generate", b"g : for i in t range 0 to 3 generate "),
        ("generate with begin", b"g : if a generate begin "),
        ("generate with declarations", b"g : if a generate signal s : t; begin "),
    ]
    close, end = b"end generate; ", b"end;"
    for what, opening in forms:
        for count in LIMIT - 1, LIMIT, LIMIT + 1:
            answer = "ok" if count <= LIMIT else at(start + len(opening) * LIMIT, "Y2")
            yield f"{what}, depth {count}", source(BEGIN, (opening, count), (close, count), end), answer
        deep = at(start + len(opening) * LIMIT, "Y2")
        most = many(opening)
        yield f"{what}, {most} left open", source(BEGIN, (opening, most)), deep
        most = many(opening, close)
        yield f"{what}, {most} closed", source(BEGIN, (opening, most), (close, most), end), deep
    opening = forms[0][1]
    cores = [
        ("an assignment", b"y <= a; "),
        ("an instance", b"l : c; "),
        ("a process", b"process begin end process; "),
        ("an assertion", b"assert a; "),
        ("a selected assignment", b"with a select y <= b when c; "),
    ]
    for what, core in cores:
        for count in LIMIT - 1, LIMIT:
            answer = "ok" if count < LIMIT else at(start + len(opening) * LIMIT, "Y2")
            text = source(BEGIN, (opening, count), core, (close, count), end)
            yield f"{what} in generates, depth {count + 1}", text, answer
    front = b"process begin if a then "
    back = b"end if; end process; "
    for count in LIMIT - 2, LIMIT - 1:
        answer = "ok" if count < LIMIT - 1 else at(start + len(opening) * count + len(b"process begin "), "Y2")
        text = source(BEGIN, (opening, count), front, back, (close, count), end)
        yield f"if in a process in generates, depth {count + 2}", text, answer


def functions():
    """Bodies of functions in each other."""
    ends = b"begin end; "
    for place, start, end in [
        ("an architecture", DECLARE, b"begin end;"),
        ("a package body", b"package body p is ", b"end;"),
    ]:
        for what, opening in [
            ("functions", b"function f return t is "),
            ("pure functions", b'pure function "+" (a : t := b) return t is '),
        ]:
            deep = at(len(start) + len(opening) * LIMIT, "Y2")
            for count in LIMIT - 1, LIMIT, LIMIT + 1:
                text = source(start, (opening, count), (ends, count), end)
                yield f"{what} in {place}, depth {count}", text, "ok" if count <= LIMIT else deep
            most = many(opening)
            yield f"{what} in {place}, {most} left open", source(start, (opening, most)), deep
            most = many(opening, ends)
            yield f"{what} in {place}, {most} closed", source(start, (opening, most), (ends, most), end), deep
    opening = b"function f return t is "
    for count in LIMIT - 1, LIMIT:
        inner = b"begin null; end; "
        deep = at(len(DECLARE) + len(opening) * count + len(b"begin "), "Y2")
        text = source(DECLARE, (opening, count), inner, (ends, count - 1), b"begin end;")
        yield f"a statement in functions, depth {count + 1}", text, "ok" if count < LIMIT else deep
    generate, body = b"g : if a generate ", b"process "
    for count in 63, 64:
        start = len(BEGIN) + len(generate) * 64 + len(body)
        parts = (BEGIN, (generate, 64), body, (opening, count), (ends, count), b"begin end process; ", (b"end generate; ", 64))
        answer = "ok" if count == 63 else at(start + len(opening) * 63, "Y2")
        yield f"{count} functions in a process in 64 generates", source(*parts, b"end;"), answer


def last_functions():
    """Functions at the last level: a declaration may stand there and a body may not, which the `;` or the `is` tells."""
    opening, ends = b"function f return t is ", b"begin end; "
    front = (DECLARE, (opening, LIMIT))
    back = ((ends, LIMIT), b"begin end;")
    start = len(DECLARE) + len(opening) * LIMIT
    head = b"function g (a : t := "
    value = start + len(head)
    pure = b"pure function g (a : t := "
    nested = (b"(", LIMIT), b"a", (b")", LIMIT)
    result = b") return t"
    value_deep, body_deep = at(value + LIMIT, "Y2"), at(start, "Y2")
    yield "last function, declared", source(*front, b"function g return t; ", *back), "ok"
    yield "last function, with a body", source(*front, b"function g return t is begin end; ", *back), body_deep
    yield "last function, the file ends", source(*front, b"function g return t"), at(start + 19, "Y1")
    yield "last function, the file ends behind `is`", source(*front, b"function g return t is"), body_deep
    yield "last function, a wrong token", source(*front, b"function g return t begin"), at(start + 20, "Y1")
    yield "last function, too deep a value, declared", source(*front, head, *nested, result, b"; ", *back), value_deep
    yield "last function, too deep a value, a body", source(*front, head, *nested, result, b" is ", *back), body_deep
    yield "last pure function, too deep a value, a body", source(*front, pure, *nested, result, b" is"), body_deep
    yield "last function, too deep a value, a wrong token", source(*front, head, *nested, result, b" begin"), value_deep
    yield "last function, too deep a value, the file ends", source(*front, head, *nested), value_deep
    closed = (b"(", MANY), b"a", (b")", MANY)
    yield f"last function, a value in {MANY} parentheses, a body", source(*front, head, *closed, result, b" is"), body_deep
    yield f"last function, a value in {MANY} parentheses, declared", source(*front, head, *closed, result, b";"), value_deep
    yield f"last function, {MANY} open parentheses", source(*front, head, (b"(", MANY)), value_deep
    params = b"function g (a : t", (b"; a : t", MANY // 10), b") return t"
    yield "last function, many parameters, declared", source(*front, *params, b"; ", *back), "ok"
    yield "last function, many parameters, a body", source(*front, *params, b" is "), body_deep


def last_functions_elsewhere():
    """The same where the levels are generates and a process."""
    generate, function = b"g : if a generate ", b"function g return t"
    in_process = (BEGIN, (generate, LIMIT - 1), b"process ")
    start = len(BEGIN) + len(generate) * (LIMIT - 1) + len(b"process ")
    back = (b"begin end process; ", (b"end generate; ", LIMIT - 1), b"end;")
    yield "last function of a process, declared", source(*in_process, function, b"; ", *back), "ok"
    yield "last function of a process, a body", source(*in_process, function, b" is begin end; ", *back), at(start, "Y2")
    in_generate = (BEGIN, (generate, LIMIT))
    start = len(BEGIN) + len(generate) * LIMIT
    back = (b"begin ", (b"end generate; ", LIMIT), b"end;")
    yield "last function of a generate, declared", source(*in_generate, function, b"; ", *back), "ok"
    yield "last function of a generate, a body", source(*in_generate, b"pure ", function, b" is"), at(start, "Y2")
    yield "last function of a generate, the file ends", source(*in_generate, function), at(start + len(function), "Y1")


def lists():
    """What isn't counted in the depth, in great number."""
    start = len(ASSIGN)
    for sign in b"and", b"or", b"xor", b"xnor", b"+", b"&", b"*", b"mod":
        text = source(ASSIGN, b"a", (b" " + sign + b" a", MANY), END_ASSIGN)
        yield f"{MANY} times `{sign.decode()}`", text, "ok"
    for sign in b"**", b"=", b"<=", b"sll", b"nand", b"nor":
        text = source(ASSIGN, b"a", (b" " + sign + b" a", MANY), END_ASSIGN)
        yield f"{MANY} times `{sign.decode()}`, which stands once", text, at(start + 1 + len(sign) + 4, "Y1")
    for sign in b"not", b"abs", b"-", b"+":
        text = source(ASSIGN, (sign + b" ", MANY), b"a", END_ASSIGN)
        yield f"{MANY} times `{sign.decode()}` in front", text, at(start + len(sign) + 1, "Y1")
    yield f"{MANY} times `and not`", source(ASSIGN, b"not a", (b" and not a", MANY), END_ASSIGN), "ok"
    for count in 100_000, MANY:
        yield f"a name of {count} selected parts", source(ASSIGN, b"a", (b".a", count), END_ASSIGN), "ok"
        yield f"a target of {count} selected parts", source(BEGIN, b"a", (b".a", count), b" <= b; end;"), "ok"
        yield f"a mark of {count} parts", source(DECLARE, b"subtype s is a", (b".a", count), b"; begin end;"), "ok"
        yield f"an instance of a mark of {count} parts", source(BEGIN, b"l : a", (b".a", count), b"; end;"), "ok"
    yield f"{MANY} parts and no end", source(BEGIN, b"l : a", (b".a", MANY)), at(len(BEGIN) + 5 + 2 * MANY, "Y1")
    pieces = [
        ("indexes", ASSIGN + b"a", b"(1)", END_ASSIGN),
        ("attributes", ASSIGN + b"a", b"'a", END_ASSIGN),
        ("qualified expressions", ASSIGN + b"a", b"'(a)", END_ASSIGN),
        ("arguments", ASSIGN + b"f(a", b", a", b"); end;"),
        ("formals", ASSIGN + b"f(a", b", b => a", b"); end;"),
        ("elements", ASSIGN + b"(a", b", a", b"); end;"),
        ("named elements", ASSIGN + b"(a => b", b", a | c to d => b", b"); end;"),
        ("choices of an aggregate", ASSIGN + b"(a", b" | a", b" => b); end;"),
        ("parentheses side by side", ASSIGN + b"(a)", b" & (a)", END_ASSIGN),
        ("conditions", ASSIGN + b"a", b" when b else a", END_ASSIGN),
        ("selected values", BEGIN + b"with a select y <= b when c", b", b when c", b"; end;"),
        ("assignments", BEGIN, b"y <= a; ", b"end;"),
        ("instances", BEGIN, b"l : c port map (a, b => open); ", b"end;"),
        ("processes", BEGIN, b"process begin end process; ", b"end;"),
        ("names of a process", BEGIN + b"process (a", b", a.b", b") begin end process; end;"),
        ("sequential statements", PROCESS, b"null; ", END_PROCESS),
        ("elsif", PROCESS + b"if a then ", b"elsif b then null; ", b"end if; " + END_PROCESS),
        ("arms of a case", PROCESS + b"case a is ", b"when b => null; ", b"end case; " + END_PROCESS),
        ("choices of an arm", PROCESS + b"case a is when b", b" | b", b" => end case; " + END_PROCESS),
        ("identifiers of signals", DECLARE + b"signal s", b", s", b" : t; begin end;"),
        ("declarations", DECLARE, b"constant c : t := 1; ", b"begin end;"),
        ("bodies of functions", DECLARE, b"function f return t is begin end; ", b"begin end;"),
        ("declared functions", DECLARE, b"function f (a : t) return t; ", b"begin end;"),
        ("literals", DECLARE + b"type t is (a", b", 'b'", b"); begin end;"),
        ("named attributes", DECLARE + b"attribute a of b", b", b", b" : signal is 1; begin end;"),
        ("ports", b"entity e is port (a : in t", b"; a : in t", b"); end;"),
        ("libraries", b"library l", b", l", b"; entity e is end;"),
        ("contexts", b"", b"library l; ", b"entity e is end;"),
        ("selected names of a use", b"use a.b", b", a.b.all", b"; entity e is end;"),
        ("entities", b"", b"entity e is end; ", b""),
        ("packages with bodies", b"", b"package p is end; package body p is end; ", b""),
    ]
    for what, front, piece, end in pieces:
        yield f"16 MiB of {what}", filled(front, piece, end), "ok"
        count = (MOST - len(front)) // len(piece)
        size = len(front) + count * len(piece)
        if end:
            yield f"16 MiB of {what} and no end", source(front, (piece, count)), at(size, "Y1")


def sizes():
    """Long elements, and files of the greatest size."""
    size = 1_048_576
    yield "an identifier of a megabyte", source(BEGIN, (b"a", size), b" <= b; end;"), "ok"
    yield "an identifier of a megabyte that fits nowhere", source((b"a", size)), at(0, "Y1")
    yield "an identifier of 16 MiB", source((b"a", MOST)), at(0, "Y1")
    yield "a number of a megabyte", source(ASSIGN, (b"0", size), END_ASSIGN), "ok"
    yield "a number of a megabyte that is too large", source(ASSIGN, (b"1", size), END_ASSIGN), at(len(ASSIGN), "X3")
    yield "an exponent of a megabyte of nothing", source(ASSIGN, b"0e", (b"9", size), END_ASSIGN), "ok"
    yield "a string of a megabyte", source(ASSIGN, b'"', (b"a", size), b'"', END_ASSIGN), "ok"
    yield "a string of doubled quotes", source(ASSIGN, b'"', (b'""', size), b'"', END_ASSIGN), "ok"
    yield "an open string of doubled quotes", source(ASSIGN, b'"', (b'""', size), b"\n"), at(len(ASSIGN) + 2 * size, "X2")
    yield "a bit string of a megabyte", source(ASSIGN, b'x"', (b"f", size), b'"', END_ASSIGN), "ok"
    yield "a comment of 16 MiB", source(b"--", (b"(", MOST - 2)), "ok"
    yield "16 MiB of spaces", source((b" ", MOST)), "ok"
    yield "16 MiB of spaces and one", source((b" ", MOST + 1)), at(0, "L1")
    yield "16 MiB of line ends in a unit", source(b"entity e is", (b"\n", MOST - 11)), f"{MOST - 10}:1: Y1"
    yield "16 MiB of empty comments", source((b"--\n", MOST // 3)), "ok"
    for byte in b"(", b")", b";", b"a ", b"end ", b"'", b'""', b"1 ", b"<=":
        yield f"16 MiB of {byte.decode()!r}", source((byte, MOST // len(byte))), at(0, "Y1")
    yield "16 MiB of a quote and a line end", source((b'"\n', MOST // 2)), at(0, "X2")
    yield "a NUL", source(b"\0"), at(0, "X1")
    yield "a byte over 127", source(b"entity e\xe9"), at(8, "X1")
    yield "any bytes in a comment", source(b"--" + bytes(byte for byte in range(256) if byte != 10)), "ok"
    yield "CR is white space and ends no line", source(b"entity\re\r\ris end;\rthen"), at(18, "Y1")
    yield "VT and FF are white space", source(b"entity\ve\fis end;"), "ok"


def cases():
    for group in expressions, ranges, statements, concurrent, functions, last_functions, last_functions_elsewhere, lists, sizes:
        yield from group()
