"""Reads a grammar from its text and makes a network of it: each production an automaton over tokens and productions.

The states of a production are one that starts it and one for each sign, word and name that stands in its right side: that
state says "this one has just been read" (Glushkov's automaton). So two paths through a production are the same match
exactly where they take the same occurrences in the same order. A production's symbol is its name behind a `$`.
"""

import re

LEXICAL = ("id", "int", "char", "string", "bitstring", "End")
PIECE = re.compile(r'"([^"]+)"|(\}\+)|([A-Za-z]+)|([=|()\[\]{}])|\s+|#[^\n]*')


class Network:
    """The automata of all productions, whose states are numbered together.

    Of a state: `owner`, its production; `takes`, the symbol that it has just read; `follows`, the states behind it;
    `ends`, whether its production can end there; `can`, the tokens that can be read next within its production.
    Of a production: `begin`, its first state; `first`, its first tokens; `empty`, whether it can have none.
    """

    def __init__(self, text, start=None):
        """With a production to start with, a text of it is read, and not the end of the file behind it."""
        self.rules = read(text)
        if start is not None and "$" + start not in self.rules:
            raise ValueError(f"there is no production {start}")
        whole = ("then", ("one", next(iter(self.rules))), ("one", "End"))
        self.rules = {"$": whole if start is None else ("one", "$" + start), **self.rules}
        self.owner, self.takes, self.follows, self.ends, self.begin = [], [], [], [], {}
        for name, rule in self.rules.items():
            self.begin[name] = self.state(name, None)
            empty, first, last = self.places(name, rule)
            self.follows[self.begin[name]] = sorted(first)
            for state in last:
                self.ends[state] = True
            self.ends[self.begin[name]] = empty
        self.is_rule = [symbol in self.rules for symbol in self.takes]
        productive = self.grown(lambda symbol, known: symbol not in self.rules or symbol in known)
        for name in set(self.rules) - productive:
            raise ValueError(f"{name} has no text")
        self.empty = self.grown(lambda symbol, known: symbol in known)
        self.can = self.next_tokens()
        self.first = {name: self.can[state] for name, state in self.begin.items()}
        self.refuse_left_recursion()

    def state(self, name, symbol):
        self.owner.append(name)
        self.takes.append(symbol)
        self.follows.append([])
        self.ends.append(False)
        return len(self.owner) - 1

    def places(self, name, node):
        """Whether the form can be empty, and the states of its first and last symbols."""
        form, parts = node[0], node[1:]
        if form == "one":
            state = self.state(name, parts[0])
            return False, {state}, {state}
        if form == "or":
            found = [self.places(name, part) for part in parts]
            return any(f[0] for f in found), set().union(*(f[1] for f in found)), set().union(*(f[2] for f in found))
        if form == "then":
            empty, first, last = True, set(), set()
            for part in parts:
                part_empty, part_first, part_last = self.places(name, part)
                self.link(last, part_first)
                first = first | part_first if empty else first
                last = last | part_last if part_empty else part_last
                empty = empty and part_empty
            return empty, first, last
        empty, first, last = self.places(name, parts[0])
        if form in ("many", "some"):
            self.link(last, first)
        return empty or form != "some", first, last

    def link(self, fronts, backs):
        for front in fronts:
            self.follows[front] = sorted(set(self.follows[front]) | backs)

    def grown(self, passes):
        """The productions whose end is reached over symbols that pass; these may ask for productions found so far."""
        known, before = set(), None
        while before != len(known):
            before = len(known)
            known |= {name for name in self.rules if self.reaches_end(name, lambda symbol: passes(symbol, known))}
        return known

    def reaches_end(self, name, passes):
        todo = [self.begin[name]]
        seen = set(todo)
        while todo:
            here = todo.pop()
            if self.ends[here]:
                return True
            for back in self.follows[here]:
                if back not in seen and passes(self.takes[back]):
                    seen.add(back)
                    todo.append(back)
        return False

    def next_tokens(self):
        can, size = [set() for _ in self.owner], None
        while size != sum(map(len, can)):
            size = sum(map(len, can))
            for state, backs in enumerate(self.follows):
                for back in backs:
                    symbol = self.takes[back]
                    can[state] |= can[self.begin[symbol]] if symbol in self.rules else {symbol}
                    if symbol in self.empty:
                        can[state] |= can[back]
        return can

    def refuse_left_recursion(self):
        """The chart finds the contexts of an item by going outwards, which would not end."""
        leads = {name: self.leads(name) for name in self.rules}
        for name in self.rules:
            todo, seen = list(leads[name]), set()
            while todo:
                here = todo.pop()
                if here == name:
                    raise ValueError(f"{name} can begin with itself")
                if here not in seen:
                    seen.add(here)
                    todo += leads[here]

    def leads(self, name):
        """The productions with which one can begin."""
        found, todo, seen = set(), [self.begin[name]], set()
        while todo:
            for back in self.follows[todo.pop()]:
                if self.is_rule[back]:
                    found.add(self.takes[back])
                    if self.takes[back] in self.empty and back not in seen:
                        seen.add(back)
                        todo.append(back)
        return found


def read(text):
    """The productions of a grammar's text, by name, as nested tuples."""
    pieces, at = [], 0
    while at < len(text):
        found = PIECE.match(text, at)
        if not found:
            raise ValueError(f"the grammar has a stray {text[at]!r}")
        at = found.end()
        sign, plus, name, mark = found.groups()
        if sign:
            pieces.append(("sign", sign))
        elif name:
            pieces.append(("name", name if name in LEXICAL else "$" + name))
        elif plus or mark:
            pieces.append(("mark", plus or mark))
    heads = [k for k in range(len(pieces) - 1) if pieces[k][0] == "name" and pieces[k + 1] == ("mark", "=")]
    rules = {}
    for k, head in enumerate(heads):
        body = pieces[head + 2 : heads[k + 1] if k + 1 < len(heads) else len(pieces)]
        name = pieces[head][1]
        if name in rules:
            raise ValueError(f"{name} has two productions")
        rules[name], rest = either(body)
        if rest:
            raise ValueError(f"{name[1:]}: there is more than a right side")
    for kind, name in pieces:
        if kind == "name" and name not in LEXICAL and name not in rules:
            raise ValueError(f"{name[1:]} has no production")
    return rules


def either(pieces):
    parts = []
    part, pieces = in_order(pieces)
    parts.append(part)
    while pieces and pieces[0] == ("mark", "|"):
        part, pieces = in_order(pieces[1:])
        parts.append(part)
    return (parts[0] if len(parts) == 1 else ("or", *parts)), pieces


def in_order(pieces):
    parts = []
    while pieces and pieces[0] not in (("mark", "|"), ("mark", ")"), ("mark", "]"), ("mark", "}"), ("mark", "}+")):
        (kind, text), pieces = pieces[0], pieces[1:]
        if kind != "mark":
            parts.append(("one", text))
            continue
        closes = {"(": [")"], "[": ["]"], "{": ["}", "}+"]}.get(text)
        if closes is None:
            raise ValueError(f"the grammar has a stray {text}")
        inner, pieces = either(pieces)
        if not pieces or pieces[0][1] not in closes:
            raise ValueError(f"the grammar has a {text} that isn't closed")
        close, pieces = pieces[0][1], pieces[1:]
        parts.append({")": inner, "]": ("maybe", inner), "}": ("many", inner), "}+": ("some", inner)}[close])
    if not parts:
        raise ValueError("the grammar has an empty part")
    return (parts[0] if len(parts) == 1 else ("then", *parts)), pieces
