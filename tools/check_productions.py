#!/usr/bin/env python3
"""Checks that the productions of crates/vv_productions are those of tools/grammar/vhdl.txt.

usage: tools/check_productions.py [--show]

  --show     prints the productions of the crate in the notation of the text, too, with what is made left out

The definitions of specs/Productions.antt are read as a text, what is made of parts is left out, and each is compared with
the production of the text as a regular expression over tokens and names of productions. A production that only one of the
two has stands for its right side. In the edition of 2008 the sensitivity list of a process can be `all`. Ends with 1 where
two differ, and tells by which symbols one goes on where the other does not.
"""

import argparse
import pathlib
import re
import sys

HERE = pathlib.Path(__file__).resolve().parent
sys.path.insert(0, str(HERE / "grammar"))

import ebnf  # noqa: E402

ROOT = HERE.parent
SPECS = ROOT / "crates" / "vv_productions" / "specs"
SIGNS = ROOT / "crates" / "vv_vlex" / "src" / "sign.rt"
KINDS = {"Id": "id", "Int": "int", "Char": "char", "Str": "string", "BitStr": "bitstring", "End": "End"}
NAMES = {
    "design_unit": "unit", "context_item": "context", "use_clause": "use", "selected_name": "sel", "entity": "entity",
    "generics": "gens", "ports": "ports", "port": "port", "architecture": "arch", "package_declaration": "pack",
    "package_body": "body", "constant_interface": "gen", "common_declaration": "common", "declaration": "decl",
    "process_declaration": "vdecl", "type_declaration": "type", "enumeration_literal": "lit", "subtype_declaration": "subtype",
    "constant_declaration": "const", "component": "comp", "function_specification": "fspec", "function_declaration": "fdecl",
    "function_body": "fbody", "attribute": "attr", "entity_designator": "ent", "entity_class": "class", "mark": "mark",
    "subtype_indication": "sub", "range": "range", "discrete_range": "drange", "concurrent_statement": "conc",
    "process": "process", "conditional_assignment": "cassign", "selected_assignment": "select", "instance": "inst",
    "association": "assoc", "generate": "gener", "statement": "stmt", "assertion": "assert", "if_statement": "if",
    "case_statement": "case", "loop": "loop", "choices": "choices", "choice": "choice", "expression": "expr",
    "relation": "rel", "shift_expression": "shift", "simple_expression": "simple", "term": "term", "factor": "factor",
    "primary": "prim", "aggregate": "aggr", "element": "elem", "name": "name", "argument": "arg",
}  # fmt: skip
SAME = {"$param": "$gen"}  # two productions of the text that are one here
SENSITIVE = '"process" ["(" name {"," name} ")"]'
ALL = '"process" ["(" ( name {"," name} | "all" ) ")"]'
PIECE = re.compile(r"[()]|▸|[\w.]+")


def definitions(path):
    """The clauses of a file, by what they define; the last of them for a name without arguments."""
    text = re.sub(r"--[^\n]*", "", path.read_text())
    text = re.sub(r"\n[ \t]+", " ", text)
    found = {}
    for line in text.split("\n"):
        clause = re.match(r"([\w ]+?(?: edition\.\w+)?) = (.*)$", line)
        if clause and not line.startswith(("use ", "pub ", "abbrev ", "infix")):
            found[clause.group(1)] = clause.group(2)
    return found


class Phrases:
    """The phrases of an edition, as the nested tuples of ebnf.py."""

    def __init__(self, edition):
        self.edition = edition
        self.known, self.rules, self.pieces = {}, {}, []
        self.signs = dict(map(reversed, re.findall(r"/// `([^`]+)`\n\s*(\w+),", SIGNS.read_text())))
        for head, body in {**definitions(SPECS / "Phrases.antt"), **definitions(SPECS / "Productions.antt")}.items():
            name, *places = head.split()
            if name == "definition":
                self.rules[places[1]] = body
            elif places and places[0].startswith("edition."):
                self.known[f"{name} {places[0]}"] = ([], body)
            else:
                self.known[name] = (places, body)

    def phrase(self, text, given):
        self.pieces = [*PIECE.findall(text), ")"]
        return self.evaluated(self.alternatives(), given)

    def alternatives(self):
        parts = [self.sequence()]
        while self.pieces[0] == "or":
            self.pieces.pop(0)
            parts.append(self.sequence())
        return ("or", *parts) if len(parts) > 1 else parts[0]

    def sequence(self):
        parts = [self.call()]
        while self.pieces[0] == "▸":
            self.pieces.pop(0)
            parts.append(self.call())
        return ("then", *parts) if len(parts) > 1 else parts[0]

    def call(self):
        head, found = self.argument(), []
        while self.pieces[0] not in ("or", "▸", ")"):
            found.append(self.argument())
        return ("call", head, *found) if found else head

    def argument(self):
        piece = self.pieces.pop(0)
        if piece != "(":
            return ("call", piece)
        inner = self.alternatives()
        self.pieces.pop(0)
        return inner

    def evaluated(self, node, given):
        form, *parts = node
        if form in ("or", "then"):
            return (form, *(self.evaluated(part, given) for part in parts))
        head, *places = parts
        head = head[1] if isinstance(head, tuple) else head
        if head in given:
            return given[head]
        if head == "make":
            return ("then",)
        if head == "rule":
            return self.rule(places[0][1])
        if head in ("skip", "keep"):
            return ("one", self.terminal(places[0], given))
        if head in ("option", "many"):
            return (head, self.evaluated(places[0], given))
        if "." in head:
            return ("one", self.symbol(head))
        if head == "sensitivity_of":
            head, places = f"sensitivity_of edition.{self.edition}", []
        names, body = self.known[head]
        return self.phrase(body, dict(zip(names, [self.evaluated(place, given) for place in places], strict=True)))

    def rule(self, name):
        name = name.removeprefix("the_rule.")
        if name in NAMES:
            return ("one", "$" + NAMES[name])
        return self.phrase(self.rules[name], {})

    def terminal(self, node, given):
        _, head, *places = node
        head = head[1] if isinstance(head, tuple) else head
        if head in ("the.Key", "the.Mark"):
            return self.evaluated(places[0], given)[1]
        return self.symbol(head)

    def symbol(self, path):
        kind, name = path.split(".")
        if kind == "the":
            return KINDS[name]
        return f'"{name.lower()}"' if kind == "word" else f'"{self.signs[name]}"'


def of_text(text):
    """The productions of the text. Those that have no name here stand for their right sides."""
    rules = ebnf.read(text)

    def plain(node):
        form, *parts = node
        if form == "one":
            symbol = SAME.get(parts[0], parts[0])
            if symbol.startswith("$") and symbol[1:] not in NAMES.values():
                return plain(rules[symbol])
            return ("one", symbol if symbol.startswith("$") or symbol in ebnf.LEXICAL else f'"{symbol}"')
        if form == "some":
            return ("then", plain(parts[0]), ("many", plain(parts[0])))
        return ("option" if form == "maybe" else form, *(plain(part) for part in parts))

    return {name[1:]: plain(rule) for name, rule in rules.items()}


def moves(stacks):
    """The symbols with which forms go on that stand one behind the other, each with what is left then; `end` where they
    can be empty."""
    todo, seen, found = list(stacks), set(), {}
    while todo:
        stack = todo.pop()
        if stack in seen:
            continue
        seen.add(stack)
        if not stack:
            found["end"] = frozenset()
            continue
        (form, *parts), rest = stack[0], stack[1:]
        if form == "one":
            found[parts[0]] = found.get(parts[0], frozenset()) | {rest}
        elif form == "or":
            todo += [(part, *rest) for part in parts]
        elif form == "then":
            todo.append((*parts, *rest))
        else:
            todo += [rest, (parts[0], *(stack if form == "many" else rest))]
    return found


def difference(one, other):
    """The symbols after which one goes on as the other does not, or None."""
    first = (frozenset([(one,)]), frozenset([(other,)]))
    todo, seen = [(first, ())], {first}
    while todo:
        (a, b), path = todo.pop()
        behind_a, behind_b = moves(a), moves(b)
        if behind_a.keys() != behind_b.keys():
            return path, sorted(behind_a.keys() ^ behind_b.keys())
        for symbol in behind_a:
            pair = (behind_a[symbol], behind_b[symbol])
            if pair not in seen:
                seen.add(pair)
                todo.append((pair, (*path, symbol)))
    return None


def shown(node, outer="or"):
    """A form in the notation of the text."""
    form, *parts = node
    if form == "one":
        return parts[0].lstrip("$")
    if form in ("option", "many"):
        return ("[{}]" if form == "option" else "{{{}}}").format(shown(parts[0]))
    left = [part for part in parts if part != ("then",)]
    if form == "then":
        return " ".join(shown(part, "then") for part in left)
    inner = " | ".join(shown(part) for part in left)
    return f"[{inner}]" if len(left) < len(parts) else f"( {inner} )" if outer == "then" else inner


def main():
    options = argparse.ArgumentParser(description=__doc__, formatter_class=argparse.RawDescriptionHelpFormatter)
    options.add_argument("--show", action="store_true")
    chosen = options.parse_args()
    text, bad = (HERE / "grammar" / "vhdl.txt").read_text(), 0
    if text.count(SENSITIVE) != 1:
        raise ValueError("the production of a process is not as this tool knows it")
    for edition, theirs in (("Vhdl93", of_text(text)), ("Vhdl08", of_text(text.replace(SENSITIVE, ALL)))):
        phrases = Phrases(edition)
        ours = {NAMES[name]: phrases.phrase(phrases.rules[name], {}) for name in NAMES}
        ours["param"] = ours["gen"]
        ours["file"] = phrases.phrase(definitions(SPECS / "Matches.antt")["phrase_for file"], {})
        theirs["file"] = ("then", theirs["file"], ("one", "End"))
        for name in theirs:
            if name not in ours:
                continue
            if chosen.show and edition == "Vhdl93":
                print(f"{name:8}= {shown(ours[name])}")
            found = difference(ours[name], theirs[name])
            if found:
                bad += 1
                print(f"{edition}: {name} differs behind {' '.join(found[0]) or 'its start'}: {', '.join(found[1])}")
        missing = set(ours) - set(theirs)
        if missing:
            bad += 1
            print(f"{edition}: the text has no {', '.join(sorted(missing))}")
        print(f"{edition}: {len(set(theirs) & set(ours))} productions compared")
    return 1 if bad else 0


if __name__ == "__main__":
    sys.exit(main())
