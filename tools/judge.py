#!/usr/bin/env python3
"""An independent judge of the grammar of the accepted VHDL: tells `ok`, or the first bad place of a file and its code.

usage: tools/judge.py [--depth N] [--grammar TEXT] [--start NAME | --all-prefixes | --trees | --tree | --tokens] FILE..

It reads the grammar from a text (tools/grammar/vhdl.txt) and works by a general method, Earley's chart; it shares no code
and no method with the translator. The codes are L1 and X1 to X5 of the tokens, Y1 at the first token with which the tokens
begin no text of the grammar (the end of the file is a token), and Y2 at a token where, for some prefix of the tokens that
begins a text, each text that it begins has a statement or an expression of depth N + 1 that starts there. The first of
these is told, Y1 where Y1 and Y2 stand at one token.

  --depth N        how deep statements and expressions may be, 128 if not given
  --start NAME     reads the longest run of tokens that begins a text of a production (expr, name, aggr), and prints `ok` and
                   the place behind it where it is such a text, else Y1 at that place
  --all-prefixes   judges each prefix of the file's bytes, and prints `BYTES: ` and its answer on a line each
  --trees          prints besides how many trees an accepted file has, at most 2
  --tree           prints the tree of an accepted file
  --tokens         prints the tokens with their places

Ends with 0 where each file is accepted, with 1 where one isn't, and with 2 where the grammar itself is ambiguous.
"""

import argparse
import pathlib
import sys
import threading

HERE = pathlib.Path(__file__).resolve().parent
sys.path.insert(0, str(HERE / "grammar"))

import chart  # noqa: E402
import ebnf  # noqa: E402
import lexer  # noqa: E402

GRAMMAR = HERE / "grammar" / "vhdl.txt"


class Judge:
    """Judges texts; two that begin with the same tokens, one after the other, share the work on these."""

    def __init__(self, grammar=GRAMMAR, depth=128, refuse_ambiguous=True, start=None):
        network = ebnf.Network(pathlib.Path(grammar).read_text(), start)
        self.is_longest = start is not None
        self.chart = chart.Chart(network, depth, refuse_ambiguous)

    def verdict(self, data):
        """(code, offset) of the first bad place, or None."""
        try:
            tokens = lexer.tokens(data)
        except lexer.Bad as bad:
            return bad.code, bad.at
        return self.verdict_of(tokens)

    def verdict_of(self, tokens):
        viable = self.chart.read([symbol for symbol, _ in tokens])
        deep = self.chart.common[viable]
        if deep is not None and deep < viable:
            return "Y2", tokens[deep][1]
        if self.is_longest and self.chart.is_whole():
            return "ok", tokens[viable][1]
        if viable < len(tokens):
            return "Y1", tokens[viable][1]
        return None

    def answer(self, data):
        """`ok`, or the place and the code."""
        return answer(data, self.verdict(data))


def answer(data, verdict):
    if verdict is None:
        return "ok"
    code, at = verdict
    line, column = lexer.place(data, at)
    return f"ok {line}:{column}" if code == "ok" else f"{line}:{column}: {code}"


def show(tree, data, tokens, indent=0):
    if isinstance(tree, int):
        at = tokens[tree][1]
        end = tokens[tree + 1][1] if tree + 1 < len(tokens) else len(data)
        print("  " * indent + repr(data[at:end].split(b"\n")[0].strip().decode("latin-1")))
        return
    name, parts = tree
    while len(parts) == 1 and not isinstance(parts[0], int):  # a chain of productions stands on one line
        name, parts = f"{name} {parts[0][0]}", parts[0][1]
    print("  " * indent + name.replace("$", ""))
    for part in parts:
        show(part, data, tokens, indent + 1)


def run(options):
    judge = Judge(options.grammar, options.depth, not options.trees, options.start)
    status = 0
    for name in options.files:
        data = pathlib.Path(name).read_bytes()
        front = f"{name}: " if len(options.files) > 1 else ""
        if options.all_prefixes:
            for size in range(len(data) + 1):
                print(f"{front}{size}: {judge.answer(data[:size])}")
            continue
        if options.tokens:
            for symbol, at in lexer.tokens(data):
                print("{}:{}".format(*lexer.place(data, at)), symbol)
            continue
        said = judge.answer(data)
        print(front + said)
        status = max(status, not said.startswith("ok"))
        if said == "ok" and options.trees:
            print(f"{front}trees: {judge.chart.count()}")
        if said == "ok" and options.tree:
            show(judge.chart.tree(), data, lexer.tokens(data))
    return status


def main():
    parser = argparse.ArgumentParser(description=__doc__, formatter_class=argparse.RawDescriptionHelpFormatter)
    parser.add_argument("--depth", type=int, default=128)
    parser.add_argument("--grammar", default=GRAMMAR)
    modes = parser.add_mutually_exclusive_group()
    modes.add_argument("--start", metavar="NAME")
    for mode in ("--all-prefixes", "--trees", "--tree", "--tokens"):
        modes.add_argument(mode, action="store_true")
    parser.add_argument("files", nargs="+", metavar="FILE")
    options = parser.parse_args()
    try:
        return run(options)
    except chart.Ambiguous as ambiguous:
        print(f"the grammar is ambiguous: two trees differ in the first {ambiguous.count} tokens", file=sys.stderr)
        return 2
    except lexer.Bad as bad:
        print(f"{bad.code} at {bad.at}", file=sys.stderr)
        return 1


def with_deep_stack(work):
    """Runs work in a thread that can recurse as deep as texts are nested."""
    sys.setrecursionlimit(1_000_000)
    threading.stack_size(512 * 1024 * 1024)
    answers = []
    thread = threading.Thread(target=lambda: answers.append(work()))
    thread.start()
    thread.join()
    return answers[0] if answers else 3


if __name__ == "__main__":
    sys.exit(with_deep_stack(main))
