#!/usr/bin/env python3
"""Checks tools/judge.py and its table of sources against each other, and the grammar for two trees of one text.

usage: tools/check_grammar.py [--seconds N] [--seed N]

  table     the judge says of each block of tools/grammar/broken.txt what stands there
  longest   it says of each block of tools/grammar/longest.txt what stands there
  places    each word, sign and name of the grammar stands in a sound block, and behind each token some block is broken
  depths    small limits of depth, with places worked out by hand
  small     tools/grammar/hostile.py with small numbers in place of the large ones
  agreeing  on random short texts, whole, cut off and changed, the chart and the definition itself (grammar/stacks.py) agree
  one_tree  random texts have exactly one tree

The last two take N seconds each, 30 if not given. Ends with 1 where something fails.
"""

import argparse
import collections
import random
import sys
import time

import judge  # finds tools/grammar
from check_syntax import HERE, blocks, changed, heads

import chart  # noqa: E402
import hostile  # noqa: E402
import lexer  # noqa: E402
import sentences  # noqa: E402
import stacks  # noqa: E402

BEGIN = b"architecture r of e is begin "  # 29 bytes: what follows starts in column 30
PROCESS = BEGIN + b"process "  # 37 bytes
DEPTHS = [
    (1, BEGIN + b"y <= f(x); end;", "1:37: Y2"),  # `)` tells that x is no formal
    (1, BEGIN + b"y <= f(x => a); end;", "1:42: Y2"),  # the formal is none, the actual is
    (1, BEGIN + b"y <= f(x", "1:38: Y1"),  # `=>` may follow
    (1, BEGIN + b"y <= f(x then", "1:39: Y1"),
    (1, BEGIN + b"y <= f(x =>", "1:41: Y1"),  # Y1 and Y2 at the end of the file
    (1, BEGIN + b"y <= f(x,", "1:37: Y2"),
    (1, BEGIN + b"y <= (others", "1:42: Y1"),
    (1, BEGIN + b"y <= (others => a", "1:46: Y2"),
    (1, BEGIN + b"y <= (then", "1:36: Y1"),  # Y1 and Y2 at `then`
    (1, BEGIN + b"y(x) <= a; end;", "ok"),
    (1, BEGIN + b"y(f(x)) <= a; end;", "1:34: Y2"),
    (2, BEGIN + b"y <= f(x)(3 to a(4)); end;", "1:47: Y2"),
    (1, PROCESS + b"begin end process; end;", "ok"),
    (1, PROCESS + b"begin x", "1:44: Y2"),
    (1, PROCESS + b"begin then", "1:44: Y1"),
    (1, BEGIN + b"g : if a generate h : u; end generate; end;", "1:48: Y2"),
    (1, PROCESS + b"function f(a : b := (c)) return d is begin end; begin end process; end;", "1:38: Y2"),
    (1, PROCESS + b"function f(a : b := (c)) return d; begin end process; end;", "1:59: Y2"),  # c, for no body may stand here
    (1, PROCESS + b"function f(a : b := (c)) return d", "1:59: Y2"),
    (1, PROCESS + b"function f(a : b := (c)) return d is then", "1:38: Y2"),
    (1, PROCESS + b"function f(a : b := c) return d then", "1:70: Y1"),
    (1, PROCESS + b"pure function f return d is begin", "1:38: Y2"),
    (1, PROCESS + b"pure function f return d; begin end process; end;", "ok"),
]

FRONTS = [
    ("$unit", b"", b""),
    ("$expr", BEGIN + b"y <= ", b"; end;"),
    ("$conc", BEGIN, b" end;"),
    ("$stmt", PROCESS + b"begin ", b" end process; end;"),
    ("$fbody", PROCESS, b" begin end process; end;"),
    ("$fspec", PROCESS, b"; begin end process; end;"),
]


class Failures:
    def __init__(self):
        self.count = 0

    def tell(self, group, what, wanted, said):
        self.count += 1
        print(f"FAILED: {group}: {what}: wanted {wanted}, said {said}", flush=True)


def table(failures):
    judging, count = judge.Judge(), 0
    for answer, what, source in blocks((HERE / "grammar" / "broken.txt").read_bytes()):
        count += 1
        said = judging.answer(source)
        if said != answer:
            failures.tell("table", what, answer, said)
    return f"{count} blocks"


def longest(failures):
    judges, count = {}, 0
    for head, source in heads((HERE / "grammar" / "longest.txt").read_bytes()):
        start, place, code, what = head.split(" ", 3)
        judging = judges.setdefault(start, judge.Judge(start=start))
        answer = f"ok {place}" if code == "ok" else f"{place}: {code}"
        count += 1
        said = judging.answer(source)
        if said != answer:
            failures.tell("longest", what, answer, said)
    return f"{count} blocks"


def places(failures):
    judging = judge.Judge()
    net, passed, broken = judging.chart.network, set(), set()
    for answer, _, source in blocks((HERE / "grammar" / "broken.txt").read_bytes()):
        judging.answer(source)
        if answer == "ok":
            passed |= judging.chart.passed()
        elif answer.endswith("Y1"):
            broken |= {state for state, _, _ in judging.chart.columns[-1].kernel}
    for state, symbol in enumerate(net.takes):
        where = f"{symbol} in {net.owner[state]}"
        if symbol is not None and state not in passed:
            failures.tell("places", where, "a sound block", "none")
        if symbol not in (None, "End") and not net.is_rule[state] and state not in broken:
            failures.tell("places", where, "a block that is broken behind it", "none")
    return f"{len(net.takes) - len(net.rules)} places"


def depths(failures):
    for limit, source, answer in DEPTHS:
        said = judge.Judge(depth=limit).answer(source)
        if said != answer:
            failures.tell("depths", source.decode(), answer, said)
    return f"{len(DEPTHS)} sources"


def small(failures):
    hostile.MANY, hostile.MOST = 700, 30_000
    judging, count = judge.Judge(), 0
    for what, source, answer in hostile.cases():
        data = source()
        if len(data) < 100_000 and not answer.endswith("L1"):
            count += 1
            said = judging.answer(data)
            if said != answer:
                failures.tell("small", what, answer, said)
    return f"{count} sources"


def short_text(making, chance):
    """A random source of at most 700 bytes, whole, cut off or changed."""
    while True:
        symbol, front, back = chance.choice(FRONTS)
        data = front + " ".join(making.text(symbol, chance.choice([3, 5, 10, 20, 40]))).encode() + back
        if len(data) <= 700:
            short = data[: chance.randrange(len(data))]
            return chance.choice([data, short, changed(data, chance)[1]])


def agreeing(failures, chance, seconds):
    judges = {limit: judge.Judge(depth=limit) for limit in (1, 2, 3)}
    net, codes, end = judges[1].chart.network, collections.Counter(), time.monotonic() + seconds
    making = sentences.Sentences(net.rules, chance)
    while time.monotonic() < end:
        data, limit = short_text(making, chance), chance.choice([1, 1, 2, 3])
        try:
            wanted = stacks.verdict(net, lexer.tokens(data), limit)
        except lexer.Bad:
            continue
        if wanted is not False:
            codes[wanted[0] if wanted else "ok"] += 1
            said = judges[limit].verdict(data)
            if said != wanted:
                failures.tell("agreeing", f"depth {limit}: {data!r}", wanted, said)
    return ", ".join(f"{code} {count}" for code, count in sorted(codes.items()))


def one_tree(failures, chance, seconds):
    judging, count, tokens, end = judge.Judge(), 0, 0, time.monotonic() + seconds
    making = sentences.Sentences(judging.chart.network.rules, chance)
    while time.monotonic() < end:
        data = " ".join(making.text("$unit", chance.choice([20, 50, 100, 300, 1000]))).encode()
        try:
            said = judging.answer(data)
            trees = judging.chart.count() if said == "ok" else 1
        except chart.Ambiguous:
            trees = 2
        count, tokens = count + 1, tokens + len(judging.chart.symbols)
        if trees != 1:
            failures.tell("one_tree", repr(data), 1, trees)
    return f"{count} texts of {tokens} tokens"


def main():
    parser = argparse.ArgumentParser(description=__doc__, formatter_class=argparse.RawDescriptionHelpFormatter)
    parser.add_argument("--seconds", type=float, default=30.0)
    parser.add_argument("--seed", type=int, default=0)
    options = parser.parse_args()
    chance, failures = random.Random(options.seed), Failures()
    for group in table, longest, places, depths, small:
        print(f"{group.__name__}: {group(failures)}", flush=True)
    for group in agreeing, one_tree:
        print(f"{group.__name__}: {group(failures, chance, options.seconds)}", flush=True)
    print(f"{failures.count} failed")
    return 1 if failures.count else 0


if __name__ == "__main__":
    sys.exit(judge.with_deep_stack(main))
