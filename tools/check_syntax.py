#!/usr/bin/env python3
"""Runs a built program that reads the grammar of the accepted VHDL over sound, broken and hostile sources.

usage: tools/check_syntax.py --bin PROGRAM [--only GROUP,..] [--skip TEXT,..] [--most BYTES] [--seconds N] [--seed N]

`PROGRAM FILE` ends with 0 where the file is accepted, whatever it prints, and with 1 where it isn't, and then prints one line
`LINE:COL: CODE`, which a file's name and a colon may precede. Any other end, a crash or too long a run is a failure.

  table      the blocks of tools/grammar/broken.txt, with their places
  hostile    what tools/grammar/hostile.py makes: deep, long and large sources, with places worked out from how they are made
  prefixes   each prefix of the bytes of examples/syntax/uart_tx.vhd, as tools/judge.py judges them
  mutations  200 changes of a token in uart_tx.vhd and 200 in all of examples/syntax together, as tools/judge.py judges them
  random     300 random texts of the grammar and 300 with a changed token, as tools/judge.py judges them
  tokens     1000 random rows of parts of tokens, as tools/judge.py judges them

--skip leaves out the cases whose description has one of these texts, --most those with more bytes. The judge is such a program
itself, so its own check is `tools/check_syntax.py --bin tools/judge.py --most 20000`. Ends with 1 where a case fails, and with
2 where there is no program.
"""

import argparse
import collections
import os
import pathlib
import random
import re
import subprocess
import sys
import tempfile
import time

import judge  # finds tools/grammar

import hostile  # noqa: E402
import lexer  # noqa: E402
import sentences  # noqa: E402

HERE = pathlib.Path(__file__).resolve().parent
SAMPLES = HERE.parent / "examples" / "syntax"
PLACE = re.compile(rb"(?:.*:)?(\d+:\d+: [A-Z]\d)\n?", re.DOTALL)

Case = collections.namedtuple("Case", "group what source answer")


def heads(text):
    """The blocks of a table of sources: (what stands behind `== `, source)."""
    found = []
    for line in text.decode("ascii").split("\n")[:-1]:
        if line.startswith("== "):
            found.append((line[3:], []))
        elif found:
            found[-1][1].append(line)
    return [(head, "\n".join(lines).encode()) for head, lines in found]


def blocks(text):
    """The blocks of broken.txt: (answer, what it shows, source)."""
    for head, source in heads(text):
        place, code, *what = head.split(" ")
        answer, what = ("ok", [code, *what]) if place == "ok" else (f"{place}: {code}", what)
        yield answer, " ".join(what), source


def changed(data, chance):
    """The source with one of its tokens left out, doubled, swapped with the next one or replaced by another one."""
    tokens = lexer.tokens(data)
    places = [(at, lexer.piece(data, at, False)[1]) for _, at in tokens[:-1]]
    one = chance.randrange(len(places))
    start, end = places[one]
    text = data[start:end]
    other = data[slice(*chance.choice(places))]
    how = chance.choice(["left out", "doubled", "swapped", "replaced"])
    if how == "left out":
        return f"token {one} left out", data[:start] + b" " + data[end:]
    if how == "doubled":
        return f"token {one} doubled", data[:end] + b" " + text + b" " + data[end:]
    if how == "swapped" and one + 1 < len(places):
        begin, stop = places[one + 1]
        return f"token {one} swapped", data[:start] + data[begin:stop] + b" " + data[end:begin] + text + b" " + data[stop:]
    return f"token {one} replaced", data[:start] + b" " + other + b" " + data[end:]


def table(_):
    for answer, what, source in blocks((HERE / "grammar" / "broken.txt").read_bytes()):
        yield what, source, answer


def hostile_cases(_):
    yield from hostile.cases()


def prefixes(_):
    data, judging = (SAMPLES / "uart_tx.vhd").read_bytes(), judge.Judge()
    for size in range(len(data) + 1):
        yield f"{size} bytes", data[:size], judging.answer(data[:size])


def mutations(chance):
    judging = judge.Judge()
    larger = b"".join(path.read_bytes() for path in sorted(SAMPLES.glob("*.vhd")))
    for name, data in ("the transmitter", (SAMPLES / "uart_tx.vhd").read_bytes()), ("all samples", larger):
        yield name, data, "ok"
        for what, source in sorted((changed(data, chance) for _ in range(200)), key=lambda pair: pair[0].split()[1].zfill(9)):
            yield f"{name}, {what}", source, judging.answer(source)


def random_texts(chance):
    judging = judge.Judge()
    making = sentences.Sentences(judging.chart.network.rules, chance)
    for number in range(300):
        data = " ".join(making.text("$unit", chance.choice([5, 20, 50, 100, 300, 1000]))).encode()
        yield f"text {number}", data, judging.answer(data)
        what, source = changed(data, chance)
        yield f"text {number}, {what}", source, judging.answer(source)


PARTS = [
    *(b"a", b"B", b"e", b"E", b"x", b"o", b"f", b"z9", b"_", b"__", b"and", b"range", b"all"),
    *(b"0", b"1", b"7", b"16", b"2147483647", b"8", b"16#", b"16#fF#", b"2#", b".", b"E+", b"e-", b"e2", b"_0"),
    *(b"'", b"'", b"'a'", b"\"", b"\"", b"\"\"", b'"01"', b'b"', b'X"', b'o"1"'),
    *(b" ", b" ", b" ", b"\n", b"\r", b"\t", b"\v", b"--", b"-", b"\\", b"\x7f"),
    *(b"(", b")", b"<=", b"<", b">", b"=", b":", b"=>", b"*", b"**", b"/", b"/=", b"&", b"|", b",", b";", b"+"),
]


def parts_of_tokens(chance):
    judging = judge.Judge()
    for number in range(1000):
        row = b"".join(chance.choice(PARTS) for _ in range(chance.choice([1, 2, 3, 5, 8, 13, 30])))
        source = chance.choice([b"", b"architecture r of e is begin y <= "]) + row
        yield f"row {number}, {row[:60]!r}", source, judging.answer(source)


GROUPS = {
    "table": table,
    "hostile": hostile_cases,
    "prefixes": prefixes,
    "mutations": mutations,
    "random": random_texts,
    "tokens": parts_of_tokens,
}


class Runner:
    def __init__(self, program, seconds, room):
        self.program = program
        self.seconds = seconds
        self.file = os.path.join(room, "source.vhd")
        self.printed = os.path.join(room, "printed")
        self.took = {}

    def run(self, source):
        """What the program says of a source: `ok`, a place, or how it failed."""
        with open(self.file, "wb") as file:
            file.write(source)
        with open(self.printed, "wb") as printed:
            begun = time.monotonic()
            try:
                ended = subprocess.run([self.program, self.file], stdout=printed, stderr=subprocess.PIPE, timeout=self.seconds)
            except subprocess.TimeoutExpired:
                return f"over {self.seconds} seconds"
            finally:
                self.last = time.monotonic() - begun
        if ended.returncode == 0:
            return "ok"
        with open(self.printed, "rb") as printed:
            head = printed.read(4096)
        place = PLACE.fullmatch(head)
        if ended.returncode == 1 and place:
            return place[1].decode()
        return f"status {ended.returncode}, printed {head[:80]!r} and {ended.stderr[-80:]!r}"


def wanted(options):
    for group in options.only.split(",") if options.only else GROUPS:
        chance = random.Random(f"{options.seed} {group}")
        for what, source, answer in GROUPS[group](chance):
            if any(text in what for text in options.skip.split(",") if text):
                continue
            data = source() if callable(source) else source
            if len(data) <= options.most:
                yield Case(group, what, data, answer)


def check(options):
    failed, counts, slowest = 0, collections.Counter(), {}
    with tempfile.TemporaryDirectory() as room:
        runner = Runner(os.path.abspath(options.bin), options.seconds, room)
        for case in wanted(options):
            said = runner.run(case.source)
            counts[case.group] += 1
            slowest[case.group] = max(slowest.get(case.group, (0, "")), (runner.last, case.what))
            if said != case.answer:
                failed += 1
                print(f"FAILED: {case.group}: {case.what}: wanted {case.answer}, said {said}", flush=True)
                if options.keep:
                    kept = pathlib.Path(options.keep) / f"{case.group}-{failed}.vhd"
                    kept.write_bytes(case.source)
    for group, count in counts.items():
        seconds, what = slowest[group]
        print(f"{group}: {count} sources, the slowest {seconds:.2f} s ({what})")
    print(f"{sum(counts.values())} sources, {failed} failed")
    return 1 if failed else 0


def main():
    parser = argparse.ArgumentParser(description=__doc__, formatter_class=argparse.RawDescriptionHelpFormatter)
    parser.add_argument("--bin", required=True, metavar="PROGRAM")
    parser.add_argument("--only", default="", metavar="GROUP,..", help="some of " + ", ".join(GROUPS))
    parser.add_argument("--skip", default="", metavar="TEXT,..")
    parser.add_argument("--most", type=int, default=1 << 62, metavar="BYTES")
    parser.add_argument("--seconds", type=float, default=20.0)
    parser.add_argument("--seed", type=int, default=0)
    parser.add_argument("--keep", metavar="DIRECTORY", help="keeps the sources that fail there")
    options = parser.parse_args()
    if not os.access(options.bin, os.X_OK):
        print(f"check_syntax: there is no program {options.bin}", file=sys.stderr)
        return 2
    for group in options.only.split(",") if options.only else []:
        if group not in GROUPS:
            parser.error(f"there is no group {group}")
    return check(options)


if __name__ == "__main__":
    sys.exit(judge.with_deep_stack(main))
