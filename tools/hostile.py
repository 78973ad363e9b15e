#!/usr/bin/env python3
"""Runs the built program on hostile files, and prints a table of what it did, in what time and with how much memory.

usage: tools/hostile.py [PROGRAM]

Each case has the status and the printed line that are wanted. Places are worked out from how the file is made, never
from what the program prints. A case fails where the answer differs, where a file of 16 MiB takes over 2 seconds in each
of four runs, and where a file of a megabyte or more takes over 64 bytes of memory for each of its bytes. Ends with 1
where a case fails, and with 2 where there is no program.
"""

import os
import random
import subprocess
import sys
import tempfile
import time

MOST = 16_777_216  # bytes of a source file
MEGABYTE = 1_048_576
MOST_SECONDS = 2.0
TRIES = 4  # runs of a case that takes longer
MOST_BYTES_A_BYTE = 64.0
TIME = "/usr/bin/time"

CONTEXT = b"library ieee; use ieee.std_logic_1164.all; use ieee.numeric_std.all;\n"
ENTITY = b"entity gate is port (a, b : in std_logic; y : out std_logic); end;\n"
BEGIN = b"architecture r of gate is begin "  # 32 bytes: a first statement stands in column 33
END = b" end;\n"
SOUND = CONTEXT + ENTITY + BEGIN + b"y <= a and not b;" + END

# Prints the peak memory of a program in KiB behind its own small process, where there is no /usr/bin/time.
HELPER = """
import os, sys
child = os.fork()
if child == 0:
    os.execv(sys.argv[2], sys.argv[2:])
_, status, used = os.wait4(child, 0)
open(sys.argv[1], "w").write(str(used.ru_maxrss))
os._exit(os.waitstatus_to_exitcode(status) & 255)
"""


class Case:
    def __init__(self, what, file, line="", ports=None, assigns=None):
        """`line` is what is printed behind the file's name, and empty for an accepted file."""
        self.what = what
        self.file = file
        self.line = line
        self.ports = ports
        self.assigns = assigns

    def status(self):
        return 1 if self.line else 0


def gate(statements, entity=ENTITY):
    return CONTEXT + entity + BEGIN + statements + END


def filled(file, size=MOST):
    """The file with spaces behind it."""
    return file + b" " * (size - len(file))


def chain(terms, term=b"a"):
    return b"y <= " + b" and ".join([term] * terms) + b";"


def long_architecture():
    """As many chains of 64 terms as fit, each with an output of its own."""
    tail = b"<=" + b" and ".join([b"a"] * 64) + b";\n"
    names, size = [], 200
    while size + 2 * 7 + len(tail) < MOST:
        names.append(b"y%d" % len(names))
        size += 2 * len(names[-1]) + 1 + len(tail)
    entity = b"entity gate is port (a : in std_logic; " + b",".join(names) + b" : out std_logic); end;\n"
    file = gate(b"".join(name + tail for name in names), entity)
    return Case("16 MiB of chains of 64 terms", filled(file), ports=len(names) + 1, assigns=len(names))


def short_assignments():
    """As many assignments of one term as fit, each with an output of its own."""
    names, size = [], 200
    while size + 2 * 8 + 6 < MOST:
        names.append(b"y%d" % len(names))
        size += 2 * len(names[-1]) + 6
    entity = b"entity gate is port (a : in std_logic; " + b",".join(names) + b" : out std_logic); end;\n"
    file = gate(b"".join(name + b"<=a;" for name in names), entity)
    return Case("16 MiB of assignments of one term", filled(file), ports=len(names) + 1, assigns=len(names))


def short_name(number):
    """The name with this number: y and the digits of the number in base 36."""
    digits = []
    while True:
        digits.append(b"abcdefghijklmnopqrstuvwxyz0123456789"[number % 36])
        number //= 36
        if number == 0:
            return b"y" + bytes(digits)


def mixed_outputs(what, uses, behind):
    """As many outputs with short names as fit, in no order of their names. Each name stands `uses` times, with `behind` bytes besides."""
    names, size = [], 200
    while size + uses * 6 + behind < MOST:
        names.append(short_name(len(names)))
        size += uses * len(names[-1]) + behind
    random.Random(1).shuffle(names)
    entity = b"entity gate is port (a : in std_logic; " + b",".join(names) + b" : out std_logic); end;\n"
    targets = random.Random(2).sample(names, len(names)) if uses == 2 else []
    file = gate(b"".join(name + b"<=a;" for name in targets), entity)
    return Case(what, filled(file), ports=len(names) + 1, assigns=len(names))


def repeated(what, start, piece, end, line):
    """16 MiB of a piece that stands again and again."""
    count = (MOST - len(start) - len(end)) // len(piece)
    return Case(what, filled(start + piece * count + end), line)


def cases():
    yield Case("no bytes", b"", "1:1: Y1")
    yield Case("an accepted file", SOUND, ports=3, assigns=1)
    yield Case("CR LF line ends", SOUND.replace(b"\n", b"\r\n"), ports=3, assigns=1)
    yield Case("a CR does not end a comment", b"-- c\rlibrary ieee;", "1:19: Y1")
    yield Case("a comment with no line end, behind an accepted file", SOUND + b"-- end", ports=3, assigns=1)
    yield Case("a NUL", b"\0", "1:1: X1")
    yield Case("a NUL between two words", SOUND.replace(b"library ", b"library\0"), "1:8: X1")
    high = bytes(range(128, 256))
    yield Case("bytes 128 to 255", high, "1:1: X1")
    yield Case("bytes 128 to 255 in a comment", b"--" + high + b"\n" + SOUND, ports=3, assigns=1)
    yield Case("bytes 128 to 255 behind an accepted file", SOUND + high, "4:1: X1")
    # `entity gate is port (` is 21 bytes, so the port's name stands in column 22
    yield Case("two underscores in a row", gate(b"", ENTITY.replace(b"a, b", b"a__b")), "2:22: X1")
    yield Case("an underscore at the end", gate(b"", ENTITY.replace(b"a, b", b"a_, b")), "2:22: X1")
    # the first term stands in column 38
    yield Case("64 terms", gate(chain(64)), ports=3, assigns=1)
    yield Case("65 terms, refused at the 64th operator", gate(chain(65)), f"3:{38 + 63 * 6 + 2}: Y1")
    yield Case("64 terms with not", gate(chain(64, b"not a")), ports=3, assigns=1)
    yield Case("65 terms with not", gate(chain(65, b"not a")), f"3:{38 + 63 * 10 + 6}: Y1")
    yield Case("two operators in one chain", gate(b"y <= a and b or a;"), "3:46: Y1")
    yield Case("an output that is read", gate(b"y <= a and y;"), "3:44: N1")
    yield Case("an output that is assigned again", gate(b"y <= a; y <= b;"), "3:41: N1")
    yield Case("no end", SOUND[: -len(b"end;\n")], f"3:{32 + 17 + 2}: Y1")

    name = b"n" * MEGABYTE
    entity = b"entity gate is port (" + name + b" : in std_logic; y : out std_logic); end;\n"
    yield Case("an identifier of a megabyte", gate(b"y <= " + name + b";", entity), ports=2, assigns=1)
    yield Case("a megabyte of -", b"-" * MEGABYTE, f"1:{MEGABYTE + 1}: Y1")
    inputs = b",".join(b"i%d" % n for n in range(50_000))
    outputs = b",".join(b"o%d" % n for n in range(50_000))
    entity = b"entity gate is port (" + inputs + b" : in std_logic; " + outputs + b" : out std_logic); end;\n"
    yield Case("100,000 ports", gate(b"", entity), ports=100_000, assigns=50_000)

    yield Case("16,777,216 spaces", b" " * MOST, f"1:{MOST + 1}: Y1")
    yield Case("16,777,217 spaces", b" " * (MOST + 1), "1:1: L1")
    yield Case("an accepted file with spaces to 16,777,216 bytes", filled(SOUND), ports=3, assigns=1)
    yield Case("an accepted file with spaces to 16,777,217 bytes", filled(SOUND, MOST + 1), "1:1: L1")
    lines = MOST // 3
    yield Case("16 MiB of empty comments", filled(b"--\n" * lines), f"{lines + 1}:{MOST - 3 * lines + 1}: Y1")
    yield Case("16 MiB of (", b"(" * MOST, "1:1: Y1")
    yield long_architecture()
    yield short_assignments()
    yield mixed_outputs("16 MiB of assignments of one term, mixed", 2, 6)
    yield mixed_outputs("16 MiB of outputs that are not assigned, mixed", 1, 1)
    # `y<=a;` is 5 bytes, so the second target stands in column 33 + 5
    yield repeated("16 MiB of one assignment", CONTEXT + ENTITY + BEGIN, b"y<=a;", END, "3:38: N1")
    yield repeated(
        "16 MiB of one port",
        CONTEXT + b"entity gate is port (a",
        b",a",
        b" : in std_logic); end;\n" + BEGIN + END,
        "2:24: N1",
    )
    yield repeated(
        "16 MiB of one group of ports",
        CONTEXT + b"entity gate is port (a:in std_logic",
        b";a:in std_logic",
        b"); end;\n" + BEGIN + END,
        f"2:{21 + len(b'a:in std_logic;') + 1}: N1",
    )


def measured(program, words, room):
    """Runs the program: its status, what it printed, the seconds, and its peak memory in bytes."""
    kept = f"{room}/memory"
    if os.access(TIME, os.X_OK):
        command = [TIME, "-f", "%M", "-o", kept, program, *words]
    else:
        command = [sys.executable, "-I", "-S", "-c", HELPER, kept, program, *words]
    start = time.monotonic()
    ran = subprocess.run(command, cwd=room, stdin=subprocess.DEVNULL, capture_output=True)
    seconds = time.monotonic() - start
    with open(kept) as it:
        memory = int(it.read().split()[-1]) * 1024
    return ran.returncode, ran.stdout + ran.stderr, seconds, memory


def least_of(tries, program, words, room):
    """The first run that is quick enough, or else the quickest of these many: other work on a machine may slow down any one."""
    best = measured(program, words, room)
    while tries > 1 and best[2] > MOST_SECONDS:
        tries -= 1
        best = min(best, measured(program, words, room), key=lambda run: run[2])
    return best


def faults_of(case, status, said, seconds, memory, room):
    found = []
    wanted = f"g.vhd:{case.line}\n".encode() if case.line else b""
    if (status, said) != (case.status(), wanted):
        found.append(f"status {status} and {said[:80]!r}, wanted {case.status()} and {wanted!r}")
    elif status == 0:
        with open(f"{room}/g.csv", "rb") as it:
            ports = it.read().count(b"\n")
        with open(f"{room}/g.v", "rb") as it:
            assigns = it.read().count(b"\n  assign ")
        if (ports, assigns) != (case.ports, case.assigns):
            found.append(f"{ports} lines of the map and {assigns} assigns, wanted {case.ports} and {case.assigns}")
    elif os.path.exists(f"{room}/g.v") or os.path.exists(f"{room}/g.csv"):
        found.append("a refused file, and yet text or map was written")
    size = len(case.file)
    if size >= MOST and seconds > MOST_SECONDS:
        found.append(f"over {MOST_SECONDS} seconds")
    if size >= MEGABYTE and memory > MOST_BYTES_A_BYTE * size:
        found.append(f"over {MOST_BYTES_A_BYTE} bytes of memory a byte")
    return found


def main():
    root = os.path.dirname(os.path.dirname(os.path.realpath(__file__)))
    program = os.path.realpath(sys.argv[1] if len(sys.argv) > 1 else f"{root}/crates/v2v/out/v2v")
    if not os.access(program, os.X_OK):
        print(f"hostile: there is no program {program}; ./v2v builds it", file=sys.stderr)
        return 2
    failed = 0
    print(f"{'bytes':>10} {'status':>6} {'seconds':>8} {'MiB':>8} {'bytes/byte':>10}  case")
    for case in cases():
        with tempfile.TemporaryDirectory(prefix="v2v-hostile-") as room:
            with open(f"{room}/g.vhd", "wb") as it:
                it.write(case.file)
            words = ["translate", "gate", "g.v", "g.csv", "g.vhd"]
            status, said, seconds, memory = least_of(TRIES, program, words, room)
            faults = faults_of(case, status, said, seconds, memory, room)
        size = len(case.file)
        ratio = f"{memory / size:10.1f}" if size >= MEGABYTE else f"{'-':>10}"
        print(f"{size:>10} {status:>6} {seconds:>8.2f} {memory / MEGABYTE:>8.1f} {ratio}  {case.what}", flush=True)
        for it in faults:
            print(f"    FAILED: {it}", flush=True)
        failed += bool(faults)
    print("all as wanted" if not failed else f"{failed} cases failed")
    return 1 if failed else 0


if __name__ == "__main__":
    sys.exit(main())
