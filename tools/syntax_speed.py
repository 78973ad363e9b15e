#!/usr/bin/env python3
"""Measures how fast a built program reads realistic VHDL, and with how much memory.

usage: tools/syntax_speed.py [--megabytes N] [--runs N] PROGRAM [ARGUMENT..]

The file is examples/syntax again and again, with the names of its units and of some objects numbered anew in each copy, and a
comment between two copies. The program is run as `PROGRAM ARGUMENT.. FILE` on files of an eighth, a quarter, a half and the
whole of the size, which is 16 MB if not given; what it prints is thrown away, but its printing takes time too. A line tells the
bytes, the quickest run, megabytes (of 1,000,000 bytes) a second, and the peak memory for each byte of the file. Where the times
are linear, the megabytes a second stay. Ends with 1 where the program refuses a file.
"""

import argparse
import os
import pathlib
import re
import subprocess
import sys
import tempfile
import time

SAMPLES = pathlib.Path(__file__).resolve().parent.parent / "examples" / "syntax"
RENAMED = re.compile(
    r"\b(fifo_types|fifo|uart_rx|uart_tx|uart_bank|alu_types|alu|sequencer|util|width|level|decode"
    r"|state_t|store_t|store|held|head|tail|samples|shift|place|registers|sticky|bitn|result|majority)\b"
)


def write(path, size):
    """Writes copies of the samples, as many as fit, and answers the bytes."""
    text = "\n".join(sample.read_text() for sample in sorted(SAMPLES.glob("*.vhd")))
    written, number = 0, 0
    with open(path, "w", encoding="ascii") as file:
        while True:
            number += 1
            copy = f"-- copy {number}\n" + RENAMED.sub(rf"\1_{number}", text) + "\n"
            if written + len(copy) > size:
                return written
            written += file.write(copy)


def run(words):
    """The status, the seconds and the peak memory in bytes of a run."""
    begun = time.perf_counter()
    started = subprocess.Popen(words, stdout=subprocess.DEVNULL)
    _, status, used = os.wait4(started.pid, 0)
    seconds = time.perf_counter() - begun
    started.returncode = os.waitstatus_to_exitcode(status)
    return started.returncode, seconds, used.ru_maxrss * 1024


def main():
    parser = argparse.ArgumentParser(description=__doc__, formatter_class=argparse.RawDescriptionHelpFormatter)
    parser.add_argument("--megabytes", type=float, default=16.0)
    parser.add_argument("--runs", type=int, default=3)
    parser.add_argument("program", metavar="PROGRAM")
    parser.add_argument("arguments", nargs="*", metavar="ARGUMENT")
    options = parser.parse_args()
    with tempfile.TemporaryDirectory() as room:
        path = os.path.join(room, "speed.vhd")
        for part in 8, 4, 2, 1:
            size = write(path, int(options.megabytes * 1_000_000) // part)
            runs = [run([options.program, *options.arguments, path]) for _ in range(options.runs)]
            if any(status != 0 for status, _, _ in runs):
                print(f"{size} bytes: REFUSED, status {runs[0][0]}")
                return 1
            seconds = min(seconds for _, seconds, _ in runs)
            memory = max(memory for _, _, memory in runs)
            print(f"{size} bytes: {seconds:.3f} s, {size / seconds / 1e6:.1f} MB/s, {memory / size:.1f} bytes of memory a byte")
    return 0


if __name__ == "__main__":
    sys.exit(main())
