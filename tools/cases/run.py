#!/usr/bin/env python3
"""Small sources with their answers, run against a built program.

usage: tools/cases/run.py --bin PATH [--only PREFIX] [--slow] [--list]

Runs each case in a fresh folder, four at a time. Prints a line for each failing case, and `N passed, M failed` at the end;
status 1 where one failed.

  --bin PATH       the program, such as crates/v2v/out/v2v
  --only PREFIX    the cases whose names begin so, such as `N`, `T8`, `E11.0`, `ok-types`, `doc`, `translate`, `replay`
  --slow           also those that evaluate a million steps or hold a million elements
  --list           prints the names, with what each shows, and runs nothing

The cases stand in these files, beside this one:

  names_types.json  rules on names and types: N1 to N6, T1 to T9; `ok-types` break none, `two-types` break two
  design.json       rules of elaboration, templates and drivers: E1 to E12, C1 to C6, D1 to D7; `ok-design`, `two-design`
  translate.json    the command `translate`: texts, maps, statuses, words that are no command
  replay.json       the commands `replay` and `compare`

and `doc.CODE` are the examples of docs/RULES.md.

A case has `name`, `what` it shows, and `files`: the bytes of each as a text, as [HEAD, REST] where a head of the table
stands before the rest, or as {"repeat": [TEXT, TIMES]}. Either it has `top` and `answer`: its files are translated in their order,
and `answer` is the line that is printed with status 1, or `accepted`. Or it has `steps`, done in order in one folder, each with

  run       the words; `status`: the status; `prints`: what is printed, where it is told
  leaves    files with what they hold behind it; `lacks`: names that are no files
  modules   the names of the modules of the text, in any order
  columns   printed values, by column and row; `as`: a name for what is printed; `like`: [NAME, N]: the cycles are those of
            NAME but for the first N rows
  to        a file that takes the standard output

After a status of 1, 2, 3, 6 and 9 the folder has the files that it had.
"""

import argparse
import json
import os
import pathlib
import re
import subprocess
import sys
import tempfile
from concurrent.futures import ThreadPoolExecutor

HERE = pathlib.Path(__file__).resolve().parent
TABLES = ("names_types.json", "design.json", "translate.json", "replay.json")
UNCHANGED = (1, 2, 3, 6, 9)
SECONDS = 120


def content(source, heads):
    """The bytes of a file."""
    if isinstance(source, dict):
        text, times = source["repeat"]
        return text.encode("latin-1") * times
    if isinstance(source, list):
        source = heads[source[0]] + source[1]
    return source.encode("latin-1")


def steps_of(case):
    """The steps of a case."""
    if "steps" in case:
        return case["steps"]
    run = ["translate", case["top"], "o.v", "o.csv", *case["files"]]
    accepted = case["answer"] == "accepted"
    return [{"run": run, "status": 0 if accepted else 1, "prints": "" if accepted else case["answer"] + "\n"}]


def read(path):
    """The text of a file, or None."""
    try:
        return path.read_bytes().decode("latin-1")
    except OSError:
        return None


def records(text):
    """The column names of printed cycles, and the rows by their numbers."""
    lines = [line.split(",") for line in text.splitlines()] or [[]]
    return {line[0]: dict(zip(lines[0], line)) for line in lines[1:] if line}


def without(text, count):
    """Printed cycles without the first rows."""
    lines = text.splitlines()
    return lines[:1] + lines[1 + count :]


def look(step, folder, printed, kept):
    """What is wrong with what a step printed and left, or None."""
    if "prints" in step and "to" not in step and printed != step["prints"]:
        return f"printed {printed[-200:]!r}, not {step['prints'][-200:]!r}"
    for name, text in step.get("leaves", {}).items():
        found = read(folder / name)
        if found != text:
            return f"{name} holds {found[:300]!r}, not {text[:300]!r}" if found is not None else f"there is no {name}"
    for name in step.get("lacks", []):
        if (folder / name).is_file():
            return f"{name} was saved"
    if "modules" in step:
        found = re.findall(r"^module ([^\s(]+)\(", read(folder / step["run"][2]) or "", re.M)
        if sorted(found) != sorted(step["modules"]):
            return f"modules {found}, not {step['modules']}"
    rows = records(printed)
    for column, values in step.get("columns", {}).items():
        for row, value in values.items():
            if rows.get(row, {}).get(column) != value:
                return f"row {row}: {column} is {rows.get(row, {}).get(column)}, not {value}"
    if "like" in step:
        name, count = step["like"]
        if without(kept[name], count) != without(printed, count):
            return f"the cycles differ from those of {name}"
    if "as" in step:
        kept[step["as"]] = printed
    return None


def run_step(program, step, folder, kept):
    """What is wrong with a step, or None."""
    before = sorted(os.listdir(folder))
    with open(step.get("to", os.devnull), "wb") as other:
        out = other if "to" in step else subprocess.PIPE
        done = subprocess.run(
            [program, *step["run"]], cwd=folder, stdin=subprocess.DEVNULL, stdout=out, stderr=subprocess.DEVNULL, timeout=SECONDS
        )
    printed = (done.stdout or b"").decode("latin-1")
    if done.returncode != step["status"]:
        wanted = f", not {step['status']} {step['prints']!r}" if step.get("prints") else f", not {step['status']}"
        return f"status {done.returncode} {printed[-200:]!r}{wanted}"
    if done.returncode in UNCHANGED and sorted(os.listdir(folder)) != before:
        return f"files after status {done.returncode}: {sorted(set(os.listdir(folder)) - set(before))}"
    return look(step, folder, printed, kept)


def run_case(program, case, heads):
    """What is wrong with a case, or None."""
    with tempfile.TemporaryDirectory(prefix="case") as name:
        folder = pathlib.Path(name)
        for file, source in case["files"].items():
            (folder / file).write_bytes(content(source, heads))
        for file in case.get("folders", []):
            (folder / file).mkdir()
        kept = {}
        for step in steps_of(case):
            try:
                fault = run_step(program, step, folder, kept)
            except subprocess.TimeoutExpired:
                fault = f"no end within {SECONDS} seconds"
            if fault:
                return fault
    return None


def examples():
    """The examples of docs/RULES.md as cases."""
    text = (HERE.parent.parent / "docs" / "RULES.md").read_text()
    design = re.search(r"^# Stimuli$.*?^```vhdl\n(.*?)^```$", text, re.M | re.S).group(1)
    gate = "module gate(\n  input wire a,\n  input wire b,\n  output wire y\n);\n  assign y = (a & (~b));\nendmodule\n"
    for section in re.split(r"^(?=## |# )", text, flags=re.M):
        found = re.match(r"## (\w+): (.*?)\n.*?^```\w+\n(.*?)^```\n+Printed: `(.*?)`", section, re.M | re.S)
        if not found:
            continue
        code, title, source, line = found.groups()
        if code[0] in "SMV":
            files = {"a.vhd": design, "s.csv": "", "m.csv": "", "t.v": source}
            run, status = ["replay", "verilog", "e", "s.csv", "m.csv", "t.v"], 9
            if code[0] == "S":
                files["s.csv"] = source
                run, status = ["replay", "vhdl", "e", "s.csv", "a.vhd"], 6
            if code[0] == "M":
                files.update({"m.csv": source, "t.v": gate})
                run, status = ["replay", "verilog", "gate", "s.csv", "m.csv", "t.v"], 6
            yield {
                "name": f"doc-replay.{code}",
                "what": title,
                "files": files,
                "steps": [{"run": run, "status": status, "prints": line + "\n"}],
            }
        else:
            yield {"name": f"doc.{code}", "what": title, "files": {"a.vhd": source}, "top": "e", "answer": line}


def cases():
    """All cases, each with the heads of its table."""
    for table in TABLES:
        held = json.loads((HERE / table).read_text())
        for case in held["cases"]:
            yield case, held["heads"]
    for case in examples():
        yield case, {}


def is_wanted(case, arguments):
    """Whether the words of the command ask for this case."""
    if case.get("slow") and not arguments.slow:
        return False
    return case["name"].startswith(arguments.only or "")


def main():
    parser = argparse.ArgumentParser(description=__doc__, formatter_class=argparse.RawDescriptionHelpFormatter)
    parser.add_argument("--bin")
    parser.add_argument("--only")
    parser.add_argument("--slow", action="store_true")
    parser.add_argument("--list", action="store_true")
    arguments = parser.parse_args()
    wanted = [(case, heads) for case, heads in cases() if is_wanted(case, arguments)]
    if arguments.list:
        for case, _ in wanted:
            print(f"{case['name']:24} {case.get('what', '')}".rstrip())
        return 0
    if not arguments.bin:
        parser.error("--bin PATH is wanted")
    program = os.path.abspath(arguments.bin)
    failed = 0
    with ThreadPoolExecutor(4) as pool:
        faults = pool.map(lambda pair: run_case(program, *pair), wanted)
        for (case, _), fault in zip(wanted, faults):
            if fault:
                failed += 1
                what = f" ({case['what'].rstrip('.')})" if "what" in case else ""
                print(f"{case['name']}: {fault}{what}")
    print(f"{len(wanted) - failed} passed, {failed} failed")
    return 1 if failed else 0


if __name__ == "__main__":
    sys.exit(main())
