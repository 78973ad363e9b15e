#!/usr/bin/env python3
"""Compares the rows of `numeric_std` with the published package, as GHDL runs it.

usage: tools/numeric.py [LENGTH [PROGRAM]]

Runs the program `numeric_rows` and a VHDL design that writes the same lines, on all vectors of up to LENGTH elements (else 3) over
nine values and on the numbers from -9 to 9. Prints for each row how many results differ. Ends with 1 where some do, and with 2 where
there is no program. Where GHDL is missing nothing is compared.
"""

import re
import shutil
import subprocess
import sys
import tempfile
from pathlib import Path

ROOT = Path(__file__).resolve().parent.parent
SYMBOLS = {
    "Add": "+", "Subtract": "-", "Multiply": "*", "Equal": "=", "NotEqual": "/=", "Less": "<", "LessEqual": "<=", "Greater": ">",
    "GreaterEqual": ">=", "And": "and", "Or": "or", "Xor": "xor", "Nand": "nand", "Nor": "nor", "Xnor": "xnor",
    "ShiftLeft": "shift_left", "ShiftRight": "shift_right", "RotateLeft": "rotate_left", "RotateRight": "rotate_right",
}
NUMBERS = {"Natural": "0 to 9", "Integer": "integer range -9 to 9"}

HEAD = """
library ieee;
use ieee.std_logic_1164.all;
use ieee.numeric_std.all;
use std.textio.all;
entity rows is end;
architecture written of rows is
  constant letters : string(1 to 9) := "UX01ZWLH-";
  constant longest : natural := {longest};
  constant count : natural := {count};
  type lengths_type is array (0 to count - 1) of natural;
  type vectors_type is array (0 to count - 1) of std_logic_vector(longest - 1 downto 0);
  shared variable lengths : lengths_type;
  shared variable vectors : vectors_type;
  shared variable text : string(1 to 100000);
  shared variable filled : natural := 0;

  procedure put(s : string) is
  begin
    text(filled + 1 to filled + s'length) := s;
    filled := filled + s'length;
  end;

  procedure end_line is
    variable l : line;
  begin
    write(l, text(1 to filled));
    writeline(output, l);
    filled := 0;
  end;

  function image(v : std_logic_vector) return string is
    alias w : std_logic_vector(1 to v'length) is v;
    variable s : string(1 to v'length);
  begin
    for i in w'range loop
      s(i) := letters(std_ulogic'pos(w(i)) + 1);
    end loop;
    return s;
  end;
  function image(v : unsigned) return string is begin return image(std_logic_vector(v)); end;
  function image(v : signed) return string is begin return image(std_logic_vector(v)); end;
  function image(n : integer) return string is begin return integer'image(n); end;
  function image(b : boolean) return string is begin if b then return "T"; else return "F"; end if; end;

  impure function u(i : natural) return unsigned is begin return unsigned(vectors(i)(lengths(i) - 1 downto 0)); end;
  impure function s(i : natural) return signed is begin return signed(vectors(i)(lengths(i) - 1 downto 0)); end;
begin
  process
    variable k, size, rest : natural;
  begin
    k := 0;
    size := 1;
    for n in 1 to longest loop
      size := size * 9;
      for index in 0 to size - 1 loop
        lengths(k) := n;
        rest := index;
        for place in 0 to n - 1 loop
          vectors(k)(place) := std_ulogic'val(rest mod 9);
          rest := rest / 9;
        end loop;
        k := k + 1;
      end loop;
    end loop;
"""

TAIL = """
    wait;
  end process;
end;
"""


def names():
    """The variants of `NumFn`, in order."""
    text = (ROOT / "crates/vv_types/src/numeric.rt").read_text()
    return re.findall(r"^    ([A-Z]\w+),$", text, re.M)


def side(kind, index):
    """The values of an index and the operand that it stands for."""
    if kind in NUMBERS:
        return NUMBERS[kind], index
    return "0 to count - 1", f"{kind[0].lower()}({index})"


def row(name):
    """The loops that write one row."""
    match = re.fullmatch(r"(ToInteger|To|[A-Z][a-zA-Z]*?)((?:Unsigned|Signed|Natural|Integer){1,2})", name)
    operator, kinds = match.group(1), re.findall("Unsigned|Signed|Natural|Integer", match.group(2))
    if name in ("ToUnsigned", "ToSigned"):
        left, right, guard = side("Natural" if name == "ToUnsigned" else "Integer", "i"), ("1 to 9", "j"), ""
        result = f"to_{name[2:].lower()}(i, j)"
    elif operator in ("Absolute", "Negate", "Not", "ToInteger"):
        left, right, guard = side(kinds[0], "i"), ("0 to 0", "j"), ""
        result = {"Absolute": "abs ", "Negate": "-", "Not": "not ", "ToInteger": "to_integer"}[operator] + f"({left[1]})"
    elif operator == "Resize":
        left, right, guard = side(kinds[0], "i"), ("1 to 9", "j"), ""
        result = f"resize({left[1]}, j)"
    elif operator.startswith(("Shift", "Rotate")):
        left, right, guard = side(kinds[0], "i"), ("0 to 9", "j"), ""
        result = f"{SYMBOLS[operator]}({left[1]}, j)"
    else:
        left, right = side(kinds[0], "i"), side(kinds[-1], "j")
        guard = "if lengths(i) = lengths(j) then " if len(kinds) == 1 else ""
        result = f"{left[1]} {SYMBOLS[operator]} {right[1]}"
    close = " end if;" if guard else ""
    return (
        f'    for i in {left[0]} loop put("{name} " & image({left[1]}) & ":");\n'
        f'      for j in {right[0]} loop {guard}put(" " & image({result}));{close} end loop; end_line;\n'
        f"    end loop;\n"
    )


def published(longest, room):
    """The lines that GHDL writes."""
    head = HEAD.replace("{longest}", str(longest)).replace("{count}", str(sum(9**n for n in range(1, longest + 1))))
    (room / "rows.vhd").write_text(head + "".join(row(name) for name in names()) + TAIL)
    for step in (["-a", "--std=93", "rows.vhd"], ["-e", "--std=93", "rows"]):
        subprocess.run(["ghdl", *step], cwd=room, check=True)
    with open(room / "published", "wb") as out:
        subprocess.run(["ghdl", "-r", "--std=93", "rows", "--ieee-asserts=disable"], cwd=room, check=True, stdout=out)
    return room / "published"


def compare(own, other):
    """Prints each row's count of results, with the first that differ. Answers whether none does."""
    counts, differing, lines = {}, {}, 0
    with open(own) as left, open(other) as right:
        for a, b in zip(left, right):
            lines += 1
            (key_a, values_a), (key_b, values_b) = (line.rstrip("\n").split(":", 1) for line in (a, b))
            name = key_a.split()[0]
            values_a, values_b = values_a.split(), values_b.split()
            if key_a != key_b or len(values_a) != len(values_b):
                print(f"numeric: line {lines}: {key_a!r} against {key_b!r}")
                return False
            counts[name] = counts.get(name, 0) + len(values_a)
            for place, (x, y) in enumerate(zip(values_a, values_b)):
                if x != y:
                    differing.setdefault(name, []).append(f"{key_a}, operand {place}: {x} against {y}")
        if left.readline() or right.readline():
            print("numeric: one has more lines")
            return False
    for name, found in differing.items():
        print(f"{name}: {len(found)} of {counts[name]} differ, as {found[0]}")
    print(f"numeric: {sum(counts.values())} results in {len(counts)} rows, {sum(map(len, differing.values()))} differ")
    return not differing


def main():
    longest = int(sys.argv[1]) if len(sys.argv) > 1 else 3
    program = Path(sys.argv[2]) if len(sys.argv) > 2 else ROOT / "crates/numeric_rows/out/numeric_rows"
    if shutil.which("ghdl") is None:
        print("numeric: there is no ghdl; nothing is compared")
        return 0
    if not program.exists():
        print(f"numeric: there is no program {program}; 'rt run' in crates/numeric_rows builds it", file=sys.stderr)
        return 2
    with tempfile.TemporaryDirectory() as folder:
        room = Path(folder)
        other = published(longest, room)
        with open(room / "own", "wb") as out:
            subprocess.run([program.resolve(), str(longest)], check=True, stdout=out)
        return 0 if compare(room / "own", other) else 1


if __name__ == "__main__":
    sys.exit(main())
