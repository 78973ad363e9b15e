#!/usr/bin/env bash
# Runs the built program where files and the output fail, and compares statuses and printed lines.
# usage: tools/edges.sh [PROGRAM]
# Ends with 1 where one differs, and with 2 where there is no program.
set -u

root=$(cd -- "$(dirname -- "${BASH_SOURCE[0]}")/.." && pwd)
program=$(readlink -f -- "${1:-$root/crates/v2v/out/v2v}")
if [[ ! -x $program ]]; then
    echo "edges: there is no program $program; ./v2v builds it" >&2
    exit 2
fi
room=$(mktemp -d) || exit 2
trap 'rm -rf -- "$room"' EXIT
cp -- "$root/examples/gate.vhd" "$room/gate.vhd" || exit 2
cd -- "$room" || exit 2
mkdir folder
printf 'entity gate is end;\n' >bad.vhd
printf 'y <= "01' >open.vhd
cat >gate.v <<'TEXT'
module gate(
  input wire a,
  input wire b,
  output wire y
);
  assign y = (a & (~b));
endmodule
TEXT
printf 'data,a,a,1,std\ndata,b,b,1,std\nout,y,y,1,std\n' >gate.csv
differences=0

# Prints ok, or what differs.
report() {
    if [[ $2 == "$3" ]]; then
        echo "ok: $1"
    else
        printf 'DIFFERS: %s\n  wanted: %s\n  found:  %s\n' "$1" "$3" "$2"
        differences=1
    fi
}

# case_of WHAT STATUS LINE WORD..: the program is run on the words.
case_of() {
    local what=$1 status=$2 line=$3 said found
    shift 3
    said=$("$program" "$@" </dev/null)
    found=$?
    report "$what" "status $found, printed '$said'" "status $status, printed '$line'"
}

# same WHAT FILE FILE: the two files have the same bytes.
same() {
    cmp -s -- "$2" "$3"
    report "$1" "cmp $?" "cmp 0"
}

# absent WHAT FILE: there is no such file.
absent() {
    [[ -e $2 ]] && found=there || found=absent
    report "$1" "$found" absent
}

case_of "an accepted file" 0 "" translate gate a.v a.csv gate.vhd
same "its text" a.v gate.v
same "its map" a.csv gate.csv
case_of "the top in capitals" 0 "" translate GATE b.v b.csv gate.vhd
same "the same text" b.v gate.v
case_of "names with spaces" 0 "" translate gate "c c.v" "c c.csv" gate.vhd
same "the same text" "c c.v" gate.v

case_of "no words" 2 usage
case_of "another command" 2 usage replays vhdl gate s.csv gate.vhd
case_of "too few words of a replay" 2 usage replay vhdl gate s.csv
case_of "a replay of a text with a file too many" 2 usage replay verilog gate s.csv gate.csv gate.v gate.vhd
case_of "no stages" 2 usage gen 0 0 c.vhd s.csv c.v c.csv
case_of "one name twice" 2 usage gen 1 0 c.vhd s.csv c.v c.vhd
printf 'a,b\n1,0\n' >s.csv
case_of "a replay of a design" 0 $'row,y\n0,U\n1,1' replay vhdl gate s.csv gate.vhd
case_of "a replay of a text" 0 $'row,y\n0,x\n1,1' replay verilog gate s.csv gate.csv gate.v
case_of "a comparison" 0 "equal 1" compare gate s.csv gate.csv gate.v gate.vhd
case_of "a stimulus that is absent" 3 "read fault: t.csv" replay vhdl gate t.csv gate.vhd
case_of "too few words" 2 usage translate gate d.v d.csv
case_of "one file twice" 2 usage translate gate d.v d.csv gate.vhd gate.vhd
case_of "256 files" 2 usage translate gate d.v d.csv {1..256}.vhd
case_of "a top that begins with -" 2 usage translate -gate d.v d.csv gate.vhd
case_of "OUT and MAP are one name" 2 usage translate gate d.v d.v gate.vhd
case_of "OUT and FILE are one name" 2 usage translate gate gate.vhd d.csv gate.vhd
case_of "OUT and the second FILE are one name" 2 usage translate gate bad.vhd d.csv gate.vhd bad.vhd
case_of "MAP and FILE are one name" 2 usage translate gate d.v gate.vhd gate.vhd
case_of "a command in capitals" 2 usage TRANSLATE gate d.v d.csv gate.vhd
case_of "a word that is not UTF-8" 2 usage translate gate d.v d.csv $'gate\xff.vhd'
absent "no text after status 2" d.v
absent "no map after status 2" d.csv

case_of "a refused file" 1 "bad.vhd:1:1: E10" translate gate e.v e.csv bad.vhd
case_of "an open string" 1 "open.vhd:1:6: X2" translate gate e.v e.csv open.vhd
case_of "a second file" 1 "bad.vhd:1:8: N5" translate gate e.v e.csv gate.vhd bad.vhd
case_of "an open string in the third file" 1 "open.vhd:1:6: X2" translate gate e.v e.csv gate.vhd bad.vhd open.vhd
absent "no text after status 1" e.v
absent "no map after status 1" e.csv

case_of "an absent file" 3 "read fault: nothing.vhd" translate gate f.v f.csv nothing.vhd
case_of "an absent second file" 3 "read fault: nothing.vhd" translate gate f.v f.csv gate.vhd nothing.vhd
case_of "two absent files" 3 "read fault: nothing.vhd" translate gate f.v f.csv nothing.vhd none.vhd
case_of "a folder in place of the file" 3 "read fault: folder" translate gate f.v f.csv folder
case_of "an empty name" 3 "read fault: " translate gate f.v f.csv ""
absent "no text after status 3" f.v
absent "no map after status 3" f.csv

case_of "OUT in a folder that is not there" 4 "write fault: none/g.v" translate gate none/g.v g.csv gate.vhd
absent "no map after a fault of OUT" g.csv
case_of "a folder in place of OUT" 4 "write fault: folder" translate gate folder g.csv gate.vhd
case_of "MAP in a folder that is not there" 4 "write fault: none/h.csv" translate gate h.v none/h.csv gate.vhd
same "the text stands after a fault of MAP" h.v gate.v

# full WHAT STATUS WORD..: the output has no room.
full() {
    local what=$1 status=$2
    shift 2
    "$program" "$@" </dev/null >/dev/full
    report "$what" "status $?" "status $status"
}

if [[ -c /dev/full ]]; then
    case_of "OUT has no room" 4 "write fault: /dev/full" translate gate /dev/full i.csv gate.vhd
    absent "no map after a fault of OUT" i.csv
    full "the output has no room for usage" 4
    full "the output has no room for a refusal" 4 translate gate j.v j.csv bad.vhd
    full "the output has no room for a read fault" 4 translate gate j.v j.csv nothing.vhd
    full "status 0 prints nothing, so a full output is no fault" 0 translate gate j.v j.csv gate.vhd
else
    echo "skipped: there is no /dev/full"
fi
exit "$differences"
