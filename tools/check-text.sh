#!/usr/bin/env bash
# Translates each examples/*.vhd and feeds the texts to other readers of Verilog, where these are installed.
# usage: tools/check-text.sh [PROGRAM]
# Ends with 1 where the program or a tool refuses a file, and with 2 where there is no program.
set -u

root=$(cd -- "$(dirname -- "${BASH_SOURCE[0]}")/.." && pwd)
program=$(readlink -f -- "${1:-$root/crates/v2v/out/v2v}")
if [[ ! -x $program ]]; then
    echo "check-text: there is no program $program; ./v2v builds it" >&2
    exit 2
fi
room=$(mktemp -d) || exit 2
trap 'rm -rf -- "$room"' EXIT
cd -- "$room" || exit 2
status=0

# The name of the first entity of a file.
top_of() {
    sed 's/--.*//' -- "$1" | grep -ioE '^[[:space:]]*entity[[:space:]]+[a-z][a-z0-9_]*' | head -n 1 | awk '{ print tolower($2) }'
}

texts=()
for source in "$root"/examples/*.vhd; do
    name=$(basename -- "$source" .vhd)
    if said=$("$program" translate "$(top_of "$source")" "$name.v" "$name.csv" "$source"); then
        echo "v2v: $name.vhd: translated"
        texts+=("$name.v")
    else
        echo "v2v: $name.vhd: REFUSED: $said"
        status=1
    fi
done

# Feeds one text to one tool.
try() {
    local tool=$1 text=$2
    shift 2
    if "$@" >"$tool.log" 2>&1; then
        echo "$tool: $text: ok"
    else
        echo "$tool: $text: REFUSED"
        sed 's/^/    /' -- "$tool.log"
        status=1
    fi
}

for tool in iverilog yosys verilator; do
    if ! command -v "$tool" >/dev/null; then
        echo "skipped: $tool is not installed"
        continue
    fi
    for text in "${texts[@]}"; do
        case $tool in
        iverilog) try "$tool" "$text" iverilog -g2005 -t null "$text" ;;
        yosys) try "$tool" "$text" yosys -q -p "read_verilog $text" ;;
        verilator) try "$tool" "$text" verilator --lint-only --language 1364-2005 "$text" ;;
        esac
    done
done
exit "$status"
