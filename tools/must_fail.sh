#!/usr/bin/env bash
# Tries the must-fail edits that the gate leaves out for its time: tools/must_fail.sh [CRATE ..], all crates that have some where none is named.
# Each edit turns the meaning of a clause, so that its crate has to be refused. They stand in tools/must-fail/CRATE/ and are put beside those of the
# gate while they are tried. Ends with the status of the last crate that was not as it has to be, or 0.
set -u
cd "$(dirname "$0")/.." || exit 1

if [[ $# == 0 ]]; then
    set -- $(ls tools/must-fail)
fi
placed=()
remove() {
    [[ ${#placed[@]} == 0 ]] || rm -f -- "${placed[@]}"
    placed=()
}
trap remove EXIT
status=0
for crate; do
    mkdir -p "crates/$crate/must-fail"
    for edit in "tools/must-fail/$crate"/*.edit; do
        cp -- "$edit" "crates/$crate/must-fail/" && placed+=("crates/$crate/must-fail/${edit##*/}")
    done
    rt must-fail "$crate" || status=$?
    remove
    rmdir --ignore-fail-on-non-empty "crates/$crate/must-fail"
done
exit "$status"
