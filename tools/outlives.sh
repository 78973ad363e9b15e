#!/usr/bin/env bash
# Shows that no tree outlives its arena: two calls are changed so that they answer a tree out of an arena of their own, and the compiler must refuse
# each, because the answer borrows from a local variable. Such a refusal comes before any proof, so it can't be an edit of must-fail/.
#
# usage: tools/outlives.sh
#
# Works on a copy. What stands below a changed crate is proved first, unless `rt check` has kept it. Ends with 1 where a change is not refused for that
# reason.
set -u
cd "$(dirname "$0")/.." || exit 1
room=$(mktemp -d)
trap 'rm -rf "$room"' EXIT
cp -r crates crates.txt HANDLES "$room/"
failed=0

# try CRATE FILE OLD NEW
try() {
    local file="$room/crates/$1/src/$2"
    if ! grep -qF "$3" "$file"; then
        echo "$1/$2: the line to change is not there: $3"
        failed=1
        return
    fi
    cp "$file" "$room/kept"
    OLD="$3" NEW="$4" perl -0pi -e 's/\Q$ENV{OLD}\E/$ENV{NEW}/' "$file"
    if (cd "$room/crates/$1" && rt check 2>&1) | grep -q 'borrow-e0515.*local variable'; then
        echo "$1/$2: refused, as it must be"
    else
        echo "$1/$2: NOT REFUSED as a borrow of a local variable"
        failed=1
    fi
    cp "$room/kept" "$file"
}

try vv_pexpr calls.rt 'expression::expr(arena, node)?' 'expression::expr(&nodes, node)?'
try vv_pstmt parse.rt 'units(arena, node)?' 'units(&nodes, node)?'
exit $failed
