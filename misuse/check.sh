#!/bin/sh
# Shows that each misuse of a sheet is refused with its own error, and that its mended twin passes.
# Run it where crates.txt stands. The programs are checked above copies of the crates that they use.
set -u
scratch=$(mktemp -d)
trap 'rm -rf "$scratch"' EXIT
bad=0

mkdir -p "$scratch/crates/program/src"
cp -r crates/cells crates/sheet_kinds crates/sheets "$scratch/crates/"
grep -E '^(cells|sheet_kinds|sheets):' crates.txt >"$scratch/crates.txt"
echo 'program: sheet_kinds sheets' >>"$scratch/crates.txt"

# copies one program into the scratch folder and checks it there
try() {
    cp "misuse/$1/src/lib.rt.txt" "$scratch/crates/program/src/lib.rt"
    (cd "$scratch/crates/program" && rt check) >"$scratch/out" 2>&1
}

# $1: the program; $2: the text of the error that must refuse it
pair() {
    if try "$1/refused"; then
        echo "$1: passed, and must be refused"
        bad=1
    elif grep -qF "$2" "$scratch/out"; then
        echo "$1: refused, $(grep -F "$2" "$scratch/out" | head -1 | sed 's/.*error/error/')"
    else
        echo "$1: refused with another error"
        head -5 "$scratch/out"
        bad=1
    fi
    if try "$1/mended"; then
        echo "$1: the mended twin passes"
    else
        echo "$1: the mended twin is refused"
        head -5 "$scratch/out"
        bad=1
    fi
}

pair line_before_names 'error[unknown-method]: no method named `next_row` found for type `UnnamedSheet`'
pair line_after_end 'error[borrow-e0382]: borrow of moved value: `sheet`'
exit $bad
