#!/usr/bin/env bash
# Finds the places of docs/DESIGN-PASS.md in src/ and counts them, point by point. With the word list it prints each place.
#
# usage: tools/design_places.sh [list]      at the top of the repository
set -euo pipefail
shopt -s globstar
sources=(crates/*/src/**/*.rt)
mode=${1:-count}

# Lines that match, or their count.
places() {
    local name=$1
    shift
    if [ "$mode" = list ]; then
        echo "== $name"
        "$@" || true
    else
        printf '%4d  %s\n' "$("$@" | wc -l)" "$name"
    fi
}
lines() { grep -nE "$1" "${sources[@]}" || true; }
# A line that matches the first pattern and is followed at once by one that matches the second.
pairs() { grep -nE -A1 "$1" "${sources[@]}" | grep -E "^[^:]+-[0-9]+-.*$2" || true; }
but() { lines "$1" | grep -vE "$2" || true; }

places "1 flags beside a value: bool fields" lines '^    (pub(\([a-z]+\))? )?[a-z_]+: bool,'
places "1 own enums (to be read for the shape of Option or Result)" lines '^(pub(\([a-z]+\))? )?enum '
places "1 arms that hand an Option or a Result on by hand" lines '^ *(Some|Ok)\(.*\) => (Some|Ok|Err)\(|^ *(None|Err\([a-z_]+\)) => (None|Ok|Err|Some|Answer|[0-9A-Z])'
places "1 let-else that only answers an error or none" pairs 'let (Some|Ok)\(.* else \{' 'return (Err|None|u64)'
places "1 numbers for kinds, refusals and what is not there" lines 'fn (from_)?number\(|^const (REGIONAL|CLOSING|NOT_CLOSED)|^    names\.len\(\)$'
places "2 twin files: lines of settle that settle_day has too" cat <(for f in files.rt tested.rt; do [ -e crates/settle/src/$f ] && cmp -s crates/settle/src/$f crates/settle_day/src/$f && echo "$f"; done; true)
places "2 sheets begun, named and walked by hand" lines 'UnnamedSheet::begin\('
places "2 values made of zeros, part by part" lines 'surcharge: (Paise::NOTHING|nothing),'
places "3 loops over a range" lines '^ *for [a-z_]+ in .*\.\.'
places "3 loops with a place counted beside" lines '^ *for \([a-z]+, [a-z]+\) in .*enumerate\(\)'
places "3 while loops" lines '^ *while '
places "3 loops that only ask, find or add" pairs '^ *for [a-z]+ in [a-z_]+ \{' '(if|let Some|at = put|fixed \+=)'
places "4 lossless casts by as" lines '[a-z)] as (u64|u128|i64)\b'
places "4 equality by hand" lines 'fn (same_[a-z]+|less|goes_on|is_close)\('
places "4 conversions by hand" lines 'fn (from_number|refusal_of|done|number|call_of|lent|grid_entry|reading_entry)\('
places "4 printing by hand" lines 'fn (print_stop|print_record|say_reserve)\(|\{sheet\},\{line\}'
places "5 Sound in the contracts of the pool" lines '(requires|ensures).*\bSound (self|book|result)'
places "5 how many charges there are, and room for as many" but '^ *(requires|ensures).*(length charges.now ≤|≡ length charges.now)' '^$'
places "5 a tariff, a grid and members together" lines '^    grid: &\[Option<GridEntry>; BLOCKS\],'
places "5 bytes and a place in them" lines '\(bytes: &(.a )?\[u8\], (at|end|from|start): usize\)|bytes: &\[u8\], start: usize'
places "5 room and a place in it" lines 'into: &mut \[[A-Za-z0-9]+\], at: usize'
places "6 a length beside a table" lines '^    (pub(\([a-z]+\))? )?(len|count): usize,'
places "6 parallel tables" lines '^    let mut (dues|charges|lines|remainders|order|payables|receivables) = \[|^        let mut (remainders|order) = \['
places "7 types that only say which step to run" lines 'fn enter\('
places "7 a match over every call" lines 'Call::DropDay =>'
