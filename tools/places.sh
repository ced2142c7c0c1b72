#!/usr/bin/env bash
# Lists the lines of the sources (and counts those of the proofs) that look like an older form, by the eight points of
# docs/DESIGN-PASS.md. A line found is a place to look at, not yet a fault: the page says of each what became of it.
# tools/places.sh [-c] [CRATES]: -c prints the counts alone; CRATES is the folder of the crates (crates if none is given).
set -u
counts=no
if [ "${1:-}" = -c ]; then
    counts=yes
    shift
fi
cd "${1:-crates}" || exit 2
total=0

# The lines of all sources that match, without those that match the third argument.
look() {
    local found
    found=$(grep -nHE -e "$2" ./*/src/*.rt | sed 's|^\./||' | grep -vE -e "${3:-^$}")
    local n=0
    [ -n "$found" ] && n=$(printf '%s\n' "$found" | wc -l)
    total=$((total + n))
    printf '%-62s %4d\n' "$1" "$n"
    if [ "$counts" = no ] && [ -n "$found" ]; then
        printf '%s\n' "$found" | sed 's/^/    /'
    fi
}

look '1 own enums' '^ *(pub )?enum '
look '1 a flag with a value beside it' '(has|is_left)(: bool|\()' 'fn is_left|Option'
look '1 commands and codes as numbers' '0x[0-9A-F]{2}( \||( \|.*)? =>|\))' 'fill|checksum/|Some\(\(|=> (0|Level|Some\(\()'
look '1 a byte as result' '-> u8'
look '1 an Option that says why not' 'Option<(Refusal|[A-Za-z]*Fault)>'
look '2 methods written for each type' '^ +(pub )?fn (number|code|tally|address|stored_address|is_defective|speaks_serials|shown|serial|tell)\('
look '2 functions by a size or a base' 'fn (take|put|hex|decimal|with|is_by)_[a-z_]+|fn (decimal|within)\('
look '2 types of the same fields or cases' '^(pub )?(struct|enum) (Kind|Fitting|Newcomer|StationFault|FitFault|Spaced|Joined|SixBytes|Fan|OlderFan|Controller)'
look '2 whole programs alike' 'run_(script|and_tell)\(&rt'
look '3 loops over an index, and places counted' 'for .* in [^{]*\.\.|enumerate\(\)|while |loop \{'
look '3 slices cut at a counted place' '(get\(|list\[)[a-z0-9 +]*\.\.|\[[a-z]+ [-+] 1\]|\[2 \* i'
look '4 impls of From, Display and the like' '^impl.* (fmt::Display|From<.*>|TryFrom<.*>|FromStr|PartialEq|Ord|Default) for'
look '4 conversions and comparisons by a name' 'fn (of|by_password|named|number|code|covers|is_same|precedes|is_silence|on_or_off|none|of_[a-z]+)\('
look '5 facts asked of callers' '^ *requires '
look '5 serial, address and defect together' 'defective: bool' 'pub defective'
look '5 the kind beside the device' 'kind: Kind' 'pub kind'
look '5 what a call leaves of the lent row' 'ensures (rest|lender)'
look '6 arrays of a fixed length' '\[[^];]+; ?[0-9]+\]'
look '6 a length or a place beside a buffer' ', (at|n): usize|_(len|at): u8'
look '7 a match on a kind, an action or a word' 'match (self|(q\.)?action|self\.action|kind|command|fitting\.kind|text_of\(.*\)|\(self, action\)|\((kind|K::KIND), register\)) \{'
printf '%-62s %4d\n' 'lines in all' "$total"
for c in */; do
    [ -d "${c}proofs" ] || continue
    answers=$(find "${c}proofs" -name Answers.antt | wc -l)
    invariants=$(find "${c}proofs" -name Invariants.antt | wc -l)
    lines=$(find "${c}proofs" -name '*.antt' -exec cat {} + | wc -l)
    printf '8 %-12s answers %2d, invariants %d, lines of proof %4d\n' "${c%/}" "$answers" "$invariants" "$lines"
done
