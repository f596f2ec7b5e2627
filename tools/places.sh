#!/bin/sh
# Counts the places in src/ that older forms may be found at, a line for each point of docs/DESIGN-PASS.md, and with -v shows them.
# Each is a search for words, so a count may hold places that are fine as they stand; the page says which.
cd "$(dirname "$0")/.." || exit 1

show=$1

count() {
    name=$1
    pattern=$2
    found=$(grep -rnE --include='*.rt' "$pattern" crates/*/src)
    if [ -z "$found" ]; then number=0; else number=$(printf '%s\n' "$found" | wc -l); fi
    printf '%-58s %s\n' "$name" "$number"
    if [ "$show" = -v ] && [ "$number" != 0 ]; then printf '%s\n' "$found" | sed 's/^/    /'; fi
}

count '1 errors that are bare numbers' 'Result<.*, (usize|u8|u16|u64)>'
count '1 a flag beside a value' '\((bool, [a-z]|[a-z0-9]+, bool)'
count '1 arms that only pass on what is missing or went wrong' '=> (None|0|false|true|nothing\(\)),?$|Err\((fault|place|_)\) => (Err|None)|Ok\(found\) => Ok|Some\(a\) => Some\(|Ok\(\(\)\) => None'
count '1 tables and places with a number for none' 'middles: &mut|codes: &mut|\[usize; 7\]'
count '2 pairs of functions of one shape' 'fn (later|earlier|greatest_earliest|least_latest|earliest_from|latest_from|forward_[a-z]+|backward_[a-z]+|middle|code|up_to|on_from|below|close_points|date_numbered|minutes|at_most|at_least|at|tagredwood_[a-z_]+)\b'
count '2 traits that only make one type' 'trait (FromRows|LentOver|HullOver|SelectedOver|ChosenOver|FromText)'
count '3 while and loop' '^ *(while|loop) '
count '3 steps of a count by hand' '\+= 1'
count '3 for over a range of numbers' 'for [a-z_]+ in .*\.\.'
count '4 order, equality and conversion by hand' 'fn (is_less|is_same|same_end|is_finish|is_mark|signed|count|parts|parts_in|point|fault_words)\b'
count '5 text and place as two parameters' 'text: &(.a )?\[u8\], (from|start|place)'
count '5 matrix and number of points as two parameters' 'n: usize,?'
count '6 hand-made buffers' '(first|second|third|fourth): Window|\[u8; (64|MOST_CONDITIONS)\]|\[u16; |\[(Option<[A-Za-z]+>|None); '
count '7 a switch over numbers or kinds of step' '^ +(0|1|2|3) => |Class::'
