#!/bin/bash
# Counts the places of issue 34's points in src/ (docs/DESIGN-PASS.md): tools/places.sh [COMMIT], of the work tree if none is given.
set -e
top=$(git rev-parse --show-toplevel)
if [ -n "$1" ]; then
    dir=$(mktemp -d)
    git -C "$top" archive "$1" crates | tar -x -C "$dir"
    trap 'rm -rf "$dir"' EXIT
else
    dir=$top
fi
cd "$dir/crates"
src=$(ls */src/*.rt)
count() { printf '%-78s %s\n' "$1" "$(grep -hE "$2" $src | wc -l)"; }
count '1 enums with a case that refuses or fails, beside one that answers' '^    (Refused|Refusal)\(u8\),|^    Failed,'
count '1 a flag or a ground beside the values that it is about' '^    (pub )?(ok|found|known): bool,|^    (pub )?(number|refused): u8,'
count '1 functions that answer a ground, or 0 for none' '^pub fn (move_number|port_number)\(|^fn ground\('
count '1 named numbers for kinds (of tokens, operators, nodes)' '^(pub )?const [A-Z_]+: u(8|16) = [0-9]+;'
count '1 fields and parameters that are numbers for kinds of state' '\b(run|phase|join): u8'
count '3 loops with a condition' '^ +while |^ +loop \{'
count '3 steps of an index counted by hand' '^ +[a-z_]+ [+-]= 1;'
count '3 loops by for' '^ +for '
count '4 operators, minima and conversions written as functions' '^(pub )?fn (lesser|lesser_cell|wide|unless|both|three|or|either|same|byte|equal|narrow|port_number|number_port|wide_end|wide_entry|place|flip|last_digit|counted|longer|least|low_byte|occurs|excess)\('
count '4 conditions by return true or false' '^ +return (true|false);'
count '5 parameters: the first cells of the index, one of seven that travel together' '^    firsts: &|[(] ?firsts: &|, firsts: &'
count '5 parameters: the number of ports, likewise' '\bports: usize[,)]'
count '6 parallel arrays: uses of the three of the index as locals' 'let mut (firsts|ends|uses) = '
printf '%-78s %s\n' 'lines of src/' "$(cat $src | wc -l)"
printf '%-78s %s\n' '8 answers in proofs/' "$(grep -hE '^pub [a-z]' */proofs/*/Answers.antt */proofs/*/*/Answers.antt 2>/dev/null | wc -l)"
