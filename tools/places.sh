#!/bin/sh
# places.sh [COMMIT]: counts the places of docs/DESIGN-PASS.md in the sources, of a commit or of the tree as it stands. Run it at the top of the repository.
commit=$1
lines() { # lines WHAT PATTERN [PATH..]: how many lines of the sources hold the pattern
    what=$1 pattern=$2
    shift 2
    [ $# -gt 0 ] || set -- 'crates/*/src/*.rt'
    printf '%5d  %s\n' "$(git grep -hE -e "$pattern" $commit -- "$@" | wc -l)" "$what"
}
echo '1 own enums and flags'
lines 'enums of the shape of Option or Result' '^pub enum (Verdict|Field|Spread|Uncertainty|Checked) '
lines 'lines that make or take apart one of them' '(Verdict|Field|Spread|Uncertainty|Checked)::[A-Z]'
lines 'flags beside a value' '^    pub (read|none): bool'
lines 'lines that make or read such a flag' '(Numeral|SheetSpread) \{|\.read\b|\bread: (true|false|below|above)|\.none\b|\bnone: (true|false)'
lines '0 for no line' 'line: 0|\.line (!=|==) 0'
lines 'tests of a verdict that end a function' 'if is_refused\('
lines 'records with zeros beside a verdict' '^    pub verdict: Verdict'
echo '3 loops that count an index'
lines 'while' '^ *while '
lines 'for over numbers' '^ *for [a-z_]+ in [^ ]+\.\.'
echo '4 by hand'
lines 'tests that end in a boolean' '^ *return (true|false);'
echo '5 what travels together'
lines 'lines of a signature that take a head and blocks, or blocks' 'head: Head, blocks: &|^    blocks: &\[u8\],'
lines 'clauses that ask that a head fits' 'Fits head'
lines 'clauses that ask that a card has the sums' 'Sums head card'
echo '6 buffers with a place or a length beside'
lines 'lines of a signature that take a room and a place' 'out: &mut \[u8\], at: usize|^    at: usize,'
lines 'arrays of the largest size with a count beside' '\[(u64|i64|u8|i32|usize|\[u64; 50\]); (50|2600|1300|2401)\]'
echo '8 proofs'
printf '%5d  %s\n' "$(git grep -lE -e . $commit -- 'crates/*/proofs/*' | grep -c '/Proof.antt$')" 'proofs in the old form'
printf '%5d  %s\n' "$(git grep -hE -e . $commit -- 'crates/*/proofs/*' | wc -l)" 'lines of proofs that are not empty'
