#!/bin/sh
# The second way to count the places of docs/DESIGN-PASS.md: plain greps over crates/*/src, a number for each. Run at the top of the tree
# as `sh tools/design-greps.sh [DIR]`. They count lines, not places: what they are for is to see that a count falls, and what is left.
# Comment lines and ghost use lines count only for the greps that read comments.
cd "${1:-.}" || exit 1
src() { find crates/*/src -name '*.rt' -exec cat {} +; }
code() { src | grep -vE '^ *//|^ghost use '; }
count() { printf '%s  %-58s %5d\n' "$1" "$2" "$(code | grep -cE "$3")"; }
said() { printf '%s  %-58s %5d\n' "$1" "$2" "$(src | grep -E '^ *//' | grep -cE "$3")"; }
count 1 'variants named as a failure' '^    (Wrong|Malformed|Refused|Nowhere|Nothing|Invalid|Bad|Drop|Fault)(\(.*\))?,$'
count 1 'flags with values beside' '^ *(pub )?(there|more): bool'
count 1 'a ? by hand: let .. else' 'let [A-Z][A-Za-z]*::[A-Za-z]+\(.*\) = .* else \{'
count 1 'a ? by hand: if n != 0' 'if [a-z]+ != 0 \{'
count 1 'a success that means nothing' 'Good\(0, 0\)'
count 1 'a number of a refusal' 'fn [a-z0-9_]*number[a-z_]*\(.*-> u8'
said 1 'a comment that says which value is none' '(^|[^0-9])0 (if|where|for)|where there is none|if there is none|counts as 0|gives 0'
count 1 'numbers for kinds' '(^|[ (])(form|way|stage|family|algorithm|kind|event|setting|table): u8'
count 2 'min and max by hand' 'if [a-z_0-9.()]+ < [a-z_0-9.()]+ \{ [a-z_0-9.()]+( as [a-z0-9]+)? \} else'
count 2 'constants of a type' '^    pub const [A-Z]'
count 3 'while' '(^| )while '
count 3 'for over numbers' '(^| )for [a-z_]+ in .*\.\.'
count 4 'bytes of a number' '% 256\) as u8|\* (256|65536|16777216|4294967296)( |$)'
count 4 'elements by number' '[a-z0-9]+\[0\](,| |\)).*[a-z0-9]+\[1\]'
count 4 'conversions by name' 'fn (of_[a-z]+|[a-z]+_of|coded)\((self|[a-z_]+: [A-Z][A-Za-z]*)\)'
count 4 'values of zeros' 'fn (new|start|none|nothing|empty|unused|no_[a-z]+)\(\)'
count 4 'equality by name' 'fn (same|same_[a-z]+|ended_alike|is_same)\('
count 4 'digits' '% 10([^0-9]|$)|48 \+|- 48|- 87|< 100? \{'
count 5 'requires lines' '^ *requires '
count 5 'form, keys and md5' '(^|[ (])form: u8'
count 5 'limit, mark, ports and halves of addresses' '(^|[ (])limit: u8'
count 6 'lengths beside arrays' '^ *(pub )?(len|length|held|from|count|key_len|mac_bytes|table_length|added): (usize|u8|u64),$'
count 6 'walks by hand' '(^| )(at|i|from|to) = ((at|from|to) \+ [a-z]|e \+ 1|e;|past)'
said 6 'zeros behind' '[Zz]eros (stand )?behind|mean(s)? nothing'
count 7 'flags as parameters' '[(, ][a-z_]+: bool[,)]'
count 7 'a match on a kind' 'match (self|kind|by|part|suite|algorithm|hash|event) \{'
count 7 'an if on a kind' 'if (form|way|stage|kind|event|algorithm)( ==| <|\) )'
printf '8  %-58s %5d\n' 'files Proof.antt' "$(find crates -path '*/proofs/*' -name Proof.antt | wc -l)"
printf '8  %-58s %5d\n' 'files Answers.antt and Invariants.antt' "$(find crates -path '*/proofs/*' \( -name Answers.antt -o -name Invariants.antt \) | wc -l)"
printf '8  %-58s %5d\n' 'lines of proofs/' "$(find crates -path '*/proofs/*.antt' -exec cat {} + | wc -l)"
