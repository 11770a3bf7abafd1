#!/bin/bash
# Lists the places in crates/*/src that today's forms of the language may replace, by point, with their number.
# Run it from the top of the repository: tools/places.sh [-c]   (-c: the numbers alone). docs/DESIGN-PASS.md says what each point is.
# For twins it asks the command `duplicates` of the place where the repository is worked on, which lists pairs of like places.
only=$1
command -v duplicates > /dev/null || { echo "places.sh: no command duplicates, by which twins are listed" >&2; exit 1; }
place() { # place TITLE REGEX [FILES]: the lines of the sources that match, but for comments
    local found
    found=$(git ls-files 'crates/*/src/*.rt' | xargs grep -nE "$2" | grep -vE '^[^:]+:[0-9]+:\s*//')
    echo "$(printf '%s' "$found" | grep -c '') $1"
    [ "$only" = -c ] || printf '%s\n' "$found" | sed 's/^/    /'
}
echo "# 1. own Option or Result, flags, numbers for kinds"
place "1a an arm that hands None, Some, Ok or Err on" 'None => None|Some\(\w+\) => Some\(|Some\(\w+\) => \w+,|Ok\((\w+)\) => Ok\(|Ok\((\w+)\) => \w+,|Err\(\w+\) => Err\(|_ => Err\('
place "1b a variant that stands for nothing or for a failure" '^    (Nothing|Unknown|Spent|Put|None\w*),$'
place "1c a flag in a struct" '^    (pub )?\w+: bool,$'
place "1d a number for a kind, a refusal or nothing" 'const \w*(KIND|NO_|WRONG|MARK)\w*: u'
echo "# 2. twins"
copy=$(mktemp -d)
git ls-files 'crates/*/src/*.rt' | while read -r f; do mkdir -p "$copy/$(dirname "$f")"; cp "$f" "$copy/${f%.rt}.rs"; done
rows=$(duplicates --repo "$copy" --most 200 --seconds 60 2>/dev/null | grep -E '^D[0-9]+ ')
rm -rf "$copy"
echo "$(printf '%s' "$rows" | grep -c '') 2a pairs of places of six like lines (the command duplicates)"
[ "$only" = -c ] || printf '%s\n' "$rows" | sed 's/^/    /'
echo "# 3. loops"
place "3a a loop over a range, a while or a loop" 'for \w+ in [^{]*\.\.|while |loop \{'
echo "# 4. derives and library traits"
place "4a a type that derives Clone and Copy alone" 'derive\(Clone, Copy\)\]'
place "4b a conversion, a comparison or a look-up by hand" 'fn (is|same_word|is_store|is_digit|flag|unsigned|signed|register|system_register|word|letter_at|char_at|word_or_zero|byte_or_zero|or_unknown|extend_byte|digit_value|hex_digit)\b'
place "4c a method that gives the number of an enum" 'fn (number|code)\('
place "4d a text made or printed by hand" 'fn (\w+_text|print_\w+|show\w*|refused|word)\('
echo "# 5. facts and parameters that travel together"
place "5a a mode beside a table, and a text beside an index" '(user: bool,|user: bool, address)|\(text: &\[u8\], i: usize|text: &\[u8\], i: usize'
place "5b a requires" 'requires( \w+)? \{'
place "5c a clause that marks or the rest stay" 'ensures (\w*marks|\w*rest) \{'
echo "# 6. buffers with a length beside them"
place "6a a fixed buffer in a struct" '^    (pub )?\w+: \[u8; \w+\],$'
place "6b an index into a buffer behind a test of its length" 'if \w+ < \w+\.len\(\)'
echo "# 7. switches on the step to run"
place "7a a match on an instruction, a form, a verb, a command, a call or a store" 'match (\*?instruction|\*?privileged|form|verb|command|call|operation|&mut self.store) \{'
echo "# 8. proofs"
echo "$(git ls-files 'crates/*/proofs/*Answers.antt' | wc -l) 8a files of answers"
echo "$(git ls-files 'crates/*/proofs/*.antt' | xargs cat | wc -l) 8b lines in proofs/"
echo "$(git ls-files 'crates/*/proofs/*.antt' | grep -E '^crates/[a-z_]+/proofs/[A-Za-z]+\.antt$' | xargs grep -hE '^ *(pub )?[a-z]\S* : ' | wc -l) 8c lemmas"
