#!/usr/bin/env bash
# Counts the places that docs/DESIGN-PASS.md speaks of, in this checkout or in another: tools/design_places.sh [TREE]
cd "${1:-$(dirname "$0")/..}" || exit 1
places() { printf '%5d  %s\n' "$(grep -rhE "$2" ${3:-crates/*/src} | wc -l)" "$1"; }

echo "1 Option, Result, enums"
places "variants of an own enum that say that there is nothing" '^    (Outside|Missing|Broken),$'
places "codes and flags in a struct beside what they are about" '^    (pub )?(code: u8|missing: bool|done: bool|answer: u8),'
places "functions that answer a code" '\) -> u8$'
places "refusals written as a number" 'refuse\([a-z]+, [0-9]+\)|_refusal\(out, [0-9]+\)|return (16|15);'
places "numbers that stand for none" 'return NO_WEEKDAY|=> NO_WEEKDAY|=> MONTH_COUNT|Days \{ from: 0, to: 0 \}|return (10|100);|if value == 0 \{$|if found != 0 \{$'
places "fields that hold a kind, a state or yes and no as a number" '^    pub (sort|kind|state|reversed|on|service): u(32|64)'
echo "2 twins (groups, listed in the page)"
echo "3 loops"
places "while and loop" '^ *(while |loop \{|let .* = loop)'
places "for" '^ *for '
echo "4 by hand"
places "equality" 'fn (same|same_sums|same_counts)\('
places "conversion" 'fn (flag|usage_of|usage_image|days_of|day_images|payment_of|payment_image|payments_of|payment_images|totals_of|totals_image|magnitude)\('
places "structs of zeros, by their first field" '^ *(credit|count|wh|code|year|day|word|sort): 0,$|\{ (count|wh): 0,'
places "printing" 'fn (put_[a-z_]+|spell|places|say_signed|say_bytes|say_whether)\('
printf '%5d  %s\n' "$(grep -rhoE ' as (u8|u32|u64|i64|usize)' crates/*/src | wc -l)" "casts by as"
echo "5 facts and parameters that go together"
places "a buffer and a place in it" 'out: &mut \[u8\], at: usize|^ *(out|text): &(mut )?\[u8\],$'
places "a text and a place in it" 'text: &\[u8\], (at|start|from): usize'
places "contracts that say that the early checks were passed" 'early_code t m.totals e ≡ 0'
places "contracts that say that there is room for an event" 'm.totals.events < max_events'
echo "6 buffers with a length, parallel arrays"
places "a buffer and its length, as parameters or fields" 'out: &\[u8\], length: usize|^    pub length: usize,'
places "arrays of the record and of the image" '^    pub (days|marks|warned|payments|charges): '
echo "7 switches"
places "match on a number, a word or a field" 'match [a-z.]*(sort|kind|field|word|at) \{'
echo "8 proofs"
places "answers" '^(abbrev )?pub [a-zA-Z0-9_-]+ : goal\.' 'crates/*/proofs --include=Answers.antt'
printf '%5d  %s\n' "$(find crates/*/proofs -name '*.antt' -exec cat {} + | wc -l)" "lines of proofs"
printf '%5d  %s\n' "$(find crates/*/specs -name '*.antt' -exec cat {} + | wc -l)" "lines of specs"
printf '%5d  %s\n' "$(find crates/*/src -name '*.rt' -exec cat {} + | wc -l)" "lines of src"
