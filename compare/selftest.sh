#!/bin/bash
# Does the comparison find mistakes? Builds copies of the reference with one
# mistake each (mutants.txt), as programs and as a library behind the C interface
# (src/shim.rs), and compares them with the reference: every one of them must be
# found. Arguments: texts and lists of calls per mutant (default 3000), seed
# (default 7), and a pattern to pick mutants by (default all). Needs cargo, the C
# compiler that it links with, and perl. The status is 0 if every mistake was
# found, 1 if not, 2 where it could not run: then it says what is missing.
set -euo pipefail
cd "$(dirname "$0")"
count=${1:-3000}
seed=${2:-7}
pattern=${3:-.}

missing=0
need() { "${@:2}" || { echo "compare/selftest.sh: no $1" >&2; missing=1; }; }
need "cargo" command -v cargo >/dev/null
need "C compiler cc, which cargo links with" command -v cc >/dev/null
need "perl" command -v perl >/dev/null
[[ $missing == 0 ]] || exit 2
work=$(mktemp -d)
trap 'rm -rf "$work"' EXIT
# A copy of the reference, beside the header as here.
mutant=$work/compare/reference
mkdir -p "$mutant"
cp -r ../include "$work/"
# Plain arithmetic, as a careless program would have it; built in haste.
export CARGO_PROFILE_RELEASE_OVERFLOW_CHECKS=false CARGO_PROFILE_RELEASE_DEBUG_ASSERTIONS=false CARGO_PROFILE_RELEASE_OPT_LEVEL=1
build() {
    CARGO_TARGET_DIR=$work/target cargo build --release --offline --quiet --manifest-path "$mutant/Cargo.toml" \
        --example shim --bin prepay_ref --bin summary_ref --bin page_ref 2>"$work/warnings" || { cat "$work/warnings"; exit 2; }
}
copy() {
    rm -rf "$mutant/src"
    cp -r reference/src reference/build.rs reference/Cargo.toml reference/Cargo.lock "$mutant/"
}
run() {
    LD_LIBRARY_PATH=$work/target/release/examples "$compare" --prepay "$work/target/release/prepay_ref" \
        --summary "$work/target/release/summary_ref" --page "$work/target/release/page_ref" --texts "$count" --lists "$count" --seed "$seed" \
        --most-failures 1 --shrink-seconds 5 --failures "$work/failures" "$@" >"$work/log"
}

# The comparison itself, linked to the library's name; its mistakes come later.
copy
build
(
    unset CARGO_PROFILE_RELEASE_OVERFLOW_CHECKS CARGO_PROFILE_RELEASE_DEBUG_ASSERTIONS CARGO_PROFILE_RELEASE_OPT_LEVEL
    HEAD_LIBRARY=$work/target/release/examples/libshim.so CARGO_TARGET_DIR=$work/own cargo build --release --offline --quiet \
        --manifest-path reference/Cargo.toml
) || exit 2
compare=$work/own/release/compare
status=0
run --texts 300 --lists 300 || status=$?
if [[ $status != 0 ]]; then
    cat "$work/log"
    echo "the reference differs from itself ($status)"
    exit 2
fi

found=0
missed=0
while IFS='|' read -r name file change; do
    [[ -z $name || $name == \#* ]] && continue
    [[ $name =~ $pattern ]] || continue
    copy
    perl -0pi -e "$change" "$mutant/src/$file" || exit 2
    if cmp -s "reference/src/$file" "$mutant/src/$file"; then
        echo "NOT APPLIED  $name"
        missed=$((missed + 1))
        continue
    fi
    build
    status=0
    run || status=$?
    if [[ $status == 1 ]]; then
        found=$((found + 1))
        echo "found        $name ($(grep -o 'in [a-z_]*: seed [0-9]* [a-z]* [0-9]*, a .*' "$work/log" | head -1)," \
            "shrunk to $(sed -n 's/.*shrunk to \([0-9]*\) bytes.*/\1/p' "$work/log" | head -1) bytes)"
        [[ -n ${SHOW:-} ]] && sed -n '/shrunk to/,/saved as/p' "$work/log"
    elif [[ $status == 0 ]]; then
        missed=$((missed + 1))
        echo "MISSED       $name"
    else
        cat "$work/log"
        echo "ended with $status"
        exit 2
    fi
done <mutants.txt
echo "$found found, $missed missed"
[[ $missed == 0 ]]
