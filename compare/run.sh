#!/bin/bash
# Compares the Rattle library and programs with the reference.
# Arguments: number of texts and of lists of calls (default 20000 each), seed (default 1); more are passed
# on to the comparison (`reference/target/release/compare --help` lists them).
# The library must have been built by `rt lib` in crates/head, the programs by `rt run </dev/null` in crates/prepay, crates/summary and
# crates/page; HEAD_LIBRARY, PREPAY, SUMMARY and PAGE name others. Programs that are not there are left out, and named. Needs cargo and the
# C compiler that it links with. The status is 0 without a difference, 1 with one, 2 where it could not run: then it says what is missing.
set -euo pipefail
cd "$(dirname "$0")"
count=${1:-20000}
seed=${2:-1}
shift $(($# < 2 ? $# : 2))

library=$(realpath -m "${HEAD_LIBRARY:-../crates/head/out/libhead.a}")
missing=0
need() { "${@:2}" || { echo "compare/run.sh: no $1" >&2; missing=1; }; }
need "cargo" command -v cargo >/dev/null
need "C compiler cc, which cargo links with" command -v cc >/dev/null
need "$library: run rt lib in crates/head first" test -e "$library"
[[ $missing == 0 ]] || exit 2
programs=()
for pair in "--prepay ${PREPAY:-../crates/prepay/out/prepay}" "--summary ${SUMMARY:-../crates/summary/out/summary}" \
    "--page ${PAGE:-../crates/page/out/page}"; do
    read -r option program <<<"$pair"
    if [[ -x $program ]]; then
        programs+=("$option" "$program")
    else
        echo "compare/run.sh: no $program: it is not compared (rt run </dev/null in crates/${option#--})" >&2
    fi
done

HEAD_LIBRARY=$library cargo build --release --offline --quiet --manifest-path reference/Cargo.toml || exit 2
compare=${CARGO_TARGET_DIR:-reference/target}/release/compare
# One core is enough, and leaves the others to others.
one=()
command -v taskset >/dev/null && one=(taskset -c "$(($(nproc) - 1))")
progress=$(mktemp)
trap 'rm -f "$progress"' EXIT
status=0
"${one[@]}" nice "$compare" "${programs[@]}" --texts "$count" --lists "$count" --seed "$seed" \
    --failures failures --progress "$progress" "$@" || status=$?
if [[ $status -gt 2 ]]; then
    echo "the comparison was ended ($status) at: $(cat "$progress")" >&2
fi
exit "$status"
