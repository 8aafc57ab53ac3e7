#!/bin/bash
# bench/run.sh [SAMPLES]: what the calls of include/head.h and the program prepay cost, beside a Rust account written for speed (rust/), the
# slow reference (compare/reference) and a bare copy of the account. Both sides in one run, release builds, the same inputs, medians of
# SAMPLES (default 201) runs in turn, on one core. Needs crates/head/out/libhead.a and crates/prepay/out/prepay (rt lib in crates/head, rt run
# </dev/null in crates/prepay), cargo and a C compiler; valgrind for the counted instructions. HEAD_LIB and HEAD_BIN name other folders.
# Everything is built in bench/rust/target. About a minute. The status is 0; 1 where a call has more stack than it may, or the programs do not
# print the same; 2 where it could not run: then it says what is missing.
set -euo pipefail
cd "$(dirname "$0")"
samples=${1:-201}
lib=${HEAD_LIB:-../crates/head/out}
bin=${HEAD_BIN:-../crates/prepay/out}
target=$PWD/rust/target
work=$target/bench

missing=0
need() { "${@:2}" || { echo "bench/run.sh: no $1" >&2; missing=1; }; }
need "cargo" command -v cargo >/dev/null
need "C compiler ${CC:-cc} (CC names another)" command -v "${CC:-cc}" >/dev/null
need "$lib/libhead.a: run rt lib in crates/head first" test -e "$lib/libhead.a"
need "$bin/prepay: run rt run </dev/null in crates/prepay first" test -x "$bin/prepay"
[[ $missing == 0 ]] || exit 2
command -v valgrind >/dev/null || echo "bench/run.sh: no valgrind: the instructions are not counted" >&2
mkdir -p "$work"

# Copies: they may be built anew while this runs.
cp "$lib/libhead.a" "$bin/prepay" "$work/"
one=()
command -v taskset >/dev/null && one=(taskset -c "$(($(nproc) - 1))")

quiet() { "$@" >"$work/build.log" 2>&1 || { cat "$work/build.log" >&2; exit 2; }; }
export CARGO_TARGET_DIR=$target
quiet env HEAD_LIB="$work" cargo build --release --offline --locked --manifest-path rust/Cargo.toml --features head
quiet cargo build --release --offline --locked --manifest-path ../compare/reference/Cargo.toml --target-dir "$target/reference" --bin prepay_ref
cp "$target/release/prepay_fast" "$target/release/measure" "$target/reference/release/prepay_ref" "$work/"
quiet "${CC:-cc}" -O2 -Wall -Wextra process.c -o "$work/process"
# Bound at once: the first call of memcpy would run the dynamic linker on the measured stack.
quiet "${CC:-cc}" -O2 -Wall -Wextra -I../include stack.c "$work/libhead.a" -Wl,-z,now -o "$work/stack"

cd "$work"
./measure text >text
./measure row >row
echo "# Benchmark of $(date -u '+%Y-%m-%d %H:%M') UTC"
echo
echo "$(grep -m1 'model name' /proc/cpuinfo | cut -d: -f2 | xargs), $(nproc) cores, core $(($(nproc) - 1)) used; load average $(cut -d' ' -f1-3 /proc/loadavg) at the start."
echo "libhead.a $(sha256sum libhead.a | cut -c1-12) of $(date -u -r "$OLDPWD/$lib/libhead.a" '+%m-%d %H:%M' 2>/dev/null || echo '?'), prepay $(sha256sum prepay | cut -c1-12). $(rustc --version | cut -d' ' -f1-2), $("${CC:-cc}" --version | head -1)."

# First that they agree; cargo test in rust/ is the long comparison.
for program in prepay prepay_fast prepay_ref; do ./$program <text >$program.out; done
cmp prepay.out prepay_fast.out || exit 1
cmp prepay.out prepay_ref.out || exit 1
echo "prepay, prepay_fast and prepay_ref print the same for the text of (c)."
echo
"${one[@]}" ./measure times "$samples"

echo
echo "## (c) As processes, standard input from a file, standard output to /dev/null"
echo
echo "Wall time, and own time: user and system time of the process. \"First to it\": how many times as long prepay takes."
echo
"${one[@]}" ./process "$samples" text ./prepay ./prepay_fast ./prepay_ref

if command -v valgrind >/dev/null; then
    count() { valgrind --tool=callgrind --callgrind-out-file="$2" "./$1" <"$3" 2>&1 >/dev/null | sed -n 's/.*Collected : //p'; }
    copies() { callgrind_annotate --threshold=100 "$1" | awk '/^ *[0-9,]+ \(.*:[^ ]*mem(cpy|move|set)/ { gsub(",", "", $1); sum += $1 } END { print sum + 0 }'; }
    events=$(($(wc -l <prepay.out) - 1))
    echo
    echo "Instructions an event, by valgrind's callgrind, less the empty text's (each byte of a long memcpy counts as one: the second column leaves memcpy and memset out):"
    echo
    echo "| | all | the rest |"
    echo "|---|---|---|"
    for program in prepay prepay_fast prepay_ref; do
        all=$(count $program $program.calls text)
        none=$(count $program $program.calls0 /dev/null)
        rest=$((all - none - $(copies $program.calls) + $(copies $program.calls0)))
        echo "| $program | $(((all - none) / events)) | $((rest / events)) |"
    done
    echo
    echo "Where prepay's instructions go:"
    echo
    callgrind_annotate prepay.calls | grep -E '^ *[0-9,]+ \(' | grep -F ' [' | head -6 |
        sed -E 's/^ *[0-9,]+ \( *([0-9.]+%)\) +[^:]*:(.*) \[.*/    \1 \2/'
fi

echo
echo "## Memory"
echo
status=0
./stack row text || status=1
# The programs keep their buffers on the stack: the least `ulimit -s` they run with.
least() {
    local low=0 high=8192 middle
    while ((high - low > 4)); do
        middle=$(((low + high) / 2))
        if (ulimit -s $middle && "./$1" <text >least.out && cmp -s least.out prepay.out) 2>/dev/null; then high=$middle; else low=$middle; fi
    done
    echo $high
}
echo
echo "Least stack that the programs run with (ulimit -s): prepay $(least prepay) KiB, prepay_fast $(least prepay_fast) KiB."
echo
echo "Load average at the end: $(cut -d' ' -f1-3 /proc/loadavg)."
exit $status
