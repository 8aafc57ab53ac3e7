#!/usr/bin/env bash
# The C interface from outside: builds the library where it is missing or older than the crates, and the programs here, runs them, and holds
# them to the stored output and to the programs `prepay`, `summary` and `page`. Needs `rt`, python3 and a C compiler. What else it would use
# and does not find, it says. The last line is `examples: passed`, the status 0, if all held; the status is 1 where something did not, and 2
# where it could not run: then it says what is missing. Of the repository it writes target/ and the crates' out/.
#   examples/run.sh          all: the header as C99, C11 and C++11, what the library calls, the structs as Rattle proves them (some minutes
#                            after a change of the crates), strange memory, and the programs under valgrind
#   examples/run.sh gate     the gate's part: the example, and the structs by what the library does
set -euo pipefail
cd "$(dirname "$0")/.."
mode=${1:-all}
CC=${CC:-$(command -v cc || command -v gcc || command -v clang || echo cc)}
library=crates/head/out/libhead.a
work=target/examples
mkdir -p "$work"
failed=0
missing=0
say() { echo "examples: $*"; }
need() { command -v "$1" >"$work/log" || { say "no $2"; missing=1; }; }
need rt "rt: the Rattle kit"
need "$CC" "C compiler $CC (CC names another)"
need python3 "python3"
[[ $missing == 0 ]] || exit 2
fail() { say "FAILED: $*"; failed=1; }
# Runs a command, and tells what it said only where it fails.
quiet() { "$@" >"$work/log" 2>&1 || { tail -20 "$work/log"; say "FAILED: $*"; exit 1; }; }
# Whether a file is missing, or older than some file of a crate.
stale() { [[ ! -e $1 ]] || [[ -n $(find crates crates.txt -name out -prune -o -newer "$1" -type f -print -quit) ]]; }
in_crate() { (cd "crates/$1" && shift && "$@"); }

# After `rt ci` the libraries below head stand in the crates' out/, which `rt lib` does not know and would prove again, some minutes. Here
# head alone is checked and compiled over them.
over_ci() {
    local kit crate libraries
    kit=$(dirname "$(dirname "$(readlink -f "$(command -v rt)")")")
    libraries=(--extern "core=$kit/rlibs/core.rlib" --extern "std=$kit/rlibs/std.rlib" -L "dependency=$kit/rlibs")
    for crate in $(sed -n 's/^head staticlib: *//p' ../../crates.txt); do
        libraries+=(--extern "$crate=../$crate/out/rlib/$crate.rlib")
    done
    mkdir -p out
    "$kit/bin/rattle" build --crate-name head --crate-type staticlib src/lib.rt "${libraries[@]}" --jobs 2 -o out/libhead.a \
        --antt-project "$kit/rattle/logic/antt-project.json" --logic-built "$kit/logic_built" --toolchain "$kit/toolchain"
}

if [[ $mode == gate ]] && in_crate head over_ci >"$work/log" 2>&1; then
    say "head is built over the libraries of rt ci"
elif stale "$library"; then
    say "rt lib, in crates/head"
    quiet in_crate head rt lib
    touch "$library"
fi
python3 examples/layout.py fields >"$work/layout_fields.h"
# In the gate any compiler's new warning is no failure.
strict=(-pedantic -Wall -Wextra -I include -I "$work")
[[ $mode == gate ]] || strict+=(-Werror)
for name in example layout; do
    quiet "$CC" -std=c11 "${strict[@]}" -O2 "examples/$name.c" "$library" -o "$work/$name"
done

# The worked example; then texts, event by event and whole, against the programs.
"$work/example" >"$work/example.out" || fail "example found something wrong"
diff "$work/example.out" examples/example.out || fail "example does not print example.out"
head -c 200 crates/prepay/stdin >"$work/cut"
sed 's/^share=.*/share=51/' crates/prepay/stdin >"$work/refused"
sed 's/^share=.*/share=051/' crates/prepay/stdin >"$work/malformed"
head -c 65537 /dev/zero | cat crates/prepay/stdin - >"$work/long"
printf '%s\n' day=5 do=price price=2500 day=6 do=estimate usage=4 wh=30000 day=6 do=read usage=5 wh=30000 |
    cat crates/prepay/stdin - >"$work/priced"
prepay=crates/prepay/out/prepay summary=crates/summary/out/summary page=crates/page/out/page
if [[ -x $prepay && -x $summary && -x $page ]]; then
    for text in crates/{prepay,summary,page}/stdin "$work"/{cut,refused,malformed,long,priced} /dev/null; do
        lines=$("$prepay" <"$text") months=$("$summary" <"$text")
        pages=$(for month in {0..14}; do "$page" "$month" <"$text"; done 2>"$work/log")
        printf '%s\n' "# event by event" "$lines" "# months" "$months" "# pages" "$pages" "# prepay_transcript" "$lines" \
            "# prepay_statement" "$months" >"$work/programs.out"
        "$work/example" "$text" | diff - "$work/programs.out" || fail "example $text is not what prepay, summary and page print"
    done
else
    say "no $prepay, $summary or $page: the texts are not held to them"
fi

# The structs, by what the library does.
"$work/layout" check || fail "the structs of head.h are not the library's"

if [[ $mode != gate ]]; then
    # The header by itself; what the library calls.
    for std in c99 c11; do
        quiet "$CC" -x c -std=$std "${strict[@]}" -fsyntax-only - <<<'#include "head.h"'
    done
    if command -v g++ >"$work/log"; then
        quiet g++ -x c++ -std=c++11 "${strict[@]}" -fsyntax-only - <<<'#include "head.h"'
    else
        say "no g++: head.h is not compiled as C++"
    fi
    if command -v nm >"$work/log"; then
        calls=$(nm "$library" | awk '$1 == "U" { print $2 }' | sort -u | tr '\n' ' ')
        [[ $calls == "memcpy memset " ]] || fail "the library calls $calls"
    else
        say "no nm: what the library calls is not looked at"
    fi

    # The structs, by what Rattle proves.
    proved=$work/layout.rattle.out
    if stale "$proved" || [[ include/head.h -nt $proved || examples/layout.py -nt $proved ]]; then
        # rt's modules are not for the repository, where each .antt file is a crate's.
        goals=$(mktemp -d)
        trap 'rm -rf "$goals"' EXIT
        for crate in $(python3 examples/layout.py crates); do
            say "rt check --generated, in crates/$crate"
            quiet in_crate "$crate" rt check --generated "$goals/$crate"
        done
        python3 examples/layout.py proved "$goals" >"$proved.new" && mv "$proved.new" "$proved" || fail "the proved layout could not be read"
    fi
    "$work/layout" print >"$work/layout.c.out"
    if diff "$work/layout.c.out" "$proved"; then
        say "sizes, alignments and places of $(grep -c '^[^.]* size' "$proved") structs with $(grep -c 'at=' "$proved") fields are those that" \
            "Rattle proves; so are the types of the $(grep -c '^[a-z].*);$' include/head.h) functions"
    else
        fail "head.h (<) is not what Rattle proves (>)"
    fi

    # Memory that no call wrote, with the compiler's sanitizers where they are.
    strange=("$CC" -std=c11 "${strict[@]}" -O2 -g examples/strange.c "$library")
    quiet "${strange[@]}" -o "$work/strange"
    if "${strange[@]}" -fsanitize=address,undefined -fno-sanitize-recover=all -o "$work/sanitized" 2>"$work/log"; then
        "$work/sanitized" 1 2 3 || fail "strange memory"
    else
        say "no sanitizers: strange runs without them"
        "$work/strange" 1 2 3 || fail "strange memory"
    fi

    if command -v valgrind >"$work/log"; then
        for program in example "example crates/summary/stdin" "layout check" "strange 1"; do
            # shellcheck disable=SC2086
            quiet valgrind -q --error-exitcode=9 "$work"/$program
        done
        say "valgrind is silent"
    else
        say "no valgrind"
    fi
fi

if [[ $failed == 0 ]]; then say "passed"; else say "FAILED"; fi
exit $failed
