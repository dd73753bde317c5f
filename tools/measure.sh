#!/usr/bin/env bash
# Makes all tables of docs/PERFORMANCE.md again, in the page's order, on standard output: some minutes on an idle machine.
# usage: tools/measure.sh PROGRAM FOLDER [OTHER]     FOLDER holds libexports.a; OTHER holds that of another build, which is run in turn with it
# The program that prints pages is taken from beside PROGRAM; it is left out where there is none.
# It needs what rust/bench needs (rust/README.md). All times are processor time.
set -eu
top=$(cd "$(dirname "$0")/.." && pwd -P)
program=$(realpath "$1")
pages=$(dirname "$program")/napsilo_page
NAPSILO_LIB_DIR=$(realpath "$2")
other=${3:+$(realpath "$3")}
export NAPSILO_LIB_DIR
made=$(mktemp -d)
trap 'rm -r "$made"' EXIT
mkdir "$made/worst" "$made/deep"
cd "$top/rust"
cargo build --quiet --release --offline -p bench
bench=${CARGO_TARGET_DIR:-target}/release/bench

printf '## Beside the pool\n\n'
"$bench" all 16
printf '\n## The worst sheets\n\n'
"$bench" judge $("$top/tools/measure_program.py" write "$made/worst")
printf '\n## A million terms\n\n'
"$bench" batch 1000000 5
printf '\n## The program\n\n'
"$top/tools/measure_program.py" "$program" 5
if [ -x "$pages" ]; then
    printf '\n## The pages\n\n'
    "$top/tools/measure_program.py" page "$program" "$pages"
fi
printf '\n## The stack\n\n'
if [ -x "$pages" ]; then
    "$top/tools/measure_stack.py" beside "$program" "$pages" >"$made/program"
else
    "$top/tools/measure_stack.py" "$program" >"$made/program"
fi
"$bench" stack $("$top/tools/measure_stack.py" write "$made/deep") | sed 's/^|[^|]*|//' | paste -d '\0' "$made/program" -
if [ -n "$other" ]; then
    printf '\n## In turn with the other build\n\n'
    cc -shared -o "$made/other.so" -Wl,--whole-archive "$other/libexports.a" -Wl,--no-whole-archive
    "$bench" turns "$made/other.so" 16
fi
