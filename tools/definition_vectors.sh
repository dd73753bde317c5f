#!/bin/sh
# Runs recorded vectors (the folder VECTORS_IN) against the definitions of this repository (or of MAIN), as antt examples.
#   definition_vectors.sh MODE [--from A] [--to B] [--per N] [--only I,J,..] [--bytes hex|list]
# MODE: program, library, reader, readlib (see definition_vectors.py). VECTORS_OUT: the folder that the crates are written to, outside the repository. REV=main: a commit, not the working tree.
# KEEP=1: do not copy the crates anew (for the same MODE). ASK=0: do not ask what a failed one gives. JOBS=2, LIMIT=900 (seconds a check).
set -u
mode=${1:?mode}; shift
main=${MAIN:-$(dirname "$0")/..}
out=${VECTORS_OUT:-vectors-check}
tool=$(dirname "$0")/definition_vectors.py
mkdir -p "$out/logs"
out=$(cd "$out" && pwd)
export VECTORS_OUT="$out"
if [ "${KEEP:-0}" != 1 ]; then
    # what is tested: the working tree of $main, or with REV=.. that commit of it
    if [ -n "${REV:-}" ]; then
        rm -rf "$out/rev"; mkdir -p "$out/rev"
        git -C "$main" archive "$REV" | tar -x -C "$out/rev" || exit 2
        echo "definitions of $(git -C "$main" log -1 --format='%h %s' "$REV")"
        main=$out/rev
    fi
    rm -rf "$out/crates" "$out/crates.txt"
    mkdir -p "$out/crates"
    : > "$out/crates.txt"
    # the crates that the definitions under test need, and no others
    case $mode in reader|readlib) want="record reader sheet" ;; library) want="record sheet judge_rules" ;; *) want="record sheet judge_rules printout" ;; esac
    todo=$want; seen=
    while [ -n "$todo" ]; do
        next=
        for n in $todo; do
            case " $seen " in *" $n "*) continue ;; esac
            line=$(grep "^$n:" "$main/crates.txt") || continue
            seen="$seen $n"
            cp -r "$main/crates/$n" "$out/crates/$n"
            echo "$line" | sed -E 's/ (io|libc|os|check|bytes)\b//g' >> "$out/crates.txt"
            next="$next ${line#*:}"
        done
        todo=$(echo $next)
    done
    rm -rf "$out/rev"
    python3 "$tool" strip "$mode" || exit 2
fi
names=$(python3 "$tool" gen "$mode" "$@") || exit 2
logs=
start=$(date +%s)
for n in $names; do
    t=$(date +%s)
    (cd "$out/crates/$n" && timeout "${LIMIT:-900}" rt check --jobs "${JOBS:-2}" 2>&1 | cut -c1-1200 > "$out/logs/$n.log")
    echo "$n: $(($(date +%s) - t)) s"
    logs="$logs $out/logs/$n.log"
done
status=0
python3 "$tool" read "$mode" $logs || status=1
echo "$(($(date +%s) - start)) s in all"
failed=$(cat "$out/failed-$mode.txt")
if [ -n "$failed" ] && [ "${ASK:-1}" = 1 ]; then
    some=$(echo "$failed" | tr ',' '\n' | head -"${MOST:-40}" | paste -sd,)
    python3 "$tool" ask "$mode" --only "$some" > /dev/null
    (cd "$out/crates/vask" && RT_CUT=0 timeout "${LIMIT:-900}" rt check --jobs "${JOBS:-2}" 2>&1 | cut -c1-400000 > "$out/logs/vask.log")
    python3 "$tool" told "$mode" "$out/logs/vask.log"
fi
exit $status
