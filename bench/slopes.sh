#!/usr/bin/env bash
# usage: bench/slopes.sh PROGRAM PEER
#
# Counts the instructions a row of PROGRAM, which is called as llapd is, and of PEER, a reader that was written by hand,
# on one column at a time. A number is a slope: the instructions at 220,000 rows without those at 20,000, by 200,000 rows,
# so what a run costs beside its rows isn't in it. PEER also makes the files: `PEER gen N ROWS FILE [packed]` writes the
# generator's table, and with `packed` each integer spelled out. Both programs have to print the same results.
# It needs valgrind, and takes about two minutes.
set -u
export LC_ALL=C
if [[ $# -ne 2 || ! -x $1 || ! -x $2 ]]; then
    sed -n '2,9s/^# \?//p' "$0"
    exit 2
fi
command -v valgrind >/dev/null || { echo "valgrind isn't here"; exit 2; }
program=$(realpath "$1") peer=$(realpath "$2")
few=20000 many=220000
work=$(mktemp -d)
trap 'rm -rf "$work"' EXIT
mkdir "$work/files"
cd "$work/files" || exit
for rows in $few $many; do
    "$peer" gen 7 $rows "short-$rows.orc" && "$peer" gen 7 $rows "packed-$rows.orc" packed || exit
done

# count OUT WORDS..: sets `counted` to the instructions of a program that reads the plan.
count() {
    local out=$1
    shift
    valgrind --tool=callgrind --callgrind-out-file=/dev/null "$@" <"$work/plan" >"$out" 2>"$work/errors"
    counted=$(sed -n 's/^.*Collected : //p' "$work/errors")
    counted=${counted:-0}
}

# slope NAME SPELLING WORDS..: prints the line of a fragment `x WORDS.. from FILE ..`, where FILE stands for the file's name.
slope() {
    local name=$1 spelling=$2 plan=$3 rows ours=() theirs=()
    for rows in $few $many; do
        echo "${plan/FILE/$spelling-$rows.orc}" >"$work/plan"
        count "$work/ours" "$program" --executors 0
        ours+=("$counted")
        count "$work/theirs" "$peer" run ./here
        theirs+=("$counted")
        if ! diff -q <(grep -vE '^(cache hit|board offered) ' "$work/ours") "$work/theirs" >/dev/null; then
            echo "$name: the results differ"
            return
        fi
    done
    awk -v n="$name" -v a="$((ours[1] - ours[0]))" -v b="$((theirs[1] - theirs[0]))" -v r="$((many - few))" \
        'BEGIN { printf "%-28s %9.1f %9.1f %7.2f\n", n, a / r, b / r, a / b }'
}

printf '%-28s %9s %9s %7s\n' 'instructions a row' program peer ratio
slope 'sum id, literals' short 'x sum id from FILE'
slope 'sum id, packed' packed 'x sum id from FILE'
slope 'sum qty, nulls, literals' short 'x sum qty from FILE'
slope 'sum qty, nulls, packed' packed 'x sum qty from FILE'
slope 'count BOOLEAN even' short 'x count from FILE where even = true'
slope 'group dictionary city' short 'x group city from FILE'
slope 'count text note' short "x count from FILE where note = 'n1'"
