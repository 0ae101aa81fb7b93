#!/usr/bin/env bash
# Asks a program and the reference the same questions and compares the answers line by line.
#   tests/compare.sh BINARY [KIND...]     no kind: all kinds.  SEED (default 1) chooses the random questions.
# Prints 'reference: N questions, all agree', or the first differences, and then exits 1.
set -u
[ $# -ge 1 ] || { echo "usage: compare.sh BINARY [KIND...]" >&2; exit 2; }
binary=$1
shift
here=$(cd "$(dirname "$0")" && pwd)
kinds=$(IFS=,; echo "$*")
work=$(mktemp -d) || exit 2
trap 'rm -rf "$work"' EXIT

fail() {
    echo "reference: $*"
    exit 1
}

[ -x "$binary" ] || fail "there is no program $binary"
python3 -B "$here/questions.py" "${SEED:-1}" ${kinds:+"$kinds"} >"$work/questions" || fail "no questions"
python3 -B "$here/reference.py" <"$work/questions" >"$work/wanted" || fail "the reference failed"
"$binary" <"$work/questions" >"$work/got"
status=$?

asked=$(wc -l <"$work/questions")
wanted=$(wc -l <"$work/wanted")
got=$(wc -l <"$work/got")
[ "$wanted" -eq "$asked" ] || fail "the reference gave $wanted answers to $asked questions"
if [ "$status" -eq 0 ] && cmp -s "$work/wanted" "$work/got"; then
    echo "reference: $asked questions, all agree"
    exit 0
fi

# The first ten differences, each line cut at 200 characters.
shown=0 line=0
while IFS= read -r question <&3 && IFS= read -r right <&4; do
    line=$((line + 1))
    IFS= read -r answer <&5 || answer='(no answer)'
    [ "$answer" != "$right" ] || continue
    echo "line $line: ${question:0:200}"
    echo "  reference: ${right:0:200}"
    echo "  program:   ${answer:0:200}"
    shown=$((shown + 1))
    [ "$shown" -lt 10 ] || break
done 3<"$work/questions" 4<"$work/wanted" 5<"$work/got"
fail "$asked questions, $got answers, exit status $status: not all agree"
