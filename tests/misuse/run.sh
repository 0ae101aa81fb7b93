#!/usr/bin/env bash
# Tries each misuse that the types must refuse:  tests/misuse/run.sh
#
# A misuse is a file NAME.edit beside this script, with a line for each of
#   crate: NAME       the crate that is edited
#   file: src/...     its file
#   old: TEXT         what stands there, exactly once
#   new: TEXT         the misuse in its place (more pairs of old: and new: may follow)
#   error: NAME       the compiler's name for its refusal, as it stands in error[NAME]
# Other lines are comments. Each edit is made in a copy of the repository and undone after the check; the check has to
# fail with that error.
#
# Prints 'misuse: N refused by types', or what went wrong, and then exits 1.
set -u
here=$(cd "$(dirname "$0")" && pwd)
root=$(cd "$here/../.." && pwd)
copy=$(mktemp -d) || exit 2
trap 'rm -rf "$copy"' EXIT
tar -C "$root" --exclude=out -cf - crates.txt crates | tar -C "$copy" -xf - || exit 2

# Replaces the text $2, which has to stand exactly once in the file $1, by $3.
replace() {
    local text rest
    [ -f "$1" ] || { echo "there is no such file"; return 1; }
    text=$(cat "$1" && printf .) && text=${text%.} # the dot keeps the line feeds at the end
    rest=${text#*"$2"}
    [ -n "$2" ] && [ "$rest" != "$text" ] || { echo "its old text does not stand in the file"; return 1; }
    case $rest in *"$2"*) echo "its old text stands in the file more than once"; return 1 ;; esac
    printf '%s' "${text%%"$2"*}$3$rest" >"$1"
}

# Makes the edit $1 in the copy; sets crate and error.
apply() {
    local line file='' old=''
    crate='' error=''
    while IFS= read -r line || [ -n "$line" ]; do
        case $line in
        'crate: '*) crate=${line#crate: } ;;
        'file: '*) file=${line#file: } ;;
        'error: '*) error=${line#error: } ;;
        'old: '*) old=${line#old: } ;;
        'new: '*) replace "$copy/crates/$crate/$file" "$old" "${line#new: }" || return 1 ;;
        esac
    done <"$1"
    [ -n "$error" ] && [ -n "$old" ] || { echo "it lacks a line"; return 1; }
}

refused=0 failed=0
for edit in "$here"/*.edit; do
    [ -f "$edit" ] || continue
    name=$(basename "$edit" .edit)
    if ! apply "$edit" >"$copy/why"; then
        echo "misuse $name: bad edit: $(cat "$copy/why")"
        failed=$((failed + 1))
    elif (cd "$copy/crates/$crate" && rt check) >"$copy/log" 2>&1; then
        echo "misuse $name: NOT REFUSED"
        failed=$((failed + 1))
    elif grep -qF "error[$error]" "$copy/log"; then
        echo "misuse $name: refused, error[$error]"
        refused=$((refused + 1))
    else
        echo "misuse $name: refused, but not by error[$error]:"
        grep -m 3 -F 'error' "$copy/log" || tail -n 3 "$copy/log"
        failed=$((failed + 1))
    fi
    if [ -d "$root/crates/$crate" ] && [ -n "$crate" ]; then
        rm -rf "${copy:?}/crates/$crate/src" && cp -R "$root/crates/$crate/src" "$copy/crates/$crate/" || exit 2
    fi
done
[ "$failed" -eq 0 ] || { echo "misuse: $failed failed, $refused refused by types"; exit 1; }
[ "$refused" -gt 0 ] || { echo "misuse: there is no edit to try"; exit 1; }
echo "misuse: $refused refused by types"
