#!/bin/sh
# Tries the wrong bodies of the crates that it is given, as `rt must-fail` does: each has to be refused. It tries those of
# crates/NAME/must-fail/*.edit.md too, which the gate leaves out, since the first of them costs the proof of its crate again.
# A crate whose wrong bodies are all refused gets its line in wrong-bodies.tried: name, sum, date, how many.
# With no crate, or --stale, it says which crates have changed since their line was written.
set -eu
cd "$(dirname "$0")/.."
tried=checks/wrong-bodies.tried
renamed=

give_back() {
    for edit in $renamed; do
        mv "$edit" "$edit.md"
    done
    renamed=
}

# The sum of a crate's own files, whether the gate leaves a wrong body out or not.
sum_of() {
    for part in src specs proofs must-fail; do
        [ ! -d "crates/$1/$part" ] || find "crates/$1/$part" -type f
    done | LC_ALL=C sort | while read -r file; do
        printf '%s ' "${file%.md}"
        sha256sum <"$file"
    done | sha256sum | cut -c 1-16
}

count_of() {
    find "crates/$1/must-fail" -name '*.edit' -o -name '*.edit.md' | wc -l
}

stale() {
    for folder in crates/*/must-fail; do
        crate=$(basename "$(dirname "$folder")")
        line=$(grep "^$crate " "$tried" || true)
        case "$line" in
        "$crate $(sum_of "$crate") "*) ;;
        "") echo "$crate: its $(count_of "$crate") wrong bodies were not tried" ;;
        *) echo "$crate: it has changed since its wrong bodies were tried: $line" ;;
        esac
    done
}

trap give_back EXIT
trap 'exit 1' INT TERM
case "${1:---stale}" in
--stale)
    stale
    exit
    ;;
esac
for crate; do
    line="$crate $(sum_of "$crate") $(date +%Y-%m-%d) $(count_of "$crate")"
    for edit in crates/"$crate"/must-fail/*.edit.md; do
        [ -e "$edit" ] || continue
        mv "$edit" "${edit%.md}"
        renamed="$renamed ${edit%.md}"
    done
    rt must-fail "$crate"
    give_back
    { grep -v "^$crate " "$tried" || true; echo "$line"; } | LC_ALL=C sort >"$tried.new"
    mv "$tried.new" "$tried"
done
