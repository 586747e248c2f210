#!/bin/sh
# Compares the files of definitions with docs/DEFINITIONS.md: each has one row there, and each row a file.
# A row begins with the file as `CRATE/specs/NAME.antt`.
set -u
top=$(cd "$(dirname "$0")/.." && pwd)
made=$(mktemp -d)
trap 'rm -rf "$made"' EXIT

(cd "$top/crates" && find . -name out -prune -o -path '*/specs/*.antt' ! -name Lib.antt -print) | sed 's|^\./||' | sort >"$made/there"
sed -n 's/^| `\([a-z_]*\/specs\/[A-Za-z_/]*\.antt\)` |.*/\1/p' "$top/docs/DEFINITIONS.md" | sort >"$made/listed"

comm -23 "$made/there" "$made/listed" | sed 's/^/not listed: /' >"$made/wrong"
uniq "$made/listed" | comm -13 "$made/there" - | sed 's/^/no such file: /' >>"$made/wrong"
uniq -d "$made/listed" | sed 's/^/listed more than once: /' >>"$made/wrong"

cat "$made/wrong"
echo "$(wc -l <"$made/there") files of definitions, $(wc -l <"$made/wrong") wrong rows"
[ ! -s "$made/wrong" ]
