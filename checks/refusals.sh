#!/bin/sh
# Runs the tool on each examples/refused/NAME.txt: standard output is NAME.out, and standard error, where a person is told what would do, NAME.err.
# With --proved as the first word, nothing is run where no proved program is built; else the sources run unproved there, by
# one build. --write writes the files that are compared.
set -eu
cd "$(dirname "$0")/.."
program=crates/darling/out/darling
made=$(mktemp -d)
trap 'rm -rf "$made"' EXIT

# Puts NAME.out and NAME.err of the proved program into the folder.
run_proved() {
    for input in examples/refused/*.txt; do
        name=$(basename "$input" .txt)
        "$program" run <"$input" >"$made/$name.out" 2>"$made/$name.err" || true
    done
}

# The same of the sources: `rt try` writes both behind a line `== NAME.txt`, and then a line `case=NAME.txt ..`. What the tool
# writes to standard output is one line.
run_unproved() {
    mkdir "$made/inputs"
    cp examples/refused/*.txt "$made/inputs/"
    (cd crates/darling && rt try --steps 1 --cases "$made/inputs" -- run) >"$made/said" 2>&1 || true
    awk -v made="$made" '
        /^== .*\.txt$/ { name = made "/" substr($2, 1, length($2) - 4); line = 0; next }
        /^case=/ { close(name ".out"); close(name ".err"); name = ""; next }
        name != "" { line++; print > (name (line == 1 ? ".out" : ".err")) }
    ' "$made/said"
}

if [ -x "$program" ]; then
    run_proved
elif [ "${1-}" = --proved ]; then
    echo "refusals: no proved program is built here"
    exit 0
else
    run_unproved
fi
if [ "${1-}" = --write ]; then
    cp "$made"/*.out "$made"/*.err examples/refused/
    exit
fi
count=0
wrong=0
for input in examples/refused/*.txt; do
    name=$(basename "$input" .txt)
    count=$((count + 1))
    for kind in out err; do
        diff "examples/refused/$name.$kind" "$made/$name.$kind" >"$made/differences" && continue
        wrong=$((wrong + 1))
        echo "examples/refused/$name.$kind: < is wanted, > is written"
        cat "$made/differences"
    done
done
echo "refusals: $count inputs, $wrong wrong"
[ "$wrong" -eq 0 ]
