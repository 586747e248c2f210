#!/bin/sh
# Runs the tool on each examples/NAME.txt and compares what it writes with NAME.out; words choose the names.
# The proved program runs where it is built; else its sources run unproved, by one build.
# With --proved as the first word, nothing is run where no proved program is built.
set -eu
cd "$(dirname "$0")/.."
if [ "${1-}" = --proved ]; then
    shift
    if [ ! -x crates/darling/out/darling ]; then
        echo "examples: no proved program is built here"
        exit 0
    fi
fi
inputs=$(mktemp -d)
trap 'rm -rf "$inputs"' EXIT
if [ "$#" -eq 0 ]; then
    # A name without one of its two files fails.
    set -- $(ls examples | sed -n 's/\.txt$//p; s/\.out$//p' | sort -u)
fi
for name; do
    cp "examples/$name.txt" "examples/$name.out" "$inputs/"
done
./darling try "$inputs"
