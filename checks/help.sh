#!/bin/sh
# Compares what ./darling writes for --help and --version without a build with the texts in crates/darling/src/main.rt, and
# with what the proved program writes, where it is built.
set -u
cd "$(dirname "$0")/.." || exit 1
made=$(mktemp -d)
trap 'rm -rf "$made"' EXIT
sed -n '/^const HELP: &str = "\\$/,/^";$/p' crates/darling/src/main.rt | sed '1d; $d; s/\\"/"/g' >"$made/help"
sed -n 's/^const VERSION: &str = "\(.*\)\\n";$/\1/p' crates/darling/src/main.rt >"$made/version"
wrong=0
for word in help version; do
    diff "crates/darling/$word.txt" "$made/$word" || wrong=$((wrong + 1))
    ./darling "--$word" | diff "$made/$word" - || wrong=$((wrong + 1))
    if [ -x crates/darling/out/darling ]; then
        crates/darling/out/darling "--$word" | diff "$made/$word" - || wrong=$((wrong + 1))
    fi
done
echo "help: 2 texts, $wrong wrong"
[ "$wrong" -eq 0 ]
