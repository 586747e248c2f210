#!/bin/sh
# Each block of Rust in README.md and docs/CALLERS.md stands in crates/uses/src or crates/uses_run/src, function by function,
# or is a type of one of the files below, without its attributes; each block of definitions stands in their specs. Each other block of
# README.md and docs/VALUES.md is an example, or what the tool writes of it behind the command. checks/declarations.py
# holds docs/DECLARATIONS.md
# against the tests and the sources, checks/pages.py looks at all links and at the length of README.md, and
# checks/doc-examples.py at the examples of the sources.
set -u
wrong=0
cd "$(dirname "$0")/.." || exit 1
types="node_core/src/derive node_core/src/data node_core/src/attr node_expr/src/path meta_nested/src/nested meta_nested/src/call"
{
    cat crates/uses/src/*.rt crates/uses/specs/*.antt crates/uses_run/src/*.rt crates/uses_run/specs/*.antt examples/*.txt examples/*.out
    for input in examples/refused/*.txt; do cat "${input%.txt}.out" "${input%.txt}.err"; done
    for type in $types; do sed '/^ *#\[/d' "crates/$type.rt"; done
} | awk '
    FILENAME == "-" { all = all $0 "\n"; next }
    /^```rust/ { inside = 1; text = ""; next }
    /^```antt/ { inside = 3; text = ""; next }
    /^```$/ && !inside && FILENAME != "docs/CALLERS.md" { inside = 2; text = ""; next }
    inside && (/^```/ || inside == 1 && /^}$/) {
        if (!/^```/) text = text $0 "\n"
        if (text ~ /[^ \n]/) {
            sub(/^\n+/, "", text)
            count++
            if (!index(all, text)) { bad++; print FILENAME ": quoted wrong: " substr(text, 1, index(text, "\n")) }
        }
        text = ""
        if (/^```/) inside = 0
        next
    }
    inside == 2 && /^\$ \.\/darling run < / { next }
    inside { text = text $0 "\n" }
    END { print count + 0 " quotes, " bad + 0 " wrong"; exit bad > 0 }
' - README.md docs/CALLERS.md docs/VALUES.md || wrong=1
python3 checks/declarations.py || wrong=1
python3 checks/pages.py || wrong=1
python3 checks/doc-examples.py || wrong=1
exit "$wrong"
