#!/bin/sh
# Runs the tool where memory ends: the deepest inputs under `ulimit -v` from 30 MB to 1 GB, in steps of 10 MB, and under
# `ulimit -s` from 256 kB to 8 MB. Want of memory has a status of its own, so that a status above
# 128, which a signal gives, fails the script: in any address space, and at a stack over what the program makes sure of.
# Words choose the inputs. The program is built before, by ./darling --build; DARLING names another.
set -eu
top="$(cd "$(dirname "$0")/.." && pwd)"
tool="${DARLING:-$top/crates/darling/out/darling}"
kept="$(mktemp -d)"
trap 'rm -rf "$kept"' EXIT

# A thousand times what stands between two texts: so many of one mark, a middle, and as many of another.
thousand() {
    awk -v before="$1" -v levels="$2" -v open="$3" -v middle="$4" -v close_="$5" -v after="$6" 'BEGIN {
        for (i = 0; i < levels; i++) {
            opened = opened open
            closed = closed close_
        }
        for (i = 0; i < 1000; i++) print before opened middle closed after
    }'
}

# The attributes of one item, whose values are all of a form. A group of an attribute is open around them.
attributes() {
    thousand '#[x = ' "$@" ']'
    echo 'struct S;'
}

# Declarations of which each has a field of the one before, with these options, a receiver with a field of the last, and an item.
chain() {
    awk -v levels="$1" -v options="$2" -v last="$3" -v item="$4" 'BEGIN {
        print "#[derive(FromMeta)] struct D0 { x: u8 }"
        for (i = 1; i <= levels; i++) print "#[derive(FromMeta)] struct D" i " { " options " a: D" i - 1 " }"
        print "#[derive(FromDeriveInput)] #[darling(attributes(my))] struct Opts { " last " a: D" levels " }"
        print "%%"
        print item
    }'
}

input() {
    case "$1" in
    defaults) chain 1020 '' '#[darling(default)]' 'struct S;' && return ;;
    deeper_defaults) chain 4000 '' '#[darling(default)]' 'struct S;' && return ;;
    flattened) chain 510 '#[darling(flatten)]' '#[darling(flatten)]' '#[my(x = 1)] struct S;' && return ;;
    deeper_flattened) chain 4000 '#[darling(flatten)]' '#[darling(flatten)]' '#[my(x = 1)] struct S;' && return ;;
    esac
    sed '/^%%/q' "$top/examples/first.txt"
    case "$1" in
    closures) attributes 255 '||' a '' ;;
    minuses) attributes 255 - a '' ;;
    fields) attributes 255 '' a .a ;;
    calls) attributes 255 '' a '()' ;;
    sums) attributes 255 '' a +a ;;
    parentheses) attributes 127 '(' a ')' ;;
    angles) thousand 'struct S { a: ' 255 'A<' A '>' ' }' ;;
    esac
}

# Runs the tool on the input within a limit, `-v` of address space or `-s` of stack, of so many kB. A shell of its own keeps
# what is said of a signal.
run_within() {
    sh -c 'ulimit -c 0; ulimit "$1" "$2"; "$3" run; exit "$?"' sh "$1" "$2" "$tool" <"$kept/input" >"$kept/said" 2>&1
}

# Notes the status under a limit of each of these sizes, in kB.
try_sizes() {
    limit="$1"
    shift
    : >"$kept/statuses"
    for size in "$@"; do
        status=0
        run_within "$limit" "$size" || status=$?
        echo "$status $size" >>"$kept/statuses"
    done
}

# Says what came of the sizes. Fails where a signal came at a size from this one on.
tell() {
    awk -v name="$1" -v limit="$2" -v least="$3" '
        { sizes[$1] = sizes[$1] " " $2; count[$1]++ }
        $1 > 128 && $2 > least { signals++ }
        END {
            for (status in count) {
                if (status + 0 > 128) print name " " limit ": status " status " at" sizes[status] " kB"
                else print name " " limit ": status " status " at " count[status] " sizes"
            }
            exit signals > 0
        }' "$kept/statuses"
}

[ -x "$tool" ] || {
    echo "bench/limits.sh: no program at $tool" >&2
    exit 2
}
failed=0
sure=$(($(sed -n 's/^const DEEPEST: usize = \([0-9]*\) << 20;$/\1/p' "$top/crates/darling/src/main.rt") * 1024))
for name in ${*:-closures minuses fields calls sums parentheses angles defaults deeper_defaults flattened deeper_flattened}; do
    input "$name" >"$kept/input"
    # shellcheck disable=SC2046
    try_sizes -v $(seq 30000 10000 1000000)
    tell "$name" -v 0 || failed=1
    try_sizes -s 256 512 1024 2048 4096 5632 6144 8192
    tell "$name" -s "$sure" || failed=1
done
exit "$failed"
