#!/bin/sh
# Measures the lexer or the parsers on long texts: `bench/run.sh lex` or `bench/run.sh parse`, whole runs of the tool on
# many items: `bench/run.sh run`, inputs of two sizes at once: `bench/run.sh growth`, or this side beside proc_macro2, syn and the derive of darling: `bench/run.sh beside`. Words behind it choose the workloads.
# `lex`: the processor seconds of a whole run for 1, 4 and 16 MB of each workload, and the peak memory. `parse`: the
# processor seconds that a MB takes, to lex the text and to parse its tokens (a run that parses less a run that
# lexes), the peak memory at 16 MB, and what the parser answers there.
# A text is read as often as makes 16 MB, and the mean counts: a run of 1 MB is too short to be told by itself.
# `beside`: both sides in turn, each with spans: the least processor seconds of whole runs (TURNS of them, else five),
# the peak memory, and ours through theirs. The other side is built from bench/beside, which needs cargo and Debian's packages.
# The programs are built before, by (cd crates/bench && rt run) and ./darling --build; BENCH and DARLING name others.
set -e
top="$(cd "$(dirname "$0")/.." && pwd)"
program="${BENCH:-$top/crates/bench/out/bench}"
tool="${DARLING:-$top/crates/darling/out/darling}"
other="$top/bench/beside/target/release"
kept="$(mktemp -d)"
trap 'rm -rf "$kept"' EXIT

# The processor seconds of a stage, a workload and a number of MB.
seconds() {
    turns=$((16 / $3))
    /usr/bin/time -o "$kept/time" -f '%U %S %M' sh -c "for _turn in \$(seq $turns); do $program $*; done" >"$kept/said"
    awk -v turns="$turns" '{ print ($1 + $2) / turns }' "$kept/time"
}

# The peak memory of what was measured last.
memory() {
    awk '{ printf "%.0f MB", $3 / 1024 }' "$kept/time"
}

lexer() {
    printf '| %-10s | %8s | %8s | %8s | %9s | %8s |\n' workload '1 MB' '4 MB' '16 MB' '16 to 1' memory
    printf '|---|---|---|---|---|---|\n'
    for workload in ${*:-marks names strings groups ampersands deep comments literals}; do
        row=
        first=
        for megabytes in 1 4 16; do
            lex=$(seconds lex "$workload" "$megabytes")
            first=${first:-$lex}
            row="$row | $(awk -v s="$lex" 'BEGIN { printf "%6.3f s", s }')"
        done
        ratio=$(awk -v a="$lex" -v b="$first" 'BEGIN { if (b > 0) printf "%.1f", a / b; else printf "-" }')
        printf '| %-10s%s | %9s | %8s |\n' "$workload" "$row" "$ratio" "$(memory)"
    done
}

parsers() {
    printf '| %-17s | %6s | %6s | %6s | %7s | %7s | %7s | %8s | %-14s |\n' \
        workload 'lex 1' 4 16 'parse 1' 4 16 memory answer
    printf '|---|---|---|---|---|---|---|---|---|\n'
    for workload in ${*:-names literals operators postfixes closures groups late_fault array block call parameters \
        paths types segments arguments bounds nested_items bad_values open_values late_attribute structs enums \
        attributes fields late_item deep_parentheses deep_minuses deep_closures deep_fields deep_calls deep_sums \
        deep_types deep_angles chain_ampersands chain_minuses chain_nots chain_closures chain_fields \
        chain_questions chain_calls chain_indexes chain_sums chain_parentheses chain_angles}; do
        lexed=
        parsed=
        for megabytes in 1 4 16; do
            lex=$(seconds tokens "$workload" "$megabytes")
            whole=$(seconds parse "$workload" "$megabytes")
            lexed="$lexed | $(awk -v s="$lex" -v m="$megabytes" 'BEGIN { printf "%6.3f", s / m }')"
            parsed="$parsed | $(awk -v s="$whole" -v l="$lex" -v m="$megabytes" 'BEGIN { printf "%7.3f", (s - l) / m }')"
        done
        answer=$(tail -n 1 "$kept/said" | sed 's/.*, //')
        printf '| %-17s%s%s | %8s | %-14s |\n' "$workload" "$lexed" "$parsed" "$(memory)" "$answer"
    done
}

build_other() {
    if ! command -v cargo >/dev/null; then
        echo 'bench/run.sh beside: cargo is missing' >&2
        exit 2
    fi
    if ! (cd "$top/bench/beside" && cargo build --release --offline --quiet); then
        echo 'bench/run.sh beside: the other side is not built. It needs these packages of Debian:' >&2
        echo 'apt-get install librust-syn-dev librust-proc-macro2-dev librust-darling-dev librust-strsim-dev' >&2
        exit 2
    fi
}

# 20,000 items behind a declaration, every other one with two faults.
subjects() {
    sed '/^%%/q' "$top/examples/first.txt"
    yes '#[my(name = "a")] struct S { a: A, b: B }
#[my(name = "a", name = "b", nom = "c")] enum E { A, B(C) }' | head -n 20000
}

# A line `SECONDS KILOBYTES` for one run of a command, behind those in a file.
run_once() {
    /usr/bin/time -o "$kept/time" -f '%U %S %M' sh -c "$2" >"$kept/said" <"$kept/input" || {
        echo "bench/run.sh beside: this failed: $2" >&2
        exit 1
    }
    awk '{ print $1 + $2, $3 }' "$kept/time" >>"$1"
}

# A row for two commands, which run in turn.
row_beside() {
    : >"$kept/ours"
    : >"$kept/theirs"
    for _turn in $(seq "${TURNS:-5}"); do
        run_once "$kept/ours" "$2"
        run_once "$kept/theirs" "$3"
    done
    awk -v name="$1" '
        FNR == 1 { side++; least[side] = $1 }
        $1 < least[side] { least[side] = $1 }
        $2 > most[side] { most[side] = $2 }
        END {
            printf "| %-18s | %6.2f s | %6.2f s | %5.2f | %5.0f MB | %5.0f MB | %6.2f |\n", name, least[1], least[2],
                least[1] / least[2], most[1] / 1024, most[2] / 1024, most[1] / most[2]
        }' "$kept/ours" "$kept/theirs"
}

beside() {
    build_other
    printf '| %-18s | %8s | %8s | %5s | %8s | %8s | %6s |\n' workload ours theirs time ours theirs memory
    printf '|---|---|---|---|---|---|---|\n'
    : >"$kept/input"
    for workload in ${*:-lex/names lex/strings lex/groups lex/marks structs enums attributes fields paths types \
        nested_items names literals operators postfixes closures groups subjects}; do
        case "$workload" in
        lex/*) row_beside "$workload" "$program lex ${workload#lex/} 16" "$other/beside lex ${workload#lex/} 16" ;;
        subjects)
            subjects >"$kept/input"
            row_beside "$workload" "$tool run" "$other/derive"
            ;;
        *) row_beside "$workload" "$program parse $workload 4" "$other/beside parse $workload 4" ;;
        esac
    done
}

# So many subjects of a receiver behind its declarations: `generated`, a name and a level, or `realistic`, that of the examples.
subjects_of() {
    case "$1" in
    generated)
        printf '#[derive(FromDeriveInput)]\n#[darling(attributes(my))]\nstruct Opts { name: String, level: u8 }\n%%%%\n'
        yes '#[my(name = "n", level = 7)] struct S;
#[my(name = "n", level = 300, extra)] struct S;
#[my(level = 1)] struct S;
#[my(name = "n", name = "b", level = "9")] struct S;' | head -n "$2"
        ;;
    realistic)
        sed '/^%%/q' "$top/examples/realistic.txt"
        yes "$(sed '1,/^%%/d' "$top/examples/realistic.txt")" | head -n "$2"
        ;;
    esac
}

# The processor seconds and the peak memory of a run on 1,000 subjects, 20,000, and as many as 16 MB have room for.
runs() {
    printf '| %-10s | %8s | %9s | %8s | %15s | %14s |\n' receiver subjects seconds memory 'us a subject' 'bytes a subject'
    printf '|---|---|---|---|---|---|\n'
    for receiver in ${*:-generated realistic}; do
        subjects_of "$receiver" 20000 >"$kept/input"
        most=$((16777216 / ($(wc -c <"$kept/input") / 20000 + 1)))
        for count in 1000 20000 "$most"; do
            subjects_of "$receiver" "$count" >"$kept/input"
            /usr/bin/time -o "$kept/time" -f '%U %S %M' "$tool" run <"$kept/input" >"$kept/said"
            awk -v receiver="$receiver" -v count="$count" '{
                printf "| %-10s | %8d | %7.2f s | %5.0f MB | %15.1f | %14.0f |\n", receiver, count, $1 + $2, $3 / 1024,
                    ($1 + $2) * 1000000 / count, $3 * 1024 / count
            }' "$kept/time"
        done
    done
}

# The input of a workload in which so many things stand before as many others.
growing() {
    case "$1" in
    unknown)
        echo '#[derive(FromMeta)] struct Inner { inner: Option<u8> }'
        echo '#[derive(FromDeriveInput)] #[darling(attributes(my))] struct Outer {'
        seq -f 'f%.0f: Option<u8>,' "$2"
        printf '#[darling(flatten)] rest: Inner }\n%%%%\n#[my('
        seq -f 'u%.0f,' "$2"
        echo ')] struct S;'
        ;;
    lists)
        echo '#[derive(FromDeriveInput)] #[darling(attributes(my))] struct Outer {'
        seq -f 'f%.0f: Option<u8>,' "$2"
        printf '}\n%%%%\n'
        seq -f '#[my(u%.0f)]' "$2"
        echo 'struct S;'
        ;;
    declarations)
        seq -f '#[derive(FromMeta)] struct D%.0f { a: u8, b: String, c: bool, d: Option<char>, #[darling(multiple)] e: Vec<String> }' "$2"
        echo '#[derive(FromDeriveInput)] #[darling(attributes(my))] struct Outer { a: u8 }'
        printf '%%%%\n#[my(a = 1)] struct S;\n'
        ;;
    readings)
        seq -f '#[derive(FromMeta)] struct D%.0f { a: u8 }' "$2"
        echo '#[derive(FromDeriveInput)] #[darling(attributes(my))] struct Outer {'
        seq "$2" | awk '{ printf "f%d: D%d,\n", $1, $1 }'
        printf '}\n%%%%\n#[my('
        seq -f 'f%.0f(a = 1),' "$2"
        echo ')] struct S;'
        ;;
    defaults)
        echo '#[derive(FromMeta)] struct D0 { a: u8 }'
        seq "$2" | awk '{ printf "#[derive(FromMeta)] struct D%d { #[darling(default)] a: D%d }\n", $1, $1 - 1 }'
        echo '#[derive(FromDeriveInput)] #[darling(attributes(my))] struct Outer { a: u8 }'
        printf '%%%%\n#[my(a = 1)] struct S;\n'
        ;;
    esac
}

# Twice as many of both: processor seconds, growth and peak memory.
growth() {
    printf '| %-12s | %6s | %8s | %8s | %6s | %8s |\n' workload things seconds twice growth memory
    printf '|---|---|---|---|---|---|\n'
    for workload in ${*:-unknown lists declarations readings defaults}; do
        for count in 5000 10000; do
            growing "$workload" "$count" >"$kept/input"
            /usr/bin/time -o "$kept/time" -f '%U %S %M' "$tool" run <"$kept/input" >"$kept/said" || true
            tail -n 1 "$kept/time" >"$kept/time.$count"
        done
        awk -v workload="$workload" '
            NR == 1 { first = $1 + $2 }
            NR == 2 {
                printf "| %-12s | %6d | %6.2f s | %6.2f s | %6.1f | %5.0f MB |\n", workload, 5000, first, $1 + $2,
                    (first > 0 ? ($1 + $2) / first : 0), $3 / 1024
            }' "$kept/time.5000" "$kept/time.10000"
    done
}

stage="${1:-}"
case "$stage" in
lex) shift && lexer "$@" ;;
parse) shift && parsers "$@" ;;
beside) shift && beside "$@" ;;
run) shift && runs "$@" ;;
growth) shift && growth "$@" ;;
*) echo "bench/run.sh lex|parse|run|growth|beside [WORKLOAD..]" >&2 && exit 2 ;;
esac
