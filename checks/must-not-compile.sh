#!/bin/sh
# Applies each case of must-not-compile/ to a copy of its crate, and looks for the error that the
# front end, which proves nothing, has to give. A case has the crate, the file, the error and a name
# in its message; the code behind `---` goes to the file's end.
set -u
top=$(cd "$(dirname "$0")/.." && pwd)
copy=$(mktemp -d)
trap 'rm -rf "$copy"' EXIT
passed=0
failed=0

# The value of a line `NAME: value` of a case.
value() {
    sed -n "1,/^---\$/s/^$1: //p" "$2"
}

cp "$top/crates.txt" "$top/HANDLES" "$copy"
mkdir "$copy/crates"
for crate in "$top"/crates/*/; do
    name=$(basename "$crate")
    mkdir "$copy/crates/$name"
    for part in "$crate"*; do
        case $(basename "$part") in
        out | must-fail) ;;
        *) cp -r "$part" "$copy/crates/$name" ;;
        esac
    done
done

for case in "$top"/checks/must-not-compile/*.txt; do
    crate=$(value crate "$case")
    file=$copy/crates/$crate/$(value file "$case")
    cp "$file" "$copy/kept"
    sed '1,/^---$/d' "$case" >>"$file"
    said=$(cd "$copy" && python3 "$top/checks/front-end.py" "$crate")
    cp "$copy/kept" "$file"
    if printf '%s\n' "$said" | grep -F "$(value error "$case")" | grep -qF "$(value names "$case")"; then
        passed=$((passed + 1))
    else
        failed=$((failed + 1))
        printf 'not refused as it must be: %s\n%s\n' "$(basename "$case")" "$said"
    fi
done

echo "$passed passed, $failed failed"
[ "$failed" -eq 0 ]
