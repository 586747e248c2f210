#!/usr/bin/env python3
"""Counts what one reads to know what a call promises: the definitions that its contract cites, and
those that these cite in turn.

usage: checks/count-definitions.py [CRATE::CALL | CRATE/specs/NAME ..]; with no words, the rows of docs/PROVED.md and more.
Of a file of definitions it counts that file and those that it cites.

The contract is what stands between the head of `pub fn CALL` and its body. A word of it that an
import of the file brings from a crate's specs/ leads to the file that has it; from there on every
`use` of a file of definitions counts. Lines are counted without comments, imports and blanks. The
types of the source that definitions name (`specs.declared`) and the standard library's are not counted.
"""
import os, re, sys

TOP = os.path.join(os.path.dirname(os.path.abspath(__file__)), "..", "crates")
ROWS = """tok_core::lex tok_core::to_text tok_core::read_again syn_core::parse_type syn_core::parse_expr
syn_core::parse_derive_input syn_core::parse_items syn_items::item_prefix print_core/specs/Items print_core/specs/Nodes
syn_reread::reread_type syn_reread::reread_derive_input error_core::finish_with error_core::write_errors
meta_nested::parse_meta_list meta_nested/specs/Dispatch meta_core/specs/Rows options_core::new machine_execute::execute law_machine/specs/Claims run_accepted::compile law_options/specs/Claims run_accepted::accepted run_source/specs/Claims law_given/specs/Claims run_source::run_source law_accepted/specs/Claims darling_run::run_tool""".split()


def text_of(path):
    with open(path, encoding="utf-8") as file:
        return file.read()


def handed_on(crate):
    """The modules of other crates that a crate hands on, each by its name there."""
    path = os.path.join(TOP, crate, "specs", "Lib.antt")
    found = {}
    for other, inside, name in re.findall(r"^pub use Rattle\.(\w+)\.specs(?:\.(\S+?))?(?: as (\S+))?$", text_of(path) if os.path.isfile(path) else "", re.M):
        found[name or inside.split(".")[-1]] = (other, inside.split(".") if inside else [])
    return found


def file_of(crate, parts):
    """The file of definitions CRATE/specs/A/B.antt that the longest front of a module's path names, there or where the crate has it from."""
    if not parts or parts[0] == "declared":
        return None
    for end in range(len(parts), 0, -1):
        path = os.path.join(TOP, crate, "specs", *parts[:end]) + ".antt"
        if os.path.isfile(path):
            return path
    if parts[0] in handed_on(crate):
        other, inside = handed_on(crate)[parts[0]]
        return file_of(other, inside + parts[1:])
    return None


def imports(text, ends=r"(?=\n(?!\s))|\Z"):
    """The imports of a file of definitions: their file, and the words that they bring."""
    pattern = r"^\s*(?:ghost |pub )*use Rattle\.(\w+)\.specs\.([\w.]+?)(?:\.\{([^}]*)\})?(?: as (\w+))?;?\s*$"
    for crate, path, words, name in re.findall(pattern, text, re.M):
        parts = path.split(".")
        file = file_of(crate, parts)
        if file:
            yield file, words, name or parts[-1]


def closure(files):
    seen, left = set(), list(files)
    while left:
        file = left.pop()
        if file not in seen:
            seen.add(file)
            left += [below for below, _, _ in imports(text_of(file))]
    return seen


def lines_of(file):
    kept = 0
    within = False
    for line in text_of(file).split("\n"):
        bare = line.strip()
        if within:
            within = "}" not in bare
        elif re.match(r"(pub )?use ", bare):
            within = "{" in bare and "}" not in bare
        elif bare and not bare.startswith("--") and not re.match(r"(pub )?mod ", bare):
            kept += 1
    return kept


def contracts(crate, call):
    """Each contract of a function of this name, with the file that it stands in."""
    for folder, _, names in os.walk(os.path.join(TOP, crate, "src")):
        for name in sorted(names):
            text = text_of(os.path.join(folder, name))
            for found in re.finditer(rf"^( *)(?:pub )?fn {call}\b", text, re.M):
                end = re.compile(rf"^{found[1]}(?:\{{|\}})|;$", re.M).search(text, found.end())
                contract = text[found.start() : end.start() if end else len(text)]
                if "ensures" in contract:
                    yield text, contract


def cited(crate, call):
    files = set()
    for text, contract in contracts(crate, call):
        said = set(re.findall(r"\w+", contract))
        for file, words, name in imports(text):
            brought = {word.split(" as ")[-1].strip() for word in words.split(",")} if words else {name}
            if brought & said:
                files.add(file)
    return files


for row in sys.argv[1:] or ROWS:
    crate, _, call = row.partition("::")
    files = closure(cited(crate, call) if call else [os.path.join(TOP, row) + ".antt"])
    print(f"{row:34} {len(files):4} files {sum(map(lines_of, files)):6} lines")
