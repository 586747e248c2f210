#!/usr/bin/env python3
"""Each example in a `///` is a run of lines of crates/uses, of crates/uses_run or of a test, indented as it may be, and each
item that a caller meets first has one."""
import glob
import os
import re
import sys

TOP = os.path.join(os.path.dirname(os.path.abspath(__file__)), "..")
FIRST = {
    "lex",
    "parse_type",
    "parse_derive_input",
    "parse_meta_list",
    "FromMeta",
    "Accumulator",
    "RenameTable::parse",
    "FdiOptions::new",
    "try_execute",
    "run_source",
}
COMMENT = re.compile(r"^ *///( ?)(.*)$")
ITEM = re.compile(r"^ *pub (?:fn|trait|struct|enum) (\w+)")
IMPL = re.compile(r"^impl(?:<.*?>)? (?:.* for )?(\w+)")


def lines(path):
    with open(path, encoding="utf-8") as file:
        return file.read().splitlines()


def sources(*names):
    """The sources of some crates, in a fixed order."""
    for name in names:
        yield from sorted(glob.glob(os.path.join(TOP, "crates", name, "src", "**", "*.rt"), recursive=True))


def examples(path):
    """Each example of a file, with the item that it stands before."""
    found, block, owner = [], None, ""
    for line in lines(path):
        comment = COMMENT.match(line)
        if IMPL.match(line):
            owner = IMPL.match(line).group(1) + "::"
        elif line == "}":
            owner = ""
        if comment and comment.group(2).strip() == "```":
            block = [] if block is None else (found.append(block), None)[1]
        elif comment and block is not None:
            block.append(comment.group(2).strip())
        elif ITEM.match(line):
            for example in found:
                yield owner + ITEM.match(line).group(1), example
            found = []


def main():
    known = "\n".join("\n".join(it.strip() for it in lines(path)) for path in sources("uses", "uses_run", "tests_*"))
    wrong, met, count = [], set(), 0
    for path in sources("*"):
        for item, example in examples(path):
            met |= {item, item.rpartition("::")[2]}
            count += 1
            if "\n".join(example) not in known or not 3 <= len(example) <= 12:
                wrong.append(f"{os.path.relpath(path, TOP)}: the example of {item} is no run of lines of uses, uses_run or a test")
    wrong += [f"{item} has no example" for item in sorted(FIRST - met)]
    print(*wrong, f"{count} examples of items, {len(wrong)} wrong", sep="\n")
    return 1 if wrong else 0


sys.exit(main())
