#!/usr/bin/env python3
"""Holds docs/DECLARATIONS.md against what it speaks of. Each example is a row of the tests in crates/tests_run/src. Each derive,
option, type and function of the sources is named in its section, and what is refused as unbuilt is what the page calls `not yet`.

An example is a line of a block, or a block of whole lines with a line `=>` between the input and its answer."""
import glob
import os
import re
import sys

TOP = os.path.join(os.path.dirname(os.path.abspath(__file__)), "..")


def read(*path):
    with open(os.path.join(TOP, *path), encoding="utf-8") as file:
        return file.read()


PAGE = read("docs", "DECLARATIONS.md")


def rows():
    """The rows of the tests' tables. A line that begins with two spaces, perhaps before one more, goes on with the row before."""
    found = set()
    for path in glob.glob(os.path.join(TOP, "crates", "tests_run", "src", "*.rt")):
        for line in re.sub(r"\n  (?= ?\S)", "", read(path)).splitlines():
            found.add(re.sub(r'"#*;$', "", re.sub(r'^(const \w+: &str =)? *r#+"', "", line)))
    return found


def examples():
    """The examples of the page, each as a row. A fault's line begins with two spaces, but not in a row."""
    for block in re.findall(r"^```\n(.*?)^```$", PAGE, re.M | re.S):
        given, mark, wanted = block.partition("\n=>\n")
        if mark:
            lines = [re.sub("^  ", "", it) for it in wanted.splitlines()]
            yield " / ".join(given.splitlines()) + " => " + " / ".join(lines)
        else:
            yield from block.splitlines()


def section(title):
    """A section without its examples."""
    found = re.search(rf"^## {re.escape(title)}\n(.*?)(?=^## |\Z)", PAGE, re.M | re.S)
    return re.sub(r"^```.*?^```$", "", found[1], flags=re.M | re.S)


def spoken(text):
    """The words in backquotes, with the parts of paths each by itself."""
    return {word for quoted in re.findall(r"`([^`]*)`", text) for word in [quoted, *re.findall(r"\w+", quoted)]}


def not_yet(title):
    """The first words of what stands in backquotes in front of `not yet`."""
    cells = [line.split(" | ")[0] for line in section(title).splitlines() if " | not yet |" in line]
    return {re.match(r"\w+", it)[0] for cell in cells for it in re.findall(r"`([^`]*)`", cell.split(" under ")[0])}


def lists():
    """What a section has to name, and what it has to call `not yet`."""
    derives = read("crates/run_accepted/specs/Derives.antt")
    unbuilt = read("crates/run_accepted/specs/Unbuilt.antt")
    container = read("crates/options_members/specs/CoreOptions.antt") + read("crates/options_core/specs/ContainerOptions.antt")
    field = read("crates/options_members/specs/FieldOptions.antt")
    functions = read("crates/machine_std/specs/Functions.antt")
    types = read("crates/machine_rows/src/table.rt")
    names = re.findall(r'^ +\(?"(\w+)"', types.split("const NAMES")[1].split("\n];")[0], re.M)
    container_words = re.findall(r'(?:word = |last_stands \w+ \()codes "(\w+)"', container)
    field_words = re.findall(r'word = codes "(\w+)"', field)
    unbuilt_words = re.findall(r'codes "(\w+)"', re.search(r"^unbuilt_words = .*$", unbuilt, re.M)[0])
    parts = re.findall(r'codes "(\w+)"', re.search(r"^part_names = .*$", unbuilt, re.M)[0])
    refused = re.findall(r"^is_compiled derive\.(\w+) = false$", unbuilt, re.M)
    yield "Derives", re.findall(r'\(codes "(\w+)", derive\.', derives), refused
    yield "Options of a declaration", container_words, unbuilt_words
    yield "Options of a field", field_words, []
    yield "Fields that take a part of the item", parts, parts
    yield "Types", names, []
    yield "Functions", re.findall(r'name = codes "([\w:]+)"', functions), None


def wrong():
    there = rows()
    yield from (f"no row of a test: {it}" for it in examples() if it not in there)
    for title, names, unbuilt in lists():
        if not names:
            yield f"{title}: the sources have no list"
        yield from (f"{title}: {it} is missing" for it in names if it not in spoken(section(title)))
        if unbuilt is not None and set(unbuilt) != not_yet(title):
            yield f"{title}: not yet are {sorted(unbuilt)}, and on the page {sorted(not_yet(title))}"


def main():
    found = [f"docs/DECLARATIONS.md: {it}" for it in wrong()]
    names = sum(len(names) for _, names, _ in lists())
    print("\n".join([*found, f"declarations: {len([*examples()])} examples, {names} names, {len(found)} wrong"]))
    sys.exit(bool(found))


main()
