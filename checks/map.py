#!/usr/bin/env python3
"""Prints the map of the crates, for docs/ARCHITECTURE.md: the groups of crates.txt in their order, and of each crate the
first sentence of its head. With --write it puts the map into that page, between its two marks; with --check it says
whether the page has it."""
import os
import re
import sys

TOP = os.path.join(os.path.dirname(os.path.abspath(__file__)), "..")
PAGE = os.path.join(TOP, "docs", "ARCHITECTURE.md")
BEGIN, END = "<!-- made by checks/map.py -->\n", "<!-- end of the map -->\n"


def read(*path):
    with open(os.path.join(TOP, *path), encoding="utf-8") as file:
        return file.read()


def groups():
    """The groups of crates.txt: a title, and its crates with what they stand on."""
    found = []
    for line in read("crates.txt").splitlines():
        if line.startswith("#"):
            found.append((line.lstrip("# "), []))
        elif ":" in line:
            name, _, below = line.partition(":")
            found[-1][1].append((name, below.split()))
    return found


def head(crate):
    """The first sentence of the head of a crate's root file."""
    folder = os.path.join(TOP, "crates", crate, "src")
    root = "lib.rt" if os.path.exists(os.path.join(folder, "lib.rt")) else "main.rt"
    lines = re.match(r"((?://![^\n]*\n)+)", read("crates", crate, "src", root)).group(1)
    text = " ".join(line[3:].strip() for line in lines.splitlines()).split("  ")[0]
    return re.match(r".*?\.(?= |$)", text).group(0).rstrip(".").replace("|", "\\|")


def below(crate, needs):
    """A crate, and all that it stands on."""
    found, waiting = set(), [crate]
    while waiting:
        name = waiting.pop()
        if name in needs and name not in found:
            found.add(name)
            waiting.extend(needs[name])
    return found


def rows():
    needs = {name: libraries for _, crates in groups() for name, libraries in crates}
    program = below("darling", needs)
    yield "| crate | what it holds | in the program |\n|---|---|---|\n"
    for title, crates in groups():
        yield f"| **{title}** | | |\n"
        for name, _ in crates:
            yield f"| `{name}` | {head(name)} | {'yes' if name in program else ''} |\n"


def main():
    made = BEGIN + "\n" + "".join(rows()) + "\n" + END
    page = read("docs", "ARCHITECTURE.md")
    there = page[page.index(BEGIN):page.index(END) + len(END)]
    if "--write" in sys.argv:
        with open(PAGE, "w", encoding="utf-8") as file:
            file.write(page.replace(there, made))
    elif "--check" in sys.argv:
        print("the map is as the crates are" if made == there else "docs/ARCHITECTURE.md: run checks/map.py --write")
        sys.exit(made != there)
    else:
        print(made, end="")


main()
