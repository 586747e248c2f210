#!/usr/bin/env python3
"""Checks the pages: README.md has at most 8,192 bytes; each link of README.md and of docs/*.md leads to a file and, behind `#`, to a
heading; each page that is named in backquotes is there, with the section that is named behind it, and so is each file of a crate."""
import glob
import os
import re
import sys

TOP = os.path.join(os.path.dirname(os.path.abspath(__file__)), "..")
LIMIT = 8192


def read(*path):
    with open(os.path.join(TOP, *path), encoding="utf-8") as file:
        return file.read()


def pages():
    return ["README.md", *sorted(os.path.relpath(it, TOP) for it in glob.glob(os.path.join(TOP, "docs", "*.md")))]


def prose(page):
    return re.sub(r"^```.*?^```$", "", read(page), flags=re.M | re.S)


def headings(page):
    return [it.strip() for it in re.findall(r"^#+ (.*)$", prose(page), re.M)]


def anchor(heading):
    """What a link to a heading has behind its `#`."""
    return re.sub(r"[^\w\- ]", "", heading.lower()).replace(" ", "-")


def size():
    count = len(read("README.md").encode())
    if count > LIMIT:
        yield f"README.md has {count} bytes, {count - LIMIT} too many"


def links(page):
    """The links that lead nowhere."""
    for target in re.findall(r"\]\(([^)\s]+)\)", prose(page)):
        if re.match(r"[a-z]+:", target):
            continue
        path, _, part = target.partition("#")
        there = os.path.normpath(os.path.join(os.path.dirname(page), path)) if path else page
        if not os.path.exists(os.path.join(TOP, there)):
            yield f"{page}: no file for the link {target}"
        elif part and part not in map(anchor, headings(there)):
            yield f"{page}: no heading for the link {target}"


def named(page):
    """The pages and sections that are named and are not there."""
    for name, section in re.findall(r"`((?:docs/)?[A-Z]+\.md)`(?:,\s\"([^\"]+)\")?", prose(page)):
        path = name if os.path.exists(os.path.join(TOP, name)) else os.path.join("docs", name)
        if not os.path.exists(os.path.join(TOP, path)):
            yield f"{page}: there is no page {name}"
        elif section and re.sub(r"\s", " ", section) not in headings(path):
            yield f"{page}: {name} has no section {section}"


def spelled_out(path):
    """`a/{b,c}` as the paths that it stands for."""
    found = re.search(r"\{([^}]*)\}", path)
    if not found:
        return [path]
    return [it for word in found[1].split(",") for it in spelled_out(path[: found.start()] + word.strip() + path[found.end() :])]


def files(page):
    """The files of crates that are named, with or without their ending, and are not there."""
    for named_so in re.findall(r"`(?:crates/)?([a-z_]+/[^`\s]*)`", prose(page)):
        for path in spelled_out(named_so):
            is_crate = os.path.isdir(os.path.join(TOP, "crates", path.split("/")[0])) and "/out/" not in path
            if is_crate and not any(os.path.exists(os.path.join(TOP, top, path + end)) for top in ("crates", "") for end in ("", ".antt", ".rt")):
                yield f"{page}: there is no file {path}"


def main():
    wrong = [*size()]
    for page in pages():
        wrong += [*links(page), *named(page), *files(page)]
    print("\n".join([*wrong, f"{len(pages())} pages, {len(wrong)} wrong"]))
    sys.exit(bool(wrong))


main()
