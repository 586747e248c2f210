#!/usr/bin/env python3
"""The processor seconds of the gate, crate by crate. `rt ci` says none, so they are read from /proc while it runs.

    gate-times.py --run LOG [NAME..]     runs `rt ci` (over these crates alone), with what it says in LOG, and there, for each crate,
                                         lines `time: CRATE KIND SECONDS`; KIND is `proof`, `tests` or `edits`
    gate-times.py LOG [CRATES.TXT]       prints the section "Times" of docs/GATE.md by that log: each crate, each kind, and the longest chain
    gate-times.py --write LOG            puts that section in the place of the page's
"""
import os
import re
import subprocess
import sys
import time

KINDS = ("proof", "tests", "edits")
TICKS = os.sysconf("SC_CLK_TCK")
PAGE = os.path.join(os.path.dirname(os.path.abspath(__file__)), "..", "docs", "GATE.md")
HEAD = """## Times

Processor seconds of a run of `rt ci`, by `checks/gate-times.py`: the proof of a crate, its tests with their proofs, and its wrong
bodies. What an earlier run on the machine had passed is not proved again and has no time here. A chain is crates of
which each stands on the one before; the longest bounds a run on many processors.
"""


def processes():
    """Gives each process: its number, its parent's, its seconds with those of its children that ended, its words and its folder."""
    for number in filter(str.isdigit, os.listdir("/proc")):
        try:
            with open(f"/proc/{number}/stat") as it:
                fields = it.read().rsplit(")", 1)[1].split()
            with open(f"/proc/{number}/cmdline") as it:
                words = it.read().split("\0")
            yield number, fields[1], sum(map(int, fields[11:15])) / TICKS, words, os.readlink(f"/proc/{number}/cwd")
        except (OSError, IndexError):
            pass  # it has ended meanwhile


def crate_and_kind(words, folder):
    """The crate of a check, and what is checked of it; None for any other process."""
    if "--crate-name" in words and os.path.basename(words[0]) == "rattle":
        kind = "edits" if re.match(r"/tmp/rt-edits?-", folder) else "tests" if "--test" in words else "proof"
        return words[words.index("--crate-name") + 1], kind
    program = next((it for it in words if it.endswith("_tests") and "/rt-run-" in it), None)
    return (os.path.basename(program)[:-6], "tests") if program else None


def look(run, seen):
    """Notes the seconds of each check below the process `run`; of processes that stand in one another, the outermost."""
    found = {it[0]: it for it in processes()}
    for number, parent, seconds, words, folder in found.values():
        what, above, is_below = crate_and_kind(words, folder), parent, False
        while what and above in found and not is_below:
            if crate_and_kind(*found[above][3:]):
                break
            is_below, above = above == run, found[above][1]
        if what and is_below:
            seen[number, what] = seconds


def watch(log, names):
    """Runs the gate, and adds the times of its checks to its log."""
    seen = {}
    with open(log, "w") as out:
        gate = subprocess.Popen(["rt", "ci", *names], stdout=out, stderr=subprocess.STDOUT)
        while gate.poll() is None:
            look(str(gate.pid), seen)
            time.sleep(2)
    with open(log, "a") as out:
        for (_, (crate, kind)), seconds in seen.items():
            out.write(f"time: {crate} {kind} {seconds:.1f}\n")
    return gate.returncode


def section(log, crates):
    """The section "Times" of the page, by the log."""
    times, below = {}, {}
    with open(crates) as it:
        for line in it:
            name, mark, deps = line.split("#")[0].partition(":")
            if mark:
                below[name.split()[0]] = deps.split()
    with open(log, errors="replace") as it:
        for crate, kind, seconds in re.findall(r"^time: (\S+) (\S+) ([0-9.]+)$", it.read(), re.M):
            own = times.setdefault(crate, dict.fromkeys(KINDS, 0.0))
            own[kind] += float(seconds)
    chains = {}

    def chain(name):
        if name not in chains:
            longest = max((chain(it) for it in below.get(name, []) if it in below), default=(0.0, []))
            proof = times.get(name, {}).get("proof", 0.0)
            chains[name] = (longest[0] + proof, [*longest[1], name])
        return chains[name]

    lines = [HEAD, "| crate | proof | tests | wrong bodies |\n|---|---|---|---|"]
    for crate, own in sorted(times.items(), key=lambda it: -sum(it[1].values())):
        lines.append(f"| `{crate}` | " + " | ".join(f"{own[kind]:.0f}" if own[kind] else "" for kind in KINDS) + " |")
    sums = [sum(own[kind] for own in times.values()) / 60 for kind in KINDS]
    seconds, names = max((chain(it) for it in below), default=(0.0, []))
    lines.append("\nIn all {:.0f} minutes: proofs {:.0f}, tests {:.0f}, wrong bodies {:.0f}.".format(sum(sums), *sums))
    lines.append(f"\nThe longest chain of proofs is {seconds / 60:.0f} minutes: " + ", ".join(f"`{it}`" for it in names) + ".")
    return "\n".join(lines) + "\n"


def write(made):
    """Puts the section in the place of the page's; what follows it stays."""
    with open(PAGE, encoding="utf-8") as it:
        page = it.read()
    before, _, old = page.partition("## Times\n")
    _, mark, after = old.partition("\n## ")
    with open(PAGE, "w", encoding="utf-8") as it:
        it.write(before + made + mark + after)


def main(words):
    if words[:1] == ["--run"] and len(words) > 1:
        sys.exit(watch(words[1], words[2:]))
    if words[:1] == ["--write"] and len(words) > 1:
        return write(section(words[1], os.path.join(os.path.dirname(PAGE), "..", "crates.txt")))
    if not words or words[0].startswith("--"):
        sys.exit(__doc__)
    print(section(words[0], words[1] if len(words) > 1 else "crates.txt"), end="")


if __name__ == "__main__":
    main(sys.argv[1:])
