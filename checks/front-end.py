"""front-end.py CRATE: what the compiler refuses in a crate before anything is proved, over the sources of the crates that
it stands on. It runs at the top of a repository and takes seconds, where `rt check --only=` first goes through each path
of crates.txt. A crate in which nothing is refused would go on to its proofs, so it is given up after a minute."""
import os
import subprocess
import sys

SECONDS = 60
KIT = os.path.dirname(subprocess.check_output(["rt", "doc"], text=True).strip())


def needs():
    """The libraries that each crate of crates.txt names."""
    found = {}
    for line in open("crates.txt"):
        name, _, libraries = line.split("#")[0].partition(":")
        if name.split():
            found[name.split()[0]] = libraries.split()
    return found


def below(crate, crates, found):
    """The libraries below a crate, each behind those that it stands on."""
    for name in crates.get(crate, []):
        if name not in found:
            below(name, crates, found)
            found.append(name)
    return found


def words(crate, crates):
    built = lambda name: ["--extern", f"{name}={KIT}/rlibs/{name}.rlib"]
    given = ["--crate-name", crate, "src/lib.rt", *built("std")]
    for name in below(crate, crates, []):
        if name in crates:
            libraries = ",".join(["std", *crates[name]])
            given += ["--lib", f"{name}:{libraries}={os.getcwd()}/crates/{name}/src/lib.rt"]
        else:
            given += built(name)
    logic = ["--antt-project", f"{KIT}/rattle/logic/antt-project.json", "--logic-built", f"{KIT}/logic_built"]
    return [*given, "-L", f"dependency={KIT}/rlibs", *logic, "--only", ""]


def main():
    crate = sys.argv[1]
    command = [f"{KIT}/bin/rattle", "check", *words(crate, needs())]
    try:
        sys.exit(subprocess.run(command, cwd=f"crates/{crate}", stderr=subprocess.STDOUT, timeout=SECONDS).returncode)
    except subprocess.TimeoutExpired:
        sys.exit(f"nothing is refused in {SECONDS} seconds")


main()
