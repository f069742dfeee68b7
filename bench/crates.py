"""What the scripts that call the prover share: which libraries each crate uses, by crates.txt."""

import os
import subprocess

TOP = os.path.dirname(os.path.dirname(os.path.realpath(__file__)))
KIT = os.path.dirname(subprocess.run(["rt", "doc"], stdout=subprocess.PIPE, text=True, check=True).stdout.strip())


def uses():
    """For each crate the libraries that it uses, and whether it is a static library."""
    found = {}
    with open(f"{TOP}/crates.txt") as lines:
        for line in lines:
            head, colon, names = line.partition(":")
            if colon and not line.startswith("#"):
                found[head.split()[0]] = (names.split(), "staticlib" in head.split()[1:])
    return found


def below(crate):
    """The crates that a crate reaches, each before those that use it."""
    all_uses, found = uses(), []

    def reach(name):
        for used in all_uses[name][0]:
            if used in all_uses and used not in found:
                reach(used)
                found.append(used)

    reach(crate)
    return found


def check(crate):
    """The words with which a crate is checked; its libraries are to be added."""
    root = "src/main.rt" if os.path.exists(f"{TOP}/crates/{crate}/src/main.rt") else "src/lib.rt"
    words = [f"{KIT}/bin/rattle", "check", "--crate-name", crate, root, "-L", f"dependency={KIT}/rlibs"]
    words += ["--antt-project", f"{KIT}/rattle/logic/antt-project.json", "--logic-built", f"{KIT}/logic_built"]
    return [*words, *["--crate-type", "staticlib"] * uses()[crate][1], "--links", f"{crate}=", "--jobs", "1"]


def from_kit(name):
    """The words for a library of the kit."""
    return ["--extern", f"{name}={KIT}/rlibs/{name}.rlib"]
