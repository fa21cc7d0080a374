#!/usr/bin/env python3
"""bench/dearest.py CRATE..: which functions' proofs take longest.

Checks each crate from nothing, with one job, and writes the processor seconds of the twenty functions that took most.
The libraries below a crate must be built (`rt check` in its folder, or `./marseille`). A function pays for the lemma
files that it is the first to cite, and the first one for the definitions."""
import os
import re
import shutil
import subprocess
import sys
import tempfile

TOP = os.path.join(os.path.dirname(os.path.realpath(__file__)), "..")
KIT = os.path.join(os.path.dirname(os.path.realpath(shutil.which("rt") or "rt")), "..")


def crates():
    """Gives for each crate of crates.txt what it stands on."""
    found = {}
    with open(f"{TOP}/crates.txt", encoding="utf-8") as lines:
        for line in lines:
            name, colon, below = line.split("#")[0].partition(":")
            if colon:
                found[name.split()[0]] = below.split()
    return found


def command(crate, kept):
    """Gives the words that check a crate, as rt does, with what it keeps in a folder of its own."""
    known, ours = crates(), []

    def visit(name):
        for below in known[name]:
            if below in known and below not in ours:
                visit(below)
                ours.append(below)

    visit(crate)
    rlibs = f"{KIT}/rlibs"
    root = "main" if os.path.isfile(f"{TOP}/crates/{crate}/src/main.rt") else "lib"
    words = [f"{KIT}/bin/rattle", "check", "--crate-name", crate, f"src/{root}.rt", "--extern", f"std={rlibs}/std.rlib"]
    for below in known[crate]:
        at = f"{TOP}/crates/{below}/out/rlib" if below in known else rlibs
        words += ["--extern", f"{below}={at}/{below}.rlib"]
    for at in [rlibs, *(f"{TOP}/crates/{below}/out/rlib" for below in ours)]:
        words += ["-L", f"dependency={at}"]
    words += ["--antt-project", f"{KIT}/rattle/logic/antt-project.json", "--logic-built", f"{KIT}/logic_built"]
    return [*words, "--links", f"{crate}=", "--jobs", "1", "--incremental", kept, "--progress"]


def seconds(process):
    """Gives the processor seconds that a process and those that it waited for have taken."""
    with open(f"/proc/{process}/stat", encoding="utf-8") as stat:
        return sum(map(int, stat.read().rpartition(")")[2].split()[11:15])) / os.sysconf("SC_CLK_TCK")


def measure(crate):
    """Gives for each function of a crate the seconds since the one before it, and whether the crate is proved."""
    with tempfile.TemporaryDirectory() as kept:
        how = {"cwd": f"{TOP}/crates/{crate}", "stdout": subprocess.PIPE, "stderr": subprocess.STDOUT, "text": True, "bufsize": 1}
        with subprocess.Popen(command(crate, kept), **how) as check:
            found, before, last = [], 0.0, ""
            for line in check.stdout:
                done, last = re.match(r"checked (\S+), ", line), line
                if done:
                    now = seconds(check.pid)
                    found.append((now - before, done.group(1)))
                    before = now
        return found, last.startswith("logic=proved")


def main(names):
    if not names:
        print(__doc__, file=sys.stderr)
        return 1
    status = 0
    for crate in names:
        found, is_proved = measure(crate)
        print(f"{crate}: {sum(taken for taken, _ in found):.0f} s, {len(found)} functions{'' if is_proved else ', NOT PROVED'}")
        for taken, name in sorted(found, reverse=True)[:20]:
            print(f"{taken:8.1f} s  {name}")
        status = status if is_proved else 1
    return status


if __name__ == "__main__":
    sys.exit(main(sys.argv[1:]))
