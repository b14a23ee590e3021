#!/usr/bin/env python3
"""What the gate costs from nothing: runs `rt ci --anew` in a clean clone of this repository and prints, for each crate, the
processor seconds of its library's proof, of its tests' and of its must-fail edits (with the check that they begin with), the sum,
and the chain of libraries that takes longest.

usage: bench/gate.py [NAME..]    NAME: only these crates and those below them

It looks at the provers below its own `rt ci`, twice a second, so a figure is short by up to half a second a check. What else runs
beside it makes each second count for less. Where it is interrupted, it prints what was spent so far."""
import os
import re
import subprocess
import sys
import tempfile
import time

TICKS = os.sysconf("SC_CLK_TCK")
KINDS = ("library", "tests", "edits")


def is_below(pid, top):
    """Whether the process was started by `top`, or by one that `top` started, and so on."""
    while pid > 1 and pid != top:
        with open(f"/proc/{pid}/stat") as it:
            pid = int(it.read().rsplit(")", 1)[1].split()[1])
    return pid == top


def provers(top):
    """The provers that run now below the process `top`: process, crate, kind and processor seconds so far."""
    for pid in filter(str.isdigit, os.listdir("/proc")):
        try:
            with open(f"/proc/{pid}/cmdline", "rb") as it:
                words = it.read().decode(errors="replace").split("\0")
            if not words[0].endswith("/rattle") or "--crate-name" not in words or not is_below(int(pid), top):
                continue
            kind = "tests" if "--test" in words else "library"
            if os.path.basename(os.readlink(f"/proc/{pid}/cwd")).startswith("rt-edit-"):
                kind = "edits"
            with open(f"/proc/{pid}/stat") as it:
                fields = it.read().rsplit(")", 1)[1].split()
        except (FileNotFoundError, ProcessLookupError, PermissionError):
            continue
        yield pid, words[words.index("--crate-name") + 1], kind, sum(map(int, fields[11:13])) / TICKS


def crates_of(root):
    """The libraries of the repository that each crate stands on, in crates.txt's order."""
    found = {}
    with open(f"{root}/crates.txt") as it:
        for line in it:
            name, colon, below = line.partition("#")[0].partition(":")
            if colon:
                found[name.split()[0]] = below.split()
    return {name: [it for it in below if it in found] for name, below in found.items()}


def longest(crates, took):
    """The chain of libraries whose proofs take longest one after another, the lowest one first."""
    best = {}

    def chain(name):
        if name not in best:
            below = max((chain(it) for it in crates[name]), default=(0, []))
            best[name] = (below[0] + took.get(name, 0), [*below[1], name])
        return best[name]

    return max((chain(it) for it in crates), default=(0, []))


def main(names):
    with tempfile.TemporaryDirectory(prefix="gate-") as room:
        root = subprocess.check_output(["git", "rev-parse", "--show-toplevel"], text=True).strip()
        subprocess.run(["git", "clone", "-q", root, f"{room}/clone"], check=True)
        crates, spent, began = crates_of(f"{room}/clone"), {}, time.time()
        with open(f"{room}/log", "w+") as log:
            gate = subprocess.Popen(["rt", "ci", *names, "--anew"], cwd=f"{room}/clone", stdout=log, stderr=subprocess.STDOUT)
            try:
                while gate.poll() is None:
                    for pid, crate, kind, seconds in provers(gate.pid):
                        spent[pid, crate, kind] = seconds
                    time.sleep(0.5)
            except KeyboardInterrupt:
                gate.terminate()
                gate.wait()
            log.seek(0)
            said = log.read().rstrip().splitlines()
    sums = {}
    for (_, crate, kind), seconds in spent.items():
        sums[crate, kind] = sums.get((crate, kind), 0) + seconds
    print(f"{'crate':18}" + "".join(f"{it:>10}" for it in KINDS))
    for crate in sorted(crates, key=lambda it: -sum(sums.get((it, kind), 0) for kind in KINDS)):
        print(f"{crate:18}" + "".join(f"{sums.get((crate, kind), 0):10.0f}" for kind in KINDS))
    whole = [sum(sums.get((crate, kind), 0) for crate in crates) for kind in KINDS]
    print(f"{'all':18}" + "".join(f"{it:10.0f}" for it in whole))
    seconds, chain = longest(crates, {crate: sums.get((crate, "library"), 0) for crate in crates})
    print(f"processor minutes: {sum(whole) / 60:.0f}; minutes on the clock: {(time.time() - began) / 60:.0f}")
    print(f"longest chain: {seconds / 60:.0f} minutes: {' '.join(chain)}")
    print(next((it for it in reversed(said) if re.search(r"\d+ passed, \d+ failed", it)), "the gate gave no last line"))
    return gate.returncode


if __name__ == "__main__":
    sys.exit(main(sys.argv[1:]))
