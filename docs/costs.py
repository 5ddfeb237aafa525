#!/usr/bin/env python3
"""Prints the table of COSTS.md: each crate proved from nothing, one at a time, in a copy of the repository.

usage: docs/costs.py [CRATE...]   the rows of these crates, or of all

Lines are of .rt files under src, and of .antt files under specs and proofs. Seconds and memory are of the prover's run
on the crate alone, what it uses being proved and built already; memory is the most that one process held.
"""
import glob, os, shutil, subprocess, sys, tempfile, time

ROOT = os.path.dirname(os.path.dirname(os.path.abspath(__file__)))
PEAK = "import resource, subprocess, sys; r = subprocess.run(sys.argv[1:], stdout=subprocess.DEVNULL).returncode; " \
       "print(resource.getrusage(resource.RUSAGE_CHILDREN).ru_maxrss); sys.exit(r)"
# theorems, with their proofs, stand in its specs too
THEOREMS = ("promises",)


def lines(crate, folder, ending):
    count = 0
    for path in glob.glob(os.path.join(ROOT, "crates", crate, folder, "**", "*" + ending), recursive=True):
        with open(path, encoding="utf-8") as f:
            count += sum(1 for _ in f)
    return count


def kit():
    """rt as it is without the work that other copies on this machine kept: rt begins with that, and this file of it does not."""
    rt = shutil.which("rt")
    path = rt and os.path.join(os.path.dirname(os.path.realpath(rt)), "rtlib.py")
    if not path or not os.path.exists(path):
        sys.exit("costs: rt, the Rattle kit's command, is not there, or has no rtlib.py beside it")
    return [sys.executable, path]


def run(repo, crate, command):
    """The seconds that it took, and the most MiB that a process of it held."""
    began = time.time()
    done = subprocess.run([sys.executable, "-c", PEAK] + kit() + [command], cwd=os.path.join(repo, "crates", crate), capture_output=True, text=True)
    if done.returncode:
        sys.exit(f"costs: {crate} is not proved")
    return time.time() - began, int(done.stdout) // 1024


def below(uses, crates):
    found = set()
    while set(crates) - found:
        found |= set(crates)
        crates = [low for crate in crates for low in uses[crate]]
    return found


def main(names):
    uses = {}
    with open(os.path.join(ROOT, "crates.txt"), encoding="utf-8") as f:
        for line in f:
            crate, colon, low = line.split("#")[0].partition(":")
            if colon:
                uses[crate.split()[0]] = low.split()
    for name in names:
        if name not in uses:
            sys.exit(f"costs: there is no crate {name} in crates.txt")
    names = names or list(uses)
    needed = below(uses, [low for name in names for low in uses[name]])
    with tempfile.TemporaryDirectory() as repo:
        shutil.copy(os.path.join(ROOT, "crates.txt"), repo)
        shutil.copytree(os.path.join(ROOT, "crates"), os.path.join(repo, "crates"), ignore=shutil.ignore_patterns("out"))
        sums = [0] * 5
        print("| crate | code | definitions | proofs | edits | seconds | MiB |\n|---|---|---|---|---|---|---|")
        for crate in uses:
            if crate in names:
                seconds, peak = run(repo, crate, "check")
                specs, proofs = lines(crate, "specs", ".antt"), lines(crate, "proofs", ".antt")
                if crate in THEOREMS:
                    specs, proofs = 0, specs + proofs
                edits = len(glob.glob(os.path.join(ROOT, "crates", crate, "must-fail", "*.edit")))
                row = [lines(crate, "src", ".rt"), specs, proofs, edits, seconds]
                sums = [a + b for a, b in zip(sums, row)]
                print(f"| `{crate}` | " + " | ".join(str(round(n)) for n in row) + f" | {peak} |", flush=True)
            if crate in needed:
                run(repo, crate, "lib")
        print("| together | " + " | ".join(str(round(n)) for n in sums) + " | |")


words = sys.argv[1:]
if any(w.startswith("-") for w in words):
    print(__doc__.strip())
    sys.exit(0 if words[0] in ("-h", "--help") else 2)
main(words)
