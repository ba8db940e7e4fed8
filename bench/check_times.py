#!/usr/bin/env python3
"""Runs `rt ci` at the top of the repository and prints, crate by crate, the processor time of its check, of its tests' check
and of its must-fail edits, in minutes, and the longest chain of crates. It reads /proc five times a second, so each process
may count up to 0.2 s too little. The output of `rt ci` goes to the file that the first argument names; further arguments are
words for rt in the place of `ci`, as `all check`."""
import glob
import os
import re
import subprocess
import sys
import time

TOP = os.path.dirname(os.path.dirname(os.path.abspath(__file__)))
TICKS = os.sysconf("SC_CLK_TCK")


def below(pid):
    """Returns the process and all that it started."""
    found = [pid]
    for at in found:
        for thread in glob.glob(f"/proc/{at}/task/*/children"):
            try:
                with open(thread, encoding="ascii") as it:
                    found += [int(word) for word in it.read().split()]
            except OSError:
                pass
    return found


def sample(pid):
    """Returns the crate, the kind of work and the seconds of processor time of a prover's process, or None for another one."""
    try:
        with open(f"/proc/{pid}/cmdline", "rb") as it:
            words = it.read().decode(errors="replace").split("\0")
        where = os.readlink(f"/proc/{pid}/cwd")
        with open(f"/proc/{pid}/stat", encoding="ascii", errors="replace") as it:
            fields = it.read().rpartition(")")[2].split()
    except OSError:
        return None
    if "--crate-name" not in words:
        return None
    crate = words[words.index("--crate-name") + 1]
    is_edit = re.search(r"/rt-edit-", where)
    kind = "edits" if is_edit else "tests" if "--test" in words else "check"
    return crate.removesuffix("_tests"), kind, (int(fields[11]) + int(fields[12])) / TICKS


def chains(needs, cost):
    """Returns the dearest chain of crates, each standing on the one before it, and what it costs."""
    best = {}

    def of(name):
        if name not in best:
            under = max((of(it) for it in needs[name]), default=(0, []))
            best[name] = (under[0] + cost.get(name, 0), under[1] + [name])
        return best[name]

    return max(of(it) for it in needs)


def main():
    if len(sys.argv) < 2:
        sys.exit("usage: bench/check_times.py OUT [WORDS OF rt..]")
    if os.path.exists(sys.argv[1]):
        sys.exit(f"{sys.argv[1]} is there already")
    spent, began = {}, time.time()
    with open(sys.argv[1], "w", encoding="utf-8") as out:
        gate = subprocess.Popen(["rt", *(sys.argv[2:] or ["ci"])], cwd=TOP, stdout=out, stderr=subprocess.STDOUT)
        while gate.poll() is None:
            for pid in below(gate.pid):
                seen = sample(pid)
                if seen:
                    spent[pid, seen[0], seen[1]] = seen[2]
            time.sleep(0.2)
    minutes = {}
    for (_, crate, kind), seconds in spent.items():
        minutes[crate, kind] = minutes.get((crate, kind), 0) + seconds / 60
    needs = {}
    with open(f"{TOP}/crates.txt", encoding="utf-8") as it:
        for line in it:
            if ":" in line and not line.startswith("#"):
                name, _, rest = line.partition(":")
                needs[name] = rest.split()
    needs = {name: [it for it in under if it in needs] for name, under in needs.items()}
    print("| Crate | Check | Tests | Edits |\n|---|---|---|---|")
    for name in needs:
        print(f"| `{name}` | " + " | ".join(f"{minutes.get((name, kind), 0):.1f}" for kind in ("check", "tests", "edits")) + " |")
    sums = [sum(count for (_, of), count in minutes.items() if of == kind) for kind in ("check", "tests", "edits")]
    print("| all | " + " | ".join(f"{it:.1f}" for it in sums) + " |")
    cost, chain = chains(needs, {name: minutes.get((name, "check"), 0) for name in needs})
    print(f"longest chain, {cost:.1f} minutes of checks: {', '.join(chain)}")
    print(f"{(time.time() - began) / 60:.0f} minutes by the clock on {os.cpu_count()} processors, status {gate.returncode}")


main()
