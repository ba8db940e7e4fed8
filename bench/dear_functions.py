#!/usr/bin/env python3
"""Prints what took longest in the checks that rt kept below crates/: crate, function or file of proofs, seconds by the clock.
A check writes a file as each module ends, so a module's time is that since the file before it: run `rt all check --jobs N` from
nothing first, in which each crate is checked by one job, and don't interrupt it, since a
pause counts as time. Words: how many lines (default 40), crates (default all)."""
import glob
import os
import re
import sys

TOP = os.path.dirname(os.path.dirname(os.path.abspath(__file__)))


def subject(name):
    """Returns the function that a checked module belongs to, or the module's own name."""
    path = re.sub(r"^Rattle-[a-z_0-9]+-?", "", name.removesuffix(".oantt"))
    parts = path.split(".")
    return ".".join(parts[1:-1]) if parts[0] == "proofs" and len(parts) > 2 else path or "the crate itself"


def times(folder):
    """Returns the seconds of each function, of the checks that were kept in this folder."""
    files = [it for it in glob.glob(f"{folder}/*/*.oantt") if os.path.isfile(it)]
    files.sort(key=lambda it: os.stat(it).st_mtime)
    spent = {}
    for before, after in zip(files, files[1:]):
        of = subject(os.path.basename(after))
        spent[of] = spent.get(of, 0) + os.stat(after).st_mtime - os.stat(before).st_mtime
    return spent


def main():
    count = int(sys.argv[1]) if len(sys.argv) > 1 else 40
    names = sys.argv[2:] or sorted(os.listdir(f"{TOP}/crates"))
    found = [(spent, name, of) for name in names for of, spent in times(f"{TOP}/crates/{name}/out/incremental").items()]
    whole = sum(it[0] for it in found)
    for spent, name, of in sorted(found, reverse=True)[:count]:
        print(f"{spent:7.1f} {name} {of}")
    print(f"{whole:7.1f} in all")


main()
