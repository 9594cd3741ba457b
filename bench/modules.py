#!/usr/bin/env python3
"""Where the time of a crate's check goes: modules.py CRATE [NUMBER] lists the modules that took longest, 20 of them where no number is named.

It reads the files that a whole check kept in crates/CRATE/out/incremental, each of which was written when its module was done; so first
    cd crates/CRATE && rm -rf out/incremental && rt check --jobs 1
(with --test for its tests), in a checkout that is the only one of this machine with kept work of the crate: else the check begins with
that, whose files tell older times, and the list says so. The seconds are those of the clock, from the first module on.

`F.Lts` is what the function F does step by step: it grows with its length, and with the values that it drops at each of its exits. `F.Proof`
has the answers to its goals, and the search for those that have none. A check that was paused counts the pause to one module.
"""

import pathlib
import sys


def main():
    if len(sys.argv) < 2:
        sys.exit("which crate?")
    crate, number = sys.argv[1], int(sys.argv[2]) if len(sys.argv) > 2 else 20
    kept = pathlib.Path(__file__).resolve().parent.parent / "crates" / crate / "out" / "incremental"
    files = [(file.stat(), file.name) for file in kept.rglob("*.oantt")]
    if not files:
        sys.exit(f"nothing is kept in {kept}: check the crate first")
    if older := sum(status.st_nlink > 1 for status, _ in files):
        print(f"{older} of the files are those of another checkout, and tell when it made them")
    ends = sorted((status.st_mtime, name) for status, name in files)
    took = sorted(((end - before, name) for (before, _), (end, name) in zip(ends, ends[1:])), reverse=True)
    print(f"{len(ends)} modules, {ends[-1][0] - ends[0][0]:.0f} seconds from the first on")
    for seconds, name in took[:number]:
        print(f"{seconds:8.1f}  {name.removeprefix('Rattle-').removesuffix('.oantt').removesuffix('.decls')}")


if __name__ == "__main__":
    main()
