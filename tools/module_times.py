#!/usr/bin/env python3
"""Says how long each module of a crate's proof took, from the time stamps of what `rt check --jobs 1` keeps.

    python3 tools/module_times.py sv_list [N]        the N modules that took longest, 20 where N isn't said

A check writes a module's file as soon as the module is checked, so that the time since the file before is what it took.
`proofs` alone stands for the reading of the crates below. A check writes again only what changed: what one takes from
nothing is told where crates/NAME/out/incremental was removed before it. Times between two checks aren't counted.
"""
import itertools
import pathlib
import sys

CRATES = pathlib.Path(__file__).resolve().parent.parent / "crates"
# Seconds behind which a file belongs to another check.
APART = 600


def modules(crate):
    """The modules of a crate that its checks wrote: pairs of the time and the name, in the order of time."""
    written = (CRATES / crate / "out" / "incremental").glob(f"*/Rattle-{crate}-*.oantt")
    return sorted((file.stat().st_mtime, file.stem.removeprefix(f"Rattle-{crate}-")) for file in written)


def main(crate, most="20"):
    taken = [(at - before, name) for (before, _), (at, name) in itertools.pairwise(modules(crate)) if at - before < APART]
    if not taken:
        sys.exit(f"no check of {crate} has left anything: rt check --jobs 1 in its folder")
    for seconds, name in sorted(taken, reverse=True)[: int(most)]:
        print(f"{seconds:8.1f} {name}")
    print(f"{sum(seconds for seconds, _ in taken):8.1f} all {len(taken)} modules")


if __name__ == "__main__":
    main(*sys.argv[1:])
