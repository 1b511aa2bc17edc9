#!/usr/bin/env python3
"""Runs the gate, and says what each crate takes of it.

    python3 tools/gate_times.py [rt ci's own words]

For each crate: the processor seconds of its proof, of its tests' proof, and of its must-fail edits with the check that
they begin with; then the whole by the clock. What `rt ci` prints goes to standard error. Only what this run does counts,
which is everything, unless the toolchain keeps what its gate passed: then --anew asks for everything. Works by looking
at the processes every two seconds, so a figure is short of the truth by up to two seconds for each check.
"""
import os
import subprocess
import sys
import time

TICKS = os.sysconf("SC_CLK_TCK")


def descendants(root):
    """The processes below one, by their numbers."""
    children = {}
    for name in filter(str.isdigit, os.listdir("/proc")):
        try:
            with open(f"/proc/{name}/stat") as it:
                parent = int(it.read().rsplit(")", 1)[1].split()[1])
        except OSError:
            continue
        children.setdefault(parent, []).append(int(name))
    found, left = [], [root]
    while left:
        below = children.get(left.pop(), [])
        found += below
        left += below
    return found


def look(process):
    """A check's crate, its kind, when it began and the seconds that it has taken, or None for another process."""
    with open(f"/proc/{process}/cmdline", "rb") as it:
        words = it.read().decode(errors="replace").split("\0")
    if not words[0].endswith("/rattle") or "--crate-name" not in words:
        return None
    with open(f"/proc/{process}/stat") as it:
        fields = it.read().rsplit(")", 1)[1].split()
    is_edit = "/rt-edit-" in os.readlink(f"/proc/{process}/cwd") + "/"
    kind = "edits" if is_edit else "tests" if "--test" in words else "proof"
    return words[words.index("--crate-name") + 1], kind, fields[19], sum(map(int, fields[11:13])) / TICKS


def main():
    begun = time.time()
    gate = subprocess.Popen(["rt", "ci", *sys.argv[1:]], stdout=sys.stderr)
    taken = {}
    while gate.poll() is None:
        for process in descendants(gate.pid):
            try:
                seen = look(process)
            except OSError:
                continue
            if seen:
                crate, kind, start, seconds = seen
                taken[process, start] = crate, kind, seconds
        time.sleep(2)
    sums = {}
    for crate, kind, seconds in taken.values():
        sums.setdefault(crate, dict.fromkeys(("proof", "tests", "edits"), 0))[kind] += seconds
    print("| Crate | Proof | Tests | Edits |\n|---|---|---|---|")
    for crate, of in sorted(sums.items(), key=lambda it: -sum(it[1].values())):
        print(f"| `{crate}` | {of['proof']:.0f} | {of['tests']:.0f} | {of['edits']:.0f} |")
    whole = [sum(of[kind] for of in sums.values()) / 60 for kind in ("proof", "tests", "edits")]
    print(f"| all, minutes | {whole[0]:.0f} | {whole[1]:.0f} | {whole[2]:.0f} |")
    print(f"\n{(time.time() - begun) / 60:.0f} minutes by the clock, {os.cpu_count()} processors.")
    return gate.returncode


if __name__ == "__main__":
    sys.exit(main())
