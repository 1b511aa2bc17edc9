#!/usr/bin/env python3
"""Proves the program's crates and builds the program, crates that don't stand on each other at the same time.

    python3 build.py        tells on standard error how far it is; ends with 0 where the program is built

Each crate is proved by the toolchain's `rattle build`, with the words that its command `rt lib` gives it, but that a
library holds what crates above can cite and no proofs, as in `rt ci`: a check over a library of `rt lib` reads the
proofs of all functions that are called, and of those that they call, a minute for a crate on top. A library is written
behind its crate's proof all the same. Run by `rt`, a crate near the top would first wait until the sources of all below
were read several times.

What is done stays in crates/*/out: a run that was broken off goes on where it was, and `rt check` in a crate finds the
libraries below it. Where the toolchain is made otherwise, its command builds the program alone.
"""
import os
import pathlib
import runpy
import shutil
import signal
import subprocess
import sys
from concurrent.futures import FIRST_COMPLETED, ThreadPoolExecutor, wait

ROOT = pathlib.Path(__file__).resolve().parent
PROGRAM = "strsolve"
# To read what lies below a crate takes about as long as so many lines of its own.
READING = 200


def toolchain():
    """The module behind the toolchain's command `rt`, or None where it isn't the one that this script knows."""
    command = shutil.which("rt") or sys.exit("strsolve: the toolchain's command `rt` isn't there")
    try:
        kit = runpy.run_path(os.path.realpath(command), run_name="rt")["rtlib"]
        knows = "--statements" in kit.help_of("build") and callable(kit.guarded) and callable(kit.lock)
        return kit if knows and {"words", "stamp", "is_built", "call", "compile"} <= {*dir(kit.Crate)} else None
    except (AttributeError, KeyError, SyntaxError, UnicodeDecodeError):
        return None


def sorted_by_chains(crates):
    """The crates, first those on which most lines of source wait, in the longest chain of crates above."""
    chain = {}
    for crate in reversed(crates):
        above = max((chain[it.name] for it in crates if crate in it.deps), default=0)
        lines = sum(len(file.read_bytes().splitlines()) for file in pathlib.Path(crate.folder, "src").glob("*.rt"))
        chain[crate.name] = above + READING + lines
    return sorted(crates, key=lambda crate: -chain[crate.name])


def mark_of(crate):
    """The file by which the toolchain tells whether the crate's library is built from the present sources."""
    return pathlib.Path(crate.rlib).with_name("stamp")


def is_current(crate):
    """Whether the crate's library is built from the present sources, and newer than those below it."""
    if not crate.makes_rlib() or not crate.is_built():
        return False
    marks = [mark_of(it) for it in [crate, *crate.deps]]
    return all(it.exists() for it in marks) and marks[0].stat().st_mtime == max(it.stat().st_mtime for it in marks)


def build_library(kit, crate, jobs):
    made_from = crate.stamp()
    shutil.rmtree(mark_of(crate).parent, ignore_errors=True)
    mark_of(crate).parent.mkdir(parents=True)
    status = crate.call(kit.RATTLE, "build", *crate.words(jobs), "--statements", "-o", crate.rlib)
    # What was changed meanwhile is built again by the next run.
    if status == 0 and crate.stamp() == made_from:
        mark_of(crate).write_text(made_from, encoding="utf-8")
    return status


def build_program(kit, crate, jobs):
    program = f"out/{crate.name}"
    pathlib.Path(crate.folder, "out").mkdir(exist_ok=True)
    status = crate.compile(jobs, f"{program}.o")
    return status or crate.call(
        f"{kit.KIT}/bin/rattle-link",
        *("--target", "x86_64-unknown-linux-gnu", "--toolchain", f"{kit.KIT}/toolchain"),
        *("-o", program, f"{program}.o", f"{kit.KIT}/c/libos_c.a", f"{kit.KIT}/c/liblibc_c.a"),
    )


def build(kit, crate, jobs):
    """Proves the crate by so many jobs, and builds its library, or the program; what was said where it can't."""
    log = ROOT / "out" / f"{crate.name}.log"
    with log.open("w", encoding="utf-8") as crate.out:
        make = build_library if crate.makes_rlib() else build_program
        status = make(kit, crate, ["--jobs", str(jobs)])
    said = log.read_text(encoding="utf-8")
    log.unlink()
    return said if status else None


def tell(text):
    print(f"strsolve: {text}", file=sys.stderr, flush=True)


def build_all(kit, crates):
    """Builds the crates, each as soon as those below it are done, as many at once as there are processors; begins none
    after the first that fails. The crates that run, and those that could, share two jobs for each processor, at most
    one a processor: a crate begins and ends with a single one.
    """
    processors = len(os.sched_getaffinity(0))
    waiting, running, done = sorted_by_chains(crates), {}, set()

    def finish(crate, how):
        done.add(crate)
        tell(f"  {crate.name} {how}, {len(done)} of {len(crates)}")

    with ThreadPoolExecutor(processors) as pool:
        while waiting or running:
            for crate in crates:
                if crate in waiting and done.issuperset(crate.deps) and is_current(crate):
                    waiting.remove(crate)
                    finish(crate, "was proved before")
            ready = [it for it in waiting if done.issuperset(it.deps)]
            jobs = 2 * processors // max(1, len(running) + len(ready))
            for crate in ready[: processors - len(running)]:
                running[pool.submit(build, kit, crate, max(1, min(jobs, processors)))] = crate
                waiting.remove(crate)
            for ended in wait(running, return_when=FIRST_COMPLETED).done:
                crate, said = running.pop(ended), ended.result()
                if said is not None:
                    print(said, end="", file=sys.stderr)
                    return 1
                finish(crate, "is proved")
    return 0


def main():
    kit = toolchain()
    if kit is None:
        return subprocess.run(["rt", "run"], cwd=ROOT / "crates" / PROGRAM).returncode
    signal.signal(signal.SIGINT, signal.SIG_DFL)
    # What runs ends with this process, however that ends.
    kit.guarded()
    program = kit.Crate(f"{ROOT}/crates/{PROGRAM}", str(ROOT), {})
    crates = [*program.below(), program]
    program.held = kit.lock(crates)
    (ROOT / "out").mkdir(exist_ok=True)
    return build_all(kit, crates)


if __name__ == "__main__":
    sys.exit(main())
