#!/usr/bin/python3
"""Compares what solvers made of the same scripts: tables that corpus.sh wrote.

    compare.py [--cactus FILE.svg] [--scatter FILE.svg] [NAME=]OUT [[NAME=]OUT ..]

OUT is a folder that corpus.sh wrote, or one with a folder for each part (--shard); NAME is what the solver is called, else
the folder's name. Prints the scripts of which two solvers say sat and unsat first, then a row a solver with what it
decided, a row a folder of scripts, and who alone decided what. --cactus draws how many scripts each decided within which
time, --scatter the seconds of the first two against one another.

A script is decided where each of its checks is answered sat or unsat and no error came. Its checks are as many as the
solver that answered most gave verdicts. Ends with 1 where two solvers contradict each other, and with 2 for words or
tables that can't be read. Needs Debian's python3-matplotlib where it draws.
"""
import argparse
import csv
import pathlib
import statistics
import sys
from collections import Counter, defaultdict
from dataclasses import dataclass

# Processor seconds below which times say nothing.
LEAST_SECONDS = 0.01


@dataclass(frozen=True)
class Outcome:
    """What one solver made of one script."""

    verdicts: tuple
    status: str
    seconds: float | None
    error: str

    def is_whole(self, checks):
        settled = len(self.verdicts) == checks and checks > 0 and "unknown" not in self.verdicts
        return settled and not self.error and self.status in ("0", "1")


def outcome(row):
    seconds = float(row["seconds"]) if row["seconds"] else None
    return Outcome(tuple(row["verdicts"].split()), row["status"], seconds, row["error"])


def stop(why):
    print(f"compare.py: {why}", file=sys.stderr)
    sys.exit(2)


def read(folder):
    """The outcomes of a run by script, of all its parts."""
    tables = sorted({*folder.glob("table.tsv"), *folder.glob("shard-*/table.tsv")})
    if not tables:
        stop(f"{folder} has no table.tsv: corpus.sh writes one there")
    found = {}
    for table in tables:
        with table.open(encoding="utf-8", errors="replace", newline="") as lines:
            for row in csv.DictReader(lines, delimiter="\t", quoting=csv.QUOTE_NONE):
                found[row["script"]] = outcome(row)
    return found


def contradictions(runs, scripts):
    """The scripts, with the number of a check, of which one solver says sat and another unsat."""
    for script in scripts:
        given = {name: run[script].verdicts for name, run in runs.items() if script in run}
        for check in range(max(map(len, given.values()), default=0)):
            said = {name: verdicts[check] for name, verdicts in given.items() if check < len(verdicts)}
            if {"sat", "unsat"} <= {*said.values()}:
                yield script, check, said


def checks_of(runs, scripts):
    return {it: max(len(run[it].verdicts) for run in runs.values() if it in run) for it in scripts}


def times(run, checks):
    """The seconds of what a solver decided, the fastest first."""
    return sorted(it.seconds for script, it in run.items() if it.is_whole(checks[script]))


def table(rows):
    """Prints rows of cells, numbers to the right."""
    widths = [max(len(str(row[column])) for row in rows) for column in range(len(rows[0]))]
    for row in rows:
        first, *others = zip(row, widths)
        print(str(first[0]).ljust(first[1]), *(str(cell).rjust(width) for cell, width in others), sep="  ")
    print()


def by_solver(runs, checks):
    rows = [["solver", "scripts", "decided", "unknown", "time", "failed", "lost", "median", "total"]]
    for name, run in runs.items():
        ends = Counter()
        for script, it in run.items():
            if it.is_whole(checks[script]):
                ends["decided"] += 1
            elif it.status in ("time", "lost"):
                ends[it.status] += 1
            elif it.error or it.status not in ("0", "1"):
                ends["failed"] += 1
            else:
                ends["unknown"] += 1
        spent = [it.seconds for it in run.values() if it.seconds is not None]
        median = f"{statistics.median(spent):.3f}" if spent else "-"
        rows.append([name, len(run), *(ends[it] for it in rows[0][2:7]), median, f"{sum(spent):.1f}"])
    table(rows)


def by_folder(runs, scripts, checks):
    folders = defaultdict(list)
    for script in scripts:
        folders[str(pathlib.PurePath(script).parent)].append(script)
    rows = [["folder", "scripts", *(f"{name} {what}" for name in runs for what in ("decided", "median"))]]
    for folder, inside in sorted(folders.items()):
        row = [folder, len(inside)]
        for run in runs.values():
            spent = [run[it].seconds for it in inside if it in run and run[it].seconds is not None]
            row.append(sum(it in run and run[it].is_whole(checks[it]) for it in inside))
            row.append(f"{statistics.median(spent):.3f}" if spent else "-")
        rows.append(row)
    table(rows)


def decided_alone(runs, scripts, checks):
    for name, run in runs.items():
        others = [it for other, it in runs.items() if other != name]
        alone = [
            script
            for script in scripts
            if script in run
            and run[script].is_whole(checks[script])
            and not any(script in it and it[script].is_whole(checks[script]) for it in others)
        ]
        if alone and others:
            print(f"{name} alone decided {len(alone)}: {' '.join(alone[:10])}{' ..' if len(alone) > 10 else ''}")


def figure():
    """A figure and its axes, drawn without a screen; the text of an SVG stays text."""
    try:
        import matplotlib
    except ImportError:
        stop("to draw it needs matplotlib (Debian: apt-get install python3-matplotlib)")
    matplotlib.use("svg")
    matplotlib.rcParams.update({"svg.fonttype": "none", "svg.hashsalt": "strsolve", "font.size": 11})
    import matplotlib.pyplot

    return matplotlib.pyplot.subplots(figsize=(7, 4.6), layout="constrained")


def save(drawing, file):
    drawing.savefig(file, metadata={"Date": None})


def draw_cactus(runs, checks, file):
    drawing, axes = figure()
    for name, run in runs.items():
        spent = [max(it, LEAST_SECONDS) for it in times(run, checks)]
        axes.step([*range(1, len(spent) + 1)], spent, where="post", label=f"{name} ({len(spent)})", linewidth=1.8)
    axes.set(yscale="log", xlabel=f"scripts decided, of {len(checks)}", ylabel="processor seconds, each at most")
    axes.grid(alpha=0.3)
    axes.legend()
    save(drawing, file)


def draw_scatter(runs, checks, file):
    (first, one), (second, other) = [*runs.items()][:2]
    decided = [it.seconds for run in (one, other) for script, it in run.items() if it.is_whole(checks[script])]
    most = 2 * max([1.0, *decided])
    drawing, axes = figure()

    def place(run, script):
        it = run[script]
        return max(it.seconds, LEAST_SECONDS) if it.is_whole(checks[script]) else most

    shared = [it for it in checks if it in one and it in other]
    axes.scatter([place(one, it) for it in shared], [place(other, it) for it in shared], s=18, alpha=0.6)
    axes.plot([LEAST_SECONDS, most], [LEAST_SECONDS, most], color="grey", linewidth=0.8)
    for line in (axes.axvline, axes.axhline):
        line(most, color="grey", linewidth=0.8, linestyle="--")
    axes.set(xscale="log", yscale="log", xlabel=f"{first}: processor seconds (dashed: not decided)", ylabel=second)
    axes.set_aspect("equal")
    axes.grid(alpha=0.3)
    save(drawing, file)


def named(word):
    name, given, folder = word.partition("=")
    path = pathlib.Path(folder if given else word)
    return (name if given else path.resolve().name), path


def main():
    words = argparse.ArgumentParser(description=__doc__, formatter_class=argparse.RawDescriptionHelpFormatter)
    words.add_argument("--cactus", metavar="FILE.svg")
    words.add_argument("--scatter", metavar="FILE.svg")
    words.add_argument("runs", nargs="+", metavar="[NAME=]OUT")
    given = words.parse_args()
    folders = [named(it) for it in given.runs]
    if len({name for name, _ in folders}) < len(folders):
        stop("two runs have one name: give them as NAME=OUT")
    runs = {name: read(folder) for name, folder in folders}
    scripts = sorted(set().union(*runs.values()))
    if given.scatter and len(runs) < 2:
        words.error("--scatter takes two runs")

    wrong = [*contradictions(runs, scripts)]
    for script, check, said in wrong:
        print(f"CONTRADICTION {script} check {check}: {' '.join(f'{name} {it}' for name, it in said.items())}")
    if wrong:
        print()
    checks = checks_of(runs, scripts)
    by_solver(runs, checks)
    by_folder(runs, scripts, checks)
    decided_alone(runs, scripts, checks)
    if given.cactus:
        draw_cactus(runs, checks, given.cactus)
    if given.scatter:
        draw_scatter(runs, checks, given.scatter)
    return 1 if wrong else 0


if __name__ == "__main__":
    sys.exit(main())
