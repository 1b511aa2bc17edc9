#!/usr/bin/env python3
"""Runs a measurement, and puts what it prints into a document, with the command, the machine and the commit.

    python3 tools/record.py DOCUMENT COMMAND [WORD ..]

What was recorded before of the same command (its script's name and first word that isn't a path) is replaced; what is new
goes to the end. Each record is between marker comments, so that text around it stays. So a table always says of which
text it is: a commit with changes in crates/ that aren't committed is refused. Nothing is written where the command fails.
"""
import os
import re
import subprocess
import sys
import time
from pathlib import Path

ROOT = Path(__file__).resolve().parent.parent


def git(*words):
    return subprocess.run(["git", "-C", ROOT, *words], capture_output=True, text=True, check=True).stdout.strip()


def machine():
    """Processors by number and model, and the memory."""
    info = Path("/proc/cpuinfo").read_text()
    model = re.search(r"model name\s*: (.*)", info)
    memory = os.sysconf("SC_PAGE_SIZE") * os.sysconf("SC_PHYS_PAGES") / 1e9
    return f"{os.cpu_count()} processors ({model.group(1) if model else 'of an unknown model'}), {memory:.0f} GB"


def title(command):
    """What a record is found by: the script and what tells its run from others, as `bench.py core`."""
    scripts = [Path(it).name for it in command if it.endswith((".py", ".sh"))]
    words = [it for it in command if not it.startswith("-") and "/" not in it and not it.endswith((".py", ".sh"))]
    return " ".join(scripts[:1] + words[1:2] if scripts else words[:1])


def main():
    if len(sys.argv) < 3:
        print(__doc__, file=sys.stderr)
        return 2
    document, command = Path(sys.argv[1]), sys.argv[2:]
    if git("status", "--porcelain", "--", "crates"):
        print("record.py: crates/ has changes that aren't committed", file=sys.stderr)
        return 2
    before = os.getloadavg()[0]
    run = subprocess.run(command, stdout=subprocess.PIPE, text=True)
    if run.returncode != 0:
        print(f"record.py: the command ended with {run.returncode}, nothing is written", file=sys.stderr)
        return run.returncode
    name = title(command)
    begin, end = f"<!-- record.py: {name} begins -->", f"<!-- record.py: {name} ends -->"
    record = "\n".join([
        begin,
        f"Recorded at {git('rev-parse', '--short', 'HEAD')} ({time.strftime('%Y-%m-%d')}) on {machine()},",
        f"load {before:.0f} to {os.getloadavg()[0]:.0f}, by",
        f"`{' '.join(command)}`:",
        "",
        run.stdout.strip(),
        end,
    ])
    text = document.read_text()
    place = re.compile(re.escape(begin) + ".*?" + re.escape(end), re.S)
    text = place.sub(lambda _: record, text) if place.search(text) else f"{text.rstrip()}\n\n{record}\n"
    document.write_text(text)
    return 0


if __name__ == "__main__":
    sys.exit(main())
