#!/usr/bin/env python3
"""Says which files, functions and types that the documents name aren't there, and which wrong bodies no longer fit.

    python3 tools/named.py

In README.md, CONTRIBUTING.md and docs/: each path to a source, definition, proof or script of a crate must be a file;
each name in front of such a path (`check`, decide/src/checking.rt) must be declared in that file; each name in the last
column of docs/PROVED.md must be in the sources or definitions of its row's crate; and each text that an edit replaces
must be in its file just once. Ends with 1 where something isn't so. What the documents count and say of each crate
is looked at by tools/catalogue.py.
"""
import glob
import re
import sys
from pathlib import Path

ROOT = Path(__file__).resolve().parent.parent
PATH = r"(?:crates/)?[a-z_]+/(?:src|specs|proofs|data)/[\w./+-]+\.(?:rt|antt|smt2)"
NAMES_AND_PATH = re.compile(rf"((?:`[\w:]+`(?: \([^()]*\))?(?:,? (?:and )?)?)+),? ?\(?({PATH})")
ROW = re.compile(r"\| `(\w+)` \|.*\|(.*)\|\s*")


def file_of(path):
    return ROOT / (path if path.startswith("crates/") else f"crates/{path}")


def declares(text, name):
    last = re.escape(name.split("::")[-1])
    return re.search(rf"\b(?:fn|struct|enum|trait|const|static|type)\s+{last}\b|\b{last} :|\bpub record {last}\b", text)


def missing_names(text):
    """What a document names by its place, and isn't there."""
    for path in sorted(set(re.findall(rf"(?<![\w/]){PATH}", text))):
        if not file_of(path).is_file():
            yield path
    for names, path in NAMES_AND_PATH.findall(text):
        if file_of(path).is_file():
            there = file_of(path).read_text()
            yield from (f"`{it}`, {path}" for it in re.findall(r"`([\w:]+)`", names) if not declares(there, it))


def missing_clauses(text):
    """What docs/PROVED.md names of a crate, and isn't there."""
    for crate, calls in filter(None, (it and it.groups() for it in map(ROW.fullmatch, text.splitlines()))):
        files = glob.glob(f"{ROOT}/crates/{crate}/src/*.rt") + glob.glob(f"{ROOT}/crates/{crate}/specs/*.antt")
        words = set(re.findall(r"\w+", "".join(Path(it).read_text() for it in files)))
        named = {it for quoted in re.findall(r"`([^`]+)`", calls) for it in re.findall(r"\w+", quoted)}
        yield from (f"`{it}` of {crate}" for it in sorted(named - words))


def unfit(edit):
    """Why an edit can't be applied: its file isn't there, or a text that it replaces doesn't stand there just once."""
    texts, name, old = {}, None, None
    for line in edit.read_text().splitlines():
        word, _, rest = line.partition(":")
        if word == "file":
            name = ROOT / "crates" / edit.parent.name.replace("must-fail", edit.parent.parent.name) / rest.strip()
            if not name.is_file():
                return f"no {rest.strip()}"
            texts.setdefault(name, name.read_text())
        elif word == "old":
            old = rest[1:]
            if texts[name].count(old) != 1:
                return f"{texts[name].count(old)} times: {old.strip()}"
        elif word == "new":
            texts[name] = texts[name].replace(old, rest[1:])
    return None


def main():
    documents = [ROOT / "README.md", ROOT / "CONTRIBUTING.md", *sorted((ROOT / "docs").glob("**/*.md"))]
    found = [f"{it.relative_to(ROOT)}: {gone}" for it in documents for gone in missing_names(it.read_text())]
    found += [f"docs/PROVED.md: {gone}" for gone in missing_clauses((ROOT / "docs/PROVED.md").read_text())]
    edits = [*sorted(ROOT.glob("crates/*/must-fail/*.edit")), *sorted(ROOT.glob("wrong-bodies/*/*.edit"))]
    found += [f"{it.relative_to(ROOT)}: {why}" for it, why in zip(edits, map(unfit, edits)) if why]
    print("\n".join(found) or "all that the documents name is there")
    return 1 if found else 0


if __name__ == "__main__":
    sys.exit(main())
