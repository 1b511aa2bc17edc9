#!/usr/bin/env python3
"""Lists the definitions that the contract of the top call rests on.

It begins with the definitions that the clauses of `run` name (crates/smt_session/src/top.rt), follows
what each definition of a specs/ folder names, the constants of sources among it, and what the public
ghost fields of the types that it names say, and those of the types in their fields. It prints one row a
file: how many lines of it are reached, and what it restates, which is the first comment of the file.

    tools/trusted.py           prints the table
    tools/trusted.py --check   compares it with docs/TRUST.md, prints what differs, and ends with 1 if something does
    tools/trusted.py --write   puts it into docs/TRUST.md
"""
import difflib
import pathlib
import re
import sys

ROOT = pathlib.Path(__file__).resolve().parent.parent
TRUST = ROOT / "docs" / "TRUST.md"
TOP = ROOT / "crates" / "smt_session" / "src" / "top.rt"
BEGIN, END = "<!-- trusted.py begins -->", "<!-- trusted.py ends -->"
USE = re.compile(r"^\s*(?:ghost )?use Rattle\.([A-Za-z0-9_]+)\.specs\.([A-Za-z0-9_.]+?)(?:\.\{([^}]*)\}| as .*)?;?\s*$")
HEAD = re.compile(
    r"^(?:pub |abbrev |unfoldable |opaque |record |data |ruleset |mutual )*([^\s:(){}]+)(?=[\s:({])"
)
WORD = re.compile(r"[^\s(){},:;\"]+")


class Spec:
    """A file of definitions: what it imports, and its definitions by name."""

    def __init__(self, path):
        self.path = path
        self.lines = path.read_text().splitlines()
        self.imports, self.blocks, self.names = {}, {}, {}
        name, bases = None, [0]
        for number, line in enumerate(self.lines):
            use = USE.match(line)
            if use:
                crate, module, names = use.groups()
                for item in (names or "").split(","):
                    words = item.split(" as ")
                    if words[0].strip():
                        self.imports[words[-1].strip()] = (crate, module, words[0].strip())
                continue
            text = line.strip()
            if not text or text.startswith("--") or text.startswith("use "):
                continue
            indent = len(line) - len(line.lstrip())
            while indent < bases[-1]:
                bases.pop()
            # what stands in a `module` or a `mutual` is a definition of its own
            if re.match(r"(abbrev )?(module .*where|mutual)$", text):
                bases.append(indent + 2)
                name = None
                continue
            if indent == bases[-1]:
                head = HEAD.match(text)
                name = head.group(1) if head else None
            if name:
                self.blocks.setdefault(name, []).append(number)
        # a constructor or a field stands for the definition that it is in
        for name, numbers in self.blocks.items():
            for number in numbers[1:]:
                inner = re.match(r"^\s+(?:pub )?([^\s:(){}]+)\s*:", self.lines[number])
                if inner:
                    self.names.setdefault(inner.group(1), name)
        for name in self.blocks:
            self.names[name] = name

    def words(self, name):
        for number in self.blocks[name]:
            for word in WORD.findall(self.lines[number].split(" -- ")[0]):
                yield word
                for part in re.split(r"[.◌]", word):
                    if part:
                        yield part

    def head(self):
        said = []
        for line in self.lines:
            if not line.startswith("--"):
                break
            said.append(line[2:].strip())
        return " ".join(said)


class Types:
    """The structs and enums of the sources, by crate and name: what their public ghost fields name, and their fields' types."""

    def __init__(self):
        self.ghosts, self.fields, self.crates = {}, {}, {}
        for path in sorted((ROOT / "crates").glob("*/src/**/*.rt")):
            crate = path.relative_to(ROOT / "crates").parts[0]
            text = path.read_text()
            imports = {}
            for line in text.splitlines():
                use = USE.match(line)
                if use:
                    for item in (use.group(3) or "").split(","):
                        words = item.split(" as ")
                        imports[words[-1].strip()] = (use.group(1), use.group(2), words[0].strip())
            for name, body in re.findall(r"^pub (?:struct|enum) (\w+)[^{;]*\{\n(.*?)^\}", text, re.S | re.M):
                said = [line for line in body.splitlines() if re.match(r"\s*pub ghost ", line)]
                words = set(re.split(r"[\s(){},.;:]+", " ".join(said)))
                self.ghosts[crate, name] = [imports[word] for word in sorted(words) if word in imports]
                self.fields[crate, name] = set(re.findall(r"\b[A-Z]\w+", body))
                self.crates.setdefault(name, []).append(crate)

    def reach(self, crate, name):
        """What the ghost fields name of a type and of those in its fields."""
        waiting, seen = [(crate, name)], set()
        while waiting:
            at = waiting.pop()
            if at in seen or at not in self.ghosts:
                continue
            seen.add(at)
            yield from self.ghosts[at]
            for inner in sorted(self.fields[at]):
                homes = self.crates.get(inner, [])
                # a name that several crates have is the crate's own where it has one
                waiting += [(home, inner) for home in homes if home == at[0] or at[0] not in homes]


class Constants:
    """The constants of a file of sources, one line each."""

    def __init__(self, path):
        self.path = path
        self.lines = path.read_text().splitlines()
        self.blocks = {}
        for number, line in enumerate(self.lines):
            found = re.match(r"pub const (\w+):", line)
            if found:
                self.blocks[found.group(1)] = [number]
        self.imports, self.names = {}, {name: name for name in self.blocks}

    def words(self, name):
        return []

    def head(self):
        said = [line[3:].strip() for line in self.lines if line.startswith("//!")]
        return " ".join(said)


def load():
    specs = {}
    for path in sorted((ROOT / "crates").glob("*/specs/*.antt")):
        if path.name != "Lib.antt":
            specs[(path.parts[-3], path.stem)] = Spec(path)
    for path in sorted((ROOT / "crates").glob("*/src/*.rt")):
        if re.search(r"^pub const ", path.read_text(), re.M):
            specs[(path.parts[-3], f"declared.{path.stem}.TheConstants")] = Constants(path)
    return specs


def reach(specs):
    """The reached definitions, as {file: set of names}."""
    text = TOP.read_text()
    clauses = text[text.index("pub fn run<") :].split("\n{\n")[0]
    said = set(re.split(r"[\s(){},.;◌]+", clauses))
    waiting = []
    for line in text.splitlines():
        use = USE.match(line)
        if use and use.group(3):
            crate, module, names = use.groups()
            for item in names.split(","):
                words = item.split(" as ")
                if words[-1].strip() in said:
                    waiting.append((crate, module, words[0].strip()))
    reached, types, met = {}, Types(), set()
    while waiting:
        crate, module, name = waiting.pop()
        if module.startswith("declared.") and (crate, module.split(".")[2]) not in met:
            met.add((crate, module.split(".")[2]))
            waiting += types.reach(crate, module.split(".")[2])
        spec = specs.get((crate, module))
        if spec is None or name not in spec.names:
            continue
        name = spec.names[name]
        if name in reached.setdefault((crate, module), set()):
            continue
        reached[(crate, module)].add(name)
        for word in spec.words(name):
            if word in spec.imports:
                waiting.append(spec.imports[word])
            elif word in spec.names:
                waiting.append((crate, module, word))
    return reached


def table():
    specs = load()
    reached = reach(specs)
    rows, total = [], 0
    for key in sorted(key for key in reached if reached[key]):
        spec = specs[key]
        lines = sum(len(spec.blocks[name]) for name in reached[key])
        total += lines
        rows.append(f"| `{spec.path.relative_to(ROOT)}` | {lines} | {spec.head()} |")
    top = ["| File | Lines | What it says |", "|---|---|---|"]
    return top + rows + ["", f"{total} lines of {len(rows)} files, comments and imports left out."]


def main():
    made = table()
    if len(sys.argv) == 1:
        print("\n".join(made))
        return 0
    before, rest = TRUST.read_text().split(BEGIN + "\n")
    stands, after = rest.split(END)
    if sys.argv[1] == "--write":
        TRUST.write_text(before + BEGIN + "\n" + "\n".join(made) + "\n" + END + after)
        return 0
    changed = list(difflib.unified_diff(stands.splitlines(), made, "docs/TRUST.md", "the clauses of run", lineterm="", n=0))
    print("\n".join(changed) if changed else "docs/TRUST.md lists what run's clauses rest on")
    return 1 if changed else 0


if __name__ == "__main__":
    sys.exit(main())
