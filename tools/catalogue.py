#!/usr/bin/env python3
"""Makes what the documents say of each crate from the crates themselves.

    python3 tools/catalogue.py                  prints the three parts below
    python3 tools/catalogue.py --check          says what differs in the documents, and ends with 1 if something does
    python3 tools/catalogue.py --write          puts the parts into the documents
    python3 tools/catalogue.py --clauses CRATE  prints the crate's public functions with the clauses of their contracts
    python3 tools/catalogue.py --long           prints the central facts that a row of docs/PROVED.md cuts short

Order, headings and dependencies are those of crates.txt. What a crate is for is the first sentence of the head (`//!`)
of its src/lib.rt or src/main.rt. Its central fact is the sentence there that has "central fact", the sentence before
one that begins "That is the central fact", or else the first text in bold. Edits are counted in crates/*/must-fail and
wrong-bodies/*. The parts stand between marker comments:

    docs/ARCHITECTURE.md  the crates under the headings of crates.txt: what each is for, and what it stands on
    docs/PROVED.md        a row for each central fact, of at most 200 characters, with the names that the head gives it
    docs/TESTING.md       how many edits each crate has
"""
import difflib
import re
import sys
import textwrap
from pathlib import Path

ROOT = Path(__file__).resolve().parent.parent
BEGIN, END = "<!-- catalogue.py begins -->", "<!-- catalogue.py ends -->"
MOST = 200  # characters of a row of docs/PROVED.md
NAME = r"`([A-Za-z_][\w:]*)`"
FUNCTION = re.compile(r"^( *)pub (?:const |unsafe )?fn (\w+).*?(?=^\1(?:\{|\})|;$)", re.S | re.M)


class Crate:
    """A crate by its line of crates.txt and its head."""

    def __init__(self, name, uses, heading):
        self.name, self.uses, self.heading = name, uses, heading
        self.paragraphs = head_of(ROOT / "crates" / name / "src")

    def purpose(self):
        return sentences(self.paragraphs[0])[0].rstrip(".") if self.paragraphs else ""

    def fact(self):
        """The central fact and the names of calls, laws or definitions that the head gives with it; or None."""
        for is_fact in (lambda it: re.search(r"\bcentral facts?\b", it), lambda it: "**" in it):
            for paragraph in self.paragraphs:
                said = sentences(paragraph)
                place = next((place for place, it in enumerate(said) if is_fact(it)), None)
                if place is None:
                    continue
                if said[place].startswith("That is the central fact") and place > 0:
                    place -= 1
                fact, names = parted(said[place], " ".join(said[:place]))
                for group in re.findall(r"\((`[^()]*`)\)", paragraph):
                    names += re.findall(NAME, group)
                return fact, [*dict.fromkeys(names)]
        return None

    def edits(self):
        """How many edits are in must-fail/, and how many in wrong-bodies/."""
        folders = (ROOT / "crates" / self.name / "must-fail", ROOT / "wrong-bodies" / self.name)
        return tuple(len([*it.glob("*.edit")]) for it in folders)


def head_of(folder):
    """The paragraphs of a head, each on one line, without headings, lists and examples."""
    file = next((folder / it for it in ("lib.rt", "main.rt") if (folder / it).is_file()), None)
    if file is None:
        sys.exit(f"catalogue.py: {folder.relative_to(ROOT)} has neither lib.rt nor main.rt")
    paragraphs, lines, in_code = [], [], False
    for line in [it[3:].strip() for it in file.read_text().splitlines() if it.startswith("//!")] + [""]:
        in_code ^= line.startswith("```")
        if line and not in_code and not line.startswith(("```", "#")):
            lines.append(line)
        elif lines:
            paragraphs.append(plain(" ".join(lines)))
            lines = []
    return [it for it in paragraphs if not it.startswith("- ")]


def plain(text):
    """Without the links of rustdoc."""
    return re.sub(r"\[([^\]]+)\](?:\([^)]*\))?", r"\1", text)


def sentences(text):
    """The sentences of a paragraph, each with its full stop; bold text that ends one ends before the stop."""
    return re.split(r"(?<=\.)\s+(?=[A-Z`*\[(])", text.strip().replace(".**", "**."))


def parted(sentence, before):
    """A fact, and the names that go with it: those in front of its colon, or the first in the sentences before."""
    lead, _, told = sentence.rpartition("central fact")
    told = re.sub(r"^s?(?:,| is|:| of the \w+:?)?\s*", "", told) if lead else sentence
    front, colon, fact = told.partition(": ")
    bold = re.search(r"\*\*(.+?)\*\*(:.*)?", told)
    if bold:
        front, fact = told[: bold.start()], bold.group(1) + (bold.group(2) or "")
    elif not (colon and re.match(r"the (?:clauses?|contracts?)\b", front)):
        fact = told
        front = front if colon or re.match(r"the (?:definition|table|relation)\b", told) else ""
    names = re.findall(NAME, lead + front) if colon or bold else re.findall(NAME, lead + front)[:1]
    if not names and bold and not lead:
        names = re.findall(NAME, before)[:1]
    fact = fact.replace("**", "").strip().rstrip(".")
    return fact[:1].upper() + fact[1:], names


def crates():
    heading, found = "", []
    for line in (ROOT / "crates.txt").read_text().splitlines():
        if line.startswith("#"):
            heading = line.lstrip("# ")
        elif ":" in line:
            name, _, uses = line.partition(":")
            found.append(Crate(name.split()[0], uses.split(), heading))
    return found


def groups(all_crates):
    """The crates under each heading, in the order of crates.txt."""
    under = {}
    for it in all_crates:
        under.setdefault(it.heading, []).append(it)
    return under.items()


def all_below(uses):
    """The names of all that each crate stands on, in whatever order crates.txt has them."""
    below = {name: set(names) for name, names in uses.items()}
    for middle in below:
        for names in below.values():
            if middle in names:
                names |= below[middle]
    return below


def direct(crate, below):
    """The crates that one stands on, without those that another of these stands on."""
    further = {it for name in crate.uses for it in below.get(name, ())}
    return [it for it in crate.uses if it in below and it not in further]


def cell(text):
    return text.replace("|", "\\|")


def quoted(names):
    return ", ".join(f"`{it}`" for it in names)


def row(*cells):
    return "".join(f"| {it} " if it else "| " for it in cells) + "|"


def wrapped(text):
    return textwrap.wrap(text, 120, break_long_words=False, break_on_hyphens=False)


def architecture(all_crates):
    below = all_below({it.name: it.uses for it in all_crates})
    lines = []
    for heading, under in groups(all_crates):
        lines += [f"### {heading[:1].upper()}{heading[1:]}", ""]
        lines += ["| Crate | What it is for | Stands on |", "|---|---|---|"]
        lines += [row(f"`{it.name}`", cell(it.purpose()), quoted(direct(it, below))) for it in under]
        lines.append("")
    return lines[:-1]


def fact_row(name, fact, names):
    """A row, and whether the fact is cut short in it."""
    while len(row(f"`{name}`", "", quoted(names))) > MOST // 2:
        names = names[:-1]
    room = MOST - len(row(f"`{name}`", "", quoted(names))) - 1
    text = cell(fact)
    if len(text) <= room:
        return row(f"`{name}`", text, quoted(names)), False
    text = text[: room - 3].rpartition(" ")[0]
    # a name isn't cut in its middle
    text = text.rpartition("`")[0] if text.count("`") % 2 else text
    return row(f"`{name}`", text.rstrip(" ,;:(") + " ..", quoted(names)), True


def proved(all_crates):
    rows = [fact_row(it.name, *it.fact())[0] for it in all_crates if it.fact()]
    none = quoted(it.name for it in all_crates if not it.fact())
    return ["| Crate | Central fact | Names |", "|---|---|---|", *rows, "", *wrapped(f"Without one: {none}.")]


def counts(all_crates):
    lines = ["| Crates | Edits: in `must-fail/`, in `wrong-bodies/` |", "|---|---|"]
    for heading, under in groups(all_crates):
        told = [f"`{it.name}` {it.edits()[0]}, {it.edits()[1]}" for it in under if any(it.edits())]
        if told:
            lines.append(row(cell(heading.partition(":")[0]), "; ".join(told)))
    gate, by_hand = (sum(it.edits()[place] for it in all_crates) for place in (0, 1))
    none = quoted(it.name for it in all_crates if not any(it.edits()))
    return lines + ["", *wrapped(f"Together {gate} and {by_hand}. None: {none}.")]


PARTS = {"docs/ARCHITECTURE.md": architecture, "docs/PROVED.md": proved, "docs/TESTING.md": counts}


def stands(path):
    """What stands in front of the part, in it and after it."""
    try:
        before, rest = (ROOT / path).read_text().split(BEGIN + "\n")
        part, after = rest.split(END)
    except ValueError:
        sys.exit(f"catalogue.py: {path} hasn't just one `{BEGIN}` and one `{END}`")
    return before, part, after


def differences(all_crates):
    for path, make in PARTS.items():
        there = stands(path)[1].splitlines()
        yield from difflib.unified_diff(there, make(all_crates), path, "the crates", lineterm="", n=0)


def strays(all_crates):
    """Crates that crates.txt hasn't, and folders of edits without a crate."""
    names = {it.name for it in all_crates}
    folders = [it.parent for it in (ROOT / "crates").glob("*/src")]
    folders += [it for it in (ROOT / "wrong-bodies").iterdir() if it.is_dir()]
    return [f"{it.relative_to(ROOT)}: no such crate in crates.txt" for it in sorted(folders) if it.name not in names]


def clauses(crate):
    """The public functions of a crate's sources, each with the names of its clauses."""
    for file in sorted((ROOT / "crates" / crate / "src").glob("*.rt")):
        for found in FUNCTION.finditer(file.read_text()):
            named = re.findall(r"^\s+ensures(?: (\w+))? \{", found.group(), re.M)
            if named:
                yield f"{file.name} {found.group(2)}: {', '.join(it or '(without a name)' for it in named)}"


def main(words):
    all_crates = crates()
    if not words:
        print("\n\n".join("\n".join(make(all_crates)) for make in PARTS.values()))
    elif words == ["--check"]:
        found = [*strays(all_crates), *differences(all_crates)]
        print("\n".join(found) or "the documents say of each crate what it says of itself")
        return 1 if found else 0
    elif words == ["--write"]:
        texts = {path: (stands(path), make(all_crates)) for path, make in PARTS.items()}
        for path, ((before, _, after), part) in texts.items():
            (ROOT / path).write_text(before + BEGIN + "\n" + "\n".join(part) + "\n" + END + after)
    elif words == ["--long"]:
        for it in all_crates:
            if it.fact() and fact_row(it.name, *it.fact())[1]:
                print(f"{it.name}: {it.fact()[0]}")
    elif len(words) == 2 and words[0] == "--clauses" and words[1] in {it.name for it in all_crates}:
        print("\n".join(clauses(words[1])))
    else:
        sys.exit(__doc__)
    return 0


if __name__ == "__main__":
    sys.exit(main(sys.argv[1:]))
