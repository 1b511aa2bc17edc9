#!/usr/bin/env python3
"""Draws small scripts at random, and looks at each verdict with an evaluator of its own.

    python3 tools/differ.py PROGRAM [--seed S] [--scripts N] [--peer "COMMAND"]
    python3 tools/differ.py --write FOLDER [--seed S] [--scripts N]     writes the scripts, for tools/corpus.sh

The evaluator below says what SMT-LIB 2.6 and its theories Core, Ints and UnicodeStrings say of a term whose constants
have values; it shares nothing with the program. Behind `sat` every assertion has to be true by it under the model that
the program prints. Behind `unsat` no values may make all of them true, of those that are tried: short words over the
letters of the script and one more, small numbers; parts of a script that share no constant are searched apart, and a
constant that an assertion sets equal to a term is computed. Where the script bounds every word's length and compares
words with literals alone (`is_closed`), words over one letter of each class are all there is to try: if none of them do,
`sat` is wrong too.

Four of eleven scripts are plain ones; of the others some have Boolean names for conditions (2 to 5, or 21 to 30, most
of them held or negated), constant bounds on lengths, literals outside the straight-line fragment (disequalities, second
definitions, cycles, orders, opaque functions), independent parts, or written words. There `unknown` is no error.

Three of ten scripts are put as a session: assertions have names or guards, stand on levels that go, or are macros that
are assumed, and up to three checks are asked, each with its assumptions. Each verdict is looked at by itself, and behind
each `unsat` the core: its names have to be live ones, in order of assertion; with what has no name and the assumptions
its assertions may have no values, by the search above and by the peer; and the program may not say `unsat` of what is
left where one of its names goes as it was tried, with those that were listed before it and all names after it.

A peer reads what each check asks, if that has no transducer, on its standard input,
such as "cvc5 --lang smt2 --strings-exp --produce-models --tlimit=3000 -q -"; where it says `sat` and the program `unsat`,
the peer's model is looked at in the same way, and a peer's `unsat` against a `sat` is told.
Prints each script with a verdict or a core that is shown to be wrong, and ends with 1 if there is one. A model with a
word of more than 200 characters isn't looked at, and is counted apart, as is a core that isn't there when the script has
taken 20 seconds; an `unknown` is counted with its cause.
"""
import argparse
import collections
import copy
import functools
import itertools
import pathlib
import random
import re
import subprocess
import sys

GREATEST = 0x2FFFF
SORTS = {"s": "String", "i": "Int", "b": "Bool"}
# How many assignments are tried against an `unsat`.
TRIED = 4_000
# Up to so many assignments of a closed script are all tried.
WHOLE = 12_000
# What is drawn: as often as it stands here.
SHAPES = ["plain"] * 4 + ["names", "many names", "bounds", "bounds", "outside", "parts", "written"]
# A model with longer words isn't looked at.
LONGEST = 200
# How many of the scripts are put as a session.
SESSIONS = 0.3


# Words are tuples of characters' numbers; terms are lists as an s-expression's, with words and numbers at the leaves.


def show_word(word):
    shown = {34: '""', 92: "\\u{5c}"}
    return '"' + "".join(shown.get(c) or (chr(c) if 32 <= c < 127 else f"\\u{{{c:x}}}") for c in word) + '"'


def show(term):
    if isinstance(term, tuple):
        return show_word(term)
    if isinstance(term, bool):
        return "true" if term else "false"
    if isinstance(term, int):
        return str(term) if term >= 0 else f"(- {-term})"
    return term if isinstance(term, str) else "(" + " ".join(map(show, term)) + ")"


def read_word(text):
    """The word of a literal's text, which stands with its quotes."""
    found = re.findall(r'\\u\{([0-9a-fA-F]{1,5})\}|\\u([0-9a-fA-F]{4})|("")|(.)', text[1:-1], re.S)
    return tuple(int(braced or four, 16) if braced or four else 34 if quote else ord(plain) for braced, four, quote, plain in found)


def read(text):
    """The s-expressions of a reply; a literal is read as a word, and a numeral as a number."""
    stack = [[]]
    for token in re.findall(r'"(?:[^"]|"")*"|\|[^|]*\||[()]|[^\s()|"]+', text):
        if token == "(":
            stack.append([])
        elif token == ")":
            stack[-2].append(stack.pop())
        else:
            stack[-1].append(read_word(token) if token[0] == '"' else int(token) if token.isdigit() else token)
    return stack[0]


# What a term means.


def places(word, part):
    return [at for at in range(len(word) - len(part) + 1) if word[at : at + len(part)] == part]


def replace(word, old, new):
    at = next(iter(places(word, old)), None)
    return word if at is None else word[:at] + new + word[at + len(old) :]


def replace_all(word, old, new):
    made, at = (), 0
    while at < len(word):
        if old and word[at : at + len(old)] == old:
            made, at = made + new, at + len(old)
        else:
            made, at = made + word[at : at + 1], at + 1
    return made


def substr(word, start, count):
    return word[start : start + count] if 0 <= start < len(word) and count > 0 else ()


def index_of(word, part, start):
    if not 0 <= start <= len(word):
        return -1
    return next((at for at in places(word, part) if at >= start), -1)


def to_int(word):
    return int("".join(map(chr, word))) if word and all(48 <= c <= 57 for c in word) else -1


@functools.lru_cache(maxsize=1 << 20)
def has(regex, word):
    """Whether the word is in the regular expression, which is nested tuples here."""
    head, *parts = regex
    cuts = range(len(word) + 1)
    if head == "str.to_re":
        return word == parts[0]
    if head in ("re.none", "re.all", "re.allchar"):
        return head == "re.all" or (head == "re.allchar" and len(word) == 1)
    if head == "re.range":
        return all(len(it) == 1 for it in (*parts, word)) and parts[0] <= word <= parts[1]
    if head == "re.comp":
        return not has(parts[0], word)
    if head == "re.union":
        return any(has(it, word) for it in parts)
    if head == "re.inter":
        return all(has(it, word) for it in parts)
    if head == "re.diff":
        return has(parts[0], word) and not any(has(it, word) for it in parts[1:])
    if head == "re.opt":
        return not word or has(parts[0], word)
    if head == "re.+":
        return has(("re.++", parts[0], ("re.*", parts[0])), word)
    if head == "re.*":
        return not word or any(has(parts[0], word[:at]) and has(regex, word[at:]) for at in cuts[1:])
    if head == "re.++":
        if len(parts) == 1:
            return has(parts[0], word)
        return any(has(parts[0], word[:at]) and has(("re.++", *parts[1:]), word[at:]) for at in cuts)
    if head == "re.^":
        count, part = parts
        return not word if count == 0 else has(("re.++", part, ("re.^", count - 1, part)), word)
    least, most, part = parts
    return any(has(("re.^", count, part), word) for count in range(least, most + 1))


def as_regex(term):
    """A regular expression in the form that `has` takes."""
    if isinstance(term, str):
        return (term,)
    head, *parts = term
    if isinstance(head, list):
        return (head[1], *head[2:], *map(as_regex, parts))
    return (head, *(it if isinstance(it, tuple) else as_regex(it) for it in parts))


def writes(transducer, read, written):
    """Whether the transducer may write the second word for the first one."""
    start, edges, ends = transducer
    at = {(start, 0)}
    for c in read:
        further = set()
        for (state, done), (origin, low, high, items, to) in itertools.product(at, edges):
            piece = sum(((c + it,) if isinstance(it, int) else it for it in items), ())
            is_word = all(0 <= d <= GREATEST for d in piece)
            if state == origin and low <= c <= high and is_word and written[done : done + len(piece)] == piece:
                further.add((to, done + len(piece)))
        at = further
    return any((state, len(written) - len(last)) in at and written[len(written) - len(last) :] == last for state, last in ends if len(last) <= len(written))


def chain(test):
    return lambda *them: all(test(a, b) for a, b in itertools.pairwise(them))


def euclid(a, b):
    return (a - a % abs(b)) // b


MEANS = {
    "not": lambda a: not a,
    "and": lambda *them: all(them),
    "or": lambda *them: any(them),
    "xor": lambda *them: sum(them) % 2 == 1,
    "=>": lambda *them: not all(them[:-1]) or them[-1],
    "ite": lambda a, b, c: b if a else c,
    "=": chain(lambda a, b: a == b),
    "distinct": lambda *them: len(set(them)) == len(them),
    "<": chain(lambda a, b: a < b),
    "<=": chain(lambda a, b: a <= b),
    ">": chain(lambda a, b: a > b),
    ">=": chain(lambda a, b: a >= b),
    "+": lambda *them: sum(them),
    "-": lambda first, *rest: first - sum(rest) if rest else -first,
    "*": lambda *them: functools.reduce(lambda a, b: a * b, them),
    "abs": abs,
    "div": euclid,
    "mod": lambda a, b: a % abs(b),
    "str.++": lambda *them: sum(them, ()),
    "str.len": len,
    "str.replace": replace,
    "str.replace_all": replace_all,
    "str.prefixof": lambda part, word: word[: len(part)] == part,
    "str.suffixof": lambda part, word: len(part) <= len(word) and word[len(word) - len(part) :] == part,
    "str.contains": lambda word, part: bool(places(word, part)),
    "str.is_digit": lambda word: len(word) == 1 and 48 <= word[0] <= 57,
    "str.<": chain(lambda a, b: a < b),
    "str.<=": chain(lambda a, b: a <= b),
    "str.at": lambda word, at: substr(word, at, 1),
    "str.substr": substr,
    "str.indexof": index_of,
    "str.to_code": lambda word: word[0] if len(word) == 1 else -1,
    "str.from_code": lambda code: (code,) if 0 <= code <= GREATEST else (),
    "str.to_int": to_int,
    "str.from_int": lambda number: tuple(map(ord, str(number))) if number >= 0 else (),
}


def value(term, values):
    if isinstance(term, (tuple, int)):
        return term
    if isinstance(term, str):
        return values[term] if term in values else {"true": True, "false": False}[term]
    head, *parts = term
    if head == "let":
        return value(parts[1], {**values, **{name: value(it, values) for name, it in parts[0]}})
    if head == "str.in_re":
        return has(as_regex(parts[1]), value(parts[0], values))
    if head == "T":
        return writes(values["T"], *(value(it, values) for it in parts))
    return MEANS[head](*(value(it, values) for it in parts))


# Scripts.


def names_in(term, names):
    """Those of the names that stand in the term."""
    if isinstance(term, str):
        return {term} & names
    return set().union(*(names_in(it, names) for it in term)) if isinstance(term, list) else set()


def length(term):
    return ["str.len", term]


class Script:
    """A script that is drawn: its constants, by name with the first letter of the sort, and its assertions."""

    def __init__(self, seed):
        self.draw = random.Random(seed)
        self.letters = [ord(c) for c in self.draw.choice(["ab", "ab", "ab", "a", "a7", "<;"])]
        if self.draw.random() < 0.05:
            self.letters.append(self.draw.choice([0, 34, 92, 10, 233, 0xD800, GREATEST]))
        self.reach, self.caps, self.is_closed = {}, [], False
        self.shape = self.draw.choice(SHAPES)
        if self.shape != "plain":
            self.transducer = None
            self.assertions = self.shaped()
        else:
            self.plain()
        self.entries, self.symbols = [(None, it) for it in self.assertions], {}
        self.session = Session(self) if self.draw.random() < SESSIONS else None

    def plain(self):
        counts = {"s": self.draw.randint(1, 3), "i": self.draw.choice([0, 0, 1, 2]), "b": self.draw.choice([0, 0, 1])}
        self.constants = [f"{sort}{at}" for sort, count in counts.items() for at in range(count)]
        self.known = self.constants
        self.transducer = self.machine() if self.draw.random() < 0.2 else None
        self.assertions = [self.assertion() for _ in range(self.draw.randint(1, 4))]
        if self.draw.random() < 0.15:
            self.assertions += self.crowd()

    def of_sort(self, sort):
        return [name for name in self.known if name[0] == sort]

    def machine(self):
        """A transducer of two states: its start, edges and ends."""
        draw, edges = self.draw, []
        for _ in range(draw.randint(1, 4)):
            low, high = sorted(draw.choice([*self.letters, 0, GREATEST]) for _ in range(2))
            items = [draw.choice([0, 0, 1, -1, self.word(2)]) for _ in range(draw.randint(0, 2))]
            edges.append((draw.randint(0, 1), low, high, items, draw.randint(0, 1)))
        return 0, edges, [(draw.randint(0, 1), self.word(1)) for _ in range(draw.randint(1, 2))]

    def definition(self):
        """A constant of sort String with a term or a transducer that says what it is, mostly by those before it."""
        names = self.of_sort("s")
        at = self.draw.randrange(len(names))
        if at and self.draw.random() < 0.9:
            self.known = [name for name in self.constants if name not in names[at:]]
        term = ["T", self.text(0), names[at]] if self.transducer and self.draw.random() < 0.5 else ["=", names[at], self.text(2)]
        self.known = self.constants
        return term

    def word(self, most=3):
        return tuple(self.draw.choice(self.letters) for _ in range(self.draw.choice([0, 1, 1, 2, most])))

    def regex(self, depth):
        draw = self.draw
        if depth == 0 or draw.random() < 0.15:
            letters = [(draw.choice(self.letters),) for _ in range(2)]
            plain = [["str.to_re", self.word()]] * 5 + ["re.allchar", "re.all", "re.none", ["re.range", *letters]]
            return draw.choice([*plain, ["re.range", self.word(), self.word()]])
        below = functools.partial(self.regex, depth - 1)
        head = draw.choice(["re.++", "re.++", "re.union", "re.union", "re.*", "re.*", "re.+", "re.opt", "re.inter", "re.diff", "re.comp", "^", "loop"])
        if head == "^":
            return [["_", "re.^", draw.randint(0, 3)], below()]
        if head == "loop":
            return [["_", "re.loop", draw.randint(0, 2), draw.randint(0, 4)], below()]
        count = 1 if head in ("re.*", "re.+", "re.opt", "re.comp") else draw.randint(2, 3)
        return [head, *(below() for _ in range(count))]

    def text(self, depth):
        draw, roll = self.draw, self.draw.random()
        if depth == 0 or roll < 0.35:
            return draw.choice(self.of_sort("s")) if draw.random() < 0.75 else self.word()
        if roll < 0.75:
            return ["str.++", *(self.text(depth - 1) for _ in range(draw.randint(2, 3)))]
        if roll < 0.97:
            return [draw.choice(["str.replace", "str.replace_all"]), self.text(depth - 1), self.word(2), self.word(2)]
        return draw.choice([["str.at", self.text(0), self.number(0)], ["str.substr", self.text(0), self.number(0), self.number(0)], ["str.from_int", self.number(0)], ["ite", self.atom(), self.text(0), self.text(0)]])

    def number(self, depth):
        draw, roll = self.draw, self.draw.random()
        if depth == 0 or roll < 0.3:
            return draw.choice([*self.of_sort("i"), draw.randint(-3, 6), ["str.len", self.text(0)]])
        below = functools.partial(self.number, depth - 1)
        if roll < 0.5:
            return ["str.len", self.text(1)]
        if roll < 0.8:
            return [draw.choice(["+", "-"]), *(below() for _ in range(draw.randint(1, 3)))]
        if roll < 0.96:
            return ["*", draw.randint(-2, 3), below()]
        return draw.choice([["str.indexof", self.text(0), self.word(), 0], ["str.to_int", self.text(0)], ["mod", below(), 3], ["abs", below()]])

    def atom(self):
        draw, roll = self.draw, self.draw.random()
        if roll < 0.3:
            return ["str.in_re", self.text(draw.choice([0, 0, 1])), self.regex(draw.randint(1, 3))]
        if roll < 0.5:
            return self.definition()
        if roll < 0.55:
            return [draw.choice(["=", "distinct"]), self.text(1), self.word()]
        if roll < 0.67:
            part = self.word() if draw.random() < 0.9 else self.text(0)
            head = draw.choice(["str.prefixof", "str.suffixof", "str.contains"])
            return [head, self.text(1), part] if head == "str.contains" else [head, part, self.text(1)]
        if roll < 0.9:
            return [draw.choice(["<", "<=", ">", ">=", "=", "distinct"]), *(self.number(draw.randint(0, 2)) for _ in range(draw.choice([2, 2, 2, 3])))]
        if roll < 0.93:
            return draw.choice([["str.is_digit", self.text(0)], ["str.<", self.text(0), self.text(0)], ["str.<=", self.text(0), self.text(0)]])
        return draw.choice([*self.of_sort("b"), "true", "false"])

    def crowd(self):
        """Many tests of one constant of sort String, most of them negated."""
        draw, name = self.draw, self.draw.choice(self.of_sort("s"))
        tests = [
            lambda: ["=", name, self.word()],
            lambda: ["str.contains", name, self.word()],
            lambda: ["str.prefixof", self.word(), name],
            lambda: ["str.suffixof", self.word(), name],
            lambda: ["str.in_re", name, self.regex(2)],
        ]
        drawn = [draw.choice(tests)() for _ in range(draw.randint(5, 12))]
        return [["not", test] if draw.random() < 0.9 else test for test in drawn]

    def formula(self, depth):
        draw, roll = self.draw, self.draw.random()
        if depth == 0 or roll < 0.4:
            return self.atom()
        below = functools.partial(self.formula, depth - 1)
        if roll < 0.55:
            return ["not", below()]
        if roll < 0.62:
            return ["ite", below(), below(), below()]
        if roll < 0.7:
            name = draw.choice(self.of_sort("s"))
            return ["let", [[name, self.text(1)], ["v", name]], ["and", self.atom(), ["str.prefixof", self.word(), "v"]]]
        head = draw.choice(["and", "or", "or", "=>", "xor", "=", "distinct"])
        return [head, *(below() for _ in range(2 if head in ("distinct", "=", "xor") else draw.randint(2, 3)))]

    def assertion(self):
        return self.formula(self.draw.choice([0, 0, 1, 2]))

    # Shapes.

    def constants_of(self, **counts):
        """Begins with so many constants of each sort."""
        self.constants = [f"{sort}{at}" for sort, count in counts.items() for at in range(count)]
        self.known = self.constants

    def shaped(self):
        shapes = {"bounds": self.bounded, "outside": self.outside, "parts": self.parts, "written": self.written}
        made = shapes.get(self.shape, self.named)()
        self.draw.shuffle(made)
        return made

    def cap(self, name, most):
        """An assertion that the constant's word has at most so many letters."""
        size = length(name)
        self.reach[name] = most
        self.caps.append(self.draw.choice([
            ["<", size, most + 1], ["<=", size, most], [">=", most, size], ["not", [">", size, most]],
            ["<=", ["*", 2, size], 2 * most + 1], [">=", ["-", size], -most], ["<", -most - 1, ["*", -1, size]],
            ["<=", ["+", size, 3], most + 3], ["=", size, most] if most == 0 else ["<=", size, most],
            ["str.in_re", name, [["_", "re.loop", 0, most], "re.allchar"]],
        ]))
        return self.caps[-1]

    def bound(self):
        """A constant bound on a length, on a defined word's too, or on a sum of lengths."""
        draw, names = self.draw, self.of_sort("s")
        size = length(draw.choice(names))
        sums = [["+", size, length(draw.choice(names))], length(["str.++", draw.choice(names), self.word(), draw.choice(names)]), ["-", size, length(draw.choice(names))]]
        if draw.random() < 0.25:
            size = draw.choice(sums)
        head, least = draw.choice(["<", "<=", ">", ">=", "=", "distinct"]), draw.randint(-1, 5)
        return draw.choice([
            [head, size, least], [head, least, size], ["<=", draw.randint(1, 3), size], ["=", size, draw.choice([0, 0, 1, 2])],
            [head, ["*", draw.choice([-2, 2, 3]), size], draw.randint(-7, 9)], [head, ["+", size, draw.randint(-3, 3)], least],
            [">", ["-", size], draw.randint(-5, 0)], [draw.choice(["<", "distinct"]), *[draw.randint(-1, 1)] * 2] if draw.random() < 0.2 else ["<=", size, 4],
        ])

    def condition(self):
        """A literal whose truth doesn't tell letters that the script doesn't write from their like."""
        draw, roll, name = self.draw, self.draw.random(), self.draw.choice(self.of_sort("s"))
        if roll < 0.35:
            return self.bound()
        if roll < 0.6:
            return ["str.in_re", name, self.regex(draw.randint(1, 2))]
        return draw.choice([["=", name, self.word()], ["str.contains", name, self.word()], ["str.prefixof", self.word(), name], ["str.suffixof", self.word(), name]])

    def joined(self, names, pieces):
        """A concatenation of so many pieces, constants among these names and words."""
        return ["str.++", *(self.draw.choice(names) if self.draw.random() < 0.65 else self.word() for _ in range(pieces))]

    def definitions(self, sources):
        """Each constant after the sources is a concatenation of those before it."""
        names = self.of_sort("s")
        return [["=", name, self.joined(names[:at], self.draw.randint(2, 4))] for at, name in enumerate(names) if at >= sources]

    def bounded(self):
        sources = self.draw.randint(1, 2)
        self.constants_of(s=sources + self.draw.randint(0, 2), b=self.draw.choice([0, 0, 1]))
        self.is_closed = self.draw.random() < 0.8
        made, caps = self.definitions(sources), []
        if self.is_closed:
            caps = [self.cap(name, self.draw.choice([0, 1, 2, 2, 3, 3])) for name in self.of_sort("s")[:sources]]
        self.hide(made)
        made += caps + [self.held(self.bound()) for _ in range(self.draw.randint(1, 3))]
        made += [self.literal() for _ in range(self.draw.randint(1, 4))]
        if self.draw.random() < 0.4:
            made.append([self.draw.choice(["or", "=>", "xor"]), self.condition(), self.condition()])
        return made

    def hide(self, made=()):
        """Hidden words for the constants, by the definitions if they are given; in most scripts literals follow them."""
        self.hidden = {name: self.word()[: self.reach.get(name, 3)] for name in self.of_sort("s")}
        for _, name, term in made:
            self.hidden[name] = value(term, self.hidden)
        self.is_planted = self.draw.random() < 0.7

    def held(self, literal):
        """The literal or its negation: in most scripts that of the two which is true of the hidden words."""
        is_kept = value(literal, self.hidden) if self.is_planted else self.draw.random() < 0.7
        return literal if is_kept else ["not", literal]

    def literal(self):
        return self.held(self.condition())

    def named(self):
        """Names for conditions; most follow hidden words, so that the conditions can hold together."""
        draw, sources = self.draw, self.draw.randint(1, 2)
        self.constants_of(s=sources + draw.randint(0, 1))
        made, caps, is_many = self.definitions(sources), [], self.shape == "many names"
        self.is_closed = draw.random() < 0.5
        if self.is_closed:
            caps = [self.cap(name, draw.randint(1, 3)) for name in self.of_sort("s")[:sources]]
        self.hide(made)
        names = [f"b{at}" for at in range(draw.randint(21, 30) if is_many else draw.randint(2, 5))]
        conditions = [self.condition() for _ in names]
        self.constants += names
        holds = [value(it, self.hidden) if self.is_planted or draw.random() < 0.8 else draw.random() < 0.5 for it in conditions]
        literals = [name if held else ["not", name] for name, held in zip(names, holds)]
        made += caps + [["=", name, it] for name, it in zip(names, conditions)]
        loose = draw.randint(0, 4 if is_many else len(names))
        return made + literals[loose:] + [self.clause(literals) for _ in range(draw.randint(1, 3))]

    def clause(self, literals):
        head = self.draw.choice(["and", "or", "or", "=>", "ite", "not"])
        parts = [self.draw.choice(literals) for _ in range({"ite": 3, "not": 1}.get(head, self.draw.randint(2, 3)))]
        return [head, *parts] if head != "not" else ["or", ["not", parts[0]], self.draw.choice(literals)]

    def stray(self):
        """A literal outside the straight-line fragment."""
        draw, names = self.draw, self.of_sort("s")
        x, y = draw.choice(names), draw.choice(names)
        at, to, word = draw.randint(-1, 3), draw.randint(-1, 3), self.word()
        return draw.choice([
            lambda: ["distinct", self.text(1), self.text(1)], lambda: ["not", ["=", x, self.joined(names, 2)]],
            lambda: ["distinct", x, y, self.word()], lambda: ["=", x, ["str.++", word, x]], lambda: ["=", ["str.++", x, word], ["str.++", word, y]],
            lambda: ["=", x, self.joined(names, 2)], lambda: [draw.choice(["str.<", "str.<="]), x, draw.choice([y, word])],
            lambda: ["not", [draw.choice(["str.<", "str.<="]), x, y]], lambda: ["=", ["str.at", x, at], draw.choice([y, self.word(1)])],
            lambda: ["=", y, ["str.substr", x, at, draw.choice([to, length(y)])]], lambda: [draw.choice(["=", "<=", ">"]), ["str.indexof", x, draw.choice([word, y]), at], to],
            lambda: ["=", x, ["ite", self.condition(), y, self.word()]], lambda: [draw.choice(["=", "<", ">="]), ["str.to_int", x], draw.choice([-1, 7, 77, to])],
            lambda: ["=", x, ["str.from_int", draw.choice([-1, 7, length(y)])]], lambda: ["=", ["str.to_code", x], draw.choice([-1, self.letters[0], ["str.to_code", y]])],
            lambda: ["=", x, ["str.from_code", draw.choice([-1, self.letters[0], GREATEST, GREATEST + 1])]], lambda: ["str.contains", x, y],
            lambda: ["not", ["str.prefixof", x, y]], lambda: ["=", x, ["str.replace", y, draw.choice(names), self.word()]],
        ])()

    def outside(self):
        draw = self.draw
        self.constants_of(s=draw.randint(1, 3))
        made = self.definitions(draw.randint(1, len(self.constants)))
        self.hide(made)
        made += [self.literal() for _ in range(draw.randint(1, 3))]
        made += [self.held(self.stray()) if draw.random() < 0.7 else self.stray() for _ in range(draw.randint(1, 2))]
        if draw.random() < 0.3:
            made.append(["or", self.stray(), self.literal()])
        return made + [self.cap(name, draw.randint(0, 3)) for name in self.of_sort("s") if draw.random() < 0.5]

    def parts(self):
        """Two to five parts that share no constant; mostly at most one of them has no values."""
        draw, made, first = self.draw, [], 0
        self.constants_of(s=3 * draw.randint(2, 5))
        names = self.constants
        empty = draw.choice([*[-1] * (len(names) // 3), *range(len(names) // 3)])
        for at in range(0, len(names), 3):
            whole, *pieces = names[at : at + 3]
            self.known = [whole, *pieces]
            definition = ["=", whole, self.joined(pieces, draw.randint(2, 5))]
            self.hide([definition])
            made += [definition, *(self.literal() for _ in range(draw.randint(0, 3)))]
            if at == 3 * empty:
                made += self.clash(*self.known)
        self.known = self.constants
        return made

    def clash(self, whole, *pieces):
        """Literals that mostly can't be true together."""
        others = ["str.in_re", whole, ["re.+", ["str.to_re", (122,)]]]
        return self.draw.choice([
            [others, ["str.contains", whole, tuple(self.letters[:1])]],
            [self.bound(), ["<", length(whole), self.draw.randint(0, 2)], [">", length(pieces[0]), 2]],
            [["=", ["+", length(whole), 1], self.draw.choice([*map(length, pieces)])]],
        ])

    def written(self):
        """A constant or two that are literals, used in definitions of others and defined by others."""
        draw = self.draw
        self.constants_of(s=draw.randint(3, 5))
        names = self.of_sort("s")
        last = ["=", names[-1], self.joined(names[:-1], draw.randint(2, 4))]
        cut = ["=", names[0], self.joined(names[1:-1], draw.randint(2, 5))]
        self.hide([cut, last])
        letters = tuple(draw.choice(self.letters) for _ in range(draw.randint(0, 8)))
        made = [["=", names[0], self.hidden[names[0]] if self.is_planted else letters], last]
        if draw.random() < 0.7:
            made.append(cut)
        if draw.random() < 0.3:
            made.append(["=", names[1], self.hidden[names[1]]])
        return made + [self.literal() for _ in range(draw.randint(0, 3))]

    # The search.

    def classes(self):
        """The letters of the script, and one of each stretch between them."""
        further = [0, *(it + 1 for it in self.letters if it < GREATEST)]
        return sorted({*self.letters, *further})

    def settings(self):
        """Constants that assertions set equal to terms, each after those that its term uses."""
        terms, names, order = {}, set(self.constants), []
        below = lambda used: used.union(*(below(names_in(terms[it], names)) for it in used if it in terms))
        for it in self.assertions:
            if it[0] == "=" and len(it) == 3 and isinstance(it[1], str) and it[1] in names - set(terms):
                if it[1] not in below(names_in(it[2], names)):
                    terms[it[1]] = it[2]

        def visit(name):
            if name in terms and name not in [known for known, _ in order]:
                for used in sorted(names_in(terms[name], names)):
                    visit(used)
                order.append((name, terms[name]))

        for name in self.constants:
            visit(name)
        return order

    def islands(self):
        """The constants and assertions of each part that shares no constant with the others."""
        names, islands = set(self.constants), [({name}, []) for name in self.constants]
        for it in self.assertions:
            used = names_in(it, names)
            apart = [island for island in islands if not island[0] & used]
            met = [island for island in islands if island[0] & used]
            islands = [*apart, (used.union(*(own for own, _ in met)), [*itertools.chain(*(own for _, own in met)), it])]
        return islands

    def domain(self, name, tests):
        """Values for a constant, of which those stay under which the assertions over it by itself are true."""
        if name[0] != "s":
            them = [False, True] if name[0] == "b" else range(-4, 9)
        elif self.is_closed:
            them = [word for count in range(self.reach[name] + 1) for word in itertools.product(self.classes(), repeat=count)]
        else:
            lengths = range(4 if len(self.letters) < 3 else 3)
            them = [word for count in lengths for word in itertools.product([*self.letters, 122], repeat=count)]
        return [it for it in them if all(value(test, {name: it, "T": self.transducer}) for test in tests)]

    def search(self):
        """Values that make every assertion true, or None, and whether there surely are none."""
        found, is_refuted, settings = {}, False, self.settings()
        for names, own in self.islands():
            values, is_whole = self.search_island(names, own, [it for it in settings if it[0] in names])
            is_refuted = is_refuted or (values is None and is_whole)
            found = None if found is None or values is None else {**found, **values}
        return found, is_refuted

    def search_island(self, names, own, settings):
        free = [name for name in self.constants if name in names and name not in dict(settings)]
        every = set(self.constants)
        domains = [self.domain(name, [it for it in own if names_in(it, every) == {name}]) for name in free]
        size = functools.reduce(lambda a, b: a * len(b), domains, 1)
        is_whole = self.is_closed and size <= WHOLE
        if is_whole or size <= TRIED:
            picked = itertools.product(*domains)
        else:
            picked = (tuple(self.draw.choice(domain) for domain in domains) for _ in range(TRIED))
        for values in picked:
            values = {**dict(zip(free, values)), "T": self.transducer}
            for name, term in settings:
                values[name] = value(term, values)
            if all(value(it, values) for it in own):
                return {name: values[name] for name in self.constants if name in names}, is_whole
        return None, is_whole

    # The text.

    def heading(self):
        """The lines before the assertions. Other solvers want the options, and those before the logic."""
        lines = ["(set-option :produce-models true)", *["(set-option :produce-unsat-cores true)"] * bool(self.session), "(set-logic ALL)"]
        lines += [f"(declare-const {name} {SORTS[name[0]]})" for name in self.constants]
        if self.transducer:
            start, edges, ends = self.transducer
            items = [" ".join("in" if it == 0 else f"(in {show(it)})" if isinstance(it, int) else show(it) for it in edge[3]) for edge in edges]
            shown = [f"(q{edge[0]} {show((edge[1],))} {show((edge[2],))} ({written}) q{edge[4]})" for edge, written in zip(edges, items)]
            lasts = [f"(q{state} ({show(word)}))" for state, word in ends]
            lines.append(f"(define-transducer T (q0 q1) q{start} ({' '.join(shown)}) ({' '.join(lasts)}))")
        return lines

    def flat(self):
        """The text with one check of the assertions, none of which has a name."""
        asserted = [f"(assert {show(it)})" for it in self.assertions]
        return "\n".join([*self.heading(), *asserted, *self.check("(check-sat)"), ""])

    def commands(self):
        return "\n".join([*self.heading(), *self.session.lines, ""]) if self.session else self.flat()

    def check(self, command):
        """The lines of a check, each of which has one reply."""
        return [command, f"(get-value ({' '.join([*self.constants, *self.symbols])}))", "(get-unsat-core)", "(get-info :reason-unknown)"]

    def questions(self):
        """What each check asks."""
        return self.session.questions if self.session else [self]

    # The assertions of a check.

    def asking(self, entries, symbols):
        """The script with one check of these assertions, each with its name or None, and of symbols with meanings."""
        made = copy.copy(self)
        made.session, made.entries, made.symbols, made.assertions = None, entries, symbols, [it for _, it in entries]
        known = {*self.reach, *(name for name, _ in made.settings())}
        made.is_closed = self.is_closed and all(it in made.assertions for it in self.caps) and all(name in known for name in self.constants if name[0] == "s")
        return made

    def keeping(self, names):
        """What is asked where of the named assertions these stay."""
        return self.asking([(name, it) for name, it in self.entries if name is None or name in names], {})

    def fails(self, values):
        """The first assertion that isn't true under the values, or symbol that has another one, if there is one."""
        values = {**values, "T": self.transducer}
        others = (name for name, it in self.symbols.items() if name in values and values[name] != value(it, values))
        return next((it for it in self.assertions if not value(it, values)), next(others, None))


class Session:
    """How a script is put: its lines, and what each of its checks asks."""

    def __init__(self, script):
        self.script, self.draw = script, script.draw
        self.lines, self.questions, self.guards, pops = [], [], [], 0
        # Of each level the entries: whether it is asserted, its name or None, what it means, and the drawn term.
        self.levels = [[]]
        # Guards are constants: they are known before the first line is put.
        often = 0 if script.shape == "many names" else 0.2
        waiting = [(it, self.guard() if self.draw.random() < often else None) for it in script.assertions]
        while waiting:
            roll = self.draw.random()
            if roll < 0.15:
                self.levels.append([])
                self.lines.append("(push 1)")
            elif roll < 0.23 and len(self.levels) > 1 and pops < 3:
                pops += 1
                self.lines.append("(pop 1)")
                waiting += [entry[3] for entry in self.levels.pop()]
            elif roll < 0.33 and len(self.questions) < 2:
                self.ask()
            else:
                self.put(*waiting.pop(0))
        self.ask()

    def guard(self):
        self.guards.append(f"b{100 + len(self.guards)}")
        self.script.constants = [*self.script.constants, self.guards[-1]]
        return self.guards[-1]

    def entries(self):
        return [entry for level in self.levels for entry in level]

    def symbols(self):
        """The live names and macros, with what they mean."""
        return {name: meant for _, name, meant, _ in self.entries() if name}

    def meaning(self, term):
        """The term with names and macros put in."""
        symbols = self.symbols()
        put_in = lambda it: list(map(put_in, it)) if isinstance(it, list) else symbols.get(it, it) if isinstance(it, str) else it
        return put_in(term)

    def put(self, drawn, guard):
        """Asserts the term, by itself, behind its guard or behind a symbol, or makes it a macro."""
        roll, symbols = self.draw.random(), list(self.symbols())
        shown = ["=>", guard, drawn] if guard else drawn
        if symbols and self.draw.random() < 0.1:
            shown = [self.draw.choice(["=>", "or", "and"]), self.draw.choice(symbols), shown]
        name = None if roll < 0.3 else f"{'m' if roll < 0.45 else 'n'}{len(symbols)}"
        is_macro, text = 0.3 <= roll < 0.45, show(shown)
        named = f"(assert (! {text} :named {name}))" if name else f"(assert {text})"
        self.lines.append(f"(define-fun {name} () Bool {text})" if is_macro else named)
        self.levels[-1].append((not is_macro, name, self.meaning(shown), (drawn, guard)))

    def ask(self):
        """A check; most guards and macros are assumed, and a few names and constants."""
        draw, entries = self.draw, self.entries()
        often = [*self.guards, *(name for is_asserted, name, _, _ in entries if not is_asserted)]
        seldom = [*(name for is_asserted, name, _, _ in entries if is_asserted and name), *(it for it in self.script.constants if it[0] == "b" and it not in self.guards)]
        picked = [it for it in often if draw.random() < 0.9] + [it for it in seldom if draw.random() < 0.06]
        draw.shuffle(picked)
        assumed = [it if draw.random() < 0.9 else ["not", it] for it in picked]
        asked = [(name, meant) for is_asserted, name, meant, _ in entries if is_asserted]
        symbols = {name: meant for name, meant in self.symbols().items() if name in picked or (name, meant) in asked}
        self.questions.append(self.script.asking(asked + [(None, self.meaning(it)) for it in assumed], symbols))
        is_plain = not assumed and draw.random() < 0.7
        self.lines += self.questions[-1].check("(check-sat)" if is_plain else f"(check-sat-assuming {show(assumed)})")


def model(reply):
    """The values that are told, or None where the reply has none."""
    values = {}
    for pair in reply:
        if not isinstance(pair, list) or isinstance(pair[1], list) and pair[1][0] != "-":
            return None
        told = -pair[1][1] if isinstance(pair[1], list) else pair[1]
        values[pair[0]] = {"true": True, "false": False}.get(told, told) if isinstance(told, str) else told
    return values


def answer(verdict, values=None, core=None, cause=None):
    """A verdict, the values of a `sat` or what is told of an `unknown`, and what `get-unsat-core` answered."""
    if verdict == "unknown":
        told = cause[-1] if isinstance(cause, list) else None
        return verdict, told[-1] if isinstance(told, list) else told, core
    if verdict != "sat":
        return verdict if isinstance(verdict, str) else show(verdict), None, core
    values = model(values) if isinstance(values, list) else None
    return ("sat without values" if values is None else verdict), values, core


def ask(command, text, seconds=20):
    """The answers to the checks, each of which has four lines, as far as they came."""
    try:
        ran, is_late = subprocess.run(command, input=text, capture_output=True, text=True, timeout=seconds).stdout, False
    except subprocess.TimeoutExpired as late:
        ran, is_late = (late.stdout or b"").decode(), True
    replies = read(ran)
    if is_late:
        replies.append("timeout")
    return [answer(*replies[at : at + 4]) for at in range(0, len(replies), 4)] or [("", None, None)]


def wrong(script, verdict, values, peer):
    """Why the verdict is wrong, as far as the evaluator and the peer show it, or None."""
    if verdict == "sat":
        if script.is_closed and script.search()[1]:
            return f"no values make every assertion true, nor does its model {values}"
        failed = script.fails(values)
        if failed is not None:
            return f"its model {values} doesn't make {show(failed)} true"
    elif verdict == "unsat":
        return has_values(script, peer)
    elif verdict != "unknown":
        return "it is no verdict"
    return None


def has_values(script, peer):
    """Which values make every assertion true, as far as the evaluator and the peer find some, or None."""
    found, _ = script.search()
    if found is not None:
        return f"{found} makes every assertion true"
    if peer[0] == "sat" and script.fails(peer[1]) is None:
        return f"the peer's {peer[1]} makes every assertion true"
    return None


def wrong_core(script, verdict, core, program, ask_peer):
    """Why the core is wrong, as far as the evaluator, the peer and the program itself show it, or None."""
    if verdict != "unsat":
        return None if isinstance(core, list) and core[:1] == ["error"] else f"the core {core} is of no unsat"
    names = [name for name, _ in script.entries if name]
    if not isinstance(core, list) or core != [name for name in names if name in core]:
        return f"the core {core} isn't a list of live names in order"
    why = has_values(script.keeping(core), ask_peer(script.keeping(core))) if core != names else None
    if why:
        return f"of the core {core} {why}"
    for name in core:
        at = names.index(name)
        rest = [it for it in core if it in names[:at]] + names[at + 1 :]
        if ask(program, script.keeping(rest).flat())[0][0] == "unsat":
            return f"the core {core} has {name}, though the rest is unsat"
    return None


class Tally:
    """Looks at scripts, and counts what came of them."""

    def __init__(self, program, peer):
        self.program, self.peer = program, peer
        self.counts, self.verdicts, self.cores, self.late, self.bad = collections.Counter(), 0, 0, 0, 0

    def ask_peer(self, script):
        return ask(self.peer, script.flat())[0][:2] if self.peer and not script.transducer else ("", None)

    def look_at(self, seed, script):
        questions, answers = script.questions(), ask(self.program, script.commands())
        for at, question in enumerate(questions):
            if at >= len(answers) and "timeout" in answers[-1]:
                break
            verdict, values, core = answers[at] if at < len(answers) else ("", None, None)
            why = self.look(question, verdict, values, core)
            if core == "timeout":
                print(f"; seed {seed}, check {at + 1}: {verdict}, but no core in time", flush=True)
            if why:
                self.bad += 1
                print(f"; seed {seed}, check {at + 1}: {verdict}, but {why}\n{script.commands()}", flush=True)

    def look(self, script, verdict, values, core):
        """Why the answer to a check is wrong, or None."""
        peer = self.ask_peer(script)
        is_long = verdict == "sat" and any(isinstance(it, tuple) and len(it) > LONGEST for it in values.values())
        told = verdict + " with a long word" * is_long + f", {values}" * (verdict == "unknown")
        self.counts[told, peer[0] if peer[0] in ("", "sat", "unsat") else "other"] += 1
        self.verdicts += 1
        why = None if is_long and not script.is_closed else wrong(script, verdict, values, peer)
        if not why and (verdict, peer[0]) == ("sat", "unsat"):
            print(f"; the peer says unsat, though {values} makes every assertion true:\n{script.flat()}")
        if why or core == "timeout":
            self.late += core == "timeout"
            return why
        self.cores += verdict == "unsat" and any(name for name, _ in script.entries)
        return wrong_core(script, verdict, core, self.program, self.ask_peer)

    def tell(self):
        for (verdict, peer), count in sorted(self.counts.items()):
            print(f"{count} {verdict}" + f", the peer {peer}" * bool(self.peer))
        print(f"{self.cores} cores of named assertions, {self.late} not in time")
        print(f"{self.bad} of {self.verdicts} verdicts are wrong, or their cores")
        return 1 if self.bad else 0


def write(folder, seeds):
    """Writes the scripts of these seeds."""
    folder.mkdir(parents=True, exist_ok=True)
    for seed in seeds:
        (folder / f"{seed:07}.smt2").write_text(Script(seed).commands(), encoding="utf-8")
    return 0


def main():
    words = argparse.ArgumentParser()
    words.add_argument("program", nargs="?")
    words.add_argument("--seed", type=int, default=1)
    words.add_argument("--scripts", type=int, default=1000)
    words.add_argument("--peer")
    words.add_argument("--write", metavar="FOLDER", help="runs nothing, but writes the scripts there, for tools/corpus.sh")
    given = words.parse_args()
    if given.write:
        return write(pathlib.Path(given.write), range(given.seed, given.seed + given.scripts))
    if not given.program:
        words.error("it takes a program, or --write FOLDER")
    tally = Tally([given.program], given.peer.split() if given.peer else None)
    for seed in range(given.seed, given.seed + given.scripts):
        tally.look_at(seed, Script(seed))
    return tally.tell()


if __name__ == "__main__":
    sys.exit(main())
