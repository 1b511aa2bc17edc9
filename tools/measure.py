#!/usr/bin/env python3
"""Measures the built program on scripts of its own: tools/measure.py PROGRAM [WORD]

Prints a table of what each script asks, the processor seconds in user mode (the least of three runs, of one where a
run takes more than ten seconds) and the most memory held. With a WORD, only the rows whose text has it. What is printed
is compared with what must be printed of each script: a row that differs is told, and the script ends with 1.
"""
import os
import resource
import subprocess
import sys
import tempfile

REPLIES_SHOWN = 200


def declare(sort, *names):
    return "".join(f"(declare-const {name} {sort})\n" for name in names)


def claim(term):
    return f"(assert {term})\n"


def length(*names):
    return "(+ 0 " + " ".join(f"(str.len {name})" for name in names) + ")"


def check(*commands):
    return "(check-sat)\n" + "".join(f"{command}\n" for command in commands)


REASON = "(get-info :reason-unknown)"


def memberships(count):
    return "".join(
        declare("String", f"x{n}")
        + claim(f'(str.in_re x{n} (re.+ (re.union (str.to_re "a{n}") (re.range "0" "9"))))')
        for n in range(count)
    )


def nested(text, end, count, closing=")"):
    """The text `count` times, with `#` for the number and `@` for the next one, what stands inside, and what closes."""
    opened = "".join(text.replace("#", str(n)).replace("@", str(n + 1)) for n in range(count))
    return opened + end + closing * count


def doubled_lets(count):
    return declare("Bool", "a0") + claim(nested("(let ((a@ (and a# a#))) ", f"a{count}", count))


def doubled_macros(count):
    names = declare("Bool", "p") + "(define-fun f0 () Bool p)\n"
    return names + "".join(f"(define-fun f{n + 1} () Bool (and f{n} f{n}))\n" for n in range(count))


def chain(count):
    """Definitions in a chain, each a letter longer, between a power of that many letters and the same one letter on."""
    power = f'((_ re.^ {count // 2 - 1}) (str.to_re "a"))'
    names = [f"x{n}" for n in range(count + 1)]
    return (
        declare("String", *names)
        + "".join(claim(f'(= x{n + 1} (str.++ x{n} "a"))') for n in range(count))
        + claim(f"(str.in_re x{count} (re.* {power}))")
        + claim(f'(str.in_re x0 (re.++ (str.to_re "a") (re.* {power})))')
        + check()
    )


def definitions(count):
    """So many definitions, each of one variable by another."""
    return "".join(declare("String", f"x{n}", f"y{n}") + claim(f'(= x{n} (str.++ y{n} "a"))') for n in range(count))


def escapes():
    table = [("&", "&amp;"), ("<", "&lt;"), (">", "&gt;"), ('""', "&quot;"), ("'", "&#39;")]
    names = [f"x{n}" for n in range(len(table) + 1)]
    return (
        declare("String", *names)
        + "".join(claim(f'(= x{n + 1} (str.replace_all x{n} "{old}" "{new}"))') for n, (old, new) in enumerate(table))
        + claim(f'(str.contains x{len(table)} "<script")')
        + check()
    )


def halves(size, odd):
    return (
        declare("String", "x")
        + declare("Int", "n")
        + claim(f'(str.in_re x ((_ re.^ {size}) re.allchar))' if size else "true")
        + claim(f"(= (str.len x) (+ (* 2 n) {odd}))")
        + check()
    )


def two_loops(bound):
    return (
        declare("String", "x", "y")
        + claim(f"(str.in_re x ((_ re.loop 0 {bound}) re.allchar))")
        + claim(f'(str.in_re y (re.++ ((_ re.^ {bound}) re.allchar) re.all))')
        + claim("(> (str.len x) (str.len y))")
        + check()
    )


def coins(total, *lengths):
    """Words that repeat a word of each length, and the total of their lengths."""
    names = [f"x{n}" for n in range(len(lengths))]
    loops = "".join(claim(f'(str.in_re {x} (re.* (str.to_re "{"a" * n}")))') for x, n in zip(names, lengths))
    return declare("String", *names) + loops + claim(f"(= {length(*names)} {total})") + check()


def strip(sign, rows):
    """Between 2n + 2m = 1 and itself, or 2n - 2m, beside a chain of rows that hold."""
    names = [f"u{n}" for n in range(rows)]
    links = zip(["m", *names], names)
    return (
        declare("Int", "n", "m", *names)
        + claim(f"(<= 1 ({sign} (* 2 n) (* 2 m)) 1)")
        + "".join(claim(f"(<= (- {left} {right}) 1)") for left, right in links)
        + check(REASON)
    )


def transport(sources, sinks, least):
    """Sources give what they have, sinks take what they need, and every second way carries so much at least."""
    ways = [(source, sink) for source in range(sources) for sink in range(sinks)]
    name = lambda source, sink: f"w{source}_{sink}"
    script = declare("Int", *[name(*way) for way in ways]) + "".join(claim(f"(<= 0 {name(*way)})") for way in ways)
    for source in range(sources):
        script += claim(f"(<= (+ {' '.join(name(source, sink) for sink in range(sinks))}) {15 * sinks + source})")
    for sink in range(sinks):
        script += claim(f"(>= (+ {' '.join(name(source, sink) for source in range(sources))}) {9 * sources + sink})")
    for at, way in enumerate(ways[::2]):
        script += claim(f"(>= {name(*way)} {least and least + at % 7})")
    return script + check()


def cycle(states, total):
    """Words that go round a cycle, with loops on the way that are two letters long, and their length."""
    step = '(re.++ (re.* (str.to_re "bb")) (str.to_re "a"))'
    return (
        declare("String", "x")
        + declare("Int", "n")
        + claim(f"(str.in_re x (re.* ((_ re.^ {states}) {step})))")
        + claim(f"(= (str.len x) {total})")
        + check()
    )


def rows():
    """What is asked, the script, what must be printed (None: only that it ends), and a limit of the stack in KB."""
    either = lambda count: "".join(
        declare("Bool", f"p{n}", f"q{n}") + claim(f"(or p{n} q{n})") for n in range(count)
    )
    yield "10,000 declarations and memberships, read and checked", memberships(10_000), "", None
    yield "the same and one `check-sat`", memberships(10_000) + check(), "sat\n", None
    yield '1,000,000 times `(echo "a")`, each reply written and flushed', '(echo "a")' * 1_000_000, '"a"\n' * 1_000_000, None
    yield (
        "1,000 String constants and 10,000 times `(check-sat)`",
        declare("String", *[f"x{n}" for n in range(1_000)]) + "(check-sat)" * 10_000,
        "sat\n" * 10_000,
        None,
    )
    yield (
        "10,000 rounds of `push`, `assert` of a membership, `check-sat`, `pop`",
        declare("String", "x") + '(push)(assert (str.in_re x (re.+ (str.to_re "ab"))))(check-sat)(pop)' * 10_000,
        "sat\n" * 10_000,
        None,
    )
    for count, replies in ((4_194_303, "sat\n(((str.len x) 4194303))\n"), (4_194_304, "unknown\n(error \"no model\")\n")):
        script = declare("String", "x") + claim(f"(= (str.len x) {count})") + check("(get-value ((str.len x)))")
        yield f"a word of {count:,} characters, by its length", script, replies, None
    script = declare("String", "x") + claim('(str.in_re x (re.* (str.to_re "ab")))') + claim("(= (str.len x) 1000000)")
    yield "a word of 1,000,000 characters in `(re.* (str.to_re \"ab\"))`, by its length", script + check(), "sat\n", None
    script += declare("String", "y", "z") + claim("(= x (str.++ y z))")
    yield "the same, defined as `(str.++ y z)`", script + check(), "sat\n", None
    yield "21 `let`s in one another that would grow to 2^21 nodes", doubled_lets(21), '(error "size")\n', None
    yield "19 that grow to 2^20 - 1 nodes, asserted", doubled_lets(19), "", None
    yield "18 macros that double, to 524,287 nodes", doubled_macros(18), "", None
    calls = " ".join(["f17"] * 2_000)
    yield "the same, and 2,000 calls in one term, refused", doubled_macros(18) + claim(f"(or {calls})"), '(error "size")\n', None
    yield (
        "the same 18, `check-sat`, and `get-value` of the last one twenty times in one command",
        doubled_macros(18) + check(f"(get-value ({' '.join(['f18'] * 20)}))"),
        None,
        None,
    )
    macro = "(define-fun f ((a Bool)) Bool (not a))\n" + declare("Bool", "p")
    yield "990 calls of a macro in one another, checked, within 1,463 KB of stack", macro + claim(nested("(f ", "p", 990)) + check(), "sat\n", 1463
    for name, most in (("not", 1013), ("forall ((n Int))", 391), ("let ((a p))", 529)):
        count = 990 if name == "not" else 490
        term = nested(f"({name} ", "p", count)
        yield f"{count} `{name}` in one another, checked, within {most:,} KB of stack", declare("Bool", "p") + claim(term) + check(), None, most
    yield "990 `distinct true` in one another, checked", declare("Bool", "p") + claim(nested("(distinct true ", "p", 990)) + check(), "sat\n", None
    barred = lambda form, count: declare("String", "x") + "".join(claim(f"(not {form.replace('#', str(n))})") for n in range(count))
    yield "300 words that may not occur", barred('(str.contains x "q#")', 300) + check(), "sat\n", None
    yield "40 expressions with such words, that no word may be in", barred('(str.in_re x (re.++ re.all (str.to_re "q#") re.all))', 40) + check(), "sat\n", None
    yield "5,000 words that a variable isn't", barred('(= x "a#")', 5_000) + check(), "sat\n", None
    for count, most in ((700, 2048), (3_000, 8192)):
        yield f"{count:,} definitions in one cube, checked, within {most:,} KB of stack", definitions(count) + check(), "sat\n", most
    for name, most in (("re.*", 820), ("re.opt", 820), ("re.comp", 820), ('re.union (str.to_re "b")', 1093), ('re.++ (str.to_re "b")', 1093), ('re.diff (str.to_re "b")', 1093)):
        term = nested(f"({name} ", '(str.to_re "a")', 990)
        yield f"990 `{name}` in one another, checked, within {most:,} KB of stack", declare("String", "x") + claim(f"(str.in_re x {term})") + check(), None, most
    yield "the 1,048,576 cubes of twenty `(or p q)`, the first of which has values", either(20) + check(), "sat\n", None
    yield "twenty definitions in a chain, each a letter longer, by all cuts of each", chain(20), "unsat\n", None
    yield "five definitions by `str.replace_all` in a chain, which escape, and `<script`", escapes(), "unsat\n", None
    for size in (1_000, 4_000):
        for odd, verdict in ((0, "sat\n"), (1, "unsat\n")):
            yield f"words of {size:,} characters and a length of 2n + {odd}", halves(size, odd), verdict, None
    yield "two loops, `len x` at most 1,000 and `len y` at least that, `len x > len y`", two_loops(1_000), "unsat\n", None
    for lengths, totals in (
        ((31, 41, 53), (379, 380)),
        ((61, 67, 71, 73), (807, 808)),
        ((97, 101, 103), (3_300, 3_301)),
        ((61, 67, 71, 73, 79, 83), (502, 503)),
        ((97, 101, 103, 107, 109), (950,)),
        ((83, 89, 97, 101, 103), (935, 936)),
        ((83, 89, 97, 101, 103, 107), (769, 770)),
    ):
        for total in totals:
            reached = {0}
            for n in lengths:
                reached |= {at + n * k for at in reached for k in range((total - at) // n + 1)}
            verdict = "sat\n" if total in reached else "unsat\n"
            yield f"words that repeat one of {', '.join(map(str, lengths))} letters each, {total:,} in all: {verdict.strip()}", coins(total, *lengths), verdict, None
    branches = "unknown\n(:reason-unknown (cube 0 branches))\n"
    yield "the strip between 2n + 2m = 1 and itself, given up after 2,000 splits", strip("+", 0), branches, None
    yield "the strip between 2n - 2m = 1 and itself", strip("-", 0), None, None
    for sign, shown in (("+", "2n + 2m"), ("-", "2n - 2m")):
        yield f"that of {shown} beside 60 rows along a chain from m", strip(sign, 60), None, None
    yield "7 sources, 9 sinks, 63 ways, of which every second carries 11 to 17 at least", transport(7, 9, 11), "sat\n", None
    yield "the same, where they carry 0 at least", transport(7, 9, 0), "sat\n", None
    for states, total in ((64, 8_191), (300, 5_998), (3_000, 3_001), (3_000, 5_998)):
        reached = total % 2 == 0 and total >= states
        yield f"a cycle of {states:,} states with loops of two letters, a length of {total:,}", cycle(states, total), "sat\n" if reached else "unsat\n", None


def run(program, file, stack):
    """What was printed, the processor seconds in user mode, and the kilobytes held at most."""

    def limit():
        if stack:
            resource.setrlimit(resource.RLIMIT_STACK, (stack * 1024, resource.RLIM_INFINITY))

    with tempfile.TemporaryFile() as out, open(file, "rb") as script:
        child = subprocess.Popen([program], stdin=script, stdout=out, preexec_fn=limit)
        _, status, used = os.wait4(child.pid, 0)
        child.returncode = os.waitstatus_to_exitcode(status)
        out.seek(0)
        return out.read().decode(), child.returncode, used.ru_utime, used.ru_maxrss


def main():
    program, word, wrong = sys.argv[1], (sys.argv[2:] or [""])[0], 0
    # What this script holds when it starts a program counts as held by the program.
    _, _, _, least = run("true", os.devnull, None)
    print("| Script | Seconds | MB |\n|---|---|---|")
    for what, script, replies, stack in rows():
        if word not in what:
            continue
        with tempfile.NamedTemporaryFile("w", suffix=".smt2") as file:
            file.write(script)
            file.flush()
            told, status, seconds, memory = run(program, file.name, stack)
            for _ in range(2 if seconds < 10 else 0):
                _, _, again, _ = run(program, file.name, stack)
                seconds = min(seconds, again)
        held = f"{memory / 1000:.0f}" if memory > least else f"at most {least / 1000:.0f}"
        print(f"| {what} | {seconds:.2f} | {held} |", flush=True)
        if status not in (0, 1) or (replies is not None and told != replies):
            wrong += 1
            print(f"wrong: {what}: status {status}, {told[:REPLIES_SHOWN]!r}", file=sys.stderr)
    return 1 if wrong else 0


if __name__ == "__main__":
    sys.exit(main())
