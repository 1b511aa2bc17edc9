#!/usr/bin/env python3
"""Draws generated scripts by itself, and compares how their checks come out: tools/generated.py PROGRAM

Prints each seed for which the built program's summary is another one, and ends with 1 if there is one. The first eight
blocks of seed 1, which a test in term_tests holds, were drawn by `blocks`.
"""
import random
import subprocess
import sys


def blocks(seed, size):
    """The shape and the number of each block."""
    last = seed % 65537
    for _ in range(size):
        first = (75 * last + 74) % 65537
        last = (75 * first + 74) % 65537
        yield first % 4, last % 50 + 1


def is_sat(shape, number):
    """A power of its own length always has values, a word twice where the length is even, and the others never."""
    return shape == 0 or (shape == 2 and number % 2 == 0)


def summary(seed, size):
    sat = sum(is_sat(shape, number) for shape, number in blocks(seed, size))
    return f"generated {size} sat {sat} unsat {size - sat} unknown 0\n"


def main():
    random.seed(1)
    seeds = [0, 1, 2, 65535, 65536, 65537, 2**64 - 1, *(random.randrange(2**64) for _ in range(13))]
    wrong = 0
    for seed, size in [*((seed, 1_000) for seed in seeds), (1, 100_000)]:
        words = [sys.argv[1], "--generate", str(seed), "--size", str(size)]
        told = subprocess.run(words, capture_output=True, text=True).stdout
        if told != summary(seed, size):
            wrong += 1
            print(f"seed {seed}, {size} blocks: {told!r} for {summary(seed, size)!r}")
    print(f"{wrong} of {len(seeds) + 1} scripts differ")
    return 1 if wrong else 0


sys.exit(main())
