#!/usr/bin/env python3
"""Writes the input and the expected output of the program crate `axiom_cases`.

    tools/axiom_cases.py

The input is the sheets of cases/, the sheets of tools/litmus.py that are made by hand, and litmus shapes and random
sheets, each as a case file behind its length in two bytes, low byte first. The output has, for each sheet, model and
axiom, the rows of the axiom's relation under the order edges of the sheet; it is what tools/models.py says.
"""

import glob
import os
import random
import sys

sys.dont_write_bytecode = True

import checker
import litmus
import models

ROOT = os.path.dirname(os.path.dirname(os.path.abspath(__file__)))
CRATE = os.path.join(ROOT, "crates", "axiom_cases")
SHAPED, SHAPED_SEED = 240, 21
SMALL, SMALL_SEED = 160, 22
LARGE, LARGE_SEED = 60, 23
LARGEST, LARGEST_SEED = 2, 24
MOST_SHAPED_EVENTS = 8


def case_files():
    for path in sorted(glob.glob(os.path.join(ROOT, "cases", "*.case"))):
        with open(path, "rb") as file:
            yield file.read()


def ordered(rng, sheet):
    """The sheet, mostly with some order edges of open pairs, so that the relations are not all without coherence."""
    choice = rng.randrange(3)
    pairs = models.open_pairs(sheet, models.model_of(sheet, 2 if choice == 1 else 0))
    for first, second in pairs:
        if choice and rng.randrange(4):
            sheet.order(*rng.choice([(first, second), (second, first)]))
    return sheet


def wide_sheet(rng):
    """A sheet with the most threads and the most events, of many addresses."""
    draft = litmus.Draft()
    for thread in range(checker.MOST_THREADS):
        draft.thread(thread // 2, thread // 8)
    while len(draft.events) < checker.MOST_EVENTS:
        thread = len(draft.events) % checker.MOST_THREADS
        litmus.random_event(rng, draft, thread, range(20))
    litmus.random_edges(rng, draft)
    return draft.sheet(rng)


def sheets():
    rng = random.Random(SHAPED_SEED)
    for _, sheet, _ in litmus.by_hand():
        yield sheet
    for sheet in litmus.sheets(SHAPED, SHAPED_SEED, litmus.SHAPES):
        if len(sheet.events) <= MOST_SHAPED_EVENTS:
            yield ordered(rng, sheet)
    for sheet in litmus.sheets(SMALL, SMALL_SEED, [(litmus.small_random, 1)]):
        yield ordered(rng, sheet)
    for sheet in litmus.sheets(LARGE, LARGE_SEED, [(litmus.middle_random, 1), (litmus.large_random, 1)]):
        yield ordered(rng, sheet)
    rng = random.Random(LARGEST_SEED)
    yield wide_sheet(rng)
    for _ in range(LARGEST):
        yield litmus.random_draft(rng, checker.MOST_EVENTS).sheet(rng)


def files():
    yield from case_files()
    for sheet in sheets():
        yield checker.write(sheet)


def lines(data):
    sheet = checker.read(data)
    for number in models.NUMBERS:
        model = models.model_of(sheet, number)
        for axiom in model.axioms():
            yield f"{number} {axiom} {models.rows(model.relation(axiom, set(sheet.orders)))}".rstrip()


def main():
    every = list(files())
    with open(os.path.join(CRATE, "stdin"), "wb") as out:
        for data in every:
            out.write(len(data).to_bytes(2, "little") + data)
    with open(os.path.join(CRATE, "stdout"), "w", encoding="ascii") as out:
        for place, data in enumerate(every):
            out.write(f"sheet {place}\n")
            for line in lines(data):
                out.write(line + "\n")


main()
