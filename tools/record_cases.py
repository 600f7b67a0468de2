#!/usr/bin/env python3
"""Writes the input and the expected output of the program crate `record_cases`.

    tools/record_cases.py

The input is some hundreds of small files, sound and damaged, each behind its length in two bytes, low byte first; the
output is what tools/splitter.py says of each.
"""

import os
import sys

sys.dont_write_bytecode = True

import fuzz
import splitter

ROOT = os.path.dirname(os.path.dirname(os.path.abspath(__file__)))
CRATE = os.path.join(ROOT, "crates", "record_cases")
COUNT, SEED, LONGEST = 900, 7, 400


def main():
    files = [data for _, data in fuzz.files(COUNT, SEED, framing=True) if len(data) <= LONGEST]
    with open(os.path.join(CRATE, "stdin"), "wb") as out:
        for data in files:
            out.write(len(data).to_bytes(2, "little") + data)
    with open(os.path.join(CRATE, "stdout"), "w", encoding="ascii") as out:
        for data in files:
            out.write(splitter.line(data) + "\n")


main()
