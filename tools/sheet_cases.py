#!/usr/bin/env python3
"""Writes the input and the expected output of the program crate `sheet_cases`.

    tools/sheet_cases.py

The input is small files, each behind its length in two bytes, low byte first; the output is what tools/checker.py says
of each. The first files are made by hand, at the boundary of each rule of the sheet, and each says what the rule asks:
the tool stops if the checker says otherwise. Then follow all combinations of kind, grade, scope and proxy, random
sheets, and damaged files.
"""

import itertools
import os
import random
import sys

sys.dont_write_bytecode = True

import checker
import fuzz
from checker import (
    ACQUIRE, ACQUIRE_RELEASE, BLOCK, CONSTANT, DEVICE, FENCE, GENERIC, PROXY_FENCE, READ, RELAXED, RELEASE, SEQUENTIAL,
    SURFACE, SYSTEM, TEXTURE, THREAD, WEAK, WRITE)

ROOT = os.path.dirname(os.path.dirname(os.path.abspath(__file__)))
CRATE = os.path.join(ROOT, "crates", "sheet_cases")
SHEETS, SHEET_SEED = 400, 11
DAMAGED, DAMAGED_SEED, LONGEST = 600, 12, 400
MOST_BYTES = 200000

KINDS, GRADES, SCOPES, PROXIES = range(4), range(6), range(4), range(4)

# Records.


def th(block=0, device=0):
    return checker.thread_record(block, device)


def ev(kind, grade=WEAK, scope=THREAD, proxy=GENERIC, address=0, value=0, thread=0):
    return checker.event_record(thread, kind, grade, scope, proxy, address, value)


def rd(address=0, value=0, thread=0, grade=WEAK, scope=THREAD, proxy=GENERIC):
    return ev(READ, grade, scope, proxy, address, value, thread)


def wr(address=0, value=0, thread=0, grade=WEAK, scope=THREAD, proxy=GENERIC):
    return ev(WRITE, grade, scope, proxy, address, value, thread)


def fence(grade=SEQUENTIAL, scope=DEVICE, thread=0, address=0, value=0):
    return ev(FENCE, grade, scope, GENERIC, address, value, thread)


def proxy_fence(proxy=CONSTANT, thread=0, address=0, value=0):
    return ev(PROXY_FENCE, WEAK, THREAD, proxy, address, value, thread)


def rf(first, second):
    return checker.edge_record(b"RF", first, second)


def order(first, second):
    return checker.edge_record(b"OR", first, second)


def at(first, second):
    return checker.edge_record(b"AT", first, second)


def de(first, second):
    return checker.edge_record(b"DE", first, second)


SETTLE = b"QU\0\0\0\0"
BAD_QUESTION = b"QU\1\0\0\0"

# Files. `expect` has the line that the rules ask for, or None for any line without a fault.


def accepted(*records):
    return b"".join(records) + b"EN", None


def refused(number, *records):
    """The call of the last record is refused."""
    return b"".join(records) + b"EN", f"fault 3 {number} {len(b''.join(records[:-1]))}"


def broken(expect, *records):
    """The bytes are the whole file."""
    return b"".join(records), expect


def thread_cases():
    yield accepted()
    yield accepted(th())
    for count in (15, 16):
        yield accepted(*[th()] * count)
    yield accepted(*[th(block, block % 4) for block in range(16)])
    yield accepted(*[th(15 - block, 3 - block // 4) for block in range(16)])
    # the 17th, good or not
    yield refused(2, *[th()] * 17)
    yield refused(2, *[th()] * 16, th(16, 0))
    yield refused(2, *[th()] * 16, th(0, 4))
    yield refused(2, *[th()] * 16, th(0, 1))
    yield refused(2, *[th(block) for block in range(16)], th(0))
    yield refused(2, *[th()] * 15, rd(), th(), wr(), th())
    # each field
    for block in range(16):
        yield accepted(th(block, 0))
    for block in (16, 17, 31, 32, 128, 255):
        yield refused(3, th(block, 0))
        yield refused(3, th(), th(block, 0))
    for device in range(4):
        yield accepted(th(15, device))
    for device in (4, 5, 7, 8, 128, 255):
        yield refused(3, th(0, device))
        yield refused(3, th(), th(1, device))
    yield refused(3, th(16, 4))
    yield refused(3, th(255, 255))
    yield refused(3, *[th()] * 15, th(16, 0))
    # the devices of a block
    for first, second in itertools.product(range(4), repeat=2):
        if first == second:
            yield accepted(th(5, first), th(5, second))
        else:
            yield refused(3, th(5, first), th(5, second))
    yield accepted(th(0, 0), th(1, 0), th(2, 1), th(3, 1), th(1, 0), th(2, 1))
    yield refused(3, th(0, 0), th(1, 0), th(2, 1), th(3, 1), th(2, 0))
    yield refused(3, th(0, 0), th(1, 0), th(2, 1), th(3, 1), th(0, 1))
    yield refused(3, th(5, 3), th(5, 4))
    for place in range(15):
        blocks = [th(block, 1) for block in range(15)]
        yield refused(3, *blocks, th(place, 2))
        yield accepted(*blocks, th(place, 1))


def field_of(kind):
    """A good event of the kind, as its fields by name."""
    fields = {"kind": kind, "grade": WEAK, "scope": THREAD, "proxy": GENERIC}
    if kind == FENCE:
        fields.update(grade=SEQUENTIAL, scope=SYSTEM)
    if kind == PROXY_FENCE:
        fields.update(proxy=SURFACE)
    return fields


def event_cases():
    # the thread
    yield refused(1, rd())
    yield refused(1, rd(thread=255))
    for count in (1, 2, 15, 16):
        threads = [th()] * count
        yield accepted(*threads, rd(thread=count - 1))
        yield refused(1, *threads, rd(thread=count))
        yield refused(1, *threads, rd(thread=255))
    yield broken("fault 3 1 4", th(), rd(thread=1), th(), b"EN")
    yield accepted(th(), rd(), th(), rd(thread=1))
    # row 1 before row 3
    yield refused(1, th(), ev(4, thread=1))
    yield refused(1, th(), ev(READ, 6, 4, 4, thread=1))
    yield refused(1, th(), fence(address=1, thread=1))
    # the count of events
    for count in (63, 64):
        yield accepted(th(), *[wr()] * count)
    yield accepted(th(), th(), *[wr(), rd(thread=1)] * 32)
    yield refused(2, th(), *[wr()] * 65)
    yield refused(2, th(), th(), *[wr(), rd(thread=1)] * 32, fence(thread=1))
    # row 1 before row 2, row 2 before row 3
    yield refused(1, th(), *[wr()] * 64, wr(thread=1))
    yield refused(1, th(), *[wr()] * 64, ev(4, thread=1))
    yield refused(2, th(), *[wr()] * 64, ev(4))
    yield refused(2, th(), *[wr()] * 64, fence(value=1))
    yield refused(3, th(), *[wr()] * 63, ev(4))
    # a thread when the events are full
    yield accepted(th(), *[wr()] * 64, th(1))
    # kinds
    for kind in KINDS:
        yield accepted(th(), ev(**field_of(kind)))
    for kind in (4, 5, 8, 128, 255):
        for base in KINDS:
            yield refused(3, th(), ev(**{**field_of(base), "kind": kind}))
    # the grades of each kind, at scope 0 and at scope 1
    grades = {READ: (0, 1, 2), WRITE: (0, 1, 3), FENCE: (2, 3, 4, 5), PROXY_FENCE: (0,)}
    for kind in KINDS:
        for grade in (0, 1, 2, 3, 4, 5, 6, 7, 8, 128, 255):
            for scope in (THREAD, BLOCK):
                made = ev(**{**field_of(kind), "grade": grade, "scope": scope})
                good = grade in grades[kind] and (scope == THREAD) == (grade == WEAK)
                yield accepted(th(), made) if good else refused(3, th(), made)
    # the scopes of each grade
    for kind in KINDS:
        for grade in grades[kind]:
            for scope in (0, 1, 2, 3, 4, 5, 8, 128, 255):
                made = ev(**{**field_of(kind), "grade": grade, "scope": scope})
                good = scope == 0 if grade == WEAK else scope in (1, 2, 3)
                yield accepted(th(), made) if good else refused(3, th(), made)
    # the proxies of each kind, weak and not
    proxies = {READ: (0, 1, 2, 3), WRITE: (0, 3), FENCE: (0,), PROXY_FENCE: (1, 2, 3)}
    for kind in KINDS:
        for proxy in (0, 1, 2, 3, 4, 5, 8, 128, 255):
            made = ev(**{**field_of(kind), "proxy": proxy})
            yield accepted(th(), made) if proxy in proxies[kind] else refused(3, th(), made)
            if kind in (READ, WRITE):
                made = ev(kind, RELAXED, SYSTEM, proxy)
                yield accepted(th(), made) if proxy == GENERIC else refused(3, th(), made)
    # addresses and values
    for address in (0, 1, 255, 256, 32768, 65535):
        for made in (rd(address), wr(address), rd(address, proxy=TEXTURE), wr(address, grade=RELEASE, scope=BLOCK)):
            yield accepted(th(), made)
        for made in (fence(address=address), fence(ACQUIRE, address=address), proxy_fence(address=address)):
            yield accepted(th(), made) if address == 0 else refused(3, th(), made)
    for value in (0, 1, 255, 256, 65536, 1 << 24, 1 << 31, (1 << 32) - 1):
        for made in (rd(0, value), wr(0, value), rd(0, value, proxy=CONSTANT)):
            yield accepted(th(), made)
        for made in (fence(value=value), fence(RELEASE, value=value), proxy_fence(SURFACE, value=value)):
            yield accepted(th(), made) if value == 0 else refused(3, th(), made)
    yield refused(3, th(), fence(address=1, value=1))


def absent_cases():
    """Row 1 of the four edges comes before everything else."""
    for edge in (rf, order, at, de):
        for first, second in ((0, 0), (0, 1), (255, 255)):
            yield refused(1, edge(first, second))
            yield refused(1, th(), edge(first, second))
        for rows in ([th(), wr()], [th(), rd()], [th(), fence()], [th(), wr(), rd(), wr(), rd()]):
            count = len(rows) - 1
            for last in (count, count + 1, 255):
                yield refused(1, *rows, edge(0, last))
                yield refused(1, *rows, edge(last, 0))
                yield refused(1, *rows, edge(last, last))
    # 64 events
    rows = [th(), wr(), rd(), *[wr()] * 61, rd()]
    yield accepted(*rows, rf(0, 63))
    yield refused(1, *rows, rf(0, 64))
    yield refused(1, *rows, rf(64, 63))
    yield accepted(*rows, order(62, 61))
    yield refused(1, *rows, order(64, 61))
    yield refused(1, *rows, order(61, 64))
    yield accepted(*rows, at(1, 2))
    yield refused(1, *rows, at(1, 64))
    yield accepted(*rows, de(1, 63))
    yield refused(1, *rows, de(1, 64))
    yield refused(1, *rows, de(64, 1))


def read_from_cases():
    # any threads, and any order of numbers
    for writer, reader in ((0, 0), (0, 1), (1, 0)):
        yield accepted(th(), th(1), wr(7, 5, writer), rd(7, 5, reader), rf(0, 1))
        yield accepted(th(), th(1), rd(7, 5, reader), wr(7, 5, writer), rf(1, 0))
        yield accepted(th(), th(1), wr(7, 5, writer), fence(), rd(7, 5, reader), rf(0, 2))
    # grades, scopes and proxies may differ
    for proxy in PROXIES:
        yield accepted(th(), wr(7, 5), rd(7, 5, proxy=proxy), rf(0, 1))
        yield accepted(th(), wr(7, 5, proxy=SURFACE), rd(7, 5, proxy=proxy), rf(0, 1))
        yield accepted(th(), wr(7, 5, grade=RELEASE, scope=SYSTEM), rd(7, 5, proxy=proxy), rf(0, 1))
    yield accepted(th(), wr(7, 5, grade=RELEASE, scope=SYSTEM), rd(7, 5, grade=ACQUIRE, scope=BLOCK), rf(0, 1))
    # a source may hold 0
    yield accepted(th(), wr(), rd(), rf(0, 1))
    # kinds
    rows = [th(), wr(), rd(), fence(), proxy_fence(), wr(), rd()]
    writes, reads = (0, 4), (1, 5)
    for first, second in itertools.product(range(6), repeat=2):
        good = first in writes and second in reads
        yield accepted(*rows, rf(first, second)) if good else refused(4, *rows, rf(first, second))
    # addresses
    for one, other in ((0, 1), (1, 0), (0, 256), (256, 0), (255, 65535), (65535, 0), (0x1234, 0x3412)):
        yield refused(4, th(), wr(one, 5), rd(other, 5), rf(0, 1))
        yield accepted(th(), wr(one, 5), rd(one, 5), rf(0, 1))
    # values
    last = (1 << 32) - 1
    for one, other in ((0, 1), (1, 0), (0, 256), (65536, 0), (0, 1 << 24), (1 << 31, 0), (last, 0), (last, last - 1)):
        yield refused(5, th(), wr(7, one), rd(7, other), rf(0, 1))
        yield accepted(th(), wr(7, other), rd(7, other), rf(0, 1))
    # row 4 before row 5
    yield refused(4, th(), wr(7, 5), rd(8, 6), rf(0, 1))
    yield refused(4, th(), rd(7, 5), wr(7, 6), rf(0, 1))
    # a second source
    rows = [th(), wr(7, 5), wr(7, 5), rd(7, 5), rd(7, 5), wr(7, 6), wr(8, 5)]
    yield accepted(*rows, rf(0, 2), rf(0, 3))
    yield accepted(*rows, rf(0, 2), rf(1, 3))
    yield refused(6, *rows, rf(0, 2), rf(0, 2))
    yield refused(6, *rows, rf(0, 2), rf(1, 2))
    yield refused(6, *rows, rf(1, 2), rf(0, 2))
    yield refused(6, *rows, rf(0, 2), rf(1, 3), SETTLE, rf(1, 2))
    # rows 4 and 5 before row 6
    yield refused(5, *rows, rf(0, 2), rf(4, 2))
    yield refused(4, *rows, rf(0, 2), rf(5, 2))
    yield refused(4, *rows, rf(0, 2), rf(2, 0))
    yield refused(4, *rows, rf(0, 2), rf(3, 2))
    yield refused(1, *rows, rf(0, 2), rf(6, 2))
    # many reads of one write
    yield accepted(th(), wr(), *[rd()] * 63, *[rf(0, read) for read in range(1, 64)])


def order_cases():
    yield accepted(th(), wr(), wr(), order(0, 1))
    yield accepted(th(), wr(), wr(), order(1, 0))
    yield accepted(th(), th(1), wr(), wr(thread=1), order(0, 1))
    yield accepted(th(), th(1), wr(), wr(thread=1), order(1, 0))
    # values, grades, scopes and proxies may differ
    yield accepted(th(), wr(7, 1), wr(7, 2), order(0, 1))
    yield accepted(th(), wr(7, 1, proxy=SURFACE), wr(7, 2), order(0, 1))
    yield accepted(th(), wr(7, 1, grade=RELAXED, scope=BLOCK), wr(7, 2, grade=RELEASE, scope=SYSTEM), order(1, 0))
    # one event
    for made in (wr(), rd(), fence(), fence(ACQUIRE), proxy_fence()):
        yield refused(4, th(), made, order(0, 0))
    # addresses
    for one, other in ((0, 1), (0, 256), (65535, 255), (0x1234, 0x3412)):
        yield refused(4, th(), wr(one), wr(other), order(0, 1))
        yield refused(4, th(), wr(one), wr(other), order(1, 0))
    # kinds
    rows = [th(), wr(), rd(), fence(), proxy_fence(), wr(), rd(), fence(), proxy_fence()]
    good = [(0, 4), (4, 0), (2, 6), (6, 2)]
    for pair in itertools.product(range(8), repeat=2):
        yield accepted(*rows, order(*pair)) if pair in good else refused(4, *rows, order(*pair))
    # the grades and scopes of fences
    grades = (ACQUIRE, RELEASE, ACQUIRE_RELEASE, SEQUENTIAL)
    for one, other in itertools.product(grades, repeat=2):
        made = [th(), fence(one), fence(other), order(0, 1)]
        yield accepted(*made) if one == other == SEQUENTIAL else refused(4, *made)
    for one, other in itertools.product((BLOCK, DEVICE, SYSTEM), repeat=2):
        yield accepted(th(), th(1), fence(scope=one), fence(scope=other, thread=1), order(1, 0))
    # given again, and the other way
    for made in (wr(), fence()):
        rows = [th(), th(1), made, made, made]
        for first, second in ((0, 1), (1, 0), (2, 0)):
            yield refused(6, *rows, order(first, second), order(first, second))
            yield refused(6, *rows, order(first, second), order(second, first))
        yield refused(6, *rows, order(0, 1), order(0, 2), SETTLE, order(1, 0))
        yield refused(6, *rows, order(0, 1), order(1, 2), order(0, 2), order(2, 0))
        yield refused(4, *rows, order(0, 1), order(1, 1))
        yield refused(1, *rows, order(0, 1), order(1, 3))
        # cycles over three and more
        yield accepted(*rows, order(0, 1), order(1, 2), order(2, 0))
        yield accepted(*rows, order(2, 0), order(0, 1), order(1, 2))
        yield refused(6, *rows, order(0, 1), order(1, 2), order(2, 0), order(0, 2))
        yield accepted(*rows, made, order(0, 1), order(1, 2), order(2, 3), order(3, 0))
    # every pair of 64 writes, and one of them the other way
    pairs = list(itertools.combinations(range(64), 2))
    yield accepted(th(), *[wr()] * 64, *[order(*pair) for pair in pairs])
    yield refused(6, th(), *[wr()] * 64, *[order(*pair) for pair in pairs], order(63, 62))


def atomic_cases():
    yield accepted(th(), rd(), wr(), at(0, 1))
    # the first of two reads, the second, the second of two writes
    yield refused(4, th(), rd(), rd(), wr(), at(0, 2))
    yield accepted(th(), rd(), rd(), wr(), at(1, 2))
    yield refused(4, th(), rd(), wr(), wr(), at(0, 2))
    yield accepted(th(), rd(), wr(), wr(), at(0, 1))
    # an event between, of the thread or of another
    for made in (rd, wr, fence, proxy_fence):
        yield refused(4, th(), th(1), rd(), made(), wr(), at(0, 2))
        yield accepted(th(), th(1), rd(), made(thread=1), wr(), at(0, 2))
        yield accepted(th(), th(1), made(), rd(), wr(), made(), at(1, 2))
        yield refused(4, th(), th(1), rd(), made(thread=1), made(), wr(), at(0, 3))
        yield refused(4, th(), th(1), rd(), made(), made(thread=1), wr(), at(0, 3))
        yield accepted(th(), th(1), rd(thread=1), made(), made(), wr(thread=1), at(0, 3))
        yield refused(4, th(), th(1), rd(thread=1), made(), made(thread=1), wr(thread=1), at(0, 3))
    yield accepted(th(), th(1), rd(), *[wr(thread=1)] * 62, wr(), at(0, 63))
    yield refused(4, th(), th(1), rd(), *[wr(thread=1)] * 61, rd(), wr(), at(0, 63))
    # threads
    yield refused(4, th(), th(1), rd(), wr(thread=1), at(0, 1))
    yield refused(4, th(), th(), rd(thread=1), wr(), at(0, 1))
    yield refused(4, th(), th(1), rd(), wr(thread=1), wr(), at(0, 1))
    # the write first
    yield refused(4, th(), wr(), rd(), at(0, 1))
    yield refused(4, th(), wr(), rd(), at(1, 0))
    yield refused(4, th(), rd(), wr(), at(1, 0))
    # kinds, with nothing else that could be refused but the proxy of a proxy fence
    for one, other in itertools.product(KINDS, repeat=2):
        for grade, scope in ((WEAK, THREAD), (RELAXED, BLOCK)):
            kinds = [rd(grade=grade, scope=scope), wr(grade=grade, scope=scope), fence(scope=BLOCK), proxy_fence()]
            made = [th(), kinds[one], kinds[other]]
            yield accepted(*made, at(0, 1)) if (one, other) == (READ, WRITE) else refused(4, *made, at(0, 1))
            yield refused(4, *made, at(0, 0))
            yield refused(4, *made, at(1, 0))
    # addresses
    for one, other in ((0, 1), (1, 0), (0, 256), (256, 0), (255, 65535), (0x1234, 0x3412)):
        yield refused(4, th(), rd(one), wr(other), at(0, 1))
        yield accepted(th(), rd(other), wr(other), at(0, 1))
    # scopes, and any grades
    for one, other in itertools.product(SCOPES, repeat=2):
        read_grades = (WEAK,) if one == THREAD else (RELAXED, ACQUIRE)
        write_grades = (WEAK,) if other == THREAD else (RELAXED, RELEASE)
        for read_grade, write_grade in itertools.product(read_grades, write_grades):
            made = [th(), rd(grade=read_grade, scope=one), wr(grade=write_grade, scope=other), at(0, 1)]
            yield accepted(*made) if one == other else refused(4, *made)
    # proxies
    for one, other in itertools.product(PROXIES, (GENERIC, SURFACE)):
        made = [th(), rd(proxy=one), wr(proxy=other), at(0, 1)]
        yield accepted(*made) if one == other == GENERIC else refused(4, *made)
    # values
    yield accepted(th(), rd(7, 1), wr(7, 2), at(0, 1))
    yield accepted(th(), rd(7, 1), wr(7, 1), at(0, 1))
    # given again
    rows = [th(), rd(), wr(), rd(), wr()]
    yield accepted(*rows, at(0, 1), at(2, 3))
    yield accepted(*rows, at(2, 3), at(0, 1))
    yield refused(6, *rows, at(0, 1), at(0, 1))
    yield refused(6, *rows, at(0, 1), at(2, 3), SETTLE, at(0, 1))
    yield refused(4, *rows, at(0, 1), at(0, 3))
    yield refused(4, *rows, at(0, 1), at(1, 0))
    yield refused(4, *rows, at(0, 1), at(2, 1))
    yield refused(1, *rows, at(0, 1), at(0, 4))


def depend_cases():
    # any later event of the thread
    for made in (rd(), wr(), fence(), fence(ACQUIRE, BLOCK), proxy_fence(), rd(9, 9, proxy=TEXTURE)):
        yield accepted(th(), rd(), made, de(0, 1))
        yield accepted(th(), rd(), wr(), fence(), made, de(0, 3))
        yield accepted(th(), rd(proxy=CONSTANT), made, de(0, 1))
        yield accepted(th(), rd(grade=ACQUIRE, scope=SYSTEM), made, de(0, 1))
        # an earlier one, or the read itself
        yield refused(4, th(), made, rd(), de(1, 0))
        yield refused(4, th(), made, rd(), de(1, 1))
        yield refused(4, th(), rd(), made, rd(), de(2, 1))
    # threads
    yield refused(4, th(), th(1), rd(), wr(thread=1), de(0, 1))
    yield refused(4, th(), th(), rd(thread=1), wr(), de(0, 1))
    yield refused(4, th(), th(1), wr(thread=1), rd(), de(1, 0))
    yield accepted(th(), th(1), rd(thread=1), wr(), wr(thread=1), de(0, 2))
    # the first event is no read
    for made in (wr(), fence(), proxy_fence()):
        for other in (rd(), wr(), fence(), proxy_fence()):
            yield refused(4, th(), made, other, de(0, 1))
    # given again
    rows = [th(), rd(), rd(), wr(), fence()]
    yield accepted(*rows, de(0, 1), de(0, 2), de(0, 3), de(1, 2), de(1, 3))
    yield refused(6, *rows, de(0, 1), de(0, 1))
    yield refused(6, *rows, de(0, 3), de(0, 2), SETTLE, de(1, 3), de(0, 3))
    yield refused(4, *rows, de(0, 1), de(1, 0))
    yield refused(1, *rows, de(0, 1), de(0, 4))
    # every pair of 64 reads
    pairs = list(itertools.combinations(range(64), 2))
    yield accepted(th(), *[rd()] * 64, *[de(*pair) for pair in reversed(pairs)])


def mixed_cases():
    """The sorts of edges do not disturb each other, and the first fault in the file counts."""
    rows = [th(), th(1), rd(7, 1), wr(7, 1), rd(7, 1, 1), wr(7, 1, 1), fence(), fence(thread=1)]
    edges = [rf(1, 0), at(0, 1), de(0, 1), order(1, 3), rf(3, 2), at(2, 3), de(2, 3), order(5, 4)]
    yield accepted(*rows, *edges)
    yield accepted(*rows, *reversed(edges))
    yield accepted(*rows, *[part for edge in edges for part in (edge, SETTLE)])
    yield accepted(*rows, SETTLE, *edges)
    for edge in edges:
        yield refused(6, *rows, *edges, edge)
        yield refused(6, *rows, *reversed(edges), SETTLE, edge)
    place = len(b"".join(rows))
    yield broken(f"fault 3 4 {place}", *rows, rf(0, 1))
    yield broken(f"fault 3 4 {place}", *rows, rf(0, 1), b"R")
    yield broken(f"fault 3 4 {place}", *rows, rf(0, 1), th(16))
    yield broken(f"fault 3 4 {place}", *rows, rf(0, 1), BAD_QUESTION)
    yield broken(f"fault 3 4 {place}", *rows, rf(0, 1), rf(1, 200))
    yield broken(f"fault 3 4 {place}", *rows, rf(0, 1), b"EN", b"EN")
    yield broken(f"fault 2 4 {place}", *rows, BAD_QUESTION, rf(0, 1), b"EN")
    yield broken(f"fault 1 1 {place}", *rows, rf(0, 1)[:3])
    yield broken(f"fault 1 1 {place + 4}", *rows, rf(1, 0))
    yield broken(f"fault 2 1 {place}", *rows, rf(0, 1).lower(), b"EN")
    yield broken(f"fault 2 2 {place + 4}", *rows, rf(1, 0), th(16), b"EN")
    yield broken(f"fault 2 2 {place + 4}", *rows, rf(1, 0), rd(thread=9), b"EN")
    yield broken(f"fault 2 2 {place + 4}", *rows, rf(1, 0), b"TH")
    yield broken(f"fault 2 3 {place + 6}", *rows, rf(1, 0), b"EN", rf(0, 1))
    yield broken("fault 3 3 0", th(16), b"EN")
    yield broken("fault 1 1 0", th(16)[:3])
    yield broken("fault 3 3 0", th(16))
    yield broken("fault 3 1 0", rd(), th(16))
    yield broken("fault 1 1 4", th(), ev(4)[:12])
    yield broken("fault 3 3 4", th(), ev(4))
    yield broken("fault 3 3 4", th(), ev(4), b"xx")


def is_good(kind, grade, scope, proxy):
    """The rules of the fields one by one."""
    known = kind < 4 and grade < 6 and scope < 4 and proxy < 4
    grades = [(0, 1, 2), (0, 1, 3), (2, 3, 4, 5), (0,)]
    proxies = [(0, 1, 2, 3), (0, 3), (0,), (1, 2, 3)]
    return (
        known
        and grade in grades[kind]
        and (scope == 0) == (grade == 0)
        and proxy in proxies[kind]
        and (kind > 1 or proxy == 0 or grade == 0)
    )


def combinations():
    """All kinds, grades, scopes and proxies, and of each the first code that there is not."""
    for fields in itertools.product(range(5), range(7), range(5), range(5)):
        yield accepted(th(), ev(*fields)) if is_good(*fields) else refused(3, th(), ev(*fields))


def random_sheets():
    rng = random.Random(SHEET_SEED)
    makers = [fuzz.small_sheet, fuzz.written_sheet] + [fuzz.nearly_a_sheet] * 6 + [fuzz.spliced]
    for _ in range(SHEETS):
        yield rng.choice(makers)(rng, fuzz.sheet_records)


def damaged():
    for _, data in fuzz.files(DAMAGED, DAMAGED_SEED):
        if len(data) < LONGEST:
            yield data


BY_HAND = [
    thread_cases, event_cases, absent_cases, read_from_cases, order_cases, atomic_cases, depend_cases, mixed_cases,
    combinations]


def agrees(found, expect):
    return found == expect if expect else found.startswith("records ")


def main():
    files = []
    for cases in BY_HAND:
        for data, expect in cases():
            found = checker.line(data)
            if not agrees(found, expect):
                sys.exit(f"{cases.__name__}: {data.hex()}: {found}, but the rules ask for {expect or 'no fault'}")
            files.append(data)
    by_hand = len(files)
    files += random_sheets()
    files += damaged()
    size = sum(2 + len(data) for data in files)
    if size > MOST_BYTES:
        sys.exit(f"{size} bytes are too many")
    os.makedirs(CRATE, exist_ok=True)
    with open(os.path.join(CRATE, "stdin"), "wb") as out:
        for data in files:
            out.write(len(data).to_bytes(2, "little") + data)
    with open(os.path.join(CRATE, "stdout"), "w", encoding="ascii") as out:
        for data in files:
            out.write(checker.line(data) + "\n")
    print(f"{len(files)} files, {by_hand} of them by hand, {size} bytes")


main()
