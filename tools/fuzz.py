#!/usr/bin/env python3
"""Runs the program `verdict` on random and damaged case files and compares what it prints with tools/checker.py.

    tools/fuzz.py [COUNT] [SEED] [--framing] [--program WORD ...]

COUNT files (3000 if left out) are made from SEED (1 if left out), each is the input of the program that ./run builds, which
is built first where it is not there or older than its sources, or of the program that the words after --program call. With
--framing no file is made for the sake of its sheet, and the lines are compared with tools/splitter.py, which knows no sheet.
The status is 1 if a line differs, the program ends with a status other than 0 or by a signal, or runs for more than 5 seconds.
"""

import argparse
import itertools
import os
import random
import subprocess
import sys

sys.dont_write_bytecode = True

import checker
import splitter

ROOT = os.path.dirname(os.path.dirname(os.path.abspath(__file__)))
PROGRAM = os.path.join(ROOT, "crates", "verdict", "out", "verdict")
SECONDS = 5
SHOWN = 10

MARKS = sorted(splitter.BODY)
AFTER_ROWS = [b"RF", b"OR", b"AT", b"DE", b"QU"]

# Well-formed files. A file is made as the list of its records.


def blob(rng, size):
    return bytes(rng.randrange(256) for _ in range(size))


def question(rng):
    asked = rng.randrange(2)
    completion = rng.randrange(4096) if asked == 1 else 0
    return bytes([rng.choice(splitter.MODELS), asked]) + completion.to_bytes(2, "little")


def record(rng, mark):
    return mark + (question(rng) if mark == b"QU" else blob(rng, splitter.BODY[mark]))


def any_records(rng, most=12):
    """The records of a file that is well formed; the rows and edges have any bytes."""
    rows = [record(rng, rng.choice(splitter.ROWS)) for _ in range(rng.randrange(most))]
    rest = [record(rng, rng.choice(AFTER_ROWS)) for _ in range(rng.randrange(most))]
    return rows + rest + [b"EN"]


# Sheets.

ADDRESSES = [0, 0, 0, 1, 1, 256, 65535]
VALUES = [0, 0, 1, 1, 2, 256, 0x01000000, 0xFFFFFFFF]
KINDS = [checker.READ] * 4 + [checker.WRITE] * 4 + [checker.FENCE] * 2 + [checker.PROXY_FENCE]


def some_thread(rng):
    """A thread that is good while the sheet has room: the block tells the device."""
    block = rng.randrange(rng.choice([1, 3, 16]))
    return checker.thread_record(block, block % 4)


def some_event(rng, threads):
    """A good event of one of the threads."""
    kind = rng.choice(KINDS)
    fields = rng.choice([good for good in checker.GOOD if good[0] == kind])
    if kind in (checker.READ, checker.WRITE):
        return checker.event_record(rng.randrange(threads), *fields, rng.choice(ADDRESSES), rng.choice(VALUES))
    return checker.event_record(rng.randrange(threads), *fields, 0, 0)


def partner(rng, event):
    """A write that can be one step with the read `event`, or an event near to such a write."""
    grades = [checker.WEAK] if event.scope == checker.THREAD else [checker.RELAXED, checker.RELEASE]
    grade, scope = rng.choice(grades), event.scope
    if rng.randrange(6) == 0:
        scope = rng.choice(checker.WIDE)
        grade = checker.RELAXED
    return checker.event_record(
        event.thread, checker.WRITE, grade, scope, checker.GENERIC, event.address, rng.choice(VALUES))


def sheet_rows(rng, threads, events):
    """A sheet with so many threads and events, and its records."""
    sheet = checker.Sheet()
    rows = []
    while len(sheet.threads) < threads or len(sheet.events) < events:
        left_threads, left_events = threads - len(sheet.threads), events - len(sheet.events)
        if left_threads > 0 and (not sheet.threads or rng.randrange(left_threads + left_events) < left_threads):
            row = some_thread(rng)
        elif sheet.events and sheet.events[-1].kind == checker.READ and rng.randrange(3) == 0:
            row = partner(rng, sheet.events[-1])
        else:
            row = some_event(rng, len(sheet.threads))
        checker.call(sheet, row[:2], row[2:])
        rows.append(row)
    return sheet, rows


def carriers(sheet):
    """The edges that a sheet without edges accepts, by mark."""
    bare = checker.Sheet()
    bare.threads, bare.events = sheet.threads, sheet.events
    found = {}
    for mark in checker.EDGE_CALLS:
        found[mark] = []
        for first, second in itertools.product(range(len(sheet.events)), repeat=2):
            edge = checker.edge_record(mark, first, second)
            if accepts(bare, edge):
                found[mark].append(edge)
                bare.sources, bare.orders, bare.atomics, bare.depends = set(), set(), set(), set()
    return found


def accepts(sheet, made):
    """Makes the call of a record, if the sheet does not refuse it."""
    try:
        checker.call(sheet, made[:2], made[2:])
    except checker.Refused:
        return False
    return True


def sheet_edges(rng, sheet, most):
    """At most so many good edges, with questions between them."""
    edges = []
    offered = [found for found in carriers(sheet).values() if found]
    for _ in range(rng.randrange(most + 1) if offered else 0):
        edge = rng.choice(rng.choice(offered))
        if accepts(sheet, edge):
            edges.append(edge)
    for _ in range(rng.choice([0, 0, 1, 3])):
        edges.insert(rng.randrange(len(edges) + 1), record(rng, b"QU"))
    return edges


def sheet_records(rng, threads=4, events=10, edges=16):
    """The records of a file without a fault, of a sheet with at most so many threads, events and edges."""
    threads = rng.randrange(threads + 1)
    sheet, rows = sheet_rows(rng, threads, rng.randrange(events + 1) if threads else 0)
    return rows + sheet_edges(rng, sheet, edges) + [b"EN"]


# Each maker of files takes a source of randomness and a maker of the records of a well-formed file.


def well_formed(rng, whole):
    return b"".join(whole(rng))


# Damaged files.


def cut_anywhere(rng, whole):
    data = well_formed(rng, whole)
    return data[:rng.randrange(len(data) + 1)]


def cut_at_a_record(rng, whole):
    """Ends between two records, or one byte to either side, or after a mark."""
    parts = whole(rng)
    kept = rng.randrange(len(parts) + 1)
    data = b"".join(parts)
    place = len(b"".join(parts[:kept])) + rng.choice([-1, 0, 0, 1, 2, 3])
    return data[:max(place, 0)]


def flipped(rng, whole):
    data = bytearray(well_formed(rng, whole))
    for _ in range(rng.choice([1, 1, 2, 5])):
        data[rng.randrange(len(data))] ^= rng.choice([1, 2, 32, 128, rng.randrange(256)])
    return bytes(data)


def inserted(rng, whole):
    data = well_formed(rng, whole)
    place = rng.randrange(len(data) + 1)
    return data[:place] + blob(rng, rng.choice([1, 1, 2, 4, 13])) + data[place:]


def deleted(rng, whole):
    data = well_formed(rng, whole)
    place = rng.randrange(len(data))
    return data[:place] + data[place + rng.choice([1, 1, 2, 4]):]


def shuffled_records(rng, whole):
    """Rows may stand after edges, and EN anywhere."""
    parts = whole(rng)
    rng.shuffle(parts)
    return b"".join(parts)


def records_after_the_end(rng, whole):
    return well_formed(rng, whole) + rng.choice([b"E", b"EN", blob(rng, 1), record(rng, rng.choice(MARKS))])


def bad_questions(rng, whole):
    parts = whole(rng)
    body = bytearray(question(rng))
    field = rng.randrange(4)
    body[field] = rng.choice([0, 1, 2, 3, 4, 15, 16, 17, 18, 19, 20, 255, rng.randrange(256)])
    parts.insert(rng.randrange(len(parts)), b"QU" + bytes(body))
    return b"".join(parts)


def random_bytes(rng, _):
    return blob(rng, rng.choice([0, 1, 2, 3, 4, 17, 200]))


def marks_only(rng, _):
    return b"".join(rng.choice(MARKS) for _ in range(rng.randrange(40)))


def letters(rng, _):
    """Bytes that marks are made of."""
    return bytes(rng.choice(b"THEVRFOATDEQUN") for _ in range(rng.randrange(60)))


def lowercase_marks(rng, whole):
    data = well_formed(rng, whole)
    place = rng.randrange(len(data))
    return data[:place] + data[place:place + 2].lower() + data[place + 2:]


# Long files.


def of_length(rng, size):
    """A well-formed file that has `size` bytes, of which there are at least 64."""
    events = 2 * rng.randrange((size - 30) // 26) + size % 2
    left = size - 2 - 13 * events
    questions = left % 4 // 2
    edges = (left - 6 * questions) // 4
    return record(rng, b"EV") * events + record(rng, b"OR") * edges + record(rng, b"QU") * questions + b"EN"


def near_the_limit(rng):
    return splitter.MOST + rng.choice([-4, -3, -2, -1, 0, 0, 0, 1, 2, 3, 4, 1000])


def long_file(rng, _):
    return of_length(rng, near_the_limit(rng))


def longer_than_allowed(rng, whole):
    return well_formed(rng, whole) + bytes(splitter.MOST + rng.randrange(100000))


def cut_long_file(rng, _):
    return of_length(rng, splitter.MOST)[:splitter.MOST - rng.randrange(30)]


# Files for the sake of their sheets.


def small_sheet(rng, _):
    return b"".join(sheet_records(rng))


def large_sheet(rng, _):
    return b"".join(sheet_records(rng, 16, 64, 300))


def written_sheet(rng, _):
    """The edges in the order in which a sheet is written."""
    return checker.write(checker.read(small_sheet(rng, _)))


def first_after_rows(parts):
    return next(place for place, part in enumerate(parts) if part[:2] not in splitter.ROWS)


def with_another_row(rng, parts):
    """One more thread or event, of fields near to good ones."""
    if rng.randrange(3) == 0:
        made = checker.thread_record(rng.randrange(18), rng.randrange(5))
    else:
        fields = [rng.randrange(5), rng.randrange(5), rng.randrange(7), rng.randrange(5), rng.randrange(5)]
        made = checker.event_record(*fields, rng.choice(ADDRESSES), rng.choice(VALUES))
    parts.insert(rng.randrange(first_after_rows(parts) + 1), made)


def events_of(parts):
    return [checker.Event(*checker.EVENT_BODY.unpack(part[2:])) for part in parts if part[:2] == b"EV"]


def with_another_edge(rng, parts):
    """One more edge between any events, or one event that there is not."""
    events = len(events_of(parts))
    mark = rng.choice(splitter.EDGES)
    first, second = rng.randrange(events + 1), rng.randrange(events + 1)
    parts.insert(rng.randrange(first_after_rows(parts), len(parts)), checker.edge_record(mark, first, second))


# The kinds of the first and the second event.
ENDS = {
    b"RF": ([checker.WRITE], [checker.READ]),
    b"OR": ([checker.WRITE, checker.FENCE], [checker.WRITE, checker.FENCE]),
    b"AT": ([checker.READ], [checker.WRITE]),
    b"DE": ([checker.READ], range(4)),
}


def with_a_likely_edge(rng, parts):
    """One more edge, between events of good kinds and mostly of one address."""
    events = events_of(parts)
    mark = rng.choice(splitter.EDGES)
    pairs = [
        (first, second)
        for first, second in itertools.permutations(range(len(events)), 2)
        if events[first].kind in ENDS[mark][0] and events[second].kind in ENDS[mark][1]
    ]
    near = [(first, second) for first, second in pairs if events[first].address == events[second].address]
    if pairs:
        first, second = rng.choice(near if near and rng.randrange(4) else pairs)
        parts.insert(rng.randrange(first_after_rows(parts), len(parts)), checker.edge_record(mark, first, second))


def with_a_changed_byte(rng, parts):
    """One byte of a body is one more or one less, or any."""
    place = rng.randrange(len(parts))
    part = bytearray(parts[place])
    if len(part) > 2:
        byte = rng.randrange(2, len(part))
        part[byte] = rng.choice([part[byte] + 1, part[byte] - 1, rng.randrange(256)]) % 256
    parts[place] = bytes(part)


def with_an_edge_again(rng, parts):
    """The same edge again, or turned, somewhere behind it."""
    edges = [place for place, part in enumerate(parts) if part[:2] in splitter.EDGES]
    if edges:
        place = rng.choice(edges)
        mark, first, second = parts[place][:2], *parts[place][2:]
        again = rng.choice([parts[place], checker.edge_record(mark, second, first)])
        parts.insert(rng.randrange(place + 1, len(parts)), again)


def with_a_record_less(rng, parts):
    """All later threads or events get other numbers."""
    del parts[rng.randrange(len(parts))]


def with_a_record_twice(rng, parts):
    place = rng.randrange(len(parts))
    parts.insert(place, parts[place])


def with_two_records_swapped(rng, parts):
    place, other = rng.randrange(len(parts)), rng.randrange(len(parts))
    parts[place], parts[other] = parts[other], parts[place]


CHANGES = [
    (with_another_row, 3),
    (with_another_edge, 3),
    (with_a_likely_edge, 6),
    (with_a_changed_byte, 4),
    (with_an_edge_again, 3),
    (with_a_record_less, 1),
    (with_a_record_twice, 1),
    (with_two_records_swapped, 1),
]


def nearly_a_sheet(rng, _):
    """A file without a fault with one change, which may do no harm."""
    parts = sheet_records(rng)
    changes, weights = zip(*CHANGES)
    rng.choices(changes, weights)[0](rng, parts)
    return b"".join(parts)


def overfull_sheet(rng, _):
    """One thread or one event more than there is room for, of any or of good fields, perhaps of no thread."""
    if rng.randrange(2):
        sheet, rows = sheet_rows(rng, checker.MOST_THREADS, rng.randrange(4))
        rows.append(rng.choice([some_thread(rng), record(rng, b"TH")]))
    else:
        sheet, rows = sheet_rows(rng, rng.randrange(1, 4), checker.MOST_EVENTS)
        rows.append(rng.choice([some_event(rng, len(sheet.threads)), some_event(rng, 16), record(rng, b"EV")]))
    return b"".join(rows) + rng.choice([b"EN", b"", b"TH"])


def spliced(rng, whole):
    """The first records of one file and the last records of another."""
    front, tail = sheet_records(rng), whole(rng)
    return b"".join(front[:rng.randrange(len(front) + 1)] + tail[rng.randrange(len(tail) + 1):])


def long_sheet(rng, _):
    """A file without a fault but for its length: a sheet and very many questions."""
    size = near_the_limit(rng)
    sheet, rows = sheet_rows(rng, rng.randrange(1, 14), rng.randrange(64))
    rows += [some_event(rng, len(sheet.threads))] * ((size - sum(map(len, rows))) % 2)
    while (size - 2 - sum(map(len, rows))) % 6 != 0:
        rows.append(some_thread(rng))
    left = size - 2 - sum(map(len, rows))
    return b"".join(rows) + record(rng, b"QU") * (left // 6) + b"EN"


FRAMING = [
    (well_formed, 6),
    (cut_anywhere, 5),
    (cut_at_a_record, 6),
    (flipped, 6),
    (inserted, 4),
    (deleted, 4),
    (shuffled_records, 4),
    (records_after_the_end, 3),
    (bad_questions, 6),
    (random_bytes, 2),
    (marks_only, 2),
    (letters, 2),
    (lowercase_marks, 2),
    (long_file, 3),
    (longer_than_allowed, 1),
    (cut_long_file, 2),
]

SHEETS = [
    (small_sheet, 10),
    (large_sheet, 4),
    (written_sheet, 2),
    (nearly_a_sheet, 40),
    (overfull_sheet, 4),
    (spliced, 8),
    (long_sheet, 2),
]

FIXED = [b"", b"E", b"EN", b"ENE", b"ENEN", b"TH", b"TH\0", b"TH\0\0", b"TH\0\0EN", b"QU", b"QU\1\0\0\0EN", b"\0\0"]


def files(count, seed, framing=False):
    """Pairs of how a file was made and its bytes."""
    for data in FIXED[:count]:
        yield "fixed", data
    rng = random.Random(seed)
    makers, weights = zip(*(FRAMING if framing else FRAMING + SHEETS))
    for _ in range(count - len(FIXED)):
        maker = rng.choices(makers, weights)[0]
        whole = any_records if framing else rng.choice([any_records, sheet_records, sheet_records, sheet_records])
        yield maker.__name__, maker(rng, whole)


# The comparison.


def run(program, data):
    """What the program prints, or what went wrong with it."""
    try:
        done = subprocess.run(program, input=data, stdout=subprocess.PIPE, stderr=subprocess.PIPE, timeout=SECONDS)
    except subprocess.TimeoutExpired:
        return f"(no end within {SECONDS} seconds)"
    if done.returncode != 0:
        return f"(status {done.returncode})"
    return done.stdout.decode("ascii", "replace").removesuffix("\n")


def compare(program, count, seed, framing):
    """How many files agreed, the kinds of lines that were expected, and the differences."""
    agreed = 0
    kinds = {}
    differences = []
    for made, data in files(count, seed, framing):
        expected = splitter.line(data) if framing else checker.line(data)
        words = expected.split()
        kind = " ".join(words[:3]) if words[0] == "fault" else "no fault"
        kinds[kind] = kinds.get(kind, 0) + 1
        found = run(program, data)
        if found == expected:
            agreed += 1
        else:
            differences.append((made, data, expected, found))
    return agreed, kinds, differences


def arguments():
    parser = argparse.ArgumentParser(description="compares verdict with the checker on random and damaged files")
    parser.add_argument("count", nargs="?", type=int, default=3000)
    parser.add_argument("seed", nargs="?", type=int, default=1)
    parser.add_argument("--framing", action="store_true", help="compare with the splitter")
    parser.add_argument("--program", nargs=argparse.REMAINDER, help="compare this program in place of verdict")
    return parser.parse_args()


def built():
    """The words that call the program of ./run, which is built by calling ./run once."""
    subprocess.run([os.path.join(ROOT, "run")], stdout=subprocess.DEVNULL, check=True)
    return [PROGRAM]


def main():
    given = arguments()
    program = given.program or built()
    agreed, kinds, differences = compare(program, given.count, given.seed, given.framing)
    print(f"{agreed} agreed, {len(differences)} differ")
    for kind in sorted(kinds):
        print(f"  {kind}: {kinds[kind]}")
    for made, data, expected, found in differences[:SHOWN]:
        start = data[:60].hex() + (".." if len(data) > 60 else "")
        print(f"{made}, {len(data)} bytes, {start}\n  expected {expected}\n  found    {found}")
    return 1 if differences else 0


if __name__ == "__main__":
    sys.exit(main())
