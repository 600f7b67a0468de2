#!/usr/bin/env python3
"""Splits a case file into its records, and tells how many there are or where the first fault is.

    tools/splitter.py < FILE.case

It shares nothing with the reader of the program: it walks over the bytes by the rules below.

A file is records: rows (TH, EV), then edges and questions (RF, OR, AT, DE, QU), then EN, and nothing after it. The
first record other than TH and EV ends the rows. A fault tells a layer, a cause and a place, which is where the mark of
its record stands:

    1 1  the file ends inside a record, or between records before EN (the place is then the file's length)
    1 2  the file has more than 32768 bytes (the place is 32768)
    2 1  unknown mark
    2 2  TH or EV after the rows
    2 3  bytes after EN (the place is the first of them)
    2 4  a question with a bad field

A mark is judged before the length of its body.
"""

import sys

MOST = 32768

BODY = {b"TH": 2, b"EV": 11, b"RF": 2, b"OR": 2, b"AT": 2, b"DE": 2, b"QU": 4, b"EN": 0}
ROWS = (b"TH", b"EV")
EDGES = (b"RF", b"OR", b"AT", b"DE")
MODELS = (0, 2, 3, 16, 18, 19)


class Fault(Exception):
    def __init__(self, layer, cause, place):
        super().__init__(layer, cause, place)
        self.layer = layer
        self.cause = cause
        self.place = place

    def __str__(self):
        return f"fault {self.layer} {self.cause} {self.place}"


def good_question(body):
    model, asked, completion = body[0], body[1], int.from_bytes(body[2:4], "little")
    return model in MODELS and (asked == 1 or (asked == 0 and completion == 0))


def records(data):
    """Yields the mark and the body of each record; raises the first fault."""
    if len(data) > MOST:
        raise Fault(1, 2, MOST)
    place = 0
    in_rows = True
    while True:
        mark = data[place:place + 2]
        if len(mark) < 2:
            raise Fault(1, 1, place)
        if mark not in BODY:
            raise Fault(2, 1, place)
        if mark in ROWS and not in_rows:
            raise Fault(2, 2, place)
        end = place + 2 + BODY[mark]
        if end > len(data):
            raise Fault(1, 1, place)
        body = data[place + 2:end]
        if mark == b"QU" and not good_question(body):
            raise Fault(2, 4, place)
        yield mark, body
        in_rows = mark in ROWS
        place = end
        if mark == b"EN":
            break
    if place < len(data):
        raise Fault(2, 3, place)


def line(data):
    """What is printed of the file."""
    try:
        marks = [mark for mark, _ in records(data)]
    except Fault as fault:
        return str(fault)
    threads = marks.count(b"TH")
    events = marks.count(b"EV")
    edges = sum(mark in EDGES for mark in marks)
    questions = marks.count(b"QU")
    return f"records {len(marks)} threads {threads} events {events} edges {edges} questions {questions}"


if __name__ == "__main__":
    print(line(sys.stdin.buffer.read()))
