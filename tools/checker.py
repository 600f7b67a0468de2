#!/usr/bin/env python3
"""Reads a whole case file, records and sheet, and tells how much there is or where the first fault is.

    tools/checker.py < FILE.case

The records are those of tools/splitter.py. Each row and each edge is a call on a sheet, by the rules below, which are
those of docs/RULES.md; it shares nothing with the program. A call that the sheet refuses is a fault of layer 3: its
cause is the number of the refusal, its place is the mark of the record.

    1  a thread or an event that the call names does not exist
    2  the sheet has 16 threads, or 64 events
    3  a field of a thread or an event breaks a rule
    4  the two events cannot carry an edge of this sort
    5  the source and the read have different values
    6  the edge is there already, or its opposite (order), or another source of the read (read-from)
"""

import collections
import struct
import sys

sys.dont_write_bytecode = True

import splitter

READ, WRITE, FENCE, PROXY_FENCE = range(4)
WEAK, RELAXED, ACQUIRE, RELEASE, ACQUIRE_RELEASE, SEQUENTIAL = range(6)
THREAD, BLOCK, DEVICE, SYSTEM = range(4)
GENERIC, CONSTANT, TEXTURE, SURFACE = range(4)

MOST_THREADS = 16
MOST_EVENTS = 64
LAST_BLOCK = 15
LAST_DEVICE = 3

WIDE = (BLOCK, DEVICE, SYSTEM)

# kind, and the grades, scopes and proxies that go together with it
TABLE = [
    (READ, (WEAK,), (THREAD,), (GENERIC, CONSTANT, TEXTURE, SURFACE)),
    (READ, (RELAXED, ACQUIRE), WIDE, (GENERIC,)),
    (WRITE, (WEAK,), (THREAD,), (GENERIC, SURFACE)),
    (WRITE, (RELAXED, RELEASE), WIDE, (GENERIC,)),
    (FENCE, (ACQUIRE, RELEASE, ACQUIRE_RELEASE, SEQUENTIAL), WIDE, (GENERIC,)),
    (PROXY_FENCE, (WEAK,), (THREAD,), (CONSTANT, TEXTURE, SURFACE)),
]

GOOD = [
    (kind, grade, scope, proxy)
    for kind, grades, scopes, proxies in TABLE
    for grade in grades
    for scope in scopes
    for proxy in proxies
]

Thread = collections.namedtuple("Thread", "block device")
Event = collections.namedtuple("Event", "thread kind grade scope proxy address value")


class Refused(Exception):
    def __init__(self, number):
        super().__init__(number)
        self.number = number


def fits(event):
    """Do the fields of the event, other than its thread, go together?"""
    if (event.kind, event.grade, event.scope, event.proxy) not in GOOD:
        return False
    return event.kind in (READ, WRITE) or (event.address == 0 and event.value == 0)


def is_sequential_fence(event):
    return event.kind == FENCE and event.grade == SEQUENTIAL


class Sheet:
    """One candidate execution. A refused call raises its number and leaves the sheet as it was.

    An edge is a pair of event numbers. Whoever makes the calls sees to it that no row comes after an edge.
    """

    def __init__(self):
        self.threads = []
        self.events = []
        self.sources = set()  # write, read
        self.orders = set()  # first, second
        self.atomics = set()  # read, write
        self.depends = set()  # read, later event

    def thread(self, block, device):
        if len(self.threads) == MOST_THREADS:
            raise Refused(2)
        if block > LAST_BLOCK or device > LAST_DEVICE:
            raise Refused(3)
        if any(other.block == block and other.device != device for other in self.threads):
            raise Refused(3)
        self.threads.append(Thread(block, device))
        return len(self.threads) - 1

    def event(self, thread, kind, grade, scope, proxy, address, value):
        if thread >= len(self.threads):
            raise Refused(1)
        if len(self.events) == MOST_EVENTS:
            raise Refused(2)
        event = Event(thread, kind, grade, scope, proxy, address, value)
        if not fits(event):
            raise Refused(3)
        self.events.append(event)
        return len(self.events) - 1

    def named(self, first, second):
        """The two events with these numbers."""
        if first >= len(self.events) or second >= len(self.events):
            raise Refused(1)
        return self.events[first], self.events[second]

    def next_of_thread(self, number):
        """The number of the next event of the same thread, or None."""
        for later in range(number + 1, len(self.events)):
            if self.events[later].thread == self.events[number].thread:
                return later
        return None

    def read_from(self, write, read):
        source, reader = self.named(write, read)
        if source.kind != WRITE or reader.kind != READ or source.address != reader.address:
            raise Refused(4)
        if source.value != reader.value:
            raise Refused(5)
        if any(taken == read for _, taken in self.sources):
            raise Refused(6)
        self.sources.add((write, read))

    def order(self, first, second):
        one, other = self.named(first, second)
        writes = one.kind == WRITE and other.kind == WRITE and one.address == other.address
        fences = is_sequential_fence(one) and is_sequential_fence(other)
        if first == second or not (writes or fences):
            raise Refused(4)
        if (first, second) in self.orders or (second, first) in self.orders:
            raise Refused(6)
        self.orders.add((first, second))

    def atomic(self, read, write):
        one, other = self.named(read, write)
        if one.kind != READ or other.kind != WRITE:
            raise Refused(4)
        if self.next_of_thread(read) != write:
            raise Refused(4)
        if one.address != other.address or one.scope != other.scope:
            raise Refused(4)
        if one.proxy != GENERIC or other.proxy != GENERIC:
            raise Refused(4)
        if (read, write) in self.atomics:
            raise Refused(6)
        self.atomics.add((read, write))

    def depend(self, read, later):
        one, other = self.named(read, later)
        if one.kind != READ or one.thread != other.thread or later <= read:
            raise Refused(4)
        if (read, later) in self.depends:
            raise Refused(6)
        self.depends.add((read, later))


# Records.

EVENT_BODY = struct.Struct("<5BHI")

EDGE_CALLS = {b"RF": Sheet.read_from, b"OR": Sheet.order, b"AT": Sheet.atomic, b"DE": Sheet.depend}


def thread_record(block, device):
    return b"TH" + bytes([block, device])


def event_record(thread, kind, grade, scope, proxy, address, value):
    return b"EV" + EVENT_BODY.pack(thread, kind, grade, scope, proxy, address, value)


def edge_record(mark, first, second):
    return mark + bytes([first, second])


def call(sheet, mark, body):
    """Makes the call of a record. Questions and EN leave the sheet as it is."""
    if mark == b"TH":
        sheet.thread(*body)
    elif mark == b"EV":
        sheet.event(*EVENT_BODY.unpack(body))
    elif mark in EDGE_CALLS:
        EDGE_CALLS[mark](sheet, *body)


def steps(data, sheet):
    """Yields the mark and the body of each record when its call has been made; raises the first fault."""
    place = 0
    for mark, body in splitter.records(data):
        try:
            call(sheet, mark, body)
        except Refused as refused:
            raise splitter.Fault(3, refused.number, place) from None
        yield mark, body
        place += 2 + len(body)


def read(data):
    """The sheet of a file without a fault, as it is at the end."""
    sheet = Sheet()
    for _ in steps(data, sheet):
        pass
    return sheet


def write(sheet):
    """The file of a sheet."""
    records = [thread_record(*thread) for thread in sheet.threads]
    records += [event_record(*event) for event in sheet.events]
    sorts = [(b"RF", sheet.sources), (b"AT", sheet.atomics), (b"DE", sheet.depends), (b"OR", sheet.orders)]
    for mark, pairs in sorts:
        records += [edge_record(mark, first, second) for first, second in sorted(pairs)]
    return b"".join(records) + b"EN"


def line(data):
    """What is printed of the file."""
    sheet = Sheet()
    try:
        marks = [mark for mark, _ in steps(data, sheet)]
    except splitter.Fault as fault:
        return str(fault)
    edges = len(sheet.sources) + len(sheet.orders) + len(sheet.atomics) + len(sheet.depends)
    threads, events, questions = len(sheet.threads), len(sheet.events), marks.count(b"QU")
    return f"records {len(marks)} threads {threads} events {events} edges {edges} questions {questions}"


if __name__ == "__main__":
    print(line(sys.stdin.buffer.read()))
