#!/usr/bin/env python3
"""Makes sheets for the models: small ones by hand, litmus shapes with random variation, and random ones.

    tools/litmus.py --coverage [COUNT] [SEED]
    tools/litmus.py [COUNT] [SEED] > FILES

With --coverage it prints how many of COUNT sheets (400 if left out), made from SEED (1 if left out), have a completion
that violates an axiom, for each model and axiom, and how many have one whose lowest violated axiom it is. Without it,
COUNT files are written one after another, each behind its length in two bytes, low byte first; they have questions.

A sheet is one of tools/checker.py. The events of a shape are given thread by thread; their numbers come from a random
interleaving of the threads.
"""

import argparse
import random
import sys

sys.dont_write_bytecode = True

import checker
import fuzz
import models
from checker import (
    ACQUIRE, ACQUIRE_RELEASE, BLOCK, CONSTANT, DEVICE, FENCE, GENERIC, PROXY_FENCE, READ, RELAXED, RELEASE, SEQUENTIAL,
    SURFACE, SYSTEM, TEXTURE, THREAD, WEAK, WRITE)

X, Y, Z = 7, 8, 9
ADDRESSES = [X, Y, Z]

# Drafts.


class Draft:
    """A sheet whose events have no numbers yet; an event is named by its place in the order of the calls."""

    def __init__(self):
        self.threads = []
        self.events = []
        self.edges = []

    def thread(self, block=0, device=0):
        self.threads.append((block, device))
        return len(self.threads) - 1

    def add(self, thread, kind, grade=WEAK, scope=THREAD, proxy=GENERIC, address=0, value=0):
        self.events.append(checker.Event(thread, kind, grade, scope, proxy, address, value))
        return len(self.events) - 1

    def read(self, thread, address, value=0, grade=WEAK, scope=THREAD, proxy=GENERIC, source=None):
        """A read; with a source it has the value of the source."""
        if source is not None:
            value = self.events[source].value
        name = self.add(thread, READ, grade, scope, proxy, address, value)
        if source is not None:
            self.source(source, name)
        return name

    def write(self, thread, address, value=1, grade=WEAK, scope=THREAD, proxy=GENERIC):
        return self.add(thread, WRITE, grade, scope, proxy, address, value)

    def fence(self, thread, grade=SEQUENTIAL, scope=DEVICE):
        return self.add(thread, FENCE, grade, scope)

    def proxy_fence(self, thread, proxy=CONSTANT):
        return self.add(thread, PROXY_FENCE, proxy=proxy)

    def source(self, write, read):
        self.edges.append((checker.Sheet.read_from, write, read))

    def order(self, first, second):
        self.edges.append((checker.Sheet.order, first, second))

    def atomic(self, read, write):
        self.edges.append((checker.Sheet.atomic, read, write))

    def depend(self, read, later):
        self.edges.append((checker.Sheet.depend, read, later))

    def numbering(self, rng):
        """The names in the order of their numbers: as called, or the threads mixed."""
        names = list(range(len(self.events)))
        if rng is None:
            return names
        queues = [[name for name in names if self.events[name].thread == thread] for thread in range(len(self.threads))]
        mixed = []
        queues = [queue for queue in queues if queue]
        while queues:
            queue = rng.choice(queues)
            mixed.append(queue.pop(0))
            queues = [queue for queue in queues if queue]
        return mixed

    def sheet(self, rng=None):
        """The sheet, without the edges that it refuses."""
        sheet = checker.Sheet()
        for block, device in self.threads:
            sheet.thread(block, device)
        number = {}
        for name in self.numbering(rng):
            number[name] = sheet.event(*self.events[name])
        for call, first, second in self.edges:
            try:
                call(sheet, number[first], number[second])
            except checker.Refused:
                pass
        return sheet


def strict(draft):
    """The sheet of a draft made by hand; no edge may be refused."""
    sheet = draft.sheet()
    edges = len(sheet.sources) + len(sheet.orders) + len(sheet.atomics) + len(sheet.depends)
    if edges != len(draft.edges):
        raise ValueError("an edge of a sheet made by hand is refused")
    return sheet


# Sheets made by hand, with questions and the answers that the rules give. A question is ("settle", model),
# ("judge", model, completion), ("open", model), or ("rows", model, axiom) for the relation of an axiom under the order
# edges of the sheet.


def hand_no_chain_of_zero_steps():
    draft = Draft()
    draft.thread()
    draft.write(0, X)
    return draft, [
        (("rows", 2, 4), ""), (("rows", 3, 4), ""), (("settle", 2), "allowed 0"), (("settle", 19), "allowed 0")]


def hand_cause_of_a_message():
    """The write causes the read, and neither causes itself."""
    draft = Draft()
    draft.thread(0)
    draft.thread(1)
    write = draft.write(0, Y, 1, RELEASE, DEVICE)
    draft.read(1, Y, grade=ACQUIRE, scope=DEVICE, source=write)
    return draft, [(("rows", 2, 4), "0:1"), (("rows", 3, 4), "0:1"), (("settle", 2), "allowed 0")]


def hand_observation_before_base():
    draft = Draft()
    draft.thread(0)
    draft.thread(1)
    write = draft.write(0, Y, 1, RELAXED, DEVICE)
    draft.read(1, Y, grade=RELAXED, scope=DEVICE, source=write)
    draft.write(1, Z)
    return draft, [(("rows", 2, 4), "0:2 1:2"), (("rows", 2, 3), "")]


def hand_read_without_source():
    """It is before every write of its address, of each thread and proxy, earlier writes of its own thread included."""
    draft = Draft()
    draft.thread(0)
    draft.thread(1)
    draft.write(0, X, 1)
    draft.write(1, X, 2)
    draft.read(1, X, 0)
    draft.write(0, X, 3, proxy=SURFACE)
    draft.write(0, Y, 1)
    return draft, [
        (("rows", 0, 0), "0:3,4 1:2 2:0,1,3 3:4"),
        (("rows", 16, 0), "0:4 1:2 2:0,1,3"),
        # the read is strong with the write of its own thread only
        (("rows", 2, 1), "0:3 1:2 2:1"),
        (("rows", 3, 1), "1:2 2:1"),
        (("judge", 0, 0), "axiom 0: 1 2"),
    ]


def hand_chain_of_two_orders():
    """The read is before the last write too, by a chain."""
    draft = Draft()
    for block in range(4):
        draft.thread(block)
    first = draft.write(0, X, 1)
    second = draft.write(1, X, 2)
    third = draft.write(2, X, 3)
    draft.read(3, X, source=first)
    draft.order(first, second)
    draft.order(second, third)
    return draft, [
        (("rows", 0, 0), "0:1,3 1:2 3:1,2"),
        (("rows", 2, 5), "0:1 1:2"),
        (("rows", 2, 1), ""),
        (("open", 0), "0-2"),
        (("open", 2), ""),
        (("settle", 0), "allowed 0"),
        # the chain leads back to the source of the read, which is therefore before its own source
        (("judge", 0, 1), "axiom 0: 0 3"),
    ]


def hand_chain_between_atomic():
    """A chain of two order edges leads from the write in between to the atomic write."""
    draft = Draft()
    for block in range(3):
        draft.thread(block)
    read = draft.read(0, X, 0, RELAXED, DEVICE)
    write = draft.write(0, X, 1, RELAXED, DEVICE)
    first = draft.write(1, X, 2, RELAXED, DEVICE)
    middle = draft.write(2, X, 3)
    draft.atomic(read, write)
    draft.order(first, middle)
    draft.order(middle, write)
    return draft, [
        (("rows", 0, 1), "0:1"),
        (("rows", 2, 2), "0:1"),
        (("open", 0), "1-2"),
        (("judge", 0, 0), "axiom 0: 1 2 3"),
        (("judge", 0, 1), "axiom 1: 0 1"),
        (("judge", 2, 1), "axiom 2: 0 1"),
    ]


def hand_write_between_atomic(grade, scope):
    draft = Draft()
    draft.thread(0)
    draft.thread(1)
    read = draft.read(0, X, 0, RELAXED, DEVICE)
    write = draft.write(0, X, 1, RELAXED, DEVICE)
    other = draft.write(1, X, 2, grade, scope)
    draft.atomic(read, write)
    draft.order(other, write)
    return draft


def hand_strong_write_between_atomic():
    return hand_write_between_atomic(RELAXED, DEVICE), [
        (("judge", 0, 0), "axiom 1: 0 1"), (("judge", 2, 0), "axiom 2: 0 1"), (("judge", 19, 0), "axiom 2: 0 1")]


def hand_weak_write_between_atomic():
    return hand_write_between_atomic(WEAK, THREAD), [
        (("judge", 0, 0), "axiom 1: 0 1"), (("judge", 2, 0), "consistent"), (("settle", 3), "allowed 0")]


def hand_coverage_one_way():
    """The scope of the read covers the write, but not the other way round."""
    draft = Draft()
    draft.thread(0)
    draft.thread(1)
    draft.write(0, X, 1)
    flag = draft.write(0, Y, 1, RELEASE, BLOCK)
    draft.read(1, Y, grade=ACQUIRE, scope=SYSTEM, source=flag)
    draft.read(1, X, 0)
    return draft, [(("settle", 2), "allowed 0"), (("rows", 2, 4), "0:1 1:3 2:3 3:1"), (("rows", 2, 1), "")]


def hand_coverage_other_way():
    draft = Draft()
    draft.thread(0)
    draft.thread(1)
    draft.write(0, X, 1)
    flag = draft.write(0, Y, 1, RELEASE, SYSTEM)
    draft.read(1, Y, grade=ACQUIRE, scope=BLOCK, source=flag)
    draft.read(1, X, 0)
    return draft, [(("settle", 2), "allowed 0"), (("rows", 2, 1), "")]


def hand_other_device():
    draft = Draft()
    draft.thread(0, 0)
    draft.thread(1, 1)
    draft.write(0, X, 1)
    flag = draft.write(0, Y, 1, RELEASE, DEVICE)
    draft.read(1, Y, grade=ACQUIRE, scope=DEVICE, source=flag)
    draft.read(1, X, 0)
    return draft, [(("settle", 2), "allowed 0"), (("judge", 16, 0), "axiom 0: 0 1 2 3")]


def constant_message(fence_in_writer, fence_in_reader):
    draft = Draft()
    draft.thread(0)
    draft.thread(1)
    draft.write(0, X, 1)
    if fence_in_writer is not None:
        draft.proxy_fence(0, fence_in_writer)
    flag = draft.write(0, Y, 1, RELEASE, DEVICE)
    draft.read(1, Y, grade=ACQUIRE, scope=DEVICE, source=flag)
    if fence_in_reader is not None:
        draft.proxy_fence(1, fence_in_reader)
    draft.read(1, X, 0, proxy=CONSTANT)
    return draft


def hand_proxy_fence_of_the_block():
    return constant_message(None, CONSTANT), [
        (("judge", 3, 0), "axiom 4: 4"), (("judge", 19, 0), "axiom 4: 4"), (("judge", 2, 0), "axiom 4: 4")]


def hand_proxy_fence_of_another_block():
    return constant_message(CONSTANT, None), [(("settle", 3), "allowed 0"), (("judge", 2, 0), "axiom 4: 4")]


def hand_proxy_fence_of_another_proxy():
    return constant_message(None, TEXTURE), [(("settle", 3), "allowed 0"), (("judge", 2, 0), "axiom 4: 4")]


def surface_message(fenced):
    draft = Draft()
    draft.thread(0)
    draft.thread(1)
    draft.write(0, X, 1, proxy=SURFACE)
    if fenced:
        draft.proxy_fence(0, SURFACE)
    flag = draft.write(0, Y, 1, RELEASE, DEVICE)
    draft.read(1, Y, grade=ACQUIRE, scope=DEVICE, source=flag)
    draft.read(1, X, 0)
    return draft


def hand_start_at_a_proxy_fence():
    """Under the layer the fence is not before the release, and the write is not either."""
    return surface_message(True), [(("judge", 3, 0), "axiom 4: 4"), (("settle", 19), "allowed 0")]


def hand_no_start():
    return surface_message(False), [(("settle", 3), "allowed 0"), (("judge", 2, 0), "axiom 4: 3")]


def landing_elsewhere(block, scope):
    """The landing belongs to another thread than the read."""
    draft = Draft()
    draft.thread(0)
    draft.thread(1)
    draft.thread(block)
    draft.write(0, X, 1)
    flag = draft.write(0, Y, 1, RELEASE, DEVICE)
    draft.read(1, Y, grade=ACQUIRE, scope=DEVICE, source=flag)
    draft.proxy_fence(1, CONSTANT)
    other = draft.write(1, Z, 1, RELEASE, scope)
    draft.read(2, Z, grade=ACQUIRE, scope=scope, source=other)
    draft.read(2, X, 0, proxy=CONSTANT)
    return draft


def hand_landing_in_another_thread():
    return landing_elsewhere(1, BLOCK), [(("judge", 3, 0), "axiom 4: 6")]


def hand_landing_in_another_block():
    return landing_elsewhere(2, DEVICE), [(("settle", 3), "allowed 0"), (("judge", 2, 0), "axiom 4: 6")]


def surface_reader(block):
    draft = Draft()
    draft.thread(0)
    draft.thread(block)
    draft.write(0, X, 1, proxy=SURFACE)
    flag = draft.write(0, Y, 1, RELEASE, DEVICE)
    draft.read(1, Y, grade=ACQUIRE, scope=DEVICE, source=flag)
    draft.read(1, X, 0, proxy=SURFACE)
    return draft


def hand_same_proxy_same_block():
    return surface_reader(0), [(("judge", 3, 0), "axiom 4: 3")]


def hand_same_proxy_other_block():
    return surface_reader(1), [(("settle", 3), "allowed 0"), (("judge", 2, 0), "axiom 4: 3")]


def hand_need_of_two_proxies():
    draft = Draft()
    draft.thread(0)
    draft.write(0, X, 1)
    draft.write(0, X, 2, proxy=SURFACE)
    return draft, [
        (("open", 0), "0-1"), (("open", 2), "0-1"), (("open", 3), ""), (("open", 18), "0-1"), (("open", 19), ""),
        (("judge", 2, 1), "axiom 1: 0 1"), (("judge", 3, 1), "refused 1"), (("settle", 3), "allowed 0")]


def hand_causality_without_coherence():
    draft = Draft()
    draft.thread(0)
    draft.thread(1)
    draft.write(0, X, 1)
    flag = draft.write(0, Y, 1, RELEASE, DEVICE)
    draft.read(1, Y, grade=ACQUIRE, scope=DEVICE, source=flag)
    draft.write(1, X, 2)
    return draft, [(("judge", 2, 0), "axiom 3: 0 3"), (("judge", 19, 0), "axiom 3: 0 3"), (("settle", 0), "allowed 0")]


def hand_causality_with_a_chain():
    """A chain of coherence is enough."""
    draft = Draft()
    for block in range(3):
        draft.thread(block)
    first = draft.write(0, X, 1)
    flag = draft.write(0, Y, 1, RELEASE, DEVICE)
    draft.read(1, Y, grade=ACQUIRE, scope=DEVICE, source=flag)
    last = draft.write(1, X, 2)
    middle = draft.write(2, X, 3)
    draft.order(first, middle)
    draft.order(middle, last)
    return draft, [(("judge", 2, 0), "consistent"), (("rows", 2, 3), "")]


def hand_release_sequence():
    draft = Draft()
    draft.thread(0)
    draft.thread(1)
    draft.write(0, X, 1)
    draft.write(0, Y, 1, RELEASE, DEVICE)
    flag = draft.write(0, Y, 2, RELAXED, DEVICE)
    draft.read(1, Y, grade=ACQUIRE, scope=DEVICE, source=flag)
    draft.read(1, X, 0)
    return draft, [
        (("open", 2), "1-2"), (("judge", 2, 0), "axiom 4: 4"), (("judge", 2, 1), "axiom 1: 1 2"),
        (("judge", 0, 0), "axiom 0: 0 2 3 4"), (("settle", 2), "forbidden")]


def hand_memory_fences():
    draft = Draft()
    draft.thread(0)
    draft.thread(1)
    draft.write(0, X, 1)
    draft.fence(0, RELEASE)
    flag = draft.write(0, Y, 1, RELAXED, DEVICE)
    draft.read(1, Y, grade=RELAXED, scope=DEVICE, source=flag)
    draft.fence(1, ACQUIRE)
    draft.read(1, X, 0)
    return draft, [(("judge", 2, 0), "axiom 4: 5"), (("judge", 19, 0), "axiom 4: 5")]


def hand_store_buffering(scope=DEVICE):
    draft = Draft()
    draft.thread(0)
    draft.thread(1)
    draft.write(0, X, 1)
    draft.fence(0, SEQUENTIAL, scope)
    draft.read(0, Y, 0)
    draft.write(1, Y, 1)
    draft.fence(1, SEQUENTIAL, scope)
    draft.read(1, X, 0)
    return draft, [
        (("open", 0), ""), (("open", 2), "1-4"), (("judge", 2, 0), "axiom 4: 5"), (("judge", 2, 1), "axiom 4: 2"),
        (("settle", 2), "forbidden"), (("judge", 0, 0), "axiom 0: 0 2 3 5")]


def hand_store_buffering_block():
    return hand_store_buffering(BLOCK)[0], [(("open", 2), ""), (("settle", 2), "allowed 0")]


def hand_fence_order_given():
    """An order edge between SC fences that are not strong is part of base."""
    draft = hand_store_buffering(BLOCK)[0]
    draft.order(4, 1)
    return draft, [(("open", 2), ""), (("judge", 2, 0), "axiom 4: 2")]


def hand_view_of_fences():
    """A memory fence before a proxy fence is passed on; a proxy fence before a generic event is not."""
    draft = Draft()
    draft.thread(0)
    draft.fence(0, ACQUIRE_RELEASE)
    draft.proxy_fence(0, CONSTANT)
    draft.write(0, X, 1)
    draft.read(0, X, 0, proxy=CONSTANT)
    draft.fence(0, RELEASE)
    return draft, [(("rows", 16, 0), "0:1,2,4 1:3 2:4 3:2"), (("rows", 0, 0), "0:1,2,3,4 1:2,3,4 2:3,4 3:2,4")]


def hand_proxy_fence_of_another_proxy_in_the_view():
    """A generic event before a proxy fence of any proxy; the fence before an event of another proxy is left out."""
    draft = Draft()
    draft.thread(0)
    draft.write(0, X, 1)
    draft.proxy_fence(0, TEXTURE)
    draft.read(0, X, 0, proxy=CONSTANT)
    return draft, [(("rows", 16, 0), "0:1 2:0"), (("settle", 16), "allowed 0"), (("judge", 0, 0), "axiom 0: 0 2")]


def hand_order_in_a_ring():
    draft = Draft()
    for block in range(3):
        draft.thread(block)
    writes = [draft.write(block, X, 1) for block in range(3)]
    for place in range(3):
        draft.order(writes[place], writes[(place + 1) % 3])
    return draft, [
        (("rows", 2, 5), "0:1 1:2 2:0"), (("judge", 0, 0), "axiom 0: 0 1 2"), (("judge", 2, 0), "axiom 1: 0"),
        (("rows", 2, 1), "0:0 1:1 2:2"), (("rows", 2, 4), "")]


def message_by(sender, receiver):
    """A message whose sender and receiver give the flag, the data being read as before it."""
    draft = Draft()
    draft.thread(0)
    draft.thread(1)
    draft.write(0, X, 1)
    flag = sender(draft)
    receiver(draft, flag)
    draft.read(1, X, 0)
    return draft


def acquire_flag(draft, flag):
    draft.read(1, Y, grade=ACQUIRE, scope=DEVICE, source=flag)


def hand_fence_of_block_scope():
    """The steps in between are strong, but the two ends of the message are not."""
    def sender(draft):
        draft.fence(0, RELEASE, BLOCK)
        return draft.write(0, Y, 1, RELAXED, DEVICE)
    return message_by(sender, acquire_flag), [(("settle", 2), "allowed 0"), (("judge", 0, 0), "axiom 0: 0 2 3 4")]


def hand_acquire_fence_for_release():
    def sender(draft):
        draft.fence(0, ACQUIRE, DEVICE)
        return draft.write(0, Y, 1, RELAXED, DEVICE)
    return message_by(sender, acquire_flag), [(("settle", 2), "allowed 0")]


def hand_release_of_another_address():
    def sender(draft):
        draft.write(0, Z, 1, RELEASE, DEVICE)
        return draft.write(0, Y, 1, RELAXED, DEVICE)
    return message_by(sender, acquire_flag), [(("settle", 2), "allowed 0")]


def release_flag(draft):
    return draft.write(0, Y, 1, RELEASE, DEVICE)


def hand_release_fence_for_acquire():
    def receiver(draft, flag):
        draft.read(1, Y, grade=RELAXED, scope=DEVICE, source=flag)
        draft.fence(1, RELEASE, DEVICE)
    return message_by(release_flag, receiver), [(("settle", 2), "allowed 0")]


def hand_acquire_of_another_address():
    def receiver(draft, flag):
        draft.read(1, Y, grade=RELAXED, scope=DEVICE, source=flag)
        draft.read(1, Z, 0, ACQUIRE, DEVICE)
    return message_by(release_flag, receiver), [(("settle", 2), "allowed 0")]


def hand_acquire_behind_an_earlier_read():
    """The earlier read takes the flag; the acquire read of the same address takes something else."""
    draft = Draft()
    for block in range(3):
        draft.thread(block)
    draft.write(0, X, 1)
    flag = draft.write(0, Y, 1, RELEASE, DEVICE)
    other = draft.write(2, Y, 2, RELAXED, DEVICE)
    draft.read(1, Y, grade=RELAXED, scope=DEVICE, source=flag)
    draft.read(1, Y, grade=ACQUIRE, scope=DEVICE, source=other)
    draft.read(1, X, 0)
    return draft, [
        (("open", 2), "1-2"), (("judge", 2, 0), "axiom 4: 5"), (("judge", 2, 1), "axiom 1: 1 3 4"),
        (("settle", 2), "forbidden")]


def hand_chain_of_observations():
    """Three steps of observation lead from the first write to the last read."""
    draft = Draft()
    for block in range(3):
        draft.thread(block)
    first = draft.write(0, Y, 1, RELAXED, DEVICE)
    read = draft.read(1, Y, grade=RELAXED, scope=DEVICE, source=first)
    write = draft.write(1, Y, 2, RELAXED, DEVICE)
    draft.atomic(read, write)
    draft.read(2, Y, grade=RELAXED, scope=DEVICE, source=write)
    draft.write(2, Y, 3)
    return draft, [(("open", 2), "0-2"), (("judge", 2, 0), "axiom 3: 0 4"), (("judge", 3, 0), "axiom 3: 0 4")]


def hand_observation_before_kept_only():
    """The step of base after the observation goes from one proxy to another."""
    draft = Draft()
    draft.thread(0)
    draft.thread(1)
    first = draft.write(0, Y, 1, RELAXED, DEVICE)
    draft.read(1, Y, grade=RELAXED, scope=DEVICE, source=first)
    draft.write(1, Y, 2, proxy=SURFACE)
    return draft, [(("judge", 2, 0), "axiom 3: 0 2"), (("judge", 3, 0), "consistent"), (("settle", 19), "allowed 0")]


def hand_fences_in_a_ring():
    """No access; the fences cause themselves."""
    draft = Draft()
    for block in range(3):
        draft.thread(block)
    fences = [draft.fence(block, SEQUENTIAL, BLOCK) for block in range(3)]
    for place in range(3):
        draft.order(fences[place], fences[(place + 1) % 3])
    return draft, [
        (("judge", 2, 0), "axiom 4: 0"), (("judge", 3, 0), "axiom 4: 0"), (("settle", 0), "allowed 0"),
        (("rows", 2, 5), ""), (("rows", 0, 0), ""), (("rows", 19, 4), "0:0,1,2 1:0,1,2 2:0,1,2")]


def hand_fence_before_the_write():
    """A proxy fence before the write is no start of it."""
    draft = Draft()
    draft.thread(0)
    draft.thread(1)
    draft.proxy_fence(0, SURFACE)
    draft.write(0, X, 1, proxy=SURFACE)
    flag = draft.write(0, Y, 1, RELEASE, DEVICE)
    draft.read(1, Y, grade=ACQUIRE, scope=DEVICE, source=flag)
    draft.read(1, X, 0)
    return draft, [(("settle", 3), "allowed 0"), (("judge", 2, 0), "axiom 4: 4")]


def hand_fence_behind_the_read():
    """A proxy fence behind the read is no landing of it."""
    draft = surface_reader(1)
    draft.events[0] = draft.events[0]._replace(proxy=GENERIC)
    draft.events[3] = draft.events[3]._replace(proxy=CONSTANT)
    draft.proxy_fence(1, CONSTANT)
    return draft, [(("settle", 3), "allowed 0"), (("judge", 2, 0), "axiom 4: 3")]


def hand_no_view_from_proxy_to_proxy_fence():
    """Only a generic event is passed on before a fence of another proxy."""
    draft = Draft()
    draft.thread(0)
    draft.thread(1)
    read = draft.read(0, X, 1, proxy=CONSTANT)
    draft.proxy_fence(0, TEXTURE)
    draft.read(0, Z, 0, proxy=TEXTURE)
    draft.write(1, Z, 1)
    draft.source(draft.write(1, X, 1), read)
    return draft, [
        (("judge", 0, 0), "axiom 0: 0 2 3 4"), (("settle", 16), "allowed 0"), (("rows", 16, 0), "1:2 2:3 3:4 4:0")]


HAND = [
    hand_no_chain_of_zero_steps, hand_cause_of_a_message, hand_observation_before_base, hand_read_without_source,
    hand_chain_of_two_orders, hand_chain_between_atomic, hand_strong_write_between_atomic,
    hand_weak_write_between_atomic, hand_coverage_one_way, hand_coverage_other_way, hand_other_device,
    hand_proxy_fence_of_the_block, hand_proxy_fence_of_another_block, hand_proxy_fence_of_another_proxy,
    hand_start_at_a_proxy_fence, hand_no_start, hand_landing_in_another_thread, hand_landing_in_another_block,
    hand_same_proxy_same_block, hand_same_proxy_other_block, hand_need_of_two_proxies,
    hand_causality_without_coherence, hand_causality_with_a_chain, hand_release_sequence, hand_memory_fences,
    hand_store_buffering, hand_store_buffering_block, hand_fence_order_given, hand_view_of_fences,
    hand_proxy_fence_of_another_proxy_in_the_view, hand_order_in_a_ring, hand_fence_of_block_scope,
    hand_acquire_fence_for_release, hand_release_of_another_address, hand_release_fence_for_acquire,
    hand_acquire_of_another_address, hand_acquire_behind_an_earlier_read, hand_chain_of_observations,
    hand_observation_before_kept_only, hand_fences_in_a_ring, hand_fence_before_the_write, hand_fence_behind_the_read,
    hand_no_view_from_proxy_to_proxy_fence,
]


def by_hand():
    """Name, sheet, and the questions with their answers."""
    for make in HAND:
        draft, expected = make()
        yield make.__name__.removeprefix("hand_"), strict(draft), expected


# Litmus shapes. Each takes a source of randomness and gives a draft.


def likely(rng, chance=4):
    """Mostly true: once in `chance` times it is not."""
    return rng.randrange(chance) != 0


def some_threads(rng, draft, count):
    """Threads of few blocks and devices."""
    blocks = rng.choice([1, 2, count, count])
    devices = rng.choice([1, 1, 2])
    for place in range(count):
        block = place % blocks if likely(rng) else rng.randrange(blocks)
        draft.thread(block, block % devices)


def wide(rng):
    return rng.choice([BLOCK, DEVICE, DEVICE, SYSTEM])


def release(rng, draft, thread, address, value, scope):
    """A flag is set: the write that is read, by one of the patterns."""
    pattern = rng.randrange(6)
    if pattern == 0:
        return draft.write(thread, address, value)
    if pattern == 1:
        return draft.write(thread, address, value, RELAXED, scope)
    if pattern == 2:
        draft.fence(thread, rng.choice([RELEASE, ACQUIRE_RELEASE, SEQUENTIAL]), scope if likely(rng) else wide(rng))
        return draft.write(thread, address, value, RELAXED, scope)
    first = draft.write(thread, address, value, RELEASE, scope)
    if pattern == 3:
        # a release sequence of the same thread
        second = draft.write(thread, address, value + 10, RELAXED, scope)
        if likely(rng, 2):
            draft.order(first, second)
        return second
    return first


def acquire(rng, draft, thread, address, scope, source):
    pattern = rng.randrange(6)
    if pattern == 0:
        return draft.read(thread, address, source=source)
    if pattern == 1:
        return draft.read(thread, address, grade=RELAXED, scope=scope, source=source)
    if pattern == 2:
        read = draft.read(thread, address, grade=RELAXED, scope=scope, source=source)
        draft.fence(thread, rng.choice([ACQUIRE, ACQUIRE_RELEASE, SEQUENTIAL]), scope if likely(rng) else wide(rng))
        return read
    if pattern == 3:
        # the earlier read of the same address takes the value
        read = draft.read(thread, address, grade=RELAXED, scope=scope, source=source)
        draft.read(thread, address, grade=ACQUIRE, scope=scope, source=source)
        return read
    return draft.read(thread, address, grade=ACQUIRE, scope=scope, source=source)


def exchange(rng, draft, thread, address, scope, source, value):
    """An atomic read and write; the read has a source or reads 0."""
    read_grade = rng.choice([RELAXED, RELAXED, ACQUIRE])
    write_grade = rng.choice([RELAXED, RELAXED, RELEASE])
    if source is None:
        read = draft.read(thread, address, 0, read_grade, scope)
    else:
        read = draft.read(thread, address, grade=read_grade, scope=scope, source=source)
    write = draft.write(thread, address, value, write_grade, scope)
    if likely(rng, 6):
        draft.atomic(read, write)
    return read, write


def data_at_the_end(rng, draft, thread, first):
    """An access of the data after the flags: an old read, a new one, or a second write."""
    kind = rng.randrange(5)
    if kind < 3:
        draft.read(thread, X, 0)
    elif kind == 3:
        draft.read(thread, X, source=first)
    else:
        last = draft.write(thread, X, 2)
        if likely(rng, 2):
            draft.order(*rng.choice([(first, last), (last, first)]))


def message(rng):
    """A message over one to three hops, each with its own flag."""
    draft = Draft()
    hops = rng.choice([1, 1, 1, 2, 2, 3])
    some_threads(rng, draft, hops + 1)
    first = draft.write(0, X, 1)
    for hop in range(hops):
        scope = wide(rng)
        flag = release(rng, draft, hop, Y + hop, 1, scope)
        acquire(rng, draft, hop + 1, Y + hop, scope if likely(rng) else wide(rng), flag)
    data_at_the_end(rng, draft, hops, first)
    return draft


def message_over_exchange(rng):
    """A release sequence through atomic steps of other threads."""
    draft = Draft()
    steps = rng.choice([1, 1, 2])
    some_threads(rng, draft, steps + 2)
    scope = wide(rng)
    first = draft.write(0, X, 1)
    flag = release(rng, draft, 0, Y, 1, scope)
    for step in range(steps):
        _, written = exchange(rng, draft, step + 1, Y, scope if likely(rng) else wide(rng), flag, 2 + step)
        if likely(rng, 3):
            draft.order(flag, written)
        flag = written
    acquire(rng, draft, steps + 1, Y, scope, flag)
    data_at_the_end(rng, draft, steps + 1, first)
    return draft


def store_buffering(rng):
    draft = Draft()
    count = rng.choice([2, 2, 2, 3])
    some_threads(rng, draft, count)
    scope = wide(rng)
    writes, fences = [], []
    for thread in range(count):
        weak = likely(rng, 2)
        writes.append(draft.write(thread, X + thread, 1, *((WEAK, THREAD) if weak else (RELAXED, scope))))
        if likely(rng, 6):
            grade = SEQUENTIAL if likely(rng, 5) else ACQUIRE_RELEASE
            fences.append(draft.fence(thread, grade, scope if likely(rng, 5) else wide(rng)))
        draft.read(thread, X + (thread + 1) % count, 0)
    if len(fences) > 1 and likely(rng, 3) is False:
        draft.order(*rng.sample(fences, 2))
    return draft


def coherence(rng):
    """One address, one or two threads that write, one or two that read."""
    draft = Draft()
    some_threads(rng, draft, rng.choice([1, 2, 2, 3]))
    scope = wide(rng)
    names = []
    writes = []
    for _ in range(rng.choice([2, 3, 3, 4, 5])):
        thread = rng.randrange(len(draft.threads))
        weak = likely(rng, 3) is False
        if likely(rng, 2) or not writes:
            fields = (WEAK, THREAD) if weak else (rng.choice([RELAXED, RELEASE]), scope)
            writes.append(draft.write(thread, X, len(writes) + 1, *fields))
            names.append(writes[-1])
        else:
            fields = (WEAK, THREAD) if weak else (rng.choice([RELAXED, ACQUIRE]), scope)
            source = rng.choice(writes + [None])
            names.append(draft.read(thread, X, 0, *fields, source=source))
    for _ in range(rng.choice([0, 0, 1, 2])):
        if len(writes) > 1:
            draft.order(*rng.sample(writes, 2))
    return draft


def exchanges(rng):
    """Atomic steps of several threads on one address, and perhaps a plain write in between."""
    draft = Draft()
    count = rng.choice([2, 2, 3])
    some_threads(rng, draft, count + 1)
    scope = wide(rng)
    writes = [None]
    for thread in range(count):
        # two steps may take the same value
        source = rng.choice(writes) if likely(rng, 2) else writes[-1]
        _, written = exchange(rng, draft, thread, X, scope if likely(rng, 5) else wide(rng), source, thread + 1)
        writes.append(written)
    if likely(rng, 2):
        weak = likely(rng, 3) is False
        writes.append(draft.write(count, X, 9, *((WEAK, THREAD) if weak else (RELAXED, scope))))
    for _ in range(rng.choice([0, 1, 1, 2])):
        draft.order(*rng.sample(writes[1:], 2))
    return draft


def load_buffering(rng):
    draft = Draft()
    count = rng.choice([2, 2, 3])
    some_threads(rng, draft, count)
    scope = wide(rng)
    reads, writes = [], []
    for thread in range(count):
        weak = likely(rng, 2)
        reads.append(draft.read(thread, X + thread, 1, *((WEAK, THREAD) if weak else (RELAXED, scope))))
        between = draft.fence(thread, SEQUENTIAL, scope) if likely(rng, 4) is False else None
        writes.append(draft.write(thread, X + (thread + 1) % count, 1, *((WEAK, THREAD) if weak else (RELAXED, scope))))
        if likely(rng, 3):
            draft.depend(reads[-1], writes[-1])
        elif between is not None:
            draft.depend(reads[-1], between)
    for thread in range(count):
        if likely(rng, 8):
            draft.source(writes[thread], reads[(thread + 1) % count])
        else:
            name = reads[(thread + 1) % count]
            draft.events[name] = draft.events[name]._replace(value=0)
    return draft


def proxies(rng):
    """A write, a message or none, and an access through another proxy, with proxy fences here and there."""
    draft = Draft()
    hops = rng.choice([0, 0, 1, 1, 2])
    some_threads(rng, draft, hops + 1)
    spare = draft.thread(*draft.threads[rng.randrange(hops + 1)]) if likely(rng, 3) is False else None
    written = SURFACE if likely(rng, 3) is False else GENERIC
    seen = rng.choice([CONSTANT, CONSTANT, TEXTURE, SURFACE, GENERIC])
    helpful = [proxy for proxy in (written, seen) if proxy != GENERIC] or [CONSTANT]

    def maybe_fence(thread, chance):
        if likely(rng, chance) is False:
            proxy = rng.choice(helpful) if likely(rng, 6) else rng.choice([CONSTANT, TEXTURE, SURFACE])
            draft.proxy_fence(thread, proxy)

    first = draft.write(0, X, 1, proxy=written)
    maybe_fence(0, 2)
    for hop in range(hops):
        flag = draft.write(hop, Y + hop, 1, RELEASE, DEVICE)
        draft.read(hop + 1, Y + hop, grade=ACQUIRE, scope=DEVICE, source=flag)
        maybe_fence(hop + 1, 2)
    if spare is not None:
        # a fence of a thread that only sends a message on
        flag = draft.write(hops, Z, 1, RELEASE, DEVICE)
        draft.read(spare, Z, grade=ACQUIRE, scope=DEVICE, source=flag)
        maybe_fence(spare, 2)
    last = spare if spare is not None and likely(rng, 3) else hops
    kind = rng.randrange(5)
    if kind < 3:
        draft.read(last, X, 0, proxy=seen)
    elif kind == 3:
        draft.read(last, X, proxy=seen, source=first)
    else:
        second = draft.write(last, X, 2, proxy=rng.choice([GENERIC, SURFACE]))
        if likely(rng, 2):
            draft.order(*rng.choice([(first, second), (second, first)]))
    return draft


def ring(rng):
    """A ring of threads with two accesses each; each thread is joined to the next at one address."""
    draft = Draft()
    count = rng.choice([2, 2, 3, 3, 4])
    some_threads(rng, draft, count)
    scope = wide(rng)
    joins = [rng.choice(["read-from", "from-read", "order"]) for _ in range(count)]
    lasts, firsts = {}, {}
    for thread in range(count):
        for leaving, join, address in ((False, joins[thread - 1], thread), (True, joins[thread], thread + 1)):
            writes = join == "order" or (join == "read-from") == leaving
            value = 0 if not writes and join == "from-read" else 1
            weak = likely(rng, 3) is False
            if writes:
                grade = WEAK if weak else rng.choice([RELAXED, RELEASE])
                name = draft.write(thread, X + address % count, value, grade, THREAD if weak else scope)
            else:
                grade = WEAK if weak else rng.choice([RELAXED, ACQUIRE])
                name = draft.read(thread, X + address % count, value, grade, THREAD if weak else scope)
            (lasts if leaving else firsts)[thread] = name
            if not leaving and likely(rng, 2):
                grade = rng.choice([ACQUIRE, RELEASE, ACQUIRE_RELEASE, SEQUENTIAL, SEQUENTIAL])
                draft.fence(thread, grade, scope if likely(rng, 5) else wide(rng))
        if likely(rng, 3) is False:
            draft.depend(firsts[thread], lasts[thread])
    for thread, join in enumerate(joins):
        last, first = lasts[thread], firsts[(thread + 1) % count]
        if join == "read-from":
            draft.source(last, first)
        elif join == "order" and likely(rng, 2):
            draft.order(last, first)
    return draft


def observers(rng):
    """Two writers and two readers that see the writes in different orders."""
    draft = Draft()
    some_threads(rng, draft, 4)
    scope = wide(rng)
    grade = rng.choice([RELAXED, RELAXED, RELEASE])
    writes = [draft.write(thread, X + thread, 1, grade, scope) for thread in range(2)]
    for place in range(2):
        thread = 2 + place
        draft.read(thread, X + place, grade=rng.choice([RELAXED, ACQUIRE]), scope=scope, source=writes[place])
        if likely(rng, 3):
            draft.fence(thread, SEQUENTIAL, scope)
        draft.read(thread, X + 1 - place, 0, RELAXED, scope)
    return draft


# Random sheets.


def random_event(rng, draft, thread, addresses):
    kind = rng.choice(fuzz.KINDS)
    _, grade, scope, proxy = rng.choice([good for good in checker.GOOD if good[0] == kind])
    if proxy != GENERIC and likely(rng, 2):
        _, grade, scope, proxy = rng.choice([good for good in checker.GOOD if good[0] == kind])
    if kind in (FENCE, PROXY_FENCE):
        return draft.add(thread, kind, grade, scope, proxy)
    return draft.add(thread, kind, grade, scope, proxy, rng.choice(addresses), rng.choice([0, 1, 1, 2]))


def random_draft(rng, events, most_addresses=3):
    """So many events; reads mostly have a source or the value 0."""
    draft = Draft()
    some_threads(rng, draft, rng.randrange(1, 1 + min(rng.choice([1, 2, 3, 4, 6]), events or 1)))
    addresses = ADDRESSES[:rng.randrange(1, most_addresses + 1)]
    while len(draft.events) < events:
        thread = rng.randrange(len(draft.threads))
        name = random_event(rng, draft, thread, addresses)
        event = draft.events[name]
        if event.kind == READ and event.proxy == GENERIC and len(draft.events) < events and likely(rng, 3) is False:
            grade = WEAK if event.scope == THREAD else rng.choice([RELAXED, RELEASE])
            written = draft.write(thread, event.address, rng.choice([0, 1, 2]), grade, event.scope)
            draft.atomic(name, written)
    random_edges(rng, draft)
    return draft


def of_kind(draft, kind):
    return [name for name, event in enumerate(draft.events) if event.kind == kind]


def random_edges(rng, draft):
    writes = of_kind(draft, WRITE)
    stray = likely(rng, 12) is False
    for read in of_kind(draft, READ):
        event = draft.events[read]
        offered = [write for write in writes if draft.events[write].address == event.address]
        if offered and likely(rng, 4):
            source = rng.choice(offered)
            draft.events[read] = event._replace(value=draft.events[source].value)
            draft.source(source, read)
        elif not stray:
            draft.events[read] = event._replace(value=0)
        for later in range(read + 1, len(draft.events)):
            if draft.events[later].thread == event.thread and rng.randrange(5) == 0:
                draft.depend(read, later)
    if likely(rng, 2):
        for first in writes + of_kind(draft, FENCE):
            for second in writes + of_kind(draft, FENCE):
                if first != second and rng.randrange(5) == 0:
                    draft.order(first, second)


def small_random(rng):
    return random_draft(rng, rng.choice([1, 2, 3, 4, 5, 6, 6, 7, 8]))


def middle_random(rng):
    return random_draft(rng, rng.choice([8, 9, 10]))


def large_random(rng):
    return random_draft(rng, rng.randrange(11, 17))


SHAPES = [
    (message, 4),
    (message_over_exchange, 3),
    (store_buffering, 3),
    (coherence, 4),
    (exchanges, 4),
    (load_buffering, 3),
    (proxies, 6),
    (ring, 5),
    (observers, 1),
]

RANDOM = [
    (small_random, 12),
    (middle_random, 5),
    (large_random, 2),
]


def made(count, seed, makers=SHAPES + RANDOM):
    """Pairs of a maker's name and a sheet."""
    rng = random.Random(seed)
    makers, weights = zip(*makers)
    for _ in range(count):
        maker = rng.choices(makers, weights)[0]
        yield maker.__name__, maker(rng).sheet(rng if likely(rng, 5) else None)


def sheets(count, seed, makers=SHAPES + RANDOM):
    for _, sheet in made(count, seed, makers):
        yield sheet


# Files with questions.


def question(number, asked, completion=0):
    return b"QU" + bytes([number, asked]) + completion.to_bytes(2, "little")


def telling(rng, sheet, number, completions):
    """Of some completions one that is consistent if there is any, or the one whose lowest violated axiom is highest;
    most completions violate a low one."""
    tried = [(models.judge(sheet, number, completion)[1:2], completion) for completion in completions]
    return max(tried)[1] if rng.randrange(2) else min(tried)[1]


def judge_completion(rng, sheet, number):
    """Mostly one that there is, sometimes the first one that there is not, or any number."""
    most = 2 ** min(len(models.open_pairs(sheet, models.model_of(sheet, number))), 13)
    choice = rng.randrange(12)
    if choice == 0:
        return rng.choice([most, most, rng.randrange(65536)])
    if choice < 6:
        return rng.choice([0, most - 1, rng.randrange(most)])
    return telling(rng, sheet, number, [rng.randrange(most) for _ in range(min(most, 8))])


def questions(rng, sheet, settles, judges):
    asked = [question(number, 0) for number in rng.sample(models.NUMBERS, settles)]
    for _ in range(judges):
        number = rng.choice(models.NUMBERS)
        asked.append(question(number, 1, judge_completion(rng, sheet, number)))
    return asked


def question_file(rng, sheet, most_early=2):
    """The file of a sheet: all six models settle it and some completions are judged, with a few questions between
    the edges."""
    data = checker.write(sheet)[:-2]
    rows = 4 * len(sheet.threads) + 13 * len(sheet.events)
    edges = [data[place:place + 4] for place in range(rows, len(data), 4)]
    rng.shuffle(edges)
    early = checker.Sheet()
    early.threads, early.events = sheet.threads, sheet.events
    parts = [data[:rows]]
    stops = {rng.randrange(len(edges) + 1) for _ in range(rng.randrange(most_early + 1))}
    for place, edge in enumerate(edges):
        if place in stops:
            parts += questions(rng, early, rng.choice([0, 1]), 1)
        checker.call(early, edge[:2], edge[2:])
        parts.append(edge)
    parts += [question(number, 0) for number in models.NUMBERS]
    parts += questions(rng, sheet, 0, rng.choice([2, 3, 4]))
    return b"".join(parts) + b"EN"


def files(count, seed, makers=SHAPES + RANDOM):
    """Whole case files without a fault."""
    rng = random.Random(seed + 1000003)
    for sheet in sheets(count, seed, makers):
        yield question_file(rng, sheet)


# Coverage.


MOST_TRIED = 64


def covered(count, seed):
    """For each model and axiom, how many sheets have a completion that violates it, and how many one whose lowest
    violated axiom it is; and the verdicts of settle. Of many completions only the first and some more are tried."""
    rng = random.Random(seed)
    violating, lowest, verdicts = {}, {}, {}
    for sheet in sheets(count, seed):
        for number in models.NUMBERS:
            verdict = models.settle(sheet, number)
            kind = " ".join(map(str, verdict)) if verdict[0] == "refused" else verdict[0]
            verdicts[number, kind] = verdicts.get((number, kind), 0) + 1
            if verdict[0] == "refused":
                continue
            model = models.model_of(sheet, number)
            pairs = models.open_pairs(sheet, model)
            tried = range(2 ** len(pairs))
            if len(tried) > MOST_TRIED:
                tried = [0] + rng.sample(tried, MOST_TRIED - 1)
            found = [models.violated(model, models.completed(sheet, pairs, completion)) for completion in tried]
            for axiom in model.axioms():
                violating[number, axiom] = violating.get((number, axiom), 0) + any(axiom in each for each in found)
                lowest[number, axiom] = lowest.get((number, axiom), 0) + any(each[:1] == [axiom] for each in found)
    return violating, lowest, verdicts


def print_coverage(count, seed):
    violating, lowest, verdicts = covered(count, seed)
    print("model  axiom  sheets that violate it  as the lowest")
    for number, axiom in sorted(violating):
        print(f"{number:5}  {axiom:5}  {violating[number, axiom]:22}  {lowest[number, axiom]:13}")
    print("model  settled")
    for number in models.NUMBERS:
        kinds = sorted(kind for of, kind in verdicts if of == number)
        print(f"{number:5}  " + ", ".join(f"{kind}: {verdicts[number, kind]}" for kind in kinds))
    return 0 if all(violating.values()) else 1


def main():
    parser = argparse.ArgumentParser(description="makes litmus shapes and random sheets")
    parser.add_argument("count", nargs="?", type=int, default=400)
    parser.add_argument("seed", nargs="?", type=int, default=1)
    parser.add_argument("--coverage", action="store_true", help="print which axioms are violated")
    given = parser.parse_args()
    if given.coverage:
        return print_coverage(given.count, given.seed)
    for data in files(given.count, given.seed):
        sys.stdout.buffer.write(len(data).to_bytes(2, "little") + data)
    return 0


if __name__ == "__main__":
    sys.exit(main())
