#!/usr/bin/env python3
"""Answers the questions of a case file by the memory models.

    tools/models.py < FILE.case
    tools/models.py --selftest

The relations, the axioms and the view layer are those of docs/MODELS.md; completions, judging, settling and witnesses
are those of docs/RULES.md; the lines are those of docs/FORMAT.md. It shares nothing with the program. A relation is a
set of pairs of event numbers. Chains are followed by a search along the pairs, from each event anew.

With --selftest it compares itself with verdicts that were found by hand: those of the worked sheets of
docs/MODELS.md, which stand in cases/, and those of some more small sheets. It also finds the shortest cycles of random
relations a second time by trying all lists of events, and settles random sheets a second time by judging one completion
after the other.
"""

import collections
import itertools
import os
import random
import sys

sys.dont_write_bytecode = True

import checker
import splitter
from checker import (
    ACQUIRE, ACQUIRE_RELEASE, BLOCK, DEVICE, FENCE, GENERIC, PROXY_FENCE, READ, RELEASE, SEQUENTIAL, THREAD, WRITE)

ROOT = os.path.dirname(os.path.dirname(os.path.abspath(__file__)))

ACYCLIC, IRREFLEXIVE, EMPTY = "acyclic", "irreflexive", "empty"
MOST_OPEN = 12
LEAST_MEMORY = 64
LAYER = 16
NUMBERS = (0, 2, 3, LAYER + 0, LAYER + 2, LAYER + 3)

# Relations.


def following(relation):
    """For each event that is related to some event, the list of those."""
    found = {}
    for first, second in relation:
        found.setdefault(first, []).append(second)
    return found


def closure(relation):
    """R+: chains of one or more steps."""
    after = following(relation)
    pairs = set()
    for start in after:
        met = set()
        waiting = [start]
        while waiting:
            for event in after.get(waiting.pop(), ()):
                if event not in met:
                    met.add(event)
                    waiting.append(event)
        pairs.update((start, event) for event in met)
    return pairs


def then(one, other):
    after = following(other)
    return {(first, last) for first, middle in one for last in after.get(middle, ())}


def same(events):
    """id(A)."""
    return {(event, event) for event in events}


def between(firsts, relation, seconds):
    """[A] R [B]."""
    return {(first, second) for first, second in relation if first in firsts and second in seconds}


def rows(relation):
    """The rows that are not blank, as `0:1,2 3:4`."""
    after = following(relation)
    return " ".join(f"{event}:{','.join(map(str, sorted(after[event])))}" for event in sorted(after))


# Witnesses.


def has_cycle(relation):
    """Takes events away that no other event leads to, as long as there are any."""
    after = following(relation)
    coming = collections.Counter(second for _, second in relation)
    waiting = [event for event in after if coming[event] == 0]
    left = len(relation)
    while waiting:
        for event in after.get(waiting.pop(), ()):
            left -= 1
            coming[event] -= 1
            if coming[event] == 0:
                waiting.append(event)
    return left > 0


def distances_to(goal, relation):
    """For each event from which a chain leads to the goal, the least number of its steps; 0 for the goal itself."""
    before = following({(second, first) for first, second in relation})
    steps = {goal: 0}
    ring = [goal]
    while ring:
        next_ring = []
        for event in ring:
            for earlier in before.get(event, ()):
                if earlier not in steps:
                    steps[earlier] = steps[event] + 1
                    next_ring.append(earlier)
        ring = next_ring
    return steps


def shortest_cycle(relation):
    """The first in lexicographic order among the shortest ones, or None."""
    after = following(relation)
    lengths = {}
    for event in after:
        steps = distances_to(event, relation)
        closing = [steps[second] + 1 for second in after[event] if second in steps]
        if closing:
            lengths[event] = min(closing)
    if not lengths:
        return None
    length = min(lengths.values())
    cycle = [min(event for event in lengths if lengths[event] == length)]
    steps = distances_to(cycle[0], relation)
    for left in range(length - 1, 0, -1):
        cycle.append(min(second for second in after[cycle[-1]] if steps.get(second) == left))
    return cycle


def breaks(kind, relation):
    if kind == ACYCLIC:
        return has_cycle(relation)
    if kind == IRREFLEXIVE:
        return any(first == second for first, second in relation)
    return bool(relation)


def witness(kind, relation):
    """The witness of a relation that breaks its kind."""
    if kind == ACYCLIC:
        return shortest_cycle(relation)
    if kind == IRREFLEXIVE:
        return [min(first for first, second in relation if first == second)]
    return list(min(relation))


# Sheets.


def program_order(sheet):
    return {
        (first, second)
        for second, later in enumerate(sheet.events)
        for first, earlier in enumerate(sheet.events[:second])
        if earlier.thread == later.thread
    }


def cut(sheet, po):
    """The program order that the view layer passes on."""
    kept = set()
    for first, second in po:
        one, other = sheet.events[first], sheet.events[second]
        if one.proxy == other.proxy or (one.proxy == GENERIC and other.kind == PROXY_FENCE):
            kept.add((first, second))
    return kept


def covers(sheet, first, second):
    """Does the scope of the first event cover the thread of the second?"""
    scope = sheet.events[first].scope
    thread, other = sheet.events[first].thread, sheet.events[second].thread
    if scope == THREAD:
        return thread == other
    if scope == BLOCK:
        return sheet.threads[thread].block == sheet.threads[other].block
    if scope == DEVICE:
        return sheet.threads[thread].device == sheet.threads[other].device
    return True


class Communication:
    """What depends on the coherence order."""

    def __init__(self, model, co):
        self.co = co
        self.chains = closure(co)
        later = following(self.chains)
        self.fr = set()
        for read in model.reads:
            if read in model.source:
                self.fr.update((read, write) for write in later.get(model.source[read], ()))
            else:
                address = model.events[read].address
                self.fr.update((read, write) for write in model.writes if model.events[write].address == address)
        self.com = model.rf | self.fr | self.chains


class Model:
    """A model of one sheet, with the program order that it is given. The order edges come with each question."""

    def __init__(self, sheet, po):
        self.sheet = sheet
        self.events = sheet.events
        self.po = po
        numbers = range(len(self.events))
        self.reads = {number for number in numbers if self.events[number].kind == READ}
        self.writes = {number for number in numbers if self.events[number].kind == WRITE}
        self.accesses = self.reads | self.writes
        self.sc_fences = {number for number in numbers if checker.is_sequential_fence(self.events[number])}
        self.loc = {
            (first, second)
            for first in self.accesses
            for second in self.accesses
            if self.events[first].address == self.events[second].address
        }
        self.rf = set(sheet.sources)
        self.source = {read: write for write, read in self.rf}
        self.atomic = set(sheet.atomics)
        self.depend = set(sheet.depends)
        self.rivals = between(self.writes, self.loc, self.writes) - same(self.writes)
        self.fences = {(first, second) for first in self.sc_fences for second in self.sc_fences if first != second}
        self.communications = {}

    def communication(self, order):
        co = frozenset(between(self.writes, order, self.writes))
        if co not in self.communications:
            self.communications = {co: Communication(self, co)}
        return self.communications[co]

    def axioms(self):
        return range(len(self.KINDS))

    def breaks_axiom(self, axiom, order):
        return breaks(self.KINDS[axiom], self.relation(axiom, order))

    def is_consistent(self, order):
        return not any(self.breaks_axiom(axiom, order) for axiom in self.TRIED)


class Sc(Model):
    KINDS = (ACYCLIC, EMPTY)
    TRIED = (0, 1)

    def need(self):
        return self.rivals

    def relation(self, axiom, order):
        found = self.communication(order)
        if axiom == 0:
            return self.po | self.rf | found.co | found.fr
        return then(found.fr, found.chains) & self.atomic


class Ptx(Model):
    KINDS = (ACYCLIC, ACYCLIC, EMPTY, EMPTY, IRREFLEXIVE, ACYCLIC)
    # the axioms whose relation is found soonest come first
    TRIED = (0, 5, 2, 1, 3, 4)

    def __init__(self, sheet, po):
        super().__init__(sheet, po)
        of_grade = {}
        for number, event in enumerate(self.events):
            of_grade.setdefault((event.kind, event.grade), set()).add(number)

        def having(kind, *grades):
            return set().union(*(of_grade.get((kind, grade), ()) for grade in grades))

        everything = set(range(len(self.events)))
        self.strong = {(one, other) for one in everything for other in everything if self.is_strong(one, other)}
        self.poloc = self.near(po & self.loc)
        self.obs = (self.rf | self.atomic) & self.strong
        self.obs_chains = closure(self.obs)
        release_writes = having(WRITE, RELEASE)
        acquire_reads = having(READ, ACQUIRE)
        release_fences = having(FENCE, RELEASE, ACQUIRE_RELEASE, SEQUENTIAL)
        acquire_fences = having(FENCE, ACQUIRE, ACQUIRE_RELEASE, SEQUENTIAL)
        self.starts = (
            same(release_writes)
            | between(release_writes, self.poloc, self.writes)
            | between(release_fences, po, everything))
        self.ends = (
            same(acquire_reads)
            | between(self.reads, self.poloc, acquire_reads)
            | between(everything, po, acquire_fences))
        self.sync = then(then(self.starts, self.obs_chains), self.ends) & self.strong
        self.steps = po | self.sync
        self.causes = {}

    def is_strong(self, first, second):
        return covers(self.sheet, first, second) and covers(self.sheet, second, first)

    def near(self, pairs):
        """The pairs of program order and location that count."""
        return pairs

    def kept(self, base):
        return base

    def need(self):
        return (self.rivals | self.fences) & self.strong

    def cause(self, order):
        sc = frozenset(between(self.sc_fences, order, self.sc_fences))
        if sc not in self.causes:
            kept = self.kept(closure(self.steps | sc))
            self.causes[sc] = kept | then(self.obs_chains, kept)
        return self.causes[sc]

    def relation(self, axiom, order):
        if axiom == 0:
            return self.rf | self.depend
        found = self.communication(order)
        if axiom == 1:
            return (found.com & self.strong) | self.poloc
        if axiom == 2:
            return then(found.fr & self.strong, found.chains & self.strong) & self.atomic
        if axiom == 3:
            return (self.cause(order) & self.rivals) - found.chains
        if axiom == 4:
            cause = self.cause(order)
            return cause | then(found.com, cause)
        return found.co


class PtxWithProxies(Ptx):
    def equal_proxies(self, first, second):
        return self.events[first].proxy == self.events[second].proxy

    def is_strong(self, first, second):
        return super().is_strong(first, second) and self.equal_proxies(first, second)

    def near(self, pairs):
        return {pair for pair in pairs if self.equal_proxies(*pair)}

    def block(self, number):
        return self.sheet.threads[self.events[number].thread].block

    def fences_for(self, number):
        """The proxy fences of the proxy and the block of the event."""
        fences = {fence for fence, event in enumerate(self.events) if event.kind == PROXY_FENCE}
        return {
            fence for fence in fences if self.equal_proxies(fence, number) and self.block(fence) == self.block(number)}

    def kept(self, base):
        numbers = range(len(self.events))
        generic = {number for number in numbers if self.events[number].proxy == GENERIC}
        starts, landings = {}, {}
        for number in numbers:
            if number in generic:
                starts[number] = landings[number] = {number}
            else:
                fences = self.fences_for(number)
                starts[number] = {fence for fence in fences if (number, fence) in base}
                landings[number] = {fence for fence in fences if (fence, number) in base}

        def is_kept(first, second):
            if first not in self.accesses or second not in self.accesses:
                return True
            if self.equal_proxies(first, second) and self.block(first) == self.block(second):
                return True
            return any(
                start == landing or (start, landing) in base
                for start in starts[first]
                for landing in landings[second])

        return {(first, second) for first, second in base if is_kept(first, second)}


MODELS = {0: Sc, 2: Ptx, 3: PtxWithProxies}


def model_of(sheet, number):
    """The numbered model of a sheet."""
    po = program_order(sheet)
    if number >= LAYER:
        return MODELS[number - LAYER](sheet, cut(sheet, po))
    return MODELS[number](sheet, po)


# Completions.


def open_pairs(sheet, model):
    """By the lower event, then by the higher one."""
    return sorted(
        (first, second)
        for first, second in model.need()
        if first < second and (first, second) not in sheet.orders and (second, first) not in sheet.orders)


def completed(sheet, pairs, completion):
    """The order edges of the completed sheet."""
    order = set(sheet.orders)
    for place, (lower, higher) in enumerate(pairs):
        order.add((higher, lower) if completion >> place & 1 else (lower, higher))
    return order


def has_stray_read(sheet):
    """Is there a read without a source and with a value other than 0?"""
    sourced = {read for _, read in sheet.sources}
    return any(
        event.kind == READ and number not in sourced and event.value != 0 for number, event in enumerate(sheet.events))


def violated(model, order):
    """All axioms whose relation breaks its kind."""
    return [axiom for axiom in model.axioms() if model.breaks_axiom(axiom, order)]


def judge(sheet, number, completion, memory=LEAST_MEMORY):
    """("refused", number), ("consistent",), or ("axiom", the lowest violated axiom, its witness)."""
    if memory < LEAST_MEMORY:
        return "refused", 9
    model = model_of(sheet, number)
    pairs = open_pairs(sheet, model)
    if len(pairs) > MOST_OPEN:
        return "refused", 7
    if has_stray_read(sheet):
        return "refused", 8
    if completion >= 2 ** len(pairs):
        return "refused", 1
    order = completed(sheet, pairs, completion)
    for axiom in model.axioms():
        relation = model.relation(axiom, order)
        if breaks(model.KINDS[axiom], relation):
            return "axiom", axiom, witness(model.KINDS[axiom], relation)
    return ("consistent",)


def settle(sheet, number):
    """("refused", number), ("allowed", the lowest consistent completion), or ("forbidden",)."""
    model = model_of(sheet, number)
    pairs = open_pairs(sheet, model)
    if len(pairs) > MOST_OPEN:
        return "refused", 7
    if has_stray_read(sheet):
        return "refused", 8
    for completion in range(2 ** len(pairs)):
        if model.is_consistent(completed(sheet, pairs, completion)):
            return "allowed", completion
    return ("forbidden",)


# Whole files.


def verdict_text(verdict):
    if verdict[0] == "axiom":
        return f"axiom {verdict[1]}: {' '.join(map(str, verdict[2]))}"
    return " ".join(map(str, verdict))


def question_line(sheet, body):
    number, asked, completion = body[0], body[1], int.from_bytes(body[2:4], "little")
    if asked == 0:
        return f"S {number} {verdict_text(settle(sheet, number))}"
    return f"J {number} {completion} {verdict_text(judge(sheet, number, completion))}"


def answer_lines(data):
    sheet = checker.Sheet()
    given = {}  # answers to the questions since the last edge
    try:
        for mark, body in checker.steps(data, sheet):
            if mark == b"QU":
                if body not in given:
                    given[body] = question_line(sheet, body)
                yield given[body]
            else:
                given = {}
    except splitter.Fault as fault:
        yield str(fault)


def answer(data):
    """What is printed of a whole case file."""
    return "".join(line + "\n" for line in answer_lines(data))


# The self-test.

# File, question and what docs/MODELS.md says of it.
WORKED = [
    *[("blank", ("settle", number), "allowed 0") for number in NUMBERS],
    ("message-passing", ("judge", 0, 0), "axiom 0: 0 1 2 3"),
    ("message-passing", ("judge", 2, 0), "axiom 4: 3"),
    ("message-passing-block-scope", ("settle", 2), "allowed 0"),
    ("two-writes", ("open", 0), "0-1"),
    ("two-writes", ("open", 2), ""),
    ("two-writes", ("judge", 2, 1), "refused 1"),
    ("two-writes-and-read", ("settle", 0), "allowed 1"),
    ("stale-constant-read", ("judge", 0, 0), "axiom 0: 0 1"),
    ("stale-constant-read", ("settle", 16), "allowed 0"),
    ("stale-constant-read", ("judge", 2, 0), "axiom 1: 0 1"),
    ("stale-constant-read", ("settle", 3), "allowed 0"),
    ("constant-read-behind-fence", ("judge", 16, 0), "axiom 0: 0 1 2"),
    ("constant-read-behind-fence", ("judge", 3, 0), "axiom 4: 2"),
    ("same-thread-writes", ("settle", 2), "allowed 0"),
    ("same-thread-writes-reversed", ("settle", 2), "forbidden"),
    ("load-buffering", ("settle", 2), "allowed 0"),
    ("load-buffering-dependent", ("judge", 2, 0), "axiom 0: 0 1 2 3"),
]

# Relation and its shortest cycle, among them the example of docs/RULES.md.
CYCLES = [
    ({(0, 4), (4, 7), (7, 0), (5, 3), (3, 5), (6, 3), (3, 6)}, [3, 5]),
    (set(), None),
    ({(0, 1), (1, 2)}, None),
    ({(5, 5)}, [5]),
    ({(0, 1), (1, 0), (9, 9)}, [9]),
    ({(0, 1), (1, 2), (2, 0)}, [0, 1, 2]),
    ({(0, 3), (3, 1), (1, 0), (0, 2), (2, 4), (4, 0)}, [0, 2, 4]),
    ({(0, 1), (1, 5), (5, 6), (6, 0), (1, 6), (0, 2), (2, 6)}, [0, 1, 6]),
    ({(0, 1), (1, 2), (2, 1), (0, 3), (3, 0)}, [0, 3]),
]

# The whole file of the example of docs/FORMAT.md.
EXAMPLE = bytes.fromhex(
    "54480000" "45560001000000070001000000" "45560000000001070000000000" "45560000000000070001000000"
    "52460002" "515500010000" "515503000000" "454e")
EXAMPLE_LINES = "J 0 0 axiom 0: 0 1\nS 3 allowed 0\n"


def changed(place, *values):
    data = bytearray(EXAMPLE)
    data[place:place + len(values)] = bytes(values)
    return bytes(data)


# Variants of it and what docs/FORMAT.md says of them.
VARIANTS = [
    (EXAMPLE, EXAMPLE_LINES),
    (b"", "fault 1 1 0\n"),
    (EXAMPLE[:46], "fault 1 1 43\n"),
    (EXAMPLE[:47], "fault 1 1 47\n"),
    (EXAMPLE[:59], EXAMPLE_LINES + "fault 1 1 59\n"),
    (changed(44, 0x66), "fault 2 1 43\n"),
    (changed(59, 0x54, 0x48), EXAMPLE_LINES + "fault 2 2 59\n"),
    (EXAMPLE + b"\0", EXAMPLE_LINES + "fault 2 3 61\n"),
    (changed(55, 1), "J 0 0 axiom 0: 0 1\nfault 2 4 53\n"),
    (changed(46, 1), "fault 3 5 43\n"),
    (EXAMPLE + bytes(40000), "fault 1 2 32768\n"),
    (b"EN", ""),
]


def asked_of(sheet, question):
    """The answer to a question of the self-test, as a text."""
    if question[0] == "open":
        pairs = open_pairs(sheet, model_of(sheet, question[1]))
        return " ".join(f"{first}-{second}" for first, second in pairs)
    if question[0] == "rows":
        return rows(model_of(sheet, question[1]).relation(question[2], set(sheet.orders)))
    return verdict_text((settle if question[0] == "settle" else judge)(sheet, *question[1:]))


def settled_slowly(sheet, number):
    """Settles by judging each completion."""
    completion = 0
    while True:
        verdict = judge(sheet, number, completion)
        if verdict == ("refused", 1):
            return ("forbidden",)
        if verdict[0] == "refused":
            return verdict
        if verdict[0] == "consistent":
            return "allowed", completion
        completion += 1


def first_of_all_cycles(relation, events):
    """The shortest cycle, the first in lexicographic order, by trying every list of different events."""
    for length in range(1, events + 1):
        for cycle in itertools.permutations(range(events), length):
            if all((cycle[place - 1], cycle[place]) in relation for place in range(length)):
                return list(cycle)
    return None


def random_relations(count, events):
    rng = random.Random(events)
    for _ in range(count):
        chance = rng.choice([0.1, 0.2, 0.3, 0.5])
        yield {pair for pair in itertools.product(range(events), repeat=2) if rng.random() < chance}


def self_test():
    """How many comparisons there were, and those that failed."""
    import litmus  # needs this module

    failed = []
    made = 0

    def compare(what, found, expected):
        nonlocal made
        made += 1
        if found != expected:
            failed.append(f"{what}: {found!r} instead of {expected!r}")

    for name, question, expected in WORKED:
        with open(os.path.join(ROOT, "cases", name + ".case"), "rb") as file:
            compare(f"{name} {question}", asked_of(checker.read(file.read()), question), expected)
    for relation, cycle in CYCLES:
        compare(f"cycle of {sorted(relation)}", shortest_cycle(relation), cycle)
        compare(f"is there a cycle in {sorted(relation)}", has_cycle(relation), cycle is not None)
    for events in range(1, 7):
        for relation in random_relations(60, events):
            cycle = first_of_all_cycles(relation, events)
            compare(f"cycle of {sorted(relation)}", shortest_cycle(relation), cycle)
            compare(f"is there a cycle in {sorted(relation)}", has_cycle(relation), cycle is not None)
    for data, text in VARIANTS:
        compare(f"file {data[:70].hex()}", answer(data), text)
    for name, sheet, expected in litmus.by_hand():
        for question, text in expected:
            compare(f"{name} {question}", asked_of(sheet, question), text)
    for sheet in litmus.sheets(150, 5):
        for number in NUMBERS:
            if len(open_pairs(sheet, model_of(sheet, number))) <= 5:
                what = f"settle {number} {checker.write(sheet).hex()}"
                compare(what, settle(sheet, number), settled_slowly(sheet, number))
    return made, failed


def main():
    if sys.argv[1:] == ["--selftest"]:
        made, failed = self_test()
        for text in failed:
            print(text)
        print(f"{made} comparisons, {len(failed)} failed")
        return 1 if failed else 0
    sys.stdout.write(answer(sys.stdin.buffer.read()))
    return 0


if __name__ == "__main__":
    sys.exit(main())
