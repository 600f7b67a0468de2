#!/usr/bin/env python3
"""Writes the case files of this folder, one for each sheet of the table at the end.

A case file is a row of records. A record is a mark of two ASCII letters and a body of a fixed size; a number of more
than one byte has its low byte first.

    TH  block, device                                                        a thread
    EV  thread, kind, grade, scope, proxy, address (2 bytes), value (4)      an event
    RF  write, read                                                          the read takes its value from the write
    OR  first, second                                                        two writes, or two fences, in order
    AT  read, write                                                          the two are one atomic step
    DE  read, event                                                          the later event depends on the read
    QU  model, question, completion (2 bytes)                                a question, answered where it stands
    EN                                                                       the end
"""

import os

READ, WRITE, FENCE, PROXY_FENCE = range(4)
WEAK, RELAXED, ACQUIRE, RELEASE, ACQUIRE_RELEASE, SEQUENTIAL = range(6)
THREAD, BLOCK, DEVICE, SYSTEM = range(4)
GENERIC, CONSTANT, TEXTURE, SURFACE = range(4)
SETTLE, JUDGE = range(2)

SC, PTX, PROXIES = 0, 2, 3
LAYER = 16  # added to a model: the model under the view layer
MODELS = [SC, PTX, PROXIES, LAYER + SC, LAYER + PTX, LAYER + PROXIES]

X, Y = 7, 8


def thread(block, device=0):
    return b"TH" + bytes([block, device])


def event(of, kind, address=0, value=0, grade=WEAK, scope=THREAD, proxy=GENERIC):
    return b"EV" + bytes([of, kind, grade, scope, proxy]) + address.to_bytes(2, "little") + value.to_bytes(4, "little")


def edge(mark, first, second):
    return mark.encode("ascii") + bytes([first, second])


def question(model, asked, completion=0):
    return b"QU" + bytes([model, asked]) + completion.to_bytes(2, "little")


def settles():
    """What each model says of the sheet."""
    return [question(model, SETTLE) for model in MODELS]


def judges(*models):
    """What is wrong with the first completion, under these models."""
    return [question(model, JUDGE, 0) for model in models]


def message_passing(scope):
    return [
        thread(block=0),
        thread(block=1),
        event(0, WRITE, X, 1),
        event(0, WRITE, Y, 1, RELEASE, scope),
        event(1, READ, Y, 1, ACQUIRE, scope),
        event(1, READ, X, 0),
        edge("RF", 1, 2),
    ]


def load_buffering():
    return [
        thread(block=0),
        thread(block=1),
        event(0, READ, X, 1),
        event(0, WRITE, Y, 1),
        event(1, READ, Y, 1),
        event(1, WRITE, X, 1),
        edge("RF", 1, 2),
        edge("RF", 3, 0),
    ]


SHEETS = {
    "blank": settles() + judges(*MODELS),
    "message-passing": message_passing(DEVICE) + settles() + judges(SC, PTX),
    "message-passing-block-scope": message_passing(BLOCK) + settles() + judges(PTX),
    "two-writes": [
        thread(block=0),
        thread(block=1),
        event(0, WRITE, X, 1),
        event(1, WRITE, X, 2),
        *settles(),
        *judges(SC, PTX),
        question(PTX, JUDGE, 1),
    ],
    "two-writes-and-read": [
        thread(block=0),
        thread(block=1),
        event(0, WRITE, X, 1),
        event(1, WRITE, X, 2),
        event(1, READ, X, 1),
        edge("RF", 0, 2),
        *settles(),
        *judges(SC),
        question(SC, JUDGE, 1),
    ],
    "stale-constant-read": [
        thread(block=0),
        event(0, WRITE, X, 1),
        event(0, READ, X, 0, proxy=CONSTANT),
        event(0, READ, X, 1),
        edge("RF", 0, 2),
        question(SC, JUDGE, 0),
        question(PROXIES, SETTLE),
    ],
    "constant-read-behind-fence": [
        thread(block=0),
        event(0, WRITE, X, 1),
        event(0, PROXY_FENCE, proxy=CONSTANT),
        event(0, READ, X, 0, proxy=CONSTANT),
        *settles(),
        *judges(LAYER + SC, PROXIES),
    ],
    "same-thread-writes": [
        thread(block=0),
        event(0, WRITE, X, 1),
        event(0, WRITE, X, 2),
        *settles(),
        *judges(PTX),
    ],
    "same-thread-writes-reversed": [
        thread(block=0),
        event(0, WRITE, X, 1),
        event(0, WRITE, X, 2),
        edge("OR", 1, 0),
        *settles(),
        *judges(PTX),
    ],
    "load-buffering": load_buffering() + settles() + judges(PTX),
    "load-buffering-dependent": [
        *load_buffering(),
        edge("DE", 0, 1),
        edge("DE", 2, 3),
        *settles(),
        *judges(PTX),
    ],
}


def main():
    folder = os.path.dirname(os.path.abspath(__file__))
    for name, records in SHEETS.items():
        with open(os.path.join(folder, name + ".case"), "wb") as file:
            file.write(b"".join(records) + b"EN")


if __name__ == "__main__":
    main()
