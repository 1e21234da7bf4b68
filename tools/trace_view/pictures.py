"""What a picture of a trace shows: rows, spans and arrows. They say what a trace says for sure, and nothing else.

A worker goes on after `assign` and after `answer`. The messages of a proxy to its kernel keep their order: the k-th
`intake` of a process takes what the k-th of its `miss`, `finish` and `ack` posted. A `trap` is joined to the `assign`
of its request where one thread alone can have made it: no line names a thread or a process above 16, so that each
process has one thread. A thread above 16 is of a process where the process has its number, or where its round alone
can be the one that is acknowledged.
"""

from typing import NamedTuple

from traces import named

ON_CORE = ("run", "trap", "deliver")
OF_THREAD = ("begin", "interrupt", "wait")
OF_KERNEL = ("intake", "answer", "reap")
OF_PROXY = ("fetch", "assign", "unpark", "ack")
OF_WORKER = ("miss", "pin", "copy", "unpin", "act", "park", "finish")
POSTED = {"miss": "fault", "finish": "reply", "ack": "acknowledgement"}
MOST_GUESTS = 16
# each kind with its colour and its words
KINDS = {
    "run": ("#4878a8", ("run",)),
    "trap": ("#274766", ("trap",)),
    "signal": ("#c9a227", ("deliver", "interrupt", "script")),
    "message taken": ("#9aa5b1", ("fetch", "intake")),
    "request": ("#5a9367", ("assign", "act", "finish")),
    "mirror fault": ("#c2543a", ("miss", "answer")),
    "copy": ("#8a5fa0", ("pin", "copy", "unpin")),
    "waiting": ("#b08968", ("park", "unpark", "wait")),
    "round": ("#d07fa0", ("begin", "ack")),
    "end": ("#444444", ("reap",)),
}
SPAN_OF = {"assign": "request", "finish": "request", "park": "request", "pin": "pin", "unpin": "pin"}
CALL_OF = {"begin": "memory call by a round", "wait": "call that waits", "assign": "delegated call"}
KIND_OF = {word: kind for kind, (_, words) in KINDS.items() for word in words}


class Row(NamedTuple):
    """A row, in the order in which rows are shown."""

    group: int  # 0: the cores; P: process P
    part: int  # in group 0 the core; of a process 0: kernel, 1: proxy, 2 + W: worker W
    name: str


class Arrow(NamedTuple):
    kind: str
    first: int
    last: int


class Span(NamedTuple):
    kind: str  # request, pin or round
    row: Row
    first: int
    last: int  # the place of its last event
    ended: bool  # False: the trace ends before it does
    numbers: dict


SCRIPT = Row(2**33, 0, "script")


class Picture:
    def __init__(self, events, guests=()):
        self.events = events
        self.guests = guests
        self.cores = self.known_cores()
        self.processes = {p: p for p in range(1, MOST_GUESTS + 1)}
        self.processes |= {e.numbers[0]: e.numbers[0] for e in events if "process" in named(e)}
        rounds = list(self.rounds())  # (which also finds processes of threads)
        self.rows = [self.row_of(e) for e in events]
        self.shown = sorted(set(self.rows))
        self.spans = sorted([*self.services(), *rounds], key=lambda s: (s.first, -s.last))
        arrows = [*self.call_arrows(), *self.service_arrows(), *self.message_arrows()]
        self.arrows = sorted(arrows, key=lambda a: a[1:])
        self.calls = self.kinds_of_calls()

    def known_cores(self):
        """The core of each thread: as its runs say, else its number modulo the cores that were seen."""
        known = {e.numbers[1]: e.numbers[0] for e in self.events if e.word == "run"}
        count = 1 + max(known.values(), default=0)
        return lambda thread: known.get(thread, thread % count)

    def process_of(self, event):
        """The process of an event, or None."""
        numbers = named(event)
        return numbers.get("process") or self.processes.get(numbers.get("thread"))

    def thread_name(self, thread):
        name = f"thread {thread}"
        return f"{name} ({self.guests[thread - 1]})" if 0 < thread <= len(self.guests) else name

    def kernel_row(self, thread):
        process = self.processes.get(thread)
        if process:
            return Row(process, 0, f"kernel {process}")
        return Row(2**32 + thread, 0, f"kernel of thread {thread}")

    def row_of(self, event):
        word, (first, *rest) = event.word, event.numbers
        if word in ON_CORE:
            core = first if word == "run" else self.cores(first)
            return Row(0, core, f"core {core}")
        if word == "script":
            return SCRIPT
        if word in OF_THREAD:
            return self.kernel_row(first)
        if word in OF_KERNEL:
            return Row(first, 0, f"kernel {first}")
        if word in OF_PROXY:
            return Row(first, 1, f"proxy {first}")
        return Row(first, 2 + rest[0], f"worker {first}.{rest[0]}")

    def services(self):
        """A request from its `assign` to its `finish`, or to where its worker parks it; a pin from `pin` to `unpin`."""
        begun = {}
        end = len(self.events) - 1
        for e in self.events:
            kind = SPAN_OF.get(e.word)
            if kind and e.word in ("assign", "pin"):
                begun[kind, e.numbers] = e.place
            elif kind and (kind, e.numbers) in begun:
                yield self.service(kind, e.numbers, begun.pop((kind, e.numbers)), e.place, True)
        for (kind, numbers), first in begun.items():
            yield self.service(kind, numbers, first, end, False)

    @staticmethod
    def service(kind, numbers, first, last, ended):
        process, worker = numbers
        row = Row(process, 2 + worker, f"worker {process}.{worker}")
        return Span(kind, row, first, last, ended, {"process": process, "worker": worker})

    def rounds(self):
        """A round from its `begin` to the `intake` of its acknowledgement."""
        taken = {message.place: intake for message, intake in self.taken() if message.word == "ack"}
        known, unknown = {}, []
        end = len(self.events) - 1
        for e in self.events:
            if e.word == "begin":
                process = self.processes.get(e.numbers[0])
                if process:
                    known[process] = e
                else:
                    unknown.append(e)
            elif e.word == "ack":
                process = e.numbers[0]
                if process not in known and len(unknown) == 1:
                    known[process] = unknown.pop()
                    self.processes[known[process].numbers[0]] = process
                if process in known:
                    begin, intake = known.pop(process), taken.get(e.place)
                    yield self.round(begin, process, intake.place if intake else end, bool(intake))
        for process, begin in known.items():
            yield self.round(begin, process, end, False)

    @staticmethod
    def round(begin, process, last, ended):
        row = Row(process, 0, f"kernel {process}")
        return Span("round", row, begin.place, last, ended, {"process": process, "thread": begin.numbers[0]})

    def service_arrows(self):
        """From `assign` and `answer` to what the worker does next."""
        given = {}
        for e in self.events:
            worker = e.numbers[:2]
            if e.word in ("assign", "answer"):
                given[worker] = e
            elif e.word in OF_WORKER and worker in given:
                before = given.pop(worker)
                yield Arrow("request" if before.word == "assign" else "row", before.place, e.place)

    def taken(self):
        """Each message of a proxy with the `intake` that takes it."""
        posted = {}
        for e in self.events:
            if e.word in POSTED:
                posted.setdefault(e.numbers[0], []).append(e)
            elif e.word == "intake" and posted.get(e.numbers[0]):
                yield posted[e.numbers[0]].pop(0), e

    def message_arrows(self):
        """From a proxy's message to the `intake` that takes it, and from that of a fault to its worker's `answer`."""
        answers = {}
        for e in reversed(self.events):
            if e.word == "answer":
                answers.setdefault(e.numbers, []).append(e)
        for message, intake in self.taken():
            yield Arrow(POSTED[message.word], message.place, intake.place)
            if message.word == "miss" and answers.get(message.numbers):
                yield Arrow("fault", intake.place, answers[message.numbers].pop().place)

    def has_one_thread_each(self):
        numbers = [n for e in self.events for name, n in named(e).items() if name in ("thread", "process")]
        return max(numbers, default=0) <= MOST_GUESTS

    def call_arrows(self):
        """From the `trap` of a delegated call to the `assign` of its request, where each process has one thread."""
        if not self.has_one_thread_each():
            return
        trapped, parked = {}, set()
        for e in self.events:
            process = e.numbers[0]
            if e.word == "trap":
                trapped[process] = e
            elif e.word == "park":
                parked.add(process)
            elif e.word == "assign" and process in parked:
                parked.discard(process)
            elif e.word == "assign" and process in trapped:
                yield Arrow("request", trapped.pop(process).place, e.place)

    def kinds_of_calls(self):
        """For the place of a `trap` what came of it, where each process has one thread: a trace names no call."""
        if not self.has_one_thread_each():
            return {}
        calls, trapped = {}, {}
        for e in self.events:
            if e.word == "trap":
                trapped[e.numbers[0]] = e.place
            elif e.word in ("begin", "wait", "assign") and e.numbers[0] in trapped:
                calls.setdefault(trapped[e.numbers[0]], CALL_OF[e.word])
            elif e.word == "run":
                place = trapped.pop(e.numbers[1], None)
                if place is not None:
                    calls.setdefault(place, "answered at once")
        return calls

    def group_name(self, row):
        if row.group == 0:
            return "cores"
        if row.group > 2**32:
            return row.name
        name = f"process {row.group}"
        return f"{name} ({self.guests[row.group - 1]})" if row.group <= len(self.guests) else name

    def told(self, event):
        """The event's numbers, and the names behind them."""
        numbers = named(event)
        if "thread" in numbers and numbers["thread"] <= len(self.guests):
            numbers["guest"] = self.guests[numbers["thread"] - 1]
        elif "process" in numbers and numbers["process"] <= len(self.guests):
            numbers["guest"] = self.guests[numbers["process"] - 1]
        if event.place in self.calls:
            numbers["call"] = self.calls[event.place]
        return numbers
