"""What a trace alone tells of a run: why an event may not happen where it stands, and what each thread waits for.

A trace has no memory and no registers, so not all can be told. What is told holds for sure: it follows from the events
before and from the job's numbers (docs/DEFINITIONS.md has the events, Events.antt when each may happen).
"""

from collections import defaultdict

from traces import named

MOST_GUESTS = 16
POSTED = {"miss": "fault", "finish": "reply", "ack": "acknowledgement"}
# when each event may happen
RULES = {
    "run": "thread T is ready on core C, no signal is due to it, and N is 1 to 64 and within the limit",
    "trap": "the thread's last instruction stopped it",
    "deliver": "the thread is ready, and a signal is due to it",
    "begin": "the thread's call changes present pages, and no round of its process is under way",
    "interrupt": "a signal is due to the thread, or its process dies, while a call of it waits",
    "wait": "the thread waits for a child, and one has ended",
    "intake": "a message of the proxy waits for the kernel",
    "answer": "the kernel has taken a fault of this worker, and no round closes its page",
    "reap": "the process dies, none of its threads is left, and no message is on its way",
    "script": "the signal line wasn't sent, and its guest lives and has executed its instructions",
    "fetch": "a message waits in the ring",
    "assign": "a request waits, and the worker serves none",
    "miss": "the worker's request has a piece to move, whose page has no row in the mirror",
    "pin": "the worker's request has a piece to move, whose page has a row in the mirror",
    "copy": "the worker has pinned a frame, and moved nothing yet",
    "unpin": "the worker has a pinned frame, and moved its piece or has none to move",
    "act": "the worker's request is at a step on files",
    "park": "the worker's request can't go on now",
    "unpark": "the request is parked, and can go on",
    "finish": "the worker's request has ended, and it has no pin",
    "ack": "the proxy has fetched the clear of a round, and has no pin in its range",
}


class Worker:
    """What a worker does: the line from which it serves a request, and the lines of its pin, its fault, its park."""

    def __init__(self):
        self.assigned = self.pinned = self.copied = self.missed = self.answered = self.parked = None

    def end(self):
        self.__init__()


class Thread:
    """The line and the word of its last event; the line of a round that it waits for."""

    def __init__(self):
        self.line = self.word = self.round = None
        self.may_have_stopped = False


class Followed:
    """What is known behind the events that were taken."""

    def __init__(self, job=None):
        self.guests = job.guests() if job else []
        self.cores, self.workers = (job.value("cores", 1), job.value("workers", 2)) if job else (None, None)
        self.rings = job.value("rings", 1) if job else None
        self.signals = len(job.numbers("signal")) if job else None
        self.threads, self.of_worker = defaultdict(Thread), defaultdict(Worker)
        self.messages, self.noted = defaultdict(list), defaultdict(set)
        self.changing, self.reaped, self.sent, self.parks = defaultdict(list), {}, {}, defaultdict(int)

    # ---- why an event may not happen

    def refusal(self, event):
        """Why the event may not happen now, as far as it is known, or None."""
        numbers = named(event)
        for check in (self.of_numbers, self.of_ended, getattr(self, f"of_{event.word}", None)):
            why = check(**numbers) if check else None
            if why:
                return why
        if "worker" in numbers and event.word not in ("assign", "answer"):
            return self.of_work(event.word, numbers["process"], numbers["worker"])
        return None

    def of_numbers(self, thread=None, process=None, core=None, worker=None, ring=None, signal=None, **_):
        count = len(self.guests)
        for kind, number in (("thread", thread), ("process", process)):
            if count and number is not None and (number == 0 or count < number <= MOST_GUESTS):
                return f"there is no {kind} {number}: the job has {count} guests, and later numbers begin at 17"
        of_job = (("core", core, self.cores), ("worker", worker, self.workers), ("ring", ring, self.rings))
        for kind, number, most in of_job:
            if number is not None and most is not None and number >= most:
                return f"there is no {kind} {number}: the job has {most}, which count from 0"
        if signal is not None and self.signals is not None and signal >= self.signals:
            return f"there is no signal line {signal}: the job has {self.signals}, which count from 0"

    def of_ended(self, thread=None, process=None, **_):
        process = thread if process is None and (thread or 0) <= MOST_GUESTS else process
        if process in self.reaped:
            return f"process {process} was reaped in line {self.reaped[process]}"

    def of_run(self, core, thread, steps):
        if not 1 <= steps <= 64:
            return f"a run has 1 to 64 instructions, here {steps}"
        if self.cores and thread % self.cores != core:
            return f"thread {thread} is on core {thread % self.cores}, its number modulo the {self.cores} cores"
        return self.of_round(thread)

    def of_round(self, thread):
        if self.threads[thread].round:
            return f"thread {thread} waits for the round that it began in line {self.threads[thread].round}"

    def of_trap(self, thread):
        it = self.threads[thread]
        if not it.may_have_stopped:
            return f"no instruction of thread {thread} was run since {f'line {it.line}' if it.line else 'its start'}"

    def of_deliver(self, thread):
        return self.of_round(thread)

    def of_begin(self, thread):
        it = self.threads[thread]
        if it.word != "trap":
            return f"thread {thread} has made no call that waits for a round"

    def of_wait(self, thread):
        if self.threads[thread].word != "trap":
            return f"thread {thread} has made no call that waits"

    def of_intake(self, process):
        if not self.messages[process]:
            return f"no message of proxy {process} is on its way: each that was posted is taken"

    def of_answer(self, process, worker):
        if worker not in self.noted[process]:
            return f"the kernel has taken no fault of worker {process}.{worker} that isn't answered"

    def of_reap(self, process):
        if self.messages[process]:
            return f"a message of proxy {process}, a {self.messages[process][0][0]}, isn't taken yet"

    def of_script(self, signal):
        if signal in self.sent:
            return f"it was sent in line {self.sent[signal]} already"

    def of_assign(self, process, worker):
        it = self.of_worker[process, worker]
        if it.assigned and not it.parked:
            return f"worker {process}.{worker} serves a request since line {it.assigned}"

    def of_unpark(self, process, request):
        if not self.parks[process]:
            return f"no request of process {process} is parked"

    def of_work(self, word, process, worker):
        it, name = self.of_worker[process, worker], f"worker {process}.{worker}"
        if not it.assigned:
            return f"{name} serves no request"
        if word in ("copy", "unpin"):
            if not it.pinned:
                return f"{name} has no pin"
            return f"{name} has moved its piece in line {it.copied}" if word == "copy" and it.copied else None
        if it.pinned:
            return f"{name} has a pin since line {it.pinned}"
        if it.missed:
            where = f"answered in line {it.answered} and not fetched" if it.answered else "not answered"
            return f"the fault of {name} in line {it.missed} is {where}"
        if it.parked and word != "finish":
            return f"{name} has parked its request in line {it.parked}"

    # ---- what an event changes

    def take(self, event):
        """Takes an event, which happens."""
        numbers, line = named(event), event.place + 2
        thread, process = numbers.get("thread"), numbers.get("process")
        if thread is not None:
            it = self.threads[thread]
            it.line, it.word, it.may_have_stopped = line, event.word, event.word == "run"
            if event.word == "begin":
                it.round = line
                self.changing[thread if thread <= MOST_GUESTS else None].append(thread)
        elif event.word == "script":
            self.sent[numbers["signal"]] = line
        elif event.word == "reap":
            self.reaped[process] = line
        elif event.word in ("intake", "fetch", "unpark"):
            getattr(self, f"take_{event.word}")(process)
        else:
            self.take_of_worker(event.word, process, numbers.get("worker"), line)

    def take_intake(self, process):
        if not self.messages[process]:
            return
        kind, worker = self.messages[process].pop(0)
        if kind == "fault":
            self.noted[process].add(worker)
        elif kind == "acknowledgement":
            # the round of the process's own thread, or of one of those whose process no line tells
            ended = self.changing.pop(process, None) or self.changing.pop(None, [])
            for thread in ended:
                self.threads[thread].round = None

    def take_fetch(self, process):
        for (of, _), it in self.of_worker.items():
            if of == process and it.answered:
                it.missed = it.answered = None

    def take_unpark(self, process):
        self.parks[process] -= 1

    def take_of_worker(self, word, process, worker, line):
        it = self.of_worker[process, worker]
        if word in POSTED:
            self.messages[process].append((POSTED[word], worker))
        if word == "assign":
            it.end()
            it.assigned = line
        elif word == "miss":
            it.missed = line
        elif word == "answer":
            self.noted[process].discard(worker)
            it.answered = line
        elif word == "pin":
            it.pinned, it.copied = line, None
        elif word == "copy":
            it.copied = line
        elif word == "unpin":
            it.pinned = it.copied = None
        elif word == "park":
            it.parked = line
            self.parks[process] += 1
        elif word == "finish":
            if it.parked:
                self.parks[process] -= 1  # it was interrupted there, and not parked
            it.end()

    # ---- what each thread waits for

    def name_of(self, thread):
        guest = f' ("{self.guests[thread - 1][0]}")' if 0 < thread <= len(self.guests) else ""
        return f"thread {thread}{guest}"

    def waiting(self):
        """A line for each thread that isn't known to be gone."""
        all_threads = sorted({*self.threads, *range(1, len(self.guests) + 1)})
        return [f"{self.name_of(t)}: {self.waits_for(t)}" for t in all_threads if t not in self.reaped]

    def waits_for(self, thread):
        it = self.threads[thread]
        if it.line is None:
            return "no event of it happened"
        if it.round:
            return f"waits for the round that it began in line {it.round} to be acknowledged"
        if it.word == "run":
            return f"executed instructions last, in line {it.line}"
        if it.word != "trap":
            return f"its last event is {it.word}, in line {it.line}"
        return f"made a call in line {it.line}, {self.call_of(thread)}"

    def call_of(self, thread):
        """What became of the call of a thread that trapped last."""
        if thread > MOST_GUESTS or any(other > MOST_GUESTS for other in self.threads):
            return "and nothing of it came after that"
        served = [(w, it) for (p, w), it in self.of_worker.items() if p == thread and it.assigned]
        for worker, it in served:
            if it.assigned > self.threads[thread].line:
                return f"which worker {thread}.{worker} serves: {self.work_of(it)}"
        return "which no worker serves: it waits in the lightweight kernel, by futex or wait4, or has ended"

    @staticmethod
    def work_of(it):
        if it.parked:
            return f"parked in line {it.parked}, it waits for the other end of a pipe"
        if it.missed:
            return f"it waits for the row of a page since line {it.missed}"
        if it.pinned:
            return f"it has a pin since line {it.pinned}"
        return f"since line {it.assigned}"
