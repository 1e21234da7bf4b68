"""The worked rows: for each, guests, a job and what is expected of the journal that the definitions give."""

from guests import Guest, event, events, files, image, inputs, job, lines_of, report, signals, text

CLONE = 0x100 | 0x200 | 0x400 | 0x800 | 0x10000
ANONYMOUS, FIXED = 0x22, 0x10
TOP = 0x3F00000000
STACK = TOP - 0x100
ENDED = [(1, "exit 0")]

ROWS = {}
# of the rows that are walks in order 0: the guests' words and data, the job, the report and the trace, in plain data
RUNS = {}
# of walks in order 0 whose counts depend on the order: the guests, the job, and lines of the report
LINES = {}


class Row:
    """A file of equations, each true by computation."""

    def __init__(self, title, guests, job_term):
        self.title, self.terms, self.names, self.job = title, [], [], job_term
        for k, guest in enumerate(guests):
            words, data = guest.words_and_data() if isinstance(guest, Guest) else guest
            self.define(f"image{k + 1}", "Image", image(words, data))
        self.images = "(" + "".join(f"{name} ∷ " for name in self.names) + "[])"
        self.define("the_job", "Job", job_term)

    def define(self, name, of_type, term):
        unfolding = f"unfolding {' '.join(self.names)}\n" if self.names else ""
        self.terms.append(f"{name} : {of_type}\n{unfolding}{name} = {term}\n")
        self.names.append(name)

    def fact(self, name, left, right):
        self.terms.append(f"{name} : {left} ≡ {right}\nunfolding {' '.join(self.names)}\n{name} = refl\n")

    def state(self, journal="journal"):
        return f"(state (boot the_job {self.images}) ({journal}))"

    def walk(self, steps=400, words=None):
        choice = f"(Some (λ (n : ℕ). {words}))" if words else "None"
        self.define("journal", "List Event", f"walk_for {choice} {steps} (start the_job {self.images})")

    def sound(self, chunk=None, chunks=1):
        """Each event may happen and its image is shown, and at the end nothing is stalled that could go on."""
        start = f"(boot the_job {self.images})"
        if chunk is None:
            self.fact("is_sound", f"first_wrong 1 journal {start}", 0)
        else:
            for k in range(chunks):
                part = f"(take {chunk} (drop {k * chunk} journal))"
                self.fact(f"is_sound{k}", f"first_wrong {k * chunk + 1} {part} (state {start} (take {k * chunk} journal))", 0)
            self.fact("is_whole", f"length (drop {chunk * chunks} journal)", 0)
        self.fact("no_stall", f"stall_is_shown {self.state()}", "true")

    def additions(self, process, address, total, chunk, chunks):
        """Nothing happens to a doubleword but atomic additions, and it has their sum at the end."""
        start = f"(boot the_job {self.images})"
        parts = []
        for k in range(chunks):
            at = f"{process} {address} (take {chunk} (drop {k * chunk} journal)) (state {start} (take {k * chunk} journal))"
            self.fact(f"only_adds{k}", f"only_additions {at}", "true")
            parts.append(f"additions {at}")
        self.fact("adds_in_all", " + ".join(parts), total)
        self.fact("is_the_sum", f"doubleword_of {self.state()} {process} {address}", total)


def walked(name, title, guests, job_term, expected, trace=None, steps=400, words=None, chunk=None, chunks=1, sound=True):
    row = Row(title, guests, job_term)
    row.walk(steps, words)
    if trace:
        row.fact("trace_is", "trace_parts journal", lines_of(trace))
    row.fact("report_is", f"report_of the_job {row.images} journal", expected)
    if sound:
        row.sound(chunk, chunks)
    ROWS[name] = row
    if words is None:
        plain = [g.words_and_data() if isinstance(g, Guest) else g for g in guests]
        RUNS[name] = plain, job_term.plain, expected.plain, trace


def ended(name, title, guests, job_term, life, steps=400, words=None, chunk=None, chunks=1):
    """As `walked`, where only the end of process 1 is stated, since the counts depend on the order."""
    row = Row(title, guests, job_term)
    row.walk(steps, words)
    row.fact("life_is", f"(process_of {row.state()}.node 1).life", life)
    row.fact("ending_is", f"ending {row.state()}", "Done")
    row.sound(chunk, chunks)
    ROWS[name] = row


def runs_to(name, guests, job_term, expected, trace=None):
    """A row of which only facts are computed: its whole report, for the program."""
    RUNS[name] = [g.words_and_data() for g in guests], job_term.plain, expected.plain, trace


def runs_with(name, guests, job_term, lines):
    """A row whose counts depend on the order: lines of its report, for the program."""
    LINES[name] = [g.words_and_data() for g in guests], job_term.plain, lines


def told(name, title, guests, job_term, journals, facts, states=()):
    """Journals that are given event by event, and facts of their states."""
    row = Row(title, guests, job_term)
    row.define("starting", "Pair", f"boot the_job {row.images}")
    for part, spelled in journals:
        row.define(part, "List Event", events(spelled))
    for fact, left, right in facts:
        row.fact(fact, left, right)
    ROWS[name] = row


def mmap(guest, length, prot=3, flags=ANONYMOUS, address=0):
    guest.call(222, address, length, prot, flags)


# ---- exit code seven, hello, short calls

SEVEN = ([0x00700513, 0x05D00893, 0x00000073], b"")
HELLO = ([0x00100513, 0x00000597, 0x02058593, 0x00500613, 0x04000893, 0x73, 0x00000513, 0x05E00893, 0x73], b"hello")
HELLO_TRACE = """mctrace 2
run 0 1 64
trap 1
fetch 1
assign 1 0
act 1 0
miss 1 0
intake 1
answer 1 0
fetch 1
pin 1 0
copy 1 0
unpin 1 0
finish 1 0
intake 1
run 0 1 64
trap 1
reap 1"""

walked("ExitCodeSeven", "exit code seven", [SEVEN], job(18), report("done", [(1, "exit 7")], [(1, b"")], instructions=3, free=18),
       trace="mctrace 2\nrun 0 1 64\ntrap 1\nreap 1")
walked("Hello", "hello by request and mirror fault", [HELLO], job(18), report("done", ENDED, [(1, b"hello")], instructions=9, requests=1, faults=1, free=18),
       trace=HELLO_TRACE)

g = Guest(); g.call(64, 1, 0x20000000, 0); g.expect(0); g.exit(); g.end()
walked("EmptyWrite", "empty write", [g], job(18), report("done", ENDED, [(1, b"")], instructions=g.straight, requests=1, free=18))

g = Guest(); mmap(g, 8192); g.expect(TOP - 8192); g.call(64, 1, TOP - 8192 + 0x800, 8192); g.expect(6144); g.call(64, 1, 0x20000000, 8192); g.expect(-14); g.exit(); g.end()
walked("ShortWrite", "short write at an absent page", [g], job(20), report("done", ENDED, [(1, bytes(6144))], instructions=g.straight, requests=2, faults=4, free=20))

g = Guest(); path = g.blob(b"/f\0"); g.call(56, -100, path, 0); g.expect(3); mmap(g, 4096, 1); g.expect(TOP - 4096); g.call(63, 3, TOP - 4096, 4); g.expect(-14)
g.call(62, 3, 0, 1); g.expect(0); g.exit(); g.end()
READ_ONLY = [g], job(19, files=files(f="abcd")), report("done", ENDED, [(1, b"")], [("/f", b"abcd")], instructions=g.straight, requests=3, faults=2, free=19)
walked("ReadOnlyPage", "read into a page without the write right", *READ_ONLY)
walked("ReadOnlyPageAgain", "read into a page without the write right, in another order", *READ_ONLY, words="n * n * 5 + n")

g = Guest(); mmap(g, 4096); g.expect(TOP - 4096); g.call(63, 0, TOP - 4096, 1); g.expect(1); g.call(226, TOP - 4096, 4096, 1); g.expect(0)
g.call(63, 0, TOP - 4096, 1); g.expect(-14); g.exit(); g.end()
RIGHT_TAKEN = [g], job(19, inputs=inputs((1, "xy"))), report("done", ENDED, [(1, b"")], instructions=g.straight, requests=2, faults=2, rounds=1, free=19)
walked("RightTaken", "a right is taken away", *RIGHT_TAKEN)
walked("RightTakenAgain", "a right is taken away, in another order", *RIGHT_TAKEN, words="n * 7 + 3")

g = Guest(); mmap(g, 15 * 4096); g.expect(TOP - 15 * 4096); mmap(g, 4096); g.expect(-12); g.set("a0", TOP - 4096); g.set("t1", 77); g.store("t1", 0, "a0")
g.call(215, TOP - 4096, 4096); g.expect(0); mmap(g, 4096); g.expect(TOP - 4096); g.load("a0", 0, "a0"); g.expect(0); g.exit(); g.end()
walked("FramesRunOut", "frames run out and come back", [g], job(33), report("done", ENDED, [(1, b"")], instructions=g.straight, rounds=1, free=33))

row = Row("too few frames at boot", [SEVEN], job(17))
row.fact("short", f"shortage the_job {row.images}", "Some (record { guest = 1; needed = 18; free = 17 })")
row.fact("enough", f"shortage ({job(18)}) {row.images}", "None")
ROWS["TooFewFrames"] = row

g = Guest(); mmap(g, 4 * 4096); g.expect(TOP - 4 * 4096); g.set("a0", TOP - 4 * 4096); g.set("t1", 77); g.store("t1", 0, "a0")
mmap(g, 4 * 4096, 3, ANONYMOUS | FIXED, TOP - 4 * 4096); g.expect(TOP - 4 * 4096); g.load("a0", 0, "a0"); g.expect(0); g.exit(); g.end()
walked("FixedOverItself", "fixed mapping over itself", [g], job(22), report("done", ENDED, [(1, b"")], instructions=g.straight, rounds=1, free=22))

g = Guest(); word = g.blob(b"\5\0\0\0\0\0\0\0"); g.call(98, word, 0, 4, 0); g.expect(-11); g.call(98, word, 0, 5, 0); asleep = g.instructions(); g.exit(); g.end()
walked("FutexAlone", "futex wait alone", [g], job(18), report("stalled", [(1, "running")], [(1, b"")], instructions=asleep, free=0))


# ---- signals

def interrupted_read(flags):
    g = Guest(); fds = g.blob(bytes(8)); act = g.blob(bytes(8) + flags.to_bytes(8, "little") + bytes(8)); byte = g.blob(b"z"); buffer = g.blob(bytes(8))
    g.address("t1", "handler"); g.address("t2", act); g.store("t1", 0, "t2"); g.call(134, 10, act, 0, 8); g.expect(0)
    g.call(59, fds, 0); g.expect(0); g.call(63, 3, buffer, 1); at = g.instructions(); g.expect(1 if flags else -4); g.exit(); g.straight = g.instructions()
    g.label("handler"); first = g.instructions(); g.call(64, 4, byte, 1); g.call(139); handler = g.instructions() - first; g.end()
    return g, at, handler


g, at, handler = interrupted_read(0)
walked("ReadInterrupted", "read interrupted by the script, without restart", [g], job(18, signals=signals((2, 1, 10, at))),
       report("done", ENDED, [(1, b"")], instructions=g.straight + handler, requests=3, faults=1, free=18), chunk=30, chunks=3)
g, at, handler = interrupted_read(0x10000000)
walked("ReadRestarted", "read interrupted by the script, with restart", [g], job(18, signals=signals((2, 1, 10, at))),
       report("done", ENDED, [(1, b"")], instructions=g.straight + handler + 1, requests=4, faults=1, free=18), chunk=30, chunks=3)

for name, word, signal in (("Break", 0x00100073, 5), ("Illegal", 0, 4), ("Fault", 0x00003503, 11), ("Misaligned", 0x00600067, 7)):
    walked(f"StopsKill{name}", f"stops kill: {name.lower()}", [([word], b"")], job(18), report("done", [(1, f"killed {signal}")], [(1, b"")], instructions=1, free=18))

walked("LimitOfHundred", "limit of a hundred", [([0x6F], b"")], job(18, limit=100), report("limit", [(1, "running")], [(1, b"")], instructions=100, free=0))

g = Guest(); act = g.blob(bytes(24)); mask = g.blob(bytes([0, 2, 0, 0, 0, 0, 0, 0])); out = g.blob(bytes(8)); got = g.blob(bytes(8))
g.address("t1", "handler"); g.address("t2", act); g.store("t1", 0, "t2"); g.call(134, 10, act, 0, 8); g.expect(0)
g.call(135, 0, mask, 0, 8); g.expect(0); g.call(129, 1, 10); g.expect(0); g.call(136, out, 8); g.expect(0); g.address("t2", out); g.load("a0", 0, "t2"); g.expect(0x200)
g.call(135, 1, mask, 0, 8); g.expect(0); g.address("t2", got); g.load("a0", 0, "t2"); g.expect(10); g.exit(); g.straight = g.instructions()
g.label("handler"); first = g.instructions(); g.address("t2", got); g.store("a0", 0, "t2"); g.call(139); handler = g.instructions() - first; g.end()
walked("BlockedThenHandled", "blocked, then handled", [g], job(18), report("done", ENDED, [(1, b"")], instructions=g.straight + handler, free=18), chunk=12, chunks=6)

walked("UnsentLine", "unsent line", [SEVEN], job(18, signals=signals((3, 1, 10, 5))), report("done", [(1, "exit 7")], [(1, b"")], unsent=[3], instructions=3, free=18))


def parked_read(flags):
    g = Guest(); fds = g.blob(bytes(8)); act = g.blob(bytes(8) + flags.to_bytes(8, "little") + bytes(8)); byte = g.blob(b"z"); buffer = g.blob(bytes(8))
    g.address("t1", "handler"); g.address("t2", act); g.store("t1", 0, "t2"); g.call(134, 10, act, 0, 8); g.expect(0)
    g.call(59, fds, 0); g.expect(0); mmap(g, 4096); g.call(220, CLONE, STACK, 0, 0, 0); g.branch("a0", "x0", "first")
    g.addi("t1", "x0", 100); g.label("spin"); g.addi("t1", "t1", -1); g.branch("t1", "x0", "spin"); g.call(131, 1, 1, 10)
    if flags:
        g.call(64, 4, byte, 1)
    g.call(93, 0); g.label("first"); g.call(63, 3, buffer, 1); g.expect(1 if flags else -4); g.exit(); g.label("handler"); g.call(139)
    return g.end()


ended("ParkedRead", "parked read and a signal, without restart", [parked_read(0)], job(19, 2), "Ended (Exit 0)", chunk=14, chunks=5)
ended("ParkedReadRestarted", "parked read and a signal, with restart", [parked_read(0x10000000)], job(19, 2), "Ended (Exit 0)", chunk=15, chunks=6)

g = Guest(); fds = g.blob(bytes(8)); buffer = g.blob(bytes(8)); g.call(59, fds, 0); g.expect(0); mmap(g, 4096); g.call(220, CLONE, STACK, 0, 0, 0); g.branch("a0", "x0", "first")
g.addi("t1", "x0", 100); g.label("spin"); g.addi("t1", "t1", -1); g.branch("t1", "x0", "spin"); g.call(57, 4); g.call(93, 0)
g.label("first"); g.call(63, 3, buffer, 1); g.expect(0); g.exit(); g.end()
ended("WriterCloses", "the writer closes under a parked read", [g], job(19, 2), "Ended (Exit 0)", chunk=25, chunks=3)


# ---- usual programs

g = Guest(); vectors = g.blob(bytes(32)); first = g.blob(b"hello, "); second = g.blob(b"world"); buffer = g.blob(bytes(8))
g.call(96, buffer); g.expect(1); g.call(29, 1, 0x5413, buffer); g.expect(-25); g.call(214, 0); g.expect(0x11000); g.call(214, 0x12000); g.expect(0x12000)
mmap(g, 4096); g.expect(TOP - 4096); g.address("t2", vectors)
for k, (label, length) in enumerate(((first, 7), (second, 5))):
    g.address("t1", label); g.store("t1", 16 * k, "t2"); g.set("t1", length); g.store("t1", 16 * k + 8, "t2")
g.call(66, 1, vectors, 2); g.expect(12); g.exit(); g.end()
walked("UsualStart", "usual start", [g], job(20), report("done", ENDED, [(1, b"hello, world")], instructions=g.straight, requests=2, faults=1, free=20))

g = Guest(); g.call(29, 1, 0x5413, 0); g.expect(-25); g.call(62, 1, 0, 0); g.expect(-29); g.call(57, 7); g.expect(-9); g.call(1000); g.expect(-38); g.exit(); g.end()
walked("SmallFileCalls", "small file calls", [g], job(18), report("done", ENDED, [(1, b"")], instructions=g.straight, requests=3, free=18))

walked("TwoGuests", "two guests", [HELLO, HELLO], job(36, 2, 2), report("done", [(1, "exit 0"), (2, "exit 0")], [(1, b"hello"), (2, b"hello")], instructions=18, requests=2, faults=2, free=36),
       chunk=20, chunks=2)

g = Guest(); mmap(g, 4096, 1); g.expect(TOP - 4096); g.call(226, TOP - 4096, 4096, 3); g.expect(0); g.call(63, 0, TOP - 4096, 1); g.expect(1); g.exit(); g.end()
walked("RightAdded", "a right is added without a round", [g], job(19, inputs=inputs((1, "x"))), report("done", ENDED, [(1, b"")], instructions=g.straight, requests=1, faults=1, free=19))

g = Guest(); mmap(g, 4096); g.expect(TOP - 4096); g.call(226, TOP - 4096, 4096, 1); g.expect(0); g.call(215, TOP - 4096, 4096); g.expect(0)
g.call(214, 0x13000); g.expect(0x13000); g.call(214, 0x11000); g.expect(0x11000); g.exit(); g.end()
walked("ThreeRounds", "three rounds", [g], job(20), report("done", ENDED, [(1, b"")], instructions=g.straight, rounds=3, free=20))

g = Guest(); g.call(215, 0x20000000, 4096); g.expect(0); g.call(260, -1, 0, 0, 0); g.expect(-10); g.exit(); g.end()
walked("NothingToUnmap", "nothing to unmap, and no child", [g], job(18), report("done", ENDED, [(1, b"")], instructions=g.straight, free=18))

g = Guest(); mmap(g, 4096); g.call(220, CLONE, STACK, 0, 0, 0); g.branch("a0", "x0", "first"); clone_end = g.instructions()
g.addi("t1", "x0", 40); g.label("spin"); g.addi("t1", "t1", -1); g.branch("t1", "x0", "spin"); g.call(93, 9); g.label("first"); rest = g.instructions(); g.call(93, 3); g.end()
walked("FirstThreadsCode", "the first thread's code", [g], job(19), report("done", [(1, "exit 3")], [(1, b"")], instructions=clone_end + (g.straight - rest) + 1 + 1 + 80 + 3, free=19), chunk=20, chunks=3)

g = Guest(); word = g.blob(bytes(8)); mmap(g, 4096); g.call(220, CLONE, STACK, 0, 0, 0); g.branch("a0", "x0", "first")
g.address("t2", word); g.set("t1", 1); g.store("t1", 0, "t2"); g.call(98, word, 1, 1); g.call(93, 0); g.label("first"); g.call(98, word, 0, 0, 0)
g.set("t0", -11); g.branch("a0", "t0", "woken"); g.call(93, 0); g.label("woken"); g.expect(0); g.call(93, 0); g.end()
for suffix, words in (("", None), ("Again", "n * 7 + 3"), ("Third", "n * n + 1")):
    ended(f"NoLostWake{suffix}", "no lost wake", [g], job(19), "Ended (Exit 0)", words=words, chunk=25, chunks=2)


def grow_guest(number, turns):
    g = Guest(); g.set("s1", turns); g.label("loop"); g.set("a0", 0); g.emit("lui", "a1", 4); g.set("a2", 3); g.set("a3", 34); g.set("a7", 222); g.emit("ecall"); g.addi("s0", "a0", 0)
    g.store("s1", 0, "s0"); g.set("a0", 1); g.addi("a1", "s0", 0); g.emit("lui", "a2", 2); g.addi("a2", "a2", 8); g.set("a7", 64); g.emit("ecall"); g.addi("a0", "s0", 0)
    g.emit("lui", "a1", 4); g.set("a7", 215); g.emit("ecall"); g.addi("s1", "s1", -1); g.branch("s1", "x0", "loop"); g.set("a0", number); g.set("a7", 94); g.emit("ecall")
    return g


walked("GrowThree", "grow, with three turns of the loop", [grow_guest(1, 3)], job(22),
       report("done", [(1, "exit 1")], [(1, b"".join(bytes([t]) + bytes(8199) for t in (3, 2, 1)))], instructions=64, requests=3, faults=9, rounds=3, free=22), chunk=30, chunks=5)

g = Guest(); path = g.blob(b"/f\0"); buffer = g.blob(bytes(8)); g.call(56, -100, path, 0x42); g.expect(3); g.call(62, 3, 1048576, 0); g.expect(1048576); g.call(64, 3, buffer, 1); g.expect(-27); g.exit(); g.end()
walked("OffsetLimit", "limit of offsets", [g], job(18), report("done", ENDED, [(1, b"")], [("/f", b"")], instructions=g.straight, requests=3, faults=1, free=18))

g = Guest(); d = g.blob(b"/d\0"); f = g.blob(b"/d/f\0"); slash = g.blob(b"/\0"); above = g.blob(b"/d/..\0"); dotted = g.blob(b"/d/f/.\0"); buffer = g.blob(bytes(200))
CALLS = [((34, -100, d, 0), 0), ((34, -100, d, 0), -17), ((56, -100, f, 0x41), 3), ((64, 3, f, 4), 4), ((35, -100, d, 0), -21), ((35, -100, d, 0x200), -39), ((35, -100, above, 0), -21),
         ((35, -100, above, 0x200), -39), ((35, -100, slash, 0x200), -16), ((56, -100, f, 0xC1), -17), ((56, -100, dotted, 0), 4), ((57, 4), 0), ((35, -100, dotted, 0x200), -22), ((80, 3, buffer), 0)]
for arguments, answer in CALLS:
    g.call(*arguments); g.expect(answer)
g.address("t2", buffer); g.load("a0", 8, "t2"); g.expect(3); g.load("a0", 48, "t2"); g.expect(4)
MORE = [((56, -100, d, 0), 4), ((61, 4, buffer, 200), 72), ((61, 4, buffer, 200), 0), ((35, -100, f, 0), 0), ((62, 3, 0, 1), 4), ((57, 3), 0)]
for arguments, answer in MORE:
    g.call(*arguments); g.expect(answer)
g.exit(); g.end()
walked("Directories", "directories, unlinking, getdents64 and fstat", [g], job(18),
       report("done", ENDED, [(1, b"")], [("/d", None)], instructions=g.straight, requests=len(CALLS) + len(MORE), faults=1, free=18), steps=900, sound=False)

# ---- fork, wait and atomics

FORK_TRACE = """mctrace 2
run 0 1 64
trap 1
run 0 17 64
run 0 1 64
trap 17
reap 17
trap 1
run 0 1 64
trap 1
reap 1"""

g = Guest(); status = g.blob(bytes(8)); g.call(220, 17, 0, 0, 0, 0); g.branch("a0", "x0", "parent"); g.exit(5); g.label("parent"); g.expect(17)
g.call(260, -1, status, 0, 0); g.expect(17); g.address("t2", status); g.load("a0", 0, "t2"); g.expect(1280); g.exit(); g.end()
ended("ForkAndWait", "fork and wait", [g], job(36), "Ended (Exit 0)", chunk=20, chunks=2)
# the parent leaves out the child's three instructions, and the child has the branch before them
runs_to("ForkAndWait", [g], job(36), report("done", [(1, "exit 0"), (17, "exit 5")], [(1, b"")], instructions=g.straight + 1, free=36), trace=FORK_TRACE)
ROWS["ForkAndWait"].fact("child_is", f"(process_of {ROWS['ForkAndWait'].state()}.node 17).life", "Ended (Exit 5)")
ROWS["ForkAndWait"].fact("free_is", f"length {ROWS['ForkAndWait'].state()}.free", "36")

g = Guest(); g.call(220, 17, 0, 0, 0, 0); g.branch("a0", "x0", "parent"); g.exit(5); g.label("parent"); g.expect(-12); g.exit(); g.end()
ended("ForkWithoutFrames", "fork and wait, with too few frames", [g], job(35), "Ended (Exit 0)")
runs_to("ForkWithoutFrames", [g], job(35), report("done", ENDED, [(1, b"")], instructions=g.straight - 3, free=35))

g = Guest(); sums = g.blob(bytes(8)); mmap(g, 4096); g.call(220, 17, 0, 0, 0, 0); g.branch("a0", "x0", "parent"); g.addi("t1", "x0", 60); g.label("spin"); g.addi("t1", "t1", -1); g.branch("t1", "x0", "spin"); g.exit(5)
g.label("parent"); g.call(220, CLONE, STACK, 0, 0, 0); g.call(260, -1, 0, 0, 0); g.address("t2", sums); g.emit("word", 0x00A3B52F)
g.load("t1", 0, "t2"); g.set("t0", 17 - 10); g.branch("t1", "t0", "first"); g.exit(7); g.label("first"); g.call(93, 0); g.end()
ended("TwoWaiters", "two waiters", [g], job(38, 2), "Ended (Exit 7)", chunk=15, chunks=3)
runs_with("TwoWaiters", [g], job(38, 2), ["end done", "guest 1 exit 7", "guest 17 exit 5", "count requests 0", "count rounds 0", "count free 38"])

g = Guest(); total = g.blob(bytes(8)); mmap(g, 4096); g.call(220, CLONE, STACK, 0, 0, 0); g.address("a1", total); g.set("a2", 1); g.set("t1", 5); g.label("loop")
g.emit("word", 0x00C5A52F); g.addi("t1", "t1", -1); g.branch("t1", "x0", "loop"); g.set("t1", 60); g.label("spin"); g.addi("t1", "t1", -1); g.branch("t1", "x0", "spin")
g.load("a0", 0, "a1"); g.expect(10); g.call(93, 0); g.end()
ended("AtomicAdditions", "atomic additions, short", [g], job(19, 2), "Ended (Exit 0)", words="n * 5 + 1", chunk=20, chunks=2)
ROWS["AtomicAdditions"].additions(1, total, 10, chunk=20, chunks=2)

# ---- journals told event by event

g = Guest(); act = g.blob(bytes(24)); data = g.blob(b"hello"); g.address("t1", "handler"); g.address("t2", act); g.store("t1", 0, "t2"); g.call(134, 10, act, 0, 8)
g.call(64, 1, data, 5); at = g.instructions(); g.exit(); g.label("handler"); g.call(139); g.end()
told("ReplyBeforeInterrupt", "the reply comes before the interrupt", [g], job(18, signals=signals((2, 1, 10, at))),
     [("first", "Run 0 1 64, Trap 1, Run 0 1 64, Trap 1, Fetch 1 0, Assign 1 0, Act 1 0, Miss 1 0, Intake 1, Answer 1 0, Fetch 1 0, Pin 1 0, Copy 1 0, Unpin 1 0, Finish 1 0, Script 0, Interrupt 1"),
      ("then", "Intake 1, Fetch 1 0"), ("last", "Deliver 1")],
     [("legal", "may_all starting (first ++ then ++ last)", "true"), ("sound", "first_wrong 1 (then ++ last) (state starting first)", 0),
      ("answers", "reg (thread_of (state starting (first ++ then)).node 1).regs 10", 5), ("dropped", "length (ring 0 (side_of (state starting (first ++ then)) 1).to_linux)", 0),
      ("delivered", "reg (thread_of (state starting (first ++ then ++ last)).node 1).regs 10", 10)])

g = Guest(); mmap(g, 8192); g.call(220, CLONE, STACK, 0, 0, 0); g.branch("a0", "x0", "first"); g.call(215, TOP - 8192, 4096); g.call(93, 0); g.label("first"); g.call(64, 1, TOP - 8192, 4); g.exit(); g.end()
PINNED = "Run 0 1 64, Trap 1, Run 0 1 64, Trap 1, Run 0 1 64, Trap 1, Run 0 17 64, Fetch 1 0, Assign 1 0, Act 1 0, Miss 1 0, Intake 1"
ACKNOWLEDGE = event("AckClear 1")
told("PinHolds", "a pin holds the acknowledgement", [g], job(20),
     [("first", PINNED + ", Answer 1 0, Fetch 1 0, Pin 1 0, Trap 17, BeginVm 17, Fetch 1 0"), ("then", "Copy 1 0, Unpin 1 0"), ("last", "AckClear 1, Intake 1, Finish 1 0, Intake 1")],
     [("legal", "may_all starting (first ++ then ++ last)", "true"), ("waits", f"may (state starting first) ({ACKNOWLEDGE})", "false"),
      ("waits_still", f"may (state starting (first ++ {event('Copy 1 0')} ∷ [])) ({ACKNOWLEDGE})", "false"), ("goes_on", f"may (state starting (first ++ then)) ({ACKNOWLEDGE})", "true"),
      ("sound_first", "first_wrong 1 first starting", 0), ("sound", "first_wrong 1 (then ++ last) (state starting first)", 0), ("freed", "length (state starting (first ++ then ++ last)).free", 1)])
told("AnswerInClosingRange", "no answer in a closing range", [g], job(20),
     [("first", PINNED + ", Trap 17, BeginVm 17"), ("then", "Fetch 1 0, AckClear 1, Intake 1"), ("last", "Answer 1 0, Fetch 1 0, Finish 1 0, Intake 1")],
     [("legal", "may_all starting (first ++ then ++ last)", "true"), ("waits", f"may (state starting first) ({event('Answer 1 0')})", "false"),
      ("goes_on", f"may (state starting (first ++ then)) ({event('Answer 1 0')})", "true"), ("sound", "first_wrong 1 (first ++ then ++ last) starting", 0),
      ("refused", "reg (thread_of (state starting (first ++ then ++ last)).node 1).regs 10", 2**64 - 14)])

g = Guest(); mmap(g, 8192); g.call(220, CLONE, STACK, 0, 0, 0); g.branch("a0", "x0", "go1"); g.call(93, 0); g.label("go1"); g.call(220, CLONE, STACK, 0, 0, 0); g.branch("a0", "x0", "go2")
g.call(64, 1, TOP - 8192, 4); g.call(93, 0); g.label("go2"); g.call(215, TOP - 8192, 4096); g.call(93, 0); g.end()
told("OvertakenAnswer", "overtaken answer", [g], job(20, 2, rings=2),
     [("first", "Run 1 1 64, Trap 1, Run 1 1 64, Trap 1, Run 1 1 64, Trap 1, Run 0 18 64, Trap 18, Fetch 1 0, Assign 1 0, Act 1 0, Miss 1 0, Intake 1, Answer 1 0, Run 1 1 64, Trap 1, BeginVm 1, Fetch 1 1, Fetch 1 0"),
      ("then", "AckClear 1, Intake 1, Miss 1 0, Intake 1, Answer 1 0, Fetch 1 0, Finish 1 0, Intake 1")],
     [("legal", "may_all starting (first ++ then)", "true"), ("sound_first", "first_wrong 1 first starting", 0), ("sound_then", "first_wrong 1 then (state starting first)", 0),
      ("no_row", "length (side_of (state starting first) 1).linux.mirror", 0), ("answers", "reg (thread_of (state starting (first ++ then)).node 18).regs 10", 2**64 - 14)])

row = Row("an interrupted call that moved bytes answers their number", [SEVEN], job(18))
row.fact("moved", "interrupted_answer (record no_progress { moved = 3 })", "pos 3")
row.fact("none_moved", "interrupted_answer no_progress", "negsuc 3")
ROWS["InterruptedAnswer"] = row

# ---- wrong variants of the definitions, and the row that refuses each: the crate's file, each text that stands with the one in its place

WRONG = {
    "stale mirror row": ("hybrid_model", "Fetch", [("mirror = keep l.mirror (λ page. not (in_range r page))", "mirror = l.mirror")], "RightTaken"),
    "early acknowledgement": ("hybrid_model", "AckClear", [("clear_in (Some (Taken, r)) l = no_pin_in r l.pins", "clear_in (Some (Taken, r)) l = not false")], "PinHolds"),
    "early free": ("hybrid_model", "BeginVm", [("changing = Some t }", "changing = Some t; table = no_lwk.table }"), ("Sides.{Side}", "Sides.{Side, no_lwk}")], "ThreeRounds"),
    "answer in a closing range": ("hybrid_model", "Answer", [("noted_may_be_answered o (Some n) = not (closes o n.0)", "noted_may_be_answered o (Some n) = not false")], "AnswerInClosingRange"),
    "interrupt after bytes moved": ("kernel_model", "Progress", [("interrupted_answer p = cond (p.moved == 0) (refused EINTR) (pos p.moved)", "interrupted_answer p = refused EINTR")], "InterruptedAnswer"),
}

if __name__ == "__main__":
    print("\n".join(f"{name}: {row.title}" for name, row in ROWS.items()))
