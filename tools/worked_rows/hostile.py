"""Rows of hostile guests, which the built program walks in order 0 and in orders 1 to 16: for each, a guest, a job and what every report says."""

from guests import Guest, inputs, job, report

CLONE = 0x100 | 0x200 | 0x400 | 0x800 | 0x10000
PAGE, TOP = 4096, 0x3F00000000
LOWEST, TRAMPOLINE = 0x10000, 0x3FFFFFF000
MOST = 2**64 - 1
EFAULT, EINVAL, EFBIG, ENOMEM, ENAMETOOLONG = -14, -22, -27, -12, -36

# the guest, the job, and the whole report
REPORTS = {}
# the guest, the job, and lines of the report; its output is of whole pages
LINES = {}


def ends(name, guest, frames, life="exit 0", output=b"", given=(), **counts):
    """A guest of one thread: the whole report is the same in every order."""
    counts = {"instructions": guest.straight, **counts}
    wanted = report("done", [(1, life)], [(1, output)], free=frames, **counts)
    REPORTS[name] = guest.end(), job(frames, inputs=inputs(*given)) if given else job(frames), wanted.plain


def guest_of(build):
    guest = Guest()
    build(guest)
    guest.straight = guest.instructions()
    return guest


def and_a_fetch(build):
    """One instruction more: the one that can't be fetched."""
    guest = guest_of(build)
    guest.straight += 1
    return guest


def expects(*calls):
    """A guest that makes these calls, expects these answers, and exits."""

    def build(guest):
        for arguments, answer in calls:
            guest.call(*arguments)
            guest.expect(answer)
        guest.exit()

    return guest_of(build)


def mmap(length, prot=3):
    return 222, 0, length, prot, 0x22


# ---- addresses that wrap

ends("a write whose buffer passes 2^64", expects(((64, 1, MOST, 2), EFAULT)), 18, requests=1, faults=1)
ends("writes at the last address", expects(((64, 1, MOST, 1), EFAULT), ((68, 1, MOST, 2, 0), -29)), 18, requests=2, faults=1)
ends("a load across the end of all addresses", guest_of(lambda g: (g.set("a0", MOST - 3), g.load("a0", 0, "a0"))), 18, "killed 11")
ends("a store at the last address", guest_of(lambda g: (g.set("a0", MOST), g.store("a0", 0, "a0"))), 18, "killed 11")
ends("a jump to the last word of all addresses", and_a_fetch(lambda g: (g.set("a0", MOST - 3), g.emit("word", 0x00050067))), 18, "killed 11")

# ---- absurd lengths

ends("lengths that no memory has", expects(
    (mmap(MOST), ENOMEM), (mmap(2**63), ENOMEM), (mmap(0), EINVAL), ((215, LOWEST, MOST), EINVAL), ((215, LOWEST, 0), EINVAL), ((226, LOWEST, MOST, 1), ENOMEM),
    ((226, LOWEST, 0, 1), 0), ((214, MOST), 0x11000), ((214, 0), 0x11000)), 18)
ends("a read of all lengths from an empty input", expects((mmap(PAGE), TOP - PAGE), ((63, 0, TOP - PAGE, MOST), 0)), 19, requests=1)
ends("a write of all lengths from one page", expects((mmap(PAGE), TOP - PAGE), ((64, 1, TOP - PAGE, MOST), PAGE)), 19, output=bytes(PAGE), requests=1, faults=2)
ends("vectors without an end", expects(((66, 1, MOST, 17), EINVAL), ((66, 1, MOST, -1), EINVAL), ((66, 1, MOST, 1), EFAULT), ((66, 1, 0, 0), 0)), 18, requests=4, faults=1)
ends("a path without an end", expects((mmap(2 * PAGE), TOP - 2 * PAGE), ((63, 0, TOP - 2 * PAGE, 2 * PAGE), 2 * PAGE), ((56, -100, TOP - 2 * PAGE, 0), ENAMETOOLONG)), 20,
     requests=2, faults=2, given=[(1, b"a" * 2 * PAGE)])



def far_writes(g):
    path = g.blob(b"/f\0")
    for arguments, answer in (
            ((56, -100, path, 0x42, 0o600), 3), ((68, 3, path, 2, 2**40), EFBIG), ((62, 3, 2**40, 0), 2**40), ((64, 3, path, 2), EFBIG), ((35, -100, path, 0), 0)):
        g.call(*arguments)
        g.expect(answer)
    g.exit()


ends("writes far past the limit of a file", guest_of(far_writes), 18, requests=5, faults=1)

# ---- no stack, no code

ends("a return from no handler with sp 0", guest_of(lambda g: (g.set("sp", 0), g.call(139))), 18, "killed 11")


def deliver_without_a_stack(g):
    act = g.blob(bytes(24))
    g.address("t1", "handler")
    g.address("t2", act)
    g.store("t1", 0, "t2")
    g.call(134, 10, act, 0, 8)
    g.expect(0)
    g.label("handler")
    g.set("sp", 0)
    g.call(129, 1, 10)


ends("a signal with sp 0", guest_of(deliver_without_a_stack), 18, "killed 11")
ends("a store to the trampoline", guest_of(lambda g: (g.set("a0", TRAMPOLINE), g.store("a0", 0, "a0"))), 18, "killed 11")
ends("everything is unmapped", and_a_fetch(lambda g: g.call(215, LOWEST, TRAMPOLINE - LOWEST)), 18, "killed 11", rounds=1)
ends("the code's right to be executed is taken", and_a_fetch(lambda g: g.call(226, LOWEST, PAGE, 1)), 18, "killed 11", rounds=1)

# ---- a thread unmaps what another one writes

SIZE = 16 * PAGE


def written_and_unmapped():
    """The second thread unmaps the buffer and has its frames for another mapping; the first one's write moves whole pages or none."""
    g = Guest()
    g.call(*mmap(PAGE))
    g.call(*mmap(SIZE))
    g.set("s0", "a0")
    g.call(220, CLONE, TOP - 0x100, 0, 0, 0)
    g.branch("a0", "x0", "writer")
    g.call(215, "s0", SIZE)
    g.expect(0)
    g.call(*mmap(SIZE))
    g.expect(TOP - PAGE - SIZE)
    g.call(93, 0)
    g.label("writer")
    g.call(64, 1, "s0", SIZE)
    g.set("t0", EFAULT)
    g.branch("a0", "t0", "moved")
    g.call(93, 0)
    g.label("moved")
    g.emit("word", 0x03451313)
    g.branch("t1", "x0", "part")
    g.call(93, 0)
    g.label("part")
    g.exit(99)
    return g.end()


UNMAPPED = b"end done", b"guest 1 exit 0", b"count requests 1", b"count rounds 1", b"count free 35"
LINES["a buffer is unmapped under a write"] = written_and_unmapped(), job(18 + 1 + 16), UNMAPPED
LINES["a buffer is unmapped under a write, on two cores"] = written_and_unmapped(), job(18 + 1 + 16, 2), UNMAPPED
