"""Rows of messages: files, the words of a call, its status, and all that stands on standard error."""

import struct
import sys
from pathlib import Path

HERE = Path(__file__).resolve().parent
sys.path[:0] = [str(HERE), str(HERE.parent / "trace_view"), str(HERE.parent / "worked_rows"), str(HERE.parent)]
from events import RULES  # noqa: E402
from guests import Guest  # noqa: E402
from run import image_bytes  # noqa: E402

ROWS = []
USAGE = ["usage"]  # stands for the lines of the usage
HELLO = bytes.fromhex((HERE.parent.parent / "examples" / "hello.hex").read_text())
TRACE = (HERE.parent.parent / "examples" / "hello.trace").read_text()
JOB = "frames 18\nguest hello\n"


def row(words, status, *told, **files):
    """A call in a folder with these files; `job` and `hello` are always there."""
    ROWS.append((words.split(" ") if words else [], status, list(told), {"job": JOB, "hello": HELLO} | files))


# ---- words

ORDER = "  ORDER is a decimal number below 2^64 without sign or leading zero, here "
row("", 2, "mcexec: words", "  there is no command", *USAGE)
row("frob", 2, "mcexec: words", '  "frob" is no command', *USAGE)
row("walk", 2, "mcexec: words", "  walk takes another number of words than 0", *USAGE)
row("walk job 1 trace x", 2, "mcexec: words", "  walk takes another number of words than 4", *USAGE)
row("walk job x", 2, "mcexec: words", ORDER + '"x"', *USAGE)
row("walk job 01", 2, "mcexec: words", ORDER + '"01"', *USAGE)
row("walk job 18446744073709551616", 2, "mcexec: words", ORDER + '"18446744073709551616"', *USAGE)
row("walk job 7 x", 2, "mcexec: words", '  behind ORDER stands the word trace, here "x"', *USAGE)
row("run job 7", 2, "mcexec: words", '  behind JOB stands the word trace, here "7"', *USAGE)
row("grow 17", 2, "mcexec: words", '  N is a number from 1 to 16, here "17"', *USAGE)
row("grow 2 x", 2, "mcexec: words", ORDER + '"x"', *USAGE)
row("replay job", 2, "mcexec: words", "  replay takes another number of words than 1", *USAGE)
row("walk \udcff", 2, "mcexec: words", "  a word is not UTF-8", *USAGE)


# ---- jobs


def job(text, rule, told):
    """A job, its first broken rule, and what is told of it, behind the number of its line where it has one."""
    line = told.split(":")[0]
    said = f"mcexec: job {'line ' + line + ' ' + rule if line.isdecimal() else 'lacks ' + rule}"
    row("check job", 3, said, f"  job:{told}" if line.isdecimal() else f"  job: {told}", job=text)


job("frames 18\nguest " + "x" * 1_019 + "\n", "length", "2: the line has 1,025 bytes: at most 1,024")
job("frames 18\nguest hello", "length", "2: no line feed ends the last line: put one behind it")
job("frames 18\r\nguest hello\r\n", "byte", "1: column 10 is 0x0d: use LF line ends")
job("frames\t18\n", "byte", "1: column 7 is 0x09, a tab: use one space")
job(b"\xef\xbb\xbfframes 18\n", "byte", "1: column 1 is 0xef, of a byte order mark: save the text without one")
job(b"# caf\xc3\xa9\n", "byte", "1: column 6 is 0xc3: use bytes from 0x20 to 0x7e alone")
job("frame 18\n", "keyword", '1: "frame" begins no line: use frames')
job("Guest hello\n", "keyword", '1: "Guest" begins no line: use guest')
KEYS = "frames, cores, workers, rings, limit, guest, signal, file, input"
job("memory 18\n", "keyword", f'1: "memory" begins no line: use {KEYS}')
job(" frames 18\n", "keyword", "1: the line begins with a space: begin it with its word")
job("frames\n", "count", '1: the form is "frames N", here 0 words stand behind "frames"')
job("frames 1 8\n", "count", '1: the form is "frames N", here 2 words stand behind "frames"')
COMMENT = '1: the form is "cores N", and a comment has a line of its own, here 3 words stand behind "cores"'
job("cores 1 # one\n", "count", COMMENT)
job("frames 18\nguest hello \n", "count", "2: a space ends the line: take it away")
job("frames  18\n", "count", "1: column 8 is a second space: use one between words")
job("frames 18\nguest\n", "count", '2: the form is "guest NAME ARG..", here 0 words stand behind "guest"')
job("guest hello" + " x" * 64 + "\n", "count", "1: 64 words stand behind the guest's name: at most 63")
job("guest hello\nfile /a\n", "count", '2: the form is "file PATH NAME", here 1 word stands behind "file"')
job("frames 18\n# one\nframes 19\n", "repeat", "3: frames stands in line 1 already: use one of them")
job("guest hello\ninput 1 a\ninput 1 b\n", "repeat", "3: guest 1 has an input in line 2 already: use one of them")
job("guest hello\n" * 17, "toomany", "17: this is guest line 17: at most 16")
job("guest hello\n" + "signal 1 10 0\n" * 65, "toomany", "66: this is signal line 65: at most 64")
FILES = "".join(f"file /f{k} hello\n" for k in range(65))
job(FILES, "toomany", "65: this is file line 65: at most 64")
job("frames 99999\n", "number", '1: frames takes 1 to 16000, here "99999"')
DECIMAL = "is a decimal number without sign or leading zero, here"
job("frames 018\n", "number", f'1: frames {DECIMAL} "018"')
job("frames 0x10\n", "number", f'1: frames {DECIMAL} "0x10"')
job("cores 9\n", "number", '1: cores takes 1 to 8, here "9"')
job("workers 0\n", "number", '1: workers takes 1 to 4, here "0"')
job("rings 9\n", "number", '1: rings takes 1 to 8, here "9"')
job("limit 4000001\n", "number", '1: limit takes 1 to 4000000, here "4000001"')
job("guest hello\nsignal x 10 0\n", "number", f'2: the guest of a signal {DECIMAL} "x"')
job("guest hello\nsignal 1 19 0\n", "number", '2: a signal is 1 to 64 without 19 to 22, here "19"')
job("guest hello\nsignal 1 65 0\n", "number", '2: a signal takes 1 to 64, here "65"')
job("guest hello\nsignal 1 10 -1\n", "number", f'2: the instructions of a signal {DECIMAL} "-1"')
job("guest hello\ninput x a\n", "number", f'2: the guest of an input {DECIMAL} "x"')
job("guest hello\nsignal 2 10 0\n", "guest", "2: there is no guest 2: one guest line stands above")
BELOW = "1: there is no guest line above, and the line of guest 1 is 2: put this line below it"
job("input 1 a\nguest hello\n", "guest", BELOW)
job("input 1 a\n", "guest", "1: there is no guest line above")
job("file a hello\n", "path", '1: a path begins with /, here "a"')
job("file /1/2/3/4/5/6/7/8/9 hello\n", "path", "1: the path has 9 names: at most 8")
job("file /a//b hello\n", "path", '1: the path "/a//b" has an empty name')
job("file /a/../b hello\n", "path", '1: the path "/a/../b" has the name ".."')
job(f"file /{'n' * 256} hello\n", "path", "1: a name of the path has 256 bytes: at most 255")
job("file /a hello\nfile /a hello\n", "path", '2: "/a" is the path of line 1 already')
job("file /a hello\nfile /a/b hello\n", "path", '2: "/a/b" lies below "/a" of line 1, which is a file')
job("file /a/b hello\nfile /a hello\n", "path", '2: "/a" is a directory of "/a/b" in line 1')
LACKS = 'no line begins with frames: add "frames N", N from 1 to 16000: check tells how many the guests need'
job("guest hello\n", "frames", LACKS)
job("frames 18\n", "guest", 'no line begins with guest: add "guest NAME ARG.."')
row("check hello", 3, "mcexec: job line 1 length", '  "hello" is an image, and no job')
row("walk trace", 3, "mcexec: job line 1 keyword", '  "trace" is a trace, and no job', trace=TRACE)
row("walk folder/job", 3, "mcexec: job line 1 keyword", '  folder/job:1: "frame" begins no line: use frames',
    **{"folder/job": "frame 18\n"})  # fmt: skip


# ---- images


def header(k=0, **fields):
    """The image hello with other fields: of its header, or of its program header."""
    places = {"class": ("B", 4), "data": ("B", 5), "kind": ("H", 16), "machine": ("H", 18), "entry": ("Q", 24)}
    places |= {"flags": ("I", 48), "size": ("H", 54), "count": ("H", 56), "type": ("I", 64), "rights": ("I", 68)}
    places |= {"address": ("Q", 80), "in_file": ("Q", 96), "in_memory": ("Q", 104)}
    data = bytearray(HELLO)
    for name, value in fields.items():
        form, at = places[name]
        struct.pack_into("<" + form, data, at, value)
    return bytes(data)


def two_segments(one, other):
    """An image with two segments of 16 bytes at these addresses."""
    data = bytearray(HELLO[:120] + HELLO[64:120] + bytes(16))
    struct.pack_into("<H", data, 56, 2)
    for at, address in ((64, one), (120, other)):
        struct.pack_into("<QQQQQ", data, at + 8, 176, address, address, 16, 16)
    return bytes(data)


def elf(data, rule, told):
    said = f"mcexec: guest 1 elf {rule}"
    row("check job", 4, said, f'  job:2: guest 1 "image": {told}', job="frames 18\nguest image a\n", image=data)


STATIC, BUILD = "link -static -no-pie", "use -march=rv64ima -mabi=lp64"
elf(b"", "short 0", "the file is empty")
elf("7f454c46\n", "short 9", "the file is a text, and no ELF file, and has 9 bytes alone")
elf(HELLO[:100], "short 100", "the file has 100 bytes, and ends within its headers: it was cut off")
elf("#!/bin/sh\n" + "echo hello\n" * 9, "magic", "the file is a script, and no ELF file")
elf("frames 18\n" * 9, "magic", "the file is a text, and no ELF file")
elf(bytes(range(128)), "magic", "the file begins with 00 01 02 03, and an ELF file with 7f 45 4c 46")
elf(header(**{"class": 1}), "class", "an ELF file of 32 bits: compile for riscv64")
elf(header(data=2), "class", "an ELF file with big-endian words: compile for riscv64")
elf(header(kind=3), "kind", f"dynamic or position independent: {STATIC}")
elf(header(kind=1), "kind", "an object file: link it, as guest/cc does")
elf(header(kind=4), "kind", f"e_type 4 is no executable: {STATIC}")
elf(header(machine=62), "machine", "compiled for x86-64: use a compiler for riscv64")
elf(header(machine=999), "machine", "compiled for machine 999: use a compiler for riscv64")
elf(header(flags=5), "flags", f"e_flags 0x5, compiled for compressed code and floating point: {BUILD}")
elf(header(flags=1), "flags", f"e_flags 0x1, compiled for compressed code: {BUILD}")
elf(header(flags=8), "flags", f"e_flags 0x8, compiled for the registers of rv64e: {BUILD}")
elf(header(size=32), "phsize", "a program header has 32 bytes: it has to have 56")
elf(header(count=65), "phsize", "65 program headers: at most 64")
elf(header(type=2), "linked", f"linked dynamically: {STATIC}")
elf(header(type=3, in_file=0), "linked", f"linked for the interpreter : {STATIC}")
elf(header(in_memory=8), "size 0", f"program header 0 has {len(HELLO)} bytes in the file, and 8 in memory")
elf(HELLO[:-9], "size 0", f"program header 0 ends at byte {len(HELLO)} of a file of {len(HELLO) - 9}: it was cut off")
BOUNDS = "memory for images is 0x10000 to 0x3000000000: link with guest/image.ld, or with -Ttext-segment=0x10000"
elf(header(address=0x1000), "bounds 0", f"program header 0 is for 0x1000 to {0x1000 + len(HELLO):#x}, and {BOUNDS}")
SHARED = "link with -z max-page-size=4096 and a script that begins each segment on a page, as guest/image.ld"
elf(two_segments(0x10000, 0x10800), "overlap 0 1", f"program headers 0 and 1 share the page at 0x10000: {SHARED}")
elf(header(entry=0x1007A), "entry", f"the entry 0x1007a is no multiple of 4: {BUILD}")
NO_CODE = "is in no segment that may be executed: does the program have a _start?"
elf(header(rights=6), "entry", f"the entry 0x10078 {NO_CODE}")
elf(header(entry=0), "entry", f"the entry 0x0 {NO_CODE}")


# ---- frames, files, sinks

TWO = "guest hello\nguest hello\nframes 20\n"
row("walk job", 5, "mcexec: guest 2 needs 18 frames, 2 free",
    "  job:3: frames 20 are too few: the guests need 36 for their boot, of at most 16000", job=TWO)  # fmt: skip
HOST = "mcexec: host fault"
row("walk nothere", 7, HOST, '  cannot read "nothere": No such file or directory')
row("walk folder", 7, HOST, '  cannot read "folder": it is a folder', **{"folder/hello": HELLO})
NO_FILE = "No such file or directory"
row("walk job", 7, HOST, f'  cannot read "no" (job line 2): {NO_FILE}', job="frames 18\nguest no\n")
row("walk job", 7, HOST, f'  cannot read "no" (job line 3): {NO_FILE}', job=JOB + "input 1 no\n")
row("walk job", 7, HOST, f'  cannot read "no" (job line 3): {NO_FILE}', job=JOB + "file /a no\n")
row("replay job nothere", 7, HOST, '  cannot read "nothere": No such file or directory')
row("walk folder/job", 7, HOST, '  cannot read "image" (job line 2): No such file or directory',
    '  names are looked up in the working folder and not beside the job: begin in "folder"',
    **{"folder/job": "frames 18\nguest image\n", "folder/image": HELLO})  # fmt: skip
row("walk /dev/zero", 7, HOST, '  cannot read "/dev/zero": it has no end within 67,108,864 bytes')
row("walk job", 12, "mcexec: file line 3 too long", '  job:3: "long" has 1,048,577 bytes: at most 1,048,576',
    job=JOB + "file /a long\n", long=bytes(1_048_577))  # fmt: skip
row("walk job", 0, job="frames 18\nguest folder/image\nfile /a folder/below/a\n",
    **{"folder/image": HELLO, "folder/below/a": "a"})  # fmt: skip


# ---- traces


def trace(line, change, *told):
    """A replay of the trace of hello with other lines: the first refused one, and what is told of it."""
    lines = change(TRACE.split("\n"))
    said = [f"  trace:{line}: {told[0]}", *(f"  {more}" for more in told[1:])]
    row("replay job trace", 10, f"mcexec: trace line {line}", *said, trace="\n".join(lines))


def put(line, text):
    """That line changed, or put in behind the trace's end."""
    return lambda lines: [*lines[: line - 1], text, *lines[line:]]


def without(line):
    return lambda lines: [*lines[: line - 1], *lines[line:]]


def may(word, place, count, *known):
    """The lines of an event that may not happen."""
    what = f"{word} may not happen behind the {count} events before it"
    return (what, *known, f"{word.split(' ')[0]} may happen where {RULES[word.split(' ')[0]]}")


trace(1, put(1, "mctrace 9"), "a trace begins with mctrace 2")
trace(1, lambda lines: ["mcreport 1", "end done", ""], "this is a report, and no trace")
trace(18, lambda lines: lines[:-1], "no line feed ends the last line: the trace was cut off")
trace(4, put(4, "nothing"), 'no entry: "nothing" is no event')
trace(4, put(4, ""), "no entry: the line is empty")
trace(4, put(4, "fetch 1 0"), "no entry: ring 0 is left out: fetch and the process alone")
trace(4, put(4, "fetch 01"), 'no entry: the process is a decimal number without sign or leading zero, here "01"')
trace(5, put(5, "assign 1"), "no entry: behind assign stand process and worker, here 1 words")
trace(5, put(5, "assign 1 4294967296"), "no entry: the worker 4294967296 is too large")
trace(3, lambda lines: ["mctrace 1", lines[1], "wait 1", ""], "no entry: a trace of mctrace 1 has no such line")
trace(2, put(2, "run 1 1 64"), *may("run 1 1 64", 2, 0, "there is no core 1: the job has 1, which count from 0"))
NO_THREAD = "there is no thread 2: the job has 1 guests, and later numbers begin at 17"
trace(2, put(2, "run 0 2 64"), *may("run 0 2 64", 2, 0, NO_THREAD))
trace(2, put(2, "run 0 1 65"), *may("run 0 1 65", 2, 0, "a run has 1 to 64 instructions, here 65"))
trace(2, without(2), *may("trap 1", 2, 0, "no instruction of thread 1 was run since its start"))
trace(4, put(4, "trap 1"), *may("trap 1", 4, 2, "no instruction of thread 1 was run since line 3"))
trace(5, put(5, "assign 1 2"), *may("assign 1 2", 5, 3, "there is no worker 2: the job has 2, which count from 0"))
trace(5, without(5), *may("act 1 0", 5, 3, "worker 1.0 serves no request"))
trace(6, put(6, "assign 1 0"), *may("assign 1 0", 6, 4, "worker 1.0 serves a request since line 5"))
trace(7, put(7, "pin 1 0"), *may("pin 1 0", 7, 5))
NO_MESSAGE = "no message of proxy 1 is on its way: each that was posted is taken"
trace(9, put(9, "intake 1"), *may("intake 1", 9, 7, NO_MESSAGE))
trace(8, without(8), *may("answer 1 0", 8, 6, "the kernel has taken no fault of worker 1.0 that isn't answered"))
NOT_FETCHED = "the fault of worker 1.0 in line 7 is answered in line 9 and not fetched"
trace(10, without(10), *may("pin 1 0", 10, 8, NOT_FETCHED))
trace(11, without(11), *may("copy 1 0", 11, 9, "worker 1.0 has no pin"))
trace(13, put(13, "copy 1 0"), *may("copy 1 0", 13, 11, "worker 1.0 has moved its piece in line 12"))
trace(13, without(13), *may("finish 1 0", 13, 11, "worker 1.0 has a pin since line 11"))
trace(3, put(3, "begin 1"), *may("begin 1", 3, 1, "thread 1 has made no call that waits for a round"))
trace(3, put(3, "wait 1"), *may("wait 1", 3, 1, "thread 1 has made no call that waits"))
trace(3, put(3, "script 0"), *may("script 0", 3, 1, "there is no signal line 0: the job has 0, which count from 0"))
trace(3, put(3, "unpark 1 1"), *may("unpark 1 1", 3, 1, "no request of process 1 is parked"))
trace(15, put(15, "reap 1"), *may("reap 1", 15, 13, "a message of proxy 1, a reply, isn't taken yet"))
trace(19, lambda lines: [*lines[:-1], "run 0 1 64", ""], *may("run 0 1 64", 19, 17, "process 1 was reaped in line 18"))


# ---- runs that aren't done


def image(build):
    guest = Guest()
    build(guest)
    return image_bytes(*guest.end().words_and_data())


def sleeps(guest):
    """Sleeps in a futex for ever."""
    guest.set("a1", 0)
    guest.addi("a0", "sp", 0)
    guest.load("a2", 0, "a0")
    guest.set("a3", 0)
    guest.set("a7", 98)
    guest.emit("ecall")
    guest.exit()


def spins(guest):
    guest.label("again")
    guest.set("t0", 1)
    guest.branch("t0", "zero", "again")


SLEEPER, SPINNER = image(sleeps), image(spins)
STALLED = "  stalled: no event may happen any more, and processes live that wait for one another"
ASLEEP = '  thread 1 ("sleeper"): made a call in line 3, which no worker serves: it waits in the lightweight kernel, '
ASLEEP += "by futex or wait4, or has ended"
SLEEPS = {"job": "frames 18\nguest sleeper\n", "sleeper": SLEEPER}
row("walk job", 1, STALLED, ASLEEP, **SLEEPS)
row("walk job 5 trace", 1, STALLED, ASLEEP, **SLEEPS)
row("replay job trace", 1, STALLED, ASLEEP, trace="mctrace 2\nrun 0 1 64\ntrap 1\n", **SLEEPS)
row("run job", 1, STALLED, "  what each thread waits for: mcexec run job trace >T, then mcexec replay job T", **SLEEPS)
SPINS = {"spinner": SPINNER}
RAN = '  thread 1 ("spinner"): executed instructions last, in line 3'
row("walk job", 6, "  job:3: the 100 instructions of the limit are used up: a line limit N gives up to 4000000", RAN,
    job="frames 18\nguest spinner\nlimit 100\n", **SPINS)  # fmt: skip
UNFINISHED = "  the trace ends where events may still happen"
SERVED = '  thread 1 ("hello"): made a call in line 3, which worker 1.0 serves: '
SERVICES = {5: "since line 5", 8: "it waits for the row of a page since line 7", 11: "it has a pin since line 11"}
for count, what in SERVICES.items():
    row("replay job trace", 11, UNFINISHED, SERVED + what, trace="\n".join(TRACE.split("\n")[:count]) + "\n")
row("audit job trace", 11, UNFINISHED, '  thread 1 ("hello"): no event of it happened', trace="mctrace 2\n")


# ---- the examples of the manual, in their order

FIRST_OF_MANUAL = len(ROWS)
row("walk hello.job", 3, "mcexec: job line 1 number", '  hello.job:1: frames takes 1 to 16000, here "99999"',
    **{"hello.job": "frames 99999\nguest hello\n"})  # fmt: skip
row("walk hello.job", 3, "mcexec: job line 2 byte", "  hello.job:2: column 12 is 0x0d: use LF line ends",
    **{"hello.job": "frames 18\nguest hello\r\n"})  # fmt: skip
COMPILED = f"e_flags 0x5, compiled for compressed code and floating point: {BUILD}"
row("walk c.job", 4, "mcexec: guest 1 elf flags", f'  c.job:2: guest 1 "gc": {COMPILED}',
    **{"c.job": "frames 18\nguest gc\n", "gc": header(flags=5)})  # fmt: skip
row("walk two.job", 5, "mcexec: guest 2 needs 18 frames, 2 free",
    "  two.job:3: frames 20 are too few: the guests need 36 for their boot, of at most 16000",
    **{"two.job": TWO})  # fmt: skip
row("walk hello.job", 7, HOST, f'  cannot read "nothere" (job line 2): {NO_FILE}',
    **{"hello.job": "frames 18\nguest nothere\n"})  # fmt: skip
PIN_LEFT_OUT = "\n".join(without(11)(TRACE.split("\n")))
row("replay hello.job hello.trace", 10, "mcexec: trace line 11",
    "  hello.trace:11: copy 1 0 may not happen behind the 9 events before it", "  worker 1.0 has no pin",
    f"  copy may happen where {RULES['copy']}",
    **{"hello.job": JOB, "hello.trace": PIN_LEFT_OUT})  # fmt: skip
