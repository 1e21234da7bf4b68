"""What is wrong with an image: the rules of docs/FORMATS.md, told with what stands there and what would be right."""

import struct

MACHINES = {3: "x86", 8: "MIPS", 21: "PowerPC 64", 40: "ARM", 62: "x86-64", 183: "AArch64", 258: "LoongArch"}
LOAD, DYNAMIC, INTERPRETER = 1, 2, 3
FLAGS = ((1, "compressed code"), (2, "floating point"), (4, "floating point"), (8, "the registers of rv64e"))
LOWEST, HIGHEST, PAGE, OF_BOOT = 0x10000, 0x3000000000, 4_096, 17
BUILD = "use -march=rv64ima -mabi=lp64"
STATIC = "link -static -no-pie"


class Image:
    """The fields of a file, as far as it has them."""

    def __init__(self, data):
        self.data = data
        self.kind, self.machine = self.field("H", 16), self.field("H", 18)
        self.entry, self.place = self.field("Q", 24), self.field("Q", 32)
        self.flags, self.size, self.count = self.field("I", 48), self.field("H", 54), self.field("H", 56)

    def field(self, form, at):
        data = self.data[at : at + struct.calcsize(form)]
        return struct.unpack("<" + form, data)[0] if len(data) == struct.calcsize(form) else 0

    def header(self, k):
        """Of a program header: its kind, rights, place in the file, address, and lengths in the file and in memory."""
        at = self.place + 56 * k
        return tuple(self.field(form, at + it) for form, it in zip("IIQQQQ", (0, 4, 8, 16, 32, 40)))

    def segments(self):
        found = [self.header(k) for k in range(min(self.count, 64))]
        return [it for it in found if it[0] == LOAD and it[5] > 0]

    def pages(self):
        return sum((at + size - 1) // PAGE - at // PAGE + 1 for _, _, _, at, _, size in self.segments())


def of_short(image, words):
    if len(image.data) == 0:
        return "the file is empty"
    if not image.data.startswith(b"\x7fELF"):
        return f"{of_magic(image, words)}, and has {len(image.data)} bytes alone"
    return f"the file has {len(image.data)} bytes, and ends within its headers: it was cut off"


def of_magic(image, words):
    head = image.data[:4]
    if head[:2] == b"#!":
        return "the file is a script, and no ELF file"
    if image.data[:256].isascii() and b"\0" not in image.data[:256]:
        return "the file is a text, and no ELF file"
    return f"the file begins with {head.hex(' ')}, and an ELF file with 7f 45 4c 46"


def of_class(image, words):
    if image.data[4] == 1:
        return "an ELF file of 32 bits: compile for riscv64"
    if image.data[5] == 2:
        return "an ELF file with big-endian words: compile for riscv64"
    return f"the bytes 4 to 6 are {image.data[4:7].hex(' ')}, and have to be 02 01 01"


def of_kind(image, words):
    known = {1: "an object file: link it, as guest/cc does", 3: f"dynamic or position independent: {STATIC}"}
    return known.get(image.kind, f"e_type {image.kind} is no executable: {STATIC}")


def of_machine(image, words):
    return f"compiled for {MACHINES.get(image.machine, f'machine {image.machine}')}: use a compiler for riscv64"


def of_flags(image, words):
    names = dict.fromkeys(name for bit, name in FLAGS if image.flags & bit)
    what = f", compiled for {' and '.join(names)}" if names else ""
    return f"e_flags {image.flags:#x}{what}: {BUILD}"


def of_headers(image, words):
    if image.size != 56:
        return f"a program header has {image.size} bytes: it has to have 56"
    return f"{image.count} program headers: at most 64"


def of_linked(image, words):
    for k in range(image.count):
        kind, _, place, _, length, _ = image.header(k)
        if kind == INTERPRETER:
            name = image.data[place : place + length].rstrip(b"\0").decode(errors="replace")
            return f"linked for the interpreter {name}: {STATIC}"
    return f"linked dynamically: {STATIC}"


def of_size(image, words):
    _, _, place, _, length, memory = image.header(int(words[0]))
    if length > memory:
        return f"program header {words[0]} has {length} bytes in the file, and {memory} in memory"
    return f"program header {words[0]} ends at byte {place + length:,} of a file of {len(image.data):,}: it was cut off"


def of_bounds(image, words):
    _, _, _, at, _, memory = image.header(int(words[0]))
    return (
        f"program header {words[0]} is for {at:#x} to {at + memory:#x}, and memory for images is {LOWEST:#x} to "
        f"{HIGHEST:#x}: link with guest/image.ld, or with -Ttext-segment=0x10000"
    )


def of_overlap(image, words):
    (_, _, _, one, _, _), (_, _, _, other, _, _) = image.header(int(words[0])), image.header(int(words[1]))
    page = max(one, other) & -PAGE
    return (
        f"program headers {words[0]} and {words[1]} share the page at {page:#x}: link with -z max-page-size=4096 and a "
        "script that begins each segment on a page, as guest/image.ld"
    )


def of_entry(image, words):
    if image.entry % 4:
        return f"the entry {image.entry:#x} is no multiple of 4: {BUILD}"
    return f"the entry {image.entry:#x} is in no segment that may be executed: does the program have a _start?"


RULES = {
    "short": of_short, "magic": of_magic, "class": of_class, "kind": of_kind, "machine": of_machine, "flags": of_flags,
    "phsize": of_headers, "linked": of_linked, "size": of_size, "bounds": of_bounds, "overlap": of_overlap,
    "entry": of_entry,
}  # fmt: skip


def told_of_image(data, rule, words):
    """What is wrong by this rule; the words are the numbers behind it."""
    return RULES[rule](Image(data), words)
