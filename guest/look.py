#!/usr/bin/env python3
"""Looks through an image for code that the node refuses: look.py IMAGE, with its symbols.

Prints a line for each function and kind of such an instruction, and ends with 1 where there is one. What is executed of
them raises signal 4; an image with the flags of compressed or floating code isn't loaded at all.
"""
import bisect
import struct
import sys

EXECUTED = 4
FUNCTION = 2

# Opcodes whose words are all floating point: loads, stores, the four multiply-adds, and the rest.
FLOATING = {0x07, 0x27, 0x43, 0x47, 0x4B, 0x4F, 0x53}
BRANCHES = {0, 1, 4, 5, 6, 7}
LOADS = {0, 1, 2, 3, 4, 5, 6}
AMOS = {0x00, 0x01, 0x04, 0x08, 0x0C, 0x10, 0x14, 0x18, 0x1C}


def illegal(word):
    """The kind of a word that RV64I, M and the AMO part of A lack, or None."""
    opcode, middle, top = word & 0x7F, word >> 12 & 7, word >> 25
    if opcode in FLOATING:
        return "floating point"
    if opcode == 0x2F:
        if top >> 2 in (2, 3):
            return "LR" if top >> 2 == 2 else "SC"
        return None if middle in (2, 3) and top >> 2 in AMOS else "an atomic instruction that isn't there"
    if opcode in (0x17, 0x37, 0x6F):
        return None
    if opcode == 0x0F:
        return "FENCE.I" if middle == 1 else None if middle == 0 else "an illegal word"
    if opcode == 0x73:
        return None if word in (0x73, 0x100073) else "a control register or a privileged instruction"
    legal = {
        0x67: middle == 0,
        0x63: middle in BRANCHES,
        0x03: middle in LOADS,
        0x23: middle < 4,
        0x13: middle not in (1, 5) or (top >> 1 == 0 or (middle == 5 and top >> 1 == 0x10)),
        0x1B: middle == 0 or (middle in (1, 5) and (top == 0 or (middle == 5 and top == 0x20))),
        0x33: top in (0, 1) or (top == 0x20 and middle in (0, 5)),
        0x3B: (top == 0 and middle in (0, 1, 5))
        or (top == 1 and middle not in (1, 2, 3))
        or (top == 0x20 and middle in (0, 5)),
    }
    return None if legal.get(opcode, False) else "an illegal word"


class Image:
    def __init__(self, data):
        self.data = data
        if data[:4] != b"\x7fELF" or data[4] != 2:
            sys.exit("look.py: no ELF file of 64 bits")
        self.flags = struct.unpack_from("<I", data, 48)[0]
        offset = struct.unpack_from("<Q", data, 40)[0]
        size, count, _ = struct.unpack_from("<HHH", data, 58)
        # Of each section: name, type, flags, address, offset, size, link.
        self.sections = [struct.unpack_from("<IIQQQQI", data, offset + k * size) for k in range(count)]

    def functions(self):
        """The addresses of functions and their names, in order."""
        found = {}
        for _, kind, _, _, offset, size, link in self.sections:
            if kind != 2:
                continue
            names = self.sections[link][4]
            for at in range(offset, offset + size, 24):
                name, info, _, section, value = struct.unpack_from("<IBBHQ", self.data, at)
                text = self.data[names + name : self.data.index(b"\0", names + name)].decode(errors="replace")
                if info & 15 in (0, FUNCTION) and section and text and not text.startswith((".", "$")):
                    # Of several names at one place a function's own is told before a label.
                    if value not in found or info & 15 == FUNCTION:
                        found[value] = text
        return sorted(found), found

    def code(self):
        for _, kind, flags, address, offset, size, _ in self.sections:
            if kind == 1 and flags & EXECUTED:
                yield address, self.data[offset : offset + size]


def look(image):
    """The kinds of refused instructions, with the function and the address of the first of each."""
    places, names = image.functions()
    found = {}
    for base, code in image.code():
        at = 0
        while at < len(code):
            if at + 4 <= len(code) and code[at] & 3 == 3:
                kind, step = illegal(struct.unpack_from("<I", code, at)[0]), 4
            elif code[at : at + 2] == b"\0\0":
                # Zeros fill gaps between functions; nothing jumps there.
                kind, step = None, 2
            else:
                kind, step = "a compressed instruction", 2
            if kind is not None:
                k = bisect.bisect_right(places, base + at)
                found.setdefault((names[places[k - 1]] if k else "?", kind), base + at)
            at += step
    return found


def main():
    if len(sys.argv) != 2:
        sys.exit("usage: look.py IMAGE")
    with open(sys.argv[1], "rb") as file:
        image = Image(file.read())
    found = look(image)
    for (name, kind), at in sorted(found.items(), key=lambda it: it[1]):
        print(f"{name} has {kind}, at {at:#x}")
    if image.flags & ~16:
        print(f"the image's flags are {image.flags:#x}: it is for compressed or floating code")
    kinds = {kind for _, kind in found}
    if kinds & {"LR", "SC"}:
        print("compare-and-exchange compiles to LR and SC: use exchange or addition,")
        print("or -march=rv64im, where it is a call of the kit")
    sys.exit(1 if found or image.flags & ~16 else 0)


if __name__ == "__main__":
    main()
