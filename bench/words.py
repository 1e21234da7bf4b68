#!/usr/bin/env python3
"""Compares decode and encode with a cross assembler, over all instructions with random fields.

Assembles them with llvm-mc, gives the words to the program crates/rows_encodings, and looks whether each word says the fields
that were assembled and is made again of them. Instructions that are left out have to be none. Skipped where llvm-mc for riscv64 is not
installed.
"""
import os
import random
import re
import shutil
import subprocess
import sys
import tempfile

TOP = os.path.dirname(os.path.dirname(os.path.abspath(__file__)))
CRATE = os.path.join(TOP, "crates", "rows_encodings")

REGISTERS = "add sub sll slt sltu xor srl sra or and addw subw sllw srlw sraw".split()
IMMEDIATES = "addi slti sltiu xori ori andi addiw".split()
SHIFTS = {"slli": 64, "srli": 64, "srai": 64, "slliw": 32, "srliw": 32, "sraiw": 32}
LOADS = "lb lh lw ld lbu lhu lwu".split()
STORES = "sb sh sw sd".split()
BRANCHES = "beq bne blt bge bltu bgeu".split()
PRODUCTS = "mul mulh mulhsu mulhu div divu rem remu mulw divw divuw remw remuw".split()
ATOMICS = "add swap xor or and min max minu maxu".split()
ORDERS = ["", ".rl", ".aq", ".aqrl"]
LEFT_OUT = ["lr.w a0, (a1)", "lr.d a0, (a1)", "sc.w a0, a2, (a1)", "sc.d a0, a2, (a1)", "csrrw a0, mstatus, a1", "fence.i", "mret", "wfi"]


def some(rng):
    """Each instruction once, as a line of text and what its word has to say."""
    def register():
        return rng.randrange(32)

    def signed(bits):
        return rng.choice([0, 1, -1, 2 ** (bits - 1) - 1, -2 ** (bits - 1), rng.randrange(-2 ** (bits - 1), 2 ** (bits - 1))])

    rows = []
    for op in REGISTERS:
        d, a, b = register(), register(), register()
        rows.append(("%s x%d, x%d, x%d" % (op, d, a, b), "%s rd=%d rs1=%d rs2=%d" % (op.capitalize(), d, a, b)))
    for op in IMMEDIATES:
        d, a, n = register(), register(), signed(12)
        rows.append(("%s x%d, x%d, %d" % (op, d, a, n), "%s rd=%d rs1=%d imm=%d" % (op.capitalize(), d, a, n)))
    for op, most in SHIFTS.items():
        d, a, n = register(), register(), rng.choice([0, 1, most - 1, rng.randrange(most)])
        rows.append(("%s x%d, x%d, %d" % (op, d, a, n), "%s rd=%d rs1=%d imm=%d" % (op.capitalize(), d, a, n)))
    for op in LOADS + ["jalr"]:
        d, a, n = register(), register(), signed(12)
        rows.append(("%s x%d, %d(x%d)" % (op, d, n, a), "%s rd=%d rs1=%d imm=%d" % (op.capitalize(), d, a, n)))
    for op in STORES:
        a, b, n = register(), register(), signed(12)
        rows.append(("%s x%d, %d(x%d)" % (op, b, n, a), "%s rs1=%d rs2=%d imm=%d" % (op.capitalize(), a, b, n)))
    for op in BRANCHES:
        a, b, n = register(), register(), signed(12) * 2
        rows.append(("%s x%d, x%d, %d" % (op, a, b, n), "%s rs1=%d rs2=%d imm=%d" % (op.capitalize(), a, b, n)))
    for op in ["lui", "auipc"]:
        d, n = register(), rng.choice([0, 1, 2 ** 20 - 1, rng.randrange(2 ** 20)])
        rows.append(("%s x%d, %d" % (op, d, n), "%s rd=%d imm=%d" % (op.capitalize(), d, n)))
    d, n = register(), signed(20) * 2
    rows.append(("jal x%d, %d" % (d, n), "Jal rd=%d imm=%d" % (d, n)))
    rows += [("ecall", "Ecall rd=0 rs1=0 imm=0"), ("ebreak", "Ebreak rd=0 rs1=0 imm=1"), ("fence rw, w", "Fence rd=0 rs1=0 imm=49")]
    for op in PRODUCTS:
        d, a, b = register(), register(), register()
        rows.append(("%s x%d, x%d, x%d" % (op, d, a, b), "%s rd=%d rs1=%d rs2=%d order=0" % (op.capitalize(), d, a, b)))
    for op in ATOMICS:
        for size in "wd":
            d, a, b, order = register(), register(), register(), rng.randrange(4)
            text = "amo%s.%s%s x%d, x%d, (x%d)" % (op, size, ORDERS[order], d, b, a)
            rows.append((text, "%s%s rd=%d rs1=%d rs2=%d order=%d" % (op.capitalize(), size.upper(), d, a, b, order)))
    return rows + [(text, None) for text in LEFT_OUT]


def assembled(lines):
    """The words of these lines."""
    with tempfile.NamedTemporaryFile("w", suffix=".s") as source:
        source.write("\n".join(lines) + "\n")
        source.flush()
        command = ["llvm-mc", "--triple=riscv64", "-mattr=+m,+a,-c,-relax", "--show-encoding", source.name]
        told = subprocess.run(command, text=True, check=True, stdout=subprocess.PIPE).stdout
    words = [bytes(int(b, 16) for b in m.split(",")) for m in re.findall(r"encoding: \[([^\]]*)\]", told)]
    return [int.from_bytes(w, "little") for w in words]


def main():
    if shutil.which("llvm-mc") is None or "riscv64" not in subprocess.run(["llvm-mc", "--version"], text=True, stdout=subprocess.PIPE).stdout:
        print("skipped: no llvm-mc for riscv64")
        sys.exit(77)
    rng = random.Random(1)
    rows = [row for _ in range(20) for row in some(rng)]
    words = assembled([text for text, _ in rows])
    if len(words) != len(rows):
        sys.exit("%d lines, and %d words" % (len(rows), len(words)))
    built = subprocess.run(["rt", "run"], cwd=CRATE, text=True, stdin=subprocess.DEVNULL, stdout=subprocess.PIPE, stderr=subprocess.STDOUT)
    if built.returncode != 0:
        sys.exit(built.stdout + "the program was not built")
    given = "".join("%08x\n" % w for w in words)
    program = os.path.join(CRATE, "out", "rows_encodings")
    told = subprocess.run([program], input=given, text=True, check=True, stdout=subprocess.PIPE).stdout.splitlines()
    wrong = 0
    for (text, says), word, line in zip(rows, words, told):
        wanted = "%08x none" % word if says is None else "%08x %s %08x" % (word, says, word)
        if line != wanted:
            wrong += 1
            print("%s: %s, and not %s" % (text, line, wanted))
    if wrong or len(told) != len(words):
        sys.exit("%d of %d words differ" % (wrong, len(words)))
    print("%d words agree" % len(words))


if __name__ == "__main__":
    main()
