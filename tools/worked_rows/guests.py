"""Guests of the worked rows: a small assembler for RV64I, and how images, jobs and journals are written as terms."""

ABI = dict(zero=0, ra=1, sp=2, gp=3, tp=4, t0=5, t1=6, t2=7, s0=8, s1=9, **{f"a{i}": 10 + i for i in range(8)})
REGISTERS = {**{f"x{i}": i for i in range(32)}, **ABI}


def i_type(opcode, funct3, rd, rs1, imm):
    return ((imm & 0xFFF) << 20) | (rs1 << 15) | (funct3 << 12) | (rd << 7) | opcode


def s_type(funct3, rs1, rs2, imm):
    imm &= 0xFFF
    return ((imm >> 5) << 25) | (rs2 << 20) | (rs1 << 15) | (funct3 << 12) | ((imm & 31) << 7) | 0x23


def b_type(funct3, rs1, rs2, imm):
    high = (((imm >> 12) & 1) << 31) | (((imm >> 5) & 63) << 25)
    return high | (rs2 << 20) | (rs1 << 15) | (funct3 << 12) | (((imm >> 1) & 15) << 8) | (((imm >> 11) & 1) << 7) | 0x63


class Guest:
    """A guest's code with labels and data. `expect` ends the guest with the number of the expectation that fails."""

    BASE = 0x10078

    def __init__(self):
        self.code, self.labels, self.data, self.failures, self.straight = [], {}, [], [], None

    def emit(self, *instruction):
        self.code.append(instruction)

    def label(self, name):
        self.labels[name] = len(self.code)

    def blob(self, content):
        name = f"data{len(self.data)}"
        self.data.append((name, bytes(content)))
        return name

    def address(self, rd, label):
        self.emit("auipc", rd)
        self.emit("low", rd, label)

    def load(self, rd, offset, rs1):
        self.emit("ld", rd, offset, rs1)

    def store(self, rs2, offset, rs1):
        self.emit("sd", rs2, offset, rs1)

    def addi(self, rd, rs1, imm):
        self.emit("addi", rd, rs1, imm)

    def set(self, rd, value):
        if isinstance(value, str):
            self.addi(rd, value, 0) if value in REGISTERS else self.address(rd, value)
        elif -2048 <= value < 2048:
            self.addi(rd, "x0", value)
        else:
            word = self.blob((value & (2**64 - 1)).to_bytes(8, "little"))
            self.emit("auipc", rd)
            self.emit("load_low", rd, word)

    def call(self, number, *arguments):
        for k, argument in enumerate(arguments):
            self.set(f"a{k}", argument)
        self.set("a7", number)
        self.emit("ecall")

    def expect(self, value):
        name = f"fail{len(self.failures) + 1}"
        self.failures.append(name)
        self.set("t0", value)
        self.emit("bne", "a0", "t0", name)

    def branch(self, rs1, rs2, label):
        self.emit("bne", rs1, rs2, label)

    def exit(self, code=0):
        self.call(94, code)

    def end(self):
        """The end of the straight code; behind it stand the exits of the expectations."""
        self.straight = self.straight or len(self.code)
        for k, name in enumerate(self.failures):
            self.label(name)
            self.exit(k + 1)
        return self

    def instructions(self):
        return len(self.code)

    def words_and_data(self):
        addresses = {name: self.BASE + 4 * place for name, place in self.labels.items()}
        at, data = self.BASE + 4 * len(self.code), b""
        for name, content in self.data:
            addresses[name] = at + len(data)
            data += content
        words = [self.word(k, x, addresses) & 0xFFFFFFFF for k, x in enumerate(self.code)]
        return words, data

    def word(self, k, x, addresses):
        pc, r = self.BASE + 4 * k, REGISTERS
        match x:
            case ("addi", rd, rs1, imm):
                return i_type(0x13, 0, r[rd], r[rs1], imm)
            case ("ecall",):
                return 0x73
            case ("word", word):
                return word
            case ("auipc", rd):
                return (r[rd] << 7) | 0x17
            case ("low", rd, label):
                return i_type(0x13, 0, r[rd], r[rd], addresses[label] - (pc - 4))
            case ("load_low", rd, label):
                return i_type(0x03, 3, r[rd], r[rd], addresses[label] - (pc - 4))
            case ("ld", rd, offset, rs1):
                return i_type(0x03, 3, r[rd], r[rs1], offset)
            case ("sd", rs2, offset, rs1):
                return s_type(3, r[rs1], r[rs2], offset)
            case ("bne", rs1, rs2, label):
                return b_type(1, r[rs1], r[rs2], addresses[label] - pc)
            case ("lui", rd, value):
                return ((value & 0xFFFFF) << 12) | (r[rd] << 7) | 0x37
        raise ValueError(x)


# ---- terms

class Term(str):
    """A term beside what it says in plain data."""

    def __new__(cls, term, plain):
        made = super().__new__(cls, term)
        made.plain = plain
        return made


def numbers(values):
    return "(" + "".join(f"{v} ∷ " for v in values) + "[])"


def text(content):
    """Bytes as a term: runs of one byte as `replicate`, text as `codes`."""
    content = content.encode() if isinstance(content, str) else content
    parts, run, k = [], b"", 0

    def flush():
        nonlocal run
        if run:
            escaped = run.decode().replace("\\", "\\\\").replace('"', '\\"').replace("\n", "\\n")
            parts.append(f'codes "{escaped}"' if len(run) > 1 else numbers(run))
            run = b""

    while k < len(content):
        end = k
        while end < len(content) and content[end] == content[k]:
            end += 1
        if end - k > 20:
            flush()
            parts.append(f"replicate {end - k} {content[k]}")
            k = end
            continue
        if 32 <= content[k] < 127 or content[k] == 10:
            run += content[k : k + 1]
        else:
            flush()
            parts.append(numbers([content[k]]))
        k += 1
    flush()
    return " ++ ".join(parts) if parts else "[]"


def image(words, data):
    return f"small_image {numbers(f'0x{w:08x}' for w in words)} {numbers(data)}"


def job(frames, cores=1, guests=1, **changes):
    """A job of guests with the one argument `a`; further fields as terms."""
    arguments = "(" + "((97 ∷ []) ∷ []) ∷ " * guests + "[])"
    term = f"small_job {frames} {cores} {arguments}"
    fields = "; ".join(f"{name} = {value}" for name, value in changes.items())
    plain = dict(frames=frames, cores=cores, guests=guests, **{name: getattr(value, "plain", value) for name, value in changes.items()})
    return Term(f"record ({term}) {{ {fields} }}" if fields else term, plain)


def signals(*lines):
    return Term("".join("record { line = %d; guest = %d; sig = %d; after = %d } ∷ " % line for line in lines) + "[]", lines)


def files(**contents):
    rows = (f"record {{ line = 0; path = {text('/' + name)}; name = []; bytes = {text(content)} }} ∷ " for name, content in contents.items())
    return Term("".join(rows) + "[]", contents)


def inputs(*lines):
    rows = (f"record {{ line = 0; guest = {guest}; name = []; bytes = {text(content)} }} ∷ " for guest, content in lines)
    return Term("".join(rows) + "[]", lines)


def word_term(word):
    return f"Number {word}" if isinstance(word, int) else f'Text (codes "{word}")'


def line(*words):
    return "Line (" + "".join(word_term(w) + " ∷ " for w in words) + "[])"


def listed(parts):
    return "".join(f"{part} ∷ " for part in parts) + "[]"


def lines_of(trace):
    return listed(line(*(int(w) if w.isdigit() else w for w in row.split())) for row in trace.strip().split("\n"))


def line_text(*words):
    return (" ".join(str(word) for word in words) + "\n").encode()


def report(end, guests, outputs, paths=(), unsent=(), instructions=0, requests=0, faults=0, rounds=0, free=0):
    parts, plain = [], []

    def add(*words):
        parts.append(line(*words))
        plain.append(line_text(*words))

    def block(content):
        parts.append(f"Block ({text(content)})")
        plain.append((content.encode() if isinstance(content, str) else content) + b"\n")

    add("mcreport", 1)
    add("end", end)
    for number, state in guests:
        add("guest", number, *(int(w) if w.isdigit() else w for w in state.split()))
    for number, output in outputs:
        add("output", number, len(output))
        block(output)
    for path, content in paths:
        if content is None:
            add("dir", path)
        else:
            add("file", path, len(content))
            block(content)
    for number in unsent:
        add("unsent", number)
    counts = dict(instructions=instructions, requests=requests, faults=faults, rounds=rounds, free=free)
    for name, n in counts.items():
        add("count", name, n)
    return Term(listed(parts), b"".join(plain))


PID_FIRST = "Intake Answer Reap Fetch Assign Miss Pin Copy Unpin Act Park Unpark Finish AckClear".split()
TID_FIRST = "Trap Deliver BeginVm Interrupt Wait".split()


def event(spelling):
    name, *values = spelling.split()
    if name == "Run":
        return f"Run {values[0]} (tid {values[1]}) {values[2]}"
    if name in PID_FIRST:
        values[0] = f"(pid {values[0]})"
    if name in TID_FIRST:
        values[0] = f"(tid {values[0]})"
    if name == "Unpark":
        values[1] = f"(req {values[1]})"
    return " ".join([name, *values])


def events(spellings):
    return listed(event(s.strip()) for s in spellings.split(","))
