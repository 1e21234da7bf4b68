"""Traces that are made for tests."""


def long_trace(count):
    """Requests of four processes with a pin each, interleaved."""
    words = ["run {0} {1} 64", "trap {1}", "fetch {1}", "assign {1} 0", "act {1} 0", "pin {1} 0", "copy {1} 0"]
    words += ["unpin {1} 0", "finish {1} 0", "intake {1}"]
    lines = [[word.format(p % 2, p) for word in words] for p in range(1, 5)]
    picked = [lines[k % 4][k // 4 % 10] for k in range(count)]
    return "mctrace 2\n" + "".join(line + "\n" for line in picked)
