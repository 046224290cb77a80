#!/usr/bin/env python3
# The time in which a source is read, tables made included: `reading_cases` is run on many copies of one source and on none,
# and the difference is shared out. Sources of 1,024, 2,048 and 4,096 bytes of three kinds show that it is linear.
import pathlib
import subprocess
import sys
import time

root = pathlib.Path(__file__).parent.parent
program = root / "crates" / "reading_cases" / "out" / "reading_cases"
if not program.exists():
    sys.exit("build it first: cd crates/reading_cases && rt run < stdin")
COPIES = 500
LINE = "value = first.part[index + 1] * (other - 2)\n"
KINDS = {
    "lines": lambda size: (LINE * (size // len(LINE) + 1))[: size - size % len(LINE)].ljust(size, "\n"),
    "one sum": lambda size: ("1" + "+1" * size)[: size - 2] .rstrip("+").ljust(size, "\n"),
    "short names": lambda size: ("a\n" * size)[:size],
}


def least(source: bytes, copies: int) -> float:
    packed = (len(source).to_bytes(2, "big") + source) * copies
    best = 1e9
    for _ in range(15):
        began = time.perf_counter()
        out = subprocess.run([program], input=packed, stdout=subprocess.PIPE, check=True).stdout
        best = min(best, time.perf_counter() - began)
        assert out == b"0 0\n" * copies, out[:20]
    return best


for name, made in KINDS.items():
    for size in (1024, 2048, 4096):
        source = made(size).encode()
        assert len(source) == size
        took = (least(source, COPIES) - least(source, 0)) / COPIES
        print(f"{name}, {size} bytes: {took * 1e6:.0f} us")
