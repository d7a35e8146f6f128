#!/usr/bin/env python3
"""How long the program takes to read a trace, beside a plain C loop over the same bytes.

    python3 bench/read_trace.py [PROGRAM] [--runs N]

Three traces are read, all well formed and within the limits: short lines (60,000 operations of one pair), long lines
(32 MiB in operations of 500 pairs), and mixed ones (32 MiB of cells and of operations with some numbers each). None has a
`turn` line, so next to nothing is run. The C loop reads the same bytes and adds up the numbers; it checks
nothing and keeps nothing. Both are run N times in turn, and the least times are compared. Nothing is kept afterwards.
"""
import argparse
import os
import random
import tempfile

import timing

BYTES = 32 * 1024 * 1024
OPERATIONS = 60_000
HEAD = "xen-pv-trace 1\nframes 64\ndomain 64\nvcpu 0\nvcpu 0\nown 0 0 64\n"
END = "end\n"

C_LOOP = r"""
#include <stdint.h>
#include <stdio.h>
#include <stdlib.h>

static uint64_t number(const unsigned char *at, const unsigned char *end) {
    uint64_t n = 0;
    if (end - at > 2 && at[0] == '0' && at[1] == 'x') {
        for (at += 2; at < end; at++) n = n * 16 + (*at <= '9' ? *at - '0' : *at - 'a' + 10);
    } else {
        for (; at < end; at++) n = n * 10 + (*at - '0');
    }
    return n;
}

int main(void) {
    size_t room = 1 << 16, len = 0, got;
    unsigned char *bytes = malloc(room);
    while ((got = fread(bytes + len, 1, room - len, stdin)) > 0) {
        len += got;
        if (len == room) bytes = realloc(bytes, room *= 2);
    }
    uint64_t lines = 0, words = 0, sum = 0;
    size_t word = 0;
    for (size_t at = 0; at < len; at++) {
        if (bytes[at] != ' ' && bytes[at] != '\n') continue;
        words++;
        if (bytes[word] >= '0' && bytes[word] <= '9') sum += number(bytes + word, bytes + at);
        if (bytes[at] == '\n') lines++;
        word = at + 1;
    }
    printf("%llu lines, %llu words, sum %llu\n", (unsigned long long)lines, (unsigned long long)words,
           (unsigned long long)sum);
    return 0;
}
"""


def cell_line(rng):
    first = rng.randrange(512)
    return f"cell {rng.randrange(64)} {first} {rng.randrange(1, 513 - first)} 0x{rng.getrandbits(63):x}\n"


def operation_line(rng):
    kind = rng.randrange(3)
    if kind == 0:
        pairs = " ".join(f"0x{rng.getrandbits(40):x} {rng.getrandbits(50)}" for _ in range(14))
        return f"op {rng.randrange(2)} mmu 0x7ff0 {pairs}\n"
    if kind == 1:
        triples = " ".join(f"{rng.randrange(20)} {rng.getrandbits(30)} 0x{rng.getrandbits(40):x}" for _ in range(14))
        return f"op {rng.randrange(2)} ext {triples}\n"
    calls = " ; ".join(f"va 0x{rng.getrandbits(47):x} {rng.getrandbits(60)} 2" for _ in range(10))
    return f"op {rng.randrange(2)} multi {calls}\n"


def short_trace():
    return HEAD + "".join(f"op 0 mmu 0x7ff0 {k % 4096 * 4096 + 1} {k}\n" for k in range(OPERATIONS)) + END


def long_trace():
    line = "op 0 mmu 0x7ff0 " + " ".join(f"{k * 4096 + 1} {k}" for k in range(500)) + "\n"
    return HEAD + line * ((BYTES - len(HEAD) - len(END)) // len(line)) + END


def mixed_trace():
    rng = random.Random(1)
    operations = "".join(operation_line(rng) for _ in range(OPERATIONS))
    left = BYTES - len(HEAD) - len(operations) - len(END)
    cells = []
    while len(line := cell_line(rng)) <= left:
        cells.append(line)
        left -= len(line)
    return HEAD + "".join(cells) + operations + END


def main():
    parser = argparse.ArgumentParser(description="Times the reading of traces.")
    timing.add_arguments(parser)
    arguments = parser.parse_args()
    timing.must_be_there(arguments.program)
    with tempfile.TemporaryDirectory() as folder:
        loop = timing.compiled(folder, "loop", C_LOOP)
        for name, text in [("short", short_trace()), ("long", long_trace()), ("mixed", mixed_trace())]:
            trace = os.path.join(folder, name + ".trace")
            with open(trace, "w", encoding="ascii") as out:
                out.write(text)
            if not timing.output([arguments.program, "turns"], trace).endswith(b"\nend\n"):
                raise SystemExit("the program printed no whole report")
            counted = timing.output([loop], trace).decode().strip()
            program, plain = timing.least(arguments.runs, os.devnull, ([arguments.program, "turns"], trace), ([loop], trace))
            print(f"{name:5}  {len(text)} bytes, {counted}")
            print(f"       program {program * 1e3:6.1f} ms ({len(text) / program / 1e6:.0f} MB/s), "
                  f"C loop {plain * 1e3:6.1f} ms ({len(text) / plain / 1e6:.0f} MB/s), ratio {program / plain:.2f}")


if __name__ == "__main__":
    main()
