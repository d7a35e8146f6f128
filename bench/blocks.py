#!/usr/bin/env python3
"""Times frames that are populated and given back in blocks, 4,096 of them 20 times, beside another program that reads the same trace, alternating,
and prints the ratio of the medians.

usage: blocks.py PTMAC OTHER
"""
import sys

import timing

ROUNDS = 20
BLOCKS = 8
BLOCK = 512


def trace():
    lines = ["xen-pv-trace 1", "frames 4096", "domain 4096", "vcpu 0"]
    gpfns = " ".join(str(BLOCK * k) for k in range(BLOCKS))
    firsts = " ".join(str(BLOCK * k) for k in range(BLOCKS))
    for _ in range(ROUNDS):
        lines += [f"op 0 mem 6 9 {gpfns}", f"op 0 mem 1 9 {firsts}"]
    lines += [f"turn 0 {2 * ROUNDS + 1}", "end"]
    return ("\n".join(lines) + "\n").encode()


if __name__ == "__main__":
    timing.print_beside(f"{ROUNDS} times {BLOCKS * BLOCK} frames populated and given back", *sys.argv[1:3], trace())
