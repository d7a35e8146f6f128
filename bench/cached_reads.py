#!/usr/bin/env python3
"""Times 60,000 reads of a guest through one cached translation beside another program that reads the same traces, alternating, and prints the
ratio of the medians.

usage: cached_reads.py PTMAC OTHER
"""
import sys

import timing

READS = 60_000


def trace():
    lines = ["xen-pv-trace 1", "frames 4096", "domain 4096", "vcpu 0", "own 0 0 4096"]
    # a top table, one table of each level below it, and a page
    lines += [f"cell {table} 0 1 {(table + 1) * 4096 + 3}" for table in range(4)]
    lines += ["cell 4 0 512 7", "op 0 ext 5 0 0"]
    lines += [f"op 0 read k {8 * (k % 512)}" for k in range(READS)]
    lines += [f"turn 0 {READS + 2}", "end"]
    return ("\n".join(lines) + "\n").encode()


if __name__ == "__main__":
    timing.print_beside(f"{READS} cached reads", *sys.argv[1:3], trace())
