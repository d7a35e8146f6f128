#!/usr/bin/env python3
"""Times 60,000 entry updates of one live L1 table beside another program that reads the same traces, alternating, and prints the ratio of
the medians.

usage: entry_updates.py PTMAC OTHER
"""
import sys

import timing

UPDATES = 60_000


def trace():
    return timing.trace_of_updates(["op 0 ext 0 0 0"], lambda k, entry: f"op 0 mmu 0x7ff0 {8 * (k % 512)} {entry}", 1, UPDATES)


if __name__ == "__main__":
    timing.print_beside(f"{UPDATES} entry updates", *sys.argv[1:3], trace())
