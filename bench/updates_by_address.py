#!/usr/bin/env python3
"""Times 60,000 updates by address of one live L1 table, each of which drops the translation of its page, beside another program that reads the same
trace, alternating, and prints the ratio of the medians.

usage: updates_by_address.py PTMAC OTHER
"""
import sys

import timing

UPDATES = 60_000


# a tree of four tables: frame 0 on top, and frame 3 the table of level 1
TREE = ["cell 0 0 1 0x1007", "cell 1 0 1 0x2007", "cell 2 0 1 0x3007", "op 0 ext 5 0 0"]


def trace():
    return timing.trace_of_updates(TREE, lambda k, entry: f"op 0 va {4096 * (k % 512)} {entry} 2", 4, UPDATES)


if __name__ == "__main__":
    timing.print_beside(f"{UPDATES} updates by address", *sys.argv[1:3], trace())
