#!/usr/bin/env python3
"""Times `replay`, in which each vCPU has a thread of its own, beside `turns` of the same trace in one thread: with four vCPUs of four domains,
each of which pins and unpins a full L1 table of its own 8,000 times, and with one such vCPU.

usage: replays.py PTMAC

The two are run alternately, and with them two shorter traces: the same machine without operations, by both commands; and the same trace
without `turn` lines, by `turns`, which reads all operations and does none of them. For each number of vCPUs it prints the medians of both,
their ratio, and the ratio of the running parts: the time of `turns` without that of reading; and the time of `replay` without that of
reading and of making and reporting the machine, which takes longer there, since the shared words are all in memory.
"""
import sys

import timing

# a trace has at most 65,536 operations
PINS = 8_000
FRAMES = 1024
RUNS = 5


def machine(vcpus):
    """The lines of a machine in which each vCPU has a domain and frames of its own, the first of them full of entries that map the second."""
    lines = ["xen-pv-trace 1", f"frames {FRAMES * vcpus}"]
    lines += [f"domain {FRAMES}"] * vcpus
    lines += [f"vcpu {v}" for v in range(vcpus)]
    lines += [f"own {v} {FRAMES * v} {FRAMES}" for v in range(vcpus)]
    lines += [f"cell {FRAMES * v} 0 512 {(FRAMES * v + 1) * 4096 + 1}" for v in range(vcpus)]
    return lines


def operations(vcpu):
    """MMUEXT_PIN_L1_TABLE and MMUEXT_UNPIN_TABLE, in turn."""
    return [f"op {vcpu} ext {command} {FRAMES * vcpu} 0" for _ in range(PINS) for command in (0, 4)]


def text_of(lines):
    return ("\n".join(lines + ["end"]) + "\n").encode()


def compare(program, vcpus):
    bare = machine(vcpus)
    unturned = bare + [line for v in range(vcpus) for line in operations(v)]
    # one turn more stops the vCPU
    turned = unturned + [f"turn {v} {2 * PINS + 1}" for v in range(vcpus)]
    jobs = [
        ("replay", text_of(turned)), ("turns", text_of(turned)),
        ("replay", text_of(bare)), ("turns", text_of(bare)), ("turns", text_of(unturned)),
    ]
    (threads, turns, bare_threads, bare_turns, reading), reports = timing.medians(RUNS, [([program, command], data) for command, data in jobs])
    same = "the same text" if reports[0] == reports[1] else "ANOTHER TEXT"
    running, alone = threads - bare_threads - (reading - bare_turns), turns - reading
    print(
        f"vCPUs {vcpus}, {PINS} pins each: replay {1000 * threads:.1f} ms, turns {1000 * turns:.1f} ms, ratio {threads / turns:.2f}; "
        f"running parts {1000 * running:.1f} ms, {1000 * alone:.1f} ms, ratio {running / alone:.2f}; {same}"
    )


def main():
    for vcpus in (4, 1):
        compare(sys.argv[1], vcpus)


if __name__ == "__main__":
    main()
