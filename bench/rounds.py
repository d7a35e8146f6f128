#!/usr/bin/env python3
"""Runs random traces in rounds of one turn for each vCPU, and tells how many come to their ends: all operations are answered.

usage: rounds.py PTMAC GENERATOR FIRST LAST PACE [ROUNDS]

`GENERATOR SEED` prints a well-formed trace of its own choice by that number, as `other fuzz-gen --stage R7` with the seed behind it; its
`turn` lines are left out. Each trace is run with the most rounds that are needed, 64, 512, 4,096 and so on up to ROUNDS (131,072 where it is
not said). Printed are how many ended within each number of rounds, and the seeds of those that did not.
"""
import collections
import concurrent.futures
import shlex
import subprocess
import sys

STEPS = [64, 512, 4_096, 32_768, 131_072]


def in_rounds(trace, rounds):
    """The trace with so many rounds in place of its turns."""
    lines = [line for line in trace.split("\n") if line and not line.startswith("turn ")]
    vcpus = sum(line.startswith("vcpu ") for line in lines)
    end = lines.index("end")
    turns = [f"turn {vcpu} 1" for _ in range(rounds) for vcpu in range(vcpus)]
    return "\n".join(lines[:end] + turns + lines[end:]) + "\n"


def rounds_of(program, trace, pace, most):
    """The number of rounds within which all is answered, or None."""
    for rounds in [step for step in STEPS if step <= most]:
        words = [program, "turns"] + (["--preempt", str(pace)] if pace else [])
        run = subprocess.run(words, input=in_rounds(trace, rounds), capture_output=True, text=True, check=True)
        if not any(line.startswith("pending ") for line in run.stdout.split("\n")):
            return rounds
    return None


def main():
    program, generator = sys.argv[1], shlex.split(sys.argv[2])
    first, last, pace = (int(word) for word in sys.argv[3:6])
    most = int(sys.argv[6]) if len(sys.argv) > 6 else STEPS[-1]

    def ends(seed):
        trace = subprocess.run(generator + [str(seed)], capture_output=True, text=True, check=True).stdout
        return seed, rounds_of(program, trace, pace, most)

    ended, open_ = collections.Counter(), []
    with concurrent.futures.ThreadPoolExecutor(2) as pool:
        for seed, rounds in pool.map(ends, range(first, last + 1)):
            if rounds is None:
                open_.append(seed)
            else:
                ended[rounds] += 1
    print(f"pace {pace}, seeds {first} to {last}:", ", ".join(f"{ended[step]} within {step} rounds" for step in STEPS if ended[step]))
    print("not ended:", " ".join(map(str, open_)) or "none")


if __name__ == "__main__":
    main()
