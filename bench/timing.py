"""Times of whole runs, for the other programs of this folder."""
import os
import statistics
import subprocess
import sys
import time

TOP = os.path.dirname(os.path.dirname(os.path.abspath(__file__)))
BUILT = os.path.join(TOP, "crates", "ptmac", "out", "ptmac")


def add_arguments(parser):
    parser.add_argument("program", nargs="?", default=BUILT, help="the built program, by default where `rt run` leaves it")
    parser.add_argument("--runs", type=int, default=9, help="how often each command is run")


def must_be_there(program):
    if not os.path.exists(program):
        sys.exit(f"{program} is not there; build it with: "
                 "(cd crates/ptmac && rt run -- turns < ../../examples/first-update.trace)")


def compiled(folder, name, code):
    """The path of a C program, compiled in that folder."""
    source, program = os.path.join(folder, name + ".c"), os.path.join(folder, name)
    with open(source, "w", encoding="ascii") as out:
        out.write(code)
    subprocess.run(["gcc", "-O2", "-o", program, source], check=True)
    return program


def output(command, source):
    """Standard output of one run."""
    with open(source, "rb") as stdin:
        run = subprocess.run(command, stdin=stdin, stdout=subprocess.PIPE, check=False)
    if run.returncode != 0:
        sys.exit(f"{command[0]} ended with status {run.returncode}: {run.stdout[:200]!r}")
    return run.stdout


def seconds(command, source, sink):
    """Processor time of one run, its user's and the system's part together."""
    with open(source, "rb") as stdin, open(sink, "wb") as stdout:
        process = subprocess.Popen(command, stdin=stdin, stdout=stdout)
        _, status, usage = os.wait4(process.pid, 0)
    process.returncode = os.waitstatus_to_exitcode(status)
    if process.returncode != 0:
        sys.exit(f"{command[0]} ended with status {process.returncode}")
    return usage.ru_utime + usage.ru_stime


def least(runs, sink, *jobs):
    """The least time of each job, a command and its standard input, which writes to the file `sink`. They are run in turn."""
    times = [[] for _ in jobs]
    for _ in range(runs):
        for kept, (command, source) in zip(times, jobs):
            kept.append(seconds(command, source, sink))
    return [min(kept) for kept in times]


def on_the_clock(command, data):
    """Seconds by the clock on the wall, and standard output, of one run that reads these bytes."""
    start = time.perf_counter()
    run = subprocess.run(command, input=data, stdout=subprocess.PIPE, check=True)
    return time.perf_counter() - start, run.stdout


def medians(runs, jobs):
    """The median of each job, a command and the bytes that it reads, and its text. They are run in turn."""
    times, texts = [[] for _ in jobs], [None for _ in jobs]
    for _ in range(runs):
        for number, (command, data) in enumerate(jobs):
            taken, texts[number] = on_the_clock(command, data)
            times[number].append(taken)
    return [statistics.median(kept) for kept in times], texts


def print_beside(what, ours, other, data, runs=7):
    """Times the turns of a trace by two programs, and prints the medians, their ratio, and whether the texts are the same."""
    (one, two), (text, text_too) = medians(runs, [([ours, "turns"], data), ([other, "turns"], data)])
    same = "the same text" if text == text_too else "ANOTHER TEXT"
    print(f"{what}: {1000 * one:.1f} ms, {1000 * two:.1f} ms, ratio {one / two:.2f}, {same}")


def trace_of_updates(start, update, first, updates):
    """A trace of one guest that owns all 4,096 frames: the lines `start`, then that many updates of one live L1 table, each entry in turn, each time
    to another page from `first` on, writable and read-only. `update` is the text of the k-th with this entry."""
    lines = ["xen-pv-trace 1", "frames 4096", "domain 4096", "vcpu 0", "own 0 0 4096", *start]
    lines += [update(k, (first + k % 4000) * 4096 + 1 + 2 * (k // 512 % 2)) for k in range(updates)]
    lines += [f"turn 0 {updates + 2}", "end"]
    return ("\n".join(lines) + "\n").encode()
