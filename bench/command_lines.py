#!/usr/bin/env python3
"""Runs the built program with words that are no command, with words that are, and with streams that fail, and compares what stands on standard
error and standard output, and the exit status.

usage: command_lines.py PTMAC

What standard error is to say is read from `crates/ptmac/src/advice.rt`. Prints a line for each run that is not as it should be, and last
`N passed, M failed`. Some runs need a Linux system.
"""
import os
import pathlib
import re
import resource
import subprocess
import sys

ADVICE = (pathlib.Path(__file__).parent.parent / "crates/ptmac/src/advice.rt").read_text()

TRACE = b"xen-pv-trace 1\nframes 1\ndomain 1\nvcpu 0\nown 0 0 1\nop 0 mmu 0x7ff0 0x1 7\nturn 0 1\nend\n"
REPORT = (
    b"vcpu 0 domain 0 base - user - old - -\nop 1 ok done 1 value 0x0\ndomain 0 live pages 1\n"
    b"frame 0 owner 0 refs 1 alloc type none count 0 flags - at 0 m2p 0x7\nfree 0\nend\n"
)

# The trace has one vCPU, so a run in threads leaves the same report.
COMMANDS = [
    "turns", "turns --preempt 0", "turns --preempt 17", "turns --preempt=17", "turns --preempt=1000000",
    "replay", "replay --preempt 0", "replay --preempt 17", "replay --preempt=17", "replay --preempt=1000000",
]

NO_COMMANDS = [
    "", "run", "Turns", "turns turns", "--help", "-h", "help", "--version", "turns --help", "turns -h", "turns --", "-- turns",
    "turns --preempt", "turns --preempt=", "turns --preempt 01", "turns --preempt=01", "turns --preempt +1", "turns --preempt=-0",
    "turns --preempt 1000001", "turns --preempt 0x10", "turns --preempt 1 --", "turns --preempt -- 1", "turns --preempt 1 2",
    "--preempt 1 turns", "--preempt=1 turns", "turns --preempt 1 --preempt 1", "turns --preempt=1 --preempt=2",
    "turns --preempt=1 --preempt 2", "turns --pre=1", "turns --PREEMPT=1", "turns -p 1",
    "Replay", "replays", "replay x", "replay replay", "replay turns", "turns replay", "replay --help", "replay -h", "replay --",
    "-- replay", "replay --preempt", "replay --preempt=", "replay --preempt 01", "replay --preempt=01", "replay --preempt +1",
    "replay --preempt=-0", "replay --preempt 1000001", "replay --preempt 0x10", "replay --preempt 1 --", "replay --preempt -- 1",
    "replay --preempt 1 2", "--preempt 1 replay", "--preempt=1 replay", "replay --preempt 1 --preempt 1",
    "replay --preempt=1 --preempt=2", "replay --preempt=1 --preempt 2", "replay --pre=1", "replay --PREEMPT=1", "replay -p 1",
    "Image", "images", "image 1", "image image", "image --help", "image --", "image --preempt", "image --preempt 01", "image --preempt 1 2",
    "Audit", "audits", "audit -", "audit -a", "audit --help", "audit --", "audit -- a", "audit a --", "audit a b", "audit --preempt 1",
]


def advice(name):
    """The text of a constant, with the line feed that is printed behind it."""
    found = re.search(r'const %s: &str = "\\\n(.*?)";' % name, ADVICE, re.S)
    return found.group(1).encode() + b"\n"


def runs():
    """Each run: its name, words, streams and limits, and the status, output and advice that it should have."""
    for line in COMMANDS:
        yield line, line.split(), {"input": TRACE}, 0, REPORT, b""
    for line in NO_COMMANDS:
        yield repr(line), line.split(), {"input": TRACE}, 2, b"", advice("UNKNOWN_WORDS")
    yield "an empty word", [""], {"input": TRACE}, 2, b"", advice("UNKNOWN_WORDS")
    for word in [b"turns\xff", b"replay\xff"]:
        yield f"{word!r}, which is no text", [word], {"input": TRACE}, 2, b"", advice("UNKNOWN_WORDS")
    too_many = b"xen-pv-trace 1\nframes 4097\n"
    for command in ["turns", "replay", "image"]:
        yield f"{command}, no bytes", [command], {"input": b""}, 3, b"bad trace line 1: end\n", advice("BAD_TRACE")
        yield f"{command}, a bad line", [command], {"input": b"xen-pv-trace 1\nframes 0\n"}, 3, b"bad trace line 2: range\n", advice("BAD_TRACE")
        yield f"{command}, too many frames", [command], {"input": too_many}, 4, b"too large line 2: frames 4097\n", advice("TOO_LARGE")
        yield f"{command}, a folder as input", [command], {"stdin": "/"}, 5, b"", advice("READ_FAULT")
        yield f"{command}, an output that is full", [command], {"input": TRACE, "stdout": "/dev/full"}, 6, None, advice("WRITE_FAULT")
        yield f"{command}, a bad line and a full output", [command], {"input": b"", "stdout": "/dev/full"}, 6, None, advice("WRITE_FAULT")
    for words in [["audit"], ["audit", "/dev/null"]]:
        yield f"{' '.join(words)}, no bytes", words, {"input": b""}, 8, b"bad image at 0\n", advice("BAD_IMAGE")
    yield "audit, an output that is full", ["audit"], {"input": b"", "stdout": "/dev/full"}, 6, None, advice("WRITE_FAULT")
    yield "audit, a folder as input", ["audit"], {"stdin": "/"}, 5, b"", advice("READ_FAULT")
    for path in ["/", "no/such/file"]:
        yield f"audit {path}", ["audit", path], {"input": b""}, 5, b"", advice("READ_FAULT")
    yield "replay without turns", ["replay"], {"input": TRACE.replace(b"turn 0 1\n", b"")}, 0, REPORT, b""
    large = b"xen-pv-trace 1\n#" + b" " * (48 << 20) + b"\nframes 1\ndomain 1\nvcpu 0\nend\n"
    yield "little memory", ["turns"], {"input": large, "preexec_fn": little_memory}, 7, b"", advice("MEMORY")


def little_memory():
    resource.setrlimit(resource.RLIMIT_AS, (32 << 20, 32 << 20))


def run_once(program, words, streams):
    opened = {}
    if "stdin" in streams:
        opened["stdin"] = os.open(streams["stdin"], os.O_RDONLY)
    if "stdout" in streams:
        opened["stdout"] = os.open(streams["stdout"], os.O_WRONLY)
    streams = {"stdout": subprocess.PIPE, **streams, **opened}
    try:
        return subprocess.run([program, *words], stderr=subprocess.PIPE, timeout=60, **streams)
    finally:
        for number in opened.values():
            os.close(number)


def main():
    program = sys.argv[1]
    passed = failed = 0
    for name, words, streams, status, output, told in runs():
        run = run_once(program, words, streams)
        same = (run.returncode, run.stdout, run.stderr) == (status, output, told)
        passed, failed = passed + same, failed + (not same)
        if not same:
            print(f"{name}: status {run.returncode}, output {run.stdout!r}, advice {run.stderr!r}")
    print(f"{passed} passed, {failed} failed")
    sys.exit(failed > 0)


if __name__ == "__main__":
    main()
