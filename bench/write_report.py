#!/usr/bin/env python3
"""How long the program takes for the answers of a report, beside a plain write of their bytes.

    python3 bench/write_report.py [PROGRAM] [--runs N]

The trace has 60,000 operations, each a list of no pairs, which takes next to no time to run. The program runs it once with turns
for all of them and once with none, so the difference is the time of the turns, of the report's answers and of their
write. A plain C program takes the same bytes from a file into memory and writes them; the time that it takes for an empty file is
taken off. They are run N times in turn, and the least times are compared. Nothing is kept afterwards.
"""
import argparse
import os
import tempfile

import timing

OPERATIONS = 60_000

C_WRITE = r"""
#include <stdio.h>
#include <stdlib.h>

int main(int count, char **words) {
    FILE *kept = count > 1 ? fopen(words[1], "rb") : NULL;
    if (!kept) return 1;
    fseek(kept, 0, SEEK_END);
    long len = ftell(kept);
    rewind(kept);
    char *bytes = malloc(len + 1);
    if (fread(bytes, 1, len, kept) != (size_t)len) return 1;
    return fwrite(bytes, 1, len, stdout) != (size_t)len;
}
"""


def write_trace(path, turns):
    operations = "op 0 mmu 0x7ff0\n" * OPERATIONS
    with open(path, "w", encoding="ascii") as out:
        out.write(f"xen-pv-trace 1\nframes 1\ndomain 1\nvcpu 0\nown 0 0 1\n{operations}turn 0 {turns}\nend\n")


def main():
    parser = argparse.ArgumentParser(description="Times the answers of a report.")
    timing.add_arguments(parser)
    arguments = parser.parse_args()
    timing.must_be_there(arguments.program)
    with tempfile.TemporaryDirectory() as folder:
        all_turns, no_turn, kept, empty = (os.path.join(folder, name) for name in ("all.trace", "none.trace", "report", "empty"))
        write_trace(all_turns, OPERATIONS + 1)
        write_trace(no_turn, 0)
        command = [arguments.program, "turns"]
        report = timing.output(command, all_turns)
        answers = report.count(b" ok done 0 value 0x0\n")
        if answers != OPERATIONS:
            raise SystemExit(f"the report has {answers} answers")
        for path, content in [(kept, report), (empty, b"")]:
            with open(path, "wb") as out:
                out.write(content)
        plain_write = timing.compiled(folder, "write", C_WRITE)
        answered, read, written, started = timing.least(
            arguments.runs, os.path.join(folder, "written"), (command, all_turns), (command, no_turn),
            ([plain_write, kept], os.devnull), ([plain_write, empty], os.devnull))
        program, plain = answered - read, written - started
        print(f"{answers} answers, {len(report)} bytes")
        print(f"answers {program * 1e3:.1f} ms ({program * 1e9 / answers:.0f} ns each), "
              f"plain write {plain * 1e3:.1f} ms, ratio {program / plain:.1f}")


if __name__ == "__main__":
    main()
