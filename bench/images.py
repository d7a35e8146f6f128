#!/usr/bin/env python3
"""Times the image and the audit of a full machine of 4,096 frames. The audit is timed beside another program that reads the same images; an image beside a run of the same trace
that writes a report, and beside a plain copy of its bytes. Least processor times, each command in turn.

usage: images.py PTMAC OTHER
"""
import os
import sys
import tempfile

import timing

RUNS = 15
FRAMES = 4096


def trace():
    lines = ["xen-pv-trace 1", f"frames {FRAMES}", f"domain {FRAMES}", "vcpu 0", f"own 0 0 {FRAMES}"]
    lines += [f"cell {frame} 0 512 {frame}" for frame in range(FRAMES)]
    return "\n".join(lines + ["turn 0 1", "end"]) + "\n"


if __name__ == "__main__":
    ptmac, other = sys.argv[1:3]
    # (the other program may have to be told which operations it is to have)
    os.environ.setdefault("PTMAC_BUILT", "R19")
    with tempfile.TemporaryDirectory() as folder:
        source, image, sink = (os.path.join(folder, name) for name in ("trace", "image", "sink"))
        with open(source, "w", encoding="ascii") as out:
            out.write(trace())
        with open(image, "wb") as out:
            out.write(timing.output([ptmac, "image"], source))
        ours, theirs = timing.least(RUNS, sink, ([ptmac, "audit"], image), ([other, "audit"], image))
        print(f"audit: {ours / theirs:.2f} of the other program ({ours * 1e3:.1f} ms against {theirs * 1e3:.1f})")
        saved, told, copied = timing.least(RUNS, sink, ([ptmac, "image"], source), ([ptmac, "turns"], source), (["dd", "bs=1M", "status=none"], image))
        print(f"image: {(saved - told) / copied:.2f} of a plain copy of its bytes ({saved * 1e3:.1f} ms, of which the run has {told * 1e3:.1f}, against {copied * 1e3:.1f})")
