#!/usr/bin/env python3
"""Compares the images and audits of two programs, byte by byte, on random traces: for a second opinion, and no part of the gate.

usage: compare_images.py PTMAC OTHER GENERATOR FIRST COUNT

PTMAC and OTHER are two programs with the commands `image` and `audit`. GENERATOR is a program that writes a random trace: it is called as
`GENERATOR fuzz-gen SEED --stage R11`, with PTMAC_BUILT=R11 in its environment. The two programs are called with PTMAC_BUILT=R19, which ours
does not look at. For each of COUNT seeds, from FIRST on, both make an image of the trace; then both audit it, and four damaged copies: one
byte changed, at a place that the seed chooses; cut short; one word longer; and one byte of a word changed, among the first 200 words. Status
and standard output must be the same. It prints a line for each difference, and last how many runs were the same.
"""
import os
import random
import subprocess
import sys

PACES = [[], ["--preempt", "1"], ["--preempt", "3"]]


def run(program, words, given, built="R19"):
    """The exit status and standard output of one run."""
    ended = subprocess.run([program, *words], input=given, stdout=subprocess.PIPE, stderr=subprocess.DEVNULL,
                           env=dict(os.environ, PTMAC_BUILT=built), timeout=120, check=False)
    return ended.returncode, ended.stdout


def changed(image, place, choice):
    """The image with one bit of the byte at that place the other way round."""
    copy = bytearray(image)
    copy[place] ^= 1 << choice.randrange(8)
    return bytes(copy)


def copies(image, seed):
    """The image and its damaged copies, by name."""
    choice = random.Random(seed)
    yield "image", image
    yield "changed", changed(image, choice.randrange(len(image)), choice)
    yield "cut", image[:choice.randrange(len(image))]
    yield "longer", image + bytes(8)
    yield "changed early", changed(image, choice.randrange(min(len(image), 1600)), choice)


def main():
    if len(sys.argv) != 6:
        sys.exit(__doc__)
    ours, other, generator = sys.argv[1:4]
    first, count = int(sys.argv[4]), int(sys.argv[5])
    same = different = 0
    for seed in range(first, first + count):
        trace = run(generator, ["fuzz-gen", str(seed), "--stage", "R11"], b"", "R11")[1]
        words = ["image", *PACES[seed % len(PACES)]]
        runs = [(" ".join(words), words, trace)]
        status, image = run(other, words, trace)
        if status == 0:
            runs += [(f"audit of {name}", ["audit"], data) for name, data in copies(image, seed)]
        for name, words, given in runs:
            here, there = run(ours, words, given), run(other, words, given)
            if here == there:
                same += 1
            else:
                different += 1
                print(f"seed {seed}, {name}: status {here[0]} {here[1][:80]!r}, and {there[0]} {there[1][:80]!r}")
    print(f"{same} runs the same, {different} different")
    sys.exit(1 if different else 0)


main()
