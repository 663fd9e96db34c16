#!/usr/bin/env python3
"""Runs the frame program, crates/recover/out/recover, on many frames.

    recover.py                     every case of cases.py
    recover.py --frames N          and N generated frames (generate.py)
    recover.py --damaged N         and N damaged or random texts
    --roled SHARE                  of the generated frames have as lines

The expected answers are 01's table by hand where cases.py has them, and else
those of reference.py. Each accepted generated frame with as lines (02, 6/14) is
run again with a depot's and the plant's line in each dealer's place, and without
as lines, and the first answer is expected again but for its role lines (02,
7/14). Fails at the first frame with another answer, or if a run does not end in
time; says how long the longest took.
"""

import argparse
import os
import subprocess
import sys
import time

import cases
import generate
import reference

PROGRAM = os.path.join(os.path.dirname(os.path.abspath(__file__)), "..", "crates", "recover", "out", "recover")


class Runs:
    def __init__(self):
        self.count = self.refused = self.lines = 0
        self.longest = (0.0, "")

    def run(self, name, data, expected):
        start = time.monotonic()
        done = subprocess.run([PROGRAM], input=data, stdout=subprocess.PIPE, stderr=subprocess.PIPE, timeout=600)
        took = time.monotonic() - start
        self.longest = max(self.longest, (took, name))
        if done.stdout.decode("latin-1") != expected or done.stderr or done.returncode:
            with open("differs.frame", "wb") as out:
                out.write(data)
            sys.exit(f"recover: {name}: another answer than expected (differs.frame): {done.stdout[:200]!r}, {done.stderr[:200]!r}, expected {expected[:200]!r}")
        self.count += 1
        self.refused += expected.startswith("(refused")
        self.lines += expected.count("\n")

    def say(self, what):
        took, name = self.longest
        print(f"recover: {what}: {self.count} frames, {self.refused} refused, {self.lines} lines, all as expected; the longest took {took:.2f} s ({name})")


def main():
    options = argparse.ArgumentParser(description=__doc__, formatter_class=argparse.RawDescriptionHelpFormatter)
    options.add_argument("--frames", type=int, default=0)
    options.add_argument("--damaged", type=int, default=0)
    options.add_argument("--seed", type=int, default=1)
    options.add_argument("--roled", type=float, default=generate.ROLED)
    options = options.parse_args()
    if not os.path.exists(PROGRAM):
        sys.exit("recover.py: crates/recover/out/recover is missing: rt run in crates/recover builds it")
    runs = Runs()
    for name, data, result in cases.checked():
        runs.run(name, data, result)
    runs.say("cases")
    if options.frames:
        runs, again = Runs(), Runs()
        for name, data in generate.frames(options.seed, options.frames, roled=options.roled):
            result = reference.result(data)
            runs.run(name, data, result)
            if "roled" in name and not result.startswith("(refused"):
                for other in cases.in_place_of_roles(data):
                    expected = reference.result(other)
                    if cases.without_role_lines(expected) != cases.without_role_lines(result):
                        sys.exit(f"recover: {name}: another result of reference.py with other roles")
                    again.run(f"{name}, other roles", other, expected)
        runs.say("generated frames")
        again.say("generated frames with other roles")
    if options.damaged:
        runs = Runs()
        half = options.damaged // 2
        for family in (cases.damaged(options.seed + 1000, options.damaged - half), cases.random_bytes(options.seed + 1000, half)):
            for name, data, _ in family:
                runs.run(name, data, reference.result(data))
        runs.say("damaged and random texts")


if __name__ == "__main__":
    main()
