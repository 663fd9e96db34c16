#!/usr/bin/env python3
"""Compares the C example over the proved static library with the proved program.

    c/test.py                 builds (c/build), then compares c/out/recover with crates/recover/out/recover byte for byte: the
                              example frames, the refused ones too, the frames of compare/, every text of
                              compare/cases.py, refused ones included, generated frames, and each role with each form
                              of a pass, whose answers are known; the role lines of each result have to be the sums of
                              its pass lines, and a result with as lines what compare/reference.py answers; where
                              c/out/recover cannot read or write, it has to say so on standard error and end with
                              status 1; then runs c/out/short on accepted frames (short buffers, refused values, every
                              wrong label box, who runs which pass, each pass counted under each role)
    c/test.py --frames N      N generated frames (default 1000), --seed S from another seed
    c/test.py --built         does not build first

Fails at the first frame with another answer. crates/recover/out/recover comes from `rt run` in crates/recover. Without gcc it says so,
compares nothing and ends with status 1.
"""

import argparse
import glob
import os
import shutil
import subprocess
import sys
import tempfile

HERE = os.path.dirname(os.path.abspath(__file__))
ROOT = os.path.dirname(HERE)
sys.path.insert(0, os.path.join(ROOT, "compare"))

import cases
import generate
import reference

OURS = os.path.join(HERE, "out", "recover")
SHORT = os.path.join(HERE, "out", "short")
PROVED = os.path.join(ROOT, "crates", "recover", "out", "recover")
# 01's example without its pass; and the forms of a pass, bare grow's and bare fill's numbers among them.
ABOVE = cases.HEAD + cases.CORNERS + cases.LABELS
FORMS = ["(grow)", "(fill)", "(grow 3eb33333 3fc00000 3fa00000)", "(fill 3eb33333 3fc00000 1)", "(grow 3f000000 3fc00000 40000000)",
         "(fill 3f000000 3fc00000 2)", "(local 3eb33333 3fc00000 1 3e800000 1)"]
ROLES = ("plant", "depot", "dealer")


def roles_of(data):
    """Who runs each pass of an accepted frame: whom the last as line above it names, and the plant without one."""
    role, roles = "plant", []
    for line in data.decode("latin-1").split("\n"):
        if line.startswith("(as "):
            role = line[4:-1]
        elif line.startswith(("(grow", "(fill", "(local")):
            roles.append(role)
    return roles


def with_role_lines(text, roles):
    """02, 7/14: a result with three role lines behind its pass lines, in place of those that it has there: for each role
    the four counts of the pass lines under it, of fill's the first alone."""
    lines = text.decode("latin-1").split("\n")
    above = [line for line in lines[1:] if line.startswith(("(grow ", "(fill ", "(local ", "(unmatched "))]
    below = [line for line in lines[1:] if line not in above and not line.startswith("(role ")]
    sums = {role: [0] * 4 for role in ROLES}
    for role, line in zip(roles, [line for line in above if not line.startswith("(unmatched ")], strict=True):
        kind, *numbers = line[1:-1].split()
        for k in range(1 if kind == "fill" else 4):
            sums[role][k] += int(numbers[k])
    counted = [f"(role {role} {' '.join(map(str, sums[role]))})" for role in ROLES]
    return "\n".join(lines[:1] + above + counted + below).encode("latin-1")


class Comparison:
    def __init__(self, folder):
        self.file = os.path.join(folder, "frame")
        self.count = self.refused = 0

    def compare(self, name, data):
        """The text as a file and on standard input; the proved program reads standard input."""
        with open(self.file, "wb") as out:
            out.write(data)
        expected = subprocess.run([PROVED], input=data, capture_output=True, timeout=600)
        for how, done in (
            ("as a file", subprocess.run([OURS, self.file], stdin=subprocess.DEVNULL, capture_output=True, timeout=600)),
            ("on standard input", subprocess.run([OURS], input=data, capture_output=True, timeout=600)),
        ):
            if (done.stdout, done.stderr, done.returncode) != (expected.stdout, expected.stderr, expected.returncode):
                shutil.copy(self.file, "differs.frame")
                sys.exit(f"c/test.py: {name} {how}: {done.stdout[:200]!r} {done.stderr[:200]!r} {done.returncode}, the proved "
                         f"program says {expected.stdout[:200]!r} {expected.stderr[:200]!r} {expected.returncode} (differs.frame)")
        self.count += 1
        refused = expected.stdout.startswith(b"(refused")
        self.refused += refused
        if not refused and expected.stdout != with_role_lines(expected.stdout, roles_of(data)):
            sys.exit(f"c/test.py: {name}: the role lines are not the sums over its pass lines, or stand elsewhere: {expected.stdout[:400]!r}")
        return expected.stdout

    def compare_roles(self, frames):
        """02, 6/14 and 7/14: each role with each form of a pass, refused with 10 at its line or answered as without the as
        line, but for the role lines; accepted frames, as the model answers them, and where a role stands in the place of one
        that may run less, with other role lines alone."""
        for role in ROLES:
            for form in FORMS:
                may = role == "plant" or role == "depot" and not form.startswith("(local") or form in ("(grow)", "(fill)")
                data = cases.text(ABOVE + [f"(as {role})", form])
                said = self.compare(f"{form} run by the {role}", data)
                plain = self.compare(form, cases.text(ABOVE + [form]))
                wanted = with_role_lines(plain, [role]) if may else b"(refused 10 %d)\n" % (len(ABOVE) + 2)
                if not said == wanted == reference.result(data).encode():
                    sys.exit(f"c/test.py: {form} run by the {role}: {said[:200]!r}, but asked is {wanted[:200]!r}")
        for name, data in frames:
            said = self.compare(name, data)
            if said != reference.result(data).encode():
                sys.exit(f"c/test.py: {name}: another answer than the model's")
            for role, higher in ((b"dealer", b"depot"), (b"dealer", b"plant"), (b"depot", b"plant")):
                other = data.replace(b"\n(as %s)\n" % role, b"\n(as %s)\n" % higher)
                if self.compare(f"{name}, the {higher.decode()} for the {role.decode()}", other) != with_role_lines(said, roles_of(other)):
                    sys.exit(f"c/test.py: {name}: another answer where the {higher.decode()} stands for the {role.decode()}")

    def say(self, what):
        print(f"c/test.py: {what}: {self.count} texts, {self.refused} of them refused, all answers equal", flush=True)
        self.count = self.refused = 0


def files():
    for pattern in ("examples/*.frame", "examples/refused/*.frame", "examples/bench/*.frame", "compare/frames/*.frame", "compare/vectors/*.frame"):
        yield from sorted(glob.glob(os.path.join(ROOT, pattern)))


def faults(folder):
    """A full device and a closed descriptor for standard output, a directory and a closed descriptor for standard input."""
    path = lambda name: os.path.join(ROOT, name)
    message = b"recover: standard output cannot be written\n"
    count = 0

    def check(name, done, out, err):
        nonlocal count
        count += 1
        if (done.stdout, done.returncode) != (out, 1) or not done.stderr.startswith(err):
            sys.exit(f"c/test.py: {name}: {done.stdout!r} {done.stderr!r} {done.returncode}, but asked is {out!r}, {err!r} and status 1")

    def run(words=(), stdin=subprocess.DEVNULL, stdout=subprocess.PIPE, **more):
        return subprocess.run([OURS, *words], stdin=stdin, stdout=stdout, stderr=subprocess.PIPE, timeout=600, **more)

    # a result, a refusal, and a result that is longer than the buffers of the program and of stdio
    for frame in ("compare/frames/example.frame", "examples/refused/1-bent.frame", "examples/bench/panel-1024.frame"):
        for name in ("/dev/full", os.devnull):
            with open(name, "wb" if name == "/dev/full" else "rb") as out:
                check(f"{frame} to {name}", run([path(frame)], stdout=out), None, message)
        check(f"{frame} to a closed descriptor", run([path(frame)], stdout=None, preexec_fn=lambda: os.close(1)), None, message)
    check("a directory", run([folder]), b"", b"recover: the file cannot be read\n")
    check("no such file", run([os.path.join(folder, "none")]), b"", os.fsencode(os.path.join(folder, "none")))
    here = os.open(folder, os.O_RDONLY)
    check("a directory as standard input", run(stdin=here), b"", b"recover: standard input cannot be read\n")
    os.close(here)
    check("a closed descriptor", run(stdin=None, preexec_fn=lambda: os.close(0)), b"", b"recover: standard input cannot be read\n")
    print(f"c/test.py: failed reads and writes: {count} runs, each with status 1 and a message", flush=True)


def with_corners(data):
    return b"\n(corner " in data


def main():
    options = argparse.ArgumentParser(description=__doc__, formatter_class=argparse.RawDescriptionHelpFormatter)
    options.add_argument("--frames", type=int, default=1000)
    options.add_argument("--seed", type=int, default=1)
    options.add_argument("--built", action="store_true")
    options = options.parse_args()
    if not shutil.which("gcc"):
        sys.exit("c/test.py: there is no gcc on this machine: nothing is built and nothing compared")
    if not options.built:
        if subprocess.run([os.path.join(HERE, "build")]).returncode:
            sys.exit("c/test.py: c/build failed")
    for path, built in ((PROVED, "rt run in crates/recover"), (OURS, "c/build"), (SHORT, "c/build")):
        if not os.path.exists(path):
            sys.exit(f"c/test.py: {os.path.relpath(path, ROOT)} is missing: {built} builds it")
    accepted, roled = [], []
    with tempfile.TemporaryDirectory() as folder:
        runs = Comparison(folder)
        for path in files():
            data = open(path, "rb").read()
            name = os.path.relpath(path, ROOT)
            if not runs.compare(name, data).startswith(b"(refused"):
                accepted += [path] * with_corners(data)
                roled += [(name, data)] * (b"\n(as " in data)
        runs.say("frames of this repository")
        for name, data, _ in cases.cases():
            runs.compare(name, data)
        runs.say("compare/cases.py")
        for name, data in generate.frames(options.seed, options.frames):
            if not runs.compare(name, data).startswith(b"(refused"):
                roled += [(name, data)] * (b"\n(as " in data)
        runs.say(f"generated frames of seed {options.seed}")
        runs.compare_roles(roled)
        runs.say(f"each role with each form, and {len(roled)} frames with as lines, their roles changed")
        faults(folder)
    for path in accepted:
        done = subprocess.run([SHORT, path], capture_output=True, text=True, timeout=600)
        if done.returncode:
            sys.exit(f"c/test.py: {os.path.relpath(path, ROOT)}: {done.stdout[-2000:]}{done.stderr[-2000:]}{done.returncode}")
    print(f"c/test.py: every buffer one place short, every wrong label box, each role and its counts, on {len(accepted)} frames: {done.stdout.strip()} on the last")


if __name__ == "__main__":
    main()
