"""Compares the example of the Rust wrapper with the proved frame program, byte for byte.

    PYTHONPATH=compare python3 rust/compare.py EXAMPLE FRAMES

Gives both the same bytes: the cases of cases.py, FRAMES generated frames, some with many corners, and as many damaged and
random texts. Every other one the example reads from a file. Fails at the first difference, with the bytes in differs.frame.
"""

import os
import subprocess
import sys
import tempfile

import cases
import generate

PROGRAM = os.path.join(os.path.dirname(os.path.abspath(__file__)), "..", "crates", "recover", "out", "recover")


def texts(count):
    by_hand = (cases.whole(), cases.bent(), cases.overfull(), cases.wild(), cases.labels())
    by_hand += (cases.whole_shades(), cases.bent_shades(), cases.misplaced_shades(), cases.strange_shades())
    by_hand += (cases.joined_patches(), cases.unjoined_patches(), cases.strange_patches(), cases.misplaced_patches(), cases.large_patches())
    by_hand += (cases.roles(), cases.counts())
    spoilt = (cases.damaged(20, count // 2), cases.random_bytes(20, count // 2))
    for family in by_hand + spoilt:
        yield from ((name, data) for name, data, _ in family)
    yield from generate.frames(20, count)
    yield from generate.frames(21, 1 + count // 20, "dense")


def said(command, data):
    done = subprocess.run(command, input=data, stdout=subprocess.PIPE, stderr=subprocess.PIPE, timeout=600)
    return done.returncode, done.stdout, done.stderr


def main():
    example, count = sys.argv[1], int(sys.argv[2])
    compared = refused = 0
    with tempfile.NamedTemporaryFile() as file:
        for name, data in texts(count):
            command, given = [example], data
            if compared % 2:
                file.seek(0)
                file.truncate()
                file.write(data)
                file.flush()
                command, given = [example, file.name], b""
            expected = said([PROGRAM], data)
            if said(command, given) != expected:
                with open("differs.frame", "wb") as out:
                    out.write(data)
                sys.exit(f"rust/test: {name}: the example says something else than the frame program (differs.frame)")
            compared += 1
            refused += expected[1].startswith(b"(refused")
    print(f"rust/test: {compared} texts, {refused} of them refused: the example says what the frame program says")


if __name__ == "__main__":
    main()
